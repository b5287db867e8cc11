// How often each kind was accepted and refused with each number, and how full the tables were.
#pragma once

#include <array>
#include <cstdint>

#include "engine.hpp"

namespace peer {

class Coverage {
 public:
  void note(const Report &report);

  // Prints the counts; answers whether everything that a trace can reach
  // occurred, and nothing that it can't.
  bool print() const;

 private:
  using Kinds = std::array<u64, last_kind + 1>;

  bool print_accepted() const;
  bool print_refused(int number) const;
  bool print_refused() const;
  bool print_crowd() const;

  Kinds accepted_{};
  Kinds completed_{};
  std::array<Kinds, 22> refused_{};  // by number; kind 0 is where no step was known yet
  u64 crowded_exits_ = 0;
  u64 yes_ = 0;
  u64 most_active_ = 0;
  u64 most_live_ = 0;
};

}  // namespace peer
