// The numbers of a text: A and B of its end line, N and R of its first refused line.
#pragma once

#include <string>

#include "faults.hpp"

namespace peer {

struct Numbers {
  unsigned long accepted = 0;
  unsigned long refused = 0;
  unsigned long first_step = 0;
  unsigned long first_refusal = 0;
};

// Those that stand in the lines of a text.
Numbers numbers_in(const std::string &text, Fault fault = Fault::none);

// A text with its numbers as one line more, to be compared with another.
std::string with_numbers(const std::string &text, const Numbers &numbers);

}  // namespace peer
