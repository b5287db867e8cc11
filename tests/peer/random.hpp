// A small source of random numbers (splitmix64) of our own, so that a seed names
// the same traces on every machine and with every library.
#pragma once

#include <cstddef>
#include <utility>
#include <vector>

#include "steps.hpp"

namespace peer {

class Random {
 public:
  // The numbers for one item of the row that a seed names.
  Random(u64 seed, u64 item) : state_(seed) {
    state_ = next() ^ item;
    state_ = next();
  }

  u64 next() {
    u64 z = state_ += 0x9e3779b97f4a7c15;
    z = (z ^ (z >> 30)) * 0xbf58476d1ce4e5b9;
    z = (z ^ (z >> 27)) * 0x94d049bb133111eb;
    return z ^ (z >> 31);
  }

  // A number below `count`, which isn't 0.
  u64 below(u64 count) { return next() % count; }

  bool chance(u64 percent) { return below(100) < percent; }

  // One of a list that isn't empty.
  template <typename T>
  T of(const std::vector<T> &list) {
    return list[std::size_t(below(list.size()))];
  }

  // The list in another order.
  template <typename T>
  std::vector<T> shuffled(std::vector<T> list) {
    for (std::size_t i = list.size(); i > 1; --i)
      std::swap(list[i - 1], list[std::size_t(below(i))]);
    return list;
  }

 private:
  u64 state_;
};

}  // namespace peer
