// Keeps the input that is being checked where a signal ends the process: a crash, or the end of
// the time that tests/peer/run gives it.
#pragma once

#include <string>

#include "steps.hpp"

namespace peer {

// To be called once, before the first check. Nothing else is done for each input than to note
// where it is.
void watch_signals();

// Names an input as the one being checked, for as long as this lives.
class Checked {
 public:
  Checked(const Bytes &input, const std::string &what);
  ~Checked();
  Checked(const Checked &) = delete;
  Checked &operator=(const Checked &) = delete;
};

// The file for the first difference or the input that a signal ended.
constexpr const char *kept_trace = "difference.trace";

}  // namespace peer
