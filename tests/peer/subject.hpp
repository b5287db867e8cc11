// The checker under test, behind one function.
#pragma once

#include <string>

#include "steps.hpp"

namespace peer {

// The text that the checker gives for a trace, with its numbers (numbers.hpp) as it
// counts them. A call that breaks the promises of glubotar.h gives a sentence about it
// in place of the text.
std::string subject_text(const Bytes &trace);

// The same with three more calls: for the length of the text, on a buffer that just
// holds it and on one that is a byte too short.
std::string subject_text_with_limits(const Bytes &trace);

}  // namespace peer
