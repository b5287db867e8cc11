// The seeded faults of faults.def by number; 0 is no fault.
#pragma once

namespace peer {

enum class Fault {
  none,
#define FAULT(name, sentence) name,
#include "faults.def"
#undef FAULT
};

struct FaultName {
  Fault fault;
  const char *name;
  const char *sentence;
};

constexpr FaultName fault_names[] = {
#define FAULT(name, sentence) {Fault::name, #name, sentence},
#include "faults.def"
#undef FAULT
};

}  // namespace peer
