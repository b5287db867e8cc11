// Traces to try: mostly of steps that are accepted and complete something, with
// edges of every refusal line in between. The engine runs alongside, so that the
// generator knows the tables and the tokens that were really answered.
#pragma once

#include <array>
#include <cstdint>
#include <vector>

#include "engine.hpp"
#include "random.hpp"

namespace peer {

// The trace with this number in the row that a seed names.
Bytes generated_trace(u64 seed, u64 number);

// A short input without a plan: any bytes, or known kinds with any bodies.
Bytes random_input(u64 seed, u64 number);

// What the next step of a trace is chosen from.
struct Scene {
  Random random;
  Block block;
  std::vector<u64> addresses;                         // that the trace is about
  std::array<std::vector<u64>, object_count> tokens;  // answered, per object
  u64 barrier_share = 0;                              // percent of the steps

  const Object &object(u64 address) const { return block.tables().object[address / 8]; }

  // The warps that are ready, and those of the block that aren't.
  std::vector<u64> warps(bool ready) const;
};

// Takes the step, keeps the token that it answers, and writes it down.
void add(Scene &scene, const Step &step, Bytes &trace);

// Adds steps; stops early once every warp waits or has exited.
void add_steps(Scene &scene, u64 count, Bytes &trace);

// A trace of many warps with full tables.
Bytes crowded_trace(Random random);

// A step that the block accepts, where one is found within a few tries.
Step likely_step(Scene &scene);

// A step by which a warp joins an active barrier with its own count and form.
Step joining_step(Scene &scene, u64 warp, u64 barrier);

// A step at or one past a limit of some refusal line.
Step edge_step(Scene &scene);

}  // namespace peer
