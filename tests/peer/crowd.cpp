// Traces with full tables: most barriers active, many objects live, and exits among them. Steps
// that work towards completions alone never get there.
#include <algorithm>

#include "generate.hpp"

namespace peer {

namespace {

using Numbers = std::vector<u64>;

Numbers first_numbers(u64 count) {
  Numbers numbers;
  for (u64 i = 0; i < count; ++i) numbers.push_back(i);
  return numbers;
}

Scene crowded_scene(Random random) {
  const u64 warps = 17 + random.below(most_warps - 16);
  const u64 objects = random.chance(50) ? object_count : 8 + random.below(object_count - 8);
  Scene scene{random, Block(warps), {}, {}, 0};
  Numbers numbers = scene.random.shuffled(first_numbers(object_count));
  numbers.resize(std::size_t(objects));
  for (u64 number : numbers) scene.addresses.push_back(8 * number);
  return scene;
}

void add_inits(Scene &scene, Bytes &trace) {
  for (u64 address : scene.addresses) {
    Step step;
    step.kind = Kind::init;
    step.warp = scene.random.of(scene.warps(true));
    step.address = address;
    step.count = 1 + scene.random.below(4);
    add(scene, step, trace);
  }
}

// Opens a barrier for more threads than come with it, so that it stays active. The last ready
// warps don't wait.
void add_opening(Scene &scene, u64 barrier, bool arrive_only, Bytes &trace) {
  Random &random = scene.random;
  const Numbers ready = scene.warps(true);
  Step step;
  step.kind = random.of<Kind>(
      {Kind::bar_sync_all, Kind::bar_sync, Kind::bar_arrive, Kind::bar_red_all, Kind::bar_red});
  if (arrive_only || ready.size() <= 3) step.kind = Kind::bar_arrive;
  step.warp = random.of(ready);
  step.barrier = barrier;
  step.threads = lanes * (2 + random.below(scene.block.tables().warps - 1));
  step.selector = random.of<u64>({0, 1, 2, 4, 5, 6});
  step.mask = random.next() & 0xffffffff;
  add(scene, as_written(step), trace);
}

// All ready warps but a few meet at a barrier for all threads. The few exit, which completes it.
void add_meeting(Scene &scene, u64 barrier, Bytes &trace) {
  Random &random = scene.random;
  const Numbers ready = random.shuffled(scene.warps(true));
  const std::size_t leave = std::size_t(1 + random.below(3));
  Step opening;
  opening.kind = random.chance(50) ? Kind::bar_sync_all : Kind::bar_red_all;
  opening.warp = ready[0];
  opening.barrier = barrier;
  opening.selector = random.of<u64>({0, 1, 2, 4, 5, 6});
  opening.mask = random.next() & 0xffffffff;
  add(scene, as_written(opening), trace);
  for (std::size_t i = 1; i < ready.size(); ++i) {
    Step step;
    step.warp = ready[i];
    if (i + leave < ready.size()) step = joining_step(scene, ready[i], barrier);
    add(scene, as_written(step), trace);
    if (random.chance(20)) add(scene, likely_step(scene), trace);
  }
}

}  // namespace

Bytes crowded_trace(Random random) {
  Scene scene = crowded_scene(random);
  Bytes trace{u8(scene.block.tables().warps)};
  const bool meets = scene.random.chance(50);
  const bool early = scene.random.chance(50);
  Numbers barriers = scene.random.shuffled(first_numbers(last_barrier + 1));
  if (early) add_inits(scene, trace);
  // One is left for the meeting, and now and then some more.
  const u64 meeting = barriers.back();
  if (meets || scene.random.chance(50)) barriers.resize(15 - scene.random.below(4));
  for (u64 barrier : barriers) add_opening(scene, barrier, meets, trace);
  if (!early) add_inits(scene, trace);
  if (meets) add_meeting(scene, meeting, trace);
  scene.barrier_share = 50;
  add_steps(scene, scene.random.below(100), trace);
  return trace;
}

}  // namespace peer
