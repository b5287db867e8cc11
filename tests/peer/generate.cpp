// Whole traces: the number of warps, a row of steps, and an end.
#include "generate.hpp"

namespace peer {

namespace {

using Numbers = std::vector<u64>;

Scene scene_for(Random random, u64 warps) {
  Scene scene{random, Block(warps), {}, {}, 0};
  scene.barrier_share = scene.random.of(Numbers{10, 50, 50, 90});
  const u64 count = 1 + scene.random.below(3);
  for (u64 i = 0; i < count; ++i)
    scene.addresses.push_back(8 *
                              scene.random.of(Numbers{0, 2, 63, scene.random.below(object_count)}));
  return scene;
}

// Damages the end of a trace: a cut step, a lone kind, an unknown kind.
void damage(Scene &scene, Bytes &trace) {
  Random &random = scene.random;
  switch (random.below(3)) {
    case 0: {
      const std::size_t start = trace.size();
      add(scene, edge_step(scene), trace);
      trace.resize(start + 1 + random.below(trace.size() - start - 1));
      return;
    }
    case 1: trace.push_back(u8(1 + random.below(last_kind))); return;
    default:
      trace.push_back(u8(random.of(Numbers{0, last_kind + 1, 0x80, 0xff, 20 + random.below(236)})));
      for (u64 i = random.below(14); i > 0; --i) trace.push_back(u8(random.next()));
  }
}

// A trace of exactly this many bytes. Its one warp never has to wait.
Bytes long_trace(Random random, std::size_t length) {
  Scene scene = scene_for(random, 1);
  Bytes trace{1};
  while (trace.size() + 16 < length) {
    const Step step = likely_step(scene);
    if (step.kind != Kind::exit) add(scene, step, trace);
  }
  // Exits have two bytes and a sync for all has three: they fill any gap.
  Step filler;
  filler.kind = Kind::bar_sync_all;
  if ((length - trace.size()) % 2 != 0) add(scene, filler, trace);
  filler.kind = Kind::exit;
  while (trace.size() < length) add(scene, filler, trace);
  return trace;
}

// As many steps as a trace can have: exits, all but the first refused. The last byte is cut.
Bytes trace_of_exits() {
  Bytes trace{1};
  while (trace.size() + 2 <= longest_trace) write(Step{}, trace);
  trace.push_back(u8(Kind::exit));
  return trace;
}

// The longest text that a trace can have: one warp that completes a barrier at each step.
Bytes trace_of_syncs() {
  Bytes trace{1};
  Step step;
  step.kind = Kind::bar_sync_all;
  while (trace.size() + 3 <= longest_trace) write(step, trace);
  return trace;
}

// One object through thousands of phases, so that tokens grow wide.
Bytes trace_of_phases(Random random) {
  Scene scene = scene_for(random, 1);
  Bytes trace{1};
  Step init, arrival, test;
  init.kind = Kind::init;
  arrival.kind = Kind::arrive;
  init.address = arrival.address = test.address = scene.addresses[0];
  init.count = arrival.count = 1;
  add(scene, init, trace);
  while (trace.size() + 20 <= longest_trace) {
    add(scene, arrival, trace);
    test.kind = scene.random.chance(20) ? Kind::test_token : Kind::test_parity;
    test.token = scene.tokens[test.address / 8].back();
    test.parity = u64(scene.object(test.address).phase + 1) % 2;
    add(scene, as_written(test), trace);
  }
  return trace;
}

}  // namespace

void add(Scene &scene, const Step &step, Bytes &trace) {
  const Answer answer = scene.block.take(step);
  if (answer.refusal == 0 && arrives(step.kind)) {
    Numbers &tokens = scene.tokens[step.address / 8];
    tokens.push_back(answer.value);
    if (tokens.size() > 4) tokens.erase(tokens.begin());
  }
  write(step, trace);
}

void add_steps(Scene &scene, u64 count, Bytes &trace) {
  const u64 edges = scene.random.of(Numbers{0, 15, 30});
  for (u64 i = 0; i < count; ++i) {
    if (scene.warps(true).empty() && scene.random.chance(50)) return;
    add(scene, scene.random.chance(edges) ? edge_step(scene) : likely_step(scene), trace);
  }
}

Bytes generated_trace(u64 seed, u64 number) {
  Random random(seed, number);
  // The longest ones take most of the time, so they are few.
  switch (number % 2000) {
    case 494: return trace_of_exits();
    case 495: return trace_of_phases(random);
    case 496: return trace_of_syncs();
    default: break;
  }
  switch (number % 500) {
    case 497: return {};
    case 498: return long_trace(random, longest_trace);
    case 499: return long_trace(random, longest_trace + 1);
    default: break;
  }
  if (number % 50 == 10) return crowded_trace(random);
  if (random.chance(2)) {
    Bytes refused{u8(random.of(Numbers{0, 33, 64, 255, 33 + random.below(223)}))};
    for (u64 i = random.below(8); i > 0; --i) refused.push_back(u8(random.next()));
    return refused;
  }
  const u64 warps = random.of(Numbers{1, 2, 2, 3, 4, 8, 31, 32, 1 + random.below(32)});
  u64 steps = random.below(50);
  steps += random.below(4 * warps + 1);
  if (random.chance(5)) steps += random.below(400);
  Bytes trace{u8(warps)};
  Scene scene = scene_for(random, warps);
  add_steps(scene, steps, trace);
  if (scene.random.chance(25)) damage(scene, trace);
  return trace;
}

Bytes random_input(u64 seed, u64 number) {
  Random random(seed, number);
  Bytes input;
  const u64 length = random.below(64);
  const bool any = random.chance(20);
  if (!any) input.push_back(u8(1 + random.below(4)));
  while (input.size() < length) {
    if (any) {
      input.push_back(u8(random.next()));
      continue;
    }
    // Small numbers in most places, so that some bodies make sense.
    const u64 kind = 1 + random.below(last_kind + random.chance(5));
    input.push_back(u8(kind));
    for (const Part &part : shape(u8(kind)).body) {
      const u64 limit = random.chance(85) ? 4 : 256;
      for (unsigned i = 0; i < part.width; ++i)
        input.push_back(u8(i == 0 || limit > 4 ? random.below(limit) : 0));
    }
  }
  input.resize(std::size_t(length));
  return input;
}

}  // namespace peer
