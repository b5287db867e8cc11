// Steps at a limit of a refusal line and one past it.
#include "generate.hpp"

namespace peer {

namespace {

using Numbers = std::vector<u64>;

Kind any_kind(Random &random) { return static_cast<Kind>(1 + random.below(last_kind)); }

// A step of a kind with mild values in every field that a kind may have.
Step mild(Scene &scene, Kind kind) {
  Random &random = scene.random;
  const Numbers ready = scene.warps(true);
  Step step;
  step.kind = kind;
  step.warp = ready.empty() ? 0 : random.of(ready);
  step.barrier = random.below(last_barrier + 1);
  step.selector = random.of(Numbers{0, 1, 2, 4, 5, 6});
  step.threads = lanes * (1 + random.below(scene.block.tables().warps));
  step.mask = random.next() & 0xffffffff;
  step.address = random.of(scene.addresses);
  step.count = 1;
  step.transactions = random.below(100);
  const Numbers &tokens = scene.tokens[step.address / 8];
  step.token = tokens.empty() ? step.address / 8 * pending_unit : random.of(tokens);
  step.parity = random.below(2);
  return step;
}

Kind counted_kind(Random &random) {
  return random.of<Kind>({Kind::bar_sync, Kind::bar_arrive, Kind::bar_red});
}

Kind object_kind(Random &random) {
  const Kind kind = static_cast<Kind>(7 + random.below(last_kind - 6));
  return kind == Kind::pending_count ? Kind::inval : kind;
}

Kind arrival_kind(Random &random) {
  return random.of<Kind>({Kind::arrive, Kind::arrive_no_complete, Kind::arrive_expect, Kind::drop,
                          Kind::drop_no_complete, Kind::drop_expect});
}

// Line 7, on both sides of each limit.
Step threads_edge(Scene &scene) {
  Step step = mild(scene, counted_kind(scene.random));
  const u64 all = lanes * scene.block.tables().warps;
  step.threads = scene.random.of(Numbers{0, 1, 16, 31, 32, 33, 48, all - 32, all - 16, all - 1, all,
                                         all + 1, all + 32, 1024, 1056, 65504, 65535});
  return step;
}

// The same barrier for a count in place of all, and the other way round.
void swap_all(Step &step, u64 all) {
  step.threads = all;
  switch (step.kind) {
    case Kind::bar_sync_all: step.kind = Kind::bar_sync; return;
    case Kind::bar_red_all: step.kind = Kind::bar_red; return;
    case Kind::bar_red: step.kind = Kind::bar_red_all; return;
    default: step.kind = Kind::bar_sync_all; return;
  }
}

// Lines 9 and 10: an active barrier joined as it should be, or nearly so, by a
// warp that may have arrived there already.
Step active_edge(Scene &scene) {
  Random &random = scene.random;
  const Tables &tables = scene.block.tables();
  const u64 all = lanes * tables.warps;
  Step step = mild(scene, Kind::bar_sync_all);
  Numbers active;
  for (u64 b = 0; b <= last_barrier; ++b)
    if (tables.barrier[b].form != Form::idle) active.push_back(b);
  if (active.empty()) return step;
  const u64 barrier = random.of(active);
  const Barrier &row = tables.barrier[barrier];
  Numbers again;
  for (u64 w : row.arrived)
    if (tables.warp[w].status == Status::ready) again.push_back(w);
  const bool second = !again.empty() && random.chance(70);
  step = joining_step(scene, second ? random.of(again) : step.warp, barrier);
  switch (random.below(5)) {
    case 0: step.threads = random.of(Numbers{row.threads + lanes, row.threads - lanes, all}); break;
    case 1: swap_all(step, all); break;
    case 2: step.selector = random.below(7); break;
    case 3: step.kind = static_cast<Kind>(2 + random.below(5)); break;
    default: break;
  }
  return step;
}

Step address_edge(Scene &scene) {
  Step step = mild(scene, object_kind(scene.random));
  step.address = scene.random.of(
      Numbers{0, 1, 4, 7, 496, 500, 503, 504, 505, 508, 511, 512, 520, 65528, 65535});
  return step;
}

// Lines 12 and 13 on any object.
Step live_edge(Scene &scene) {
  Step step = mild(scene, object_kind(scene.random));
  if (scene.random.chance(50)) step.address = 8 * scene.random.below(object_count);
  step.count = scene.random.of(Numbers{0, 1, 2, u64(count_limit) + 1});
  return step;
}

Step count_edge(Scene &scene) {
  Random &random = scene.random;
  const u64 limit = u64(count_limit);
  Step step = mild(scene, random.chance(30) ? Kind::init : arrival_kind(random));
  const Object &row = scene.object(step.address);
  const u64 pending = u64(row.pending);
  const u64 expected = u64(row.expected);
  step.count =
      random.of(step.kind == Kind::init
                    ? Numbers{0, 1, limit - 1, limit, limit + 1, 0xffffffff}
                    : Numbers{0, pending, pending + 1, expected, expected + 1, 0xffffffff});
  if (step.kind == Kind::init && random.chance(50)) step.address = 8 * random.below(object_count);
  return step;
}

// Line 15: the transaction count taken to the end of its range, and past it.
Step balance_edge(Scene &scene) {
  Random &random = scene.random;
  Step step =
      mild(scene,
           random.of<Kind>({Kind::arrive_expect, Kind::drop_expect, Kind::expect, Kind::complete}));
  const i64 balance = scene.object(step.address).balance;
  const i64 room = count_limit + (step.kind == Kind::complete ? balance : -balance);
  step.transactions = u64(room) + random.below(2);
  if (random.chance(10)) step.transactions = 0xffffffff;
  return step;
}

// Lines 16 and 17: the whole pending count at once, where a phase is unseen or somebody has
// arrived. Where nobody has, as in every unseen phase, a drop of all is refused for its count, so
// it leaves one.
Step phase_edge(Scene &scene) {
  Random &random = scene.random;
  const Kind drop = random.of<Kind>({Kind::drop, Kind::drop_no_complete});
  Step step = mild(scene, random.chance(50) ? arrival_kind(random) : drop);
  Numbers addresses;
  for (u64 address : scene.addresses) {
    const Object &row = scene.object(address);
    if (row.live && (!row.seen || row.pending < row.expected)) addresses.push_back(address);
  }
  if (!addresses.empty()) step.address = random.of(addresses);
  const Object &row = scene.object(step.address);
  step.count = u64(row.pending);
  const bool whole = row.live && row.pending == row.expected;
  if (drops(step.kind) && whole && random.chance(80)) --step.count;
  if (random.chance(50)) step.transactions = 0;
  return step;
}

// Line 19: tokens of other phases, objects and sizes, also by a single bit.
Step token_edge(Scene &scene) {
  Random &random = scene.random;
  Step step = mild(scene, random.chance(35) ? Kind::pending_count : Kind::test_token);
  const u64 phase = u64(scene.object(step.address).phase);
  const u64 other = random.of(Numbers{phase, phase, phase + 1, phase - 1, phase - 2,
                                      phase ^ 1ull << random.below(32), u64(last_phase)});
  u64 number = step.address / 8;
  if (random.chance(20)) number = random.below(object_count);
  else if (random.chance(20)) number ^= 1ull << random.below(6);
  step.token =
      (other & u64(last_phase)) * phase_unit + number * pending_unit + random.below(pending_unit);
  if (random.chance(20)) step.token = random.of(Numbers{token_end - 1, token_end, ~0ull, 0});
  if (random.chance(10)) step.token |= token_end << random.below(6);
  return step;
}

// A step that would often be accepted, but for one bit of its body: a checker that overlooks a bit
// of a field takes it.
Step bit_edge(Scene &scene) {
  Random &random = scene.random;
  // tokens have most bits
  Step step = mild(scene, random.chance(40) ? Kind::test_token : any_kind(random));
  const std::vector<Part> &body = shape(u8(step.kind)).body;
  u64 bits = 0;
  for (const Part &part : body) bits += 8 * part.width;
  u64 bit = random.below(bits);
  for (const Part &part : body) {
    if (bit < 8 * part.width) {
      step.*part.field ^= 1ull << bit;
      break;
    }
    bit -= 8 * part.width;
  }
  return step;
}

// One more thing wrong, so that several lines apply at once.
void worsen(Scene &scene, Step &step) {
  Random &random = scene.random;
  const Numbers busy = scene.warps(false);
  switch (random.below(9)) {
    case 0: step.warp = scene.block.tables().warps; return;
    case 1:
      if (!busy.empty()) step.warp = random.of(busy);
      return;
    case 2: step.barrier = last_barrier + 1; return;
    case 3: step.threads += 1; return;
    case 4: step.selector = 3; return;
    case 5: step.address += 4; return;
    case 6: step.count = 0; return;
    case 7: step.transactions = 0xffffffff; return;
    default:
      step.parity = 2;
      step.token |= token_end;
      return;
  }
}

Step plain_edge(Scene &scene) {
  Random &random = scene.random;
  const u64 warps = scene.block.tables().warps;
  switch (random.below(20)) {
    case 0: {
      Step step = mild(scene, any_kind(random));
      step.warp = random.of(Numbers{warps - 1, warps, warps + 1, 31, 32, 255});
      return step;
    }
    case 1: {
      Step step = mild(scene, any_kind(random));
      const Numbers busy = scene.warps(false);
      if (!busy.empty()) step.warp = random.of(busy);
      return step;
    }
    case 2: {
      Step step = mild(scene, static_cast<Kind>(2 + random.below(5)));
      step.barrier = random.of(Numbers{15, 16, 17, 128, 255});
      return step;
    }
    case 3: {
      Step step = mild(scene, random.chance(50) ? Kind::bar_red : Kind::bar_red_all);
      step.selector = random.of(Numbers{3, 7, 8, 12, 128, 255});
      return step;
    }
    case 4: {
      Step step = mild(scene, Kind::test_parity);
      step.parity = random.of(Numbers{0, 1, 2, 3, 128, 255});
      return step;
    }
    case 5: return threads_edge(scene);
    case 6: return active_edge(scene);
    case 7: return address_edge(scene);
    case 8: return live_edge(scene);
    case 9: return count_edge(scene);
    case 10: return balance_edge(scene);
    case 11: return token_edge(scene);
    // The others more often, since few get as far as their line or have the bit that matters.
    case 12:
    case 13:
    case 14: return phase_edge(scene);
    default: return bit_edge(scene);
  }
}

}  // namespace

Step edge_step(Scene &scene) {
  Step step = plain_edge(scene);
  if (scene.random.chance(20)) worsen(scene, step);
  return as_written(step);
}

}  // namespace peer
