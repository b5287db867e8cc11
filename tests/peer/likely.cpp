// Steps that will be accepted and work towards a completion.
#include <algorithm>

#include "generate.hpp"

namespace peer {

std::vector<u64> Scene::warps(bool ready) const {
  std::vector<u64> found;
  const Tables &tables = block.tables();
  for (u64 w = 0; w < tables.warps; ++w)
    if ((tables.warp[w].status == Status::ready) == ready) found.push_back(w);
  return found;
}

namespace {

// Lane masks; full and empty ones often enough for and, or to say both.
u64 some_mask(Random &random) {
  switch (random.below(4)) {
    case 0: return 0;
    case 1: return 0xffffffff;
    case 2: return 1ull << random.below(32);
    default: return random.next() & 0xffffffff;
  }
}

// Opens a barrier, most often for as many threads as can still come.
void open(Scene &scene, Step &step, u64 ready) {
  Random &random = scene.random;
  step.kind = random.of<Kind>(
      {Kind::bar_sync_all, Kind::bar_sync, Kind::bar_arrive, Kind::bar_red_all, Kind::bar_red});
  step.barrier = random.chance(50) ? random.below(3) : random.below(last_barrier + 1);
  if (gives_threads(step.kind))
    step.threads =
        lanes * (1 + random.below(random.chance(90) ? ready : scene.block.tables().warps));
  if (!reduces(step.kind)) return;
  step.selector = random.of<u64>({0, 1, 2, 4, 5, 6});
  step.mask = some_mask(random);
}

// Whether a barrier for all threads waits for this warp alone.
bool awaited(const Tables &tables, u64 warp) {
  for (const Barrier &row : tables.barrier) {
    if (row.form == Form::idle || row.threads != 0) continue;
    bool alone = true;
    for (u64 w = 0; w < tables.warps; ++w)
      if (w != warp && tables.warp[w].status != Status::exited && row.arrived.count(w) == 0)
        alone = false;
    if (alone) return true;
  }
  return false;
}

Step barrier_step(Scene &scene, const std::vector<u64> &ready) {
  const Tables &tables = scene.block.tables();
  Random &random = scene.random;
  Step step;
  step.warp = random.of(ready);
  step.kind = Kind::exit;
  if (random.chance(awaited(tables, step.warp) ? 30 : 1)) return step;
  std::vector<u64> active;
  for (u64 b = 0; b <= last_barrier; ++b)
    if (tables.barrier[b].form != Form::idle && tables.barrier[b].arrived.count(step.warp) == 0)
      active.push_back(b);
  // Few barriers at a time, or the warps would soon wait for each other.
  if (!active.empty() && random.chance(active.size() > 1 || tables.warps > 4 ? 98 : 85))
    return joining_step(scene, step.warp, random.of(active));
  open(scene, step, ready.size());
  return step;
}

u64 some_transactions(Random &random) {
  return random.of<u64>({0, 1, 16, 64, 128, 1 + random.below(4096)});
}

// A step that brings the transaction count back to 0, or part of the way.
void settle(Random &random, Step &step, i64 balance) {
  const u64 open = u64(balance < 0 ? -balance : balance);
  step.kind = balance < 0 ? Kind::expect : Kind::complete;
  step.transactions = open == 0 || random.chance(70) ? open : random.below(open);
}

// An arrival or a drop; the whole pending count often enough to end the phase.
void arrive_some(Random &random, Step &step, const Object &row) {
  step.kind =
      random.of<Kind>({Kind::arrive, Kind::arrive, Kind::arrive_no_complete, Kind::arrive_expect,
                       Kind::arrive_expect, Kind::drop, Kind::drop_expect, Kind::drop_no_complete});
  // Few drops end a phase otherwise.
  if (row.pending == 1 && row.expected > 1 && random.chance(30))
    step.kind = random.of<Kind>({Kind::drop, Kind::drop_expect, Kind::drop_expect});
  i64 limit = row.pending;
  if (drops(step.kind)) limit = std::min(limit, row.expected - 1);
  limit = std::max<i64>(limit, 1);
  step.count = u64(limit);
  if (random.chance(60)) step.count = 1 + random.below(std::min<u64>(step.count, 3));
  step.transactions = some_transactions(random);
  // What landed early is announced with the arrival, which can end the phase then.
  if (row.balance <= 0 && random.chance(60)) step.transactions = u64(-row.balance);
}

// A test; most often of the phase before where nobody has seen it end.
void test_phase(Scene &scene, Step &step, const Object &row) {
  const std::vector<u64> &tokens = scene.tokens[step.address / 8];
  if (tokens.empty() || scene.random.chance(40)) {
    step.kind = Kind::test_parity;
    step.parity = u64(row.phase + 1) % 2;
    if (scene.random.chance(row.seen ? 50 : 15)) step.parity ^= 1;
    return;
  }
  step.kind = Kind::test_token;
  step.token = row.seen ? scene.random.of(tokens) : tokens.back();
}

Step object_step(Scene &scene, const std::vector<u64> &ready) {
  Random &random = scene.random;
  Step step;
  step.warp = random.of(ready);
  step.address = random.of(scene.addresses);
  const Object &row = scene.object(step.address);
  const u64 dice = random.below(100);
  if (!row.live) {
    step.kind = Kind::init;
    step.count = random.chance(5) ? u64(count_limit) : 1 + random.below(5);
  } else if (!row.seen && dice < 75) {
    test_phase(scene, step, row);
  } else if (row.pending == 0 && dice < 75) {
    settle(random, step, row.balance);
  } else if (dice < 50) {
    arrive_some(random, step, row);
  } else if (dice < 65) {
    settle(random, step, row.balance);
  } else if (dice < 78) {
    step.kind = random.chance(50) ? Kind::expect : Kind::complete;
    step.transactions = some_transactions(random);
  } else if (dice < 90) {
    test_phase(scene, step, row);
  } else if (dice < 98) {
    step.kind = Kind::pending_count;
    const std::vector<u64> &tokens = scene.tokens[step.address / 8];
    step.token = tokens.empty() ? random.below(token_end) : random.of(tokens);
  } else {
    step.kind = Kind::inval;
  }
  return step;
}

}  // namespace

Step joining_step(Scene &scene, u64 warp, u64 barrier) {
  const Barrier &row = scene.block.tables().barrier[barrier];
  Random &random = scene.random;
  Step step;
  step.warp = warp;
  step.barrier = barrier;
  step.threads = row.threads;
  if (row.form == Form::plain) {
    step.kind = random.chance(50) ? Kind::bar_sync : Kind::bar_arrive;
    if (row.threads == 0) step.kind = Kind::bar_sync_all;
    return step;
  }
  step.kind = row.threads == 0 ? Kind::bar_red_all : Kind::bar_red;
  step.selector = row.form == Form::popc ? 0 : row.form == Form::all_true ? 1 : 2;
  if (random.chance(50)) step.selector += 4;
  step.mask = some_mask(random);
  // Let a reduction over all lanes come out true now and then.
  if (row.form == Form::all_true && random.chance(60))
    step.mask = step.selector >= 4 ? 0 : 0xffffffff;
  return step;
}

Step likely_step(Scene &scene) {
  const std::vector<u64> ready = scene.warps(true);
  Step step;
  if (ready.empty()) return step;
  for (int tries = 0; tries < 6; ++tries) {
    const bool barrier = scene.random.chance(scene.barrier_share);
    step = as_written(barrier ? barrier_step(scene, ready) : object_step(scene, ready));
    if (scene.block.refusal(step) == 0) break;
  }
  return step;
}

}  // namespace peer
