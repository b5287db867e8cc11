// Sound tables, sentence by sentence as document 01 has them, and how full they are.
#include <algorithm>

#include "engine.hpp"

namespace peer {

namespace {

// "Warp rows above it are ready with result 0."
bool warps_sound(const Tables &t) {
  if (t.warps < 1 || t.warps > most_warps || t.object.size() != object_count) return false;
  return std::all_of(t.warp.begin() + t.warps, t.warp.end(), [](const Warp &w) {
    return w.status == Status::ready && w.barrier == 0 && w.result == 0;
  });
}

// "A warp is waiting at a barrier, 0 to 15 only, exactly when that barrier's
// waiting set has it."
bool waiting_sound(const Tables &t) {
  for (const Warp &w : t.warp)
    if (w.status == Status::waiting && w.barrier > last_barrier) return false;
  for (u64 b = 0; b <= last_barrier; ++b)
    for (u64 w = 0; w < most_warps; ++w) {
      const bool waits = t.warp[w].status == Status::waiting && t.warp[w].barrier == b;
      if (waits != (t.barrier[b].waiting.count(w) != 0)) return false;
    }
  return true;
}

// "Some warp not exited hasn't arrived."
bool some_warp_missing(const Tables &t, const Barrier &row) {
  for (u64 w = 0; w < t.warps; ++w)
    if (t.warp[w].status != Status::exited && row.arrived.count(w) == 0) return true;
  return false;
}

bool barrier_sound(const Tables &t, const Barrier &row) {
  const bool zero =
      row.threads == 0 && row.arrived.empty() && row.waiting.empty() && row.true_lanes == 0;
  if (row.form == Form::idle) return zero;
  if (row.arrived.empty() || *row.arrived.rbegin() >= t.warps) return false;
  if (!std::includes(row.arrived.begin(), row.arrived.end(), row.waiting.begin(),
                     row.waiting.end()))
    return false;
  if (row.threads % lanes != 0 || row.threads > lanes * t.warps) return false;
  const bool all_wait = row.waiting == row.arrived;
  if (row.threads != 0 && lanes * row.arrived.size() >= row.threads) return false;
  if (row.threads == 0 && !(some_warp_missing(t, row) && all_wait)) return false;
  if (row.form == Form::plain) return row.true_lanes == 0;
  return all_wait && row.true_lanes <= lanes * row.arrived.size();
}

bool object_sound(const Object &o) {
  if (!o.live)
    return o.expected == 0 && o.pending == 0 && o.balance == 0 && o.phase == 0 && !o.seen;
  return o.expected >= 1 && o.expected <= count_limit && o.pending >= 0 &&
         o.pending <= o.expected && o.balance >= -count_limit && o.balance <= count_limit &&
         o.phase >= 0 && o.phase <= last_phase && (o.phase != 0 || o.seen);
}

}  // namespace

bool sound(const Tables &t) {
  return warps_sound(t) && waiting_sound(t) &&
         std::all_of(t.barrier.begin(), t.barrier.end(),
                     [&t](const Barrier &row) { return barrier_sound(t, row); }) &&
         std::all_of(t.object.begin(), t.object.end(), object_sound);
}

u64 active_barriers(const Tables &tables) {
  return u64(std::count_if(tables.barrier.begin(), tables.barrier.end(),
                           [](const Barrier &row) { return row.form != Form::idle; }));
}

u64 live_objects(const Tables &tables) {
  return u64(std::count_if(tables.object.begin(), tables.object.end(),
                           [](const Object &row) { return row.live; }));
}

}  // namespace peer
