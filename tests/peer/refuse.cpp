// The refusal lines of a step: one test each, the lowest that applies is given.
#include <algorithm>
#include <cstdio>

#include "engine.hpp"

namespace peer {

const std::vector<Block::Line> Block::refusal_table = {
    {3, &Block::not_sound},
    {4, &Block::no_such_warp},
    {5, &Block::warp_not_ready},
    {6, &Block::no_such_barrier},
    {7, &Block::bad_threads},
    {8, &Block::bad_selector},
    {9, &Block::other_count_or_form},
    {10, &Block::already_arrived},
    {11, &Block::no_such_object},
    {12, &Block::object_dead},
    {13, &Block::object_live},
    {14, &Block::bad_count},
    {15, &Block::out_of_range},
    {16, &Block::phase_unseen},
    {17, &Block::forbidden_completion},
    {18, &Block::past_last_phase},
    {19, &Block::bad_token},
    {20, &Block::bad_parity},
};

Block::Block(u64 warps, Fault fault) : fault_(fault), lines_(refusal_table) {
  tables_.warps = warps;
  if (fault == Fault::none) return;
  // A fault in the table itself is told by its name.
  const char *name = fault_names[static_cast<int>(fault) - 1].name;
  const auto line = [this](int number) {
    return std::find_if(lines_.begin(), lines_.end(),
                        [number](const Line &l) { return l.number == number; });
  };
  int late = 0;
  int early = 0;
  if (std::sscanf(name, "without_line_%d", &early) == 1) lines_.erase(line(early));
  if (std::sscanf(name, "line_%d_before_%d", &late, &early) == 2)
    std::rotate(line(early), line(late), line(late) + 1);
}

// A later line may rely on the earlier ones not applying.
int Block::refusal(const Step &step) const {
  for (const Line &line : lines_)
    if ((this->*line.applies)(step)) return line.number;
  return 0;
}

const Object &Block::object(const Step &step) const { return tables_.object[step.address / 8]; }

bool Block::not_sound(const Step &) const { return !sound(tables_); }

bool Block::no_such_warp(const Step &step) const {
  if (is(Fault::free_pending_count) && step.kind == Kind::pending_count) return false;
  return step.warp >= tables_.warps;
}

bool Block::warp_not_ready(const Step &step) const {
  if (is(Fault::free_pending_count) && step.kind == Kind::pending_count) return false;
  return tables_.warp[step.warp].status != Status::ready;
}

bool Block::no_such_barrier(const Step &step) const {
  const u64 last = is(Fault::last_barrier_refused) ? last_barrier - 1 : last_barrier;
  return names_barrier(step.kind) && step.barrier > last;
}

bool Block::bad_threads(const Step &step) const {
  if (!gives_threads(step.kind)) return false;
  u64 warps = is(Fault::threads_to_1024) ? most_warps : tables_.warps;
  if (is(Fault::threads_by_warps_left))
    warps = std::count_if(tables_.warp.begin(), tables_.warp.begin() + tables_.warps,
                          [](const Warp &w) { return w.status != Status::exited; });
  const u64 unit = is(Fault::threads_by_sixteen) ? 16 : lanes;
  return step.threads == 0 || step.threads % unit != 0 || step.threads > lanes * warps;
}

bool Block::bad_selector(const Step &step) const {
  static const std::set<u64> known = {0, 1, 2, 4, 5, 6};
  return reduces(step.kind) && known.count(step.selector) == 0;
}

bool Block::other_count_or_form(const Step &step) const {
  if (!names_barrier(step.kind)) return false;
  const Barrier &row = tables_.barrier[step.barrier];
  if (row.form == Form::idle) return false;
  if (is(Fault::complement_is_form) && reduces(step.kind) &&
      complemented_[step.barrier] != (step.selector >= 4))
    return true;
  const auto same = [this](u64 threads) {
    return is(Fault::all_is_full_count) && threads == 0 ? lanes * tables_.warps : threads;
  };
  const bool reduced = row.form != Form::plain && reduces(step.kind);
  if (is(Fault::reductions_alike) && reduced) return row.threads != step.threads;
  return same(row.threads) != same(step.threads) || row.form != form_of(step);
}

bool Block::already_arrived(const Step &step) const {
  return names_barrier(step.kind) && tables_.barrier[step.barrier].arrived.count(step.warp) != 0;
}

bool Block::no_such_object(const Step &step) const {
  if (!names_object(step.kind)) return false;
  const u64 unit = is(Fault::address_by_four) ? 4 : 8;
  const u64 last = is(Fault::last_address_refused) ? last_address - 8 : last_address;
  return step.address % unit != 0 || step.address > last;
}

bool Block::object_dead(const Step &step) const {
  return names_object(step.kind) && step.kind != Kind::init && !object(step).live;
}

bool Block::object_live(const Step &step) const {
  return step.kind == Kind::init && object(step).live;
}

bool Block::bad_count(const Step &step) const {
  if (step.kind == Kind::init) {
    const i64 limit = count_limit + is(Fault::init_limit_long) - is(Fault::init_limit_short);
    return step.count < 1 || i64(step.count) > limit;
  }
  if (!arrives(step.kind)) return false;
  if (is(Fault::attached_not_counted) && attached_expect(step.kind)) return false;
  const Object &row = object(step);
  const i64 count = arrival_count(step);
  const bool any = is(Fault::drop_above_pending) && drops(step.kind);
  if (count == 0 || (count > row.pending && !any)) return true;
  return drops(step.kind) && count >= row.expected + is(Fault::drop_to_nothing);
}

bool Block::out_of_range(const Step &step) const {
  if (!attached_expect(step.kind) && step.kind != Kind::expect && step.kind != Kind::complete)
    return false;
  if (is(Fault::operand_judged) && i64(step.transactions) > count_limit) return true;
  const i64 limit = count_limit - is(Fault::balance_limit_short);
  const i64 balance = moved(step).balance;
  const i64 lowest = -limit - is(Fault::balance_limit_low);
  return balance > limit || balance < (is(Fault::balance_unsigned) ? 0 : lowest);
}

bool Block::phase_unseen(const Step &step) const {
  const bool judged =
      arrives(step.kind) || (is(Fault::completion_needs_seen) && step.kind == Kind::complete);
  if (is(Fault::drop_before_seen) && drops(step.kind)) return false;
  return judged && !object(step).seen;
}

bool Block::forbidden_completion(const Step &step) const {
  if (!no_complete(step.kind)) return false;
  if (is(Fault::no_complete_by_pending)) return moved(step).pending == 0;
  return ends(step, moved(step));
}

bool Block::past_last_phase(const Step &step) const {
  return (arrives(step.kind) || step.kind == Kind::complete) && ends(step, moved(step)) &&
         object(step).phase == last_phase;
}

bool Block::bad_token(const Step &step) const {
  const u64 end = token_end - is(Fault::token_limit_short);
  if (step.kind == Kind::pending_count) {
    if (is(Fault::large_token_by_bit)) return (step.token & token_end) != 0;
    return step.token >= end && !is(Fault::large_token_counted);
  }
  if (step.kind != Kind::test_token) return false;
  const Object &row = object(step);
  u64 number = step.token / pending_unit % object_count;
  i64 phase = i64(step.token / phase_unit);
  const i64 pending = i64(step.token % pending_unit);
  if (step.token >= end) return true;
  if (is(Fault::token_of_object_32_off) && number % 32 == step.address / 8 % 32)
    number = step.address / 8;
  if (is(Fault::token_phase_by_half)) phase %= 65536;
  if (number != step.address / 8 && !is(Fault::token_of_other_object)) return true;
  if (is(Fault::token_pending_judged) && (pending < 1 || pending > row.expected)) return true;
  if (is(Fault::token_of_older_phase) && phase < row.phase) return false;
  if (is(Fault::token_phase_wraps) && row.phase == 0 && phase == last_phase) return false;
  return phase != row.phase && phase != row.phase - 1;
}

bool Block::bad_parity(const Step &step) const {
  return step.kind == Kind::test_parity && step.parity > 1;
}

}  // namespace peer
