// What an accepted step does to the tables, and what it answers.
#include "engine.hpp"

#include <algorithm>

namespace peer {

Answer Block::take(const Step &step) {
  Answer answer;
  answer.refusal = refusal(step);
  if (answer.refusal != 0) {
    if (step.kind == Kind::exit) refused_exits_.insert(step.warp);
    return answer;
  }
  if (step.kind == Kind::exit) {
    answer = leave(step);
    last_exited_ = step.warp;
    return answer;
  }
  if (names_barrier(step.kind)) return meet(step);
  if (names_object(step.kind)) return act(step);
  // The pending count of a token.
  answer.value = step.token % (is(Fault::pending_count_wide) ? phase_unit : pending_unit);
  return answer;
}

// Named barriers.

Form Block::form_of(const Step &step) const {
  if (!reduces(step.kind)) return Form::plain;
  switch (step.selector % 4) {
    case 0: return Form::popc;
    case 1: return Form::all_true;
    default: return Form::any_true;
  }
}

u64 Block::true_lanes(const Step &step) const {
  bool complemented = step.selector >= 4;
  if (is(Fault::popc_forgets_complement) && step.selector == 4) complemented = false;
  if (is(Fault::and_forgets_complement) && step.selector == 5) complemented = false;
  if (is(Fault::or_forgets_complement) && step.selector == 6) complemented = false;
  if (is(Fault::false_lanes_counted)) complemented = !complemented;
  u64 count = 0;
  for (u64 lane = is(Fault::lanes_of_upper_half) ? lanes / 2 : 0; lane < lanes; ++lane)
    count += (step.mask >> lane & 1) != complemented;
  return count;
}

bool Block::complete(const Barrier &row) const {
  if (row.threads != 0) return lanes * row.arrived.size() == row.threads;
  for (u64 w = 0; w < tables_.warps; ++w) {
    const bool left = tables_.warp[w].status == Status::exited;
    if (is(Fault::refused_exit_counts) && refused_exits_.count(w) != 0) continue;
    const bool forgotten = is(Fault::last_exited_waited_for) && w == last_exited_;
    if (left && !forgotten && !is(Fault::all_counts_exited)) continue;
    if (row.arrived.count(w) == 0) return false;
  }
  return true;
}

u64 Block::result(const Barrier &row) const {
  const u64 warps = is(Fault::and_over_block) ? tables_.warps : row.arrived.size();
  const bool all_true = row.true_lanes == lanes * warps;
  switch (row.form) {
    case Form::popc: return row.true_lanes;
    case Form::all_true: return all_true;
    case Form::any_true: return is(Fault::or_is_and) ? all_true : row.true_lanes > 0;
    default: return 0;
  }
}

// Completes a barrier: the row becomes idle and the waiting warps go on.
Answer Block::release(u64 barrier) {
  Barrier &row = tables_.barrier[barrier];
  Answer answer;
  answer.done = true;
  answer.released = row.waiting;
  answer.value = result(row);
  for (u64 w : row.waiting) {
    Warp &warp = tables_.warp[w];
    warp.status = Status::ready;
    warp.barrier = 0;
    if (row.form != Form::plain) warp.result = answer.value;
  }
  row = Barrier{};
  return answer;
}

// An exit: a barrier for all threads may have waited for this warp alone.
Answer Block::leave(const Step &step) {
  tables_.warp[step.warp].status = Status::exited;
  if (is(Fault::exit_leaves_waiting)) return {};
  if (is(Fault::exit_lost_in_a_crowd) && active_barriers(tables_) >= 8) return {};
  for (u64 b = 0; b <= last_barrier; ++b) {
    Barrier &row = tables_.barrier[b];
    if (row.form == Form::idle || (is(Fault::exit_sees_barrier_0) && b != 0)) continue;
    if (is(Fault::exit_ends_no_reduction) && row.form != Form::plain) continue;
    if (row.threads == 0 && complete(row)) {
      Answer answer = release(b);
      if (is(Fault::exit_released)) answer.released.insert(step.warp);
      if (is(Fault::exit_without_value)) answer.value = 0;
      return answer;
    }
    if (is(Fault::exit_takes_arrival)) {
      row.arrived.erase(step.warp);
      if (row.arrived.empty()) row = Barrier{};
    }
  }
  return {};
}

// A sync, an arrive or a reduction.
Answer Block::meet(const Step &step) {
  Barrier &row = tables_.barrier[step.barrier];
  if (row.form == Form::idle) {
    row.form = form_of(step);
    row.threads = step.threads;
    complemented_[step.barrier] = step.selector >= 4;
  }
  row.arrived.insert(step.warp);
  if (step.kind != Kind::bar_arrive || is(Fault::arrive_waits)) {
    row.waiting.insert(step.warp);
    tables_.warp[step.warp].status = Status::waiting;
    tables_.warp[step.warp].barrier = step.barrier;
  }
  if (is(Fault::lanes_of_issuer)) row.true_lanes = 0;
  if (reduces(step.kind)) row.true_lanes += true_lanes(step);
  if (is(Fault::lanes_of_one_byte)) row.true_lanes %= 256;
  if (!complete(row)) return {};
  Answer answer = release(step.barrier);
  if (is(Fault::arrive_released)) answer.released.insert(step.warp);
  if (is(Fault::issuer_not_released)) answer.released.erase(step.warp);
  return answer;
}

// Objects.

// The row after the step's counts and before a phase that may end.
Object Block::moved(const Step &step) const {
  Object row = object(step);
  const i64 transactions = i64(step.transactions);
  row.balance += step.kind == Kind::complete ? -transactions : transactions;
  if (is(Fault::balance_magnitude)) row.balance = std::max(row.balance, -row.balance);
  if (!arrives(step.kind)) return row;
  const i64 count = arrival_count(step);
  if (drops(step.kind) && !is(Fault::drop_keeps_expected)) row.expected -= count;
  row.pending -= count;
  return row;
}

u64 Block::token(const Step &step, const Object &row) const {
  const u64 number = is(Fault::token_without_address) ? 0 : step.address / 8;
  if (is(Fault::drop_without_token) && drops(step.kind)) return 0;
  return u64(row.phase) * phase_unit + number * pending_unit + u64(row.pending);
}

// What a test says.
bool Block::test(const Step &step) const {
  const i64 phase = object(step).phase;
  if (step.kind == Kind::test_token) return i64(step.token / phase_unit) < phase;
  if (is(Fault::parity_reversed)) return i64(step.parity) == phase % 2;
  if (phase == 0 && step.parity == 1) return is(Fault::parity_1_in_phase_0);
  return i64(step.parity) != phase % 2;
}

Answer Block::act(const Step &step) {
  Object &row = tables_.object[step.address / 8];
  Answer answer;
  switch (step.kind) {
    case Kind::init: {
      const i64 count = i64(step.count);
      row = Object{true, count, count, 0, 0, !is(Fault::init_unseen)};
      init_count_[step.address / 8] = count;
      return answer;
    }
    case Kind::inval:
      if (is(Fault::inval_keeps_row)) row.live = false;
      else row = Object{};
      return answer;
    case Kind::test_token:
    case Kind::test_parity:
      answer.value = test(step);
      if (is(Fault::no_seen) || (answer.value == 1 && !is(Fault::yes_not_seen))) row.seen = true;
      return answer;
    default: return move(step);
  }
}

// Whether the phase ends with the row that the step made.
bool Block::ends(const Step &step, Object row) const {
  if (step.kind == Kind::expect && !is(Fault::expect_ends_phase)) return false;
  if (step.kind == Kind::complete && is(Fault::complete_ends_nothing)) return false;
  if (step.kind == Kind::complete && step.transactions == 0 && is(Fault::complete_0_ends_nothing))
    return false;
  if (attached_expect(step.kind) && is(Fault::expect_comes_last))
    row.balance -= i64(step.transactions);
  return row.pending == 0 && (row.balance == 0 || is(Fault::phase_on_pending_alone));
}

// An arrival, a drop, an expect or a complete.
Answer Block::move(const Step &step) {
  Object &row = tables_.object[step.address / 8];
  const Object next = moved(step);
  Answer answer;
  if (arrives(step.kind)) answer.value = token(step, is(Fault::token_after) ? next : row);
  row = next;
  if (!ends(step, row)) return answer;
  row.phase += 1;
  if (is(Fault::phase_of_one_byte)) row.phase %= 256;
  row.pending = is(Fault::restart_at_init) ? init_count_[step.address / 8] : row.expected;
  row.seen = is(Fault::seen_not_cleared) ||
             (is(Fault::seen_after_drop_expect) && step.kind == Kind::drop_expect);
  answer.done = !is(Fault::phase_without_done);
  return answer;
}

}  // namespace peer
