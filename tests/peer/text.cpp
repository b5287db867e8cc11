// The bytes of a trace, and the text that is printed for it.
#include <algorithm>
#include <cstdio>

#include "engine.hpp"

namespace peer {

const Shape &shape(u8 kind) {
  static const Part warp{&Step::warp, 1}, barrier{&Step::barrier, 1}, selector{&Step::selector, 1},
      threads{&Step::threads, 2}, address{&Step::address, 2}, count{&Step::count, 4},
      transactions{&Step::transactions, 4}, mask{&Step::mask, 4}, token{&Step::token, 8},
      parity{&Step::parity, 1};
  static const Shape shapes[last_kind + 1] = {
      {"unknown", {}},
      {"exit", {warp}},
      {"sync, all", {warp, barrier}},
      {"sync", {warp, barrier, threads}},
      {"arrive at a barrier", {warp, barrier, threads}},
      {"red, all", {warp, barrier, selector, mask}},
      {"red", {warp, barrier, selector, threads, mask}},
      {"init", {warp, address, count}},
      {"inval", {warp, address}},
      {"arrive", {warp, address, count}},
      {"arrive noComplete", {warp, address, count}},
      {"arrive with expect", {warp, address, transactions}},
      {"drop", {warp, address, count}},
      {"drop with expect", {warp, address, transactions}},
      {"expect", {warp, address, transactions}},
      {"complete", {warp, address, transactions}},
      {"test by token", {warp, address, token}},
      {"test by parity", {warp, address, parity}},
      {"pending count", {warp, token}},
      {"drop noComplete", {warp, address, count}},
  };
  return shapes[kind <= last_kind ? kind : 0];
}

Step as_written(const Step &step) {
  Step written;
  written.kind = step.kind;
  for (const Part &part : shape(u8(step.kind)).body)
    written.*part.field = step.*part.field & (~0ull >> (64 - 8 * part.width));
  return written;
}

void write(const Step &step, Bytes &trace) {
  trace.push_back(u8(step.kind));
  for (const Part &part : shape(u8(step.kind)).body)
    for (unsigned i = 0; i < part.width; ++i) trace.push_back(u8(step.*part.field >> (8 * i)));
}

namespace {

// What a fault in reading leaves of the fields.
void lose_bits(Step &step, Fault fault) {
  switch (fault) {
    case Fault::warp_of_five_bits: step.warp %= 32; return;
    case Fault::barrier_of_four_bits: step.barrier %= 16; return;
    case Fault::selector_of_three_bits: step.selector %= 8; return;
    case Fault::threads_of_one_byte: step.threads %= 1 << 8; return;
    case Fault::address_of_nine_bits: step.address %= 512; return;
    case Fault::count_of_three_bytes: step.count %= 1 << 24; return;
    case Fault::transactions_of_three_bytes: step.transactions %= 1 << 24; return;
    case Fault::token_of_four_bytes: step.token %= 1ull << 32; return;
    default: return;
  }
}

// Reads the step at the place and moves the place behind it, or answers 1 or 2.
int read(const Bytes &trace, std::size_t &place, Step &step, Fault fault) {
  if (place == trace.size()) return 2;
  const std::vector<Part> &parts = shape(trace[place]).body;
  if (parts.empty()) return 1;
  std::size_t length = 1;
  for (const Part &part : parts) length += part.width;
  if (trace.size() - place < length) return fault == Fault::cut_is_unknown ? 1 : 2;
  step.kind = static_cast<Kind>(trace[place++]);
  for (const Part &part : parts)
    for (unsigned i = 0; i < part.width; ++i) step.*part.field |= u64(trace[place++]) << (8 * i);
  lose_bits(step, fault);
  return 0;
}

// The refusal of a trace before its steps.
int refused_at_once(const Bytes &trace, Fault fault) {
  const std::size_t longest =
      longest_trace - (fault == Fault::longest_refused) + (fault == Fault::too_long_accepted);
  if (trace.size() > longest) return 21;
  if (trace.empty()) return fault == Fault::empty_is_no_warps ? 4 : 2;
  const unsigned warps = most_warps - (fault == Fault::thirty_two_refused);
  return trace[0] == 0 || trace[0] > warps ? 4 : 0;
}

std::string refused_line(u64 number, int refusal) {
  return std::to_string(number) + " no " + std::to_string(refusal) + "\n";
}

std::string accepted_line(u64 number, const Answer &answer, Fault fault) {
  unsigned mask = 0;
  for (u64 w : answer.released) mask |= 1u << (fault == Fault::released_reversed ? 31 - w : w);
  char digits[16];
  std::snprintf(digits, sizeof digits, fault == Fault::released_upper_case ? "%08X" : "%08x", mask);
  u64 value = answer.value;
  if (fault == Fault::value_of_four_bytes) value %= 1ull << 32;
  return std::to_string(number) + " ok " + std::to_string(value) + " " +
         (answer.done ? "1 " : "0 ") + digits + "\n";
}

std::string end_line(u64 accepted, u64 refused) {
  return "end " + std::to_string(accepted) + " " + std::to_string(refused) + "\n";
}

}  // namespace

Report check(const Bytes &trace, Fault fault) {
  Report report;
  report.stopped = refused_at_once(trace, fault);
  if (report.stopped != 0) {
    report.text = refused_line(0, report.stopped) + end_line(0, 1);
    return report;
  }
  Block block(trace[0], fault);
  u64 number = 0;
  u64 accepted = 0;
  u64 refused = 0;
  std::size_t place = 1;
  while (place < trace.size() || fault == Fault::end_refused) {
    ++number;
    if (fault == Fault::number_of_fourteen_bits) number %= 16384;
    Step step;
    report.stopped = read(trace, place, step, fault);
    if (report.stopped != 0) {
      if (report.stopped == 2 && place < trace.size()) report.stopped_kind = trace[place];
      report.text += refused_line(number, report.stopped);
      refused += fault != Fault::stop_not_counted;
      if (report.stopped != 1 || fault != Fault::goes_on_after_unknown) break;
      ++place;
      continue;
    }
    const u64 active = active_barriers(block.tables());
    report.most_active = std::max(report.most_active, active);
    report.most_live = std::max(report.most_live, live_objects(block.tables()));
    const Answer answer = block.take(step);
    report.events.push_back({step, answer, active});
    if (answer.refusal == 0) {
      ++accepted;
      report.text += accepted_line(number, answer, fault);
      continue;
    }
    ++refused;
    report.text += refused_line(number, answer.refusal);
    number -= fault == Fault::refusal_not_numbered;
    if (fault == Fault::stops_at_refusal) break;
  }
  report.text += end_line(accepted, refused);
  return report;
}

}  // namespace peer
