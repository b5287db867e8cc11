// Refusals are tested in the order of their numbers, each where its field is at hand.
#include "fast.hpp"

#include <cstring>
#include <memory>

namespace fast {

namespace {

using u8 = std::uint8_t;
using u32 = std::uint32_t;
using u64 = std::uint64_t;
using i64 = std::int64_t;

constexpr u32 max_warps = 32, max_barriers = 16, max_objects = 64;
constexpr u32 count_limit = 1048575;  // arrivals, and transactions both ways
constexpr u32 last_phase = 0xffffffff;
constexpr std::size_t trace_limit = 65536;
constexpr std::size_t line_limit = 48;  // the longest line, with room to spare

enum Status : u8 { ready = 0, waiting = 1, exited = 2 };  // two of them with a bit of their own
enum Form : u8 { idle, plain, popc, all_true, any_true };

struct Warp {
  u8 status, barrier;
  u32 result;
};

struct Barrier {
  u8 form;
  u32 threads, arrived, waiting, lanes;
};

struct Object {
  u8 live, seen;
  u32 expected, pending;
  std::int32_t balance;
  u32 phase;
};

struct Tables {
  u32 warps;
  Warp warp[max_warps];
  Barrier barrier[max_barriers];
  Object object[max_objects];
};

struct Answer {
  u32 refusal, done, released;
  u64 value;
};

constexpr u8 lengths[256] = {0, 2, 3, 5, 5, 8, 10, 8, 4, 8, 8, 8, 8, 8, 8, 8, 12, 5, 10, 8};

// The compiler's own count of ones is a call where the processor may be any x86-64.
u32 size(u32 set) {
  set -= set >> 1 & 0x55555555;
  set = (set & 0x33333333) + (set >> 2 & 0x33333333);
  return ((set + (set >> 4)) & 0x0f0f0f0f) * 0x01010101 >> 24;
}

u32 first_warps(u32 count) { return count == 32 ? ~0u : (1u << count) - 1; }

Answer refused(u32 number) { return {number, 0, 0, 0}; }

template <typename T>
T load(const u8 *at) {
  T value;
  std::memcpy(&value, at, sizeof value);  // traces and machines are little-endian
  return value;
}

struct WarpSets {
  u32 waiting, exited;
};

// Shifts by one, since a shift by a variable takes longer.
WarpSets gathered(const Tables &t) {
  u32 waits = 0, gone = 0;
  for (u32 w = max_warps; w-- > 0;) {
    waits = waits << 1 | (t.warp[w].status & 1);
    gone = gone << 1 | t.warp[w].status >> 1;
  }
  return {waits, gone};
}

// Every barrier row against every warp row.
bool rows_agree(const Tables &t) {
  for (u32 b = 0; b < max_barriers; ++b)
    for (u32 w = 0; w < max_warps; ++w) {
      const bool waits = t.warp[w].status == waiting && t.warp[w].barrier == b;
      if (waits != (t.barrier[b].waiting >> w & 1)) return false;
    }
  for (const Warp &w : t.warp)
    if (w.status == waiting && w.barrier >= max_barriers) return false;
  return true;
}

bool barrier_sound(const Barrier &r, u32 warps, u32 block, u32 left) {
  if (r.form == idle) return (r.threads | r.arrived | r.waiting | r.lanes) == 0;
  if (!r.arrived || (r.arrived & ~block) || (r.waiting & ~r.arrived)) return false;
  const bool all_wait = r.waiting == r.arrived;
  if (!r.threads && !(all_wait && (left & ~r.arrived))) return false;
  if (r.threads && (r.threads % 32 || r.threads > 32 * warps || 32 * size(r.arrived) >= r.threads))
    return false;
  if (r.form == plain) return r.lanes == 0;
  return all_wait && r.lanes <= 32 * size(r.arrived);
}

bool object_sound(const Object &o) {
  const u32 balance = static_cast<u32>(o.balance);
  if (!o.live) return (o.expected | o.pending | balance | o.phase | o.seen) == 0;
  return o.expected - 1 < count_limit && o.pending <= o.expected &&
         balance + count_limit <= 2 * count_limit && (o.phase | o.seen);
}

bool objects_sound(const Tables &t) {
  for (const Object &o : t.object)
    if (!object_sound(o)) return false;
  return true;
}

// Whether the tables are sound; then `left` becomes the warps that have not exited. With masks,
// the waiting sets together are those who wait, and no warp is in two, since its row names one.
// A function of its own, so that its loops have all registers, and on a page of its own, since
// an emulator takes twice the time for a loop that lies across two.
[[gnu::noinline, gnu::aligned(4096)]] bool sound(const Tables &t, Check check, u32 &left) {
  if (t.warps - 1 >= max_warps) return false;
  const u32 block = first_warps(t.warps);
  const WarpSets sets = gathered(t);
  u32 spare = (sets.waiting | sets.exited) & ~block;
  for (u32 w = t.warps; w < max_warps; ++w) spare |= t.warp[w].result;
  if (spare || (check == Check::rows && !rows_agree(t))) return false;
  left = block & ~sets.exited;
  u32 met = 0;
  for (u32 b = 0; b < max_barriers; ++b) {
    const Barrier &row = t.barrier[b];
    if (!barrier_sound(row, t.warps, block, left)) return false;
    met |= row.waiting;
    if (check == Check::masks)
      for (u32 set = row.waiting; set; set &= set - 1)
        if (t.warp[__builtin_ctz(set)].barrier != b) return false;
  }
  return met == sets.waiting && objects_sound(t);
}

// Completes a barrier and releases who waits there.
Answer release(Tables &t, Barrier &row) {
  u64 value = 0;
  if (row.form == popc) value = row.lanes;
  if (row.form == all_true) value = row.lanes == 32 * size(row.arrived);
  if (row.form == any_true) value = row.lanes != 0;
  for (u32 set = row.waiting; set; set &= set - 1) {
    Warp &warp = t.warp[__builtin_ctz(set)];
    warp.status = ready;
    warp.barrier = 0;
    if (row.form != plain) warp.result = static_cast<u32>(value);
  }
  const u32 released = row.waiting;
  row = Barrier{};
  return {0, 1, released, value};
}

Answer exit_step(Tables &t, u32 warp, u32 &left) {
  t.warp[warp].status = exited;
  left &= ~(1u << warp);
  for (Barrier &row : t.barrier)
    if (row.form != idle && !row.threads && (left & ~row.arrived) == 0) return release(t, row);
  return {};
}

Answer barrier_step(Tables &t, const u8 *step, u32 left) {
  const u32 kind = step[0], warp = step[1], number = step[2];
  const bool counted = kind == 3 || kind == 4 || kind == 6, reduces = kind >= 5;
  const u32 threads = counted ? load<std::uint16_t>(step + (reduces ? 4 : 3)) : 0;
  if (number >= max_barriers) return refused(6);
  if (counted && (!threads || threads % 32 || threads > 32 * t.warps)) return refused(7);
  u8 form = plain;
  u32 lanes = 0;
  if (reduces) {
    const u32 selector = step[3];
    if (selector > 6 || selector == 3) return refused(8);
    form = static_cast<u8>(popc + (selector & 3));
    const u32 mask = load<u32>(step + (counted ? 6 : 4));
    lanes = size(selector & 4 ? ~mask : mask);
  }
  Barrier &row = t.barrier[number];
  if (row.form != idle && (row.threads != threads || row.form != form)) return refused(9);
  if (row.arrived >> warp & 1) return refused(10);
  row.form = form;
  row.threads = threads;
  row.arrived |= 1u << warp;
  row.lanes += lanes;
  if (kind != 4) {
    row.waiting |= 1u << warp;
    t.warp[warp].status = waiting;
    t.warp[warp].barrier = static_cast<u8>(number);
  }
  const bool full = threads ? 32 * size(row.arrived) == threads : (left & ~row.arrived) == 0;
  return full ? release(t, row) : Answer{};
}

bool is_arrival(u32 kind) { return (kind >= 0x09 && kind <= 0x0D) || kind == 0x13; }

// Arrivals, drops, expects and completes.
Answer count_step(Object &row, u32 kind, u32 number, u32 operand) {
  const bool arrives = is_arrival(kind), drops = kind == 0x0C || kind == 0x0D || kind == 0x13;
  const bool attached = kind == 0x0B || kind == 0x0D;
  const bool moves = attached || kind == 0x0E || kind == 0x0F;
  const u32 count = attached ? 1 : operand;
  if (arrives && (!count || count > row.pending || (drops && count >= row.expected)))
    return refused(14);
  i64 balance = row.balance;
  const i64 limit = count_limit;
  if (moves) balance += kind == 0x0F ? -i64{operand} : i64{operand};
  if (balance > limit || balance < -limit) return refused(15);
  if (arrives && !row.seen) return refused(16);
  const u32 pending = arrives ? row.pending - count : row.pending;
  const bool ends = kind != 0x0E && pending == 0 && balance == 0;
  if (ends && (kind == 0x0A || kind == 0x13)) return refused(17);
  if (ends && row.phase == last_phase) return refused(18);
  const u64 token = u64{row.phase} << 26 | u64{number} << 20 | row.pending;
  if (drops) row.expected -= count;
  row.pending = ends ? row.expected : pending;
  row.balance = static_cast<std::int32_t>(balance);
  row.phase += ends;
  if (ends) row.seen = 0;
  return {0, ends, 0, arrives ? token : 0};
}

Answer test_token(Object &row, u32 number, u64 token) {
  const u64 phase = token >> 26;
  if (token >> 58 || (token >> 20 & 63) != number) return refused(19);
  if (phase != row.phase && phase + 1 != row.phase) return refused(19);
  const bool yes = phase < row.phase;
  row.seen |= yes;
  return {0, 0, 0, yes};
}

Answer test_parity(Object &row, u32 parity) {
  if (parity > 1) return refused(20);
  const bool yes = row.phase != 0 && parity != (row.phase & 1);
  row.seen |= yes;
  return {0, 0, 0, yes};
}

Answer object_step(Tables &t, const u8 *step) {
  const u32 kind = step[0], address = load<std::uint16_t>(step + 2), number = address / 8;
  if (address % 8 || number >= max_objects) return refused(11);
  Object &row = t.object[number];
  if (kind == 0x07) {
    const u32 count = load<u32>(step + 4);
    if (row.live) return refused(13);
    if (count - 1 >= count_limit) return refused(14);
    row = {1, 1, count, count, 0, 0};
    return {};
  }
  if (!row.live) return refused(12);
  switch (kind) {
    case 0x08: row = {}; return {};
    case 0x10: return test_token(row, number, load<u64>(step + 4));
    case 0x11: return test_parity(row, step[4]);
    default: return count_step(row, kind, number, load<u32>(step + 4));
  }
}

// `left` are the warps that have not exited: the check gathers them anew, and without it they stay
// as the last exit left them.
template <Check check>
Answer take(Tables &t, const u8 *step, u32 &left) {
  const u32 kind = step[0], warp = step[1];
  if (check != Check::none && !sound(t, check, left)) return refused(3);
  if (warp >= t.warps) return refused(4);
  if (t.warp[warp].status != ready) return refused(5);
  if (kind == 0x01) return exit_step(t, warp, left);
  if (kind <= 0x06) return barrier_step(t, step, left);
  if (kind != 0x12) return object_step(t, step);
  const u64 token = load<u64>(step + 2);
  return token >> 58 ? refused(19) : Answer{0, 0, 0, token & 0xfffff};
}

template <std::size_t size>
u8 *put(u8 *out, const char (&text)[size]) {
  std::memcpy(out, text, size - 1);
  return out + size - 1;
}

constexpr char pairs[] =
    "00010203040506070809101112131415161718192021222324"
    "25262728293031323334353637383940414243444546474849"
    "50515253545556575859606162636465666768697071727374"
    "75767778798081828384858687888990919293949596979899";

// Two digits at a time, the last ones first. No number here comes near 2^64.
u8 *put(u8 *out, u64 number) {
  if (number < 10) {
    *out = static_cast<u8>('0' + number);
    return out + 1;
  }
  std::size_t count = 2;
  for (u64 limit = 100; number >= limit; limit *= 10) ++count;
  u8 *at = out + count;
  for (; number >= 100; number /= 100) std::memcpy(at -= 2, pairs + number % 100 * 2, 2);
  if (number >= 10) std::memcpy(at - 2, pairs + number * 2, 2);
  else at[-1] = static_cast<u8>('0' + number);
  return out + count;
}

// A step's number as digits, the first in the lowest byte, as a store lays them. The last is then
// the highest: adding `one` counts up, without a division, until the digits reach `past_nine`.
struct Number {
  u64 digits, one, past_nine;
  u32 length;
};

Number digits_of(u64 number) {
  u8 text[sizeof Number::digits] = {};
  const u32 length = static_cast<u32>(put(text, number) - text);
  const u32 last = 8 * (length - 1);
  return {load<u64>(text), u64{1} << last, u64{'9' + 1} << last, length};
}

void count_up(Number &number, u64 to) {
  number.digits += number.one;
  if (number.digits >= number.past_nine) number = digits_of(to);
}

u8 *put(u8 *out, const Number &number) {
  std::memcpy(out, &number.digits, sizeof number.digits);
  return out + number.length;
}

u8 *put_refused(u8 *out, const Number &number, u32 refusal) {
  out = put(put(put(out, number), " no "), u64{refusal});
  return put(out, "\n");
}

u8 *put_accepted(u8 *out, const Number &number, const Answer &answer) {
  out = put(put(put(out, number), " ok "), answer.value);
  out = answer.done ? put(out, " 1 ") : put(out, " 0 ");
  if (!answer.released) return put(out, "00000000\n");
  for (int shift = 28; shift >= 0; shift -= 4)
    *out++ = static_cast<u8>("0123456789abcdef"[answer.released >> shift & 15]);
  return put(out, "\n");
}

u8 *put_end(u8 *out, u64 accepted, u64 refusals) {
  out = put(put(put(put(out, "end "), accepted), " "), refusals);
  return put(out, "\n");
}

// The text of a trace, written to a place that has the room; answers its end. Flattened, so that
// all but the check is one function for each form and answers stay in registers.
template <Check check>
[[gnu::flatten]] u8 *run(const u8 *trace, std::size_t len, u8 *out) {
  u32 at_once = 0;
  if (len > trace_limit) at_once = 21;
  else if (len == 0) at_once = 2;
  else if (trace[0] == 0 || trace[0] > max_warps) at_once = 4;
  if (at_once) return put_end(put_refused(out, digits_of(0), at_once), 0, 1);
  Tables t{};
  t.warps = trace[0];
  u32 left = first_warps(t.warps);
  u64 accepted = 0, refusals = 0;
  Number number = digits_of(0);
  std::size_t length = 0;
  for (std::size_t place = 1; place < len; place += length) {
    length = lengths[trace[place]];
    count_up(number, accepted + refusals + 1);
    if (length == 0 || len - place < length)
      return put_end(put_refused(out, number, length ? 2 : 1), accepted, refusals + 1);
    const Answer answer = take<check>(t, trace + place, left);
    if (answer.refusal) {
      ++refusals;
      out = put_refused(out, number, answer.refusal);
    } else {
      ++accepted;
      out = put_accepted(out, number, answer);
    }
  }
  return put_end(out, accepted, refusals);
}

u8 *run(const u8 *trace, std::size_t len, Check check, u8 *out) {
  switch (check) {
    case Check::rows: return run<Check::rows>(trace, len, out);
    case Check::masks: return run<Check::masks>(trace, len, out);
    default: return run<Check::none>(trace, len, out);
  }
}

}  // namespace

// The shortest step has two bytes; a lone byte and the end take a line each.
std::size_t text_room(std::size_t trace_len) {
  const std::size_t read = trace_len > trace_limit ? 0 : trace_len;
  return (read / 2 + 2) * line_limit;
}

std::size_t check(const u8 *trace, std::size_t trace_len, u8 *text, std::size_t text_len,
                  Check check) {
  const std::size_t room = text_room(trace_len);
  if (text_len >= room) return static_cast<std::size_t>(run(trace, trace_len, check, text) - text);
  const std::unique_ptr<u8[]> own(new u8[room]);
  const u8 *end = run(trace, trace_len, check, own.get());
  const std::size_t length = static_cast<std::size_t>(end - own.get());
  if (length > text_len) return SIZE_MAX;
  std::memcpy(text, own.get(), length);
  return length;
}

}  // namespace fast
