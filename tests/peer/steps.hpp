// The steps of a trace: kinds, fields and bytes, as document 01 lists them.
#pragma once

#include <cstdint>
#include <vector>

namespace peer {

using u8 = std::uint8_t;
using u64 = std::uint64_t;
using i64 = std::int64_t;
using Bytes = std::vector<u8>;

enum class Kind : u8 {
  exit = 0x01,
  bar_sync_all = 0x02,
  bar_sync = 0x03,
  bar_arrive = 0x04,
  bar_red_all = 0x05,
  bar_red = 0x06,
  init = 0x07,
  inval = 0x08,
  arrive = 0x09,
  arrive_no_complete = 0x0A,
  arrive_expect = 0x0B,
  drop = 0x0C,
  drop_expect = 0x0D,
  expect = 0x0E,
  complete = 0x0F,
  test_token = 0x10,
  test_parity = 0x11,
  pending_count = 0x12,
  drop_no_complete = 0x13,
};
constexpr int last_kind = 0x13;

// One step; the fields that aren't its kind's are 0.
struct Step {
  Kind kind = Kind::exit;
  u64 warp = 0;
  u64 barrier = 0;
  u64 selector = 0;
  u64 threads = 0;
  u64 address = 0;
  u64 count = 0;
  u64 transactions = 0;
  u64 mask = 0;
  u64 token = 0;
  u64 parity = 0;
};

// A field of a step's body and its width in bytes.
struct Part {
  u64 Step::*field;
  unsigned width;
};

// The name of a kind and its body in order; the body is empty for an unknown kind.
struct Shape {
  const char *name;
  std::vector<Part> body;
};
const Shape &shape(u8 kind);

// The step as its bytes say it: its kind's fields alone, at their widths.
Step as_written(const Step &step);

// Adds the bytes of a step to a trace.
void write(const Step &step, Bytes &trace);

// What a kind is, in the words of the refusal lines.

inline bool names_barrier(Kind kind) { return kind >= Kind::bar_sync_all && kind <= Kind::bar_red; }

inline bool gives_threads(Kind kind) {
  return kind == Kind::bar_sync || kind == Kind::bar_arrive || kind == Kind::bar_red;
}

inline bool reduces(Kind kind) { return kind == Kind::bar_red_all || kind == Kind::bar_red; }

inline bool names_object(Kind kind) { return kind >= Kind::init && kind != Kind::pending_count; }

inline bool drops(Kind kind) {
  return kind == Kind::drop || kind == Kind::drop_no_complete || kind == Kind::drop_expect;
}

// An arrival on an object, with or without a drop.
inline bool arrives(Kind kind) {
  return kind == Kind::arrive || kind == Kind::arrive_no_complete || kind == Kind::arrive_expect ||
         drops(kind);
}

inline bool attached_expect(Kind kind) {
  return kind == Kind::arrive_expect || kind == Kind::drop_expect;
}

inline bool no_complete(Kind kind) {
  return kind == Kind::arrive_no_complete || kind == Kind::drop_no_complete;
}

// "With an attached expect the count is 1."
inline i64 arrival_count(const Step &step) {
  return attached_expect(step.kind) ? 1 : i64(step.count);
}

}  // namespace peer
