// An engine for traces, written from document 01 alone, to hold the checker
// against. It is plain on purpose: sets of warps are std::set, the transaction
// balance is a signed 64-bit number, each refusal line is a test in a table.
#pragma once

#include <array>
#include <cstddef>
#include <cstdint>
#include <set>
#include <string>
#include <vector>

#include "faults.hpp"
#include "steps.hpp"

namespace peer {

using WarpSet = std::set<u64>;

// Numbers of document 01.
constexpr u64 lanes = 32;
constexpr u64 most_warps = 32;
constexpr u64 last_barrier = 15;
constexpr u64 last_address = 504;
constexpr std::size_t object_count = 64;
constexpr i64 count_limit = 1048575;  // arrivals, and transactions both ways
constexpr i64 last_phase = 4294967295;
constexpr std::size_t longest_trace = 65536;
constexpr u64 pending_unit = 1ull << 20;  // a token's parts
constexpr u64 phase_unit = 1ull << 26;
constexpr u64 token_end = 1ull << 58;

enum class Status { ready, waiting, exited };

struct Warp {
  Status status = Status::ready;
  u64 barrier = 0;  // where it waits
  u64 result = 0;   // of its last reduction
};

enum class Form { idle, plain, popc, all_true, any_true };

struct Barrier {
  Form form = Form::idle;
  u64 threads = 0;  // 0 means all
  WarpSet arrived;
  WarpSet waiting;
  u64 true_lanes = 0;
};

struct Object {
  bool live = false;
  i64 expected = 0;
  i64 pending = 0;
  i64 balance = 0;
  i64 phase = 0;
  bool seen = false;
};

struct Tables {
  u64 warps = 0;
  std::array<Warp, most_warps> warp;
  std::array<Barrier, last_barrier + 1> barrier;
  std::vector<Object> object = std::vector<Object>(object_count);
};

// Whether the tables are sound, as document 01 says it.
bool sound(const Tables &tables);

u64 active_barriers(const Tables &tables);
u64 live_objects(const Tables &tables);

// The answer to a step; a refusal has nothing but its number.
struct Answer {
  int refusal = 0;
  u64 value = 0;
  bool done = false;
  WarpSet released;
};

// One block that takes steps.
class Block {
 public:
  explicit Block(u64 warps, Fault fault = Fault::none);

  // The lowest refusal line that applies to the step, 0 where none does.
  int refusal(const Step &step) const;

  // Takes the step or refuses it; a refusal leaves the tables as they are.
  Answer take(const Step &step);

  const Tables &tables() const { return tables_; }

 private:
  struct Line {
    int number;
    bool (Block::*applies)(const Step &) const;
  };
  static const std::vector<Line> refusal_table;

  bool is(Fault fault) const { return fault_ == fault; }
  const Object &object(const Step &step) const;

  bool not_sound(const Step &) const;
  bool no_such_warp(const Step &step) const;
  bool warp_not_ready(const Step &step) const;
  bool no_such_barrier(const Step &step) const;
  bool bad_threads(const Step &step) const;
  bool bad_selector(const Step &step) const;
  bool other_count_or_form(const Step &step) const;
  bool already_arrived(const Step &step) const;
  bool no_such_object(const Step &step) const;
  bool object_dead(const Step &step) const;
  bool object_live(const Step &step) const;
  bool bad_count(const Step &step) const;
  bool out_of_range(const Step &step) const;
  bool phase_unseen(const Step &step) const;
  bool forbidden_completion(const Step &step) const;
  bool past_last_phase(const Step &step) const;
  bool bad_token(const Step &step) const;
  bool bad_parity(const Step &step) const;

  Form form_of(const Step &step) const;
  u64 true_lanes(const Step &step) const;
  bool complete(const Barrier &row) const;
  u64 result(const Barrier &row) const;
  Answer release(u64 barrier);
  Answer leave(const Step &step);
  Answer meet(const Step &step);

  Object moved(const Step &step) const;
  bool ends(const Step &step, Object row) const;
  u64 token(const Step &step, const Object &row) const;
  bool test(const Step &step) const;
  Answer act(const Step &step);
  Answer move(const Step &step);

  Tables tables_;
  Fault fault_;
  std::vector<Line> lines_;

  // What only a seeded fault has to remember.
  std::array<i64, object_count> init_count_{};
  std::array<bool, last_barrier + 1> complemented_{};
  std::set<u64> refused_exits_;
  u64 last_exited_ = most_warps;
};

// A step that was read from a trace, its answer, and the barriers that were active when it came.
struct Event {
  Step step;
  Answer answer;
  u64 active;
};

// What a trace comes to: the printed text, the steps read, and the refusal that
// stopped the reading, 0 where the trace was finished, with the kind of the step
// that was cut, 0 where it was none. Also the most barriers active and the most
// objects live when a step came.
struct Report {
  std::string text;
  std::vector<Event> events;
  int stopped = 0;
  u8 stopped_kind = 0;
  u64 most_active = 0;
  u64 most_live = 0;
};

Report check(const Bytes &trace, Fault fault = Fault::none);

}  // namespace peer
