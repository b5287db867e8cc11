#include "coverage.hpp"

#include <algorithm>
#include <cstdio>

namespace peer {

namespace {

using Number = unsigned long long;  // as printf takes it

constexpr u64 crowd = 8;  // active barriers

// Whether a trace can have a step of this kind refused with this number. Where every such pair
// occurred, a checker that leaves out a line for one kind alone has been told.
bool reachable(Kind kind, int number) {
  switch (number) {
    case 2:
    case 4:
    case 5: return true;
    case 6:
    case 9: return names_barrier(kind);
    case 7: return gives_threads(kind);
    case 8: return reduces(kind);
    // Who has arrived and is ready came by an arrive. Its barrier is plain and has a count, and
    // a step with another count or form has line 9.
    case 10: return kind == Kind::bar_sync || kind == Kind::bar_arrive;
    case 11: return names_object(kind);
    case 12: return names_object(kind) && kind != Kind::init;
    case 13: return kind == Kind::init;
    case 14: return kind == Kind::init || arrives(kind);
    case 15: return attached_expect(kind) || kind == Kind::expect || kind == Kind::complete;
    case 16: return arrives(kind);
    case 17: return no_complete(kind);
    case 19: return kind == Kind::test_token || kind == Kind::pending_count;
    case 20: return kind == Kind::test_parity;
    // Not 1 and 21, which no known kind has. Not 3: fresh tables are sound and every step keeps
    // them so. Not 18: the last phase has 4,294,967,295 before it, each takes a step of its own,
    // and 65,536 bytes hold at most 32,767 steps.
    default: return false;
  }
}

// The same before any step is known: an unknown kind, an empty trace, a trace refused at once.
bool reachable_without_kind(int number) {
  return number == 1 || number == 2 || number == 4 || number == 21;
}

bool reachable(int kind, int number) {
  return kind == 0 ? reachable_without_kind(number) : reachable(static_cast<Kind>(kind), number);
}

// Whether a step of this kind can complete a named barrier or a phase.
bool can_complete(Kind kind) {
  return kind == Kind::exit || names_barrier(kind) || kind == Kind::complete ||
         (arrives(kind) && !no_complete(kind));
}

}  // namespace

void Coverage::note(const Report &report) {
  if (report.stopped != 0) ++refused_[std::size_t(report.stopped)][report.stopped_kind];
  most_active_ = std::max(most_active_, report.most_active);
  most_live_ = std::max(most_live_, report.most_live);
  for (const Event &event : report.events) {
    const Answer &answer = event.answer;
    const Kind kind = event.step.kind;
    if (answer.refusal != 0) {
      ++refused_[std::size_t(answer.refusal)][std::size_t(kind)];
      continue;
    }
    ++accepted_[std::size_t(kind)];
    if (kind == Kind::test_token || kind == Kind::test_parity) yes_ += answer.value;
    if (!answer.done) continue;
    ++completed_[std::size_t(kind)];
    if (kind == Kind::exit && event.active >= crowd) ++crowded_exits_;
  }
}

bool Coverage::print_accepted() const {
  bool good = true;
  std::printf("accepted, and how many of these completed something:\n");
  for (int kind = 1; kind <= last_kind; ++kind) {
    const u64 count = accepted_[std::size_t(kind)], completed = completed_[std::size_t(kind)];
    good = good && count != 0 && (completed != 0) == can_complete(static_cast<Kind>(kind));
    std::printf("  %02X %-20s %10llu %10llu\n", kind, shape(u8(kind)).name, Number(count),
                Number(completed));
  }
  return good;
}

// The line of one number: how often it was given, and the kind that had it least.
bool Coverage::print_refused(int number) const {
  bool good = true;
  Number all = 0;
  int rarest = -1;
  const Kinds &counts = refused_[std::size_t(number)];
  for (int kind = 0; kind <= last_kind; ++kind) {
    const u64 count = counts[std::size_t(kind)];
    all += count;
    good = good && (count != 0) == reachable(kind, number);
    if (kind == 0 || !reachable(kind, number)) continue;
    if (rarest < 0 || count < counts[std::size_t(rarest)]) rarest = kind;
  }
  std::printf("  %2d %31llu", number, all);
  if (rarest > 0)
    std::printf("  least %llu, %s", Number(counts[std::size_t(rarest)]), shape(u8(rarest)).name);
  std::printf("%s\n", number == 3 || number == 18 ? "  (no trace can reach it)" : "");
  return good;
}

bool Coverage::print_refused() const {
  bool good = true;
  std::printf("refused, and the kind that was so least often:\n");
  for (int number = 1; number <= 21; ++number) good = print_refused(number) && good;
  return good;
}

bool Coverage::print_crowd() const {
  std::printf(
      "at once: up to %llu barriers active, up to %llu objects live; exits that completed a "
      "barrier "
      "while %llu or more were active: %llu\n",
      Number(most_active_), Number(most_live_), Number(crowd), Number(crowded_exits_));
  std::printf("tests that said 1: %llu\n", Number(yes_));
  return crowded_exits_ != 0 && most_active_ == last_barrier + 1 && most_live_ == object_count;
}

bool Coverage::print() const {
  const bool accepted = print_accepted();
  const bool refused = print_refused();
  const bool crowded = print_crowd();
  if (!accepted || !refused)
    std::printf(
        "FAILED: a kind, its completion or a refusal of it that a trace can reach never occurred, "
        "or one that it can't reach did\n");
  if (!crowded) std::printf("FAILED: the tables were never full\n");
  return accepted && refused && crowded;
}

}  // namespace peer
