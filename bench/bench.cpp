// Times the checker and the three forms of the quick engine on the same traces, and prints what
// bench/run puts together: a line for each trace with its name, its steps and the nanoseconds a
// step of the checker, then with rows, with masks and without a check; or peak memory.
#include <sys/resource.h>
#include <sys/wait.h>
#include <unistd.h>

#include <algorithm>
#include <cstdint>
#include <cstdio>
#include <cstdlib>
#include <ctime>
#include <functional>
#include <memory>
#include <string_view>
#include <utility>
#include <vector>

#include "../include/glubotar.h"
#include "fast.hpp"

namespace {

using Bytes = std::vector<std::uint8_t>;

constexpr std::size_t longest_trace = 65536;
constexpr std::size_t lengths[] = {1000, 8000, 32000};

struct Trace {
  Bytes bytes;
  std::size_t steps;
};

// Adds a step unless it would make the trace too long.
bool add(Trace &trace, const Bytes &step) {
  if (trace.bytes.size() + step.size() > longest_trace) return false;
  trace.bytes.insert(trace.bytes.end(), step.begin(), step.end());
  ++trace.steps;
  return true;
}

std::uint8_t low(std::size_t number) { return static_cast<std::uint8_t>(number); }

// The shortest steps are used, so that as many as can be fit into a trace:
// sync for all (3 bytes) or with a count (5), red for all (8), arrive on an object (8), test by
// parity (5).

Bytes sync_all(std::size_t warp, std::size_t barrier) { return {0x02, low(warp), low(barrier)}; }

Bytes sync(std::size_t warp, std::size_t barrier, std::size_t threads) {
  return {0x03, low(warp), low(barrier), low(threads), low(threads >> 8)};
}

// Popc over the lanes of a mask.
Bytes red_all(std::size_t warp, std::size_t barrier, std::size_t mask) {
  return {0x05,      low(warp),      low(barrier),    0,
          low(mask), low(mask >> 8), low(mask >> 16), low(mask >> 24)};
}

Bytes count_step(std::size_t kind, std::size_t object, std::size_t warp) {
  return {low(kind), low(warp), low(8 * object), low(8 * object >> 8), 1, 0, 0, 0};
}

Bytes init(std::size_t object, std::size_t warp = 0) { return count_step(0x07, object, warp); }

Bytes arrive(std::size_t object) { return count_step(0x09, object, 0); }

Bytes test(std::size_t object, std::size_t parity, std::size_t warp = 0) {
  return {0x11, low(warp), low(8 * object), low(8 * object >> 8), low(parity)};
}

// 32 warps meet at one barrier after the other.
Trace barriers(std::size_t steps) {
  Trace trace{{32}, 0};
  for (std::size_t i = 0; i < steps; ++i)
    if (!add(trace, sync_all(i % 32, i / 32 % 16))) break;
  return trace;
}

// The same with masks of one to 32 true lanes, which are counted.
Trace reds(std::size_t steps) {
  Trace trace{{32}, 0};
  for (std::size_t i = 0; i < steps; ++i)
    if (!add(trace, red_all(i % 32, i / 32 % 16, 0xffffffff >> i % 32))) break;
  return trace;
}

// Sixteen warps wait, each at a barrier of its own that needs two, while another tests an object.
Trace held(std::size_t steps) {
  Trace trace{{17}, 0};
  for (std::size_t w = 0; w < 16; ++w) add(trace, sync(w, w, 64));
  add(trace, init(0, 16));
  while (trace.steps < steps)
    if (!add(trace, test(0, 0, 16))) break;
  return trace;
}

// Sixty-four objects, each ending phase after phase, every end seen.
Trace objects(std::size_t steps) {
  Trace trace{{1}, 0};
  for (std::size_t o = 0; o < 64; ++o) add(trace, init(o));
  for (std::size_t i = 0; trace.steps + 2 <= steps; ++i)
    if (!add(trace, arrive(i % 64)) || !add(trace, test(i % 64, i / 64 % 2))) break;
  return trace;
}

// Two warps that meet, then one that ends a phase and sees it.
Trace mixed(std::size_t steps) {
  Trace trace{{2}, 0};
  for (std::size_t o = 0; o < 64; ++o) add(trace, init(o));
  for (std::size_t i = 0; trace.steps + 4 <= steps; ++i)
    if (!add(trace, sync_all(0, i % 16)) || !add(trace, sync_all(1, i % 16)) ||
        !add(trace, arrive(i % 64)) || !add(trace, test(i % 64, i / 64 % 2)))
      break;
  return trace;
}

// Room for a text, not touched before it is written.
struct Room {
  explicit Room(const Trace &trace)
      : size(std::max(glubotar_text_room(trace.bytes.size()), fast::text_room(trace.bytes.size()))),
        text(new std::uint8_t[size]) {}

  std::size_t size;
  std::unique_ptr<std::uint8_t[]> text;
};

using Engine = std::function<std::size_t(const Bytes &, const Room &)>;

const Engine checker = [](const Bytes &trace, const Room &room) {
  return glubotar_check(trace.data(), trace.size(), room.text.get(), room.size);
};

Engine quick(fast::Check check) {
  return [check](const Bytes &trace, const Room &room) {
    return fast::check(trace.data(), trace.size(), room.text.get(), room.size, check);
  };
}

const Engine by_rows = quick(fast::Check::rows);
const Engine by_masks = quick(fast::Check::masks);
const Engine unchecked = quick(fast::Check::none);

Bytes text_of(const Engine &engine, const Trace &trace) {
  const Room room(trace);
  return Bytes(room.text.get(), room.text.get() + engine(trace.bytes, room));
}

bool texts_agree(const std::vector<Engine> &engines, const Trace &trace) {
  const Bytes text = text_of(engines.front(), trace);
  return std::all_of(engines.begin(), engines.end(),
                     [&](const Engine &engine) { return text_of(engine, trace) == text; });
}

// Nanoseconds of processor time so far.
double now() {
  timespec time{};
  clock_gettime(CLOCK_PROCESS_CPUTIME_ID, &time);
  return static_cast<double>(time.tv_sec) * 1e9 + static_cast<double>(time.tv_nsec);
}

// Nanoseconds a step, the best of several runs; the engines take turns.
std::vector<double> times(const std::vector<Engine> &engines, const Trace &trace, int runs) {
  std::vector<double> best(engines.size(), 1e18);
  const Room room(trace);
  for (int run = 0; run < runs; ++run)
    for (std::size_t e = 0; e < engines.size(); ++e) {
      const double start = now();
      engines[e](trace.bytes, room);
      best[e] = std::min(best[e], (now() - start) / static_cast<double>(trace.steps));
    }
  return best;
}

// The peak memory in KiB of a process of its own that does one thing; where that breaks off, the
// run ends.
long peak(const std::function<void()> &thing) {
  const pid_t child = fork();
  if (child == 0) {
    thing();
    _exit(0);
  }
  int status = 0;
  rusage usage{};
  if (child < 0 || wait4(child, &status, 0, &usage) != child || status != 0) {
    std::fprintf(stderr, "FAILED: the process whose memory is measured broke off\n");
    std::exit(1);
  }
  return usage.ru_maxrss;
}

void print_peaks(const Trace &trace) {
  const long idle = peak([] {});
  const auto above_idle = [&](const Engine &engine) {
    return peak([&] { engine(trace.bytes, Room(trace)); }) - idle;
  };
  const long own = above_idle(checker), other = above_idle(by_masks);
  std::printf("peak memory above an idle process's %ld KiB, trace of %zu bytes:\n", idle,
              trace.bytes.size());
  std::printf("  checker  %6ld KiB\n  C++      %6ld KiB\n", own, other);
}

}  // namespace

// With the word memory as its argument it prints peak memory, else the times, the best of so many
// runs.
int main(int argc, char **argv) {
  const std::string_view word = argc == 2 ? argv[1] : "1";
  if (word == "memory") {
    print_peaks(mixed(lengths[2]));
    return 0;
  }
  const int runs = std::max(1, std::atoi(word.data()));
  const std::vector<Engine> engines = {checker, by_rows, by_masks, unchecked};
  const std::pair<const char *, Trace (*)(std::size_t)> workloads[] = {
      {"barriers", barriers}, {"reds", reds},   {"held", held},
      {"objects", objects},   {"mixed", mixed},
  };
  for (const auto &[name, make] : workloads)
    for (const std::size_t length : lengths) {
      const Trace trace = make(length);
      if (!texts_agree(engines, trace)) {
        std::fprintf(stderr, "FAILED: %s, %zu steps: the texts differ\n", name, trace.steps);
        return 1;
      }
      std::printf("%s %zu", name, trace.steps);
      for (const double time : times(engines, trace, runs)) std::printf(" %.2f", time);
      std::printf("\n");
    }
  return 0;
}
