// Compares the whole text of the checker, and the numbers that it counts, with those of
// the engine's text.
#include <cstdio>
#include <cstdlib>
#include <cstring>
#include <fstream>
#include <iterator>
#include <string>
#include <vector>

#include "coverage.hpp"
#include "engine.hpp"
#include "generate.hpp"
#include "numbers.hpp"
#include "subject.hpp"
#include "watch.hpp"

namespace {

using namespace peer;
using Number = unsigned long long;

constexpr const char *usage =
    "usage: compare [--seed S] PART..\n"
    "  --traces N           N generated traces, and what they covered\n"
    "  --random N           N short random inputs\n"
    "  --expected FILE..    traces NAME.trace with their text in NAME.expected\n"
    "  --truncations FILE.. every truncation of the given traces\n"
    "  --faults N           each seeded fault, to be noticed within N traces\n"
    "The first trace with two different texts goes to difference.trace, the texts to\n"
    "difference.engine and difference.checker. So does an input that a crash or a\n"
    "signal to end leaves unchecked.\n";

std::string contents(const std::string &name) {
  std::ifstream file(name, std::ios::binary);
  if (!file) {
    std::fprintf(stderr, "compare: cannot read %s\n", name.c_str());
    std::exit(2);
  }
  return std::string(std::istreambuf_iterator<char>(file), {});
}

Bytes trace_in(const std::string &name) {
  const std::string text = contents(name);
  return Bytes(text.begin(), text.end());
}

void keep(const std::string &name, const std::string &text) {
  std::ofstream file(name, std::ios::binary);
  if (file << text << std::flush) return;
  std::fprintf(stderr, "compare: cannot write %s\n", name.c_str());
  std::exit(2);
}

// What an earlier run kept.
void forget() {
  for (const char *name : {kept_trace, "difference.engine", "difference.checker"})
    std::remove(name);
}

// Compares the two texts of one trace, and keeps the first ones that differ.
bool same(const Bytes &trace, const std::string &engine, const std::string &checker,
          const std::string &what) {
  static bool kept = false;
  if (engine == checker) return true;
  std::printf("FAILED: %s: the texts differ%s\n", what.c_str(), kept ? "" : ", see difference.*");
  if (kept) return false;
  kept = true;
  keep(kept_trace, std::string(trace.begin(), trace.end()));
  keep("difference.engine", engine);
  keep("difference.checker", checker);
  return false;
}

// A text with the numbers that stand in it.
std::string numbered(const std::string &text, Fault fault = Fault::none) {
  return with_numbers(text, numbers_in(text, fault));
}

bool compare_traces(Number seed, Number count) {
  Coverage coverage;
  u64 digest = 0xcbf29ce484222325;  // FNV-1a: the same on every machine
  for (Number i = 0; i < count; ++i) {
    const Bytes trace = generated_trace(seed, i);
    const std::string what = "trace " + std::to_string(i);
    const Checked checked(trace, what);
    for (u8 byte : trace) digest = (digest ^ byte) * 0x100000001b3;
    const Report report = check(trace);
    coverage.note(report);
    const std::string text = i % 16 == 0 ? subject_text_with_limits(trace) : subject_text(trace);
    if (!same(trace, numbered(report.text), text, what)) return false;
  }
  std::printf("%llu traces of seed %llu, digest %016llx: the same\n", count, seed,
              static_cast<Number>(digest));
  return coverage.print();
}

bool compare_random(Number seed, Number count) {
  for (Number i = 0; i < count; ++i) {
    const Bytes input = random_input(seed, i);
    const std::string what = "random input " + std::to_string(i);
    const Checked checked(input, what);
    if (!same(input, numbered(check(input).text), subject_text(input), what)) return false;
  }
  std::printf("%llu random inputs of seed %llu: the same\n", count, seed);
  return true;
}

bool compare_expected(const std::vector<std::string> &names) {
  for (const std::string &name : names) {
    const Bytes trace = trace_in(name);
    const Checked checked(trace, name);
    const std::string expected = contents(name.substr(0, name.rfind(".trace")) + ".expected");
    if (!same(trace, check(trace).text, expected, name + " in the engine")) return false;
    if (!same(trace, numbered(expected), subject_text_with_limits(trace), name)) return false;
  }
  std::printf("%zu traces with expected texts: the same\n", names.size());
  return true;
}

bool compare_truncations(const std::vector<std::string> &names) {
  Number count = 0;
  for (const std::string &name : names) {
    Bytes trace = trace_in(name);
    for (;;) {
      ++count;
      const std::string what = name + " cut to " + std::to_string(trace.size());
      const Checked checked(trace, what);
      if (!same(trace, numbered(check(trace).text), subject_text_with_limits(trace), what))
        return false;
      if (trace.empty()) break;
      trace.pop_back();
    }
  }
  std::printf("%llu truncations of %zu traces: the same\n", count, names.size());
  return true;
}

// Gives the engine one fault at a time and looks for a trace that tells.
bool find_faults(Number seed, Number count) {
  std::vector<FaultName> hidden(std::begin(fault_names), std::end(fault_names));
  std::printf("faults, and the first trace that tells:\n");
  for (Number i = 0; i < count && !hidden.empty(); ++i) {
    const Bytes trace = generated_trace(seed, i);
    const std::string what = "trace " + std::to_string(i);
    const Checked checked(trace, what);
    const std::string text = subject_text(trace);
    std::vector<FaultName> left;
    for (const FaultName &f : hidden) {
      if (numbered(check(trace, f.fault).text, f.fault) == text) left.push_back(f);
      else std::printf("  %5llu %-24s %s\n", i, f.name, f.sentence);
    }
    hidden = left;
  }
  for (const FaultName &f : hidden)
    std::printf("FAILED: nothing tells of %s, %s\n", f.name, f.sentence);
  std::printf("%zu of %zu faults found\n", std::size(fault_names) - hidden.size(),
              std::size(fault_names));
  return hidden.empty();
}

[[noreturn]] void wrong_usage() {
  std::fputs(usage, stderr);
  std::exit(2);
}

Number number(const char *text) {
  char *end = nullptr;
  const Number value = std::strtoull(text, &end, 10);
  if (end == text || *end != '\0') wrong_usage();
  return value;
}

}  // namespace

int main(int argc, char **argv) {
  std::setvbuf(stdout, nullptr, _IOLBF, BUFSIZ);
  Number seed = 1;
  bool good = true;
  if (argc == 1) wrong_usage();
  forget();
  watch_signals();
  for (int i = 1; i < argc;) {
    const std::string part = argv[i++];
    if (part == "--expected" || part == "--truncations") {
      std::vector<std::string> names;
      while (i < argc && std::strncmp(argv[i], "--", 2) != 0) names.push_back(argv[i++]);
      good = (part == "--expected" ? compare_expected : compare_truncations)(names) && good;
      continue;
    }
    if (i == argc) wrong_usage();
    const Number value = number(argv[i++]);
    if (part == "--seed") seed = value;
    else if (part == "--traces") good = compare_traces(seed, value) && good;
    else if (part == "--random") good = compare_random(seed, value) && good;
    else if (part == "--faults") good = find_faults(seed, value) && good;
    else wrong_usage();
  }
  return good ? 0 : 1;
}
