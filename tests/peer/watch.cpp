#include "watch.hpp"

#include <fcntl.h>
#include <unistd.h>

#include <csignal>
#include <cstring>

namespace peer {

namespace {

const Bytes *volatile current = nullptr;
const char *volatile current_name = "no input";

bool put(int file, const void *bytes, std::size_t count) {
  return ::write(file, bytes, count) == static_cast<ssize_t>(count);
}

bool say(const char *text) { return put(STDERR_FILENO, text, std::strlen(text)); }

// Creates the file: one that is there already holds an earlier difference, which is kept.
bool keep(const Bytes &input) {
  const int file = open(kept_trace, O_WRONLY | O_CREAT | O_EXCL, 0666);
  return file >= 0 && put(file, input.data(), input.size()) && close(file) == 0;
}

// Calls nothing but what a signal may interrupt, and ends as the signal would have.
void broken_off(int number) {
  say("FAILED: ");
  say(current_name);
  say(": a signal ended the check");
  if (current != nullptr) say(keep(*current) ? ", its input is difference.trace" : "");
  say("\n");
  raise(number);  // is taken on return, when the default is back
}

}  // namespace

void watch_signals() {
  static unsigned char stack[65536];  // a stack of its own, since an overflow is a crash too
  stack_t other{};
  other.ss_sp = stack;
  other.ss_size = sizeof stack;
  sigaltstack(&other, nullptr);
  struct sigaction action {};
  action.sa_handler = broken_off;
  action.sa_flags = static_cast<int>(SA_ONSTACK | SA_RESETHAND);
  for (int number : {SIGABRT, SIGBUS, SIGFPE, SIGILL, SIGSEGV, SIGTERM, SIGTRAP})
    sigaction(number, &action, nullptr);
}

Checked::Checked(const Bytes &input, const std::string &what) {
  current_name = what.c_str();
  current = &input;
}

Checked::~Checked() {
  current = nullptr;
  current_name = "no input";
}

}  // namespace peer
