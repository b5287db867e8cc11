// The only file that knows how the checker is called.
#include "subject.hpp"

#include <algorithm>
#include <cstdint>

#include "../../include/glubotar.h"
#include "numbers.hpp"

namespace peer {

namespace {

constexpr u8 untouched = 0xA5;      // no byte of any text
constexpr std::size_t margin = 16;  // watched behind the buffer

struct Call {
  std::size_t length;
  Bytes buffer;

  // Whether every byte from a place on is as it was.
  bool kept_from(std::size_t place) const {
    return std::all_of(buffer.begin() + static_cast<std::ptrdiff_t>(place), buffer.end(),
                       [](u8 byte) { return byte == untouched; });
  }

  std::string text() const {
    return std::string(buffer.begin(), buffer.begin() + static_cast<std::ptrdiff_t>(length));
  }
};

Call call(const Bytes &trace, std::size_t room) {
  Call made{0, Bytes(room + margin, untouched)};
  made.length = glubotar_check(trace.data(), trace.size(), made.buffer.data(), room);
  return made;
}

std::string counted(const Bytes &trace, const std::string &text) {
  const glubotar_counts counts = glubotar_count(trace.data(), trace.size());
  return with_numbers(text,
                      {counts.accepted, counts.refused, counts.first_step, counts.first_refusal});
}

std::string plain_text(const Bytes &trace) {
  const std::size_t room = glubotar_text_room(trace.size());
  const Call made = call(trace, room);
  if (made.length > room) return "the room for a text was not enough\n";
  if (!made.kept_from(made.length)) return "bytes behind the text were written\n";
  return made.text();
}

}  // namespace

std::string subject_text(const Bytes &trace) { return counted(trace, plain_text(trace)); }

std::string subject_text_with_limits(const Bytes &trace) {
  const std::string text = plain_text(trace);
  if (glubotar_text_needed(trace.data(), trace.size()) != text.size())
    return "the text has another length than it was said to need\n" + text;
  const Call exact = call(trace, text.size());
  if (exact.length != text.size() || exact.text() != text || !exact.kept_from(text.size()))
    return "a buffer that just holds the text was not filled with it\n" + text;
  const Call less = call(trace, text.size() - 1);
  if (less.length != SIZE_MAX || !less.kept_from(0))
    return "a buffer one byte too short was written or accepted\n" + text;
  return counted(trace, text);
}

}  // namespace peer
