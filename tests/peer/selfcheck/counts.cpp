// The rest of the checker's functions where bench/stub.cpp stands for it: what they
// answer is read from its text.
#include <string>
#include <vector>

#include "../../../include/glubotar.h"
#include "../numbers.hpp"

size_t glubotar_text_needed(const uint8_t *trace, size_t trace_len) {
  std::vector<uint8_t> text(glubotar_text_room(trace_len));
  return glubotar_check(trace, trace_len, text.data(), text.size());
}

glubotar_counts glubotar_count(const uint8_t *trace, size_t trace_len) {
  std::vector<uint8_t> text(glubotar_text_room(trace_len));
  const size_t length = glubotar_check(trace, trace_len, text.data(), text.size());
  const auto found = peer::numbers_in(std::string(text.begin(), text.begin() + length));
  return {static_cast<uint32_t>(found.accepted), static_cast<uint32_t>(found.refused),
          static_cast<uint32_t>(found.first_step), static_cast<uint32_t>(found.first_refusal)};
}
