// The quick engine under the checker's names, to link where there is no archive.
#include "../include/glubotar.h"
#include "fast.hpp"

size_t glubotar_text_room(size_t trace_len) { return fast::text_room(trace_len); }

size_t glubotar_check(const uint8_t *trace, size_t trace_len, uint8_t *text, size_t text_len) {
  // By turns, so that a comparison tries all three.
  constexpr fast::Check checks[] = {fast::Check::rows, fast::Check::masks, fast::Check::none};
  return fast::check(trace, trace_len, text, text_len, checks[trace_len % 3]);
}
