/* Glubotar for C and C++: the barrier checker as functions.
 *
 * A trace is one byte, the number of warps, then steps. The answer is the text
 * that the program prints for it: a line for every step and an `end` line, each
 * with a newline, without a final zero byte. Any bytes are a legal argument.
 *
 *     glubotar_counts counts = glubotar_count(trace, trace_len);
 *     if (counts.refused != 0)
 *         printf("step %u: line %u\n", counts.first_step, counts.first_refusal);
 *
 *     size_t room = glubotar_text_room(trace_len);
 *     uint8_t *text = malloc(room);
 *     size_t len = glubotar_check(trace, trace_len, text, room);
 *     fwrite(text, 1, len, stdout);
 *
 * A pointer may be null where its length is 0; else it has as many bytes as its
 * length says. The functions keep nothing between calls and may be called from any
 * thread.
 *
 * `rt lib` in crates/glubotar_c proves them and writes out/libglubotar_c.a there, for
 * x86-64 only. From the repository, or where Glubotar is installed (a prefix that
 * pkg-config doesn't know goes into PKG_CONFIG_PATH, as PREFIX/lib/pkgconfig):
 *
 *     cc -O2 -Iinclude main.c crates/glubotar_c/out/libglubotar_c.a
 *     cc -O2 main.c $(pkg-config --cflags --libs glubotar)
 */
#ifndef GLUBOTAR_H
#define GLUBOTAR_H

#include <stddef.h>
#include <stdint.h>

#define GLUBOTAR_VERSION "1.0.0"
#define GLUBOTAR_VERSION_MAJOR 1
#define GLUBOTAR_VERSION_MINOR 0
#define GLUBOTAR_VERSION_PATCH 0

#ifdef __cplusplus
extern "C" {
#endif

/* The numbers of a text: A and B of its line `end A B`, and N and R of its first
 * line `N no R`. Where no line is refused both are 0; where the trace is refused
 * before its steps, its line is `0 no R` and N is 0. */
typedef struct glubotar_counts {
  uint32_t accepted;
  uint32_t refused;
  uint32_t first_step;
  uint32_t first_refusal;
} glubotar_counts;

/* The numbers of the text of the trace, without the text. */
glubotar_counts glubotar_count(const uint8_t *trace, size_t trace_len);

/* The room that is enough for the text of any trace of this length. */
size_t glubotar_text_room(size_t trace_len);

/* The length of the text of the trace; it takes as long as the text itself. */
size_t glubotar_text_needed(const uint8_t *trace, size_t trace_len);

/* Writes the text of the trace to the start of `text` and answers its length.
 * Where the text is longer than `text_len`, writes nothing and answers SIZE_MAX.
 * The two may not overlap. */
size_t glubotar_check(const uint8_t *trace, size_t trace_len, uint8_t *text, size_t text_len);

#ifdef __cplusplus
}
#endif

#endif
