/* Calls every function of glubotar.h, as C and as C++: the traces that it is given,
 * each NAME.trace with its text in NAME.expected, and what no trace shows. */
#include <stdio.h>
#include <stdlib.h>
#include <string.h>

#include "glubotar.h"

enum { most = 1 << 22 }; /* bytes of a file, above every text */

static const char *about = "";
static int failures = 0;

#define EXPECT(is) expect((is) != 0, #is, __LINE__)

static void expect(int good, const char *sentence, int line) {
  if (good) return;
  failures++;
  printf("FAILED: tests/c/calls.c:%d: %s: %s\n", line, about, sentence);
}

static int all_are(const uint8_t *bytes, size_t len, uint8_t byte) {
  size_t i;
  for (i = 0; i < len; i++)
    if (bytes[i] != byte) return 0;
  return 1;
}

static int same(glubotar_counts a, glubotar_counts b) {
  return a.accepted == b.accepted && a.refused == b.refused && a.first_step == b.first_step &&
         a.first_refusal == b.first_refusal;
}

/* The numbers of a text, read from its lines. */
static glubotar_counts counts_in(const char *text) {
  glubotar_counts counts = {0, 0, 0, 0};
  int found = 0;
  const char *line;
  for (line = text; *line != '\0'; line = strchr(line, '\n') + 1) {
    unsigned n, r;
    if (!found && sscanf(line, "%u no %u", &n, &r) == 2) {
      counts.first_step = n;
      counts.first_refusal = r;
      found = 1;
    }
    if (sscanf(line, "end %u %u", &n, &r) == 2) {
      counts.accepted = n;
      counts.refused = r;
    }
  }
  return counts;
}

/* All functions on one trace, whose text is known. */
static void check_trace(const uint8_t *trace, size_t trace_len, const char *expected) {
  const size_t len = strlen(expected);
  const size_t room = glubotar_text_room(trace_len);
  uint8_t *text = (uint8_t *)malloc(room + 1);
  if (text == NULL) exit(2);

  EXPECT(room >= len);
  EXPECT(glubotar_text_needed(trace, trace_len) == len);
  EXPECT(same(glubotar_count(trace, trace_len), counts_in(expected)));

  memset(text, 0xA5, room + 1);
  EXPECT(glubotar_check(trace, trace_len, text, room) == len);
  EXPECT(memcmp(text, expected, len) == 0);
  EXPECT(all_are(text + len, room + 1 - len, 0xA5));

  memset(text, 0xA5, room + 1);
  EXPECT(glubotar_check(trace, trace_len, text, len) == len);
  EXPECT(memcmp(text, expected, len) == 0);
  EXPECT(all_are(text + len, room + 1 - len, 0xA5));

  memset(text, 0xA5, room + 1);
  EXPECT(glubotar_check(trace, trace_len, text, len - 1) == SIZE_MAX);
  EXPECT(all_are(text, room + 1, 0xA5));
  EXPECT(glubotar_check(trace, trace_len, NULL, 0) == SIZE_MAX);
  free(text);
}

/* The bytes of a file, with a zero byte after them. */
static char *contents(const char *name, size_t *len) {
  FILE *file = fopen(name, "rb");
  char *bytes = (char *)malloc(most);
  if (file == NULL || bytes == NULL) {
    printf("FAILED: %s can't be read\n", name);
    exit(2);
  }
  *len = fread(bytes, 1, most - 1, file);
  bytes[*len] = '\0';
  fclose(file);
  return bytes;
}

static void check_file(const char *name) {
  const size_t stem = strlen(name) - strlen(".trace");
  char expected_name[4096];
  size_t trace_len, text_len;
  char *trace, *text;
  if (stem > sizeof expected_name - 16) exit(2);
  memcpy(expected_name, name, stem);
  strcpy(expected_name + stem, ".expected");
  trace = contents(name, &trace_len);
  text = contents(expected_name, &text_len);
  about = name;
  check_trace((const uint8_t *)trace, trace_len, text);
  free(trace);
  free(text);
}

static void check_version(void) {
  char version[64];
  about = "the version";
  sprintf(version, "%d.%d.%d", GLUBOTAR_VERSION_MAJOR, GLUBOTAR_VERSION_MINOR,
          GLUBOTAR_VERSION_PATCH);
  EXPECT(strcmp(version, GLUBOTAR_VERSION) == 0);
  EXPECT(strcmp(version, "1.0.0") == 0);
}

int main(int argc, char **argv) {
  static uint8_t longest[65537];
  int i;
  check_version();
  about = "no byte";
  check_trace(NULL, 0, "0 no 2\nend 0 1\n");
  check_trace(longest, 0, "0 no 2\nend 0 1\n");
  about = "no warps";
  check_trace(longest, 1, "0 no 4\nend 0 1\n");
  about = "a byte too many";
  longest[0] = 1;
  check_trace(longest, sizeof longest, "0 no 21\nend 0 1\n");
  about = "an unknown kind after the warps";
  check_trace(longest, 2, "1 no 1\nend 0 1\n");
  about = "no step";
  check_trace(longest, 1, "end 0 0\n");
  for (i = 1; i < argc; i++) check_file(argv[i]);
  if (failures == 0) printf("%d traces and their numbers: as expected\n", argc - 1);
  return failures == 0 ? 0 : 1;
}
