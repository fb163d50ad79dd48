/* A target of libFuzzer: the program's scripts. An input is a script; the program's main is called
 * as `unwind_main run` with the input as standard input, and with a file in memory as standard
 * output. What it answers must have the form of docs/FORMATS.md, and none may take longer than 30
 * milliseconds, 50 microseconds for each thread, and 100 nanoseconds for each byte that is read or
 * written. */
#define PROGRAM_MAIN unwind_main
#define PROGRAM_WORDS "unwind_main", "run"
#include "program.h"

enum { DONE = 0, SCRIPT = 3 };

static unsigned threads_in(const uint8_t *script, size_t size) {
  unsigned count = 0;
  for (const uint8_t *at = script; (at = memmem(at, size - (size_t)(at - script), "thread\n", 7));
       at++)
    count++;
  return count;
}

/* The last line is `updates N`. */
static bool is_journal(size_t length) {
  if (length < 10 || length == ROOM) return length == ROOM;
  const char *last = memrchr(written, '\n', length - 1);
  return written[length - 1] == '\n' && strncmp(last ? last + 1 : written, "updates ", 8) == 0;
}

int LLVMFuzzerTestOneInput(const uint8_t *script, size_t size) {
  uint64_t least = UINT64_MAX, limit = 0;
  size_t length = 0;
  for (int i = 0; i < TRIES && least > limit; i++) {
    uint64_t took = 0;
    int status = run(script, size, &length, &took);
    HOLD(status == DONE ? is_journal(length)
                        : status == SCRIPT && is_line_with("script line ", length));
    limit = 30000000 + 50000 * (uint64_t)threads_in(script, size) + 100 * (uint64_t)(size + length);
    limit *= SLOWER;
    if (took < least) least = took;
  }
  hold_time("scripts.c", least, limit, size, length);
  return 0;
}
