/* A target of libFuzzer: the checker of journals. An input is a script and, after its first `end`
 * line, a journal's text; the checker's main is called as `check_main` with the input as standard
 * input, and with a file in memory as standard output. What it answers must have the form of
 * docs/FORMATS.md, the same where it is asked again, and none may take longer than 30 milliseconds
 * and 100 nanoseconds for each byte that is read. */
#define PROGRAM_MAIN check_main
#define PROGRAM_WORDS "check_main"
#include "program.h"

enum { LAWFUL = 0, UNLAWFUL = 1, SCRIPT = 3 };

/* `lawful N`, alone. */
static bool is_lawful(size_t length) {
  char *after = NULL;
  if (strncmp(written, "lawful ", 7) != 0) return false;
  strtoul(written + 7, &after, 10);
  return after > written + 7 && after == written + length - 1 && *after == '\n';
}

/* `line L: FLAW`, alone, with one of the flaws. */
static bool is_flaw(size_t length) {
  static const char *const flaws[] = {"form",   "number", "count", "history",
                                      "answer", "order",  "round", "trace"};
  if (!is_line_with("line ", length)) return false;
  const char *flaw = strchr(written, ':') + 2;
  for (size_t i = 0; i < sizeof flaws / sizeof *flaws; i++) {
    size_t letters = strlen(flaws[i]);
    if (strncmp(flaw, flaws[i], letters) == 0 && flaw[letters] == '\n') return true;
  }
  return false;
}

static bool is_due(int status, size_t length) {
  switch (status) {
    case LAWFUL:
      return is_lawful(length);
    case UNLAWFUL:
      return is_flaw(length);
    case SCRIPT:
      return is_line_with("script line ", length);
    default:
      return false;
  }
}

int LLVMFuzzerTestOneInput(const uint8_t *input, size_t size) {
  uint64_t least = UINT64_MAX, limit = SLOWER * (30000000 + 100 * (uint64_t)size);
  size_t length = 0;
  for (int i = 0; i < TRIES && least > limit; i++) {
    static char before[64];
    uint64_t took = 0;
    int status = run(input, size, &length, &took);
    HOLD(is_due(status, length) && length < sizeof before);
    HOLD(i == 0 || strcmp(before, written) == 0);
    strcpy(before, written);
    if (took < least) least = took;
  }
  hold_time("journals.c", least, limit, size, length);
  return 0;
}
