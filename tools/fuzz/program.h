/* Calls a built program's main over an input: standard input is a file in memory that holds it, and
 * so is standard output. The target says by PROGRAM_MAIN and PROGRAM_WORDS which main, and with
 * which words of the command line. */
#define _GNU_SOURCE
#include "hold.h"
#include <setjmp.h>
#include <stdbool.h>
#include <stdint.h>
#include <stdio.h>
#include <stdlib.h>
#include <string.h>
#include <sys/mman.h>
#include <sys/stat.h>
#include <time.h>
#include <unistd.h>

enum { TRIES = 5, ROOM = 1 << 24 };

/* The program's main, by another name; it ends by _exit, which has another name too. */
int PROGRAM_MAIN(int count, char **words);

static jmp_buf ended;
static int ended_with;

_Noreturn void unwind_exit(int status) {
  ended_with = status;
  longjmp(ended, 1);
}

static int source, sink;
static char written[ROOM + 1];

/* The words of the command line, in the place of those of this program. */
static const char *const words[] = {PROGRAM_WORDS};
enum { WORDS = sizeof words / sizeof *words };

long rattle_arg_count(void) { return WORDS; }

long rattle_arg(size_t at, char *room, size_t size) {
  if (at >= WORDS) return -1;
  size_t length = strlen(words[at]);
  if (length > size) return -2;
  memcpy(room, words[at], length);
  return (long)length;
}

int LLVMFuzzerInitialize(int *count, char ***given) {
  (void)count, (void)given;
  source = memfd_create("source", 0);
  sink = memfd_create("sink", 0);
  return source < 0 || sink < 0;
}

static uint64_t now(void) {
  struct timespec at;
  clock_gettime(CLOCK_PROCESS_CPUTIME_ID, &at);
  return (uint64_t)at.tv_sec * 1000000000 + (uint64_t)at.tv_nsec;
}

/* Runs it once; its status, and how long that took. What it writes is in `written`. */
static int run(const uint8_t *input, size_t size, size_t *length, uint64_t *took) {
  HOLD(ftruncate(source, 0) == 0 && ftruncate(sink, 0) == 0);
  HOLD(pwrite(source, input, size, 0) == (ssize_t)size);
  lseek(source, 0, SEEK_SET), lseek(sink, 0, SEEK_SET);
  volatile int from_before = dup(0), to_before = dup(1);
  dup2(source, 0), dup2(sink, 1);
  char *given[WORDS + 1];
  memcpy(given, words, sizeof words);
  given[WORDS] = NULL;
  volatile uint64_t from = now();
  int status = setjmp(ended) ? ended_with : PROGRAM_MAIN(WORDS, given);
  *took = now() - from;
  dup2(from_before, 0), dup2(to_before, 1);
  close(from_before), close(to_before);
  struct stat is;
  fstat(sink, &is);
  *length = (size_t)is.st_size < ROOM ? (size_t)is.st_size : ROOM;
  HOLD(pread(sink, written, *length, 0) == (ssize_t)*length);
  written[*length] = 0;
  return status;
}

/* What was written is `BEFORE N: AFTER`, alone, with N above 0 and small letters after it. */
static bool is_line_with(const char *before, size_t length) {
  size_t front = strlen(before);
  char *after = NULL;
  if (strncmp(written, before, front) != 0) return false;
  unsigned long number = strtoul(written + front, &after, 10);
  return number > 0 && strncmp(after, ": ", 2) == 0 && after[2] >= 'a' && after[2] <= 'z' &&
         memchr(written, '\n', length) == written + length - 1;
}

/* An input that takes longer than the limit each time ends the run. */
static void hold_time(const char *target, uint64_t least, uint64_t limit, size_t size,
                      size_t length) {
  if (least <= limit) return;
  fprintf(stderr, "%s: took %llu ns for %zu bytes read and %zu written\n", target,
          (unsigned long long)least, size, length);
  abort();
}
