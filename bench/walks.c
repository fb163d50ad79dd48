/* Walks of this program's own stack in one process: frames_c_walk over bytes that are lent and row
 * tables, libgcc's _Unwind_Backtrace, and libunwind's steps where LIBUNWIND is defined. Of each the
 * least time of a frame is printed, and calls of malloc while ours walks. Status 1: they differ.
 *
 *   cc -O2 -fno-optimize-sibling-calls -DLIBUNWIND -Icrates/frames_c/include -Iexamples/c \
 *     bench/walks.c FOLDER/libfovradus_frames.a -Wl,--wrap=malloc,--wrap=realloc,--wrap=free \
 *     -lgcc_s -lunwind -o walks
 *   walks DEPTH
 *
 * libunwind has an _Unwind_Backtrace of its own, which serves where it is linked before libgcc_s. */
#define _GNU_SOURCE
#include "heap_calls.h"
#include "loaded_objects.h"
#include <stdio.h>
#include <time.h>
#include <unistd.h>
#include <unwind.h>
#ifdef LIBUNWIND
#define UNW_LOCAL_ONLY
#include <libunwind.h>
#endif

enum { FRAMES = 512, TURNS = 25, TURN = 20000000 };
static frames_modules modules;
static uint64_t ours[FRAMES], theirs[FRAMES];
static size_t count_theirs;

static uint64_t now(void) {
  struct timespec time;
  clock_gettime(CLOCK_PROCESS_CPUTIME_ID, &time);
  return (uint64_t)time.tv_sec * 1000000000 + (uint64_t)time.tv_nsec;
}

/* ---- each walk, which gives the number of its frames ---- */

/* Those that a call keeps; getcontext would ask the system for the mask of signals, too. */
static inline __attribute__((always_inline)) void take_own_registers(frames_frame *frame) {
  frame->at_instruction = 1;
  __asm__ volatile("movq %%rbx, 24(%0)\n\tmovq %%rbp, 48(%0)\n\tmovq %%rsp, 56(%0)\n\t"
                   "movq %%r12, 96(%0)\n\tmovq %%r13, 104(%0)\n\tmovq %%r14, 112(%0)\n\t"
                   "movq %%r15, 120(%0)\n\tleaq 1f(%%rip), %%rax\n\tmovq %%rax, 128(%0)\n1:"
                   :
                   : "r"(frame->columns)
                   : "rax", "memory");
}

static __attribute__((noinline)) size_t walk_ours(void) {
  static frames_frame frame;
  static frames_line lines[FRAMES];
  static size_t count;
  take_own_registers(&frame);
  const uint8_t *low = (const uint8_t *)frame.columns[7], *top = (const uint8_t *)environ;
  frames_c_walk(modules, frame.columns[7], low, (size_t)(top - low), &frame, lines, FRAMES, &count,
                &modules);
  for (size_t i = 0; i < count; i++) ours[i] = lines[i].pc;
  return count;
}

static _Unwind_Reason_Code keep(struct _Unwind_Context *context, void *unused) {
  (void)unused;
  if (count_theirs < FRAMES) theirs[count_theirs++] = _Unwind_GetIP(context);
  return _URC_NO_REASON;
}

static __attribute__((noinline)) size_t walk_libgcc(void) {
  count_theirs = 0;
  _Unwind_Backtrace(keep, NULL);
  return count_theirs;
}

#ifdef LIBUNWIND
static __attribute__((noinline)) size_t walk_libunwind(void) {
  unw_context_t context;
  unw_cursor_t cursor;
  unw_word_t pc;
  count_theirs = 0;
  unw_getcontext(&context);
  unw_init_local(&cursor, &context);
  do {
    unw_get_reg(&cursor, UNW_REG_IP, &pc);
    theirs[count_theirs++] = pc;
  } while (count_theirs < FRAMES && unw_step(&cursor) > 0);
  return count_theirs;
}
#endif

static size_t (*const walks[])(void) = {
    walk_ours,
    walk_libgcc,
#ifdef LIBUNWIND
    walk_libunwind,
#endif
};
static const char *const names[] = {"frames_c_walk", "_Unwind_Backtrace", "libunwind"};
enum { WALKS = sizeof walks / sizeof *walks };

/* ---- the stack ---- */

/* Each walk has the same frames from its caller's caller on. A walk may leave its own out, or end
 * one frame earlier at the program's first. */
static bool agrees(size_t count) {
  for (size_t i = 0; i < 3; i++)
    for (size_t k = 0; k < 3; k++) {
      size_t both = count - i < count_theirs - k ? count - i : count_theirs - k;
      if (both + 3 > count && memcmp(ours + i, theirs + k, both * 8) == 0) return true;
    }
  return false;
}

static __attribute__((noinline)) int measure(void) {
  double best[WALKS];
  size_t frames[WALKS];
  int differ = 0;
  for (int turn = 0; turn < TURNS; turn++)
    for (int i = 0; i < WALKS; i++) {
      uint64_t begin = now(), passed, walked = 0;
      do {
        frames[i] = walks[i]();
        walked += frames[i];
        passed = now() - begin;
      } while (passed < TURN);
      double time = (double)passed / (double)walked;
      if (turn == 0 || time < best[i]) best[i] = time;
      if (i > 0 && turn == 0 && !agrees(frames[0])) differ = 1;
    }
  heap_count_from_here(0);
  walk_ours();
  unsigned calls = heap_calls();
  for (int i = 0; i < WALKS; i++)
    printf("%-18s %4zu frames, %7.1f ns a frame, ours %.2f of it\n", names[i], frames[i], best[i],
           best[0] / best[i]);
  printf("calls of malloc, realloc and free: %u%s\n", calls, differ ? ", FRAMES DIFFER" : "");
  return differ || calls != 0;
}

/* Frames of two kinds, one of which has registers to restore. */
static __attribute__((noinline)) int nested(int depth, int a) {
  if (depth == 0) return measure();
  int b = a * 3 + depth, c = a * 5 + depth;
  __asm__ volatile("" : "+r"(b), "+r"(c));
  int answer = nested(depth - 1, b);
  __asm__ volatile("" : "+r"(b), "+r"(c));
  return answer;
}

int main(int argc, char **argv) {
  read_objects();
  if (!frames_c_modules(&modules)) return 2;
  for (int i = 0; i < count_objects; i++) {
    struct object *object = &objects[i];
    frames_row_table table = {0};
    if (frames_c_row_table(object->section, &table, &object->section)) continue;
    if (frames_c_modules_add_rows(modules, object->first, object->last - object->first, table,
                                  &modules))
      return 3;
  }
  return nested(argc > 1 ? atoi(argv[1]) : 10, 1);
}
