/* Walks this program's own stack from a saved context, by the sections of the objects that are
 * loaded, and prints the frames beside those of backtrace(). Status 1: they differ. */
#define _GNU_SOURCE
#include "loaded_objects.h"
#include <execinfo.h>
#include <stdio.h>
#include <unistd.h>

enum { FRAMES = 32 };

/* One frame from another, by whichever object's section covers the address. */
static uint64_t step(frames_frame *frame, frames_memory *memory) {
  uint64_t outcome = FRAMES_NO_FDE;
  for (int i = 0; i < count_objects && outcome == FRAMES_NO_FDE; i++)
    outcome =
        frames_c_step(objects[i].section, *memory, frame, &objects[i].section, memory);
  return outcome;
}

static __attribute__((noinline)) int walk(void) {
  void *expected[FRAMES];
  int depth = backtrace(expected, FRAMES), differ = 0;
  ucontext_t context;
  getcontext(&context);
  frames_frame frame;
  take_registers(&context, &frame);
  const uint8_t *top = (const uint8_t *)environ, *low = (const uint8_t *)frame.columns[7];
  frames_memory memory = {0};
  if (!frames_c_memory(&memory)) return 1;
  frames_c_memory_push(memory, frame.columns[7], low, (size_t)(top - low), &memory);
  uint64_t outcome = FRAMES_FRAME;
  for (int i = 0; i < depth; i++) {
    printf("%2d %#18llx %18p\n", i, (unsigned long long)frame.columns[16], expected[i]);
    if (i > 0 && frame.columns[16] != (uintptr_t)expected[i]) differ = 1;
    outcome = step(&frame, &memory);
    if (outcome != FRAMES_FRAME && i + 1 < depth) {
      differ = 1;
      break;
    }
  }
  printf("%d frames, then %llu\n", depth, (unsigned long long)outcome);
  frames_c_memory_free(memory);
  return differ;
}

static __attribute__((noinline)) int nested(int depth) {
  return depth == 0 ? walk() : nested(depth - 1) + 0 * depth;
}

int main(void) {
  read_objects();
  int differ = nested(3);
  for (int i = 0; i < count_objects; i++) frames_c_free(objects[i].section);
  return differ;
}
