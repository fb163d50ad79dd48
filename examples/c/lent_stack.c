/* Walks this program's own stack from a saved context in one call, by bytes that are lent and the
 * row tables of the objects that are loaded, and prints the frames beside those of backtrace().
 * Status 1: they differ. */
#define _GNU_SOURCE
#include "loaded_objects.h"
#include <execinfo.h>
#include <stdio.h>
#include <unistd.h>

enum { FRAMES = 32 };

static __attribute__((noinline)) int walk(frames_modules *modules) {
  /* What the call writes doesn't stand in the stack that is lent. */
  static frames_frame frame;
  static frames_line lines[FRAMES];
  static frames_modules list;
  static size_t count;
  void *expected[FRAMES];
  int depth = backtrace(expected, FRAMES), differ = 0;
  ucontext_t context;
  getcontext(&context);
  take_registers(&context, &frame);
  const uint8_t *top = (const uint8_t *)environ, *low = (const uint8_t *)frame.columns[7];
  list = *modules;
  uint64_t end = frames_c_walk(list, frame.columns[7], low, (size_t)(top - low), &frame, lines,
                               FRAMES, &count, &list);
  *modules = list;
  for (int i = 0; i < depth; i++) {
    uint64_t pc = i < (int)count ? lines[i].pc : 0;
    printf("%2d %#18llx %18p\n", i, (unsigned long long)pc, expected[i]);
    if (i > 0 && pc != (uintptr_t)expected[i]) differ = 1;
  }
  printf("%zu frames, then %llu\n", count, (unsigned long long)end);
  return differ;
}

static __attribute__((noinline)) int nested(int depth, frames_modules *modules) {
  return depth == 0 ? walk(modules) : nested(depth - 1, modules) + 0 * depth;
}

/* Adds the row tables of all objects. */
static bool add_objects(frames_modules *modules) {
  for (int i = 0; i < count_objects; i++) {
    struct object *object = &objects[i];
    frames_row_table table = {0};
    if (frames_c_row_table(object->section, &table, &object->section) != FRAMES_ROW_TABLE_MADE)
      continue;
    if (frames_c_modules_add_rows(*modules, object->first, object->last - object->first, table,
                                  modules) != FRAMES_MODULE_ADDED)
      return false;
  }
  return true;
}

int main(void) {
  frames_modules modules = {0}, share = {0};
  read_objects();
  if (!frames_c_modules(&modules)) return 1;
  int wrong = !add_objects(&modules) || !frames_c_modules_share(modules, &share, &modules);
  for (int i = 0; i < count_objects; i++) frames_c_free(objects[i].section);
  frames_c_modules_free(modules);
  wrong = wrong || nested(3, &share);
  if (share.at != NULL) frames_c_modules_free(share);
  return wrong;
}
