/* Counts the calls of malloc, realloc and free, and has one of them fail where a test asks for it.
 * A program includes this once, and is linked with -Wl,--wrap=malloc,--wrap=realloc,--wrap=free. */
#ifndef HEAP_CALLS_H
#define HEAP_CALLS_H

#include <stddef.h>

void *__real_malloc(size_t size);
void *__real_realloc(void *block, size_t size);
void __real_free(void *block);

/* Those that took memory, those that gave it back, and which of the first is to fail; 0 is none. */
static unsigned heap_taken, heap_freed, heap_fails_at;

/* How many blocks are held. */
static long heap_held;

static inline void heap_count_from_here(unsigned fails_at) {
  heap_taken = heap_freed = 0;
  heap_fails_at = fails_at;
}

static inline unsigned heap_calls(void) { return heap_taken + heap_freed; }

void *__wrap_malloc(size_t size) {
  void *block = ++heap_taken == heap_fails_at ? NULL : __real_malloc(size);
  heap_held += block != NULL;
  return block;
}

void *__wrap_realloc(void *block, size_t size) {
  void *moved = ++heap_taken == heap_fails_at ? NULL : __real_realloc(block, size);
  heap_held += block == NULL && moved != NULL;
  return moved;
}

void __wrap_free(void *block) {
  heap_freed++;
  heap_held -= block != NULL;
  __real_free(block);
}

#endif
