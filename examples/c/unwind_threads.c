/* unwind_threads [TIMES]: of two sections over the same addresses one stands, and the other comes
 * and goes, while four threads look one of these addresses up; first the one in the first half
 * stands, then the other. Status 0: each lookup that was answered found an FDE. */
#define _GNU_SOURCE
#include "unwind_c.h"
#include "worked_section.h"
#include <pthread.h>
#include <sched.h>
#include <stdatomic.h>
#include <stdio.h>
#include <stdlib.h>

enum { READERS = 4, FIRST = 1, SECOND = 2 };

static uint32_t times = 20000;
static atomic_bool done;

struct thread {
  pthread_t id;
  unwind_reader reader;
  uint64_t found, again, wrong;
};

static void *look_up(void *given) {
  struct thread *me = given;
  unwind_found found;
  while (!atomic_load(&done)) {
    unwind_c_find(me->reader, 0x1010, &found, &me->reader);
    if (found.kind == UNWIND_AGAIN) {
      me->again++;
      sched_yield();
    } else if (found.kind == UNWIND_MISS || found.first != 0x1000 || found.fde != 0x2018) {
      me->wrong++;
    } else {
      me->found++;
    }
  }
  return NULL;
}

static bool put(unwind_writer *writer, uint64_t key) {
  unwind_told told;
  unwind_c_register(*writer, key, 0, 0x2000, section_bytes, sizeof section_bytes, &told, writer);
  return told.kind == UNWIND_DONE;
}

static bool take(unwind_writer *writer, uint64_t key) {
  unwind_told told;
  unwind_c_deregister(*writer, key, &told, writer);
  return told.kind == UNWIND_DONE;
}

/* The second comes and goes beside the first, in the other half; then it stays, and the first one
 * goes and comes. */
static bool change(unwind_writer *writer) {
  for (uint32_t i = 0; i < times; i++)
    if (!put(writer, SECOND) || !take(writer, SECOND)) return false;
  if (!put(writer, SECOND)) return false;
  for (uint32_t i = 0; i < times; i++)
    if (!take(writer, FIRST) || !put(writer, FIRST)) return false;
  return true;
}

int main(int count, char **words) {
  static struct thread threads[READERS];
  const unwind_limits limits = {.nodes = 64, .loads = 2, .low = (uint64_t)0 - 0x80000000};
  unwind_writer writer = {0};
  uint64_t found = 0, again = 0, wrong = 0;
  if (count > 1) times = (uint32_t)strtoul(words[1], NULL, 10);
  if (unwind_c_new(&limits, &writer) != UNWIND_NEW || !put(&writer, FIRST)) return 2;
  for (int i = 0; i < READERS; i++) {
    if (!unwind_c_reader(writer, &threads[i].reader, &writer)) return 2;
    if (pthread_create(&threads[i].id, NULL, look_up, &threads[i])) return 2;
  }
  bool changed = change(&writer);
  atomic_store(&done, true);
  unwind_c_drop(writer);
  for (int i = 0; i < READERS; i++) {
    pthread_join(threads[i].id, NULL);
    found += threads[i].found, again += threads[i].again, wrong += threads[i].wrong;
    unwind_c_reader_drop(threads[i].reader);
  }
  printf("%lu found, %lu again, %lu wrong\n", found, again, wrong);
  return changed && found > 0 && wrong == 0 ? 0 : 1;
}
