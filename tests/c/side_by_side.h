/* Threads that begin at once, and are waited for. */
#ifndef SIDE_BY_SIDE_H
#define SIDE_BY_SIDE_H

#include <pthread.h>
#include <sched.h>
#include <stdatomic.h>
#include <stdbool.h>

enum { MOST_THREADS = 32 };

static pthread_t threads[MOST_THREADS];
static int started;
static atomic_bool may_begin;

/* What each thread calls first. */
static inline void begin_together(void) {
  while (!atomic_load(&may_begin)) sched_yield();
}

static inline bool start(void *(*run)(void *), void *given) {
  return started < MOST_THREADS && pthread_create(&threads[started++], NULL, run, given) == 0;
}

/* Lets all that were started begin, and waits for their ends. */
static inline void together(void) {
  atomic_store(&may_begin, true);
  while (started > 0) pthread_join(threads[--started], NULL);
  atomic_store(&may_begin, false);
}

#endif
