/* A lookup leases a slot, in which it has readers for itself, by one compare-and-exchange, and
 * gives it back by one store. It takes the slot of its processor or the next free one: so nothing
 * is owed when a thread begins or ends, a handler in the midst of a lookup has another slot, and a
 * forked child another than those that it finds taken. Where none is free it looks up as an update
 * does, with a slot that only such lookups have: a handler that leaves a lookup by siglongjmp keeps
 * its slot for ever, and all of them may be kept.
 *
 * What is taken out of a list may still be used by who leased a slot before. It ends when each slot
 * was seen free since, for who leases one later can't come to it. */
#define _GNU_SOURCE
#include "dropin.h"
#include <pthread.h>
#include <sched.h>
#include <stdalign.h>

static struct {
  alignas(LINE) _Atomic(pthread_t) owner; /* 0: it is free */
  uint64_t free_at;                       /* how much had left when it was last seen free */
} slots[SLOTS];
/* In the order in which they left: the first, and where the next one is to stand. */
static struct leaving *left, **behind = &left;
static uint64_t departures;

unsigned lease(void) {
  const unsigned first = (unsigned)sched_getcpu();
  for (unsigned next = 0; next < SLOTS; next++) {
    const unsigned slot = (first + next) % SLOTS;
    pthread_t free = 0;
    if (!atomic_load_explicit(&slots[slot].owner, memory_order_relaxed) &&
        atomic_compare_exchange_strong(&slots[slot].owner, &free, pthread_self()))
      return slot;
  }
  begin_update();
  return SLOTS;
}

void give_back(unsigned slot) {
  if (slot == SLOTS) end_update();
  else atomic_store_explicit(&slots[slot].owner, 0, memory_order_release);
}

void leave(struct leaving *what, void (*end)(void *what)) {
  *what = (struct leaving){NULL, ++departures, end};
  *behind = what;
  behind = &what->next;
}

void end_what_left(void) {
  uint64_t least = departures;
  if (left == NULL) return;
  for (unsigned slot = 0; slot < SLOTS; slot++) {
    if (!atomic_load(&slots[slot].owner)) slots[slot].free_at = departures;
    if (slots[slot].free_at < least) least = slots[slot].free_at;
  }
  while (left != NULL && left->since <= least) {
    struct leaving *what = left;
    left = what->next;
    if (left == NULL) behind = &left;
    what->end(what);
  }
}

/* In a forked child: the slots of threads that it doesn't have get new readers. Those of libraries
 * that were leaving are left as they are, for good. */
void renew_slots(void) {
  for (unsigned slot = 0; slot < SLOTS; slot++) {
    pthread_t owner = atomic_load(&slots[slot].owner);
    if (owner == 0 || owner == pthread_self()) continue;
    left = NULL;
    behind = &left;
    if (renew_readers(slot)) give_back(slot);
  }
}
