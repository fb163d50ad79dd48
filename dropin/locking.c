/* Updates take one mutex with all signals blocked, and a fork takes it too: so no lock of a library
 * is ever held by a thread that a handler interrupted, or that a forked child doesn't have. Nothing
 * of the program's own is read meanwhile, whose memory a handler may have to make readable. */
#define _GNU_SOURCE
#include "dropin.h"
#include <errno.h>
#include <limits.h>
#include <linux/futex.h>
#include <pthread.h>
#include <signal.h>
#include <stdio.h>
#include <sys/syscall.h>
#include <time.h>
#include <unistd.h>

/* What pthread_atfork calls with a library's own handle, so that its handlers go when it is
 * finished: without one they stay to the end. */
int __register_atfork(void (*before)(void), void (*parent)(void), void (*child)(void), void *);

/* The signals and the error number of the thread that has the mutex. */
static pthread_mutex_t mutex = PTHREAD_MUTEX_INITIALIZER;
static sigset_t blocked_before;
static int error_before;
static bool forks_are_watched;

/* How many updates have ended, for which lookups may be waiting. */
static _Atomic uint32_t ended, waiting;
uint32_t ended_updates(void) { return atomic_load(&ended); }

/* Sleeps until an update ends after so many; for a moment only, since one may be long. It is no
 * call at which a thread can be cancelled. */
void await_update(uint32_t after) {
  static const struct timespec moment = {0, 250000};
  const int error = errno;
  atomic_fetch_add(&waiting, 1);
  syscall(SYS_futex, &ended, FUTEX_WAIT_PRIVATE, after, &moment, NULL, 0);
  atomic_fetch_sub(&waiting, 1);
  errno = error;
}

static void tell_who_waits(void) {
  atomic_fetch_add(&ended, 1);
  if (atomic_load(&waiting) != 0)
    syscall(SYS_futex, &ended, FUTEX_WAKE_PRIVATE, INT_MAX, NULL, NULL, 0);
}

static void after_fork(void) {
  atomic_store(&waiting, 0);
  renew_slots();
  end_update();
}

void begin_update(void) {
  int error = errno;
  sigset_t all, before;
  sigfillset(&all);
  pthread_sigmask(SIG_SETMASK, &all, &before);
  pthread_mutex_lock(&mutex);
  blocked_before = before;
  error_before = error;
  if (!forks_are_watched)
    forks_are_watched = !__register_atfork(begin_update, end_update, after_fork, NULL);
}

/* Handlers that are registered before the program's take the mutex after its own locks, and let go
 * of it before: so what its handlers wait for may be within an update, and they may update. */
#pragma GCC diagnostic ignored "-Wprio-ctor-dtor"
__attribute__((constructor(0))) static void watch_forks(void) {
  begin_update();
  end_update();
}

void end_update(void) {
  end_what_left();
  sigset_t before = blocked_before;
  const int error = error_before;
  pthread_mutex_unlock(&mutex);
  tell_who_waits();
  errno = error;
  pthread_sigmask(SIG_SETMASK, &before, NULL);
}

/* By no call at which a thread can be cancelled. */
void say(const char *what, const void *where) {
  const int error = errno;
  char line[128];
  const int length = snprintf(line, sizeof line, "libfovradus_unwind: %s %p\n", what, where);
  syscall(SYS_write, STDERR_FILENO, line, length);
  errno = error;
}
