// Has the main thread run on processor 0, and each thread that is begun on 1, 2, 3, 1, .. in turn, as
// the peers' harness binds its threads: left alone, two of four stay on one processor for longer than a
// lap lasts.
//   gcc -O2 -shared -fPIC bind_threads.c -o bind_threads.so; LD_PRELOAD=./bind_threads.so PROGRAM
#define _GNU_SOURCE
#include <dlfcn.h>
#include <pthread.h>
#include <sched.h>
#include <stdatomic.h>

static atomic_uint begun;

static void bind_to(pthread_t thread, unsigned processor) {
  cpu_set_t one;
  CPU_ZERO(&one);
  CPU_SET(processor, &one);
  pthread_setaffinity_np(thread, sizeof one, &one);
}

__attribute__((constructor)) static void bind_main(void) { bind_to(pthread_self(), 0); }

int pthread_create(pthread_t *thread, const pthread_attr_t *attributes, void *(*start)(void *),
                   void *argument) {
  int (*create)(pthread_t *, const pthread_attr_t *, void *(*)(void *), void *);
  *(void **)&create = dlsym(RTLD_NEXT, "pthread_create");
  int answer = create(thread, attributes, start, argument);
  if (answer == 0) bind_to(*thread, 1 + atomic_fetch_add(&begun, 1) % 3);
  return answer;
}
