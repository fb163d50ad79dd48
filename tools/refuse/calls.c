/* Has one call of a program fail: the Nth that takes memory, reads, writes or starts a thread; or
 * has the Nth read or write move one byte. It is loaded before the C library (LD_PRELOAD), and told
 * by REFUSE=KIND:N:FILE; N = 0 refuses none. FILE has two numbers of eight bytes: how many calls of
 * that kind there were, and how many blocks are held; also after a crash, since it is mapped. */
#define _GNU_SOURCE
#include <dlfcn.h>
#include <errno.h>
#include <fcntl.h>
#include <pthread.h>
#include <stdatomic.h>
#include <stdint.h>
#include <stdio.h>
#include <stdlib.h>
#include <string.h>
#include <sys/mman.h>
#include <unistd.h>

enum kind { NONE, ALLOC, READ, WRITE, SHORT_READ, SHORT_WRITE, THREAD };

struct told {
  atomic_ullong calls;
  atomic_llong held;
};

static struct told unseen;
static struct told *told = &unseen;
static enum kind counted;
static unsigned long long refused;

static void *(*real_malloc)(size_t);
static void *(*real_calloc)(size_t, size_t);
static void *(*real_realloc)(void *, size_t);
static void (*real_free)(void *);
static ssize_t (*real_read)(int, void *, size_t);
static ssize_t (*real_write)(int, const void *, size_t);
static int (*real_create)(pthread_t *, const pthread_attr_t *, void *(*)(void *), void *);

/* What is taken before the C library's functions are found, and never given back. */
static _Alignas(16) char early[1 << 16];
static size_t early_used;

static void *take_early(size_t size) {
  size_t at = early_used;
  early_used += (size + 15) / 16 * 16;
  return early_used <= sizeof early ? early + at : NULL;
}

static int is_early(const void *block) {
  return (const char *)block >= early && (const char *)block < early + sizeof early;
}

static void find_all(void) {
  if (real_free) return;
  real_malloc = (void *(*)(size_t))dlsym(RTLD_NEXT, "malloc");
  real_calloc = (void *(*)(size_t, size_t))dlsym(RTLD_NEXT, "calloc");
  real_realloc = (void *(*)(void *, size_t))dlsym(RTLD_NEXT, "realloc");
  real_read = (ssize_t(*)(int, void *, size_t))dlsym(RTLD_NEXT, "read");
  real_write = (ssize_t(*)(int, const void *, size_t))dlsym(RTLD_NEXT, "write");
  real_create = (int (*)(pthread_t *, const pthread_attr_t *, void *(*)(void *), void *))dlsym(
      RTLD_NEXT, "pthread_create");
  real_free = (void (*)(void *))dlsym(RTLD_NEXT, "free");
}

static __attribute__((constructor)) void begin(void) {
  static const char *const kinds[] = {"none",       "alloc",       "read",  "write",
                                      "short-read", "short-write", "thread"};
  char *how = getenv("REFUSE"), *number, *file;
  find_all();
  if (!how || !(number = strchr(how, ':')) || !(file = strchr(number + 1, ':'))) return;
  size_t length = (size_t)(number - how);
  for (int i = 0; i < 7; i++)
    if (strlen(kinds[i]) == length && !strncmp(kinds[i], how, length)) counted = (enum kind)i;
  refused = strtoull(number + 1, NULL, 10);
  int to = open(file + 1, O_RDWR);
  if (to < 0) return;
  void *at = mmap(NULL, sizeof *told, PROT_READ | PROT_WRITE, MAP_SHARED, to, 0);
  close(to);
  if (at != MAP_FAILED) told = at;
}

/* Whether this call is the one. */
static int is_refused(enum kind kind) {
  return kind == counted && atomic_fetch_add(&told->calls, 1) + 1 == refused;
}

static void *held(void *block) {
  if (block) atomic_fetch_add(&told->held, 1);
  return block;
}

static void *no_memory(void) {
  errno = ENOMEM;
  return NULL;
}

void *malloc(size_t size) {
  if (!real_free) return take_early(size);
  return is_refused(ALLOC) ? no_memory() : held(real_malloc(size));
}

void *calloc(size_t count, size_t size) {
  if (!real_free) return take_early(count * size);
  return is_refused(ALLOC) ? no_memory() : held(real_calloc(count, size));
}

void *realloc(void *block, size_t size) {
  if (block == NULL) return malloc(size);
  if (is_early(block)) {
    void *moved = malloc(size);
    if (moved) memcpy(moved, block, size);
    return moved;
  }
  return is_refused(ALLOC) ? no_memory() : real_realloc(block, size);
}

void free(void *block) {
  if (block == NULL || is_early(block)) return;
  atomic_fetch_sub(&told->held, 1);
  real_free(block);
}

ssize_t read(int from, void *bytes, size_t length) {
  if (is_refused(READ)) return errno = EIO, -1;
  return real_read(from, bytes, length > 1 && is_refused(SHORT_READ) ? 1 : length);
}

ssize_t write(int to, const void *bytes, size_t length) {
  if (is_refused(WRITE)) return errno = EIO, -1;
  return real_write(to, bytes, length > 1 && is_refused(SHORT_WRITE) ? 1 : length);
}

int pthread_create(pthread_t *thread, const pthread_attr_t *attributes, void *(*start)(void *),
                   void *given) {
  return is_refused(THREAD) ? EAGAIN : real_create(thread, attributes, start, given);
}
