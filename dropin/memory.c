/* Memory by mmap alone, also for the proved library: a program's malloc may itself throw, or be
 * what a handler interrupted. It is taken and given back within updates, one at a time, but for
 * what is mapped by itself. */
#define _GNU_SOURCE
#include "dropin.h"
#include <assert.h>
#include <string.h>
#include <sys/mman.h>

/* Before each block stands its size, with this head. Where that is below LARGE the block comes of a
 * chunk, and goes to the list of its size when it is given back; else it is mapped by itself. */
struct head {
  size_t size;
  struct head *next; /* of a block that was given back */
};
enum { UNIT = sizeof(struct head), CHUNK = 16 * LARGE };
static struct head *given_back[LARGE / UNIT];
static uint8_t *chunk;
static size_t chunk_left;

static void *map(size_t size) {
  void *at = mmap(NULL, size, PROT_READ | PROT_WRITE, MAP_PRIVATE | MAP_ANONYMOUS, -1, 0);
  return at == MAP_FAILED ? NULL : at;
}

static struct head *take_small(size_t size) {
  struct head *head = given_back[size / UNIT];
  if (head != NULL) {
    given_back[size / UNIT] = head->next;
    return head;
  }
  if (chunk_left < size) {
    chunk = map(CHUNK);
    chunk_left = chunk != NULL ? CHUNK : 0;
    if (chunk == NULL) return NULL;
  }
  chunk_left -= size;
  return (struct head *)(chunk + chunk_left);
}

/* A block with a multiple of UNIT as its address; NULL where there is no memory. */
void *take_memory(size_t size) {
  if (size > PTRDIFF_MAX) return NULL;
  const size_t whole = sizeof(struct head) + (size + UNIT - 1) / UNIT * UNIT;
  struct head *head = whole < LARGE ? take_small(whole) : map(whole);
  if (head == NULL) return NULL;
  head->size = whole;
  return head + 1;
}

void give_memory(void *block) {
  struct head *head = (struct head *)block - 1;
  if (head->size >= LARGE) {
    munmap(head, head->size);
    return;
  }
  head->next = given_back[head->size / UNIT];
  given_back[head->size / UNIT] = head;
}

/* The three functions by which a Rattle library takes memory. What isn't there is still a pointer,
 * which isn't null. */
struct tried {
  bool ok;
  void *at;
};

struct tried rattle_alloc(size_t size, size_t alignment) {
  assert(alignment <= UNIT);
  void *at = take_memory(size);
  return at != NULL ? (struct tried){true, at} : (struct tried){false, &chunk};
}

struct tried rattle_realloc(void *block, size_t kept, size_t size, size_t alignment) {
  if (size <= ((struct head *)block - 1)->size - UNIT) return (struct tried){true, block};
  const struct tried tried = rattle_alloc(size, alignment);
  if (tried.ok) {
    memcpy(tried.at, block, kept);
    give_memory(block);
  }
  return tried;
}

void rattle_dealloc(void *block) { give_memory(block); }
