/* The libraries that keep sections, in order: a section goes into the first that has room for it
 * and from which its FDEs are near. A full one is emptied into a larger one behind it, each section
 * put there before it is taken here: so a lookup, which goes along them, finds it. One of the
 * largest stays, and behind it one of MANY_NODES begins. */
#include "dropin.h"
#include <sched.h>
#include <stdalign.h>
#include <string.h>

enum { FEWEST_NODES = 64, MANY_NODES = 4096, MOST_NODES = 16384, MOST_LOADS = 1024 };
enum { MOST_LIBRARIES = 14, PATIENCE = 64 };
/* Sections of more records are read plainly: each range that is put takes a microsecond and more,
 * in which forks and signals wait. One of few is put without asking whether it will fit. */
enum { MOST_RECORDS = 2048, FEW_RECORDS = 64 };
/* A library's FDEs stand so far above its `low` from their code: NEAR is within 2 GB of it. */
static const uint64_t WINDOW = UINT32_MAX, HALF = (uint64_t)1 << 31, NEAR = -((uint64_t)1 << 31);

struct library {
  struct leaving leaving;
  _Atomic(struct library *) next;
  uint8_t apart[LINE]; /* what lookups read from what updates write */
  unwind_writer writer;
  unwind_limits limits;
  uint32_t refuses; /* UNWIND_FULL or UNWIND_SPENT, from then until a section is taken out; or 0 */
  unwind_reader readers[SLOTS + 1][LINE / sizeof(unwind_reader)]; /* a slot's begins a line */
};
static struct {
  alignas(LINE) _Atomic(struct library *) library;
} first;

static struct library *first_library(void) { return atomic_load(&first.library); }
static struct library *next_library(struct library *at) { return atomic_load(&at->next); }

static bool make_reader(struct library *library, unsigned slot) {
  library->readers[slot][0] = (unwind_reader){0};
  return unwind_c_reader(library->writer, library->readers[slot], &library->writer);
}

static void end_library(void *me) {
  struct library *library = me;
  for (unsigned slot = 0; slot <= SLOTS; slot++)
    if (library->readers[slot][0].at) unwind_c_reader_drop(library->readers[slot][0]);
  if (library->writer.at) unwind_c_drop(library->writer);
  give_memory(library);
}

/* NULL: there is no memory. */
static struct library *make_library(uint32_t nodes, uint64_t low) {
  struct library *made = take_memory(sizeof *made);
  if (made == NULL) return NULL;
  memset(made, 0, sizeof *made);
  made->limits = (unwind_limits){nodes, nodes < MOST_LOADS ? nodes : MOST_LOADS, low};
  bool is_whole = unwind_c_new(&made->limits, &made->writer) == UNWIND_NEW;
  is_whole = is_whole && make_reader(made, SLOTS);
  /* two whose blocks may share a line are of slots far from each other */
  for (unsigned count = 0; is_whole && count < SLOTS; count++)
    is_whole = make_reader(made, count % 2 * (SLOTS / 2) + count / 2);
  if (is_whole) return made;
  end_library(made);
  return NULL;
}

/* Those of so many nodes and more. */
static void drop_empty_ones(const struct library *but, uint32_t nodes) {
  struct library *library;
  for (_Atomic(struct library *) *at = &first.library; (library = atomic_load(at)) != NULL;) {
    uint64_t none[1];
    if (library == but || library->limits.nodes < nodes ||
        unwind_c_keys(library->writer, none, 0, &library->writer) != 0) {
      at = &library->next;
    } else {
      atomic_store(at, atomic_load(&library->next));
      leave(&library->leaving, end_library);
    }
  }
}

/* Until one is refused, which stays where it is. */
static void move_all(struct library *from, struct library *into) {
  unwind_told told = {.kind = UNWIND_DONE};
  uint64_t key;
  while (told.kind == UNWIND_DONE && unwind_c_keys(from->writer, &key, 1, &from->writer) != 0) {
    atomic_fetch_add(&takes, 1);
    unwind_c_move(from->writer, into->writer, key, &told, &from->writer, &into->writer);
  }
}

/* How many nodes the library behind a full one gets. Their memory is taken at once, so where there
 * are many not too many more. What is spent has to have room there, and what is largest stays. */
static uint32_t nodes_behind(const struct library *full) {
  const uint32_t nodes = full->limits.nodes;
  if (nodes < MANY_NODES) return nodes * 8;
  if (nodes < MOST_NODES / 3) return nodes * 3;
  return nodes == MOST_NODES && full->refuses != UNWIND_SPENT ? MANY_NODES : MOST_NODES;
}

/* Three nodes are enough for each ten ranges; more may fit. */
static bool does_fit(struct library *library, size_t records) {
  if (records <= FEW_RECORDS) return true;
  const uint32_t stand = unwind_c_due(library->writer, &library->writer);
  return stand + records <= library->limits.nodes / 3 * 10;
}

/* Behind the others, for what they refused: a larger one for what `full` has, where there is a full
 * one. NULL: there are too many, or there is no memory. */
static struct library *add_library(struct library *full, uint64_t low) {
  const uint32_t nodes = full != NULL ? nodes_behind(full) : FEWEST_NODES;
  drop_empty_ones(NULL, 0);
  _Atomic(struct library *) *last = &first.library;
  unsigned libraries = 0;
  for (; atomic_load(last) != NULL; last = &atomic_load(last)->next) libraries++;
  struct library *added = libraries < MOST_LIBRARIES ? make_library(nodes, low) : NULL;
  if (added == NULL) return NULL;
  atomic_store(last, added);
  if (full != NULL && nodes >= full->limits.nodes) {
    move_all(full, added);
    drop_empty_ones(added, 0);
  }
  return added;
}

/* A section as it was read before the update that puts it. */
struct reading {
  const struct section *section;
  size_t records, length; /* with the length of 0 at its end */
  const uint8_t *bytes;
};
static struct reading measure(const struct section *section) {
  struct reading reading = {.section = section};
  const struct record *at = section->begin;
  for (; at->length != 0; at = after(at)) reading.records++;
  reading.length = (size_t)((const uint8_t *)&at->back - (const uint8_t *)section->begin);
  return reading;
}

static bool is_full(uint32_t kind) { return kind == UNWIND_FULL || kind == UNWIND_SPENT; }

static unwind_told put_into(struct library *library, const struct reading *reading) {
  unwind_told told = {.kind = library->refuses};
  if (told.kind == 0 && !does_fit(library, reading->records)) told.kind = UNWIND_FULL;
  if (told.kind != 0) return told;
  const struct section *section = reading->section;
  const uint64_t key = (uintptr_t)section->begin;
  unwind_c_register(library->writer, key, (uintptr_t)section->ob, key, reading->bytes,
                    reading->length, &told, &library->writer);
  if (is_full(told.kind)) library->refuses = told.kind;
  return told;
}

/* Whether a larger one might take what was refused, or one from which it is near. That its FDEs are
 * at NEAR was but a guess; where they are far from the first of them, no library takes it. */
static bool is_another_better(const struct library *library, uint32_t kind) {
  if (is_full(kind)) return library->limits.nodes < MOST_NODES;
  return kind == UNWIND_FAR && library->limits.low == NEAR;
}

/* False: no library takes it, however large, and it is to be read plainly. */
static bool put_reading(const struct reading *reading) {
  struct library *full = NULL, *added = NULL;
  uint64_t low = NEAR;
  for (struct library *at = first_library();; at = next_library(at)) {
    if (at == NULL) {
      at = added = add_library(full, low);
      full = NULL;
    }
    if (at == NULL) return false;
    const unwind_told told = put_into(at, reading);
    if (told.kind == UNWIND_DONE) {
      /* the address after the last one of all is told as 0; without ranges there are no updates */
      if (told.first_number != 0) widen_bounds(told.lowest, told.end - 1);
      return true;
    }
    if (told.kind == UNWIND_REFUSED || told.kind == UNWIND_NO_MEMORY) return false;
    if (at == added && !is_another_better(at, told.kind)) {
      drop_empty_ones(NULL, 0);
      return false;
    }
    if (is_full(told.kind)) {
      full = at;
      low = at->limits.low;
    } else if (told.kind == UNWIND_FAR && full == NULL) {
      const uint64_t distance = at->limits.low + told.distance;
      low = distance - NEAR < WINDOW ? NEAR : distance - HALF;
    }
  }
}

bool put_section(const struct section *section) {
  enum { SMALL = 1024 };
  uint8_t small[SMALL];
  struct reading reading = measure(section);
  if (reading.records > MOST_RECORDS) return false;
  const size_t room = reading.length < LARGE ? LARGE : reading.length;
  uint8_t *copy = reading.length <= SMALL ? small : take_memory(room);
  if (copy == NULL) return false;
  reading.bytes = memcpy(copy, section->begin, reading.length);
  begin_update();
  const bool is_put = put_reading(&reading);
  end_update();
  if (copy != small) give_memory(copy);
  return is_put;
}

/* The count of takes is raised before, and once: nothing is put before the section is out. A large
 * library that became empty goes. */
bool take_section(const void *begin, void **ob) {
  uint64_t none[1];
  if (first_library() != NULL) atomic_fetch_add(&takes, 1);
  for (struct library *at = first_library(); at != NULL; at = next_library(at)) {
    unwind_told told;
    unwind_c_deregister(at->writer, (uintptr_t)begin, &told, &at->writer);
    if (told.kind != UNWIND_DONE) continue;
    at->refuses = 0;
    *ob = (void *)(uintptr_t)told.note;
    if (unwind_c_keys(at->writer, none, 0, &at->writer) == 0)
      drop_empty_ones(NULL, FEWEST_NODES + 1);
    return true;
  }
  return false;
}

const void *find_in_libraries(unsigned slot, uint64_t pc, struct dwarf_eh_bases *bases) {
  for (struct library *at = first_library(); at != NULL; at = next_library(at)) {
    unwind_reader *reader = at->readers[slot];
    unwind_found found;
    for (unsigned tries = 0;; tries++) {
      const uint32_t ended = tries < 2 * PATIENCE ? 0 : ended_updates();
      unwind_c_find(*reader, pc, &found, reader);
      if (found.kind != UNWIND_AGAIN) break;
      if (tries < PATIENCE) __builtin_ia32_pause();
      else if (tries < 2 * PATIENCE) sched_yield();
      else await_update(ended); /* yielding lets no thread run that has a lower priority */
    }
    if (found.kind == UNWIND_MISS) continue;
    *bases = (struct dwarf_eh_bases){NULL, NULL, (void *)(uintptr_t)found.first};
    return (const void *)(uintptr_t)found.fde;
  }
  return NULL;
}

/* Those of a thread that a forked child doesn't have are left in the midst of a call. */
bool renew_readers(unsigned slot) {
  for (struct library *at = first_library(); at != NULL; at = next_library(at))
    if (!make_reader(at, slot)) return false;
  return true;
}
