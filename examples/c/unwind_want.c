/* Each call of a library of sections that takes memory, with each of its allocations refused in
 * turn: that is told as want of memory, nothing was done, and nothing stays held in the end.
 * Status 0: all is so. */
enum outcome { DONE, REFUSED, WRONG };
#define NOT_SO WRONG
#include "check.h"
#include "heap_calls.h"
#include "unwind_c.h"
#include "worked_section.h"

static const unwind_limits limits = {.nodes = 40, .loads = 4, .low = (uint64_t)0 - 0x80000000};

/* The allocation of the call itself that is refused, and how many it made. */
static unsigned fails_at, taken;

static void refuse(void) { heap_count_from_here(fails_at); }

static void refuse_no_more(void) {
  taken = heap_taken;
  heap_count_from_here(0);
}

static unwind_told put(unwind_writer *writer, uint64_t key, uint64_t at) {
  unwind_told told;
  unwind_c_register(*writer, key, 7, at, section_bytes, sizeof section_bytes, &told, writer);
  return told;
}

static enum outcome make(void) {
  unwind_writer writer = {0};
  refuse();
  uint64_t told = unwind_c_new(&limits, &writer);
  refuse_no_more();
  if (told != UNWIND_NEW) {
    CHECK(told == UNWIND_NEW_NO_MEMORY && writer.at == NULL);
    return REFUSED;
  }
  unwind_c_drop(writer);
  return DONE;
}

/* Under a new key, beside another section, and above it under the same key. */
static enum outcome register_at(uint64_t key, uint64_t at) {
  unwind_writer writer = {0};
  CHECK(unwind_c_new(&limits, &writer) == UNWIND_NEW);
  CHECK(put(&writer, 1, 0x2000).kind == UNWIND_DONE);
  uint32_t left = unwind_c_left(writer, &writer);
  refuse();
  unwind_told told = put(&writer, key, at);
  refuse_no_more();
  bool is_done = told.kind == UNWIND_DONE;
  CHECK(is_done || told.kind == UNWIND_NO_MEMORY);
  CHECK(unwind_c_due(writer, &writer) == (is_done ? 4 : 2));
  CHECK(is_done || (told.last_number == 0 && unwind_c_left(writer, &writer) == left));
  unwind_c_deregister(writer, key, &told, &writer);
  CHECK(told.kind == (is_done || key == 1 ? UNWIND_DONE : UNWIND_UNKNOWN));
  unwind_c_drop(writer);
  return is_done ? DONE : REFUSED;
}

static enum outcome beside(void) { return register_at(2, 0x3000); }

static enum outcome over(void) { return register_at(2, 0x2000); }

static enum outcome above(void) { return register_at(1, 0x3000); }

/* It frees memory, and takes none. */
static enum outcome give_up(void) {
  unwind_writer writer = {0};
  unwind_told told;
  CHECK(unwind_c_new(&limits, &writer) == UNWIND_NEW);
  CHECK(put(&writer, 1, 0x2000).kind == UNWIND_DONE);
  CHECK(put(&writer, 1, 0x3000).kind == UNWIND_DONE);
  refuse();
  unwind_c_deregister(writer, 1, &told, &writer);
  unwind_c_deregister(writer, 1, &told, &writer);
  refuse_no_more();
  CHECK(told.kind == UNWIND_DONE && taken == 0);
  unwind_c_drop(writer);
  return DONE;
}

/* A section that isn't moved stands where it stood. */
static enum outcome move(void) {
  unwind_writer writer = {0}, into = {0};
  unwind_told told;
  CHECK(unwind_c_new(&limits, &writer) == UNWIND_NEW);
  CHECK(unwind_c_new(&limits, &into) == UNWIND_NEW);
  CHECK(put(&writer, 1, 0x2000).kind == UNWIND_DONE);
  refuse();
  unwind_c_move(writer, into, 1, &told, &writer, &into);
  refuse_no_more();
  bool is_done = told.kind == UNWIND_DONE;
  CHECK(is_done || told.kind == UNWIND_NO_MEMORY);
  CHECK(unwind_c_due(writer, &writer) == (is_done ? 0 : 2));
  CHECK(unwind_c_due(into, &into) == (is_done ? 2 : 0));
  unwind_c_drop(writer);
  unwind_c_drop(into);
  return is_done ? DONE : REFUSED;
}

/* Whoever makes a reader goes on, and one that is left frees the library. */
static enum outcome make_readers(void) {
  unwind_writer writer = {0};
  unwind_reader first = {0}, second = {0};
  CHECK(unwind_c_new(&limits, &writer) == UNWIND_NEW);
  refuse();
  bool has_first = unwind_c_reader(writer, &first, &writer);
  bool has_both = has_first && unwind_c_reader_again(first, &second, &first);
  refuse_no_more();
  CHECK(has_first == (first.at != NULL) && has_both == (second.at != NULL));
  CHECK(put(&writer, 1, 0x2000).kind == UNWIND_DONE);
  unwind_c_drop(writer);
  if (has_both) CHECK(unwind_c_reader_drop(second) == 0);
  if (has_first) CHECK(unwind_c_reader_drop(first) == 0);
  return has_both ? DONE : REFUSED;
}

/* How many allocations were refused in turn. */
static unsigned refused;

static enum outcome each_refused(enum outcome (*call)(void)) {
  for (fails_at = 1;; fails_at++, refused++) {
    enum outcome outcome = call();
    CHECK(outcome != WRONG && heap_held == 0);
    CHECK(outcome == (taken < fails_at ? DONE : REFUSED));
    if (outcome == DONE) return DONE;
  }
}

int main(void) {
  enum outcome (*const calls[])(void) = {make, beside, over, above, give_up, move, make_readers};
  for (size_t i = 0; i < sizeof calls / sizeof *calls; i++) CHECK(each_refused(calls[i]) == DONE);
  printf("unwind_want: %u allocations refused, all told\n", refused);
  return 0;
}
