/* Each call of a library of sections once, and each kind of answer that can be had, worked out by
 * hand. Status 0: all are so. */
#include "check.h"
#include "heap_calls.h"
#include "unwind_c.h"
#include "worked_section.h"
#include <string.h>

/* Where the worked section stands at another address than 0x2000, its ranges move with it. Its
 * first 56 bytes are a section of one FDE. */
enum { ONE = 56, TWO = 84, CALLS = 67108864 };
enum { DONE = UNWIND_DONE, FULL = UNWIND_FULL, OVERLAP = UNWIND_OVERLAP, FAR = UNWIND_FAR };

static const uint8_t no_fdes[4];

static const unwind_limits limits = {.nodes = 4, .loads = 4, .low = (uint64_t)0 - 0x80000000};

static bool is_told(unwind_told told, uint32_t kind, uint32_t first, uint32_t last, uint64_t note) {
  return told.kind == kind && told.first_number == first && told.last_number == last &&
         told.note == note && told.distance == 0 && told.refusal.kind == 0 &&
         told.refusal.start == 0 && told.refusal.at == 0 && told.refusal.detail == 0;
}

static bool reaches(unwind_told told, uint64_t lowest, uint64_t end) {
  return told.lowest == lowest && told.end == end;
}

static unwind_told put(unwind_writer *writer, uint64_t key, uint64_t at, size_t length) {
  unwind_told told;
  unwind_c_register(*writer, key, key + 100, at, section_bytes, length, &told, writer);
  return told;
}

static unwind_told take(unwind_writer *writer, uint64_t key) {
  unwind_told told;
  unwind_c_deregister(*writer, key, &told, writer);
  return told;
}

/* Whether the FDE is found, with the range and the half. */
static bool finds(unwind_reader *reader, uint64_t pc, uint32_t kind, uint64_t first, uint64_t size,
                  uint64_t fde) {
  unwind_found found;
  unwind_c_find(*reader, pc, &found, reader);
  return found.kind == kind && found.first == first && found.size == size && found.fde == fde;
}

static bool misses(unwind_reader *reader, uint64_t pc) {
  return finds(reader, pc, UNWIND_MISS, 0, 0, 0);
}

static int refusals(void) {
  unwind_writer none = {0};
  unwind_limits wrong = limits;
  wrong.nodes = 3;
  CHECK(unwind_c_new(&wrong, &none) == UNWIND_NEW_NODES && none.at == NULL);
  wrong.nodes = 16385;
  CHECK(unwind_c_new(&wrong, &none) == UNWIND_NEW_NODES && none.at == NULL);
  wrong.nodes = 4, wrong.loads = 0;
  CHECK(unwind_c_new(&wrong, &none) == UNWIND_NEW_LOADS && none.at == NULL);
  wrong.loads = 1025;
  CHECK(unwind_c_new(&wrong, &none) == UNWIND_NEW_LOADS && none.at == NULL);
  return 0;
}

/* One section comes and goes. */
static int one_section(unwind_writer *writer, unwind_reader *reader) {
  unwind_found found;
  uint64_t keys[2] = {7, 7};
  unwind_told told = take(writer, 1);
  CHECK(is_told(told, UNWIND_UNKNOWN, 0, 0, 0) && reaches(told, 0, 0));
  CHECK(unwind_c_keys(*writer, keys, 2, writer) == 0 && keys[0] == 7);
  told = put(writer, 1, 0x2000, TWO);
  CHECK(is_told(told, DONE, 1, 2, 0) && reaches(told, 0x1000, 0x1030));
  CHECK(unwind_c_keys(*writer, keys, 2, writer) == 1 && keys[0] == 1 && keys[1] == 7);
  CHECK(unwind_c_left(*writer, writer) == CALLS - 2 && unwind_c_due(*writer, writer) == 2);
  unwind_c_find(*reader, 0x101f, &found, reader);
  CHECK(found.kind == UNWIND_REGISTERED && found.registered == 2 && found.loaded == 0);
  CHECK(found.first == 0x1000 && found.size == 0x20 && found.fde == 0x2018);
  CHECK(finds(reader, 0x1020, UNWIND_REGISTERED, 0x1020, 0x10, 0x2038));
  CHECK(misses(reader, 0xfff) && misses(reader, 0x1030));
  CHECK(is_told(take(writer, 2), UNWIND_UNKNOWN, 0, 0, 0));
  told = take(writer, 1);
  CHECK(is_told(told, DONE, 3, 4, 101) && reaches(told, 0, 0));
  CHECK(unwind_c_keys(*writer, keys, 0, writer) == 0);
  unwind_c_find(*reader, 0x101f, &found, reader);
  CHECK(found.kind == UNWIND_MISS && found.registered == 4 && found.loaded == 4);
  CHECK(unwind_c_due(*writer, writer) == 0);
  return 0;
}

/* An FDE at 0 has no range, and a section without FDEs none. Both stand. */
static int without_ranges(unwind_writer *writer, unwind_reader *reader) {
  unwind_told told;
  told = put(writer, 1, 0x1000, TWO);
  CHECK(is_told(told, DONE, 5, 5, 0) && reaches(told, 0x20, 0x30));
  CHECK(misses(reader, 0) && misses(reader, 0x1f));
  CHECK(finds(reader, 0x20, UNWIND_REGISTERED, 0x20, 0x10, 0x1038));
  CHECK(is_told(put(writer, 1, 0x1000, ONE), DONE, 0, 0, 0));
  unwind_c_register(*writer, 2, 7, 0x3000, no_fdes, 4, &told, writer);
  CHECK(is_told(told, DONE, 0, 0, 0) && reaches(told, UINT64_MAX, 0));
  unwind_c_register(*writer, 2, 8, 0x3000, section_bytes, 0, &told, writer);
  CHECK(is_told(told, DONE, 0, 0, 0));
  CHECK(is_told(take(writer, 2), DONE, 0, 0, 8) && is_told(take(writer, 2), DONE, 0, 0, 7));
  CHECK(is_told(take(writer, 1), DONE, 0, 0, 101) && is_told(take(writer, 1), DONE, 6, 6, 101));
  CHECK(is_told(take(writer, 1), UNWIND_UNKNOWN, 0, 0, 0) && misses(reader, 0x20));
  return 0;
}

/* The same section twice: the second stands in the other half, and either may go first. */
static int twice(unwind_writer *writer, unwind_reader *reader) {
  unwind_found found;
  for (uint64_t first = 1; first <= 2; first++) {
    CHECK(put(writer, 1, 0x2000, TWO).kind == DONE && put(writer, 2, 0x2000, TWO).kind == DONE);
    CHECK(finds(reader, 0x1010, UNWIND_REGISTERED, 0x1000, 0x20, 0x2018));
    unwind_told told = take(writer, first);
    CHECK(is_told(told, DONE, told.last_number - 1, told.last_number, first + 100));
    unwind_c_find(*reader, 0x1010, &found, reader);
    CHECK(found.kind == (first == 1 ? UNWIND_LOADED : UNWIND_REGISTERED));
    CHECK(found.first == 0x1000 && found.size == 0x20 && found.fde == 0x2018);
    CHECK(found.registered == (first == 1 ? 0 : told.last_number));
    CHECK(found.loaded == (first == 1 ? told.last_number : 0));
    CHECK(take(writer, 3 - first).kind == DONE && misses(reader, 0x1010));
  }
  return 0;
}

/* Under one key the last goes first. */
static int one_key(unwind_writer *writer, unwind_reader *reader) {
  CHECK(put(writer, 1, 0x2000, ONE).kind == DONE && put(writer, 1, 0x3000, ONE).kind == DONE);
  CHECK(take(writer, 1).kind == DONE && misses(reader, 0x2000));
  CHECK(finds(reader, 0x1000, UNWIND_REGISTERED, 0x1000, 0x20, 0x2018));
  CHECK(take(writer, 1).kind == DONE && misses(reader, 0x1000));
  return 0;
}

/* Two that cross, and a third over addresses of both; then one whose first range has room and whose
 * second has none. */
static int crossing(unwind_writer *writer, unwind_reader *reader) {
  CHECK(put(writer, 1, 0x2000, TWO).kind == DONE && put(writer, 2, 0x2010, TWO).kind == DONE);
  CHECK(finds(reader, 0x1010, UNWIND_REGISTERED, 0x1000, 0x20, 0x2018));
  CHECK(finds(reader, 0x102f, UNWIND_REGISTERED, 0x1020, 0x10, 0x2038));
  CHECK(finds(reader, 0x1030, UNWIND_REGISTERED, 0x1030, 0x10, 0x2048));
  CHECK(is_told(put(writer, 3, 0x2018, TWO), OVERLAP, 0, 0, 0));
  CHECK(is_told(put(writer, 3, 0x1ff0, ONE), DONE, 31, 31, 0));
  CHECK(is_told(put(writer, 4, 0x1fd8, TWO), OVERLAP, 0, 0, 0) && misses(reader, 0xfd8));
  CHECK(unwind_c_due(*writer, writer) == 5 && is_told(take(writer, 4), UNWIND_UNKNOWN, 0, 0, 0));
  CHECK(finds(reader, 0xff0, UNWIND_LOADED, 0xff0, 0x20, 0x2008));
  CHECK(take(writer, 1).kind == DONE && take(writer, 3).kind == DONE && misses(reader, 0x1000));
  CHECK(finds(reader, 0x1010, UNWIND_LOADED, 0x1010, 0x20, 0x2028));
  CHECK(take(writer, 2).kind == DONE && misses(reader, 0x1010));
  return 0;
}

/* The first refusal of bytes, and the first FDE that is too far. */
static int refused(unwind_writer *writer) {
  uint8_t bytes[TWO];
  unwind_told told;
  memcpy(bytes, section_bytes, TWO);
  bytes[41] = 0x3f;
  unwind_c_register(*writer, 1, 5, 0x2000, bytes, TWO, &told, writer);
  CHECK(told.kind == UNWIND_REFUSED && told.first_number == 0 && told.note == 0);
  CHECK(told.refusal.kind == 9 && told.refusal.start == 24);
  CHECK(told.refusal.at == 41 && told.refusal.detail == 0x3f);
  /* the second FDE's code is 2 GB above it, and then a byte more */
  const uint8_t above[4] = {0xf8, 0xff, 0xff, 0x7f};
  memcpy(bytes, section_bytes, TWO);
  memcpy(bytes + 64, above, 4);
  unwind_c_register(*writer, 1, 5, 0x2000, bytes, TWO, &told, writer);
  CHECK(told.kind == DONE && take(writer, 1).kind == DONE);
  bytes[64] = 0xf9;
  unwind_c_register(*writer, 1, 5, 0x2000, bytes, TWO, &told, writer);
  CHECK(told.kind == FAR && told.distance == UINT64_MAX && told.first_number == 0);
  CHECK(unwind_c_due(*writer, writer) == 0 && take(writer, 1).kind == UNWIND_UNKNOWN);
  return 0;
}

/* Four nodes: the root and two leaves of five take three, and the twenty-first range no fifth. */
static int full(unwind_writer *writer, unwind_reader *reader) {
  for (uint64_t key = 1; key < 20; key++)
    CHECK(put(writer, key, 0x2000 + 0x40 * key, ONE).kind == DONE);
  uint32_t left = unwind_c_left(*writer, writer);
  CHECK(is_told(put(writer, 20, 0x2500, TWO), FULL, 0, 0, 0));
  CHECK(unwind_c_left(*writer, writer) < left && unwind_c_due(*writer, writer) == 19);
  CHECK(misses(reader, 0x1500) && take(writer, 20).kind == UNWIND_UNKNOWN);
  for (uint64_t key = 1; key < 20; key++) {
    uint64_t at = 0x2000 + 0x40 * key;
    CHECK(finds(reader, at - 0x1000, UNWIND_REGISTERED, at - 0x1000, 0x20, at + 24));
  }
  CHECK(put(writer, 20, 0x2500, ONE).kind == DONE);
  uint64_t keys[20], sum = 0;
  CHECK(unwind_c_keys(*writer, keys, 19, writer) == 20);
  CHECK(unwind_c_keys(*writer, keys, 20, writer) == 20);
  for (int i = 0; i < 20; i++) sum += keys[i];
  CHECK(sum == 210);
  return 0;
}

static unwind_told move(unwind_writer *writer, unwind_writer *into, uint64_t key) {
  unwind_told told;
  unwind_c_move(*writer, *into, key, &told, writer, into);
  return told;
}

/* Out of the full one, and back into it. */
static int moves(unwind_writer *writer, unwind_reader *reader) {
  unwind_writer other = {0}, near = {0};
  unwind_reader there = {0};
  unwind_limits far = limits;
  CHECK(unwind_c_new(&limits, &other) == UNWIND_NEW);
  CHECK(unwind_c_reader(other, &there, &other));
  CHECK(is_told(move(writer, &other, 99), UNWIND_UNKNOWN, 0, 0, 0));
  CHECK(is_told(move(writer, &other, 20), DONE, 1, 1, 120));
  CHECK(misses(reader, 0x1500) && finds(&there, 0x1500, UNWIND_REGISTERED, 0x1500, 0x20, 0x2518));
  CHECK(put(&other, 21, 0x2600, TWO).kind == DONE);
  uint32_t due = unwind_c_due(other, &other);
  CHECK(is_told(move(&other, writer, 21), FULL, 0, 0, 0));
  CHECK(unwind_c_due(other, &other) == due && unwind_c_due(*writer, writer) == 19);
  CHECK(finds(&there, 0x1620, UNWIND_REGISTERED, 0x1620, 0x10, 0x2638) && misses(reader, 0x1600));
  CHECK(put(&other, 1, 0x2040, ONE).kind == DONE);
  CHECK(is_told(move(writer, &other, 1), DONE, 5, 5, 101) && misses(reader, 0x1040));
  far.low = 0x2000;
  CHECK(unwind_c_new(&far, &near) == UNWIND_NEW);
  unwind_told told = move(&other, &near, 21);
  CHECK(told.kind == FAR && told.distance == (uint64_t)0x1018 - 0x2000);
  CHECK(unwind_c_due(near, &near) == 0 && unwind_c_due(other, &other) == 5);
  unwind_c_drop(near);
  unwind_c_drop(other);
  CHECK(finds(&there, 0x1500, UNWIND_REGISTERED, 0x1500, 0x20, 0x2518));
  CHECK(unwind_c_reader_drop(there) == 5);
  return 0;
}

/* Another reader has seen what one has. */
static int readers(unwind_reader *reader) {
  unwind_reader second = {0};
  unwind_found found, again;
  heap_count_from_here(0);
  unwind_c_find(*reader, 0x1100, &found, reader);
  CHECK(found.kind == UNWIND_REGISTERED && heap_calls() == 0);
  CHECK(unwind_c_reader_again(*reader, &second, reader) && second.at != NULL);
  unwind_c_find(second, 0x1100, &again, &second);
  CHECK(again.kind == found.kind && again.registered == found.registered);
  CHECK(again.first == 0x1100 && again.size == 0x20 && again.fde == 0x2118);
  CHECK(unwind_c_reader_drop(second) == found.registered);
  return 0;
}

/* The place of an entry, whatever is guessed; also where the entries are in no order. */
static int places(void) {
  const unwind_entry table[] = {{-40, 1}, {-8, 2}, {0, 3}, {16, 4}, {16, 5}, {INT32_MAX, 6}};
  const unwind_entry mixed[] = {{5, 1}, {3, 2}, {9, 3}, {1, 4}};
  const int64_t wanted[] = {INT64_MIN, -41, -40, -9, -8, -1, 0, 15, 16, 100, INT32_MAX, INT64_MAX};
  const size_t place[] = {0, 0, 0, 0, 1, 1, 2, 2, 4, 4, 5, 5};
  const size_t guesses[] = {0, 1, 2, 3, 4, 5, 6, 7, SIZE_MAX};
  for (size_t at = 0; at < sizeof place / sizeof *place; at++)
    for (size_t guess = 0; guess < sizeof guesses / sizeof *guesses; guess++) {
      CHECK(unwind_c_place(table, 6, wanted[at], guesses[guess]) == place[at]);
      CHECK(unwind_c_place(table, 1, wanted[at], guesses[guess]) == 0);
      CHECK(unwind_c_place(mixed, 4, wanted[at], guesses[guess]) < 4);
    }
  return 0;
}

/* Ranges are put in order, and each address leads to one that has it. */
static int ranges(void) {
  unwind_range range[] = {{1, 50, 10, 0}, {2, 0, 100, 0}, {3, 70, 0, 0}, {4, 20, 5, 0}, {5, 200, 1, 0}};
  enum { COUNT = sizeof range / sizeof *range };
  const uint64_t at[] = {2, 4, 1, 3, 5};
  unwind_c_order(range, COUNT);
  for (size_t place = 0; place < COUNT; place++) {
    CHECK(range[place].at == at[place]);
    range[place].reach = place < 4 ? 100 : 201;
  }
  CHECK(unwind_c_cover(range, COUNT, 0) == 0 && unwind_c_cover(range, COUNT, 99) == 0);
  CHECK(unwind_c_cover(range, COUNT, 24) == 1 && unwind_c_cover(range, COUNT, 25) == 0);
  CHECK(unwind_c_cover(range, COUNT, 50) == 2 && unwind_c_cover(range, COUNT, 70) == 0);
  CHECK(unwind_c_cover(range, COUNT, 200) == 4 && unwind_c_cover(range, 0, 200) == 0);
  CHECK(unwind_c_cover(range, COUNT, 100) == COUNT && unwind_c_cover(range, COUNT, 201) == COUNT);
  CHECK(unwind_c_cover(range, COUNT, UINT64_MAX) == COUNT);
  return 0;
}

int main(void) {
  unwind_writer writer = {0};
  unwind_reader reader = {0};
  if (refusals() || places() || ranges()) return 1;
  CHECK(unwind_c_new(&limits, &writer) == UNWIND_NEW && unwind_c_left(writer, &writer) == CALLS);
  CHECK(unwind_c_reader(writer, &reader, &writer) && misses(&reader, 0x1000));
  if (one_section(&writer, &reader) || without_ranges(&writer, &reader)) return 1;
  if (twice(&writer, &reader) || one_key(&writer, &reader) || crossing(&writer, &reader)) return 1;
  if (refused(&writer) || full(&writer, &reader) || moves(&writer, &reader)) return 1;
  unwind_c_drop(writer);
  if (readers(&reader)) return 1;
  unwind_c_reader_drop(reader);
  printf("all answers as worked out\n");
  return 0;
}
