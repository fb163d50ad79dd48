/* Sections under keys: the FDEs of a worked section and where they are found, bytes that are
 * refused, one section in both halves, and tables of steps with their answers, which were worked
 * out by hand. Status 0: all are so. */
#include "check.h"
#include "unwind_c.h"
#include "worked_section.h"
#include <string.h>

/* The first 56 bytes are a section of one FDE. */
enum { ONE = 56, ALL = sizeof section_bytes, CALLS = 67108864 };

/* FDEs are within 2 GB of their code. */
static const uint64_t near_code = (uint64_t)0 - 0x80000000;

static bool begin(unwind_writer *writer, unwind_reader *reader, uint32_t nodes, uint32_t loads,
                  uint64_t low) {
  const unwind_limits limits = {.nodes = nodes, .loads = loads, .low = low};
  return unwind_c_new(&limits, writer) == UNWIND_NEW && unwind_c_reader(*writer, reader, writer);
}

static void end(unwind_writer writer, unwind_reader reader) {
  unwind_c_drop(writer);
  unwind_c_reader_drop(reader);
}

static unwind_told put(unwind_writer *writer, uint64_t key, uint64_t address, size_t length) {
  unwind_told told;
  unwind_c_register(*writer, key, address, address, section_bytes, length, &told, writer);
  return told;
}

static unwind_told take(unwind_writer *writer, uint64_t key) {
  unwind_told told;
  unwind_c_deregister(*writer, key, &told, writer);
  return told;
}

static unwind_found find(unwind_reader *reader, uint64_t pc) {
  unwind_found found;
  unwind_c_find(*reader, pc, &found, reader);
  return found;
}

static bool is_range(unwind_found found, uint64_t first, uint64_t size, uint64_t fde) {
  return found.first == first && found.size == size && found.fde == fde;
}

static bool is_miss(unwind_found found, uint32_t registered, uint32_t loaded) {
  return found.kind == UNWIND_MISS && found.registered == registered && found.loaded == loaded &&
         is_range(found, 0, 0, 0);
}

/* Each FDE has the addresses that its bytes say, and leads to its place. */
static int a_range_for_each_fde(void) {
  unwind_writer writer = {0};
  unwind_reader reader = {0};
  CHECK(begin(&writer, &reader, 4, 1, near_code));
  CHECK(put(&writer, 1, 0x2000, ALL).kind == UNWIND_DONE);
  CHECK(is_range(find(&reader, 0x1000), 0x1000, 0x20, 0x2018));
  CHECK(is_range(find(&reader, 0x101f), 0x1000, 0x20, 0x2018));
  CHECK(is_range(find(&reader, 0x1020), 0x1020, 0x10, 0x2038));
  CHECK(is_range(find(&reader, 0x102f), 0x1020, 0x10, 0x2038));
  CHECK(is_miss(find(&reader, 0xfff), 2, 2) && is_miss(find(&reader, 0x1030), 2, 2));
  end(writer, reader);
  return 0;
}

/* At 0x1000 the first FDE has the addresses from 0 on. FDEs stand above their code here. */
static int none_for_an_fde_at_0(void) {
  unwind_writer writer = {0};
  unwind_reader reader = {0};
  CHECK(begin(&writer, &reader, 4, 1, 0));
  unwind_told told = put(&writer, 1, 0x1000, ALL);
  CHECK(told.kind == UNWIND_DONE && told.first_number == 1 && told.last_number == 1);
  CHECK(is_range(find(&reader, 0x20), 0x20, 0x10, 0x1038) && is_miss(find(&reader, 0x1f), 1, 1));
  CHECK(is_range(find(&reader, 0x2f), 0x20, 0x10, 0x1038) && is_miss(find(&reader, 0x30), 1, 1));
  end(writer, reader);
  return 0;
}

/* The version of the CIE is 4; and FDEs that are to stand 0x2000 above their code. */
static int bytes_that_are_refused(void) {
  unwind_writer writer = {0};
  unwind_reader reader = {0};
  unwind_told told;
  uint8_t bytes[ALL];
  memcpy(bytes, section_bytes, ALL);
  bytes[8] = 4;
  CHECK(begin(&writer, &reader, 4, 1, 0x2000));
  unwind_c_register(writer, 1, 0, 0x2000, bytes, ALL, &told, &writer);
  CHECK(told.kind == UNWIND_REFUSED && told.refusal.kind == 5 && told.refusal.start == 0);
  CHECK(told.refusal.at == 8 && told.refusal.detail == 4);
  told = put(&writer, 1, 0x2000, ALL);
  CHECK(told.kind == UNWIND_FAR && told.distance == 0xfffffffffffff018);
  CHECK(is_miss(find(&reader, 0x1000), 0, 0));
  end(writer, reader);
  return 0;
}

/* The code from 0x1000 to 0x101f. Each try to put it takes a call, and each to take it away. */
static int one_range_in_both_halves(void) {
  unwind_writer writer = {0};
  unwind_reader reader = {0};
  CHECK(begin(&writer, &reader, 4, 1, near_code));
  CHECK(put(&writer, 1, 0x2000, ONE).first_number == 1);
  CHECK(put(&writer, 2, 0x2000, ONE).first_number == 2);
  unwind_found found = find(&reader, 0x101f);
  CHECK(found.kind == UNWIND_REGISTERED && found.registered == 2 && found.loaded == 0);
  CHECK(is_range(found, 0x1000, 0x20, 0x2018));
  CHECK(take(&writer, 1).first_number == 3 && take(&writer, 1).kind == UNWIND_UNKNOWN);
  found = find(&reader, 0x1000);
  CHECK(found.kind == UNWIND_LOADED && found.registered == 0 && found.loaded == 3);
  CHECK(is_range(found, 0x1000, 0x20, 0x2018));
  CHECK(take(&writer, 2).first_number == 4 && is_miss(find(&reader, 0x1000), 4, 4));
  CHECK(unwind_c_left(writer, &writer) == CALLS - 5);
  end(writer, reader);
  return 0;
}

/* Readers have seen what their maker has. */
static int readers_that_have_seen_it(void) {
  unwind_writer writer = {0};
  unwind_reader early = {0}, first = {0}, second = {0};
  CHECK(begin(&writer, &early, 4, 1, near_code));
  CHECK(put(&writer, 1, 0x2000, ONE).first_number == 1);
  CHECK(unwind_c_reader(writer, &first, &writer));
  CHECK(unwind_c_reader_again(first, &second, &first) && unwind_c_reader_drop(second) == 1);
  CHECK(take(&writer, 1).first_number == 2 && is_miss(find(&first, 0x1000), 2, 2));
  second.at = NULL;
  CHECK(unwind_c_reader_again(first, &second, &first) && unwind_c_reader_drop(second) == 2);
  CHECK(unwind_c_reader_drop(early) == 0 && unwind_c_reader_drop(first) == 2);
  unwind_c_drop(writer);
  return 0;
}

/* What is asked: to register the section at an address under a key, to give up the latest one under
 * a key, to move it into the other library, and which FDE covers an address, here or there. */
enum asked { PUT, TAKE, MOVE, FIND, FIND_THERE };

struct step {
  enum asked asked;
  uint64_t key, address;
  /* an UNWIND_DONE and its like, or where the FDE stands, and 0 where there is none */
  uint64_t wanted;
};

struct libraries {
  unwind_writer writer, there;
  unwind_reader reader, reader_there;
};

static uint64_t play(struct libraries *at, struct step step) {
  unwind_told told;
  switch (step.asked) {
  case PUT:
    return put(&at->writer, step.key, step.address, ALL).kind;
  case TAKE:
    return take(&at->writer, step.key).kind;
  case MOVE:
    unwind_c_move(at->writer, at->there, step.key, &told, &at->writer, &at->there);
    return told.kind;
  case FIND:
    return find(&at->reader, step.address).fde;
  default:
    return find(&at->reader_there, step.address).fde;
  }
}

/* Plays the steps, by a library with so many nodes and loads and one with 4 and 2; whether each is
 * answered so, and so many calls are due in the end. */
static int steps(uint32_t nodes, uint32_t loads, const struct step *table, size_t count,
                 uint32_t due) {
  struct libraries at = {0};
  CHECK(begin(&at.writer, &at.reader, nodes, loads, near_code));
  CHECK(begin(&at.there, &at.reader_there, 4, 2, near_code));
  for (size_t number = 0; number < count; number++)
    if (play(&at, table[number]) != table[number].wanted) {
      printf("step %zu of %zu\n", number + 1, count);
      CHECK(!"answered otherwise");
    }
  CHECK(unwind_c_due(at.writer, &at.writer) == due);
  end(at.writer, at.reader);
  end(at.there, at.reader_there);
  return 0;
}

#define STEPS(nodes, loads, table, due) \
  steps(nodes, loads, table, sizeof table / sizeof *table, due)

static const struct step keys_that_stand[] = {
    {TAKE, 1, 0, UNWIND_UNKNOWN},  {PUT, 1, 0x2000, UNWIND_DONE}, {FIND, 0, 0x101f, 0x2018},
    {FIND, 0, 0x1020, 0x2038},     {FIND, 0, 0x1030, 0},          {PUT, 1, 0x3000, UNWIND_DONE},
    {PUT, 1, 0x4000, UNWIND_DONE}, {TAKE, 1, 0, UNWIND_DONE},     {FIND, 0, 0x3000, 0},
    {FIND, 0, 0x2000, 0x3018},     {TAKE, 1, 0, UNWIND_DONE},     {FIND, 0, 0x2000, 0},
    {FIND, 0, 0x1000, 0x2018},     {TAKE, 2, 0, UNWIND_UNKNOWN},  {TAKE, 1, 0, UNWIND_DONE},
    {TAKE, 1, 0, UNWIND_UNKNOWN},  {FIND, 0, 0x1000, 0}};

static const struct step identical_and_crossing_ones[] = {
    {PUT, 1, 0x2000, UNWIND_DONE}, {PUT, 2, 0x2000, UNWIND_DONE}, {TAKE, 1, 0, UNWIND_DONE},
    {FIND, 0, 0x1000, 0x2018},     {PUT, 3, 0x2010, UNWIND_DONE}, {FIND, 0, 0x1030, 0x2048},
    {TAKE, 2, 0, UNWIND_DONE},     {FIND, 0, 0x1000, 0},          {FIND, 0, 0x1010, 0x2028},
    {TAKE, 3, 0, UNWIND_DONE},     {FIND, 0, 0x1010, 0}};

/* At 0x1000 the first FDE has the addresses from 0 on. */
static const struct step an_fde_at_0_is_left_out[] = {
    {PUT, 1, 0x1000, UNWIND_DONE}, {FIND, 0, 0, 0},           {FIND, 0, 0x1f, 0},
    {FIND, 0, 0x20, 0x1038},       {PUT, 1, 0x1000, UNWIND_DONE}, {TAKE, 1, 0, UNWIND_DONE},
    {FIND, 0, 0x2f, 0x1038},       {TAKE, 1, 0, UNWIND_DONE}, {FIND, 0, 0x20, 0}};

/* Of two ranges that overlap others, one finds room in the second half, which has room for one. */
static const struct step all_or_nothing[] = {
    {PUT, 1, 0x2000, UNWIND_DONE},   {PUT, 2, 0x2000, UNWIND_OVERLAP}, {TAKE, 2, 0, UNWIND_UNKNOWN},
    {PUT, 3, 0x2020, UNWIND_DONE},   {TAKE, 1, 0, UNWIND_DONE},        {FIND, 0, 0x1000, 0},
    {FIND, 0, 0x1020, 0x2038},       {FIND, 0, 0x1040, 0x2058}};

/* The other library has room for two in its second half. */
static const struct step moved_whole_or_not_at_all[] = {
    {MOVE, 1, 0, UNWIND_UNKNOWN},      {PUT, 1, 0x2000, UNWIND_DONE},
    {PUT, 1, 0x2000, UNWIND_DONE},     {PUT, 1, 0x2000, UNWIND_OVERLAP},
    {MOVE, 1, 0, UNWIND_DONE},         {FIND_THERE, 0, 0x1000, 0x2018},
    {MOVE, 1, 0, UNWIND_DONE},         {PUT, 1, 0x2000, UNWIND_DONE},
    {MOVE, 1, 0, UNWIND_OVERLAP},      {FIND_THERE, 0, 0x1020, 0x2038},
    {FIND, 0, 0x1020, 0x2038},         {TAKE, 1, 0, UNWIND_DONE},
    {FIND, 0, 0x1020, 0},              {MOVE, 1, 0, UNWIND_UNKNOWN}};

int main(void) {
  if (a_range_for_each_fde() || none_for_an_fde_at_0() || bytes_that_are_refused()) return 1;
  if (one_range_in_both_halves() || readers_that_have_seen_it()) return 1;
  if (STEPS(16, 8, keys_that_stand, 0) || STEPS(16, 8, identical_and_crossing_ones, 0)) return 1;
  if (STEPS(4, 1, an_fde_at_0_is_left_out, 0) || STEPS(16, 1, all_or_nothing, 2)) return 1;
  if (STEPS(16, 8, moved_whole_or_not_at_all, 0)) return 1;
  printf("all answers as worked out\n");
  return 0;
}
