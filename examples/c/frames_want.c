/* Each call of frames_c that takes memory, with each of its allocations refused in turn: that is
 * told as want of memory, nothing stays held, and what the call was given is as it was. Status 0:
 * all is so. */
#define NOT_SO WRONG /* what CHECK answers */
#include "check.h"
#include "frames_c.h"
#include "heap_calls.h"
#include "worked_section.h"
#include <stdio.h>
#include <string.h>

enum outcome { DONE, REFUSED, WRONG };

/* What the calls that share or make a table are given. */
static frames_section section;
static frames_row_table table;

static enum outcome read_one(void) {
  frames_section out = {0};
  frames_refusal refusal = {99, 99, 99, 99};
  if (!frames_c_read(0x2000, section_bytes, 84, &refusal, &out)) {
    CHECK(refusal.kind == FRAMES_NO_MEMORY && out.at == NULL);
    return REFUSED;
  }
  CHECK(frames_c_count(out, &out) == 2);
  frames_c_free(out);
  return DONE;
}

static enum outcome read_sound_one(void) {
  frames_section out = {0};
  frames_refusal refusal = {99, 99, 99, 99};
  frames_refused told = {.count = 99};
  if (!frames_c_read_sound(0x2000, section_bytes, 60, &refusal, &told, &out)) {
    CHECK(refusal.kind == FRAMES_NO_MEMORY && told.count == 99 && out.at == NULL);
    return REFUSED;
  }
  CHECK(told.count == 1 && told.first.kind == FRAMES_SHORT && frames_c_count(out, &out) == 1);
  frames_c_free(out);
  return DONE;
}

/* A header for which there is no memory changes no answer. */
static enum outcome read_both(void) {
  frames_section out = {0};
  frames_refusal refusal = {99, 99, 99, 99};
  frames_header told = {99, 99, 99};
  frames_fde fde;
  if (!frames_c_read_with_header(0x2000, section_bytes, 84, 0x2100, header_bytes, 28, &refusal,
                                 &told, &out)) {
    CHECK(refusal.kind == FRAMES_NO_MEMORY && out.at == NULL);
    return REFUSED;
  }
  CHECK(frames_c_find(out, 0x102f, &fde, &out) && fde.first == 0x1020);
  frames_c_free(out);
  if (told.accepted == 1) return DONE;
  CHECK(told.accepted == 0 && told.kind == FRAMES_HEADER_NO_MEMORY);
  return REFUSED;
}

static enum outcome share(void) {
  frames_section other = {0};
  bool shared = frames_c_share(section, &other, &section);
  CHECK(frames_c_count(section, &section) == 2);
  if (!shared) {
    CHECK(other.at == NULL);
    return REFUSED;
  }
  frames_c_free(other);
  return DONE;
}

static enum outcome record_one(void) {
  frames_memory memory = {0};
  if (!frames_c_memory(&memory)) {
    CHECK(memory.at == NULL);
    return REFUSED;
  }
  uint64_t told = frames_c_memory_push(memory, 0x7000, section_bytes, 84, &memory);
  if (told == FRAMES_RECORDED)
    told = frames_c_memory_push(memory, 0x8000, section_bytes, 84, &memory);
  CHECK(frames_c_memory_push(memory, 0x9000, section_bytes, 0, &memory) == FRAMES_REGION_EMPTY);
  frames_c_memory_free(memory);
  if (told == FRAMES_RECORDED) return DONE;
  CHECK(told == FRAMES_REGION_NO_MEMORY);
  return REFUSED;
}

static enum outcome make_table(void) {
  frames_row_table out = {0};
  uint64_t told = frames_c_row_table(section, &out, &section);
  CHECK(frames_c_count(section, &section) == 2);
  if (told != FRAMES_ROW_TABLE_MADE) {
    CHECK(told == FRAMES_ROW_TABLE_NO_MEMORY && out.at == NULL);
    return REFUSED;
  }
  frames_c_row_table_free(out);
  return DONE;
}

static enum outcome share_table(void) {
  frames_row_table other = {0};
  frames_row row;
  bool shared = frames_c_row_table_share(table, &other, &table);
  CHECK(frames_c_row_table_row(table, 0x1000, &row, &table) && row.cfa_column == 7);
  if (!shared) {
    CHECK(other.at == NULL);
    return REFUSED;
  }
  frames_c_row_table_free(other);
  return DONE;
}

static enum outcome list_modules(void) {
  frames_modules modules = {0};
  if (!frames_c_modules(&modules)) {
    CHECK(modules.at == NULL);
    return REFUSED;
  }
  frames_section other = {0};
  if (!frames_c_share(section, &other, &section)) {
    frames_c_modules_free(modules);
    return REFUSED;
  }
  uint64_t told = frames_c_modules_add(modules, 0x1000, 0x30, other, &modules);
  frames_c_modules_free(modules);
  if (told == FRAMES_MODULE_ADDED) return DONE;
  CHECK(told == FRAMES_MODULE_NO_MEMORY);
  return REFUSED;
}

/* A list of two modules, one with a section and one with a row table, and another list of them. */
static bool list_both(frames_modules *modules) {
  frames_section other = {0};
  frames_row_table rows = {0};
  if (!frames_c_share(section, &other, &section)) return false;
  if (frames_c_modules_add(*modules, 0x1000, 0x20, other, modules) != FRAMES_MODULE_ADDED)
    return false;
  if (!frames_c_row_table_share(table, &rows, &table)) return false;
  return frames_c_modules_add_rows(*modules, 0x1020, 0x10, rows, modules) == FRAMES_MODULE_ADDED;
}

static enum outcome share_modules(void) {
  frames_modules modules = {0}, other = {0};
  if (!frames_c_modules(&modules)) return REFUSED;
  bool shared = list_both(&modules) && frames_c_modules_share(modules, &other, &modules);
  frames_c_modules_free(modules);
  if (!shared) {
    CHECK(other.at == NULL);
    return REFUSED;
  }
  frames_frame frame = {.columns = {[7] = 0x7000, [16] = 0x1020}, .at_instruction = 1};
  const uint8_t stack[8] = {0x02, 0x10};
  frames_line lines[2];
  size_t count = 0;
  CHECK(frames_c_walk(other, 0x7000, stack, 8, &frame, lines, 2, &count, &other) ==
        FRAMES_WALK_NO_BYTES);
  CHECK(count == 2 && lines[1].pc == 0x1002);
  frames_c_modules_free(other);
  return DONE;
}

/* How many allocations of a call were refused in turn. */
static unsigned refused;

static enum outcome each_refused(enum outcome (*call)(void)) {
  for (unsigned fails_at = 1;; fails_at++, refused++) {
    long held = heap_held;
    heap_count_from_here(fails_at);
    enum outcome outcome = call();
    unsigned taken = heap_taken;
    heap_count_from_here(0);
    CHECK(outcome != WRONG && heap_held == held);
    CHECK(outcome == (taken < fails_at ? DONE : REFUSED));
    if (outcome == DONE) return DONE;
  }
}

int main(void) {
  frames_refusal refusal;
  CHECK(frames_c_read(0x2000, section_bytes, 84, &refusal, &section));
  CHECK(frames_c_row_table(section, &table, &section) == FRAMES_ROW_TABLE_MADE);
  enum outcome (*const calls[])(void) = {read_one,    read_sound_one, read_both,    share,
                                         record_one,  make_table,     share_table,  list_modules,
                                         share_modules};
  for (size_t i = 0; i < sizeof calls / sizeof *calls; i++) CHECK(each_refused(calls[i]) == DONE);
  frames_c_row_table_free(table);
  frames_c_free(section);
  CHECK(heap_held == 0);
  printf("frames_want: %u allocations refused, all told\n", refused);
  return 0;
}
