/* Each call once, over a small section whose answers were worked out by hand. Status 0: all are
 * so. */
#define _GNU_SOURCE
#include "check.h"
#include "frames_c.h"
#include "worked_section.h"
#include <stdio.h>
#include <string.h>
#include <sys/mman.h>

static bool is_refused(const uint8_t *bytes, size_t length, frames_refusal wanted) {
  frames_refusal refusal = {99, 99, 99, 99};
  frames_section none = {0};
  return !frames_c_read(0x2000, bytes, length, &refusal, &none) && none.at == NULL &&
         memcmp(&refusal, &wanted, sizeof wanted) == 0;
}

static int refusals(void) {
  uint8_t bytes[84];
  memcpy(bytes, section_bytes, 84);
  bytes[8] = 4;
  CHECK(is_refused(bytes, 84, (frames_refusal){FRAMES_VERSION, 0, 8, 4}));
  bytes[8] = 1;
  bytes[41] = 0x3f;
  CHECK(is_refused(bytes, 84, (frames_refusal){FRAMES_OPCODE, 24, 41, 0x3f}));
  CHECK(is_refused(section_bytes, 60, (frames_refusal){FRAMES_SHORT, 56, 56, 0}));
  size_t long_size = (size_t)1 << 32;
  int flags = MAP_PRIVATE | MAP_ANONYMOUS | MAP_NORESERVE;
  void *nothing = mmap(NULL, long_size, PROT_READ, flags, -1, 0);
  if (nothing != MAP_FAILED) {
    CHECK(is_refused(nothing, long_size, (frames_refusal){FRAMES_TOO_LONG, 0, 0, 0}));
    munmap(nothing, long_size);
  }
  return 0;
}

static bool read_both(const uint8_t *header, frames_header *told, frames_section *out) {
  frames_refusal refusal;
  return frames_c_read_with_header(0x2000, section_bytes, 84, 0x2100, header, 28, &refusal, told,
                                   out);
}

static int headers(void) {
  frames_header told;
  frames_section section = {0};
  uint8_t header[28];
  memcpy(header, header_bytes, 28);
  CHECK(read_both(header, &told, &section));
  CHECK(told.accepted == 1 && told.kind == 0 && told.at == 0);
  frames_fde fde;
  CHECK(frames_c_find(section, 0x102f, &fde, &section) && fde.first == 0x1020 && fde.place == 56);
  CHECK(!frames_c_find(section, 0x1030, &fde, &section));
  frames_c_free(section);
  section.at = NULL;
  header[8] = 1;
  CHECK(read_both(header, &told, &section));
  CHECK(told.accepted == 0 && told.kind == FRAMES_HEADER_COUNT && told.at == 8);
  CHECK(frames_c_find(section, 0x1000, &fde, &section) && fde.first == 0x1000);
  frames_c_free(section);
  return 0;
}

static int fdes(frames_section *section) {
  frames_fde fde = {.first = 7};
  CHECK(frames_c_count(*section, section) == 2);
  CHECK(!frames_c_find(*section, 0xfff, &fde, section) && fde.first == 7);
  CHECK(frames_c_find(*section, 0x101f, &fde, section));
  CHECK(fde.first == 0x1000 && fde.range == 0x20 && fde.place == 24);
  CHECK(!fde.has_lsda && !fde.has_personality && !fde.signal);
  frames_entry entries[2], found = {.place = 7};
  size_t count = 9;
  CHECK(frames_c_table(*section, entries, 1, &count, section) == FRAMES_TABLE_ROOM);
  CHECK(frames_c_table(*section, entries, 2, &count, section) == FRAMES_TABLE_MADE && count == 2);
  CHECK(frames_c_search(entries, count, 0x1020, &found));
  CHECK(found.first == 0x1020 && found.range == 0x10 && found.place == 56);
  CHECK(frames_c_search(entries, count, 0x101f, &found));
  CHECK(found.first == 0x1000 && found.range == 0x20 && found.place == 24);
  found.place = 7;
  CHECK(!frames_c_search(entries, count, 0x1030, &found) && found.place == 7);
  return 0;
}

static int rows(frames_section *section) {
  frames_row row = {.cfa = 9}, all[3];
  CHECK(!frames_c_row(*section, 0x1030, &row, section) && row.cfa == 9);
  CHECK(frames_c_row(*section, 0x1003, &row, section));
  CHECK(row.cfa == FRAMES_CFA_OFFSET && row.cfa_column == 7 && row.cfa_offset == 16);
  CHECK(row.rules[6] == FRAMES_OFFSET && row.numbers[6] == (uint64_t)-16);
  CHECK(row.rules[3] == FRAMES_UNSET && row.numbers[3] == 0);
  CHECK(row.rules[16] == FRAMES_OFFSET && row.numbers[16] == (uint64_t)-8);
  const uint64_t pcs[3] = {0x1004, 0xfff, 0x1020};
  CHECK(!frames_c_rows(*section, pcs, 3, all, 2, section));
  CHECK(frames_c_rows(*section, pcs, 3, all, 3, section));
  CHECK(all[0].cfa == FRAMES_CFA_OFFSET && all[0].cfa_column == 6 && all[0].cfa_offset == 16);
  CHECK(all[1].cfa == FRAMES_CFA_NO_FDE && all[1].rules[16] == FRAMES_UNSET);
  CHECK(all[2].cfa == FRAMES_CFA_OFFSET && all[2].cfa_column == 7 && all[2].cfa_offset == 8);
  return 0;
}

/* The call is the last instruction of its function: the return address is that of the next FDE. */
static int frames(frames_section *section) {
  uint8_t stack[32] = {0x20, 0x10};
  frames_memory memory = {0};
  CHECK(frames_c_memory(&memory));
  CHECK(frames_c_memory_push(memory, 0x7000, stack, 0, &memory) == FRAMES_REGION_EMPTY);
  CHECK(frames_c_memory_push(memory, UINT64_MAX - 3, stack, 32, &memory) == FRAMES_REGION_END);
  CHECK(frames_c_memory_push(memory, 0x7000, stack, 32, &memory) == FRAMES_RECORDED);
  CHECK(frames_c_memory_push(memory, 0x701f, stack, 32, &memory) == FRAMES_REGION_ORDER);
  frames_frame frame = {.at_instruction = 1};
  frame.columns[6] = 0x7010;
  frame.columns[7] = 0x7000;
  frame.columns[16] = 0x1025;
  CHECK(frames_c_step(*section, memory, &frame, section, &memory) == FRAMES_FRAME);
  CHECK(frame.columns[16] == 0x1020 && frame.columns[7] == 0x7008 && frame.at_instruction == 0);
  CHECK(frames_c_step(*section, memory, &frame, section, &memory) == FRAMES_FRAME);
  CHECK(frame.columns[16] == 0 && frame.columns[7] == 0x7020);
  CHECK(frames_c_step(*section, memory, &frame, section, &memory) == FRAMES_NO_FDE);
  CHECK(frame.columns[7] == 0x7020);
  frame.columns[16] = 0x1025;
  CHECK(frames_c_step(*section, memory, &frame, section, &memory) == FRAMES_NO_BYTES);
  CHECK(frame.missing == 0x7020 && frame.columns[16] == 0x1025);
  frames_c_memory_free(memory);
  return 0;
}

/* A row table tells what its section tells, and lives on without it. */
static int row_tables(void) {
  frames_refusal refusal;
  frames_section section = {0};
  frames_row_table first = {0}, table = {0};
  CHECK(frames_c_read(0x2000, section_bytes, 84, &refusal, &section));
  CHECK(frames_c_row_table(section, &first, &section) == FRAMES_ROW_TABLE_MADE);
  frames_c_free(section);
  CHECK(frames_c_row_table_share(first, &table, &first));
  frames_c_row_table_free(first);
  frames_row row = {.cfa = 9};
  CHECK(!frames_c_row_table_row(table, 0x1030, &row, &table) && row.cfa == 9);
  CHECK(frames_c_row_table_row(table, 0x1003, &row, &table));
  CHECK(row.cfa == FRAMES_CFA_OFFSET && row.cfa_column == 7 && row.cfa_offset == 16);
  CHECK(row.rules[6] == FRAMES_OFFSET && row.numbers[6] == (uint64_t)-16);
  CHECK(frames_c_row_table_row(table, 0x1004, &row, &table) && row.cfa_column == 6);
  uint8_t stack[32] = {0x20, 0x10};
  frames_memory memory = {0};
  CHECK(frames_c_memory(&memory));
  CHECK(frames_c_memory_push(memory, 0x7000, stack, 32, &memory) == FRAMES_RECORDED);
  frames_frame frame = {.at_instruction = 1};
  frame.columns[6] = 0x7010;
  frame.columns[7] = 0x7000;
  frame.columns[16] = 0x1025;
  CHECK(frames_c_row_table_step(table, memory, &frame, &table, &memory) == FRAMES_FRAME);
  CHECK(frame.columns[16] == 0x1020 && frame.columns[7] == 0x7008 && frame.at_instruction == 0);
  CHECK(frames_c_row_table_step(table, memory, &frame, &table, &memory) == FRAMES_FRAME);
  CHECK(frame.columns[16] == 0 && frame.columns[7] == 0x7020);
  CHECK(frames_c_row_table_step(table, memory, &frame, &table, &memory) == FRAMES_NO_FDE);
  frames_c_memory_free(memory);
  frames_c_row_table_free(table);
  return 0;
}

/* The frame at 0x1025 whose caller's address stands at 0x7000. */
static frames_frame innermost(void) {
  frames_frame frame = {.at_instruction = 1};
  frame.columns[6] = 0x7010;
  frame.columns[7] = 0x7000;
  frame.columns[16] = 0x1025;
  return frame;
}

static int lent(frames_section *section) {
  const uint8_t stack[32] = {0x20, 0x10};
  frames_row_table table = {0};
  CHECK(frames_c_row_table(*section, &table, section) == FRAMES_ROW_TABLE_MADE);
  frames_frame frame = innermost(), other = innermost();
  CHECK(frames_c_step_lent(*section, 0x7000, stack, 32, &frame, section) == FRAMES_FRAME);
  CHECK(frame.columns[16] == 0x1020 && frame.columns[7] == 0x7008 && frame.at_instruction == 0);
  CHECK(frames_c_row_table_step_lent(table, 0x7000, stack, 32, &other, &table) == FRAMES_FRAME);
  CHECK(memcmp(&frame, &other, sizeof frame) == 0);
  CHECK(frames_c_step_lent(*section, 0x7000, stack, 31, &frame, section) == FRAMES_NO_BYTES);
  CHECK(frame.missing == 0x7018 && frame.columns[16] == 0x1020);
  CHECK(frames_c_step_lent(*section, 0x7011, stack, 15, &frame, section) == FRAMES_NO_BYTES);
  CHECK(frame.missing == 0x7010);
  CHECK(frames_c_row_table_step_lent(table, 0x7000, stack, 0, &other, &table) == FRAMES_NO_BYTES);
  CHECK(frames_c_row_table_step_lent(table, 0x7010, stack + 16, 16, &other, &table) ==
        FRAMES_FRAME);
  CHECK(other.columns[16] == 0 && other.columns[7] == 0x7020);
  frames_c_row_table_free(table);
  return 0;
}

/* Each word that a frame wants is asked for, in the order in which the row wants them. */
static int asked(frames_section *section) {
  const uint8_t none[1] = {0}, lent[8] = {0};
  const frames_word words[5] = {
      {0x7000, 0x1020}, {0x7018, 0x1025}, {0x7010, 9}, {0x7010, 0x7040}, {0x7001, 7}};
  frames_frame frame = innermost(), before = innermost();
  CHECK(frames_c_step_asking(*section, 0, none, 0, words, 0, &frame, section) == FRAMES_NO_BYTES);
  before.missing = 0x7000;
  CHECK(memcmp(&frame, &before, sizeof frame) == 0);
  CHECK(frames_c_step_asking(*section, 0, none, 0, words + 1, 4, &frame, section) ==
        FRAMES_NO_BYTES);
  CHECK(frame.missing == 0x7000);
  CHECK(frames_c_step_asking(*section, 0, none, 0, words, 1, &frame, section) == FRAMES_FRAME);
  CHECK(frame.columns[16] == 0x1020 && frame.columns[7] == 0x7008 && frame.at_instruction == 0);
  before = frame;
  CHECK(frames_c_step_asking(*section, 0, none, 0, words, 2, &frame, section) == FRAMES_NO_BYTES);
  before.missing = 0x7010;
  CHECK(memcmp(&frame, &before, sizeof frame) == 0);
  CHECK(frames_c_step_asking(*section, 0, none, 0, words + 2, 3, &frame, section) ==
        FRAMES_NO_BYTES);
  CHECK(frame.missing == 0x7018);
  frame = before;
  CHECK(frames_c_step_asking(*section, 0, none, 0, words, 4, &frame, section) == FRAMES_FRAME);
  CHECK(frame.columns[16] == 0x1025 && frame.columns[6] == 9 && frame.columns[7] == 0x7020);
  frame = before;
  CHECK(frames_c_step_asking(*section, 0x7010, lent, 8, words, 4, &frame, section) ==
        FRAMES_FRAME);
  CHECK(frame.columns[16] == 0x1025 && frame.columns[6] == 0);
  frames_row_table table = {0};
  CHECK(frames_c_row_table(*section, &table, section) == FRAMES_ROW_TABLE_MADE);
  CHECK(frames_c_row_table_step_asking(table, 0x7010, lent, 7, words, 1, &before, &table) ==
        FRAMES_NO_BYTES);
  CHECK(before.missing == 0x7010);
  CHECK(frames_c_row_table_step_asking(table, 0x7010, lent, 8, words, 2, &before, &table) ==
        FRAMES_FRAME);
  CHECK(memcmp(before.columns, frame.columns, sizeof frame.columns) == 0);
  frames_c_row_table_free(table);
  return 0;
}

static int walks(frames_section *section) {
  const uint8_t stack[32] = {0x20, 0x10};
  frames_section share = {0}, late = {0};
  frames_row_table table = {0};
  frames_modules modules = {0};
  CHECK(frames_c_share(*section, &share, section) && frames_c_share(*section, &late, section));
  CHECK(frames_c_row_table(*section, &table, section) == FRAMES_ROW_TABLE_MADE);
  CHECK(frames_c_modules(&modules));
  CHECK(frames_c_modules_add(modules, 0x1000, 0x20, share, &modules) == FRAMES_MODULE_ADDED);
  CHECK(frames_c_modules_add(modules, 0x101f, 1, late, &modules) == FRAMES_MODULE_NOT_ABOVE);
  CHECK(frames_c_modules_add_rows(modules, 0x1020, 0x10, table, &modules) == FRAMES_MODULE_ADDED);
  frames_line lines[4] = {{0}, {0}, {0}, {9, 9, 9}};
  size_t count = 9;
  frames_frame frame = innermost();
  CHECK(frames_c_walk(modules, 0x7000, stack, 32, &frame, lines, 4, &count, &modules) ==
        FRAMES_WALK_NO_MODULE);
  CHECK(count == 3 && lines[0].pc == 0x1025 && lines[0].sp == 0x7000 && lines[3].pc == 9);
  CHECK(lines[0].at_instruction == 1 && lines[1].at_instruction == 0);
  CHECK(lines[1].pc == 0x1020 && lines[1].sp == 0x7008 && lines[2].pc == 0);
  CHECK(lines[2].sp == 0x7020 && frame.columns[16] == 0 && frame.columns[7] == 0x7020);
  frame = innermost();
  CHECK(frames_c_walk(modules, 0x7000, stack, 31, &frame, lines, 1, &count, &modules) ==
        FRAMES_WALK_ROOM);
  CHECK(count == 1 && frame.columns[16] == 0x1020);
  CHECK(frames_c_walk(modules, 0x7000, stack, 31, &frame, lines, 4, &count, &modules) ==
        FRAMES_WALK_NO_BYTES);
  CHECK(count == 1 && lines[0].pc == 0x1020 && frame.missing == 0x7018);
  frames_modules other = {0};
  CHECK(frames_c_modules_share(modules, &other, &modules));
  CHECK(frames_c_share(*section, &late, section));
  CHECK(frames_c_modules_add(modules, 0x1030, 1, late, &modules) == FRAMES_MODULE_ADDED);
  frames_c_modules_free(modules);
  CHECK(frames_c_share(*section, &late, section));
  CHECK(frames_c_modules_add(other, 0x1030, 1, late, &other) == FRAMES_MODULE_ADDED);
  CHECK(frames_c_share(*section, &late, section));
  CHECK(frames_c_modules_add(other, 0x1030, 1, late, &other) == FRAMES_MODULE_NOT_ABOVE);
  frame = innermost();
  CHECK(frames_c_walk(other, 0x7000, stack, 32, &frame, lines, 4, &count, &other) ==
        FRAMES_WALK_NO_MODULE);
  CHECK(count == 3 && lines[1].pc == 0x1020 && lines[2].sp == 0x7020);
  frames_c_modules_free(other);
  return 0;
}

int main(void) {
  frames_refusal refusal;
  frames_section section = {0}, other = {0};
  CHECK(frames_c_read(0x2000, section_bytes, 84, &refusal, &section));
  CHECK(frames_c_share(section, &other, &section));
  frames_c_free(section);
  int wrong = fdes(&other) || rows(&other) || frames(&other) || refusals() || headers() ||
              row_tables() || lent(&other) || asked(&other) || walks(&other);
  frames_c_free(other);
  if (!wrong) printf("answers: all as worked out\n");
  return wrong;
}
