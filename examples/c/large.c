/* A section of real size, with more rows that differ than any small one: it is read, and its row
 * table is made; no call that only looks calls malloc, realloc or free; and where one of those has
 * no memory, that is told, and nothing is lost. Status 0: all is so. */
#include "check.h"
#include "frames_c.h"
#include "heap_calls.h"
#include <stdio.h>
#include <stdlib.h>
#include <string.h>

enum { FDES = 2400, ROWS = 300, CIE_SIZE = 24, FDE_SIZE = 28, CODE_SIZE = 64 };
enum { AT = 0x400000, CODE = 0x100000, LENGTH = CIE_SIZE + FDES * FDE_SIZE + 4 };

static uint8_t bytes[LENGTH];

/* The first row of a function adds 8 to column 7, as its CIE says, the second what its FDE says. */
static uint64_t cfa_offset(unsigned fde) { return 16 + fde % ROWS; }

static void put_word(size_t at, uint32_t word) { memcpy(bytes + at, &word, 4); }

/* A version 1 CIE of augmentation "zR" whose pointers are from where they stand, four bytes; then
 * the FDEs: after one byte of code the CFA is column 7 and an offset of two bytes. */
static void write_section(void) {
  static const uint8_t cie[CIE_SIZE] = {0x14, 0x00, 0x00, 0x00, 0x00, 0x00, 0x00, 0x00,
                                        0x01, 0x7a, 0x52, 0x00, 0x01, 0x78, 0x10, 0x01,
                                        0x1b, 0x0c, 0x07, 0x08, 0x90, 0x01, 0x00, 0x00};
  memcpy(bytes, cie, CIE_SIZE);
  for (unsigned i = 0; i < FDES; i++) {
    size_t at = CIE_SIZE + (size_t)i * FDE_SIZE;
    put_word(at, FDE_SIZE - 4);
    put_word(at + 4, (uint32_t)(at + 4));
    put_word(at + 8, (uint32_t)(CODE + i * CODE_SIZE - (AT + at + 8)));
    put_word(at + 12, CODE_SIZE);
    const uint8_t rows[5] = {0x00, 0x41, 0x0e, (uint8_t)(0x80 | cfa_offset(i) % 128),
                             (uint8_t)(cfa_offset(i) / 128)};
    memcpy(bytes + at + 16, rows, 5);
  }
}

static int rows_are_right(frames_section *section, frames_row_table *table) {
  for (unsigned i = 0; i < FDES; i++) {
    uint64_t pc = CODE + i * CODE_SIZE;
    frames_row row, tabled;
    CHECK(frames_c_row(*section, pc, &row, section) && row.cfa_offset == 8);
    CHECK(frames_c_row(*section, pc + 1, &row, section));
    CHECK(row.cfa == FRAMES_CFA_OFFSET && row.cfa_column == 7 && row.cfa_offset == cfa_offset(i));
    CHECK(frames_c_row_table_row(*table, pc + 1, &tabled, table));
    CHECK(memcmp(&row, &tabled, sizeof row) == 0);
  }
  return 0;
}

/* The same of the calls that step and walk by what is lent or told. */
static int walks(frames_section *section, frames_row_table *table, frames_modules *modules) {
  const uint64_t back = CODE + 3 * CODE_SIZE + 2;
  const uint8_t *stack = (const uint8_t *)&back;
  const frames_word word = {0x7000, back};
  const frames_frame first = {.columns = {[7] = 0x7000, [16] = CODE}, .at_instruction = 1};
  frames_frame frame = first;
  frames_line lines[4];
  size_t count = 0;
  CHECK(frames_c_step_lent(*section, 0x7000, stack, 8, &frame, section) == FRAMES_FRAME);
  CHECK(frame.columns[16] == back);
  frame = first;
  CHECK(frames_c_row_table_step_lent(*table, 0x7000, stack, 8, &frame, table) == FRAMES_FRAME);
  CHECK(frame.columns[16] == back);
  frame = first;
  CHECK(frames_c_step_asking(*section, 0, stack, 0, &word, 0, &frame, section) ==
        FRAMES_NO_BYTES);
  CHECK(frame.missing == 0x7000);
  CHECK(frames_c_step_asking(*section, 0, stack, 0, &word, 1, &frame, section) == FRAMES_FRAME);
  CHECK(frame.columns[16] == back);
  frame = first;
  CHECK(frames_c_row_table_step_asking(*table, 0, stack, 0, &word, 1, &frame, table) ==
        FRAMES_FRAME);
  CHECK(frame.columns[16] == back);
  frame = first;
  CHECK(frames_c_walk(*modules, 0x7000, stack, 8, &frame, lines, 4, &count, modules) ==
        FRAMES_WALK_NO_BYTES);
  CHECK(count == 2 && lines[1].pc == back && frame.missing == 0x7008 + cfa_offset(3) - 8);
  return 0;
}

/* Each call that only looks, once. */
static int looks(frames_section *section, frames_row_table *table, frames_memory *memory) {
  static frames_entry entries[FDES];
  const uint64_t pcs[2] = {CODE, CODE + CODE_SIZE};
  size_t count = 0;
  frames_fde fde;
  frames_entry entry;
  frames_row rows[2];
  frames_frame frame = {.columns = {[7] = 0x7000, [16] = CODE}, .at_instruction = 1};
  CHECK(frames_c_count(*section, section) == FDES);
  CHECK(frames_c_find(*section, CODE + 63, &fde, section) && fde.first == CODE);
  CHECK(frames_c_table(*section, entries, FDES, &count, section) == FRAMES_TABLE_MADE);
  CHECK(count == FDES && frames_c_search(entries, count, CODE + 64, &entry));
  CHECK(entry.place == CIE_SIZE + FDE_SIZE);
  CHECK(frames_c_row(*section, CODE, rows, section));
  CHECK(frames_c_rows(*section, pcs, 2, rows, 2, section));
  CHECK(frames_c_row_table_row(*table, CODE, rows, table));
  CHECK(frames_c_step(*section, *memory, &frame, section, memory) == FRAMES_FRAME);
  CHECK(frame.columns[16] == CODE + 3 * CODE_SIZE + 2);
  CHECK(frames_c_row_table_step(*table, *memory, &frame, table, memory) == FRAMES_NO_BYTES);
  CHECK(frame.missing == 0x7008 + cfa_offset(3) - 8);
  return 0;
}

/* Has each of the calls of malloc and realloc in turn fail. */
static int reads_without_memory(void) {
  unsigned fails_at = 0;
  frames_section section = {0};
  frames_refusal refusal;
  do {
    heap_count_from_here(++fails_at);
    refusal = (frames_refusal){99, 99, 99, 99};
    if (frames_c_read(AT, bytes, LENGTH, &refusal, &section)) break;
    CHECK(refusal.kind == FRAMES_NO_MEMORY && section.at == NULL);
  } while (fails_at < 1000);
  CHECK(fails_at > 1 && fails_at == heap_taken + 1);
  frames_c_free(section);
  return 0;
}

static int tables_without_memory(frames_section *section) {
  unsigned fails_at = 0;
  frames_row_table table = {0};
  uint64_t made;
  do {
    heap_count_from_here(++fails_at);
    made = frames_c_row_table(*section, &table, section);
    if (made == FRAMES_ROW_TABLE_MADE) break;
    CHECK(made == FRAMES_ROW_TABLE_NO_MEMORY && table.at == NULL);
  } while (fails_at < 1000);
  CHECK(fails_at > 1 && fails_at == heap_taken + 1);
  frames_c_row_table_free(table);
  return 0;
}

int main(void) {
  write_section();
  const uint64_t back = CODE + 3 * CODE_SIZE + 2;
  frames_refusal refusal;
  frames_section section = {0};
  frames_row_table table = {0};
  frames_memory memory = {0};
  CHECK(LENGTH > 65536 && frames_c_read(AT, bytes, LENGTH, &refusal, &section));
  CHECK(frames_c_row_table(section, &table, &section) == FRAMES_ROW_TABLE_MADE);
  CHECK(frames_c_memory(&memory));
  const uint8_t *stack = (const uint8_t *)&back;
  CHECK(frames_c_memory_push(memory, 0x7000, stack, 8, &memory) == FRAMES_RECORDED);
  if (rows_are_right(&section, &table)) return 1;
  frames_modules modules = {0};
  frames_row_table rows = {0};
  CHECK(frames_c_modules(&modules) && frames_c_row_table_share(table, &rows, &table));
  CHECK(frames_c_modules_add_rows(modules, CODE, FDES * CODE_SIZE, rows, &modules) ==
        FRAMES_MODULE_ADDED);
  heap_count_from_here(0);
  if (looks(&section, &table, &memory) || walks(&section, &table, &modules)) return 1;
  CHECK(heap_calls() == 0);
  if (tables_without_memory(&section) || reads_without_memory()) return 1;
  heap_count_from_here(0);
  frames_c_modules_free(modules);
  frames_c_memory_free(memory);
  frames_c_row_table_free(table);
  frames_c_free(section);
  printf("large: %d FDEs, %d bytes, all as worked out\n", FDES, LENGTH);
  return 0;
}
