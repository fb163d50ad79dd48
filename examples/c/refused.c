/* Sections with bad records, read without them: what is refused is told, and no other FDE answers at
 * the addresses that a refused one says. Status 0: all is so. */
#include "check.h"
#include "frames_c.h"
#include "worked_section.h"
#include <stdio.h>
#include <string.h>

/* The worked section, whose second FDE covers 0x1010 to 0x102f here: both have 0x1010 to 0x101f. */
static void overlap(uint8_t *bytes) {
  memcpy(bytes, section_bytes, 84);
  bytes[64] = 0xd0;
  bytes[68] = 0x20;
}

static bool read_sound(const uint8_t *bytes, size_t length, frames_refused *told,
                       frames_section *out) {
  frames_refusal refusal;
  return frames_c_read_sound(0x2000, bytes, length, &refusal, told, out);
}

static bool is_first(const frames_refused *told, uint64_t count, frames_refusal first) {
  return told->count == count && memcmp(&told->first, &first, sizeof first) == 0;
}

static bool claims(frames_section *section, uint64_t pc, frames_claim wanted) {
  frames_claim claim;
  return frames_c_claim(*section, pc, &claim, section) &&
         memcmp(&claim, &wanted, sizeof wanted) == 0;
}

/* The frame at 0x1025 whose caller's address, 0x1016, stands at 0x7000. */
static const uint8_t stack[32] = {0x16, 0x10};

static frames_frame innermost(void) {
  frames_frame frame = {.at_instruction = 1};
  frame.columns[6] = 0x7010;
  frame.columns[7] = 0x7000;
  frame.columns[16] = 0x1025;
  return frame;
}

static int nothing_refused(void) {
  frames_refused told = {.count = 9};
  frames_section section = {0};
  frames_claim claim = {.first = 7};
  frames_fde fde;
  CHECK(read_sound(section_bytes, 84, &told, &section));
  CHECK(is_first(&told, 0, (frames_refusal){0, 0, 0, 0}));
  CHECK(frames_c_count(section, &section) == 2);
  CHECK(!frames_c_claim(section, 0x1000, &claim, &section) && claim.first == 7);
  CHECK(frames_c_find(section, 0x101f, &fde, &section) && fde.place == 24);
  frames_c_free(section);
  return 0;
}

/* The first FDE's first opcode is none: the second doesn't answer where the first claims. */
static int lookups(frames_section *section) {
  const frames_claim first = {0x1000, 0x20, {FRAMES_OPCODE, 24, 41, 0x3f}};
  frames_claim claim;
  frames_fde fde = {.first = 7};
  frames_row row = {.cfa = 9}, all[3];
  CHECK(frames_c_count(*section, section) == 1);
  CHECK(claims(section, 0x1000, first) && claims(section, 0x101f, first));
  CHECK(!frames_c_claim(*section, 0x1020, &claim, section));
  CHECK(!frames_c_claim(*section, 0xfff, &claim, section));
  CHECK(!frames_c_find(*section, 0x101f, &fde, section) && fde.first == 7);
  CHECK(frames_c_find(*section, 0x1020, &fde, section) && fde.first == 0x1010);
  CHECK(!frames_c_row(*section, 0x1010, &row, section) && row.cfa == 9);
  const uint64_t pcs[3] = {0x1010, 0xfff, 0x1020};
  CHECK(frames_c_rows(*section, pcs, 3, all, 3, section));
  CHECK(all[0].cfa == FRAMES_CFA_REFUSED && all[0].rules[16] == FRAMES_UNSET);
  CHECK(all[1].cfa == FRAMES_CFA_NO_FDE && all[2].cfa == FRAMES_CFA_OFFSET);
  return 0;
}

static int steps(frames_section *section) {
  frames_frame frame = innermost(), before;
  frames_row_table table = {0};
  frames_memory memory = {0};
  frames_row row = {.cfa = 9};
  const frames_word no_word = {0};
  CHECK(frames_c_step_lent(*section, 0x7000, stack, 32, &frame, section) == FRAMES_FRAME);
  CHECK(frame.columns[16] == 0x1016 && frame.columns[7] == 0x7008);
  before = frame;
  CHECK(frames_c_step_lent(*section, 0x7000, stack, 32, &frame, section) == FRAMES_REFUSED);
  CHECK(frames_c_memory(&memory));
  CHECK(frames_c_step(*section, memory, &frame, section, &memory) == FRAMES_REFUSED);
  CHECK(frames_c_step_asking(*section, 0, stack, 0, &no_word, 0, &frame, section) ==
        FRAMES_REFUSED);
  CHECK(frames_c_row_table(*section, &table, section) == FRAMES_ROW_TABLE_MADE);
  CHECK(!frames_c_row_table_row(table, 0x1010, &row, &table) && row.cfa == 9);
  CHECK(frames_c_row_table_row(table, 0x1020, &row, &table) && row.cfa == FRAMES_CFA_OFFSET);
  CHECK(frames_c_row_table_step(table, memory, &frame, &table, &memory) == FRAMES_REFUSED);
  CHECK(frames_c_row_table_step_lent(table, 0x7000, stack, 32, &frame, &table) == FRAMES_REFUSED);
  CHECK(memcmp(&frame, &before, sizeof frame) == 0);
  frame = innermost();
  CHECK(frames_c_row_table_step_lent(table, 0x7000, stack, 32, &frame, &table) == FRAMES_FRAME);
  CHECK(memcmp(&frame, &before, sizeof frame) == 0);
  frames_c_memory_free(memory);
  frames_c_row_table_free(table);
  return 0;
}

/* A walk goes on to the frame that was called there, and ends. */
static int walks(frames_section *section) {
  frames_section share = {0};
  frames_row_table table = {0};
  frames_modules modules = {0};
  frames_line lines[4];
  size_t count = 9;
  CHECK(frames_c_modules(&modules) && frames_c_share(*section, &share, section));
  CHECK(frames_c_modules_add(modules, 0x1000, 0x20, share, &modules) == FRAMES_MODULE_ADDED);
  CHECK(frames_c_row_table(*section, &table, section) == FRAMES_ROW_TABLE_MADE);
  CHECK(frames_c_modules_add_rows(modules, 0x1020, 0x10, table, &modules) == FRAMES_MODULE_ADDED);
  frames_frame frame = innermost();
  CHECK(frames_c_walk(modules, 0x7000, stack, 32, &frame, lines, 4, &count, &modules) ==
        FRAMES_WALK_REFUSED);
  CHECK(count == 2 && lines[1].pc == 0x1016 && frame.columns[16] == 0x1016);
  frames_c_modules_free(modules);
  modules.at = NULL;
  CHECK(frames_c_row_table(*section, &table, section) == FRAMES_ROW_TABLE_MADE);
  CHECK(frames_c_modules(&modules));
  CHECK(frames_c_modules_add_rows(modules, 0x1000, 0x30, table, &modules) == FRAMES_MODULE_ADDED);
  frame = innermost();
  CHECK(frames_c_walk(modules, 0x7000, stack, 32, &frame, lines, 4, &count, &modules) ==
        FRAMES_WALK_REFUSED);
  CHECK(count == 2 && lines[1].pc == 0x1016);
  frames_c_modules_free(modules);
  return 0;
}

static int first_refused(void) {
  uint8_t bytes[84];
  overlap(bytes);
  bytes[41] = 0x3f;
  frames_refused told;
  frames_section section = {0};
  CHECK(read_sound(bytes, 84, &told, &section));
  CHECK(is_first(&told, 1, (frames_refusal){FRAMES_OPCODE, 24, 41, 0x3f}));
  int wrong = lookups(&section) || steps(&section) || walks(&section);
  frames_c_free(section);
  return wrong;
}

/* The second one claims behind the first: where both have an address the first answers. */
static int second_refused(void) {
  uint8_t bytes[84];
  overlap(bytes);
  bytes[73] = 0x3f;
  frames_refused told;
  frames_section section = {0};
  frames_claim claim;
  frames_fde fde;
  CHECK(read_sound(bytes, 84, &told, &section));
  CHECK(is_first(&told, 1, (frames_refusal){FRAMES_OPCODE, 56, 73, 0x3f}));
  CHECK(!frames_c_claim(section, 0x101f, &claim, &section));
  CHECK(frames_c_find(section, 0x101f, &fde, &section) && fde.place == 24);
  CHECK(claims(&section, 0x1020, (frames_claim){0x1010, 0x20, {FRAMES_OPCODE, 56, 73, 0x3f}}));
  frames_c_free(section);
  return 0;
}

/* A CIE that is refused costs those that lead to it, whose addresses aren't known; so does a record
 * that isn't whole. */
static int without_addresses(void) {
  uint8_t bytes[84];
  memcpy(bytes, section_bytes, 84);
  bytes[8] = 4;
  frames_refused told;
  frames_section section = {0};
  frames_claim claim;
  frames_frame frame = innermost();
  CHECK(read_sound(bytes, 84, &told, &section));
  CHECK(is_first(&told, 3, (frames_refusal){FRAMES_VERSION, 0, 8, 4}));
  CHECK(!frames_c_claim(section, 0x1025, &claim, &section));
  CHECK(frames_c_step_lent(section, 0x7000, stack, 32, &frame, &section) == FRAMES_NO_FDE);
  frames_c_free(section);
  section.at = NULL;
  CHECK(read_sound(section_bytes, 60, &told, &section));
  CHECK(is_first(&told, 1, (frames_refusal){FRAMES_SHORT, 56, 56, 0}));
  CHECK(frames_c_count(section, &section) == 1);
  CHECK(!frames_c_claim(section, 0x1025, &claim, &section));
  frames_c_free(section);
  return 0;
}

int main(void) {
  int wrong = nothing_refused() || first_refused() || second_refused() || without_addresses();
  if (!wrong) printf("refused: all as worked out\n");
  return wrong;
}
