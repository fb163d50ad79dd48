/* A target of libFuzzer: sections, headers, tables, rows, row tables and frames, by frames_c.
 *
 * An input is the length of a header (a byte), the section's address (eight bytes, the lowest
 * first), the header, which stands 0x100 after that address, and the section's bytes. What two
 * calls say of one thing must be the same. A refusal must be one of those that the header file
 * names, at a place of the input. No call may take longer than 20 microseconds, or 200 to make a
 * row table, and 100 nanoseconds for each byte that it was given. */
#include "frames_c.h"
#include "hold.h"
#include <stdio.h>
#include <stdlib.h>
#include <string.h>
#include <time.h>

enum { ENTRIES = 512, ASKED = 16, TRIES = 7, HEADER_AFTER = 0x100 };

/* What begins a call, in nanoseconds. */
enum { START = 20000, TABLE_START = 200000 };

/* What is read, and what came of it. */
static uint64_t address;
static const uint8_t *bytes, *header;
static size_t length, header_length;
static frames_section section, headed;
static frames_row_table table;
static frames_memory memory;
static uint64_t asked;

static uint64_t now(void) {
  struct timespec at;
  clock_gettime(CLOCK_THREAD_CPUTIME_ID, &at);
  return (uint64_t)at.tv_sec * 1000000000 + (uint64_t)at.tv_nsec;
}

/* The least time of some tries, since another thread of the processor may be in the way. */
static void hold_time(const char *name, void (*call)(void), uint64_t start) {
  uint64_t limit = SLOWER * (start + 100 * (uint64_t)(length + header_length)), least = UINT64_MAX;
  for (int i = 0; i < TRIES && least > limit; i++) {
    uint64_t from = now();
    call();
    uint64_t took = now() - from;
    if (took < least) least = took;
  }
  if (least > limit) {
    fprintf(stderr, "frames.c: %s took %llu ns for %zu bytes\n", name, (unsigned long long)least,
            length);
    abort();
  }
}

static void free_section(frames_section *one) {
  if (one->at) frames_c_free(*one);
  one->at = NULL;
}

static void free_table(void) {
  if (table.at) frames_c_row_table_free(table);
  table.at = NULL;
}

static void read_section(void) {
  frames_refusal refusal = {99, 0, 0, 0};
  free_section(&section);
  if (frames_c_read(address, bytes, length, &refusal, &section)) return;
  HOLD(refusal.kind >= FRAMES_SHORT && refusal.kind <= FRAMES_CFA_RULE);
  HOLD(refusal.start <= refusal.at && refusal.at <= length && section.at == NULL);
}

static void read_headed(void) {
  frames_refusal refusal = {99, 0, 0, 0};
  frames_header told = {99, 0, 0};
  free_section(&headed);
  if (!frames_c_read_with_header(address, bytes, length, address + HEADER_AFTER, header,
                                 header_length, &refusal, &told, &headed))
    return;
  HOLD(told.accepted <= 1 && told.kind <= FRAMES_HEADER_OVERLAP && told.at <= header_length);
  HOLD(told.accepted == 0 || told.kind == 0);
}

static void make_table(void) {
  free_table();
  uint64_t told = frames_c_row_table(section, &table, &section);
  HOLD(told == FRAMES_ROW_TABLE_MADE && table.at != NULL);
}

static void one_row(void) {
  frames_row row;
  frames_c_row(section, asked, &row, &section);
}

static void one_step(void) {
  frames_frame frame = {.columns = {[6] = 0x7010, [7] = 0x7000}, .at_instruction = 1};
  frame.columns[16] = asked;
  frames_c_step(section, memory, &frame, &section, &memory);
}

/* One address by all that looks it up. */
static void ask(const frames_entry *entries, size_t count, uint64_t pc) {
  frames_fde fde = {0}, by_header = {0};
  frames_entry entry;
  frames_row row = {0}, tabled = {0}, batch = {0};
  bool found = frames_c_find(section, pc, &fde, &section);
  HOLD(frames_c_find(headed, pc, &by_header, &headed) == found);
  HOLD(memcmp(&fde, &by_header, sizeof fde) == 0);
  HOLD(!found || (pc - fde.first < fde.range && fde.place < length));
  if (entries) {
    HOLD(frames_c_search(entries, count, pc, &entry) == found);
    HOLD(!found || (entry.place == fde.place && entry.first == fde.first));
  }
  HOLD(frames_c_row(section, pc, &row, &section) == found);
  HOLD(frames_c_row_table_row(table, pc, &tabled, &table) == found);
  HOLD(memcmp(&row, &tabled, sizeof row) == 0);
  HOLD(frames_c_rows(section, &pc, 1, &batch, 1, &section));
  HOLD(found ? memcmp(&row, &batch, sizeof row) == 0 : batch.cfa == FRAMES_CFA_NO_FDE);
  for (uint64_t exact = 0; exact < 2; exact++) {
    frames_frame frame = {.columns = {[6] = 0x7010, [7] = 0x7000}, .at_instruction = exact};
    frame.columns[16] = exact ? pc : pc + 1;
    frames_frame other = frame;
    uint64_t told = frames_c_step(section, memory, &frame, &section, &memory);
    HOLD(told <= FRAMES_NO_BYTES && (found || told == FRAMES_NO_FDE || !exact));
    HOLD(frames_c_row_table_step(table, memory, &other, &table, &memory) == told);
    HOLD(memcmp(&frame, &other, sizeof frame) == 0);
  }
  asked = pc;
  hold_time("a row", one_row, START);
  hold_time("a step", one_step, START);
}

/* The first and the last addresses of some FDEs, and those beside them. */
static void ask_all(void) {
  static frames_entry entries[ENTRIES];
  size_t count = 0, fdes = frames_c_count(section, &section);
  uint64_t told = frames_c_table(section, entries, ENTRIES, &count, &section);
  HOLD(told <= FRAMES_TABLE_SHARED && (told == FRAMES_TABLE_ROOM) == (fdes > ENTRIES));
  HOLD(told == FRAMES_TABLE_ROOM || count <= fdes);
  const frames_entry *searched = told == FRAMES_TABLE_MADE ? entries : NULL;
  ask(searched, count, address);
  if (told == FRAMES_TABLE_ROOM) return;
  for (size_t i = 0; i < count; i += 1 + count / ASKED) {
    ask(searched, count, entries[i].first);
    ask(searched, count, entries[i].first - 1);
    ask(searched, count, entries[i].first + entries[i].range / 2);
    ask(searched, count, entries[i].first + entries[i].range);
  }
}

int LLVMFuzzerTestOneInput(const uint8_t *input, size_t size) {
  if (size < 9) return -1;
  memcpy(&address, input + 1, 8);
  header_length = input[0] < size - 9 ? input[0] : size - 9;
  length = size - 9 - header_length;
  /* a block for each, so that no byte behind it is read */
  uint8_t *given = malloc(length + 1), *headers = malloc(header_length + 1);
  memcpy(headers, input + 9, header_length);
  memcpy(given, input + 9 + header_length, length);
  bytes = realloc(given, length ? length : 1);
  header = realloc(headers, header_length ? header_length : 1);
  hold_time("a section", read_section, START);
  if (section.at) {
    hold_time("a section with its header", read_headed, START);
    HOLD(headed.at != NULL);
    hold_time("a row table", make_table, TABLE_START);
    HOLD(frames_c_memory(&memory));
    frames_c_memory_push(memory, 0x7000, input, size < 4096 ? size : 4096, &memory);
    ask_all();
    frames_c_memory_free(memory);
    free_table();
    free_section(&headed);
    free_section(&section);
  }
  free((void *)bytes);
  free((void *)header);
  return 0;
}
