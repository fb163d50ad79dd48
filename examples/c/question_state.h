/* What the questions so far made known: sections and headers by their names, recorded memory, and
 * the registers. */
#ifndef QUESTION_STATE_H
#define QUESTION_STATE_H

#include "frames_c.h"
#include "question_words.h"

enum { MOST_SECTIONS = 512, MOST_REGIONS = 64, MOST_NAME = 32 };

/* A section that was read, alone or with its header, by the name of either; and its bytes. */
typedef struct {
  char name[MOST_NAME];
  uint64_t address;
  byte_row bytes;
  frames_section section;
} known_section;

/* A region that was recorded. */
typedef struct {
  uint64_t address;
  byte_row bytes;
} known_region;

static known_section *sections[MOST_SECTIONS];
static int section_count;
static known_region regions[MOST_REGIONS];
static int region_count;
static frames_memory memory;
static uint64_t columns[17];

static void keep_section(const char *name, uint64_t address, const byte_row *bytes,
                         frames_section section) {
  known_section *kept = malloc(sizeof *kept);
  if (kept == NULL || section_count == MOST_SECTIONS || strlen(name) >= MOST_NAME)
    refuse("no room for a section", name);
  strcpy(kept->name, name);
  kept->address = address;
  kept->bytes = *bytes;
  kept->section = section;
  sections[section_count++] = kept;
}

/* The last one with the name that a word is. */
static known_section *section_of(const question *asked, int index) {
  const char *name = word_of(asked, index);
  for (int i = section_count - 1; i >= 0; i--)
    if (strcmp(sections[i]->name, name) == 0) return sections[i];
  refuse("no such section", name);
  return NULL;
}

static void free_all(void) {
  for (int i = 0; i < section_count; i++) {
    frames_c_free(sections[i]->section);
    free(sections[i]);
  }
  frames_c_memory_free(memory);
}

/* The word at an address of the recorded memory. False: it isn't in one region. */
static bool recorded_word(uint64_t address, uint64_t *word) {
  for (int i = 0; i < region_count; i++) {
    const known_region *region = &regions[i];
    if (address < region->address || region->bytes.length < 8) continue;
    if (address - region->address > region->bytes.length - 8) continue;
    *word = 0;
    for (int at = 7; at >= 0; at--)
      *word = *word << 8 | region->bytes.at[address - region->address + (uint64_t)at];
    return true;
  }
  return false;
}

/* forget: no memory is recorded any more. */
static void ask_forget(answer *out) {
  frames_c_memory_free(memory);
  memory.at = NULL;
  region_count = 0;
  if (!frames_c_memory(&memory)) refuse("no memory", "forget");
  tell(out, "forgotten");
}

/* region ADDRESS BYTES */
static void ask_region(const question *asked, answer *out) {
  static const char *const told[] = {"recorded", "refused Empty", "refused End", "refused Order"};
  known_region region = {.address = hexadecimal(asked, 1)};
  bytes_of(&region.bytes, asked, 2);
  uint64_t came =
      frames_c_memory_push(memory, region.address, region.bytes.at, region.bytes.length, &memory);
  if (came > FRAMES_REGION_ORDER || region_count == MOST_REGIONS) refuse("no memory", "region");
  if (came == FRAMES_RECORDED) regions[region_count++] = region;
  tell(out, "%s", told[came]);
}

/* columns N=NUMBER..: the others are 0. */
static void ask_columns(const question *asked, answer *out) {
  memset(columns, 0, sizeof columns);
  for (int i = 1; i < asked->count; i++) {
    char *equals;
    unsigned long column = strtoul(asked->words[i], &equals, 10);
    if (column > 16 || *equals != '=') refuse("no column", asked->words[i]);
    columns[column] = number_in(equals + 1, 16);
  }
  tell(out, "set");
}

#endif
