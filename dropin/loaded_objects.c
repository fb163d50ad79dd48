/* FDEs of loaded objects. The C library's list of them takes no lock, and linkers leave a sorted
 * table in each. */
#define _GNU_SOURCE
#include "dropin.h"
#include <dlfcn.h>
#include <string.h>

/* The header of the table, as all linkers write it, and the table. */
struct header {
  uint8_t form[4]; /* the version, and the encodings of `frames`, `count` and the table */
  int32_t frames;
  uint32_t count;
  unwind_entry table[];
};
static const uint8_t usual[4] = {1, 0x1b, 0x03, 0x3b};
static const struct section no_bases;

/* Where the last search of an address ended in its table: a guess, from which the next one begins.
 * Tables have nothing to do with each other, so what stands here may be wrong. */
enum { GUESSES = 1024 };
static _Atomic uint32_t guesses[GUESSES];

/* The FDE of the last entry that begins at an address or before it; else that of the first one. */
static const struct record *search_table(const struct header *header, uint64_t pc) {
  _Atomic uint32_t *guess = &guesses[pc % GUESSES];
  const uint32_t guessed = atomic_load_explicit(guess, memory_order_relaxed);
  const int64_t wanted = (int64_t)(pc - (uintptr_t)header);
  const size_t place = unwind_c_place(header->table, header->count, wanted, guessed);
  if (place != guessed) atomic_store_explicit(guess, (uint32_t)place, memory_order_relaxed);
  return (const void *)((const uint8_t *)header + header->table[place].fde);
}

/* Goes along all records where there is no table, or one of another form. */
const void *find_loaded(uint64_t pc, struct dwarf_eh_bases *bases) {
  struct dl_find_object object;
  if (_dl_find_object((void *)pc, &object) != 0) return NULL;
  const struct header *header = object.dlfo_eh_frame;
  if (header == NULL || header->form[0] != usual[0]) return NULL;
  const bool has_table = memcmp(header->form, usual, sizeof usual) == 0 && header->count != 0 &&
                         (uintptr_t)header % sizeof(int32_t) == 0;
  const struct record *at;
  uint64_t frames;
  if (has_table) at = search_table(header, pc);
  else if (read_pointer(header->form[1], (const uint8_t *)&header->frames, &no_bases, &frames))
    at = (const void *)frames;
  else return NULL;
  for (unwind_range fde; next_record(&at, &no_bases, &fde);) {
    if (pc - fde.first < fde.size) {
      *bases = (struct dwarf_eh_bases){NULL, NULL, (void *)fde.first};
      return (const void *)fde.at;
    }
    if (has_table) break;
  }
  return NULL;
}
