/* What the parts of the drop-in share. Each file says at its head what it does. */
#ifndef DROPIN_H
#define DROPIN_H

#include "unwind_c.h"
#include <stdatomic.h>
#include <stdbool.h>
#include <stddef.h>
#include <stdint.h>

#pragma GCC visibility push(hidden)

/* What libgcc's unwinder is told beside the address of an FDE. */
struct dwarf_eh_bases {
  void *tbase, *dbase, *func;
};

/* A record of .eh_frame as it stands in a section, up to the one with a length of 0. `back` tells
 * how far an FDE's CIE stands before it, and is 0 in a CIE. Then an FDE has its addresses, mostly
 * in this form, in which the first counts from its own place on. */
#define UNALIGNED __attribute__((packed, may_alias))
struct record {
  uint32_t length;
  int32_t back;
  int32_t first;
  uint32_t size;
} UNALIGNED;
static inline const struct record *after(const struct record *at) {
  return (const void *)((const uint8_t *)&at->back + at->length);
}

/* What a program registers: the first record of a section, or an array of such pointers that ends
 * with a null one; the program's own pointer, which it gets back; to what an encoding may be
 * relative. */
struct section {
  const void *begin;
  bool is_array;
  void *ob, *text, *data;
};

/* What was taken out of a list, and ends when no lookup can be at it any more. */
struct leaving {
  struct leaving *next;
  uint64_t since;
  void (*end)(void *me);
};

/* locking: updates, one at a time, which no handler or fork comes between */
void begin_update(void);
void end_update(void);
uint32_t ended_updates(void);
void await_update(uint32_t ended);
void say(const char *what, const void *where);

/* leases: a slot is one lookup's alone, from 0 to SLOTS, of which the last is within an update */
enum { SLOTS = 128, LINE = 64 };
unsigned lease(void);
void give_back(unsigned slot);
void leave(struct leaving *what, void (*end)(void *what));
void end_what_left(void);
void renew_slots(void);

/* registry: what the libraries and the list of plain sections tell */
extern _Atomic uint64_t takes; /* how many sections were begun to be taken out of a list */
void widen_bounds(uint64_t lowest, uint64_t last);

/* handing_on: to an unwinder that doesn't ask this registry */
bool hand_on(const char *name, const void *begin, void *ob, void *text, void *data, void **answer);

/* libraries: sections that the proved library keeps. Who puts isn't within an update, who takes is;
 * the same is true of plain ones. */
bool put_section(const struct section *section);
bool take_section(const void *begin, void **ob);
const void *find_in_libraries(unsigned slot, uint64_t pc, struct dwarf_eh_bases *bases);
bool renew_readers(unsigned slot);

/* plain_reader: records as libgcc reads them. An FDE has its address, and no addresses where its
 * size is 0. */
const uint8_t *read_pointer(uint8_t encoding, const uint8_t *at, const struct section *of,
                            uint64_t *value);
bool next_record(const struct record **at, const struct section *of, unwind_range *fde);
size_t read_fdes(const struct section *section, unwind_range *into, size_t room);

/* plain_sections: what the proved library refuses */
bool put_plain(const struct section *section);
bool take_plain(const void *begin, void **ob);
const void *find_plain(uint64_t pc, struct dwarf_eh_bases *bases);

/* loaded_objects: by the C library's list and each object's own table */
const void *find_loaded(uint64_t pc, struct dwarf_eh_bases *bases);

/* memory: by mmap, within an update; LARGE bytes and more at any time */
enum { LARGE = 4096 };
void *take_memory(size_t size);
void give_memory(void *block);

#pragma GCC visibility pop
#endif
