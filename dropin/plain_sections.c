/* Sections that the proved library refuses: each a sorted list of its FDEs, asked last. */
#include "dropin.h"

struct plain {
  struct leaving leaving;
  _Atomic(struct plain *) next;
  struct section section;
  size_t count;
  unwind_range fdes[]; /* in order of their first addresses */
};
static _Atomic(struct plain *) first;

/* NULL: there is no memory. What is read and put in order here keeps no update from beginning. */
static struct plain *read_plain(const struct section *section) {
  const size_t room = read_fdes(section, NULL, 0);
  begin_update();
  struct plain *plain = take_memory(sizeof *plain + room * sizeof(unwind_range));
  end_update();
  if (plain == NULL) return NULL;
  const size_t count = read_fdes(section, plain->fdes, room);
  plain->section = *section;
  plain->count = count < room ? count : room;
  unwind_c_order(plain->fdes, plain->count);
  uint64_t reach = 0;
  for (size_t at = 0; at < plain->count; at++) {
    unwind_range *fde = &plain->fdes[at];
    /* the address after the last one of all isn't one */
    const uint64_t end = fde->size < -fde->first ? fde->first + fde->size : UINT64_MAX;
    fde->reach = reach = end > reach ? end : reach;
  }
  return plain;
}

bool put_plain(const struct section *section) {
  struct plain *plain = read_plain(section);
  if (plain == NULL) return false;
  begin_update();
  if (plain->count > 0) widen_bounds(plain->fdes[0].first, plain->fdes[plain->count - 1].reach);
  atomic_init(&plain->next, atomic_load(&first));
  atomic_store(&first, plain);
  end_update();
  return true;
}

bool take_plain(const void *begin, void **ob) {
  for (_Atomic(struct plain *) *at = &first; atomic_load(at) != NULL; at = &atomic_load(at)->next) {
    struct plain *plain = atomic_load(at);
    if (plain->section.begin != begin) continue;
    *ob = plain->section.ob;
    atomic_fetch_add(&takes, 1);
    atomic_store(at, atomic_load(&plain->next));
    leave(&plain->leaving, give_memory);
    return true;
  }
  return false;
}

const void *find_plain(uint64_t pc, struct dwarf_eh_bases *bases) {
  for (struct plain *plain = atomic_load(&first); plain; plain = atomic_load(&plain->next)) {
    const size_t place = unwind_c_cover(plain->fdes, plain->count, pc);
    if (place == plain->count) continue;
    const unwind_range *fde = &plain->fdes[place];
    *bases = (struct dwarf_eh_bases){plain->section.text, plain->section.data, (void *)fde->first};
    return (const void *)fde->at;
  }
  return NULL;
}
