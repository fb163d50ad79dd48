/* The ten names by which programs, JIT compilers and libgcc's unwinder reach the registry, with
 * libgcc's signatures. They belong together: a section that is registered here and looked up there
 * isn't found. A registered section stands in a library, or else it is plainly read. */
#include "dropin.h"
#include <stdalign.h>
#include <stdlib.h>

/* All addresses that were ever registered are from the one on and up to the other: a lookup of
 * another address, as most frames of a throw have, asks nobody. */
static struct {
  alignas(LINE) _Atomic uint64_t lowest, last;
} bounds = {.lowest = UINT64_MAX};
alignas(LINE) _Atomic uint64_t takes;

/* By all addresses from one up to another. */
void widen_bounds(uint64_t lowest, uint64_t last) {
  if (lowest < bounds.lowest) atomic_store(&bounds.lowest, lowest);
  if (last > bounds.last) atomic_store(&bounds.last, last);
}

/* A miss is believed where nothing was begun to be taken out meanwhile: so who stands all the time
 * is found, and an address is found that some section has at each moment. */
static const void *find_registered(uint64_t pc, struct dwarf_eh_bases *bases) {
  if (pc < atomic_load(&bounds.lowest) || pc > atomic_load(&bounds.last)) return NULL;
  const unsigned slot = lease();
  const void *fde;
  uint64_t before;
  do {
    before = atomic_load(&takes);
    fde = find_in_libraries(slot, pc, bases);
    if (fde == NULL) fde = find_plain(pc, bases);
  } while (fde == NULL && atomic_load(&takes) != before);
  give_back(slot);
  return fde;
}

const void *_Unwind_Find_FDE(void *pc, struct dwarf_eh_bases *bases) {
  const void *fde = find_registered((uintptr_t)pc, bases);
  return fde != NULL ? fde : find_loaded((uintptr_t)pc, bases);
}

/* As in libgcc, what begins with a length of 0 isn't registered, and is given up without a word. */
static bool is_empty(const struct record *begin) { return begin->length == 0; }

static void register_section(const char *name, const struct section *section) {
  const bool is_plain = section->is_array || section->text != NULL || section->data != NULL;
  void *none;
  if (section->begin == NULL ||
      hand_on(name, section->begin, section->ob, section->text, section->data, &none))
    return;
  if (!section->is_array && is_empty(section->begin)) return;
  if ((is_plain || !put_section(section)) && !put_plain(section))
    say("there is no memory to register", section->begin);
}

/* What begins with four bytes of 0 may be an array, too. */
static void *give_up(const void *begin) {
  void *ob = NULL;
  begin_update();
  const bool is_taken = take_section(begin, &ob) || take_plain(begin, &ob);
  end_update();
  if (!is_taken && !is_empty(begin)) say("nothing is registered at", begin);
  return ob;
}

static void *give_up_info(const char *name, const void *begin) {
  void *ob = NULL;
  if (begin == NULL || hand_on(name, begin, NULL, NULL, NULL, &ob)) return ob;
  return give_up(begin);
}
void *__deregister_frame_info_bases(const void *begin) { return give_up_info(__func__, begin); }
void *__deregister_frame_info(const void *begin) { return give_up_info(__func__, begin); }

/* As in libgcc: what the program gave for libgcc's use goes by the program's free. */
void __deregister_frame(void *begin) {
  void *none;
  if (begin != NULL && !hand_on(__func__, begin, NULL, NULL, NULL, &none)) free(give_up(begin));
}

void __register_frame_info_bases(const void *begin, void *ob, void *text, void *data) {
  register_section(__func__, &(struct section){begin, false, ob, text, data});
}
void __register_frame_info(const void *begin, void *ob) {
  register_section(__func__, &(struct section){begin, false, ob, NULL, NULL});
}
void __register_frame(void *begin) {
  register_section(__func__, &(struct section){begin, false, NULL, NULL, NULL});
}

void __register_frame_info_table_bases(void *begin, void *ob, void *text, void *data) {
  register_section(__func__, &(struct section){begin, true, ob, text, data});
}
void __register_frame_info_table(void *begin, void *ob) {
  register_section(__func__, &(struct section){begin, true, ob, NULL, NULL});
}
void __register_frame_table(void *begin) {
  register_section(__func__, &(struct section){begin, true, NULL, NULL, NULL});
}
