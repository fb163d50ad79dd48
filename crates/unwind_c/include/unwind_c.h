/* Unwind information for C and C++: which FDE covers an address, while sections of .eh_frame come
 * and go.
 *
 * A library of sections has one writer and any number of readers. The writer registers whole
 * sections: all FDEs of one that have addresses, or none. A reader finds the FDE of an address in
 * one call, and the call tells where the FDE stands. Sections may overlap: a range that has an
 * address of one that is registered before goes into a second half, which is asked where the first
 * one misses.
 *
 * Each answer below is proved to be what the comment beside it says, for every call whose caller
 * keeps to what follows. Nothing checks that: it is what C owes.
 *
 *   - What a call writes (`out`, `back`, `into_back`, `told`, `keys`, `found`) is writable, aligned,
 *     and apart from all else that the call is given. What it holds before doesn't matter, but for
 *     a writer or a reader: that holds nothing.
 *   - What a call reads (`limits`, `bytes`) nobody writes while the call runs. An array of length
 *     0 has an address too, which isn't null. The bytes are read in the call and not kept: what
 *     stands in the section's place later changes no answer.
 *   - A writer is one pointer. C owns it from the call that wrote it until it is dropped. A call
 *     takes it by value and gives it back through `back`, which may be the same variable:
 *     unwind_c_deregister(writer, key, &told, &writer). Never pass one that was dropped, or
 *     passed and not given back, and never read or copy what it leads to. No call can tell one
 *     that was dropped: set the variable to {0}, and test its `at` where it may hold nothing. No
 *     call tests for {0} either: it reads at address 0 or a little above, at which most systems
 *     end the program. The same is true of a reader.
 *   - One call at a time is given a writer, and one a reader. Different readers, and a reader and
 *     the writer, don't meet: no call waits. A reader goes from one thread to another in order: by
 *     a lock, or by a thread's start or join. So may a writer, which has no part that is a
 *     thread's; but that of a writer isn't among what is proved.
 *   - malloc, realloc and free are those of the program, and don't fail but by NULL. Which calls
 *     call them is said beside each.
 *
 * Updates have numbers, 1, 2, 3 and so on, in the order in which they were made: one for each range
 * that came or went. A stamp is such a number too: an answer with stamp 7 is right of the ranges
 * after the first seven updates. What a reader is told never goes back, nor below what its maker
 * had seen: a stamp is at least any that it was told before.
 *
 * What a lookup says. A hit tells the FDE of a section that was registered, as its bytes said: one
 * that has the address, and whose range stood in that half at the stamp. A miss tells a stamp of
 * each half: no range that stood in a half at its stamp has the address. So a section that stood at
 * both stamps is found. The halves are asked one after the other: where the stamps of a miss
 * differ, a section that came in between may have been missed, and is there at the next lookup.
 * That a lookup sees what was done before it began follows from each of its steps being one
 * sequentially consistent load, and isn't among what is proved.
 *
 * How to ask again. AGAIN: something changed on the way, or a lock was taken there. The call didn't
 * wait. Pause, yield or sleep as the program likes, and ask again. Nothing says how many there are
 * in a row: each comes back at once. An update takes its locks from the node at which its sight
 * began, which mostly is one leaf.
 *
 * Nobody but the writer takes locks. So an update finds none taken, but where memory was written
 * over, a writer was given to two calls at once, or, in a forked child, another thread of the
 * parent was within an update. Such a call is STUCK, and so are all updates by that writer from
 * then on. Lookups go on.
 *
 * In a signal handler: unwind_c_find alone, by a reader that no call which the handler interrupts
 * was given. It takes no memory, and each step is one atomic access of a word. Where the handler
 * interrupts an update a lookup may be AGAIN for as long as the handler runs. That a handler
 * interrupts a call is beyond what is proved. In the forked child of a process with threads: the
 * same, and where a thread was within an update when the process was forked, lookups that pass
 * there are AGAIN however often they are tried. A program that holds back signals and forks during
 * updates has neither.
 *
 * A stack can be unwound through a call, at each of its instructions: the library has an .eh_frame,
 * which is tried and not proved. Nothing is ever thrown through a call, as none calls back.
 */
#ifndef UNWIND_C_H
#define UNWIND_C_H

#include <stdbool.h>
#include <stddef.h>
#include <stdint.h>

/* Compilers that know the word warn of a null pointer in the place of an argument, and with
 * -fsanitize=nonnull-attribute the program ends at one. */
#if defined(__GNUC__)
#define UNWIND_C_NONNULL __attribute__((nonnull))
#else
#define UNWIND_C_NONNULL
#endif

#ifdef __cplusplus
extern "C" {
#endif

/* ---- libraries ------------------------------------------------------------------------------- */

/* The writer of a library of sections, or nothing: {0}. */
typedef struct {
  void *at;
} unwind_writer;

/* A reader of a library, or nothing: {0}. */
typedef struct {
  void *at;
} unwind_reader;

/* 4 to 16384 nodes: three for each ten ranges are enough, in whatever order they come and go. 1 to
 * 1024 loads: so many ranges may stand in the second half at a time. An FDE must stand within 4 GB
 * above its code's first address plus `low`, modulo 2^64: `low` is 2^64 - 2^31 where code and
 * sections are within 2 GB of each other. */
typedef struct {
  uint32_t nodes;
  uint32_t loads;
  uint64_t low;
} unwind_limits;

enum unwind_new {
  UNWIND_NEW = 0,           /* `out` has the writer */
  UNWIND_NEW_NO_MEMORY = 1, /* memory ran out       */
  UNWIND_NEW_NODES = 2,     /* not so many nodes    */
  UNWIND_NEW_LOADS = 3      /* not so many loads    */
};

/* Makes a library without sections, and its writer, which has all 67,108,864 update calls. It takes
 * memory: some 290 bytes a node and 50 a load. */
uint64_t unwind_c_new(const unwind_limits *limits, unwind_writer *out) UNWIND_C_NONNULL;

/* How many update calls are left. Each range that comes or goes takes one, and so does each try to
 * put one that finds no room. */
uint32_t unwind_c_left(unwind_writer writer, unwind_writer *back) UNWIND_C_NONNULL;

/* How many of them are due: one for each range that stands, to take it away. */
uint32_t unwind_c_due(unwind_writer writer, unwind_writer *back) UNWIND_C_NONNULL;

/* Frees a writer, and the library with the last of it and its readers. What stands stays where it
 * is as long as there is a reader. */
void unwind_c_drop(unwind_writer writer);

/* ---- sections -------------------------------------------------------------------------------- */

enum unwind_told_kind {
  UNWIND_DONE = 0,       /* it was done by the updates `first_number` to `last_number`, one for   */
                         /* each range that came or went; both are 0 where there is none. What is */
                         /* given up or moved has its `note`. What is registered has its          */
                         /* addresses: the least is `lowest`, and `end` the one after the         */
                         /* greatest, modulo 2^64; without ranges these are 2^64 - 1 and 0        */
  UNWIND_REFUSED = 1,    /* the bytes are no section: `refusal` is the first                      */
  UNWIND_FAR = 2,        /* an FDE is too far from its code, and this is the first: its address   */
                         /* less that of its code is `low` + `distance`, modulo 2^64              */
  UNWIND_SPENT = 3,      /* fewer update calls are left than are due and three for each range     */
  UNWIND_NO_MEMORY = 4,  /* memory ran out                                                        */
  UNWIND_OVERLAP = 5,    /* a range overlaps one that stands in the first half, and the second    */
                         /* has no room for it: it overlaps one there too, or there are as many   */
                         /* as may be                                                             */
  UNWIND_FULL = 6,       /* there are too few nodes                                               */
  UNWIND_STUCK = 7,      /* a lock was found taken, now or before: there are no more updates      */
  UNWIND_UNKNOWN = 8,    /* nothing stands under the key                                          */
  UNWIND_LEFT = 9,       /* it stands in `into`, with its numbers as when it is done; here a      */
                         /* lock was found taken while it was taken away                          */
  UNWIND_INTO_STUCK = 10 /* STUCK, of the library `into`                                          */
};

/* Why bytes are no section: all that frames_c.h says of a frames_refusal, but that `kind` is never
 * that memory ran out, which is told as UNWIND_NO_MEMORY. */
typedef struct {
  uint64_t kind;
  uint64_t start;
  uint64_t at;
  uint64_t detail;
} unwind_refusal;

/* What isn't told is 0. */
typedef struct {
  uint32_t kind;
  uint32_t first_number;
  uint32_t last_number;
  uint64_t note;
  uint64_t distance;
  uint64_t lowest;
  uint64_t end;
  unwind_refusal refusal;
} unwind_told;

/* Registers the section whose bytes stand at an address: a range for each FDE that has addresses,
 * all or none. One whose first address is 0 has none: a linker threw its code away. It stands under
 * a key, any number, above all that stand under the same key; and with a note of the program's own,
 * which is told when it is given up. DONE, REFUSED, FAR, SPENT, NO_MEMORY, OVERLAP, FULL or STUCK.
 *
 * Where it isn't DONE, all that stood stands, and nothing of this section. REFUSED, FAR, SPENT and
 * NO_MEMORY come before any update; what was put before a range had no room (OVERLAP, FULL) was
 * taken back. Where it is STUCK ranges of this section may be left.
 *
 * It takes memory, of which some 150 bytes are kept for a section of one range, and 32 at most for
 * each further one; the rest, with the bytes once, is freed before it returns. */
void unwind_c_register(unwind_writer writer, uint64_t key, uint64_t note, uint64_t address,
                       const uint8_t *bytes, size_t length, unwind_told *told,
                       unwind_writer *back) UNWIND_C_NONNULL;

/* Gives up the section that was registered last under a key and stands. DONE, UNKNOWN or STUCK;
 * where it is UNKNOWN nothing was done. It frees memory, and takes none. */
void unwind_c_deregister(unwind_writer writer, uint64_t key, unwind_told *told,
                         unwind_writer *back) UNWIND_C_NONNULL;

/* Moves the section that was registered last under a key and stands to another library, where it
 * stands under the same key: put there, and then taken away here. DONE, with the numbers of the
 * updates there; UNKNOWN or STUCK; or FAR, SPENT, NO_MEMORY, OVERLAP, FULL or INTO_STUCK, as
 * unwind_c_register answers of `into`. Unless it is DONE, LEFT or STUCK, this library is as it was.
 * It takes memory as unwind_c_register does, but none for bytes. */
void unwind_c_move(unwind_writer writer, unwind_writer into, uint64_t key, unwind_told *told,
                   unwind_writer *back, unwind_writer *into_back) UNWIND_C_NONNULL;

/* Tells the keys that the library lists, so that all that stands can be moved or given up: how many
 * they are. Each under which a section stands is one of them. As many as there is room for are
 * written, in no order. */
size_t unwind_c_keys(unwind_writer writer, uint64_t *keys, size_t room,
                     unwind_writer *back) UNWIND_C_NONNULL;

/* ---- readers --------------------------------------------------------------------------------- */

/* Makes a reader that has seen what the writer has. True: `out` has it. False: memory ran out. It
 * takes one small block of memory. */
bool unwind_c_reader(unwind_writer writer, unwind_reader *out,
                     unwind_writer *back) UNWIND_C_NONNULL;

/* Makes another reader, which has seen what one has. True: `out` has it. False: memory ran out. */
bool unwind_c_reader_again(unwind_reader reader, unwind_reader *out,
                           unwind_reader *back) UNWIND_C_NONNULL;

/* Frees a reader, at any time, also after the writer was dropped; and the library with the last of
 * its writer and readers. How many updates it had seen. */
uint32_t unwind_c_reader_drop(unwind_reader reader);

enum unwind_found_kind {
  UNWIND_MISS = 0,       /* no range of either half has the address, each at its stamp         */
  UNWIND_REGISTERED = 1, /* an FDE's range has it, in the first half at the stamp `registered` */
  UNWIND_LOADED = 2,     /* none in the first half has it, and one in the second has, at the   */
                         /* stamp `loaded`                                                     */
  UNWIND_AGAIN = 3       /* it isn't answered                                                  */
};

/* The stamps; the `size` addresses of the FDE from `first` on; and the address of the FDE, that of
 * its first byte. What isn't told is 0. */
typedef struct {
  uint32_t kind;
  uint32_t registered;
  uint32_t loaded;
  uint64_t first;
  uint64_t size;
  uint64_t fde;
} unwind_found;

/* Finds the FDE of an address: looks once among the ranges of the first half, and where none has
 * it, once among those of the second. It takes no memory, no lock, and stores nothing that is
 * shared. */
void unwind_c_find(unwind_reader reader, uint64_t pc, unwind_found *found,
                   unwind_reader *back) UNWIND_C_NONNULL;

/* ---- loaded objects -------------------------------------------------------------------------- */

/* An entry of the sorted table that a linker leaves in a loaded object, in .eh_frame_hdr: where
 * code begins, and where its FDE stands. Both count from the header on. */
typedef struct {
  int32_t first;
  int32_t fde;
} unwind_entry;

/* The place of an entry in such a table, which has one at least: that entry begins at `wanted`,
 * which counts from the header on too, or before it, or is the first; and the next one, if there is
 * one, begins after it. So where the entries are in order, no other's code has the address. The
 * entry at `guess` is tried first, and any number will do. It takes no memory and writes nothing,
 * and may be called in a signal handler. */
size_t unwind_c_place(const unwind_entry *entries, size_t count, int64_t wanted,
                      size_t guess) UNWIND_C_NONNULL;

/* ---- ranges of the program's own ------------------------------------------------------------- */

/* The `size` addresses from `first` on, and what stands `at` them, any number. `reach` is at least
 * the address after all that this range has and those before it. */
typedef struct {
  uint64_t at;
  uint64_t first;
  uint64_t size;
  uint64_t reach;
} unwind_range;

/* Puts ranges in order of their first addresses. It takes no memory. */
void unwind_c_order(unwind_range *ranges, size_t count) UNWIND_C_NONNULL;

/* The place of a range that has an address; `count` where none was found: where the ranges are in
 * order, and `reach` is as said, none has it. It takes no memory and writes nothing, and may be
 * called in a signal handler. */
size_t unwind_c_cover(const unwind_range *ranges, size_t count, uint64_t pc) UNWIND_C_NONNULL;

#ifdef __cplusplus
}
#endif
#endif
