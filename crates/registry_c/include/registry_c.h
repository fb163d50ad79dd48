/* The registry for C and C++: which range of addresses has an address, while ranges come and go.
 *
 * A registry has two halves. Ranges of generated code are registered and deregistered; images of
 * the loader are loaded and unloaded, beside fixed ones that are there for good. Ranges of one half
 * don't overlap. Each range has a payload, a number that is the program's own.
 *
 * Each answer below is proved to be what the comment beside it says, for every call whose caller
 * keeps to what follows. Nothing checks that: it is what C owes.
 *
 *   - What a call writes (`out`, `back`, `other_back`, `answer`, `found`, `place`, `seen`) is
 *     writable, aligned, and apart from all else that the call is given. What it holds before
 *     doesn't matter, but for a client or a reader: that holds nothing.
 *   - What a call reads (`limits`, `fixed`, `member`) nobody writes while the call runs. An array
 *     of length 0 has an address too, which isn't null.
 *   - A client is one pointer. C owns it from the call that wrote it until it is joined or closed.
 *     A call takes it by value and gives it back through `back`, which may be the same variable:
 *     registry_c_find(client, pc, &place, &client). Never pass one that was joined, closed, or
 *     passed and not given back, and never read or copy what it leads to. No call can tell one
 *     that was joined or closed (valgrind does, with the call that freed it): set the variable to
 *     {0}, and test its `at` where it may hold nothing. No call tests for {0} either: it reads at
 *     address 0 or a little above, at which most systems end the program.
 *   - One call at a time is given a client. Each thread has one of its own (registry_c_split), and
 *     threads with a client each don't meet: no call waits. A client goes from one thread to
 *     another in order: by a lock, or by a thread's start or join.
 *   - Clients that are joined are of one registry, or the names of their registries differ.
 *   - A reader is a pointer too, and all that is said of a client's is true of a reader's: until
 *     registry_c_reader_drop C owns it, and one call at a time is given it.
 *   - malloc, realloc and free are those of the program, and don't fail but by NULL. Only the calls
 *     that make, split, join, close and drop call them.
 *
 * Updates have numbers, 1, 2, 3 and so on, in the order in which they were accepted, by whichever
 * client. A stamp is such a number too: an answer with stamp 7 is right of the ranges after the
 * first seven updates. What a client is told never goes back: a stamp is at least, and a number
 * above, any stamp and number that it was told before.
 *
 * How to try again. A call that answers BUSY found a lock taken, or the list of free nodes moving
 * as often as it tried, and one that answers AGAIN found that something changed on the way. Neither
 * waited. Pause, yield or sleep as the program likes, and ask again. After BUSY the update call
 * stays begun: the next update, the same or another, goes on with it and takes no further one.
 *
 * Beside a busy writer. An update of the registered ranges looks for its leaf as a lookup does, and
 * mostly locks that alone; one that splits or joins nodes begins above them, at the root at the
 * highest, and goes down a lock at a time. Another one that comes to a lock meanwhile is BUSY, and a
 * lookup of that half that passes there is AGAIN. Beside a client that updates without a pause that
 * is so of most tries while all ranges are in one leaf, of which ten have room. Each comes back at
 * once; nothing says how many there are in a row. An update of the loaded ranges makes others of
 * that half BUSY while it runs, and a lookup of it AGAIN only where it was accepted between the
 * lookup's first step and its last. To a client that is alone no lookup is AGAIN.
 *
 * What a client costs. A thousand bytes, whatever the registry's nodes; half of that are its last
 * eight hits in either half (registry_c_find_cached). Join one that isn't needed any more, into any
 * other: a chain of hand-overs, each of which joins the old client into the new one, takes nothing.
 * One that is closed and not joined takes its update calls with it, and leaves nothing behind; but
 * no other client is alone from then on, however many are joined. A client may split off millions
 * that are never joined; but of clients that were split off one another and not joined few should
 * stand in a row: from the 17th on one may be SPENT after tries that were BUSY, and after the 32nd
 * a split is told as want of memory.
 *
 * Readers. A reader looks up as a client does, and owes nothing: no client waits for it, it counts
 * in no bound, and a client that is alone stays so beside readers. It may be dropped at any time,
 * in any order, by any thread, also after all clients were closed; the registry is freed with the
 * last of either. So a thread that only looks up drops its reader as it ends, or leaves it to
 * another thread. One that is never dropped keeps the registry's memory, and nothing else. What a
 * reader is told never goes back, nor below what its maker had been told. It costs one small
 * allocation.
 *
 * In a signal handler: registry_c_left, registry_c_seen, the lookups and the updates take no memory
 * and wait for nobody, each step is one atomic access of a word. Give the handler a client of its
 * own, which no call that it may interrupt was given. An update may then be BUSY for as long as the
 * handler runs, where the lock is that of the call interrupted; a lookup may be AGAIN so. That a
 * handler interrupts a call is beyond what is proved.
 *
 * A stack can be unwound through a call, at each of its instructions: the library has an .eh_frame,
 * which is tried and not proved. Nothing is ever thrown through a call, as none calls back.
 *
 * In the forked child of a process with threads: the same calls, and no other. Where a thread was
 * within an update when the process was forked, its locks stay taken in the child: updates are BUSY
 * and lookups that pass there AGAIN, however often they are tried.
 *
 * Of a reader too: in a handler, and in a forked child, look up by one that was made before, which
 * no call that the handler interrupts was given. To make or drop one takes or frees memory.
 */
#ifndef REGISTRY_C_H
#define REGISTRY_C_H

#include <stdbool.h>
#include <stddef.h>
#include <stdint.h>

/* Compilers that know the word warn of a null pointer in the place of an argument, and with
 * -fsanitize=nonnull-attribute the program ends at one. */
#if defined(__GNUC__)
#define REGISTRY_C_NONNULL __attribute__((nonnull))
#else
#define REGISTRY_C_NONNULL
#endif

#ifdef __cplusplus
extern "C" {
#endif

/* ---- clients --------------------------------------------------------------------------------- */

/* A client of a registry, or nothing: {0}. */
typedef struct {
  void *at;
} registry_client;

/* `size` addresses from `first` on. There is one at least, and the last is below 2^64 - 1. */
typedef struct {
  uint64_t first;
  uint64_t size;
  uint32_t payload;
} registry_member;

/* 4 to 16384 nodes. Three for each ten ranges that are registered at a time are enough, in whatever
 * order they come and go, since a leaf has four of them at least, and an inner node six children,
 * but for the root. In ascending order seven do for thirty. 1 to 1024 loads: so many may be loaded
 * at a time. Payloads are below `payloads`. `name` is the program's own for this registry: clients
 * of registries with other names aren't joined. */
typedef struct {
  uint32_t nodes;
  uint32_t loads;
  uint32_t payloads;
  uint64_t name;
} registry_limits;

enum registry_new {
  REGISTRY_NEW = 0,           /* `out` has the first client                          */
  REGISTRY_NEW_NO_MEMORY = 1, /* memory ran out                                      */
  REGISTRY_NEW_NODES = 2,     /* not so many nodes                                   */
  REGISTRY_NEW_LOADS = 3,     /* not so many loads                                   */
  REGISTRY_NEW_FIXED = 4      /* the fixed ones aren't members in ascending order    */
};

/* Makes a registry and its first client, which has all 67,108,864 update calls. */
uint64_t registry_c_new(const registry_limits *limits, const registry_member *fixed, size_t count,
                        registry_client *out) REGISTRY_C_NONNULL;

enum registry_split {
  REGISTRY_SPLIT = 0,           /* `out` has a client                                          */
  REGISTRY_SPLIT_NO_MEMORY = 1, /* memory ran out: the calls were kept, or are lost            */
  REGISTRY_SPLIT_FEW = 2        /* fewer calls are left, and nothing was done                  */
};

/* Splits off a client, for another thread, and gives it so many of the update calls that are
 * left. */
uint64_t registry_c_split(registry_client client, uint32_t give, registry_client *out,
                          registry_client *back) REGISTRY_C_NONNULL;

enum registry_join {
  REGISTRY_JOINED = 0,             /* `other` is gone, and `other_back` isn't written           */
  REGISTRY_JOIN_NO_MEMORY = 1,     /* memory ran out: `other_back` has it again, or isn't       */
                                   /* written, where it is lost                                 */
  REGISTRY_JOIN_OTHER_REGISTRY = 2 /* its registry has another name: nothing was done, and      */
                                   /* `other_back` has it again                                 */
};

/* Joins `other` into a client: its update calls, and what it has seen. An `other_back` that is {0}
 * and not the variable `other` itself shows whether one was lost. */
uint64_t registry_c_join(registry_client client, registry_client other, registry_client *back,
                         registry_client *other_back) REGISTRY_C_NONNULL;

/* Frees a client, and the registry with the last of its clients and readers. `seen` is how many
 * updates it had seen. True: every other client was joined into it, and then these are all that
 * were ever accepted. */
bool registry_c_close(registry_client client, uint32_t *seen) REGISTRY_C_NONNULL;

/* How many update calls a client may still begin. One that is begun isn't among them. */
uint32_t registry_c_left(registry_client client, registry_client *back) REGISTRY_C_NONNULL;

/* How many updates a client has seen. */
uint32_t registry_c_seen(registry_client client, registry_client *back) REGISTRY_C_NONNULL;

/* ---- lookups --------------------------------------------------------------------------------- */

enum registry_found_kind {
  REGISTRY_MISS = 0,  /* at the stamp no range has the address       */
  REGISTRY_HIT = 1,   /* at the stamp `member` has it                */
  REGISTRY_AGAIN = 2  /* it isn't answered                           */
};

/* What isn't told is 0. */
typedef struct {
  uint32_t kind;
  uint32_t stamp;
  registry_member member;
} registry_found;

/* Looks an address up once among the registered ranges. */
void registry_c_try_registered(registry_client client, uint64_t pc, registry_found *found,
                               registry_client *back) REGISTRY_C_NONNULL;

/* Looks an address up once among the fixed and the loaded ranges. */
void registry_c_try_loaded(registry_client client, uint64_t pc, registry_found *found,
                           registry_client *back) REGISTRY_C_NONNULL;

enum registry_place_kind {
  REGISTRY_NOWHERE = 0,    /* neither half has the address, each at its stamp              */
  REGISTRY_REGISTERED = 1, /* `member` has it, at the stamp `registered`                   */
  REGISTRY_LOADED = 2,     /* `member` has it at the stamp `loaded`, and no registered one */
                           /* had it at the stamp `registered`                             */
  REGISTRY_FIND_AGAIN = 3  /* it isn't answered                                            */
};

typedef struct {
  uint32_t kind;
  uint32_t registered;
  uint32_t loaded;
  registry_member member;
} registry_place;

/* Looks an address up once among the registered ranges, and where none has it, once among the
 * fixed and the loaded ones. */
void registry_c_find(registry_client client, uint64_t pc, registry_place *place,
                     registry_client *back) REGISTRY_C_NONNULL;

/* As registry_c_find, with the same promises, but in each half the client's last eight hits are
 * asked first. While no update is accepted, an address in one of those of the registered half costs
 * one load of a shared word; each update makes all of them void. A miss isn't kept: where most
 * addresses are loaded ones, or updates come as often as lookups, registry_c_find is faster. */
void registry_c_find_cached(registry_client client, uint64_t pc, registry_place *place,
                            registry_client *back) REGISTRY_C_NONNULL;

/* ---- readers --------------------------------------------------------------------------------- */

/* A reader of a registry, or nothing: {0}. */
typedef struct {
  void *at;
} registry_reader;

/* Makes a reader that has seen what a client has. True: `out` has it. False: memory ran out. */
bool registry_c_reader(registry_client client, registry_reader *out,
                       registry_client *back) REGISTRY_C_NONNULL;

/* Makes another reader, which has seen what one has. True: `out` has it. False: memory ran out. */
bool registry_c_reader_again(registry_reader reader, registry_reader *out,
                             registry_reader *back) REGISTRY_C_NONNULL;

/* Frees a reader, and the registry with the last of its clients and readers. How many updates it
 * had seen. */
uint32_t registry_c_reader_drop(registry_reader reader);

/* As registry_c_try_registered, by a reader. */
void registry_c_reader_try_registered(registry_reader reader, uint64_t pc, registry_found *found,
                                      registry_reader *back) REGISTRY_C_NONNULL;

/* As registry_c_try_loaded, by a reader. */
void registry_c_reader_try_loaded(registry_reader reader, uint64_t pc, registry_found *found,
                                  registry_reader *back) REGISTRY_C_NONNULL;

/* As registry_c_find, by a reader. */
void registry_c_reader_find(registry_reader reader, uint64_t pc, registry_place *place,
                            registry_reader *back) REGISTRY_C_NONNULL;

/* ---- updates --------------------------------------------------------------------------------- */

enum registry_answer_kind {
  REGISTRY_DONE = 0,      /* it is the update with this number; `member` is what a removal   */
                          /* took away, or what a replacement found                          */
  REGISTRY_OVERLAP = 1,   /* at the stamp `member` is the lowest one that overlaps           */
  REGISTRY_ABSENT = 2,    /* at the stamp no range of this half begins at the address, or,   */
                          /* for a replacement, none has all these addresses and no others   */
  REGISTRY_FULL = 3,      /* at the stamp nothing overlaps, and there is no room             */
  REGISTRY_SPENT = 4,     /* no update call is left, and none is begun, or one that was too  */
                          /* often BUSY                                                      */
  REGISTRY_BUSY = 5,      /* a lock was found taken, or the free list moved; nothing changed */
  REGISTRY_NO_MEMBER = 6, /* no addresses, or not below 2^64 - 1                             */
  REGISTRY_NO_PAYLOAD = 7 /* addresses, but no such payload                                  */
};

/* What isn't told is 0. */
typedef struct {
  uint32_t kind;
  uint32_t number;
  uint32_t stamp;
  registry_member member;
} registry_answer;

/* Tries to register a range, which must overlap no other registered one. */
void registry_c_register(registry_client client, const registry_member *member,
                         registry_answer *answer, registry_client *back) REGISTRY_C_NONNULL;

/* Tries to remove the registered range that begins at an address. */
void registry_c_deregister(registry_client client, uint64_t first, registry_answer *answer,
                           registry_client *back) REGISTRY_C_NONNULL;

/* Tries to give the registered range with these addresses another payload, as where code is
 * generated anew at its place: one update, and no lookup misses the range in between. */
void registry_c_replace(registry_client client, const registry_member *member,
                        registry_answer *answer, registry_client *back) REGISTRY_C_NONNULL;

/* Tries to load a range, which must overlap no fixed or loaded one. */
void registry_c_load(registry_client client, const registry_member *member,
                     registry_answer *answer, registry_client *back) REGISTRY_C_NONNULL;

/* Tries to unload the loaded range that begins at an address. A fixed one stays. */
void registry_c_unload(registry_client client, uint64_t first, registry_answer *answer,
                       registry_client *back) REGISTRY_C_NONNULL;

#ifdef __cplusplus
}
#endif
#endif
