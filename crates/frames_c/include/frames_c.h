/* Sections of .eh_frame for C and C++: FDEs, rows, and one frame from another.
 *
 * Each answer below is proved to be what the comment beside it says, for every call whose caller
 * keeps to what follows. Nothing checks that: it is what C owes.
 *
 *   - An array is readable for its length, and nobody writes it while the call runs. One of length
 *     0 has an address too, which isn't null.
 *   - What a call writes (`out`, `back`, `refusal`, `told`, `frame`, `entries`, `rows`, `lines`,
 *     `count`) is writable, aligned, and apart from all else that the call is given. What it holds
 *     before doesn't matter, but for the registers of a frame, and for a handle: that holds nothing.
 *   - A section, recorded memory, a row table and a list of modules are one pointer each. C owns it
 *     from the call that wrote it until it is freed. A call takes it by value and gives it back
 *     through `back`, which may be the same variable: frames_c_count(section, &section). Never pass
 *     one that was freed, or passed and not given back, and never read or copy what it leads to. No
 *     call can tell one that was freed (valgrind does, with the call that freed it): set the
 *     variable to {0}, and test its `at` where it may hold nothing. No call tests for {0} either: it
 *     reads at address 0 or a little above, at which most systems end the program.
 *   - Each share of a section is used by one thread at a time. Threads with a share each don't
 *     meet. A share goes from one thread to another in order: by a lock, or by a thread's start or
 *     join.
 *   - malloc, realloc and free are those of the program, and don't fail but by NULL. The calls that
 *     read, share, record, make a row table, list modules or free call them: none of these in a
 *     signal handler, or in the forked child of a process with threads. No other call takes memory,
 *     frees it, or waits.
 *
 * A stack can be unwound through a call, at each of its instructions: the library has an .eh_frame,
 * which is tried and not proved.
 */
#ifndef FRAMES_C_H
#define FRAMES_C_H

#include <stdbool.h>
#include <stddef.h>
#include <stdint.h>

/* Compilers that know the word warn of a null pointer in the place of an argument, and with
 * -fsanitize=nonnull-attribute the program ends at one. */
#if defined(__GNUC__)
#define FRAMES_C_NONNULL __attribute__((nonnull))
#else
#define FRAMES_C_NONNULL
#endif

#ifdef __cplusplus
extern "C" {
#endif

/* ---- sections -------------------------------------------------------------------------------- */

/* A share of a section, or nothing: {0}. */
typedef struct {
  void *at;
} frames_section;

/* Why there is no section. `start` is the place of the record's first byte, `at` the place that is
 * refused, `detail` the byte (encoding, version, opcode, operation) or the column that is. */
typedef struct {
  uint64_t kind;
  uint64_t start;
  uint64_t at;
  uint64_t detail;
} frames_refusal;

enum frames_refusal_kind {
  FRAMES_NO_MEMORY = 0,    /* memory ran out, which says nothing of the bytes            */
  FRAMES_SHORT = 1,        /* a record, a field, a text, data or a block isn't whole     */
  FRAMES_TOO_WIDE = 2,     /* a LEB128 number doesn't fit 64 bits                        */
  FRAMES_ENCODING = 3,     /* a pointer encoding isn't accepted in its place             */
  FRAMES_NO_CIE = 4,       /* the record doesn't lead back to an earlier CIE             */
  FRAMES_VERSION = 5,      /* the version of a CIE is neither 1 nor 3                    */
  FRAMES_AUGMENTATION = 6, /* the augmentation isn't one that is known                   */
  FRAMES_COLUMN = 7,       /* a column above 16, or another return column than 16        */
  FRAMES_RANGE = 8,        /* a range is negative or leads past the last address         */
  FRAMES_OPCODE = 9,       /* no instruction begins with the byte                        */
  FRAMES_LOCATION = 10,    /* the location moves in a CIE, back, or past the last address */
  FRAMES_REMEMBER = 11,    /* a state is restored that wasn't remembered, or a ninth is  */
  FRAMES_OPERATION = 12,   /* no operation of an expression begins with the byte         */
  FRAMES_DEPTH = 13,       /* an operation finds too few numbers, or leaves too many     */
  FRAMES_CFA_RULE = 14,    /* a part of a CFA rule that isn't a column plus an offset    */
  FRAMES_TOO_LONG = 15     /* the section has 2^32 bytes or more                         */
};

/* Reads the section whose bytes stand at an address; the bytes are copied. True: `out` has the
 * first share. False: `refusal` says why there is none, the first in order of bytes. */
bool frames_c_read(uint64_t address, const uint8_t *bytes, size_t length, frames_refusal *refusal,
                   frames_section *out) FRAMES_C_NONNULL;

/* What came of a header. `kind` and `at`, the place that is refused, are 0 where it is accepted. */
typedef struct {
  uint64_t accepted;
  uint64_t kind;
  uint64_t at;
} frames_header;

enum frames_header_kind {
  FRAMES_HEADER_NO_MEMORY = 0, /* memory ran out, which says nothing of the bytes          */
  FRAMES_HEADER_SHORT = 1,     /* a field isn't whole                                      */
  FRAMES_HEADER_VERSION = 2,   /* the version isn't 1                                      */
  FRAMES_HEADER_ENCODING = 3,  /* other encodings than linkers write                       */
  FRAMES_HEADER_SECTION = 4,   /* the pointer doesn't lead to the section                  */
  FRAMES_HEADER_COUNT = 5,     /* there aren't as many entries as FDEs                     */
  FRAMES_HEADER_FDE = 6,       /* an entry doesn't name an FDE with its first address      */
  FRAMES_HEADER_ORDER = 7,     /* an entry's location isn't above that of the entry before */
  FRAMES_HEADER_OVERLAP = 8    /* the FDE of the entry before reaches past the location    */
};

/* The same with the header (.eh_frame_hdr) at another address, whose table then serves the
 * lookups. Where there is a section, `told` says what came of the header. A header that is
 * refused changes no answer: the section's own order serves. */
bool frames_c_read_with_header(uint64_t address, const uint8_t *bytes, size_t length,
                               uint64_t header_address, const uint8_t *header,
                               size_t header_length, frames_refusal *refusal, frames_header *told,
                               frames_section *out) FRAMES_C_NONNULL;

/* How many records are refused, and the first one's refusal, all 0 where none is. */
typedef struct {
  uint64_t count;
  frames_refusal first;
} frames_refused;

/* Reads the section so that a bad record costs itself alone, and a bad CIE those that lead to it.
 * What stands behind a record that isn't whole isn't read. True: `out` has the section of the other
 * records, and `told` what was refused. False: `refusal` says that memory ran out, or that there are
 * too many bytes. Where nothing is refused, this is the section of frames_c_read; else a lookup goes
 * through the refused records one by one. */
bool frames_c_read_sound(uint64_t address, const uint8_t *bytes, size_t length,
                         frames_refusal *refusal, frames_refused *told, frames_section *out)
    FRAMES_C_NONNULL;

/* Another share of the same section, which is freed by itself. False: memory ran out. */
bool frames_c_share(frames_section section, frames_section *out, frames_section *back)
    FRAMES_C_NONNULL;

/* Frees a share, and the section with its last one. */
void frames_c_free(frames_section section);

/* How many FDEs there are. */
size_t frames_c_count(frames_section section, frames_section *back) FRAMES_C_NONNULL;

/* ---- FDEs ------------------------------------------------------------------------------------ */

/* An FDE. What it hasn't is 0, and its flag too. `place` is that of its first byte, the first of
 * its length, among the bytes of the section. */
typedef struct {
  uint64_t first;
  uint64_t range;
  uint64_t lsda;
  uint64_t personality;
  uint8_t has_lsda;
  uint8_t has_personality;
  uint8_t signal;
  uint32_t place;
} frames_fde;

/* The first FDE in order of bytes that covers an address. False: none does, or a refused record
 * answers, and `out` is as it was. */
bool frames_c_find(frames_section section, uint64_t pc, frames_fde *out, frames_section *back)
    FRAMES_C_NONNULL;

/* A refused record: the addresses that it claims, as an FDE says them by its CIE, and its refusal. */
typedef struct {
  uint64_t first;
  uint64_t range;
  frames_refusal refusal;
} frames_claim;

/* The refused record that answers at an address: the first in order of bytes that claims it, where
 * no FDE that covers it stands before. False: none does, as ever in a section of frames_c_read, and
 * `out` is as it was. Where one does, no FDE has a row there, and no step is made by another. Of a
 * refused FDE whose CIE is refused too the addresses aren't known, and it claims none. */
bool frames_c_claim(frames_section section, uint64_t pc, frames_claim *out, frames_section *back)
    FRAMES_C_NONNULL;

/* The addresses of an FDE, and the place of its first byte. */
typedef struct {
  uint64_t first;
  uint64_t range;
  uint64_t place;
} frames_entry;

enum frames_table_made {
  FRAMES_TABLE_MADE = 0,   /* the first `count` entries are a table                       */
  FRAMES_TABLE_ROOM = 1,   /* there is less room than the section has FDEs: none written  */
  FRAMES_TABLE_SHARED = 2  /* two FDEs share an address, so that no table finds the first */
};

/* Writes the FDEs that aren't empty in order of their first addresses. Where it is 2, the
 * entries are all there, and are no table. It has FDEs alone: where records were refused, who
 * searches it asks frames_c_claim first. */
uint64_t frames_c_table(frames_section section, frames_entry *entries, size_t room, size_t *count,
                        frames_section *back) FRAMES_C_NONNULL;

/* The entry of a table that has an address: the one of the FDE that the section finds. False: none
 * has, and `out` is as it was. Any number of threads search the same entries. Whatever the entries
 * are, one that is written is one of them and has the address. */
bool frames_c_search(const frames_entry *entries, size_t count, uint64_t pc, frames_entry *out)
    FRAMES_C_NONNULL;

/* ---- rows ------------------------------------------------------------------------------------ */

/* How the CFA and the columns 0 to 16 of the frame before are found: the registers of x86-64 by
 * their DWARF numbers, and 16 the return address. */
typedef struct {
  uint64_t cfa;
  uint64_t cfa_column;
  uint64_t cfa_offset;
  uint64_t rules[17];
  uint64_t numbers[17];
} frames_row;

enum frames_cfa {
  FRAMES_CFA_MISSING = 0,    /* no instruction says it                       */
  FRAMES_CFA_OFFSET = 1,     /* the column plus the offset, modulo 2^64      */
  FRAMES_CFA_EXPRESSION = 2, /* the value of an expression                   */
  FRAMES_CFA_NO_FDE = 3,     /* in a batch: no FDE covers the address        */
  FRAMES_CFA_REFUSED = 4     /* in a batch: a refused record answers there   */
};

enum frames_rule {
  FRAMES_UNSET = 0,          /* no instruction says it                       */
  FRAMES_UNDEFINED = 1,
  FRAMES_SAME = 2,
  FRAMES_OFFSET = 3,         /* saved at the CFA plus the number             */
  FRAMES_VAL_OFFSET = 4,     /* the CFA plus the number                      */
  FRAMES_REGISTER = 5,       /* saved in the column with the number          */
  FRAMES_EXPRESSION = 6,     /* saved at the value of an expression          */
  FRAMES_VAL_EXPRESSION = 7  /* the value of an expression                   */
};

/* The row of an address. False: no FDE covers it, or a refused record answers, and `out` is as it
 * was. */
bool frames_c_row(frames_section section, uint64_t pc, frames_row *out, frames_section *back)
    FRAMES_C_NONNULL;

/* The rows of many addresses, each in the place of its address. False: there aren't as many rows as
 * addresses, and none is written. */
bool frames_c_rows(frames_section section, const uint64_t *pcs, size_t count, frames_row *rows,
                   size_t room, frames_section *back) FRAMES_C_NONNULL;

/* ---- frames ---------------------------------------------------------------------------------- */

/* Recorded memory, or nothing: {0}. One thread at a time uses it. */
typedef struct {
  void *at;
} frames_memory;

/* Memory without any region. False: memory ran out. */
bool frames_c_memory(frames_memory *out) FRAMES_C_NONNULL;

enum frames_recorded {
  FRAMES_RECORDED = 0,
  FRAMES_REGION_EMPTY = 1,    /* there are no bytes                             */
  FRAMES_REGION_END = 2,      /* they reach past the last address               */
  FRAMES_REGION_ORDER = 3,    /* they aren't above the region before            */
  FRAMES_REGION_NO_MEMORY = 4 /* memory ran out                                 */
};

/* Records the bytes from an address on, above all that are recorded; they are copied. */
uint64_t frames_c_memory_push(frames_memory memory, uint64_t address, const uint8_t *bytes,
                              size_t length, frames_memory *back) FRAMES_C_NONNULL;

void frames_c_memory_free(frames_memory memory);

/* A frame: its registers, and whether column 16 is the address of its instruction (1: the innermost
 * frame, or one that a signal interrupted) or one to which a call returns (0). It is looked up at
 * column 16, or one below it. `missing` is the address at which eight bytes were wanted. */
typedef struct {
  uint64_t columns[17];
  uint64_t at_instruction;
  uint64_t missing;
} frames_frame;

enum frames_step {
  FRAMES_FRAME = 0,      /* the frame is now the one before it                      */
  FRAMES_NO_FDE = 1,     /* no FDE covers the address                               */
  FRAMES_NO_ROW = 2,     /* no rule for the CFA, or none for the return address     */
  FRAMES_OUTERMOST = 3,  /* the return address is undefined: there is none before   */
  FRAMES_NO_BYTES = 4,   /* the eight bytes at `missing` aren't there               */
  FRAMES_REFUSED = 5     /* a refused record answers at the address: frames_c_claim */
};

/* Makes of a frame the one that called it. Where it isn't 0, the registers are as they were. */
uint64_t frames_c_step(frames_section section, frames_memory memory, frames_frame *frame,
                       frames_section *back, frames_memory *memory_back) FRAMES_C_NONNULL;

/* The same by bytes that the caller lends, from an address on, in place of recorded memory: nothing
 * is copied. `missing` is then an address of which they don't have all eight bytes. Nobody writes
 * them while the call runs: a thread lends of its own stack what stands above the call's own frame
 * alone (a signal's handler what the signal interrupted: from 128 bytes below that stack pointer on,
 * where registers stand that were just popped), and another thread's while that one is stopped. What
 * the call writes (`frame`, `back`) doesn't lie in them, as a local variable of the caller may. */
uint64_t frames_c_step_lent(frames_section section, uint64_t address, const uint8_t *stack,
                            size_t length, frames_frame *frame, frames_section *back)
    FRAMES_C_NONNULL;

/* A word that is told of a memory: the eight bytes at an address, as a number, lowest first. */
typedef struct {
  uint64_t address;
  uint64_t word;
} frames_word;

/* The same by what is told of a memory, however C reads that: bytes that are lent, of which there
 * may be none, and `count` words. Of two words for one address the first counts, and what is lent
 * before both. Where it is FRAMES_NO_BYTES, it asks for the word at `missing`, which was not told:
 * all else of the frame is as it was, and the call made again with that word, too, goes on. Where
 * the memory has no such word, this is what comes of the frame by the whole memory; so is each
 * other outcome. Words that weren't asked for may be told, too, and words be kept for the frames
 * that come, as long as the memory stands still. */
uint64_t frames_c_step_asking(frames_section section, uint64_t address, const uint8_t *stack,
                              size_t length, const frames_word *words, size_t count,
                              frames_frame *frame, frames_section *back) FRAMES_C_NONNULL;

/* ---- exceptions ------------------------------------------------------------------------------ */

/* What becomes of an exception at an address, by a function's table of call sites (LSDA), in the
 * format that GCC and LLVM write for C++. `pad` is the address of a cleanup or a handler, `filter`
 * what the handler is told; `at` is the place that is refused among the table's bytes, `byte` the
 * encoding that is. What an outcome hasn't is 0. */
typedef struct {
  uint64_t outcome;
  uint64_t pad;
  uint64_t filter;
  uint64_t at;
  uint64_t byte;
} frames_verdict;

enum frames_outcome {
  FRAMES_CONTINUE = 0,        /* it goes on to the caller                                   */
  FRAMES_CLEANUP = 1,         /* what stands at `pad` is done first, and then it goes on    */
  FRAMES_HANDLER = 2,         /* it is caught at `pad`, which is told `filter`              */
  FRAMES_TERMINATE = 3,       /* no call site has the address: nothing may pass here        */
  FRAMES_TABLE_SHORT = 4,     /* a field isn't whole, or the call sites aren't              */
  FRAMES_TABLE_TOO_WIDE = 5,  /* a LEB128 number doesn't fit 64 bits                        */
  FRAMES_TABLE_ENCODING = 6,  /* `byte` is no encoding that is read in its place            */
  FRAMES_TABLE_FILTER = 7,    /* a filter below 0: exception specifications aren't read     */
  FRAMES_TABLE_CHAIN = 8,     /* a chain of records goes on after 255, or leaves the bytes  */
  FRAMES_TABLE_TYPE = 9,      /* the type of the filter at `at` isn't whole in the bytes    */
  FRAMES_BELOW_FUNCTION = 10  /* the address is below `first`: the table wasn't asked       */
};

/* Asks the table at an address, of the function that starts at `first`, of an exception of a kind
 * at the address `look`; an FDE has `first` and, as `lsda`, the table's address. The bytes go from
 * there on as far as is readable: how long a table is stands nowhere. A kind is the number that a
 * type of the table has: its address, or where the table has an indirect type, the address of its
 * pointer; a type of 0 catches all. What comes of it is `outcome`, which is told too. A table that
 * is refused has no verdict: the first fault in the order in which the verdict needs the bytes is
 * told. */
uint64_t frames_c_verdict(uint64_t first, uint64_t address, const uint8_t *bytes, size_t length,
                          uint64_t look, uint64_t kind, frames_verdict *out);

/* ---- row tables ------------------------------------------------------------------------------ */

/* A share of a row table, or nothing: {0}. For those who look up a section many times: its rows are
 * worked out once, and those that differ are kept, each as a frames_row too, which takes 296 bytes.
 * What is said above of shares of a section holds of a table's too. It has a share of its section,
 * so that one may be freed before the table. */
typedef struct {
  void *at;
} frames_row_table;

enum frames_row_table_made {
  FRAMES_ROW_TABLE_MADE = 0,
  FRAMES_ROW_TABLE_NO_MEMORY = 1, /* memory ran out                                        */
  FRAMES_ROW_TABLE_MANY = 2       /* more than 65,536 rows of the section differ           */
};

/* Makes the row table of a section. Where it isn't 0, `out` holds nothing. */
uint64_t frames_c_row_table(frames_section section, frames_row_table *out, frames_section *back)
    FRAMES_C_NONNULL;

/* Another share of the same table, which is freed by itself. False: memory ran out. */
bool frames_c_row_table_share(frames_row_table table, frames_row_table *out,
                              frames_row_table *back) FRAMES_C_NONNULL;

/* Frees a share, and the table with its last one. */
void frames_c_row_table_free(frames_row_table table);

/* What frames_c_row of the section tells. */
bool frames_c_row_table_row(frames_row_table table, uint64_t pc, frames_row *out,
                            frames_row_table *back) FRAMES_C_NONNULL;

/* What frames_c_step by the section makes of a frame. */
uint64_t frames_c_row_table_step(frames_row_table table, frames_memory memory, frames_frame *frame,
                                 frames_row_table *back, frames_memory *memory_back)
    FRAMES_C_NONNULL;

/* What frames_c_step_lent by the section makes of a frame. */
uint64_t frames_c_row_table_step_lent(frames_row_table table, uint64_t address,
                                      const uint8_t *stack, size_t length, frames_frame *frame,
                                      frames_row_table *back) FRAMES_C_NONNULL;

/* What frames_c_step_asking by the section makes of a frame. */
uint64_t frames_c_row_table_step_asking(frames_row_table table, uint64_t address,
                                        const uint8_t *stack, size_t length,
                                        const frames_word *words, size_t count,
                                        frames_frame *frame, frames_row_table *back)
    FRAMES_C_NONNULL;

/* ---- walks ----------------------------------------------------------------------------------- */

/* Modules of code, or nothing: {0}. For those who walk whole stacks: each module has addresses, and
 * a share of the section or of the row table that tells its frames. What is said above of shares of
 * a section holds of a list of modules. */
typedef struct {
  void *at;
} frames_modules;

/* A list without any module. False: memory ran out. */
bool frames_c_modules(frames_modules *out) FRAMES_C_NONNULL;

enum frames_module_added {
  FRAMES_MODULE_ADDED = 0,
  FRAMES_MODULE_NO_MEMORY = 1, /* memory ran out                                             */
  FRAMES_MODULE_NOT_ABOVE = 2  /* `first` isn't after all addresses of the module before     */
};

/* Adds the `size` addresses from `first` on, with a share of their section. The share is the list's
 * from now on, and is freed where the module isn't added: make another one for other calls. */
uint64_t frames_c_modules_add(frames_modules modules, uint64_t first, uint64_t size,
                              frames_section section, frames_modules *back) FRAMES_C_NONNULL;

/* The same with a share of the row table of their section. */
uint64_t frames_c_modules_add_rows(frames_modules modules, uint64_t first, uint64_t size,
                                   frames_row_table table, frames_modules *back) FRAMES_C_NONNULL;

/* Another list of the same modules, with another share of each, which is added to and freed by
 * itself. False: memory ran out. */
bool frames_c_modules_share(frames_modules modules, frames_modules *out, frames_modules *back)
    FRAMES_C_NONNULL;

/* Frees a list, and the shares in it. */
void frames_c_modules_free(frames_modules modules);

/* A frame that a walk shows: column 16, column 7, and whether column 16 is the address of its
 * instruction (1) or one to which a call returns (0). */
typedef struct {
  uint64_t pc;
  uint64_t sp;
  uint64_t at_instruction;
} frames_line;

enum frames_walk_end {
  FRAMES_WALK_ROOM = 0,      /* there is another frame, and no room for its line               */
  FRAMES_WALK_NO_FDE = 1,    /* no FDE of its module covers the last frame's address           */
  FRAMES_WALK_NO_ROW = 2,    /* no rule for the CFA, or none for the return address            */
  FRAMES_WALK_OUTERMOST = 3, /* the return address is undefined: there is none before          */
  FRAMES_WALK_NO_BYTES = 4,  /* the eight bytes at `missing` aren't among those that were lent */
  FRAMES_WALK_NO_MODULE = 5, /* no module has the last frame's address                         */
  FRAMES_WALK_REFUSED = 6    /* a refused record of its module answers there: frames_c_claim   */
};

/* Walks from a frame to its callers by bytes that are lent, as frames_c_step_lent steps: the first
 * `count` lines show this frame and those before it, one after another, and the others are as they
 * were. `room` is 1 at least. Returns why there are no more. The frame is afterwards the last one
 * that is shown; where it is FRAMES_WALK_ROOM the next one, so that a walk from it goes on. Nothing
 * that the call writes lies in the bytes that are lent. */
uint64_t frames_c_walk(frames_modules modules, uint64_t address, const uint8_t *stack,
                       size_t length, frames_frame *frame, frames_line *lines, size_t room,
                       size_t *count, frames_modules *back) FRAMES_C_NONNULL;

#ifdef __cplusplus
}
#endif
#endif
