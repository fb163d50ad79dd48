/* libunwind_cache RANGES ROUNDS: as many ranges as `cache_bench` has, of which each is a function
 * with an FDE of its own, and ROUNDS steps of a frame by libunwind from an address in one of them:
 * with its cache for each thread, without one, and what it takes to begin such a step, which is a
 * part of both. libunwind keeps what it found by address and not by range, 128 addresses at most:
 * so each range is asked at one address. Prints the processor time of one, the least of nine laps.
 * It wants libunwind's headers (Debian: libunwind-dev). */
#include <libunwind-x86_64.h>
#include <stdint.h>
#include <stdio.h>
#include <stdlib.h>
#include <string.h>
#include <time.h>

int _Ux86_64_dwarf_search_unwind_table(unw_addr_space_t, unw_word_t, unw_dyn_info_t *,
                                       unw_proc_info_t *, int, void *);

enum { MOST = 50000, STRIDE = 64, SIZE = 48, LAPS = 9, CIE = 24, FDE = 24, APART = 1 << 24 };

/* The sorted table, a pair for each range, and behind it the section: a CIE, and the FDEs. */
static struct {
  int32_t pairs[MOST][2];
  uint8_t section[CIE + MOST * FDE + 4];
} frames;

static uint32_t ranges;
static uint64_t registers[17], stack[2];

static uint64_t base_of(uint64_t range) { return (uint64_t)&frames + APART + STRIDE * range; }

static void make_frames(void) {
  /* the CFA is column 7 plus 8, and the return address stands below it */
  static const uint8_t cie[CIE] = {CIE - 4, 0,    0, 0, 0,    0, 0, 0, 1,    'z', 'R', 0,
                                   1,       0x78, 16, 1, 0x1b, 12, 7, 8, 0x90, 1,   0,   0};
  memcpy(frames.section, cie, CIE);
  for (uint32_t i = 0; i < ranges; i++) {
    uint8_t *fde = frames.section + CIE + i * FDE;
    int32_t words[4] = {FDE - 4, (int32_t)(fde + 4 - frames.section),
                        (int32_t)(base_of(i) - (uint64_t)(fde + 8)), SIZE};
    memset(fde, 0, FDE);
    memcpy(fde, words, sizeof words);
    frames.pairs[i][0] = (int32_t)(base_of(i) - (uint64_t)&frames);
    frames.pairs[i][1] = (int32_t)(fde - (uint8_t *)&frames);
  }
}

static int find_proc(unw_addr_space_t as, unw_word_t ip, unw_proc_info_t *info, int need,
                     void *arg) {
  unw_dyn_info_t found;
  memset(&found, 0, sizeof found);
  found.format = UNW_INFO_FORMAT_REMOTE_TABLE;
  found.start_ip = base_of(0);
  found.end_ip = base_of(ranges);
  found.u.rti.segbase = (uint64_t)&frames;
  found.u.rti.table_data = (uint64_t)&frames;
  found.u.rti.table_len = ranges * sizeof *frames.pairs / sizeof(unw_word_t);
  return _Ux86_64_dwarf_search_unwind_table(as, ip, &found, info, need, arg);
}

static int word(unw_addr_space_t as, unw_word_t at, unw_word_t *value, int write, void *arg) {
  (void)as, (void)arg;
  if (write) return -UNW_EINVAL;
  memcpy(value, (const void *)at, sizeof *value);
  return 0;
}

static int column(unw_addr_space_t as, unw_regnum_t n, unw_word_t *value, int write, void *arg) {
  (void)as, (void)arg;
  if (write || n < 0 || n > 16) return -UNW_EBADREG;
  *value = registers[n];
  return 0;
}

static void put(unw_addr_space_t as, unw_proc_info_t *info, void *arg) {
  (void)as, (void)info, (void)arg;
}

static int list(unw_addr_space_t as, unw_word_t *at, void *arg) {
  (void)as, (void)at, (void)arg;
  return -UNW_ENOINFO;
}

static int wide(unw_addr_space_t as, unw_regnum_t n, unw_fpreg_t *value, int write, void *arg) {
  (void)as, (void)n, (void)value, (void)write, (void)arg;
  return -UNW_EBADREG;
}

static int resume(unw_addr_space_t as, unw_cursor_t *cursor, void *arg) {
  (void)as, (void)cursor, (void)arg;
  return -UNW_EINVAL;
}

static int name(unw_addr_space_t as, unw_word_t at, char *text, size_t room, unw_word_t *off,
                void *arg) {
  (void)as, (void)at, (void)text, (void)room, (void)off, (void)arg;
  return -UNW_ENOINFO;
}

static double now(void) {
  struct timespec t;
  clock_gettime(CLOCK_PROCESS_CPUTIME_ID, &t);
  return t.tv_sec * 1e9 + t.tv_nsec;
}

enum aim { SAME, EIGHT, ANY, AIMS };

/* So many steps, or so many beginnings of one; ends where a step doesn't find its frame. */
static void step_often(unw_addr_space_t as, enum aim aim, uint32_t rounds, int steps) {
  uint64_t number = 88172645463325252;
  for (uint32_t round = 0; round < rounds; round++) {
    unw_cursor_t cursor;
    number ^= number << 13, number ^= number >> 7, number ^= number << 17;
    uint64_t range = aim == SAME ? (uint64_t)(round / 1000) * 7919 % ranges
                     : aim == EIGHT ? (uint64_t)(ranges / 8) * (round % 8)
                                    : (number >> 20) % ranges;
    registers[16] = base_of(range) + 16;
    if (unw_init_remote(&cursor, as, NULL) || (steps && unw_step(&cursor) < 0)) exit(1);
  }
}

static double best_of(unw_addr_space_t as, enum aim aim, uint32_t rounds, int steps) {
  double best = 1e18;
  for (int lap = 0; lap < LAPS; lap++) {
    double from = now();
    step_often(as, aim, rounds, steps);
    double took = (now() - from) / rounds;
    if (took < best) best = took;
  }
  return best;
}

int main(int count, char **words) {
  static unw_accessors_t accessors = {find_proc, put, list, word, column, wide, resume, name};
  static const char *const names[AIMS] = {"one range", "eight in turn", "any"};
  if (count != 3 || (ranges = (uint32_t)atoi(words[1])) < 8 || ranges > MOST) return 2;
  uint32_t rounds = (uint32_t)atoi(words[2]);
  make_frames();
  registers[7] = (uint64_t)stack;
  unw_addr_space_t cached = unw_create_addr_space(&accessors, 0);
  unw_addr_space_t plain = unw_create_addr_space(&accessors, 0);
  unw_set_caching_policy(cached, UNW_CACHE_PER_THREAD);
  unw_set_caching_policy(plain, UNW_CACHE_NONE);
  for (enum aim aim = SAME; aim < AIMS; aim++)
    printf("%s, cached %.2f, plain %.2f, begun %.2f ns\n", names[aim],
           best_of(cached, aim, rounds, 1), best_of(plain, aim, rounds / 8 + 1, 1),
           best_of(plain, aim, rounds, 0));
  return 0;
}
