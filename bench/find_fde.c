// Measures libgcc's _Unwind_Find_FDE inside a real program, as header_bench measures a header's
// lookup: the same loop by the same random numbers over as many addresses. It is built as a shared
// object and loaded before the program's own (LD_PRELOAD); FIND_FDE has the rounds, and after them,
// if wanted, a part of the name of the loaded object whose header is taken. Without it that is the
// program's. The program itself doesn't run.
#define _GNU_SOURCE
#include <link.h>
#include <stdint.h>
#include <stdio.h>
#include <stdlib.h>
#include <string.h>
#include <time.h>
#include <unistd.h>

enum { PROBES = 4096, LAPS = 9 };

struct dwarf_eh_bases {
  void *tbase, *dbase, *func;
};

extern const void *_Unwind_Find_FDE(void *pc, struct dwarf_eh_bases *bases);

// An entry of the sorted table, as all linkers write it: both numbers are relative to the header.
struct entry {
  int32_t location, fde;
};

struct wanted {
  const char *name;
  uint64_t base;
  const uint8_t *header;
};

static uint64_t probes[PROBES];

static void fail(const char *what) {
  fprintf(stderr, "find_fde: %s\n", what);
  _exit(1);
}

static uint64_t next(uint64_t number) {
  number ^= number << 13;
  number ^= number >> 7;
  return number ^ number << 17;
}

static uint64_t nanos(void) {
  struct timespec time;
  clock_gettime(CLOCK_THREAD_CPUTIME_ID, &time);
  return (uint64_t)time.tv_sec * 1000000000 + (uint64_t)time.tv_nsec;
}

static int take_header(struct dl_phdr_info *object, size_t size, void *of) {
  struct wanted *wanted = of;
  (void)size;
  if (wanted->name && !strstr(object->dlpi_name, wanted->name)) return 0;
  for (int index = 0; index < object->dlpi_phnum; index++) {
    const ElfW(Phdr) *part = &object->dlpi_phdr[index];
    if (part->p_type != PT_GNU_EH_FRAME) continue;
    wanted->base = object->dlpi_addr;
    wanted->header = (const uint8_t *)(object->dlpi_addr + part->p_vaddr);
    return 1;
  }
  return 0;
}

// How many addresses an FDE is for: of four bytes where its CIE says so, as compilers write it.
static uint32_t range_of(const uint8_t *fde) {
  uint32_t range;
  memcpy(&range, fde + 12, sizeof range);
  return range;
}

// Random addresses of random entries.
static void fill(const struct wanted *wanted) {
  const uint8_t *header = wanted->header;
  uint32_t count;
  if (header[0] != 1 || header[2] != 0x03 || header[3] != 0x3b) fail("another form of table");
  memcpy(&count, header + 8, sizeof count);
  uint64_t number = 88172645463325252;
  for (int index = 0; index < PROBES; index++) {
    struct entry entry;
    number = next(number);
    memcpy(&entry, header + 12 + 8 * ((number >> 20) % count), sizeof entry);
    uint32_t range = range_of(header + entry.fde);
    probes[index] = (uint64_t)(header + entry.location) + (range ? (number >> 9) % range : 0);
  }
}

static uint64_t find_often(uint64_t rounds) {
  uint64_t sum = 0;
  for (uint64_t round = 0; round < rounds; round++) {
    for (int index = 0; index < PROBES; index++) {
      struct dwarf_eh_bases bases;
      if (_Unwind_Find_FDE((void *)probes[index], &bases)) sum += (uint64_t)bases.func;
    }
  }
  return sum;
}

__attribute__((constructor)) static void measure(void) {
  const char *words = getenv("FIND_FDE");
  if (!words) return;
  char name[256];
  unsigned long rounds;
  struct wanted wanted = {0};
  int count = sscanf(words, "%lu %255s", &rounds, name);
  if (count < 1 || rounds < 1) fail("FIND_FDE has no number of rounds");
  if (count == 2) wanted.name = name;
  if (!dl_iterate_phdr(take_header, &wanted)) fail("no header");
  fill(&wanted);
  uint64_t best = UINT64_MAX, sum = 0;
  for (int lap = 0; lap < LAPS; lap++) {
    uint64_t before = nanos();
    sum = find_often(rounds) - wanted.base * PROBES * rounds;
    uint64_t took = nanos() - before;
    if (took < best) best = took;
  }
  printf("_Unwind_Find_FDE %.1f ns, %llu\n", (double)best / (double)(PROBES * rounds),
         (unsigned long long)sum);
  fflush(stdout);
  _exit(0);
}
