/* registry_readers RANGES TURNS: registers so many ranges, makes and drops a reader TURNS times,
 * and looks addresses up TURNS times by a client, by a reader and by a client's last hits, each
 * eight times in a row; prints what each takes. */
#include "registry_c.h"
#include <stdio.h>
#include <stdlib.h>
#include <time.h>

static double now(void) {
  struct timespec t;
  clock_gettime(CLOCK_PROCESS_CPUTIME_ID, &t);
  return t.tv_sec * 1e9 + t.tv_nsec;
}

static uint32_t ranges, turns;
static registry_client client;
static registry_reader reader;

/* The next one of the ranges, in a scattered order, every eighth turn. */
static uint64_t address(uint32_t turn) {
  return 0x1008 + 0x40 * ((uint64_t)(turn / 8) * 7919 % ranges);
}

static uint64_t by_client(uint32_t turn) {
  registry_place place;
  registry_c_find(client, address(turn), &place, &client);
  return place.kind;
}

static uint64_t by_reader(uint32_t turn) {
  registry_place place;
  registry_c_reader_find(reader, address(turn), &place, &reader);
  return place.kind;
}

static uint64_t by_last_hits(uint32_t turn) {
  registry_place place;
  registry_c_find_cached(client, address(turn), &place, &client);
  return place.kind;
}

static uint64_t make_and_drop(uint32_t turn) {
  (void)turn;
  registry_reader other = {0};
  if (!registry_c_reader(client, &other, &client)) return 0;
  registry_c_reader_drop(other);
  return REGISTRY_REGISTERED;
}

static void measure(const char *what, uint64_t (*one)(uint32_t)) {
  double best = 1e18;
  for (int run = 0; run < 5; run++) {
    uint64_t good = 0;
    double start = now();
    for (uint32_t turn = 0; turn < turns; turn++) good += one(turn) == REGISTRY_REGISTERED;
    double took = (now() - start) / turns;
    if (good != turns) exit(1);
    if (took < best) best = took;
  }
  printf("%s %.1f ns\n", what, best);
}

int main(int count, char **words) {
  ranges = count > 1 ? strtoul(words[1], NULL, 10) : 0;
  turns = count > 2 ? strtoul(words[2], NULL, 10) : 0;
  registry_limits limits = {16384, 1, 1, 0};
  registry_member none = {0};
  if (ranges == 0 || registry_c_new(&limits, &none, 0, &client) != REGISTRY_NEW) {
    fprintf(stderr, "usage: registry_readers RANGES TURNS\n");
    return 1;
  }
  for (uint32_t i = 0; i < ranges; i++) {
    registry_member code = {0x1000 + 0x40 * (uint64_t)i, 0x30, 0};
    registry_answer answer;
    registry_c_register(client, &code, &answer, &client);
    if (answer.kind != REGISTRY_DONE) return 1;
  }
  if (!registry_c_reader(client, &reader, &client)) return 1;
  measure("a reader made and dropped", make_and_drop);
  measure("found by a client", by_client);
  measure("found by a reader", by_reader);
  measure("found by a client's last hits", by_last_hits);
  registry_c_reader_drop(reader);
  uint32_t seen;
  return !registry_c_close(client, &seen);
}
