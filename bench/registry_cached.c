/* registry_cached RANGES LAPS [writer]: registers so many ranges of 48 addresses, 64 from each
 * other, and looks 2,000 addresses up in each of LAPS laps by a client's last hits and by
 * registry_c_find, in turns: a thousand in one range before another, which is a hit in front; eight
 * ranges in turn, each then the last of eight; and any. With a third word another thread meanwhile
 * registers and removes a range of its own without a pause. Prints the thread's processor time of
 * one lookup, the least and the tenth part of the laps, by both, and what the one takes by the
 * other; and how many lookups had to be made again. */
#define _GNU_SOURCE
#include "registry_c.h"
#include <pthread.h>
#include <stdatomic.h>
#include <stdio.h>
#include <stdlib.h>
#include <time.h>

enum { DISTANCE = 64, SIZE = 48, LOOKUPS = 2000, NODES = 16384, PAYLOADS = 65536 };
enum aim { SAME, EIGHT, ANY, AIMS };
enum way { FIND, CACHED, WAYS };

static const uint64_t first = (uint64_t)1 << 32;
static uint32_t ranges;
static registry_client client, other;
static atomic_bool stop;
static uint64_t again, updates, state = 88172645463325252u;

static void fail(const char *what) {
  fprintf(stderr, "registry_cached: %s\n", what);
  exit(1);
}

static void done(const registry_answer *answer) {
  if (answer->kind != REGISTRY_DONE) fail("an update that wasn't done");
}

static void *write_on(void *nothing) {
  const registry_member own = {first + (uint64_t)DISTANCE * ranges, SIZE, ranges};
  registry_answer answer;
  while (!atomic_load(&stop)) {
    registry_c_register(other, &own, &answer, &other);
    done(&answer);
    registry_c_deregister(other, own.first, &answer, &other);
    done(&answer);
    updates += 2;
  }
  return nothing;
}

static double now(clockid_t clock) {
  struct timespec t;
  clock_gettime(clock, &t);
  return t.tv_sec * 1e9 + t.tv_nsec;
}

static uint32_t goal(enum aim aim, uint32_t round) {
  state ^= state << 13, state ^= state >> 7, state ^= state << 17;
  switch (aim) {
    case SAME:
      return round / 1000 * 7919 % ranges;
    case EIGHT:
      return ranges / 8 * (round % 8);
    default:
      return (uint32_t)(state >> 20) % ranges;
  }
}

static double lap(enum way way, enum aim aim) {
  registry_place place;
  double from = now(CLOCK_THREAD_CPUTIME_ID);
  for (uint32_t round = 0; round < LOOKUPS; round++) {
    uint32_t range = goal(aim, round);
    uint64_t pc = first + (uint64_t)DISTANCE * range + (state >> 3) % 32;
    do {
      if (way == FIND) registry_c_find(client, pc, &place, &client);
      else registry_c_find_cached(client, pc, &place, &client);
    } while (place.kind == REGISTRY_FIND_AGAIN && ++again);
    if (place.kind != REGISTRY_REGISTERED || place.member.payload != range) fail("a wrong answer");
  }
  return (now(CLOCK_THREAD_CPUTIME_ID) - from) / LOOKUPS;
}

static int by_size(const void *one, const void *two) {
  double a = *(const double *)one, b = *(const double *)two;
  return (a > b) - (a < b);
}

static void measure(enum aim aim, uint32_t laps) {
  static const char *const names[AIMS] = {"one range", "eight in turn", "any"};
  double *times[WAYS];
  for (enum way way = FIND; way < WAYS; way++) times[way] = calloc(laps, sizeof **times);
  if (!times[FIND] || !times[CACHED]) fail("no memory");
  for (uint32_t i = 0; i < laps; i++)
    for (enum way way = FIND; way < WAYS; way++) times[way][i] = lap(way, aim);
  for (enum way way = FIND; way < WAYS; way++) qsort(times[way], laps, sizeof **times, by_size);
  const double *find = times[FIND], *cached = times[CACHED];
  uint32_t tenth = laps / 10;
  printf("%s: cached %.1f %.1f, find %.1f %.1f, by it %.2f %.2f\n", names[aim], cached[0],
         cached[tenth], find[0], find[tenth], cached[0] / find[0], cached[tenth] / find[tenth]);
  for (enum way way = FIND; way < WAYS; way++) free(times[way]);
}

int main(int count, char **words) {
  ranges = count > 1 ? strtoul(words[1], NULL, 10) : 0;
  uint32_t laps = count > 2 ? strtoul(words[2], NULL, 10) : 0;
  registry_limits limits = {NODES, 1, PAYLOADS, 0};
  registry_member none = {0};
  if (ranges < 8 || ranges >= PAYLOADS || laps == 0 ||
      registry_c_new(&limits, &none, 0, &client) != REGISTRY_NEW)
    fail("usage: registry_cached RANGES LAPS [writer]");
  for (uint32_t i = 0; i < ranges; i++) {
    registry_member code = {first + (uint64_t)DISTANCE * i, SIZE, i};
    registry_answer answer;
    registry_c_register(client, &code, &answer, &client);
    done(&answer);
  }
  pthread_t writer;
  double from = now(CLOCK_MONOTONIC);
  if (count > 3) {
    if (registry_c_split(client, 60000000, &other, &client) != REGISTRY_SPLIT ||
        pthread_create(&writer, NULL, write_on, NULL))
      fail("no writer");
  }
  for (enum aim aim = SAME; aim < AIMS; aim++) measure(aim, laps);
  if (count > 3) {
    atomic_store(&stop, true);
    pthread_join(writer, NULL);
    double seconds = (now(CLOCK_MONOTONIC) - from) / 1e9;
    printf("%.2f million updates a second, %llu lookups made again\n", updates / seconds / 1e6,
           (unsigned long long)again);
    if (registry_c_join(client, other, &client, &other) != REGISTRY_JOINED) fail("no memory");
  }
  uint32_t seen;
  return !registry_c_close(client, &seen);
}
