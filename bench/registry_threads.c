/* registry_threads THREADS AT_ONCE HAND_OVERS: so many threads, of which so many run at once, each
 * with a reader of its own and one lookup; then so often a client is split off, takes in the one that
 * it was split off, and goes on in its place. Prints what of the heap is in use before and after, and
 * what a turn takes. */
#include "registry_c.h"
#include <malloc.h>
#include <pthread.h>
#include <stdio.h>
#include <stdlib.h>
#include <time.h>

enum { RANGES = 1000, MOST_AT_ONCE = 1000 };

static registry_client client;
static registry_reader readers[MOST_AT_ONCE];

static double now(void) {
  struct timespec t;
  clock_gettime(CLOCK_MONOTONIC, &t);
  return t.tv_sec * 1e6 + t.tv_nsec / 1e3;
}

static void *look_up(void *given) {
  registry_reader *mine = given;
  registry_place place;
  registry_c_reader_find(*mine, 0x1008, &place, mine);
  registry_c_reader_drop(*mine);
  return place.kind == REGISTRY_REGISTERED ? given : NULL;
}

static void start(void) {
  const registry_limits limits = {.nodes = 1024, .loads = 1, .payloads = 1 << 20};
  const registry_member none = {0};
  registry_answer answer;
  if (registry_c_new(&limits, &none, 0, &client) != REGISTRY_NEW) exit(1);
  for (uint32_t i = 0; i < RANGES; i++) {
    const registry_member member = {0x1000 + 0x40 * (uint64_t)i, 0x30, i};
    registry_c_register(client, &member, &answer, &client);
    if (answer.kind != REGISTRY_DONE) exit(2);
  }
}

static void run_threads(uint32_t at_once) {
  static pthread_t threads[MOST_AT_ONCE];
  void *found;
  for (uint32_t i = 0; i < at_once; i++) {
    if (!registry_c_reader(client, &readers[i], &client)) exit(3);
    if (pthread_create(&threads[i], NULL, look_up, &readers[i])) exit(4);
  }
  for (uint32_t i = 0; i < at_once; i++)
    if (pthread_join(threads[i], &found) || !found) exit(5);
}

static void hand_over(void) {
  registry_client other = {0}, back = {0};
  if (registry_c_split(client, 0, &other, &client) != REGISTRY_SPLIT) exit(6);
  if (registry_c_join(other, client, &other, &back) != REGISTRY_JOINED) exit(7);
  client = other;
}

static void tell(const char *what, size_t before, double began, uint32_t turns) {
  size_t after = mallinfo2().uordblks;
  printf("%s: %zu bytes in use, then %zu; %.2f us each\n", what, before, after,
         (now() - began) / turns);
}

int main(int count, char **words) {
  if (count != 4) return 9;
  uint32_t threads = atoi(words[1]), at_once = atoi(words[2]), hand_overs = atoi(words[3]);
  if (at_once == 0 || at_once > MOST_AT_ONCE) return 9;
  start();
  run_threads(at_once);
  size_t before = mallinfo2().uordblks;
  double began = now();
  for (uint32_t i = 0; i < threads; i += at_once) run_threads(at_once);
  tell("threads", before, began, threads);
  before = mallinfo2().uordblks;
  began = now();
  for (uint32_t i = 0; i < hand_overs; i++) hand_over();
  tell("hand-overs", before, began, hand_overs);
  return 0;
}
