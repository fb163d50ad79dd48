/* registry_updates RANGES UPDATES: registers so many ranges of 48 addresses in random order, in one
 * thread, and then in turns removes a random one and registers it again, UPDATES in all. It prints
 * how many updates the registry has then. */
#include "registry_c.h"
#include <stdio.h>
#include <stdlib.h>

enum { FIRST = 0x10000, DISTANCE = 64, SIZE = 48, NODES = 16384, PAYLOADS = 65536 };

static uint64_t state = 88172645463325252u;

static uint64_t next(void) {
  state ^= state << 13;
  state ^= state >> 7;
  state ^= state << 17;
  return state;
}

static void answered(const registry_answer *answer) {
  if (answer->kind != REGISTRY_DONE) {
    fprintf(stderr, "registry_updates: an update was answered %u\n", (unsigned)answer->kind);
    exit(1);
  }
}

static registry_client put(registry_client me, uint32_t range) {
  registry_member member = {FIRST + (uint64_t)DISTANCE * range, SIZE, range};
  registry_answer answer;
  registry_c_register(me, &member, &answer, &me);
  answered(&answer);
  return me;
}

int main(int count, char **words) {
  uint32_t ranges = count > 1 ? strtoul(words[1], NULL, 10) : 0;
  uint32_t updates = count > 2 ? strtoul(words[2], NULL, 10) : 0;
  registry_limits limits = {NODES, 1, PAYLOADS, 0};
  registry_member none = {0};
  registry_client me = {0};
  uint32_t *order = calloc(ranges, sizeof *order);
  if (ranges == 0 || order == NULL ||
      registry_c_new(&limits, &none, 0, &me) != REGISTRY_NEW) {
    fprintf(stderr, "usage: registry_updates RANGES UPDATES\n");
    return 1;
  }
  for (uint32_t i = 0; i < ranges; i++) {
    uint32_t j = next() % (i + 1);
    order[i] = order[j];
    order[j] = i;
  }
  for (uint32_t i = 0; i < ranges; i++) me = put(me, order[i]);
  for (uint32_t turn = 0; turn < updates / 2; turn++) {
    uint32_t range = next() % ranges;
    registry_answer answer;
    registry_c_deregister(me, FIRST + (uint64_t)DISTANCE * range, &answer, &me);
    answered(&answer);
    me = put(me, range);
  }
  uint32_t seen;
  if (!registry_c_close(me, &seen)) return 1;
  printf("%u\n", (unsigned)seen);
  free(order);
  return 0;
}
