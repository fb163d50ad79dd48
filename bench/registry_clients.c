/* registry_clients NODES TURNS: makes a registry of so many nodes, splits a client off and joins it
 * again, TURNS times, and prints what a turn takes and how many bytes one client has. */
#include "registry_c.h"
#include <malloc.h>
#include <stdio.h>
#include <stdlib.h>
#include <time.h>

static double now(void) {
  struct timespec t;
  clock_gettime(CLOCK_PROCESS_CPUTIME_ID, &t);
  return t.tv_sec * 1e9 + t.tv_nsec;
}

static registry_client split(registry_client *me) {
  registry_client other = {0};
  if (registry_c_split(*me, 0, &other, me) != REGISTRY_SPLIT) {
    fprintf(stderr, "registry_clients: no client was split off\n");
    exit(1);
  }
  return other;
}

int main(int count, char **words) {
  uint32_t nodes = count > 1 ? strtoul(words[1], NULL, 10) : 0;
  uint32_t turns = count > 2 ? strtoul(words[2], NULL, 10) : 0;
  registry_limits limits = {nodes, 1, 1, 0};
  registry_member none = {0};
  registry_client me = {0}, back = {0};
  if (turns == 0 || registry_c_new(&limits, &none, 0, &me) != REGISTRY_NEW) {
    fprintf(stderr, "usage: registry_clients NODES TURNS\n");
    return 1;
  }
  size_t before = mallinfo2().uordblks;
  registry_client other = split(&me);
  size_t bytes = mallinfo2().uordblks - before;
  double start = now();
  for (uint32_t turn = 1; turn < turns; turn++) {
    if (registry_c_join(me, other, &me, &back) != REGISTRY_JOINED) return 1;
    other = split(&me);
  }
  printf("%.0f ns a client, %zu bytes\n", (now() - start) / turns, bytes);
  if (registry_c_join(me, other, &me, &back) != REGISTRY_JOINED) return 1;
  uint32_t seen;
  return !registry_c_close(me, &seen);
}
