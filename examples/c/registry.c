/* registry [UPDATES]: the registry of a small just-in-time compiler. One thread registers and
 * deregisters ranges of code, four look addresses up meanwhile, and each answer is checked by its
 * stamp: it must be that of the ranges after so many updates. Status 0: all were. */
#define _GNU_SOURCE
#include "registry_c.h"
#include <pthread.h>
#include <sched.h>
#include <stdatomic.h>
#include <stdio.h>
#include <stdlib.h>

enum { READERS = 4, SLOTS = 300, SLOT = 64, CODE = 48, KEPT = 200000, ABSENT = -1 };
enum { RANGES = 0x10000, IMAGE = 0x1000, IMAGE_SIZE = 0x400, IMAGE_PAYLOAD = 7 };

static uint32_t updates = 20000;
static atomic_bool done;

/* What came to be in a slot, by which update. */
struct change {
  uint32_t number, next;
  int64_t payload;
};

/* The changes, and the last one of each slot; 0 is none. */
static struct change *changes;
static uint32_t last_change[SLOTS];

struct answer {
  uint64_t pc;
  registry_place place;
};

struct reader {
  pthread_t thread;
  registry_client client;
  uint64_t seed, again;
  uint32_t count;
  struct answer *answers;
};

static uint64_t next_random(uint64_t *seed) {
  *seed ^= *seed << 13;
  *seed ^= *seed >> 7;
  *seed ^= *seed << 17;
  return *seed;
}

/* An address in a slot, some of which lie behind its code; or one of the image. */
static uint64_t some_address(uint64_t *seed) {
  uint64_t r = next_random(seed);
  if (r % 16 == 0) return IMAGE + r / 16 % (2 * IMAGE_SIZE);
  return RANGES + r / 16 % (SLOTS * SLOT);
}

static void *look_up(void *given) {
  struct reader *me = given;
  while (!atomic_load(&done)) {
    struct answer one = {.pc = some_address(&me->seed)};
    if (me->seed % 2)
      registry_c_find(me->client, one.pc, &one.place, &me->client);
    else
      registry_c_find_cached(me->client, one.pc, &one.place, &me->client);
    if (one.place.kind == REGISTRY_FIND_AGAIN) {
      me->again++;
      sched_yield();
    } else {
      me->answers[me->count++ % KEPT] = one;
    }
  }
  return NULL;
}

/* Tries until it isn't busy. */
static registry_answer put(registry_client *client, registry_member member) {
  registry_answer answer;
  for (;;) {
    registry_c_register(*client, &member, &answer, client);
    if (answer.kind != REGISTRY_BUSY) return answer;
    sched_yield();
  }
}

static registry_answer take(registry_client *client, uint64_t first) {
  registry_answer answer;
  for (;;) {
    registry_c_deregister(*client, first, &answer, client);
    if (answer.kind != REGISTRY_BUSY) return answer;
    sched_yield();
  }
}

/* Registers code in a slot where there is none, and else takes it away. */
static bool change_slot(registry_client *client, uint32_t number, uint32_t slot) {
  uint64_t first = RANGES + (uint64_t)slot * SLOT;
  bool there = last_change[slot] && changes[last_change[slot]].payload != ABSENT;
  registry_member code = {first, CODE, number};
  registry_answer answer = there ? take(client, first) : put(client, code);
  if (answer.kind != REGISTRY_DONE || answer.number != number + 1) return false;
  int64_t payload = there ? ABSENT : (int64_t)number;
  changes[number] = (struct change){answer.number, last_change[slot], payload};
  last_change[slot] = number;
  return true;
}

/* The payload in the slot of an address after so many updates. */
static int64_t expected(uint64_t pc, uint32_t stamp) {
  if (pc < RANGES || (pc - RANGES) % SLOT >= CODE) return ABSENT;
  uint32_t at = last_change[(pc - RANGES) / SLOT];
  while (at && changes[at].number > stamp) at = changes[at].next;
  return at ? changes[at].payload : ABSENT;
}

static bool is_right(const struct answer *one) {
  int64_t payload = expected(one->pc, one->place.registered);
  if (payload != ABSENT)
    return one->place.kind == REGISTRY_REGISTERED && one->place.member.payload == payload;
  bool in_image = one->pc >= IMAGE && one->pc < IMAGE + IMAGE_SIZE;
  if (!in_image) return one->place.kind == REGISTRY_NOWHERE;
  return one->place.kind == REGISTRY_LOADED && one->place.member.payload == IMAGE_PAYLOAD;
}

static uint64_t wrong_answers(const struct reader *me) {
  uint64_t wrong = 0;
  uint32_t kept = me->count < KEPT ? me->count : KEPT;
  for (uint32_t i = 0; i < kept; i++) wrong += !is_right(&me->answers[i]);
  return wrong;
}

/* The first update: an image is loaded, which stays. */
static bool start(registry_client *client) {
  registry_limits limits = {.nodes = 1000, .loads = 1, .payloads = updates + 8};
  registry_member image = {IMAGE, IMAGE_SIZE, IMAGE_PAYLOAD}, none;
  registry_answer answer;
  changes = calloc(updates + 1, sizeof *changes);
  if (!changes || registry_c_new(&limits, &none, 0, client) != REGISTRY_NEW) return false;
  registry_c_load(*client, &image, &answer, client);
  return answer.kind == REGISTRY_DONE && answer.number == 1;
}

static bool start_reader(registry_client *client, struct reader *me, uint64_t seed) {
  *me = (struct reader){.seed = seed, .answers = malloc(KEPT * sizeof(struct answer))};
  if (!me->answers) return false;
  if (registry_c_split(*client, 0, &me->client, client) != REGISTRY_SPLIT) return false;
  return pthread_create(&me->thread, NULL, look_up, me) == 0;
}

int main(int count, char **words) {
  static struct reader readers[READERS];
  registry_client client = {0};
  if (count > 1) updates = (uint32_t)strtoul(words[1], NULL, 10);
  if (!start(&client)) return 2;
  for (int i = 0; i < READERS; i++)
    if (!start_reader(&client, &readers[i], 0x9e3779b97f4a7c15u * (i + 1))) return 3;
  uint64_t seed = 88172645463325252u, wrong = 0, answers = 0, again = 0;
  for (uint32_t number = 1; number <= updates; number++)
    wrong += !change_slot(&client, number, (uint32_t)(next_random(&seed) % SLOTS));
  atomic_store(&done, true);
  for (int i = 0; i < READERS; i++) {
    pthread_join(readers[i].thread, NULL);
    wrong += wrong_answers(&readers[i]);
    answers += readers[i].count;
    again += readers[i].again;
    free(readers[i].answers);
    registry_client *mine = &readers[i].client;
    if (registry_c_join(client, *mine, &client, mine) != REGISTRY_JOINED) return 4;
  }
  free(changes);
  uint32_t seen;
  bool alone = registry_c_close(client, &seen);
  printf("%u updates seen, %llu answers, %llu tried again, %llu wrong\n", seen,
         (unsigned long long)answers, (unsigned long long)again, (unsigned long long)wrong);
  return wrong != 0 || !alone || seen != updates + 1;
}
