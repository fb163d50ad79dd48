/* Each call of the registry once, with answers that were worked out by hand. Status 0: all are
 * so. */
#include "check.h"
#include "heap_calls.h"
#include "registry_c.h"
#include <stdio.h>
#include <string.h>

static const registry_member no_member;

static bool is_same(registry_member a, registry_member b) {
  return a.first == b.first && a.size == b.size && a.payload == b.payload;
}

static bool is_answer(registry_answer answer, uint32_t kind, uint32_t number, uint32_t stamp,
                      registry_member member) {
  return answer.kind == kind && answer.number == number && answer.stamp == stamp &&
         is_same(answer.member, member);
}

static bool is_found(registry_found found, uint32_t kind, uint32_t stamp, registry_member member) {
  return found.kind == kind && found.stamp == stamp && is_same(found.member, member);
}

static bool is_place(registry_place place, uint32_t kind, uint32_t registered, uint32_t loaded,
                     registry_member member) {
  return place.kind == kind && place.registered == registered && place.loaded == loaded &&
         is_same(place.member, member);
}

static const registry_limits limits = {.nodes = 4, .loads = 1, .payloads = 3, .name = 1};
static const registry_member fixed[2] = {{0x9000, 0x10, 2}, {0x9010, 0x20, 0}};

static int refusals(void) {
  registry_client none = {0};
  registry_limits wrong = limits;
  wrong.nodes = 3;
  CHECK(registry_c_new(&wrong, fixed, 2, &none) == REGISTRY_NEW_NODES && none.at == NULL);
  wrong = limits;
  wrong.loads = 1025;
  CHECK(registry_c_new(&wrong, fixed, 2, &none) == REGISTRY_NEW_LOADS && none.at == NULL);
  const registry_member falling[2] = {fixed[1], fixed[0]};
  CHECK(registry_c_new(&limits, falling, 2, &none) == REGISTRY_NEW_FIXED && none.at == NULL);
  const registry_member beyond = {UINT64_MAX - 15, 0x10, 0};
  CHECK(registry_c_new(&limits, &beyond, 1, &none) == REGISTRY_NEW_FIXED && none.at == NULL);
  return 0;
}

static int loads(registry_client *client) {
  const registry_member one = {0x1000, 0x20, 1}, other = {0x9008, 0x10, 0}, more = {0x5000, 1, 0};
  registry_answer answer;
  registry_found found;
  registry_c_load(*client, &one, &answer, client);
  CHECK(is_answer(answer, REGISTRY_DONE, 1, 0, no_member));
  registry_c_load(*client, &other, &answer, client);
  CHECK(is_answer(answer, REGISTRY_OVERLAP, 0, 1, fixed[0]));
  registry_c_load(*client, &more, &answer, client);
  CHECK(is_answer(answer, REGISTRY_FULL, 0, 1, no_member));
  registry_c_try_loaded(*client, 0x101f, &found, client);
  CHECK(is_found(found, REGISTRY_HIT, 1, one));
  registry_c_try_loaded(*client, 0x902f, &found, client);
  CHECK(is_found(found, REGISTRY_HIT, 1, fixed[1]));
  registry_c_try_loaded(*client, 0x1020, &found, client);
  CHECK(is_found(found, REGISTRY_MISS, 1, no_member));
  registry_c_unload(*client, 0x9000, &answer, client);
  CHECK(is_answer(answer, REGISTRY_ABSENT, 0, 1, no_member));
  registry_c_unload(*client, 0x1000, &answer, client);
  CHECK(is_answer(answer, REGISTRY_DONE, 2, 0, one));
  registry_c_load(*client, &one, &answer, client);
  CHECK(is_answer(answer, REGISTRY_DONE, 3, 0, no_member));
  return 0;
}

/* Four nodes: the root and two leaves of five take three, and the twenty-first range no fifth. */
static int registrations(registry_client *client) {
  registry_answer answer;
  registry_found found;
  registry_member code = {0x2000, 0x10, 2};
  for (uint32_t number = 4; number < 24; number++, code.first += 0x10) {
    registry_c_register(*client, &code, &answer, client);
    CHECK(is_answer(answer, REGISTRY_DONE, number, 0, no_member));
  }
  registry_c_register(*client, &code, &answer, client);
  CHECK(is_answer(answer, REGISTRY_FULL, 0, 23, no_member));
  const registry_member across = {0x200f, 2, 0}, lowest = {0x2000, 0x10, 2};
  registry_c_register(*client, &across, &answer, client);
  CHECK(is_answer(answer, REGISTRY_OVERLAP, 0, 23, lowest));
  registry_c_try_registered(*client, 0x2000, &found, client);
  CHECK(is_found(found, REGISTRY_HIT, 23, lowest));
  registry_c_try_registered(*client, 0x1000, &found, client);
  CHECK(is_found(found, REGISTRY_MISS, 23, no_member));
  registry_c_deregister(*client, 0x2001, &answer, client);
  CHECK(is_answer(answer, REGISTRY_ABSENT, 0, 23, no_member));
  registry_c_deregister(*client, 0x2000, &answer, client);
  CHECK(is_answer(answer, REGISTRY_DONE, 24, 0, lowest));
  return 0;
}

/* A lookup in both halves. */
typedef void finder(registry_client client, uint64_t pc, registry_place *place,
                    registry_client *back);

static int places(registry_client *client, finder *find) {
  registry_place place;
  find(*client, 0x2010, &place, client);
  CHECK(is_place(place, REGISTRY_REGISTERED, 24, 0, (registry_member){0x2010, 0x10, 2}));
  find(*client, 0x1000, &place, client);
  CHECK(is_place(place, REGISTRY_LOADED, 24, 24, (registry_member){0x1000, 0x20, 1}));
  find(*client, 0x2000, &place, client);
  CHECK(is_place(place, REGISTRY_NOWHERE, 24, 24, no_member));
  return 0;
}

static int members(registry_client *client) {
  const registry_member empty = {0x3000, 0, 0}, beyond = {UINT64_MAX - 1, 1, 0},
                        unpaid = {0x3000, 1, 3};
  registry_answer answer;
  registry_c_register(*client, &empty, &answer, client);
  CHECK(is_answer(answer, REGISTRY_NO_MEMBER, 0, 0, no_member));
  registry_c_load(*client, &unpaid, &answer, client);
  CHECK(is_answer(answer, REGISTRY_NO_PAYLOAD, 0, 0, no_member));
  registry_c_load(*client, &beyond, &answer, client);
  CHECK(is_answer(answer, REGISTRY_FULL, 0, 24, no_member));
  return 0;
}

/* A payload changes at its place, also for the same one; a part of a range isn't the range. */
static int replacements(registry_client *client) {
  const registry_member old = {0x2020, 0x10, 2}, new = {0x2020, 0x10, 1}, part = {0x2020, 8, 1},
                        unpaid = {0x2020, 0x10, 3};
  registry_answer answer;
  registry_place place;
  registry_c_replace(*client, &new, &answer, client);
  CHECK(is_answer(answer, REGISTRY_DONE, 25, 0, old));
  registry_c_find_cached(*client, 0x2028, &place, client);
  CHECK(is_place(place, REGISTRY_REGISTERED, 25, 0, new));
  registry_c_replace(*client, &part, &answer, client);
  CHECK(is_answer(answer, REGISTRY_ABSENT, 0, 25, no_member));
  registry_c_replace(*client, &unpaid, &answer, client);
  CHECK(is_answer(answer, REGISTRY_NO_PAYLOAD, 0, 0, no_member));
  registry_c_replace(*client, &new, &answer, client);
  CHECK(is_answer(answer, REGISTRY_DONE, 26, 0, new));
  return 0;
}

/* A client with one update call, which has seen what its maker had seen. */
static int splits(registry_client *client) {
  registry_client other = {0};
  registry_answer answer;
  uint32_t left = registry_c_left(*client, client);
  CHECK(registry_c_split(*client, left + 1, &other, client) == REGISTRY_SPLIT_FEW);
  CHECK(registry_c_split(*client, 1, &other, client) == REGISTRY_SPLIT);
  CHECK(registry_c_left(*client, client) == left - 1 && registry_c_left(other, &other) == 1);
  CHECK(registry_c_seen(other, &other) == 26);
  registry_c_deregister(other, 0x2010, &answer, &other);
  CHECK(is_answer(answer, REGISTRY_DONE, 27, 0, (registry_member){0x2010, 0x10, 2}));
  registry_c_deregister(other, 0x2010, &answer, &other);
  CHECK(is_answer(answer, REGISTRY_SPENT, 0, 0, no_member));
  CHECK(registry_c_seen(*client, client) == 26);
  /* its last hits have the range still, but not at this stamp */
  registry_place place;
  registry_c_find_cached(*client, 0x2010, &place, client);
  CHECK(is_place(place, REGISTRY_NOWHERE, 27, 27, no_member));
  CHECK(registry_c_join(*client, other, client, &other) == REGISTRY_JOINED);
  CHECK(registry_c_seen(*client, client) == 27 && registry_c_left(*client, client) == left - 1);
  return 0;
}

/* A client without calls of its own gets no update done, and its maker has seen what it had. */
static int spent(registry_client *client) {
  const registry_member code = {0x3000, 1, 0};
  registry_client other = {0};
  registry_answer answers[5];
  uint32_t left = registry_c_left(*client, client), seen = registry_c_seen(*client, client);
  CHECK(registry_c_split(*client, 0, &other, client) == REGISTRY_SPLIT);
  registry_c_register(other, &code, &answers[0], &other);
  registry_c_deregister(other, 0x2020, &answers[1], &other);
  registry_c_load(other, &code, &answers[2], &other);
  registry_c_unload(other, 0x1000, &answers[3], &other);
  registry_c_replace(other, &code, &answers[4], &other);
  for (int i = 0; i < 5; i++) CHECK(is_answer(answers[i], REGISTRY_SPENT, 0, 0, no_member));
  CHECK(registry_c_join(*client, other, client, &other) == REGISTRY_JOINED);
  CHECK(registry_c_seen(*client, client) == seen && registry_c_left(*client, client) == left);
  return 0;
}

/* A client of another registry isn't joined, and both are as they were. */
static int other_registries(registry_client *client) {
  registry_client other = {0};
  registry_limits others = limits;
  others.name = 2;
  uint32_t left = registry_c_left(*client, client), seen = registry_c_seen(*client, client);
  CHECK(registry_c_new(&others, fixed, 2, &other) == REGISTRY_NEW);
  CHECK(registry_c_join(*client, other, client, &other) == REGISTRY_JOIN_OTHER_REGISTRY);
  CHECK(registry_c_left(*client, client) == left && registry_c_seen(*client, client) == seen);
  CHECK(registry_c_left(other, &other) == 67108864 && registry_c_close(other, &seen) && seen == 0);
  return 0;
}

enum { NODES = 400, APART = 0x100, SIZE = 0x10 };

/* What came of a registration of a range of its own for each place and part of a place. */
static uint32_t put(registry_client *client, uint32_t place, uint32_t part) {
  const registry_member code = {(uint64_t)APART * (place + 1) + SIZE * part, SIZE, 0};
  registry_answer answer;
  registry_c_register(*client, &code, &answer, client);
  return answer.kind;
}

static bool take(registry_client *client, uint32_t place, uint32_t part) {
  registry_answer answer;
  uint64_t first = (uint64_t)APART * (place + 1) + SIZE * part;
  registry_c_deregister(*client, first, &answer, client);
  return answer.kind == REGISTRY_DONE;
}

/* Registers in ascending order until it is full, and says how many there are. A full leaf is cut
 * into five and five, a full inner node into seven children and eight. Where none but the root has
 * fewer, and the leaf that finds no room has ten, there are (30 * nodes + 15) / 7 ranges at least,
 * and one of the nodes may be free, since the root's cut wants two. */
static int ascending(registry_client *client, uint32_t *ranges) {
  uint32_t kind = REGISTRY_DONE;
  for (*ranges = 0; (kind = put(client, *ranges, 0)) == REGISTRY_DONE;) ++*ranges;
  CHECK(kind == REGISTRY_FULL && 7 * *ranges >= 30 * (NODES - 1) + 15);
  return 0;
}

/* Takes one of each five away, so that all leaves but the last have the fewest that they may, four,
 * and fills one of them. With four in a leaf and six children, (10 * nodes + 12) / 3 at least. */
static int thinned(registry_client *client, uint32_t *ranges) {
  uint32_t last = *ranges, kind = REGISTRY_DONE, part = 1;
  for (uint32_t place = 0; place + 10 < last; place += 5, --*ranges) CHECK(take(client, place, 0));
  for (; (kind = put(client, 501, part)) == REGISTRY_DONE; part++) ++*ranges;
  CHECK(kind == REGISTRY_FULL && 3 * *ranges >= 10 * NODES + 12 && 10 * *ranges < 36 * NODES);
  while (--part > 0) CHECK(take(client, 501, part));
  for (uint32_t place = 0; place < last; place++)
    if (place + 10 >= last || place % 5) CHECK(take(client, place, 0));
  return 0;
}

/* Three nodes for each ten ranges are enough, in whatever order these come. */
static int node_counts(void) {
  const registry_limits many = {.nodes = NODES, .loads = 1, .payloads = 1};
  registry_client client = {0};
  uint32_t ranges, seen;
  CHECK(registry_c_new(&many, fixed, 0, &client) == REGISTRY_NEW);
  if (ascending(&client, &ranges) || thinned(&client, &ranges)) return 1;
  for (uint32_t i = 0; i < 10 * NODES / 3; i++)
    CHECK(put(&client, i * 577 % (10 * NODES / 3), 0) == REGISTRY_DONE);
  for (uint32_t i = 0; i < 10 * NODES / 3; i++) CHECK(take(&client, i, 0));
  CHECK(registry_c_close(client, &seen));
  return 0;
}

/* A reader of a client and one of a reader, which look up as their makers do. */
static int readers(registry_client *client) {
  registry_reader first = {0}, second = {0};
  registry_place theirs, place;
  registry_found found, one;
  CHECK(registry_c_reader(*client, &first, client) && first.at != NULL);
  CHECK(registry_c_reader_again(first, &second, &first) && second.at != NULL);
  registry_c_find(*client, 0x1010, &theirs, client);
  registry_c_reader_find(first, 0x1010, &place, &first);
  CHECK(is_place(place, theirs.kind, theirs.registered, theirs.loaded, theirs.member));
  registry_c_try_loaded(*client, 0x902f, &one, client);
  registry_c_reader_try_loaded(second, 0x902f, &found, &second);
  CHECK(is_found(found, REGISTRY_HIT, one.stamp, fixed[1]));
  registry_c_try_registered(*client, 0x902f, &one, client);
  registry_c_reader_try_registered(second, 0x902f, &found, &second);
  CHECK(is_found(found, REGISTRY_MISS, one.stamp, no_member));
  uint32_t seen = registry_c_seen(*client, client);
  CHECK(registry_c_reader_drop(first) == seen && registry_c_reader_drop(second) == seen);
  return 0;
}

/* One that is closed beside another isn't alone. */
static int closes(registry_client client) {
  registry_client other = {0};
  uint32_t seen = 0;
  CHECK(registry_c_split(client, 0, &other, &client) == REGISTRY_SPLIT);
  CHECK(!registry_c_close(other, &seen) && seen == 27);
  CHECK(!registry_c_close(client, &seen) && seen == 27);
  registry_client first = {0};
  CHECK(registry_c_new(&limits, fixed, 0, &first) == REGISTRY_NEW);
  CHECK(registry_c_close(first, &seen) && seen == 0);
  return 0;
}

int main(void) {
  registry_client client = {0};
  if (refusals()) return 1;
  if (registry_c_new(&limits, fixed, 2, &client) != REGISTRY_NEW) return 1;
  heap_count_from_here(0);
  if (loads(&client) || registrations(&client) || places(&client, registry_c_find)) return 1;
  /* once when the cache has nothing, and once when it has what was found */
  for (int time = 0; time < 2; time++) {
    if (places(&client, registry_c_find_cached)) return 1;
  }
  if (members(&client) || replacements(&client)) return 1;
  CHECK(heap_calls() == 0);
  if (readers(&client)) return 1;
  if (splits(&client) || spent(&client) || other_registries(&client)) return 1;
  if (closes(client) || node_counts()) return 1;
  printf("all answers as worked out\n");
  return 0;
}
