/* Each call of registry_c that takes memory, with each of its allocations refused in turn: that is
 * told as want of memory, whoever was given to the call goes on, and nothing stays held in the end.
 * Status 0: all is so. */
#define NOT_SO WRONG /* what CHECK answers */
#include "check.h"
#include "heap_calls.h"
#include "registry_c.h"
#include <stdio.h>

enum outcome { DONE, REFUSED, WRONG };
enum { CALLS = 67108864, GIVEN = 5 };

static const registry_limits limits = {.nodes = 40, .loads = 3, .payloads = 3, .name = 1};
static const registry_member fixed[2] = {{0x9000, 0x10, 2}, {0x9010, 0x20, 0}};
static const registry_member code = {0x1000, 0x10, 1};

/* The allocation of the call itself that is refused, and how many it made. */
static unsigned fails_at, taken;

static void refuse(void) { heap_count_from_here(fails_at); }

static void refuse_no_more(void) {
  taken = heap_taken;
  heap_count_from_here(0);
}

static enum outcome make(void) {
  registry_client client = {0};
  uint32_t seen = 99;
  refuse();
  uint64_t told = registry_c_new(&limits, fixed, 2, &client);
  refuse_no_more();
  if (told != REGISTRY_NEW) {
    CHECK(told == REGISTRY_NEW_NO_MEMORY && client.at == NULL);
    return REFUSED;
  }
  CHECK(registry_c_close(client, &seen) && seen == 0);
  return DONE;
}

/* An update by a client, and what it then has left. */
static uint32_t update(registry_client *client, uint32_t *kind) {
  registry_answer answer;
  registry_c_register(*client, &code, &answer, client);
  *kind = answer.kind;
  return registry_c_left(*client, client);
}

/* Where memory ran out, the calls that were to be given were kept, or are lost. */
static enum outcome split(void) {
  registry_client client = {0}, other = {0};
  uint32_t seen = 99, kind;
  CHECK(registry_c_new(&limits, fixed, 2, &client) == REGISTRY_NEW);
  refuse();
  uint64_t told = registry_c_split(client, GIVEN, &other, &client);
  refuse_no_more();
  uint32_t left = update(&client, &kind);
  CHECK(kind == REGISTRY_DONE && (left == CALLS - 1 || left == CALLS - GIVEN - 1));
  if (told != REGISTRY_SPLIT) {
    CHECK(told == REGISTRY_SPLIT_NO_MEMORY && other.at == NULL);
  } else {
    CHECK(left == CALLS - GIVEN - 1 && update(&other, &kind) == GIVEN - 1);
    CHECK(kind == REGISTRY_OVERLAP && !registry_c_close(other, &seen) && seen == 1);
  }
  registry_c_close(client, &seen);
  CHECK(seen == 1);
  return told == REGISTRY_SPLIT ? DONE : REFUSED;
}

/* Where memory ran out, the other one comes back and is joined later, or is lost. */
static enum outcome join(void) {
  registry_client client = {0}, other = {0}, back = {0};
  uint32_t seen = 99, kind;
  CHECK(registry_c_new(&limits, fixed, 2, &client) == REGISTRY_NEW);
  CHECK(registry_c_split(client, GIVEN, &other, &client) == REGISTRY_SPLIT);
  CHECK(update(&other, &kind) == GIVEN - 1 && kind == REGISTRY_DONE);
  refuse();
  uint64_t told = registry_c_join(client, other, &client, &back);
  refuse_no_more();
  bool is_lost = told != REGISTRY_JOINED && back.at == NULL;
  if (told != REGISTRY_JOINED) {
    CHECK(told == REGISTRY_JOIN_NO_MEMORY);
    if (!is_lost) CHECK(registry_c_join(client, back, &client, &back) == REGISTRY_JOINED);
  }
  CHECK(update(&client, &kind) == CALLS - (is_lost ? GIVEN + 1 : 2) && kind == REGISTRY_OVERLAP);
  CHECK(registry_c_close(client, &seen) == !is_lost && seen == 1);
  return told == REGISTRY_JOINED ? DONE : REFUSED;
}

/* It is done without memory. */
static enum outcome close(void) {
  registry_client client = {0};
  uint32_t seen = 99;
  CHECK(registry_c_new(&limits, fixed, 2, &client) == REGISTRY_NEW);
  refuse();
  bool is_alone = registry_c_close(client, &seen);
  refuse_no_more();
  CHECK(is_alone && seen == 0 && taken == 0);
  return DONE;
}

/* Whoever makes a reader goes on, and one that is left frees the registry. */
static enum outcome make_readers(void) {
  registry_client client = {0};
  registry_reader first = {0}, second = {0};
  uint32_t seen = 99;
  CHECK(registry_c_new(&limits, fixed, 2, &client) == REGISTRY_NEW);
  refuse();
  bool has_first = registry_c_reader(client, &first, &client);
  bool has_both = has_first && registry_c_reader_again(first, &second, &first);
  refuse_no_more();
  CHECK(has_first == (first.at != NULL) && has_both == (second.at != NULL));
  CHECK(registry_c_close(client, &seen) && seen == 0);
  if (has_both) CHECK(registry_c_reader_drop(second) == 0);
  if (has_first) CHECK(registry_c_reader_drop(first) == 0);
  return has_both ? DONE : REFUSED;
}

/* How many allocations were refused in turn. */
static unsigned refused;

static enum outcome each_refused(enum outcome (*call)(void)) {
  for (fails_at = 1;; fails_at++, refused++) {
    enum outcome outcome = call();
    CHECK(outcome != WRONG && heap_held == 0);
    CHECK(outcome == (taken < fails_at ? DONE : REFUSED));
    if (outcome == DONE) return DONE;
  }
}

int main(void) {
  enum outcome (*const calls[])(void) = {make, split, join, make_readers, close};
  for (size_t i = 0; i < sizeof calls / sizeof *calls; i++) CHECK(each_refused(calls[i]) == DONE);
  printf("registry_want: %u allocations refused, all told\n", refused);
  return 0;
}
