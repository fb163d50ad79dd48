/* registry_threads [EACH]: threads that register ranges side by side and look up those of others,
 * some with readers beside them. The numbers of what was accepted are one order, each lookup is
 * right after as many updates as its stamp says, and stamps and numbers never fall along a thread.
 * Each test passes also where its threads run one after another. Status 0: all is so. */
#define _GNU_SOURCE
#include "check.h"
#include "registry_told.h"
#include "side_by_side.h"
#include <stdlib.h>

enum { WRITERS = 4, READERS = 16, MOST = 2500, NEVER = UINT32_MAX };

/* How many ranges each writer registers, and how many there are. */
static uint32_t each = MOST, all = 4 * MOST;

/* What one was told of a range: by a lookup, or of its own registration, whose moment is a
 * number. */
struct event {
  uint32_t range, moment;
  bool is_lookup, is_there;
};

struct part {
  registry_client client;
  registry_reader reader;
  uint32_t number, count;
  bool is_wrong;
  struct event events[2 * MOST];
};

static struct part parts[WRITERS + READERS];

/* What was found at the base of a range: it, or nothing. */
static void keep_lookup(struct part *me, uint32_t number, registry_place place) {
  bool is_there = place.kind == REGISTRY_REGISTERED;
  if (is_there ? !is_same(place.member, range(number)) : place.kind != REGISTRY_NOWHERE)
    me->is_wrong = true;
  me->events[me->count++] = (struct event){number, place.registered, true, is_there};
}

/* Every fourth range, in an order that is scattered; and after each a look at another one. */
static void *register_and_look(void *given) {
  struct part *me = given;
  begin_together();
  for (uint32_t turn = 0; turn < each; turn++) {
    uint32_t own = me->number + 4 * (turn * 7919 % each), other = turn * 3343 % all;
    registry_answer answer = put(&me->client, range(own));
    if (!is_done(answer, answer.number, no_member)) me->is_wrong = true;
    me->events[me->count++] = (struct event){own, answer.number, false, true};
    keep_lookup(me, other, find(&me->client, range(other).first));
  }
  return NULL;
}

static void *look_along(void *given) {
  struct part *me = given;
  registry_place place;
  begin_together();
  for (uint32_t turn = 0; turn < each; turn++) {
    uint32_t number = (turn * 3343 + me->number) % all;
    do {
      registry_c_reader_find(me->reader, range(number).first, &place, &me->reader);
      if (place.kind == REGISTRY_FIND_AGAIN) sched_yield();
    } while (place.kind == REGISTRY_FIND_AGAIN);
    keep_lookup(me, number, place);
  }
  return NULL;
}

/* The number of each range that came, each number once; and none is missing. */
static bool number_all(uint32_t *numbers, uint32_t writers) {
  static bool taken[WRITERS * MOST];
  for (uint32_t i = 0; i < all; i++) numbers[i] = NEVER, taken[i] = false;
  for (uint32_t part = 0; part < writers; part++)
    for (uint32_t i = 0; i < parts[part].count; i++) {
      struct event *event = &parts[part].events[i];
      if (event->is_lookup) continue;
      uint32_t number = event->moment;
      if (number < 1 || number > writers * each || taken[number - 1]) return false;
      taken[number - 1] = true;
      numbers[event->range] = number;
    }
  for (uint32_t i = 0; i < writers * each; i++)
    if (!taken[i]) return false;
  return true;
}

/* Whether a range was found exactly where its number isn't above the stamp. */
static bool is_right(const struct part *me, const uint32_t *numbers) {
  uint32_t since = 0;
  for (uint32_t i = 0; i < me->count; i++) {
    const struct event *event = &me->events[i];
    if (event->moment < since || (!event->is_lookup && event->moment == since)) return false;
    if (event->is_lookup && event->is_there != (numbers[event->range] <= event->moment))
      return false;
    since = event->moment;
  }
  return !me->is_wrong && me->count > 0;
}

/* So many writers, and so many readers beside them. */
static int side_by_side(uint32_t writers, uint32_t readers) {
  static uint32_t numbers[WRITERS * MOST];
  uint32_t count = writers + readers;
  registry_client a = {0};
  CHECK(begin(&a, 4096, 1, all));
  for (uint32_t i = 0; i < count; i++) {
    struct part *part = &parts[i];
    part->number = i < writers ? i : i - writers;
    part->count = 0, part->is_wrong = false;
    part->client.at = NULL, part->reader.at = NULL;
    CHECK(i < writers ? split_off(&a, each, &part->client)
                      : registry_c_reader(a, &part->reader, &a));
    CHECK(start(i < writers ? register_and_look : look_along, part));
  }
  together();
  CHECK(number_all(numbers, writers));
  for (uint32_t i = 0; i < count; i++) CHECK(is_right(&parts[i], numbers));
  for (uint32_t i = 0; i < writers; i++) CHECK(join(&a, &parts[i].client));
  CHECK(ends_alone(a, writers * each));
  for (uint32_t i = writers; i < count; i++)
    CHECK(registry_c_reader_drop(parts[i].reader) <= writers * each);
  return 0;
}

/* A range of one's own, which goes and comes; and whether each was done. */
struct owner {
  registry_client client;
  registry_reader reader;
  uint32_t number, turns;
  bool is_right;
};

static void *go_and_come(void *given) {
  struct owner *me = given;
  begin_together();
  for (uint32_t turn = 0; turn < me->turns && me->is_right; turn++) {
    registry_answer went = take(&me->client, range(me->number).first);
    registry_answer came = put(&me->client, range(me->number));
    me->is_right = is_done(went, went.number, range(me->number)) &&
                   is_done(came, came.number, no_member);
  }
  return NULL;
}

/* Each try is answered, and finds the range. */
static void *try_on(void *given) {
  struct owner *me = given;
  registry_found found;
  begin_together();
  for (uint32_t turn = 0; turn < me->turns; turn++) {
    registry_c_reader_try_registered(me->reader, range(me->number).first, &found, &me->reader);
    if (!is_hit(found, range(me->number), found.stamp)) me->is_right = false;
  }
  return NULL;
}

/* Of so many ranges two writers change these two, by updates that begin by sight or at the root. */
static int two_writers(uint32_t ranges, uint32_t low, uint32_t high, uint32_t turns) {
  registry_client a = {0};
  struct owner owners[2] = {{.number = low, .turns = turns, .is_right = true},
                            {.number = high, .turns = turns, .is_right = true}};
  CHECK(begin(&a, 64, 1, ranges));
  for (int i = 0; i < 2; i++) CHECK(split_off(&a, 2 * turns, &owners[i].client));
  CHECK(put_all(&a, ranges));
  for (int i = 0; i < 2; i++) CHECK(start(go_and_come, &owners[i]));
  together();
  CHECK(owners[0].is_right && owners[1].is_right);
  CHECK(is_hit(in_registered(&a, 0x1000), range(0), ranges + 4 * turns));
  for (int i = 0; i < 2; i++) CHECK(join(&a, &owners[i].client));
  CHECK(ends_alone(a, ranges + 4 * turns));
  return 0;
}

static int each_try_is_answered_beside_a_writer_of_another_leaf(uint32_t turns) {
  registry_client a = {0};
  struct owner writer = {.number = 2, .turns = turns, .is_right = true},
               reader = {.number = 90, .turns = turns, .is_right = true};
  CHECK(begin(&a, 64, 1, 100) && put_all(&a, 100));
  CHECK(split_off(&a, 2 * turns, &writer.client) && registry_c_reader(a, &reader.reader, &a));
  CHECK(start(go_and_come, &writer) && start(try_on, &reader));
  together();
  CHECK(writer.is_right && reader.is_right);
  CHECK(join(&a, &writer.client) && ends_alone(a, 100 + 2 * turns));
  CHECK(registry_c_reader_drop(reader.reader) >= 100);
  return 0;
}

int main(int count, char **words) {
  if (count > 1) each = (uint32_t)strtoul(words[1], NULL, 10);
  if (each < 1 || each > MOST) return 2;
  all = 4 * each;
  uint32_t turns = 4 * each / 5;
  if (side_by_side(WRITERS, 0) || side_by_side(2, READERS)) return 1;
  /* of eight ranges the root is the leaf; of a hundred the first two share one */
  if (two_writers(8, 2, 3, turns) || two_writers(100, 2, 3, turns)) return 1;
  if (two_writers(100, 2, 90, turns)) return 1;
  if (each_try_is_answered_beside_a_writer_of_another_leaf(turns)) return 1;
  printf("all answers right\n");
  return 0;
}
