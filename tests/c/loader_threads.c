/* Two threads load, look up and unload a range of their own; and then ranges of which some overlap,
 * where every answer is held against plain lists that make the accepted updates in the order of
 * their numbers. Both pass also where the threads run one after the other. Status 0: all is so. */
#define _GNU_SOURCE
#include "check.h"
#include "registry_told.h"
#include "side_by_side.h"

/* How many addresses are loaded at, and how many may be loaded at a time. */
enum { TURNS = 300, PLACES = 11, LOADS = 6 };

enum asked { LOAD, UNLOAD, LOOK };

struct event {
  enum asked asked;
  registry_member member;
  registry_answer answer;
  registry_found found;
};

struct player {
  registry_client client;
  uint64_t size;
  struct event events[TURNS];
};

static uint64_t base_of(uint32_t place) { return 0x1000 + 0x40 * (uint64_t)(place % PLACES); }

/* Loads, looks and unloads in turns, at addresses that go round. */
static void *play(void *given) {
  struct player *me = given;
  begin_together();
  for (uint32_t turn = 0; turn < TURNS; turn++) {
    uint32_t place = turn / 3 % PLACES;
    struct event *event = &me->events[turn];
    event->member = member(base_of(place), me->size, place);
    if (turn % 3 == 0) {
      event->asked = LOAD;
      event->answer = load(&me->client, event->member);
    } else if (turn % 3 == 1) {
      event->asked = LOOK;
      event->found = in_loaded(&me->client, event->member.first);
    } else {
      event->asked = UNLOAD;
      event->member.first = base_of(place + 5);
      event->answer = unload(&me->client, event->member.first);
    }
  }
  return NULL;
}

static const registry_member program = {0x1100, 0x10, 0};

/* What is loaded after so many updates. */
static struct {
  registry_member members[LOADS];
  uint32_t count, updates;
} lists;

/* The last address. */
static uint64_t end_of(registry_member one) { return one.first + (one.size - 1); }

/* The lowest one that overlaps, or one without addresses. */
static registry_member lowest_overlap(registry_member one) {
  registry_member lowest = no_member;
  for (uint32_t i = 0; i <= lists.count; i++) {
    registry_member other = i < lists.count ? lists.members[i] : program;
    if (other.first > end_of(one) || one.first > end_of(other)) continue;
    if (lowest.size == 0 || other.first < lowest.first) lowest = other;
  }
  return lowest;
}

static bool loads_so(const struct event *event) {
  registry_member other = lowest_overlap(event->member);
  if (other.size > 0) return is_refused(event->answer, REGISTRY_OVERLAP, lists.updates, other);
  if (lists.count == LOADS)
    return is_refused(event->answer, REGISTRY_FULL, lists.updates, no_member);
  lists.members[lists.count++] = event->member;
  return is_done(event->answer, ++lists.updates, no_member);
}

static bool unloads_so(const struct event *event) {
  for (uint32_t i = 0; i < lists.count; i++) {
    registry_member one = lists.members[i];
    if (one.first != event->member.first) continue;
    lists.members[i] = lists.members[--lists.count];
    return is_done(event->answer, ++lists.updates, one);
  }
  return is_refused(event->answer, REGISTRY_ABSENT, lists.updates, no_member);
}

static bool finds_so(const struct event *event) {
  registry_member one = lowest_overlap(member(event->member.first, 1, 0));
  return one.size > 0 ? is_hit(event->found, one, lists.updates)
                      : is_miss(event->found, lists.updates);
}

static bool agrees(const struct event *event) {
  return event->asked == LOAD     ? loads_so(event)
         : event->asked == UNLOAD ? unloads_so(event)
                                  : finds_so(event);
}

static bool is_accepted(const struct event *event) {
  return event->asked != LOOK && event->answer.kind == REGISTRY_DONE;
}

/* The number of an accepted update, or the stamp of another answer. */
static uint32_t moment(const struct event *event) {
  if (event->asked == LOOK) return event->found.stamp;
  return is_accepted(event) ? event->answer.number : event->answer.stamp;
}

/* Those of the moment that were accepted, or those that weren't: whether the lists agree with all,
 * and how many they are. */
static bool all_agree(const struct player *me, uint32_t now, bool accepted, uint32_t *count) {
  for (int i = 0; i < TURNS; i++) {
    const struct event *event = &me->events[i];
    if (moment(event) != now || is_accepted(event) != accepted) continue;
    ++*count;
    if (!agrees(event)) return false;
  }
  return true;
}

static bool in_order(const struct player *me, uint32_t last) {
  uint32_t since = 0;
  for (int i = 0; i < TURNS; i++) {
    uint32_t now = moment(&me->events[i]);
    if (now < since || now > last) return false;
    since = now;
  }
  return true;
}

static int answers_of_one_that_makes_the_updates_in_order(void) {
  static struct player players[2] = {{.size = 0x40}, {.size = 0x48}};
  const registry_limits limits = {.nodes = 4, .loads = LOADS, .payloads = PLACES};
  registry_client a = {0};
  uint32_t last, events = 0;
  CHECK(registry_c_new(&limits, &program, 1, &a) == REGISTRY_NEW);
  for (int i = 0; i < 2; i++) CHECK(split_off(&a, 1000, &players[i].client));
  for (int i = 0; i < 2; i++) CHECK(start(play, &players[i]));
  together();
  for (int i = 0; i < 2; i++) CHECK(join(&a, &players[i].client));
  CHECK(registry_c_close(a, &last) && last > 20);
  CHECK(in_order(&players[0], last) && in_order(&players[1], last));
  for (uint32_t number = 0; number <= last; number++) {
    uint32_t updates = 0;
    for (int i = 0; i < 2; i++) CHECK(all_agree(&players[i], number, true, &updates));
    CHECK(updates == (number > 0) && lists.updates == number);
    for (int i = 0; i < 2; i++) CHECK(all_agree(&players[i], number, false, &events));
  }
  CHECK(events + last == 2 * TURNS);
  printf("%u updates, and all answers as of plain lists\n", last);
  return 0;
}

/* A range, and whether each call of its owner was answered as it should be. */
struct owner {
  registry_client client;
  registry_member own;
  bool is_right;
};

static void *load_find_and_unload(void *given) {
  struct owner *me = given;
  begin_together();
  registry_answer came = load(&me->client, me->own);
  registry_place place = find(&me->client, me->own.first);
  registry_answer went = unload(&me->client, me->own.first);
  me->is_right = is_done(came, came.number, no_member) && place.kind == REGISTRY_LOADED &&
                 is_same(place.member, me->own) && is_done(went, went.number, me->own);
  return NULL;
}

static int two_threads_load_find_and_unload(void) {
  struct owner owners[2] = {{.own = {0x1000, 0x20, 0}}, {.own = {0x2000, 0x20, 1}}};
  registry_client a = {0};
  CHECK(begin(&a, 4, 2, 2));
  for (int i = 0; i < 2; i++) CHECK(split_off(&a, 2, &owners[i].client));
  for (int i = 0; i < 2; i++) CHECK(start(load_find_and_unload, &owners[i]));
  together();
  for (int i = 0; i < 2; i++) CHECK(owners[i].is_right && join(&a, &owners[i].client));
  CHECK(ends_alone(a, 4));
  return 0;
}

int main(void) {
  if (two_threads_load_find_and_unload()) return 1;
  return answers_of_one_that_makes_the_updates_in_order();
}
