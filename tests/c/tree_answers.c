/* The registered half of a registry by one client: lookups, overlaps, four nodes that are full, and
 * payloads that are exchanged, each answer worked out by hand. Status 0: all are so. */
#include "check.h"
#include "registry_told.h"

enum { LONE = 0 };

static int an_empty_tree_has_nothing(void) {
  registry_client a = {0};
  CHECK(begin(&a, 4, 1, 2));
  CHECK(is_miss(in_registered(&a, 0), 0) && is_miss(in_registered(&a, UINT64_MAX), 0));
  CHECK(ends_alone(a, 0));
  return 0;
}

/* Members of 16 addresses, 256 apart, all with one payload; whether they get the numbers from 1
 * on. */
static bool put_alike(registry_client *me, uint32_t count) {
  for (uint32_t at = 0; at < count; at++) {
    registry_member one = member(0x1000 + 0x100 * (uint64_t)at, 0x10, LONE);
    if (!is_done(put(me, one), at + 1, no_member)) return false;
  }
  return true;
}

static int the_lowest_that_overlaps_is_named(void) {
  registry_client a = {0};
  CHECK(begin(&a, 4, 1, 2) && put_alike(&a, 3));
  registry_answer refused = put(&a, member(0x1008, 0x200, 0));
  CHECK(is_refused(refused, REGISTRY_OVERLAP, 3, member(0x1000, 0x10, LONE)));
  CHECK(registry_c_seen(a, &a) == 3 && ends_alone(a, 3));
  return 0;
}

/* The root and three leaves of ten, five and five: the next cut wants a fifth node. */
static int four_nodes_are_full_at_twenty(void) {
  registry_client a = {0}, b = {0};
  CHECK(begin(&a, 4, 1, 2) && put_alike(&a, 20));
  CHECK(is_refused(put(&a, member(0x3000, 0x10, 0)), REGISTRY_FULL, 20, no_member));
  registry_answer refused = put(&a, member(0x2308, 0x1000, 0));
  CHECK(is_refused(refused, REGISTRY_OVERLAP, 20, member(0x2300, 0x10, LONE)));
  CHECK(ends_alone(a, 20));
  CHECK(begin(&b, 4, 1, 21) && put_all(&b, 20));
  CHECK(is_refused(put(&b, range(20)), REGISTRY_FULL, 20, no_member));
  CHECK(is_refused(put(&b, range(19)), REGISTRY_OVERLAP, 20, range(19)));
  CHECK(is_hit(in_registered(&b, 0x2308), range(19), 20));
  CHECK(ends_alone(b, 20));
  return 0;
}

static int eleven_ranges(void) {
  registry_client me = {0};
  CHECK(begin(&me, 4, 1, 11) && put_all(&me, 11));
  CHECK(is_hit(in_registered(&me, 0x1a08), range(10), 11));
  CHECK(is_hit(in_registered(&me, 0x1408), range(4), 11));
  CHECK(is_miss(in_registered(&me, 0x1450), 11));
  CHECK(ends_alone(me, 11));
  return 0;
}

/* In a tree of three levels: a span that isn't the whole one's is absent, and the neighbour's
 * payload stays. The same payload again is an update too. */
static int a_payload_is_exchanged_where_the_whole_span_stands(void) {
  registry_client a = {0};
  const registry_member third = member(0x1300, 0x10, 1), first = member(0x1000, 0x10, 1);
  CHECK(begin(&a, 64, 1, 2) && put_alike(&a, 100));
  CHECK(is_refused(replace(&a, member(0x1300, 0x11, 1)), REGISTRY_ABSENT, 100, no_member));
  CHECK(is_refused(replace(&a, member(0x1301, 0xf, 1)), REGISTRY_ABSENT, 100, no_member));
  CHECK(is_done(replace(&a, third), 101, member(0x1300, 0x10, LONE)));
  CHECK(is_hit(in_registered(&a, 0x130f), third, 101));
  CHECK(is_hit(in_registered(&a, 0x1400), member(0x1400, 0x10, LONE), 101));
  CHECK(is_done(replace(&a, first), 102, member(0x1000, 0x10, LONE)));
  CHECK(is_done(replace(&a, first), 103, first));
  CHECK(is_hit(in_registered(&a, 0x1000), first, 103));
  CHECK(ends_alone(a, 103));
  return 0;
}

static int a_payload_is_exchanged_in_place(void) {
  registry_client a = {0};
  const registry_member old = member(0x1000, 0x30, 0), new = member(0x1000, 0x30, 1);
  CHECK(begin(&a, 16, 8, 3));
  CHECK(is_refused(replace(&a, old), REGISTRY_ABSENT, 0, no_member));
  CHECK(is_done(put(&a, old), 1, no_member));
  CHECK(is_done(replace(&a, new), 2, old));
  CHECK(is_registered(find(&a, 0x1010), new, 2));
  CHECK(is_refused(replace(&a, member(0x1000, 0x20, 2)), REGISTRY_ABSENT, 2, no_member));
  CHECK(is_done(take(&a, 0x1000), 3, new));
  CHECK(ends_alone(a, 3));
  return 0;
}

/* A reader of a client and one of a reader have seen what their makers have; whoever has readers is
 * alone. */
static int each_way_to_make_a_reader(void) {
  registry_client a = {0};
  registry_reader first = {0}, second = {0};
  registry_found found;
  registry_place place;
  CHECK(begin(&a, 4, 1, 2) && put_all(&a, 2));
  CHECK(registry_c_reader(a, &first, &a) && registry_c_reader_again(first, &second, &first));
  registry_c_reader_find(first, 0x1108, &place, &first);
  CHECK(is_registered(place, range(1), 2));
  registry_c_reader_try_registered(second, 0x1110, &found, &second);
  CHECK(is_miss(found, 2));
  registry_c_reader_try_loaded(second, 0x1108, &found, &second);
  CHECK(is_miss(found, 2));
  CHECK(ends_alone(a, 2));
  CHECK(registry_c_reader_drop(first) == 2 && registry_c_reader_drop(second) == 2);
  return 0;
}

int main(void) {
  if (an_empty_tree_has_nothing() || the_lowest_that_overlaps_is_named()) return 1;
  if (four_nodes_are_full_at_twenty() || eleven_ranges()) return 1;
  if (a_payload_is_exchanged_where_the_whole_span_stands()) return 1;
  if (a_payload_is_exchanged_in_place() || each_way_to_make_a_reader()) return 1;
  printf("all answers as worked out\n");
  return 0;
}
