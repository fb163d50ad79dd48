/* The loaded half of a registry, by one client and by some that are split off and joined; each
 * answer worked out by hand. Status 0: all are so. */
#include "check.h"
#include "registry_told.h"

enum { CALLS = 67108864 };

static bool begin_beside(registry_client *me, uint32_t loads, uint32_t payloads,
                         const registry_member *fixed, size_t count) {
  const registry_limits limits = {.nodes = 4, .loads = loads, .payloads = payloads};
  return registry_c_new(&limits, fixed, count, me) == REGISTRY_NEW;
}

static int fixed_members_are_found_at_the_stamp_of_the_clock(void) {
  registry_client a = {0};
  const registry_member fixed[2] = {{0x1000, 0x20, 0}, {0x1020, 0x10, 1}};
  CHECK(begin_beside(&a, 17, 2, fixed, 2));
  CHECK(is_hit(in_loaded(&a, 0x1000), fixed[0], 0) && is_hit(in_loaded(&a, 0x101f), fixed[0], 0));
  CHECK(is_hit(in_loaded(&a, 0x1020), fixed[1], 0));
  CHECK(is_miss(in_loaded(&a, 0xfff), 0) && is_miss(in_loaded(&a, 0x1030), 0));
  CHECK(ends_alone(a, 0));
  return 0;
}

/* Its own load of it overlaps, and takes its only call. */
static int a_member_that_another_loaded_is_found_and_overlaps(void) {
  registry_client a = {0}, b = {0};
  const registry_member one = member(0x1000, 0x20, 0);
  CHECK(begin(&a, 4, 1, 1) && split_off(&a, 1, &b));
  CHECK(is_nowhere(find(&a, 0x1010), 0));
  CHECK(is_done(load(&a, one), 1, no_member));
  CHECK(registry_c_seen(a, &a) == 1 && registry_c_seen(b, &b) == 0);
  CHECK(is_hit(in_loaded(&b, 0x1010), one, 1) && registry_c_seen(b, &b) == 1);
  CHECK(is_loaded(find(&b, 0x101f), one, 1) && is_nowhere(find(&b, 0x1020), 1));
  CHECK(is_refused(load(&b, one), REGISTRY_OVERLAP, 1, one));
  CHECK(is_refused(load(&b, one), REGISTRY_SPENT, 0, no_member));
  CHECK(is_refused(unload(&b, 0x1000), REGISTRY_SPENT, 0, no_member));
  CHECK(join(&a, &b) && is_hit(in_loaded(&a, 0x1000), one, 1) && ends_alone(a, 1));
  return 0;
}

static int a_client_with_nothing_is_spent(void) {
  registry_client a = {0}, b = {0};
  const registry_member one = member(0x1000, 0x20, 0);
  CHECK(begin(&a, 4, 1, 1) && split_off(&a, 0, &b));
  CHECK(is_done(put(&a, one), 1, no_member));
  CHECK(is_refused(put(&b, one), REGISTRY_SPENT, 0, no_member));
  CHECK(is_refused(take(&b, 0x1000), REGISTRY_SPENT, 0, no_member));
  CHECK(is_refused(replace(&b, one), REGISTRY_SPENT, 0, no_member));
  CHECK(is_refused(load(&b, one), REGISTRY_SPENT, 0, no_member));
  CHECK(is_refused(unload(&b, 0x1000), REGISTRY_SPENT, 0, no_member));
  CHECK(join(&a, &b) && ends_alone(a, 1));
  return 0;
}

/* Three come back with what they had, and their maker is alone again. */
static int a_round_of_clients(void) {
  registry_client a = {0}, others[3] = {{0}, {0}, {0}};
  const uint32_t gives[3] = {2, 0, 1};
  CHECK(begin(&a, 4, 1, 1));
  for (int i = 0; i < 3; i++) CHECK(split_off(&a, gives[i], &others[i]));
  CHECK(registry_c_left(a, &a) == CALLS - 3);
  for (int i = 0; i < 3; i++) CHECK(registry_c_left(others[i], &others[i]) == gives[i]);
  for (int i = 0; i < 3; i++) CHECK(join(&a, &others[i]));
  CHECK(registry_c_left(a, &a) == CALLS && ends_alone(a, 0));
  return 0;
}

static int a_member_is_unloaded_by_its_first_address_alone(void) {
  registry_client a = {0};
  const registry_member program = member(0x9000, 0x100, 3), low = member(0x1000, 0x20, 0),
                        high = member(0x2000, 0x20, 1);
  CHECK(begin_beside(&a, 2, 4, &program, 1));
  CHECK(is_refused(unload(&a, 0x1000), REGISTRY_ABSENT, 0, no_member));
  CHECK(is_done(load(&a, high), 1, no_member) && is_done(load(&a, low), 2, no_member));
  CHECK(is_refused(load(&a, member(0x3000, 0x20, 2)), REGISTRY_FULL, 2, no_member));
  CHECK(is_refused(unload(&a, 0x1001), REGISTRY_ABSENT, 2, no_member));
  CHECK(is_refused(unload(&a, 0x9000), REGISTRY_ABSENT, 2, no_member));
  CHECK(is_done(unload(&a, 0x1000), 3, low) && is_miss(in_loaded(&a, 0x1000), 3));
  CHECK(is_hit(in_loaded(&a, 0x201f), high, 3) && is_hit(in_loaded(&a, 0x9000), program, 3));
  CHECK(is_done(unload(&a, 0x2000), 4, high));
  CHECK(is_refused(unload(&a, 0x2000), REGISTRY_ABSENT, 4, no_member));
  CHECK(ends_alone(a, 4));
  return 0;
}

/* A segment has room for sixteen. */
static int seventeen_members_stand_in_two_segments(void) {
  registry_client a = {0};
  CHECK(begin(&a, 16, 40, 17));
  for (uint32_t image = 0; image < 17; image++)
    CHECK(is_done(load(&a, range(image)), image + 1, no_member));
  CHECK(is_hit(in_loaded(&a, 0x2008), range(16), 17));
  CHECK(is_done(unload(&a, 0x1000), 18, range(0)));
  CHECK(is_hit(in_loaded(&a, 0x2008), range(16), 18) && is_miss(in_loaded(&a, 0x1008), 18));
  CHECK(is_done(load(&a, range(0)), 19, no_member));
  CHECK(is_hit(in_loaded(&a, 0x1008), range(0), 19));
  CHECK(is_hit(in_loaded(&a, 0x2008), range(16), 19));
  CHECK(ends_alone(a, 19));
  return 0;
}

int main(void) {
  if (fixed_members_are_found_at_the_stamp_of_the_clock()) return 1;
  if (a_member_that_another_loaded_is_found_and_overlaps()) return 1;
  if (a_client_with_nothing_is_spent() || a_round_of_clients()) return 1;
  if (a_member_is_unloaded_by_its_first_address_alone()) return 1;
  if (seventeen_members_stand_in_two_segments()) return 1;
  printf("all answers as worked out\n");
  return 0;
}
