/* Lookups by a client's last hits beside lookups without them, in both halves: a member that goes,
 * nine members of which eight are kept, and a thousand lookups while members come and go. Status 0:
 * all answers are as worked out, or the same. */
#include "check.h"
#include "registry_told.h"

/* A half of a registry: how a member comes into it and goes, how it is asked alone, and what the
 * kind is of a place in it. */
struct half {
  registry_answer (*put)(registry_client *me, registry_member one);
  registry_answer (*take)(registry_client *me, uint64_t first);
  registry_found (*plain)(registry_client *me, uint64_t pc);
  uint32_t kind;
};

static const struct half halves[2] = {{put, take, in_registered, REGISTRY_REGISTERED},
                                      {load, unload, in_loaded, REGISTRY_LOADED}};

/* Whether a lookup by the last hits finds a member of the half, or nothing, at a stamp. */
static bool finds(const struct half *half, registry_client *me, uint64_t pc, registry_member one,
                  uint32_t stamp) {
  registry_place place = find_cached(me, pc);
  return half->kind == REGISTRY_LOADED ? is_loaded(place, one, stamp)
                                       : is_registered(place, one, stamp);
}

static bool misses(registry_client *me, uint64_t pc, uint32_t stamp) {
  return is_nowhere(find_cached(me, pc), stamp);
}

/* A hit, another address of it, and a miss after it went. */
static int a_member_that_goes(const struct half *half) {
  registry_client a = {0}, b = {0};
  const registry_member frames = member(0x1000, 0x20, 0);
  CHECK(begin(&a, 4, 1, 1) && split_off(&a, 0, &b));
  CHECK(is_done(half->put(&a, frames), 1, no_member));
  CHECK(finds(half, &b, 0x1010, frames, 1) && finds(half, &b, 0x1018, frames, 1));
  CHECK(is_done(half->take(&a, 0x1000), 2, frames));
  CHECK(misses(&b, 0x1018, 2) && join(&a, &b) && ends_alone(a, 2));
  return 0;
}

/* Each is looked up once, so that the last eight are kept; then the second, one that isn't there,
 * and all of them again. */
static int nine_members(const struct half *half) {
  registry_client a = {0}, b = {0};
  CHECK(begin(&a, 16, 9, 9) && split_off(&a, 0, &b));
  for (uint32_t number = 0; number < 9; number++)
    CHECK(is_done(half->put(&a, range(number)), number + 1, no_member));
  for (uint32_t number = 0; number < 9; number++)
    CHECK(finds(half, &b, 0x1008 + 0x100 * (uint64_t)number, range(number), 9));
  CHECK(finds(half, &b, 0x1108, range(1), 9) && misses(&b, 0x1010, 9));
  for (uint32_t number = 0; number < 9; number++)
    CHECK(finds(half, &b, 0x1008 + 0x100 * (uint64_t)number, range(number), 9));
  CHECK(join(&a, &b) && ends_alone(a, 9));
  return 0;
}

static uint64_t next_random(uint64_t state) {
  state ^= state << 13;
  state ^= state >> 7;
  return state ^ state << 17;
}

/* Whether both ways to look up tell the same of a half, which alone has members. */
static bool is_same_told(registry_place place, registry_found found) {
  bool is_found = place.kind != REGISTRY_NOWHERE;
  if (is_found != (found.kind == REGISTRY_HIT)) return false;
  return place.registered == found.stamp && is_same(place.member, found.member) &&
         place.loaded == (place.kind == REGISTRY_REGISTERED ? 0 : found.stamp);
}

/* Every eighth step one of 16 members comes, or goes where it is there; three in four lookups are
 * of four members. */
static int a_thousand_lookups(const struct half *half) {
  registry_client a = {0}, b = {0};
  uint64_t state = 0x9e3779b97f4a7c15;
  uint32_t updates = 0;
  CHECK(begin(&a, 16, 16, 16) && split_off(&a, 0, &b));
  for (uint32_t turn = 0; turn < 1000; turn++) {
    state = next_random(state);
    uint64_t number = state % 16, base = 0x1000 + 0x100 * number;
    if (turn % 8 == 0) {
      registry_answer answer = half->take(&a, base);
      if (answer.kind != REGISTRY_DONE)
        answer = half->put(&a, member(base, 0x80, (uint32_t)number));
      CHECK(answer.kind == REGISTRY_DONE && answer.number == ++updates);
    }
    uint64_t near = state / 16 % 4 == 0 ? number : number % 4;
    uint64_t pc = 0x1000 + 0x100 * near + state / 64 % 0x100;
    CHECK(is_same_told(find_cached(&b, pc), half->plain(&a, pc)));
  }
  CHECK(updates == 125 && join(&a, &b) && ends_alone(a, updates));
  return 0;
}

int main(void) {
  for (int i = 0; i < 2; i++) {
    const struct half *half = &halves[i];
    if (a_member_that_goes(half) || nine_members(half) || a_thousand_lookups(half)) return 1;
  }
  printf("all answers as worked out\n");
  return 0;
}
