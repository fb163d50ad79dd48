/* What a registry tells, held against what was worked out; and calls that are tried until they are
 * answered. */
#ifndef REGISTRY_TOLD_H
#define REGISTRY_TOLD_H

#include "registry_c.h"
#include <sched.h>

static const registry_member no_member;

static inline bool is_same(registry_member a, registry_member b) {
  return a.first == b.first && a.size == b.size && a.payload == b.payload;
}

static inline bool is_done(registry_answer answer, uint32_t number, registry_member member) {
  return answer.kind == REGISTRY_DONE && answer.number == number && answer.stamp == 0 &&
         is_same(answer.member, member);
}

/* Any other answer, at a stamp, which is 0 where none is told. */
static inline bool is_refused(registry_answer answer, uint32_t kind, uint32_t stamp,
                              registry_member member) {
  return answer.kind == kind && answer.number == 0 && answer.stamp == stamp &&
         is_same(answer.member, member);
}

static inline bool is_hit(registry_found found, registry_member member, uint32_t stamp) {
  return found.kind == REGISTRY_HIT && found.stamp == stamp && is_same(found.member, member);
}

static inline bool is_miss(registry_found found, uint32_t stamp) {
  return found.kind == REGISTRY_MISS && found.stamp == stamp && is_same(found.member, no_member);
}

static inline bool is_registered(registry_place place, registry_member member, uint32_t stamp) {
  return place.kind == REGISTRY_REGISTERED && place.registered == stamp && place.loaded == 0 &&
         is_same(place.member, member);
}

static inline bool is_loaded(registry_place place, registry_member member, uint32_t stamp) {
  return place.kind == REGISTRY_LOADED && place.registered == stamp && place.loaded == stamp &&
         is_same(place.member, member);
}

static inline bool is_nowhere(registry_place place, uint32_t stamp) {
  return place.kind == REGISTRY_NOWHERE && place.registered == stamp && place.loaded == stamp &&
         is_same(place.member, no_member);
}

static inline registry_member member(uint64_t first, uint64_t size, uint32_t payload) {
  return (registry_member){first, size, payload};
}

/* The range with a number: sixteen addresses from a base of its own on. */
static inline registry_member range(uint32_t number) {
  return member(0x1000 + 0x100 * (uint64_t)number, 0x10, number);
}

typedef void updating(registry_client, const registry_member *, registry_answer *,
                      registry_client *);

static inline registry_answer update(updating *call, registry_client *me, registry_member one) {
  registry_answer answer;
  for (;;) {
    call(*me, &one, &answer, me);
    if (answer.kind != REGISTRY_BUSY) return answer;
    sched_yield();
  }
}

typedef void removing(registry_client, uint64_t, registry_answer *, registry_client *);

static inline registry_answer removal(removing *call, registry_client *me, uint64_t first) {
  registry_answer answer;
  for (;;) {
    call(*me, first, &answer, me);
    if (answer.kind != REGISTRY_BUSY) return answer;
    sched_yield();
  }
}

static inline registry_answer put(registry_client *me, registry_member one) {
  return update(registry_c_register, me, one);
}

static inline registry_answer take(registry_client *me, uint64_t first) {
  return removal(registry_c_deregister, me, first);
}

static inline registry_answer replace(registry_client *me, registry_member one) {
  return update(registry_c_replace, me, one);
}

static inline registry_answer load(registry_client *me, registry_member one) {
  return update(registry_c_load, me, one);
}

static inline registry_answer unload(registry_client *me, uint64_t first) {
  return removal(registry_c_unload, me, first);
}

static inline registry_found in_registered(registry_client *me, uint64_t pc) {
  registry_found found;
  for (;;) {
    registry_c_try_registered(*me, pc, &found, me);
    if (found.kind != REGISTRY_AGAIN) return found;
    sched_yield();
  }
}

static inline registry_found in_loaded(registry_client *me, uint64_t pc) {
  registry_found found;
  for (;;) {
    registry_c_try_loaded(*me, pc, &found, me);
    if (found.kind != REGISTRY_AGAIN) return found;
    sched_yield();
  }
}

typedef void finding(registry_client, uint64_t, registry_place *, registry_client *);

static inline registry_place found_by(finding *call, registry_client *me, uint64_t pc) {
  registry_place place;
  for (;;) {
    call(*me, pc, &place, me);
    if (place.kind != REGISTRY_FIND_AGAIN) return place;
    sched_yield();
  }
}

static inline registry_place find(registry_client *me, uint64_t pc) {
  return found_by(registry_c_find, me, pc);
}

static inline registry_place find_cached(registry_client *me, uint64_t pc) {
  return found_by(registry_c_find_cached, me, pc);
}

/* A registry without fixed ranges, with so many nodes, loads and payloads: whether it was made. */
static inline bool begin(registry_client *me, uint32_t nodes, uint32_t loads, uint32_t payloads) {
  const registry_limits limits = {.nodes = nodes, .loads = loads, .payloads = payloads};
  return registry_c_new(&limits, &no_member, 0, me) == REGISTRY_NEW;
}

/* Whether the ranges with numbers below this one are registered in order, each with its number. */
static inline bool put_all(registry_client *me, uint32_t count) {
  for (uint32_t number = 0; number < count; number++)
    if (!is_done(put(me, range(number)), number + 1, no_member)) return false;
  return true;
}

/* Closes a client: whether it was alone, and had seen so many updates. */
static inline bool ends_alone(registry_client me, uint32_t updates) {
  uint32_t seen;
  return registry_c_close(me, &seen) && seen == updates;
}

/* Another client, with so many of the update calls. */
static inline bool split_off(registry_client *me, uint32_t calls, registry_client *other) {
  return registry_c_split(*me, calls, other, me) == REGISTRY_SPLIT;
}

static inline bool join(registry_client *me, registry_client *other) {
  return registry_c_join(*me, *other, me, other) == REGISTRY_JOINED;
}

#endif
