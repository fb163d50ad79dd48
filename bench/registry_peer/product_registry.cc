// over: registry_c
// The registry for C as a peer of the harness's benches lookup_registered and lookup_loaded. The
// harness passes a registry and a caller; here a caller's client leads to both.
#include "product.h"
#include "registry_c.h"
#include <cstdlib>

struct product_registry { };
struct product_caller { registry_client held; };

product_registry *product_registry_new(uint32_t nodes, uint32_t loads, uint32_t payloads,
                                       product_caller **first) {
  registry_limits limits = {nodes, loads, payloads, 0};
  registry_member none = {};
  registry_client client = {nullptr};
  if (registry_c_new(&limits, &none, 0, &client) != REGISTRY_NEW) return nullptr;
  *first = new product_caller{client};
  return new product_registry{};
}
uint32_t product_registry_close(product_registry *r, product_caller *first) {
  uint32_t seen;
  if (!registry_c_close(first->held, &seen)) abort();
  delete first;
  delete r;
  return seen;
}
product_caller *product_caller_split(product_registry *, product_caller *me, uint32_t give) {
  registry_client client = {nullptr};
  if (registry_c_split(me->held, give, &client, &me->held) != REGISTRY_SPLIT) abort();
  return new product_caller{client};
}
void product_caller_join(product_registry *, product_caller *me, product_caller *other) {
  if (registry_c_join(me->held, other->held, &me->held, &other->held) != REGISTRY_JOINED) abort();
  delete other;
}
uint32_t product_caller_left(product_caller *me) { return registry_c_left(me->held, &me->held); }

// what the harness is told of an answer: BUSY is 'again'
static int told(const registry_answer &answer) {
  switch (answer.kind) {
  case REGISTRY_DONE: return 0;
  case REGISTRY_OVERLAP:
  case REGISTRY_ABSENT: return 1;
  case REGISTRY_FULL: return 2;
  case REGISTRY_SPENT: return 3;
  case REGISTRY_BUSY: return -1;
  default: abort();
  }
}
// one try of adding a range, or of taking one away
typedef void adding(registry_client, const registry_member *, registry_answer *, registry_client *);
typedef void taking(registry_client, uint64_t, registry_answer *, registry_client *);
static int added(adding *add, product_caller *me, registry_member member) {
  registry_answer answer;
  add(me->held, &member, &answer, &me->held);
  return told(answer);
}
static int taken(taking *take, product_caller *me, uint64_t base) {
  registry_answer answer;
  take(me->held, base, &answer, &me->held);
  return told(answer);
}
int product_register(product_registry *, product_caller *me, uint64_t base, uint64_t size,
                     uint32_t payload) {
  return added(registry_c_register, me, {base, size, payload});
}
int product_deregister(product_registry *, product_caller *me, uint64_t base) {
  return taken(registry_c_deregister, me, base);
}
int product_load(product_registry *, product_caller *me, uint64_t base, uint64_t size,
                 uint32_t payload) {
  return added(registry_c_load, me, {base, size, payload});
}
int product_unload(product_registry *, product_caller *me, uint64_t base) {
  return taken(registry_c_unload, me, base);
}

// 1 a hit, 0 a miss, -1 again
static int told(const registry_found &found, uint32_t *payload) {
  *payload = found.member.payload;
  return found.kind == REGISTRY_AGAIN ? -1 : found.kind == REGISTRY_HIT;
}
int product_try_registered(product_registry *, product_caller *me, uint64_t pc,
                           uint32_t *payload) {
  registry_found found;
  registry_c_try_registered(me->held, pc, &found, &me->held);
  return told(found, payload);
}
int product_try_loaded(product_registry *, product_caller *me, uint64_t pc, uint32_t *payload) {
  registry_found found;
  registry_c_try_loaded(me->held, pc, &found, &me->held);
  return told(found, payload);
}
int product_find(product_registry *, product_caller *me, uint64_t pc, uint32_t *payload) {
  registry_place place;
  registry_c_find(me->held, pc, &place, &me->held);
  *payload = place.member.payload;
  switch (place.kind) {
  case REGISTRY_REGISTERED: return 2;
  case REGISTRY_LOADED: return 1;
  case REGISTRY_NOWHERE: return 0;
  default: return -1;
  }
}
