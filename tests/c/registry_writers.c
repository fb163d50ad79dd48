/* registry_writers [RANGES]: two and four threads that register and remove ranges, each on its own
 * part of them or all on one, and with so few nodes that none is free at times. The numbers of what
 * was accepted are one order, and each range is found as they left it. Each test passes also where
 * its threads run one after another. Status 0: all is so. */
#define _GNU_SOURCE
#include "check.h"
#include "registry_told.h"
#include "side_by_side.h"
#include <stdlib.h>

/* How often a thread goes over its ranges: they come the first time, go the second, and so on. */
enum { WRITERS = 4, PASSES = 5, MOST = 2000 };

/* How many ranges there are. */
static uint32_t ranges = MOST;

/* A change of a range that was accepted, with its number. */
struct step {
  uint32_t range, number;
  bool comes;
};

struct writer {
  registry_client client;
  uint32_t first, ranges, count;
  bool is_wrong;
  struct step steps[PASSES * MOST / 2];
};

static struct writer writers[WRITERS];

/* In an order that is scattered. */
static void *write_part(void *given) {
  struct writer *me = given;
  begin_together();
  for (uint32_t turn = 0; turn < PASSES * me->ranges; turn++) {
    uint32_t own = me->first + turn * 7919 % me->ranges;
    bool comes = turn / me->ranges % 2 == 0;
    registry_answer answer =
        comes ? put(&me->client, range(own)) : take(&me->client, range(own).first);
    if (answer.kind != REGISTRY_DONE) continue;
    if (!is_done(answer, answer.number, comes ? no_member : range(own))) me->is_wrong = true;
    me->steps[me->count++] = (struct step){own, answer.number, comes};
  }
  return NULL;
}

/* The changes of all by their numbers: each number up to the stamp once. */
static bool number_all(struct step **steps, uint32_t count, uint32_t stamp) {
  if (stamp > PASSES * ranges) return false;
  for (uint32_t i = 0; i < stamp; i++) steps[i] = NULL;
  uint32_t accepted = 0;
  for (uint32_t i = 0; i < count; i++)
    for (uint32_t at = 0; at < writers[i].count; at++, accepted++) {
      struct step *step = &writers[i].steps[at];
      if (step->number < 1 || step->number > stamp || steps[step->number - 1]) return false;
      steps[step->number - 1] = step;
    }
  return accepted == stamp;
}

/* Each comes where it isn't there and goes where it is; and is then found as it was left. */
static bool is_found_so(registry_client *me, struct step **steps, uint32_t stamp) {
  static bool there[MOST];
  for (uint32_t own = 0; own < ranges; own++) there[own] = false;
  for (uint32_t i = 0; i < stamp; i++) {
    if (there[steps[i]->range] == steps[i]->comes) return false;
    there[steps[i]->range] = steps[i]->comes;
  }
  for (uint32_t own = 0; own < ranges; own++) {
    registry_place place = find(me, range(own).first);
    if (!(there[own] ? is_registered(place, range(own), stamp) : is_nowhere(place, stamp)))
      return false;
  }
  return true;
}

/* Threads whose parts begin so far from one another; how many of their updates were accepted. */
static int write_beside(uint32_t nodes, uint32_t count, uint32_t apart, uint32_t *accepted) {
  static struct step *steps[PASSES * MOST];
  registry_client me = {0};
  CHECK(begin(&me, nodes, 1, ranges));
  for (uint32_t i = 0; i < count; i++) {
    struct writer *writer = &writers[i];
    writer->client.at = NULL, writer->count = 0, writer->is_wrong = false;
    writer->ranges = ranges / count, writer->first = i * apart;
    CHECK(split_off(&me, PASSES * ranges, &writer->client) && start(write_part, writer));
  }
  together();
  *accepted = find(&me, 0).registered;
  CHECK(number_all(steps, count, *accepted) && is_found_so(&me, steps, *accepted));
  for (uint32_t i = 0; i < count; i++)
    CHECK(!writers[i].is_wrong && join(&me, &writers[i].client));
  CHECK(ends_alone(me, *accepted));
  return 0;
}

int main(int count, char **words) {
  uint32_t accepted;
  if (count > 1) ranges = (uint32_t)strtoul(words[1], NULL, 10);
  if (ranges < 8 || ranges > MOST || ranges % 4) return 2;
  for (uint32_t crew = 2; crew <= 4; crew += 2) {
    /* on parts of their own each update is accepted */
    if (write_beside(4096, crew, ranges / crew, &accepted)) return 1;
    CHECK(accepted == PASSES * ranges);
    if (write_beside(4096, crew, 0, &accepted)) return 1;
  }
  /* with few nodes */
  if (write_beside(64, 2, ranges / 2, &accepted) || write_beside(64, 4, 0, &accepted)) return 1;
  printf("all updates in one order\n");
  return 0;
}
