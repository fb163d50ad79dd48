/* Lookups and updates in a signal handler that interrupts updates, by a client of its own and by a
 * reader, and lookups by both in a forked child. Status 0: each was answered rightly, or said that
 * it was busy. */
#define _GNU_SOURCE
#include "registry_c.h"
#include <signal.h>
#include <stdio.h>
#include <sys/time.h>
#include <sys/wait.h>
#include <unistd.h>

enum { CODE = 0x4000, STAYS = 0x2000, OWN = 0x8000, SIGNALS = 300 };

static registry_client client, in_handler;
static registry_reader reader;
static volatile sig_atomic_t signals, wrong, not_answered;

/* What stays is found; what comes and goes is there or not. */
static void judge(const registry_place *place, uint32_t payload, bool stays) {
  if (place->kind == REGISTRY_FIND_AGAIN) not_answered++;
  else if (place->kind != REGISTRY_REGISTERED) wrong += stays;
  else wrong += place->member.payload != payload;
}

static void look_up(registry_client *mine) {
  registry_place place;
  registry_c_find(*mine, STAYS + 1, &place, mine);
  judge(&place, 1, true);
  registry_c_find(*mine, CODE + 1, &place, mine);
  judge(&place, 2, false);
  registry_c_reader_find(reader, STAYS + 1, &place, &reader);
  judge(&place, 1, true);
  registry_c_reader_find(reader, CODE + 1, &place, &reader);
  judge(&place, 2, false);
}

/* A range of the handler's own: it is there after every second accepted update. */
static void update(registry_client *mine) {
  static bool there;
  const registry_member own = {OWN, 16, 3};
  registry_answer answer;
  if (there) registry_c_deregister(*mine, OWN, &answer, mine);
  else registry_c_register(*mine, &own, &answer, mine);
  if (answer.kind == REGISTRY_DONE) there = !there;
  else if (answer.kind == REGISTRY_BUSY) not_answered++;
  else wrong++;
}

static void on_signal(int number) {
  (void)number;
  look_up(&in_handler);
  update(&in_handler);
  signals++;
}

static bool put(uint64_t first, uint32_t payload) {
  const registry_member member = {first, 16, payload};
  registry_answer answer;
  do registry_c_register(client, &member, &answer, &client);
  while (answer.kind == REGISTRY_BUSY);
  return answer.kind == REGISTRY_DONE;
}

static bool take(uint64_t first) {
  registry_answer answer;
  do registry_c_deregister(client, first, &answer, &client);
  while (answer.kind == REGISTRY_BUSY);
  return answer.kind == REGISTRY_DONE;
}

static bool start(void) {
  const registry_limits limits = {.nodes = 64, .loads = 1, .payloads = 4};
  const registry_member none = {0};
  if (registry_c_new(&limits, &none, 0, &client) != REGISTRY_NEW) return false;
  if (registry_c_split(client, 1 << 20, &in_handler, &client) != REGISTRY_SPLIT) return false;
  if (!registry_c_reader(client, &reader, &client)) return false;
  struct sigaction action = {.sa_handler = on_signal};
  const struct itimerval often = {{0, 1000}, {0, 1000}};
  if (!put(STAYS, 1) || sigaction(SIGALRM, &action, NULL)) return false;
  return setitimer(ITIMER_REAL, &often, NULL) == 0;
}

/* The child has the words as they were, and nobody else steps on them. */
static int child_status(void) {
  pid_t child = fork();
  if (child == 0) {
    wrong = 0;
    look_up(&client);
    _exit(wrong != 0);
  }
  int status = 1;
  return child > 0 && waitpid(child, &status, 0) == child ? status : 1;
}

int main(void) {
  if (!start()) return 2;
  while (signals < SIGNALS)
    if (!put(CODE, 2) || !take(CODE)) return 3;
  const struct itimerval never = {{0, 0}, {0, 0}};
  setitimer(ITIMER_REAL, &never, NULL);
  uint32_t seen;
  if (child_status()) return 4;
  if (registry_c_join(client, in_handler, &client, &in_handler) != REGISTRY_JOINED) return 5;
  if (!registry_c_close(client, &seen)) return 6;
  if (registry_c_reader_drop(reader) > seen) return 7;
  printf("%u updates, %d signals, %d not answered, %d wrong\n", seen, (int)signals,
         (int)not_answered, (int)wrong);
  return wrong != 0;
}
