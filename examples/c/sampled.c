/* A program that is sampled while it is in calls of both libraries: a handler walks the stack that its
 * signal interrupted, through the library's own functions, whose section is the program's. Status 0:
 * each walk leads to main, and 200 of them begin inside of a call. */
#define _GNU_SOURCE
#include "loaded_objects.h"
#include "registry_c.h"
#include <signal.h>
#include <stdio.h>
#include <sys/time.h>
#include <unistd.h>

enum { FRAMES = 32, INSIDE = 200, CODE = 0x4000, RED_ZONE = 128 };

static registry_client client;
static frames_modules modules;
static frames_section section;
static frames_fde work_fde, main_fde;
static volatile sig_atomic_t inside, outside, lost;
static const struct itimerval soon = {.it_value = {0, 1000}};

static bool is_in(uint64_t pc, const frames_fde *fde) {
  return fde->first <= pc && pc - fde->first < fde->range;
}

static void on_signal(int number, siginfo_t *info, void *interrupted) {
  /* What the call writes doesn't stand in the stack that is lent. */
  static frames_frame frame;
  static frames_line lines[FRAMES];
  static size_t count;
  (void)number, (void)info;
  take_registers(interrupted, &frame);
  /* A register that was just popped stands below the stack pointer, where no handler writes. */
  uint64_t first = frame.columns[7] - RED_ZONE;
  const uint8_t *top = (const uint8_t *)environ, *low = (const uint8_t *)first;
  frames_c_walk(modules, first, low, (size_t)(top - low), &frame, lines, FRAMES, &count, &modules);
  size_t at = 0;
  while (at < count && !is_in(lines[at].pc, &main_fde)) at++;
  if (at == count) lost++;
  else if (at == 0 || is_in(lines[0].pc, &work_fde)) outside++;
  else inside++;
  if (inside < INSIDE && lost == 0) setitimer(ITIMER_REAL, &soon, NULL);
}

/* The calls in which it is sampled. */
static __attribute__((noinline)) int work(void) {
  int wrong = 0;
  while (inside < INSIDE && lost == 0 && !wrong) {
    registry_place place;
    frames_fde fde;
    frames_row row;
    registry_c_find(client, CODE + 1, &place, &client);
    wrong = place.kind != REGISTRY_REGISTERED && place.kind != REGISTRY_FIND_AGAIN;
    wrong |= !frames_c_find(section, main_fde.first, &fde, &section);
    wrong |= !frames_c_row(section, main_fde.first, &row, &section);
  }
  return wrong;
}

static bool make_registry(void) {
  const registry_limits limits = {.nodes = 16, .loads = 1, .payloads = 4};
  const registry_member none = {0}, code = {CODE, 16, 1};
  registry_answer answer;
  if (registry_c_new(&limits, &none, 0, &client) != REGISTRY_NEW) return false;
  do registry_c_register(client, &code, &answer, &client);
  while (answer.kind == REGISTRY_BUSY);
  return answer.kind == REGISTRY_DONE;
}

/* The rows of all objects, and the section of this program, in which both libraries are. */
static bool make_modules(uint64_t here) {
  read_objects();
  if (!frames_c_modules(&modules)) return false;
  for (int i = 0; i < count_objects; i++) {
    struct object *object = &objects[i];
    frames_row_table table = {0};
    uint64_t size = object->last - object->first;
    if (here - object->first < size && !frames_c_share(object->section, &section, &object->section))
      return false;
    if (frames_c_row_table(object->section, &table, &object->section) == FRAMES_ROW_TABLE_MADE &&
        frames_c_modules_add_rows(modules, object->first, size, table, &modules) !=
            FRAMES_MODULE_ADDED)
      return false;
    frames_c_free(object->section);
  }
  return section.at != NULL;
}

int main(void) {
  struct sigaction action = {.sa_sigaction = on_signal, .sa_flags = SA_SIGINFO};
  if (!make_modules((uintptr_t)work) || !make_registry()) return 1;
  if (!frames_c_find(section, (uintptr_t)work, &work_fde, &section) ||
      !frames_c_find(section, (uintptr_t)main, &main_fde, &section))
    return 1;
  if (sigaction(SIGALRM, &action, NULL) || setitimer(ITIMER_REAL, &soon, NULL)) return 1;
  if (work()) return 1;
  printf("%d walks from inside of calls, %d from outside, %d lost\n", (int)inside, (int)outside,
         (int)lost);
  frames_c_free(section);
  frames_c_modules_free(modules);
  uint32_t seen;
  registry_c_close(client, &seen);
  return lost != 0;
}
