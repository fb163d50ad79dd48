/* Both libraries together, for a program that makes code while it runs. Generated code is
 * registered with its section. While it runs, a signal handler walks through it up to main, and an
 * exception is thrown through it: each frame is looked up in the registry, whose payload tells the
 * section by which the frame is left. Then it is generated anew at its place, and gets its new
 * section by one update. Status 0: each frame was the one that was called, and the registers that
 * the generated code had changed are back. */
#define _GNU_SOURCE
#include "loaded_objects.h"
#include "registry_c.h"
#include <signal.h>
#include <stdio.h>
#include <sys/mman.h>
#include <unistd.h>

typedef uint64_t callee(uint64_t argument);
typedef uint64_t generated_code(callee *calls, uint64_t argument);

/* push rbx; mov ebx, 42; mov rax, rdi; mov rdi, rsi; call rax; pop rbx; ret */
static const uint8_t code_bytes[16] = {0x53, 0xbb, 0x2a, 0x00, 0x00, 0x00, 0x48, 0x89,
                                       0xf8, 0x48, 0x89, 0xf7, 0xff, 0xd0, 0x5b, 0xc3};
/* Its section: a CIE, and an FDE whose first address stands in the eight bytes at FIRST. From 1 on
 * the CFA is rsp + 16 and rbx saved at the CFA - 16, and from 15 on as at the entry. */
enum { FIRST = 32 };
static const uint8_t section_bytes[64] = {
    0x14, 0x00, 0x00, 0x00, 0x00, 0x00, 0x00, 0x00, 0x01, 0x00, 0x01, 0x78, 0x10, 0x0c, 0x07, 0x08,
    0x90, 0x01, 0x00, 0x00, 0x00, 0x00, 0x00, 0x00, 0x24, 0x00, 0x00, 0x00, 0x1c, 0x00, 0x00, 0x00,
    0x00, 0x00, 0x00, 0x00, 0x00, 0x00, 0x00, 0x00, 0x10, 0x00, 0x00, 0x00, 0x00, 0x00, 0x00, 0x00,
    0x41, 0x0e, 0x10, 0x83, 0x02, 0x4e, 0x0e, 0x08, 0xc3, 0x00, 0x00, 0x00, 0x00, 0x00, 0x00, 0x00};

/* ---- who looks frames up ---- */

/* A client of the registry, and a share of each range's section by the range's payload. The handler
 * has a walker of its own, since it may interrupt calls that have the program's. */
struct walker {
  registry_client client;
  frames_section sections[OBJECTS + 2];
};
static struct walker program, handler;
enum { FRAMES = 64 };

/* The section of the range that has a frame's address; none where no range has it. */
static frames_section *section_of(struct walker *walker, const frames_frame *frame) {
  registry_place place;
  uint64_t look = frame->columns[16] - !frame->at_instruction;
  do registry_c_find(walker->client, look, &place, &walker->client);
  while (place.kind == REGISTRY_FIND_AGAIN);
  return place.kind == REGISTRY_NOWHERE ? NULL : &walker->sections[place.member.payload];
}

/* The first address of the function of a frame; 0 where it isn't known. */
static uint64_t function_of(struct walker *walker, const frames_frame *frame) {
  frames_fde fde = {.first = 0};
  frames_section *section = section_of(walker, frame);
  if (section == NULL) return 0;
  frames_c_find(*section, frame->columns[16] - !frame->at_instruction, &fde, section);
  return fde.first;
}

/* The frame before, by the stack from a frame's own pointer on. */
static bool step(struct walker *walker, frames_frame *frame) {
  frames_section *section = section_of(walker, frame);
  const uint8_t *low = (const uint8_t *)frame->columns[7], *top = (const uint8_t *)environ;
  return section != NULL && frames_c_step_lent(*section, frame->columns[7], low,
                                               (size_t)(top - low), frame, section) == FRAMES_FRAME;
}

/* ---- the handler ---- */

static uint64_t functions[FRAMES];
static volatile int count_functions;

static void on_signal(int number, siginfo_t *info, void *context) {
  (void)number, (void)info;
  frames_frame frame = {.missing = 0};
  take_registers(context, &frame);
  do functions[count_functions++] = function_of(&handler, &frame);
  while (count_functions < FRAMES && step(&handler, &frame));
}

static __attribute__((noinline)) uint64_t interrupted(uint64_t argument) {
  raise(SIGUSR1);
  return argument + 1;
}

/* ---- the exception ---- */

static uint64_t catcher, thrown;

/* Goes up to the function that catches, and returns there from its call, with 0. */
static __attribute__((noinline)) uint64_t throw_value(uint64_t value) {
  static ucontext_t context;
  static frames_frame frame;
  getcontext(&context);
  take_registers(&context, &frame);
  while (function_of(&program, &frame) != catcher)
    if (!step(&program, &frame)) abort();
  for (int i = 0; i < 17; i++)
    context.uc_mcontext.gregs[saved_columns[i]] = (greg_t)frame.columns[i];
  thrown = value;
  setcontext(&context);
  abort();
}

/* Calls the generated code, which calls `calls`, beside numbers that stay in registers. Gives its
 * answer, or ~0 where a register isn't back. */
static __attribute__((noinline)) uint64_t call_generated(generated_code *code, callee *calls,
                                                         uint64_t n) {
  uint64_t a = n * 3, b = n * 5, c = n * 7, d = n * 11, e = n * 13;
  __asm__ volatile("" : "+r"(a), "+r"(b), "+r"(c), "+r"(d), "+r"(e));
  uint64_t answer = code(calls, n);
  __asm__ volatile("" : "+r"(a), "+r"(b), "+r"(c), "+r"(d), "+r"(e));
  return a == n * 3 && b == n * 5 && c == n * 7 && d == n * 11 && e == n * 13 ? answer : ~0ull;
}

/* ---- the program ---- */

static bool put_code(uint64_t first, uint32_t payload) {
  const registry_member member = {first, sizeof code_bytes, payload};
  registry_answer answer;
  do registry_c_register(program.client, &member, &answer, &program.client);
  while (answer.kind == REGISTRY_BUSY);
  return answer.kind == REGISTRY_DONE;
}

/* Exchanges the payload of code that was generated anew at its place. */
static bool exchange_code(uint64_t first, uint32_t payload) {
  const registry_member member = {first, sizeof code_bytes, payload};
  registry_answer answer;
  do registry_c_replace(program.client, &member, &answer, &program.client);
  while (answer.kind == REGISTRY_BUSY);
  return answer.kind == REGISTRY_DONE && answer.member.payload + 1 == payload;
}

static bool take_code(uint64_t first) {
  registry_answer answer;
  do registry_c_deregister(program.client, first, &answer, &program.client);
  while (answer.kind == REGISTRY_BUSY);
  return answer.kind == REGISTRY_DONE;
}

/* The objects are ranges that are there for good, each with its number as payload. */
static bool start(void) {
  const registry_limits limits = {.nodes = 16, .loads = 1, .payloads = OBJECTS + 2};
  registry_member fixed[OBJECTS];
  read_objects();
  for (int i = 0; i < count_objects; i++) {
    fixed[i] = (registry_member){objects[i].first, objects[i].last - objects[i].first, (uint32_t)i};
    program.sections[i] = objects[i].section;
    if (!frames_c_share(program.sections[i], &handler.sections[i], &program.sections[i]))
      return false;
  }
  if (registry_c_new(&limits, fixed, (size_t)count_objects, &program.client) != REGISTRY_NEW)
    return false;
  return registry_c_split(program.client, 0, &handler.client, &program.client) == REGISTRY_SPLIT;
}

/* Generates the code at its place, and reads its section for both walkers. */
static bool generate_at(uint8_t *code, uint32_t payload) {
  uint8_t section[sizeof section_bytes];
  frames_refusal refusal;
  if (mprotect(code, 4096, PROT_READ | PROT_WRITE)) return false;
  memcpy(code, code_bytes, sizeof code_bytes);
  if (mprotect(code, 4096, PROT_READ | PROT_EXEC)) return false;
  memcpy(section, section_bytes, sizeof section);
  memcpy(section + FIRST, &code, 8);
  return frames_c_read(0, section, sizeof section, &refusal, &program.sections[payload]) &&
         frames_c_share(program.sections[payload], &handler.sections[payload],
                        &program.sections[payload]);
}

/* Generates the code, and registers it with its section. */
static uint8_t *generate(void) {
  uint8_t *code = mmap(NULL, 4096, PROT_READ | PROT_WRITE, MAP_PRIVATE | MAP_ANONYMOUS, -1, 0);
  const uint32_t own = (uint32_t)count_objects;
  if (code == MAP_FAILED || !generate_at(code, own)) return NULL;
  return put_code((uintptr_t)code, own) ? code : NULL;
}

/* Whether the handler saw these functions one after another, and main above them. */
static bool saw(const uint64_t expected[4]) {
  for (int i = 0; i + 4 <= count_functions; i++)
    if (memcmp(functions + i, expected, 4 * sizeof *expected) == 0) return true;
  return false;
}

int main(void) {
  if (!start()) return 2;
  uint8_t *place = generate();
  if (place == NULL) return 3;
  generated_code *code = (generated_code *)place;
  const uint64_t first = (uintptr_t)code;
  const struct sigaction action = {.sa_sigaction = on_signal, .sa_flags = SA_SIGINFO};
  const uint64_t expected[4] = {(uintptr_t)interrupted, first, (uintptr_t)call_generated,
                                (uintptr_t)main};
  catcher = (uintptr_t)call_generated;
  if (sigaction(SIGUSR1, &action, NULL)) return 4;
  if (call_generated(code, interrupted, 20) != 21 || !saw(expected)) return 5;
  if (call_generated(code, throw_value, 77) != 0 || thrown != 77) return 6;
  printf("%d frames from the handler on, and an exception caught\n", count_functions);
  const uint32_t anew = (uint32_t)count_objects + 1;
  if (!generate_at(place, anew) || !exchange_code(first, anew)) return 11;
  if (call_generated(code, throw_value, 78) != 0 || thrown != 78) return 12;
  if (!take_code(first)) return 7;
  frames_frame gone = {.columns = {[16] = first}, .at_instruction = 1};
  if (section_of(&program, &gone) != NULL) return 8;
  uint32_t seen;
  for (int i = 0; i <= count_objects + 1; i++) {
    frames_c_free(program.sections[i]);
    frames_c_free(handler.sections[i]);
  }
  if (registry_c_join(program.client, handler.client, &program.client, &handler.client)) return 9;
  return registry_c_close(program.client, &seen) && seen == 3 ? 0 : 10;
}
