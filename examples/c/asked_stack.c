/* Walks the stack of another process, a child that is stopped, word by word: each step asks for the
 * words that it lacks, and process_vm_readv reads them. The frames are printed beside those of the
 * child's own backtrace(). Then each word of a frame is refused in turn. Status 1: they differ. */
#define _GNU_SOURCE
#include "loaded_objects.h"
#include <errno.h>
#include <execinfo.h>
#include <signal.h>
#include <stdio.h>
#include <sys/mman.h>
#include <sys/uio.h>
#include <sys/wait.h>
#include <unistd.h>

enum { FRAMES = 32, WORDS = 24 };

/* What the child tells of itself before it stops. */
struct told_by_child {
  ucontext_t context;
  void *expected[FRAMES];
  int depth;
};
static struct told_by_child *child_told;

/* Words that were read of a process; `room` is how many may be. */
struct words {
  pid_t process;
  size_t count, room, asked;
  frames_word told[WORDS];
};

/* Tells the word at an address, where the process has one. */
static bool tell(struct words *words, uint64_t address) {
  frames_word *word = &words->told[words->count];
  struct iovec here = {&word->word, 8}, there = {(void *)address, 8};
  if (words->count == words->room) return false;
  if (process_vm_readv(words->process, &here, 1, &there, 1, 0) != 8) return false;
  word->address = address;
  words->count++;
  words->asked++;
  return true;
}

/* One frame from another, by the object of its address. */
static uint64_t step(frames_frame *frame, struct words *words) {
  const uint8_t none[1] = {0};
  uint64_t look = frame->columns[16] - !frame->at_instruction;
  for (int i = 0; i < count_objects; i++) {
    frames_section *section = &objects[i].section;
    if (look < objects[i].first || look >= objects[i].last) continue;
    for (;;) {
      uint64_t outcome = frames_c_step_asking(*section, 0, none, 0, words->told, words->count,
                                              frame, section);
      if (outcome != FRAMES_NO_BYTES || !tell(words, frame->missing)) return outcome;
    }
  }
  return FRAMES_NO_FDE;
}

/* With room for fewer words than the frame wants nothing but `missing` changes; with room for all
 * it is the frame before. */
static bool refuse_each(const frames_frame *from, pid_t process) {
  for (size_t room = 0; room < WORDS; room++) {
    struct words words = {.process = process, .room = room};
    frames_frame frame = *from;
    uint64_t outcome = step(&frame, &words);
    if (outcome == FRAMES_FRAME) return words.asked == room;
    if (outcome != FRAMES_NO_BYTES || words.asked != room) return false;
    if (memcmp(frame.columns, from->columns, sizeof frame.columns) != 0) return false;
  }
  return false;
}

static int walk(pid_t process) {
  int differ = 0, shown = 0;
  size_t asked = 0;
  frames_frame frame = {.missing = 0};
  take_registers(&child_told->context, &frame);
  uint64_t outcome = FRAMES_FRAME;
  while (shown < child_told->depth && outcome == FRAMES_FRAME) {
    struct words words = {.process = process, .room = WORDS};
    uint64_t pc = frame.columns[16], expected = (uintptr_t)child_told->expected[shown];
    printf("%2d %#18llx %#18llx\n", shown, (unsigned long long)pc, (unsigned long long)expected);
    if (shown > 0 && pc != expected) differ = 1;
    frames_frame from = frame;
    outcome = step(&frame, &words);
    if (outcome == FRAMES_FRAME && !refuse_each(&from, process)) differ = 1;
    asked += words.asked;
    shown++;
  }
  printf("%d frames by %zu words, then %llu\n", shown, asked, (unsigned long long)outcome);
  return differ || shown < child_told->depth;
}

/* The child: it saves its registers and its backtrace, and stops. */
static __attribute__((noinline)) int stop_here(void) {
  child_told->depth = backtrace(child_told->expected, FRAMES);
  getcontext(&child_told->context);
  return raise(SIGSTOP);
}

static __attribute__((noinline)) int nested(int depth) {
  return depth == 0 ? stop_here() : nested(depth - 1) + 0 * depth;
}

/* Whether this system lets a process read its child. */
static bool may_read(pid_t process) {
  uint64_t word;
  struct iovec here = {&word, 8}, there = {child_told, 8};
  if (process_vm_readv(process, &here, 1, &there, 1, 0) == 8) return true;
  if (errno != EPERM && errno != ENOSYS) return true;
  printf("asked_stack: left out, for a process may not read its child here\n");
  return false;
}

int main(void) {
  child_told = mmap(NULL, sizeof *child_told, PROT_READ | PROT_WRITE, MAP_SHARED | MAP_ANONYMOUS,
                    -1, 0);
  if (child_told == MAP_FAILED) return 2;
  read_objects();
  pid_t child = fork();
  if (child == 0) _exit(nested(3));
  int status, wrong = 2;
  if (child > 0 && waitpid(child, &status, WUNTRACED) == child && WIFSTOPPED(status)) {
    wrong = may_read(child) ? walk(child) : 0;
    kill(child, SIGKILL);
    waitpid(child, &status, 0);
  }
  for (int i = 0; i < count_objects; i++) frames_c_free(objects[i].section);
  return wrong;
}
