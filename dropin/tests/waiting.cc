// waiting forks | readable | jumps | real_time | large | back: what may wait for ever, or for long,
// in programs with handlers of their own. Each is right under libgcc 12 too, but `jumps` and
// `back`, which aren't asked of it.
#include "generated.h"
#include <atomic>
#include <csetjmp>
#include <csignal>
#include <pthread.h>
#include <sched.h>
#include <sys/wait.h>
#include <thread>
#include <unistd.h>

static std::atomic<bool> stop;

// ---- forks: handlers that take a lock within which others register, and that register ----
static pthread_mutex_t lock = PTHREAD_MUTEX_INITIALIZER;
static const Functions *of_handlers;
static void before_fork() {
  pthread_mutex_lock(&lock);
  of_handlers->put(0);
}
static void after_fork() {
  of_handlers->take(0);
  pthread_mutex_unlock(&lock);
}

static void forks() {
  const Functions mine(8), theirs(1);
  of_handlers = &theirs;
  pthread_atfork(before_fork, after_fork, after_fork);
  std::thread other([&] {
    for (uint64_t done = 0; !stop; done++) {
      pthread_mutex_lock(&lock);
      mine.put(done % mine.count);
      mine.take(done % mine.count);
      pthread_mutex_unlock(&lock);
    }
  });
  for (int i = 0; i < 100; i++) {
    alarm(5);
    pid_t child = fork();
    if (child == 0) _exit(0);
    int status = 1;
    waitpid(child, &status, 0);
    check(status == 0, "a child", status);
  }
  stop = true;
  other.join();
}

// ---- readable: a section that a handler makes readable ----
static uint8_t *hidden;
static void show(int) {
  if (mprotect(hidden, 8192, PROT_READ)) _exit(9);
}

static void readable() {
  const Functions functions(1);
  hidden = map(8192);
  Section writer(hidden);
  writer.cie();
  for (int i = 0; i < 200; i++) writer.fde(functions.address(0) + 64 * i);
  check(writer.end() > hidden + 4096, "the second page isn't reached");
  std::signal(SIGSEGV, show);
  check(mprotect(hidden, 8192, PROT_NONE) == 0, "mprotect");
  __register_frame(hidden);
  throw_through(functions.code(0), 3);
  __deregister_frame(hidden);
  // the second page alone
  check(mprotect(hidden + 4096, 4096, PROT_NONE) == 0, "mprotect");
  __register_frame(hidden);
  throw_through(functions.code(0), 4);
  __deregister_frame(hidden);
}

// ---- jumps: a handler leaves lookups by siglongjmp, more often than there are slots ----
static sigjmp_buf out;
static std::atomic<bool> is_looking;
static void jump(int) {
  if (is_looking) siglongjmp(out, 1);
}

static void jumps() {
  const Functions functions(1);
  functions.put_all();
  std::signal(SIGUSR1, jump);
  const pthread_t me = pthread_self();
  std::thread other([&] {
    while (!stop) {
      pthread_kill(me, SIGUSR1);
      std::this_thread::sleep_for(std::chrono::microseconds(50));
    }
  });
  for (volatile int left = 0; left < 3000; left = left + 1)
    if (sigsetjmp(out, 1) == 0) {
      is_looking = true;
      for (;;) check(finds(functions.address(0), functions.section(0) + 24, functions.address(0)),
                     "a lookup");
    } else {
      is_looking = false;
    }
  stop = true;
  other.join();
  for (int i = 0; i < 1000; i++) throw_through(functions.code(0), uint64_t(i));
  functions.take_all();
  check(finds(functions.address(0), nullptr, nullptr), "given up");
}

// ---- real_time: one of real-time priority looks up beside an ordinary one, on one processor ----
static void real_time() {
  const Functions functions(8);
  functions.put_all();
  cpu_set_t one;
  CPU_ZERO(&one);
  CPU_SET(0, &one);
  check(sched_setaffinity(0, sizeof one, &one) == 0, "one processor");
  const Functions other(8);
  std::thread churner([&] {
    for (uint64_t done = 0; !stop; done++) {
      other.put(done % other.count);
      other.take(done % other.count);
    }
  });
  sched_param priority = {};
  priority.sched_priority = 1;
  if (pthread_setschedparam(pthread_self(), SCHED_FIFO, &priority)) {
    std::printf("left out: no real-time priority is allowed\n");
    stop = true;
  }
  double longest = 0;
  for (int i = 0; i < 3000 && !stop; i++) {
    std::this_thread::sleep_for(std::chrono::microseconds(100));
    double from = seconds();
    for (int at = 0; at < 8; at++)
      check(finds(functions.address(at), functions.section(at) + 24, functions.address(at)), "one");
    const double took = seconds() - from;
    longest = took > longest ? took : longest;
  }
  stop = true;
  churner.join();
  std::printf("longest: %.2f ms\n", longest * 1e3);
  check(longest < 0.5, "a lookup starved who it waits for", long(longest * 1e3));
}

// ---- large: a signal within the registration of 200,000 FDEs isn't held back for long ----
static volatile double last_signal, longest_gap;
static void on_tick(int) {
  const double now = seconds(CLOCK_THREAD_CPUTIME_ID);
  if (now - last_signal > longest_gap) longest_gap = now - last_signal;
  last_signal = now;
}

static void large() {
  enum : size_t { MANY = 200000 };
  uint8_t *memory = map(MANY * 40 + 4096), *code = map(MANY * 64, PROT_NONE);
  Section writer(memory);
  writer.cie();
  uint8_t *fde = nullptr;
  for (size_t i = 0; i < MANY; i++) fde = writer.fde(code + 64 * i, 48);
  writer.end();
  std::signal(SIGVTALRM, on_tick);
  timer_t timer;
  sigevent event = {};
  event.sigev_notify = SIGEV_SIGNAL;
  event.sigev_signo = SIGVTALRM;
  check(timer_create(CLOCK_THREAD_CPUTIME_ID, &event, &timer) == 0, "timer_create");
  const itimerspec each = {{0, 1000000}, {0, 1000000}};
  last_signal = seconds(CLOCK_THREAD_CPUTIME_ID);
  timer_settime(timer, 0, &each, nullptr);
  __register_frame(memory);
  on_tick(0);
  timer_delete(timer);
  check(finds(code + 64 * (MANY - 1) + 5, fde, code + 64 * (MANY - 1)), "the last one");
  __deregister_frame(memory);
  std::printf("longest without a signal: %.1f ms\n", longest_gap * 1e3);
  check(longest_gap < 0.1, "signals were held back", long(longest_gap * 1e3));
}

// ---- back: registries that became empty are given back ----
static long anonymous() {
  char line[256];
  long kilobytes = -1;
  FILE *file = std::fopen("/proc/self/smaps_rollup", "r");
  while (file && std::fgets(line, sizeof line, file))
    std::sscanf(line, "Anonymous: %ld", &kilobytes);
  std::fclose(file);
  return kilobytes;
}

static void back() {
  const Functions functions(30000);
  functions.put(0);
  functions.take(0);
  const long before = anonymous();
  functions.put_all();
  const long with = anonymous();
  functions.take_all();
  functions.put(0);
  functions.take(0);
  const long after = anonymous();
  std::printf("%ld KB more with all, %ld KB when they are given up\n", with - before,
              after - before);
  check(after - before < (with - before) / 2, "is kept", after - before);
}

int main(int count, char **words) {
  static const struct {
    const char *name;
    void (*run)();
  } cases[] = {{"forks", forks}, {"readable", readable}, {"jumps", jumps},
               {"real_time", real_time}, {"large", large}, {"back", back}};
  is_drop_in();
  for (auto &one : cases)
    if (count > 1 && !std::strcmp(words[1], one.name)) return one.run(), 0;
  return 2;
}
