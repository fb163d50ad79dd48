// profiler MILLISECONDS: a signal each half of a millisecond interrupts one of five threads in
// turn: one that runs within generated code, two that throw through it, one that registers and
// gives up without pause, and one that does either. In the first one's handler the stack is walked,
// and each walk reaches its first function, through the generated code. In the others' addresses
// are looked up in the midst of lookups and updates: libgcc's own walk can't begin in the midst of
// a throw.
#include "generated.h"
#include <atomic>
#include <cerrno>
#include <csignal>
#include <pthread.h>
#include <thread>
#include <unwind.h>
#include <vector>

enum { THREADS = 5, FRAMES = 256 };
static std::atomic<bool> stop;
static std::atomic<unsigned> ready;
static std::atomic<uint64_t> signals[THREADS], whole, through_code;
static pthread_t threads[THREADS];
static const Functions functions(1000);
static thread_local unsigned me;

struct Walk {
  unsigned frames = 0;
  bool saw_code = false, saw_bottom = false;
};

static uint64_t spin(uint64_t value) {
  for (int i = 0; i < 1000; i++) asm volatile("" : "+r"(value));
  return value + 1;
}

[[gnu::noinline]] static void bottom(unsigned number) {
  me = number;
  ready++;
  const Functions own(8);
  uint64_t state = 88172645463325252u + number, done = 0;
  for (; !stop; done++) {
    const size_t at = next(state) % functions.count;
    if (number == 0) check(functions.code(at)(spin, done) == done + 1, "another answer");
    const bool throws = number == 1 || number == 2 || (number == 4 && done % 2);
    if (throws) throw_through(functions.code(at), done);
    else if (number > 0) own.put(done % own.count), own.take(done % own.count);
  }
}

static _Unwind_Reason_Code on_frame(_Unwind_Context *context, void *of) {
  Walk *walk = static_cast<Walk *>(of);
  const uint64_t ip = _Unwind_GetIP(context), start = _Unwind_GetRegionStart(context);
  const uint64_t first = reinterpret_cast<uint64_t>(functions.address(0));
  walk->saw_code |= ip - first < functions.count * Functions::DISTANCE;
  walk->saw_bottom |= start == reinterpret_cast<uint64_t>(bottom);
  return ++walk->frames < FRAMES ? _URC_NO_REASON : _URC_END_OF_STACK;
}

static void on_signal(int) {
  const int error = errno;
  signals[me]++;
  if (me == 0) {
    Walk walk;
    _Unwind_Backtrace(on_frame, &walk);
    whole += walk.saw_bottom;
    through_code += walk.saw_code;
  } else {
    const size_t at = signals[me] * 7919 % functions.count;
    check(finds(functions.address(at) + 3, functions.section(at) + 24, functions.address(at)),
          "a lookup in a handler", long(at));
  }
  errno = error;
}

int main(int count, char **words) {
  const double time = (count > 1 ? std::strtod(words[1], nullptr) : 1000) / 1000;
  is_drop_in();
  functions.put_all();
  std::signal(SIGPROF, on_signal);
  std::vector<std::thread> running;
  for (unsigned i = 0; i < THREADS; i++) {
    running.emplace_back(bottom, i);
    threads[i] = running[i].native_handle();
  }
  while (ready < THREADS) std::this_thread::yield();
  for (double from = seconds(); seconds() < from + time;)
    for (pthread_t thread : threads) {
      pthread_kill(thread, SIGPROF);
      std::this_thread::sleep_for(std::chrono::microseconds(500));
    }
  stop = true;
  for (auto &thread : running) thread.join();
  check(whole == signals[0], "walks that weren't whole", long(signals[0] - whole));
  check(through_code > 0, "no walk went through generated code");
  for (auto &one : signals) check(one > 0, "a thread wasn't interrupted");
  std::printf("interrupted: %lu, %lu, %lu, %lu, %lu; all walks whole, %lu through generated code\n",
              signals[0].load(), signals[1].load(), signals[2].load(), signals[3].load(),
              signals[4].load(), through_code.load());
  functions.take_all();
}
