// throws SECTIONS THREADS MILLISECONDS [churn | pause | own]: so many sections are registered, and
// so many threads throw through random ones of them for so long. `churn`: beside a thread that
// registers and gives up a section without pause; `pause`: one that sleeps 50 microseconds in
// between; `own`: each throw goes through a section that its thread registers before and gives up
// after it. With 0 sections the throws go through compiled code alone. Prints throws a second, and
// what processor time one took.
#include "generated.h"
#include <atomic>
#include <thread>
#include <vector>

static uint64_t compiled(Callee *callee, uint64_t value) { return callee(value); }

enum class Beside { NOTHING, CHURN, PAUSE, OWN };

struct Course {
  size_t sections, threads;
  double time;
  Beside beside;
};

static std::atomic<bool> stop;
static std::atomic<uint64_t> throws_done, nanoseconds, pairs;

static void churn(const Functions &functions, bool pauses) {
  uint64_t done = 0;
  for (; !stop; done++) {
    functions.put(done % functions.count);
    functions.take(done % functions.count);
    if (pauses) std::this_thread::sleep_for(std::chrono::microseconds(50));
  }
  pairs += done;
}

static void throw_on(const Functions &functions, const Functions &own, bool registers,
                     uint64_t state) {
  double from = seconds(CLOCK_THREAD_CPUTIME_ID);
  uint64_t done = 0;
  for (; !stop; done++) {
    uint64_t number = next(state) >> 8;
    if (registers) own.put(0);
    throw_through(functions.count ? functions.code(number % functions.count) : compiled, number);
    if (registers) throw_through(own.code(0), number), own.take(0);
  }
  throws_done += registers ? 2 * done : done;
  nanoseconds += uint64_t((seconds(CLOCK_THREAD_CPUTIME_ID) - from) * 1e9);
}

static double run(const Course &course, const Functions &functions) {
  std::vector<std::thread> threads;
  std::vector<Functions> own;
  const Functions other(64);
  for (size_t i = 0; i < course.threads; i++) own.emplace_back(1);
  double from = seconds();
  for (size_t i = 0; i < course.threads; i++)
    threads.emplace_back([&, i] {
      throw_on(functions, own[i], course.beside == Beside::OWN, 88172645463325252u + i);
    });
  if (course.beside == Beside::CHURN || course.beside == Beside::PAUSE)
    threads.emplace_back([&] { churn(other, course.beside == Beside::PAUSE); });
  while (seconds() < from + course.time)
    std::this_thread::sleep_for(std::chrono::milliseconds(5));
  stop = true;
  for (auto &thread : threads) thread.join();
  return seconds() - from;
}

int main(int count, char **words) {
  if (count < 4) return 2;
  Course course = {std::strtoul(words[1], nullptr, 10), std::strtoul(words[2], nullptr, 10),
                   std::strtod(words[3], nullptr) / 1000, Beside::NOTHING};
  const char *beside = count > 4 ? words[4] : "";
  if (!std::strcmp(beside, "churn")) course.beside = Beside::CHURN;
  if (!std::strcmp(beside, "pause")) course.beside = Beside::PAUSE;
  if (!std::strcmp(beside, "own")) course.beside = Beside::OWN;
  is_drop_in();
  const Functions functions(course.sections);
  functions.put_all();
  // libgcc sorts at the first lookup
  if (course.sections > 0) throw_through(functions.code(0), 0);
  double took = run(course, functions);
  functions.take_all();
  std::printf("sections %zu threads %zu %s: %.0f throws/s, %.2f us of processor each, ",
              course.sections, course.threads, beside, double(throws_done) / took,
              double(nanoseconds) / 1e3 / double(throws_done));
  std::printf("%.0f pairs/s\n", double(pairs) / took);
}
