// static_program THROWS: a static program, whose whole section its start-up code registers. It
// throws through compiled and generated code, in one thread and in four, beside one that registers.
#include "generated.h"
#include <atomic>
#include <thread>
#include <vector>

static std::atomic<bool> stop;
static uint64_t compiled(Callee *callee, uint64_t value) { return callee(value) + 1; }

static void throw_on(const Functions &functions, uint64_t throws) {
  for (uint64_t i = 0; i < throws; i++) {
    throw_through(compiled, i);
    throw_through(functions.code(i % functions.count), i);
  }
}

int main(int count, char **words) {
  const uint64_t throws = count > 1 ? std::strtoul(words[1], nullptr, 10) : 10000;
  const Functions functions(100), own(10);
  auto *here = reinterpret_cast<uint8_t *>(throw_on);
  dwarf_eh_bases bases = {};
  check(_Unwind_Find_FDE(here + 1, &bases) != nullptr && bases.func == here, "its own function");
  functions.put_all();
  double from = seconds();
  throw_on(functions, throws);
  double took = seconds() - from;
  std::vector<std::thread> running;
  for (int i = 0; i < 4; i++) running.emplace_back([&] { throw_on(functions, throws / 4); });
  std::thread churner([&] {
    for (uint64_t done = 0; !stop; done++) own.put(done % own.count), own.take(done % own.count);
  });
  for (auto &thread : running) thread.join();
  stop = true;
  churner.join();
  functions.take_all();
  std::printf("static: %.0f throws/s\n", 2 * double(throws) / took);
}
