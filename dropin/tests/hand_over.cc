// hand_over MILLISECONDS: a thread hands the same addresses from one section to another and on, of
// three, each registered before the one before it is given up; so at each moment one stands, and
// sometimes two. Two threads look the addresses up, and one throws through them: one of the
// sections' FDEs is found each time. Another section over the same addresses comes and goes without
// an order.
#include "generated.h"
#include <atomic>
#include <thread>
#include <vector>

enum { SECTIONS = 4, LOOKERS = 2 };
static const Functions functions(1);
static std::atomic<bool> stop;
static std::atomic<uint64_t> lookups;
static uint8_t *begins[SECTIONS], *fdes[SECTIONS];

static void look() {
  uint64_t done = 0;
  for (; !stop; done++) {
    dwarf_eh_bases bases = {};
    const void *fde = _Unwind_Find_FDE(functions.address(0) + done % sizeof code_bytes, &bases);
    bool is_one = false;
    for (uint8_t *each : fdes) is_one |= each == fde;
    check(is_one && bases.func == functions.address(0), "one of them stands at each moment");
  }
  lookups += done;
}

int main(int count, char **words) {
  const double time = (count > 1 ? std::strtod(words[1], nullptr) : 1000) / 1000;
  is_drop_in();
  uint8_t *memory = map(4096 * SECTIONS);
  for (int i = 0; i < SECTIONS; i++) {
    Section section(begins[i] = memory + 4096 * i);
    section.cie();
    fdes[i] = section.fde(functions.address(0));
    section.end();
  }
  __register_frame(begins[0]);
  std::vector<std::thread> threads;
  for (int i = 0; i < LOOKERS; i++) threads.emplace_back(look);
  threads.emplace_back([] {
    for (uint64_t done = 0; !stop; done++) throw_through(functions.code(0), done);
  });
  threads.emplace_back([] {
    while (!stop) {
      __register_frame(begins[3]);
      __deregister_frame(begins[3]);
    }
  });
  int at = 0;
  uint64_t turns = 0;
  for (double from = seconds(); seconds() < from + time; turns++) {
    const int next = (at + 1) % 3;
    __register_frame(begins[next]);
    __deregister_frame(begins[at]);
    at = next;
  }
  stop = true;
  for (auto &thread : threads) thread.join();
  __deregister_frame(begins[at]);
  check(finds(functions.address(0), nullptr, nullptr), "all are given up");
  std::printf("handed over %lu times beside %lu lookups\n", turns, lookups.load());
}
