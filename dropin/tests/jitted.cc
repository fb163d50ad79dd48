// jitted THROWS: a program for LLVM's lli, which compiles it while it runs: two threads throw
// through ten frames, so often, and count every value and destructor. It knows nothing of a
// registry.
#include <cstdio>
#include <cstdlib>
#include <thread>

struct Thrown {
  unsigned long value;
};

struct Counted {
  unsigned long *count;
  ~Counted() { ++*count; }
};

__attribute__((noinline)) static unsigned long go_down(int depth, unsigned long value,
                                                       unsigned long *count) {
  Counted here = {count};
  if (depth == 1) throw Thrown{value};
  return go_down(depth - 1, value, count) + 1;
}

static void throw_often(unsigned long throws) {
  for (unsigned long i = 0; i < throws; i++) {
    unsigned long count = 0, got = ~0ul;
    try {
      go_down(10, i, &count);
    } catch (const Thrown &thrown) {
      got = thrown.value;
    }
    if (got != i || count != 10) {
      std::printf("WRONG: %lu caught for %lu, %lu destructors\n", got, i, count);
      std::exit(1);
    }
  }
}

int main(int count, char **words) {
  unsigned long throws = count > 1 ? std::strtoul(words[1], nullptr, 10) : 2000;
  std::thread other(throw_often, throws);
  throw_often(throws);
  other.join();
  std::printf("%lu throws are right\n", 2 * throws);
}
