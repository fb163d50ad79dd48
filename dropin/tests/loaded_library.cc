// A library that loaded.cc loads: a function that calls back, whose own destructor is counted.
#include <cstdint>

static int *counted;
struct Counted {
  ~Counted() { ++*counted; }
};

extern "C" uint64_t call_back(uint64_t (*callee)(uint64_t), uint64_t value, int *count) {
  counted = count;
  Counted here;
  return callee(value) + 1;
}
