// moves ROUNDS: each round registers sections at another distance from their code, so that they go
// into a library of their own, and then 6,000 more at that distance, so that it is moved into
// larger ones. Meanwhile two threads throw through those that stand, and one looks them up: each is
// found at every moment. Then all are given up.
#include "generated.h"
#include <atomic>
#include <memory>
#include <thread>
#include <vector>

enum : size_t { STANDING = 60, OTHERS = 6000, SECTION = 96, THREADS = 3, DISTANCES = 5 };

static const Functions functions(STANDING * DISTANCES);
static uint8_t *const other_code = map(OTHERS * Functions::DISTANCE, PROT_NONE);
static std::atomic<bool> stop;
static std::atomic<size_t> round_now, reached[THREADS];
static std::atomic<uint64_t> done;

// Sections of one distance: those of functions, and those of addresses of which nothing is called.
struct Sections {
  uint8_t *memory, *fdes[STANDING + OTHERS];
  size_t first;

  explicit Sections(size_t distance) : first(distance * STANDING) {
    const size_t size = (STANDING + OTHERS) * SECTION;
    void *place = other_code - (uint64_t(distance + 1) << 34);
    memory = static_cast<uint8_t *>(mmap(place, size, PROT_READ | PROT_WRITE,
                                         MAP_PRIVATE | MAP_ANONYMOUS | MAP_FIXED_NOREPLACE, -1, 0));
    check(memory == place, "no memory there");
    for (size_t i = 0; i < STANDING + OTHERS; i++) {
      Section writer(at(i));
      writer.cie({1, "", 0});
      fdes[i] = writer.fde(i < STANDING ? functions.address(first + i)
                                        : other_code + (i - STANDING) * Functions::DISTANCE);
      writer.end();
    }
  }
  uint8_t *at(size_t i) { return memory + i * SECTION; }
};

static std::vector<std::unique_ptr<Sections>> sections;

static void look_on(size_t me, bool is_thrower) {
  for (uint64_t number = 0; !stop; number++) {
    const size_t now = round_now, distance = now % DISTANCES, i = number * 7 % STANDING;
    reached[me] = now;
    Sections &those = *sections[distance];
    if (is_thrower) throw_through(functions.code(those.first + i), number);
    else {
      uint8_t *address = functions.address(those.first + i);
      check(finds(address + 5, those.fdes[i], address), "one that stands", long(i));
    }
    done++;
  }
}

static void put_standing(size_t round) {
  Sections &those = *sections[round % DISTANCES];
  for (size_t i = 0; i < STANDING; i++) __register_frame(those.at(i));
}

static void run(size_t round) {
  Sections &those = *sections[round % DISTANCES];
  for (size_t i = STANDING; i < STANDING + OTHERS; i++) __register_frame(those.at(i));
  for (size_t i = STANDING; i < STANDING + OTHERS; i++) __deregister_frame(those.at(i));
  put_standing(round + 1);
  round_now = round + 1;
  for (auto &one : reached)
    while (one < round + 1) std::this_thread::yield();
  for (size_t i = 0; i < STANDING; i++) __deregister_frame(those.at(i));
  check(finds(functions.address(those.first), nullptr, nullptr), "given up", long(round));
}

int main(int count, char **words) {
  const size_t rounds = count > 1 ? std::strtoul(words[1], nullptr, 10) : 50;
  is_drop_in();
  for (size_t distance = 0; distance < DISTANCES; distance++)
    sections.push_back(std::make_unique<Sections>(distance));
  put_standing(0);
  std::vector<std::thread> threads;
  for (size_t i = 0; i < THREADS; i++) threads.emplace_back(look_on, i, i > 0);
  for (size_t round = 0; round < rounds; round++) run(round);
  stop = true;
  for (auto &thread : threads) thread.join();
  for (size_t i = 0; i < STANDING; i++) __deregister_frame(sections[rounds % DISTANCES]->at(i));
  std::printf("%zu rounds beside %lu throws and lookups\n", rounds, done.load());
}
