// loaded FOLDER TURNS: loads FOLDER/loaded_library.so, throws across its callback, and unloads it,
// so many times, beside a thread that throws through registered sections and one that registers and
// gives up. Each second time its header says that it has no sorted table. The address of the
// library's function has no FDE when it is unloaded.
#include "generated.h"
#include <atomic>
#include <string>
#include <thread>

static std::atomic<bool> stop;
static const Functions functions(200), own(16);

static uint64_t thrower(uint64_t value) {
  Counted counted;
  throw_through(functions.code(value % functions.count), value);
  throw Thrown{value};
}

// Says in the header of an object's table that there is no table.
static void take_table_away(void *inside) {
  dl_find_object object;
  check(_dl_find_object(inside, &object) == 0, "its header");
  auto *header = static_cast<uint8_t *>(object.dlfo_eh_frame);
  auto *page = header - reinterpret_cast<uint64_t>(header) % 4096;
  check(mprotect(page, 4096, PROT_READ | PROT_WRITE) == 0, "mprotect");
  header[2] = header[3] = 0xff;
}

int main(int count, char **words) {
  if (count < 3) return 2;
  const std::string path = std::string(words[1]) + "/loaded_library.so";
  const int turns = std::atoi(words[2]);
  is_drop_in();
  functions.put_all();
  std::thread thrower_thread([] {
    for (uint64_t done = 0; !stop; done++)
      throw_through(functions.code(done % functions.count), done);
  });
  std::thread churner([] {
    for (uint64_t done = 0; !stop; done++) own.put(done % own.count), own.take(done % own.count);
  });
  for (int turn = 0; turn < turns; turn++) {
    void *library = dlopen(path.c_str(), RTLD_NOW);
    check(library != nullptr, "dlopen", turn);
    auto *call_back = reinterpret_cast<uint64_t (*)(Callee *, uint64_t, int *)>(
        dlsym(library, "call_back"));
    if (turn % 2) take_table_away(reinterpret_cast<void *>(call_back));
    int counted = 0;
    uint64_t got = ~uint64_t(0), before = destroyed;
    try {
      call_back(thrower, uint64_t(turn), &counted);
    } catch (const Thrown &thrown) {
      got = thrown.value;
    }
    check(got == uint64_t(turn), "another value", turn);
    check(counted == 1 && destroyed - before == 1 + DEPTH, "not every destructor ran", turn);
    dlclose(library);
    check(finds(reinterpret_cast<void *>(call_back), nullptr, nullptr), "it was unloaded", turn);
  }
  stop = true;
  thrower_thread.join();
  churner.join();
  functions.take_all();
  std::printf("%d times loaded and unloaded\n", turns);
}
