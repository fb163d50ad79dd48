// many_threads THREADS: so many threads, a hundred at a time, with one throw each through a
// registered section. Memory doesn't grow by them.
#include "generated.h"
#include <thread>
#include <unistd.h>
#include <vector>

enum { AT_A_TIME = 100, WARM = 3 * AT_A_TIME, MAY_GROW = 2 << 20 };

static long resident() {
  long all = 0, pages = 0;
  FILE *file = std::fopen("/proc/self/statm", "r");
  check(file && std::fscanf(file, "%ld %ld", &all, &pages) == 2, "statm");
  std::fclose(file);
  return pages * sysconf(_SC_PAGESIZE);
}

int main(int count, char **words) {
  const int threads = count > 1 ? std::atoi(words[1]) : 4000;
  const Functions functions(1000);
  is_drop_in();
  functions.put_all();
  long warm = 0;
  for (int done = 0; done < threads; done += AT_A_TIME) {
    std::vector<std::thread> running;
    for (int i = 0; i < AT_A_TIME; i++)
      running.emplace_back([&functions, number = done + i] {
        throw_through(functions.code(size_t(number) * 7919 % functions.count), uint64_t(number));
      });
    for (auto &thread : running) thread.join();
    if (done == WARM) warm = resident();
  }
  const long grown = resident() - warm;
  functions.take_all();
  std::printf("%d threads, %ld KB more at the end\n", threads, grown / 1024);
  check(grown < MAY_GROW, "memory grew", grown);
}
