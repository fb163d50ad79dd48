// costs pair SECTIONS PAIRS: what it takes to register one more small section, and to give it up,
// beside so many that were looked up already. costs memory SECTIONS: how many bytes so many take.
#include "generated.h"

static void pair(size_t sections, size_t pairs) {
  const Functions functions(sections), others(64);
  functions.put_all();
  if (sections > 0) throw_through(functions.code(0), 1);
  double put = 0, take = 0, before = seconds(CLOCK_THREAD_CPUTIME_ID);
  for (size_t done = 0; done < pairs; done += others.count) {
    others.put_all();
    double between = seconds(CLOCK_THREAD_CPUTIME_ID);
    put += between - before;
    others.take_all();
    before = seconds(CLOCK_THREAD_CPUTIME_ID);
    take += before - between;
  }
  functions.take_all();
  std::printf("pair among %zu: %.3f + %.3f us\n", sections, put / double(pairs) * 1e6,
              take / double(pairs) * 1e6);
}

// Pages of its own that the process has written.
static long anonymous() {
  char line[256];
  long kilobytes = -1;
  FILE *file = std::fopen("/proc/self/smaps_rollup", "r");
  check(file != nullptr, "smaps_rollup");
  while (std::fgets(line, sizeof line, file)) std::sscanf(line, "Anonymous: %ld", &kilobytes);
  std::fclose(file);
  return kilobytes;
}

static void memory(size_t sections) {
  const Functions functions(sections);
  const long before = anonymous();
  functions.put_all();
  std::printf("memory of %zu: %ld KB\n", sections, anonymous() - before);
}

int main(int count, char **words) {
  is_drop_in();
  if (count > 3 && !std::strcmp(words[1], "pair"))
    pair(std::strtoul(words[2], nullptr, 10), std::strtoul(words[3], nullptr, 10));
  else if (count > 2 && !std::strcmp(words[1], "memory"))
    memory(std::strtoul(words[2], nullptr, 10));
  else return 2;
}
