// no_memory: registers sections while so little address space is left that memory runs out in the
// midst, in a child for each of many limits. Those that are registered are found, the others are
// not, none is lost while memory runs out, and all goes on when there is memory again.
#include "generated.h"
#include <sys/resource.h>
#include <sys/wait.h>
#include <unistd.h>
#include <vector>

enum : size_t { MANY = 2500, TRIED_IN_VAIN = 3 };
static const Functions functions(MANY);

static bool is_there(size_t i) {
  return finds(functions.address(i), functions.section(i) + 24, functions.address(i));
}

static void all_are(const std::vector<bool> &stands, const char *what) {
  for (size_t i = 0; i < MANY; i++)
    check(stands[i] ? is_there(i) : finds(functions.address(i), nullptr, nullptr), what, long(i));
}

static void run(long more) {
  rlimit before;
  long pages = 0;
  std::vector<bool> stands(MANY);
  FILE *file = std::fopen("/proc/self/statm", "r");
  check(file && std::fscanf(file, "%ld", &pages) == 1, "statm");
  std::fclose(file);
  getrlimit(RLIMIT_AS, &before);
  const rlimit little = {rlim_t(pages * 4096 + more), before.rlim_max};
  check(setrlimit(RLIMIT_AS, &little) == 0, "setrlimit");
  size_t count = 0, in_vain = 0;
  for (size_t i = 0; i < MANY && in_vain < TRIED_IN_VAIN; i++) {
    functions.put(i);
    stands[i] = is_there(i);
    count += stands[i];
    in_vain += !stands[i];
  }
  all_are(stands, "while there is no memory");
  setrlimit(RLIMIT_AS, &before);
  for (size_t i = 0; i < MANY; i++)
    if (!stands[i]) functions.put(i);
  all_are(std::vector<bool>(MANY, true), "with memory again");
  functions.take_all();
  all_are(std::vector<bool>(MANY), "given up");
  std::printf("%ld bytes more: %zu registered, %zu in vain\n", more, count, in_vain);
  std::fflush(stdout);
}

int main() {
  if (!is_drop_in()) return 0;
  size_t right = 0, limits = 0;
  for (long more = 0; more < 3 << 20; more += more < 200000 ? 20480 : 400000, limits++) {
    pid_t child = fork();
    if (child == 0) {
      run(more);
      _exit(0);
    }
    int status = 1;
    waitpid(child, &status, 0);
    right += status == 0;
  }
  std::printf("%zu of %zu limits are right\n", right, limits);
  return right != limits;
}
