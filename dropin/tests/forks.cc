// forks CHILDREN: a thread that throws forks so many children, beside two threads that throw and
// one that registers and gives up without pause. Each child throws, starts a thread that throws,
// registers and gives up; one that doesn't end within two seconds hangs. Prints how many hang.
#include "generated.h"
#include <atomic>
#include <csignal>
#include <sys/wait.h>
#include <thread>
#include <unistd.h>
#include <vector>

static std::atomic<bool> stop;
static const Functions functions(500), own(16);

static void throw_on(uint64_t state, uint64_t least) {
  for (uint64_t done = 0; done < least || (least == 0 && !stop); done++)
    throw_through(functions.code(next(state) % functions.count), done);
}

static void churn() {
  for (uint64_t done = 0; !stop; done++) {
    own.put(done % own.count);
    own.take(done % own.count);
  }
}

static void be_child() {
  alarm(2);
  const Functions mine(200);
  throw_on(88172645463325252u, 20);
  std::thread(throw_on, 2, 20).join();
  mine.put_all();
  for (size_t i = 0; i < mine.count; i++) throw_through(mine.code(i), i);
  mine.take_all();
  check(finds(mine.address(0), nullptr, nullptr), "given up in a child");
  // one of its own, from a thread that isn't the first
  std::thread([] {
    pid_t child = fork();
    if (child == 0) {
      alarm(2);
      throw_on(3, 20);
      _exit(0);
    }
    int status = 1;
    waitpid(child, &status, 0);
    check(status == 0, "a child's child", status);
  }).join();
  _exit(0);
}

int main(int count, char **words) {
  const int children = count > 1 ? std::atoi(words[1]) : 100;
  is_drop_in();
  functions.put_all();
  std::vector<std::thread> running;
  running.emplace_back(throw_on, 11, 0);
  running.emplace_back(throw_on, 12, 0);
  running.emplace_back(churn);
  int hang = 0, wrong = 0;
  for (int i = 0; i < children; i++) {
    throw_on(100 + i, 3);
    pid_t child = fork();
    if (child == 0) be_child();
    int status = 1;
    waitpid(child, &status, 0);
    if (WIFSIGNALED(status) && WTERMSIG(status) == SIGALRM) hang++;
    else wrong += status != 0;
  }
  stop = true;
  for (auto &thread : running) thread.join();
  functions.take_all();
  std::printf("%d children: %d hang, %d wrong\n", children, hang, wrong);
  return hang + wrong != 0;
}
