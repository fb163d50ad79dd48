// early: a program over early_library, which throws in main and while it ends.
#include "generated.h"
#include <unistd.h>

static const Functions functions(3);

static void at_exit() {
  throw_through(functions.code(0), 7);
  functions.take_all();
  if (write(STDOUT_FILENO, "exit\n", 5) < 0) _exit(1);
}

int main() {
  is_drop_in();
  functions.put_all();
  throw_through(functions.code(1), 8);
  std::atexit(at_exit);
  if (write(STDOUT_FILENO, "main\n", 5) < 0) _exit(1);
}
