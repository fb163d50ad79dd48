// A library that registers a section and throws through it in a constructor that comes before most
// others, and again in its destructor, where it gives up what it registered.
#include "generated.h"
#include <unistd.h>

static const Functions *functions;

static void say(const char *what) {
  if (write(STDOUT_FILENO, what, std::strlen(what)) < 0) _exit(1);
}

__attribute__((constructor(101))) static void early() {
  functions = new Functions(10);
  functions->put_all();
  for (size_t i = 0; i < functions->count; i++) throw_through(functions->code(i), i);
  say("early\n");
}

__attribute__((destructor(101))) static void late() {
  for (size_t i = 0; i < functions->count; i++) throw_through(functions->code(i), i);
  functions->take_all();
  check(finds(functions->address(0), nullptr, nullptr), "given up late");
  say("late\n");
}
