// python THROWS: a Python interpreter in the program, by pybind11. In each of four threads so many
// C++ exceptions go through generated code to a Python function that catches them, and so many
// Python exceptions go through it to C++.
#include "generated.h"
#include <pybind11/embed.h>
#include <stdexcept>
#include <string>
#include <thread>
#include <vector>

namespace py = pybind11;

static const Functions *functions;
static const py::function *raises_key_error;

static uint64_t throws_number(uint64_t number) {
  Counted counted;
  throw std::invalid_argument(std::to_string(number));
}

static uint64_t asks_python(uint64_t number) {
  Counted counted;
  return (*raises_key_error)(number).cast<uint64_t>();
}

static uint64_t through(Callee *callee, uint64_t number) {
  return functions->code(number % functions->count)(callee, number);
}

PYBIND11_EMBEDDED_MODULE(generated, module) {
  module.def("through", [](uint64_t number) { return through(throws_number, number); });
}

static const char *const source = R"(
import generated

def raises_key_error(number):
    raise KeyError(number)

def catches(first, throws):
    caught = 0
    for number in range(first, first + throws):
        try:
            generated.through(number)
        except ValueError as error:
            caught += str(error) == str(number)
    return caught
)";

static void run(const py::function &catches, uint64_t first, uint64_t throws) {
  py::gil_scoped_acquire lock;
  check(catches(first, throws).cast<uint64_t>() == throws, "not each was caught in Python");
  for (uint64_t number = first; number < first + throws; number++) {
    try {
      through(asks_python, number);
      fail("nothing was thrown");
    } catch (const py::error_already_set &error) {
      check(error.matches(PyExc_KeyError), "another exception");
      const py::tuple words = error.value().attr("args");
      check(words[0].cast<uint64_t>() == number, "another number");
    }
  }
  check(destroyed == 2 * throws, "not every destructor ran", long(destroyed));
}

int main(int count, char **words) {
  if (count < 2) return 2;
  is_drop_in();
  const uint64_t throws = std::strtoul(words[1], nullptr, 10);
  const Functions generated(100);
  functions = &generated;
  generated.put_all();
  py::scoped_interpreter interpreter;
  py::dict names;
  py::exec(source, names);
  const py::function raises = names["raises_key_error"], catches = names["catches"];
  raises_key_error = &raises;
  {
    py::gil_scoped_release open;
    std::vector<std::thread> threads;
    for (uint64_t i = 0; i < 4; i++)
      threads.emplace_back([&, i] { run(catches, i * throws, throws); });
    for (auto &thread : threads) thread.join();
  }
  generated.take_all();
  std::printf("python: %zu throws in four threads\n", size_t(8 * throws));
}
