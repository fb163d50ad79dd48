// other_unwinder: a program over LLVM's libunwind, which takes FDEs one by one, throws through
// generated code that it registered.
#include "generated.h"
#include <unwind.h>

int main() {
  Dl_info info = {};
  check(dladdr(dlsym(RTLD_DEFAULT, "_Unwind_RaiseException"), &info) != 0 &&
            std::strstr(info.dli_fname, "libunwind"), "another unwinder");
  const Functions functions(20);
  for (int turn = 0; turn < 2; turn++) {
    for (size_t i = 0; i < functions.count; i++) __register_frame(functions.section(i) + 24);
    for (size_t i = 0; i < functions.count; i++) throw_through(functions.code(i), i);
    for (size_t i = 0; i < functions.count; i++) __deregister_frame(functions.section(i) + 24);
  }
}
