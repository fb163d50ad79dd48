// modules TURNS: four threads, each with a compiler of LLVM's ORC, add a module of a function,
// throw through it and remove it, so often.
#include "generated.h"
#include <llvm-c/Core.h>
#include <llvm-c/IRReader.h>
#include <llvm-c/LLJIT.h>
#include <llvm-c/Target.h>
#include <thread>
#include <vector>

enum { THREADS = 4 };

static const char text[] = "define i64 @code(i64 (i64)* %callee, i64 %value) uwtable {\n"
                           "  %answer = call i64 %callee(i64 %value)\n"
                           "  %more = add i64 %answer, 1\n"
                           "  ret i64 %more\n"
                           "}\n";

static void is_done(LLVMErrorRef error) {
  if (error) fail(LLVMGetErrorMessage(error));
}

static LLVMOrcThreadSafeModuleRef read_module() {
  LLVMOrcThreadSafeContextRef context = LLVMOrcCreateNewThreadSafeContext();
  LLVMMemoryBufferRef bytes =
      LLVMCreateMemoryBufferWithMemoryRange(text, sizeof text - 1, "code", true);
  LLVMModuleRef module;
  char *message = nullptr;
  if (LLVMParseIRInContext(LLVMOrcThreadSafeContextGetContext(context), bytes, &module, &message))
    fail(message);
  LLVMOrcThreadSafeModuleRef safe = LLVMOrcCreateNewThreadSafeModule(module, context);
  LLVMOrcDisposeThreadSafeContext(context);
  return safe;
}

static void run(int turns) {
  LLVMOrcLLJITRef compiler;
  is_done(LLVMOrcCreateLLJIT(&compiler, nullptr));
  LLVMOrcJITDylibRef library = LLVMOrcLLJITGetMainJITDylib(compiler);
  for (int turn = 0; turn < turns; turn++) {
    LLVMOrcResourceTrackerRef tracker = LLVMOrcJITDylibCreateResourceTracker(library);
    LLVMOrcJITTargetAddress address;
    is_done(LLVMOrcLLJITAddLLVMIRModuleWithRT(compiler, tracker, read_module()));
    is_done(LLVMOrcLLJITLookup(compiler, &address, "code"));
    auto *code = reinterpret_cast<Code *>(address);
    for (int i = 0; i < 5; i++) throw_through(code, uint64_t(turn + i));
    is_done(LLVMOrcResourceTrackerRemove(tracker));
    LLVMOrcReleaseResourceTracker(tracker);
  }
  is_done(LLVMOrcDisposeLLJIT(compiler));
}

int main(int count, char **words) {
  const int turns = count > 1 ? std::atoi(words[1]) : 50;
  is_drop_in();
  LLVMInitializeNativeTarget();
  LLVMInitializeNativeAsmPrinter();
  std::vector<std::thread> threads;
  for (int i = 0; i < THREADS; i++) threads.emplace_back(run, turns);
  for (auto &thread : threads) thread.join();
  std::printf("%d modules in each of %d threads\n", turns, int(THREADS));
}
