/* Programs over LLVM's libunwind: its unwinder never asks this registry, so what is registered goes
 * on to it where its names are next, as they would be the program's without the preload. */
#define _GNU_SOURCE
#include "dropin.h"
#include <dlfcn.h>

#ifdef WITHOUT_LIBRARIES /* a static program has one unwinder */
bool hand_on(const char *name, const void *begin, void *ob, void *text, void *data, void **answer) {
  (void)name, (void)begin, (void)ob, (void)text, (void)data, (void)answer;
  return false;
}
#else
/* The next library's that has the name, if it also has one that libunwind alone has. */
static bool is_libunwind_next(void) {
  Dl_info names, its_own;
  const void *next = dlsym(RTLD_NEXT, "__register_frame");
  const void *own = next != NULL ? dlsym(RTLD_NEXT, "__unw_add_dynamic_fde") : NULL;
  return own != NULL && dladdr(next, &names) != 0 && dladdr(own, &its_own) != 0 &&
         names.dli_fbase == its_own.dli_fbase;
}

/* Whether it took a registration, or what gives one up: who takes fewer words passes over the
 * others, and who has no answer leaves one that isn't asked for. */
bool hand_on(const char *name, const void *begin, void *ob, void *text, void *data, void **answer) {
  static _Atomic int is_next; /* 0: isn't known */
  if (atomic_load(&is_next) == 0) atomic_store(&is_next, is_libunwind_next() ? 1 : -1);
  if (atomic_load(&is_next) < 0) return false;
  void *(*next)(const void *, void *, void *, void *);
  *(void **)&next = dlsym(RTLD_NEXT, name);
  if (next == NULL) return false;
  *answer = next(begin, ob, text, data);
  return true;
}
#endif
