/* lua_states FILE ERRORS: four threads, each with a LuaJIT state of its own, run a script with so
 * many errors, beside each other: each has its own compiled code, which comes and goes. */
#include <lauxlib.h>
#include <lualib.h>
#include <pthread.h>
#include <stdio.h>

enum { THREADS = 4 };
static char **words;
static int failed;

static void *run(void *nothing) {
  lua_State *state = luaL_newstate();
  luaL_openlibs(state);
  lua_newtable(state);
  lua_pushstring(state, words[2]);
  lua_rawseti(state, -2, 1);
  lua_setglobal(state, "arg");
  if (luaL_dofile(state, words[1])) {
    fprintf(stderr, "WRONG: %s\n", lua_tostring(state, -1));
    __atomic_store_n(&failed, 1, __ATOMIC_RELAXED);
  }
  lua_close(state);
  return nothing;
}

int main(int count, char **given) {
  pthread_t threads[THREADS];
  words = given;
  if (count < 3) return 2;
  for (int i = 0; i < THREADS; i++)
    if (pthread_create(&threads[i], NULL, run, NULL)) return 3;
  for (int i = 0; i < THREADS; i++) pthread_join(threads[i], NULL);
  return failed;
}
