/* HOLD ends the program where something isn't so, and says which line. */
#ifndef HOLD_H
#define HOLD_H

#include <stdio.h>
#include <stdlib.h>

#define HOLD(holds)                                               \
  do {                                                            \
    if (!(holds)) {                                               \
      fprintf(stderr, "%s:%d: %s\n", __FILE__, __LINE__, #holds); \
      abort();                                                    \
    }                                                             \
  } while (0)

/* How many times as long a call may take, in a build that checks more. */
#ifndef SLOWER
#define SLOWER 1
#endif

#endif
