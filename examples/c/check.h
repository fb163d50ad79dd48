/* CHECK, by which a function says which line isn't so, and ends with NOT_SO. */
#ifndef CHECK_H
#define CHECK_H

#include <stdio.h>

/* Where its functions answer otherwise, a program says so before it includes this. */
#ifndef NOT_SO
#define NOT_SO 1
#endif

#define CHECK(holds)                                          \
  do {                                                        \
    if (!(holds)) {                                           \
      printf("%s:%d: %s\n", __FILE__, __LINE__, #holds);      \
      return NOT_SO;                                            \
    }                                                         \
  } while (0)

#endif
