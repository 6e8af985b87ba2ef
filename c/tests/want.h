/* What a test of the C library wants; each wish that does not hold is a line on standard output. */
#include "port1.h"
#include <stdio.h>
#include <string.h>

#define LIMIT ((uint64_t)1 << 60)

static int wrong;

#define WANT(holds)                                                                                                  \
    do {                                                                                                             \
        if (!(holds)) {                                                                                              \
            wrong = 1;                                                                                               \
            printf("line %d: not so: %s\n", __LINE__, #holds);                                                       \
        }                                                                                                            \
    } while (0)
