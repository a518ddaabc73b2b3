/* What the C hosts of ./check-tools share: a check that ends the host if it does not hold. */
#ifndef REQUIRE_H
#define REQUIRE_H

#include <stdio.h>
#include <stdlib.h>

static void require(int holds, const char *what)
{
    if (!holds) {
        fprintf(stderr, "does not hold: %s\n", what);
        exit(1);
    }
}

#define REQUIRE(holds) require((holds) != 0, #holds)

#endif
