#include "require.h"

#include <stdio.h>
#include <stdlib.h>

void require(int holds, const char *what) {
    if (!holds) {
        fprintf(stderr, "fuzz: not so: %s\n", what);
        abort();
    }
}
