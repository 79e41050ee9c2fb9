/* The small test of `make check`: a call of each result type and list of parameters, and the calls by structs beside the plain ones. The
 * whole test is bind/c/test.c of the repository. A line for each wrong answer, and then status 1. */
#include <stdio.h>

#include "planes.h"
#include "results.h"

static int wrong;

static void check(bool holds, const char *call, const char *what)
{
    if (!holds) {
        fprintf(stderr, "test.c: a wrong answer: %s, %s\n", call, what);
        wrong = 1;
    }
}

int main(void)
{
    each_result_type();
    planes_by_structs();
    return wrong;
}
