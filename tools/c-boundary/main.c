/*
 * Tests of the C boundary: what lies behind the pointers of each function before
 * and after a call, and the answers at the edges of every number.
 *
 *     boundary            all cases
 *     boundary --small    without those of the limits, which take 63 MB of
 *                         memory and, if there are, 544 GiB of addresses
 *
 * Every buffer is exactly as long as the call is told. A caller who tells a
 * length that is not there is outside the contract, and so are null pointers,
 * pointers that are not aligned and buffers that are written and overlap: none of
 * them is tried.
 */
#include "cases.h"
#include <stdio.h>
#include <string.h>

/* The checks when this was written; fewer mean that cases were lost. Those of 2^32 cycles are not always run. */
#define SMALL_CHECKS 27743
#define LIMIT_CHECKS 66

int main(int argc, char **argv)
{
    int is_small = argc == 2 && strcmp(argv[1], "--small") == 0;
    if (argc > 1 && !is_small) {
        fprintf(stderr, "usage: boundary [--small]\n");
        return 2;
    }
    prepare();
    for (int placement = 0; placement < PLACEMENTS; placement++) {
        expand_cases(placement);
        call_cases(placement);
        execute_cases(placement);
        same_cases(placement);
        index_cases(placement);
        report_cases(placement);
        dispatcher_cases(placement);
    }
    name_cases();
    if (!is_small)
        limit_cases();
    return report(is_small ? SMALL_CHECKS : SMALL_CHECKS + LIMIT_CHECKS);
}
