/*
 * How the programs end: printf keeps bytes back, and whether they can be written
 * shows only when the last have left the program.
 */
#ifndef WRITTEN_H
#define WRITTEN_H

#include <stdio.h>

/* Whether all that was printed is written; else that is said on standard error. */
static int all_written(const char *program)
{
    int flushed = fflush(stdout) == 0;
    if (flushed && !ferror(stdout))
        return 1;
    fprintf(stderr, "%s: cannot write standard output\n", program);
    return 0;
}

#endif
