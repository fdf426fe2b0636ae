/* The least time of a call, in processor time. */
#ifndef MEASURE_H
#define MEASURE_H

#include <time.h>

enum { MOST_VERSIONS = 16 };

static double seconds(void)
{
    struct timespec t;
    clock_gettime(CLOCK_PROCESS_CPUTIME_ID, &t);
    return (double)t.tv_sec + (double)t.tv_nsec * 1e-9;
}

/* Of each version, in some turns; a turn of a version takes about the time given. */
static void least(int versions, void (*call)(int version), double turn, int turns, double *best)
{
    long calls[MOST_VERSIONS];
    for (int v = 0; v < versions; v++)
        best[v] = 0, calls[v] = 1;
    for (int i = 0; i < turns; i++)
        for (int v = 0; v < versions; v++) {
            double from = seconds(), spent;
            for (long k = 0; k < calls[v]; k++)
                call(v);
            spent = seconds() - from;
            double each = spent / (double)calls[v];
            if (best[v] == 0 || each < best[v])
                best[v] = each;
            if (spent < turn / 2)
                calls[v] = each > 0 ? 1 + (long)(turn / each) : calls[v] * 2;
        }
}

#endif
