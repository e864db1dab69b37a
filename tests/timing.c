#define _GNU_SOURCE
#include "timing.h"

#include <time.h>

static const double loop_seconds = 0.004;

static double seconds(void)
{
    struct timespec t;
    clock_gettime(CLOCK_MONOTONIC, &t);
    return (double)t.tv_sec + 1e-9 * (double)t.tv_nsec;
}

static double time_loop(void (*repeat)(int which, size_t times), int which, size_t times)
{
    double start = seconds();
    repeat(which, times);
    return seconds() - start;
}

void best_times(void (*repeat)(int which, size_t times), int first, int last, double best[])
{
    size_t times[MOST_TIMED];
    for (int i = 0; i <= last - first; i++) {
        times[i] = 1;
        while (time_loop(repeat, first + i, times[i]) < loop_seconds)
            times[i] *= 2;
        best[i] = 1e9;
    }
    for (int loop = 0; loop < TIMED_LOOPS; loop++)
        for (int i = 0; i <= last - first; i++) {
            repeat(first + i, 1);
            double each = time_loop(repeat, first + i, times[i]) / (double)times[i];
            best[i] = each < best[i] ? each : best[i];
        }
}
