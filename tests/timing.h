/* The timing of tests/bench, tests/search and tests/ways. */
#ifndef TIMING_H
#define TIMING_H

#include <stddef.h>

enum { TIMED_LOOPS = 25, MOST_TIMED = 8 };

/* The seconds that each work from first to last took, done once: the best of 25 loops of at least four milliseconds. They take
   turns, so that all meet the same machine, and each is done once before its loop: else one would find in near memory what the
   one before it left there, and another would not. They are at most MOST_TIMED; repeat does one of them so many times. */
void best_times(void (*repeat)(int which, size_t times), int first, int last, double best[]);

#endif
