#include "chance.h"

#include <string.h>

#include "../sample.h"

static uint64_t state = 1;
static size_t turn[TURNS];

void begin_chance(uint64_t seed)
{
    state = seed;
    memset(turn, 0, sizeof turn);
}

uint64_t any(void) { return next_random(&state); }
size_t below(size_t n) { return n ? (size_t)(any() % n) : 0; }
bool one_in(size_t n) { return below(n) == 0; }
size_t next_turn(enum turns whose) { return turn[whose]++; }
