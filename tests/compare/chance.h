/* Chance: one sequence of random numbers, which a seed begins anew; and turns, for what is done by turns. */
#ifndef CHANCE_H
#define CHANCE_H

#include <stdbool.h>
#include <stddef.h>
#include <stdint.h>

void begin_chance(uint64_t seed);                   /* and the turns from 0 */
uint64_t any(void);
size_t below(size_t n);                             /* 0 for n 0 */
bool one_in(size_t n);

enum turns { JUDGING, FILING, TURNS };
size_t next_turn(enum turns whose);                 /* 0, 1, 2 and so on */

#endif
