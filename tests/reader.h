/* The desk's side of a reading as one call, which takes what plain_read_in_steps takes and answers what the end answers
   that is asked for last. tests/find-mutants has the faulty plain_read_in_steps in its place. */
#ifndef READER_H
#define READER_H

#include "desk.h"
#include "plain.h"

desk_answer desk_read_in_steps(uint32_t page, const uint8_t *bytes, const plain_step *steps, size_t steps_n);

#endif
