/*
 * Calls that no schedule makes, mostly refused: to every exported function, on damaged states and frames, with words too
 * few or too many. What COMPACT has too is called there as well, and must give the same.
 */
#ifndef OTHERS_H
#define OTHERS_H

#include "board.h"

/* The same calls follow from the same seed. */
void start_others(uint32_t seed);

/* Makes one such call, near to a call of the schedule and to the state that it was made on. */
void other_call(const uint32_t state[MOST_WORDS], const struct call *near);

#endif
