/*
 * A board played on every side at once, call by call: through the library, and through the versions that it is measured
 * beside. Every answer, every byte and every state is compared, and a difference ends the program.
 */
#ifndef BOARD_H
#define BOARD_H

#include "sides.h"

/* How a call is made; each program has its own. */
void perform(enum side side, struct call *call);

/* Told of each call of the schedule: the states before it, the call, and the library's answer. */
void saw(const struct states *before, const struct call *call, uint32_t answer);

/* Plays whole cycles of a board from a phase on, with jobs and notes sent and taken. */
void play_board(uint32_t nodes, uint8_t phase, uint32_t cycles);

/* The same from phase 0, over as many cycles as the benchmark measures. */
void play_measured_board(uint32_t nodes);

#endif
