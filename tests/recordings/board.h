/*
 * A board of up to 16 nodes, played at random through the C functions, and each call told to the program that links it.
 */
#ifndef BOARD_H
#define BOARD_H

#include "ocb.h"
#include "ocb_recording.h"

#include <stdbool.h>

/* A number below another, by a fixed seed. */
uint32_t below(uint32_t most);

/* A board of fresh nodes with empty links. */
void board_start(uint32_t nodes);

/*
 * One call at a node of chance, or none. busy: how often in a hundred it sends. rests: a node that has left waits for all
 * others to leave before it makes its next call.
 */
void board_step(uint32_t busy, bool rests);

/* The program's: a call, its answer, and how many items it has put on links. */
void on_event(uint8_t letter, uint32_t first, uint32_t second, uint32_t answer, uint32_t put);

#endif
