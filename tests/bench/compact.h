/*
 * The node of docs/RULES.md as one would write it by hand in C on the library's own terms: in place on the same words, with
 * the same checks, refusals and results. It stands here to be measured beside the library, and is neither proved nor part
 * of it. Answers and refusals have the numbers of include/ocb.h.
 */
#ifndef COMPACT_H
#define COMPACT_H

#include <stddef.h>
#include <stdint.h>

#define COMPACT_DETAILS 5

uint32_t compact_fresh(uint32_t *state, size_t words, uint32_t nodes, uint32_t number);
uint32_t compact_send(uint32_t *state, size_t words, uint32_t to);
uint32_t compact_take(uint32_t *state, size_t words, uint32_t from, uint8_t phase);
uint32_t compact_take_note(uint32_t *state, size_t words, uint32_t from, uint8_t phase);
uint32_t compact_idle(uint32_t *state, size_t words);
uint32_t compact_frame_in(uint32_t *state, size_t words, const uint8_t *bytes, size_t count);
uint32_t compact_barrier(uint32_t *state, size_t words, uint8_t *buffer, size_t count,
                         uint32_t details[COMPACT_DETAILS]);

#endif
