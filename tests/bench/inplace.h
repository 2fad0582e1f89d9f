/*
 * The node of docs/RULES.md as one would write it by hand in C: a struct that the calls change in place, with every
 * check that the library makes. It stands here to be measured beside the library, and is neither proved nor part of it.
 * Answers and refusals have the numbers of include/ocb.h.
 */
#ifndef INPLACE_H
#define INPLACE_H

#include "ocb.h"

#define INPLACE_SHELLS OCB_SHELLS
#define INPLACE_DETAILS 5

/* The latest stored pass 1 frame of a dimension; all 0 where none is stored. */
struct inplace_first {
    uint8_t present;
    uint32_t sent[INPLACE_SHELLS];
    uint32_t taken[INPLACE_SHELLS];
    uint32_t total_sent;
    uint32_t total_taken;
};

/* The latest stored pass 2 frame of a dimension; all 0 where none is stored. */
struct inplace_second {
    uint8_t present;
    uint32_t agreed;
    uint32_t total_sent;
};

struct inplace_node {
    uint8_t nodes;
    uint8_t number;
    uint8_t phase;
    uint8_t busy;
    uint8_t pass;
    uint8_t dim;
    uint8_t flag;
    uint32_t agreed; /* T */
    uint32_t sent[INPLACE_SHELLS];
    uint32_t taken[INPLACE_SHELLS];
    struct inplace_first first[INPLACE_SHELLS];
    struct inplace_second second[INPLACE_SHELLS];
};

uint32_t inplace_fresh(struct inplace_node *n, uint32_t nodes, uint32_t number);
uint32_t inplace_send(struct inplace_node *n, uint32_t to);
uint32_t inplace_take(struct inplace_node *n, uint32_t from, uint8_t phase);
uint32_t inplace_take_note(struct inplace_node *n, uint32_t from, uint8_t phase);
uint32_t inplace_idle(struct inplace_node *n);
uint32_t inplace_frame_in(struct inplace_node *n, const uint8_t *bytes, size_t count);
uint32_t inplace_barrier(struct inplace_node *n, uint8_t *buffer, size_t count, uint32_t details[INPLACE_DETAILS]);

#endif
