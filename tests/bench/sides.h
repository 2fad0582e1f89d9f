/*
 * A call, and the sides that can make it: the library, and versions that it is measured beside, IN_PLACE on a struct and
 * COMPACT on the library's words. A further one is added here (`enum side`, `struct states`, its calls beside
 * in_place_inside) and in sides.c, to what count.c replays, to measure.c's table of functions, to sample.c and to
 * sheet.py's SIDES.
 */
#ifndef SIDES_H
#define SIDES_H

#include "compact.h"
#include "inplace.h"
#include "ocb.h"

#include <stdbool.h>

enum side { LIBRARY, IN_PLACE, COMPACT, SIDES };

/* The exported functions. The first are the schedule's, which every side has. */
enum kind {
    SEND,
    TAKE,
    TAKE_NOTE,
    IDLE,
    FRAME_IN,
    BARRIER,
    SCHEDULED,
    FRESH = SCHEDULED,
    DIMENSION,
    PLACE,
    DISTANCE,
    FRAME_WRITE,
    FRAME_READ,
    KINDS
};

#define CALL_BYTES (OCB_FRAME_BYTES + 24) /* longer than any frame */
#define MOST_WORDS OCB_STATE_WORDS(OCB_NODES)

/* One call: its arguments, and what it gave. A kind of KINDS calls the empty function `nothing`. */
struct call {
    enum kind kind;
    void *state;
    size_t words; /* of the state that are lent */
    uint32_t nodes, node, other, dimension;
    uint8_t phase;
    uint8_t bytes[CALL_BYTES]; /* the frame handed in, or the buffer lent */
    size_t count;
    uint32_t fields[OCB_FIELD_WORDS];
    uint32_t found[OCB_DETAIL_WORDS]; /* a barrier call's details, or what a lookup found */
    uint32_t answer;
};

/* A node's state, held by each side. */
struct states {
    uint32_t words[MOST_WORDS];
    struct inplace_node node;
    uint32_t compact[MOST_WORDS];
};

extern const char *const side_names[SIDES];
extern const char *const kind_names[KINDS];

/* A call on a side, from a function of its own. */
extern void (*const side_calls[SIDES])(struct call *call);

uint32_t nothing(void);
void *state_of(struct states *states, enum side side);

/* Makes a node's state on every side, fresh but for its phase. */
void make_states(struct states *states, uint32_t nodes, uint32_t number, uint8_t phase);

/* The words that the library holds for a state of a side, and 0 behind them. */
void words_of(const struct states *states, enum side side, uint32_t words[MOST_WORDS]);

/* What differs in what two calls gave; null where nothing does. */
const char *difference(const struct call *ours, const struct call *theirs);

/* Inlined into each function of which callgrind tells the cost. */
#define INSIDE static inline __attribute__((always_inline))

/* The calls of a side that works on the lent words. */
#define STATE_CALLS(prefix)                                                               \
    case SEND:                                                                            \
        c->answer = prefix##_send(c->state, c->words, c->other);                          \
        break;                                                                            \
    case TAKE:                                                                            \
        c->answer = prefix##_take(c->state, c->words, c->other, c->phase);                \
        break;                                                                            \
    case TAKE_NOTE:                                                                       \
        c->answer = prefix##_take_note(c->state, c->words, c->other, c->phase);           \
        break;                                                                            \
    case IDLE:                                                                            \
        c->answer = prefix##_idle(c->state, c->words);                                    \
        break;                                                                            \
    case FRAME_IN:                                                                        \
        c->answer = prefix##_frame_in(c->state, c->words, c->bytes, c->count);            \
        break;                                                                            \
    case BARRIER:                                                                         \
        c->answer = prefix##_barrier(c->state, c->words, c->bytes, c->count, c->found);   \
        break;                                                                            \
    case FRESH:                                                                           \
        c->answer = prefix##_fresh(c->state, c->words, c->nodes, c->node);                \
        break

INSIDE void library_inside(struct call *c)
{
    switch (c->kind) {
        STATE_CALLS(ocb);
    case DIMENSION:
        c->answer = ocb_dimension(c->nodes, c->found);
        break;
    case PLACE:
        c->answer = ocb_place(c->nodes, c->dimension, c->node, c->found);
        break;
    case DISTANCE:
        c->answer = ocb_distance(c->nodes, c->node, c->other, c->found);
        break;
    case FRAME_WRITE:
        c->answer = ocb_frame_write(c->nodes, c->fields, c->bytes, c->count, c->found);
        break;
    case FRAME_READ:
        c->answer = ocb_frame_read(c->nodes, c->bytes, c->count, c->fields);
        break;
    default:
        c->answer = nothing();
    }
}

INSIDE void in_place_inside(struct call *c)
{
    switch (c->kind) {
    case SEND:
        c->answer = inplace_send(c->state, c->other);
        break;
    case TAKE:
        c->answer = inplace_take(c->state, c->other, c->phase);
        break;
    case TAKE_NOTE:
        c->answer = inplace_take_note(c->state, c->other, c->phase);
        break;
    case IDLE:
        c->answer = inplace_idle(c->state);
        break;
    case FRAME_IN:
        c->answer = inplace_frame_in(c->state, c->bytes, c->count);
        break;
    case BARRIER:
        c->answer = inplace_barrier(c->state, c->bytes, c->count, c->found);
        break;
    default:
        c->answer = nothing();
    }
}

INSIDE void compact_inside(struct call *c)
{
    switch (c->kind) {
        STATE_CALLS(compact);
    default:
        c->answer = nothing();
    }
}

#endif
