/* What both versions by hand have: the limits, the tree of partners, and a frame's numbers as bytes. */
#ifndef PARTS_H
#define PARTS_H

#include "ocb.h"

#include <stdbool.h>

/* The limits, those of the largest board, and what stands for no clause that fails. */
#define SENT_LIMIT 65535u
#define TAKEN_LIMIT ((OCB_NODES - 1) * SENT_LIMIT)
#define FIELD_LIMIT (OCB_NODES * SENT_LIMIT)
#define NO_CLAUSE 7u

/* ---- The tree */

struct run {
    uint32_t first, last;
};

struct place {
    bool sends;
    bool awaits;
    bool messenger;
    uint32_t partner; /* the node awaited; the receiver too, where the node sends */
    uint32_t hermit;
};

/* The smallest p with nodes <= 2^p. */
static inline uint32_t dimension(uint32_t nodes)
{
    uint32_t p = 0;
    while (nodes > 1u << p) p++;
    return p;
}

/* The half of a run in which a node is; a run of one node is its own left half. */
static inline struct run half_with(struct run run, uint32_t node)
{
    uint32_t middle = (run.first + run.last) / 2;
    if (node <= middle)
        run.last = middle;
    else
        run.first = middle + 1;
    return run;
}

/* The run that dimension k, which is below p, halves and that has a node. */
static inline struct run run_in(uint32_t nodes, uint32_t p, uint32_t k, uint32_t node)
{
    struct run run = {0, nodes - 1};
    for (uint32_t at = p; at > k + 1; at--) run = half_with(run, node);
    return run;
}

/* The place of a node in dimension k, which is below p. */
static inline struct place place_in(uint32_t nodes, uint32_t p, uint32_t k, uint32_t node)
{
    struct place place = {false, false, false, 0, 0};
    struct run run = run_in(nodes, p, k, node);
    if (run.first == run.last) return place;
    uint32_t middle = (run.first + run.last) / 2;
    uint32_t left = middle - run.first + 1, right = run.last - middle;
    place.awaits = true;
    if (node == middle && left > right) {
        place.partner = node + 1;
        return place;
    }
    place.sends = true;
    place.partner = node <= middle ? node + left : node - left;
    place.messenger = node == middle + 1 && left > right;
    place.hermit = place.messenger ? middle : 0;
    return place;
}

/* The largest dimension in which two nodes are in different runs. */
static inline uint32_t distance(uint32_t nodes, uint32_t p, uint32_t a, uint32_t b)
{
    struct run run = {0, nodes - 1};
    for (uint32_t k = p; k-- > 0;) {
        uint32_t middle = (run.first + run.last) / 2;
        if ((a <= middle) != (b <= middle)) return k;
        run = half_with(run, a);
    }
    return 0;
}

/* ---- Frames */

static inline uint32_t number_at(const uint8_t *bytes)
{
    return (uint32_t)bytes[0] | (uint32_t)bytes[1] << 8 | (uint32_t)bytes[2] << 16 | (uint32_t)bytes[3] << 24;
}

static inline uint8_t *put_number(uint8_t *bytes, uint32_t number)
{
    bytes[0] = (uint8_t)number;
    bytes[1] = (uint8_t)(number >> 8);
    bytes[2] = (uint8_t)(number >> 16);
    bytes[3] = (uint8_t)(number >> 24);
    return bytes + 4;
}

static inline size_t frame_length(uint32_t pass, uint32_t k, uint32_t p)
{
    return pass == 1 ? 12 + 8 * (size_t)(p - k) : 12;
}

_Static_assert(OCB_FRAME_BYTES == 12 + 8 * OCB_SHELLS, "the header's length is not that of the longest frame");

/* Why a node of a board refuses a frame, its phase apart; OCB_DONE where it does not. */
static inline uint32_t frame_refusal(uint32_t nodes, uint32_t number, uint32_t p, const uint8_t *bytes, size_t count)
{
    if (count < 4) return OCB_LENGTH;
    uint32_t pass = bytes[0], k = bytes[2], sender = bytes[3];
    if ((pass != 1 && pass != 2) || k >= p) return OCB_FIELD;
    if (count != frame_length(pass, k, p)) return OCB_LENGTH;
    for (size_t at = 4; at < count; at += 4)
        if (number_at(bytes + at) > FIELD_LIMIT) return OCB_FIELD;
    if (sender >= nodes) return OCB_STRANGER;
    if (sender == number) return OCB_SELF;
    struct place place = place_in(nodes, p, k, number);
    if (!place.awaits || place.partner != sender) return OCB_PARTNER;
    return OCB_DONE;
}

#endif
