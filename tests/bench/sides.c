#include "sides.h"

#include "machine.h"

#include <string.h>

const char *const side_names[SIDES] = {"library", "in_place", "compact"};
const char *const kind_names[KINDS] = {"send",  "take",      "take_note", "idle",     "frame_in",    "barrier",
                                       "fresh", "dimension", "place",     "distance", "frame_write", "frame_read"};

/* The compiler neither inlines the function nor joins it with another. */
#define APART __attribute__((noipa))

APART uint32_t nothing(void)
{
    return 0;
}

APART static void library_call(struct call *call)
{
    library_inside(call);
}

APART static void in_place_call(struct call *call)
{
    in_place_inside(call);
}

APART static void compact_call(struct call *call)
{
    compact_inside(call);
}

void (*const side_calls[SIDES])(struct call *call) = {library_call, in_place_call, compact_call};

void *state_of(struct states *states, enum side side)
{
    void *const held[SIDES] = {states->words, &states->node, states->compact};
    return held[side];
}

void make_states(struct states *states, uint32_t nodes, uint32_t number, uint8_t phase)
{
    const size_t words = OCB_STATE_WORDS(nodes);
    bool made = ocb_fresh(states->words, words, nodes, number) == OCB_DONE;
    made = made && inplace_fresh(&states->node, nodes, number) == OCB_DONE;
    made = made && compact_fresh(states->compact, words, nodes, number) == OCB_DONE;
    if (!made) stop("a fresh state is refused");
    states->words[OCB_AT_PHASE] = states->compact[OCB_AT_PHASE] = phase;
    states->node.phase = phase;
}

static uint32_t *put_words(uint32_t *to, const uint32_t *words, uint32_t count)
{
    memcpy(to, words, count * sizeof *words);
    return to + count;
}

/* Of p shells a pass 1 frame of dimension k has those from k on. */
static uint32_t *put_first(uint32_t *to, const struct inplace_first *f, uint32_t k, uint32_t p)
{
    *to++ = f->present;
    to = put_words(to, f->sent + k, p - k);
    to = put_words(to, f->taken + k, p - k);
    *to++ = f->total_sent;
    *to++ = f->total_taken;
    return to;
}

static uint32_t *put_second(uint32_t *to, const struct inplace_second *s)
{
    *to++ = s->present;
    *to++ = s->agreed;
    *to++ = s->total_sent;
    return to;
}

static void pack_in_place(const struct inplace_node *n, uint32_t *to)
{
    const uint32_t head[] = {n->nodes, n->number, n->phase, n->busy, n->pass, n->dim, n->flag, n->agreed};
    uint32_t p = OCB_DIMENSION(n->nodes);
    to = put_words(to, head, sizeof head / sizeof *head);
    to = put_words(to, n->sent, p);
    to = put_words(to, n->taken, p);
    for (uint32_t k = 0; k < p; k++) to = put_second(put_first(to, &n->first[k], k, p), &n->second[k]);
}

void words_of(const struct states *states, enum side side, uint32_t words[MOST_WORDS])
{
    memset(words, 0, MOST_WORDS * sizeof *words);
    if (side == LIBRARY) put_words(words, states->words, MOST_WORDS);
    if (side == IN_PLACE) pack_in_place(&states->node, words);
    if (side == COMPACT) put_words(words, states->compact, MOST_WORDS);
}

const char *difference(const struct call *ours, const struct call *theirs)
{
    if (ours->answer != theirs->answer) return "the library answers something else";
    if (memcmp(ours->bytes, theirs->bytes, sizeof ours->bytes) != 0) return "a byte of the frame differs";
    if (memcmp(ours->found, theirs->found, sizeof ours->found) != 0) return "a detail differs";
    return NULL;
}
