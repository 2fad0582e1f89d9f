#include "others.h"

#include "machine.h"
#include "parts.h"

#include <string.h>

#define COUNT(array) (sizeof(array) / sizeof *(array))
#define LENT_WORDS (MOST_WORDS + 1) /* one more than the largest board needs */
#define SPARE_WORD 0xa5a5a5a5u

/* A frame begins with these, as fields and as bytes. */
enum { FRAME_PASS, FRAME_PHASE, FRAME_DIMENSION, FRAME_SENDER, FRAME_HEAD };

static uint32_t seed;
static struct call last_frame; /* the last frame that the schedule handed in */

void start_others(uint32_t first)
{
    seed = first;
    memset(&last_frame, 0, sizeof last_frame);
}

/* Numbers are drawn one to a statement: C does not say in which order a statement's calls are made. */
static uint32_t below(uint32_t bound)
{
    seed = seed * 1664525u + 1013904223u;
    return (seed >> 8) % bound;
}

/* A number next to a limit, or any. */
static uint32_t odd_number(void)
{
    static const uint32_t limits[] = {0,   1,   2,          3,           OCB_SHELLS,  OCB_NODES,  128,
                                      255, 256, SENT_LIMIT, TAKEN_LIMIT, FIELD_LIMIT, 0x80000000u};
    uint32_t at = below(COUNT(limits) + 1);
    uint32_t high = below(1u << 16), low = below(1u << 16);
    if (at == COUNT(limits)) return high << 16 | low;
    return limits[at] + low % 3 - 1;
}

/* A number up to a bound, most of the time. */
static uint32_t argument(uint32_t bound)
{
    return below(8) == 0 ? odd_number() : below(bound + 1);
}

/* Puts a number where two states differ. */
static void put_where_changed(uint32_t *state, const uint32_t *before, const uint32_t *after, uint32_t number)
{
    for (uint32_t i = 0; i < MOST_WORDS; i++)
        if (before[i] != after[i]) state[i] = number;
}

/* A fresh node that has sent and taken as much as it may, or nearly: the words are those that a send and a take change. */
static void fill_up(uint32_t *state, const struct call *call)
{
    uint32_t fresh[MOST_WORDS] = {0}, sent[MOST_WORDS], taken[MOST_WORDS];
    if (ocb_fresh(fresh, MOST_WORDS, call->nodes, call->node) != OCB_DONE) return;
    memcpy(sent, fresh, sizeof sent);
    memcpy(taken, fresh, sizeof taken);
    if (ocb_send(sent, MOST_WORDS, call->other) != OCB_DONE) return;
    if (ocb_take(taken, MOST_WORDS, call->other, 0) != OCB_DONE) return;
    memcpy(state, fresh, sizeof fresh);
    put_where_changed(state, fresh, sent, SENT_LIMIT - 1 + below(3));
    put_where_changed(state, fresh, taken, TAKEN_LIMIT - 1 + below(3));
}

/* A place of the head, or any place of the state of a board. */
static uint32_t some_place(uint32_t nodes)
{
    return below(2) ? below(OCB_AT_TOTAL + 1) : below(OCB_STATE_WORDS(nodes));
}

static void damage_state(uint32_t *state, uint32_t nodes)
{
    for (uint32_t i = below(3); i > 0; i--) {
        uint32_t at = some_place(nodes);
        uint32_t number = odd_number();
        state[at] = below(4) ? number : state[at] + 1;
    }
}

/* As many words as the board of a state needs, fewer, or one more. */
static size_t some_words(uint32_t nodes)
{
    uint32_t needed = OCB_STATE_WORDS(nodes);
    uint32_t fewer = below(needed);
    switch (below(8)) {
    case 0:
        return fewer;
    case 1:
        return needed - 1;
    case 2:
        return needed + 1;
    default:
        return needed;
    }
}

static void damage_frame(struct call *call)
{
    for (uint32_t i = below(3); i > 0; i--) {
        uint32_t at = below(2) ? below(FRAME_HEAD) : below(OCB_FRAME_BYTES);
        call->bytes[at] = (uint8_t)odd_number();
    }
    if (below(4) == 0) call->count = below(CALL_BYTES + 1);
}

/* The fields of the frame, as far as it has some, with one of them changed at times. */
static void choose_fields(struct call *call)
{
    if (ocb_frame_read(call->nodes, call->bytes, call->count, call->fields) != OCB_DONE)
        call->fields[FRAME_PASS] = below(4);
    if (below(2) == 0) return;
    uint32_t at = below(2) ? below(FRAME_HEAD) : below(OCB_FIELD_WORDS);
    call->fields[at] = odd_number();
}

static void choose_numbers(struct call *call, const uint32_t *state)
{
    call->nodes = state[OCB_AT_NODES];
    call->node = state[OCB_AT_NUMBER];
    call->other = argument(call->nodes);
    call->dimension = argument(OCB_SHELLS);
    call->phase = (uint8_t)(state[OCB_AT_PHASE] + below(4) - 1);
    if (below(4) == 0) call->node = argument(call->nodes);
    if (below(4) == 0) call->nodes = argument(OCB_NODES);
}

static void choose_frame(struct call *call, const struct call *near)
{
    const struct call *from = below(4) == 0 ? near : &last_frame;
    memcpy(call->bytes, from->bytes, sizeof call->bytes);
    call->count = from->count;
}

/* A buffer that is long enough, half of the time. */
static void choose_buffer(struct call *call)
{
    call->count = below(2) ? OCB_FRAME_BYTES : below(OCB_FRAME_BYTES);
}

/* The state that a call is lent, with words behind it that are not the state's. */
static void choose_state(struct call *call, uint32_t lent[LENT_WORDS], const uint32_t *state)
{
    memcpy(lent, state, MOST_WORDS * sizeof *state);
    if (below(16) == 0) {
        fill_up(lent, call);
        call->phase = 0;
    }
    uint32_t nodes = lent[OCB_AT_NODES];
    for (uint32_t i = OCB_STATE_WORDS(nodes); i < LENT_WORDS; i++) lent[i] = SPARE_WORD;
    call->words = some_words(nodes);
    if (below(2) == 0) damage_state(lent, nodes);
}

/* The same call by hand: all that it gives is the same, and the words that are not lent stay. */
static void hold_to_compact(struct call asked, const struct call *given, uint32_t lent[LENT_WORDS])
{
    const uint32_t *ours = given->state;
    const size_t spare = (LENT_WORDS - asked.words) * sizeof *lent;
    if (memcmp(ours + asked.words, lent + asked.words, spare) != 0) stop("a word that is not lent is written");
    asked.state = lent;
    perform(COMPACT, &asked);
    const char *what = difference(given, &asked);
    if (what != NULL) stop(what);
    if (memcmp(ours, lent, LENT_WORDS * sizeof *lent) != 0) stop("the state differs");
}

void other_call(const uint32_t state[MOST_WORDS], const struct call *near)
{
    uint32_t words[LENT_WORDS], same[LENT_WORDS];
    struct call call = {.kind = (enum kind)below(KINDS), .state = words};
    if (near->kind == FRAME_IN) last_frame = *near;
    memset(call.found, 77, sizeof call.found);
    choose_numbers(&call, state);
    choose_frame(&call, near);
    choose_state(&call, words, state);
    if (below(2) == 0) damage_frame(&call);
    if (call.kind == FRAME_WRITE) choose_fields(&call);
    if (call.kind == FRAME_WRITE || call.kind == BARRIER) choose_buffer(&call);
    const struct call asked = call;
    memcpy(same, words, sizeof same);
    perform(LIBRARY, &call);
    if (call.kind <= FRESH) hold_to_compact(asked, &call, same);
}
