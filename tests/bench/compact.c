#include "compact.h"

#include "ocb.h"
#include "parts.h"

#include <string.h>

#define HEAD_WORDS (OCB_AT_TOTAL + 1)
#define SECOND_NUMBERS 2 /* of a pass 2 frame: T, total sent */

/* ---- The words: the head, sent and taken by shell, and for each dimension a frame of pass 1 and one of pass 2 */

/* The numbers of a pass 1 frame behind its mark: sent and taken for so many shells, total sent, total taken. */
static uint32_t first_numbers(uint32_t shells)
{
    return 2 * shells + 2;
}

/* Where the pass 1 frame of dimension k begins, with its mark. */
static uint32_t at_first(uint32_t p, uint32_t k)
{
    return HEAD_WORDS + 2 * p + k * (2 * p + 7 - k);
}

static uint32_t at_second(uint32_t p, uint32_t k)
{
    return at_first(p, k) + 1 + first_numbers(p - k);
}

static uint32_t state_words(uint32_t p)
{
    return at_first(p, p);
}

/* ---- The own sums, which lie as the numbers of a pass 1 frame of dimension 0 do */

struct survey {
    uint32_t p;
    uint32_t total_sent; /* the node's own */
    uint32_t total_taken;
    uint32_t second;                   /* the own sum of pass 2, for the position */
    uint32_t sums[2 * OCB_SHELLS + 2]; /* those of pass 1 for the position; in pass 2 with every frame added */
};

/* Adds numbers to sums; false where a sum comes above the limit. */
static bool add(uint32_t *sums, const uint32_t *numbers, uint32_t count)
{
    for (uint32_t *end = sums + count; sums < end; sums++, numbers++) {
        if (*numbers > FIELD_LIMIT - *sums) return false;
        *sums += *numbers;
    }
    return true;
}

/* The first clause of pass 1, dimension k that fails. Where none does, the frame is added to the own sums. */
static uint32_t first_clause(struct survey *survey, const uint32_t *frame, uint32_t k)
{
    uint32_t shells = survey->p - k;
    const uint32_t *sent = frame + 1, *taken = sent + shells;
    uint32_t *own_sent = survey->sums + k, *own_taken = own_sent + survey->p;
    if (frame[0] != 1) return 0;
    if (own_sent[0] != taken[0]) return 1;
    if (own_taken[0] != sent[0]) return 2;
    /* the totals are behind the last shell's taken */
    if (!add(own_sent + 1, sent + 1, shells - 1) || !add(own_taken + 1, taken + 1, shells + 1)) return 3;
    if (shells == 1 && own_taken[1] != own_taken[2]) return 4;
    return NO_CLAUSE;
}

/* The first clause of pass 2 that fails. Where none does, the frame is added to the own sum. */
static uint32_t second_clause(struct survey *survey, const uint32_t *frame, uint32_t k, uint32_t agreed)
{
    if (frame[0] != 1) return 0;
    if (!add(&survey->second, frame + 2, 1)) return 3;
    if (frame[1] != agreed) return 5;
    if (k + 1 == survey->p && survey->second != agreed) return 6;
    return NO_CLAUSE;
}

/* ---- The state test, one walk over the words, which gathers the sums on its way */

static bool head_stands(const uint32_t *state, uint32_t p)
{
    uint32_t busy = state[OCB_AT_BUSY], flag = state[OCB_AT_FLAG];
    uint32_t pass = state[OCB_AT_PASS], k = state[OCB_AT_DIMENSION];
    if (state[OCB_AT_NUMBER] >= state[OCB_AT_NODES] || state[OCB_AT_PHASE] > UINT8_MAX) return false;
    if (busy > 1 || flag > 1) return false;
    if (pass == 1 ? k != 0 && k >= p : pass != 2 || k >= p) return false;
    if (pass == 1 && state[OCB_AT_TOTAL] != 0) return false;
    return !busy || (pass == 1 && k == 0 && flag);
}

/* The tallies begin the sums, and their total is within the limit. */
static bool tallies_stand(const uint32_t *tallies, uint32_t *sums, uint32_t p, uint32_t limit, uint32_t *total)
{
    uint32_t room = limit;
    for (uint32_t m = 0; m < p; m++) {
        if (tallies[m] > room) return false;
        room -= tallies[m];
        sums[m] = tallies[m];
    }
    *total = limit - room;
    return true;
}

/* The numbers of a frame are within the limit; where none is stored they are 0, and where none is awaited none is. */
static bool frame_stands(const uint32_t *frame, uint32_t numbers, bool awaits)
{
    uint32_t mark = *frame++, limit = mark ? FIELD_LIMIT : 0;
    if (mark > awaits) return false;
    for (; numbers > 0; numbers--)
        if (*frame++ > limit) return false;
    return true;
}

/* Every frame stands, and every step before the position agrees; a step that awaits nobody has no clause. */
static bool frames_stand(const uint32_t *state, struct survey *survey)
{
    uint32_t p = survey->p, pass = state[OCB_AT_PASS], dim = state[OCB_AT_DIMENSION];
    uint32_t firsts = pass == 1 ? dim : p, seconds = pass == 1 ? 0 : dim; /* steps before the position */
    const uint32_t *frame = state + at_first(p, 0);
    struct run run = run_in(state[OCB_AT_NODES], p, 0, state[OCB_AT_NUMBER]);
    bool awaits = run.first < run.last; /* only dimension 0 can have nobody to await */
    for (uint32_t k = 0; k < p; k++, awaits = true) {
        uint32_t numbers = first_numbers(p - k);
        if (awaits && k < firsts ? first_clause(survey, frame, k) != NO_CLAUSE : !frame_stands(frame, numbers, awaits))
            return false;
        frame += 1 + numbers;
        if (awaits && k < seconds ? second_clause(survey, frame, k, state[OCB_AT_TOTAL]) != NO_CLAUSE
                                  : !frame_stands(frame, SECOND_NUMBERS, awaits))
            return false;
        frame += 1 + SECOND_NUMBERS;
    }
    return pass == 1 || state[OCB_AT_TOTAL] == survey->sums[2 * p + 1];
}

static bool state_stands(const uint32_t *state, size_t words, struct survey *survey)
{
    if (words < HEAD_WORDS || state[OCB_AT_NODES] == 0 || state[OCB_AT_NODES] > OCB_NODES) return false;
    uint32_t p = survey->p = dimension(state[OCB_AT_NODES]), *sums = survey->sums;
    const uint32_t *tallies = state + HEAD_WORDS;
    if (words < state_words(p) || !head_stands(state, p)) return false;
    if (!tallies_stand(tallies, sums, p, SENT_LIMIT, &survey->total_sent)) return false;
    if (!tallies_stand(tallies + p, sums + p, p, TAKEN_LIMIT, &survey->total_taken)) return false;
    sums[2 * p] = survey->second = survey->total_sent;
    sums[2 * p + 1] = survey->total_taken;
    return frames_stand(state, survey);
}

/* ---- The calls */

static void make_fresh(uint32_t *state, uint32_t p, uint32_t nodes, uint32_t number, uint8_t phase)
{
    memset(state, 0, state_words(p) * sizeof *state);
    state[OCB_AT_NODES] = nodes;
    state[OCB_AT_NUMBER] = number;
    state[OCB_AT_PHASE] = phase;
    state[OCB_AT_BUSY] = 1;
    state[OCB_AT_PASS] = 1;
    state[OCB_AT_FLAG] = 1;
}

static void put_position(uint32_t *state, uint32_t pass, uint32_t dim, uint32_t flag)
{
    state[OCB_AT_PASS] = pass;
    state[OCB_AT_DIMENSION] = dim;
    state[OCB_AT_FLAG] = flag;
}

uint32_t compact_fresh(uint32_t *state, size_t words, uint32_t nodes, uint32_t number)
{
    if (nodes == 0 || nodes > OCB_NODES) return OCB_BOARD;
    if (number >= nodes) return OCB_STRANGER;
    uint32_t p = dimension(nodes);
    if (words < state_words(p)) return OCB_STATE;
    make_fresh(state, p, nodes, number, 0);
    return OCB_DONE;
}

uint32_t compact_send(uint32_t *state, size_t words, uint32_t to)
{
    struct survey survey;
    if (!state_stands(state, words, &survey)) return OCB_STATE;
    uint32_t nodes = state[OCB_AT_NODES], number = state[OCB_AT_NUMBER];
    if (to >= nodes) return OCB_STRANGER;
    if (to == number) return OCB_SELF;
    if (!state[OCB_AT_BUSY]) return OCB_RESTING;
    if (survey.total_sent == SENT_LIMIT) return OCB_SENT_OUT;
    state[HEAD_WORDS + distance(nodes, survey.p, number, to)]++;
    return OCB_DONE;
}

/* What taking a job and taking a note have in common. */
static uint32_t take(uint32_t *state, size_t words, uint32_t from, uint8_t phase)
{
    struct survey survey;
    if (!state_stands(state, words, &survey)) return OCB_STATE;
    uint32_t nodes = state[OCB_AT_NODES], number = state[OCB_AT_NUMBER];
    if (from >= nodes) return OCB_STRANGER;
    if (from == number) return OCB_SELF;
    uint8_t difference = (uint8_t)(phase - state[OCB_AT_PHASE]);
    if (difference != 0) return difference == 1 ? OCB_EARLY : OCB_FOREIGN;
    if (survey.total_taken == TAKEN_LIMIT) return OCB_TAKEN_FULL;
    state[HEAD_WORDS + survey.p + distance(nodes, survey.p, number, from)]++;
    state[OCB_AT_TOTAL] = 0;
    put_position(state, 1, 0, 1);
    return OCB_DONE;
}

uint32_t compact_take(uint32_t *state, size_t words, uint32_t from, uint8_t phase)
{
    uint32_t answer = take(state, words, from, phase);
    if (answer == OCB_DONE) state[OCB_AT_BUSY] = 1;
    return answer;
}

uint32_t compact_take_note(uint32_t *state, size_t words, uint32_t from, uint8_t phase)
{
    return take(state, words, from, phase);
}

uint32_t compact_idle(uint32_t *state, size_t words)
{
    struct survey survey;
    if (!state_stands(state, words, &survey)) return OCB_STATE;
    state[OCB_AT_BUSY] = 0;
    return OCB_DONE;
}

/* ---- Frames */

/* A frame's numbers lie in the state as they lie in its bytes. */
static void store(uint32_t *state, uint32_t p, const uint8_t *bytes, size_t count)
{
    uint32_t pass = bytes[0], k = bytes[2], own = state[OCB_AT_PASS];
    uint32_t *frame = state + (pass == 1 ? at_first(p, k) : at_second(p, k));
    *frame++ = 1;
    for (size_t at = 4; at < count; at += 4) *frame++ = number_at(bytes + at);
    if (pass < own || (pass == own && k < state[OCB_AT_DIMENSION])) {
        put_position(state, pass, k, 0);
        if (pass == 1) state[OCB_AT_TOTAL] = 0;
    }
}

uint32_t compact_frame_in(uint32_t *state, size_t words, const uint8_t *bytes, size_t count)
{
    struct survey survey;
    if (!state_stands(state, words, &survey)) return OCB_STATE;
    uint32_t refusal = frame_refusal(state[OCB_AT_NODES], state[OCB_AT_NUMBER], survey.p, bytes, count);
    if (refusal != OCB_DONE) return refusal;
    switch ((uint8_t)(bytes[1] - state[OCB_AT_PHASE])) {
    case 0:
        store(state, survey.p, bytes, count);
        return OCB_DONE;
    case 1:
        return OCB_EARLY;
    case 255:
        return OCB_DROPPED;
    default:
        return OCB_FOREIGN;
    }
}

/* ---- The barrier call */

static uint8_t *put_numbers(uint8_t *bytes, const uint32_t *numbers, uint32_t count)
{
    for (uint32_t i = 0; i < count; i++) bytes = put_number(bytes, numbers[i]);
    return bytes;
}

static void write_frame(const uint32_t *state, const struct survey *survey, uint8_t *bytes)
{
    uint32_t pass = state[OCB_AT_PASS], k = state[OCB_AT_DIMENSION], shells = survey->p - k;
    const uint32_t *own_sent = survey->sums + k, *own_taken = own_sent + survey->p;
    bytes[0] = (uint8_t)pass;
    bytes[1] = (uint8_t)state[OCB_AT_PHASE];
    bytes[2] = (uint8_t)k;
    bytes[3] = (uint8_t)state[OCB_AT_NUMBER];
    bytes += 4;
    if (pass == 2) {
        put_number(put_number(bytes, state[OCB_AT_TOTAL]), survey->second);
        return;
    }
    put_numbers(put_numbers(bytes, own_sent, shells), own_taken, shells + 2);
}

static uint32_t sign_in(uint32_t *state, const struct survey *survey, const struct place *place, uint8_t *buffer,
                        uint32_t *details)
{
    write_frame(state, survey, buffer);
    details[0] = place->messenger ? 2 : 1;
    details[1] = place->partner;
    details[2] = place->hermit;
    details[3] = (uint32_t)frame_length(state[OCB_AT_PASS], state[OCB_AT_DIMENSION], survey->p);
    state[OCB_AT_FLAG] = 0;
    return OCB_SENT;
}

static uint32_t leave(uint32_t *state, uint32_t p)
{
    make_fresh(state, p, state[OCB_AT_NODES], state[OCB_AT_NUMBER], (uint8_t)(state[OCB_AT_PHASE] + 1));
    return OCB_LEFT;
}

/* On from a step that agrees, whose frame is in the own sums. */
static uint32_t move(uint32_t *state, const struct survey *survey)
{
    uint32_t p = survey->p, pass = state[OCB_AT_PASS], next = state[OCB_AT_DIMENSION] + 1;
    if (next < p) {
        put_position(state, pass, next, 1);
        return OCB_MOVED;
    }
    if (pass == 2) return leave(state, p);
    state[OCB_AT_TOTAL] = survey->sums[2 * p + 1];
    put_position(state, 2, 0, 1);
    return OCB_MOVED;
}

uint32_t compact_barrier(uint32_t *state, size_t words, uint8_t *buffer, size_t count,
                         uint32_t details[COMPACT_DETAILS])
{
    struct survey survey;
    if (!state_stands(state, words, &survey)) return OCB_STATE;
    if (state[OCB_AT_BUSY]) return OCB_WORKING;
    uint32_t p = survey.p, pass = state[OCB_AT_PASS], k = state[OCB_AT_DIMENSION];
    struct place place = place_in(state[OCB_AT_NODES], p, k, state[OCB_AT_NUMBER]);
    bool due = state[OCB_AT_FLAG] && place.sends;
    if (due && count < frame_length(pass, k, p)) return OCB_BUFFER;
    memset(details, 0, COMPACT_DETAILS * sizeof *details);
    if (due) return sign_in(state, &survey, &place, buffer, details);
    if (p == 0) return leave(state, p);
    uint32_t clause = NO_CLAUSE;
    if (place.awaits)
        clause = pass == 1 ? first_clause(&survey, state + at_first(p, k), k)
                           : second_clause(&survey, state + at_second(p, k), k, state[OCB_AT_TOTAL]);
    if (clause == NO_CLAUSE) return move(state, &survey);
    state[OCB_AT_FLAG] = 0;
    details[4] = clause;
    return OCB_WAITS;
}
