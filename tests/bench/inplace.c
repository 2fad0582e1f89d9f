#include "inplace.h"

#include "ocb.h"
#include "parts.h"

#include <string.h>

/* ---- Whether a step agrees */

struct sums {
    uint32_t sent[INPLACE_SHELLS];
    uint32_t taken[INPLACE_SHELLS];
    uint32_t total_sent;
    uint32_t total_taken;
    uint32_t second; /* the own sum of pass 2 */
};

static bool sums_fit(const struct sums *own, const struct inplace_first *f, uint32_t k, uint32_t p)
{
    if (own->total_sent + f->total_sent > FIELD_LIMIT) return false;
    if (own->total_taken + f->total_taken > FIELD_LIMIT) return false;
    for (uint32_t m = k + 1; m < p; m++) {
        if (own->sent[m] + f->sent[m] > FIELD_LIMIT) return false;
        if (own->taken[m] + f->taken[m] > FIELD_LIMIT) return false;
    }
    return true;
}

/* The first clause of pass 1, dimension k that fails. */
static uint32_t first_clause(const struct sums *own, const struct inplace_first *f, uint32_t k, uint32_t p)
{
    if (!f->present) return 0;
    if (own->sent[k] != f->taken[k]) return 1;
    if (own->taken[k] != f->sent[k]) return 2;
    if (!sums_fit(own, f, k, p)) return 3;
    if (k + 1 == p && own->total_sent + f->total_sent != own->total_taken + f->total_taken) return 4;
    return NO_CLAUSE;
}

/* The first clause of pass 2, dimension k that fails. */
static uint32_t second_clause(const struct sums *own, const struct inplace_second *s, uint32_t k, uint32_t p,
                              uint32_t agreed)
{
    if (!s->present) return 0;
    if (own->second + s->total_sent > FIELD_LIMIT) return 3;
    if (agreed != s->agreed) return 5;
    if (k + 1 == p && own->second + s->total_sent != agreed) return 6;
    return NO_CLAUSE;
}

/* ---- The state test, which gathers the sums on its way */

struct survey {
    uint32_t p;
    uint32_t total_sent; /* the node's own */
    uint32_t total_taken;
    uint32_t whole;  /* total taken, with all stored pass 1 frames */
    struct sums own; /* for the node's dimension */
};

static bool all_zero(const uint32_t *numbers, uint32_t count)
{
    for (uint32_t m = 0; m < count; m++)
        if (numbers[m] != 0) return false;
    return true;
}

static bool head_stands(const struct inplace_node *n, uint32_t p)
{
    if (n->number >= n->nodes) return false;
    if (n->busy > 1 || n->flag > 1) return false;
    if (n->pass != 1 && n->pass != 2) return false;
    if (p == 0 ? n->pass != 1 || n->dim != 0 : n->dim >= p) return false;
    return !n->busy || (n->pass == 1 && n->dim == 0 && n->flag == 1);
}

/* The total of the tallies of p shells; the others must be 0. */
static bool tallies_stand(const uint32_t *tallies, uint32_t p, uint32_t limit, uint32_t *total)
{
    *total = 0;
    for (uint32_t m = 0; m < p; m++) {
        if (tallies[m] > limit - *total) return false;
        *total += tallies[m];
    }
    return all_zero(tallies + p, INPLACE_SHELLS - p);
}

/* Shells k to p - 1 are within the limit, and the others 0. */
static bool shells_stand(const uint32_t *numbers, uint32_t k, uint32_t p)
{
    for (uint32_t m = k; m < p; m++)
        if (numbers[m] > FIELD_LIMIT) return false;
    return all_zero(numbers, k) && all_zero(numbers + p, INPLACE_SHELLS - p);
}

static bool first_stands(const struct inplace_first *f, uint32_t k, uint32_t p, bool awaits)
{
    if (!f->present)
        return f->total_sent == 0 && f->total_taken == 0 && all_zero(f->sent, INPLACE_SHELLS) &&
               all_zero(f->taken, INPLACE_SHELLS);
    if (f->present > 1 || !awaits) return false;
    if (f->total_sent > FIELD_LIMIT || f->total_taken > FIELD_LIMIT) return false;
    return shells_stand(f->sent, k, p) && shells_stand(f->taken, k, p);
}

static bool second_stands(const struct inplace_second *s, bool awaits)
{
    if (!s->present) return s->agreed == 0 && s->total_sent == 0;
    if (s->present > 1 || !awaits) return false;
    return s->agreed <= FIELD_LIMIT && s->total_sent <= FIELD_LIMIT;
}

static void add_frames(struct sums *own, const struct inplace_node *n, uint32_t k, uint32_t p)
{
    const struct inplace_first *f = &n->first[k];
    if (f->present) {
        for (uint32_t m = k + 1; m < p; m++) {
            own->sent[m] += f->sent[m];
            own->taken[m] += f->taken[m];
        }
        own->total_sent += f->total_sent;
        own->total_taken += f->total_taken;
    }
    own->second += n->second[k].total_sent;
}

/* The steps of dimension k that are before the position agree; a step that awaits nobody has no clause. */
static bool steps_agree(const struct inplace_node *n, const struct sums *own, uint32_t k, uint32_t p)
{
    if (n->pass == 2 || k < n->dim)
        if (first_clause(own, &n->first[k], k, p) != NO_CLAUSE) return false;
    if (n->pass == 2 && k < n->dim)
        if (second_clause(own, &n->second[k], k, p, n->agreed) != NO_CLAUSE) return false;
    return true;
}

/* Every stored frame stands, and every step before the position agrees. */
static bool frames_stand(const struct inplace_node *n, struct survey *survey)
{
    uint32_t p = survey->p;
    bool alone = p > 0 && !place_in(n->nodes, p, 0, n->number).awaits;
    struct sums own = survey->own;
    for (uint32_t k = 0; k < INPLACE_SHELLS; k++) {
        bool awaits = k < p && !(k == 0 && alone);
        if (!first_stands(&n->first[k], k, p, awaits) || !second_stands(&n->second[k], awaits)) return false;
        if (awaits && !steps_agree(n, &own, k, p)) return false;
        if (k == n->dim) survey->own = own;
        add_frames(&own, n, k, p);
    }
    survey->whole = own.total_taken;
    return true;
}

static bool state_stands(const struct inplace_node *n, struct survey *survey)
{
    if (n->nodes == 0 || n->nodes > OCB_NODES) return false;
    survey->p = dimension(n->nodes);
    if (!head_stands(n, survey->p)) return false;
    if (!tallies_stand(n->sent, survey->p, SENT_LIMIT, &survey->total_sent)) return false;
    if (!tallies_stand(n->taken, survey->p, TAKEN_LIMIT, &survey->total_taken)) return false;
    memcpy(survey->own.sent, n->sent, sizeof n->sent);
    memcpy(survey->own.taken, n->taken, sizeof n->taken);
    survey->own.total_sent = survey->own.second = survey->total_sent;
    survey->own.total_taken = survey->total_taken;
    if (!frames_stand(n, survey)) return false;
    return n->agreed <= FIELD_LIMIT && n->agreed == (n->pass == 1 ? 0 : survey->whole);
}

/* ---- The calls */

static void make_fresh(struct inplace_node *n, uint32_t nodes, uint32_t number, uint8_t phase)
{
    memset(n, 0, sizeof *n);
    n->nodes = (uint8_t)nodes;
    n->number = (uint8_t)number;
    n->phase = phase;
    n->busy = 1;
    n->pass = 1;
    n->flag = 1;
}

static void put_position(struct inplace_node *n, uint32_t pass, uint32_t dim, uint8_t flag)
{
    n->pass = (uint8_t)pass;
    n->dim = (uint8_t)dim;
    n->flag = flag;
}

uint32_t inplace_fresh(struct inplace_node *n, uint32_t nodes, uint32_t number)
{
    if (nodes == 0 || nodes > OCB_NODES) return OCB_BOARD;
    if (number >= nodes) return OCB_STRANGER;
    make_fresh(n, nodes, number, 0);
    return OCB_DONE;
}

uint32_t inplace_send(struct inplace_node *n, uint32_t to)
{
    struct survey survey;
    if (!state_stands(n, &survey)) return OCB_STATE;
    if (to >= n->nodes) return OCB_STRANGER;
    if (to == n->number) return OCB_SELF;
    if (!n->busy) return OCB_RESTING;
    if (survey.total_sent == SENT_LIMIT) return OCB_SENT_OUT;
    n->sent[distance(n->nodes, survey.p, n->number, to)]++;
    return OCB_DONE;
}

/* What taking a job and taking a note have in common. */
static uint32_t take(struct inplace_node *n, uint32_t from, uint8_t phase)
{
    struct survey survey;
    if (!state_stands(n, &survey)) return OCB_STATE;
    if (from >= n->nodes) return OCB_STRANGER;
    if (from == n->number) return OCB_SELF;
    uint8_t difference = (uint8_t)(phase - n->phase);
    if (difference != 0) return difference == 1 ? OCB_EARLY : OCB_FOREIGN;
    if (survey.total_taken == TAKEN_LIMIT) return OCB_TAKEN_FULL;
    n->taken[distance(n->nodes, survey.p, n->number, from)]++;
    n->agreed = 0;
    put_position(n, 1, 0, 1);
    return OCB_DONE;
}

uint32_t inplace_take(struct inplace_node *n, uint32_t from, uint8_t phase)
{
    uint32_t answer = take(n, from, phase);
    if (answer == OCB_DONE) n->busy = 1;
    return answer;
}

uint32_t inplace_take_note(struct inplace_node *n, uint32_t from, uint8_t phase)
{
    return take(n, from, phase);
}

uint32_t inplace_idle(struct inplace_node *n)
{
    struct survey survey;
    if (!state_stands(n, &survey)) return OCB_STATE;
    n->busy = 0;
    return OCB_DONE;
}

/* ---- Frames */

static void store_first(struct inplace_first *f, const uint8_t *bytes, uint32_t k, uint32_t p)
{
    uint32_t shells = p - k;
    for (uint32_t m = 0; m < shells; m++) {
        f->sent[k + m] = number_at(bytes + 4 + 4 * m);
        f->taken[k + m] = number_at(bytes + 4 + 4 * (shells + m));
    }
    f->total_sent = number_at(bytes + 4 + 8 * shells);
    f->total_taken = number_at(bytes + 8 + 8 * shells);
    f->present = 1;
}

static void store_second(struct inplace_second *s, const uint8_t *bytes)
{
    s->agreed = number_at(bytes + 4);
    s->total_sent = number_at(bytes + 8);
    s->present = 1;
}

static void store(struct inplace_node *n, uint32_t p, const uint8_t *bytes)
{
    uint32_t pass = bytes[0], k = bytes[2];
    if (pass == 1)
        store_first(&n->first[k], bytes, k, p);
    else
        store_second(&n->second[k], bytes);
    if (pass < n->pass || (pass == n->pass && k < n->dim)) {
        put_position(n, pass, k, 0);
        if (pass == 1) n->agreed = 0;
    }
}

uint32_t inplace_frame_in(struct inplace_node *n, const uint8_t *bytes, size_t count)
{
    struct survey survey;
    if (!state_stands(n, &survey)) return OCB_STATE;
    uint32_t refusal = frame_refusal(n->nodes, n->number, survey.p, bytes, count);
    if (refusal != OCB_DONE) return refusal;
    switch ((uint8_t)(bytes[1] - n->phase)) {
    case 0:
        store(n, survey.p, bytes);
        return OCB_DONE;
    case 1:
        return OCB_EARLY;
    case 255:
        return OCB_DROPPED;
    default:
        return OCB_FOREIGN;
    }
}

/* ---- The barrier call */

static void write_frame(const struct inplace_node *n, const struct survey *survey, uint8_t *bytes)
{
    const struct sums *own = &survey->own;
    bytes[0] = n->pass;
    bytes[1] = n->phase;
    bytes[2] = n->dim;
    bytes[3] = n->number;
    bytes += 4;
    if (n->pass == 2) {
        bytes = put_number(bytes, n->agreed);
        put_number(bytes, own->second);
        return;
    }
    for (uint32_t m = n->dim; m < survey->p; m++) bytes = put_number(bytes, own->sent[m]);
    for (uint32_t m = n->dim; m < survey->p; m++) bytes = put_number(bytes, own->taken[m]);
    bytes = put_number(bytes, own->total_sent);
    put_number(bytes, own->total_taken);
}

static uint32_t sign_in(struct inplace_node *n, const struct survey *survey, const struct place *place, uint8_t *buffer,
                        uint32_t *details)
{
    write_frame(n, survey, buffer);
    details[0] = place->messenger ? 2 : 1;
    details[1] = place->partner;
    details[2] = place->hermit;
    details[3] = (uint32_t)frame_length(n->pass, n->dim, survey->p);
    n->flag = 0;
    return OCB_SENT;
}

static uint32_t move(struct inplace_node *n, const struct survey *survey)
{
    if (n->dim + 1u < survey->p) {
        put_position(n, n->pass, n->dim + 1u, 1);
        return OCB_MOVED;
    }
    if (n->pass == 2) {
        make_fresh(n, n->nodes, n->number, (uint8_t)(n->phase + 1));
        return OCB_LEFT;
    }
    n->agreed = survey->whole;
    put_position(n, 2, 0, 1);
    return OCB_MOVED;
}

uint32_t inplace_barrier(struct inplace_node *n, uint8_t *buffer, size_t count, uint32_t details[INPLACE_DETAILS])
{
    struct survey survey;
    if (!state_stands(n, &survey)) return OCB_STATE;
    if (n->busy) return OCB_WORKING;
    uint32_t p = survey.p, k = n->dim;
    struct place place = place_in(n->nodes, p, k, n->number);
    bool due = n->flag && place.sends;
    if (due && count < frame_length(n->pass, k, p)) return OCB_BUFFER;
    memset(details, 0, INPLACE_DETAILS * sizeof *details);
    if (due) return sign_in(n, &survey, &place, buffer, details);
    if (p == 0) {
        make_fresh(n, n->nodes, n->number, (uint8_t)(n->phase + 1));
        return OCB_LEFT;
    }
    uint32_t clause = NO_CLAUSE;
    if (place.awaits)
        clause = n->pass == 1 ? first_clause(&survey.own, &n->first[k], k, p)
                              : second_clause(&survey.own, &n->second[k], k, p, n->agreed);
    if (clause == NO_CLAUSE) return move(n, &survey);
    n->flag = 0;
    details[4] = clause;
    return OCB_WAITS;
}
