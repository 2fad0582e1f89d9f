#include "board.h"

#include "machine.h"

#include <string.h>

#define ITEMS 16384

enum item_kind { JOB, FRAME, NOTE };

struct item {
    uint32_t from, to;
    enum item_kind kind;
    uint8_t phase;
    uint8_t bytes[OCB_FRAME_BYTES];
    size_t count;
};

static struct {
    uint32_t nodes, cycles;
    struct states states[OCB_NODES];
    uint32_t left[OCB_NODES]; /* how many cycles a node has left */
    uint32_t work[OCB_NODES]; /* jobs and notes that a node will still send before it idles */
    struct item items[ITEMS]; /* all links in one list, oldest first */
    uint32_t under_way;
    uint32_t round;
    uint32_t blocked[OCB_NODES][OCB_NODES]; /* the last round in which a link was held up */
} board;

static uint32_t seed;

static uint32_t below(uint32_t bound)
{
    seed = seed * 1664525u + 1013904223u;
    return (seed >> 8) % bound;
}

/* Says what was wrong with a call, and ends the program. */
static _Noreturn void fail(const struct call *call, const char *what)
{
    print("P = ");
    print_number(board.nodes);
    print(": ");
    print(kind_names[call->kind]);
    print(" answers ");
    print_number(call->answer);
    print(": ");
    stop(what);
}

/* ---- A call on every side */

static void compare(const struct call *ours, const struct call *theirs, const struct states *states, enum side side)
{
    uint32_t words[MOST_WORDS];
    const char *what = difference(ours, theirs);
    if (what != NULL) fail(theirs, what);
    words_of(states, side, words);
    if (memcmp(words, states->words, sizeof words) != 0) fail(theirs, "the state differs");
}

/* A call on every side; what the library gave stands in the call then. */
static uint32_t call_all(uint32_t at, struct call *call)
{
    struct states *states = &board.states[at];
    struct states before = *states;
    call->words = OCB_STATE_WORDS(board.nodes);
    const struct call asked = *call;
    call->state = state_of(states, LIBRARY);
    perform(LIBRARY, call);
    for (enum side side = LIBRARY + 1; side < SIDES; side++) {
        struct call theirs = asked;
        theirs.state = state_of(states, side);
        perform(side, &theirs);
        compare(call, &theirs, states, side);
    }
    saw(&before, &asked, call->answer);
    return call->answer;
}

static void must(uint32_t at, struct call *call, uint32_t wanted)
{
    if (call_all(at, call) != wanted) fail(call, "not the answer that the schedule has");
}

/* ---- The schedule */

static struct item *put_item(uint32_t from, uint32_t to, enum item_kind kind)
{
    if (board.under_way == ITEMS) stop("too many items under way");
    struct item *item = &board.items[board.under_way++];
    item->from = from;
    item->to = to;
    item->kind = kind;
    item->phase = (uint8_t)board.states[from].words[OCB_AT_PHASE];
    item->count = 0;
    return item;
}

/* How many jobs and notes a node sends before it idles. */
static uint32_t some_work(void)
{
    return board.nodes == 1 ? 0 : below(5);
}

static void send_work(uint32_t at)
{
    uint32_t to = (at + 1 + below(board.nodes - 1)) % board.nodes;
    must(at, &(struct call){.kind = SEND, .other = to}, OCB_DONE);
    put_item(at, to, below(2) ? JOB : NOTE);
    board.work[at]--;
}

static void barrier_step(uint32_t at)
{
    struct call call = {.kind = BARRIER, .count = OCB_FRAME_BYTES};
    memset(call.bytes, 0xa5, sizeof call.bytes);
    switch (call_all(at, &call)) {
    case OCB_SENT:
        for (uint32_t i = 0; i < call.found[0]; i++) {
            struct item *item = put_item(at, call.found[1 + i], FRAME);
            item->count = call.found[3];
            memcpy(item->bytes, call.bytes, item->count);
        }
        break;
    case OCB_LEFT:
        board.left[at]++;
        board.work[at] = some_work();
        break;
    case OCB_MOVED:
    case OCB_WAITS:
        break;
    default:
        fail(&call, "a barrier call is refused");
    }
}

/* One turn of a node's loop: work while there is work, and without it a step of the barrier. */
static void turn(uint32_t at)
{
    if (!board.states[at].words[OCB_AT_BUSY])
        barrier_step(at);
    else if (board.work[at] > 0)
        send_work(at);
    else
        must(at, &(struct call){.kind = IDLE}, OCB_DONE);
}

/* The item reaches its node, which may send more after a job; false where it is early and stays. */
static bool deliver(const struct item *item)
{
    static const enum kind calls[] = {[JOB] = TAKE, [FRAME] = FRAME_IN, [NOTE] = TAKE_NOTE};
    struct call call = {.kind = calls[item->kind], .other = item->from, .phase = item->phase};
    call.count = item->count;
    memcpy(call.bytes, item->bytes, item->count);
    uint32_t answer = call_all(item->to, &call);
    if (answer == OCB_EARLY) return false;
    if (answer == OCB_DONE && item->kind == JOB && below(2)) board.work[item->to]++;
    if (answer == OCB_DONE || answer == OCB_DROPPED) return true;
    fail(&call, "an item is refused");
}

/* Delivers most of what is under way, in the order of each link. */
static void deliver_some(void)
{
    uint32_t kept = 0, count = board.under_way;
    for (uint32_t i = 0; i < count; i++) {
        struct item item = board.items[i];
        uint32_t *blocked = &board.blocked[item.from][item.to];
        if (*blocked != board.round && below(4) != 0 && deliver(&item)) continue;
        *blocked = board.round;
        board.items[kept++] = item;
    }
    board.under_way = kept;
}

static bool all_have_left(void)
{
    for (uint32_t at = 0; at < board.nodes; at++)
        if (board.left[at] < board.cycles) return false;
    return true;
}

void play_board(uint32_t nodes, uint8_t phase, uint32_t cycles)
{
    memset(&board, 0, sizeof board);
    seed = nodes;
    board.nodes = nodes;
    board.cycles = cycles;
    for (uint32_t at = 0; at < nodes; at++) {
        board.work[at] = some_work();
        make_states(&board.states[at], nodes, at, phase);
    }
    while (!all_have_left()) {
        board.round++;
        for (uint32_t at = 0; at < nodes; at++)
            if (board.left[at] < board.cycles) turn(at);
        deliver_some();
    }
}

void play_measured_board(uint32_t nodes)
{
    play_board(nodes, 0, nodes < 96 ? 512 / nodes : 3);
}
