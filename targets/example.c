/*
 * A ROM image with the library: a board of five nodes inside one controller, so that it needs no wires. Each node sends a
 * job to the next one and a note to the one behind that, idles, and steps through the barrier until it has left its cycle;
 * three cycles are played. In a product each controller has one state, and its links take the place of the list here.
 */
#include "machine.h"
#include "ocb.h"

#include <string.h>

#define NODES 5
#define CYCLES 3
#define ITEMS 64
#define WORDS OCB_STATE_WORDS(NODES)

enum kind { JOB, FRAME, NOTE };

/* An item under way; only a frame has bytes. */
struct item {
    enum kind kind;
    uint32_t from, to, count;
    uint8_t phase, bytes[OCB_FRAME_BYTES];
};

static uint32_t states[NODES][WORDS];
static struct item items[ITEMS]; /* of all links, oldest first */
static uint32_t under_way, left;

static void put(enum kind kind, uint32_t from, uint32_t to, const uint8_t *bytes, uint32_t count)
{
    if (under_way == ITEMS) stop("too many items under way");
    struct item *item = &items[under_way++];
    item->kind = kind;
    item->from = from;
    item->to = to;
    item->count = count;
    item->phase = (uint8_t)states[from][OCB_AT_PHASE];
    if (count > 0) memcpy(item->bytes, bytes, count);
}

static uint32_t hand_in(const struct item *item)
{
    uint32_t *state = states[item->to];
    if (item->kind == JOB) return ocb_take(state, WORDS, item->from, item->phase);
    if (item->kind == NOTE) return ocb_take_note(state, WORDS, item->from, item->phase);
    return ocb_frame_in(state, WORDS, item->bytes, item->count);
}

/* Hands in the oldest item that is not early. */
static void deliver(void)
{
    for (uint32_t at = 0; at < under_way; at++) {
        uint32_t answer = hand_in(&items[at]);
        if (answer == OCB_EARLY) continue;
        if (answer != OCB_DONE && answer != OCB_DROPPED) stop("an item is refused");
        under_way--;
        memmove(&items[at], &items[at + 1], (under_way - at) * sizeof *items);
        return;
    }
}

static void send(enum kind kind, uint32_t node, uint32_t to)
{
    if (ocb_send(states[node], WORDS, to) != OCB_DONE) stop("a send is refused");
    put(kind, node, to, 0, 0);
}

static void work(uint32_t node)
{
    send(JOB, node, (node + 1) % NODES);
    send(NOTE, node, (node + 2) % NODES);
}

static void step(uint32_t node)
{
    uint8_t frame[OCB_FRAME_BYTES];
    uint32_t details[OCB_DETAIL_WORDS];
    if (states[node][OCB_AT_BUSY] && ocb_idle(states[node], WORDS) != OCB_DONE) stop("an idle call is refused");
    switch (ocb_barrier(states[node], WORDS, frame, sizeof frame, details)) {
    case OCB_SENT:
        for (uint32_t i = 0; i < details[0]; i++) put(FRAME, node, details[1 + i], frame, details[3]);
        break;
    case OCB_LEFT:
        left++;
        if (left <= (CYCLES - 1) * NODES) work(node);
        break;
    case OCB_WAITS:
    case OCB_MOVED:
        break;
    default:
        stop("a barrier call is refused");
    }
}

int main(void)
{
    for (uint32_t node = 0; node < NODES; node++)
        if (ocb_fresh(states[node], WORDS, NODES, node) != OCB_DONE) stop("a fresh state is refused");
    for (uint32_t node = 0; node < NODES; node++) work(node);
    while (left < CYCLES * NODES) {
        for (uint32_t node = 0; node < NODES; node++)
            if (states[node][OCB_AT_PHASE] < CYCLES) step(node);
        deliver();
    }
    print_number(left);
    print(" times a node has left its cycle\n");
    return 0;
}
