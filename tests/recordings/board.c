#include "board.h"

#include <string.h>

#define NODES OCB_RECORDING_NODES
#define WORDS OCB_STATE_WORDS(NODES)

enum kind { JOB, NOTE, FRAME };

struct item {
    enum kind kind;
    uint32_t from, to, count;
    uint8_t phase, bytes[OCB_FRAME_BYTES];
};

static uint32_t states[NODES][WORDS], nodes;
static struct item items[OCB_PLACES];
static uint32_t under_way;
static uint64_t seed = 1;

uint32_t below(uint32_t most)
{
    seed = seed * 6364136223846793005u + 1442695040888963407u;
    return (uint32_t)(seed >> 33) % most;
}

static void put(struct item item, uint32_t to)
{
    item.to = to;
    items[under_way++] = item;
}

static void send_work(uint32_t from, uint32_t to, enum kind kind)
{
    struct item work = {.kind = kind, .from = from, .phase = (uint8_t)states[from][OCB_AT_PHASE]};
    uint32_t answer = ocb_send(states[from], WORDS, to);
    if (answer == OCB_DONE) put(work, to);
    on_event(kind == JOB ? 's' : 't', from, to, answer, answer == OCB_DONE);
}

static void deliver(uint32_t from, uint32_t to)
{
    uint32_t at = 0, answer = OCB_NOTHING;
    while (at < under_way && (items[at].from != from || items[at].to != to)) at++;
    if (at < under_way) {
        const struct item *item = &items[at];
        answer = item->kind == JOB    ? ocb_take(states[to], WORDS, from, item->phase)
                 : item->kind == NOTE ? ocb_take_note(states[to], WORDS, from, item->phase)
                                      : ocb_frame_in(states[to], WORDS, item->bytes, item->count);
        if (answer != OCB_EARLY) {
            under_way--;
            memmove(&items[at], &items[at + 1], (under_way - at) * sizeof *items);
        }
    }
    on_event('d', from, to, answer, 0);
}

static void barrier(uint32_t node)
{
    uint32_t details[OCB_DETAIL_WORDS] = {0};
    struct item frame = {.kind = FRAME, .from = node, .phase = (uint8_t)states[node][OCB_AT_PHASE]};
    uint32_t answer = ocb_barrier(states[node], WORDS, frame.bytes, sizeof frame.bytes, details);
    if (answer != OCB_SENT) details[0] = 0;
    frame.count = details[3];
    for (uint32_t i = 0; i < details[0]; i++) put(frame, details[1 + i]);
    on_event('b', node, 0, answer, details[0]);
}

/* Whether a node may act: on a board that comes to rest, one that has left waits for all others. */
static bool may_act(uint32_t node, bool rests)
{
    if (!rests) return true;
    for (uint32_t other = 0; other < nodes; other++)
        if ((uint8_t)(states[node][OCB_AT_PHASE] - states[other][OCB_AT_PHASE]) == 1) return false;
    return true;
}

void board_step(uint32_t busy, bool rests)
{
    uint32_t node = below(nodes), other = below(nodes), what = below(100);
    if (under_way + 4 > OCB_PLACES || (under_way && what < 50)) {
        const struct item *item = &items[below(under_way)];
        if (may_act(item->to, rests)) deliver(item->from, item->to);
        return;
    }
    if (!may_act(node, rests)) return;
    if (what < 50 + busy) send_work(node, other, below(2) ? JOB : NOTE);
    else if (what < 60 + busy) on_event('i', node, 0, ocb_idle(states[node], WORDS), 0);
    else if (what == 99) deliver(other, node);
    else barrier(node);
}

void board_start(uint32_t size)
{
    nodes = size;
    under_way = 0;
    for (uint32_t node = 0; node < nodes; node++) ocb_fresh(states[node], WORDS, nodes, node);
}
