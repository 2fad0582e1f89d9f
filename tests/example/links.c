/*
 * Boards whose links are emptied as late as can be, played at random: how many frames are on a link at once? Never more
 * than OCB_LINK_FRAMES has, and on some link as many. A line is printed; status 1 where that does not hold.
 *
 * Of each board one link is shut, or all links to a node, or all links from one: an item there is handed in only where
 * nothing else can happen, or seldom. Half of the work messages are jobs, half are notes.
 */
#include "ocb.h"

#include <stdbool.h>
#include <stdio.h>
#include <stdlib.h>
#include <string.h>

#define NODES 9
#define WORDS OCB_STATE_WORDS(NODES)
#define ITEMS 256
#define CYCLES 512
#define BOARDS 5000
#define TURNS 4000
#define REACHED 3 /* so many jobs and notes, at least, were taken while idle somewhere where the most is reached */

enum kind { JOB, FRAME, NOTE };

struct item {
    enum kind kind;
    uint32_t count;
    uint8_t phase, bytes[OCB_FRAME_BYTES];
};

struct link {
    struct item items[ITEMS];
    uint32_t oldest, end, frames;
};

static uint32_t states[NODES][WORDS], cycles[NODES], taken_idle[CYCLES + 1];
static struct link links[NODES][NODES];
static uint32_t nodes, most, most_reached;
static uint64_t seed;

static uint32_t below(uint32_t limit)
{
    seed ^= seed << 13;
    seed ^= seed >> 7;
    seed ^= seed << 17;
    return (uint32_t)((seed >> 16) % limit);
}

static void check(bool holds, const char *why)
{
    if (holds) return;
    printf("links: board of %u: %s\n", nodes, why);
    exit(1);
}

static struct item *put(uint32_t from, uint32_t to, enum kind kind)
{
    struct link *link = &links[from][to];
    struct item *item = &link->items[link->end++ % ITEMS];
    check(link->end - link->oldest <= ITEMS, "more items on a link than this program has places for");
    item->kind = kind;
    item->phase = (uint8_t)states[from][OCB_AT_PHASE];
    return item;
}

static void put_frame(uint32_t from, uint32_t to, const uint8_t *bytes, uint32_t count)
{
    struct item *item = put(from, to, FRAME);
    memcpy(item->bytes, bytes, count);
    item->count = count;
    uint32_t frames = ++links[from][to].frames, cycle = cycles[from];
    uint32_t times = taken_idle[cycle] + (cycle > 0 ? taken_idle[cycle - 1] : 0);
    check(frames <= OCB_LINK_FRAMES(times), "more frames on a link than OCB_LINK_FRAMES has");
    if (frames > most) most = frames;
    if (frames == OCB_LINK_FRAMES(times) && times > most_reached) most_reached = times;
}

static uint32_t hand_in(uint32_t from, uint32_t to, const struct item *item)
{
    if (item->kind == JOB) return ocb_take(states[to], WORDS, from, item->phase);
    if (item->kind == NOTE) return ocb_take_note(states[to], WORDS, from, item->phase);
    return ocb_frame_in(states[to], WORDS, item->bytes, item->count);
}

/* Whether the oldest item of a link was handed in and is off it. */
static bool deliver(uint32_t from, uint32_t to)
{
    struct link *link = &links[from][to];
    if (link->oldest == link->end) return false;
    const struct item *item = &link->items[link->oldest % ITEMS];
    bool idle = states[to][OCB_AT_BUSY] == 0;
    uint32_t answer = hand_in(from, to, item);
    if (answer == OCB_EARLY) return false;
    check(answer == OCB_DONE || answer == OCB_DROPPED, "an item is refused");
    link->oldest++;
    if (item->kind == FRAME) link->frames--;
    else taken_idle[cycles[to]] += idle;
    return true;
}

/* Whether a barrier call sent, moved or left. */
static bool step(uint32_t node)
{
    uint8_t frame[OCB_FRAME_BYTES];
    uint32_t details[OCB_DETAIL_WORDS];
    uint32_t answer = ocb_barrier(states[node], WORDS, frame, sizeof frame, details);
    if (answer == OCB_SENT)
        for (uint32_t i = 0; i < details[0]; i++) put_frame(node, details[1 + i], frame, details[3]);
    if (answer == OCB_LEFT) cycles[node]++;
    check(answer >= OCB_SENT, "a barrier call is refused");
    return answer != OCB_WAITS;
}

/* A busy node sends a job or a note, or goes idle; an idle one makes a barrier call. */
static bool act(uint32_t node, uint32_t sends)
{
    if (!states[node][OCB_AT_BUSY]) return step(node);
    uint32_t to = (node + 1 + below(nodes - 1)) % nodes;
    if (below(100) < sends) {
        check(ocb_send(states[node], WORDS, to) == OCB_DONE, "a send is refused");
        put(node, to, below(2) ? JOB : NOTE);
    } else {
        check(ocb_idle(states[node], WORDS) == OCB_DONE, "an idle call is refused");
    }
    return true;
}

static void start(void)
{
    nodes = 2 + below(NODES - 1);
    memset(links, 0, sizeof links);
    memset(cycles, 0, sizeof cycles);
    memset(taken_idle, 0, sizeof taken_idle);
    for (uint32_t node = 0; node < nodes; node++)
        check(ocb_fresh(states[node], WORDS, nodes, node) == OCB_DONE, "a fresh state is refused");
}

static void play_board(void)
{
    start();
    uint32_t kind = below(3), shut_from = below(nodes), shut_to = below(nodes);
    uint32_t sends = below(50), seldom = below(2) ? 0 : 200, idle_turns = 0;
    for (uint32_t turn = 0; turn < TURNS && cycles[0] < CYCLES - 1; turn++) {
        uint32_t from = below(nodes), to = below(nodes);
        bool shut = (kind == 1 || from == shut_from) && (kind == 2 || to == shut_to);
        bool opened = idle_turns > 20 * nodes || (seldom && below(seldom) == 0);
        bool acted = act(from, sends);
        if (from != to && (!shut || opened)) acted |= deliver(from, to);
        idle_turns = acted ? 0 : idle_turns + 1;
    }
}

int main(void)
{
    for (uint32_t board = 1; board <= BOARDS; board++) {
        seed = board * 0x9e3779b97f4a7c15u;
        play_board();
    }
    check(most_reached >= REACHED, "OCB_LINK_FRAMES is never reached");
    printf("links: %u boards, up to %u frames on a link; with %u jobs and notes taken while idle a link has had all of"
           " OCB_LINK_FRAMES\n", BOARDS, most, most_reached);
    return 0;
}
