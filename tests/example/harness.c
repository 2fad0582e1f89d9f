/*
 * A board whose nodes each run the example of include/ocb.h: harness NODES ROOM SEED. A link has room for so many items.
 *
 * A node is a coroutine with a copy of the example's variables, which stand in a section of their own (node_memory).
 * Time is a number: items take a random time on their links, slow and quick ones, and work takes time too. Half of the
 * work messages are jobs, half are notes. A seed gives the same run again. The calls of the example come through here
 * (the linker's --wrap), so that they are seen. Each node goes through CYCLES cycles, past phase 255. The program ends
 * with status 1 where
 *
 * - the example calls fault, puts an item on a link without room, or takes a job off its link that is in no queue, or a
 *   note that the application has not read;
 * - a message is taken as one of the other kind, a note is in the queue or makes an idle node busy, or a node that took
 *   notes while idle says idle again;
 * - the board stops, or an item is left over;
 * - a node leaves a cycle with work in its queue, or while a job or note of that cycle is untaken, or while a node is
 *   busy in it or has not reached it, or a job or note of a cycle that a node has left is sent or taken;
 * - an early item is handed in again before its receiver has left, or a node that waits makes another barrier call
 *   before an item was handed in.
 */
#define _GNU_SOURCE
#include "kernel.h"

#include <stdio.h>
#include <stdlib.h>
#include <string.h>
#include <ucontext.h>

#define NODES 96
#define CYCLES 260
#define BURST_CYCLE 3
#define BURST 65540 /* more than a node may send in a cycle */
#define STACK_BYTES 65536
#define NEVER UINT64_MAX

struct link {
    struct item *oldest, *newest;
    uint32_t count;
};

struct node {
    ucontext_t context;
    char *memory;
    uint64_t goes_on;                 /* when it runs again */
    bool sleeps, for_room;            /* until an item comes in, or also until there is room */
    bool held[NODES];                 /* the links that its sleep is not for */
    bool busy, waits, handed;         /* by its calls; handed: an item was, since it waits */
    bool unread;                      /* a note is taken, and the application does not have it yet */
    bool early[NODES];                /* links from which an item was early in this cycle */
    uint32_t cycle;                   /* without end */
    struct item *first, *last, *kept; /* its jobs, and those for the next cycle */
};

extern char __start_node_memory[], __stop_node_memory[];

static struct node board[NODES];
static struct link links[NODES][NODES];
static ucontext_t scheduler;
static uint32_t nodes, room, me, done, untaken[CYCLES + 1];
static uint64_t now, seed, items; /* items: those that someone holds */
/* what was met, so often */
static unsigned long long calls, sleeps, jobs, notes, notes_idle, resting, sent_out, early, no_room;

static _Noreturn void stop(const char *why)
{
    uint32_t cycle_now = board[me].cycle;
    printf("example: board of %u, room for %u on a link: node %u in cycle %u: %s\n", nodes, room, me, cycle_now, why);
    exit(1);
}

static void check(bool holds, const char *why)
{
    if (!holds) stop(why);
}

static uint32_t below(uint32_t limit)
{
    seed ^= seed << 13;
    seed ^= seed >> 7;
    seed ^= seed << 17;
    return (uint32_t)((seed >> 16) % limit);
}

/* A node other than this one. */
static uint32_t another(void)
{
    return (me + 1 + below(nodes - 1)) % nodes;
}

/* ---- Items */

static struct item *new_item(enum kind kind)
{
    struct item *item = calloc(1, sizeof *item);
    if (item == NULL) stop("no memory");
    item->kind = kind;
    item->holders = 1;
    item->cycle = board[me].cycle;
    items++;
    return item;
}

static void release(struct item *item)
{
    if (--item->holders > 0) return;
    items--;
    free(item);
}

static void queue(struct item *item)
{
    struct node *node = &board[me];
    check(item->kind == JOB, "a note is in the queue");
    item->queued = NULL;
    item->work.to = another();
    if (node->first == NULL) node->first = item;
    else node->last->queued = item;
    node->last = item;
}

static struct item *new_job(uint32_t sends, uint32_t depth)
{
    struct item *item = new_item(JOB);
    item->work = (struct work){.kind = JOB, .sends = sends, .depth = depth};
    return item;
}

/* A note, or a job behind which a chain of so many may follow. */
static struct work some_message(uint32_t depth)
{
    if (below(2) == 0) return (struct work){.kind = NOTE};
    return (struct work){.kind = JOB, .sends = depth == 0 ? 0 : below(5), .depth = depth == 0 ? 0 : depth - 1};
}

static void keep(struct item *item)
{
    item->queued = board[me].kept;
    board[me].kept = item;
}

/* ---- Time */

static void pause_until(uint64_t when)
{
    board[me].goes_on = when;
    swapcontext(&board[me].context, &scheduler);
}

static void wake(struct node *node, uint64_t when)
{
    if (when < node->goes_on) node->goes_on = when;
}

/* Sleeps until an item has come in on a link that is not held; for room also until a link that was full has room. */
static void sleep_on(const bool *held, bool for_room)
{
    struct node *node = &board[me];
    uint64_t when = NEVER;
    for (uint32_t from = 0; from < nodes; from++) {
        const struct item *item = held[from] ? NULL : links[from][me].oldest;
        if (item != NULL && item->arrives < when) when = item->arrives;
    }
    if (when <= now) return;
    memcpy(node->held, held, nodes * sizeof *held);
    node->sleeps = true;
    node->for_room = for_room;
    sleeps++;
    pause_until(when);
    node->sleeps = node->for_room = false;
}

/* ---- The kernel: links */

struct item *link_oldest(uint32_t from)
{
    struct item *item = links[from][me].oldest;
    return item != NULL && item->arrives <= now ? item : NULL;
}

void link_drop_oldest(uint32_t from)
{
    struct link *link = &links[from][me];
    struct item *item = link->oldest;
    check(item->kind != JOB || item->holders == 2, "a job is off its link, and in no queue");
    check(item->kind != NOTE || item->read, "a note is off its link, and was not read");
    link->oldest = item->behind;
    if (link->count-- == room && board[from].for_room) wake(&board[from], now);
    release(item);
}

bool link_room(uint32_t to)
{
    check(to < nodes && to != me, "there is no such link");
    return links[me][to].count < room;
}

static void put(uint32_t to, struct item *item)
{
    struct link *link = &links[me][to];
    check(link_room(to), "an item is put on a full link");
    item->arrives = now + 1 + below(below(16) == 0 ? 400 : 12);
    if (link->oldest == NULL) link->oldest = item;
    else {
        if (item->arrives < link->newest->arrives) item->arrives = link->newest->arrives;
        link->newest->behind = item;
    }
    link->newest = item;
    link->count++;
    if (board[to].sleeps && !board[to].held[me]) wake(&board[to], item->arrives);
}

void link_send_work(uint32_t to, uint8_t phase, const struct work *work)
{
    struct item *item = new_item(work->kind);
    item->work = *work;
    item->phase = phase;
    put(to, item);
}

void link_send_frame(uint32_t to, const uint8_t *bytes, size_t count)
{
    struct item *item = new_item(FRAME);
    memcpy(item->bytes, bytes, count);
    item->count = count;
    put(to, item);
    pause_until(now + below(3));
}

void link_wait_item(const bool *held)
{
    if (below(8) == 0) {
        /* a job or a note that turns up at an idle node: one is sent in the next cycle */
        struct work work = some_message(0);
        uint32_t answer = send_work(another(), &work);
        check(answer == OCB_RESTING || answer == NO_ROOM, "an idle node sends");
        resting += answer == OCB_RESTING;
        keep(new_job(1, 0));
    }
    sleep_on(held, false);
}

void link_wait_room(const bool *held)
{
    no_room++;
    sleep_on(held, true);
}

/* ---- The kernel: work */

bool work_left(void)
{
    return board[me].first != NULL;
}

bool work_run(void)
{
    struct node *node = &board[me];
    struct item *item = node->first;
    struct work *work = &item->work;
    pause_until(now + below(4));
    if (work->sends > 0) {
        struct work next = some_message(work->depth);
        uint32_t answer = send_work(work->to, &next);
        if (answer == NO_ROOM) return false;
        check(answer == OCB_DONE || answer == OCB_SENT_OUT, "a busy node's send is refused");
        if (answer == OCB_DONE) {
            work->sends--;
            work->to = another();
            return true;
        }
        sent_out++;
    }
    node->first = item->queued;
    if (work->sends > 0) keep(item);
    else release(item);
    return true;
}

void work_queue(struct item *item)
{
    item->holders++;
    queue(item);
}

void note_read(struct item *item)
{
    check(item->kind == NOTE && board[me].unread, "what is read is no note, or was not taken");
    item->read = true;
    board[me].unread = false;
}

_Noreturn void fault(void)
{
    stop("the example calls fault");
}

/* ---- The example's calls, seen */

static void no_one_has_left(uint32_t cycle)
{
    for (uint32_t node = 0; node < nodes; node++)
        check(board[node].cycle <= cycle, "a job or note of a cycle that a node has left");
}

static void may_leave(uint32_t cycle)
{
    check(untaken[cycle] == 0, "leaves while a job or note is untaken");
    for (uint32_t node = 0; node < nodes; node++) {
        check(board[node].cycle >= cycle, "leaves before a node has reached the cycle");
        check(board[node].cycle > cycle || !board[node].busy, "leaves while a node is busy");
    }
}

static void handed_in(uint32_t from, uint32_t answer)
{
    check(!board[me].early[from], "an early item is handed in again");
    board[me].early[from] = answer == OCB_EARLY;
    board[me].handed = true;
    early += answer == OCB_EARLY;
    calls++;
}

static void taken(uint32_t from, enum kind kind)
{
    const struct item *item = links[from][me].oldest;
    check(item->kind == kind, "a job is taken as a note, or a note as a job");
    check(item->cycle == board[me].cycle, "a job or note of another cycle is taken");
    no_one_has_left(board[me].cycle);
    untaken[board[me].cycle]--;
}

uint32_t __real_ocb_send(uint32_t *state, size_t words, uint32_t to);
uint32_t __real_ocb_take(uint32_t *state, size_t words, uint32_t from, uint8_t phase);
uint32_t __real_ocb_take_note(uint32_t *state, size_t words, uint32_t from, uint8_t phase);
uint32_t __real_ocb_idle(uint32_t *state, size_t words);
uint32_t __real_ocb_frame_in(uint32_t *state, size_t words, const uint8_t *bytes, size_t count);
uint32_t __real_ocb_barrier(uint32_t *state, size_t words, uint8_t *buffer, size_t count, uint32_t *details);

uint32_t __wrap_ocb_send(uint32_t *state, size_t words, uint32_t to)
{
    uint32_t answer = __real_ocb_send(state, words, to);
    calls++;
    if (answer != OCB_DONE) return answer;
    check(board[me].busy, "sends while idle");
    no_one_has_left(board[me].cycle);
    untaken[board[me].cycle]++;
    return answer;
}

uint32_t __wrap_ocb_take(uint32_t *state, size_t words, uint32_t from, uint8_t phase)
{
    uint32_t answer = __real_ocb_take(state, words, from, phase);
    handed_in(from, answer);
    if (answer != OCB_DONE) return answer;
    taken(from, JOB);
    board[me].busy = true;
    jobs++;
    return answer;
}

uint32_t __wrap_ocb_take_note(uint32_t *state, size_t words, uint32_t from, uint8_t phase)
{
    uint32_t answer = __real_ocb_take_note(state, words, from, phase);
    handed_in(from, answer);
    if (answer != OCB_DONE) return answer;
    taken(from, NOTE);
    check(state[OCB_AT_BUSY] == board[me].busy, "a note makes a node busy or idle");
    board[me].unread = true;
    notes++;
    notes_idle += !board[me].busy;
    return answer;
}

uint32_t __wrap_ocb_idle(uint32_t *state, size_t words)
{
    check(board[me].busy, "an idle node says idle");
    uint32_t answer = __real_ocb_idle(state, words);
    calls++;
    if (answer == OCB_DONE) board[me].busy = false;
    return answer;
}

uint32_t __wrap_ocb_frame_in(uint32_t *state, size_t words, const uint8_t *bytes, size_t count)
{
    uint32_t answer = __real_ocb_frame_in(state, words, bytes, count);
    handed_in(bytes[3], answer);
    return answer;
}

uint32_t __wrap_ocb_barrier(uint32_t *state, size_t words, uint8_t *buffer, size_t count, uint32_t *details)
{
    struct node *node = &board[me];
    check(!node->waits || node->handed, "a node that waits is called again before an item was handed in");
    check(!node->busy && !node->unread, "a barrier call while busy, or before a taken note was read");
    uint32_t answer = __real_ocb_barrier(state, words, buffer, count, details);
    calls++;
    node->waits = answer == OCB_WAITS;
    node->handed = false;
    if (answer == OCB_LEFT) {
        check(node->first == NULL, "leaves with work in its queue");
        may_leave(node->cycle);
        node->cycle++;
        node->busy = true;
        memset(node->early, 0, sizeof node->early);
    }
    return answer;
}

/* ---- The nodes */

/* The jobs that a node has when a cycle begins: what it kept, and some more. */
static void begin_cycle(void)
{
    struct node *node = &board[me];
    for (struct item *item = node->kept, *after; item != NULL; item = after) {
        after = item->queued;
        queue(item);
    }
    node->kept = NULL;
    for (uint32_t i = below(3); i > 0; i--) queue(new_job(below(5), below(5)));
    if (nodes == 5 && me == 0 && node->cycle == BURST_CYCLE) queue(new_job(BURST, 0));
}

static void run_node(void)
{
    board[me].busy = true;
    start(nodes, me);
    while (board[me].cycle < CYCLES) {
        begin_cycle();
        cycle();
    }
    done++;
    pause_until(NEVER);
}

static void make_node(struct node *node)
{
    node->memory = calloc(1, (size_t)(__stop_node_memory - __start_node_memory));
    char *stack = malloc(STACK_BYTES);
    if (node->memory == NULL || stack == NULL || getcontext(&node->context) != 0) stop("no memory");
    node->context.uc_stack.ss_sp = stack;
    node->context.uc_stack.ss_size = STACK_BYTES;
    makecontext(&node->context, run_node, 0);
}

/* Lets the node that is due run until it pauses, with its own variables. */
static void run_next(void)
{
    size_t size = (size_t)(__stop_node_memory - __start_node_memory);
    uint32_t next = 0;
    for (uint32_t node = 1; node < nodes; node++)
        if (board[node].goes_on < board[next].goes_on) next = node;
    check(board[next].goes_on != NEVER, "the board has stopped");
    me = next;
    if (board[me].goes_on > now) now = board[me].goes_on;
    memcpy(__start_node_memory, board[me].memory, size);
    swapcontext(&scheduler, &board[me].context);
    memcpy(board[me].memory, __start_node_memory, size);
}

int main(int count, char **words)
{
    if (count != 4) return 1;
    nodes = (uint32_t)atoi(words[1]);
    room = (uint32_t)atoi(words[2]);
    seed = (uint64_t)atoi(words[3]) * 0x9e3779b97f4a7c15u + 1;
    if (nodes < 2 || nodes > NODES || room == 0) return 1;
    for (uint32_t node = 0; node < nodes; node++) make_node(&board[node]);
    while (done < nodes) run_next();
    for (uint32_t node = 0; node < nodes; node++)
        for (struct item *item = board[node].kept, *after; item != NULL; item = after) {
            after = item->queued;
            release(item);
        }
    check(items == 0, "an item is left over");
    check(resting > 0 && early > 0 && notes_idle > 0 && (nodes != 5 || sent_out > 0), "not everything was met");
    printf("example: board of %u, room for %u on a link: %u cycles, %llu calls, %llu jobs, %llu notes (%llu while idle),"
           " %llu sleeps, %llu times no room\n", nodes, room, CYCLES, calls, jobs, notes, notes_idle, sleeps, no_room);
    return 0;
}
