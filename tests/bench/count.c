/*
 * The program to run under callgrind: count P. It plays a board of P nodes, and then single calls, each from a function
 * of its own, so that callgrind gives its cost apart. It prints the names of these functions and what they stand for.
 */
#include "board.h"

#include <stdio.h>
#include <stdlib.h>

/* Calls looked for: name, kind, answer, pass of the frame or position (0: any), and whether most or least is stored. */
#define CASES(CASE)                               \
    CASE(send_bare, SEND, OCB_DONE, 0, false)     \
    CASE(send_full, SEND, OCB_DONE, 0, true)      \
    CASE(take_bare, TAKE, OCB_DONE, 0, false)     \
    CASE(take_full, TAKE, OCB_DONE, 0, true)      \
    CASE(note_bare, TAKE_NOTE, OCB_DONE, 0, false) \
    CASE(note_full, TAKE_NOTE, OCB_DONE, 0, true) \
    CASE(idle_bare, IDLE, OCB_DONE, 0, false)     \
    CASE(idle_full, IDLE, OCB_DONE, 0, true)      \
    CASE(frame_bare, FRAME_IN, OCB_DONE, 1, false) \
    CASE(frame_first, FRAME_IN, OCB_DONE, 1, true) \
    CASE(frame_full, FRAME_IN, OCB_DONE, 2, true) \
    CASE(sends_bare, BARRIER, OCB_SENT, 1, false) \
    CASE(sends_first, BARRIER, OCB_SENT, 1, true) \
    CASE(sends_full, BARRIER, OCB_SENT, 2, true)  \
    CASE(waits_bare, BARRIER, OCB_WAITS, 1, false) \
    CASE(waits_full, BARRIER, OCB_WAITS, 2, true) \
    CASE(moves_first, BARRIER, OCB_MOVED, 1, true) \
    CASE(moves_full, BARRIER, OCB_MOVED, 2, true) \
    CASE(leaves, BARRIER, OCB_LEFT, 2, true)

struct found {
    bool is_found;
    uint32_t stored;
    struct states states;
    struct call call;
};

struct wanted {
    const char *name;
    void (*replay)(struct call calls[SIDES]);
    enum kind kind;
    uint32_t answer, pass;
    bool most;
};

#define REPLAY(name, kind, answer, pass, most)                                  \
    __attribute__((noipa)) static void case_##name(struct call calls[SIDES])    \
    {                                                                           \
        library_inside(&calls[LIBRARY]);                                        \
        in_place_inside(&calls[IN_PLACE]);                                      \
        compact_inside(&calls[COMPACT]);                                        \
    }
CASES(REPLAY)

#define ENTRY(name, kind, answer, pass, most) {"case_" #name, case_##name, kind, answer, pass, most},
static const struct wanted wanted[] = {CASES(ENTRY)};

#define COUNT (sizeof wanted / sizeof *wanted)
static struct found found[COUNT];

static uint32_t stored_in(const struct inplace_node *n)
{
    uint32_t stored = 0;
    for (uint32_t k = 0; k < INPLACE_SHELLS; k++) stored += n->first[k].present + n->second[k].present;
    return stored;
}

void saw(const struct states *before, const struct call *call, uint32_t answer)
{
    uint32_t stored = stored_in(&before->node);
    uint32_t pass = call->kind == FRAME_IN ? call->bytes[0] : before->node.pass;
    for (size_t i = 0; i < COUNT; i++) {
        const struct wanted *w = &wanted[i];
        struct found *f = &found[i];
        if (w->kind != call->kind || w->answer != answer || (w->pass != 0 && w->pass != pass)) continue;
        if (f->is_found && (w->most ? stored <= f->stored : stored >= f->stored)) continue;
        f->is_found = true;
        f->stored = stored;
        f->states = *before;
        f->call = *call;
    }
}

void perform(enum side side, struct call *call)
{
    side_calls[side](call);
}

static void replay(const struct wanted *w, struct found *f)
{
    struct call calls[SIDES];
    for (enum side side = 0; side < SIDES; side++) {
        calls[side] = f->call;
        calls[side].state = state_of(&f->states, side);
    }
    w->replay(calls);
    for (enum side side = 0; side < SIDES; side++)
        if (calls[side].answer != w->answer) exit(1);
    printf("%s %u\n", w->name, (unsigned)f->stored);
}

int main(int count, char **words)
{
    uint32_t nodes = count == 2 ? (uint32_t)strtoul(words[1], NULL, 10) : 0;
    if (nodes < 2 || nodes > OCB_NODES) {
        fprintf(stderr, "count P, with P from 2 to %d\n", OCB_NODES);
        return 2;
    }
    play_measured_board(nodes);
    for (size_t i = 0; i < COUNT; i++)
        if (found[i].is_found) replay(&wanted[i], &found[i]);
    return 0;
}
