/*
 * How deep each call writes into its stack, and how many bytes it has memcpy move. Each call runs on a stack filled
 * with a pattern; what a call of an empty function uses is taken off. Linked with --wrap=memcpy.
 */
#define _XOPEN_SOURCE 700
#include "board.h"

#include <stdio.h>
#include <string.h>
#include <ucontext.h>

#define STACK (16 * 1024)
#define PATTERN 0xa5

static struct figures {
    size_t deepest, moved_most;
    unsigned long long moved, calls;
} figures[SIDES][SCHEDULED];

static size_t around[SIDES]; /* what a call of the empty function uses */
static uint8_t stack[STACK];
static ucontext_t outside, inside;
static enum side side_now;
static struct call *call_now;
static size_t moved;

void *__real_memcpy(void *to, const void *from, size_t count);
void *__wrap_memcpy(void *to, const void *from, size_t count);

void *__wrap_memcpy(void *to, const void *from, size_t count)
{
    moved += count;
    return __real_memcpy(to, from, count);
}

static void on_stack(void)
{
    side_calls[side_now](call_now);
}

/* Runs a call on the painted stack; how many bytes from its top are written. */
static size_t depth_of(enum side side, struct call *call)
{
    size_t clean = 0;
    memset(stack, PATTERN, sizeof stack);
    getcontext(&inside);
    inside.uc_stack.ss_sp = stack;
    inside.uc_stack.ss_size = sizeof stack;
    inside.uc_link = &outside;
    makecontext(&inside, on_stack, 0);
    side_now = side;
    call_now = call;
    swapcontext(&outside, &inside);
    while (clean < sizeof stack && stack[clean] == PATTERN) clean++;
    return sizeof stack - clean;
}

void perform(enum side side, struct call *call)
{
    struct figures *f = &figures[side][call->kind];
    if (around[side] == 0) around[side] = depth_of(side, &(struct call){.kind = KINDS});
    moved = 0;
    size_t depth = depth_of(side, call);
    if (depth - around[side] > f->deepest) f->deepest = depth - around[side];
    if (moved > f->moved_most) f->moved_most = moved;
    f->moved += moved;
    f->calls++;
}

void saw(const struct states *before, const struct call *call, uint32_t answer)
{
    (void)before;
    (void)call;
    (void)answer;
}

/* The bytes of a state on each side: a struct has room for the largest board, words are as many as the board needs. */
static void print_state(uint32_t nodes)
{
    const size_t words = OCB_STATE_WORDS(nodes) * sizeof(uint32_t);
    printf("state %u %zu %zu %zu\n", (unsigned)nodes, words, sizeof(struct inplace_node), words);
}

int main(void)
{
    const uint32_t boards[] = {2, 5, 16, OCB_NODES};
    const size_t count = sizeof boards / sizeof *boards;
    for (size_t i = 0; i < count; i++) play_measured_board(boards[i]);
    for (size_t i = 0; i < count; i++) print_state(boards[i]);
    for (int kind = 0; kind < SCHEDULED; kind++) {
        printf("%s", kind_names[kind]);
        for (enum side side = 0; side < SIDES; side++) {
            const struct figures *f = &figures[side][kind];
            printf(" %zu %llu %zu", f->deepest, f->moved / f->calls, f->moved_most);
        }
        printf("\n");
    }
    return 0;
}
