/*
 * The program that measures calls on an emulated Cortex-M0: instructions of each call of the schedule, and how deep each
 * call, also the other ones of targets/others.c, writes into its stack. A fifth argument is the caller's stack, not the
 * call's. -DSCHEDULE_ALONE makes no other calls.
 *
 * A call runs on a stack filled with a pattern, and SysTick tells its instructions: the emulator is told that one takes
 * 1,024 ns (-icount shift=10), and SysTick ticks at 16 MHz, so an instruction is 16.384 ticks and the count is exact.
 */
#include "machine.h"
#include "others.h"

#include <string.h>

#define STACK_WORDS 3072
#define PATTERN 0xa5a5a5a5u
#define TICK_BITS 0xffffffu
#define ARGUMENTS 5

struct figures {
    uint64_t instructions;
    uint32_t calls, most, deepest;
};

typedef void any_function(void);

uint32_t timed(any_function *function, const uint32_t arguments[ARGUMENTS], uint32_t *stack_top, uint32_t ticks[2]);

#define ANY(function) (any_function *)(function)
#define STATE_FUNCTIONS(prefix)                                                                       \
    ANY(prefix##_send), ANY(prefix##_take), ANY(prefix##_take_note), ANY(prefix##_idle),             \
        ANY(prefix##_frame_in), ANY(prefix##_barrier), ANY(prefix##_fresh)
static any_function *const functions[SIDES][KINDS] = {
    [LIBRARY] = {STATE_FUNCTIONS(ocb), ANY(ocb_dimension), ANY(ocb_place), ANY(ocb_distance), ANY(ocb_frame_write),
                 ANY(ocb_frame_read)},
    [IN_PLACE] = {STATE_FUNCTIONS(inplace)},
    [COMPACT] = {STATE_FUNCTIONS(compact)},
};

static volatile uint32_t *const systick = (volatile uint32_t *)0xe000e010;
static struct figures scheduled[SIDES][KINDS], others[SIDES][KINDS];
static bool among_others;
static _Alignas(8) uint32_t stack[STACK_WORDS + 2]; /* the last two are above it, for a fifth argument */

/* Instructions between two readings, without blx and the second reading itself. */
static uint32_t instructions(const uint32_t ticks[2])
{
    uint64_t passed = (ticks[0] - ticks[1]) & TICK_BITS;
    return (uint32_t)((passed * 1000 + 8192) / 16384) - 2;
}

/* Bytes from the top that are written; they are filled again. */
static uint32_t depth(void)
{
    uint32_t clean = 0;
    while (clean < STACK_WORDS && stack[clean] == PATTERN) clean++;
    if (clean == 0) stop("the stack is too small");
    for (uint32_t i = clean; i < STACK_WORDS; i++) stack[i] = PATTERN;
    return (STACK_WORDS - clean) * 4;
}

#define ADDRESS(pointer) (uint32_t)(uintptr_t)(pointer)

/* The arguments of a call as the registers and the stack have them; a struct comes without a count of words. */
static void put_arguments(enum side side, struct call *c, uint32_t a[ARGUMENTS])
{
    const uint32_t state = ADDRESS(c->state), bytes = ADDRESS(c->bytes), found = ADDRESS(c->found);
    const uint32_t fields = ADDRESS(c->fields), count = c->count, words = c->words;
    const uint32_t all[KINDS][ARGUMENTS] = {
        [SEND] = {state, words, c->other},
        [TAKE] = {state, words, c->other, c->phase},
        [TAKE_NOTE] = {state, words, c->other, c->phase},
        [IDLE] = {state, words},
        [FRAME_IN] = {state, words, bytes, count},
        [BARRIER] = {state, words, bytes, count, found},
        [FRESH] = {state, words, c->nodes, c->node},
        [DIMENSION] = {c->nodes, found},
        [PLACE] = {c->nodes, c->dimension, c->node, found},
        [DISTANCE] = {c->nodes, c->node, c->other, found},
        [FRAME_WRITE] = {c->nodes, fields, bytes, count, found},
        [FRAME_READ] = {c->nodes, bytes, count, fields},
    };
    memcpy(a, all[c->kind], sizeof all[c->kind]);
    if (side == IN_PLACE) memmove(a + 1, a + 2, (ARGUMENTS - 2) * sizeof *a);
}

void perform(enum side side, struct call *call)
{
    uint32_t arguments[ARGUMENTS], ticks[2];
    struct figures *f = among_others ? &others[side][call->kind] : &scheduled[side][call->kind];
    put_arguments(side, call, arguments);
    call->answer = timed(functions[side][call->kind], arguments, stack + STACK_WORDS, ticks);
    uint32_t count = instructions(ticks), deep = depth();
    f->calls++;
    f->instructions += count;
    if (count > f->most) f->most = count;
    if (deep > f->deepest) f->deepest = deep;
}

void saw(const struct states *before, const struct call *call, uint32_t answer)
{
    (void)answer;
#ifdef SCHEDULE_ALONE
    (void)before;
    (void)call;
#else
    among_others = true;
    other_call(before->words, call);
    among_others = false;
#endif
}

/* A line: what, the board, side and function; then calls, instructions on average and at most, bytes of stack. */
static void print_figures(const char *what, uint32_t nodes, enum side side, enum kind kind, const struct figures *f)
{
    if (f->calls == 0) return;
    const uint32_t numbers[] = {f->calls, (uint32_t)(f->instructions / f->calls), f->most, f->deepest};
    print(what);
    print_number(nodes);
    print(" ");
    print(side_names[side]);
    print(" ");
    print(kind_names[kind]);
    for (uint32_t i = 0; i < sizeof numbers / sizeof *numbers; i++) {
        print(" ");
        print_number(numbers[i]);
    }
    print("\n");
}

static void measure_board(uint32_t nodes)
{
    memset(scheduled, 0, sizeof scheduled);
    start_others(nodes);
    play_measured_board(nodes);
    for (enum side side = 0; side < SIDES; side++)
        for (enum kind kind = 0; kind < SCHEDULED; kind++)
            print_figures("scheduled ", nodes, side, kind, &scheduled[side][kind]);
}

static void begin(void)
{
    const uint32_t none[ARGUMENTS] = {0};
    uint32_t ticks[2];
    systick[1] = TICK_BITS; /* where it starts again */
    systick[2] = 0;
    systick[0] = 5; /* the core's clock, no interrupt */
    for (uint32_t i = 0; i < STACK_WORDS; i++) stack[i] = PATTERN;
    timed(ANY(nothing), none, stack + STACK_WORDS, ticks);
    if (instructions(ticks) != 2) stop("the empty function does not count as two instructions");
}

int main(void)
{
    const uint32_t boards[] = {2, 5, 16, OCB_NODES};
    begin();
    for (uint32_t i = 0; i < sizeof boards / sizeof *boards; i++) measure_board(boards[i]);
    for (enum side side = 0; side < SIDES; side++)
        for (enum kind kind = 0; kind < KINDS; kind++) print_figures("others ", 0, side, kind, &others[side][kind]);
    return 0;
}
