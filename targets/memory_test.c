/* Holds a target's memory functions to loops over bytes: every count up to 100, every alignment, moves that overlap. */
#include "machine.h"

#include <string.h>

#define ROOM 256
#define COUNTS 100
#define APART 128 /* from here on a copy does not overlap what is at the room's start */
#define MOVES 40
#define BYTE 0x1c3 /* memset looks at its last eight bits */

/* Called through these, so that the compiler puts nothing in their place. */
static void *(*volatile copy)(void *, const void *, size_t) = memcpy;
static void *(*volatile move)(void *, const void *, size_t) = memmove;
static void *(*volatile set)(void *, int, size_t) = memset;

static uint8_t ours[ROOM], wanted[ROOM];
static uint32_t checks;

static void fill(void)
{
    for (uint32_t i = 0; i < ROOM; i++) ours[i] = wanted[i] = (uint8_t)(7 * i + 1);
}

static void check(const char *what, const void *answer, uint32_t to)
{
    checks++;
    if (answer != ours + to) stop(what);
    for (uint32_t i = 0; i < ROOM; i++)
        if (ours[i] != wanted[i]) stop(what);
}

/* What bytes brought from one place of the room to another have to give. */
static void want(uint32_t to, uint32_t from, uint32_t count)
{
    uint8_t before[ROOM];
    for (volatile uint32_t i = 0; i < ROOM; i++) before[i] = wanted[i];
    for (volatile uint32_t i = 0; i < count; i++) wanted[to + i] = before[from + i];
}

static void try_copy(uint32_t to, uint32_t from, uint32_t count)
{
    fill();
    want(to, from, count);
    check("memcpy is wrong", copy(ours + to, ours + from, count), to);
}

static void try_move(uint32_t to, uint32_t from, uint32_t count)
{
    fill();
    want(to, from, count);
    check("memmove is wrong", move(ours + to, ours + from, count), to);
}

static void try_set(uint32_t to, uint32_t count)
{
    fill();
    for (volatile uint32_t i = 0; i < count; i++) wanted[to + i] = (uint8_t)BYTE;
    check("memset is wrong", set(ours + to, BYTE, count), to);
}

#ifdef __arm__
int __clzsi2(uint32_t number);
void __aeabi_memclr(void *to, size_t count);

/* What the compiler calls under other names, as far as it does more than jump. */
static void try_names(void)
{
    for (uint32_t bit = 0; bit < 32; bit++, checks++) {
        uint32_t zeros = 31 - bit, high = 1u << bit;
        if (__clzsi2(high) != (int)zeros || __clzsi2(high | (high - 1)) != (int)zeros) stop("__clzsi2 is wrong");
    }
    fill();
    for (uint32_t i = 0; i < COUNTS; i++) wanted[i] = 0;
    __aeabi_memclr(ours, COUNTS);
    check("__aeabi_memclr is wrong", ours, 0);
}
#else
static void try_names(void)
{
}
#endif

int main(void)
{
    for (uint32_t count = 0; count <= COUNTS; count++)
        for (uint32_t to = 0; to < 4; to++) {
            for (uint32_t from = 0; from < 4; from++) try_copy(to, APART + from, count);
            for (uint32_t from = 0; from < MOVES; from++) try_move(to + 16, from, count);
            try_set(to, count);
        }
    try_names();
    print_number(checks);
    print(" checks\n");
    return 0;
}
