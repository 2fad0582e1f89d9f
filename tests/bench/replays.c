/*
 * How fast recordings are read and replayed on this machine: for boards of some sizes a recording as long as one can be is
 * made, read and replayed, and a line printed: nodes, bytes, events, seconds to read, seconds to replay, each the best of
 * several, and how many bytes of stack the replay takes.
 */
#define _XOPEN_SOURCE 700
#include "../recordings/board.h"

#include <stdio.h>
#include <stdlib.h>
#include <string.h>
#include <time.h>
#include <ucontext.h>

#define STACK (1024 * 1024)
#define PATTERN 0xa5

enum { MOST = (OCB_RECORDING_LONGEST - OCB_RECORDING_BYTES(1, 0)) / OCB_EVENT_BYTES, TIMES = 5 };

static uint8_t events[OCB_EVENT_BYTES * MOST], bytes[OCB_RECORDING_LONGEST], places[OCB_PLACE_BYTES * OCB_PLACES];
static uint32_t kept;

void on_event(uint8_t letter, uint32_t first, uint32_t second, uint32_t answer, uint32_t put)
{
    (void)put;
    uint8_t event[OCB_EVENT_BYTES] = {letter, (uint8_t)first, (uint8_t)second, (uint8_t)answer};
    for (size_t i = 0; i < sizeof event; i++) events[OCB_EVENT_BYTES * kept + i] = event[i];
    kept++;
}

static double now(void)
{
    struct timespec time;
    clock_gettime(CLOCK_MONOTONIC, &time);
    return (double)time.tv_sec + 1e-9 * (double)time.tv_nsec;
}

static void expect(uint32_t answer)
{
    if (answer == OCB_DONE) return;
    printf("replays: answered %u\n", answer);
    exit(1);
}

static uint8_t stack[STACK];
static ucontext_t outside, inside;
static uint32_t length, position;

static void on_stack(void)
{
    expect(ocb_replay(bytes, length, places, sizeof places, &position));
}

/* Replays on a stack filled with a pattern; how many bytes from its top are written. */
static size_t depth(void)
{
    size_t clean = 0;
    memset(stack, PATTERN, sizeof stack);
    getcontext(&inside);
    inside.uc_stack.ss_sp = stack;
    inside.uc_stack.ss_size = sizeof stack;
    inside.uc_link = &outside;
    makecontext(&inside, on_stack, 0);
    swapcontext(&outside, &inside);
    while (clean < sizeof stack && stack[clean] == PATTERN) clean++;
    return sizeof stack - clean;
}

static void measure(uint32_t nodes)
{
    uint32_t counts[1] = {MOST}, found[OCB_HEAD_WORDS];
    board_start(nodes);
    for (kept = 0; kept < MOST;) board_step(2, false);
    expect(ocb_recording_write(nodes, counts, 1, events, sizeof events, bytes, sizeof bytes, &length));
    double read = 1e9, replay = 1e9;
    for (int time = 0; time < TIMES; time++) {
        double began = now();
        expect(ocb_recording_read(bytes, length, counts, 1, events, sizeof events, found));
        double done = now();
        expect(ocb_replay(bytes, length, places, sizeof places, &position));
        double ended = now();
        if (done - began < read) read = done - began;
        if (ended - done < replay) replay = ended - done;
    }
    printf("%u %u %u %.6f %.6f %zu\n", nodes, length, position, read, replay, depth());
}

int main(void)
{
    measure(2);
    measure(5);
    measure(OCB_RECORDING_NODES);
    return 0;
}
