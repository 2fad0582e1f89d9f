/*
 * Plays boards through the library, with other calls in between, and prints a hash of all that the calls gave: every
 * answer, frame, word found and state. The same file is compiled for this machine, with the archive for x86-64, and
 * for each target with its own; what is printed must be the same. -DLONG plays more.
 *
 * A line has a board's nodes, how many calls were made on it, and the hash of the calls since the line before. At the end
 * stands how often each function gave which answer.
 */
#include "machine.h"
#include "others.h"

#define BLOCK 256
#define ANSWERS 32

/* Boards by nodes, first phase and cycles; all go past phase 255. */
static const struct {
    uint32_t nodes;
    uint8_t phase;
    uint32_t cycles;
} boards[] = {
#ifdef LONG
    {1, 0, 600}, {2, 0, 520}, {5, 0, 264}, {16, 0, 264}, {61, 250, 24}, {OCB_NODES, 250, 16},
#else
    {1, 0, 264}, {2, 0, 264}, {5, 225, 64}, {16, 244, 24}, {61, 252, 5}, {OCB_NODES, 254, 3},
#endif
};

/* Two hashes of 32 bits side by side, since a small core multiplies no more at once. */
static uint32_t first_hash, second_hash;
static uint32_t nodes_now, calls, answers[KINDS][ANSWERS];

static void add(uint32_t number)
{
    first_hash = (first_hash ^ number) * 0x01000193u;
    second_hash = ((second_hash >> 15 ^ second_hash) + number) * 0x85ebca6bu;
}

static void add_words(const uint32_t *words, uint32_t count)
{
    for (uint32_t i = 0; i < count; i++) add(words[i]);
}

static void end_block(void)
{
    print_number(nodes_now);
    print(" ");
    print_number(calls);
    print(" ");
    print_hex(first_hash);
    print_hex(second_hash);
    print("\n");
    first_hash = 0x811c9dc5u;
    second_hash = 0;
}

void perform(enum side side, struct call *call)
{
    side_calls[side](call);
    if (side != LIBRARY) return;
    add((uint32_t)call->kind);
    add(call->answer);
    for (uint32_t i = 0; i < CALL_BYTES; i++) add(call->bytes[i]);
    add_words(call->found, OCB_DETAIL_WORDS);
    add_words(call->fields, OCB_FIELD_WORDS);
    add_words(call->state, call->words);
    answers[call->kind][call->answer < ANSWERS ? call->answer : ANSWERS - 1]++;
    if (++calls % BLOCK == 0) end_block();
}

void saw(const struct states *before, const struct call *call, uint32_t answer)
{
    (void)answer;
    other_call(before->words, call);
}

/* How often a function gave an answer. */
static void print_answers(enum kind kind)
{
    for (uint32_t i = 0; i < ANSWERS; i++) {
        if (answers[kind][i] == 0) continue;
        print("answered ");
        print(kind_names[kind]);
        print(" ");
        print_number(i);
        print(" ");
        print_number(answers[kind][i]);
        print("\n");
    }
}

int main(void)
{
    for (uint32_t i = 0; i < sizeof boards / sizeof *boards; i++) {
        nodes_now = boards[i].nodes;
        calls = 0;
        start_others(nodes_now);
        play_board(nodes_now, boards[i].phase, boards[i].cycles);
        end_block();
    }
    for (enum kind kind = 0; kind < KINDS; kind++) print_answers(kind);
    return 0;
}
