/*
 * Holds the headers' numbers to the libraries: the largest board and the dimension and state of every board, where a state
 * has its tallies and stored frames, the longest frame, the words that calls take, and the places of a replay. Each must be
 * enough, and no more than is needed. Ends with status 1 where one is not.
 */
#include "ocb.h"
#include "ocb_recording.h"

#include <stdbool.h>
#include <stdio.h>
#include <stdlib.h>
#include <string.h>

/* What stands in lent words that no call has written; words enough for any call, whatever the headers say. */
#define UNWRITTEN 0xa5a5a5a5u
#define AMPLE 64

static void hold(bool held, const char *what)
{
    if (held) return;
    printf("limits: the headers and the libraries differ: %s\n", what);
    exit(1);
}

/* So many words were written, and the one behind them was not. */
static void hold_words(const uint32_t *words, uint32_t count, const char *what)
{
    hold(words[count - 1] != UNWRITTEN && words[count] == UNWRITTEN, what);
}

static void check_board(uint32_t nodes)
{
    uint32_t p, state[OCB_STATE_WORDS(OCB_NODES) + 1];
    uint32_t words = OCB_STATE_WORDS(nodes), board = nodes >= 1 && nodes <= OCB_NODES ? OCB_DONE : OCB_BOARD;
    memset(state, 0xa5, sizeof state);
    hold(ocb_dimension(nodes, &p) == board, "OCB_NODES");
    if (board != OCB_DONE) return;
    hold(p == OCB_DIMENSION(nodes), "OCB_DIMENSION");
    hold(ocb_fresh(state, words - 1, nodes, nodes - 1) == OCB_STATE, "OCB_STATE_WORDS, one fewer");
    hold(ocb_fresh(state, words, nodes, nodes - 1) == OCB_DONE, "OCB_STATE_WORDS");
    hold_words(state, words, "OCB_STATE_WORDS, written");
}

/* So many jobs each way to and from a node: they are counted in the words of its shell. */
static void check_tallies(uint32_t *state, uint32_t nodes, uint32_t number, uint32_t other)
{
    uint32_t words = OCB_STATE_WORDS(nodes), shell, sent, taken;
    hold(ocb_distance(nodes, number, other, &shell) == OCB_DONE, "a distance");
    sent = state[OCB_AT_SENT(nodes, shell)];
    taken = state[OCB_AT_TAKEN(nodes, shell)];
    hold(ocb_send(state, words, other) == OCB_DONE, "a send");
    for (int i = 0; i < 2; i++) hold(ocb_take(state, words, other, 0) == OCB_DONE, "a take");
    hold(state[OCB_AT_SENT(nodes, shell)] == sent + 1, "OCB_AT_SENT");
    hold(state[OCB_AT_TAKEN(nodes, shell)] == taken + 2, "OCB_AT_TAKEN");
}

/* A frame of the awaited node, with another number in each of its fields: it is stored in its order. */
static void check_stored(uint32_t *state, uint32_t nodes, uint32_t pass, uint32_t k, uint32_t awaited)
{
    uint32_t at = pass == 1 ? OCB_AT_FIRST(nodes, k) : OCB_AT_SECOND(nodes, k), number = 0, length;
    uint32_t fields[OCB_FIELD_WORDS] = {pass, 0, k, awaited};
    uint8_t bytes[OCB_FRAME_BYTES];
    if (pass == 1)
        for (uint32_t shell = k; shell < OCB_DIMENSION(nodes); shell++) {
            fields[7 + shell] = 1000 + shell;
            fields[7 + OCB_SHELLS + shell] = 2000 + shell;
        }
    fields[4] = 3000 + k;
    fields[5] = pass == 1 ? 4000 + k : 0;
    fields[6] = pass == 2 ? 5000 + k : 0;
    hold(state[at] == 0, "OCB_AT_FIRST, OCB_AT_SECOND: nothing is stored");
    hold(ocb_frame_write(nodes, fields, bytes, sizeof bytes, &length) == OCB_DONE, "a frame for a step");
    hold(ocb_frame_in(state, OCB_STATE_WORDS(nodes), bytes, length) == OCB_DONE, "a frame that comes in");
    hold(state[at] == 1, "OCB_AT_FIRST, OCB_AT_SECOND: a frame is stored");
    for (uint32_t byte = 4; byte < length; byte += 4) {
        number++;
        hold(state[at + number] == (bytes[byte] | (uint32_t)bytes[byte + 1] << 8), "the numbers of a stored frame");
    }
}

static void check_held(uint32_t nodes, uint32_t number)
{
    uint32_t state[OCB_STATE_WORDS(OCB_NODES)], place[OCB_PLACE_WORDS];
    hold(ocb_fresh(state, OCB_STATE_WORDS(nodes), nodes, number) == OCB_DONE, "a node");
    for (uint32_t other = 0; other < nodes; other++)
        if (other != number) check_tallies(state, nodes, number, other);
    for (uint32_t k = 0; k < OCB_DIMENSION(nodes); k++) {
        hold(ocb_place(nodes, k, number, place) == OCB_DONE, "a place");
        for (uint32_t pass = 1; pass <= 2 && place[0] != 0; pass++) check_stored(state, nodes, pass, k, place[1]);
    }
}

/* The longest frame, with another number in each of its fields, written and read again. */
static void check_frame(void)
{
    uint32_t p, length = 0, fields[AMPLE] = {1}, read[AMPLE];
    uint8_t bytes[OCB_FRAME_BYTES];
    memset(read, 0xa5, sizeof read);
    hold(ocb_dimension(OCB_NODES, &p) == OCB_DONE && p == OCB_SHELLS, "OCB_SHELLS");
    fields[4] = 4;
    fields[5] = 5;
    for (uint32_t at = 7; at < OCB_FIELD_WORDS; at++) fields[at] = at;
    hold(ocb_frame_write(OCB_NODES, fields, bytes, sizeof bytes - 1, &length) == OCB_BUFFER, "OCB_FRAME_BYTES, one fewer");
    hold(ocb_frame_write(OCB_NODES, fields, bytes, sizeof bytes, &length) == OCB_DONE, "OCB_FRAME_BYTES");
    hold(ocb_frame_read(OCB_NODES, bytes, length, read) == OCB_DONE, "a frame that is read");
    hold_words(read, OCB_FIELD_WORDS, "OCB_FIELD_WORDS");
    hold(memcmp(read, fields, 4 * OCB_FIELD_WORDS) == 0, "OCB_FIELD_WORDS, read");
}

static void check_answers(void)
{
    uint32_t state[OCB_STATE_WORDS(2)], words[AMPLE];
    uint8_t bytes[OCB_FRAME_BYTES];
    memset(words, 0xa5, sizeof words);
    hold(ocb_place(2, 0, 0, words) == OCB_DONE, "a place");
    hold_words(words, OCB_PLACE_WORDS, "OCB_PLACE_WORDS");
    memset(words, 0xa5, sizeof words);
    ocb_fresh(state, OCB_STATE_WORDS(2), 2, 0);
    ocb_idle(state, OCB_STATE_WORDS(2));
    hold(ocb_barrier(state, OCB_STATE_WORDS(2), bytes, sizeof bytes, words) == OCB_SENT, "a barrier call");
    hold_words(words, OCB_DETAIL_WORDS, "OCB_DETAIL_WORDS");
}

/* Notes on one link, one more than there are places. */
static void check_places(void)
{
    enum { NOTES = OCB_PLACES + 1 };
    static uint8_t events[OCB_EVENT_BYTES * NOTES], bytes[OCB_RECORDING_BYTES(1, NOTES)];
    static uint8_t places[OCB_PLACE_BYTES * NOTES];
    const size_t room = OCB_PLACE_BYTES * OCB_PLACES;
    uint32_t counts = NOTES, length = 0, position = 0;
    for (uint32_t i = 0; i < NOTES; i++) {
        const uint8_t note[OCB_EVENT_BYTES] = {'t', 0, 1, i < OCB_PLACES ? OCB_DONE : OCB_CROWDED};
        memcpy(&events[OCB_EVENT_BYTES * i], note, sizeof note);
    }
    hold(ocb_recording_write(2, &counts, 1, events, sizeof events, bytes, sizeof bytes, &length) == OCB_DONE, "a recording");
    hold(length == sizeof bytes, "OCB_RECORDING_BYTES");
    hold(ocb_replay(bytes, length, places, sizeof places, &position) == OCB_DONE, "OCB_PLACES");
    hold(ocb_replay(bytes, length, places, room, &position) == OCB_DONE, "OCB_PLACE_BYTES");
    hold(ocb_replay(bytes, length, places, room - 1, &position) == OCB_DIFFERS && position == OCB_PLACES - 1,
         "OCB_PLACE_BYTES, one fewer");
}

int main(void)
{
    for (uint32_t nodes = 0; nodes <= 300; nodes++) check_board(nodes);
    for (uint32_t nodes = 1; nodes <= OCB_NODES; nodes++)
        for (uint32_t number = 0; number < nodes; number++) check_held(nodes, number);
    check_frame();
    check_answers();
    check_places();
    printf("limits: the headers' numbers are those of the libraries, up to a board of %d\n", OCB_NODES);
    return 0;
}
