/*
 * Boards played at random, with every call told to the example of include/ocb_recording.h. From time to time what that has
 * kept is written, and has to play again with the same answers. Some boards come to rest between cycles, some never do.
 * Ends with status 1 where a recording is refused or differs, and where one of the ways in which the example keeps events
 * was never taken.
 */
#include "board.h"

#include <stdio.h>
#include <stdlib.h>

void log_start(uint32_t nodes);
void log_event(uint8_t letter, uint32_t first, uint32_t second, uint32_t answer, uint32_t put);
uint32_t log_write(uint8_t *buffer, size_t count, uint32_t length[1]);

/* What was met: recordings, their events, those with several sections, those that begin after the board's start, and those
 * without an event, all of which were lost. */
static uint64_t recordings, played, parted, later, empty;

/* Events since the board was started. */
static uint32_t told;

void on_event(uint8_t letter, uint32_t first, uint32_t second, uint32_t answer, uint32_t put)
{
    log_event(letter, first, second, answer, put);
    told++;
}

/* What is kept is a recording that plays again with the same answers. */
static void check(void)
{
    static uint8_t bytes[OCB_RECORDING_LONGEST], places[OCB_PLACE_BYTES * OCB_PLACES];
    uint32_t length = 0, events = 0;
    uint32_t answer = log_write(bytes, sizeof bytes, &length);
    if (answer == OCB_DONE) answer = ocb_replay(bytes, length, places, sizeof places, &events);
    if (answer != OCB_DONE || OCB_RECORDING_BYTES(bytes[1], events) != length) {
        printf("recordings: what the example kept, %u bytes, is answered %u at event %u\n", length, answer, events);
        exit(1);
    }
    recordings++;
    played += events;
    parted += bytes[1] > 1;
    later += events > 0 && events < told;
    empty += events == 0 && told > 0;
}

int main(void)
{
    for (uint32_t board = 0; board < 400; board++) {
        uint32_t nodes = 1 + below(OCB_RECORDING_NODES), busy = below(8);
        bool rests = below(4) != 0;
        board_start(nodes);
        log_start(nodes);
        told = 0;
        for (uint32_t part = 0; part < 20; part++) {
            for (uint32_t i = below(400); i > 0; i--) board_step(busy, rests);
            check();
        }
    }
    printf("recordings: %llu written by the header's example and played again, %llu events; %llu of several sections, %llu"
           " begun at a rest, %llu without an event\n", (unsigned long long)recordings, (unsigned long long)played,
           (unsigned long long)parted, (unsigned long long)later, (unsigned long long)empty);
    if (!parted || !later || !empty) {
        printf("recordings: a way of keeping events was never taken\n");
        return 1;
    }
    return 0;
}
