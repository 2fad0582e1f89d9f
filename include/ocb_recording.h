/*
 * Recordings of a board: a run that was kept, and played again on this release or on the next.
 *
 * A recording has the events of a board of 1 to 16 nodes in the order in which they came, each with the answer that it got.
 * A replay makes the same calls on a fresh board and holds each answer to the recorded one. A replay that ends well has
 * played a run of the barrier, for which all holds that is promised of runs (docs/RECORDINGS.md).
 *
 * The functions hold no memory of their own. The caller lends each what it reads and writes; any bytes and numbers may be
 * handed in; what is not allowed is refused with its number. Pointers are aligned and not null, also where a count is 0,
 * and what they point to does not overlap. They come in a library of their own, for the machine that recordings are looked
 * at on: `python3 tests/make.py recording_c` writes target/staticlib/librecording_c.a. It can be linked beside the
 * barrier's, and needs nothing of it.
 *
 * An event is four bytes: the letter of the rehearsal's line, its one or two node numbers, and the answer of the call.
 *
 * - 's', a, b: ocb_send at node a for a job to b. 't', a, b: the same for a note.
 * - 'd', a, b: the oldest item on the link from a reaches b, and is handed in there: ocb_take, ocb_take_note or
 *   ocb_frame_in. Where the link has none, the answer is OCB_NOTHING.
 * - 'i', a, 0: ocb_idle at a. 'b', a, 0: ocb_barrier at a.
 *
 * An item that is answered OCB_EARLY stays on its link; any other answer takes it off. The replay keeps what is on the
 * links in places that it is lent, and answers OCB_CROWDED where they are too few.
 *
 * A kernel that keeps the last events and writes them out, whole: tests/recordings compiles it as it stands here, and runs
 * it. A replay begins with a fresh board, so what is kept has to begin where the board was one. That is so when it is
 * started, and between two cycles where every node has left the one before and made no call since, and no link has an
 * item; phases have gone on, but no answer shows that. So a section is kept for the calls from one such rest to the next,
 * and where memory ends the oldest section goes. On a board that does not come to rest, nothing can be kept from the
 * middle of it on: then what is kept is given up, and keeping begins again with the next rest.
 *
 *     #include "ocb.h"
 *     #include "ocb_recording.h"
 *     #include <stdbool.h>
 *     #include <string.h>
 *
 *     #ifndef KEPT
 *     #define KEPT 2000    // events that there is memory for; OCB_RECORDING_BYTES(OCB_SECTIONS, KEPT) is at most 60,000
 *     #endif
 *
 *     static uint8_t events[OCB_EVENT_BYTES * KEPT];
 *     static uint32_t counts[OCB_SECTIONS];    // how many of them each section has, the oldest first
 *     static uint32_t board, sections, kept, under_way;
 *     static bool as_fresh[OCB_RECORDING_NODES];    // the node has made no call since it was fresh
 *     static bool lost;    // an event was not kept
 *
 *     static void forget(void)
 *     {
 *         sections = 1;
 *         counts[0] = kept = 0;
 *     }
 *
 *     // When the board starts: all nodes are fresh, and all links are empty.
 *     void log_start(uint32_t nodes)
 *     {
 *         board = nodes;
 *         under_way = 0;
 *         lost = false;
 *         memset(as_fresh, true, sizeof as_fresh);
 *         forget();
 *     }
 *
 *     static bool at_rest(void)
 *     {
 *         for (uint32_t node = 0; node < board; node++)
 *             if (!as_fresh[node]) return false;
 *         return under_way == 0;
 *     }
 *
 *     static void drop_oldest(void)
 *     {
 *         kept -= counts[0];
 *         memmove(events, events + OCB_EVENT_BYTES * counts[0], OCB_EVENT_BYTES * kept);
 *         memmove(counts, counts + 1, --sections * sizeof *counts);
 *     }
 *
 *     static void next_section(void)
 *     {
 *         if (lost) forget();
 *         lost = false;
 *         if (counts[sections - 1] == 0) return;
 *         if (sections == OCB_SECTIONS) drop_oldest();
 *         counts[sections++] = 0;
 *     }
 *
 *     static void keep(uint8_t letter, uint32_t first, uint32_t second, uint32_t answer)
 *     {
 *         while (kept == KEPT && sections > 1) drop_oldest();
 *         if (kept == KEPT) lost = true;
 *         if (lost) {
 *             forget();
 *             return;
 *         }
 *         uint8_t event[OCB_EVENT_BYTES] = {letter, (uint8_t)first, (uint8_t)second, (uint8_t)answer};
 *         memcpy(events + OCB_EVENT_BYTES * kept++, event, sizeof event);
 *         counts[sections - 1]++;
 *     }
 *
 *     // After each call of the board, with its answer and how many items it has put on links: for a send that is done 1,
 *     // for OCB_SENT details[0], else 0.
 *     void log_event(uint8_t letter, uint32_t first, uint32_t second, uint32_t answer, uint32_t put)
 *     {
 *         if (at_rest()) next_section();
 *         keep(letter, first, second, answer);
 *         under_way += put;
 *         if (letter == 'd' && answer != OCB_EARLY && answer != OCB_NOTHING) under_way--;
 *         as_fresh[letter == 'd' ? second : first] = answer == OCB_LEFT;
 *     }
 *
 *     // What is kept, as a recording: OCB_DONE with its length, or a refusal.
 *     uint32_t log_write(uint8_t *buffer, size_t count, uint32_t length[1])
 *     {
 *         return ocb_recording_write(board, counts, sections, events, OCB_EVENT_BYTES * kept, buffer, count, length);
 *     }
 */
#ifndef OCB_RECORDING_H
#define OCB_RECORDING_H

#include <stddef.h>
#include <stdint.h>

#ifdef __cplusplus
extern "C" {
#endif

/* The largest board of a recording, the most sections, the bytes of an event, the most bytes of a recording. */
#define OCB_RECORDING_NODES 16
#define OCB_SECTIONS 32
#define OCB_EVENT_BYTES 4
#define OCB_RECORDING_LONGEST 60000

/* Bytes of a recording of so many sections that have so many events together. */
#define OCB_RECORDING_BYTES(sections, events) (2 + 4 * (sections) + OCB_EVENT_BYTES * (events))

/* A replay's places for items: bytes of one, and how many are used at most. */
#define OCB_PLACE_BYTES 68
#define OCB_PLACES 512

/* Words that a recording's head takes. */
#define OCB_HEAD_WORDS 3

/* Numbers for a no, beside OCB_BUFFER (14). */
enum {
    OCB_RECORDING = 18, /* recording: the bytes, or the numbers handed, are none */
    OCB_DIFFERS = 19    /* differs: an answer is not the recorded one */
};

/*
 * Reads a recording of count bytes. counts: how many events each section has, for up to `sections` sections; events: the
 * events of all sections in their order, four bytes each, at most `room` bytes; found: how many nodes, sections and events
 * it has. Refused, all of them stay, and what is not needed of them stays in any case.
 * Refusals: 18, 14 (counts or events too short).
 */
uint32_t ocb_recording_read(const uint8_t *bytes, size_t count, uint32_t *counts, size_t sections, uint8_t *events,
                            size_t room, uint32_t found[OCB_HEAD_WORDS]);

/*
 * Writes a recording into a buffer of count bytes, and its length into length. A board of so many nodes; counts: how many
 * events each section has; events: those of all sections, `size` bytes. Refused, buffer and length stay.
 * Refusals: 18 (nodes not 1 to 16, sections not 1 to 32, size not four bytes for each event that counts tells, an event
 * that is none, longer than OCB_RECORDING_LONGEST), 14.
 */
uint32_t ocb_recording_write(uint32_t nodes, const uint32_t *counts, size_t sections, const uint8_t *events, size_t size,
                             uint8_t *buffer, size_t count, uint32_t length[1]);

/*
 * Plays a recording of count bytes again, on a fresh board, with `room` bytes lent as places for items: OCB_PLACE_BYTES
 * each, of which OCB_PLACES are used at most; with fewer, OCB_CROWDED is answered sooner, and is compared as any other
 * answer. OCB_DONE: every answer was the recorded one, and position is the number of events.
 * Refusals: 18, before anything is played: position and places stay; 19: position is that of the first event whose answer
 * differs, counted from 0 over all sections, and the places are left as the events up to and with that one left them.
 */
uint32_t ocb_replay(const uint8_t *recording, size_t count, uint8_t *places, size_t room, uint32_t position[1]);

#ifdef __cplusplus
}
#endif

#endif
