/*
 * The optimistic cycle barrier: tells a node of a board when a cycle is over.
 *
 * Up to 96 nodes work in cycles. In a cycle nodes send each other work messages: a job is work for the node that takes
 * it, a note only tells it something. The cycle is over when every node has run out of work and no job or note is on
 * its way; then each node leaves it. A node counts what it sends and takes, passes its counts on in small frames while
 * it has nothing to do, and comes back to work whenever a job comes in. A note is counted like a job, and wakes nobody.
 *
 * The functions hold no memory of their own. The caller lends each call what it reads and writes: for each node a state
 * of OCB_STATE_WORDS(nodes) words, which the calls read and change in place, frames as bytes, a few words for an answer.
 * Any numbers and bytes may be handed in; what is not allowed is refused with its number, and a refused call leaves all
 * that was lent as it was. docs/BARRIER.md explains the barrier, and has a line for each refusal. ocb_recording.h has what
 * keeps a run of a board and plays it again, for a bench.
 *
 * What stays with the caller:
 *
 * - Memory. Pointers are aligned and not null, also where a count is 0, and what they point to does not overlap. One
 *   call at a time on a state, which nobody else writes. On a Cortex-M0 a call takes up to OCB_STACK_BYTES of stack.
 * - Links, one from each node to each other, each a single queue for jobs, notes and frames. They keep order, and
 *   neither lose, double nor alter what they carry.
 * - Kinds. Whether a work message is a job or a note travels with it on its link, as its phase does, and tells the
 *   receiver which call takes it, ocb_take or ocb_take_note.
 * - Room. An item, work message or frame, that does not fit its link is lost, and after a loss the board may stop for
 *   good: no node leaves too soon, but all may wait for ever. So look for room before ocb_barrier, for one frame to each
 *   of up to two receivers, and before ocb_send. Room for one item on each link is enough, as long as a node that finds
 *   none goes on taking in what comes. A link that has room whatever happens holds the jobs and notes that its sender
 *   sends over it in one cycle, at most 65,535, and OCB_LINK_FRAMES(taken_idle) frames.
 * - Early items. What is answered with OCB_EARLY is of the next cycle. It stays on its link, with all that is behind it,
 *   and is not handed in again before OCB_LEFT: until then it gets the same answer. So a node that waits can sleep.
 * - Jobs and notes that are refused. They must not be sent. 4: the node is idle; what turns up there, other than by
 *   ocb_take, is kept for the next cycle, an answer to a note too. 5: 65,535 are sent; the rest is kept likewise.
 * - Starting anew. After a lost item, after a refusal that the example takes for a fault, and where a node has started
 *   alone, the whole board is started: all nodes are made fresh together, and all links are empty.
 *
 * The cycle of a kernel, whole: tests/example compiles it as it stands here, and runs it. kernel.h is the kernel's:
 *
 * - struct item is of a kind: a JOB or a NOTE, with the phase byte of its sender (phase), or a FRAME (bytes, count).
 *   struct work is a job or a note that is to be sent, and knows which of them it is.
 * - link_oldest gives the oldest item of the link from a node, or null, and link_drop_oldest takes it off that link.
 *   work_queue takes over a job: it is the queue's then, and the link drops no more than its reference. note_read hands
 *   a note to the application, which is done with it when the call comes back, and has no work from it.
 * - link_room says whether one more item fits on the link to a node; link_send_work and link_send_frame put it there.
 * - link_wait_item comes back when there is an item on a link that is not held, link_wait_room also when there is room
 *   on a link that was full: places to sleep.
 * - work_left says whether there is work of this cycle, and work_run does some; false: it has met NO_ROOM, a number that
 *   is none of this header's.
 * - fault stops the board, and does not come back.
 *
 *     #include "ocb.h"
 *     #include "kernel.h"
 *     #include <string.h>
 *
 *     #ifndef BOARD_NODES
 *     #define BOARD_NODES 5    // of the largest board that this kernel is for
 *     #endif
 *
 *     enum { WORDS = OCB_STATE_WORDS(BOARD_NODES) };
 *     static uint32_t state[WORDS];
 *     static bool held[BOARD_NODES];    // links with an early item in front: not looked at until this node has left
 *
 *     // At each node when the board starts, with empty links.
 *     void start(uint32_t nodes, uint32_t me)
 *     {
 *         if (nodes > BOARD_NODES || ocb_fresh(state, WORDS, nodes, me) != OCB_DONE) fault();
 *         memset(held, 0, sizeof held);
 *     }
 *
 *     // A job or a note for another node: look for room, count it, send it. Answered NO_ROOM, it is tried again in this
 *     // cycle. Refused with OCB_RESTING or OCB_SENT_OUT, it is kept for the next one.
 *     uint32_t send_work(uint32_t to, const struct work *work)
 *     {
 *         if (!link_room(to)) return NO_ROOM;
 *         uint32_t answer = ocb_send(state, WORDS, to);
 *         if (answer == OCB_DONE) link_send_work(to, (uint8_t)state[OCB_AT_PHASE], work);
 *         return answer;
 *     }
 *
 *     // The oldest item on the link from a node. A note is read and not queued: a node that was idle still is, and its
 *     // barrier calls go on.
 *     void item_in(uint32_t from)
 *     {
 *         struct item *item = link_oldest(from);
 *         uint32_t answer = item->kind == JOB    ? ocb_take(state, WORDS, from, item->phase)
 *                           : item->kind == NOTE ? ocb_take_note(state, WORDS, from, item->phase)
 *                                                : ocb_frame_in(state, WORDS, item->bytes, item->count);
 *         if (answer == OCB_EARLY) {
 *             held[from] = true;
 *             return;
 *         }
 *         if (answer != OCB_DONE && answer != OCB_DROPPED) fault();
 *         if (item->kind == JOB) work_queue(item);
 *         if (item->kind == NOTE) note_read(item);
 *         link_drop_oldest(from);
 *     }
 *
 *     // Whether the frame that is due, if one is, has room on the link to each of its receivers.
 *     bool frame_room(void)
 *     {
 *         uint32_t place[OCB_PLACE_WORDS];
 *         if (state[OCB_AT_NODES] == 1 || !state[OCB_AT_FLAG]) return true;
 *         if (ocb_place(state[OCB_AT_NODES], state[OCB_AT_DIMENSION], state[OCB_AT_NUMBER], place) != OCB_DONE) fault();
 *         for (uint32_t i = 1; i < place[0]; i++)    // a neighbour has one receiver, a messenger two, others none
 *             if (!link_room(place[i])) return false;
 *         return true;
 *     }
 *
 *     // One cycle: work while there is work, and without it one step of the barrier after the other.
 *     void cycle(void)
 *     {
 *         uint8_t frame[OCB_FRAME_BYTES];
 *         uint32_t details[OCB_DETAIL_WORDS];
 *         for (;;) {
 *             for (uint32_t from = 0; from < state[OCB_AT_NODES]; from++)
 *                 if (!held[from] && link_oldest(from)) item_in(from);
 *             if (work_left()) {
 *                 if (!work_run()) link_wait_room(held);
 *                 continue;
 *             }
 *             if (state[OCB_AT_BUSY] && ocb_idle(state, WORDS) != OCB_DONE) fault();
 *             if (!frame_room()) {
 *                 link_wait_room(held);
 *                 continue;
 *             }
 *             switch (ocb_barrier(state, WORDS, frame, sizeof frame, details)) {
 *             case OCB_SENT:
 *                 for (uint32_t i = 0; i < details[0]; i++)
 *                     link_send_frame(details[1 + i], frame, details[3]);
 *                 break;
 *             case OCB_MOVED:
 *                 break;
 *             case OCB_WAITS:
 *                 link_wait_item(held);
 *                 break;
 *             case OCB_LEFT:    // the cycle is over, and items that were early are of this node's cycle now
 *                 memset(held, 0, sizeof held);
 *                 return;
 *             default:
 *                 fault();
 *             }
 *         }
 *     }
 */
#ifndef OCB_H
#define OCB_H

#include <stddef.h>
#include <stdint.h>

#ifdef __cplusplus
extern "C" {
#endif

/*
 * Grows by 1 with each change that a caller can see. In 1 every state had 200 words, and no call was told how many; in 2
 * every work message was a job; in 3 a wait could name any clause that fails; in 4 the largest board had more nodes, and a
 * frame's fields had more words; in 5 tallies and stored frames had no names.
 */
#define OCB_VERSION 6

/* Nodes of the largest board, bytes of its longest frame. */
#define OCB_NODES 96
#define OCB_FRAME_BYTES 68

/* The dimension of a board of up to OCB_NODES: the smallest p with nodes <= 2^p. Of a constant it is a constant. */
#define OCB_DIMENSION(nodes) \
    ((nodes) <= 1 ? 0 : (nodes) <= 2 ? 1 : (nodes) <= 4 ? 2 : (nodes) <= 8 ? 3 : (nodes) <= 16 ? 4 : \
     (nodes) <= 32 ? 5 : (nodes) <= 64 ? 6 : 7)

/* Shells that a frame's fields have words for: those of the largest board. */
#define OCB_SHELLS OCB_DIMENSION(OCB_NODES)

/* Words of a node's state on a board of so many nodes: a state has the numbers that its board has, and no others. */
#define OCB_STATE_WORDS(nodes) (OCB_AT_TALLIES + OCB_DIMENSION(nodes) * (OCB_DIMENSION(nodes) + 9))

/*
 * Frames that are on one link at once, at most, where idle nodes of the board have taken so many jobs and notes in the
 * sender's cycle and the one before: two nodes have one step in each pass in common, and a frame of it goes out again
 * only after a node whose counts are in it has taken one while idle. Found by reasoning (docs/BARRIER.md) and by playing
 * boards (tests/example/links.c); it is not proved by machine, and neither is that room for one item is enough.
 */
#define OCB_LINK_FRAMES(taken_idle) (2 + (taken_idle))

/*
 * Bytes of stack that any call takes on a Cortex-M0, at -O2 and at -Os, at most: a bound, rounded up. What is there
 * already, and what interrupts put there, comes on top. docs/COST.md has the bound of each function, and it is checked
 * that none is above this.
 */
#define OCB_STACK_BYTES 512

/* Words that a barrier call, a place and a frame's fields take. */
#define OCB_DETAIL_WORDS 5
#define OCB_PLACE_WORDS 3
#define OCB_FIELD_WORDS (7 + 2 * OCB_SHELLS)

/* Words of a state that a caller may read; only the functions write them. */
enum {
    OCB_AT_NODES = 0,
    OCB_AT_NUMBER = 1,
    OCB_AT_PHASE = 2,     /* the cycle's number, modulo 256 */
    OCB_AT_BUSY = 3,      /* 1 busy, 0 idle */
    OCB_AT_PASS = 4,      /* the position: pass 1 or 2 */
    OCB_AT_DIMENSION = 5, /* its dimension */
    OCB_AT_FLAG = 6,      /* 1 where its frame is not sent yet */
    OCB_AT_TOTAL = 7,     /* the agreed total T; 0 in pass 1 */
    OCB_AT_TALLIES = 8    /* from here on tallies and stored frames */
};

/*
 * Also words that a caller may read, on a board of so many nodes: for a bench, or a lamp that shows counts. shell and k are
 * below OCB_DIMENSION(nodes).
 *
 * The tallies of a shell, of jobs and notes sent to its nodes and taken from them.
 */
#define OCB_AT_SENT(nodes, shell) (OCB_AT_TALLIES + (shell))
#define OCB_AT_TAKEN(nodes, shell) (OCB_AT_TALLIES + OCB_DIMENSION(nodes) + (shell))

/*
 * The latest frame that has come for dimension k of pass 1 and of pass 2. The word is 1 where one is stored, and the
 * frame's numbers follow in their order: in pass 1 sent for the shells from k up, taken for the same, total sent, total
 * taken; in pass 2 T, total sent. Where it is 0, so are they.
 */
#define OCB_AT_FIRST(nodes, k) \
    (OCB_AT_TALLIES + 2 * OCB_DIMENSION(nodes) + (k) * (2 * OCB_DIMENSION(nodes) + 7 - (k)))
#define OCB_AT_SECOND(nodes, k) (OCB_AT_FIRST(nodes, k) + 2 * (OCB_DIMENSION(nodes) - (k)) + 3)

/* What a call answers where it does not refuse. */
enum {
    OCB_DONE = 0,
    OCB_SENT = 20,   /* barrier: a frame is written and goes to the receivers */
    OCB_WAITS = 21,  /* barrier: for a frame, or for counts that agree */
    OCB_MOVED = 22,  /* barrier: on to the next step */
    OCB_LEFT = 23,   /* barrier: the cycle is over */
    OCB_DROPPED = 24 /* frame in: a frame of the cycle before, without effect */
};

/* Numbers for a no. */
enum {
    OCB_BOARD = 1,      /* board: no nodes, or more than OCB_NODES */
    OCB_STRANGER = 2,   /* stranger: a node number that the board does not have */
    OCB_SELF = 3,       /* self: the other end is the node itself */
    OCB_RESTING = 4,    /* resting: send while idle; keep it for the next cycle */
    OCB_SENT_OUT = 5,   /* sent out: 65,535 sent in this cycle; keep it for the next */
    OCB_TAKEN_FULL = 6, /* taken full: 6,225,825 taken in this cycle */
    OCB_EARLY = 7,      /* early: of the next cycle; leave it on its link until OCB_LEFT, then hand it in again */
    OCB_FOREIGN = 8,    /* foreign: of another cycle; for a job or a note also of the one before */
    OCB_LENGTH = 9,     /* length: under 4 bytes, or not the frame's stated length */
    OCB_FIELD = 10,     /* field: a pass, a dimension or a number that a frame or a board cannot have */
    OCB_PARTNER = 11,   /* partner: the frame is not from the node awaited in its dimension */
    OCB_WORKING = 12,   /* working: barrier call while busy */
    OCB_STATE = 13,     /* state: the words are no state of a node, or too few for the board */
    OCB_BUFFER = 14,    /* buffer: shorter than the frame to be written */
    OCB_CROWDED = 15,   /* crowded, nothing, script: the rehearsal's and in recordings; no function answers them */
    OCB_NOTHING = 16,
    OCB_SCRIPT = 17
};

/*
 * ---- The calls on a state of so many words. Each answers OCB_DONE, another answer that is named, or a refusal. There
 * may be more words than the board needs; the calls leave those as they are.
 */

/*
 * Makes the state of a node that starts: busy, in phase 0, with nothing sent or taken. Refused, the words stay.
 * Refusals: 1, 2, 13 (words too few for the board).
 */
uint32_t ocb_fresh(uint32_t *state, size_t words, uint32_t nodes, uint32_t number);

/*
 * Counts one job or note sent to a node. Call it when the link has room, before the message goes out, and send that with
 * the state's phase.
 * Refusals: 13, 2, 3, 4, 5.
 */
uint32_t ocb_send(uint32_t *state, size_t words, uint32_t to);

/*
 * Counts one job taken from a node, with the phase byte it was sent with. The node is busy then, and its position that
 * of a fresh node: pass 1, dimension 0, flag 1.
 * Refusals: 13, 2, 3, 7 or 8, 6.
 */
uint32_t ocb_take(uint32_t *state, size_t words, uint32_t from, uint8_t phase);

/*
 * Counts one note in the same way, and the position is the same then, but busy or idle stays as it was. A node that took
 * it while idle needs no ocb_idle, and has to go on calling ocb_barrier, also after OCB_WAITS: it signs in again.
 * Refusals: 13, 2, 3, 7 or 8, 6.
 */
uint32_t ocb_take_note(uint32_t *state, size_t words, uint32_t from, uint8_t phase);

/*
 * Says that the node has run out of work. It may be said again.
 * Refusals: 13.
 */
uint32_t ocb_idle(uint32_t *state, size_t words);

/*
 * Hands in a frame that has come, count bytes as they were sent. OCB_DROPPED: it was late and is without effect.
 * Refusals: 13, 9 (under 4 bytes), 10 (pass, dimension), 9, 10 (numbers), 2, 3, 11, 7 or 8.
 */
uint32_t ocb_frame_in(uint32_t *state, size_t words, const uint8_t *bytes, size_t count);

/*
 * One step of the barrier at an idle node, with a buffer of count bytes; OCB_FRAME_BYTES are always enough. Call it when
 * the links to the receivers have room.
 * OCB_SENT: a frame stands at the buffer's start and goes to one or two receivers; OCB_WAITS; OCB_MOVED; OCB_LEFT.
 * details, by word: how many receivers, the first, the second, the frame's length, and for OCB_WAITS the clause that it
 * names. What an answer lacks is 0.
 * Refusals: 13, 12, 14. State, buffer and details stay then.
 *
 * The clause is the lowest-numbered one that fails, and 0 where no frame of the awaited node is stored: then no other is
 * tried. It follows from the state alone, so that every build names the same. Show it for OCB_WAITS only, with the step
 * (OCB_AT_PASS, OCB_AT_DIMENSION); ocb_place has the node awaited there. What a lamp at a clause says, where "this side"
 * is the nodes whose counts this node has added up, itself among them, and "the other side" those whose counts are in
 * the awaited node's frame. docs/BARRIER.md has what causes it and what to look at.
 *
 * - 0: no frame of this step has come from the awaited node in this cycle. That node is busy or not as far, or its frame
 *   is on its way.
 * - 1: the frame is there. What this side has sent to the other side is not what that side has taken: something is on
 *   its way, or the counts of one side are older than those of the other.
 * - 2: 1 holds. What the other side has sent to this side is not what this side has taken, for the same reasons.
 * - 3: 0 holds, and in pass 1 also 1 and 2. A sum of counts is above the limit, more than the largest board can send in
 *   a cycle: a count is wrong.
 * - 4: pass 1, last dimension: 0 to 3 hold. The totals of the whole board, sent and taken, are not the same.
 * - 5: pass 2: 0 and 3 hold. The other side has another total T than this node: one of them goes by older counts.
 * - 6: pass 2, last dimension: 0, 3 and 5 hold. What the whole board has sent by now is not T.
 */
uint32_t ocb_barrier(uint32_t *state, size_t words, uint8_t *buffer, size_t count,
                     uint32_t details[OCB_DETAIL_WORDS]);

/* ---- The tree of partners. Refused, found stays. */

/*
 * The dimension of a board: how many steps a pass has.
 * Refusals: 1.
 */
uint32_t ocb_dimension(uint32_t nodes, uint32_t found[1]);

/*
 * The place of a node in a dimension, by word: its kind, the node it awaits, and the hermit that its frame goes to as
 * well. Kinds: 0 alone (neither sends nor awaits), 1 hermit (awaits and does not send), 2 neighbour (sends to the node
 * it awaits), 3 messenger (sends to that node and to its hermit). What a kind does not have is 0.
 * Refusals: 1, 2, 10.
 */
uint32_t ocb_place(uint32_t nodes, uint32_t dimension, uint32_t node, uint32_t found[OCB_PLACE_WORDS]);

/*
 * The distance of two nodes: the shell in which each counts jobs and notes for the other.
 * Refusals: 1, 2, 3.
 */
uint32_t ocb_distance(uint32_t nodes, uint32_t a, uint32_t b, uint32_t found[1]);

/*
 * ---- Frames, for tools and tests: a kernel passes on what ocb_barrier writes and hands in what comes.
 *
 * Fields by word: pass, phase, dimension, sender, total sent, total taken, T, then sent by shell (OCB_SHELLS), taken by
 * shell (OCB_SHELLS). What a frame's pass, dimension or board does not have is 0.
 */

/*
 * Writes a frame for a board into a buffer of count bytes, and its length into length. Refused, both stay.
 * Refusals: 1, 10 (a phase above 255), 10 (pass, dimension), 10 (numbers), 2, 14.
 */
uint32_t ocb_frame_write(uint32_t nodes, const uint32_t fields[OCB_FIELD_WORDS], uint8_t *buffer, size_t count,
                         uint32_t length[1]);

/*
 * Reads a frame of a board from count bytes. Refused, fields stays.
 * Refusals: 1, 9 (under 4 bytes), 10 (pass, dimension), 9, 10 (numbers), 2.
 */
uint32_t ocb_frame_read(uint32_t nodes, const uint8_t *bytes, size_t count, uint32_t fields[OCB_FIELD_WORDS]);

#ifdef __cplusplus
}
#endif

#endif
