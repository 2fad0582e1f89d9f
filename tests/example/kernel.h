/*
 * What the example of include/ocb.h takes from its kernel, and what the kernel takes from it. harness.c is the kernel.
 */
#ifndef KERNEL_H
#define KERNEL_H

#include "ocb.h"

#include <stdbool.h>

enum { NO_ROOM = 100 };

enum kind { JOB, FRAME, NOTE };

/*
 * A job or a note: how many work messages it still sends, to whom the next one goes, and how long a chain may follow it.
 * A note sends none.
 */
struct work {
    enum kind kind;
    uint32_t sends, to, depth;
};

/*
 * An item on a link, or a job in a node's queue; it is freed when nobody holds it. Of the simulation: whether the
 * application has read it, when it arrives, the cycle of its sender counted without end, and the items behind it on its
 * link and in its queue.
 */
struct item {
    enum kind kind;
    bool read;
    uint8_t phase, bytes[OCB_FRAME_BYTES];
    size_t count;
    struct work work;
    uint64_t arrives;
    uint32_t cycle, holders;
    struct item *behind, *queued;
};

struct item *link_oldest(uint32_t from);
void link_drop_oldest(uint32_t from);
bool link_room(uint32_t to);
void link_send_work(uint32_t to, uint8_t phase, const struct work *work);
void link_send_frame(uint32_t to, const uint8_t *bytes, size_t count);
void link_wait_item(const bool *held);
void link_wait_room(const bool *held);
bool work_left(void);
bool work_run(void);
void work_queue(struct item *item);
void note_read(struct item *item);
_Noreturn void fault(void);

void start(uint32_t nodes, uint32_t me);
uint32_t send_work(uint32_t to, const struct work *work);
void cycle(void);

#endif
