/*
 * A call of each kind on each side, on the largest board, to be traced: a node sends another a job, a note and a frame.
 * Where a kind is called twice, the trace has the second call.
 */
#include "compact.h"
#include "inplace.h"
#include "ocb.h"

#define WORDS OCB_STATE_WORDS(OCB_NODES)

static uint32_t a[WORDS], b[WORDS], details[OCB_DETAIL_WORDS];
static struct inplace_node c, d;
static uint8_t frame[OCB_FRAME_BYTES];

/* A side on words. Direct calls: the trace finds its way back behind a bl. */
#define SAMPLE(name, prefix)                                                                                    \
    static int name(void)                                                                                       \
    {                                                                                                           \
        if (prefix##_fresh(a, WORDS, OCB_NODES, 0) != OCB_DONE) return 1;                                       \
        if (prefix##_fresh(b, WORDS, OCB_NODES, 1) != OCB_DONE) return 2;                                       \
        if (prefix##_send(a, WORDS, 1) != OCB_DONE) return 3;                                                   \
        if (prefix##_take(b, WORDS, 0, 0) != OCB_DONE) return 4;                                                \
        if (prefix##_send(a, WORDS, 1) != OCB_DONE) return 5;                                                   \
        if (prefix##_take_note(b, WORDS, 0, 0) != OCB_DONE) return 6;                                           \
        if (prefix##_idle(a, WORDS) != OCB_DONE) return 7;                                                      \
        if (prefix##_barrier(a, WORDS, frame, sizeof frame, details) != OCB_SENT) return 8;                     \
        if (prefix##_frame_in(b, WORDS, frame, details[3]) != OCB_DONE) return 9;                               \
        return 0;                                                                                               \
    }
SAMPLE(sample_library, ocb)
SAMPLE(sample_compact, compact)

static int sample_in_place(void)
{
    if (inplace_fresh(&c, OCB_NODES, 0) != OCB_DONE || inplace_fresh(&d, OCB_NODES, 1) != OCB_DONE) return 11;
    if (inplace_send(&c, 1) != OCB_DONE) return 12;
    if (inplace_take(&d, 0, 0) != OCB_DONE) return 13;
    if (inplace_send(&c, 1) != OCB_DONE) return 14;
    if (inplace_take_note(&d, 0, 0) != OCB_DONE) return 15;
    if (inplace_idle(&c) != OCB_DONE) return 16;
    if (inplace_barrier(&c, frame, sizeof frame, details) != OCB_SENT) return 17;
    if (inplace_frame_in(&d, frame, details[3]) != OCB_DONE) return 18;
    return 0;
}

int main(void)
{
    int status = sample_library();
    if (status == 0) status = sample_in_place();
    return status ? status : sample_compact();
}
