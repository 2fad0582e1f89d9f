/*
 * Plays a rehearsal script (standard input) through the C functions and prints what the program rehearse prints. With
 * the argument "details" one more line follows each frame that is sent, its receivers and its bytes, and each wait, the
 * clause that it names. It is made for scripts without a mistake, such as the repository's: at a line that it cannot play
 * it ends with status 1.
 */
#include "ocb.h"

#include <stdio.h>
#include <string.h>

#define NODES 16
#define PLACES 512
#define WORDS OCB_STATE_WORDS(NODES)

enum kind { JOB, FRAME, NOTE };

/* An item under way. Only a frame has bytes. */
struct item {
    enum kind kind;
    uint32_t from, to, count;
    uint8_t phase, bytes[OCB_FRAME_BYTES];
};

static uint32_t states[NODES][WORDS];

/* The items of all links, oldest first. */
static struct item items[PLACES];
static uint32_t under_way;

/* The frame that the last barrier call wrote, and what it said of it. */
static struct item written;
static uint32_t details[OCB_DETAIL_WORDS];

static void put(const struct item *item, uint32_t to)
{
    items[under_way] = *item;
    items[under_way].to = to;
    under_way++;
}

static void drop(uint32_t at)
{
    under_way--;
    memmove(&items[at], &items[at + 1], (under_way - at) * sizeof *items);
}

/* The place of the oldest item of a link; under_way where it has none. */
static uint32_t oldest(uint32_t from, uint32_t to)
{
    uint32_t at = 0;
    while (at < under_way && (items[at].from != from || items[at].to != to))
        at++;
    return at;
}

/* What is not refused and finds too few places is answered 15 and changes nothing: the state is put back. */
static uint32_t crowded(uint32_t node, const uint32_t before[WORDS])
{
    memcpy(states[node], before, sizeof states[node]);
    return OCB_CROWDED;
}

static uint32_t send_work(enum kind kind, uint32_t from, uint32_t to)
{
    uint32_t before[WORDS];
    memcpy(before, states[from], sizeof before);
    struct item work = {.kind = kind, .from = from, .phase = (uint8_t)states[from][OCB_AT_PHASE]};
    uint32_t answer = ocb_send(states[from], WORDS, to);
    if (answer != OCB_DONE) return answer;
    if (under_way == PLACES) return crowded(from, before);
    put(&work, to);
    return answer;
}

static uint32_t barrier(uint32_t node)
{
    uint32_t before[WORDS];
    memcpy(before, states[node], sizeof before);
    uint32_t answer = ocb_barrier(states[node], WORDS, written.bytes, sizeof written.bytes, details);
    if (answer != OCB_SENT) return answer;
    if (PLACES - under_way < details[0]) return crowded(node, before);
    written.kind = FRAME;
    written.from = node;
    written.count = details[3];
    for (uint32_t i = 0; i < details[0]; i++)
        put(&written, details[1 + i]);
    return answer;
}

static uint32_t hand_in(uint32_t to, const struct item *item)
{
    if (item->kind == JOB) return ocb_take(states[to], WORDS, item->from, item->phase);
    if (item->kind == NOTE) return ocb_take_note(states[to], WORDS, item->from, item->phase);
    return ocb_frame_in(states[to], WORDS, item->bytes, item->count);
}

static uint32_t deliver(uint32_t from, uint32_t to)
{
    uint32_t at = oldest(from, to);
    if (at == under_way) return OCB_NOTHING;
    uint32_t answer = hand_in(to, &items[at]);
    if (answer != OCB_EARLY) drop(at);
    return answer;
}

static void print_line(uint32_t node, uint32_t answer)
{
    const uint32_t *s = states[node];
    printf("%u %u %u %u %u %u %u\n", (unsigned)node, (unsigned)answer, (unsigned)s[OCB_AT_PHASE],
           (unsigned)s[OCB_AT_PASS], (unsigned)s[OCB_AT_DIMENSION], (unsigned)s[OCB_AT_FLAG],
           (unsigned)s[OCB_AT_BUSY]);
}

static void print_frame(void)
{
    printf("frame to");
    for (uint32_t i = 0; i < details[0]; i++)
        printf(" %u", (unsigned)details[1 + i]);
    printf(":");
    for (uint32_t at = 0; at < written.count; at++)
        printf(" %02x", (unsigned)written.bytes[at]);
    printf("\n");
}

static void print_details(uint32_t answer)
{
    if (answer == OCB_SENT) print_frame();
    if (answer == OCB_WAITS) printf("clause %u\n", (unsigned)details[4]);
}

/* One line of a script; 0 where it cannot be played. */
static int play(const char *line, uint32_t nodes, int detailed)
{
    unsigned a, b = 0;
    char act;
    int parts = sscanf(line, "%c %u %u", &act, &a, &b);
    int two = act == 's' || act == 't' || act == 'd';
    if (parts != 2 + two || a >= nodes || b >= nodes) return 0;
    uint32_t answer;
    if (act == 's') answer = send_work(JOB, a, b);
    else if (act == 't') answer = send_work(NOTE, a, b);
    else if (act == 'd') answer = deliver(a, b);
    else if (act == 'i') answer = ocb_idle(states[a], WORDS);
    else if (act == 'b') answer = barrier(a);
    else return 0;
    print_line(act == 'd' ? b : a, answer);
    if (detailed) print_details(answer);
    return 1;
}

int main(int count, char **words)
{
    int detailed = count == 2 && strcmp(words[1], "details") == 0;
    char line[32];
    unsigned nodes;
    puts("node answer phase pass dim flag busy");
    if (fgets(line, sizeof line, stdin) == NULL || sscanf(line, "nodes %u", &nodes) != 1 || nodes > NODES) return 1;
    for (uint32_t node = 0; node < nodes; node++)
        if (ocb_fresh(states[node], WORDS, nodes, node) != OCB_DONE) return 1;
    while (fgets(line, sizeof line, stdin) != NULL)
        if (!play(line, nodes, detailed)) return 1;
    return 0;
}
