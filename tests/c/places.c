/*
 * Prints who talks to whom on a board: places NODES. A line for each node and dimension, in the form of the program boards.
 * Ends with status 1 where the library has no such board.
 */
#include "ocb.h"

#include <stdio.h>

static void print_place(const uint32_t place[OCB_PLACE_WORDS])
{
    unsigned awaited = place[1], hermit = place[2];
    switch (place[0]) {
    case 0: puts("alone"); break;
    case 1: printf("hermit, awaits %u\n", awaited); break;
    case 2: printf("neighbour of %u\n", awaited); break;
    default: printf("neighbour of %u and messenger to %u\n", awaited, hermit);
    }
}

int main(int count, char **words)
{
    unsigned nodes;
    uint32_t dimensions, place[OCB_PLACE_WORDS];
    if (count != 2 || sscanf(words[1], "%u", &nodes) != 1 || ocb_dimension(nodes, &dimensions) != OCB_DONE) return 1;
    puts("nodes node dimension place");
    for (uint32_t node = 0; node < nodes; node++)
        for (uint32_t k = 0; k < dimensions; k++) {
            if (ocb_place(nodes, k, node, place) != OCB_DONE) return 1;
            printf("%u %u %u ", nodes, (unsigned)node, (unsigned)k);
            print_place(place);
        }
    return 0;
}
