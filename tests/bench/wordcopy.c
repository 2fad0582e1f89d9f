/* A memcpy as a small core has it: a word at a time. Linked with --wrap=memcpy. */
#include <stddef.h>
#include <stdint.h>

void *__wrap_memcpy(void *to, const void *from, size_t count);

/* The barrier keeps the compiler from making a memcpy, or wider moves, of the loops. */
#define KEEP __asm__ volatile("" ::: "memory")

void *__wrap_memcpy(void *to, const void *from, size_t count)
{
    uint8_t *t = to;
    const uint8_t *f = from;
    for (; count >= 4; count -= 4, t += 4, f += 4) {
        *(uint32_t *)(void *)t = *(const uint32_t *)(const void *)f;
        KEEP;
    }
    for (; count > 0; count--) {
        *t++ = *f++;
        KEEP;
    }
    return to;
}
