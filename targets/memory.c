/*
 * The functions that the compiler calls from the library, in plain C, for a core that has no better ones. Compiled with
 * -fno-builtin, so that no loop here becomes a call to itself.
 */
#include <stdint.h>
#include <string.h>

static int on_words(const void *to, const void *from)
{
    return (((uintptr_t)to | (uintptr_t)from) & 3) == 0;
}

void *memcpy(void *restrict to, const void *restrict from, size_t count)
{
    return memmove(to, from, count);
}

static void move_up(uint8_t *t, const uint8_t *f, size_t count)
{
    if (on_words(t, f))
        for (; count >= 4; count -= 4, t += 4, f += 4) *(uint32_t *)(void *)t = *(const uint32_t *)(const void *)f;
    for (; count > 0; count--) *t++ = *f++;
}

void *memmove(void *to, const void *from, size_t count)
{
    if ((uintptr_t)to - (uintptr_t)from >= count)
        move_up(to, from, count);
    else
        for (size_t i = count; i > 0; i--) ((uint8_t *)to)[i - 1] = ((const uint8_t *)from)[i - 1];
    return to;
}

void *memset(void *to, int byte, size_t count)
{
    uint8_t *t = to;
    for (size_t i = 0; i < count; i++) t[i] = (uint8_t)byte;
    return to;
}
