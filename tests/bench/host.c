#include "machine.h"

#include <stdio.h>
#include <stdlib.h>

void print(const char *text)
{
    fputs(text, stdout);
}

void print_number(uint32_t number)
{
    printf("%u", (unsigned)number);
}

void print_hex(uint32_t number)
{
    printf("%08x", (unsigned)number);
}

void stop(const char *why)
{
    printf("%s\n", why);
    exit(1);
}
