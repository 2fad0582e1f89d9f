/*
 * machine.h for an emulated target: the emulator prints and ends the run, by its semihosting calls. For WebAssembly the
 * two calls are a function from outside, which wasm32/play.mjs has.
 */
#include "machine.h"

#define SYS_WRITE0 0x04
#define SYS_EXIT_EXTENDED 0x20
#define APPLICATION_EXIT 0x20026

void finish(uint32_t status);

#ifdef __wasm__
void semihost(uint32_t operation, const void *argument);
#else
static void semihost(uint32_t operation, const void *argument)
{
#ifdef __arm__
    register uint32_t number __asm__("r0") = operation;
    register const void *given __asm__("r1") = argument;
    __asm__ volatile("bkpt 0xab" : "+r"(number) : "r"(given) : "memory");
#else
    register uint32_t number __asm__("a0") = operation;
    register const void *given __asm__("a1") = argument;
    __asm__ volatile(".balign 16\n"
                     ".option push\n"
                     ".option norvc\n"
                     "slli zero, zero, 0x1f\n"
                     "ebreak\n"
                     "srai zero, zero, 7\n"
                     ".option pop"
                     : "+r"(number)
                     : "r"(given)
                     : "memory");
#endif
}
#endif

void print(const char *text)
{
    semihost(SYS_WRITE0, text);
}

/* Digits are written from the last to the first. */
static void print_in(uint32_t number, uint32_t base, uint32_t digits)
{
    char text[11] = {0};
    uint32_t at = sizeof text - 1;
    do {
        text[--at] = "0123456789abcdef"[number % base];
        number /= base;
    } while (number > 0 || sizeof text - 1 - at < digits);
    print(text + at);
}

void print_number(uint32_t number)
{
    print_in(number, 10, 1);
}

void print_hex(uint32_t number)
{
    print_in(number, 16, 8);
}

/* The start-up's: called at a fault, and where main comes back. */
void finish(uint32_t status)
{
    const uint32_t why[2] = {APPLICATION_EXIT, status};
    for (;;) semihost(SYS_EXIT_EXTENDED, why);
}

void stop(const char *why)
{
    print(why);
    print("\n");
    finish(1);
    for (;;) {
    }
}
