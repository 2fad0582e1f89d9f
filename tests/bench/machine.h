/* What a program needs of the machine that it runs on: host.c has it for this one. */
#ifndef MACHINE_H
#define MACHINE_H

#include <stdint.h>

void print(const char *text);
void print_number(uint32_t number);
void print_hex(uint32_t number);

/* Ends the program with a line that says why, and a status that is not 0. */
_Noreturn void stop(const char *why);

#endif
