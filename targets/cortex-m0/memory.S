@ The functions that the compiler calls from the library, for a Cortex-M0. Copies go five words at a time where both
@ addresses are on a word's boundary, and otherwise a word at a time, put together of two: the library copies much, at odd
@ addresses too. A product may take the functions of its C library and of libgcc instead; they have the same names.
    .syntax unified
    .cpu cortex-m0
    .thumb
    .text

    .macro function name
    .global \name
    .thumb_func
\name:
    .endm

@ void *memmove(void *to, const void *from, size_t count)
    function memmove
    function __aeabi_memmove
    function __aeabi_memmove4
    function __aeabi_memmove8
    subs r3, r0, r1
    beq 6f                  @ a place onto itself, as the library has it moved at times
    cmp r3, r2
    bhs memcpy              @ to is below from, or behind its end: forward is right
    push {r0, lr}
    adds r0, r0, r2         @ backward, from the ends
    adds r1, r1, r2
    lsls r3, r3, #30
    bne 4f                  @ never on a word's boundary together
1:  lsls r3, r0, #30        @ bytes, down to a word's boundary
    beq 2f
    subs r2, #1
    blo 5f
    subs r0, #1
    subs r1, #1
    ldrb r3, [r1]
    strb r3, [r0]
    b 1b
2:  subs r2, #4             @ words
    blo 3f
    subs r0, #4
    subs r1, #4
    ldr r3, [r1]
    str r3, [r0]
    b 2b
3:  adds r2, #4
4:  subs r2, #1             @ bytes
    blo 5f
    subs r0, #1
    subs r1, #1
    ldrb r3, [r1]
    strb r3, [r0]
    b 4b
5:  pop {r0, pc}
6:  bx lr

@ void *memcpy(void *to, const void *from, size_t count)
    function memcpy
    function __aeabi_memcpy
    function __aeabi_memcpy4
    function __aeabi_memcpy8
    push {r0, r4, r5, r6, r7, lr}
    movs r3, r0
    orrs r3, r1
    lsls r3, r3, #30
    beq 2f                  @ both on a word's boundary
    cmp r2, #12
    blo 7f
1:  lsls r3, r0, #30        @ bytes, until to is on a word's boundary: three at most
    beq 10f
    ldrb r3, [r1]
    strb r3, [r0]
    adds r0, #1
    adds r1, #1
    subs r2, #1
    b 1b
10: lsls r4, r1, #30
    bne 11f
2:  subs r2, #20            @ five words
    blo 4f
3:  ldmia r1!, {r3, r4, r5, r6, r7}
    stmia r0!, {r3, r4, r5, r6, r7}
    subs r2, #20
    bhs 3b
4:  adds r2, #16            @ words: r2 is what is left, less 4
    bmi 6f
5:  ldmia r1!, {r3}
    stmia r0!, {r3}
    subs r2, #4
    bhs 5b
6:  adds r2, #4
7:  subs r2, #1             @ bytes
    blo 9f
8:  ldrb r3, [r1]
    strb r3, [r0]
    adds r0, #1
    adds r1, #1
    subs r2, #1
    bhs 8b
9:  pop {r0, r4, r5, r6, r7, pc}

11: lsrs r4, r4, #27        @ to is on a word's boundary and from is not: a word is put together of two
    movs r5, #32            @ r4: 8 times the bytes that from is behind a boundary, r5: 32 less that
    subs r5, r5, r4
    lsrs r3, r4, #3
    subs r1, r1, r3
    ldmia r1!, {r3}
    subs r2, #4
12: lsrs r3, r4
    ldmia r1!, {r7}         @ it has at least one byte that is to be copied
    movs r6, r7
    lsls r6, r5
    orrs r3, r6
    stmia r0!, {r3}
    movs r3, r7
    subs r2, #4
    bhs 12b
    lsrs r5, r5, #3
    subs r1, r1, r5
    b 6b

@ void __aeabi_memclr(void *to, size_t count)
    function __aeabi_memclr
    function __aeabi_memclr4
    function __aeabi_memclr8
    movs r2, #0
    @ on into __aeabi_memset

@ void __aeabi_memset(void *to, size_t count, int byte)
    function __aeabi_memset
    function __aeabi_memset4
    function __aeabi_memset8
    movs r3, r1
    movs r1, r2
    movs r2, r3
    @ on into memset

@ void *memset(void *to, int byte, size_t count)
    function memset
    push {r0, r4, r5, lr}
    uxtb r1, r1             @ the byte, four times
    lsls r3, r1, #8
    orrs r1, r3
    lsls r3, r1, #16
    orrs r1, r3
1:  lsls r3, r0, #30        @ bytes, up to a word's boundary
    beq 2f
    subs r2, #1
    blo 7f
    strb r1, [r0]
    adds r0, #1
    b 1b
2:  movs r3, r1
    movs r4, r1
    movs r5, r1
    subs r2, #16            @ four words
    blo 4f
3:  stmia r0!, {r1, r3, r4, r5}
    subs r2, #16
    bhs 3b
4:  adds r2, #16
5:  subs r2, #1             @ bytes
    blo 7f
    strb r1, [r0]
    adds r0, #1
    b 5b
7:  pop {r0, r4, r5, pc}

@ int __clzsi2(uint32_t number): the leading zeros of a number
    function __clzsi2
    movs r1, r0
    movs r0, #32
    lsrs r2, r1, #16
    beq 1f
    subs r0, #16
    movs r1, r2
1:  lsrs r2, r1, #8
    beq 2f
    subs r0, #8
    movs r1, r2
2:  lsrs r2, r1, #4
    beq 3f
    subs r0, #4
    movs r1, r2
3:  adr r2, halves          @ r1 is below 16: as many bits as it has are taken off
    ldrb r2, [r2, r1]
    subs r0, r0, r2
    bx lr
    .balign 4
halves:
    .byte 0, 1, 2, 2, 3, 3, 3, 3, 4, 4, 4, 4, 4, 4, 4, 4
