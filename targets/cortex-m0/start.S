@ Start-up of a Cortex-M0: the vector table, memory for C, main. A product has its own vectors behind the first two.
    .syntax unified
    .cpu cortex-m0
    .thumb

    .section .start, "a"
    .word stack_top
    .word start
    .rept 14
    .word fault
    .endr

    .text

@ Copies .data, clears .bss and calls main.
    .global start
    .type start, %function
    .thumb_func
start:
    ldr r0, =data_start
    ldr r1, =data_end
    ldr r2, =data_image
1:  cmp r0, r1
    bhs 2f
    ldmia r2!, {r3}
    stmia r0!, {r3}
    b 1b
2:  ldr r0, =bss_start
    ldr r1, =bss_end
    movs r3, #0
3:  cmp r0, r1
    bhs 4f
    stmia r0!, {r3}
    b 3b
4:  bl main
    bl finish        @ a product does not come back from main

@ A fault ends the run with a status that is not 0; a product stops or starts again.
    .type fault, %function
    .thumb_func
fault:
    movs r0, #99
    bl finish
