@ uint32_t timed(any_function *function, const uint32_t arguments[5], uint32_t *stack_top, uint32_t ticks[2])
@
@ Calls a function on a stack of its own and answers what it answers. ticks are what SysTick showed before and after it;
@ two instructions between the readings are not the function's, blx and the second ldr. The fifth argument goes to where
@ the stack begins, as the calling convention has it.
    .syntax unified
    .cpu cortex-m0
    .thumb
    .text
    .global timed
    .type timed, %function
    .thumb_func
timed:
    push {r3, r4, r5, r6, r7, lr}
    mov r6, sp
    ldr r4, [r1, #16]
    str r4, [r2]
    mov sp, r2
    movs r4, r0
    ldr r5, =0xe000e018     @ SysTick's current value
    mov r7, r1
    ldr r0, [r7, #0]
    ldr r1, [r7, #4]
    ldr r2, [r7, #8]
    ldr r3, [r7, #12]
    ldr r7, [r5]
    blx r4
    ldr r1, [r5]
    mov sp, r6
    ldr r2, [sp]
    str r7, [r2, #0]
    str r1, [r2, #4]
    pop {r3, r4, r5, r6, r7, pc}
