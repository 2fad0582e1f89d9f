# Start-up of a RISC-V core with one thread: the stack, memory for C, main.
    .option arch, +zicsr
    .section .start, "ax"
    .global start
start:
    la sp, stack_top
    la t0, fault
    csrw mtvec, t0
    la a0, data_start
    la a1, data_end
    la a2, data_image
1:  bgeu a0, a1, 2f
    lw t0, 0(a2)
    sw t0, 0(a0)
    addi a0, a0, 4
    addi a2, a2, 4
    j 1b
2:  la a0, bss_start
    la a1, bss_end
3:  bgeu a0, a1, 4f
    sw zero, 0(a0)
    addi a0, a0, 4
    j 3b
4:  call main
    call finish

# A fault ends the run with a status that is not 0; a product stops or starts again.
    .balign 4
fault:
    li a0, 99
    call finish
