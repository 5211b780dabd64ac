/*
 * Below EL3: entry, SMC, and a read that may fault. Assembled for the monitor (-DLEVEL=2) and for the host (-DLEVEL=1).
 */
#include "board.h"

#if LEVEL == 2
#define OF(register) register##_el2
#define SCTLR SCTLR_ABOVE
#else
#define OF(register) register##_el1
#define SCTLR SCTLR_EL1_VALUE
#endif

    .section .start, "ax"
    .globl _start
_start:                                 /* x0 to x3 are the caller's: a boot has its arguments in them */
    ldr x5, =SCTLR
    msr OF(sctlr), x5
    ldr x5, =vectors
    msr OF(vbar), x5
    isb
    mrs x4, mpidr_el1
    and x4, x4, #0xff
    ldr x5, =stacks + AREA
    mov x6, #AREA
    madd x5, x6, x4, x5
    mov sp, x5
    ldr x7, =entered                    /* the first entry of CPU 0 is the cold one */
    ldr x6, [x7]
    cbnz x6, warm
    cbnz x4, 3f
    ldr x5, =bss_start
    ldr x6, =bss_end
1:  cmp x5, x6
    b.hs 2f
    str xzr, [x5], #8
    b 1b
2:  dsb sy
    mov x6, #1
    str x6, [x7]
    dsb sy
    sev
    b cold
3:  wfe                                 /* another CPU waits until the data is there */
    ldr x6, [x7]
    cbz x6, 3b
    dsb sy
    b warm

    .globl smc                          /* x0: eight registers, in and out */
smc:
    stp x29, x30, [sp, #-32]!
    str x0, [sp, #16]
    mov x9, x0
    ldp x0, x1, [x9]
    ldp x2, x3, [x9, #16]
    ldp x4, x5, [x9, #32]
    ldp x6, x7, [x9, #48]
    smc #0
    ldr x9, [sp, #16]
    stp x0, x1, [x9]
    stp x2, x3, [x9, #16]
    stp x4, x5, [x9, #32]
    stp x6, x7, [x9, #48]
    ldp x29, x30, [sp], #32
    ret

    .globl probe                        /* reads the word at x0; answers 0, or the syndrome of the fault */
probe:
    mov x18, #1                         /* for the vector: the fault is expected */
    ldr x1, [x0]
    mov x18, #0
    mov x0, #0
    ret

fault:
    cbz x18, 1f
    mov x18, #0
    msr OF(elr), x30                    /* back to the caller of probe */
    mrs x0, OF(esr)
    eret
1:  mrs x0, OF(esr)
    mrs x1, OF(elr)
    mrs x2, OF(far)
    b unexpected

    .balign 2048
vectors:
    .rept 16
    .balign 128
    b fault
    .endr

    .data
    .balign 8
entered: .quad 0
