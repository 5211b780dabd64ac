/*
 * EL3: reset, vectors, and the way down to a world and back. While a world runs SP_EL3 points at its saved registers; the C code has
 * this CPU's stack for itself.
 */
#include "board.h"

.macro each_pair op
    \op x2, x3, [sp, #16]
    \op x4, x5, [sp, #32]
    \op x6, x7, [sp, #48]
    \op x8, x9, [sp, #64]
    \op x10, x11, [sp, #80]
    \op x12, x13, [sp, #96]
    \op x14, x15, [sp, #112]
    \op x16, x17, [sp, #128]
    \op x18, x19, [sp, #144]
    \op x20, x21, [sp, #160]
    \op x22, x23, [sp, #176]
    \op x24, x25, [sp, #192]
    \op x26, x27, [sp, #208]
    \op x28, x29, [sp, #224]
.endm

.macro vector to
    .balign 128
    b \to
.endm

    .section .start, "ax"
    .globl _start
_start:                                 /* every CPU, at reset: MMU and caches off */
    ldr x1, =SCTLR_ABOVE
    msr sctlr_el3, x1
    adr x1, vectors
    msr vbar_el3, x1
    mov x1, #0x400                      /* TFP: an FP or SIMD instruction, at any level, traps to EL3 */
    msr cptr_el3, x1
    mov x1, #1 << 31                    /* the host below the monitor is AArch64 */
    msr hcr_el2, x1
    mrs x19, mpidr_el1
    msr vmpidr_el2, x19                 /* what EL1 reads as its own */
    isb
    and x19, x19, #0xff
    ldr x20, =stacks + AREA
    mov x1, #AREA
    madd x20, x19, x1, x20              /* the top of this CPU's stack */
    cbnz x19, 2f
    ldr x1, =bss_start
    ldr x2, =bss_end
1:  cmp x1, x2
    b.hs 3f
    str xzr, [x1], #8
    b 1b
2:  ldr x1, =el3_released               /* the other CPUs wait until EL3 wants them */
    ldr x2, =RELEASED
4:  wfe
    ldr x3, [x1]
    cmp x3, x2
    b.ne 4b
    dsb sy
3:  bl paint
    mov x0, x19
    bl el3_start
    b resume

paint:                                  /* x20: the top of the area, which becomes sp */
    mov sp, x20
    sub x1, x20, #AREA
    ldr x2, =PAINT
1:  str x2, [x1], #8
    cmp x1, x20
    b.lo 1b
    ret

lower:                                  /* an exception of a world: x0 its registers, x1 why; answers whose registers go on */
    stp x0, x1, [sp]
    each_pair stp
    str x30, [sp, #240]
    mrs x0, elr_el3
    mrs x1, spsr_el3
    str x0, [sp, #CONTEXT_ELR]
    str x1, [sp, #CONTEXT_SPSR]
    mov x19, sp
    ldr x20, [sp, #CONTEXT_STACK]
    bl paint
    mov x0, x19
    mrs x1, esr_el3
    bl el3_lower
resume:
    mov sp, x0
    ldr x0, [sp, #CONTEXT_ELR]
    ldr x1, [sp, #CONTEXT_SPSR]
    ldr x2, [sp, #CONTEXT_SCR]
    msr elr_el3, x0
    msr spsr_el3, x1
    msr scr_el3, x2
    isb
    ldr x30, [sp, #240]
    each_pair ldp
    ldp x0, x1, [sp]
    eret

own:                                    /* an exception of EL3 itself */
    mrs x0, esr_el3
    mrs x1, elr_el3
    mrs x2, far_el3
    b el3_fault

    .globl semihost                     /* x0 the operation, x1 its block */
semihost:
    hlt #0xf000
    ret

    .balign 2048
vectors:
    .rept 8
    vector own
    .endr
    vector lower                        /* from below, AArch64, synchronous */
    .rept 7
    vector own
    .endr
