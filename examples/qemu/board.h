/* Numbers that C and assembly of all three programs share, and the script that runs them: the memory map of QEMU's machine "virt", the
 * board's addresses in it, and what the platform gives. */
#ifndef BOARD_H
#define BOARD_H

#define SECURE_RAM 0x0E000000 /* EL3's data; its code is in the flash at 0. Neither can be read from below EL3. */
#define UART 0x09000000       /* PL011 */
#define MONITOR 0x41000000    /* the monitor's image */
#define PAGE 0x42000000       /* B: the shared page */
#define HOST 0x43000000       /* the host's image */
#define SETTINGS 0x43F00000   /* a word that the emulator's loader sets before the start: */
#define SET_BROKEN 1          /* the manifest's checksum is broken before the monitor is entered */
#define SET_WRONG 2           /* the monitor expects a wrong answer */
#define SET_STACK 4           /* the stack of each command is printed */
#define SET_OLDER 8           /* EL3 offers an older interface, which has no token signing and no key update */
#define SET_HIGH 16           /* the code of the monitor's first boot is 2^32: 0 in the low 32 bits */
#define MEMORY 0x44000000     /* the first bank of the manifest, and the first granule of the granule table */
#define MEMORY_BYTES 0x04000000
#define HIGH 0x4A000000       /* the second bank; addresses between the banks are not granules */
#define HIGH_BYTES 0x06000000
#define GRANULES ((MEMORY_BYTES + HIGH_BYTES) / 4096) /* of both banks, a byte each in the table */
#define CPUS 2

#define SYSTEM_OFF 0x84000008 /* PSCI; here x1 is the number of wrong results */

/* An OEM call, only for the test: what the platform gives from now on. x1 and x2 are the lengths of realm key and token, x3 is
 * MECIDWidthm1. OK, or INVAL for more bytes than there are. */
#define PLATFORM_GIVES 0xC3000001

/* Another call for the test: while x1 is not 0 EL3 prints no line for a command. Two CPUs that call at the same time would print their lines
 * in any order. */
#define BOARD_QUIET 0xC3000002

/* The board's own call for a list: delegates the granules of a list in the page. x1 is the list's address, x2 the number of granules. The answer
 * is that of pbeam_delegate_list, or BAD_ADDR or INVAL for a list that is not in the monitor's part of the page, or too long. */
#define BOARD_LIST 0xC3000003
#define LIST_MOST 16

/* Lengths of what the platform gives: keys and signatures as those of SECP384R1 are. */
#define TOKEN_BYTES 100
#define REALM_KEY_BYTES 48
#define PUBLIC_KEY_BYTES 97
#define SIGNATURE_BYTES 96

/* Stacks. The whole area is filled with a pattern, so that a stack that outgrows its part is noticed and does no harm. */
#define AREA 0x4000
#define EL3_STACK 2048

/* A world's saved registers: x0 to x30, then these. */
#define CONTEXT_ELR 248
#define CONTEXT_SPSR 256
#define CONTEXT_SCR 264
#define CONTEXT_STACK 272

#define PAINT 0x5AFE5AFE5AFE5AFE
#define RELEASED 0x52454C4541534544 /* no word that secure RAM holds by chance */

/* SCTLR of EL3 and EL2, and of EL1: MMU and caches off, alignment checked (A), stack alignment checked (SA), reserved ones. */
#define SCTLR_ABOVE 0x30C5083A
#define SCTLR_EL1_VALUE 0x30D0080A

#endif
