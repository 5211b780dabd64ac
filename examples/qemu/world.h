/* What monitor and host share. */
#ifndef WORLD_H
#define WORLD_H

#include <stdint.h>

#define NO_ACCESS 0x10      /* fault status: an external abort */
#define NOT_THIS_WORLD 0x28 /* fault status: granule protection */

/* The program's name in its lines. */
extern const char program[];

/* How many results were wrong. */
extern uint64_t wrong;

/* An SMC: eight registers, in and out. */
void smc(uint64_t x[8]);

/* A result that must be this one. */
void expect(const char *what, uint64_t got, uint64_t wanted);

/* Reads a word, which must end with this fault status: 0 if the read works. */
void expect_read(const char *what, uint64_t address, uint64_t status);

/* Turns the board off. */
_Noreturn void off(void);

#endif
