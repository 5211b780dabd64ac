/* What each of the three programs has for itself: the PL011, and the three functions that the library needs. */
#ifndef CONSOLE_H
#define CONSOLE_H

#include <stddef.h>
#include <stdint.h>

/* Turns the PL011 on: EL3, once. */
void console_on(void);

/* Prints a form: %s a text, %d a signed number, %x a number in hexadecimal. Every number is given as 64 bits. */
void say(const char *form, ...);

/* The settings of this run. */
uint64_t settings(void);

/* A CPU with RME: four worlds, and granule protection. */
int has_rme(void);

/* The number of the exception level that this runs at. */
uint64_t level(void);

/* The number of the CPU that this runs on. */
uint64_t this_cpu(void);

void *memcpy(void *restrict to, const void *restrict from, size_t n);
void *memmove(void *to, const void *from, size_t n);
void *memset(void *to, int byte, size_t n);

#endif
