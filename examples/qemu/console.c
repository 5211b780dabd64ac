#include "console.h"

#include <stdarg.h>

#include "board.h"

static volatile uint32_t *const uart = (volatile uint32_t *)UART;

void console_on(void)
{
    uart[0x30 / 4] = 0x301; /* control: enabled, transmits and receives */
}

static void put(char c)
{
    while (uart[0x18 / 4] & 0x20) /* the FIFO is full */
        ;
    uart[0] = (uint32_t)c;
}

static void put_number(uint64_t n, uint64_t base)
{
    char digits[20];
    size_t count = 0;
    do {
        digits[count++] = "0123456789abcdef"[n % base];
        n /= base;
    } while (n != 0);
    while (count > 0)
        put(digits[--count]);
}

static void put_signed(uint64_t n)
{
    if ((int64_t)n < 0) {
        put('-');
        n = -n;
    }
    put_number(n, 10);
}

void say(const char *form, ...)
{
    va_list list;
    va_start(list, form);
    for (; *form; form++) {
        if (*form != '%') {
            put(*form);
        } else if (*++form == 's') {
            for (const char *s = va_arg(list, const char *); *s; s++)
                put(*s);
        } else if (*form == 'd') {
            put_signed(va_arg(list, uint64_t));
        } else {
            put_number(va_arg(list, uint64_t), 16);
        }
    }
    va_end(list);
}

uint64_t settings(void)
{
    return *(const volatile uint64_t *)SETTINGS;
}

int has_rme(void)
{
    uint64_t features;
    __asm__ volatile("mrs %0, id_aa64pfr0_el1" : "=r"(features));
    return (features >> 52 & 15) != 0;
}

uint64_t level(void)
{
    uint64_t current;
    __asm__ volatile("mrs %0, CurrentEL" : "=r"(current));
    return current >> 2;
}

uint64_t this_cpu(void)
{
    uint64_t affinity;
    __asm__ volatile("mrs %0, mpidr_el1" : "=r"(affinity));
    return affinity & 0xFF;
}

/* Upwards, so that the two may overlap if `to` is the lower one. */
static void *copy_upwards(uint8_t *to, const uint8_t *from, size_t n)
{
    for (size_t i = 0; i < n; i++)
        to[i] = from[i];
    return to;
}

void *memcpy(void *restrict to, const void *restrict from, size_t n)
{
    return copy_upwards(to, from, n);
}

void *memmove(void *to, const void *from, size_t n)
{
    if ((uintptr_t)to <= (uintptr_t)from)
        return copy_upwards(to, from, n);
    while (n-- > 0)
        ((uint8_t *)to)[n] = ((const uint8_t *)from)[n];
    return to;
}

void *memset(void *to, int byte, size_t n)
{
    for (size_t i = 0; i < n; i++)
        ((uint8_t *)to)[i] = (uint8_t)byte;
    return to;
}
