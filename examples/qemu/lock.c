#include "lock.h"

/*
 * On real hardware LDAXR and STXR need Normal memory: with the MMU off every access is to Device memory, and whether exclusives work there is
 * IMPLEMENTATION DEFINED. The emulator permits them on any memory. Firmware turns MMU and caches on before its second CPU
 * takes the lock, and maps the lock and all that it guards as Write-Back and Inner Shareable. Where caches are off it uses a lock of plain
 * loads and stores, for example a bakery lock.
 *
 * LDAXR acquires and STLR releases: no access of one holder is seen after those of the next.
 */
#ifdef NO_LOCK /* for the run that must fail */

void lock_take(struct lock *lock)
{
    (void)lock;
}

void lock_release(struct lock *lock)
{
    (void)lock;
}

#else

void lock_take(struct lock *lock)
{
    uint32_t word;
    __asm__ volatile("1: ldaxr %w0, [%1]\n"
                     "   cbnz %w0, 1b\n"
                     "   stxr %w0, %w2, [%1]\n"
                     "   cbnz %w0, 1b"
                     : "=&r"(word)
                     : "r"(&lock->taken), "r"(1)
                     : "memory");
}

void lock_release(struct lock *lock)
{
    __asm__ volatile("stlr wzr, [%0]" ::"r"(&lock->taken) : "memory");
}

#endif

#ifdef SHORT_LOCK /* for the run that must fail: the lock is held for each call of the library alone, and not for the steps between and after */

void pass_time(uint64_t turns)
{
    lock_release(&el3_lock);
    for (volatile uint64_t i = 0; i < turns; i++)
        ;
    lock_take(&el3_lock);
}

#else

void pass_time(uint64_t turns)
{
    for (volatile uint64_t i = 0; i < turns; i++)
        ;
}

#endif
