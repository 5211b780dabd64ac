/* A spin lock. EL3 has one for everything that its CPUs share; the monitor has its own for the page. */
#ifndef LOCK_H
#define LOCK_H

#include <stdint.h>

struct lock {
    uint32_t taken; /* 0: free */
};

/* Waits until the lock is free, and takes it. A CPU that holds it must not take it again. */
void lock_take(struct lock *lock);
void lock_release(struct lock *lock);

/* EL3's lock. */
extern struct lock el3_lock;

/* Passes time while EL3's lock is held: in the place of a signature or of hardware, which take some. */
void pass_time(uint64_t turns);

#endif
