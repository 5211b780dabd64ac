#include "protection.h"

#include <stddef.h>

#include "potterbeam.h"

#include "board.h"
#include "console.h"
#include "lock.h"

#define GRANULE_BYTES 4096
#define ANY UINT64_C(15) /* granule protection information: no check, or the one world that may use it */
#define NON_SECURE UINT64_C(9)
#define REALM UINT64_C(11)
#define BLOCK_OF_ANY (ANY << 4 | 1)
#define TABLE 3
#define CHANGE_TURNS 10000 /* how long the change of a granule takes */
#define CONTROL UINT64_C(0x12000) /* GPCCR_EL3: checks on, outer shareable, granules of 4 KiB, 4 GiB protected */

/* An entry of level 0 is for 1 GiB; a word of level 1 is for sixteen granules, 4 bits each. */
static uint64_t level0[512] __attribute__((aligned(4096)));
static uint64_t level1[16384] __attribute__((aligned(131072)));

static void forget_all(void)
{
    __asm__ volatile("dsb sy; sys #6, c8, c7, #4; dsb sy; isb" ::: "memory"); /* TLBI PAALL */
}

static void put(uint64_t granule, uint64_t world)
{
    uint64_t *word = &level1[granule >> 16 & 16383];
    const uint64_t shift = 4 * (granule >> 12 & 15);
    *word = (*word & ~(ANY << shift)) | world << shift;
}

static void put_bank(uint64_t base, uint64_t size)
{
    for (uint64_t at = base; at < base + size; at += GRANULE_BYTES)
        put(at, NON_SECURE);
}

/* The caller holds EL3's lock: a word is shared by sixteen granules. */
static void set(uint64_t granule, uint64_t world)
{
    pass_time(CHANGE_TURNS);
    put(granule, world);
    if (has_rme())
        forget_all();
}

static bool bank_agrees(const uint8_t *table, uint64_t base, uint64_t size)
{
    for (uint64_t i = 0; i < size / GRANULE_BYTES; i++) {
        const uint64_t granule = base + i * GRANULE_BYTES;
        const uint64_t world = level1[granule >> 16 & 16383] >> 4 * (granule >> 12 & 15) & ANY;
        if (world != (table[i] == PBEAM_GRANULE_REALM ? REALM : NON_SECURE))
            return false;
    }
    return true;
}

bool protection_agrees(const uint8_t table[GRANULES])
{
    return bank_agrees(table, MEMORY, MEMORY_BYTES) && bank_agrees(table + MEMORY_BYTES / GRANULE_BYTES, HIGH, HIGH_BYTES);
}

static void make_tables(void)
{
    for (size_t i = 0; i < sizeof level1 / sizeof level1[0]; i++)
        level1[i] = ~UINT64_C(0);
    level0[0] = level0[2] = level0[3] = BLOCK_OF_ANY;
    level0[1] = (uint64_t)level1 | TABLE; /* 0x40000000 to 0x7FFFFFFF: DRAM */
    put_bank(MEMORY, MEMORY_BYTES);
    put_bank(HIGH, HIGH_BYTES);
}

void protection_on(uint64_t cpu)
{
    if (cpu == 0)
        make_tables();
    if (!has_rme())
        return;
    /* GPTBR_EL3 and GPCCR_EL3, by their numbers: assemblers of today know no names for them. */
    __asm__ volatile("msr s3_6_c2_c1_4, %0; msr s3_6_c2_c1_6, %1; isb" ::"r"((uint64_t)level0 >> 12), "r"(CONTROL) : "memory");
    forget_all();
}

void protection_to_realm(uint64_t granule)
{
    set(granule, REALM);
}

void protection_to_non_secure(uint64_t granule)
{
    set(granule, NON_SECURE);
}
