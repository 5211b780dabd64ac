/*
 * Does include/potterbeam_pages.h agree with its library, and does each inline function of it do what it says? Every constant is compared
 * with what the library does, every inline function with the words underneath. tests/c/run_pages refuses a constant or a function of the
 * header that is not named here. Pages are written and read by libpotterbeam.a: both libraries are linked into one program.
 *
 * A check writes every number but the constant under test as a plain number, and the report's buffer is larger than the report:
 * so a wrong constant fails at its own check. The first check that fails ends the program with its line.
 */
#include <inttypes.h>
#include <stdio.h>
#include <stdlib.h>
#include <string.h>

#include "potterbeam_pages.h"

#define BASE UINT64_C(0x80000000)
#define LEN 4096
#define ROOM 64
#define GUARD UINT64_C(0xA5C3A5C3A5C3A5C3)

static unsigned long checks;

static void same(int line, const char *what, uint64_t is, const char *beside, uint64_t want)
{
    checks++;
    if (is == want)
        return;
    printf("tests/c/pages_agree.c:%d: wrong: %s is 0x%" PRIx64 ", but %s is 0x%" PRIx64 "\n", line, what, is, beside, want);
    exit(1);
}

static void same_text(int line, const char *is, const char *want)
{
    checks++;
    if (strcmp(is, want) == 0)
        return;
    printf("tests/c/pages_agree.c:%d: wrong: \"%s\", not \"%s\"\n", line, is, want);
    exit(1);
}

#define SAME(a, b) same(__LINE__, #a, (uint64_t)(a), #b, (uint64_t)(b))
#define TEXT(a, b) same_text(__LINE__, a, b)

static uint64_t get(const uint8_t *at, size_t bytes)
{
    uint64_t number = 0;
    for (size_t i = 0; i < bytes; i++)
        number |= (uint64_t)at[i] << (8 * i);
    return number;
}

static void put(uint8_t *at, uint64_t number, size_t bytes)
{
    for (size_t i = 0; i < bytes; i++)
        at[i] = (uint8_t)(number >> (8 * i));
}

static void guard(uint64_t room[ROOM])
{
    for (size_t i = 0; i < ROOM; i++)
        room[i] = GUARD;
}

/* How many words of a guarded room a call wrote: up to the last that is not the guard. */
static size_t written(const uint64_t room[ROOM])
{
    size_t n = ROOM;
    while (n > 0 && room[n - 1] == GUARD)
        n--;
    return n;
}

/* ---- Words ---- */

/* Two banks, one console, three and four regions: each section has another count. */
static const uint64_t dram[] = {0x90000000, 0x10000000, 0x880000000, 0x2000};
static const uint64_t console[] = {0x1C0C0000, 3, 0x3131306C70, 24000000, 115200, 0};
static const uint64_t ncoh[] = {0x1000, 0x1000, 0x3000, 0x1000, 0x5000, 0x1000};
static const uint64_t coh[] = {0x11000, 0x1000, 0x13000, 0x1000, 0x15000, 0x1000, 0x17000, 0x1000};

static uint8_t page[2 * LEN];

/* A page with its arrays far apart, the last section first, and after them a withdrawn field between two others. */
static void make_holes(void)
{
    static const uint8_t told[] = {1, 2, 0, 'D', 'K', 9, 1, 0, 7, 9, 0, 0};
    static const size_t at[] = {2000, 1800, 1600, 1400}, size[] = {32, 48, 48, 64};
    static uint8_t packed[LEN];
    SAME(pbeam_write(BASE, 4, dram, 4, console, 6, ncoh, 6, coh, 8, told, sizeof told, packed, LEN), PBEAM_WRITE_PAGE);
    memset(page, 0xEE, sizeof page);
    memcpy(page, packed, 112);
    for (size_t k = 0, from = 112; k < 4; from += size[k], k++) {
        uint8_t *section = page + 16 + 24 * k;
        memcpy(page + at[k], packed + from, size[k]);
        put(section + 16, get(section + 16, 8) + get(section + 8, 8) - (BASE + at[k]), 8);
        put(section + 8, BASE + at[k], 8);
    }
    memcpy(page + 3000, told, sizeof told);
    page[3000 + 5] = PBEAM_TAG_CONSOLE;
    memset(page + 3000 + sizeof told, 0, 3);
    put(page + 8, BASE + 3000, 8);
}

static void check_packer(void)
{
    static const uint8_t left[] = {1, 2, 0, 'D', 'K', 9, 0, 0};
    static uint8_t want[LEN], target[2 * LEN];
    make_holes();
    SAME(pbeam_write(BASE, 4, dram, 4, console, 6, ncoh, 6, coh, 8, left, sizeof left, want, LEN), PBEAM_WRITE_PAGE);
    memset(target, 0xA5, sizeof target);
    SAME(PBEAM_PACK_W1_TARGET, pbeam_pack(page, LEN, BASE, target, LEN - 1));
    SAME(PBEAM_PACK_W1_TARGET, pbeam_pack(page, LEN, BASE, target, LEN + 1));
    SAME(PBEAM_PACK_W1_TARGET, pbeam_pack(page, LEN, BASE, NULL, 0));
    SAME(PBEAM_MANIFEST_PLACE, pbeam_pack(page, LEN, BASE + 1, target, LEN));
    for (size_t i = 0; i < sizeof target; i++)
        SAME(target[i], 0xA5);
    SAME(PBEAM_PACK_PAGE, pbeam_pack(page, LEN, BASE, target, LEN));
    SAME(memcmp(target, want, LEN), 0);
    SAME(target[LEN], 0xA5);
    put(page, 5, 4);
    SAME(PBEAM_MANIFEST_VERSION, pbeam_pack(page, LEN, BASE, target, 0));
    page[16] ^= 1;
    SAME(PBEAM_MANIFEST_RULES, pbeam_pack(page, LEN, BASE, target, 0));
}

/* Each part by itself is the one whose word changes. */
static void check_mender(void)
{
    static const struct {
        size_t word, at, size;
    } parts[] = {{PBEAM_MEND_PADDING, 4, 4},  {PBEAM_MEND_PLAT_DATA, 8, 8}, {PBEAM_MEND_DRAM, 16, 24},
                 {PBEAM_MEND_CONSOLE, 40, 24}, {PBEAM_MEND_NCOH, 64, 24},    {PBEAM_MEND_COH, 88, 24}};
    static uint8_t want[LEN];
    uint64_t changed[ROOM];
    for (size_t i = 0; i < 7; i++) {
        make_holes();
        memcpy(want, page, LEN);
        if (i < 6) {
            page[parts[i].at] ^= 1;
            memset(want + parts[i].at, 0, parts[i].size);
            if (i == PBEAM_MEND_PLAT_DATA)
                page[3000 + PBEAM_FIELD_LENGTH] = 40;
        }
        want[3000 + PBEAM_FIELD_LENGTH] = page[3000 + PBEAM_FIELD_LENGTH];
        guard(changed);
        SAME(PBEAM_MEND_DONE, pbeam_mend(page, LEN, BASE, changed));
        SAME(PBEAM_MEND_WORDS, written(changed));
        for (size_t j = 0; j < 6; j++)
            SAME(changed[parts[j].word], j == i ? PBEAM_MEND_CHANGED : PBEAM_MEND_KEPT);
        SAME(memcmp(page, want, LEN), 0);
        SAME(PBEAM_READ_ACCEPTED, pbeam_read(page, LEN, BASE, 4, changed));
    }
    page[4] = 1;
    memcpy(want, page, LEN);
    guard(changed);
    SAME(PBEAM_MANIFEST_PLACE, pbeam_mend(page, LEN, 0, changed));
    SAME(PBEAM_MEND_WORDS, written(changed));
    SAME(changed[PBEAM_MEND_PADDING], PBEAM_MEND_KEPT);
    SAME(memcmp(page, want, LEN), 0);
    page[0] = 0;
    SAME(PBEAM_MANIFEST_VERSION, pbeam_mend(page, LEN, BASE, changed));
}

/* ---- Types ---- */

static const pbeam_bank_t banks[] = {{0x90000000, 0x10000000}, {0x880000000, 0x2000}};
static const pbeam_console_t consoles[] = {{0x1C0C0000, 3, 0x3131306C70, 24000000, 115200, 0}};
static const pbeam_region_t regions[] = {{0x1000, 0x1000}, {0x3000, 0x1000}, {0x5000, 0x1000}};
static const pbeam_region_t others[] = {{0x11000, 0x1000}, {0x13000, 0x1000}, {0x15000, 0x1000}, {0x17000, 0x1000}};
static const pbeam_lists_t typed = {banks, 2, consoles, 1, regions, 3, others, 4, {NULL, 0}};

/* Each code has a text, and no other number has one. */
static void check_texts(void)
{
    TEXT(pbeam_pack_text(0), "packed");
    SAME(strncmp(pbeam_pack_text(1), "W1:", 3), 0);
    TEXT(pbeam_pack_text(2), "no packer's answer");
    TEXT(pbeam_mend_text(0), "done");
    for (int32_t code = -4; code > -9; code--) {
        SAME(strcmp(pbeam_pack_text(code), "no packer's answer") == 0, code > -5 || code < -7);
        SAME(strcmp(pbeam_mend_text(code), "no mender's answer") == 0, code > -5 || code < -6);
    }
}

static void check_typed_packer(void)
{
    static pbeam_page_t own, target, other;
    pbeam_lists_t told = typed;
    told.fields = pbeam_bytes((const uint8_t *)"\x01\x01\x00X", 4);
    SAME(pbeam_manifest_write(BASE, 4, &told, &own), PBEAM_WRITE_PAGE);
    memset(&target, 0xA5, sizeof target);
    SAME(pbeam_manifest_pack(&own, BASE, &target), PBEAM_PACKED);
    SAME(memcmp(&own, &target, sizeof own), 0);
    other = target;
    SAME(pbeam_manifest_pack(&own, BASE + 1, &target), PBEAM_UNPACKED_PLACE);
    own.bytes[PBEAM_CORE_VERSION] = 5;
    SAME(pbeam_manifest_pack(&own, BASE, &target), PBEAM_UNPACKED_VERSION);
    own.bytes[PBEAM_CORE_PADDING] = 1;
    SAME(pbeam_manifest_pack(&own, BASE, &target), PBEAM_UNPACKED_RULES);
    SAME(memcmp(&target, &other, sizeof target), 0);
}

/* Each part has its name: one more of them is broken at a time. */
static void check_typed_mender(void)
{
    static const size_t at[] = {PBEAM_CORE_PADDING, PBEAM_CORE_PLAT_DATA, PBEAM_CORE_DRAM, PBEAM_CORE_CONSOLE, PBEAM_CORE_NCOH, PBEAM_CORE_COH};
    static pbeam_page_t own;
    pbeam_changes_t changes;
    for (size_t n = 0; n <= 6; n++) {
        SAME(pbeam_manifest_write(BASE, 4, &typed, &own), PBEAM_WRITE_PAGE);
        for (size_t i = 0; i < n; i++)
            own.bytes[at[i]] ^= 1;
        memset(&changes, 0xA5, sizeof changes);
        SAME(pbeam_manifest_mend(&own, BASE, &changes), PBEAM_MEND_DONE);
        SAME(changes.padding, n > 0);
        SAME(changes.plat_data, n > 1);
        SAME(changes.dram, n > 2);
        SAME(changes.console, n > 3);
        SAME(changes.ncoh, n > 4);
        SAME(changes.coh, n > 5);
        SAME(pbeam_changes_any(&changes), n > 0);
    }
    own.bytes[PBEAM_CORE_PADDING] = 1;
    SAME(pbeam_manifest_mend(&own, 0, &changes), PBEAM_MANIFEST_PLACE);
    SAME(pbeam_changes_any(&changes), false);
    changes.coh = true;
    SAME(pbeam_changes_any(&changes), true);
}

int main(void)
{
    check_packer();
    check_mender();
    check_texts();
    check_typed_packer();
    check_typed_mender();
    printf("%lu checks\n", checks);
    return 0;
}
