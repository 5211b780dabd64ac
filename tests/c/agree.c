/*
 * Does include/potterbeam.h agree with the library? Every constant of the header is compared with what the library does: with bytes and
 * words that it writes, with its answers, or with a limit found by trying. tests/c/run refuses a constant that is not named here.
 *
 * Usage: agree PAGE, where PAGE is tests/reader/field/fvp-2.12.1.in: 8 bytes of B and a page that real firmware wrote.
 *
 * A check writes every number but the constant under test as a plain number, and buffers are larger than any image: so a wrong
 * constant fails at its own check. The first check that fails ends the program with its line.
 */
#include <inttypes.h>
#include <stdio.h>
#include <stdlib.h>
#include <string.h>

#include "potterbeam.h"

#define BASE UINT64_C(0x80000000)
#define MEMORY UINT64_C(0x90000000)
#define LEN 4096
#define ROOM 512
#define GUARD UINT64_C(0xA5C3A5C3A5C3A5C3)

/* One bank at MEMORY, of 4 granules; checks with another table make their own. */
static const uint64_t granules[ROOM] = {1, MEMORY, 4 * 4096};
/* Realm words for up to 64 granules. */
static uint64_t words[1];
static unsigned long checks;

static void same(int line, const char *what, uint64_t is, const char *beside, uint64_t want)
{
    checks++;
    if (is == want)
        return;
    printf("tests/c/agree.c:%d: wrong: %s is 0x%" PRIx64 ", but %s is 0x%" PRIx64 "\n", line, what, is, beside, want);
    exit(1);
}

#define SAME(a, b) same(__LINE__, #a, (uint64_t)(a), #b, (uint64_t)(b))

static uint64_t get(const uint8_t *at, size_t bytes)
{
    uint64_t number = 0;
    for (size_t i = 0; i < bytes; i++)
        number |= (uint64_t)at[i] << (8 * i);
    return number;
}

static void put(uint8_t *at, uint64_t number, size_t bytes)
{
    for (size_t i = 0; i < bytes; i++)
        at[i] = (uint8_t)(number >> (8 * i));
}

/* Byte i of words, the lowest byte of the first word being byte 0. */
static uint8_t byte_of(const uint64_t *words, size_t i)
{
    return (uint8_t)(words[i / 8] >> (8 * (i % 8)));
}

static void guard(uint64_t room[ROOM])
{
    for (size_t i = 0; i < ROOM; i++)
        room[i] = GUARD;
}

/* How many words of a guarded room a call wrote: up to the last that is not the guard. */
static size_t written(const uint64_t room[ROOM])
{
    size_t n = ROOM;
    while (n > 0 && room[n - 1] == GUARD)
        n--;
    return n;
}

/* ---- Manifest ---- */

/* Two banks, one console, three and four regions: each section has another count. */
static const uint64_t dram[] = {0x90000000, 0x10000000, 0x880000000, 0x2000};
static const uint64_t console[] = {0x1C0C0000, 3, 0x3131306C70, 24000000, 115200, 0};
static const uint64_t ncoh[] = {0x1000, 0x1000, 0x3000, 0x1000, 0x5000, 0x1000};
static const uint64_t coh[] = {0x11000, 0x1000, 0x13000, 0x1000, 0x15000, 0x1000, 0x17000, 0x1000};

static uint8_t page[2 * LEN];

static uint32_t make(uint64_t edition)
{
    memset(page, 0xEE, sizeof page);
    return pbeam_write(BASE, edition, dram, edition < 2 ? 0 : 4, console, edition < 3 ? 0 : 6, ncoh, edition < 4 ? 0 : 6, coh,
                    edition < 4 ? 0 : 8, NULL, 0, page, LEN);
}

/* The core size by the library: the lowest plat_data that a reader of the edition accepts. */
static size_t core_of(uint64_t edition)
{
    uint64_t view[ROOM];
    size_t at = 1;
    SAME(pbeam_write(BASE, edition, NULL, 0, NULL, 0, NULL, 0, NULL, 0, NULL, 0, page, LEN), PBEAM_WRITE_PAGE);
    for (; at < LEN; at++) {
        put(page + 8, BASE + at, 8);
        if (pbeam_read(page, LEN, BASE, edition, view) == 0)
            break;
    }
    return at;
}

static void check_core_sizes(void)
{
    SAME(PBEAM_CORE_BYTES_1, core_of(1));
    SAME(PBEAM_CORE_BYTES_2, core_of(2));
    SAME(PBEAM_CORE_BYTES_3, core_of(3));
    SAME(PBEAM_CORE_BYTES_4, core_of(4));
}

/* A section at its offset in the page: count, pointer, and the checksum over these and the array. */
static void section_at(size_t at, uint64_t count, uint64_t pointer, const uint64_t *list, size_t len)
{
    uint64_t sum = count + pointer;
    for (size_t i = 0; i < len; i++) {
        SAME(get(page + (pointer - BASE) + 8 * i, 8), list[i]);
        sum += list[i];
    }
    SAME(get(page + at + PBEAM_SECTION_COUNT, 8), count);
    SAME(get(page + at + PBEAM_SECTION_POINTER, 8), pointer);
    SAME(get(page + at + PBEAM_SECTION_CHECKSUM, 8), 0 - sum);
}

static void check_page_bytes(void)
{
    SAME(PBEAM_WRITE_PAGE, make(1));
    SAME(get(page + PBEAM_CORE_VERSION, 4), 1);
    for (size_t i = 16; i < LEN; i++)
        SAME(page[i], 0);
    SAME(page[LEN], 0xEE);
    SAME(PBEAM_WRITE_PAGE, make(2));
    SAME(get(page + PBEAM_CORE_VERSION, 4), 2);
    section_at(PBEAM_CORE_DRAM, 2, BASE + PBEAM_CORE_BYTES_2, dram, 4);
    SAME(PBEAM_WRITE_PAGE, make(3));
    SAME(get(page + PBEAM_CORE_VERSION, 4), 3);
    section_at(PBEAM_CORE_DRAM, 2, BASE + PBEAM_CORE_BYTES_3, dram, 4);
    section_at(PBEAM_CORE_CONSOLE, 1, BASE + PBEAM_CORE_BYTES_3 + 32, console, 6);
    SAME(PBEAM_WRITE_PAGE, make(4));
    SAME(get(page + PBEAM_CORE_VERSION, 4), 4);
    section_at(PBEAM_CORE_DRAM, 2, BASE + PBEAM_CORE_BYTES_4, dram, 4);
    section_at(PBEAM_CORE_CONSOLE, 1, BASE + PBEAM_CORE_BYTES_4 + 32, console, 6);
    section_at(PBEAM_CORE_NCOH, 3, BASE + PBEAM_CORE_BYTES_4 + 80, ncoh, 6);
    section_at(PBEAM_CORE_COH, 4, BASE + PBEAM_CORE_BYTES_4 + 128, coh, 8);
    SAME(PBEAM_SECTION_BYTES, PBEAM_CORE_CONSOLE - PBEAM_CORE_DRAM);
}

/* The first byte of the padding is refused as padding, the byte before it as a version. */
static void check_padding_and_plat_data(void)
{
    uint64_t view[ROOM];
    make(1);
    page[PBEAM_CORE_PADDING] ^= 1;
    SAME(PBEAM_MANIFEST_RULES, pbeam_read(page, LEN, BASE, 4, view));
    make(1);
    page[PBEAM_CORE_PADDING - 1] ^= 1;
    SAME(PBEAM_MANIFEST_VERSION, pbeam_read(page, LEN, BASE, 4, view));
    make(1);
    put(page + PBEAM_CORE_PLAT_DATA, BASE + 0x123, 8);
    SAME(PBEAM_READ_ACCEPTED, pbeam_read(page, LEN, BASE, 4, view));
    SAME(view[PBEAM_VIEW_PLAT_DATA], BASE + 0x123);
}

static void section_shown(const uint64_t view[ROOM], size_t k, uint64_t kind, uint64_t offset, uint64_t count)
{
    const uint64_t *section = view + PBEAM_VIEW_SECTIONS + PBEAM_VIEW_SECTION_WORDS * k;
    SAME(section[PBEAM_VIEW_SECTION_KIND], kind);
    SAME(section[PBEAM_VIEW_SECTION_OFFSET], offset);
    SAME(section[PBEAM_VIEW_SECTION_COUNT], count);
    SAME(pbeam_count(page, LEN, view, k), count);
}

static void check_view(void)
{
    uint64_t view[ROOM];
    make(4);
    guard(view);
    SAME(PBEAM_READ_ACCEPTED, pbeam_read(page, LEN, BASE, 4, view));
    SAME(PBEAM_VIEW_WORDS, written(view));
    section_shown(view, PBEAM_DRAM, PBEAM_VIEW_ENTRIES, 112, 2);
    section_shown(view, PBEAM_CONSOLE, PBEAM_VIEW_ENTRIES, 112 + 32, 1);
    section_shown(view, PBEAM_NCOH, PBEAM_VIEW_ENTRIES, 112 + 80, 3);
    section_shown(view, PBEAM_COH, PBEAM_VIEW_ENTRIES, 112 + 128, 4);
    SAME(pbeam_count(page, LEN, view, PBEAM_SECTIONS), 0);
    SAME(pbeam_count(page, LEN, view, PBEAM_SECTIONS - 1), 4);
    /* w and e differ when the reader is older than the page. */
    SAME(PBEAM_READ_ACCEPTED, pbeam_read(page, LEN, BASE, 2, view));
    SAME(view[PBEAM_VIEW_MINOR], 4);
    SAME(view[PBEAM_VIEW_EDITION], 2);
    section_shown(view, PBEAM_CONSOLE, PBEAM_VIEW_ABSENT, 0, 0);
    SAME(pbeam_write(BASE, 4, dram, 4, NULL, 0, NULL, 0, NULL, 0, NULL, 0, page, LEN), PBEAM_WRITE_PAGE);
    SAME(pbeam_read(page, LEN, BASE, 4, view), PBEAM_READ_ACCEPTED);
    section_shown(view, PBEAM_CONSOLE, PBEAM_VIEW_EMPTY, 0, 0);
    /* A refused page shows zeros. */
    guard(view);
    SAME(PBEAM_MANIFEST_PLACE, pbeam_read(page, LEN, 0, 4, view));
    for (size_t i = 0; i < 15; i++)
        SAME(view[i], 0);
    SAME(PBEAM_VIEW_WORDS, written(view));
}

static void check_lookups(void)
{
    uint64_t view[ROOM], place[ROOM];
    make(4);
    SAME(pbeam_read(page, LEN, BASE, 4, view), PBEAM_READ_ACCEPTED);
    guard(place);
    pbeam_array(page, LEN, BASE, 4, PBEAM_DRAM, place);
    SAME(PBEAM_PLACE_WORDS, written(place));
    SAME(place[PBEAM_PLACE_OFFSET], 112);
    SAME(place[PBEAM_PLACE_LENGTH], 2 * PBEAM_BANK_BYTES);
    guard(place);
    pbeam_array_of(page, LEN, view, PBEAM_CONSOLE, place);
    SAME(PBEAM_PLACE_WORDS, written(place));
    SAME(place[PBEAM_PLACE_OFFSET], 112 + 32);
    SAME(place[PBEAM_PLACE_LENGTH], PBEAM_CONSOLE_BYTES);
    pbeam_array(page, LEN, BASE, 2, PBEAM_CONSOLE, place);
    SAME(place[PBEAM_PLACE_OFFSET], 0);
    SAME(place[PBEAM_PLACE_LENGTH], 0);
    SAME(pbeam_word(page, LEN, view, PBEAM_DRAM, 1, PBEAM_BANK_BASE), 0x880000000);
    SAME(pbeam_word(page, LEN, view, PBEAM_DRAM, 1, PBEAM_BANK_SIZE), 0x2000);
    SAME(pbeam_word(page, LEN, view, PBEAM_CONSOLE, 0, PBEAM_CONSOLE_BASE), 0x1C0C0000);
    SAME(pbeam_word(page, LEN, view, PBEAM_CONSOLE, 0, PBEAM_CONSOLE_MAP_PAGES), 3);
    SAME(pbeam_word(page, LEN, view, PBEAM_CONSOLE, 0, PBEAM_CONSOLE_FLAGS - 1), 115200);
}

/* The first of a name, by all of its bytes; none of another name, and none if the reader reads no consoles. */
static void check_console_names(void)
{
    static const uint64_t names[] = {0x3131306C70, 0x6261312D74726175, 0x3131306C70};
    uint64_t consoles[3 * PBEAM_CONSOLE_WORDS], view[ROOM];
    uint8_t name[PBEAM_CONSOLE_NAME_BYTES + 1];
    for (size_t i = 0; i < 3; i++) {
        memcpy(consoles + PBEAM_CONSOLE_WORDS * i, console, sizeof console);
        consoles[PBEAM_CONSOLE_WORDS * i + PBEAM_CONSOLE_NAME] = names[i];
    }
    SAME(pbeam_write(BASE, 3, NULL, 0, consoles, 3 * PBEAM_CONSOLE_WORDS, NULL, 0, NULL, 0, NULL, 0, page, LEN), PBEAM_WRITE_PAGE);
    SAME(pbeam_read(page, LEN, BASE, 3, view), PBEAM_READ_ACCEPTED);
    SAME(pbeam_console_named(page, LEN, view, (const uint8_t *)"pl011\0\0"), 0);
    for (size_t i = 0; i < sizeof name; i++) {
        memcpy(name, "uart-1ab#", sizeof name);
        name[i]++;
        SAME(pbeam_console_named(page, LEN, view, name), i < PBEAM_CONSOLE_NAME_BYTES ? PBEAM_CONSOLE_NONE : 1);
    }
    SAME(PBEAM_CONSOLE_NAME_BYTES, 8);
    SAME(PBEAM_CONSOLE_NONE, SIZE_MAX);
    SAME(pbeam_read(page, LEN, BASE, 2, view), PBEAM_READ_ACCEPTED);
    SAME(pbeam_console_named(page, LEN, view, (const uint8_t *)"pl011\0\0"), PBEAM_CONSOLE_NONE);
}

static uint8_t facts[LEN];

/* Appends a field to a description; its value is one byte, repeated. */
static size_t add(size_t used, uint8_t tag, size_t length, int byte)
{
    facts[used + PBEAM_FIELD_TAG] = tag;
    put(facts + used + PBEAM_FIELD_LENGTH, length, 2);
    memset(facts + used + PBEAM_FIELD_VALUE, byte, length);
    return used + PBEAM_FIELD_VALUE + length;
}

static uint32_t write_facts(size_t length)
{
    return pbeam_write(BASE, 1, NULL, 0, NULL, 0, NULL, 0, NULL, 0, facts, length, page, LEN);
}

/* Whether a field of the tag may have a value of this length. */
static uint32_t write_fact(uint8_t tag, size_t length)
{
    return write_facts(add(0, tag, length, 0x77));
}

/* The bytes of a page with fields, and how the lookups show each. The writer refuses the withdrawn one, so the test puts its tag into
 * the page afterwards. */
static void check_fields(void)
{
    uint64_t view[ROOM], field[ROOM];
    size_t used = add(0, PBEAM_TAG_NAME, 5, 'b'), cursor;
    used = add(used, PBEAM_TAG_SERIAL, PBEAM_SERIAL_BYTES, 0x5E);
    used = add(used, 9, PBEAM_CHOICE_BYTES, 1);
    used = add(used, PBEAM_TAG_FREE, 0, 0);
    memset(page, 0xEE, sizeof page);
    SAME(write_facts(used), PBEAM_WRITE_PAGE);
    SAME(get(page + PBEAM_CORE_PLAT_DATA, 8), BASE + 16);
    SAME(page[16 + PBEAM_FIELD_TAG], 1);
    SAME(get(page + 16 + PBEAM_FIELD_LENGTH, 2), 5);
    SAME(page[16 + PBEAM_FIELD_VALUE], 'b');
    SAME(page[16 + used], PBEAM_TAG_END);
    page[16 + 8 + 11 + PBEAM_FIELD_TAG] = PBEAM_TAG_CONSOLE;
    SAME(pbeam_read(page, LEN, BASE, 4, view), PBEAM_READ_ACCEPTED);
    SAME(pbeam_field_count(page, LEN, view), 4);
    guard(field);
    pbeam_field(page, LEN, view, 1, field);
    SAME(PBEAM_FIELD_WORDS, written(field));
    SAME(field[PBEAM_FIELD_WORD_FOUND], PBEAM_FOUND_VALUE);
    SAME(field[PBEAM_FIELD_WORD_TAG], 2);
    SAME(field[PBEAM_FIELD_WORD_OFFSET], 16 + 8 + 3);
    SAME(field[PBEAM_FIELD_WORD_LENGTH], 8);
    guard(field);
    pbeam_field_of_tag(page, LEN, view, PBEAM_TAG_CONSOLE, field);
    SAME(PBEAM_FIELD_WORDS, written(field));
    SAME(field[PBEAM_FIELD_WORD_FOUND], PBEAM_FOUND_WITHDRAWN);
    SAME(field[PBEAM_FIELD_WORD_TAG], 3);
    SAME(field[PBEAM_FIELD_WORD_OFFSET] | field[PBEAM_FIELD_WORD_LENGTH], 0);
    pbeam_field_of_tag(page, LEN, view, 5, field);
    SAME(field[PBEAM_FIELD_WORD_FOUND], PBEAM_FOUND_NONE);
    cursor = pbeam_field_start(page, LEN, view);
    SAME(cursor, 16);
    for (uint64_t tag = 1; tag < 5; tag++) {
        guard(field);
        cursor = pbeam_field_next(page, LEN, cursor, field);
        SAME(PBEAM_FIELD_WORDS, written(field));
        SAME(field[PBEAM_FIELD_WORD_TAG], tag);
    }
    SAME(cursor, 16 + used);
    SAME(pbeam_field_next(page, LEN, cursor, field), LEN);
    SAME(field[PBEAM_FIELD_WORD_FOUND], 0);
}

/* The reader's code for a withdrawn field with a value of this length. */
static int32_t read_withdrawn(size_t length)
{
    uint64_t view[PBEAM_VIEW_WORDS];
    SAME(write_fact(9, length), PBEAM_WRITE_PAGE);
    page[16 + PBEAM_FIELD_TAG] = PBEAM_TAG_CONSOLE;
    return pbeam_read(page, LEN, BASE, 4, view);
}

/* Each limit from both sides. */
static void check_field_limits(void)
{
    SAME(write_fact(PBEAM_TAG_NAME, PBEAM_NAME_LEAST), PBEAM_WRITE_PAGE);
    SAME(write_fact(PBEAM_TAG_NAME, PBEAM_NAME_LEAST - 1), PBEAM_WRITE_W3_LISTS);
    SAME(write_fact(PBEAM_TAG_NAME, PBEAM_NAME_MOST), PBEAM_WRITE_PAGE);
    SAME(write_fact(PBEAM_TAG_NAME, PBEAM_NAME_MOST + 1), PBEAM_WRITE_W3_LISTS);
    SAME(write_fact(PBEAM_TAG_SERIAL, PBEAM_SERIAL_BYTES), PBEAM_WRITE_PAGE);
    SAME(write_fact(PBEAM_TAG_SERIAL, PBEAM_SERIAL_BYTES + 1), PBEAM_WRITE_W3_LISTS);
    SAME(write_fact(PBEAM_TAG_CONSOLE, PBEAM_CHOICE_BYTES), PBEAM_WRITE_W3_LISTS);
    SAME(read_withdrawn(PBEAM_CHOICE_BYTES), PBEAM_READ_ACCEPTED);
    SAME(read_withdrawn(PBEAM_CHOICE_BYTES - 1), PBEAM_MANIFEST_RULES);
    SAME(read_withdrawn(PBEAM_CHOICE_BYTES + 1), PBEAM_MANIFEST_RULES);
    SAME(write_fact(PBEAM_TAG_FREE - 1, 0), PBEAM_WRITE_W3_LISTS);
    SAME(write_fact(PBEAM_TAG_FREE, 0), PBEAM_WRITE_PAGE);
    SAME(write_fact(PBEAM_TAG_END, 0), PBEAM_WRITE_W3_LISTS);
    /* The end mark counts: a field that leaves its bytes fits, a byte more does not. */
    SAME(write_fact(9, LEN - 16 - PBEAM_FIELD_VALUE - PBEAM_FIELD_END_BYTES), PBEAM_WRITE_PAGE);
    SAME(write_fact(9, LEN - 16 - PBEAM_FIELD_VALUE - PBEAM_FIELD_END_BYTES + 1), PBEAM_WRITE_W5_ROOM);
    /* The largest length that two bytes hold; one more would be read as 0. */
    add(0, 9, 0, 0);
    put(facts + PBEAM_FIELD_LENGTH, PBEAM_FIELD_VALUE_MOST, 2);
    SAME(get(facts + PBEAM_FIELD_LENGTH, 2), PBEAM_FIELD_VALUE_MOST);
    put(facts + PBEAM_FIELD_LENGTH, PBEAM_FIELD_VALUE_MOST + 1, 2);
    SAME(get(facts + PBEAM_FIELD_LENGTH, 2), 0);
}

/* The longest listing fills its buffer; a shorter buffer cuts it, and the returned length shows it. */
static void check_listing(void)
{
    static uint8_t text[PBEAM_LISTING_ROOM + 1], cut[PBEAM_LISTING_ROOM + 1];
    static const char refused[] = "refused -5\n";
    write_fact(200, LEN - 16 - PBEAM_FIELD_VALUE - PBEAM_FIELD_END_BYTES);
    put(page, 65535, 4);
    memset(text, 0xEE, sizeof text);
    memset(cut, 0xEE, sizeof cut);
    SAME(PBEAM_LISTING_ROOM, pbeam_listing(page, LEN, BASE, 1, text, sizeof text));
    SAME(text[PBEAM_LISTING_ROOM - 1], '\n');
    SAME(text[PBEAM_LISTING_ROOM], 0xEE);
    SAME(PBEAM_LISTING_ROOM, pbeam_listing(page, LEN, BASE, 1, cut, 1000));
    SAME(memcmp(text, cut, 1000), 0);
    SAME(cut[1000], 0xEE);
    SAME(PBEAM_LISTING_ROOM, pbeam_listing(page, LEN, BASE, 1, NULL, 0));
    SAME(pbeam_listing(page, LEN, 0, 2, text, sizeof text), sizeof refused - 1);
    SAME(memcmp(text, refused, sizeof refused - 1), 0);
}

/* Name, clock and baud rate are alike to the library: a page that real firmware wrote shows which is which. */
static void check_real_page(const char *path)
{
    uint8_t input[8 + LEN];
    uint8_t name[8];
    uint64_t view[ROOM], base;
    FILE *file = fopen(path, "rb");
    if (file == NULL || fread(input, 1, sizeof input, file) != sizeof input) {
        printf("tests/c/agree.c: cannot read %s\n", path);
        exit(1);
    }
    fclose(file);
    base = get(input, 8);
    SAME(PBEAM_READ_ACCEPTED, pbeam_read(input + 8, LEN, base, 4, view));
    put(name, pbeam_word(input + 8, LEN, view, PBEAM_CONSOLE, 0, PBEAM_CONSOLE_NAME), 8);
    SAME(memcmp(name, "pl011\0\0", 8), 0);
    SAME(pbeam_word(input + 8, LEN, view, PBEAM_CONSOLE, 0, PBEAM_CONSOLE_CLK_IN_HZ), 14745600);
    SAME(pbeam_word(input + 8, LEN, view, PBEAM_CONSOLE, 0, PBEAM_CONSOLE_BAUD_RATE), 115200);
}

/* ---- Writer and reader: refusals and limits ---- */

/* How many words of a list make its first entry: the shortest list that is not W3. */
static size_t entry_words(int of_console)
{
    size_t n = 1;
    for (; n < 6; n++)
        if (pbeam_write(BASE, 4, dram, of_console ? 0 : n, console, of_console ? n : 0, NULL, 0, NULL, 0, NULL, 0, page, LEN) != 3)
            break;
    return n;
}

static uint32_t write_console(size_t word, uint64_t value)
{
    uint64_t one[16];
    memcpy(one, console, sizeof console);
    one[word] = value;
    return pbeam_write(BASE, 3, NULL, 0, one, 6, NULL, 0, NULL, 0, NULL, 0, page, LEN);
}

static void check_entries(void)
{
    SAME(PBEAM_BANK_WORDS, entry_words(0));
    SAME(PBEAM_CONSOLE_WORDS, entry_words(1));
    SAME(write_console(PBEAM_CONSOLE_BASE, 1), PBEAM_WRITE_W3_LISTS);
    SAME(write_console(PBEAM_CONSOLE_MAP_PAGES, 0), PBEAM_WRITE_W3_LISTS);
    SAME(write_console(PBEAM_CONSOLE_FLAGS, 1), PBEAM_WRITE_W3_LISTS);
    SAME(write_console(PBEAM_CONSOLE_NAME, 0), PBEAM_WRITE_PAGE);
    SAME(write_console(PBEAM_CONSOLE_CLK_IN_HZ, 0), PBEAM_WRITE_PAGE);
    SAME(write_console(PBEAM_CONSOLE_BAUD_RATE, 0), PBEAM_WRITE_PAGE);
}

static uint32_t write_bank(uint64_t bank, uint64_t size)
{
    uint64_t one[2] = {bank, size};
    return pbeam_write(BASE, 2, one, 2, NULL, 0, NULL, 0, NULL, 0, NULL, 0, page, LEN);
}

static void check_writer(void)
{
    static uint64_t banks[500];
    for (size_t i = 0; i < 500; i++)
        banks[i] = 4096 * (i + 1);
    SAME(PBEAM_WRITE_W1_PLACE, pbeam_write(0, 4, NULL, 0, NULL, 0, NULL, 0, NULL, 0, NULL, 0, page, LEN));
    SAME(PBEAM_WRITE_W2_EDITION, pbeam_write(BASE, 0, NULL, 0, NULL, 0, NULL, 0, NULL, 0, NULL, 0, page, LEN));
    SAME(PBEAM_WRITE_W3_LISTS, pbeam_write(BASE, 1, NULL, 0, NULL, 0, NULL, 0, coh, 1, NULL, 0, page, LEN));
    SAME(PBEAM_WRITE_W4_LATE, pbeam_write(BASE, 3, NULL, 0, NULL, 0, NULL, 0, coh, 2, NULL, 0, page, LEN));
    memset(page, 0xEE, LEN);
    SAME(PBEAM_WRITE_W5_ROOM, pbeam_write(BASE, 4, banks, 500, NULL, 0, NULL, 0, NULL, 0, NULL, 0, page, LEN));
    for (size_t i = 0; i < LEN; i++)
        SAME(page[i], 0xEE);
    SAME(PBEAM_WRITE_PAGE, pbeam_write(BASE, 4, banks, 498, NULL, 0, NULL, 0, NULL, 0, NULL, 0, page, LEN));
    SAME(write_bank(PBEAM_ADDRESS_LIMIT - 4096, 4096), PBEAM_WRITE_PAGE);
    SAME(write_bank(PBEAM_ADDRESS_LIMIT - 4096, 8192), PBEAM_WRITE_W3_LISTS);
    SAME(PBEAM_WRITE_PAGE, pbeam_write(PBEAM_BASE_MOST, 4, NULL, 0, NULL, 0, NULL, 0, NULL, 0, NULL, 0, page, LEN));
    SAME(PBEAM_WRITE_W1_PLACE, pbeam_write(PBEAM_BASE_MOST + 4096, 4, NULL, 0, NULL, 0, NULL, 0, NULL, 0, NULL, 0, page, LEN));
}

static void check_editions_and_length(void)
{
    uint64_t view[ROOM];
    uint64_t first = 0, last = 0;
    size_t length = 0;
    for (uint64_t edition = 100; edition > 0; edition--)
        if (make(edition > 4 ? 4 : edition) == 0 && pbeam_read(page, LEN, BASE, edition, view) == 0) {
            first = edition;
            last = last == 0 ? edition : last;
        }
    SAME(PBEAM_EDITION_FIRST, first);
    SAME(PBEAM_EDITION_LAST, last);
    SAME(PBEAM_MANIFEST_VERSION, pbeam_read(page, LEN, BASE, PBEAM_EDITION_LAST + 1, view));
    make(4);
    for (size_t n = 0; n < sizeof page; n++)
        if (pbeam_read(page, n, BASE, 4, view) == 0)
            length += n; /* there is one such length */
    SAME(PBEAM_PAGE_BYTES, length);
}

/* Of potterbeam_common.h alone, as docs/REFERENCE.md has it. tests/c/run_mistakes compares it with the libraries. */
static void check_version(void)
{
    SAME(PBEAM_VERSION_MAJOR, 0);
    SAME(PBEAM_VERSION_MINOR, 4);
    SAME(PBEAM_VERSION_PATCH, 0);
}

/* ---- Boot ---- */

/* A record that is up, with this agreed minor. */
static void up(uint64_t state[ROOM], uint64_t minor)
{
    make(4);
    memset(state, 0, ROOM * sizeof state[0]);
    SAME(pbeam_cold_boot(state, 0, minor, 3, BASE, 8, 0, page, LEN), 0);
}

static void check_state(void)
{
    uint64_t state[ROOM];
    make(4);
    guard(state);
    SAME(PBEAM_BOOT_STATE, pbeam_cold_boot(state, 0, 4, 3, BASE, 8, 0, page, LEN));
    SAME(PBEAM_STATE_WORDS, written(state));
    SAME(state[PBEAM_STATE_KIND], PBEAM_STATE_CLOSED);
    guard(state);
    state[PBEAM_STATE_KIND] = PBEAM_STATE_FRESH;
    SAME(PBEAM_BOOT_DONE, pbeam_cold_boot(state, 0, 4, 3, BASE, 8, 112, page, LEN));
    SAME(PBEAM_STATE_WORDS, written(state));
    SAME(state[PBEAM_STATE_KIND], PBEAM_STATE_UP);
    SAME(state[PBEAM_STATE_CPUS], 3);
    SAME(state[PBEAM_STATE_BASE], BASE);
    SAME(state[PBEAM_STATE_MINOR], 4);
    SAME(state[PBEAM_STATE_KEPT], 112);
    SAME(PBEAM_BOOT_DONE, pbeam_warm_boot(state, 2, 9, 9, 9));
    SAME(PBEAM_BOOT_DONE, pbeam_warm_boot(state, 2, 9, 9, 9));
    SAME(state[PBEAM_STATE_KIND], PBEAM_STATE_UP);
    SAME(state[PBEAM_STATE_KEPT], 112);
    SAME(PBEAM_BOOT_CPU, pbeam_warm_boot(state, 3, 0, 0, 0));
    SAME(state[PBEAM_STATE_KIND], PBEAM_STATE_CLOSED);
    SAME(PBEAM_BOOT_STATE, pbeam_warm_boot(state, 0, 0, 0, 0));
    memset(state, 0, sizeof state);
    SAME(PBEAM_BOOT_DONE, pbeam_cold_boot(state, 0, 0xFFFF, 3, BASE, 8, 0, page, LEN));
    SAME(PBEAM_INTERFACE_MINOR, state[PBEAM_STATE_MINOR]);
}

/* A cold boot of a fresh record that is refused: it closes the record, which keeps nothing. */
static int32_t refused_with(uint64_t x0, uint64_t x1, uint64_t x2, uint64_t x3, uint64_t kept)
{
    uint64_t state[ROOM] = {0};
    int32_t code = pbeam_cold_boot(state, x0, x1, x2, x3, 8, kept, page, LEN);
    SAME(state[PBEAM_STATE_KIND], PBEAM_STATE_CLOSED);
    SAME(state[PBEAM_STATE_CPUS] | state[PBEAM_STATE_BASE] | state[PBEAM_STATE_MINOR] | state[PBEAM_STATE_KEPT], 0);
    return code;
}

static int32_t refused_boot(uint64_t x0, uint64_t x1, uint64_t x2, uint64_t x3)
{
    return refused_with(x0, x1, x2, x3, 112);
}

static void check_boot_codes(void)
{
    make(4);
    SAME(PBEAM_BOOT_VERSION, refused_boot(0, 0, 3, BASE));
    SAME(PBEAM_BOOT_VERSION, refused_boot(0, UINT64_C(0x100000005), 3, BASE));
    SAME(PBEAM_BOOT_CPUS, refused_boot(0, 5, 9, BASE));
    SAME(PBEAM_BOOT_CPU, refused_boot(3, 5, 3, BASE));
    SAME(PBEAM_BOOT_CPU, refused_with(3, 5, 3, BASE, 4097));
    SAME(PBEAM_MANIFEST_PLACE, refused_with(0, 5, 3, BASE, 4097));
    SAME(PBEAM_MANIFEST_PLACE, refused_with(0, 5, 3, BASE, UINT64_MAX));
    SAME(PBEAM_MANIFEST_PLACE, refused_boot(0, 5, 3, 0));
    put(page, 0, 4);
    SAME(PBEAM_MANIFEST_VERSION, refused_boot(0, 5, 3, BASE));
    SAME(PBEAM_MANIFEST_PLACE, refused_with(0, 5, 3, BASE, 4097));
    put(page, 4, 8);
    page[4] = 1;
    SAME(PBEAM_MANIFEST_RULES, refused_boot(0, 5, 3, BASE));
}

/* ---- Runtime commands ---- */

static void check_codes(void)
{
    uint64_t state[ROOM], session[ROOM] = {0}, out[ROOM];
    uint8_t table[4] = {1};
    SAME(PBEAM_X0_OK, (int64_t)PBEAM_OK);
    SAME(PBEAM_X0_UNK, (int64_t)PBEAM_UNK);
    SAME(PBEAM_X0_BAD_ADDR, (int64_t)PBEAM_BAD_ADDR);
    SAME(PBEAM_X0_BAD_PAS, (int64_t)PBEAM_BAD_PAS);
    SAME(PBEAM_X0_INVAL, (int64_t)PBEAM_INVAL);
    SAME(PBEAM_X0_AGAIN, (int64_t)PBEAM_AGAIN);
    memset(state, 0, sizeof state);
    guard(out);
    pbeam_features(state, 0, out);
    SAME(PBEAM_OUT_WORDS, written(out));
    SAME(PBEAM_X0_UNK, out[PBEAM_OUT_X0]);
    up(state, 5);
    pbeam_features(state, 0, out);
    SAME(PBEAM_X0_OK, out[PBEAM_OUT_X0]);
    pbeam_delegate(state, granules, table, 4, words, 1, MEMORY + 1, out);
    SAME(PBEAM_X0_BAD_ADDR, out[PBEAM_OUT_X0]);
    pbeam_delegate(state, granules, table, 4, words, 1, MEMORY, out);
    SAME(PBEAM_X0_BAD_PAS, out[PBEAM_OUT_X0]);
    pbeam_features(state, 1, out);
    SAME(PBEAM_X0_INVAL, out[PBEAM_OUT_X0]);
    guard(session);
    pbeam_platform_token(state, session, page, LEN, table, 1, 1, BASE, 64, 48, out);
    SAME(PBEAM_X0_AGAIN, out[PBEAM_OUT_X0]);
    SAME(out[PBEAM_OUT_X1] | out[PBEAM_OUT_X2], 0);
    SAME(written(session), 0);
}

static uint64_t delegate(const uint64_t state[ROOM], uint8_t *table, size_t i, int back)
{
    uint64_t out[ROOM];
    if (back)
        pbeam_undelegate(state, granules, table, 4, words, 1, MEMORY + i * PBEAM_GRANULE_BYTES, out);
    else
        pbeam_delegate(state, granules, table, 4, words, 1, MEMORY + i * PBEAM_GRANULE_BYTES, out);
    return out[0];
}

/* The set-up's answer for a number of banks of one granule, with holes of one, for a table of a given length. */
static uint64_t set_up(uint64_t record[ROOM], size_t count, uint64_t table_len)
{
    uint8_t banks[17 * 16];
    for (size_t i = 0; i < count; i++) {
        put(banks + 16 * i, MEMORY + i * 8192, 8);
        put(banks + 16 * i + 8, 4096, 8);
    }
    guard(record);
    return pbeam_set_up_granules(record, banks, 16 * count, table_len);
}

/* What the set-up writes, and what it refuses. */
static void check_set_up(void)
{
    uint64_t record[ROOM];
    size_t most = 0;
    for (size_t n = 1; n <= 17; n++)
        most = set_up(record, n, n) == PBEAM_X0_OK ? n : most;
    SAME(PBEAM_GRANULES_BANKS_MOST, most);
    SAME(set_up(record, 2, 2), PBEAM_X0_OK);
    SAME(PBEAM_GRANULES_WORDS, written(record));
    SAME(record[PBEAM_GRANULES_COUNT], 2);
    SAME(record[PBEAM_GRANULES_FIRST_BANK + PBEAM_BANK_BASE], MEMORY);
    SAME(record[PBEAM_GRANULES_FIRST_BANK + PBEAM_BANK_SIZE], 4096);
    SAME(record[PBEAM_GRANULES_FIRST_BANK + PBEAM_BANK_WORDS + PBEAM_BANK_BASE], MEMORY + 8192);
    SAME(record[PBEAM_GRANULES_FIRST_BANK + 2 * PBEAM_BANK_WORDS], 0);
    SAME(PBEAM_GRANULES_WORDS, PBEAM_GRANULES_FIRST_BANK + PBEAM_BANK_WORDS * PBEAM_GRANULES_BANKS_MOST);
    SAME(set_up(record, 2, 1), PBEAM_X0_INVAL);
    SAME(set_up(record, 0, 0), PBEAM_X0_INVAL);
    SAME(pbeam_set_up_granules(record, NULL, 0, 0), PBEAM_X0_INVAL);
    SAME(written(record), 0);
}

/* Granules are those of the banks; a forged record is checked. */
static void check_granule_record(const uint64_t state[ROOM])
{
    uint64_t record[ROOM], out[ROOM];
    uint8_t table[2] = {0, 0};
    SAME(set_up(record, 2, 2), PBEAM_X0_OK);
    pbeam_delegate(state, record, table, 2, words, 1, MEMORY + 4096, out); /* the hole */
    SAME(out[0], PBEAM_X0_BAD_ADDR);
    pbeam_delegate(state, record, table, 2, words, 1, MEMORY + 8192, out);
    SAME(out[0], PBEAM_X0_OK);
    SAME(get(table, 2), 0x100);
    pbeam_delegate(state, record, table, 1, words, 1, MEMORY, out); /* a table one short */
    SAME(out[0], PBEAM_X0_BAD_ADDR);
    record[PBEAM_GRANULES_FIRST_BANK + PBEAM_BANK_WORDS + PBEAM_BANK_BASE] = MEMORY; /* on the first */
    pbeam_delegate(state, record, table, 2, words, 1, MEMORY, out); /* no granules, so no words */
    SAME(out[0], PBEAM_X0_INVAL);
    pbeam_delegate(state, record, table, 2, NULL, 0, MEMORY, out);
    SAME(out[0], PBEAM_X0_BAD_ADDR);
    record[PBEAM_GRANULES_COUNT] = 1; /* the second is ignored */
    pbeam_delegate(state, record, table, 1, words, 1, MEMORY, out);
    SAME(out[0], PBEAM_X0_OK);
}

/* A list: its addresses are whole words, x1 counts those done, and nothing past the three registers is written. */
static void check_granule_lists(const uint64_t state[ROOM])
{
    const uint64_t list[3] = {MEMORY + PBEAM_GRANULE_BYTES, MEMORY, MEMORY + 2 * PBEAM_GRANULE_BYTES};
    uint64_t out[ROOM];
    uint8_t table[4] = {PBEAM_GRANULE_NON_SECURE, PBEAM_GRANULE_NON_SECURE, PBEAM_GRANULE_REALM, 9};
    guard(out);
    pbeam_delegate_list(state, granules, table, 4, words, 1, list, 3, out);
    SAME(PBEAM_OUT_WORDS, written(out));
    SAME(out[PBEAM_OUT_X0], PBEAM_X0_BAD_PAS);
    SAME(out[PBEAM_OUT_X1], 2);
    SAME(table[0] + table[1] + table[2], 3 * PBEAM_GRANULE_REALM);
    pbeam_undelegate_list(state, granules, table, 4, words, 1, list, 3, out);
    SAME(out[PBEAM_OUT_X0], PBEAM_X0_OK);
    SAME(out[PBEAM_OUT_X1], 3);
    SAME(table[0] + table[1] + table[2], PBEAM_GRANULE_NON_SECURE);
    pbeam_delegate_list(state, granules, table, 4, words, 1, NULL, 0, out);
    SAME(out[PBEAM_OUT_X0], PBEAM_X0_OK);
    SAME(out[PBEAM_OUT_X1], 0);
}

/* The shared page stays Realm: the granule at B is not undelegated, alone or in a list; the one after it is. */
static void check_shared_page(const uint64_t state[ROOM])
{
    const uint64_t record[ROOM] = {1, BASE, 2 * PBEAM_GRANULE_BYTES}, list[2] = {BASE + PBEAM_GRANULE_BYTES, BASE};
    uint64_t out[ROOM];
    uint8_t table[2] = {PBEAM_GRANULE_NON_SECURE, PBEAM_GRANULE_NON_SECURE};
    pbeam_delegate_list(state, record, table, 2, words, 1, list, 2, out);
    SAME(out[PBEAM_OUT_X0], PBEAM_X0_OK);
    pbeam_undelegate(state, record, table, 2, words, 1, BASE, out);
    SAME(out[PBEAM_OUT_X0], PBEAM_X0_BAD_ADDR);
    pbeam_undelegate_list(state, record, table, 2, words, 1, list, 2, out);
    SAME(out[PBEAM_OUT_X0], PBEAM_X0_BAD_ADDR);
    SAME(out[PBEAM_OUT_X1], 1);
    SAME(table[0], PBEAM_GRANULE_REALM);
    SAME(table[1], PBEAM_GRANULE_NON_SECURE);
}

/* The words have a bit for each granule; their number is checked before all else, and spare bits are ignored. */
static void check_realm_words(const uint64_t state[ROOM])
{
    const uint64_t record[ROOM] = {1, MEMORY, 66 * PBEAM_GRANULE_BYTES};
    uint64_t out[ROOM], number[ROOM], bits[ROOM];
    uint8_t table[66] = {PBEAM_GRANULE_REALM};
    table[65] = PBEAM_GRANULE_REALM;
    guard(bits);
    SAME(pbeam_realm_build(record, table, 66, bits, 1), PBEAM_X0_INVAL);
    SAME(pbeam_realm_build(record, table, 65, bits, 2), PBEAM_X0_INVAL);
    SAME(written(bits), 0);
    SAME(pbeam_realm_build(record, table, 66, bits, 2), PBEAM_X0_OK);
    SAME(written(bits), 2);
    SAME(bits[0], 1);
    SAME(bits[65 / PBEAM_REALM_WORD_GRANULES], 1 << 65 % PBEAM_REALM_WORD_GRANULES);
    guard(number);
    SAME(pbeam_realm_count(record, bits, 2, number), PBEAM_X0_OK);
    SAME(written(number), 1);
    SAME(number[0], 2);
    SAME(pbeam_realm_next(record, bits, 2, 1, number), PBEAM_X0_OK);
    SAME(number[0], 65);
    SAME(pbeam_realm_agrees(record, table, 66, bits, 2), PBEAM_X0_OK);
    pbeam_undelegate(state, record, table, 66, bits, 2, MEMORY + 65 * PBEAM_GRANULE_BYTES, out);
    SAME(out[0], PBEAM_X0_OK);
    SAME(bits[1], 0);
    SAME(pbeam_realm_next(record, bits, 2, 1, number), PBEAM_REALM_NONE);
    SAME(number[0], 0);
    SAME(pbeam_realm_next(record, bits, 2, 66, number), PBEAM_X0_INVAL);
    bits[1] = 4; /* a spare bit */
    SAME(pbeam_realm_agrees(record, table, 66, bits, 2), PBEAM_REALM_DIFFER);
    SAME(pbeam_realm_count(record, bits, 2, number), PBEAM_X0_OK);
    SAME(number[0], 1);
    SAME(pbeam_realm_count(record, bits, 3, number), PBEAM_X0_INVAL);
    SAME(number[0], 0);
    pbeam_delegate_list(state, record, table, 66, bits, 3, NULL, 0, out);
    SAME(out[0], PBEAM_X0_INVAL);
}

static void check_granules(void)
{
    uint64_t state[ROOM];
    uint8_t table[4] = {PBEAM_GRANULE_NON_SECURE, PBEAM_GRANULE_REALM, PBEAM_GRANULE_ROOT, PBEAM_GRANULE_SECURE};
    up(state, 5);
    SAME(delegate(state, table, 0, 0), PBEAM_X0_OK);
    SAME(table[0], PBEAM_GRANULE_REALM);
    SAME(delegate(state, table, 1, 1), PBEAM_X0_OK);
    SAME(table[1], PBEAM_GRANULE_NON_SECURE);
    for (size_t i = 2; i < 4; i++) {
        SAME(delegate(state, table, i, 0), PBEAM_X0_BAD_PAS);
        SAME(delegate(state, table, i, 1), PBEAM_X0_BAD_PAS);
    }
    check_set_up();
    check_granule_record(state);
    check_granule_lists(state);
    check_shared_page(state);
    check_realm_words(state);
    /* Root and Secure are alike to the library: 01 gives them these numbers. */
    SAME(PBEAM_GRANULE_ROOT, 2);
    SAME(PBEAM_GRANULE_SECURE, 3);
}

static void check_realm_key(void)
{
    static const uint8_t key[] = {0x11, 0x22, 0x33};
    uint64_t state[ROOM], out[ROOM], curves = 0, accepted = 0;
    up(state, 5);
    for (uint64_t curve = 0; curve < 100; curve++) {
        guard(out);
        pbeam_realm_key(state, page, LEN, key, 3, BASE + 7, 3, curve, out);
        SAME(PBEAM_OUT_WORDS, written(out));
        if (out[0] == 0) {
            accepted++;
            curves += curve;
        }
    }
    SAME(accepted, 1);
    SAME(PBEAM_CURVE_SECP384R1, curves);
    SAME(memcmp(page + 7, key, 3), 0);
    pbeam_realm_key(state, page, LEN, key, 3, BASE, 3, PBEAM_CURVE_SECP384R1, out);
    SAME(out[PBEAM_OUT_X0], PBEAM_X0_OK);
    SAME(out[PBEAM_OUT_X1], 3);
}

static void check_versions_and_close(void)
{
    uint64_t state[ROOM];
    SAME(pbeam_version_accepted(0x5), true);
    SAME(pbeam_version_accepted(0x80000005), false);
    SAME(pbeam_version_accepted(0x10000), false);
    SAME(pbeam_version_accepted(UINT64_C(0x100000005)), false);
    SAME(pbeam_agreed_minor(0xA), 5);
    SAME(pbeam_agreed_minor(0x3), 3);
    SAME(pbeam_is_later(0xA, 0x9), true);
    SAME(pbeam_is_later(0x9, 0xA), false);
    guard(state);
    up(state, 5);
    pbeam_close(state);
    SAME(state[PBEAM_STATE_KIND], PBEAM_STATE_CLOSED);
    for (size_t i = 1; i < PBEAM_STATE_WORDS; i++)
        SAME(state[PBEAM_STATE_KIND + i], 0);
}

/* ---- Kept bytes ---- */

/* The core's end, that of the last array, or that of the fields with their mark. A forged view is no error, and never gives
 * more than a page. */
static void check_kept_for(void)
{
    uint64_t view[ROOM];
    make(1);
    SAME(pbeam_read(page, LEN, BASE, 4, view), PBEAM_READ_ACCEPTED);
    SAME(PBEAM_CORE_BYTES_1, pbeam_kept_for(page, LEN, view));
    make(2);
    SAME(pbeam_read(page, LEN, BASE, 4, view), PBEAM_READ_ACCEPTED);
    SAME(PBEAM_CORE_BYTES_2 + 32, pbeam_kept_for(page, LEN, view));
    make(4);
    SAME(pbeam_read(page, LEN, BASE, 4, view), PBEAM_READ_ACCEPTED);
    SAME(PBEAM_CORE_BYTES_4 + 192, pbeam_kept_for(page, LEN, view));
    SAME(pbeam_read(page, LEN, BASE, 3, view), PBEAM_READ_ACCEPTED); /* what an older reader needs is all that it reads */
    SAME(PBEAM_CORE_BYTES_4 + 80, pbeam_kept_for(page, LEN, view));
    SAME(write_fact(9, 10), PBEAM_WRITE_PAGE);
    SAME(pbeam_read(page, LEN, BASE, 4, view), PBEAM_READ_ACCEPTED);
    SAME(pbeam_kept_for(page, LEN, view), 32); /* 16 + 3 + 10 + 3 */
    SAME(write_fact(9, 11), PBEAM_WRITE_PAGE);
    SAME(pbeam_kept_for(page, LEN, view), 40);
    SAME(pbeam_kept_for(page, 32, view), LEN); /* no end mark in what is lent */
    for (size_t i = 0; i < ROOM; i++)
        view[i] = UINT64_MAX;
    SAME(pbeam_kept_for(page, LEN, view), LEN); /* B + 4,095: broken fields, all from the pointer on */
    view[PBEAM_VIEW_PLAT_DATA] = 0;
    SAME(PBEAM_CORE_BYTES_4, pbeam_kept_for(page, LEN, view));
    view[PBEAM_VIEW_SECTIONS + PBEAM_VIEW_SECTION_OFFSET] = 3;
    view[PBEAM_VIEW_SECTIONS + PBEAM_VIEW_SECTION_COUNT] = 255;
    SAME(pbeam_kept_for(page, LEN, view), 4088); /* 3 + 16 * 255 is 4,083 */
    memset(view, 0, sizeof view);
    SAME(PBEAM_CORE_BYTES_1, pbeam_kept_for(page, LEN, view));
}

/* The code of each command with a buffer of 64 bytes at pa, and of the lookup. */
static void buffer_at(const uint64_t state[ROOM], uint64_t pa, uint64_t others, uint64_t signing_code)
{
    static const uint8_t key[] = {0x11};
    uint64_t out[ROOM], session[ROOM] = {0}, queue[ROOM] = {0}, place[ROOM];
    pbeam_realm_key(state, page, LEN, key, 1, pa, 64, PBEAM_CURVE_SECP384R1, out);
    SAME(out[PBEAM_OUT_X0], others);
    SAME(pbeam_challenge(state, page, LEN, pa, 64, 48, place), others);
    pbeam_platform_token(state, session, page, LEN, key, 1, 0, pa, 64, 48, out);
    SAME(out[PBEAM_OUT_X0], others);
    queue[PBEAM_QUEUE_RESPONSES] = 1;
    pbeam_token_signing(state, queue, page, LEN, key, 1, PBEAM_OPCODE_PULL, pa, 64, 0, out);
    SAME(out[PBEAM_OUT_X0], signing_code);
    pbeam_token_signing(state, queue, page, LEN, key, 1, PBEAM_OPCODE_KEY, pa, 64, PBEAM_CURVE_SECP384R1, out);
    SAME(out[PBEAM_OUT_X0], signing_code);
    SAME(pbeam_challenge(state, page, LEN, pa, 0, 0, place), others); /* a buffer of no bytes is no way around it */
}

/* The manifest is read the same after commands at every edge of the kept bytes. */
static void check_kept_bytes(void)
{
    uint64_t state[ROOM], view[ROOM], again[ROOM], kept;
    make(4);
    guard(again);
    memset(state, 0, sizeof state);
    guard(view);
    SAME(pbeam_read(page, LEN, BASE, 4, view), PBEAM_READ_ACCEPTED);
    kept = pbeam_kept_for(page, LEN, view);
    SAME(PBEAM_BOOT_DONE, pbeam_cold_boot(state, 0, 5, 3, BASE, 8, kept, page, LEN));
    SAME(PBEAM_BOOT_DONE, pbeam_warm_boot(state, 1, 0, 0, 0));
    SAME(PBEAM_BOOT_DONE, pbeam_warm_boot(state, 1, 0, 0, 0));
    buffer_at(state, BASE, PBEAM_X0_BAD_ADDR, PBEAM_X0_INVAL);
    buffer_at(state, BASE + kept - 1, PBEAM_X0_BAD_ADDR, PBEAM_X0_INVAL);
    buffer_at(state, BASE + kept, PBEAM_X0_OK, PBEAM_X0_OK);
    buffer_at(state, BASE + LEN - 64, PBEAM_X0_OK, PBEAM_X0_OK);
    buffer_at(state, BASE + LEN, PBEAM_X0_BAD_ADDR, PBEAM_X0_INVAL);
    SAME(PBEAM_READ_ACCEPTED, pbeam_read(page, LEN, BASE, 4, again));
    SAME(memcmp(view, again, sizeof view), 0);
    state[PBEAM_STATE_KEPT] = UINT64_MAX - BASE + 1; /* B + K is 2^64 */
    buffer_at(state, BASE, PBEAM_X0_BAD_ADDR, PBEAM_X0_INVAL);
    state[PBEAM_STATE_KEPT] = 4096;
    buffer_at(state, BASE + LEN - 1, PBEAM_X0_BAD_ADDR, PBEAM_X0_INVAL);
}

static void check_challenge_sizes(void)
{
    uint64_t state[ROOM], place[ROOM], found[ROOM];
    size_t n = 0;
    up(state, 5);
    for (uint64_t size = 0; size <= LEN; size++) {
        guard(place);
        SAME(pbeam_challenge(state, page, LEN, BASE, LEN, size, place),
             size == 0 || size == 32 || size == 48 || size == 64 ? PBEAM_X0_OK : PBEAM_X0_INVAL);
        SAME(PBEAM_PLACE_WORDS, written(place));
        if (place[1] != 0)
            found[n++ % ROOM] = size;
    }
    SAME(n, 3);
    SAME(PBEAM_CHALLENGE_SHA256, found[0]);
    SAME(PBEAM_CHALLENGE_SHA384, found[1]);
    SAME(PBEAM_CHALLENGE_SHA512, found[2]);
    SAME(pbeam_challenge(state, page, LEN, BASE + LEN, 100, 48, place), PBEAM_X0_BAD_ADDR);
    SAME(pbeam_challenge(state, page, LEN, BASE + 1000, 100, 48, place), PBEAM_X0_OK);
    SAME(place[PBEAM_PLACE_OFFSET], 1000);
    SAME(place[PBEAM_PLACE_LENGTH], 48);
}

/* Example 12 of 01: a token of 100 bytes, buffer 64, c_size 48. */
static void check_session(void)
{
    uint64_t state[ROOM], session[ROOM], out[ROOM];
    uint8_t token[100];
    for (size_t i = 0; i < sizeof token; i++)
        token[i] = (uint8_t)(i + 1);
    up(state, 5);
    guard(session);
    pbeam_platform_token(state, session, page, LEN, token, 100, 0, BASE + 8, 64, 48, out);
    SAME(PBEAM_SESSION_WORDS, written(session));
    SAME(session[PBEAM_SESSION_KIND], PBEAM_SESSION_SENDING);
    SAME(session[PBEAM_SESSION_WHOLE], 100);
    SAME(session[PBEAM_SESSION_SENT], 64);
    SAME(out[PBEAM_OUT_X0], PBEAM_X0_OK);
    SAME(out[PBEAM_OUT_X1], 64);
    SAME(out[PBEAM_OUT_X2], 36);
    SAME(memcmp(page + 8, token, 64), 0);
    pbeam_platform_token(state, session, page, LEN, token, 100, 0, BASE + 8, 64, PBEAM_CHALLENGE_NONE, out);
    SAME(out[PBEAM_OUT_X1], 36);
    SAME(memcmp(page + 8, token + 64, 36), 0);
    SAME(session[PBEAM_SESSION_KIND], PBEAM_SESSION_IDLE);
    SAME(session[PBEAM_SESSION_WHOLE] | session[PBEAM_SESSION_SENT], 0);
    pbeam_platform_token(state, session, page, LEN, token, 100, 0, BASE + 8, 64, PBEAM_CHALLENGE_NONE, out);
    SAME(out[PBEAM_OUT_X0], PBEAM_X0_INVAL);
    session[PBEAM_SESSION_KIND] = PBEAM_SESSION_SENDING;
    session[PBEAM_SESSION_WHOLE] = 100;
    session[PBEAM_SESSION_SENT] = 99;
    pbeam_platform_token(state, session, page, LEN, token, 100, 0, BASE + 8, 64, PBEAM_CHALLENGE_NONE, out);
    SAME(out[PBEAM_OUT_X1], 1);
}

static void check_features(void)
{
    uint64_t state[ROOM], out[ROOM], minor = 5, index = 0, accepted = 0;
    up(state, 5);
    for (uint64_t i = 0; i < 100; i++) {
        pbeam_features(state, i, out);
        if (out[0] == 0) {
            accepted++;
            index += i;
        }
    }
    SAME(accepted, 1);
    SAME(PBEAM_FEATURES_INDEX, index);
    pbeam_features(state, PBEAM_FEATURES_INDEX, out);
    SAME(PBEAM_FEATURE_TOKEN_SIGNING, out[PBEAM_OUT_X1]);
    for (uint64_t offered = 5; offered > 0; offered--) {
        up(state, offered);
        pbeam_features(state, 0, out);
        minor = out[0] == 0 ? offered : minor;
    }
    SAME(PBEAM_SIGNING_MINOR, minor);
}

static void check_key_update(void)
{
    uint64_t state[ROOM], out[ROOM], work[ROOM], most = 0, width = 0, minor = 6;
    up(state, 5);
    for (uint64_t mecid = 0; mecid < 70000; mecid++) {
        pbeam_key_update(state, 15, mecid, out, work);
        most = out[0] == 0 ? mecid : most;
    }
    SAME(PBEAM_MECID_MOST, most);
    for (uint64_t m = 0; m < 100; m++) {
        pbeam_key_update(state, m, 0, out, work);
        width = out[0] == 0 ? m : width;
    }
    SAME(PBEAM_WIDTH_MOST, width);
    guard(out);
    guard(work);
    pbeam_key_update(state, 15, 0x1234, out, work);
    SAME(PBEAM_OUT_WORDS, written(out));
    SAME(PBEAM_WORK_WORDS, written(work));
    SAME(work[PBEAM_WORK_KIND], PBEAM_WORK_REPROGRAM);
    SAME(work[PBEAM_WORK_VALUE], 0x1234);
    pbeam_key_update(state, 15, 65536, out, work);
    SAME(work[PBEAM_WORK_KIND], PBEAM_WORK_NOTHING);
    SAME(work[PBEAM_WORK_VALUE], 0);
    for (uint64_t offered = 5; offered > 0; offered--) {
        up(state, offered);
        pbeam_key_update(state, 15, 0, out, work);
        minor = out[0] == 0 ? offered : minor;
    }
    SAME(PBEAM_KEY_UPDATE_MINOR, minor);
    SAME(pbeam_forward(state, 0x77), 0x77);
}

/* ---- Token signing ---- */

#define HERE 256 /* the buffer's offset in the page */

/* A request whose bytes all differ, as 002 lays it: algorithm id 0 at 0, hash id 1 at 24. */
static void lay_request(uint8_t from)
{
    for (size_t i = 0; i < 128; i++)
        page[HERE + i] = (uint8_t)(from + i);
    put(page + HERE, 0, 4);
    put(page + HERE + 24, 1, 4);
}

static uint64_t signing(const uint64_t state[ROOM], uint64_t queue[ROOM], uint64_t opcode, uint64_t size)
{
    static const uint8_t key[] = {0x61, 0x62, 0x63, 0x64, 0x65};
    uint64_t out[ROOM];
    guard(out);
    pbeam_token_signing(state, queue, page, LEN, key, sizeof key, opcode, BASE + HERE, size, 0, out);
    SAME(PBEAM_OUT_WORDS, written(out));
    SAME(out[PBEAM_OUT_X1], out[0] == 0 && opcode == 3 ? sizeof key : 0);
    return out[0];
}

static uint64_t sign(uint64_t queue[ROOM], uint8_t from, size_t len)
{
    uint8_t signature[256];
    uint64_t out[ROOM];
    for (size_t i = 0; i < sizeof signature; i++)
        signature[i] = (uint8_t)(from + i);
    pbeam_sign(queue, signature, len, out);
    return out[0];
}

/* How many bytes of the page from `at` on are in the words, one after the other. */
static size_t run_of(const uint64_t *words, const uint8_t *at)
{
    size_t n = 0;
    while (n < 200 && byte_of(words, n) == at[n])
        n++;
    return n;
}

/* One response waits, so that the words around the first request all differ. */
static void check_request_layout(void)
{
    uint64_t state[ROOM], queue[ROOM], request[ROOM];
    const uint64_t *first = queue + PBEAM_QUEUE_FIRST_REQUEST;
    up(state, 5);
    guard(queue);
    queue[0] = queue[1] = 0;
    lay_request(1);
    SAME(signing(state, queue, PBEAM_OPCODE_PUSH, 80), PBEAM_X0_OK);
    SAME(PBEAM_QUEUE_FIRST_REQUEST + PBEAM_REQUEST_WORDS, written(queue));
    SAME(queue[PBEAM_QUEUE_REQUESTS], 1);
    SAME(sign(queue, 1, 1), PBEAM_X0_OK);
    SAME(queue[PBEAM_QUEUE_REQUESTS], 0);
    SAME(queue[PBEAM_QUEUE_RESPONSES], 1);
    SAME(signing(state, queue, PBEAM_OPCODE_PUSH, 80), PBEAM_X0_OK);
    SAME(first[PBEAM_REQUEST_WORD_ALGORITHM], PBEAM_ALGORITHM_SECP384R1);
    SAME(first[PBEAM_REQUEST_WORD_GRANULE], get(page + HERE + PBEAM_REQUEST_GRANULE, 8));
    SAME(first[PBEAM_REQUEST_WORD_TICKET], get(page + HERE + PBEAM_REQUEST_TICKET, 8));
    SAME(first[PBEAM_REQUEST_WORD_HASH_ID], PBEAM_HASH_SHA2_384);
    SAME(first[PBEAM_REQUEST_WORD_GRANULE], UINT64_C(0x100F0E0D0C0B0A09));
    SAME(first[PBEAM_REQUEST_WORD_TICKET], UINT64_C(0x1817161514131211));
    SAME(PBEAM_HASH_BYTES, run_of(first + PBEAM_REQUEST_WORD_HASH, page + HERE + PBEAM_REQUEST_HASH));
    SAME(8 * PBEAM_HASH_WORDS, run_of(first + PBEAM_REQUEST_WORD_HASH, page + HERE + 32));
    lay_request(101);
    SAME(signing(state, queue, PBEAM_OPCODE_PUSH, 80), PBEAM_X0_OK);
    SAME(first[PBEAM_REQUEST_WORDS + PBEAM_REQUEST_WORD_GRANULE], get(page + HERE + PBEAM_REQUEST_GRANULE, 8));
    guard(request);
    SAME(pbeam_oldest(queue, request), 2);
    SAME(pbeam_responses(queue), queue[PBEAM_QUEUE_RESPONSES]);
    SAME(PBEAM_REQUEST_WORDS, written(request));
    for (size_t i = 0; i < PBEAM_REQUEST_WORDS; i++)
        SAME(request[i], first[i]);
}

/* Whether a push takes a request with one byte changed. */
static uint64_t push_with(size_t at, uint8_t byte)
{
    uint64_t state[ROOM], queue[ROOM] = {0};
    up(state, 5);
    lay_request(1);
    page[HERE + at] = byte;
    return signing(state, queue, 1, 80);
}

/* The last byte of an id counts, the byte after it is a hole. */
static void check_request_ids(void)
{
    uint64_t algorithms = 0, hashes = 0;
    SAME(push_with(PBEAM_REQUEST_ALGORITHM + 3, 9), PBEAM_X0_INVAL);
    SAME(push_with(PBEAM_REQUEST_ALGORITHM + 4, 9), PBEAM_X0_OK);
    SAME(push_with(PBEAM_REQUEST_HASH_ID + 3, 9), PBEAM_X0_INVAL);
    SAME(push_with(PBEAM_REQUEST_HASH_ID + 4, 9), PBEAM_X0_OK);
    for (unsigned id = 0; id < 256; id++) {
        algorithms += push_with(0, (uint8_t)id) == 0 ? id + 1000 : 0;
        hashes += push_with(24, (uint8_t)id) == 0 ? id + 1000 : 0;
    }
    SAME(PBEAM_ALGORITHM_SECP384R1 + 1000, algorithms);
    SAME(PBEAM_HASH_SHA2_384 + 1000, hashes);
}

static void check_response_layout(void)
{
    uint64_t state[ROOM], queue[ROOM] = {0};
    const uint64_t *first = queue + PBEAM_QUEUE_FIRST_RESPONSE;
    uint8_t signature[PBEAM_SIGNATURE_BYTES_MOST];
    for (size_t i = 0; i < sizeof signature; i++)
        signature[i] = (uint8_t)(i + 50);
    up(state, 5);
    lay_request(1);
    signing(state, queue, 1, 80);
    lay_request(101);
    signing(state, queue, 1, 80);
    SAME(sign(queue, 50, sizeof signature), PBEAM_X0_OK);
    SAME(sign(queue, 90, 1), PBEAM_X0_OK);
    SAME(first[PBEAM_RESPONSE_WORD_GRANULE], UINT64_C(0x100F0E0D0C0B0A09));
    SAME(first[PBEAM_RESPONSE_WORD_TICKET], UINT64_C(0x1817161514131211));
    SAME(first[PBEAM_RESPONSE_WORD_LENGTH], 104);
    for (size_t i = 0; i < sizeof signature; i++)
        SAME(byte_of(first + PBEAM_RESPONSE_WORD_SIGNATURE, i), signature[i]);
    SAME(8 * PBEAM_SIGNATURE_WORDS, sizeof signature);
    SAME(first[PBEAM_RESPONSE_WORDS + PBEAM_RESPONSE_WORD_GRANULE], UINT64_C(0x74737271706F6E6D));
    memset(page + HERE, 0xEE, 200);
    SAME(signing(state, queue, PBEAM_OPCODE_PULL, 200), PBEAM_X0_OK);
    SAME(get(page + HERE + PBEAM_RESPONSE_GRANULE, 8), UINT64_C(0x100F0E0D0C0B0A09));
    SAME(get(page + HERE + PBEAM_RESPONSE_TICKET, 8), UINT64_C(0x1817161514131211));
    SAME(get(page + HERE + PBEAM_RESPONSE_LENGTH, 2), 104);
    SAME(memcmp(page + HERE + PBEAM_RESPONSE_SIGNATURE, signature, sizeof signature), 0);
    SAME(page[HERE + PBEAM_RESPONSE_BYTES_MOST], 0xEE);
    SAME(queue[PBEAM_QUEUE_RESPONSES], 1);
    SAME(first[PBEAM_RESPONSE_WORD_LENGTH], 1);
}

/* The least size of a push, the longest signature, the least size that holds the longest response. */
static void check_signing_sizes(void)
{
    uint64_t state[ROOM], queue[ROOM] = {0};
    uint64_t request = 0, response = 0, size = 0;
    size_t longest = 0;
    up(state, 5);
    lay_request(1);
    while (request < 500 && signing(state, queue, 1, request) != 0)
        request++;
    SAME(PBEAM_REQUEST_BYTES, request);
    for (size_t n = 0; n < 200; n++) {
        uint64_t copy[ROOM];
        memcpy(copy, queue, sizeof copy);
        longest = sign(copy, 1, n) == 0 ? n : longest;
    }
    SAME(PBEAM_SIGNATURE_BYTES_MOST, longest);
    SAME(sign(queue, 1, longest), PBEAM_X0_OK);
    while (size < 500 && signing(state, queue, 2, size) != 0)
        size++;
    response = size;
    SAME(PBEAM_RESPONSE_BYTES_MOST, response);
    SAME(signing(state, queue, 2, size), PBEAM_X0_AGAIN);
    SAME(signing(state, queue, PBEAM_OPCODE_KEY, 4), PBEAM_X0_INVAL);
    SAME(signing(state, queue, PBEAM_OPCODE_KEY, 5), PBEAM_X0_OK);
    SAME(get(page + HERE, 5), UINT64_C(0x6564636261));
    SAME(signing(state, queue, PBEAM_OPCODE_KEY + 1, 5), PBEAM_X0_INVAL);
}

/* Push until the requests are full, sign until the responses are: then every word of the queue is written, and none after it. */
static void check_queue_limits(void)
{
    uint64_t state[ROOM], queue[ROOM];
    uint64_t requests = 0, responses = 0;
    up(state, 5);
    guard(queue);
    queue[PBEAM_QUEUE_REQUESTS] = queue[PBEAM_QUEUE_RESPONSES] = 0;
    lay_request(1);
    while (requests < 100 && signing(state, queue, 1, 80) == 0)
        requests++;
    SAME(PBEAM_REQUESTS_MOST, requests);
    SAME(queue[PBEAM_QUEUE_REQUESTS], requests);
    SAME(signing(state, queue, 1, 80), PBEAM_X0_AGAIN);
    while (responses < 100 && sign(queue, 1, 104) == 0) {
        responses++;
        signing(state, queue, 1, 80);
    }
    SAME(PBEAM_RESPONSES_MOST, responses);
    SAME(queue[PBEAM_QUEUE_RESPONSES], responses);
    SAME(PBEAM_QUEUE_WORDS, written(queue));
    SAME(sign(queue, 1, 1), PBEAM_X0_AGAIN);
    SAME(PBEAM_QUEUE_FIRST_RESPONSE, PBEAM_QUEUE_FIRST_REQUEST + PBEAM_REQUESTS_MOST * PBEAM_REQUEST_WORDS);
    SAME(PBEAM_QUEUE_WORDS, PBEAM_QUEUE_FIRST_RESPONSE + PBEAM_RESPONSES_MOST * PBEAM_RESPONSE_WORDS);
}

/* A refused call writes no word of an image, for any contents; an all-zero queue is empty. */
static void check_refused_images(void)
{
    uint64_t state[ROOM], queue[ROOM], session[ROOM] = {0}, request[ROOM], out[ROOM];
    up(state, 5);
    lay_request(1);
    guard(queue);
    SAME(signing(state, queue, PBEAM_OPCODE_PUSH, 80), PBEAM_X0_AGAIN);
    SAME(sign(queue, 1, 105), PBEAM_X0_INVAL);
    SAME(sign(queue, 1, 1), PBEAM_X0_AGAIN);
    SAME(written(queue), 0);
    memset(queue, 0, sizeof queue);
    guard(request);
    SAME(pbeam_oldest(queue, request), 0);
    SAME(PBEAM_REQUEST_WORDS, written(request));
    for (size_t i = 0; i < 10; i++)
        SAME(request[i], 0);
    SAME(sign(queue, 1, 1), PBEAM_X0_AGAIN);
    SAME(signing(state, queue, PBEAM_OPCODE_PULL, 200), PBEAM_X0_AGAIN);
    pbeam_platform_token(state, session, page, LEN, page + LEN, 9, 0, BASE, 64, 0, out);
    SAME(out[PBEAM_OUT_X0], PBEAM_X0_INVAL);
}

/* Words of a guarded queue that an accepted call must leave: all but its number and those from one place to another. */
static void check_left(const uint64_t queue[ROOM], size_t number, size_t from, size_t to)
{
    for (size_t i = 0; i < ROOM; i++)
        if (i > PBEAM_QUEUE_RESPONSES && (i < from || i >= to))
            SAME(queue[i], GUARD);
    SAME(queue[PBEAM_QUEUE_REQUESTS + PBEAM_QUEUE_RESPONSES - number], 0);
}

/* An accepted call touches the side that it needs: one row, or the rows that wait. A place that is freed becomes zero. */
static void check_accepted_images(void)
{
    uint64_t state[ROOM], queue[ROOM];
    const size_t requests = PBEAM_QUEUE_FIRST_REQUEST, responses = PBEAM_QUEUE_FIRST_RESPONSE;
    up(state, 5);
    guard(queue);
    SAME(signing(state, queue, PBEAM_OPCODE_KEY, 5), PBEAM_X0_OK);
    SAME(written(queue), 0);
    lay_request(1);
    queue[PBEAM_QUEUE_REQUESTS] = queue[PBEAM_QUEUE_RESPONSES] = 0;
    SAME(signing(state, queue, PBEAM_OPCODE_PUSH, 80), PBEAM_X0_OK);
    SAME(queue[PBEAM_QUEUE_REQUESTS], 1);
    check_left(queue, PBEAM_QUEUE_REQUESTS, requests, requests + PBEAM_REQUEST_WORDS);
    guard(queue);
    queue[PBEAM_QUEUE_REQUESTS] = 0;
    queue[PBEAM_QUEUE_RESPONSES] = 1;
    SAME(signing(state, queue, PBEAM_OPCODE_PULL, 200), PBEAM_X0_OK);
    SAME(get(page + HERE + PBEAM_RESPONSE_LENGTH, 2), PBEAM_SIGNATURE_BYTES_MOST);
    SAME(queue[PBEAM_QUEUE_RESPONSES], 0);
    check_left(queue, PBEAM_QUEUE_RESPONSES, responses, responses + PBEAM_RESPONSE_WORDS);
    for (size_t i = 0; i < PBEAM_RESPONSE_WORDS; i++)
        SAME(queue[responses + i], 0);
    guard(queue);
    queue[PBEAM_QUEUE_REQUESTS] = 1;
    queue[PBEAM_QUEUE_RESPONSES] = 0;
    SAME(sign(queue, 1, 1), PBEAM_X0_OK);
    SAME(queue[PBEAM_QUEUE_REQUESTS], 0);
    SAME(queue[PBEAM_QUEUE_RESPONSES], 1);
    for (size_t i = 0; i < PBEAM_REQUEST_WORDS; i++)
        SAME(queue[requests + i], 0);
    SAME(queue[responses + PBEAM_RESPONSE_WORD_GRANULE], GUARD);
    SAME(queue[responses + PBEAM_RESPONSE_WORD_SIGNATURE], 1);
    for (size_t i = PBEAM_RESPONSE_WORD_SIGNATURE + 1; i < PBEAM_RESPONSE_WORDS; i++)
        SAME(queue[responses + i], 0);
    SAME(queue[requests + PBEAM_REQUEST_WORDS], GUARD);
    SAME(responses + PBEAM_RESPONSE_WORDS, written(queue));
}

/* What the header states about forged images, and about a token that is exchanged during a session. */
static void check_hand_made_images(void)
{
    uint64_t state[ROOM] = {PBEAM_STATE_UP, 0, 1, 99}, session[ROOM] = {PBEAM_SESSION_SENDING, 100, 200}, queue[ROOM] = {1, 0};
    uint64_t out[ROOM], request[ROOM];
    uint8_t one[100], other[100];
    memset(one, 1, sizeof one);
    memset(other, 2, sizeof other);
    pbeam_platform_token(state, session, page, LEN, one, 100, 0, 1 + 8, 64, 0, out); /* B is 1 */
    SAME(out[0] | out[1] | out[2] | session[0], 0);
    pbeam_platform_token(state, session, page, LEN, one, 100, 0, 1 + 8, 64, 32, out);
    SAME(page[8], 1);
    pbeam_platform_token(state, session, page, LEN, other, 99, 0, 1 + 8, 64, 0, out);
    SAME(out[0], PBEAM_X0_UNK);
    pbeam_platform_token(state, session, page, LEN, other, 100, 0, 1 + 8, 64, 0, out);
    SAME(out[0], PBEAM_X0_OK);
    SAME(page[8], 2);
    queue[PBEAM_QUEUE_FIRST_REQUEST + PBEAM_REQUEST_WORD_ALGORITHM] = UINT64_C(0x123456789A);
    SAME(pbeam_oldest(queue, request), 1);
    SAME(request[PBEAM_REQUEST_WORD_ALGORITHM], UINT64_C(0x123456789A));
    SAME(sign(queue, 1, 1), PBEAM_X0_OK);
}

/* ---- Dispatcher ---- */

static struct {
    uint64_t state[ROOM], session[ROOM], queue[ROOM], call[ROOM], out[ROOM], work[ROOM], words[1];
    uint8_t table[4];
} board;

static uint64_t dispatch(uint64_t id, uint64_t x1, uint64_t x2, uint64_t x3, uint64_t x4)
{
    static const uint8_t key[] = {0x11, 0x22, 0x33}, token[] = {1, 2, 3, 4, 5, 6, 7}, public_key[] = {0x61, 0x62, 0x63, 0x64};
    guard(board.call);
    guard(board.out);
    guard(board.work);
    board.call[PBEAM_CALL_ID] = id;
    board.call[PBEAM_CALL_X1] = x1;
    board.call[PBEAM_CALL_X2] = x2;
    board.call[PBEAM_CALL_X3] = x3;
    board.call[PBEAM_CALL_X4] = x4;
    pbeam_call(board.state, board.session, board.queue, page, LEN, granules, board.table, 4, board.words, 1, key,
            sizeof key, token, sizeof token, 0, public_key, sizeof public_key, 15, board.call, board.out, board.work);
    SAME(PBEAM_OUT_WORDS, written(board.out));
    SAME(PBEAM_WORK_WORDS, written(board.work));
    return board.out[PBEAM_OUT_X0];
}

/* Each id does what only its command does. */
static void check_ids(void)
{
    up(board.state, 5);
    SAME(dispatch(PBEAM_ID_DELEGATE, MEMORY + 4096, 0, 0, 0), PBEAM_X0_OK);
    SAME(get(board.table, 2), 0x100);
    SAME(dispatch(PBEAM_ID_UNDELEGATE, MEMORY + 4096, 0, 0, 0), PBEAM_X0_OK);
    SAME(get(board.table, 2), 0);
    SAME(dispatch(PBEAM_ID_REALM_KEY, BASE, 32, 0, 0), PBEAM_X0_OK);
    SAME(board.out[PBEAM_OUT_X1], 3);
    SAME(dispatch(PBEAM_ID_PLATFORM_TOKEN, BASE, 32, 32, 0), PBEAM_X0_OK);
    SAME(board.out[PBEAM_OUT_X1], 7);
    SAME(dispatch(PBEAM_ID_FEATURES, 0, 1, 1, 1), PBEAM_X0_OK);
    SAME(board.out[PBEAM_OUT_X1], 1);
    SAME(dispatch(PBEAM_ID_TOKEN_SIGNING, PBEAM_OPCODE_KEY, BASE, 32, 0), PBEAM_X0_OK);
    SAME(board.out[PBEAM_OUT_X1], 4);
    SAME(dispatch(PBEAM_ID_TOKEN_SIGNING, PBEAM_OPCODE_KEY, BASE, 32, 1), PBEAM_X0_INVAL);
    SAME(PBEAM_CALL_WORDS, PBEAM_CALL_X4 + 1);
    SAME(dispatch(PBEAM_ID_KEY_UPDATE, 0x4321, 0, 0, 0), PBEAM_X0_OK);
    SAME(board.work[PBEAM_WORK_KIND], PBEAM_WORK_REPROGRAM);
    SAME(board.work[PBEAM_WORK_VALUE], 0x4321);
    SAME(dispatch(PBEAM_ID_FORWARD, 0x99, 0, 0, 0), 0);
    SAME(board.work[PBEAM_WORK_KIND], PBEAM_WORK_FORWARD);
    SAME(board.work[PBEAM_WORK_VALUE], 0x99);
    SAME(dispatch(PBEAM_ID_KEY_UPDATE + 1, 0, 0, 0, 0), PBEAM_X0_UNK);
    SAME(board.work[PBEAM_WORK_KIND], PBEAM_WORK_NOTHING);
}

int main(int argc, char **argv)
{
    if (argc != 2) {
        printf("usage: agree PAGE\n");
        return 2;
    }
    check_version();
    check_core_sizes();
    check_page_bytes();
    check_padding_and_plat_data();
    check_view();
    check_lookups();
    check_console_names();
    check_fields();
    check_field_limits();
    check_listing();
    check_real_page(argv[1]);
    check_entries();
    check_writer();
    check_editions_and_length();
    check_state();
    check_boot_codes();
    check_codes();
    check_granules();
    check_realm_key();
    check_versions_and_close();
    check_kept_for();
    check_kept_bytes();
    check_challenge_sizes();
    check_session();
    check_features();
    check_key_update();
    check_request_layout();
    check_request_ids();
    check_response_layout();
    check_signing_sizes();
    check_queue_limits();
    check_refused_images();
    check_accepted_images();
    check_hand_made_images();
    check_ids();
    printf("%lu checks\n", checks);
    return 0;
}
