/*
 * Memory that changes during a call: a second thread writes the page (or the banks, the addresses, the message, the guest's memory) that a
 * call was lent, while the call runs. Each lent buffer ends exactly at a guard page, and in a second arrangement starts exactly after
 * one, so a read or write outside what is lent stops the program. Half of the calls take forged images: boot record, session,
 * queue, granule record, view and collector of any words. Exports that take no shared memory are called too, for guard pages and images.
 *
 *   race [SECONDS]            all calls in turn, for so many seconds (6 unless given). One line and status 0, or what is wrong and status 1.
 *   race SECONDS only|without NAME..   only the calls with one of these names, or all others.
 *   race after|before|twice   a wrong function instead, which must be noticed: it reads the byte after the page, the byte before it, or a
 *                             count twice, first to judge it and then to use it.
 *
 * The second thread changes the shared memory alone. EL3's own images change only between calls: the header asks for a lock there.
 */
#define _GNU_SOURCE
/* What a call answers here does not matter, only what it touches. */
#pragma GCC diagnostic ignored "-Wunused-result"

#include <pthread.h>
#include <signal.h>
#include <stdatomic.h>
#include <stdio.h>
#include <stdlib.h>
#include <string.h>
#include <sys/mman.h>
#include <time.h>
#include <unistd.h>

#include "potterbeam_pages.h"
#include "potterbeam_swtpm.h"
#include "potterbeam_tpm.h"

#define PAGE PBEAM_PAGE_BYTES
#define ADDRESS_COUNT 64
#define BASE UINT64_C(0x80000000)
#define GUARD (UINT64_C(1) << 20) /* on each side of a buffer: more than the length of a field can reach */

static _Thread_local const char *running = "this test"; /* the call that runs, for the report */

static void wrong(const char *what)
{
    printf("WRONG: %s: %s\n", running, what);
    fflush(stdout);
    _exit(1);
}

/* ---- Random numbers, one state for each thread ---- */

static uint64_t next_number(uint64_t *state)
{
    *state ^= *state << 13;
    *state ^= *state >> 7;
    *state ^= *state << 17;
    return *state * UINT64_C(0x2545F4914F6CDD1D) >> 11;
}

static uint64_t seed = 0x9E3779B97F4A7C15;

static uint64_t below(uint64_t n) { return next_number(&seed) % n; }

/* ---- Lent buffers ---- */

struct lent {
    uint8_t *from;
    size_t room; /* a multiple of the machine's page */
};

/* What is lent. A report names a buffer by its number here: 0 is the page, the list, the guest's memory or the message. */
enum {
    SHARED, TARGET, TEXT, STATE, SESSION, QUEUE, GRANULES, TABLE, WORDS, KEY, TOKEN, PUBLIC, OUT, WORK, CALL, VIEW, PLACE, FIELD, NAME,
    REQUEST, CHANGED, LIST_0, LIST_1, LIST_2, LIST_3, FIELDS, RESPONSE, BUFFER, PARTS, COLLECTOR, LENGTH, REGISTER, NUMBER, BUFFERS
};

static struct lent buffers[BUFFERS];
static bool at_end; /* whether buffers end at a guard page; otherwise they start after one */

static void make_buffers(void)
{
    const size_t unit = (size_t)sysconf(_SC_PAGESIZE);
    for (int i = 0; i < BUFFERS; i++) {
        const size_t room = (4 * PAGE + unit - 1) / unit * unit;
        uint8_t *all = mmap(NULL, 2 * GUARD + room, PROT_NONE, MAP_PRIVATE | MAP_ANONYMOUS | MAP_NORESERVE, -1, 0);
        if (all == MAP_FAILED || mprotect(all + GUARD, room, PROT_READ | PROT_WRITE) != 0) {
            perror("mmap");
            exit(2);
        }
        buffers[i] = (struct lent){all + GUARD, room};
    }
}

/* `len` bytes of a buffer, at the guard page of this arrangement. */
static uint8_t *lend(int which, size_t len)
{
    return at_end ? buffers[which].from + buffers[which].room - len : buffers[which].from;
}

static uint64_t *lend_words(int which, size_t count) { return (uint64_t *)(void *)lend(which, 8 * count); }
static uint32_t *lend_numbers(int which, size_t count) { return (uint32_t *)(void *)lend(which, 4 * count); }

/* A stray access: the handler says which call made it, and how far from which buffer. */
static void stopped(int number, siginfo_t *info, void *context)
{
    const uint8_t *at = info->si_addr;
    char text[200];
    int length = snprintf(text, sizeof text, "WRONG: %s: touched memory that is not lent (signal %d)\n", running, number);
    (void)context;
    for (int i = 0; i < BUFFERS; i++) {
        const uint8_t *from = buffers[i].from, *end = from + buffers[i].room;
        if (at >= from - GUARD && at < from)
            length = snprintf(text, sizeof text, "WRONG: %s: touched byte %ld before lent buffer %d\n", running, (long)(from - at), i);
        else if (at >= end && at < end + GUARD)
            length = snprintf(text, sizeof text, "WRONG: %s: touched byte %ld after lent buffer %d\n", running, (long)(at - end) + 1, i);
    }
    if (write(1, text, (size_t)length) != length)
        _exit(2);
    _exit(1);
}

/* ---- The second thread ---- */

#define HOTS_MOST 64

/* Shared memory of calls: its bytes as they should be, and the places where a change matters most. Constant while the second thread runs. */
struct shared {
    size_t len;
    uint8_t good[4 * PAGE];
    uint64_t view[PBEAM_VIEW_WORDS]; /* of a page */
    size_t hot[HOTS_MOST];
    size_t hots;
};

/* Shared memory in one of the two arrangements: what the second thread changes now. */
struct place {
    const struct shared *of;
    uint8_t *at;
};

enum { PAGES = 5, LIST = PAGES, GUEST, REQUEST_MESSAGE, RESPONSE_MESSAGE, SHARES };

static struct shared shares[SHARES];
static struct place places[2][SHARES];
static _Atomic(const struct place *) now_shared;
static atomic_bool ended;
static atomic_ulong changes;

/* Some number of steps, mostly few: a call takes between 10 ns and 30 us. */
static void pause_for(uint64_t *state)
{
    const uint64_t steps = next_number(state) % (next_number(state) % 16 == 0 ? 4000 : 100);
    for (volatile uint64_t i = 0; i < steps; i++)
        continue;
}

static void put(uint8_t *at, const void *from, size_t len)
{
    for (size_t i = 0; i < len; i++)
        ((volatile uint8_t *)at)[i] = ((const uint8_t *)from)[i];
}

/* A word is written at once where it is aligned: a call then sees the old or the new one. */
static void put_word(uint8_t *at, uint64_t word)
{
    if ((uintptr_t)at % 8 == 0)
        *(volatile uint64_t *)(void *)at = word;
    else
        put(at, &word, 8);
}

static uint64_t word_of(const uint8_t *at)
{
    uint64_t word;
    memcpy(&word, at, 8);
    return word;
}

/* A number near the old one, near a limit, or any. */
static uint64_t other_word(uint64_t old, uint64_t *state)
{
    const uint64_t r = next_number(state);
    switch (r % 10) {
    case 0: return old + 1;
    case 1: return old + 1 + r / 16 % 300;
    case 2: return old - 1;
    case 3: return 0;
    case 4: return UINT64_MAX;
    case 5: return old ^ UINT64_C(1) << (r / 16 % 64);
    case 6: return BASE + r / 16 % (2 * PAGE);
    case 7: return BASE + PAGE - r / 16 % 64;
    case 8: return (UINT64_C(1) << 60) + old;
    default: return r << 11 ^ next_number(state);
    }
}

static void *second_thread(void *argument)
{
    uint64_t state = UINT64_C(0xD1B54A32D192ED03);
    (void)argument;
    running = "the second thread of this test";
    while (!atomic_load_explicit(&ended, memory_order_relaxed)) {
        const struct place *place = atomic_load(&now_shared);
        const struct shared *of = place->of;
        const size_t at = of->hots != 0 && next_number(&state) % 4 != 0 ? of->hot[next_number(&state) % of->hots]
                                                                        : next_number(&state) % of->len;
        if (at + 8 <= of->len && next_number(&state) % 3 != 0) {
            const uint64_t good = word_of(of->good + at);
            put_word(place->at + at, other_word(good, &state));
            pause_for(&state);
            put_word(place->at + at, good);
        } else {
            const uint8_t byte = (uint8_t)next_number(&state);
            put(place->at + at, &byte, 1);
            pause_for(&state);
            put(place->at + at, of->good + at, 1);
        }
        atomic_fetch_add_explicit(&changes, 1, memory_order_relaxed);
        pause_for(&state);
    }
    return NULL;
}

/* ---- Manifest pages ---- */

static void hot(struct shared *at, size_t offset)
{
    if (at->hots == HOTS_MOST)
        abort();
    at->hot[at->hots++] = offset;
}

/* Its view, and where a change matters: the words of the core, the first and last words of each array, tag and length of each field. */
static void find_hots(struct shared *page)
{
    uint64_t place[PBEAM_PLACE_WORDS], field[PBEAM_FIELD_WORDS], *view = page->view;
    if (pbeam_read(page->good, PAGE, BASE, PBEAM_EDITION_LAST, view) != PBEAM_READ_ACCEPTED)
        wrong("a page of this test is refused");
    for (size_t at = 0; at < PBEAM_CORE_BYTES_4; at += 8)
        hot(page, at);
    for (size_t section = 0; section < PBEAM_SECTIONS; section++) {
        pbeam_array_of(page->good, PAGE, view, section, place);
        if (place[PBEAM_PLACE_LENGTH] != 0) {
            hot(page, place[PBEAM_PLACE_OFFSET]);
            hot(page, place[PBEAM_PLACE_OFFSET] + place[PBEAM_PLACE_LENGTH] - 8);
        }
    }
    for (size_t i = 0; i < pbeam_field_count(page->good, PAGE, view) && i < 8; i++) {
        pbeam_field(page->good, PAGE, view, i, field);
        if (field[PBEAM_FIELD_WORD_FOUND] == PBEAM_FOUND_VALUE)
            for (size_t back = 1; back <= PBEAM_FIELD_VALUE; back++)
                hot(page, field[PBEAM_FIELD_WORD_OFFSET] - back);
    }
}

static void make_pages(void)
{
    static const uint64_t consoles[2 * PBEAM_CONSOLE_WORDS] = {0x1C090000, 1, 0x31306C70, 24000000, 115200, 0, 0x1C0A0000, 2, 0x32306C70, 1, 2, 0};
    static const uint64_t regions[2 * PBEAM_BANK_WORDS] = {0x40000000, 0x10000, 0x50000000, 0x20000};
    static const uint8_t told[] = {1, 5, 0, 'b', 'o', 'a', 'r', 'd', 2, 8, 0, 1, 2, 3, 4, 5, 6, 7, 8, 9, 3, 0, 'r', 'a', 'w', 9, 0, 0};
    uint64_t banks[600];
    uint8_t long_field[PAGE];
    for (size_t i = 0; i < 300; i++) {
        banks[2 * i] = 0x80000000 + i * 0x100000;
        banks[2 * i + 1] = 0x40000;
    }
    memset(long_field, 0xA5, sizeof long_field);
    /* All sections, and fields. */
    shares[0].len = PAGE;
    if (pbeam_write(BASE, 4, banks, 6, consoles, 12, regions, 4, regions, 2, told, sizeof told, shares[0].good, PAGE) != 0)
        wrong("page 0");
    find_hots(&shares[0]);
    /* The most banks: the array ends at the page's end. */
    shares[1].len = PAGE;
    if (pbeam_write(BASE, 4, banks, 2 * 249, NULL, 0, NULL, 0, NULL, 0, NULL, 0, shares[1].good, PAGE) != 0)
        wrong("page 1");
    find_hots(&shares[1]);
    /* Fields that end at the page's end. */
    const size_t value = PAGE - PBEAM_CORE_BYTES_2 - 4 * PBEAM_BANK_BYTES - PBEAM_FIELD_VALUE - PBEAM_FIELD_END_BYTES;
    long_field[0] = 7;
    long_field[1] = (uint8_t)value;
    long_field[2] = (uint8_t)(value >> 8);
    shares[2].len = PAGE;
    if (pbeam_write(BASE, 2, banks, 8, NULL, 0, NULL, 0, NULL, 0, long_field, value + PBEAM_FIELD_VALUE, shares[2].good, PAGE) != 0)
        wrong("page 2");
    find_hots(&shares[2]);
    hot(&shares[2], PAGE - 3);
    hot(&shares[2], PAGE - 2);
    hot(&shares[2], PAGE - 1);
    /* Consoles up to the page's end, of the edition before the last. */
    uint64_t many[84 * PBEAM_CONSOLE_WORDS];
    for (size_t i = 0; i < 84; i++)
        memcpy(many + i * PBEAM_CONSOLE_WORDS, consoles, sizeof consoles / 2);
    shares[3].len = PAGE;
    if (pbeam_write(BASE, 3, NULL, 0, many, 84 * PBEAM_CONSOLE_WORDS, NULL, 0, NULL, 0, NULL, 0, shares[3].good, PAGE) != 0)
        wrong("page 3");
    find_hots(&shares[3]);
    /* A request of token signing in the page's second half, and one at its end. */
    shares[4] = shares[0];
    for (size_t i = 0; i < 2; i++) {
        const size_t at = i == 0 ? PAGE / 2 : PAGE - PBEAM_REQUEST_BYTES;
        for (size_t j = 0; j < PBEAM_REQUEST_BYTES; j++)
            shares[4].good[at + j] = (uint8_t)below(256);
        memset(shares[4].good + at + PBEAM_REQUEST_ALGORITHM, 0, 8);
        memset(shares[4].good + at + PBEAM_REQUEST_HASH_ID, 0, 8);
        shares[4].good[at + PBEAM_REQUEST_HASH_ID] = PBEAM_HASH_SHA2_384;
        hot(&shares[4], at + PBEAM_REQUEST_ALGORITHM);
        hot(&shares[4], at + PBEAM_REQUEST_HASH_ID);
    }
}

static void make_others(void)
{
    const uint8_t head[] = {0, 0, 0, PBEAM_SWTPM_CMD_GET_STATEBLOB, 0, 0, 0, 0, 0, 0, 0, 1, 0, 0, 0, 0};
    const uint8_t answer[] = {0, 0, 0, 0, 0, 0, 0, 2, 0, 0, 3, 0xE8, 0, 0, 0, 200};
    shares[LIST].len = 8 * ADDRESS_COUNT;
    for (size_t i = 0; i < ADDRESS_COUNT; i++) {
        const uint64_t address = i < 40 ? BASE + 4096 * (1 + i) : BASE + 0x1000000 + 4096 * (i - 40);
        memcpy(shares[LIST].good + 8 * i, &address, 8);
        if (i % 2 == 0)
            hot(&shares[LIST], 8 * i);
    }
    shares[GUEST].len = 4 * PAGE;
    shares[REQUEST_MESSAGE].len = sizeof head;
    memcpy(shares[REQUEST_MESSAGE].good, head, sizeof head);
    hot(&shares[REQUEST_MESSAGE], 0);
    shares[RESPONSE_MESSAGE].len = sizeof answer + 200;
    memcpy(shares[RESPONSE_MESSAGE].good, answer, sizeof answer);
    hot(&shares[RESPONSE_MESSAGE], 8);
    hot(&shares[RESPONSE_MESSAGE], 12);
    hot(&shares[RESPONSE_MESSAGE], 15);
}

static void make_shares(void)
{
    make_pages();
    make_others();
    for (int arrangement = 0; arrangement < 2; arrangement++) {
        at_end = arrangement == 1;
        for (int i = 0; i < SHARES; i++)
            places[arrangement][i] = (struct place){&shares[i], lend(SHARED, shares[i].len)};
    }
    atomic_store(&now_shared, &places[0][0]);
}

/* ---- Arguments: mostly good ones, at times any ---- */

static bool forged; /* whether the images of this call are forged */

static uint64_t any_word(void)
{
    static const uint64_t some[] = {0, 1, 2, 3, 4, 5, 8, 9, 16, 17, 103, 104, 105, 112, 4095, 4096, 4097, BASE, BASE + 112, BASE + 4095,
                                    BASE + 4096, UINT64_MAX, UINT64_MAX - 7, UINT64_C(1) << 63, UINT64_C(1) << 60, PBEAM_ADDRESS_LIMIT};
    const uint64_t r = below(4);
    return r == 0 ? next_number(&seed) << 11 ^ next_number(&seed) : r == 1 ? below(4200) : some[below(sizeof some / sizeof some[0])];
}

static uint64_t mostly(uint64_t good) { return below(8) == 0 ? any_word() : good; }

/* The page, or the other shared bytes, with the length that is lent: mostly all of it. */
static const struct place *shared;
static uint8_t *page;
static size_t page_len;

static void page_as_good(void) { memcpy(shared->at, shared->of->good, shared->of->len); }

static void image(uint64_t *words, size_t count, const uint64_t *good)
{
    for (size_t i = 0; i < count; i++)
        words[i] = forged && below(2) == 0 ? any_word() : good == NULL ? 0 : good[i];
}

static uint64_t *state_image(void)
{
    const uint64_t good[PBEAM_STATE_WORDS] = {PBEAM_STATE_UP, 4, BASE, 5, below(2) * 1024};
    uint64_t *words = lend_words(STATE, PBEAM_STATE_WORDS);
    image(words, PBEAM_STATE_WORDS, good);
    return words;
}

static uint64_t *session_image(size_t whole)
{
    const uint64_t good[PBEAM_SESSION_WORDS] = {PBEAM_SESSION_SENDING, whole, below(whole + 1)};
    uint64_t *words = lend_words(SESSION, PBEAM_SESSION_WORDS);
    image(words, PBEAM_SESSION_WORDS, good);
    return words;
}

static uint64_t *queue_image(void)
{
    uint64_t good[PBEAM_QUEUE_WORDS] = {below(9), below(9)};
    for (size_t i = 0; i < PBEAM_RESPONSES_MOST; i++)
        good[PBEAM_QUEUE_FIRST_RESPONSE + i * PBEAM_RESPONSE_WORDS + PBEAM_RESPONSE_WORD_LENGTH] = 1 + below(104);
    uint64_t *words = lend_words(QUEUE, PBEAM_QUEUE_WORDS);
    image(words, PBEAM_QUEUE_WORDS, good);
    return words;
}

/* One bank of 256 granules and one of 44. */
#define GRANULE_COUNT 300
#define GRANULE_WORDS 5

static uint64_t *granules_image(void)
{
    const uint64_t good[PBEAM_GRANULES_WORDS] = {2, BASE, 256 * 4096, BASE + 0x1000000, 44 * 4096};
    uint64_t *words = lend_words(GRANULES, PBEAM_GRANULES_WORDS);
    image(words, PBEAM_GRANULES_WORDS, good);
    return words;
}

static uint64_t *view_image(void)
{
    uint64_t *words = lend_words(VIEW, PBEAM_VIEW_WORDS);
    image(words, PBEAM_VIEW_WORDS, shared->of->view);
    return words;
}

static size_t other_len(size_t good, size_t most) { return below(16) == 0 ? below(most + 1) : good; }

/* An address in the buffer of a command, and its size. */
static uint64_t pa, size;

static void choose_buffer(void)
{
    const uint64_t room = below(4) == 0 ? PBEAM_REQUEST_BYTES : 1 + below(2048);
    pa = mostly(below(3) == 0 ? BASE + PAGE / 2 : BASE + PAGE - room);
    size = mostly(below(3) == 0 ? BASE + PAGE - pa : room);
}

static void inside(uint64_t offset, uint64_t length, uint64_t len, const char *what)
{
    if (offset > len || length > len - offset)
        wrong(what);
}

/* ---- The calls ---- */

static void call_read(void) { pbeam_read(page, page_len, mostly(BASE), mostly(4), lend_words(VIEW, PBEAM_VIEW_WORDS)); }

/* What was judged is what the view shows: its arrays are within the page. */
static void call_read_view(void)
{
    uint64_t *view = lend_words(VIEW, PBEAM_VIEW_WORDS);
    pbeam_read(page, page_len, mostly(BASE), mostly(4), view);
    for (size_t k = 0; k < PBEAM_SECTIONS; k++) {
        const uint64_t *section = view + PBEAM_VIEW_SECTIONS + k * PBEAM_VIEW_SECTION_WORDS;
        const uint64_t bytes = k == PBEAM_CONSOLE ? PBEAM_CONSOLE_BYTES : PBEAM_BANK_BYTES;
        if (section[PBEAM_VIEW_SECTION_COUNT] > PAGE)
            wrong("a count of the view is above 4,096");
        inside(section[PBEAM_VIEW_SECTION_OFFSET], section[PBEAM_VIEW_SECTION_COUNT] * bytes, PAGE, "an array of the view is outside");
    }
}

static void call_array(void)
{
    uint64_t *place = lend_words(PLACE, PBEAM_PLACE_WORDS);
    pbeam_array(page, page_len, mostly(BASE), mostly(4), mostly(below(4)), place);
    inside(place[0], place[1], page_len, "the array is outside");
}

static void call_array_of(void)
{
    uint64_t *place = lend_words(PLACE, PBEAM_PLACE_WORDS);
    pbeam_array_of(page, page_len, view_image(), mostly(below(4)), place);
    inside(place[0], place[1], page_len, "the array is outside");
}

static void call_count(void) { pbeam_count(page, page_len, view_image(), mostly(below(4))); }

static void call_word(void) { pbeam_word(page, page_len, view_image(), mostly(below(4)), mostly(below(3)), mostly(below(7))); }

static void call_console_named(void)
{
    static const uint8_t names[3][PBEAM_CONSOLE_NAME_BYTES] = {"pl01", "pl02", "none"};
    uint8_t *name = lend(NAME, PBEAM_CONSOLE_NAME_BYTES);
    memcpy(name, names[below(3)], PBEAM_CONSOLE_NAME_BYTES);
    pbeam_console_named(page, page_len, view_image(), name);
}

static void call_field_count(void) { pbeam_field_count(page, page_len, view_image()); }

static void field_inside(const uint64_t *field)
{
    inside(field[PBEAM_FIELD_WORD_OFFSET], field[PBEAM_FIELD_WORD_LENGTH], page_len, "the field is outside");
}

static void call_field(void)
{
    uint64_t *field = lend_words(FIELD, PBEAM_FIELD_WORDS);
    pbeam_field(page, page_len, view_image(), mostly(below(5)), field);
    field_inside(field);
}

static void call_field_of_tag(void)
{
    uint64_t *field = lend_words(FIELD, PBEAM_FIELD_WORDS);
    pbeam_field_of_tag(page, page_len, view_image(), (uint8_t)mostly(1 + below(9)), field);
    field_inside(field);
}

static void call_field_walk(void)
{
    uint64_t *field = lend_words(FIELD, PBEAM_FIELD_WORDS);
    size_t cursor = pbeam_field_start(page, page_len, view_image());
    for (size_t i = 0; i < 2 * PAGE; i++) {
        cursor = pbeam_field_next(page, page_len, forged ? mostly(cursor) : cursor, field);
        field_inside(field);
        if (field[PBEAM_FIELD_WORD_FOUND] == PBEAM_FOUND_NONE)
            break;
    }
}

static void call_kept_for(void)
{
    if (pbeam_kept_for(page, page_len, view_image()) > PAGE)
        wrong("more than a page is kept");
}

static void call_listing(void)
{
    const size_t room = below(2) == 0 ? PBEAM_LISTING_ROOM : below(PBEAM_LISTING_ROOM);
    pbeam_listing(page, page_len, mostly(BASE), mostly(4), lend(TEXT, room), room);
}

static void call_write(void)
{
    const size_t len[4] = {2 * below(40), 6 * below(8), 2 * below(9), mostly(2 * below(9)) % 512};
    uint64_t *list[4];
    for (size_t k = 0; k < 4; k++) {
        list[k] = lend_words(LIST_0 + (int)k, len[k]);
        for (size_t i = 0; i < len[k]; i++)
            list[k][i] = below(64) == 0 ? any_word() : k != 1 ? 0x100000 * (1 + i) : i % 6 == 5 ? 0 : 4096 * (1 + i);
    }
    const size_t fields_len = mostly(28) % PAGE;
    uint8_t *fields = lend(FIELDS, fields_len);
    for (size_t i = 0; i < fields_len; i++)
        fields[i] = (uint8_t)(i == 0 ? 7 : i == 1 ? fields_len - 3 : i == 2 ? (fields_len - 3) >> 8 : i);
    pbeam_write(mostly(BASE), mostly(4), list[0], len[0], list[1], len[1], list[2], len[2], list[3], len[3], fields, fields_len, page,
                page_len);
}

static void call_cold_boot(void)
{
    uint64_t *state = lend_words(STATE, PBEAM_STATE_WORDS);
    image(state, PBEAM_STATE_WORDS, NULL);
    pbeam_cold_boot(state, mostly(0), mostly(5), mostly(4), mostly(BASE), mostly(8), mostly(1024), page, page_len);
}

/* The banks are in the page, after its core or at its end. */
static void call_set_up_granules(void)
{
    const size_t len = mostly(3 * PBEAM_BANK_BYTES) % (PAGE - PBEAM_CORE_BYTES_4);
    uint64_t *granules = lend_words(GRANULES, PBEAM_GRANULES_WORDS);
    image(granules, PBEAM_GRANULES_WORDS, NULL);
    if (page_len == PAGE)
        pbeam_set_up_granules(granules, page + (below(2) == 0 ? PBEAM_CORE_BYTES_4 : PAGE - len), len, mostly(3 * 0x40));
}

static void call_realm_key(void)
{
    const size_t len = other_len(97, 2048);
    pbeam_realm_key(state_image(), page, page_len, lend(KEY, len), len, pa, size, mostly(0), lend_words(OUT, PBEAM_OUT_WORDS));
}

static void call_platform_token(void)
{
    static const uint64_t sizes[] = {0, 0, 32, 48, 64};
    const size_t len = other_len(2500, 4 * PAGE);
    pbeam_platform_token(state_image(), session_image(len), page, page_len, lend(TOKEN, len), len, below(8) == 0, pa, size,
                         mostly(sizes[below(5)]), lend_words(OUT, PBEAM_OUT_WORDS));
}

static void call_challenge(void)
{
    uint64_t *place = lend_words(PLACE, PBEAM_PLACE_WORDS);
    pbeam_challenge(state_image(), page, page_len, pa, size, mostly(32), place);
    inside(place[0], place[1], page_len, "the challenge is outside");
}

/* A request that is accepted has the ids that were judged. */
static void pushed(const uint64_t *queue, uint64_t waited, const uint64_t *out)
{
    const uint64_t *request = queue + PBEAM_QUEUE_FIRST_REQUEST + waited * PBEAM_REQUEST_WORDS;
    if (out[PBEAM_OUT_X0] != PBEAM_X0_OK)
        return;
    if (waited >= PBEAM_REQUESTS_MOST || queue[PBEAM_QUEUE_REQUESTS] != waited + 1)
        wrong("a push that is OK adds no request");
    if (request[PBEAM_REQUEST_WORD_ALGORITHM] != PBEAM_ALGORITHM_SECP384R1 || request[PBEAM_REQUEST_WORD_HASH_ID] != PBEAM_HASH_SHA2_384)
        wrong("the queue has other ids than were judged");
}

static void call_signing(uint64_t opcode)
{
    uint64_t *state = state_image(), *queue = queue_image(), *out = lend_words(OUT, PBEAM_OUT_WORDS);
    const uint64_t waited = queue[PBEAM_QUEUE_REQUESTS];
    const size_t len = other_len(97, 2048);
    pbeam_token_signing(state, queue, page, page_len, lend(PUBLIC, len), len, opcode, pa, size, mostly(0), out);
    if (opcode == PBEAM_OPCODE_PUSH)
        pushed(queue, waited, out);
}

static void call_push(void) { call_signing(PBEAM_OPCODE_PUSH); }
static void call_pull(void) { call_signing(PBEAM_OPCODE_PULL); }
static void call_public_key(void) { call_signing(PBEAM_OPCODE_KEY); }

static void call_call(void)
{
    static const uint64_t ids[] = {PBEAM_ID_FORWARD, PBEAM_ID_DELEGATE, PBEAM_ID_UNDELEGATE, PBEAM_ID_REALM_KEY, PBEAM_ID_PLATFORM_TOKEN,
                                   PBEAM_ID_FEATURES, PBEAM_ID_TOKEN_SIGNING, PBEAM_ID_TOKEN_SIGNING, PBEAM_ID_KEY_UPDATE};
    uint64_t *state = state_image(), *queue = queue_image(), *out = lend_words(OUT, PBEAM_OUT_WORDS);
    uint64_t *call = lend_words(CALL, PBEAM_CALL_WORDS);
    const uint64_t id = ids[below(9)], waited = queue[PBEAM_QUEUE_REQUESTS];
    const size_t table_len = other_len(GRANULE_COUNT, 4 * PAGE), words_len = other_len(GRANULE_WORDS, 2 * PAGE / 8);
    const size_t key_len = other_len(97, 2048), token_len = other_len(2500, 4 * PAGE), public_len = other_len(97, 2048);
    const bool signing = id == PBEAM_ID_TOKEN_SIGNING;
    call[PBEAM_CALL_ID] = id;
    call[PBEAM_CALL_X1] = signing ? mostly(1 + below(3)) : id == PBEAM_ID_DELEGATE ? BASE + 4096 * below(300) : pa;
    call[PBEAM_CALL_X2] = signing ? pa : size;
    call[PBEAM_CALL_X3] = signing ? size : mostly(0);
    call[PBEAM_CALL_X4] = mostly(0);
    pbeam_call(state, session_image(token_len), queue, page, page_len, granules_image(), lend(TABLE, table_len), table_len,
               lend_words(WORDS, words_len), words_len, lend(KEY, key_len), key_len, lend(TOKEN, token_len), token_len, below(8) == 0,
               lend(PUBLIC, public_len), public_len, mostly(15), call, out, lend_words(WORK, PBEAM_WORK_WORDS));
    if (signing && call[PBEAM_CALL_X1] == PBEAM_OPCODE_PUSH)
        pushed(queue, waited, out);
}

static void call_pack(void)
{
    const size_t len = other_len(PAGE, 2 * PAGE);
    pbeam_pack(page, page_len, mostly(BASE), lend(TARGET, len), len);
}

static void call_mend(void) { pbeam_mend(page, page_len, mostly(BASE), lend_words(CHANGED, PBEAM_MEND_WORDS)); }

/* Lists of addresses in memory that the monitor writes. EL3 copies them first; the library stays inside what it is lent anyway. */
static void call_list(bool delegates)
{
    uint64_t *out = lend_words(OUT, PBEAM_OUT_WORDS), *list = (uint64_t *)(void *)page;
    const size_t table_len = other_len(GRANULE_COUNT, 4 * PAGE), words_len = other_len(GRANULE_WORDS, 2 * PAGE / 8);
    uint8_t *table = lend(TABLE, table_len);
    memset(table, delegates ? PBEAM_GRANULE_NON_SECURE : PBEAM_GRANULE_REALM, table_len);
    if (delegates)
        pbeam_delegate_list(state_image(), granules_image(), table, table_len, lend_words(WORDS, words_len), words_len, list, ADDRESS_COUNT, out);
    else
        pbeam_undelegate_list(state_image(), granules_image(), table, table_len, lend_words(WORDS, words_len), words_len, list, ADDRESS_COUNT, out);
    if (out[PBEAM_OUT_X1] > ADDRESS_COUNT)
        wrong("more granules than addresses");
}

static void call_delegate_list(void) { call_list(true); }
static void call_undelegate_list(void) { call_list(false); }

static void call_tpm(void)
{
    const uint64_t in = mostly(below(PAGE)), in_size = mostly(below(PAGE)), out = mostly(PAGE * below(4)), out_size = mostly(PAGE);
    uint64_t *place = lend_words(PLACE, PBEAM_TPM_PLACE_WORDS), *session = lend_words(SESSION, 1);
    const size_t len = other_len(100, 4 * PAGE);
    *session = mostly(1);
    pbeam_tpm_request(mostly(1), in, in_size, out, out_size, page, 4 * PAGE, 0, place);
    inside(place[0], place[1], 4 * PAGE, "the request is outside");
    pbeam_tpm_comm(session, mostly(1), in, in_size, out, out_size, page, 4 * PAGE, lend(RESPONSE, len), len, 0, 0, lend_words(REGISTER, 1));
}

/* Messages of a software TPM: a request of 16 bytes, and a response with 200 bytes of data. */
static void call_swtpm_request(void)
{
    pbeam_swtpm_read_request(page, page_len, PBEAM_SWTPM_CMD_GET_STATEBLOB, lend_numbers(PARTS, PBEAM_SWTPM_PARTS_WORDS));
}

static void call_swtpm_response(void)
{
    uint32_t *parts = lend_numbers(PARTS, PBEAM_SWTPM_PARTS_WORDS);
    if (pbeam_swtpm_read_response(page, page_len, (uint32_t)mostly(400), parts) == PBEAM_SWTPM_OK)
        inside(parts[PBEAM_SWTPM_RESPONSE_AT], parts[PBEAM_SWTPM_RESPONSE_LENGTH], page_len, "the data is outside");
}

static void call_swtpm_collect(void)
{
    uint32_t *collector = lend_numbers(COLLECTOR, PBEAM_SWTPM_COLLECTOR_WORDS);
    const size_t len = other_len(1000, 4 * PAGE);
    for (size_t i = 0; i < PBEAM_SWTPM_COLLECTOR_WORDS; i++)
        collector[i] = forged ? (uint32_t)any_word() : i == 2 ? 200 * (uint32_t)below(6) : i == 1 ? 1000 : 1;
    pbeam_swtpm_collect(collector, page, page_len, (uint32_t)mostly(400), lend(BUFFER, len), len);
}

/* ---- The calls that take no shared memory: guard pages and forged images alone ---- */

static void call_delegations(void)
{
    const size_t table_len = other_len(GRANULE_COUNT, 4 * PAGE), words_len = other_len(GRANULE_WORDS, 2 * PAGE / 8);
    uint64_t *state = state_image(), *granules = granules_image(), *words = lend_words(WORDS, words_len), *out = lend_words(OUT, PBEAM_OUT_WORDS);
    uint8_t *table = lend(TABLE, table_len);
    pbeam_delegate(state, granules, table, table_len, words, words_len, mostly(BASE + 4096 * below(GRANULE_COUNT)), out);
    pbeam_undelegate(state, granules, table, table_len, words, words_len, mostly(BASE + 4096 * below(GRANULE_COUNT)), out);
}

static void call_realm_words(void)
{
    const size_t table_len = other_len(GRANULE_COUNT, 4 * PAGE), words_len = other_len(GRANULE_WORDS, 2 * PAGE / 8);
    uint64_t *granules = granules_image(), *words = lend_words(WORDS, words_len), *number = lend_words(NUMBER, 1);
    const uint8_t *table = lend(TABLE, table_len);
    pbeam_realm_build(granules, table, table_len, words, words_len);
    pbeam_realm_agrees(granules, table, table_len, words, words_len);
    pbeam_realm_count(granules, words, words_len, number);
    pbeam_realm_next(granules, words, words_len, mostly(below(GRANULE_COUNT)), number);
}

static void call_signer(void)
{
    const size_t len = other_len(1 + below(104), 2048);
    uint64_t *queue = queue_image();
    pbeam_oldest(queue, lend_words(REQUEST, PBEAM_REQUEST_WORDS));
    pbeam_responses(queue);
    pbeam_sign(queue, lend(KEY, len), len, lend_words(OUT, PBEAM_OUT_WORDS));
}

static void call_small(void)
{
    uint64_t *state = state_image(), *out = lend_words(OUT, PBEAM_OUT_WORDS);
    const uint64_t version = mostly(5);
    pbeam_features(state, mostly(0), out);
    pbeam_key_update(state, mostly(15), mostly(7), out, lend_words(WORK, PBEAM_WORK_WORDS));
    pbeam_forward(state, any_word());
    pbeam_warm_boot(state, mostly(1), 0, 0, 0);
    pbeam_close(state);
    if (pbeam_version_accepted(version) && pbeam_is_later(pbeam_agreed_minor(version), PBEAM_INTERFACE_MINOR))
        wrong("the agreed minor is above 5");
}

static void call_swtpm_write(void)
{
    const size_t room = other_len(216, 400), len = other_len(200, 400);
    uint32_t *collector = lend_numbers(COLLECTOR, PBEAM_SWTPM_COLLECTOR_WORDS);
    size_t *written = (size_t *)(void *)lend(LENGTH, sizeof *written);
    for (size_t i = 0; i < PBEAM_SWTPM_COLLECTOR_WORDS; i++)
        collector[i] = (uint32_t)any_word();
    pbeam_swtpm_write_request(lend(BUFFER, room), room, (uint32_t)any_word(), 0, 0, 0, written);
    pbeam_swtpm_write_response(lend(BUFFER, room), room, (uint32_t)mostly(400), 0, 0, 0, lend(RESPONSE, len), len, written);
    pbeam_swtpm_complete(collector);
    pbeam_swtpm_held(collector);
}

/* ---- Functions that are wrong, to show that a stray access is noticed ---- */

static volatile uint8_t sink;

static void wrong_after(void) { sink = *(volatile const uint8_t *)(page + page_len); }
static void wrong_before(void) { sink = *(volatile const uint8_t *)(page - 1); }

static void wrong_twice(void)
{
    const volatile uint64_t *count = (const volatile uint64_t *)(const void *)(page + PBEAM_CORE_DRAM);
    if (page_len == PAGE && *count <= 249) {
        const uint64_t used = *count;
        sink = *(volatile const uint8_t *)(page + PBEAM_CORE_BYTES_4 + used * PBEAM_BANK_BYTES - 1 + (used == 0));
    }
}

/* ---- All of it ---- */

#define ANY_PAGE SHARES /* one of the pages, in turn */
#define REQUEST_PAGE 4  /* the page with two requests of token signing */

struct call {
    const char *name;
    void (*run)(void);
    size_t on;       /* the bytes that it shares with the second thread */
    bool writes;     /* whether the shared bytes are made good again before each call */
    unsigned weight; /* hundreds of calls in a round */
};

static const struct call calls[] = {
    {"pbeam_read", call_read, ANY_PAGE, false, 2},
    {"pbeam_read, its view", call_read_view, ANY_PAGE, false, 2},
    {"pbeam_array", call_array, ANY_PAGE, false, 2},
    {"pbeam_array_of", call_array_of, ANY_PAGE, false, 1},
    {"pbeam_count", call_count, ANY_PAGE, false, 1},
    {"pbeam_word", call_word, ANY_PAGE, false, 1},
    {"pbeam_console_named", call_console_named, ANY_PAGE, false, 1},
    {"pbeam_field_count", call_field_count, ANY_PAGE, false, 1},
    {"pbeam_field", call_field, ANY_PAGE, false, 1},
    {"pbeam_field_of_tag", call_field_of_tag, ANY_PAGE, false, 1},
    {"pbeam_field_start, pbeam_field_next", call_field_walk, ANY_PAGE, false, 1},
    {"pbeam_kept_for", call_kept_for, ANY_PAGE, false, 1},
    {"pbeam_listing", call_listing, ANY_PAGE, false, 2},
    {"pbeam_write", call_write, ANY_PAGE, true, 1},
    {"pbeam_cold_boot", call_cold_boot, ANY_PAGE, false, 2},
    {"pbeam_set_up_granules", call_set_up_granules, ANY_PAGE, false, 1},
    {"pbeam_pack", call_pack, ANY_PAGE, false, 4},
    {"pbeam_mend", call_mend, ANY_PAGE, true, 3},
    {"pbeam_realm_key", call_realm_key, REQUEST_PAGE, true, 1},
    {"pbeam_platform_token", call_platform_token, REQUEST_PAGE, true, 1},
    {"pbeam_challenge", call_challenge, REQUEST_PAGE, false, 1},
    {"pbeam_token_signing, push", call_push, REQUEST_PAGE, false, 3},
    {"pbeam_token_signing, pull", call_pull, REQUEST_PAGE, true, 1},
    {"pbeam_token_signing, key", call_public_key, REQUEST_PAGE, true, 1},
    {"pbeam_call", call_call, REQUEST_PAGE, true, 3},
    {"pbeam_delegate_list", call_delegate_list, LIST, false, 1},
    {"pbeam_undelegate_list", call_undelegate_list, LIST, false, 1},
    {"pbeam_tpm_request, pbeam_tpm_comm", call_tpm, GUEST, true, 1},
    {"pbeam_swtpm_read_request", call_swtpm_request, REQUEST_MESSAGE, false, 1},
    {"pbeam_swtpm_read_response", call_swtpm_response, RESPONSE_MESSAGE, false, 1},
    {"pbeam_swtpm_collect", call_swtpm_collect, RESPONSE_MESSAGE, false, 2},
    {"pbeam_delegate, pbeam_undelegate", call_delegations, ANY_PAGE, false, 1},
    {"pbeam_realm_build, agrees, count, next", call_realm_words, ANY_PAGE, false, 1},
    {"pbeam_oldest, pbeam_responses, pbeam_sign", call_signer, ANY_PAGE, false, 1},
    {"features, key update, forward, warm boot, close, versions", call_small, ANY_PAGE, false, 1},
    {"pbeam_swtpm_write_request, write_response, complete, held", call_swtpm_write, ANY_PAGE, false, 1},
};

static const struct call wrongs[] = {
    {"after", wrong_after, ANY_PAGE, false, 1},
    {"before", wrong_before, ANY_PAGE, false, 1},
    {"twice", wrong_twice, ANY_PAGE, false, 1},
};

/* Some calls of one kind, on shared bytes that are chosen once. */
static void run_some(const struct call *call, unsigned count)
{
    const size_t which = call->on == ANY_PAGE ? below(PAGES) : call->on;
    const size_t len = shares[which].len;
    shared = &places[at_end][which];
    page_as_good();
    atomic_store(&now_shared, shared);
    running = call->name;
    for (unsigned i = 0; i < count; i++) {
        forged = below(2) == 0;
        page_len = which < PAGES && below(32) == 0 ? below(PAGE) : len;
        page = at_end ? shared->at + len - page_len : shared->at;
        choose_buffer();
        if (call->writes || i % 16 == 0)
            page_as_good();
        call->run();
    }
    running = "this test";
}

static bool named(const char *name, int count, char **names)
{
    for (int i = 0; i < count; i++)
        if (strcmp(name, names[i]) == 0)
            return true;
    return false;
}

static double seconds_now(void)
{
    struct timespec now;
    clock_gettime(CLOCK_MONOTONIC, &now);
    return (double)now.tv_sec + (double)now.tv_nsec / 1e9;
}

int main(int argc, char **argv)
{
    static uint8_t stack[64 * 1024];
    const stack_t other = {.ss_sp = stack, .ss_size = sizeof stack};
    struct sigaction action = {.sa_flags = SA_SIGINFO | SA_ONSTACK};
    const struct call *set = calls;
    size_t kinds = sizeof calls / sizeof calls[0], used = 0;
    double seconds = 6;
    unsigned long made = 0;
    pthread_t second;
    for (size_t i = 0; argc > 1 && i < sizeof wrongs / sizeof wrongs[0]; i++)
        if (strcmp(argv[1], wrongs[i].name) == 0) {
            set = &wrongs[i];
            kinds = 1;
        }
    if (argc > 1 && set == calls && (seconds = atof(argv[1])) <= 0) {
        printf("race [SECONDS [only|without NAME..]]\nrace after|before|twice\n");
        return 2;
    }
    action.sa_sigaction = stopped;
    if (sigaltstack(&other, NULL) != 0 || sigaction(SIGSEGV, &action, NULL) != 0 || sigaction(SIGBUS, &action, NULL) != 0)
        return 2;
    make_buffers();
    make_shares();
    if (pthread_create(&second, NULL, second_thread, NULL) != 0)
        return 2;
    const double end = seconds_now() + seconds;
    unsigned rounds = 0;
    do {
        for (int arrangement = 0; arrangement < 2; arrangement++) {
            at_end = arrangement == 1;
            for (size_t i = 0; i < kinds; i++) {
                if (argc > 2 && named(set[i].name, argc - 3, argv + 3) != (strcmp(argv[2], "only") == 0))
                    continue;
                run_some(&set[i], 100 * set[i].weight);
                made += 100 * set[i].weight;
                used += arrangement == 0 && rounds == 0;
            }
        }
        rounds++;
    } while (seconds_now() < end);
    atomic_store(&ended, true);
    pthread_join(second, NULL);
    if (atomic_load(&changes) == 0)
        wrong("the second thread changed nothing");
    if (used == 0)
        wrong("no call has such a name");
    printf("%zu kinds of calls, buffers that end at a guard page and that start after one: %lu calls during %lu changes touched nothing else\n",
           used, made, atomic_load(&changes));
    return 0;
}
