/*
 * Calls of the AArch64 archives whose instructions tools/aarch64 counts, and the same work in hand-written C. Between two calls of mark() all
 * instructions but those of the rows themselves count. No libc: the copies below take its place, 16 bytes per iteration.
 *
 * Prints a line for each row, in the order of the marks: its name. Ends with status 1 if library and C differ.
 */
#include "potterbeam.h"
#include "potterbeam_tpm.h"

typedef uint64_t word;
typedef word __attribute__((may_alias)) any_word; /* a word of a page */

void *memcpy(void *restrict to, const void *restrict from, size_t n)
{
    unsigned char *t = to;
    const unsigned char *f = from;
    if ((((uintptr_t)t | (uintptr_t)f) & 7) == 0) {
        for (; n >= 16; n -= 16, t += 16, f += 16) {
            word low = ((const any_word *)f)[0], high = ((const any_word *)f)[1];
            ((any_word *)t)[0] = low;
            ((any_word *)t)[1] = high;
        }
    }
    for (; n > 0; n--)
        *t++ = *f++;
    return to;
}

void *memmove(void *to, const void *from, size_t n)
{
    unsigned char *t = to;
    const unsigned char *f = from;
    if (t <= f || t >= f + n)
        return memcpy(to, from, n);
    while (n-- > 0)
        t[n] = f[n];
    return to;
}

void *memset(void *to, int byte, size_t n)
{
    unsigned char *t = to;
    word eight = 0x0101010101010101 * (unsigned char)byte;
    if (((uintptr_t)t & 7) == 0) {
        for (; n >= 16; n -= 16, t += 16) {
            ((any_word *)t)[0] = eight;
            ((any_word *)t)[1] = eight;
        }
    }
    for (; n > 0; n--)
        *t++ = (unsigned char)byte;
    return to;
}

static long call(long number, long a, const void *b, long c)
{
    register long x8 __asm__("x8") = number, x0 __asm__("x0") = a, x2 __asm__("x2") = c;
    register const void *x1 __asm__("x1") = b;
    __asm__ volatile("svc 0" : "+r"(x0) : "r"(x8), "r"(x1), "r"(x2) : "memory");
    return x0;
}

__attribute__((noinline)) void mark(void)
{
    __asm__ volatile("" ::: "memory");
}

static void expect(int same)
{
    if (!same)
        call(93, 1, 0, 0);
}

static int equal(const void *a, const void *b, size_t n)
{
    const unsigned char *left = a, *right = b;
    while (n-- > 0)
        if (left[n] != right[n])
            return 0;
    return 1;
}

/* The name of a row. */
static void say(const char *name)
{
    long n = 0;
    while (name[n])
        n++;
    call(64, 1, name, n);
    call(64, 1, "\n", 1);
}

/* ---- Hand-written. A page must be aligned to 8 bytes here, which the library does not require. ---- */

#define HAND_WRITTEN __attribute__((noinline))
#define MEMORY_END (1ull << 52)

static inline word at(const uint8_t *page, word offset)
{
    return *(const any_word *)(page + offset);
}

/* The sum of the words of good banks, or 0 with *bad set. */
static inline word hand_banks(const uint8_t *array, word count, word *bad)
{
    word sum = 0, either = 0, high = 0;
    for (const any_word *bank = (const any_word *)array, *end = bank + 2 * count; bank < end; bank += 2) {
        word span = bank[1] - 1;
        either |= bank[0] | bank[1];
        high |= bank[0] | span | (bank[0] + span);
        sum += bank[0] + bank[1];
    }
    *bad |= (either & 0xfff) | high >> 52;
    return sum;
}

static inline word hand_consoles(const uint8_t *array, word count, word minor, word *bad)
{
    word sum = 0, either = 0, high = 0, flags = 0;
    for (const any_word *c = (const any_word *)array, *end = c + 6 * count; c < end; c += 6) {
        word span = c[1] - 1;
        either |= c[0];
        high |= span | ((c[0] >> 12) + span);
        flags |= c[5];
        sum += c[0] + c[1] + c[2] + c[3] + c[4] + c[5];
    }
    *bad |= (either & 0xfff) | high >> 40 | (minor > 4 ? 0 : flags);
    return sum;
}

/* pbeam_read, of pages without platform data. */
HAND_WRITTEN int32_t hand_read(const uint8_t *page, size_t length, word base, word edition, word view[PBEAM_VIEW_WORDS])
{
    word from[4] = {0}, to[4] = {0}, bad = 0, core;
    unsigned sections;
    memset(view, 0, 8 * PBEAM_VIEW_WORDS);
    if (length != 4096 || base == 0 || (base & 0xfff) || base > MEMORY_END - 4096)
        return -5;
    word head = at(page, 0);
    if (edition - 1 >= 4 || (uint32_t)head - 1u >= 0xffff)
        return -6;
    edition = edition < head ? edition : head;
    sections = edition == 4 ? 4 : edition - 1;
    core = 16 + 24 * sections;
    if (head >> 32 || at(page, 8))
        return -7;
    for (unsigned k = 0; k < sections; k++) {
        word count = at(page, 16 + 24 * k), pointer = at(page, 24 + 24 * k), check = at(page, 32 + 24 * k);
        word size = k == 1 ? 48 : 16, offset = pointer - base;
        if ((count | pointer | check) == 0)
            continue;
        if (offset < core || offset >= 4096 || (offset & 7) || count - 1 >= 256 || offset + count * size > 4096)
            goto refused;
        check += count + pointer;
        check += k == 1 ? hand_consoles(page + offset, count, head, &bad) : hand_banks(page + offset, count, &bad);
        if (bad || check)
            goto refused;
        from[k] = offset;
        to[k] = offset + count * size;
        for (unsigned j = 0; j < k; j++)
            if (to[j] > from[k] && to[k] > from[j])
                goto refused;
        view[4 + 3 * k] = offset;
        view[5 + 3 * k] = count;
    }
    view[0] = head;
    view[1] = edition;
    for (unsigned k = 0; k < sections; k++)
        view[3 + 3 * k] = to[k] ? 2 : 1;
    return 0;
refused:
    memset(view, 0, 8 * PBEAM_VIEW_WORDS);
    return -7;
}

/* pbeam_write, only of banks. */
HAND_WRITTEN uint32_t hand_write(word base, word edition, const word *dram, size_t dram_len, uint8_t *to, size_t length)
{
    static const unsigned cores[5] = {0, 16, 40, 64, 112};
    any_word *page_words = (any_word *)to;
    word bad = 0, core, sum;
    if (length != 4096 || base == 0 || (base & 0xfff) || base > MEMORY_END - 4096)
        return 1;
    if (edition - 1 >= 4)
        return 2;
    sum = hand_banks((const uint8_t *)dram, dram_len / 2, &bad);
    if (bad || dram_len % 2)
        return 3;
    if (edition == 1 && dram_len)
        return 4;
    core = cores[edition];
    if (dram_len > (4096 - core) / 8)
        return 5;
    memset(to, 0, core);
    page_words[0] = edition;
    if (dram_len) {
        page_words[2] = dram_len / 2;
        page_words[3] = base + core;
        page_words[4] = -(sum + dram_len / 2 + base + core);
    }
    memcpy(to + core, dram, 8 * dram_len);
    memset(to + core + 8 * dram_len, 0, 4096 - core - 8 * dram_len);
    return 0;
}

/* One good bank, as many bytes and words: what moves need of a record here. */
static inline int hand_ready(const word *state, const word *granules, size_t table, size_t words)
{
    word base = granules[1], size = granules[2];
    return granules[0] == 1 && state[0] == 1 && ((base | size) & 0xfff) == 0 && size - 1 < MEMORY_END && base <= MEMORY_END - size &&
           size >> 12 == table && (table + 63) / 64 == words;
}

/* pbeam_delegate_list with one bank. */
HAND_WRITTEN void hand_delegate_list(const word *state, const word *granules, uint8_t *table, size_t table_len, word *words, size_t words_len,
                                const word *list, size_t length, word *out)
{
    size_t done = 0;
    word code = 0;
    out[2] = 0;
    if (!hand_ready(state, granules, table_len, words_len)) {
        code = -2;
        length = 0;
    }
    for (; done < length; done++) {
        word offset = list[done] - granules[1], place = offset >> 12 | offset << 52;
        if (place >= table_len) {
            code = -2;
            break;
        }
        if (table[place] != 0) {
            code = -3;
            break;
        }
        table[place] = 1;
        words[place / 64] |= 1ull << place % 64;
    }
    out[0] = code;
    out[1] = done;
}

/* pbeam_delegate with one bank. */
HAND_WRITTEN void hand_delegate(const word *state, const word *granules, uint8_t *table, size_t table_len, word *words, size_t words_len,
                           word address, word *out)
{
    word offset = address - granules[1], place = offset >> 12 | offset << 52, code = 0;
    if (!hand_ready(state, granules, table_len, words_len) || place >= table_len) {
        code = -2;
    } else if (table[place] != 0) {
        code = -3;
    } else {
        table[place] = 1;
        words[place / 64] |= 1ull << place % 64;
    }
    out[0] = code;
    out[1] = 0;
    out[2] = 0;
}

/* The copy of token and TPM. */
HAND_WRITTEN void hand_copy(uint8_t *to, const uint8_t *from, size_t length)
{
    memcpy(to, from, length);
}

/* The words of a record of one bank, and of full words: what the Realm words need here. */
static inline int hand_fits(const word *granules, size_t words)
{
    const word up[1] = {1};
    return hand_ready(up, granules, granules[2] >> 12, words) && (granules[2] >> 12) % 64 == 0;
}

/* pbeam_realm_build: eight bytes at a time. */
HAND_WRITTEN word hand_build(const word *granules, const uint8_t *table, size_t table_len, word *words, size_t words_len)
{
    const word low = 0x7f7f7f7f7f7f7f7f;
    if (!hand_fits(granules, words_len) || granules[2] >> 12 != table_len)
        return -5;
    for (size_t i = 0; i < words_len; i++) {
        word bits = 0;
        for (unsigned part = 0; part < 64; part += 8) {
            word differs = at(table, 64 * i + part) ^ 0x0101010101010101;
            word same = ~(((differs & low) + low) | differs | low);
            bits |= ((same >> 7) * 0x0102040810204080 >> 56) << part;
        }
        words[i] = bits;
    }
    return 0;
}

/* pbeam_realm_count. */
HAND_WRITTEN word hand_count(const word *granules, const word *words, size_t words_len, word number[1])
{
    word sum = 0;
    number[0] = 0;
    if (!hand_fits(granules, words_len))
        return -5;
    for (size_t i = 0; i < words_len; i++) {
        word x = words[i] - (words[i] >> 1 & 0x5555555555555555);
        x = (x & 0x3333333333333333) + (x >> 2 & 0x3333333333333333);
        sum += ((x + (x >> 4)) & 0x0f0f0f0f0f0f0f0f) * 0x0101010101010101 >> 56;
    }
    number[0] = sum;
    return 0;
}

/* pbeam_realm_next: eight words at a time. */
HAND_WRITTEN word hand_next(const word *granules, const word *words, size_t words_len, word index, word found[1])
{
    size_t i = index / 64;
    found[0] = 0;
    if (!hand_fits(granules, words_len) || index >= granules[2] >> 12)
        return -5;
    word bits = words[i] & ~0ull << index % 64;
    if (bits == 0) {
        i++;
        while (i + 8 <= words_len && (words[i] | words[i + 1] | words[i + 2] | words[i + 3] | words[i + 4] | words[i + 5] | words[i + 6] |
                                      words[i + 7]) == 0)
            i += 8;
        while (i < words_len && words[i] == 0)
            i++;
        if (i == words_len)
            return 1;
        bits = words[i];
    }
    found[0] = 64 * i + __builtin_ctzll(bits);
    return 0;
}

/* ---- Rows ---- */

#define BASE 0x80000000ull
#define LIST 200
#define GRANULES 4096

static _Alignas(4096) uint8_t page[4096], other[4096], memory[65536];
static _Alignas(16) uint8_t source[4096], table[GRANULES], their_table[GRANULES];
static word banks[2 * 249], consoles[6 * 83], words[GRANULES / 64], their_words[GRANULES / 64], list[LIST];

#define ROW(name, library, hand)                                                                                                          \
    do {                                                                                                                                  \
        say(name);                                                                                                                        \
        mark();                                                                                                                           \
        library;                                                                                                                          \
        mark();                                                                                                                           \
        mark();                                                                                                                           \
        hand;                                                                                                                             \
        mark();                                                                                                                           \
    } while (0)

static void row_reading(const char *name, word edition, const word *dram, size_t in_dram, const word *console, size_t in_console)
{
    word view[PBEAM_VIEW_WORDS], theirs[PBEAM_VIEW_WORDS];
    int32_t code = 1, other_code = 1;
    expect(pbeam_write(BASE, edition, dram, in_dram, console, in_console, 0, 0, 0, 0, 0, 0, page, 4096) == 0);
    ROW(name, code = pbeam_read(page, 4096, BASE, 4, view), other_code = hand_read(page, 4096, BASE, 4, theirs));
    expect(code == 0 && other_code == 0 && equal(view, theirs, sizeof view));
}

static void row_manifest(void)
{
    for (size_t i = 0; i < 249; i++) {
        banks[2 * i] = 0x90000000;
        banks[2 * i + 1] = 0x10000000;
    }
    for (size_t i = 0; i < 83; i++) {
        const word one[6] = {0x1c0c0000, 1, 0x70617274, 24000000, 115200, 0};
        memcpy(consoles + 6 * i, one, sizeof one);
    }
    row_reading("read example 14's page", 2, banks, 2, 0, 0);
    row_reading("read edition 4, a bank, a console", 4, banks, 2, consoles, 6);
    row_reading("read 249 banks", 4, banks, 498, 0, 0);
    row_reading("read 83 consoles", 4, 0, 0, consoles, 498);
    uint32_t code = 1, other_code = 1;
    ROW("write 249 banks", code = pbeam_write(BASE, 4, banks, 498, 0, 0, 0, 0, 0, 0, 0, 0, page, 4096),
        other_code = hand_write(BASE, 4, banks, 498, other, 4096));
    expect(code == 0 && other_code == 0 && equal(page, other, 4096));
}

static void row_copies(void)
{
    word session[PBEAM_SESSION_WORDS] = {0}, out[PBEAM_OUT_WORDS], r4 = 0, tpm = 0;
    const word state[PBEAM_STATE_WORDS] = {1, 8, BASE, 5, 0};
    for (size_t i = 0; i < sizeof source; i++)
        source[i] = (uint8_t)i;
    ROW("token, a hunk of 4,000 bytes", pbeam_platform_token(state, session, page, 4096, source, 4096, 0, BASE, 4000, 64, out),
        hand_copy(other, source, 4000));
    expect(out[0] == 0 && out[1] == 4000 && equal(page, other, 4000));
    ROW("TPM call, response of 4,096 bytes",
        expect(pbeam_tpm_comm(&tpm, 1, 4096, 256, 16384, 4096, memory, sizeof memory, source, 4096, 0, 0, &r4) == 0),
        hand_copy(other, source, 4096));
    expect(equal(memory + 16384, other, 4096));
}

static void row_granules(void)
{
    const word state[PBEAM_STATE_WORDS] = {1, 8, BASE, 5, 0};
    const word granules[PBEAM_GRANULES_WORDS] = {1, 0x880000000, GRANULES * 4096ull};
    word out[PBEAM_OUT_WORDS], theirs[PBEAM_OUT_WORDS], number[1], their_number[1], code = 1, other_code = 1;
    size_t n = GRANULES / 64;
    for (size_t i = 0; i < LIST; i++)
        list[i] = granules[1] + 4096 * (2 * i + i / 2 + 1);
    ROW("delegate, 1 bank", pbeam_delegate(state, granules, table, GRANULES, words, n, granules[1], out),
        hand_delegate(state, granules, their_table, GRANULES, their_words, n, granules[1], theirs));
    expect(out[0] == 0 && equal(out, theirs, sizeof out) && equal(words, their_words, sizeof words));
    ROW("list of 200, 1 bank", pbeam_delegate_list(state, granules, table, GRANULES, words, n, list, LIST, out),
        hand_delegate_list(state, granules, their_table, GRANULES, their_words, n, list, LIST, theirs));
    expect(out[1] == LIST && equal(out, theirs, sizeof out) && equal(words, their_words, sizeof words));
    ROW("build the words of 2^12 granules", code = pbeam_realm_build(granules, table, GRANULES, words, n),
        other_code = hand_build(granules, their_table, GRANULES, their_words, n));
    expect(code == 0 && other_code == 0 && equal(words, their_words, sizeof words));
    ROW("count of 2^12 granules", code = pbeam_realm_count(granules, words, n, number),
        other_code = hand_count(granules, words, n, their_number));
    expect(code == 0 && other_code == 0 && number[0] == LIST + 1 && their_number[0] == number[0]);
    memset(words, 0, sizeof words);
    words[n - 1] = 1ull << 63;
    ROW("next, the last of 2^12 granules", code = pbeam_realm_next(granules, words, n, 1, number),
        other_code = hand_next(granules, words, n, 1, their_number));
    expect(code == 0 && other_code == 0 && number[0] == GRANULES - 1 && their_number[0] == number[0]);
}

void _start(void)
{
    row_manifest();
    row_copies();
    row_granules();
    call(93, 0, 0, 0);
}
