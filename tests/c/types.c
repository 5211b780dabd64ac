/*
 * Does each function of include/potterbeam_types.h do what its comment states? It is compared with the words underneath, with another
 * function of the header, or with the library's answer. tests/c/run refuses a function or a name of the header that is not named here.
 *
 * The first check that fails ends the program with its line.
 */
#include <inttypes.h>
#include <stdio.h>
#include <stdlib.h>
#include <string.h>

#include "potterbeam_types.h"

#define BASE UINT64_C(0x80000000)
#define MEMORY UINT64_C(0x90000000)

static unsigned long checks;

static void same(int line, const char *what, uint64_t is, const char *beside, uint64_t want)
{
    checks++;
    if (is == want)
        return;
    printf("tests/c/types.c:%d: wrong: %s is 0x%" PRIx64 ", but %s is 0x%" PRIx64 "\n", line, what, is, beside, want);
    exit(1);
}

static void same_text(int line, const char *is, const char *want)
{
    checks++;
    if (strcmp(is, want) == 0)
        return;
    printf("tests/c/types.c:%d: wrong: \"%s\", not \"%s\"\n", line, is, want);
    exit(1);
}

#define SAME(a, b) same(__LINE__, #a, (uint64_t)(a), #b, (uint64_t)(b))
#define TEXT(a, b) same_text(__LINE__, a, b)

/* ---- 002's names: the numbers of 002's tables ---- */

static void check_names_of_002(void)
{
    SAME(E_RMM_BOOT_SUCCESS, 0);
    SAME(E_RMM_BOOT_ERR_UNKNOWN, -1);
    SAME(E_RMM_BOOT_VERSION_NOT_VALID, -2);
    SAME(E_RMM_BOOT_CPUS_OUT_OF_RANGE, -3);
    SAME(E_RMM_BOOT_CPU_ID_OUT_OF_RANGE, -4);
    SAME(E_RMM_BOOT_INVALID_SHARED_BUFFER, -5);
    SAME(E_RMM_BOOT_MANIFEST_VERSION_NOT_SUPPORTED, -6);
    SAME(E_RMM_BOOT_MANIFEST_DATA_ERROR, -7);
    SAME(E_RMM_OK, 0);
    SAME(E_RMM_UNK, -1);
    SAME(E_RMM_BAD_ADDR, -2);
    SAME(E_RMM_BAD_PAS, -3);
    SAME(E_RMM_NOMEM, -4);
    SAME(E_RMM_INVAL, -5);
    SAME(E_RMM_AGAIN, -6);
    SAME(RMM_RMI_REQ_COMPLETE, 0xC400018F);
    SAME(RMM_GTSI_DELEGATE, 0xC40001B0);
    SAME(RMM_GTSI_UNDELEGATE, 0xC40001B1);
    SAME(RMM_ATTEST_GET_REALM_KEY, 0xC40001B2);
    SAME(RMM_ATTEST_GET_PLAT_TOKEN, 0xC40001B3);
    SAME(RMM_EL3_FEATURES, 0xC40001B4);
    SAME(RMM_EL3_TOKEN_SIGN, 0xC40001B5);
    SAME(RMM_MECID_KEY_UPDATE, 0xC40001B6);
    SAME(RMM_BOOT_COMPLETE, 0xC40001CF);
    SAME(RMM_EL3_TOKEN_SIGN_PUSH_REQ_OP, 1);
    SAME(RMM_EL3_TOKEN_SIGN_PULL_RESP_OP, 2);
    SAME(RMM_EL3_TOKEN_SIGN_GET_RAK_PUB_OP, 3);
}

/* ---- Bytes and texts ---- */

static void check_little_endian(void)
{
    uint8_t b[12] = {0xEE, 1, 2, 3, 4, 5, 6, 7, 0xF8, 0xEE, 0xEE, 0xEE};
    SAME(pbeam_get16(b + 1), 0x0201);
    SAME(pbeam_get32(b + 1), 0x04030201);
    SAME(pbeam_get64(b + 1), UINT64_C(0xF807060504030201));
    pbeam_put16(b + 1, 0xA1B2);
    SAME(pbeam_get64(b + 1), UINT64_C(0xF80706050403A1B2));
    pbeam_put32(b + 1, 0xC3D4E5F6);
    SAME(pbeam_get64(b + 1), UINT64_C(0xF8070605C3D4E5F6));
    pbeam_put64(b + 1, UINT64_C(0x8899AABBCCDDEEFF));
    SAME(pbeam_get64(b + 1), UINT64_C(0x8899AABBCCDDEEFF));
    SAME(b[0], 0xEE);
    SAME(b[9], 0xEE);
}

/* Each code has a text of its own, and no other number has one. */
static void check_texts(void)
{
    for (int32_t a = 0; a > -8; a--) {
        SAME(strcmp(pbeam_boot_text(a), "no boot code") == 0, 0);
        SAME(strcmp(pbeam_read_text(a), "no reader's code") == 0, a < 0 && a > -5);
        for (int32_t b = 0; b > a; b--)
            SAME(strcmp(pbeam_boot_text(a), pbeam_boot_text(b)) == 0, 0);
    }
    TEXT(pbeam_boot_text(0), "done");
    TEXT(pbeam_boot_text(-8), "no boot code");
    TEXT(pbeam_boot_text(1), "no boot code");
    TEXT(pbeam_read_text(0), "accepted");
    TEXT(pbeam_read_text(-8), "no reader's code");
    TEXT(pbeam_write_text(0), "done");
    for (uint32_t w = 1; w <= 5; w++) {
        SAME(pbeam_write_text(w)[0], 'W');
        SAME(pbeam_write_text(w)[1], '0' + w);
    }
    TEXT(pbeam_write_text(6), "no writer's answer");
    TEXT(pbeam_x0_text(PBEAM_X0_OK), "OK");
    SAME(strncmp(pbeam_x0_text((uint64_t)INT64_C(-1)), "UNK:", 4), 0);
    SAME(strncmp(pbeam_x0_text((uint64_t)INT64_C(-2)), "BAD_ADDR:", 9), 0);
    SAME(strncmp(pbeam_x0_text((uint64_t)INT64_C(-3)), "BAD_PAS:", 8), 0);
    TEXT(pbeam_x0_text((uint64_t)INT64_C(-4)), "no runtime code");
    SAME(strncmp(pbeam_x0_text((uint64_t)INT64_C(-5)), "INVAL:", 6), 0);
    SAME(strncmp(pbeam_x0_text((uint64_t)INT64_C(-6)), "AGAIN:", 6), 0);
    TEXT(pbeam_x0_text(UINT64_C(0xFFFFFFFA)), "no runtime code"); /* 32 bits are not what x0 holds */
}

static void check_console_name(void)
{
    pbeam_console_t console = {0, 0, 7, 0, 0, 0};
    char text[10] = "#########";
    SAME(pbeam_console_set_name(&console, "ninechars"), false);
    SAME(console.name, 7);
    SAME(pbeam_console_set_name(&console, "pl011"), true);
    SAME(console.name, 0x3131306C70);
    pbeam_console_text(&console, text);
    TEXT(text, "pl011");
    SAME(pbeam_console_set_name(&console, "uart-\xFF-8"), true);
    pbeam_console_text(&console, text);
    TEXT(text, "uart-\xFF-8");
    SAME(text[8], 0);
    SAME(pbeam_console_set_name(&console, ""), true);
    SAME(console.name, 0);
}

static void check_bytes(void)
{
    static const uint8_t b[3] = {1, 2, 3};
    SAME(pbeam_bytes(b, 3).at == b, 1);
    SAME(pbeam_bytes(b, 3).length, 3);
    SAME(pbeam_bytes(NULL, 3).length, 0);
}

/* ---- Manifest ---- */

static pbeam_page_t page;

static const pbeam_bank_t dram[] = {{0x90000000, 0x10000000}, {0x880000000, 0x2000}};
static const pbeam_console_t console[] = {{0x1C0C0000, 3, 0x3131306C70, 24000000, 115200, 0}};
static const pbeam_region_t ncoh[] = {{0x1000, 0x1000}, {0x3000, 0x1000}, {0x5000, 0x1000}};
static const pbeam_region_t coh[] = {{0x11000, 0x1000}, {0x13000, 0x1000}, {0x15000, 0x1000}, {0x17000, 0x1000}};
static const pbeam_lists_t lists = {dram, 2, console, 1, ncoh, 3, coh, 4, {NULL, 0}};

/* Counts are entries: the page has each of them, and is the one that the same words give. */
static void check_writer(void)
{
    static const uint64_t dram_words[] = {0x90000000, 0x10000000, 0x880000000, 0x2000};
    static const uint64_t console_words[] = {0x1C0C0000, 3, 0x3131306C70, 24000000, 115200, 0};
    static const uint64_t ncoh_words[] = {0x1000, 0x1000, 0x3000, 0x1000, 0x5000, 0x1000};
    static const uint64_t coh_words[] = {0x11000, 0x1000, 0x13000, 0x1000, 0x15000, 0x1000, 0x17000, 0x1000};
    static pbeam_page_t other;
    SAME(pbeam_manifest_write(BASE, 4, &lists, &page), PBEAM_WRITE_PAGE);
    SAME(pbeam_write(BASE, 4, dram_words, 4, console_words, 6, ncoh_words, 6, coh_words, 8, NULL, 0, other.bytes, 4096), PBEAM_WRITE_PAGE);
    SAME(memcmp(&page, &other, sizeof page), 0);
    SAME(pbeam_manifest_write(0, 4, &lists, &page), PBEAM_WRITE_W1_PLACE);
    SAME(pbeam_manifest_write(BASE, 3, &lists, &page), PBEAM_WRITE_W4_LATE);
    SAME(memcmp(&page, &other, sizeof page), 0);
}

/* A withdrawn field: found, with its tag, and without a byte. No writer makes one, so the test changes the tag in the page. */
static void check_withdrawn(void)
{
    static const uint8_t value[] = {5};
    uint8_t fields[4];
    pbeam_lists_t told = lists;
    pbeam_view_t view;
    pbeam_field_t field;
    size_t used = 0, cursor;
    SAME(pbeam_fields_add(fields, sizeof fields, &used, PBEAM_TAG_CONSOLE, pbeam_bytes(value, 1)), true);
    told.fields = pbeam_bytes(fields, used);
    SAME(pbeam_manifest_write(BASE, 4, &told, &page), PBEAM_WRITE_W3_LISTS);
    fields[PBEAM_FIELD_TAG] = 9;
    SAME(pbeam_manifest_write(BASE, 4, &told, &page), PBEAM_WRITE_PAGE);
    SAME(pbeam_manifest_read(&page, BASE, 4, &view), PBEAM_READ_ACCEPTED);
    cursor = pbeam_view_field_start(&page, &view);
    page.bytes[cursor + PBEAM_FIELD_TAG] = PBEAM_TAG_CONSOLE;
    field = pbeam_view_field(&page, &view, 0);
    SAME(pbeam_field_found(&field), true);
    SAME(pbeam_field_withdrawn(&field), true);
    SAME(pbeam_field_tag(&field), PBEAM_TAG_CONSOLE);
    SAME(pbeam_field_value(&page, &field).at == NULL, 1);
    SAME(pbeam_field_value(&page, &field).length, 0);
    field.words[PBEAM_FIELD_WORD_FOUND] = PBEAM_FOUND_VALUE;
    SAME(pbeam_field_withdrawn(&field), false);
}

/* A description of a name, a serial and an empty field, and what the page shows of it. */
static void check_fields(void)
{
    static const uint8_t name[] = {'D', 'K', '1'}, serial[] = {1, 2, 3, 4, 5, 6, 7, 8};
    uint8_t fields[20] = {0};
    pbeam_lists_t told = lists;
    pbeam_view_t view;
    pbeam_field_t field;
    size_t used = 0, cursor;
    SAME(pbeam_fields_add(fields, sizeof fields, &used, PBEAM_TAG_NAME, pbeam_bytes(name, 3)), true);
    SAME(pbeam_fields_add(fields, sizeof fields, &used, PBEAM_TAG_SERIAL, pbeam_bytes(serial, 8)), true);
    SAME(used, 17);
    SAME(pbeam_fields_add(fields, sizeof fields, &used, 9, pbeam_bytes(name, 1)), false);
    SAME(pbeam_fields_add(fields, sizeof fields, &used, 9, pbeam_bytes(NULL, 7)), true);
    SAME(pbeam_fields_add(fields, sizeof fields, &used, 9, pbeam_bytes(NULL, 0)), false);
    SAME(used, sizeof fields);
    told.fields = pbeam_bytes(fields, used);
    SAME(pbeam_manifest_write(BASE, 4, &told, &page), PBEAM_WRITE_PAGE);
    SAME(pbeam_manifest_read(&page, BASE, 4, &view), PBEAM_READ_ACCEPTED);
    SAME(pbeam_view_field_count(&page, &view), 3);
    SAME(pbeam_view_board_name(&page, &view).length, 3);
    SAME(memcmp(pbeam_view_board_name(&page, &view).at, name, 3), 0);
    SAME(pbeam_view_serial(&page, &view).length, PBEAM_SERIAL_BYTES);
    SAME(memcmp(pbeam_view_serial(&page, &view).at, serial, 8), 0);
    cursor = pbeam_view_field_start(&page, &view);
    for (size_t i = 0; i < 4; i++) {
        const pbeam_field_t by_number = pbeam_view_field(&page, &view, i);
        field = pbeam_view_field_next(&page, &cursor);
        SAME(memcmp(&field, &by_number, sizeof field), 0);
        SAME(pbeam_field_found(&field), i < 3);
        SAME(pbeam_field_tag(&field), i == 2 ? 9 : i == 3 ? 0 : i + 1);
    }
    SAME(cursor, sizeof page);
    field = pbeam_view_field_of_tag(&page, &view, 9);
    SAME(pbeam_field_value(&page, &field).length, 0);
    SAME(pbeam_field_value(&page, &field).at == NULL, 0);
    field.words[PBEAM_FIELD_WORD_LENGTH] = sizeof page;
    SAME(pbeam_field_value(&page, &field).at == NULL, 1);
    field = pbeam_view_field_of_tag(&page, &view, PBEAM_TAG_CONSOLE);
    SAME(pbeam_field_found(&field), false);
    SAME(pbeam_field_withdrawn(&field), false);
    SAME(pbeam_field_value(&page, &field).at == NULL, 1);
    used = 0;
    SAME(pbeam_fields_add(fields, sizeof fields, &used, 9, pbeam_bytes(serial, PBEAM_FIELD_VALUE_MOST + 1)), false);
    fields[0] = PBEAM_TAG_END;
    SAME(pbeam_manifest_write(BASE, 4, &told, &page), PBEAM_WRITE_W3_LISTS);
    told.fields = pbeam_bytes(NULL, 0);
    SAME(pbeam_manifest_write(BASE, 4, &told, &page), PBEAM_WRITE_PAGE);
    SAME(pbeam_manifest_read(&page, BASE, 4, &view), PBEAM_READ_ACCEPTED);
    SAME(pbeam_view_field_count(&page, &view), 0);
    SAME(pbeam_view_board_name(&page, &view).length, 0);
}

/* A string that ends within its buffer, cut or not. */
static void check_listing(void)
{
    static const char first[] = "manifest 0.4 read as 4\n";
    static char text[PBEAM_LISTING_ROOM + 1];
    const size_t length = pbeam_manifest_listing(&page, BASE, 4, text, sizeof text);
    SAME(strlen(text), length);
    SAME(strncmp(text, first, sizeof first - 1), 0);
    SAME(text[length - 1], '\n');
    SAME(pbeam_manifest_listing(&page, BASE, 4, text, sizeof first), length);
    SAME(strcmp(text, first), 0);
    SAME(pbeam_manifest_listing(&page, BASE, 4, text, 1), length);
    SAME(text[0], 0);
    SAME(pbeam_manifest_listing(&page, BASE, 4, text + 1, 0), length);
    SAME(text[1], first[1]);
    SAME(pbeam_manifest_listing(&page, 0, 4, text, sizeof text), 11);
    SAME(strcmp(text, "refused -5\n"), 0);
}

/* Each of these counts, as a number of words modulo 2^64, is 0 or 2: a list that would be accepted. */
static void check_counts_that_wrap(void)
{
    pbeam_lists_t long_dram = lists, long_console = lists, long_ncoh = lists, long_coh = lists;
    long_dram.dram_count = SIZE_MAX / 2 + 2;
    long_console.console_count = SIZE_MAX / 2 + 1;
    long_ncoh.ncoh_count = SIZE_MAX / 2 + 2;
    long_coh.coh_count = SIZE_MAX / 2 + 2;
    SAME(pbeam_manifest_write(BASE, 4, &long_dram, &page), PBEAM_WRITE_W3_LISTS);
    SAME(pbeam_manifest_write(BASE, 4, &long_console, &page), PBEAM_WRITE_W3_LISTS);
    SAME(pbeam_manifest_write(BASE, 4, &long_ncoh, &page), PBEAM_WRITE_W3_LISTS);
    SAME(pbeam_manifest_write(BASE, 4, &long_coh, &page), PBEAM_WRITE_W3_LISTS);
}

static void check_entries(const pbeam_view_t *view)
{
    for (size_t i = 0; i < 3; i++) {
        const pbeam_bank_t bank = pbeam_view_dram(&page, view, i);
        SAME(bank.base, i < 2 ? dram[i].base : 0);
        SAME(bank.size, i < 2 ? dram[i].size : 0);
    }
    for (size_t i = 0; i < 5; i++) {
        const pbeam_region_t a = pbeam_view_region(&page, view, PBEAM_NCOH, i), b = pbeam_view_region(&page, view, PBEAM_COH, i);
        SAME(a.base, i < 3 ? ncoh[i].base : 0);
        SAME(a.size, i < 3 ? ncoh[i].size : 0);
        SAME(b.base, i < 4 ? coh[i].base : 0);
        SAME(b.size, i < 4 ? coh[i].size : 0);
    }
    SAME(pbeam_view_region(&page, view, PBEAM_DRAM, 0).size, 0);
    SAME(pbeam_view_region(&page, view, PBEAM_CONSOLE, 0).base, 0);
    const pbeam_console_t found = pbeam_view_console(&page, view, 0), none = pbeam_view_console(&page, view, 1);
    SAME(memcmp(&found, console, sizeof found), 0);
    SAME(none.base | none.map_pages | none.name | none.clk_in_hz | none.baud_rate | none.flags, 0);
    SAME(pbeam_view_word(&page, view, PBEAM_CONSOLE, 0, PBEAM_CONSOLE_BAUD_RATE), 115200);
    SAME(pbeam_view_word(&page, view, PBEAM_CONSOLE, 0, PBEAM_CONSOLE_WORDS), 0);
}

/* Two of one name: the first. A name that is not there, or too long, gives zeros. */
static void check_console_named(void)
{
    static const char *const others[] = {"pl01", "pl0111", "PL011", "", "uart-1ab9"};
    pbeam_console_t three[3], found;
    const pbeam_lists_t told = {NULL, 0, three, 3, NULL, 0, NULL, 0, {NULL, 0}};
    pbeam_view_t view;
    for (size_t i = 0; i < 3; i++) {
        three[i] = console[0];
        three[i].base += 4096 * i;
    }
    SAME(pbeam_console_set_name(&three[0], "uart-1ab"), true);
    SAME(pbeam_manifest_write(BASE, 4, &told, &page), PBEAM_WRITE_PAGE);
    SAME(pbeam_manifest_read(&page, BASE, 4, &view), PBEAM_READ_ACCEPTED);
    SAME(pbeam_view_console_named(&page, &view, "pl011", &found), true);
    SAME(memcmp(&found, &three[1], sizeof found), 0);
    SAME(pbeam_view_console_named(&page, &view, "uart-1ab", &found), true);
    SAME(memcmp(&found, &three[0], sizeof found), 0);
    for (size_t i = 0; i < sizeof others / sizeof others[0]; i++) {
        found = console[0];
        SAME(pbeam_view_console_named(&page, &view, others[i], &found), false);
        SAME(found.base | found.map_pages | found.name | found.clk_in_hz | found.baud_rate | found.flags, 0);
    }
}

static void check_view(void)
{
    pbeam_view_t view;
    pbeam_place_t place;
    const pbeam_lists_t banks = {dram, 2, NULL, 0, NULL, 0, NULL, 0, {NULL, 0}};
    SAME(pbeam_manifest_write(BASE, 4, &lists, &page), PBEAM_WRITE_PAGE);
    SAME(pbeam_manifest_read(&page, BASE, 4, &view), PBEAM_READ_ACCEPTED);
    for (size_t k = 0; k < 5; k++) {
        static const size_t count[] = {2, 1, 3, 4, 0};
        SAME(pbeam_view_count(&page, &view, k), count[k]);
        SAME(pbeam_view_section(&view, k), k < 4 ? PBEAM_VIEW_ENTRIES : PBEAM_VIEW_ABSENT);
    }
    check_entries(&view);
    pbeam_view_array(&page, &view, PBEAM_CONSOLE, &place);
    SAME(pbeam_place_offset(&place), 112 + 32);
    SAME(pbeam_place_length(&place), 48);
    pbeam_put64(page.bytes + 112 + 32 + 8 * PBEAM_CONSOLE_FLAGS, 0xF1); /* after the reading */
    SAME(pbeam_view_console(&page, &view, 0).flags, 0xF1);
    view.words[PBEAM_VIEW_SECTIONS] = 77; /* read as entries */
    SAME(pbeam_view_section(&view, PBEAM_DRAM), PBEAM_VIEW_ENTRIES);
    SAME(pbeam_manifest_write(BASE, 4, &banks, &page), PBEAM_WRITE_PAGE);
    pbeam_put64(page.bytes + PBEAM_CORE_PLAT_DATA, BASE + 2048);
    SAME(pbeam_manifest_read(&page, BASE, 3, &view), PBEAM_READ_ACCEPTED);
    SAME(pbeam_view_minor(&view), 4);
    SAME(pbeam_view_edition(&view), 3);
    SAME(pbeam_view_plat_data(&view), BASE + 2048);
    SAME(pbeam_view_section(&view, PBEAM_CONSOLE), PBEAM_VIEW_EMPTY);
    SAME(pbeam_view_section(&view, PBEAM_NCOH), PBEAM_VIEW_ABSENT);
    SAME(pbeam_manifest_read(&page, 0, 4, &view), PBEAM_MANIFEST_PLACE);
}

/* ---- Boot ---- */

/* A reset writes its image, and no word after it. */
static void check_resets(void)
{
    struct {
        pbeam_record_t record;
        uint64_t behind_record;
        pbeam_session_t session;
        uint64_t behind_session;
        pbeam_queue_t queue;
        uint64_t behind_queue;
    } all;
    memset(&all, 0xEE, sizeof all);
    pbeam_record_reset(&all.record);
    pbeam_session_reset(&all.session);
    pbeam_queue_reset(&all.queue);
    for (size_t i = 0; i < PBEAM_STATE_WORDS; i++)
        SAME(all.record.words[i], 0);
    for (size_t i = 0; i < PBEAM_SESSION_WORDS; i++)
        SAME(all.session.words[i], 0);
    for (size_t i = 0; i < PBEAM_QUEUE_WORDS; i++)
        SAME(all.queue.words[i], 0);
    SAME(all.behind_record, UINT64_C(0xEEEEEEEEEEEEEEEE));
    SAME(all.behind_session, UINT64_C(0xEEEEEEEEEEEEEEEE));
    SAME(all.behind_queue, UINT64_C(0xEEEEEEEEEEEEEEEE));
}

static void check_version(void)
{
    uint64_t version = 9;
    SAME(pbeam_version(0x8000, 0, &version), false);
    SAME(pbeam_version(0, 0x10000, &version), false);
    SAME(version, 9);
    SAME(pbeam_version(3, 5, &version), true);
    SAME(version, 0x30005);
    SAME(pbeam_version(0, PBEAM_INTERFACE_MINOR, &version), true);
    SAME(version, 5);
}

static void check_record(void)
{
    pbeam_record_t record;
    pbeam_view_t view;
    const pbeam_cold_t x = {2, 4, 3, BASE};
    memset(&record, 0xA5, sizeof record);
    SAME(pbeam_record_is_up(&record), false);
    pbeam_record_reset(&record);
    SAME(pbeam_manifest_write(BASE, 4, &lists, &page), PBEAM_WRITE_PAGE);
    SAME(pbeam_manifest_read(&page, BASE, 4, &view), PBEAM_READ_ACCEPTED);
    SAME(pbeam_view_kept(&page, &view), pbeam_kept_for(page.bytes, sizeof page.bytes, view.words));
    SAME(pbeam_record_cold_boot(&record, &x, 3, pbeam_view_kept(&page, &view), &page), PBEAM_BOOT_DONE);
    SAME(pbeam_record_is_up(&record), true);
    SAME(pbeam_record_cpus(&record), 3);
    SAME(pbeam_record_base(&record), BASE);
    SAME(pbeam_record_minor(&record), 4);
    SAME(pbeam_record_kept(&record), pbeam_view_kept(&page, &view));
    SAME(pbeam_record_warm_boot(&record, 1), PBEAM_BOOT_DONE);
    SAME(pbeam_record_is_up(&record), true);
    pbeam_record_close(&record);
    SAME(record.words[PBEAM_STATE_KIND], PBEAM_STATE_CLOSED);
    SAME(record.words[1] | record.words[2] | record.words[3] | record.words[4], 0);
    SAME(pbeam_record_warm_boot(&record, 1), PBEAM_BOOT_STATE);
    pbeam_record_reset(&record);
    SAME(pbeam_record_cold_boot(&record, &x, 2, 4096, &page), PBEAM_BOOT_CPUS);
    pbeam_record_reset(&record);
    SAME(pbeam_record_cold_boot(&record, &x, 3, 4097, &page), PBEAM_MANIFEST_PLACE);
}

/* ---- Registers ---- */

static void registers(int line, pbeam_call_t call, uint64_t x0, uint64_t x1, uint64_t x2, uint64_t x3, uint64_t x4)
{
    const uint64_t want[5] = {x0, x1, x2, x3, x4};
    for (size_t i = 0; i < 5; i++)
        same(line, "a register of the call", call.words[i], "the argument", want[i]);
}

static void check_calls(void)
{
    registers(__LINE__, pbeam_call_of(1, 2, 3, 4, 5), 1, 2, 3, 4, 5);
    registers(__LINE__, pbeam_call_forward(7), 0xC400018F, 7, 0, 0, 0);
    registers(__LINE__, pbeam_call_delegate(7), 0xC40001B0, 7, 0, 0, 0);
    registers(__LINE__, pbeam_call_undelegate(7), 0xC40001B1, 7, 0, 0, 0);
    registers(__LINE__, pbeam_call_realm_key(7, 8), 0xC40001B2, 7, 8, 0, 0);
    registers(__LINE__, pbeam_call_platform_token(7, 8, 9), 0xC40001B3, 7, 8, 9, 0);
    registers(__LINE__, pbeam_call_features(), 0xC40001B4, 0, 0, 0, 0);
    registers(__LINE__, pbeam_call_push(7, 8), 0xC40001B5, 1, 7, 8, 0);
    registers(__LINE__, pbeam_call_pull(7, 8), 0xC40001B5, 2, 7, 8, 0);
    registers(__LINE__, pbeam_call_public_key(7, 8), 0xC40001B5, 3, 7, 8, 0);
    registers(__LINE__, pbeam_call_key_update(7), 0xC40001B6, 7, 0, 0, 0);
}

static void check_answers(void)
{
    const pbeam_registers_t ok = {{0, 8, 9}};
    const pbeam_work_t work = {{PBEAM_WORK_REPROGRAM, 12}};
    SAME(pbeam_registers_x0(&ok), 0);
    SAME(pbeam_registers_x1(&ok), 8);
    SAME(pbeam_registers_x2(&ok), 9);
    SAME(pbeam_registers_code(&ok), E_RMM_OK);
    for (int32_t code = 0; code > -7; code--) {
        const pbeam_registers_t out = {{(uint64_t)(int64_t)code, 0, 0}};
        SAME(pbeam_registers_code(&out), code);
        SAME(pbeam_registers_x0(&out), (int64_t)code);
    }
    SAME(pbeam_work_is(&work, PBEAM_WORK_REPROGRAM), true);
    SAME(pbeam_work_is(&work, PBEAM_WORK_FORWARD), false);
    SAME(pbeam_work_value(&work), 12);
}

/* ---- Runtime commands ---- */

static pbeam_context_t context;
static pbeam_registers_t out;
static pbeam_work_t work;

static int32_t called(pbeam_call_t call)
{
    memset(&out, 0xEE, sizeof out);
    memset(&work, 0xEE, sizeof work);
    pbeam_context_call(&context, &call, &out, &work);
    return pbeam_registers_code(&out);
}

/* The page of a board with two banks, of 2 granules and of 1. */
static const pbeam_bank_t two_banks[] = {{MEMORY, 2 * 4096}, {UINT64_C(0x880000000), 4096}};

/* Each argument differs, so that a swapped one shows. */
static void set_up(void)
{
    static uint8_t table[3];
    static uint64_t realm[1];
    static const pbeam_lists_t banks = {two_banks, 2, NULL, 0, NULL, 0, NULL, 0, {NULL, 0}};
    pbeam_view_t view;
    static const uint8_t realm_key[] = {0x11, 0x12, 0x13}, token[] = {0x21, 0x22, 0x23, 0x24}, public_key[] = {0x31, 0x32};
    const pbeam_cold_t x = {0, 5, 1, BASE};
    memset(&context, 0, sizeof context);
    SAME(pbeam_manifest_write(BASE, 4, &banks, &page), PBEAM_WRITE_PAGE);
    SAME(pbeam_record_cold_boot(&context.record, &x, 1, 0, &page), PBEAM_BOOT_DONE);
    memset(table, 0, sizeof table);
    context.page = &page;
    SAME(pbeam_manifest_read(&page, BASE, 4, &view), PBEAM_READ_ACCEPTED);
    SAME(pbeam_view_granules(&page, &view), sizeof table);
    SAME(pbeam_context_set_up_granules(&context, &page, &view), PBEAM_X0_INVAL); /* no table yet */
    context.table = table;
    context.table_count = sizeof table + 1;
    SAME(pbeam_context_set_up_granules(&context, &page, &view), PBEAM_X0_INVAL);
    SAME(context.granules.words[PBEAM_GRANULES_COUNT], 0);
    context.table_count = sizeof table;
    SAME(pbeam_context_set_up_granules(&context, &page, &view), PBEAM_X0_OK);
    SAME(context.granules.words[PBEAM_GRANULES_COUNT], 2);
    realm[0] = UINT64_C(0xEEEEEEEEEEEEEEEE);
    SAME(pbeam_context_build_words(&context), PBEAM_X0_INVAL); /* no words yet */
    context.words = realm;
    context.words_count = pbeam_words_for(sizeof table);
    SAME(pbeam_context_build_words(&context), PBEAM_X0_OK);
    SAME(realm[0], 0);
    context.realm_key = pbeam_bytes(realm_key, sizeof realm_key);
    context.token = pbeam_bytes(token, sizeof token);
    context.public_key = pbeam_bytes(public_key, sizeof public_key);
    context.mecid_width = 3;
}

/* A context of zeros serves nothing, and is no error. */
static void check_empty_context(void)
{
    pbeam_place_t place;
    const pbeam_call_t start = pbeam_call_platform_token(BASE, 64, 48);
    memset(&context, 0, sizeof context);
    SAME(called(pbeam_call_delegate(0)), E_RMM_UNK);
    SAME(called(pbeam_call_platform_token(BASE, 64, 48)), E_RMM_UNK);
    SAME(pbeam_context_build_words(&context), PBEAM_X0_OK); /* no granule needs no word */
    SAME(pbeam_context_words_agree(&context), PBEAM_X0_OK);
    set_up();
    context.page = NULL;
    context.table = NULL;
    SAME(pbeam_context_build_words(&context), PBEAM_X0_INVAL);
    SAME(pbeam_context_words_agree(&context), PBEAM_X0_INVAL);
    context.realm_key.at = NULL;
    SAME(called(pbeam_call_realm_key(BASE, 8)), E_RMM_UNK);
    SAME(called(pbeam_call_delegate(MEMORY)), E_RMM_BAD_ADDR);
    SAME(pbeam_context_challenge(&context, &start, &place), PBEAM_X0_UNK);
    SAME(pbeam_place_length(&place), 0);
    context.page = &page;
    SAME(called(pbeam_call_realm_key(BASE, 8)), E_RMM_UNK); /* no key */
}

/* The words follow the table, bit by bit; without them, or with another number, each call is INVAL. */
static void check_words(void)
{
    static uint64_t other[2];
    uint64_t *const realm = context.words, number = 9, found = 9;
    const uint64_t list[1] = {MEMORY};
    for (size_t n = 0; n < 200; n++)
        SAME(pbeam_words_for(n), (n + 63) / 64);
    SAME(pbeam_words_for(SIZE_MAX), SIZE_MAX / 64 + 1);
    SAME(realm[0], 6); /* granules 1 and 2 */
    SAME(pbeam_context_words_agree(&context), PBEAM_X0_OK);
    SAME(pbeam_context_realm_count(&context, &number), PBEAM_X0_OK);
    SAME(number, 2);
    SAME(pbeam_context_realm_next(&context, 0, &found), PBEAM_X0_OK);
    SAME(found, 1);
    SAME(pbeam_context_realm_next(&context, 2, &found), PBEAM_X0_OK);
    SAME(found, 2);
    SAME(pbeam_context_realm_next(&context, 3, &found), PBEAM_X0_INVAL);
    realm[0] = 10; /* disagrees with the table, and a spare bit */
    SAME(pbeam_context_words_agree(&context), PBEAM_REALM_DIFFER);
    SAME(pbeam_context_realm_count(&context, &number), PBEAM_X0_OK);
    SAME(number, 1);
    SAME(pbeam_context_realm_next(&context, 2, &found), PBEAM_REALM_NONE);
    SAME(pbeam_context_build_words(&context), PBEAM_X0_OK);
    SAME(realm[0], 6);
    for (size_t n = 0; n < 3; n++) {
        context.words = n == 1 ? NULL : other;
        context.words_count = n;
        SAME(called(pbeam_call_delegate(MEMORY)), E_RMM_INVAL);
        pbeam_context_delegate_list(&context, list, 1, &out);
        SAME(pbeam_registers_code(&out), E_RMM_INVAL);
        pbeam_context_undelegate_list(&context, NULL, 0, &out);
        SAME(pbeam_registers_code(&out), E_RMM_INVAL);
        SAME(pbeam_context_words_agree(&context), PBEAM_X0_INVAL);
        SAME(pbeam_context_build_words(&context), PBEAM_X0_INVAL);
        SAME(pbeam_context_realm_count(&context, &number), PBEAM_X0_INVAL);
        SAME(pbeam_context_realm_next(&context, 0, &found), PBEAM_X0_INVAL);
        SAME(number | found | other[0] | other[1], 0);
    }
    context.words = realm;
    context.words_count = 1;
}

/* A list counts what was done before its refusal, and needs a table. */
static void check_lists(void)
{
    const uint64_t list[3] = {MEMORY, MEMORY + 4096, MEMORY};
    uint8_t *table = context.table;
    pbeam_context_delegate_list(&context, list, 3, &out);
    SAME(pbeam_registers_code(&out), E_RMM_BAD_PAS);
    SAME(pbeam_registers_x1(&out), 2);
    SAME(pbeam_get16(table), 0x0101);
    SAME(context.words[0], 3);
    pbeam_context_undelegate_list(&context, list, 2, &out);
    SAME(pbeam_registers_code(&out), E_RMM_OK);
    SAME(pbeam_registers_x1(&out), 2);
    SAME(pbeam_get16(table), 0);
    SAME(context.words[0], 0);
    pbeam_context_delegate_list(&context, NULL, 7, &out); /* no list: an empty one */
    SAME(pbeam_registers_code(&out), E_RMM_OK);
    SAME(pbeam_registers_x1(&out), 0);
    context.table = NULL;
    pbeam_context_delegate_list(&context, list, 2, &out);
    SAME(pbeam_registers_code(&out), E_RMM_BAD_ADDR);
    pbeam_context_undelegate_list(&context, list, 2, &out);
    SAME(pbeam_registers_code(&out), E_RMM_BAD_ADDR);
    context.table = table;
}

static void check_commands(void)
{
    set_up();
    SAME(called(pbeam_call_delegate(MEMORY + 4096)), E_RMM_OK);
    SAME(pbeam_get16(context.table), 0x0100);
    SAME(called(pbeam_call_delegate(MEMORY + 2 * 4096)), E_RMM_BAD_ADDR); /* after the first bank */
    SAME(called(pbeam_call_delegate(two_banks[1].base)), E_RMM_OK);
    SAME(context.table[2], PBEAM_GRANULE_REALM);
    check_words();
    SAME(called(pbeam_call_undelegate(two_banks[1].base)), E_RMM_OK);
    SAME(called(pbeam_call_undelegate(MEMORY + 4096)), E_RMM_OK);
    check_lists();
    SAME(called(pbeam_call_realm_key(BASE + 64, 8)), E_RMM_OK);
    SAME(pbeam_registers_x1(&out), 3);
    SAME(page.bytes[64], 0x11);
    SAME(called(pbeam_call_public_key(BASE + 64, 8)), E_RMM_OK);
    SAME(pbeam_registers_x1(&out), 2);
    SAME(page.bytes[64], 0x31);
    SAME(called(pbeam_call_features()), E_RMM_OK);
    SAME(pbeam_registers_x1(&out), PBEAM_FEATURE_TOKEN_SIGNING);
    SAME(called(pbeam_call_key_update(15)), E_RMM_OK);
    SAME(pbeam_work_is(&work, PBEAM_WORK_REPROGRAM), true);
    SAME(pbeam_work_value(&work), 15);
    SAME(called(pbeam_call_key_update(16)), E_RMM_INVAL); /* the width is 4 bits */
    SAME(called(pbeam_call_forward(42)), E_RMM_OK);
    SAME(pbeam_work_is(&work, PBEAM_WORK_FORWARD), true);
    SAME(pbeam_work_value(&work), 42);
    SAME(called(pbeam_call_of(PBEAM_ID_BOOT_COMPLETE, 0, 0, 0, 0)), E_RMM_UNK);
}

/* A call without a challenge is OK, with an empty place. */
static void check_no_challenge(pbeam_call_t call)
{
    pbeam_place_t place = {{9, 9}};
    SAME(pbeam_context_challenge(&context, &call, &place), PBEAM_X0_OK);
    SAME(pbeam_place_offset(&place), 0);
    SAME(pbeam_place_length(&place), 0);
}

static void check_token(void)
{
    pbeam_place_t place;
    pbeam_call_t call = pbeam_call_platform_token(BASE + 8, 64, 48);
    set_up();
    SAME(pbeam_context_challenge(&context, &call, &place), PBEAM_X0_OK);
    SAME(pbeam_place_offset(&place), 8);
    SAME(pbeam_place_length(&place), 48);
    call.words[PBEAM_CALL_X2] = 47; /* a buffer shorter than the challenge */
    SAME(pbeam_context_challenge(&context, &call, &place), PBEAM_X0_INVAL);
    SAME(pbeam_place_length(&place), 0);
    check_no_challenge(pbeam_call_of(PBEAM_ID_REALM_KEY, BASE + 8, 64, 48, 0)); /* 48 is no c_size here */
    check_no_challenge(pbeam_call_features());                                 /* x1 is no pa */
    check_no_challenge(pbeam_call_delegate(0));
    check_no_challenge(pbeam_call_of(PBEAM_ID_PLATFORM_TOKEN + (UINT64_C(1) << 32), BASE + 8, 64, 48, 0));
    check_no_challenge(pbeam_call_platform_token(BASE + 8, 64, 0)); /* goes on */
    context.busy = true;
    SAME(called(pbeam_call_platform_token(BASE + 8, 64, 48)), E_RMM_AGAIN);
    context.busy = false;
    SAME(called(pbeam_call_platform_token(BASE + 8, 64, 48)), E_RMM_OK);
    SAME(pbeam_registers_x1(&out), 4);
    SAME(page.bytes[8], 0x21);
    SAME(pbeam_session_is_sending(&context.session), false);
    context.session.words[PBEAM_SESSION_KIND] = 3; /* read as sending */
    SAME(pbeam_session_is_sending(&context.session), true);
    pbeam_session_reset(&context.session);
    SAME(pbeam_session_is_sending(&context.session), false);
}

static void check_requests(const uint8_t hash[PBEAM_HASH_BYTES])
{
    pbeam_request_t request;
    uint8_t found[PBEAM_HASH_BYTES + 8];
    memset(found, 0xEE, sizeof found);
    SAME(pbeam_queue_oldest(&context.queue, &request), 1);
    SAME(pbeam_queue_responses(&context.queue), 0);
    SAME(pbeam_request_sig_alg_id(&request), 0);
    SAME(pbeam_request_rec_granule(&request), UINT64_C(0x1122334455667788));
    SAME(pbeam_request_req_ticket(&request), 99);
    SAME(pbeam_request_hash_alg_id(&request), 1);
    pbeam_request_hash_buf(&request, found);
    SAME(memcmp(found, hash, PBEAM_HASH_BYTES), 0);
    SAME(found[PBEAM_HASH_BYTES], 0xEE);
}

/* Bytes that are no whole response leave zeros, nothing of what was there. */
static void check_no_response(const uint8_t *at, size_t size)
{
    pbeam_response_t response;
    memset(&response, 0xEE, sizeof response);
    SAME(pbeam_get_response(at, size, &response), false);
    SAME(response.rec_granule, 0);
    SAME(response.req_ticket, 0);
    SAME(response.sig_len, 0);
    SAME(response.signature_buf == NULL, true);
}

static void check_signing(void)
{
    static const uint8_t signature[] = {0xD1, 0xD2, 0xD3, 0xD4, 0xD5};
    uint8_t hash[PBEAM_HASH_BYTES];
    pbeam_response_t response;
    set_up();
    for (size_t i = 0; i < sizeof hash; i++)
        hash[i] = (uint8_t)(i + 1);
    memset(&page, 0xEE, sizeof page);
    pbeam_put_request(page.bytes + 16, UINT64_C(0x1122334455667788), 99, hash);
    SAME(page.bytes[16 + PBEAM_REQUEST_BYTES], 0xEE);
    SAME(called(pbeam_call_push(BASE + 16, PBEAM_REQUEST_BYTES)), E_RMM_OK);
    check_requests(hash);
    pbeam_queue_sign(&context.queue, pbeam_bytes(NULL, 5), &out);
    SAME(pbeam_registers_code(&out), E_RMM_INVAL);
    pbeam_queue_sign(&context.queue, pbeam_bytes(signature, sizeof signature), &out);
    SAME(pbeam_registers_code(&out), E_RMM_OK);
    SAME(called(pbeam_call_pull(BASE + 16, 64)), E_RMM_OK);
    check_no_response(page.bytes + 16, 0);
    check_no_response(page.bytes + 16, 17);
    check_no_response(page.bytes + 16, 18 + 4);
    SAME(pbeam_get_response(page.bytes + 16, 18 + 5, &response), true);
    SAME(response.rec_granule, UINT64_C(0x1122334455667788));
    SAME(response.req_ticket, 99);
    SAME(response.sig_len, 5);
    SAME(memcmp(response.signature_buf, signature, 5), 0);
    SAME(called(pbeam_call_push(BASE + 16, PBEAM_REQUEST_BYTES)), E_RMM_INVAL); /* a response is no request */
    memset(&page, 0, sizeof page);
    SAME(pbeam_get_response(page.bytes, 18, &response), true); /* no signature */
    SAME(response.sig_len, 0);
}

int main(void)
{
    check_names_of_002();
    check_little_endian();
    check_texts();
    check_console_name();
    check_bytes();
    check_writer();
    check_listing();
    check_fields();
    check_withdrawn();
    check_console_named();
    check_counts_that_wrap();
    check_view();
    check_version();
    check_resets();
    check_record();
    check_calls();
    check_answers();
    check_empty_context();
    check_commands();
    check_token();
    check_signing();
    printf("%lu checks\n", checks);
    return 0;
}
