/*
 * Does include/potterbeam_swtpm.h agree with its library? Every constant that the library knows is compared with what the library does.
 * tests/c/run refuses a constant that is not named here. A check writes every number but the constant under test as a plain
 * number. The first check that fails ends the program with its line.
 */
#include <inttypes.h>
#include <stdio.h>
#include <stdlib.h>
#include <string.h>

#include "potterbeam_swtpm.h"

#define ROOM 64
#define GUARD UINT32_C(0xA5C3A5C3)

static unsigned long checks;

static void same(int line, const char *what, uint64_t is, const char *beside, uint64_t want)
{
    checks++;
    if (is == want)
        return;
    printf("tests/c/swtpm_agree.c:%d: wrong: %s is 0x%" PRIx64 ", but %s is 0x%" PRIx64 "\n", line, what, is, beside, want);
    exit(1);
}

#define SAME(a, b) same(__LINE__, #a, (uint64_t)(a), #b, (uint64_t)(b))

static void guard(uint32_t words[ROOM])
{
    for (size_t i = 0; i < ROOM; i++)
        words[i] = GUARD;
}

/* How many words a call wrote: up to the last that is not the guard. */
static size_t written(const uint32_t words[ROOM])
{
    size_t n = ROOM;
    while (n > 0 && words[n - 1] == GUARD)
        n--;
    return n;
}

/* ---- Messages ---- */

static const uint8_t data[5] = {0x61, 0x62, 0x63, 0x64, 0x65};

static void check_request(void)
{
    static const uint8_t expected[16] = {0, 0, 0, 12, 1, 2, 3, 4, 5, 6, 7, 8, 9, 10, 11, 12};
    uint8_t buffer[ROOM];
    uint32_t parts[ROOM];
    size_t len = 99;
    memset(buffer, 0xEE, sizeof buffer);
    SAME(PBEAM_SWTPM_NO_ROOM, pbeam_swtpm_write_request(buffer, 15, 12, 1, 2, 3, &len));
    SAME(len, 99);
    SAME(PBEAM_SWTPM_OK, pbeam_swtpm_write_request(buffer, ROOM, 12, 0x01020304, 0x05060708, 0x090A0B0C, &len));
    SAME(PBEAM_SWTPM_REQUEST_BYTES, len);
    SAME(memcmp(buffer, expected, 16), 0);
    SAME(buffer[16], 0xEE);
    guard(parts);
    SAME(PBEAM_SWTPM_CUT_SHORT, pbeam_swtpm_read_request(buffer, 15, 12, parts));
    SAME(PBEAM_SWTPM_TOO_LONG, pbeam_swtpm_read_request(buffer, 17, 12, parts));
    SAME(PBEAM_SWTPM_WRONG_CODE, pbeam_swtpm_read_request(buffer, 16, 13, parts));
    SAME(written(parts), 0);
    SAME(PBEAM_SWTPM_OK, pbeam_swtpm_read_request(buffer, 16, 12, parts));
    SAME(PBEAM_SWTPM_PARTS_WORDS, written(parts));
    SAME(parts[PBEAM_SWTPM_REQUEST_CODE], 12);
    SAME(parts[PBEAM_SWTPM_REQUEST_FLAGS], 0x01020304);
    SAME(parts[PBEAM_SWTPM_REQUEST_TYPE], 0x05060708);
    SAME(parts[PBEAM_SWTPM_REQUEST_OFFSET], 0x090A0B0C);
}

static void check_response(void)
{
    static const uint8_t head[16] = {0, 0, 0, 0, 1, 2, 3, 4, 5, 6, 7, 8, 0, 0, 0, 5};
    uint8_t buffer[ROOM];
    uint32_t parts[ROOM];
    size_t len = 99;
    memset(buffer, 0xEE, sizeof buffer);
    SAME(PBEAM_SWTPM_ABOVE_LARGEST, pbeam_swtpm_write_response(buffer, 0, 4, 0, 0, 0, data, 5, &len));
    SAME(PBEAM_SWTPM_NO_ROOM, pbeam_swtpm_write_response(buffer, 20, 5, 0, 0, 0, data, 5, &len));
    SAME(len, 99);
    SAME(PBEAM_SWTPM_OK, pbeam_swtpm_write_response(buffer, ROOM, 5, 0, 0x01020304, 0x05060708, data, 5, &len));
    SAME(PBEAM_SWTPM_HEAD_BYTES + 5, len);
    SAME(memcmp(buffer, head, 16) | memcmp(buffer + 16, data, 5), 0);
    SAME(buffer[21], 0xEE);
    guard(parts);
    SAME(PBEAM_SWTPM_CUT_SHORT, pbeam_swtpm_read_response(buffer, 20, 5, parts));
    SAME(PBEAM_SWTPM_TOO_LONG, pbeam_swtpm_read_response(buffer, 22, 5, parts));
    SAME(PBEAM_SWTPM_ABOVE_LARGEST, pbeam_swtpm_read_response(buffer, 21, 4, parts));
    SAME(written(parts), 0);
    SAME(PBEAM_SWTPM_OK, pbeam_swtpm_read_response(buffer, 21, 5, parts));
    SAME(PBEAM_SWTPM_PARTS_WORDS, written(parts));
    SAME(parts[PBEAM_SWTPM_RESPONSE_FLAGS], 0x01020304);
    SAME(parts[PBEAM_SWTPM_RESPONSE_TOTAL], 0x05060708);
    SAME(parts[PBEAM_SWTPM_RESPONSE_AT], 16);
    SAME(parts[PBEAM_SWTPM_RESPONSE_LENGTH], 5);
    buffer[0] = 1;
    SAME(PBEAM_SWTPM_FAILED, pbeam_swtpm_read_response(buffer, 21, 5, parts));
}

/* ---- Collector ---- */

/* Collects a response with n bytes of data of that total into a buffer of that length. */
static uint32_t collect(uint32_t collector[ROOM], uint32_t total, size_t n, size_t room)
{
    static uint8_t buffer[ROOM];
    uint8_t message[ROOM];
    size_t len = 0;
    SAME(pbeam_swtpm_write_response(message, ROOM, 9, 0, 0, total, data, n, &len), 0);
    return pbeam_swtpm_collect(collector, message, len, 9, buffer, room);
}

static void check_collector(void)
{
    uint32_t collector[ROOM];
    guard(collector);
    memset(collector, 0, 3 * sizeof collector[0]); /* a new one */
    SAME(pbeam_swtpm_complete(collector), false);
    SAME(pbeam_swtpm_held(collector), 0);
    SAME(PBEAM_SWTPM_NO_DATA, collect(collector, 8, 0, ROOM));
    SAME(PBEAM_SWTPM_OK, collect(collector, 8, 5, ROOM));
    SAME(PBEAM_SWTPM_COLLECTOR_WORDS, written(collector));
    SAME(collector[PBEAM_SWTPM_COLLECTOR_ACCEPTED], 1);
    SAME(collector[PBEAM_SWTPM_COLLECTOR_TOTAL], 8);
    SAME(collector[PBEAM_SWTPM_COLLECTOR_HELD], 5);
    SAME(pbeam_swtpm_complete(collector), false);
    SAME(PBEAM_SWTPM_TOTAL_DIFFERS, collect(collector, 9, 1, ROOM));
    SAME(PBEAM_SWTPM_PAST_TOTAL, collect(collector, 8, 4, ROOM));
    SAME(PBEAM_SWTPM_PAST_BUFFER, collect(collector, 8, 3, 7));
    SAME(PBEAM_SWTPM_OK, collect(collector, 8, 3, 8));
    SAME(pbeam_swtpm_complete(collector), true);
    SAME(pbeam_swtpm_held(collector), 8);
}

/* ---- Texts, and names of swtpm's own header, which no call knows ---- */

static void check_texts(void)
{
    for (uint32_t answer = 0; answer <= 11; answer++)
        for (uint32_t other = 0; other < answer; other++)
            SAME(strcmp(pbeam_swtpm_text(answer), pbeam_swtpm_text(other)) != 0, 1);
    SAME(strcmp(pbeam_swtpm_text(11), pbeam_swtpm_text(UINT32_MAX)), 0);
}

static void check_names_of_swtpm(void)
{
    SAME(PBEAM_SWTPM_CMD_GET_STATEBLOB, 12);
    SAME(PBEAM_SWTPM_BLOB_TYPE_PERMANENT, 1);
    SAME(PBEAM_SWTPM_BLOB_TYPE_VOLATILE, 2);
    SAME(PBEAM_SWTPM_BLOB_TYPE_SAVESTATE, 3);
    SAME(PBEAM_SWTPM_STATE_FLAG_DECRYPTED, 1);
    SAME(PBEAM_SWTPM_STATE_FLAG_ENCRYPTED, 2);
}

int main(void)
{
    check_request();
    check_response();
    check_collector();
    check_texts();
    check_names_of_swtpm();
    printf("%lu checks\n", checks);
    return 0;
}
