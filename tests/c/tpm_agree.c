/*
 * Does include/potterbeam_tpm.h agree with libpotterbeam_tpm.a? Every constant of the header is compared with what the library answers
 * or writes, or with a limit found by trying. tests/c/run_tpm refuses a constant that is not named here.
 *
 * A check writes every number but the constant under test as a plain number. The first check that fails ends the program
 * with its line.
 */
#include <inttypes.h>
#include <stdio.h>
#include <stdlib.h>
#include <string.h>

#include "potterbeam_tpm.h"

#define MEMORY 16384
#define STALE UINT64_C(0x57A1E57A1E57A1E5)

static unsigned long checks;
static uint8_t memory[MEMORY], before[MEMORY], response[MEMORY];

static void same(int line, const char *what, int64_t is, const char *beside, int64_t want)
{
    checks++;
    if (is == want)
        return;
    printf("tests/c/tpm_agree.c:%d: wrong: %s is %" PRId64 ", but %s is %" PRId64 "\n", line, what, is, beside, want);
    exit(1);
}

#define SAME(a, b) same(__LINE__, #a, (int64_t)(a), #b, (int64_t)(b))

/* A valid call, before a test changes it. */
struct asked {
    uint64_t operation, in_buffer, in_size, out_buffer, out_size;
    size_t length;
    uint64_t forbidden, fault;
};

static const struct asked RIGHT = {1, 100, 16, 8192, 4096, 200, 0, 0};
static uint64_t session, r4;

static int64_t comm(struct asked a)
{
    memcpy(before, memory, MEMORY);
    r4 = STALE;
    return pbeam_tpm_comm(&session, a.operation, a.in_buffer, a.in_size, a.out_buffer, a.out_size, memory, MEMORY, response, a.length,
                          a.forbidden, a.fault, &r4);
}

/* The answer to a refused call, which changes nothing. */
static int64_t refused(int line, struct asked a)
{
    session = 77;
    const int64_t r3 = comm(a);
    same(line, "r4", (int64_t)r4, "0", 0);
    same(line, "session", (int64_t)session, "77", 77);
    same(line, "memory", memcmp(memory, before, MEMORY), "0", 0);
    return r3;
}

#define REFUSED(how, code)                  \
    do {                                    \
        struct asked a = RIGHT;             \
        how;                                \
        SAME(refused(__LINE__, a), code);   \
    } while (0)

/* Linux has it as `#define H_TPM_COMM 0xEF10`; nothing of the library depends on it. */
static void number(void)
{
    SAME(PBEAM_TPM_H_TPM_COMM, 61200);
}

static void codes(void)
{
    REFUSED(a.forbidden = 1, PBEAM_TPM_H_FUNCTION);
    REFUSED(a.operation = 3, PBEAM_TPM_H_PARAMETER);
    REFUSED(a.operation = UINT64_C(0x100000001), PBEAM_TPM_H_PARAMETER);
    REFUSED(a.in_buffer = MEMORY, PBEAM_TPM_H_P2);
    REFUSED(a.in_size = 4097, PBEAM_TPM_H_P3);
    REFUSED(a.in_buffer = MEMORY - 15, PBEAM_TPM_H_P3);
    REFUSED(a.out_buffer = MEMORY, PBEAM_TPM_H_P4);
    REFUSED(a.out_size = 4095, PBEAM_TPM_H_P5);
    REFUSED(a.out_size = UINT64_MAX - 8191, PBEAM_TPM_H_P5);
    REFUSED(a.fault = 1, PBEAM_TPM_H_RESOURCE);
    REFUSED(a.length = 4097, PBEAM_TPM_H_RESOURCE);
}

/* Which bytes changed, and to what. */
static void written_at(int line, size_t at, size_t length)
{
    for (size_t i = 0; i < MEMORY; i++) {
        const uint8_t want = i >= at && i < at + length ? response[i - at] : before[i];
        same(line, "a byte of the memory", memory[i], "the byte expected", want);
    }
}

static void sessions(void)
{
    for (uint64_t start = 0; start < 3; start++) {
        struct asked a = RIGHT;
        session = start;
        a.operation = PBEAM_TPM_EXECUTE;
        SAME(comm(a), PBEAM_TPM_H_SUCCESS);
        SAME(r4, 200);
        SAME(session, PBEAM_TPM_SESSION_OPEN);
        written_at(__LINE__, 8192, 200);
        session = start;
        a.operation = PBEAM_TPM_CLOSE;
        SAME(comm(a), 0);
        SAME(r4, 0);
        SAME(session, PBEAM_TPM_SESSION_NONE);
        written_at(__LINE__, 0, 0);
    }
}

/* The largest in_size and the smallest out_size that are taken. */
static void sizes(void)
{
    struct asked a = RIGHT;
    uint64_t most = 0, least = 8192;
    for (a.in_size = 0; a.in_size <= 8000; a.in_size++)
        if (comm(a) == 0)
            most = a.in_size;
    SAME(most, PBEAM_TPM_IN_SIZE_MOST);
    a = RIGHT;
    for (a.out_size = 8192; a.out_size > 200; a.out_size--)
        if (comm(a) == 0)
            least = a.out_size;
    SAME(least, PBEAM_TPM_OUT_SIZE_LEAST);
}

static void places(void)
{
    uint64_t room[8];
    for (size_t i = 0; i < 8; i++)
        room[i] = STALE;
    pbeam_tpm_request(1, 100, 16, 8192, 4096, memory, MEMORY, 0, room);
    size_t n = 8;
    while (n > 0 && room[n - 1] == STALE)
        n--;
    SAME(n, PBEAM_TPM_PLACE_WORDS);
    SAME(room[PBEAM_TPM_PLACE_OFFSET], 100);
    SAME(room[PBEAM_TPM_PLACE_LENGTH], 16);
    pbeam_tpm_request(2, 100, 16, 8192, 4096, memory, MEMORY, 0, room);
    SAME(room[0] | room[1], 0);
    pbeam_tpm_request(1, 100, 16, 8192, 4096, memory, MEMORY, 1, room);
    SAME(room[0] | room[1], 0);
    pbeam_tpm_request(1, 0, 0, 0, 4096, NULL, 0, 0, room);
    SAME(room[0] | room[1], 0);
}

static void names(void)
{
    SAME(strcmp(pbeam_tpm_name(0), "H_SUCCESS"), 0);
    SAME(strcmp(pbeam_tpm_name(-2), "H_FUNCTION"), 0);
    SAME(strcmp(pbeam_tpm_name(-4), "H_PARAMETER"), 0);
    SAME(strcmp(pbeam_tpm_name(-16), "H_RESOURCE"), 0);
    SAME(strcmp(pbeam_tpm_name(-55), "H_P2"), 0);
    SAME(strcmp(pbeam_tpm_name(-56), "H_P3"), 0);
    SAME(strcmp(pbeam_tpm_name(-57), "H_P4"), 0);
    SAME(strcmp(pbeam_tpm_name(-58), "H_P5"), 0);
    SAME(strncmp(pbeam_tpm_name(-1), "H_", 2) != 0, 1);
    SAME(strncmp(pbeam_tpm_name(4294967294), "H_", 2) != 0, 1);
}

int main(void)
{
    for (size_t i = 0; i < MEMORY; i++) {
        memory[i] = (uint8_t)(7 * i);
        response[i] = (uint8_t)(11 * i + 3);
    }
    number();
    codes();
    sessions();
    sizes();
    places();
    names();
    printf("%lu checks, all right\n", checks);
    return 0;
}
