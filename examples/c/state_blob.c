/*
 * Fetches a state blob of 10,000 bytes in pieces: a test rig on one side, a software TPM on the other, messages between them.
 *
 *   1  The rig writes a request for the bytes from the number held on.
 *   2  The TPM reads it, and writes a response with the next 3,072 bytes at most. It can be made to fail.
 *   3  The rig gives the response to the collector, until it is complete. A refused response changes nothing: the rig asks again.
 *
 * With a real swtpm the messages go over its control channel: see tests/swtpm/fetch.c and docs/SWTPM.md.
 */
#include <stdio.h>
#include <string.h>

#include "potterbeam_swtpm.h"

#define BLOB_BYTES 10000
#define LARGEST 3072 /* PTM_STATE_BLOB_SIZE of swtpm's tpm_ioctl.h */

static uint8_t wire[PBEAM_SWTPM_HEAD_BYTES + LARGEST]; /* one message on its way */

/* ---- The TPM ---- */

static uint8_t state[BLOB_BYTES];

/* Answers the request in wire with a response in wire; returns its length, 0 if there is no answer. */
static size_t serve(size_t request_len, uint32_t tpm_result)
{
    uint32_t asked[PBEAM_SWTPM_PARTS_WORDS], offset;
    size_t n = 0, len = 0;
    uint32_t answer = pbeam_swtpm_read_request(wire, request_len, PBEAM_SWTPM_CMD_GET_STATEBLOB, asked);
    if (answer != PBEAM_SWTPM_OK) {
        printf("tpm: %s\n", pbeam_swtpm_text(answer));
        return 0;
    }
    offset = asked[PBEAM_SWTPM_REQUEST_OFFSET] < BLOB_BYTES ? asked[PBEAM_SWTPM_REQUEST_OFFSET] : BLOB_BYTES;
    if (tpm_result == 0)
        n = BLOB_BYTES - offset < LARGEST ? BLOB_BYTES - offset : LARGEST;
    answer = pbeam_swtpm_write_response(wire, sizeof wire, LARGEST, tpm_result, 0, BLOB_BYTES, state + offset, n, &len);
    printf("tpm: type %u from %u: %zu bytes of data\n", asked[PBEAM_SWTPM_REQUEST_TYPE], offset, n);
    return answer == PBEAM_SWTPM_OK ? len : 0;
}

/* ---- The rig ---- */

static uint8_t blob[BLOB_BYTES];
static uint32_t collector[PBEAM_SWTPM_COLLECTOR_WORDS]; /* all zero: a new one */

/* Asks for the next piece and collects the answer. */
static uint32_t fetch(uint32_t tpm_result)
{
    size_t len = 0;
    uint32_t answer = pbeam_swtpm_write_request(wire, sizeof wire, PBEAM_SWTPM_CMD_GET_STATEBLOB, 0, PBEAM_SWTPM_BLOB_TYPE_PERMANENT,
                                                pbeam_swtpm_held(collector), &len);
    if (answer != PBEAM_SWTPM_OK)
        return answer;
    len = serve(len, tpm_result);
    return pbeam_swtpm_collect(collector, wire, len, LARGEST, blob, sizeof blob);
}

int main(void)
{
    uint32_t calls = 0;
    for (size_t i = 0; i < BLOB_BYTES; i++)
        state[i] = (uint8_t)(i * 7 + i / 256);
    while (!pbeam_swtpm_complete(collector)) {
        uint32_t tpm_result = calls++ == 2 ? 0x101 : 0; /* the third answer is an error */
        uint32_t answer = fetch(tpm_result);
        printf("rig: %s; %u bytes held\n", pbeam_swtpm_text(answer), pbeam_swtpm_held(collector));
        if (calls > 10)
            return 1;
    }
    printf("rig: %s\n", memcmp(blob, state, BLOB_BYTES) == 0 ? "the blob is the TPM's state" : "the blob is wrong");
    return memcmp(blob, state, BLOB_BYTES) == 0 ? 0 : 1;
}
