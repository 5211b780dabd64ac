/*
 * A hypervisor's handler of H_TPM_COMM: a guest sends a request to its TPM and closes the session again.
 *
 *   1  Execute, with one address for both buffers: the response overwrites the request.
 *   2  Execute with an output that is too small: refused, nothing changes.
 *   3  Execute while the TPM does not answer: refused, the session stays.
 *   4  Close, and close again.
 *
 * On a board the guest's registers come from the processor, and the TPM is a device. Here they are a struct and a function that reverses
 * the request's bytes.
 */
#include <inttypes.h>
#include <stdio.h>
#include <string.h>

#include "potterbeam_tpm.h"

#define H_TPM_COMM UINT64_C(0xEF10)
#define MEMORY_BYTES 65536
#define RESPONSE_BYTES 4096 /* the most that this TPM answers */

/* ---- The platform ---- */

static int tpm_is_broken;

/* Sends a request to the TPM. Returns the response's length, and in `fault` whether there was no response. */
static size_t tpm_send(const uint8_t *request, size_t length, uint8_t response[RESPONSE_BYTES], uint64_t *fault)
{
    *fault = tpm_is_broken || length == 0 || length > RESPONSE_BYTES;
    if (*fault)
        return 0;
    for (size_t i = 0; i < length; i++)
        response[i] = request[length - 1 - i];
    return length;
}

static void tpm_end_session(void)
{
    printf("  the platform ends its session with the TPM\n");
}

/* ---- The hypervisor ---- */

struct guest {
    uint8_t memory[MEMORY_BYTES]; /* from guest address 0 on */
    uint64_t tpm_session;         /* PBEAM_TPM_SESSION_NONE at the start */
    uint64_t may_use_tpm;
    uint64_t r[9];                /* r3 to r8 of the hypercall; afterwards r3 and r4 of the answer */
};

static void h_tpm_comm(struct guest *g)
{
    const uint64_t *r = g->r;
    const uint64_t forbidden = !g->may_use_tpm;
    uint8_t response[RESPONSE_BYTES];
    size_t length = 0;
    uint64_t fault = 0, r4, place[PBEAM_TPM_PLACE_WORDS];

    /* Read the request first: the response may overwrite it. */
    pbeam_tpm_request(r[4], r[5], r[6], r[7], r[8], g->memory, sizeof g->memory, forbidden, place);
    if (r[4] == PBEAM_TPM_EXECUTE)
        length = tpm_send(g->memory + place[PBEAM_TPM_PLACE_OFFSET], place[PBEAM_TPM_PLACE_LENGTH], response, &fault);

    const uint64_t before = g->tpm_session;
    const int64_t r3 = pbeam_tpm_comm(&g->tpm_session, r[4], r[5], r[6], r[7], r[8], g->memory, sizeof g->memory, response, length,
                                      forbidden, fault, &r4);
    if (before != PBEAM_TPM_SESSION_NONE && g->tpm_session == PBEAM_TPM_SESSION_NONE)
        tpm_end_session();
    g->r[3] = (uint64_t)r3;
    g->r[4] = r4;
}

/* ---- The guest ---- */

static void call(struct guest *g, const char *what, uint64_t operation, uint64_t in_buffer, uint64_t in_size, uint64_t out_buffer,
                 uint64_t out_size)
{
    const uint64_t r[9] = {0, 0, 0, H_TPM_COMM, operation, in_buffer, in_size, out_buffer, out_size};
    memcpy(g->r, r, sizeof r);
    printf("%s\n", what);
    h_tpm_comm(g);
    printf("  r3 %s, r4 %" PRIu64 ", session %s\n", pbeam_tpm_name((int64_t)g->r[3]), g->r[4],
           g->tpm_session == PBEAM_TPM_SESSION_NONE ? "none" : "open");
}

static void show(const struct guest *g, size_t at, int length)
{
    printf("  at 0x%zx: %.*s\n", at, length, (const char *)g->memory + at);
}

int main(void)
{
    static struct guest g;
    g.may_use_tpm = 1;

    memcpy(g.memory + 0x2000, "unseal the key", 14);
    call(&g, "execute, one address for both buffers", PBEAM_TPM_EXECUTE, 0x2000, 14, 0x2000, 4096);
    show(&g, 0x2000, 14);

    memcpy(g.memory + 0x2000, "unseal the key", 14);
    call(&g, "execute, output of 4,095 bytes", PBEAM_TPM_EXECUTE, 0x2000, 14, 0x3000, 4095);
    show(&g, 0x2000, 14);

    tpm_is_broken = 1;
    call(&g, "execute, while the TPM does not answer", PBEAM_TPM_EXECUTE, 0x2000, 14, 0x3000, 4096);
    tpm_is_broken = 0;

    call(&g, "close", PBEAM_TPM_CLOSE, 0, 0, 0, 0);
    call(&g, "close again", PBEAM_TPM_CLOSE, 0, 0, 0, 0);

    g.may_use_tpm = 0;
    call(&g, "execute, while the guest may not use the TPM", PBEAM_TPM_EXECUTE, 0x2000, 14, 0x3000, 4096);
    return 0;
}
