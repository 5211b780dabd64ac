/*
 * Potterbeam H_TPM_COMM, for C11 and C++11 or later. Link with libpotterbeam_tpm.a; it does not need the RMM-EL3 kit.
 *
 * The hypervisor's side of the hypercall by which a guest sends a request to a TPM and gets the response (operation 1, execute), or
 * closes its TPM session (operation 2, close). "003" below is the public document that describes it, QEMU's ppc-spapr-uv-hcalls.
 *
 * How a hypercall goes:
 *
 *   1  pbeam_tpm_request returns the place of the request in the guest's memory, if there is one to send.
 *   2  The platform sends it to the TPM, and has a response or a fault.
 *   3  pbeam_tpm_comm checks the call, writes the response into the guest's memory and gives r3, r4 and the session.
 *
 * examples/c/tpm_comm.c is such a handler. Read the request before the call: the guest may use one address for both buffers, and
 * then the response overwrites the request.
 *
 * For both functions:
 *
 * - It accepts any number, memory, response and session word. No value is forbidden; every call returns, and reads and writes
 *   only what it is lent. The library allocates nothing, keeps nothing between calls and calls no function of yours.
 * - A slice is a pointer and a count of bytes. The pointer may be NULL only if the count is 0. Every other pointer is never NULL, and
 *   a word (uint64_t) has C's alignment. Memory and response need no alignment.
 * - `memory` is the guest's memory from guest address 0, as the hypervisor sees it, in one piece. A guest physical address is an
 *   offset into it; memory_len bytes exist.
 * - Lent buffers and words must not overlap: the response is in a buffer of the hypervisor, outside the memory.
 *   The two buffers of the guest may overlap, or be the same.
 * - Nothing else may write the memory, the response or a lent word during a call: neither another processor of the guest nor a device.
 *   No check depends on a byte of the memory, so a guest that writes it anyway cannot change an answer, and can damage only the
 *   bytes at out_buffer. Between pbeam_tpm_request and the time when the TPM reads the request the guest may change it: a platform that
 *   checks its bytes must copy them first.
 * - There is no lock. Use one memory and one session word in one call at a time; different guests may call at the same time.
 * - size_t has 64 bits, which the header asserts: the archives are for x86-64, AArch64 and POWER (tools/power), all LP64.
 * - "Stack" is the most that a call was seen to write on x86-64, and after "AArch64" a static bound of the archive that tools/aarch64
 *   builds; both with the words that its caller passes on the stack, rounded up to a multiple of 32 (docs/STACK.md).
 * - The first check that fails decides the answer. The checks are listed below in their order.
 */
#ifndef POTTERBEAM_TPM_H
#define POTTERBEAM_TPM_H

#include <stddef.h>
#include <stdint.h>

#include "potterbeam_common.h"

/* The version of the archive: see potterbeam_common.h. */
PBEAM_LINKS(pbeam_tpm_version);

/* ---- The number of the hypercall, in r3: the hypervisor looks at it, the library does not see it. It is PAPR's, as in Linux ---- */

#define PBEAM_TPM_H_TPM_COMM UINT64_C(0xEF10)

/* ---- Operations: compared as 64 bits ---- */

#define PBEAM_TPM_EXECUTE UINT64_C(1) /* TPM_COMM_OP_EXECUTE */
#define PBEAM_TPM_CLOSE UINT64_C(2)   /* TPM_COMM_OP_CLOSE_SESSION */

/* ---- Return codes, r3, int64_t. 003 has the names but no numbers; the numbers are PAPR's, as in Linux and QEMU ---- */

#define PBEAM_TPM_H_SUCCESS INT64_C(0)
#define PBEAM_TPM_H_FUNCTION INT64_C(-2)   /* the platform forbids access */
#define PBEAM_TPM_H_PARAMETER INT64_C(-4)  /* operation other than 1 or 2 */
#define PBEAM_TPM_H_RESOURCE INT64_C(-16)  /* the platform reports a fault, or a response longer than the output */
#define PBEAM_TPM_H_P2 INT64_C(-55)        /* in_buffer not inside the memory */
#define PBEAM_TPM_H_P3 INT64_C(-56)        /* in_size above 4,096, or past the memory's end */
#define PBEAM_TPM_H_P4 INT64_C(-57)        /* out_buffer not inside the memory */
#define PBEAM_TPM_H_P5 INT64_C(-58)        /* out_size below 4,096, or past the memory's end */

/* ---- Sizes ---- */

#define PBEAM_TPM_IN_SIZE_MOST UINT64_C(4096)
#define PBEAM_TPM_OUT_SIZE_LEAST UINT64_C(4096)

/* ---- Session: one word that the hypervisor keeps for each guest, initially 0 ---- */

#define PBEAM_TPM_SESSION_NONE UINT64_C(0)
#define PBEAM_TPM_SESSION_OPEN UINT64_C(1) /* the number that is written; a number above it also reads as open */

/* ---- A part of the memory: (0, 0) if it is empty ---- */

#define PBEAM_TPM_PLACE_WORDS 2
#define PBEAM_TPM_PLACE_OFFSET 0
#define PBEAM_TPM_PLACE_LENGTH 1

#ifdef __cplusplus
extern "C" {
#endif

/*
 * pbeam_tpm_comm: the hypercall.
 * Takes    the guest's session; operation, in_buffer, in_size, out_buffer and out_size, which are the guest's r4 to r8; the guest's
 *          memory; the TPM's response; and two flags of the platform, not 0 if set: access is forbidden, and
 *          there was a fault. For a close, and if an earlier check refuses, response and fault are not used.
 * Returns  r3, as int64_t: PBEAM_TPM_H_SUCCESS, or by the first check that fails:
 *          PBEAM_TPM_H_FUNCTION   access is forbidden
 *          PBEAM_TPM_H_PARAMETER  operation not 1 or 2
 *          and only for execute:
 *          PBEAM_TPM_H_P2         in_buffer at or past memory_len
 *          PBEAM_TPM_H_P3         in_size above 4,096, or in_buffer + in_size past memory_len
 *          PBEAM_TPM_H_P4         out_buffer at or past memory_len
 *          PBEAM_TPM_H_P5         out_size below 4,096, or out_buffer + out_size past memory_len
 *          PBEAM_TPM_H_RESOURCE   fault; response_len above out_size
 *          No sum overflows. A request of 0 bytes is accepted, and so is a response of 0 bytes, or of more than 4,096.
 * Leaves   accepted execute: the response at out_buffer, no other byte of the memory changed; *r4 is response_len; *session is
 *          PBEAM_TPM_SESSION_OPEN, also if it was open before.
 *          accepted close: the memory unchanged; *r4 is 0; *session is PBEAM_TPM_SESSION_NONE, even if no session was open.
 *          refused: the memory and *session unchanged, for any number in *session; *r4 is 0.
 * Stack    128 bytes; AArch64 64
 */
PBEAM_MUST_CHECK PBEAM_NONNULL(1, 13)
int64_t pbeam_tpm_comm(uint64_t *PBEAM_RESTRICT session, uint64_t operation, uint64_t in_buffer, uint64_t in_size, uint64_t out_buffer,
                       uint64_t out_size, uint8_t *PBEAM_RESTRICT memory, size_t memory_len, const uint8_t *response, size_t response_len,
                       uint64_t forbidden, uint64_t fault, uint64_t *PBEAM_RESTRICT r4);

/*
 * pbeam_tpm_request: the place of the request in the guest's memory.
 * Takes    the arguments, the memory and `forbidden` as pbeam_tpm_comm.
 * Leaves   the memory unchanged. place: the offset of the request in the memory, which is in_buffer, and its length, which is in_size,
 *          for an execute that no check before PBEAM_TPM_H_RESOURCE refuses. (0, 0) for a close, for a call that such a check refuses,
 *          and for a request of 0 bytes.
 * Stack    32 bytes; AArch64 32
 * If place is (0, 0) on an execute, there is nothing to send. Call pbeam_tpm_comm anyway: it returns the refusal. With fault set, a request of
 * 0 bytes is PBEAM_TPM_H_RESOURCE.
 */
PBEAM_NONNULL(9)
void pbeam_tpm_request(uint64_t operation, uint64_t in_buffer, uint64_t in_size, uint64_t out_buffer, uint64_t out_size,
                       const uint8_t *memory, size_t memory_len, uint64_t forbidden,
                       uint64_t place[PBEAM_RESTRICT_WORDS PBEAM_TPM_PLACE_WORDS]);

#ifdef __cplusplus
}
#endif

/* The name of a return code, for a log. */
static inline const char *pbeam_tpm_name(int64_t r3)
{
    switch (r3) {
    case PBEAM_TPM_H_SUCCESS: return "H_SUCCESS";
    case PBEAM_TPM_H_FUNCTION: return "H_FUNCTION";
    case PBEAM_TPM_H_PARAMETER: return "H_PARAMETER";
    case PBEAM_TPM_H_RESOURCE: return "H_RESOURCE";
    case PBEAM_TPM_H_P2: return "H_P2";
    case PBEAM_TPM_H_P3: return "H_P3";
    case PBEAM_TPM_H_P4: return "H_P4";
    case PBEAM_TPM_H_P5: return "H_P5";
    default: return "no return code of H_TPM_COMM";
    }
}

#endif
