/*
 * Potterbeam state blobs of a software TPM, for C11 and C++11 or later. Link with libpotterbeam_swtpm.a.
 *
 * GET_STATEBLOB of swtpm's control channel ("004" below is its manual page, swtpm_ioctls(3)): reads and writes the request for a piece of a
 * state blob and the response that carries one, and collects the pieces in one buffer. In a message every number has
 * four bytes, big-endian; here numbers are plain uint32_t.
 *
 *   request    command code, state_flags, type, offset                             16 bytes
 *   response   tpm_result, state_flags, totlength, length, then `length` bytes      16 bytes and the data
 *
 * For every function:
 *
 * - It accepts any number, message, buffer and collector. No value is forbidden; every call returns, and reads and writes only
 *   what it is lent. The library allocates nothing and keeps nothing between calls. It needs no other library.
 * - A slice is a pointer and a count of bytes. The pointer may be NULL only if the count is 0. collector, parts and len are never NULL.
 * - Lent memory must not overlap, except what two parameters only read. Bytes need no alignment; words have C's alignment.
 * - There is no lock. Use one collector or buffer in one call at a time; different ones may be used at the same time.
 * - A call that can be refused returns PBEAM_SWTPM_OK or the number of the refusal. The first check that fails decides; the checks are
 *   listed below in their order. A refused call leaves every lent byte and word unchanged: buffer, collector, parts and len.
 * - size_t has 64 bits, which the header asserts: the archives are for x86-64 and AArch64 (LP64).
 * - "Stack" is the most that a call was seen to write on x86-64, and after "AArch64" a static bound of the archive that tools/aarch64
 *   builds; both with the words that its caller passes on the stack, rounded up to a multiple of 32 (docs/STACK.md).
 */
#ifndef POTTERBEAM_SWTPM_H
#define POTTERBEAM_SWTPM_H

#include <stdbool.h>
#include <stddef.h>
#include <stdint.h>

#include "potterbeam_common.h"

/* The version of the archive: see potterbeam_common.h. */
PBEAM_LINKS(pbeam_swtpm_version);

/* ---- Answers ---- */

#define PBEAM_SWTPM_OK 0
#define PBEAM_SWTPM_CUT_SHORT 1     /* fewer bytes than the message must have, for example swtpm's error answer of 4 bytes */
#define PBEAM_SWTPM_TOO_LONG 2      /* more bytes than the message must have */
#define PBEAM_SWTPM_WRONG_CODE 3    /* request: another command code than the caller's */
#define PBEAM_SWTPM_ABOVE_LARGEST 4 /* response: more data than the caller's largest size */
#define PBEAM_SWTPM_FAILED 5        /* response: tpm_result is not zero */
#define PBEAM_SWTPM_NO_ROOM 6       /* writing: the message does not fit into the buffer */
#define PBEAM_SWTPM_TOTAL_DIFFERS 7 /* collector: another totlength than that of the first accepted response */
#define PBEAM_SWTPM_PAST_TOTAL 8    /* collector: bytes held and new ones exceed totlength */
#define PBEAM_SWTPM_PAST_BUFFER 9   /* collector: bytes held and new ones exceed the buffer */
#define PBEAM_SWTPM_NO_DATA 10      /* collector: a response without data while bytes are missing */

/* ---- Messages ---- */

#define PBEAM_SWTPM_REQUEST_BYTES 16 /* a request */
#define PBEAM_SWTPM_HEAD_BYTES 16    /* a response without its data */

/* Numbers of swtpm's own tpm_ioctl.h (0.7.1), for the caller to pass. The library does not use them: it compares a code only with the
 * caller's, and does not check types and flags. */
#define PBEAM_SWTPM_CMD_GET_STATEBLOB 12   /* command code of the control channel */
#define PBEAM_SWTPM_BLOB_TYPE_PERMANENT 1  /* type */
#define PBEAM_SWTPM_BLOB_TYPE_VOLATILE 2   /* type */
#define PBEAM_SWTPM_BLOB_TYPE_SAVESTATE 3  /* type */
#define PBEAM_SWTPM_STATE_FLAG_DECRYPTED 1 /* state_flags of a request */
#define PBEAM_SWTPM_STATE_FLAG_ENCRYPTED 2 /* state_flags of a response */

/* Words of `parts` after a request was read. */
#define PBEAM_SWTPM_PARTS_WORDS 4
#define PBEAM_SWTPM_REQUEST_CODE 0
#define PBEAM_SWTPM_REQUEST_FLAGS 1
#define PBEAM_SWTPM_REQUEST_TYPE 2
#define PBEAM_SWTPM_REQUEST_OFFSET 3

/* Words of `parts` after a response was read. The data is message[AT] to message[AT + LENGTH - 1]; it is not copied. */
#define PBEAM_SWTPM_RESPONSE_FLAGS 0
#define PBEAM_SWTPM_RESPONSE_TOTAL 1
#define PBEAM_SWTPM_RESPONSE_AT 2
#define PBEAM_SWTPM_RESPONSE_LENGTH 3

/* Words of a collector. All zero is a new one. An accepted call writes all three words. */
#define PBEAM_SWTPM_COLLECTOR_WORDS 3
#define PBEAM_SWTPM_COLLECTOR_ACCEPTED 0 /* 0 while no response was accepted; written as 1; any other number is read as 1 */
#define PBEAM_SWTPM_COLLECTOR_TOTAL 1    /* totlength of the first accepted response */
#define PBEAM_SWTPM_COLLECTOR_HELD 2     /* bytes held, at the start of the buffer */

/* The answer as text. */
static inline const char *pbeam_swtpm_text(uint32_t answer)
{
    switch (answer) {
    case PBEAM_SWTPM_OK: return "ok";
    case PBEAM_SWTPM_CUT_SHORT: return "the message is cut short";
    case PBEAM_SWTPM_TOO_LONG: return "the message is too long";
    case PBEAM_SWTPM_WRONG_CODE: return "the request has another command code";
    case PBEAM_SWTPM_ABOVE_LARGEST: return "the data is longer than the largest size";
    case PBEAM_SWTPM_FAILED: return "the TPM answers an error: tpm_result is not zero";
    case PBEAM_SWTPM_NO_ROOM: return "the message does not fit into the buffer";
    case PBEAM_SWTPM_TOTAL_DIFFERS: return "totlength differs from that of the first response";
    case PBEAM_SWTPM_PAST_TOTAL: return "the data goes past totlength";
    case PBEAM_SWTPM_PAST_BUFFER: return "the data goes past the buffer";
    case PBEAM_SWTPM_NO_DATA: return "the response has no data while bytes are missing";
    default: return "no answer of this library";
    }
}

#ifdef __cplusplus
extern "C" {
#endif

/*
 * pbeam_swtpm_read_request: reads a request.
 * Takes    the message, and the command code that it must have.
 * Returns  PBEAM_SWTPM_OK, or by the first check that fails:
 *          PBEAM_SWTPM_CUT_SHORT   fewer than 16 bytes
 *          PBEAM_SWTPM_TOO_LONG    more than 16 bytes
 *          PBEAM_SWTPM_WRONG_CODE  it has another code
 * Leaves   the message unchanged. On OK parts: code, state_flags, type and offset; the last three may be any numbers.
 * Stack    32 bytes; AArch64 0
 */
PBEAM_MUST_CHECK PBEAM_NONNULL(4)
uint32_t pbeam_swtpm_read_request(const uint8_t *message, size_t message_len, uint32_t code,
                                  uint32_t parts[PBEAM_RESTRICT_WORDS PBEAM_SWTPM_PARTS_WORDS]);

/*
 * pbeam_swtpm_write_request: writes a request to the start of a buffer.
 * Takes    the buffer; command code, state_flags, type and offset, any numbers.
 * Returns  PBEAM_SWTPM_OK, or:
 *          PBEAM_SWTPM_NO_ROOM     the buffer has fewer than 16 bytes
 * Leaves   on OK the message in the buffer's first 16 bytes, the bytes after it unchanged, and 16 in *len.
 * Stack    32 bytes; AArch64 32
 */
PBEAM_MUST_CHECK PBEAM_NONNULL(7)
uint32_t pbeam_swtpm_write_request(uint8_t *PBEAM_RESTRICT buffer, size_t buffer_len, uint32_t code, uint32_t flags, uint32_t type,
                                   uint32_t offset, size_t *PBEAM_RESTRICT len);

/*
 * pbeam_swtpm_read_response: reads a response.
 * Takes    the message, and the largest size of its data.
 * Returns  PBEAM_SWTPM_OK, or by the first check that fails:
 *          PBEAM_SWTPM_CUT_SHORT      fewer than 16 bytes, or less data than the length field gives
 *          PBEAM_SWTPM_TOO_LONG       more data than the length field gives
 *          PBEAM_SWTPM_ABOVE_LARGEST  the length field is above largest
 *          PBEAM_SWTPM_FAILED         tpm_result is not zero
 * Leaves   the message unchanged. On OK parts: state_flags, totlength, and offset and length of the data in the message.
 * Stack    32 bytes; AArch64 0
 * The message must be exactly one response: on a stream read 16 bytes, then the number of bytes in bytes 12 to 15.
 */
PBEAM_MUST_CHECK PBEAM_NONNULL(4)
uint32_t pbeam_swtpm_read_response(const uint8_t *message, size_t message_len, uint32_t largest,
                                   uint32_t parts[PBEAM_RESTRICT_WORDS PBEAM_SWTPM_PARTS_WORDS]);

/*
 * pbeam_swtpm_write_response: writes a response to the start of a buffer.
 * Takes    the buffer, the largest size of data; tpm_result, state_flags and totlength, any numbers; the data.
 * Returns  PBEAM_SWTPM_OK, or by the first check that fails:
 *          PBEAM_SWTPM_ABOVE_LARGEST  data_len is above largest
 *          PBEAM_SWTPM_NO_ROOM        the buffer has fewer than 16 + data_len bytes
 * Leaves   the data unchanged. On OK the message at the buffer's start, the bytes after it unchanged, and 16 + data_len in *len.
 * Stack    96 bytes; AArch64 32
 */
PBEAM_MUST_CHECK PBEAM_NONNULL(9)
uint32_t pbeam_swtpm_write_response(uint8_t *PBEAM_RESTRICT buffer, size_t buffer_len, uint32_t largest, uint32_t result, uint32_t flags,
                                    uint32_t total, const uint8_t *data, size_t data_len, size_t *PBEAM_RESTRICT len);

/*
 * pbeam_swtpm_collect: appends a response's data to the bytes held.
 * Takes    the collector, the message, the largest size of its data, and the buffer: the same at each call of one collection.
 * Returns  PBEAM_SWTPM_OK, or by the first check that fails:
 *          PBEAM_SWTPM_CUT_SHORT, _TOO_LONG, _ABOVE_LARGEST, _FAILED  as pbeam_swtpm_read_response
 *          PBEAM_SWTPM_TOTAL_DIFFERS  an earlier response was accepted with another totlength
 *          PBEAM_SWTPM_PAST_TOTAL     bytes held and new ones exceed totlength
 *          PBEAM_SWTPM_PAST_BUFFER    they exceed the buffer; also without new bytes, if the buffer is shorter than the bytes held
 *          PBEAM_SWTPM_NO_DATA        no new bytes, and fewer held than totlength
 * Leaves   the message unchanged. On OK the data after the bytes held, every other byte of the buffer unchanged, and the collector's
 *          count of bytes held increased by the length of the data.
 * Stack    64 bytes; AArch64 0
 * state_flags are not checked. If each accepted response was cut from one blob at the number of bytes then held, with that blob's length
 * as totlength, the buffer starts with the blob's first bytes: request offset pbeam_swtpm_held each time. (swtpm 0.7.1 differs: one
 * response carries all remaining bytes, and its totlength counts from the offset. Send it one request, with offset 0. See docs/SWTPM.md.)
 */
PBEAM_MUST_CHECK PBEAM_NONNULL(1)
uint32_t pbeam_swtpm_collect(uint32_t collector[PBEAM_RESTRICT_WORDS PBEAM_SWTPM_COLLECTOR_WORDS], const uint8_t *message,
                             size_t message_len, uint32_t largest, uint8_t *PBEAM_RESTRICT buffer, size_t buffer_len);

/*
 * pbeam_swtpm_complete: whether the whole blob is held.
 * Returns  true exactly if a response was accepted and totlength bytes are held; so never for a new collector.
 * Leaves   the collector unchanged.
 * Stack    32 bytes; AArch64 0
 */
PBEAM_NONNULL(1)
bool pbeam_swtpm_complete(const uint32_t collector[PBEAM_SWTPM_COLLECTOR_WORDS]);

/*
 * pbeam_swtpm_held: the number of bytes held, which is the offset to request next.
 * Leaves   the collector unchanged.
 * Stack    32 bytes; AArch64 0
 */
PBEAM_NONNULL(1)
uint32_t pbeam_swtpm_held(const uint32_t collector[PBEAM_SWTPM_COLLECTOR_WORDS]);

#ifdef __cplusplus
}
#endif

#endif
