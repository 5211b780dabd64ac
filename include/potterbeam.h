/*
 * Potterbeam RMM-EL3 kit, for C11 and C++11 or later. Link with libpotterbeam.a.
 *
 * EL3 firmware writes the boot manifest and serves the runtime commands; the monitor (RMM) reads the manifest and checks its boots.
 * "002" below is the public RMM-EL3 interface document. "Page" is the shared buffer of 4,096 bytes at physical address B. All fields
 * in it are little-endian.
 *
 * For every function:
 *
 * - It accepts any number, page, list, table and image. No value is forbidden; every call returns, and reads and writes only what it is
 *   lent. The library allocates nothing and keeps nothing between calls.
 * - A slice is a pointer and a count of elements. The pointer may be NULL only if the count is 0. An image (state, granules, session,
 *   queue, view, place, field, out, work, request, call) is a pointer to a fixed number of 64-bit words and is never NULL, even if
 *   the call does not need it.
 * - The caller passes a page by the address at which it sees the page; B is only a number to the library. So a page needs no alignment in
 *   memory, and a caller that maps it elsewhere passes both. Words (uint64_t) have C's alignment.
 * - Lent buffers must not overlap, except two that the call only reads.
 * - There is no lock. While a call writes an image, page, table or words, no other call uses them: see "One lock" below. Calls that only
 *   read them may run at the same time, and so may calls on different ones.
 * - The first check that fails decides the answer. The checks are listed below in their order.
 * - A refused runtime command returns its code in x0 and 0 in x1 and x2, and leaves page, table, words, session and queue unchanged, for any
 *   contents. A refused list of granules differs: x1 is the number of granules changed, and these stay changed.
 * - size_t has 64 bits, which the header asserts: the archives are for x86-64 and AArch64 (LP64). On a 32-bit target the prototypes would
 *   not match the library, and PBEAM_CONSOLE_NONE would not fit a size_t.
 * - GCC and Clang warn of a NULL for an image, and of a result that is not used where nothing else tells the caller whether the call wrote
 *   anything (PBEAM_MUST_CHECK). GCC also warns if the same pointer is passed for memory that a call writes and for another argument
 *   (-Wrestrict, in -Wall); as C++ only of pointers to bytes and lists, not of images. It does not notice two pointers into one buffer.
 * - Header and archive have the same version, or the program does not link: see potterbeam_common.h.
 * - "Stack" is the most that a call was seen to write on x86-64, accepted or refused, rounded up to a multiple of 32, with its return
 *   address and the words that its caller passes on the stack. It is measured (rust/tests/stack.rs), not proved. All fit in 1 KiB.
 * - The figure after "AArch64" is static, rounded in the same way: the frames of the function and of all functions that it calls, in the
 *   archive that tools/aarch64 builds, and the words that its caller passes on the stack. It does not include the platform's memcpy,
 *   memmove and memset. docs/STACK.md has both figures; programs write them, there and here.
 *
 * potterbeam_types.h has a struct for each image, lists that are counted in entries, and one struct for all arguments of pbeam_call. The
 * functions here count words: a list of two banks has length 4.
 *
 * Packing and mending of pages, for tools on a host, are in a separate library: potterbeam_pages.h, libpotterbeam_pages.a.
 *
 * What the library cannot check, and EL3 must do:
 *
 * The boot record. EL3 keeps its own, separate from the monitor's: every command takes B, the agreed minor and the kept bytes from it.
 *   Before EL3 enters the monitor it calls pbeam_cold_boot with the registers and the page that it is about to pass to the monitor, because
 *   the monitor may call EL3 while it boots. Before each warm boot it calls pbeam_warm_boot. Both sides make the same checks, so
 *   both records are equal. If EL3's record is closed, EL3 must not enter the monitor.
 * Kept bytes. With K kept bytes in EL3's record no command writes below B + K, so a manifest in [B, B + K) can be read at any later boot.
 *   pbeam_kept_for returns the number of bytes that a manifest takes; with K = 0 the first command may overwrite it. No register carries K:
 *   the monitor calls pbeam_kept_for on the same page, gets the same number, and puts its buffers at B + K and above. If EL3 uses another K
 *   it must pass that number to the monitor. K restricts only the commands: the monitor itself may still write below B + K.
 * Boot errors. The monitor ends each boot with RMM_BOOT_COMPLETE (0xC40001CF, the code in x1). The platform serves that call: pbeam_call
 *   answers PBEAM_X0_UNK. If x1 is not 0, EL3 closes its record with pbeam_close and lets no CPU enter the monitor again. From then on
 *   every command except 0xC400018F answers PBEAM_X0_UNK. EL3 compares all 64 bits of x1 with 0. It accepts RMM_BOOT_COMPLETE only from a CPU
 *   that is booting, which is one that EL3 entered for a boot and that has not made this call since, and from no CPU after an
 *   error, also with x1 = 0; otherwise it answers PBEAM_X0_UNK and changes nothing.
 * The page. 002 gives it to the Realm world and makes the monitor responsible for its use by one CPU at a time; EL3 cannot enforce it.
 *   So the monitor has a lock of its own for the page, from the first byte that it writes for a command to the last byte that it reads of
 *   the answer. EL3's lock does not stop the monitor from writing the page. What follows if it does so during a call of EL3:
 *   - The call still touches only lent memory (tested: tests/c/race.c).
 *   - The codes, registers, next session, next queue and table of every runtime command except a push do not depend on the page's bytes
 *     (proved: `exports-unread`); a push reads its request once and judges that copy. pbeam_set_up_granules copies the banks, and judges
 *     the copy.
 *   - What pbeam_read, the lookups, pbeam_listing and pbeam_cold_boot return holds only for a page that stays still. EL3 calls them, and
 *     pbeam_write, before it enters the monitor for the first time: until then no other CPU writes the page. To read it later, EL3 copies
 *     the page into its own memory and passes the copy.
 * One lock. If more than one CPU runs, EL3 has one lock, for boot record, session, queue, granule record, table, words, and what it lends
 *   with them (key, token). A lock around each call of the library alone is too little; one lock spans
 *   - a command: copies of what the monitor can write, the call, and the change in hardware that it asks for;
 *   - a start of a platform token: pbeam_challenge, the copy of the challenge, the choice of the token, and the call;
 *   - a signature: pbeam_oldest, the making of the signature, and pbeam_sign, unless there is only one signer;
 *   - a boot of EL3's record, and RMM_BOOT_COMPLETE with pbeam_close: they write the record that all commands read;
 *   - 0xC400018F: the check that the boot of this CPU is complete, and the call;
 *   - pbeam_set_up_granules and pbeam_realm_build, which write what delegation reads, unless only one CPU runs when EL3 calls them;
 *   - pbeam_realm_count, pbeam_realm_next and pbeam_realm_agrees, which read what delegation writes, and pbeam_responses, which reads the
 *     queue.
 *   Release it before the monitor runs on this CPU, and before EL3 waits for another CPU. examples/qemu/el3.c and
 *   examples/c/boot_to_token.c do all of it. The monitor needs a lock for its own record if two CPUs can be in its boot at the same time.
 * Copies. EL3 cannot stop the monitor on another CPU from writing memory that it shares with it. So EL3 reads a list of addresses and
 *   the challenge once, into its own memory. The copy of the list is what EL3 passes to the library and to the hardware; the copy of the
 *   challenge is what it compares and makes the token from. The registers of the call are in EL3's own memory already, and the request that
 *   pbeam_oldest returns is a copy. Key, token, public key and signature must be in EL3's own memory.
 * The platform token. Lend the same bytes at each call from an accepted start to the session's end. The library notices a new length
 *   (PBEAM_X0_UNK), but not other bytes of the same length: the monitor then gets the start of one token and the rest of another, each
 *   hunk answered OK. So do not change the lent token after a start that answers PBEAM_X0_AGAIN: the session before it may still go
 *   on. Make a new token in a second buffer, lend that one in the call that starts with it, and keep the first until that call is OK.
 * Result registers. After a command the monitor's x0 to x2 are those of `out`. No command has a result in x3 or x4: leave the monitor's
 *   own values there, and in x5 to x17 (SMCCC). If EL3 itself answers PBEAM_X0_UNK (RMM_BOOT_COMPLETE, 0xC400018F), x1 and x2 are 0, as
 *   after any refused command.
 * 0xC400018F does not return to the monitor, so `out` is not used. The Non-secure world gets x0 to x4 (002). 002 names only err_code, which
 *   is the value of `work`: put it into x0. Which of the monitor's registers go into x1 to x4 is up to the platform; we suggest x2 to x5.
 *   EL3 forwards only from a CPU whose boot is complete; from any other it answers PBEAM_X0_UNK, since no call of the Non-secure world is
 *   under way there.
 * Forged images. Any words are accepted, and no call reads or writes more than it is lent; but an answer is only as true as the words.
 *   - A record that is up is trusted: B defines which addresses are in the page, the kept bytes which of them are free, the minor which
 *     commands exist. None of the three is checked; with more than 4,095 kept bytes every buffer is outside.
 *   - A session that has sent as much as its token or more: the next call that continues it is OK with hunk 0 and rest 0, and ends it.
 *   - Each call checks the granule record that it takes: one that pbeam_set_up_granules would not have made has no granules. One that it
 *     would have made is trusted, even if the board has other memory.
 *   - A request in the queue with ids above 32 bits, or with any ids: pbeam_oldest returns them unchanged, and pbeam_sign accepts it. A
 *     push never stores such a request.
 *   - A response in the queue with a length above 104: a pull of it delivers 104 bytes and writes 104 as its length. If an older response
 *     is pulled, it moves up with its length word unchanged.
 */
#ifndef POTTERBEAM_H
#define POTTERBEAM_H

#include <stdbool.h>
#include <stddef.h>
#include <stdint.h>

#include "potterbeam_common.h"

/* ---- Function ids: x0 of a call, compared as 64 bits; each with 002's name ---- */

#define PBEAM_ID_FORWARD UINT64_C(0xC400018F)        /* RMM_RMI_REQ_COMPLETE */
#define PBEAM_ID_DELEGATE UINT64_C(0xC40001B0)       /* RMM_GTSI_DELEGATE */
#define PBEAM_ID_UNDELEGATE UINT64_C(0xC40001B1)     /* RMM_GTSI_UNDELEGATE */
#define PBEAM_ID_REALM_KEY UINT64_C(0xC40001B2)      /* RMM_ATTEST_GET_REALM_KEY */
#define PBEAM_ID_PLATFORM_TOKEN UINT64_C(0xC40001B3) /* RMM_ATTEST_GET_PLAT_TOKEN */
#define PBEAM_ID_FEATURES UINT64_C(0xC40001B4)       /* RMM_EL3_FEATURES */
#define PBEAM_ID_TOKEN_SIGNING UINT64_C(0xC40001B5)  /* RMM_EL3_TOKEN_SIGN */
#define PBEAM_ID_KEY_UPDATE UINT64_C(0xC40001B6)     /* RMM_MECID_KEY_UPDATE */

/* ---- Codes ---- */

/* Codes of boot (all) and reader (0 and the three PBEAM_MANIFEST codes), int32_t. The monitor passes a boot's code to EL3 in x1 of
 * RMM_BOOT_COMPLETE (002). */
#define PBEAM_BOOT_DONE 0           /* the record is up */
#define PBEAM_READ_ACCEPTED 0       /* the view shows the page */
#define PBEAM_BOOT_STATE (-1)       /* cold: record not fresh; warm: record not up */
#define PBEAM_BOOT_VERSION (-2)     /* cold: x1 above 32 bits, or the version not accepted */
#define PBEAM_BOOT_CPUS (-3)        /* cold: x2 above the monitor's maximum */
#define PBEAM_BOOT_CPU (-4)         /* x0 not below x2; warm: not below the cold boot's x2 */
#define PBEAM_MANIFEST_PLACE (-5)   /* page not 4,096 bytes long; B zero, not a multiple of 4,096, or above PBEAM_BASE_MOST */
#define PBEAM_MANIFEST_VERSION (-6) /* reader's edition not 1 to 4; the manifest's version not accepted */
#define PBEAM_MANIFEST_RULES (-7)   /* any other rule of the manifest broken */

/* Writer, uint32_t: 0, or the number of the refusal W1 to W5. */
#define PBEAM_WRITE_PAGE 0       /* the page is written */
#define PBEAM_WRITE_W1_PLACE 1   /* as PBEAM_MANIFEST_PLACE */
#define PBEAM_WRITE_W2_EDITION 2 /* edition not 1 to 4 */
#define PBEAM_WRITE_W3_LISTS 3   /* a list is not whole entries, or an entry breaks its rule; fields are broken, or one has tag 0 or 3 */
#define PBEAM_WRITE_W4_LATE 4    /* a list for a section after the edition is not empty */
#define PBEAM_WRITE_W5_ROOM 5    /* core, arrays and fields with their end mark exceed 4,096 bytes */

/* Codes of the runtime commands. No command answers 002's NOMEM (-4), so it has no name here. */
#define PBEAM_OK 0
#define PBEAM_UNK (-1)
#define PBEAM_BAD_ADDR (-2)
#define PBEAM_BAD_PAS (-3)
#define PBEAM_INVAL (-5)
#define PBEAM_AGAIN (-6)

/* The same codes in x0, sign-extended to 64 bits. Compare out[PBEAM_OUT_X0] with these. */
#define PBEAM_X0_OK UINT64_C(0x0000000000000000)
#define PBEAM_X0_UNK UINT64_C(0xFFFFFFFFFFFFFFFF)
#define PBEAM_X0_BAD_ADDR UINT64_C(0xFFFFFFFFFFFFFFFE)
#define PBEAM_X0_BAD_PAS UINT64_C(0xFFFFFFFFFFFFFFFD)
#define PBEAM_X0_INVAL UINT64_C(0xFFFFFFFFFFFFFFFB)
#define PBEAM_X0_AGAIN UINT64_C(0xFFFFFFFFFFFFFFFA)

/* ---- Page and versions ---- */

#define PBEAM_PAGE_BYTES 4096
#define PBEAM_ADDRESS_LIMIT UINT64_C(0x10000000000000) /* 2^52: no bank, region or console ends above it */
#define PBEAM_BASE_MOST UINT64_C(0xFFFFFFFFFF000)      /* 2^52 - 4,096: the highest B */

/* A version has the minor in bits 0 to 15, the major in bits 16 to 30, and bit 31 is zero. Accepted: major 0, minor 1 or more. So 0.5 is 5,
 * and versions compare as numbers: 0.10 is later than 0.9. */
#define PBEAM_INTERFACE_MINOR 5  /* the agreed minor is min(5, offered minor) */
#define PBEAM_SIGNING_MINOR 4    /* features and token signing need this agreed minor */
#define PBEAM_KEY_UPDATE_MINOR 5 /* key update needs this agreed minor */

/* ---- Manifest: byte offsets and sizes ---- */

/* An edition is a minor of the manifest's layout. Cold boot reads as the last one. */
#define PBEAM_EDITION_FIRST 1
#define PBEAM_EDITION_LAST 4

/* Core size by edition. Arrays follow the core. An edition has the sections that are within its core. */
#define PBEAM_CORE_BYTES_1 16
#define PBEAM_CORE_BYTES_2 40
#define PBEAM_CORE_BYTES_3 64
#define PBEAM_CORE_BYTES_4 112

/* Offsets in the page. */
#define PBEAM_CORE_VERSION 0   /* 4 bytes */
#define PBEAM_CORE_PADDING 4   /* 4 bytes, zero */
#define PBEAM_CORE_PLAT_DATA 8 /* 8 bytes: 0, or the address of the fields, in the page after the core, any alignment */
#define PBEAM_CORE_DRAM 16     /* section, since edition 2 */
#define PBEAM_CORE_CONSOLE 40  /* section, since edition 3 */
#define PBEAM_CORE_NCOH 64     /* section, since edition 4 */
#define PBEAM_CORE_COH 88      /* section, since edition 4 */

/* A section, and offsets in it. 24 zero bytes are an empty section. The sum of count, pointer, all words of the array and checksum is 0
 * modulo 2^64. */
#define PBEAM_SECTION_BYTES 24
#define PBEAM_SECTION_COUNT 0    /* number of entries */
#define PBEAM_SECTION_POINTER 8  /* physical address of the array, a multiple of 8 */
#define PBEAM_SECTION_CHECKSUM 16

/* Section numbers, for the lookups. */
#define PBEAM_DRAM 0
#define PBEAM_CONSOLE 1
#define PBEAM_NCOH 2
#define PBEAM_COH 3
#define PBEAM_SECTIONS 4

/* An entry of dram, ncoh or coh (a bank or region), and word numbers in it. Base and size are multiples of 4,096, size is not 0,
 * base + size is at most PBEAM_ADDRESS_LIMIT. */
#define PBEAM_BANK_BYTES 16
#define PBEAM_BANK_WORDS 2
#define PBEAM_BANK_BASE 0
#define PBEAM_BANK_SIZE 1

/* A console, and word numbers in it. Base is a multiple of 4,096, map_pages is not 0, base + 4,096 x map_pages is at most
 * PBEAM_ADDRESS_LIMIT, flags are 0 on a page of minor 4 or less, and when written. Name, clock and baud rate may have any
 * value. On a page of minor 5 or more flags may have any value: pbeam_word then returns 0 for them, while the array has the page's own. */
#define PBEAM_CONSOLE_BYTES 48
#define PBEAM_CONSOLE_WORDS 6
#define PBEAM_CONSOLE_BASE 0
#define PBEAM_CONSOLE_MAP_PAGES 1
#define PBEAM_CONSOLE_NAME 2 /* PBEAM_CONSOLE_NAME_BYTES characters; the first is the lowest byte of the word; pbeam_console_named finds it */
#define PBEAM_CONSOLE_CLK_IN_HZ 3
#define PBEAM_CONSOLE_BAUD_RATE 4
#define PBEAM_CONSOLE_FLAGS 5
#define PBEAM_CONSOLE_NAME_BYTES 8 /* a shorter name is padded with zeros */

/* Platform data: fields one after another, and an end mark, which is a tag and a length of 0. Fields and end mark are in the page
 * and share no byte with an array that the reader reads. Byte offsets in a field: */
#define PBEAM_FIELD_TAG 0     /* 1 byte */
#define PBEAM_FIELD_LENGTH 1  /* 2 bytes: length of the value */
#define PBEAM_FIELD_VALUE 3   /* the value, of that length */
#define PBEAM_FIELD_END_BYTES 3
#define PBEAM_FIELD_VALUE_MOST 65535 /* more than a page holds: pbeam_write refuses it with PBEAM_WRITE_W5_ROOM */

/* Tags. Those below PBEAM_TAG_FREE appear at most once; the others may repeat. A value is any bytes. */
#define PBEAM_TAG_END 0     /* the end mark, length 0; with another length the fields are broken */
#define PBEAM_TAG_NAME 1    /* board name, PBEAM_NAME_LEAST to PBEAM_NAME_MOST bytes */
#define PBEAM_TAG_SERIAL 2  /* serial, PBEAM_SERIAL_BYTES bytes */
#define PBEAM_TAG_CONSOLE 3 /* withdrawn: accepted with PBEAM_CHOICE_BYTES byte, shown without its value, refused by pbeam_write; pick
                               a console by name (pbeam_console_named) */
#define PBEAM_TAG_FREE 4
#define PBEAM_NAME_LEAST 1
#define PBEAM_NAME_MOST 32
#define PBEAM_SERIAL_BYTES 8
#define PBEAM_CHOICE_BYTES 1

/* The longest listing, in bytes: a buffer of this size holds any text of pbeam_listing. */
#define PBEAM_LISTING_ROOM 12336

/* ---- Runtime commands: arguments ---- */

/* Granule table: one byte for each granule. Any other byte is an unknown state. */
#define PBEAM_GRANULE_BYTES 4096
#define PBEAM_GRANULE_NON_SECURE 0
#define PBEAM_GRANULE_REALM 1
#define PBEAM_GRANULE_ROOT 2
#define PBEAM_GRANULE_SECURE 3

#define PBEAM_CURVE_SECP384R1 0 /* the only curve, for realm key and public key */

/* c_size of the platform token: 0 continues a session, the others start one. */
#define PBEAM_CHALLENGE_NONE 0
#define PBEAM_CHALLENGE_SHA256 32
#define PBEAM_CHALLENGE_SHA384 48
#define PBEAM_CHALLENGE_SHA512 64

#define PBEAM_FEATURES_INDEX 0        /* the only feature register */
#define PBEAM_FEATURE_TOKEN_SIGNING 1 /* its value: bit 0, token signing is present */

/* Opcodes of token signing. */
#define PBEAM_OPCODE_PUSH 1 /* adds a request to the queue */
#define PBEAM_OPCODE_PULL 2 /* takes the oldest response from it */
#define PBEAM_OPCODE_KEY 3  /* gets the public key */

/* A request in the buffer of a push: byte offsets. Bytes 4 to 7 and 28 to 31 are not read. */
#define PBEAM_REQUEST_BYTES 80
#define PBEAM_REQUEST_ALGORITHM 0 /* 4 bytes: PBEAM_ALGORITHM_SECP384R1 */
#define PBEAM_REQUEST_GRANULE 8   /* 8 bytes: rec_granule, any number */
#define PBEAM_REQUEST_TICKET 16   /* 8 bytes: req_ticket, any number */
#define PBEAM_REQUEST_HASH_ID 24  /* 4 bytes: PBEAM_HASH_SHA2_384 */
#define PBEAM_REQUEST_HASH 32     /* PBEAM_HASH_BYTES bytes */
#define PBEAM_HASH_BYTES 48
#define PBEAM_ALGORITHM_SECP384R1 0
#define PBEAM_HASH_SHA2_384 1

/* A response in the buffer of a pull: byte offsets. A buffer of PBEAM_RESPONSE_BYTES_MOST bytes holds any response. */
#define PBEAM_RESPONSE_GRANULE 0    /* 8 bytes: rec_granule of the request */
#define PBEAM_RESPONSE_TICKET 8     /* 8 bytes: req_ticket of the request */
#define PBEAM_RESPONSE_LENGTH 16    /* 2 bytes: length of the signature */
#define PBEAM_RESPONSE_SIGNATURE 18 /* the signature, of that length */
#define PBEAM_RESPONSE_BYTES_MOST 122
#define PBEAM_SIGNATURE_BYTES_MOST 104

/* Key update: the highest mecid, and the highest MECIDWidthm1. */
#define PBEAM_MECID_MOST 65535
#define PBEAM_WIDTH_MOST 15

/* ---- Images: number of words, and word indices. All zero: fresh record, idle session, empty queue. ---- */

/* Boot record. Only a boot and pbeam_close write it. */
#define PBEAM_STATE_WORDS 5
#define PBEAM_STATE_KIND 0
#define PBEAM_STATE_CPUS 1  /* x2 of the cold boot; 0 when not up */
#define PBEAM_STATE_BASE 2  /* B; 0 when not up */
#define PBEAM_STATE_MINOR 3 /* agreed minor; 0 when not up */
#define PBEAM_STATE_KEPT 4  /* K, the number of kept bytes at the page's start; 0 when not up */
#define PBEAM_STATE_FRESH 0
#define PBEAM_STATE_UP 1
#define PBEAM_STATE_CLOSED 2 /* the number that is written; a number above it also reads as closed */

/* Granule record: the number of banks of memory, then base and size of each (PBEAM_BANK_WORDS). The words after the last bank are not
 * used. Only pbeam_set_up_granules writes it.
 * Granule i of the table is granule i of the banks, joined in their order: an address between two banks is on no granule. A record has
 * granules only if pbeam_set_up_granules would accept its banks: 1 to 16 of them, each as the reader accepts it, each starting at or after
 * the end of the one before. Otherwise, and if it is all zero, no address is on a granule. */
#define PBEAM_GRANULES_WORDS 33
#define PBEAM_GRANULES_COUNT 0
#define PBEAM_GRANULES_FIRST_BANK 1
#define PBEAM_GRANULES_BANKS_MOST 16

/* Realm words: the number of granules for each word, and what pbeam_realm_next and pbeam_realm_agrees return in addition to the codes. */
#define PBEAM_REALM_WORD_GRANULES 64
#define PBEAM_REALM_NONE 1   /* no Realm granule at or after the index */
#define PBEAM_REALM_DIFFER 1 /* words and table differ */

/* Token session. */
#define PBEAM_SESSION_WORDS 3
#define PBEAM_SESSION_KIND 0
#define PBEAM_SESSION_WHOLE 1 /* length of the token at the start; 0 when idle */
#define PBEAM_SESSION_SENT 2  /* number of bytes sent; 0 when idle */
#define PBEAM_SESSION_IDLE 0
#define PBEAM_SESSION_SENDING 1 /* the number that is written; a number above it also reads as sending */

/* Signing queue: two counts, eight requests, eight responses, the oldest first. A count above 8 reads as 8, a signature's length
 * above 104 as 104. An accepted push writes one request and the number of requests; an accepted pull writes the waiting responses and their
 * number; pbeam_sign writes requests and responses; the key writes no word. A freed slot becomes zero; every other word is unchanged. A
 * refused call writes no word. */
#define PBEAM_QUEUE_WORDS 210
#define PBEAM_QUEUE_REQUESTS 0
#define PBEAM_QUEUE_RESPONSES 1
#define PBEAM_QUEUE_FIRST_REQUEST 2
#define PBEAM_QUEUE_FIRST_RESPONSE 82
#define PBEAM_REQUESTS_MOST 8
#define PBEAM_RESPONSES_MOST 8

/* One request, in the queue and from pbeam_oldest. */
#define PBEAM_REQUEST_WORDS 10
#define PBEAM_REQUEST_WORD_ALGORITHM 0
#define PBEAM_REQUEST_WORD_GRANULE 1
#define PBEAM_REQUEST_WORD_TICKET 2
#define PBEAM_REQUEST_WORD_HASH_ID 3
#define PBEAM_REQUEST_WORD_HASH 4 /* PBEAM_HASH_WORDS words; the first byte is the lowest of the first word */
#define PBEAM_HASH_WORDS 6

/* One response in the queue. */
#define PBEAM_RESPONSE_WORDS 16
#define PBEAM_RESPONSE_WORD_GRANULE 0
#define PBEAM_RESPONSE_WORD_TICKET 1
#define PBEAM_RESPONSE_WORD_LENGTH 2
#define PBEAM_RESPONSE_WORD_SIGNATURE 3 /* PBEAM_SIGNATURE_WORDS words, in the byte order of the hash */
#define PBEAM_SIGNATURE_WORDS 13

/* View of a page. Section k starts at word PBEAM_VIEW_SECTIONS + PBEAM_VIEW_SECTION_WORDS * k.
 * A view holds offsets and counts, no bytes of the page and no B. The functions on fields and pbeam_kept_for find the fields at offset
 * plat_data modulo 4,096, and read their tags and lengths in the lent page at each call. If a command overwrites the fields, these
 * functions use the new bytes: pass kept bytes to pbeam_cold_boot, or look the fields up before the first command. */
#define PBEAM_VIEW_WORDS 15
#define PBEAM_VIEW_MINOR 0     /* w, the page's minor */
#define PBEAM_VIEW_EDITION 1   /* e = min(w, the reader's edition) */
#define PBEAM_VIEW_PLAT_DATA 2 /* plat_data of the page: 0, or the fields' address */
#define PBEAM_VIEW_SECTIONS 3
#define PBEAM_VIEW_SECTION_WORDS 3
#define PBEAM_VIEW_SECTION_KIND 0
#define PBEAM_VIEW_SECTION_OFFSET 1 /* offset of the array in the page; 0 without entries */
#define PBEAM_VIEW_SECTION_COUNT 2  /* number of entries; 0 without entries */
#define PBEAM_VIEW_ABSENT 0         /* not in edition e */
#define PBEAM_VIEW_EMPTY 1
#define PBEAM_VIEW_ENTRIES 2 /* the number that is written; a number above it also reads as entries */

/* A part of the page, (0, 0) if it is empty. */
#define PBEAM_PLACE_WORDS 2
#define PBEAM_PLACE_OFFSET 0
#define PBEAM_PLACE_LENGTH 1

/* The result of a field lookup. All zero if there is no such field; offset and length are 0 if it is withdrawn. */
#define PBEAM_FIELD_WORDS 4
#define PBEAM_FIELD_WORD_FOUND 0  /* one of the three below */
#define PBEAM_FIELD_WORD_TAG 1
#define PBEAM_FIELD_WORD_OFFSET 2 /* offset of the value in the page */
#define PBEAM_FIELD_WORD_LENGTH 3 /* length of the value */
#define PBEAM_FOUND_NONE 0        /* no such field */
#define PBEAM_FOUND_VALUE 1
#define PBEAM_FOUND_WITHDRAWN 2   /* PBEAM_TAG_CONSOLE, whose value is not shown */

/* The result of pbeam_console_named if no console has the name: the largest size_t, which has 64 bits. */
#define PBEAM_CONSOLE_NONE UINT64_C(0xFFFFFFFFFFFFFFFF)

/* Result registers. Every call writes all of them. */
#define PBEAM_OUT_WORDS 3
#define PBEAM_OUT_X0 0
#define PBEAM_OUT_X1 1
#define PBEAM_OUT_X2 2

/* What the platform must do after a command. Every call writes both words. */
#define PBEAM_WORK_WORDS 2
#define PBEAM_WORK_KIND 0
#define PBEAM_WORK_VALUE 1
#define PBEAM_WORK_NOTHING 0   /* value 0 */
#define PBEAM_WORK_REPROGRAM 1 /* value: the mecid that needs a new key */
#define PBEAM_WORK_FORWARD 2   /* value: err_code for the Non-secure world */

/* Registers of a call, x0 to x4. */
#define PBEAM_CALL_WORDS 5
#define PBEAM_CALL_ID 0
#define PBEAM_CALL_X1 1
#define PBEAM_CALL_X2 2
#define PBEAM_CALL_X3 3
#define PBEAM_CALL_X4 4

#ifdef __cplusplus
extern "C" {
#endif

/* ---- Manifest ---- */

/*
 * pbeam_read: reads a manifest page.
 * Takes    the page at B = base, and the reader's edition. With w the page's minor, e is min(edition, w).
 * Returns  PBEAM_READ_ACCEPTED, or by the first check that fails:
 *          PBEAM_MANIFEST_PLACE    page not 4,096 bytes long; B zero, not a multiple of 4,096, or above PBEAM_BASE_MOST
 *          PBEAM_MANIFEST_VERSION  edition not 1 to 4; the manifest's version has bit 31 set, major not 0, or minor 0
 *          PBEAM_MANIFEST_RULES    padding not zero; plat_data neither 0 nor in [B + core size of e, B + 4,096); a section of e
 *                                  neither 24 zero bytes nor valid (count, pointer, array between core and page's end,
 *                                  checksum, each entry's rule); two arrays overlap; the fields that plat_data points at are broken
 *                                  (no end mark in the page, tag 0 with a length, a length that tags 1 to 3 may not have, one of
 *                                  these twice) or share a byte with an array
 * Leaves   the page unchanged. view: what the page shows; refused: all zero.
 * Stack    320 bytes; AArch64 448
 * A later minor is never refused. Sections after e and bytes after the end mark are not read. Fields belong to every edition.
 * If another CPU writes the page during the call, the view still has only places that were judged, all within the page; which bytes its
 * entries and fields were judged by is then not known.
 */
PBEAM_MUST_CHECK PBEAM_NONNULL(5)
int32_t pbeam_read(const uint8_t *page, size_t page_len, uint64_t base, uint64_t edition,
                   uint64_t view[PBEAM_RESTRICT_WORDS PBEAM_VIEW_WORDS]);

/*
 * pbeam_array: reads a page and finds the array of one section.
 * Takes    the page, base and edition as pbeam_read, and the section's number.
 * Writes   place: the part of the page that holds the array; (0, 0) if the page is refused, the section is absent or empty,
 *          or its number is above 3. pbeam_read returns why a page is refused.
 * Leaves   the page unchanged.
 * Stack    320 bytes; AArch64 448
 */
PBEAM_NONNULL(6)
void pbeam_array(const uint8_t *page, size_t page_len, uint64_t base, uint64_t edition, size_t section,
                 uint64_t place[PBEAM_RESTRICT_WORDS PBEAM_PLACE_WORDS]);

/*
 * pbeam_array_of: finds the array of one section with a view.
 * Takes    a page, the view that pbeam_read made of it, and the section's number.
 * Writes   place: the part of the page that holds the array; (0, 0) if the section is absent or empty, its number is above
 *          3, or its entries are not all within the lent page.
 * Leaves   page and view unchanged.
 * Stack    32 bytes; AArch64 0
 * For another page, or one written since, place comes from the view alone. Even for a forged view it is within the page.
 */
PBEAM_NONNULL(3, 5)
void pbeam_array_of(const uint8_t *page, size_t page_len, const uint64_t view[PBEAM_VIEW_WORDS], size_t section,
                    uint64_t place[PBEAM_RESTRICT_WORDS PBEAM_PLACE_WORDS]);

/*
 * pbeam_count: the number of entries in a section.
 * Takes    page, view and section as pbeam_array_of.
 * Returns  the number of entries; 0 if pbeam_array_of gives (0, 0).
 * Leaves   page and view unchanged.
 * Stack    32 bytes; AArch64 0
 */
PBEAM_NONNULL(3)
size_t pbeam_count(const uint8_t *page, size_t page_len, const uint64_t view[PBEAM_VIEW_WORDS], size_t section);

/*
 * pbeam_word: one word of an entry.
 * Takes    page, view and section as pbeam_array_of; entry and word, both counted from 0 (PBEAM_BANK_BASE .., PBEAM_CONSOLE_BASE ..).
 * Returns  the word; 0 if there is no such entry or word, and for the flags of a console if the view's minor is 5 or above.
 * Leaves   page and view unchanged.
 * Stack    64 bytes; AArch64 0
 */
PBEAM_NONNULL(3)
uint64_t pbeam_word(const uint8_t *page, size_t page_len, const uint64_t view[PBEAM_VIEW_WORDS], size_t section, size_t entry,
                    size_t word);

/*
 * pbeam_console_named: finds the first console with a name.
 * Takes    page and view as pbeam_array_of; the name, padded with zeros to 8 bytes.
 * Returns  the index, counted from 0, of the first console with these 8 bytes of name, for use as `entry` of pbeam_word;
 *          PBEAM_CONSOLE_NONE if no console has them.
 * Leaves   page, view and name unchanged.
 * Stack    32 bytes; AArch64 0
 */
PBEAM_NONNULL(3, 4)
size_t pbeam_console_named(const uint8_t *page, size_t page_len, const uint64_t view[PBEAM_VIEW_WORDS],
                           const uint8_t name[PBEAM_CONSOLE_NAME_BYTES]);

/*
 * pbeam_field_count: the number of fields in the platform data.
 * Takes    a page, and the view that pbeam_read made of it.
 * Returns  the number of fields; 0 if plat_data is 0 or points at an end mark. Also 0 if the fields are broken or not in the lent page, which
 *          is possible with a forged view or a page that was written since.
 * Leaves   page and view unchanged.
 * Stack    32 bytes; AArch64 0
 */
PBEAM_NONNULL(3)
size_t pbeam_field_count(const uint8_t *page, size_t page_len, const uint64_t view[PBEAM_VIEW_WORDS]);

/*
 * pbeam_field: finds a field by its index.
 * Takes    page and view as pbeam_field_count; index, counted from 0 in page order.
 * Writes   field: PBEAM_FOUND_VALUE, the tag, and offset and length of the value in the page; PBEAM_FOUND_WITHDRAWN, the tag and
 *          zeros if the field is withdrawn; all zero if there is no such field. An empty value also has an offset.
 * Leaves   page and view unchanged.
 * Stack    64 bytes; AArch64 0
 * Each call starts at the first field: to visit all of them, walk with pbeam_field_start and pbeam_field_next.
 */
PBEAM_NONNULL(3, 5)
void pbeam_field(const uint8_t *page, size_t page_len, const uint64_t view[PBEAM_VIEW_WORDS], size_t index,
                 uint64_t field[PBEAM_RESTRICT_WORDS PBEAM_FIELD_WORDS]);

/*
 * pbeam_field_of_tag: finds the first field with a tag, for example the board name (PBEAM_TAG_NAME) or the serial (PBEAM_TAG_SERIAL).
 * Takes    page and view as pbeam_field_count; the tag. No field has PBEAM_TAG_END.
 * Writes   field, as pbeam_field.
 * Leaves   page and view unchanged.
 * Stack    64 bytes; AArch64 0
 */
PBEAM_NONNULL(3, 5)
void pbeam_field_of_tag(const uint8_t *page, size_t page_len, const uint64_t view[PBEAM_VIEW_WORDS], uint8_t tag,
                        uint64_t field[PBEAM_RESTRICT_WORDS PBEAM_FIELD_WORDS]);

/*
 * pbeam_field_start: the cursor at the first field, for pbeam_field_next.
 * Takes    page and view as pbeam_field_count.
 * Returns  the cursor: the offset of the first field, or of the end mark if there is no field; page_len if plat_data is 0. Also page_len if
 *          the fields are broken or not in the lent page, which is possible with a forged view or a page that was written since.
 * Leaves   page and view unchanged.
 * Stack    32 bytes; AArch64 0
 */
PBEAM_NONNULL(3)
size_t pbeam_field_start(const uint8_t *page, size_t page_len, const uint64_t view[PBEAM_VIEW_WORDS]);

/*
 * pbeam_field_next: the field at a cursor.
 * Takes    the page, and a cursor that pbeam_field_start or this function returned for it.
 * Returns  the cursor after the field, with field as pbeam_field. After the last field that cursor is the offset of the end mark: one more
 *          call finds no field there, returns page_len and sets field to all zero.
 * Leaves   the page unchanged.
 * Stack    32 bytes; AArch64 0
 * A walk visits each field once. End it when field[0] is PBEAM_FOUND_NONE, not by comparing the cursor with page_len:
 *
 *     uint64_t field[PBEAM_FIELD_WORDS];
 *     size_t cursor = pbeam_field_start(page, page_len, view);
 *     for (;;) {
 *         cursor = pbeam_field_next(page, page_len, cursor, field);
 *         if (field[PBEAM_FIELD_WORD_FOUND] == PBEAM_FOUND_NONE)
 *             break;
 *         if (field[PBEAM_FIELD_WORD_FOUND] == PBEAM_FOUND_VALUE)
 *             use(field[PBEAM_FIELD_WORD_TAG], page + field[PBEAM_FIELD_WORD_OFFSET], field[PBEAM_FIELD_WORD_LENGTH]);
 *     }
 *
 * Any other cursor is taken as the offset of a field. Nothing outside the page is read, but any byte of the page, including a withdrawn value,
 * may be returned as a tag or a length, and tags 1 to 3 may appear with any length and more than once. Pass a cursor only to this function:
 * it is not the offset of a value.
 */
PBEAM_MUST_CHECK PBEAM_NONNULL(4)
size_t pbeam_field_next(const uint8_t *page, size_t page_len, size_t cursor, uint64_t field[PBEAM_RESTRICT_WORDS PBEAM_FIELD_WORDS]);

/*
 * pbeam_kept_for: the number of bytes at the page's start that the manifest takes. Pass it to pbeam_cold_boot as kept bytes, and no
 *          command overwrites the manifest.
 * Takes    a page, and the view that pbeam_read made of it as PBEAM_EDITION_LAST.
 * Returns  the highest end of the core, of the arrays and of the fields with their end mark, as an offset in the page, rounded up to a
 *          multiple of 8: from 16 to 4,096. For a forged view: the core is that of its edition, where 0 counts as 1 and a number above
 *          4 as 4, and entries that are not within 4,096 bytes do not count. Fields that are broken, that are not in the lent page or
 *          that end above 4,096 count as 4,096, for any page_len; so the result is never above 4,096.
 * Leaves   page and view unchanged.
 * Stack    64 bytes; AArch64 0
 * With this number of kept bytes pbeam_read returns the same code and the same view after any commands, for the edition that the view was
 * read as (proved).
 */
PBEAM_NONNULL(3)
uint64_t pbeam_kept_for(const uint8_t *page, size_t page_len, const uint64_t view[PBEAM_VIEW_WORDS]);

/*
 * pbeam_listing: what a page shows, as text: a line for version and edition, one for plat_data, one for each field, and for each section its
 *          number of entries with a line for each entry, or that it is absent.
 * Takes    the page, base and edition as pbeam_read, and a buffer for the text.
 * Returns  the length of the whole text, even if it does not fit: if it is above text_len, the text was cut. It is never above
 *          PBEAM_LISTING_ROOM (proved), so a buffer of that length holds any text.
 * Leaves   the page unchanged. text: ASCII from its first byte, each line ended by '\n', no '\0' at the end; as much as fits. Bytes
 *          after the text are unchanged. For a refused page the text is one line, "refused -5", "refused -6" or
 *          "refused -7", with the code of pbeam_read.
 * Stack    640 bytes; AArch64 704
 * A field is its tag and the length of its value in decimal, and each byte of the value as two lower-case hex digits, separated by blanks;
 * the withdrawn one is "3 withdrawn".
 * A word is 0x and 16 lower-case hex digits, a console's name 16 such digits without 0x for its 8 bytes in order; the flags of a
 * console are 0 on a page of minor 5 or above, as for pbeam_word. No byte of the page is copied to the text, so it is safe
 * to print.
 */
PBEAM_MUST_CHECK
size_t pbeam_listing(const uint8_t *page, size_t page_len, uint64_t base, uint64_t edition, uint8_t *PBEAM_RESTRICT text, size_t text_len);

/*
 * pbeam_write: writes a manifest page.
 * Takes    B = base, the edition, four lists of entries as words (PBEAM_BANK_WORDS for a bank or region, PBEAM_CONSOLE_WORDS for a
 *          console; each length counts words), the bytes of the fields of the platform data, without an end mark
 *          (fields_len counts bytes), and the page.
 * Returns  PBEAM_WRITE_PAGE, or by the first check that fails:
 *          PBEAM_WRITE_W1_PLACE    page not 4,096 bytes long; B zero, not a multiple of 4,096, or above PBEAM_BASE_MOST
 *          PBEAM_WRITE_W2_EDITION  edition not 1 to 4
 *          PBEAM_WRITE_W3_LISTS    in any of the four lists: the length is not a whole number of entries, or an entry breaks its rule;
 *                                  a field is cut short, has tag 0, the withdrawn tag 3, or a length that tag 1 or 2 may not have, or
 *                                  is the second with tag 1 or 2
 *          PBEAM_WRITE_W4_LATE     a list for a section after the edition is not empty
 *          PBEAM_WRITE_W5_ROOM     core and arrays, and fields with their end mark if there are any, exceed 4,096 bytes
 * Leaves   the whole page written: version, the sections, the arrays directly after the core in section order, then the fields with their
 *          end mark and plat_data pointing at them, or plat_data 0 without fields; zero everywhere else. An empty list becomes a section
 *          of 24 zero bytes. Refused, the page is unchanged. Lists and fields are unchanged.
 * Stack    416 bytes; AArch64 768
 */
PBEAM_MUST_CHECK
uint32_t pbeam_write(uint64_t base, uint64_t edition, const uint64_t *dram, size_t dram_len, const uint64_t *console, size_t console_len,
                     const uint64_t *ncoh, size_t ncoh_len, const uint64_t *coh, size_t coh_len, const uint8_t *fields, size_t fields_len,
                     uint8_t *PBEAM_RESTRICT page, size_t page_len);

/* ---- Boot ---- */

/*
 * pbeam_cold_boot: the first boot after a reset.
 * Takes    the boot record; x0 the CPU, x1 the version offered, x2 the number of CPUs, x3 = B; max_cpus, the monitor's maximum of CPUs; K = kept,
 *          the number of bytes at the page's start that no command may write (0, or the result of pbeam_kept_for); the page at B,
 *          which is read as PBEAM_EDITION_LAST.
 * Returns  PBEAM_BOOT_DONE, or by the first check that fails:
 *          PBEAM_BOOT_STATE        record not fresh
 *          PBEAM_BOOT_VERSION      x1 above 32 bits; bit 31 set, major not 0, or minor 0
 *          PBEAM_BOOT_CPUS         x2 above max_cpus
 *          PBEAM_BOOT_CPU          x0 not below x2; so always if x2 is 0
 *          PBEAM_MANIFEST_PLACE    K above 4,096
 *          PBEAM_MANIFEST_PLACE, PBEAM_MANIFEST_VERSION, PBEAM_MANIFEST_RULES  as pbeam_read
 * Leaves   the page unchanged. state: up, with x2, B, the agreed minor and K; refused: closed, permanently.
 * Stack    352 bytes; AArch64 480
 * The boot keeps no view. With K = 0 call pbeam_read before a command writes into the page. K need not cover the manifest; with K =
 * 4,096 every buffer is outside.
 * EL3 holds its lock for the call, and marks the CPU as booting under it.
 */
PBEAM_MUST_CHECK PBEAM_NONNULL(1)
int32_t pbeam_cold_boot(uint64_t state[PBEAM_RESTRICT_WORDS PBEAM_STATE_WORDS], uint64_t x0, uint64_t x1, uint64_t x2, uint64_t x3,
                        uint64_t max_cpus, uint64_t kept, const uint8_t *page, size_t page_len);

/*
 * pbeam_warm_boot: a CPU's boot after the cold boot.
 * Takes    the boot record; x0 the CPU. x1 to x3 are ignored.
 * Returns  PBEAM_BOOT_DONE, or by the first check that fails:
 *          PBEAM_BOOT_STATE        record not up
 *          PBEAM_BOOT_CPU          x0 not below the cold boot's x2
 * Leaves   state: up and unchanged; refused: closed, permanently. A CPU may warm boot twice.
 * Stack    32 bytes; AArch64 32
 * EL3 holds its lock for the call, and marks the CPU as booting under it: commands on other CPUs read the record, and another CPU
 * may be about to close it.
 */
PBEAM_MUST_CHECK PBEAM_NONNULL(1)
int32_t pbeam_warm_boot(uint64_t state[PBEAM_STATE_WORDS], uint64_t x0, uint64_t x1, uint64_t x2, uint64_t x3);

/*
 * pbeam_close: closes the record permanently, from any state. EL3 calls it when the monitor reports that its boot failed.
 * Leaves   state: closed.
 * Stack    32 bytes; AArch64 0
 * EL3 holds its lock while it checks that RMM_BOOT_COMPLETE comes from a booting CPU and that the record is up, compares all 64 bits of x1
 * with 0, and calls this function.
 */
PBEAM_NONNULL(1)
void pbeam_close(uint64_t state[PBEAM_STATE_WORDS]);

/* ---- Versions. A version is a number: minor in bits 0 to 15, major in bits 16 to 30, so 0.10 (0x0A) is later than 0.9. ---- */

/*
 * pbeam_version_accepted: whether a version is accepted, for the boot interface and for the manifest: major 0, minor 1 or more, and no bit
 *          above bit 30 set.
 * Stack    32 bytes; AArch64 0
 */
bool pbeam_version_accepted(uint64_t version);

/*
 * pbeam_agreed_minor: the agreed interface minor for an offered version: min(5, its minor).
 * Stack    32 bytes; AArch64 0
 * It uses only bits 0 to 15 of any number: it also returns 1 to 5 for a version with another major, and 0 for minor 0.
 * Call pbeam_version_accepted first.
 */
uint64_t pbeam_agreed_minor(uint64_t version);

/*
 * pbeam_is_later: whether version a is later than version b.
 * Stack    32 bytes; AArch64 0
 * It compares any two numbers as 64 bits: a number that is not a version, for example one above 32 bits, is later than every version
 * below it. Call pbeam_version_accepted first.
 */
bool pbeam_is_later(uint64_t a, uint64_t b);

/* ---- Runtime commands. A buffer is `size` bytes at physical address pa. It is outside if pa is not in [B + K, B + 4,096), and too long if
 * size exceeds B + 4,096 - pa. B, K (the number of kept bytes) and the agreed minor are those of the boot record. ---- */

/*
 * pbeam_set_up_granules: makes the granule record from the banks of a manifest. Call it once, before the first command that takes the record.
 * Takes    the words of the record; the banks' bytes (PBEAM_BANK_BYTES for each bank), at the place in the page that pbeam_array or
 *          pbeam_array_of gives for PBEAM_DRAM; and the length of the granule table.
 * Returns  PBEAM_X0_OK, or PBEAM_X0_INVAL if there is no bank, a part of a bank or more than PBEAM_GRANULES_BANKS_MOST banks; if a bank
 *          breaks the reader's rule (base and size multiples of 4,096, size not 0, base + size at most 2^52); if a bank starts before the
 *          end of the one before it (they may touch); or if table_len is not the sum of the sizes / PBEAM_GRANULE_BYTES.
 * Leaves   on OK the record, with 0 in the words after its last bank. With PBEAM_X0_INVAL the words are unchanged.
 * Stack    352 bytes; AArch64 352
 * It needs no boot record and keeps no pointer: the page may be overwritten afterwards. The reader accepts more than this: banks in any order,
 * overlapping ones, up to 249. Such a board has no record, and its commands answer PBEAM_X0_BAD_ADDR.
 * It copies the banks before it judges them: if the page changes during the call, the record still has only banks that were judged.
 * EL3 holds its lock for the call, if another CPU runs: a delegation there reads the record.
 */
PBEAM_MUST_CHECK PBEAM_NONNULL(1)
uint64_t pbeam_set_up_granules(uint64_t granules[PBEAM_RESTRICT_WORDS PBEAM_GRANULES_WORDS], const uint8_t *banks, size_t banks_len,
                               uint64_t table_len);

/*
 * pbeam_delegate (0xC40001B0): changes a granule from Non-secure to Realm.
 * Takes    the boot record, the granule record, the granule table, the Realm words, and the granule's address.
 * Answers  out: x0 PBEAM_X0_OK, or by the first check that fails:
 *          PBEAM_X0_INVAL     words_len is not ceil(granules of the record / 64), which is 0 for a record without granules
 *          PBEAM_X0_UNK       record not up
 *          PBEAM_X0_BAD_ADDR  address not a multiple of 4,096, or on no granule of the record's banks; any address if the granule record
 *                             has no granules, or table_len is not the number of the record's granules
 *          PBEAM_X0_BAD_PAS   the granule's byte is not PBEAM_GRANULE_NON_SECURE
 * Leaves   on OK that byte PBEAM_GRANULE_REALM and its bit in the words set; every other byte and bit is unchanged. Refused, table and
 *          words are unchanged.
 * Stack    160 bytes; AArch64 64
 * The library updates table and words. Changing the hardware after an OK is up to the platform.
 * One lock spans the call and the change in hardware. Otherwise another CPU undelegates the granule in between, and the hardware ends as
 * Realm where the table is Non-secure.
 */
PBEAM_NONNULL(1, 2, 8)
void pbeam_delegate(const uint64_t state[PBEAM_STATE_WORDS], const uint64_t granules[PBEAM_GRANULES_WORDS], uint8_t *PBEAM_RESTRICT table,
                    size_t table_len, uint64_t *PBEAM_RESTRICT words, size_t words_len, uint64_t address,
                    uint64_t out[PBEAM_RESTRICT_WORDS PBEAM_OUT_WORDS]);

/*
 * pbeam_undelegate (0xC40001B1): changes a granule from Realm to Non-secure.
 * As pbeam_delegate, with PBEAM_X0_BAD_PAS if the byte is not PBEAM_GRANULE_REALM; on OK it becomes PBEAM_GRANULE_NON_SECURE, and its
 * bit is cleared. Before that check address B, the shared page, is PBEAM_X0_BAD_ADDR for any byte: it must stay Realm.
 * Stack    192 bytes; AArch64 64
 * One lock spans the call and the change in hardware, as for pbeam_delegate.
 */
PBEAM_NONNULL(1, 2, 8)
void pbeam_undelegate(const uint64_t state[PBEAM_STATE_WORDS], const uint64_t granules[PBEAM_GRANULES_WORDS], uint8_t *PBEAM_RESTRICT table,
                      size_t table_len, uint64_t *PBEAM_RESTRICT words, size_t words_len, uint64_t address,
                      uint64_t out[PBEAM_RESTRICT_WORDS PBEAM_OUT_WORDS]);

/*
 * pbeam_delegate_list: changes the granules at a list of addresses from Non-secure to Realm, one after another, up to the first
 *          that is refused. It has no function id: which call of the monitor passes a list is up to the platform.
 * Takes    what pbeam_delegate takes, with a list of addresses (of any length, also 0) in place of one address.
 * Answers  out: x0 PBEAM_X0_OK, or the code that pbeam_delegate gives for the address that is refused; x1 the number of granules changed,
 *          also when x0 is a refusal: so x1 is the index of the refused address. x2 is 0. The check of words_len (PBEAM_X0_INVAL) comes
 *          first, also for an empty list; after it an empty list is OK with x1 = 0 for any boot record.
 * Leaves   what x1 single calls leave: the granules before the refused address are Realm and stay so; no other byte or bit changes. An
 *          address that is in the list twice is refused with PBEAM_X0_BAD_PAS the second time.
 * Stack    256 bytes; AArch64 192
 * The library updates table and words. Changing the hardware for the first x1 addresses, also after a refusal, is up to the platform.
 * If the monitor can write the list, copy it into EL3's own memory first, and pass the copy: after the library EL3 reads the first x1
 * addresses again, for the hardware. In shared memory they can be others by then, which the table never allowed.
 * One lock spans the copy, the call and the changes in hardware.
 */
PBEAM_NONNULL(1, 2, 9)
void pbeam_delegate_list(const uint64_t state[PBEAM_STATE_WORDS], const uint64_t granules[PBEAM_GRANULES_WORDS],
                         uint8_t *PBEAM_RESTRICT table, size_t table_len, uint64_t *PBEAM_RESTRICT words, size_t words_len,
                         const uint64_t *addresses, size_t addresses_len, uint64_t out[PBEAM_RESTRICT_WORDS PBEAM_OUT_WORDS]);

/*
 * pbeam_undelegate_list: the same from Realm to Non-secure, each address as pbeam_undelegate takes it.
 * Stack    256 bytes; AArch64 192
 * Copy and lock as for pbeam_delegate_list.
 */
PBEAM_NONNULL(1, 2, 9)
void pbeam_undelegate_list(const uint64_t state[PBEAM_STATE_WORDS], const uint64_t granules[PBEAM_GRANULES_WORDS],
                           uint8_t *PBEAM_RESTRICT table, size_t table_len, uint64_t *PBEAM_RESTRICT words, size_t words_len,
                           const uint64_t *addresses, size_t addresses_len, uint64_t out[PBEAM_RESTRICT_WORDS PBEAM_OUT_WORDS]);

/* ---- Realm words: one bit for each byte of the granule table. Granule i is bit i mod 64 of word i / 64, set if its byte is
 * PBEAM_GRANULE_REALM; the spare bits of the last word are 0. There are ceil(granules of the record / 64) words; with any other number
 * the four functions below return PBEAM_X0_INVAL, and delegation answers it. If words and table agree, they agree after any delegation;
 * pbeam_realm_build makes them agree. The four functions do not take the boot record. EL3 holds its lock for each of them: a delegation on
 * another CPU writes table and words. ---- */

/*
 * pbeam_realm_count: the number of Realm granules. It reads only the words, so a board does not stall while the table is scanned.
 * Takes    the granule record, the words, and a word for the number.
 * Returns  PBEAM_X0_OK with the number, or PBEAM_X0_INVAL with 0. Set spare bits are not counted.
 * Stack    64 bytes; AArch64 0
 */
PBEAM_MUST_CHECK PBEAM_NONNULL(1, 4)
uint64_t pbeam_realm_count(const uint64_t granules[PBEAM_GRANULES_WORDS], const uint64_t *words, size_t words_len,
                           uint64_t number[PBEAM_RESTRICT_WORDS 1]);

/*
 * pbeam_realm_next: the first Realm granule at or after an index. It reads only the words and stops at the first hit.
 * Takes    the granule record, the words, the index to start at, and a word for the index found.
 * Returns  PBEAM_X0_OK with the index; PBEAM_REALM_NONE with 0 if there is no such granule; PBEAM_X0_INVAL with 0, also for an index that is
 *          not below the number of granules. To visit all: start at 0, then at the index found + 1, while that is below this number.
 * Stack    64 bytes; AArch64 0
 */
PBEAM_MUST_CHECK PBEAM_NONNULL(1, 5)
uint64_t pbeam_realm_next(const uint64_t granules[PBEAM_GRANULES_WORDS], const uint64_t *words, size_t words_len, uint64_t index,
                          uint64_t found[PBEAM_RESTRICT_WORDS 1]);

/*
 * pbeam_realm_agrees: whether words and table agree, including the spare bits. It reads the whole table.
 * Takes    the granule record, the granule table and the words.
 * Returns  PBEAM_X0_OK if they agree, PBEAM_REALM_DIFFER if they differ, or PBEAM_X0_INVAL, also if table_len is not the number of
 *          the record's granules.
 * Stack    128 bytes; AArch64 64
 */
PBEAM_NONNULL(1)
uint64_t pbeam_realm_agrees(const uint64_t granules[PBEAM_GRANULES_WORDS], const uint8_t *table, size_t table_len, const uint64_t *words,
                            size_t words_len);

/*
 * pbeam_realm_build: builds the words from a table. Call it once, before the first command that takes them; the words may hold anything.
 * Takes    the granule record, the granule table and the words.
 * Returns  PBEAM_X0_OK, or PBEAM_X0_INVAL, also if table_len is not the number of the record's granules.
 * Leaves   on OK the words of the table, spare bits 0. With PBEAM_X0_INVAL the words are unchanged.
 * Stack    128 bytes; AArch64 64
 */
PBEAM_MUST_CHECK PBEAM_NONNULL(1)
uint64_t pbeam_realm_build(const uint64_t granules[PBEAM_GRANULES_WORDS], const uint8_t *table, size_t table_len,
                           uint64_t *PBEAM_RESTRICT words, size_t words_len);

/*
 * pbeam_realm_key (0xC40001B2): the realm attestation key.
 * Takes    the boot record, the page, the platform's key (empty if it has no key), pa, size and curve.
 * Answers  out: x0 PBEAM_X0_OK with x1 the key's length, or by the first check that fails:
 *          PBEAM_X0_UNK       record not up; page not 4,096 bytes long
 *          PBEAM_X0_BAD_ADDR  outside
 *          PBEAM_X0_INVAL     too long; curve not PBEAM_CURVE_SECP384R1
 *          PBEAM_X0_UNK       key empty, or longer than size
 * Leaves   on OK the key's bytes at pa; every other byte of the page is unchanged. Refused, the page is unchanged.
 * Stack    96 bytes; AArch64 64
 * EL3 holds its lock for the call: a boot or pbeam_close on another CPU writes the record, and the platform may change its key.
 */
PBEAM_NONNULL(1, 9)
void pbeam_realm_key(const uint64_t state[PBEAM_STATE_WORDS], uint8_t *PBEAM_RESTRICT page, size_t page_len, const uint8_t *key,
                     size_t key_len, uint64_t pa, uint64_t size, uint64_t curve, uint64_t out[PBEAM_RESTRICT_WORDS PBEAM_OUT_WORDS]);

/*
 * pbeam_platform_token (0xC40001B3): the next hunk of the platform token.
 * Takes    the boot record, the session, the page, the token (the same at each call from a start to the session's end; empty if the
 *          platform has no token), busy (not 0 while the platform cannot serve), pa, size, and c_size: the challenge's size starts a
 *          session, also in mid-session; PBEAM_CHALLENGE_NONE continues one.
 * Answers  out: x0 PBEAM_X0_OK with x1 = min(size, bytes left), the length of the hunk, and x2 the rest after it, or by the first check
 *          that fails:
 *          PBEAM_X0_UNK       record not up; page not 4,096 bytes long
 *          PBEAM_X0_AGAIN     busy
 *          PBEAM_X0_BAD_ADDR  outside
 *          PBEAM_X0_INVAL     too long; c_size not 0, 32, 48 or 64; c_size above size; c_size 0 with no session
 *          PBEAM_X0_UNK       token empty; c_size 0 and token_len differs from that at the start
 * Leaves   on OK the hunk, the token's next bytes, at pa; every other byte of the page is unchanged. session: idle after rest 0,
 *          otherwise sending. Refused, page and session are unchanged.
 * Stack    128 bytes; AArch64 96
 * The hunk overwrites the challenge: call pbeam_challenge first. Size 0 with c_size 0 in a session is OK and delivers nothing.
 * One lock spans pbeam_challenge, the copy of the challenge, the choice of the token and this call: there is one session for all CPUs.
 */
PBEAM_NONNULL(1, 2, 11)
void pbeam_platform_token(const uint64_t state[PBEAM_STATE_WORDS], uint64_t session[PBEAM_RESTRICT_WORDS PBEAM_SESSION_WORDS],
                          uint8_t *PBEAM_RESTRICT page, size_t page_len, const uint8_t *token, size_t token_len, uint64_t busy, uint64_t pa,
                          uint64_t size, uint64_t csize, uint64_t out[PBEAM_RESTRICT_WORDS PBEAM_OUT_WORDS]);

/*
 * pbeam_challenge: the place of the challenge, from which the platform makes its token.
 * Takes    the boot record, the page, and pa, size and c_size of the start.
 * Returns  PBEAM_X0_OK, with offset and length in the page of the c_size bytes at pa as place; (0, 0) if c_size is 0, which is no start. Or
 *          place (0, 0) and, by the first check that fails:
 *          PBEAM_X0_UNK       record not up; page not 4,096 bytes long
 *          PBEAM_X0_BAD_ADDR  outside
 *          PBEAM_X0_INVAL     too long; c_size not 0, 32, 48 or 64, or above size
 * Leaves   the page unchanged.
 * Stack    32 bytes; AArch64 32
 * Make a token only if the result is PBEAM_X0_OK and place is not (0, 0): any other call is no start, or will be refused with that code.
 * This function does not check whether the platform is busy.
 * Copy the challenge from its place into EL3's own memory, once, and use only the copy. In the page the monitor on another CPU can change it
 * after EL3 has compared it with an earlier one and before EL3 makes the token. Hold the lock from this function to the end of the command.
 */
PBEAM_NONNULL(1, 7)
uint64_t pbeam_challenge(const uint64_t state[PBEAM_STATE_WORDS], const uint8_t *page, size_t page_len, uint64_t pa, uint64_t size,
                         uint64_t csize, uint64_t place[PBEAM_RESTRICT_WORDS PBEAM_PLACE_WORDS]);

/*
 * pbeam_features (0xC40001B4): the feature register.
 * Takes    the boot record and the register's index.
 * Answers  out: x0 PBEAM_X0_OK with x1 = PBEAM_FEATURE_TOKEN_SIGNING, or by the first check that fails:
 *          PBEAM_X0_UNK       record not up
 *          PBEAM_X0_INVAL     index not PBEAM_FEATURES_INDEX
 *          PBEAM_X0_UNK       agreed minor below PBEAM_SIGNING_MINOR
 * Stack    32 bytes; AArch64 0
 * EL3 holds its lock for the call: a boot or pbeam_close on another CPU writes the record.
 */
PBEAM_NONNULL(1, 3)
void pbeam_features(const uint64_t state[PBEAM_STATE_WORDS], uint64_t index, uint64_t out[PBEAM_RESTRICT_WORDS PBEAM_OUT_WORDS]);

/*
 * pbeam_token_signing (0xC40001B5): pushes a request, pulls a response, or gets the public key.
 * Takes    the boot record, the queue, the page, the public key (empty while it is not ready), opcode, pa, size and curve.
 * Answers  out: x0 PBEAM_X0_OK, with x1 the key's length for PBEAM_OPCODE_KEY, or by the first check that fails:
 *          PBEAM_X0_UNK       record not up; page not 4,096 bytes long
 *          PBEAM_X0_INVAL     opcode not 1 to 3; outside (here no BAD_ADDR); too long; PBEAM_OPCODE_KEY with curve not PBEAM_CURVE_SECP384R1
 *          PBEAM_X0_UNK       agreed minor below PBEAM_SIGNING_MINOR
 *          push: PBEAM_X0_INVAL  size below PBEAM_REQUEST_BYTES; algorithm id not PBEAM_ALGORITHM_SECP384R1; hash id not PBEAM_HASH_SHA2_384
 *          push: PBEAM_X0_AGAIN  eight requests waiting
 *          pull: PBEAM_X0_AGAIN  no response
 *          pull: PBEAM_X0_INVAL  the response is longer than size; it is kept
 *          key:  PBEAM_X0_AGAIN  key empty
 *          key:  PBEAM_X0_INVAL  key longer than size
 * Leaves   on OK: push: the request after the other waiting ones, the page unchanged; pull: the oldest response at pa, and removed
 *          from the queue; key: the key at pa, the queue unchanged. Every other byte of the page is unchanged. Refused, page and queue are
 *          unchanged.
 * Stack    224 bytes; AArch64 288
 * EL3 holds its lock for the call: the signer's side writes the queue.
 */
PBEAM_NONNULL(1, 2, 11)
void pbeam_token_signing(const uint64_t state[PBEAM_STATE_WORDS], uint64_t queue[PBEAM_RESTRICT_WORDS PBEAM_QUEUE_WORDS],
                         uint8_t *PBEAM_RESTRICT page, size_t page_len, const uint8_t *key, size_t key_len, uint64_t opcode, uint64_t pa,
                         uint64_t size, uint64_t curve, uint64_t out[PBEAM_RESTRICT_WORDS PBEAM_OUT_WORDS]);

/*
 * pbeam_key_update (0xC40001B6): a new key for a mecid.
 * Takes    the boot record, width = MECIDR_EL2.MECIDWidthm1 (m), and the mecid.
 * Answers  out: x0 PBEAM_X0_OK with work (PBEAM_WORK_REPROGRAM, mecid), or by the first check that fails:
 *          PBEAM_X0_UNK       record not up
 *          PBEAM_X0_INVAL     mecid above PBEAM_MECID_MOST, or above 2^(min(m, 15) + 1) - 1
 *          PBEAM_X0_UNK       m above PBEAM_WIDTH_MOST; agreed minor below PBEAM_KEY_UPDATE_MINOR
 *          Refused, work is (PBEAM_WORK_NOTHING, 0).
 * Stack    32 bytes; AArch64 0
 * The library makes no key: the platform does, if work is PBEAM_WORK_REPROGRAM. One lock spans the call and the making of the key.
 */
PBEAM_NONNULL(1, 4, 5)
void pbeam_key_update(const uint64_t state[PBEAM_STATE_WORDS], uint64_t width, uint64_t mecid,
                      uint64_t out[PBEAM_RESTRICT_WORDS PBEAM_OUT_WORDS], uint64_t work[PBEAM_RESTRICT_WORDS PBEAM_WORK_WORDS]);

/*
 * pbeam_forward (0xC400018F): the error code of an RMI call, for the Non-secure world.
 * Takes    the boot record, which may be in any state, and x1.
 * Returns  err_code, which is x1. The library never refuses it.
 * Stack    32 bytes; AArch64 0
 * EL3 holds its lock while it checks that the boot of this CPU is complete, and calls this function. If it is not complete, EL3 answers
 * PBEAM_X0_UNK ("0xC400018F" at the head of this file).
 */
PBEAM_MUST_CHECK PBEAM_NONNULL(1)
uint64_t pbeam_forward(const uint64_t state[PBEAM_STATE_WORDS], uint64_t x1);

/* ---- The signer's side: these are not commands of the interface, and they do not take the boot record ---- */

/*
 * pbeam_sign: turns the oldest request into the newest response.
 * Takes    the queue, and the signature of its oldest request.
 * Answers  out: x0 PBEAM_X0_OK, or by the first check that fails:
 *          PBEAM_X0_INVAL     signature not 1 to PBEAM_SIGNATURE_BYTES_MOST bytes long
 *          PBEAM_X0_AGAIN     no request
 *          PBEAM_X0_AGAIN     eight responses waiting; the request is kept
 * Leaves   on OK the queue with one request less and one response more: rec_granule and req_ticket of the request, and the signature.
 *          Refused, the queue is unchanged.
 * Stack    224 bytes; AArch64 320
 * One lock spans pbeam_oldest, the making of the signature and this call. With a lock around each alone, two signers get the same request;
 * the second signature goes to the next ticket, whose hash it is not for, and both calls are OK. If there is only one signer, it may
 * release the lock while it makes the signature: only this function removes a request.
 */
PBEAM_NONNULL(1, 4)
void pbeam_sign(uint64_t queue[PBEAM_RESTRICT_WORDS PBEAM_QUEUE_WORDS], const uint8_t *signature, size_t signature_len,
                uint64_t out[PBEAM_RESTRICT_WORDS PBEAM_OUT_WORDS]);

/*
 * pbeam_oldest: the oldest request.
 * Takes    the queue.
 * Returns  the number of waiting requests, with all fields of the oldest in request; 0 with request all zero if no request waits.
 * Leaves   the queue unchanged: the request waits until pbeam_sign removes it.
 * Stack    32 bytes; AArch64 0
 * EL3 holds its lock from here to the end of pbeam_sign.
 */
PBEAM_MUST_CHECK PBEAM_NONNULL(1, 2)
size_t pbeam_oldest(const uint64_t queue[PBEAM_QUEUE_WORDS], uint64_t request[PBEAM_RESTRICT_WORDS PBEAM_REQUEST_WORDS]);

/*
 * pbeam_responses: the number of responses that wait for a pull.
 * Leaves   the queue unchanged.
 * Stack    32 bytes; AArch64 0
 * EL3 holds its lock for the call: a pull on another CPU writes the queue.
 */
PBEAM_NONNULL(1)
size_t pbeam_responses(const uint64_t queue[PBEAM_QUEUE_WORDS]);

/* ---- Dispatcher ---- */

/*
 * pbeam_call: runs the command of a function id.
 * Takes    the boot record, session, queue and page; the granule record, the granule table and the Realm words; the realm key;
 *          the platform token and the busy flag; the public key of token signing; width = MECIDWidthm1; and call, the registers:
 *            PBEAM_ID_FORWARD x1 err_code; PBEAM_ID_DELEGATE, PBEAM_ID_UNDELEGATE x1 address; PBEAM_ID_REALM_KEY x1 pa, x2 size, x3 curve;
 *            PBEAM_ID_PLATFORM_TOKEN x1 pa, x2 size, x3 c_size; PBEAM_ID_FEATURES x1 index; PBEAM_ID_TOKEN_SIGNING x1 opcode, x2 pa, x3 size,
 *            x4 curve; PBEAM_ID_KEY_UPDATE x1 mecid.
 *          What a command does not need may have any content, and a slice may be empty.
 * Answers  out and work of the command. PBEAM_ID_FORWARD: out all zero, work (PBEAM_WORK_FORWARD, err_code), for any boot record. An id
 *          that is not listed: PBEAM_X0_UNK. Every command except PBEAM_ID_FORWARD: PBEAM_X0_UNK while the record is not up. Only
 *          PBEAM_ID_DELEGATE and PBEAM_ID_UNDELEGATE use the words, and check words_len before the record.
 * Leaves   what the command leaves; everything else is unchanged. Only PBEAM_ID_PLATFORM_TOKEN reads or writes the session, only
 *          PBEAM_ID_TOKEN_SIGNING the queue.
 * Stack    480 bytes with PBEAM_ID_TOKEN_SIGNING, 448 bytes with any other id; AArch64 480
 * One lock spans what EL3 copies before the call, the call, and what the hardware must do after it ("One lock" at the head of this file).
 */
PBEAM_NONNULL(1, 2, 3, 6, 19, 20, 21)
void pbeam_call(const uint64_t state[PBEAM_STATE_WORDS], uint64_t session[PBEAM_RESTRICT_WORDS PBEAM_SESSION_WORDS],
                uint64_t queue[PBEAM_RESTRICT_WORDS PBEAM_QUEUE_WORDS], uint8_t *PBEAM_RESTRICT page, size_t page_len,
                const uint64_t granules[PBEAM_GRANULES_WORDS], uint8_t *PBEAM_RESTRICT table, size_t table_len,
                uint64_t *PBEAM_RESTRICT words, size_t words_len, const uint8_t *key, size_t key_len, const uint8_t *token,
                size_t token_len, uint64_t busy, const uint8_t *public_key, size_t public_len, uint64_t width,
                const uint64_t call[PBEAM_CALL_WORDS], uint64_t out[PBEAM_RESTRICT_WORDS PBEAM_OUT_WORDS],
                uint64_t work[PBEAM_RESTRICT_WORDS PBEAM_WORK_WORDS]);

#ifdef __cplusplus
}
#endif

#endif

/* The version of the archive: see potterbeam_common.h. This is outside the guard, because potterbeam_pages.h includes this header for its
 * names only: a program that includes it itself gets the check then. */
#if !defined(POTTERBEAM_NAMES_ONLY) && !defined(POTTERBEAM_LINKS)
#define POTTERBEAM_LINKS
PBEAM_LINKS(pbeam_version);
#endif
