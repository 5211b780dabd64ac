/*
 * Potterbeam manifest pages, packed and mended, for C11 and C++11 or later. Link with libpotterbeam_pages.a.
 *
 * For tools on a host: for manually edited pages, and for field staff with a damaged page. No boot and no runtime command needs them, so
 * they are in a library separate from libpotterbeam.a. A program that calls only the functions below links only this library; one that
 * also reads or writes pages links both, in any order.
 *
 * The reader's codes and the type of a page are those of potterbeam.h and potterbeam_types.h, which this header includes. Define
 * PBEAM_NO_002_NAMES before it if 002's own names are already defined.
 *
 * For both functions, as for those of potterbeam.h:
 *
 * - It accepts any number and page. No value is forbidden; every call returns, and reads and writes only what it is lent. The
 *   library allocates nothing and keeps nothing between calls. It needs only memcpy, memmove and memset.
 * - A page is a pointer and a count of bytes; the pointer may be NULL only if the count is 0. `changed` is never NULL. A page needs no
 *   alignment in memory; words (uint64_t) have C's alignment.
 * - page, target and changed must not overlap. There is no lock: use one page in one call at a time. The page must stay still during a
 *   call: otherwise the call stays inside lent memory (tested), but target or page may be one that no reader accepts.
 * - The first check that fails decides the answer. The checks are listed below in their order.
 * - size_t has 64 bits, which the header asserts: the archives are for x86-64 and AArch64 (LP64).
 * - "Stack" is the most that a call was seen to write on x86-64, and after "AArch64" a static bound of the archive that tools/aarch64
 *   builds; both with the words that its caller passes on the stack, rounded up to a multiple of 32 (docs/STACK.md).
 */
#ifndef POTTERBEAM_PAGES_H
#define POTTERBEAM_PAGES_H

#include <stdbool.h>
#include <stddef.h>
#include <stdint.h>

/* For its names and types: no reference to libpotterbeam.a. A program that also reads or writes pages includes potterbeam.h or
 * potterbeam_types.h itself, before or after this header, so that the version of that archive is checked, too. */
#define POTTERBEAM_NAMES_ONLY
#include "potterbeam_types.h"
#undef POTTERBEAM_NAMES_ONLY

/* The version of the archive: see potterbeam_common.h. */
PBEAM_LINKS(pbeam_pages_version);

/* ---- Answers ---- */

/* Packer, int32_t: 0, W1 for the target, or the reader's three codes for the page. */
#define PBEAM_PACK_PAGE 0      /* the target is the packed page */
#define PBEAM_PACK_W1_TARGET 1 /* the target is not 4,096 bytes long */

/* Mender, int32_t: 0, or PBEAM_MANIFEST_PLACE or PBEAM_MANIFEST_VERSION. */
#define PBEAM_MEND_DONE 0 /* a reader accepts the page */

/* What the mender did: a word for each part of a page, in the order in which it checks them. */
#define PBEAM_MEND_WORDS 6
#define PBEAM_MEND_PADDING 0
#define PBEAM_MEND_PLAT_DATA 1 /* the pointer, and the fields with it */
#define PBEAM_MEND_DRAM 2      /* section k is word PBEAM_MEND_DRAM + k */
#define PBEAM_MEND_CONSOLE 3
#define PBEAM_MEND_NCOH 4
#define PBEAM_MEND_COH 5
#define PBEAM_MEND_KEPT 0    /* the part is unchanged */
#define PBEAM_MEND_CHANGED 1 /* it broke a rule or overlapped a part kept before it, and is zero now */

#ifdef __cplusplus
extern "C" {
#endif

/*
 * pbeam_pack: writes what a page shows to another page, without holes and without the withdrawn field.
 * Takes    the page at B = base, and the target: another page, for the same B.
 * Returns  PBEAM_PACK_PAGE, or by the first check that fails:
 *          PBEAM_MANIFEST_PLACE, PBEAM_MANIFEST_VERSION, PBEAM_MANIFEST_RULES  as pbeam_read of the page as PBEAM_EDITION_LAST
 *          PBEAM_MANIFEST_VERSION  the page's minor is 5 or above
 *          PBEAM_PACK_W1_TARGET    target not 4,096 bytes long
 * Leaves   the page unchanged. target: the page that pbeam_write makes at the page's own minor, from the entries that the page shows and its
 *          fields in page order, without the withdrawn one; so plat_data is 0 if no other field is left. Refused, target is unchanged.
 * Stack    352 bytes; AArch64 384
 * A reader of any edition shows the same for both, except plat_data, the withdrawn field and the offsets of the arrays; packing the target
 * again changes no byte (proved).
 * If another CPU writes the page during the call, no access leaves page or target, but target may then be no valid page: read it again.
 */
PBEAM_MUST_CHECK
int32_t pbeam_pack(const uint8_t *page, size_t page_len, uint64_t base, uint8_t *PBEAM_RESTRICT target, size_t target_len);

/*
 * pbeam_mend: removes what breaks a rule from a damaged page, in place, so that the rest can be read.
 * Takes    the page at B = base. Its edition e is min(PBEAM_EDITION_LAST, its minor).
 * Returns  PBEAM_MEND_DONE, or by the first check that fails:
 *          PBEAM_MANIFEST_PLACE    as pbeam_read
 *          PBEAM_MANIFEST_VERSION  the manifest's version is not accepted, as pbeam_read
 * Leaves   changed: PBEAM_MEND_CHANGED for each part that was changed, PBEAM_MEND_KEPT for the others. Padding that is not zero is
 *          zeroed; plat_data is set to 0 if it, or the fields that it points at, break their rules; a section of e becomes 24 zero bytes
 *          if it breaks a rule by itself, or if its array shares a byte with the fields or an array kept before it, in the order of
 *          the words of changed. Only bytes 4 to 111 are written: arrays and fields that nothing points at stay in the page, and
 *          sections after e are unchanged. Refused, the page is unchanged, and changed is all zero.
 * Stack    288 bytes; AArch64 416
 * Afterwards pbeam_read accepts the page as PBEAM_EDITION_LAST, and shows all that was kept; a page that it accepts before is unchanged,
 * with no part changed (proved).
 */
PBEAM_MUST_CHECK PBEAM_NONNULL(4)
int32_t pbeam_mend(uint8_t *PBEAM_RESTRICT page, size_t page_len, uint64_t base, uint64_t changed[PBEAM_RESTRICT_WORDS PBEAM_MEND_WORDS]);

#ifdef __cplusplus
}
#endif

/* ---- Types, as in potterbeam_types.h: for pages of 4,096 bytes. The library exports nothing below. ---- */

/* The packer's answer. Both pages have 4,096 bytes here, so the target is never refused. */
typedef enum {
    PBEAM_PACKED = PBEAM_PACK_PAGE,
    PBEAM_UNPACKED_PLACE = PBEAM_MANIFEST_PLACE,
    PBEAM_UNPACKED_VERSION = PBEAM_MANIFEST_VERSION, /* not accepted, or of minor 5 or above */
    PBEAM_UNPACKED_RULES = PBEAM_MANIFEST_RULES
} pbeam_packing_t;

/* What the mender changed, part by part. */
typedef struct {
    bool padding;
    bool plat_data; /* the pointer, and the fields with it */
    bool dram;
    bool console;
    bool ncoh;
    bool coh;
} pbeam_changes_t;

/* pbeam_pack: to another page, for the same B. */
PBEAM_MUST_CHECK PBEAM_NONNULL(1, 3)
static inline pbeam_packing_t pbeam_manifest_pack(const pbeam_page_t *page, uint64_t base, pbeam_page_t *PBEAM_RESTRICT target)
{
    return PBEAM_CAST(pbeam_packing_t, pbeam_pack(page->bytes, sizeof page->bytes, base, target->bytes, sizeof target->bytes));
}

/* pbeam_mend: in place. A refused page is unchanged, and all of *changes is false. */
PBEAM_MUST_CHECK PBEAM_NONNULL(1, 3)
static inline int32_t pbeam_manifest_mend(pbeam_page_t *PBEAM_RESTRICT page, uint64_t base, pbeam_changes_t *PBEAM_RESTRICT changes)
{
    uint64_t changed[PBEAM_MEND_WORDS];
    const int32_t code = pbeam_mend(page->bytes, sizeof page->bytes, base, changed);
    changes->padding = changed[PBEAM_MEND_PADDING] != PBEAM_MEND_KEPT;
    changes->plat_data = changed[PBEAM_MEND_PLAT_DATA] != PBEAM_MEND_KEPT;
    changes->dram = changed[PBEAM_MEND_DRAM] != PBEAM_MEND_KEPT;
    changes->console = changed[PBEAM_MEND_CONSOLE] != PBEAM_MEND_KEPT;
    changes->ncoh = changed[PBEAM_MEND_NCOH] != PBEAM_MEND_KEPT;
    changes->coh = changed[PBEAM_MEND_COH] != PBEAM_MEND_KEPT;
    return code;
}

/* Whether any part was changed. */
PBEAM_NONNULL(1)
static inline bool pbeam_changes_any(const pbeam_changes_t *changes)
{
    return changes->padding || changes->plat_data || changes->dram || changes->console || changes->ncoh || changes->coh;
}

/* ---- Answers as text, for a log ---- */

/* A packer's answer. */
static inline const char *pbeam_pack_text(int32_t code)
{
    switch (code) {
    case PBEAM_PACK_PAGE: return "packed";
    case PBEAM_PACK_W1_TARGET: return "W1: the target's length is wrong";
    case PBEAM_MANIFEST_PLACE: return "the page's length or base is wrong";
    case PBEAM_MANIFEST_VERSION: return "the version of the manifest is not accepted, or later than can be written";
    case PBEAM_MANIFEST_RULES: return "the manifest breaks a rule";
    default: return "no packer's answer";
    }
}

/* A mender's answer. */
static inline const char *pbeam_mend_text(int32_t code)
{
    switch (code) {
    case PBEAM_MEND_DONE: return "done";
    case PBEAM_MANIFEST_PLACE: return "the page's length or base is wrong";
    case PBEAM_MANIFEST_VERSION: return "the version of the manifest is not accepted";
    default: return "no mender's answer";
    }
}

#endif
