/*
 * Potterbeam RMM-EL3 kit: types over the words of potterbeam.h, for C11 and C++11 or later. The library exports nothing of this header:
 * each function is `static inline` and calls one of potterbeam.h, or reads and writes what it is lent.
 *
 * Each image has its own type, so the compiler notices a session passed as a queue: an error in C++; in C at least a warning
 * (-Wincompatible-pointer-types), which -Werror makes an error. Banks, regions and consoles are structs, and lists of them are counted in
 * entries. One struct, pbeam_context_t, holds the arguments of pbeam_call.
 *
 * A pointer to an image, a page or a struct is never NULL, unless its comment allows it. Otherwise as in potterbeam.h: any value is accepted.
 */
#include "potterbeam.h" /* before the guard: see its end */

#ifndef POTTERBEAM_TYPES_H
#define POTTERBEAM_TYPES_H

/* ---- 002's own names. Define PBEAM_NO_002_NAMES before this header if the firmware defines them already. ---- */

#define PBEAM_ID_BOOT_COMPLETE UINT64_C(0xC40001CF) /* RMM_BOOT_COMPLETE: the platform serves it; pbeam_call answers PBEAM_X0_UNK */

#ifndef PBEAM_NO_002_NAMES

/* Codes of RMM_BOOT_COMPLETE. 002's unknown error is here a boot on a record in the wrong state. */
#define E_RMM_BOOT_SUCCESS PBEAM_BOOT_DONE
#define E_RMM_BOOT_ERR_UNKNOWN PBEAM_BOOT_STATE
#define E_RMM_BOOT_VERSION_NOT_VALID PBEAM_BOOT_VERSION
#define E_RMM_BOOT_CPUS_OUT_OF_RANGE PBEAM_BOOT_CPUS
#define E_RMM_BOOT_CPU_ID_OUT_OF_RANGE PBEAM_BOOT_CPU
#define E_RMM_BOOT_INVALID_SHARED_BUFFER PBEAM_MANIFEST_PLACE
#define E_RMM_BOOT_MANIFEST_VERSION_NOT_SUPPORTED PBEAM_MANIFEST_VERSION
#define E_RMM_BOOT_MANIFEST_DATA_ERROR PBEAM_MANIFEST_RULES

/* Codes of the runtime commands, as pbeam_registers_code returns them. */
#define E_RMM_OK PBEAM_OK
#define E_RMM_UNK PBEAM_UNK
#define E_RMM_BAD_ADDR PBEAM_BAD_ADDR
#define E_RMM_BAD_PAS PBEAM_BAD_PAS
#define E_RMM_NOMEM (-4) /* never answered */
#define E_RMM_INVAL PBEAM_INVAL
#define E_RMM_AGAIN PBEAM_AGAIN

/* Function ids. */
#define RMM_RMI_REQ_COMPLETE PBEAM_ID_FORWARD
#define RMM_GTSI_DELEGATE PBEAM_ID_DELEGATE
#define RMM_GTSI_UNDELEGATE PBEAM_ID_UNDELEGATE
#define RMM_ATTEST_GET_REALM_KEY PBEAM_ID_REALM_KEY
#define RMM_ATTEST_GET_PLAT_TOKEN PBEAM_ID_PLATFORM_TOKEN
#define RMM_EL3_FEATURES PBEAM_ID_FEATURES
#define RMM_EL3_TOKEN_SIGN PBEAM_ID_TOKEN_SIGNING
#define RMM_MECID_KEY_UPDATE PBEAM_ID_KEY_UPDATE
#define RMM_BOOT_COMPLETE PBEAM_ID_BOOT_COMPLETE

/* Opcodes of RMM_EL3_TOKEN_SIGN. */
#define RMM_EL3_TOKEN_SIGN_PUSH_REQ_OP PBEAM_OPCODE_PUSH
#define RMM_EL3_TOKEN_SIGN_PULL_RESP_OP PBEAM_OPCODE_PULL
#define RMM_EL3_TOKEN_SIGN_GET_RAK_PUB_OP PBEAM_OPCODE_KEY

#endif

/* ---- Types ---- */

/* The shared page, at the address where the caller sees it. */
typedef struct {
    uint8_t bytes[PBEAM_PAGE_BYTES];
} pbeam_page_t;

/* Images: the words of potterbeam.h. */
typedef struct {
    uint64_t words[PBEAM_STATE_WORDS];
} pbeam_record_t;

typedef struct {
    uint64_t words[PBEAM_GRANULES_WORDS];
} pbeam_granules_t;

typedef struct {
    uint64_t words[PBEAM_SESSION_WORDS];
} pbeam_session_t;

typedef struct {
    uint64_t words[PBEAM_QUEUE_WORDS];
} pbeam_queue_t;

typedef struct {
    uint64_t words[PBEAM_REQUEST_WORDS];
} pbeam_request_t;

typedef struct {
    uint64_t words[PBEAM_VIEW_WORDS];
} pbeam_view_t;

typedef struct {
    uint64_t words[PBEAM_PLACE_WORDS];
} pbeam_place_t;

typedef struct {
    uint64_t words[PBEAM_FIELD_WORDS];
} pbeam_field_t;

typedef struct {
    uint64_t words[PBEAM_OUT_WORDS];
} pbeam_registers_t;

typedef struct {
    uint64_t words[PBEAM_WORK_WORDS];
} pbeam_work_t;

typedef struct {
    uint64_t words[PBEAM_CALL_WORDS];
} pbeam_call_t;

/* Entries of the manifest: 64-bit words in their order, with 002's names. */
typedef struct {
    uint64_t base;
    uint64_t size;
} pbeam_bank_t;

typedef struct {
    uint64_t base;
    uint64_t size;
} pbeam_region_t;

typedef struct {
    uint64_t base;
    uint64_t map_pages;
    uint64_t name; /* pbeam_console_set_name, pbeam_console_text */
    uint64_t clk_in_hz;
    uint64_t baud_rate;
    uint64_t flags; /* must be 0 to be written; read as 0 from a page of minor 5 or above */
} pbeam_console_t;

/* Bytes that a call only reads. A NULL pointer is an empty slice, for any length. */
typedef struct {
    const uint8_t *at;
    size_t length;
} pbeam_bytes_t;

/* The four lists of a manifest, and its fields as pbeam_fields_add writes them. A count is a number of entries; the pointer may be NULL if
 * the count is 0. */
typedef struct {
    const pbeam_bank_t *dram;
    size_t dram_count;
    const pbeam_console_t *console;
    size_t console_count;
    const pbeam_region_t *ncoh;
    size_t ncoh_count;
    const pbeam_region_t *coh;
    size_t coh_count;
    pbeam_bytes_t fields; /* all zero: no fields */
} pbeam_lists_t;

/* x0 to x3 of a cold boot. */
typedef struct {
    uint64_t cpu;     /* x0: index of this CPU */
    uint64_t version; /* x1: version of the boot interface that EL3 offers */
    uint64_t cpus;    /* x2: number of CPUs */
    uint64_t base;    /* x3: B */
} pbeam_cold_t;

/* All that a runtime command takes in addition to its registers. If it is all zero, no command is served. EL3's lock guards all of it: see "One
 * lock" in potterbeam.h. */
typedef struct {
    pbeam_record_t record;   /* EL3's own record */
    pbeam_session_t session;
    pbeam_queue_t queue;
    pbeam_page_t *page;      /* NULL: no page, so the commands that need it answer PBEAM_X0_UNK */
    pbeam_granules_t granules; /* pbeam_context_set_up_granules, before the first command; all zero: no granule */
    uint8_t *table;          /* one byte for each granule of its banks; NULL: no granule */
    size_t table_count;
    uint64_t *words;         /* one bit for each granule; pbeam_context_build_words, before the first command; NULL: no words */
    size_t words_count;
    pbeam_bytes_t realm_key;
    pbeam_bytes_t token;     /* see "The platform token" in potterbeam.h */
    pbeam_bytes_t public_key;
    bool busy;               /* the platform token cannot be served now */
    uint64_t mecid_width;    /* MECIDR_EL2.MECIDWidthm1 */
} pbeam_context_t;

/* A response in the monitor's buffer. */
typedef struct {
    uint64_t rec_granule;
    uint64_t req_ticket;
    uint16_t sig_len;
    const uint8_t *signature_buf; /* in the buffer */
} pbeam_response_t;

PBEAM_ASSERT(sizeof(pbeam_page_t) == 4096, "a page");
PBEAM_ASSERT(sizeof(pbeam_record_t) == 40, "a boot record");
PBEAM_ASSERT(sizeof(pbeam_granules_t) == 264, "a granule record");
PBEAM_ASSERT(sizeof(pbeam_session_t) == 24, "a session");
PBEAM_ASSERT(sizeof(pbeam_queue_t) == 1680, "a queue");
PBEAM_ASSERT(sizeof(pbeam_request_t) == 80, "a request");
PBEAM_ASSERT(sizeof(pbeam_view_t) == 120, "a view");
PBEAM_ASSERT(sizeof(pbeam_place_t) == 16, "a place");
PBEAM_ASSERT(sizeof(pbeam_field_t) == 32, "a field");
PBEAM_ASSERT(sizeof(pbeam_registers_t) == 24, "result registers");
PBEAM_ASSERT(sizeof(pbeam_work_t) == 16, "work");
PBEAM_ASSERT(sizeof(pbeam_call_t) == 40, "registers of a call");
PBEAM_ASSERT(sizeof(pbeam_bank_t) == PBEAM_BANK_BYTES, "a bank is its words");
PBEAM_ASSERT(offsetof(pbeam_bank_t, size) == 8 * PBEAM_BANK_SIZE, "words of a bank");
PBEAM_ASSERT(sizeof(pbeam_region_t) == PBEAM_BANK_BYTES, "a region is its words");
PBEAM_ASSERT(offsetof(pbeam_region_t, size) == 8 * PBEAM_BANK_SIZE, "words of a region");
PBEAM_ASSERT(sizeof(pbeam_console_t) == PBEAM_CONSOLE_BYTES, "a console is its words");
PBEAM_ASSERT(offsetof(pbeam_console_t, map_pages) == 8 * PBEAM_CONSOLE_MAP_PAGES, "words of a console");
PBEAM_ASSERT(offsetof(pbeam_console_t, name) == 8 * PBEAM_CONSOLE_NAME, "words of a console");
PBEAM_ASSERT(offsetof(pbeam_console_t, clk_in_hz) == 8 * PBEAM_CONSOLE_CLK_IN_HZ, "words of a console");
PBEAM_ASSERT(offsetof(pbeam_console_t, baud_rate) == 8 * PBEAM_CONSOLE_BAUD_RATE, "words of a console");
PBEAM_ASSERT(offsetof(pbeam_console_t, flags) == 8 * PBEAM_CONSOLE_FLAGS, "words of a console");

/* ---- Little-endian fields, at any address ---- */

/* The 16-bit number at `at`. */
PBEAM_NONNULL(1)
static inline uint16_t pbeam_get16(const uint8_t *at)
{
    return PBEAM_CAST(uint16_t, at[0] | PBEAM_CAST(unsigned, at[1]) << 8);
}

/* The 32-bit number at `at`. */
PBEAM_NONNULL(1)
static inline uint32_t pbeam_get32(const uint8_t *at)
{
    return pbeam_get16(at) | PBEAM_CAST(uint32_t, pbeam_get16(at + 2)) << 16;
}

/* The 64-bit number at `at`. */
PBEAM_NONNULL(1)
static inline uint64_t pbeam_get64(const uint8_t *at)
{
    return pbeam_get32(at) | PBEAM_CAST(uint64_t, pbeam_get32(at + 4)) << 32;
}

/* Writes a 16-bit number to `at`. */
PBEAM_NONNULL(1)
static inline void pbeam_put16(uint8_t *at, uint16_t number)
{
    at[0] = PBEAM_CAST(uint8_t, number & 0xFF);
    at[1] = PBEAM_CAST(uint8_t, number >> 8);
}

/* Writes a 32-bit number to `at`. */
PBEAM_NONNULL(1)
static inline void pbeam_put32(uint8_t *at, uint32_t number)
{
    pbeam_put16(at, PBEAM_CAST(uint16_t, number & 0xFFFF));
    pbeam_put16(at + 2, PBEAM_CAST(uint16_t, number >> 16));
}

/* Writes a 64-bit number to `at`. */
PBEAM_NONNULL(1)
static inline void pbeam_put64(uint8_t *at, uint64_t number)
{
    pbeam_put32(at, PBEAM_CAST(uint32_t, number & 0xFFFFFFFF));
    pbeam_put32(at + 4, PBEAM_CAST(uint32_t, number >> 32));
}

/* ---- Codes as text, for a log ---- */

/* A boot's code. */
static inline const char *pbeam_boot_text(int32_t code)
{
    switch (code) {
    case PBEAM_BOOT_DONE: return "done";
    case PBEAM_BOOT_STATE: return "unknown error, or the record is not in the state that the boot needs";
    case PBEAM_BOOT_VERSION: return "the version of the boot interface is not accepted";
    case PBEAM_BOOT_CPUS: return "more CPUs than the monitor supports";
    case PBEAM_BOOT_CPU: return "the CPU's index is not below the number of CPUs";
    case PBEAM_MANIFEST_PLACE: return "the page's length or base is wrong, or more bytes are kept than it has";
    case PBEAM_MANIFEST_VERSION: return "the version of the manifest is not accepted";
    case PBEAM_MANIFEST_RULES: return "the manifest breaks a rule";
    default: return "no boot code";
    }
}

/* A reader's code. */
static inline const char *pbeam_read_text(int32_t code)
{
    switch (code) {
    case PBEAM_READ_ACCEPTED: return "accepted";
    case PBEAM_MANIFEST_PLACE: return "the page's length or base is wrong";
    case PBEAM_MANIFEST_VERSION: return "the reader's edition is not 1 to 4, or the version of the manifest is not accepted";
    case PBEAM_MANIFEST_RULES: return "the manifest breaks a rule";
    default: return "no reader's code";
    }
}

/* A writer's refusal. */
static inline const char *pbeam_write_text(uint32_t refusal)
{
    switch (refusal) {
    case PBEAM_WRITE_PAGE: return "done";
    case PBEAM_WRITE_W1_PLACE: return "W1: the page's length or base is wrong";
    case PBEAM_WRITE_W2_EDITION: return "W2: the edition is not 1 to 4";
    case PBEAM_WRITE_W3_LISTS: return "W3: a list is not whole entries, or an entry or a field breaks its rule";
    case PBEAM_WRITE_W4_LATE: return "W4: a list for a section that the edition does not have";
    case PBEAM_WRITE_W5_ROOM: return "W5: entries and fields do not fit into the page";
    default: return "no writer's answer";
    }
}

/* A runtime command's code, in the form of x0. */
static inline const char *pbeam_x0_text(uint64_t x0)
{
    switch (x0) {
    case PBEAM_X0_OK: return "OK";
    case PBEAM_X0_UNK: return "UNK: not served, or the platform has nothing to give";
    case PBEAM_X0_BAD_ADDR: return "BAD_ADDR: outside the page or in its kept bytes, on no granule of the table, or the shared page to be undelegated";
    case PBEAM_X0_BAD_PAS: return "BAD_PAS: the granule is in another state than the command needs";
    case PBEAM_X0_INVAL: return "INVAL: an argument is not allowed";
    case PBEAM_X0_AGAIN: return "AGAIN: busy, full or nothing there yet; call again later";
    default: return "no runtime code";
    }
}

/* ---- Entries ---- */

/* The bytes of a slice. */
static inline pbeam_bytes_t pbeam_bytes(const uint8_t *at, size_t length)
{
    pbeam_bytes_t bytes;
    bytes.at = at;
    bytes.length = at == NULL ? 0 : length;
    return bytes;
}

/* Sets the name of a console from a C string. Returns false, and changes nothing, if it has more than 8 characters. */
PBEAM_MUST_CHECK PBEAM_NONNULL(1, 2)
static inline bool pbeam_console_set_name(pbeam_console_t *console, const char *name)
{
    uint64_t word = 0;
    unsigned i = 0;
    for (; name[i] != '\0'; i++) {
        if (i == 8)
            return false;
        word |= PBEAM_CAST(uint64_t, PBEAM_CAST(unsigned char, name[i])) << (8 * i);
    }
    console->name = word;
    return true;
}

/* The name of a console as a C string. A name of 8 characters has no '\0' in the manifest; here it has one. */
PBEAM_NONNULL(1, 2)
static inline void pbeam_console_text(const pbeam_console_t *console, char text[9])
{
    for (unsigned i = 0; i < 8; i++)
        text[i] = PBEAM_CAST(char, PBEAM_CAST(unsigned char, console->name >> (8 * i) & 0xFF));
    text[8] = '\0';
}

/*
 * Adds a field after the first *used bytes of a description, and increases *used. Returns false, and changes nothing, if the value is longer
 * than PBEAM_FIELD_VALUE_MOST or the room is too short. pbeam_write checks the rules of the tags.
 */
PBEAM_MUST_CHECK PBEAM_NONNULL(1, 3)
static inline bool pbeam_fields_add(uint8_t *PBEAM_RESTRICT fields, size_t room, size_t *PBEAM_RESTRICT used, uint8_t tag,
                                    pbeam_bytes_t value)
{
    const size_t length = value.at == NULL ? 0 : value.length;
    uint8_t *field;
    if (length > PBEAM_FIELD_VALUE_MOST || *used > room || room - *used < PBEAM_FIELD_VALUE + length)
        return false;
    field = fields + *used;
    field[PBEAM_FIELD_TAG] = tag;
    pbeam_put16(field + PBEAM_FIELD_LENGTH, PBEAM_CAST(uint16_t, length));
    for (size_t i = 0; i < length; i++)
        field[PBEAM_FIELD_VALUE + i] = value.at[i];
    *used += PBEAM_FIELD_VALUE + length;
    return true;
}

/* ---- Manifest ---- */

/*
 * pbeam_write with lists that are counted in entries. A count above SIZE_MAX / the size of an entry is
 * PBEAM_WRITE_W3_LISTS before all other checks: the count of words would overflow to that of a short list.
 */
PBEAM_MUST_CHECK PBEAM_NONNULL(3, 4)
static inline uint32_t pbeam_manifest_write(uint64_t base, uint64_t edition, const pbeam_lists_t *lists, pbeam_page_t *page)
{
    const size_t banks_most = SIZE_MAX / PBEAM_BANK_BYTES, consoles_most = SIZE_MAX / PBEAM_CONSOLE_BYTES;
    if (lists->dram_count > banks_most || lists->console_count > consoles_most || lists->ncoh_count > banks_most ||
        lists->coh_count > banks_most)
        return PBEAM_WRITE_W3_LISTS;
    return pbeam_write(base, edition, PBEAM_CAST(const uint64_t *, PBEAM_CAST(const void *, lists->dram)),
                       lists->dram_count * PBEAM_BANK_WORDS, PBEAM_CAST(const uint64_t *, PBEAM_CAST(const void *, lists->console)),
                       lists->console_count * PBEAM_CONSOLE_WORDS, PBEAM_CAST(const uint64_t *, PBEAM_CAST(const void *, lists->ncoh)),
                       lists->ncoh_count * PBEAM_BANK_WORDS, PBEAM_CAST(const uint64_t *, PBEAM_CAST(const void *, lists->coh)),
                       lists->coh_count * PBEAM_BANK_WORDS, lists->fields.at, lists->fields.at == NULL ? 0 : lists->fields.length,
                       page->bytes, sizeof page->bytes);
}

/* pbeam_read. */
PBEAM_MUST_CHECK PBEAM_NONNULL(1, 4)
static inline int32_t pbeam_manifest_read(const pbeam_page_t *page, uint64_t base, uint64_t edition, pbeam_view_t *view)
{
    return pbeam_read(page->bytes, sizeof page->bytes, base, edition, view->words);
}

/*
 * pbeam_listing as a string: as much of the text as fits before a '\0'. A room of PBEAM_LISTING_ROOM + 1 characters holds any text. Returns
 * the whole text's length; the text was cut if that is not below the room. A room of 0 stays unchanged.
 */
PBEAM_NONNULL(1)
static inline size_t pbeam_manifest_listing(const pbeam_page_t *page, uint64_t base, uint64_t edition, char *PBEAM_RESTRICT text,
                                            size_t room)
{
    const size_t most = room == 0 ? 0 : room - 1;
    uint8_t *const bytes = PBEAM_CAST(uint8_t *, PBEAM_CAST(void *, text));
    const size_t length = pbeam_listing(page->bytes, sizeof page->bytes, base, edition, bytes, most);
    if (room != 0)
        text[length < most ? length : most] = '\0';
    return length;
}

/* The page's minor, w. */
PBEAM_NONNULL(1)
static inline uint64_t pbeam_view_minor(const pbeam_view_t *view)
{
    return view->words[PBEAM_VIEW_MINOR];
}

/* The edition that the page was read as, e. */
PBEAM_NONNULL(1)
static inline uint64_t pbeam_view_edition(const pbeam_view_t *view)
{
    return view->words[PBEAM_VIEW_EDITION];
}

/* plat_data: 0, or the physical address of the fields in the page. */
PBEAM_NONNULL(1)
static inline uint64_t pbeam_view_plat_data(const pbeam_view_t *view)
{
    return view->words[PBEAM_VIEW_PLAT_DATA];
}

/* pbeam_kept_for: the number of bytes at the page's start that the manifest takes, for a view that was read as PBEAM_EDITION_LAST. */
PBEAM_NONNULL(1, 2)
static inline uint64_t pbeam_view_kept(const pbeam_page_t *page, const pbeam_view_t *view)
{
    return pbeam_kept_for(page->bytes, sizeof page->bytes, view->words);
}

/* PBEAM_VIEW_ABSENT, PBEAM_VIEW_EMPTY or PBEAM_VIEW_ENTRIES; PBEAM_VIEW_ABSENT if the section's number is above 3. */
PBEAM_NONNULL(1)
static inline uint64_t pbeam_view_section(const pbeam_view_t *view, size_t section)
{
    uint64_t kind;
    if (section >= PBEAM_SECTIONS)
        return PBEAM_VIEW_ABSENT;
    kind = view->words[PBEAM_VIEW_SECTIONS + PBEAM_VIEW_SECTION_WORDS * section + PBEAM_VIEW_SECTION_KIND];
    return kind <= PBEAM_VIEW_EMPTY ? kind : PBEAM_VIEW_ENTRIES;
}

/* pbeam_array_of: the part of the page that holds a section's array. */
PBEAM_NONNULL(1, 2, 4)
static inline void pbeam_view_array(const pbeam_page_t *page, const pbeam_view_t *view, size_t section, pbeam_place_t *place)
{
    pbeam_array_of(page->bytes, sizeof page->bytes, view->words, section, place->words);
}

/* pbeam_count: the number of entries of a section. */
PBEAM_NONNULL(1, 2)
static inline size_t pbeam_view_count(const pbeam_page_t *page, const pbeam_view_t *view, size_t section)
{
    return pbeam_count(page->bytes, sizeof page->bytes, view->words, section);
}

/* One word of an entry, as pbeam_word. Functions below return whole entries. */
PBEAM_NONNULL(1, 2)
static inline uint64_t pbeam_view_word(const pbeam_page_t *page, const pbeam_view_t *view, size_t section, size_t entry, size_t word)
{
    return pbeam_word(page->bytes, sizeof page->bytes, view->words, section, entry, word);
}

/* pbeam_field_count: the number of fields of the platform data. */
PBEAM_NONNULL(1, 2)
static inline size_t pbeam_view_field_count(const pbeam_page_t *page, const pbeam_view_t *view)
{
    return pbeam_field_count(page->bytes, sizeof page->bytes, view->words);
}

/* pbeam_field: a field by its index, in page order. */
PBEAM_NONNULL(1, 2)
static inline pbeam_field_t pbeam_view_field(const pbeam_page_t *page, const pbeam_view_t *view, size_t index)
{
    pbeam_field_t field;
    pbeam_field(page->bytes, sizeof page->bytes, view->words, index, field.words);
    return field;
}

/* pbeam_field_of_tag: the first field with a tag. */
PBEAM_NONNULL(1, 2)
static inline pbeam_field_t pbeam_view_field_of_tag(const pbeam_page_t *page, const pbeam_view_t *view, uint8_t tag)
{
    pbeam_field_t field;
    pbeam_field_of_tag(page->bytes, sizeof page->bytes, view->words, tag, field.words);
    return field;
}

/* pbeam_field_start: the cursor at the first field. */
PBEAM_NONNULL(1, 2)
static inline size_t pbeam_view_field_start(const pbeam_page_t *page, const pbeam_view_t *view)
{
    return pbeam_field_start(page->bytes, sizeof page->bytes, view->words);
}

/* pbeam_field_next: the field at *cursor; moves *cursor past it. End a walk when pbeam_field_found is false, not by comparing cursors:
 *
 *     size_t cursor = pbeam_view_field_start(page, view);
 *     for (;;) {
 *         const pbeam_field_t field = pbeam_view_field_next(page, &cursor);
 *         if (!pbeam_field_found(&field))
 *             break;
 *         use(pbeam_field_tag(&field), pbeam_field_value(page, &field));
 *     }
 */
PBEAM_MUST_CHECK PBEAM_NONNULL(1, 2)
static inline pbeam_field_t pbeam_view_field_next(const pbeam_page_t *page, size_t *cursor)
{
    pbeam_field_t field;
    *cursor = pbeam_field_next(page->bytes, sizeof page->bytes, *cursor, field.words);
    return field;
}

/* Whether a field was found, also if it is withdrawn, so that a walk goes on after it. */
PBEAM_NONNULL(1)
static inline bool pbeam_field_found(const pbeam_field_t *field)
{
    return field->words[PBEAM_FIELD_WORD_FOUND] != PBEAM_FOUND_NONE;
}

/* Whether the field found is withdrawn: it has a tag, PBEAM_TAG_CONSOLE, and no value. */
PBEAM_NONNULL(1)
static inline bool pbeam_field_withdrawn(const pbeam_field_t *field)
{
    return field->words[PBEAM_FIELD_WORD_FOUND] == PBEAM_FOUND_WITHDRAWN;
}

/* The tag of a field; PBEAM_TAG_END if no field was found. */
PBEAM_NONNULL(1)
static inline uint8_t pbeam_field_tag(const pbeam_field_t *field)
{
    return PBEAM_CAST(uint8_t, field->words[PBEAM_FIELD_WORD_TAG] & 0xFF);
}

/* The value of a field, as a part of the page; empty if no field was found, if it is withdrawn, or if a forged field is outside the
 * page. */
PBEAM_NONNULL(1, 2)
static inline pbeam_bytes_t pbeam_field_value(const pbeam_page_t *page, const pbeam_field_t *field)
{
    const uint64_t offset = field->words[PBEAM_FIELD_WORD_OFFSET], length = field->words[PBEAM_FIELD_WORD_LENGTH];
    if (field->words[PBEAM_FIELD_WORD_FOUND] != PBEAM_FOUND_VALUE || offset > sizeof page->bytes || length > sizeof page->bytes - offset)
        return pbeam_bytes(NULL, 0);
    return pbeam_bytes(page->bytes + offset, PBEAM_CAST(size_t, length));
}

/* The board name, empty if the page has none. It has no '\0' at the end. */
PBEAM_NONNULL(1, 2)
static inline pbeam_bytes_t pbeam_view_board_name(const pbeam_page_t *page, const pbeam_view_t *view)
{
    const pbeam_field_t field = pbeam_view_field_of_tag(page, view, PBEAM_TAG_NAME);
    return pbeam_field_value(page, &field);
}

/* The serial, PBEAM_SERIAL_BYTES bytes; empty if the page has none. */
PBEAM_NONNULL(1, 2)
static inline pbeam_bytes_t pbeam_view_serial(const pbeam_page_t *page, const pbeam_view_t *view)
{
    const pbeam_field_t field = pbeam_view_field_of_tag(page, view, PBEAM_TAG_SERIAL);
    return pbeam_field_value(page, &field);
}

/* A bank of dram; all zero if there is no such entry. No accepted bank has size 0. */
PBEAM_NONNULL(1, 2)
static inline pbeam_bank_t pbeam_view_dram(const pbeam_page_t *page, const pbeam_view_t *view, size_t entry)
{
    pbeam_bank_t bank;
    bank.base = pbeam_view_word(page, view, PBEAM_DRAM, entry, PBEAM_BANK_BASE);
    bank.size = pbeam_view_word(page, view, PBEAM_DRAM, entry, PBEAM_BANK_SIZE);
    return bank;
}

/* A region of ncoh or coh; all zero if there is no such entry, and for another section. */
PBEAM_NONNULL(1, 2)
static inline pbeam_region_t pbeam_view_region(const pbeam_page_t *page, const pbeam_view_t *view, size_t section, size_t entry)
{
    const bool has_regions = section == PBEAM_NCOH || section == PBEAM_COH;
    pbeam_region_t region;
    region.base = has_regions ? pbeam_view_word(page, view, section, entry, PBEAM_BANK_BASE) : 0;
    region.size = has_regions ? pbeam_view_word(page, view, section, entry, PBEAM_BANK_SIZE) : 0;
    return region;
}

/* A console; all zero if there is no such entry. No accepted console has map_pages 0. */
PBEAM_NONNULL(1, 2)
static inline pbeam_console_t pbeam_view_console(const pbeam_page_t *page, const pbeam_view_t *view, size_t entry)
{
    pbeam_console_t console;
    console.base = pbeam_view_word(page, view, PBEAM_CONSOLE, entry, PBEAM_CONSOLE_BASE);
    console.map_pages = pbeam_view_word(page, view, PBEAM_CONSOLE, entry, PBEAM_CONSOLE_MAP_PAGES);
    console.name = pbeam_view_word(page, view, PBEAM_CONSOLE, entry, PBEAM_CONSOLE_NAME);
    console.clk_in_hz = pbeam_view_word(page, view, PBEAM_CONSOLE, entry, PBEAM_CONSOLE_CLK_IN_HZ);
    console.baud_rate = pbeam_view_word(page, view, PBEAM_CONSOLE, entry, PBEAM_CONSOLE_BAUD_RATE);
    console.flags = pbeam_view_word(page, view, PBEAM_CONSOLE, entry, PBEAM_CONSOLE_FLAGS);
    return console;
}

/* pbeam_console_named: the first console with a name, given as a C string. Returns false, and sets *console to all zero, if no console has
 * the name or the name has more than 8 characters. */
PBEAM_MUST_CHECK PBEAM_NONNULL(1, 2, 3, 4)
static inline bool pbeam_view_console_named(const pbeam_page_t *page, const pbeam_view_t *view, const char *name,
                                            pbeam_console_t *console)
{
    uint8_t padded[PBEAM_CONSOLE_NAME_BYTES];
    pbeam_console_t asked;
    size_t entry = PBEAM_CONSOLE_NONE;
    if (pbeam_console_set_name(&asked, name)) {
        pbeam_put64(padded, asked.name);
        entry = pbeam_console_named(page->bytes, sizeof page->bytes, view->words, padded);
    }
    *console = pbeam_view_console(page, view, entry);
    return entry != PBEAM_CONSOLE_NONE;
}

/* Offset of a place. */
PBEAM_NONNULL(1)
static inline size_t pbeam_place_offset(const pbeam_place_t *place)
{
    return PBEAM_CAST(size_t, place->words[PBEAM_PLACE_OFFSET]);
}

/* Length of a place. */
PBEAM_NONNULL(1)
static inline size_t pbeam_place_length(const pbeam_place_t *place)
{
    return PBEAM_CAST(size_t, place->words[PBEAM_PLACE_LENGTH]);
}

/* ---- Boot record ---- */

/* A version from major and minor. Returns false, and changes nothing, if major is above 32,767 or minor above 65,535. */
PBEAM_MUST_CHECK PBEAM_NONNULL(3)
static inline bool pbeam_version(uint64_t major, uint64_t minor, uint64_t *version)
{
    if (major > 0x7FFF || minor > 0xFFFF)
        return false;
    *version = major << 16 | minor;
    return true;
}

/* The record after a reset. */
PBEAM_NONNULL(1)
static inline void pbeam_record_reset(pbeam_record_t *record)
{
    for (size_t i = 0; i < PBEAM_STATE_WORDS; i++)
        record->words[i] = 0;
}

/* pbeam_close: closes the record permanently, from any state, for a boot error that the other side reports. EL3 holds its lock, as
 * pbeam_close says. */
PBEAM_NONNULL(1)
static inline void pbeam_record_close(pbeam_record_t *record)
{
    pbeam_close(record->words);
}

/* pbeam_cold_boot. `kept`: the number of bytes at the page's start that no command may write; pbeam_view_kept returns what a manifest
 * takes. EL3 holds its lock for the call, and marks the CPU as booting under it. */
PBEAM_MUST_CHECK PBEAM_NONNULL(1, 2, 5)
static inline int32_t pbeam_record_cold_boot(pbeam_record_t *record, const pbeam_cold_t *x, uint64_t max_cpus, uint64_t kept,
                                             const pbeam_page_t *page)
{
    return pbeam_cold_boot(record->words, x->cpu, x->version, x->cpus, x->base, max_cpus, kept, page->bytes, sizeof page->bytes);
}

/* pbeam_warm_boot. EL3 holds its lock for the call, and marks the CPU as booting under it. */
PBEAM_MUST_CHECK PBEAM_NONNULL(1)
static inline int32_t pbeam_record_warm_boot(pbeam_record_t *record, uint64_t cpu)
{
    return pbeam_warm_boot(record->words, cpu, 0, 0, 0);
}

/* Whether the record is up. The values below are valid only then. */
PBEAM_NONNULL(1)
static inline bool pbeam_record_is_up(const pbeam_record_t *record)
{
    return record->words[PBEAM_STATE_KIND] == PBEAM_STATE_UP;
}

/* x2 of the cold boot: the number of CPUs. */
PBEAM_NONNULL(1)
static inline uint64_t pbeam_record_cpus(const pbeam_record_t *record)
{
    return record->words[PBEAM_STATE_CPUS];
}

/* B, the physical address of the page. */
PBEAM_NONNULL(1)
static inline uint64_t pbeam_record_base(const pbeam_record_t *record)
{
    return record->words[PBEAM_STATE_BASE];
}

/* The agreed minor. */
PBEAM_NONNULL(1)
static inline uint64_t pbeam_record_minor(const pbeam_record_t *record)
{
    return record->words[PBEAM_STATE_MINOR];
}

/* K, the number of kept bytes: a buffer starts at B + K or above. */
PBEAM_NONNULL(1)
static inline uint64_t pbeam_record_kept(const pbeam_record_t *record)
{
    return record->words[PBEAM_STATE_KEPT];
}

/* ---- Registers of a call ---- */

/* A call with any registers; x0 is the function id. */
static inline pbeam_call_t pbeam_call_of(uint64_t x0, uint64_t x1, uint64_t x2, uint64_t x3, uint64_t x4)
{
    pbeam_call_t call;
    call.words[PBEAM_CALL_ID] = x0;
    call.words[PBEAM_CALL_X1] = x1;
    call.words[PBEAM_CALL_X2] = x2;
    call.words[PBEAM_CALL_X3] = x3;
    call.words[PBEAM_CALL_X4] = x4;
    return call;
}

/* PBEAM_ID_FORWARD. */
static inline pbeam_call_t pbeam_call_forward(uint64_t err_code)
{
    return pbeam_call_of(PBEAM_ID_FORWARD, err_code, 0, 0, 0);
}

/* PBEAM_ID_DELEGATE. */
static inline pbeam_call_t pbeam_call_delegate(uint64_t address)
{
    return pbeam_call_of(PBEAM_ID_DELEGATE, address, 0, 0, 0);
}

/* PBEAM_ID_UNDELEGATE. */
static inline pbeam_call_t pbeam_call_undelegate(uint64_t address)
{
    return pbeam_call_of(PBEAM_ID_UNDELEGATE, address, 0, 0, 0);
}

/* PBEAM_ID_REALM_KEY. */
static inline pbeam_call_t pbeam_call_realm_key(uint64_t pa, uint64_t size)
{
    return pbeam_call_of(PBEAM_ID_REALM_KEY, pa, size, PBEAM_CURVE_SECP384R1, 0);
}

/* PBEAM_ID_PLATFORM_TOKEN. */
static inline pbeam_call_t pbeam_call_platform_token(uint64_t pa, uint64_t size, uint64_t c_size)
{
    return pbeam_call_of(PBEAM_ID_PLATFORM_TOKEN, pa, size, c_size, 0);
}

/* PBEAM_ID_FEATURES. */
static inline pbeam_call_t pbeam_call_features(void)
{
    return pbeam_call_of(PBEAM_ID_FEATURES, PBEAM_FEATURES_INDEX, 0, 0, 0);
}

/* PBEAM_ID_TOKEN_SIGNING with PBEAM_OPCODE_PUSH. */
static inline pbeam_call_t pbeam_call_push(uint64_t pa, uint64_t size)
{
    return pbeam_call_of(PBEAM_ID_TOKEN_SIGNING, PBEAM_OPCODE_PUSH, pa, size, 0);
}

/* PBEAM_ID_TOKEN_SIGNING with PBEAM_OPCODE_PULL. */
static inline pbeam_call_t pbeam_call_pull(uint64_t pa, uint64_t size)
{
    return pbeam_call_of(PBEAM_ID_TOKEN_SIGNING, PBEAM_OPCODE_PULL, pa, size, 0);
}

/* PBEAM_ID_TOKEN_SIGNING with PBEAM_OPCODE_KEY. */
static inline pbeam_call_t pbeam_call_public_key(uint64_t pa, uint64_t size)
{
    return pbeam_call_of(PBEAM_ID_TOKEN_SIGNING, PBEAM_OPCODE_KEY, pa, size, PBEAM_CURVE_SECP384R1);
}

/* PBEAM_ID_KEY_UPDATE. */
static inline pbeam_call_t pbeam_call_key_update(uint64_t mecid)
{
    return pbeam_call_of(PBEAM_ID_KEY_UPDATE, mecid, 0, 0, 0);
}

/* x0 of the result. */
PBEAM_NONNULL(1)
static inline uint64_t pbeam_registers_x0(const pbeam_registers_t *out)
{
    return out->words[PBEAM_OUT_X0];
}

/* x1 of the result. */
PBEAM_NONNULL(1)
static inline uint64_t pbeam_registers_x1(const pbeam_registers_t *out)
{
    return out->words[PBEAM_OUT_X1];
}

/* x2 of the result. */
PBEAM_NONNULL(1)
static inline uint64_t pbeam_registers_x2(const pbeam_registers_t *out)
{
    return out->words[PBEAM_OUT_X2];
}

/* x0 as a code: PBEAM_OK .., E_RMM_OK .. */
PBEAM_NONNULL(1)
static inline int32_t pbeam_registers_code(const pbeam_registers_t *out)
{
    return PBEAM_CAST(int32_t, PBEAM_CAST(uint32_t, out->words[PBEAM_OUT_X0] & 0xFFFFFFFF));
}

/* Whether work is of this kind: PBEAM_WORK_REPROGRAM or PBEAM_WORK_FORWARD. */
PBEAM_NONNULL(1)
static inline bool pbeam_work_is(const pbeam_work_t *work, uint64_t kind)
{
    return work->words[PBEAM_WORK_KIND] == kind;
}

/* The value of work. */
PBEAM_NONNULL(1)
static inline uint64_t pbeam_work_value(const pbeam_work_t *work)
{
    return work->words[PBEAM_WORK_VALUE];
}

/* ---- Runtime commands, EL3's side ---- */

/* The session after a reset. */
PBEAM_NONNULL(1)
static inline void pbeam_session_reset(pbeam_session_t *session)
{
    for (size_t i = 0; i < PBEAM_SESSION_WORDS; i++)
        session->words[i] = 0;
}

/* The queue after a reset. */
PBEAM_NONNULL(1)
static inline void pbeam_queue_reset(pbeam_queue_t *queue)
{
    for (size_t i = 0; i < PBEAM_QUEUE_WORDS; i++)
        queue->words[i] = 0;
}

/* Whether a session is in progress: the token must not change then. EL3 holds its lock from here to the choice of the token. */
PBEAM_NONNULL(1)
static inline bool pbeam_session_is_sending(const pbeam_session_t *session)
{
    return session->words[PBEAM_SESSION_KIND] != PBEAM_SESSION_IDLE;
}

/* The number of granules in the banks of an accepted page, which is the length that the table must have. */
PBEAM_NONNULL(1, 2)
static inline uint64_t pbeam_view_granules(const pbeam_page_t *page, const pbeam_view_t *view)
{
    uint64_t granules = 0;
    for (size_t i = 0; i < pbeam_view_count(page, view, PBEAM_DRAM); i++)
        granules += pbeam_view_dram(page, view, i).size / PBEAM_GRANULE_BYTES;
    return granules;
}

/* pbeam_set_up_granules: makes the context's granule record from the banks that a view of the page shows, for the context's table.
 * Returns PBEAM_X0_OK, or PBEAM_X0_INVAL with the record unchanged. EL3 holds its lock for the call, if another CPU runs. */
PBEAM_MUST_CHECK PBEAM_NONNULL(1, 2, 3)
static inline uint64_t pbeam_context_set_up_granules(pbeam_context_t *context, const pbeam_page_t *page, const pbeam_view_t *view)
{
    pbeam_place_t place;
    pbeam_bytes_t banks;
    pbeam_view_array(page, view, PBEAM_DRAM, &place);
    banks = pbeam_bytes(page->bytes + pbeam_place_offset(&place), pbeam_place_length(&place));
    return pbeam_set_up_granules(context->granules.words, banks.at, banks.length, context->table == NULL ? 0 : context->table_count);
}

/* The number of Realm words for a table: ceil(granules / 64). */
static inline size_t pbeam_words_for(size_t granules)
{
    return granules / PBEAM_REALM_WORD_GRANULES + (granules % PBEAM_REALM_WORD_GRANULES != 0);
}

/* pbeam_realm_build: builds the context's Realm words from its granule table. Returns PBEAM_X0_OK, or PBEAM_X0_INVAL with the words
 * unchanged. EL3 holds its lock for this call and for each of the three below. */
PBEAM_MUST_CHECK PBEAM_NONNULL(1)
static inline uint64_t pbeam_context_build_words(pbeam_context_t *context)
{
    return pbeam_realm_build(context->granules.words, context->table, context->table == NULL ? 0 : context->table_count,
                             context->words, context->words == NULL ? 0 : context->words_count);
}

/* Whether the context's words and table agree. Returns what pbeam_realm_agrees does. */
PBEAM_NONNULL(1)
static inline uint64_t pbeam_context_words_agree(const pbeam_context_t *context)
{
    return pbeam_realm_agrees(context->granules.words, context->table, context->table == NULL ? 0 : context->table_count,
                              context->words, context->words == NULL ? 0 : context->words_count);
}

/* The number of Realm granules of the context. Returns what pbeam_realm_count does. */
PBEAM_MUST_CHECK PBEAM_NONNULL(1, 2)
static inline uint64_t pbeam_context_realm_count(const pbeam_context_t *context, uint64_t *number)
{
    return pbeam_realm_count(context->granules.words, context->words, context->words == NULL ? 0 : context->words_count, number);
}

/* The first Realm granule of the context at or after an index. Returns what pbeam_realm_next does. */
PBEAM_MUST_CHECK PBEAM_NONNULL(1, 3)
static inline uint64_t pbeam_context_realm_next(const pbeam_context_t *context, uint64_t index, uint64_t *found)
{
    return pbeam_realm_next(context->granules.words, context->words, context->words == NULL ? 0 : context->words_count, index, found);
}

/* pbeam_call: runs one command. EL3 holds its lock from the copy of a challenge, before this, to the change in hardware after it. */
PBEAM_NONNULL(1, 2, 3, 4)
static inline void pbeam_context_call(pbeam_context_t *context, const pbeam_call_t *call, pbeam_registers_t *out, pbeam_work_t *work)
{
    const pbeam_bytes_t realm_key = pbeam_bytes(context->realm_key.at, context->realm_key.length);
    const pbeam_bytes_t token = pbeam_bytes(context->token.at, context->token.length);
    const pbeam_bytes_t public_key = pbeam_bytes(context->public_key.at, context->public_key.length);
    pbeam_call(context->record.words, context->session.words, context->queue.words,
               context->page == NULL ? NULL : context->page->bytes, context->page == NULL ? 0 : PBEAM_PAGE_BYTES,
               context->granules.words, context->table, context->table == NULL ? 0 : context->table_count, context->words,
               context->words == NULL ? 0 : context->words_count, realm_key.at,
               realm_key.length, token.at, token.length, context->busy, public_key.at, public_key.length, context->mecid_width,
               call->words, out->words, work->words);
}

/* pbeam_delegate_list: several addresses in one call. Also on a refusal, pbeam_registers_x1 of out is the number of
 * granules changed, and these stay changed. `addresses` is EL3's own copy, never memory that the monitor can write. One lock spans the
 * copy, the call and the changes in hardware. */
PBEAM_NONNULL(1, 4)
static inline void pbeam_context_delegate_list(pbeam_context_t *context, const uint64_t *addresses, size_t count,
                                               pbeam_registers_t *out)
{
    pbeam_delegate_list(context->record.words, context->granules.words, context->table,
                        context->table == NULL ? 0 : context->table_count, context->words,
                        context->words == NULL ? 0 : context->words_count, addresses, addresses == NULL ? 0 : count, out->words);
}

/* pbeam_undelegate_list, in the same way. Copy and lock as for pbeam_context_delegate_list. */
PBEAM_NONNULL(1, 4)
static inline void pbeam_context_undelegate_list(pbeam_context_t *context, const uint64_t *addresses, size_t count,
                                                 pbeam_registers_t *out)
{
    pbeam_undelegate_list(context->record.words, context->granules.words, context->table,
                          context->table == NULL ? 0 : context->table_count, context->words,
                          context->words == NULL ? 0 : context->words_count, addresses, addresses == NULL ? 0 : count, out->words);
}

/* pbeam_challenge: the challenge of a call that starts a token session; place (0, 0) for any other call. For PBEAM_ID_PLATFORM_TOKEN it
 * returns what pbeam_challenge does; for any other id PBEAM_X0_OK, since such a call has no challenge. So a handler may call this for every
 * command, and leave on another code than PBEAM_X0_OK: it is the code that pbeam_context_call answers, unless the platform is busy. Copy the
 * bytes at place once, and make the token from the copy. Hold the lock from this function to the end of the command. */
PBEAM_NONNULL(1, 2, 3)
static inline uint64_t pbeam_context_challenge(const pbeam_context_t *context, const pbeam_call_t *call, pbeam_place_t *place)
{
    if (call->words[PBEAM_CALL_ID] != PBEAM_ID_PLATFORM_TOKEN) {
        place->words[PBEAM_PLACE_OFFSET] = 0;
        place->words[PBEAM_PLACE_LENGTH] = 0;
        return PBEAM_X0_OK;
    }
    return pbeam_challenge(context->record.words, context->page == NULL ? NULL : context->page->bytes,
                           context->page == NULL ? 0 : PBEAM_PAGE_BYTES, call->words[PBEAM_CALL_X1], call->words[PBEAM_CALL_X2],
                           call->words[PBEAM_CALL_X3], place->words);
}

/* pbeam_responses: the number of responses that wait for a pull. EL3 holds its lock for the call. */
PBEAM_NONNULL(1)
static inline size_t pbeam_queue_responses(const pbeam_queue_t *queue)
{
    return pbeam_responses(queue->words);
}

/* pbeam_oldest: the number of waiting requests, and the oldest one. EL3 holds its lock from here to the end of pbeam_queue_sign. */
PBEAM_MUST_CHECK PBEAM_NONNULL(1, 2)
static inline size_t pbeam_queue_oldest(const pbeam_queue_t *queue, pbeam_request_t *request)
{
    return pbeam_oldest(queue->words, request->words);
}

/* pbeam_sign: answers the oldest request with a signature. One lock spans pbeam_queue_oldest, the making of the signature and this. */
PBEAM_NONNULL(1, 3)
static inline void pbeam_queue_sign(pbeam_queue_t *queue, pbeam_bytes_t signature, pbeam_registers_t *out)
{
    const pbeam_bytes_t bytes = pbeam_bytes(signature.at, signature.length);
    pbeam_sign(queue->words, bytes.at, bytes.length, out->words);
}

/* Algorithm id of a request. */
PBEAM_NONNULL(1)
static inline uint64_t pbeam_request_sig_alg_id(const pbeam_request_t *request)
{
    return request->words[PBEAM_REQUEST_WORD_ALGORITHM];
}

/* rec_granule of a request. */
PBEAM_NONNULL(1)
static inline uint64_t pbeam_request_rec_granule(const pbeam_request_t *request)
{
    return request->words[PBEAM_REQUEST_WORD_GRANULE];
}

/* req_ticket of a request. */
PBEAM_NONNULL(1)
static inline uint64_t pbeam_request_req_ticket(const pbeam_request_t *request)
{
    return request->words[PBEAM_REQUEST_WORD_TICKET];
}

/* Hash id of a request. */
PBEAM_NONNULL(1)
static inline uint64_t pbeam_request_hash_alg_id(const pbeam_request_t *request)
{
    return request->words[PBEAM_REQUEST_WORD_HASH_ID];
}

/* Copies the PBEAM_HASH_BYTES bytes of a request's hash to `hash`. */
PBEAM_NONNULL(1, 2)
static inline void pbeam_request_hash_buf(const pbeam_request_t *request, uint8_t hash[PBEAM_HASH_BYTES])
{
    for (size_t i = 0; i < PBEAM_HASH_WORDS; i++)
        pbeam_put64(hash + 8 * i, request->words[PBEAM_REQUEST_WORD_HASH + i]);
}

/* ---- Runtime commands, the monitor's side ---- */

/* Writes a request to the buffer of a push, which has PBEAM_REQUEST_BYTES bytes. Bytes that EL3 does not read become zero. */
PBEAM_NONNULL(1, 4)
static inline void pbeam_put_request(uint8_t *PBEAM_RESTRICT at, uint64_t rec_granule, uint64_t req_ticket,
                                     const uint8_t hash[PBEAM_HASH_BYTES])
{
    pbeam_put64(at + PBEAM_REQUEST_ALGORITHM, PBEAM_ALGORITHM_SECP384R1);
    pbeam_put64(at + PBEAM_REQUEST_GRANULE, rec_granule);
    pbeam_put64(at + PBEAM_REQUEST_TICKET, req_ticket);
    pbeam_put64(at + PBEAM_REQUEST_HASH_ID, PBEAM_HASH_SHA2_384);
    for (size_t i = 0; i < PBEAM_HASH_BYTES; i++)
        at[PBEAM_REQUEST_HASH + i] = hash[i];
}

/* The response that a pull wrote to a buffer of `size` bytes. Returns false, and sets *response to zeros with signature_buf NULL, if its
 * signature ends after the buffer, or size is below 18. */
PBEAM_MUST_CHECK PBEAM_NONNULL(1, 3)
static inline bool pbeam_get_response(const uint8_t *at, size_t size, pbeam_response_t *PBEAM_RESTRICT response)
{
    const bool whole = size >= PBEAM_RESPONSE_SIGNATURE && pbeam_get16(at + PBEAM_RESPONSE_LENGTH) <= size - PBEAM_RESPONSE_SIGNATURE;
    response->rec_granule = whole ? pbeam_get64(at + PBEAM_RESPONSE_GRANULE) : 0;
    response->req_ticket = whole ? pbeam_get64(at + PBEAM_RESPONSE_TICKET) : 0;
    response->sig_len = whole ? pbeam_get16(at + PBEAM_RESPONSE_LENGTH) : PBEAM_CAST(uint16_t, 0);
    response->signature_buf = whole ? at + PBEAM_RESPONSE_SIGNATURE : NULL;
    return whole;
}

#endif
