/*
 * From boot to a signed token: EL3 firmware on one side, the monitor (RMM) on the other, the page between them.
 *
 *   1  EL3 writes a manifest with two banks, two consoles, and the board's name and serial, and sets up its granule record from what the
 *      manifest shows: the table has a byte for each granule of the two. From the table it builds the Realm words, a bit for each granule.
 *   2  EL3 enters the monitor: cold boot on CPU 0, with enough kept bytes that no command overwrites the manifest. The monitor lists what
 *      the manifest shows, walks over the fields, picks its console by name, and reports with RMM_BOOT_COMPLETE.
 *   3  Warm boot on CPU 1: the monitor reads the manifest again.
 *   4  The monitor delegates a granule, and tries the same one again: a refusal. It delegates one of the second bank; an address in the hole
 *      between the banks is refused. The monitor passes a list in the page: EL3 copies it, and delegates 200 granules of guest memory in one
 *      call; a second list runs into the granule that is Realm already, and reports how many it did before. Before and after, EL3 reads from
 *      the words how many granules are Realm and which is the first, without a walk over the table.
 *   5  It draws the platform token, 100 bytes through a buffer of 64. The platform takes its time: AGAIN, and the monitor asks again. In
 *      mid-session the monitor starts again, gets AGAIN, and goes on: it still gets the rest of the first token. Then it gets the new one.
 *      A buffer in the kept bytes is refused, and the manifest is still there.
 *   6  It completes an RMI call of the Non-secure world.
 *   7  It has a token signed: push, the signer's step, pull.
 *   8  A second warm boot of CPU 1 finds the manifest unchanged. RMM_BOOT_COMPLETE from a CPU that is not booting is not accepted. Then
 *      a warm boot that the monitor reports as failed, with a code whose low 32 bits are 0: EL3 closes its record and serves nothing more,
 *      no RMM_BOOT_COMPLETE either.
 *
 * On a board the two sides are two programs. Here the entry to the monitor and its SMCs are plain C calls, one CPU after another, and a fill
 * of bytes takes the place of cryptography. el3_smc is the handler to copy; el3_choose_token is its part for a platform that can be busy.
 *
 * What CPUs share is used under one lock, el3_lock to el3_unlock: the copy of what the monitor can write (challenge, list), the call of the
 * library and the step in hardware; the oldest request and its signature; each boot of EL3's record, and RMM_BOOT_COMPLETE. It is not held
 * while the monitor runs.
 */
#include <inttypes.h>
#include <stdatomic.h>
#include <stdio.h>
#include <string.h>

#include "potterbeam_types.h"

#define BASE UINT64_C(0x80000000)       /* B: the page's physical address */
#define MEMORY UINT64_C(0x90000000)     /* the first bank */
#define MEMORY_BYTES UINT64_C(0x10000000)
#define HIGH UINT64_C(0x880000000)      /* the second */
#define HIGH_BYTES UINT64_C(0x80000000)
#define GRANULES ((MEMORY_BYTES + HIGH_BYTES) / PBEAM_GRANULE_BYTES) /* of this board; a byte each */
#define GUEST_GRANULES 200              /* also the longest list that EL3 takes */
#define HAND_OVER UINT64_C(0xC3000000)  /* this board's own SMC: delegates a list. x1 its address in the page, x2 the number of granules */
#define CPUS 3
#define CPUS_MOST 8                     /* what the monitor is built for */
#define TOKEN_BYTES 100
#define BUFFER_BYTES 64                 /* the monitor's buffer for the token, behind the kept bytes */
#define SIGNATURE_BYTES 96              /* an ECDSA signature on SECP384R1 */

static pbeam_page_t page; /* the shared page; on a board both sides map it */

/* ---- EL3: what it keeps. All zero at reset: record fresh, session idle, queue empty. ---- */

struct token {
    uint8_t bytes[TOKEN_BYTES];
    size_t length; /* 0: no token */
};

static struct {
    pbeam_context_t context; /* EL3's own record is in it: B, the agreed minor and the kept bytes of every command come from there */
    uint8_t table[GRANULES];
    uint64_t words[GRANULES / PBEAM_REALM_WORD_GRANULES]; /* GRANULES is a multiple of 64 */
    struct token tokens[2];  /* the one that a session is lent, and one to make the next */
    size_t lent;             /* which of them is lent */
    uint64_t list[GUEST_GRANULES]; /* the copy of a list of addresses */
    bool booting[CPUS];      /* entered by a boot, and RMM_BOOT_COMPLETE not yet called */
    bool booted[CPUS];       /* its boot is complete: it may serve the Non-secure world */
    uint64_t non_secure[CPUS][5]; /* x0 to x4 of the Non-secure world, by CPU: no other CPU uses them, so they need no lock */
} el3;

/* A spin lock, for `el3` and for what the hardware has of it; before the first boot only one CPU runs, and it is not taken. On AArch64 it
 * needs the MMU: see examples/qemu/lock.c. */
static atomic_flag el3_taken = ATOMIC_FLAG_INIT;

static void el3_lock(void)
{
    while (atomic_flag_test_and_set_explicit(&el3_taken, memory_order_acquire))
        ;
}

static void el3_unlock(void)
{
    atomic_flag_clear_explicit(&el3_taken, memory_order_release);
}

/* ---- EL3: the part that makes tokens, as slow as a security processor. It answers the second request. ---- */

static struct {
    uint8_t challenge[PBEAM_CHALLENGE_SHA512];
    size_t length; /* 0: it has nothing to do */
} maker;

/* Returns whether the token for this challenge, EL3's copy, is made, into `into`. The caller asks again until it is. */
static bool maker_has(const uint8_t *challenge, size_t length, struct token *into)
{
    if (maker.length != length || memcmp(maker.challenge, challenge, length) != 0) {
        memcpy(maker.challenge, challenge, length);
        maker.length = length;
        printf("EL3: begins a token for a challenge of %zu bytes\n", length);
        return false;
    }
    for (size_t i = 0; i < TOKEN_BYTES; i++)
        into->bytes[i] = (uint8_t)(maker.challenge[i % length] + i);
    into->length = TOKEN_BYTES;
    maker.length = 0;
    return true;
}

/* ---- EL3: SMCs of the monitor ---- */

/* Chooses the token that the call is lent, and whether the platform is busy; returns whether it is a new token. The token of a session that
 * is under way is never written: a start that gets AGAIN leaves that session unchanged, and it may go on. */
static bool el3_choose_token(const pbeam_call_t *call)
{
    uint8_t challenge[PBEAM_CHALLENGE_SHA512];
    pbeam_place_t place;
    const struct token *lent = &el3.tokens[el3.lent];
    struct token *next = &el3.tokens[1 - el3.lent];
    el3.context.busy = false;
    el3.context.token = pbeam_bytes(lent->bytes, lent->length);
    /* The challenge is where the first hunk will be written, so copy it before the call. EL3 reads it once: the monitor on another CPU may
     * change it at any time. */
    (void)pbeam_context_challenge(&el3.context, call, &place);
    if (pbeam_place_length(&place) == 0)
        return false; /* the call goes on, or will be refused */
    memcpy(challenge, page.bytes + pbeam_place_offset(&place), pbeam_place_length(&place));
    if (!maker_has(challenge, pbeam_place_length(&place), next)) {
        el3.context.busy = true;
        return false;
    }
    el3.context.token = pbeam_bytes(next->bytes, next->length);
    return true;
}

/* What the hardware must do after a command. */
static void el3_act(const pbeam_call_t *call, const pbeam_registers_t *out, const pbeam_work_t *work)
{
    const uint64_t id = call->words[PBEAM_CALL_ID];
    if (pbeam_registers_code(out) == E_RMM_OK && (id == RMM_GTSI_DELEGATE || id == RMM_GTSI_UNDELEGATE))
        printf("EL3: hardware: granule 0x%" PRIx64 " to %s\n", call->words[PBEAM_CALL_X1], id == RMM_GTSI_DELEGATE ? "Realm" : "Non-secure");
    if (pbeam_work_is(work, PBEAM_WORK_REPROGRAM))
        printf("EL3: hardware: a new key for mecid %" PRIu64 "\n", pbeam_work_value(work));
}

/* The text of a code in x1, all 64 bits of it: 2^32 is no success. */
static const char *el3_code_text(uint64_t x1)
{
    const int32_t code = (int32_t)(uint32_t)(x1 & 0xFFFFFFFF);
    return (uint64_t)(int64_t)code == x1 ? pbeam_boot_text(code) : "no boot code";
}

/* RMM_BOOT_COMPLETE is EL3's own, no command of the library. It is accepted once for each boot, from the CPU that is booting, and not after
 * an error: the record is closed then. After an error on any CPU no CPU enters the monitor again. Returns whether it is accepted. */
static bool el3_boot_complete(uint64_t cpu, uint64_t x1)
{
    bool accepted;
    el3_lock();
    accepted = el3.booting[cpu] && pbeam_record_is_up(&el3.context.record);
    if (accepted) {
        el3.booting[cpu] = false;
        el3.booted[cpu] = x1 == E_RMM_BOOT_SUCCESS;
    }
    if (accepted && x1 != E_RMM_BOOT_SUCCESS)
        pbeam_record_close(&el3.context.record);
    printf("EL3: boot complete of CPU %" PRIu64 ": %s\n", cpu, accepted ? el3_code_text(x1) : "not accepted");
    el3_unlock();
    return accepted;
}

/* Copies the list of `count` addresses at `pa` into el3.list. Returns PBEAM_X0_OK, or the code of a list that is not in the monitor's part of
 * the page, or too long. */
static uint64_t el3_copy_list(uint64_t pa, uint64_t count)
{
    const uint64_t first = BASE + pbeam_record_kept(&el3.context.record), end = BASE + PBEAM_PAGE_BYTES;
    if (!pbeam_record_is_up(&el3.context.record))
        return PBEAM_X0_UNK;
    if (pa < first || pa >= end)
        return PBEAM_X0_BAD_ADDR;
    if (count > GUEST_GRANULES || count * sizeof el3.list[0] > end - pa)
        return PBEAM_X0_INVAL;
    for (size_t i = 0; i < count; i++)
        el3.list[i] = pbeam_get64(page.bytes + (pa - BASE) + i * sizeof el3.list[0]);
    return PBEAM_X0_OK;
}

/* Delegates a list: no function id of the interface has one, a board chooses its own. What was done before a refusal stays done, so the caller
 * goes on at x1. Library and hardware take the addresses from the copy: from the page they could be others the second time. */
static void el3_hand_over(uint64_t x[6])
{
    pbeam_registers_t out = {{0}};
    el3_lock();
    out.words[PBEAM_OUT_X0] = el3_copy_list(x[1], x[2]);
    if (pbeam_registers_code(&out) == E_RMM_OK) {
        pbeam_context_delegate_list(&el3.context, el3.list, (size_t)x[2], &out);
        if (pbeam_registers_x1(&out) != 0) /* on a board: each of el3.list[0] to el3.list[x1 - 1] */
            printf("EL3: hardware: %" PRIu64 " granules from 0x%" PRIx64 " to Realm\n", pbeam_registers_x1(&out), el3.list[0]);
    }
    el3_unlock();
    memcpy(x, out.words, sizeof out.words);
}

/* RMM_RMI_REQ_COMPLETE: the Non-secure world goes on, with err_code and what the monitor has in x2 to x5. */
static void el3_return_to_non_secure(uint64_t cpu, const pbeam_work_t *work, const uint64_t x[6])
{
    el3.non_secure[cpu][0] = pbeam_work_value(work);
    memcpy(el3.non_secure[cpu] + 1, x + 2, 4 * sizeof x[0]);
}

/* UNK to a call that EL3 does not accept. As after a refused command x1 and x2 are 0. */
static void el3_refuse(uint64_t x[6])
{
    static const uint64_t out[PBEAM_OUT_WORDS] = {PBEAM_X0_UNK};
    memcpy(x, out, sizeof out);
}

/* An SMC of the monitor on a CPU: x0 to x5 as it made it. Afterwards x0 to x2 are the answer; x3 to x5 stay the monitor's. */
static void el3_smc(uint64_t cpu, uint64_t x[6])
{
    const pbeam_call_t call = pbeam_call_of(x[0], x[1], x[2], x[3], x[4]);
    pbeam_registers_t out;
    pbeam_work_t work;
    bool is_new;

    if (x[0] == RMM_BOOT_COMPLETE) {
        if (!el3_boot_complete(cpu, x[1]))
            el3_refuse(x); /* to the monitor */
        return;            /* on a board, if accepted: to where EL3 entered the monitor */
    }
    if (x[0] == HAND_OVER) {
        el3_hand_over(x);
        return;
    }
    /* One lock for the challenge, the call and the hardware. */
    el3_lock();
    if (x[0] == RMM_RMI_REQ_COMPLETE && !el3.booted[cpu]) {
        el3_unlock();
        el3_refuse(x); /* no call of the Non-secure world is under way on this CPU */
        return;
    }
    is_new = x[0] == RMM_ATTEST_GET_PLAT_TOKEN && el3_choose_token(&call);
    pbeam_context_call(&el3.context, &call, &out, &work);
    if (is_new && pbeam_registers_code(&out) == E_RMM_OK)
        el3.lent = 1 - el3.lent; /* the new session's token; the other is free from now on */
    el3_act(&call, &out, &work);
    el3_unlock();
    if (pbeam_work_is(&work, PBEAM_WORK_FORWARD)) {
        el3_return_to_non_secure(cpu, &work, x);
        return; /* on a board: to the Non-secure world */
    }
    memcpy(x, out.words, sizeof out.words);
}

/* The signer runs when it has time. It signs the oldest request; the library carries rec_granule and req_ticket over. The request is read and
 * answered under one lock: a second signer in between would answer it, and this signature would go to the next ticket. A board with
 * one signer, and a slow one, may release the lock in between: only the signer removes a request. */
static void el3_sign_oldest(void)
{
    pbeam_request_t request;
    pbeam_registers_t out;
    uint8_t hash[PBEAM_HASH_BYTES], signature[SIGNATURE_BYTES];
    el3_lock();
    if (pbeam_queue_oldest(&el3.context.queue, &request) != 0) {
        pbeam_request_hash_buf(&request, hash);
        printf("EL3: oldest request: granule 0x%" PRIx64 ", ticket %" PRIu64 ", hash starts 0x%02x\n",
               pbeam_request_rec_granule(&request), pbeam_request_req_ticket(&request), hash[0]);
        memset(signature, 0x5A, sizeof signature);
        pbeam_queue_sign(&el3.context.queue, pbeam_bytes(signature, sizeof signature), &out);
        printf("EL3: sign it with %d bytes: %s\n", SIGNATURE_BYTES, pbeam_x0_text(pbeam_registers_x0(&out)));
    }
    el3_unlock();
}

/* ---- EL3: boot ---- */

static bool el3_write_manifest(void)
{
    static const pbeam_bank_t banks[] = {
        {.base = MEMORY, .size = MEMORY_BYTES},
        {.base = HIGH, .size = HIGH_BYTES},
    };
    pbeam_console_t consoles[] = {
        {.base = UINT64_C(0x1C0B0000), .map_pages = 1, .clk_in_hz = 24000000, .baud_rate = 115200},
        {.base = UINT64_C(0x1C0C0000), .map_pages = 1, .clk_in_hz = 24000000, .baud_rate = 115200},
    };
    static const uint8_t name[] = {'D', 'K', '-', '1'}, serial[PBEAM_SERIAL_BYTES] = {0x20, 0x26, 0x11, 0x16, 0, 0, 0, 7};
    uint8_t fields[64];
    size_t used = 0;
    /* Counts are entries. Without device regions the last two lists are empty. */
    pbeam_lists_t lists = {
        .dram = banks, .dram_count = sizeof banks / sizeof banks[0], .console = consoles, .console_count = 2};
    uint32_t refusal;
    if (!pbeam_console_set_name(&consoles[0], "uart-el3") || !pbeam_console_set_name(&consoles[1], "pl011") ||
        !pbeam_fields_add(fields, sizeof fields, &used, PBEAM_TAG_NAME, pbeam_bytes(name, sizeof name)) ||
        !pbeam_fields_add(fields, sizeof fields, &used, PBEAM_TAG_SERIAL, pbeam_bytes(serial, sizeof serial)))
        return false;
    lists.fields = pbeam_bytes(fields, used);
    refusal = pbeam_manifest_write(BASE, PBEAM_EDITION_LAST, &lists, &page);
    printf("EL3: write a manifest of edition %d: %s\n", PBEAM_EDITION_LAST, pbeam_write_text(refusal));
    return refusal == PBEAM_WRITE_PAGE; /* on a board: clean the cache, the monitor may read it with its MMU off */
}

/* Sets up the granule record from the banks that the manifest shows, before the first command: the commands take the record. */
static bool el3_set_up_granules(void)
{
    pbeam_view_t view;
    uint64_t x0;
    if (pbeam_manifest_read(&page, BASE, PBEAM_EDITION_LAST, &view) != PBEAM_READ_ACCEPTED)
        return false;
    x0 = pbeam_context_set_up_granules(&el3.context, &page, &view);
    printf("EL3: set up %" PRIu64 " banks, %" PRIu64 " granules: %s\n", el3.context.granules.words[PBEAM_GRANULES_COUNT],
           pbeam_view_granules(&page, &view), pbeam_x0_text(x0));
    return x0 == PBEAM_X0_OK;
}

/* Builds the Realm words of the present table: a bit for each granule. From here on every command keeps them in agreement. */
static bool el3_build_words(void)
{
    const uint64_t x0 = pbeam_context_build_words(&el3.context);
    printf("EL3: build %zu Realm words: %s\n", el3.context.words_count, pbeam_x0_text(x0));
    return x0 == PBEAM_X0_OK;
}

/* Prints how many granules are Realm, and the first of them from granule 3 on, both from the words alone. Returns whether the number is
 * `want`. */
static bool el3_count_realm(uint64_t want)
{
    uint64_t number, next, x0;
    bool counted;
    el3_lock();
    counted = pbeam_context_realm_count(&el3.context, &number) == PBEAM_X0_OK;
    x0 = pbeam_context_realm_next(&el3.context, 3, &next);
    el3_unlock();
    printf("EL3: Realm granules: %" PRIu64 ", ", number);
    if (x0 == PBEAM_X0_OK)
        printf("from granule 3 on the first is %" PRIu64 "\n", next);
    else
        printf("none from granule 3 on\n");
    return counted && number == want;
}

static bool el3_is_up(void)
{
    bool up;
    el3_lock();
    up = pbeam_record_is_up(&el3.context.record);
    el3_unlock();
    return up;
}

/* Whether the words are still those of the table. */
static bool el3_words_agree(void)
{
    uint64_t x0;
    el3_lock();
    x0 = pbeam_context_words_agree(&el3.context);
    el3_unlock();
    return x0 == PBEAM_X0_OK;
}

static void monitor_cold_boot(const pbeam_cold_t *x);
static void monitor_warm_boot(uint64_t cpu);

/* EL3's record goes up before the monitor is entered, since the monitor may call EL3 while it boots. Both sides check the same
 * registers and the same page, so both records hold the same. If the record is closed, do not enter. */
static bool el3_boot_first_cpu(void)
{
    const pbeam_cold_t x = {.cpu = 0, .version = PBEAM_INTERFACE_MINOR, .cpus = CPUS, .base = BASE}; /* version 0.5 */
    pbeam_view_t view;
    int32_t code;
    bool shown;
    el3_lock();
    shown = pbeam_manifest_read(&page, BASE, PBEAM_EDITION_LAST, &view) == PBEAM_READ_ACCEPTED;
    /* A refused page is refused again by the cold boot. */
    code = pbeam_record_cold_boot(&el3.context.record, &x, CPUS, shown ? pbeam_view_kept(&page, &view) : 0, &page);
    el3.booting[x.cpu] = code == E_RMM_BOOT_SUCCESS;
    el3_unlock();
    if (code == E_RMM_BOOT_SUCCESS)
        monitor_cold_boot(&x);
    else
        printf("EL3: does not enter the monitor: %s\n", pbeam_boot_text(code));
    return el3_is_up();
}

static bool el3_boot_next_cpu(uint64_t cpu)
{
    int32_t code;
    el3_lock();
    code = pbeam_record_warm_boot(&el3.context.record, cpu);
    if (code == E_RMM_BOOT_SUCCESS) { /* cpu is below CPUS then */
        el3.booting[cpu] = true;
        el3.booted[cpu] = false; /* also if it has booted before */
    }
    el3_unlock();
    if (code == E_RMM_BOOT_SUCCESS)
        monitor_warm_boot(cpu);
    else
        printf("EL3: does not enter the monitor: %s\n", pbeam_boot_text(code));
    return el3_is_up();
}

/* ---- Monitor ---- */

static struct {
    pbeam_record_t record; /* the monitor's own */
    pbeam_view_t view;     /* of the manifest, as the first boot read it */
    uint64_t cpu;          /* that runs now; on a board MPIDR_EL1 has it */
    bool out_of_memory;    /* an error unknown to the library */
} monitor;

/* An SMC: the registers of a call, and its result registers. */
static pbeam_registers_t monitor_smc(pbeam_call_t call, uint64_t x5)
{
    pbeam_registers_t out;
    uint64_t x[6];
    memcpy(x, call.words, sizeof call.words);
    x[5] = x5;
    el3_smc(monitor.cpu, x);
    memcpy(out.words, x, sizeof out.words);
    return out;
}

/* Returns x0, which EL3 changes only if it does not accept the call. */
static uint64_t monitor_boot_complete(uint64_t x1)
{
    const pbeam_registers_t out = monitor_smc(pbeam_call_of(RMM_BOOT_COMPLETE, x1, 0, 0, 0), 0);
    return pbeam_registers_x0(&out);
}

/* The monitor's console is found by its name, at any place among the others. */
static void monitor_pick_console(const pbeam_view_t *view)
{
    pbeam_console_t console;
    printf("monitor: %zu consoles, pl011 ", pbeam_view_count(&page, view, PBEAM_CONSOLE));
    if (!pbeam_view_console_named(&page, view, "pl011", &console)) {
        printf("not among them\n"); /* on a board: go on without one */
        return;
    }
    printf("at 0x%" PRIx64 ", %" PRIu64 " Hz, %" PRIu64 " baud\n", console.base, console.clk_in_hz, console.baud_rate);
}

/* Each field of the platform data, in page order. The walk ends where no field is found. A withdrawn field has a tag and no value. */
static void monitor_walk_fields(const pbeam_view_t *view)
{
    size_t cursor = pbeam_view_field_start(&page, view);
    for (;;) {
        const pbeam_field_t field = pbeam_view_field_next(&page, &cursor);
        if (!pbeam_field_found(&field))
            break;
        printf("monitor: field with tag %d, %zu bytes%s\n", pbeam_field_tag(&field), pbeam_field_value(&page, &field).length,
               pbeam_field_withdrawn(&field) ? ", withdrawn" : "");
    }
}

static void monitor_list(const pbeam_view_t *view)
{
    const pbeam_bytes_t name = pbeam_view_board_name(&page, view), serial = pbeam_view_serial(&page, view);
    printf("monitor: manifest 0.%" PRIu64 " read as edition %" PRIu64 "\n", pbeam_view_minor(view), pbeam_view_edition(view));
    /* The name is any bytes, with no '\0' after them: a board that does not trust them prints them in hex, as the serial. */
    printf("monitor: board %.*s, serial ", (int)name.length, (const char *)name.at);
    for (size_t i = 0; i < serial.length; i++)
        printf("%02x", serial.at[i]);
    printf("\n");
    monitor_walk_fields(view);
    for (size_t i = 0; i < pbeam_view_count(&page, view, PBEAM_DRAM); i++) {
        const pbeam_bank_t bank = pbeam_view_dram(&page, view, i);
        printf("monitor: bank at 0x%" PRIx64 ", 0x%" PRIx64 " bytes\n", bank.base, bank.size);
    }
    monitor_pick_console(view);
}

/* Reads the manifest again; returns whether it shows what the first boot found. */
static bool monitor_manifest_is_whole(void)
{
    pbeam_view_t view;
    const int32_t code = pbeam_manifest_read(&page, BASE, PBEAM_EDITION_LAST, &view);
    const bool same = code == PBEAM_READ_ACCEPTED && memcmp(&view, &monitor.view, sizeof view) == 0;
    printf("monitor: the manifest is %s\n", same ? "as it was" : "damaged");
    return same;
}

/* Where the monitor's buffers begin: after the kept bytes. */
static uint64_t monitor_buffer(void)
{
    return BASE + pbeam_record_kept(&monitor.record);
}

static uint8_t *monitor_bytes(void)
{
    return page.bytes + pbeam_record_kept(&monitor.record);
}

/* No register carries the number of kept bytes: both sides compute it from the page. */
static void monitor_cold_boot(const pbeam_cold_t *x)
{
    const bool shown = pbeam_manifest_read(&page, x->base, PBEAM_EDITION_LAST, &monitor.view) == PBEAM_READ_ACCEPTED;
    /* The cold boot answers for a refused page. */
    const int32_t code =
        pbeam_record_cold_boot(&monitor.record, x, CPUS_MOST, shown ? pbeam_view_kept(&page, &monitor.view) : 0, &page);
    monitor.cpu = x->cpu;
    printf("monitor: cold boot of CPU %" PRIu64 ": %s\n", x->cpu, pbeam_boot_text(code));
    if (code == E_RMM_BOOT_SUCCESS) {
        printf("monitor: %" PRIu64 " CPUs, page at 0x%" PRIx64 ", agreed minor %" PRIu64 ", %" PRIu64 " bytes kept\n",
               pbeam_record_cpus(&monitor.record), pbeam_record_base(&monitor.record), pbeam_record_minor(&monitor.record),
               pbeam_record_kept(&monitor.record));
        monitor_list(&monitor.view);
    }
    (void)monitor_boot_complete((uint64_t)(int64_t)code);
}

/* Out of memory the monitor reports 2^32: no code of 002, and 0 in the low 32 bits. EL3 takes it as the error that it is. */
static void monitor_warm_boot(uint64_t cpu)
{
    const int32_t code = pbeam_record_warm_boot(&monitor.record, cpu);
    uint64_t x1 = (uint64_t)(int64_t)code;
    monitor.cpu = cpu;
    if (monitor.out_of_memory)
        x1 = UINT64_C(0x100000000);
    else if (code == E_RMM_BOOT_SUCCESS && !monitor_manifest_is_whole())
        x1 = (uint64_t)(int64_t)E_RMM_BOOT_ERR_UNKNOWN;
    printf("monitor: warm boot of CPU %" PRIu64 ": %s\n", cpu, x1 == E_RMM_BOOT_SUCCESS ? "done" : "failed");
    (void)monitor_boot_complete(x1);
}

static int32_t monitor_delegate(uint64_t address)
{
    const pbeam_registers_t out = monitor_smc(pbeam_call_delegate(address), 0);
    printf("monitor: delegate 0x%" PRIx64 ": %s\n", address, pbeam_x0_text(pbeam_registers_x0(&out)));
    return pbeam_registers_code(&out);
}

/* Hands a range of guest memory over: a list in the page, in the order of its addresses. Returns the code, and in `done` how many it did. */
static int32_t monitor_hand_over(size_t first, uint64_t *done)
{
    const uint64_t from = MEMORY + first * PBEAM_GRANULE_BYTES;
    pbeam_registers_t out;
    for (size_t i = 0; i < GUEST_GRANULES; i++)
        pbeam_put64(monitor_bytes() + 8 * i, from + i * PBEAM_GRANULE_BYTES);
    out = monitor_smc(pbeam_call_of(HAND_OVER, monitor_buffer(), GUEST_GRANULES, 0, 0), 0);
    *done = pbeam_registers_x1(&out);
    printf("monitor: hand over %d granules from 0x%" PRIx64 ": %s, %" PRIu64 " done\n", GUEST_GRANULES, from,
           pbeam_x0_text(pbeam_registers_x0(&out)), *done);
    return pbeam_registers_code(&out);
}

/* One call for the token. A start has its challenge in the buffer, here bytes of `fill`. */
static pbeam_registers_t monitor_token(uint64_t c_size, int fill)
{
    pbeam_registers_t out;
    memset(monitor_bytes(), fill, (size_t)c_size);
    out = monitor_smc(pbeam_call_platform_token(monitor_buffer(), BUFFER_BYTES, c_size), 0);
    printf("monitor: token, c_size %" PRIu64 ": %s", c_size, pbeam_x0_text(pbeam_registers_x0(&out)));
    if (pbeam_registers_code(&out) == E_RMM_OK)
        printf(", hunk %" PRIu64 ", rest %" PRIu64, pbeam_registers_x1(&out), pbeam_registers_x2(&out));
    printf("\n");
    return out;
}

/* Draws a whole token for a challenge of bytes `fill`; in between it tries to start for `other`, if that is not 0. Returns whether each byte
 * is of the one token. */
static bool monitor_draw_token(int fill, int other)
{
    pbeam_registers_t out = monitor_token(PBEAM_CHALLENGE_SHA384, fill);
    size_t have = 0, wrong = 0;
    while (pbeam_registers_code(&out) == E_RMM_AGAIN)
        out = monitor_token(PBEAM_CHALLENGE_SHA384, fill);
    while (pbeam_registers_code(&out) == E_RMM_OK) {
        const size_t hunk = (size_t)pbeam_registers_x1(&out);
        for (size_t i = 0; i < hunk; i++)
            wrong += monitor_bytes()[i] != (uint8_t)((size_t)fill + have + i);
        have += hunk;
        if (pbeam_registers_x2(&out) == 0)
            break;
        if (other != 0)
            monitor_token(PBEAM_CHALLENGE_SHA384, other);
        out = monitor_token(PBEAM_CHALLENGE_NONE, 0);
    }
    printf("monitor: a token of %zu bytes, %zu of them wrong\n", have, wrong);
    return have == TOKEN_BYTES && wrong == 0;
}

/* A start one byte below the buffer: its first byte is a kept one. */
static bool monitor_token_in_manifest(void)
{
    const pbeam_registers_t out = monitor_smc(pbeam_call_platform_token(monitor_buffer() - 1, BUFFER_BYTES, PBEAM_CHALLENGE_SHA384), 0);
    printf("monitor: token, one byte below: %s\n", pbeam_x0_text(pbeam_registers_x0(&out)));
    return pbeam_registers_code(&out) == E_RMM_BAD_ADDR;
}

/* The RMI call of the Non-secure world ends with RMI_SUCCESS (0) and two results. */
static bool monitor_complete_rmi(void)
{
    const uint64_t *x;
    monitor_smc(pbeam_call_of(RMM_RMI_REQ_COMPLETE, 0, 0x1111, 0x2222, 0), 0);
    x = el3.non_secure[monitor.cpu];
    printf("Non-secure: x0 %" PRIu64 ", x1 0x%" PRIx64 ", x2 0x%" PRIx64 "\n", x[0], x[1], x[2]);
    return x[1] == 0x1111 && x[2] == 0x2222;
}

static bool monitor_push(uint64_t granule, uint64_t ticket)
{
    uint8_t hash[PBEAM_HASH_BYTES];
    pbeam_registers_t out;
    memset(hash, 0x3D, sizeof hash);
    pbeam_put_request(monitor_bytes(), granule, ticket, hash);
    out = monitor_smc(pbeam_call_push(monitor_buffer(), PBEAM_REQUEST_BYTES), 0);
    printf("monitor: push a request: %s\n", pbeam_x0_text(pbeam_registers_x0(&out)));
    return pbeam_registers_code(&out) == E_RMM_OK;
}

static int32_t monitor_pull(void)
{
    const pbeam_registers_t out = monitor_smc(pbeam_call_pull(monitor_buffer(), PBEAM_RESPONSE_BYTES_MOST), 0);
    pbeam_response_t response;
    printf("monitor: pull a response: %s\n", pbeam_x0_text(pbeam_registers_x0(&out)));
    if (pbeam_registers_code(&out) == E_RMM_OK && pbeam_get_response(monitor_bytes(), PBEAM_RESPONSE_BYTES_MOST, &response))
        printf("monitor: response: granule 0x%" PRIx64 ", ticket %" PRIu64 ", signature of %d bytes, the first 0x%02x\n",
               response.rec_granule, response.req_ticket, response.sig_len, response.signature_buf[0]);
    return pbeam_registers_code(&out);
}

/* ---- The run ---- */

static bool boot(void)
{
    el3.context.page = &page;
    el3.context.table = el3.table;
    el3.context.table_count = GRANULES;
    el3.context.words = el3.words;
    el3.context.words_count = pbeam_words_for(GRANULES);
    el3.context.mecid_width = PBEAM_WIDTH_MOST;
    /* This board has no realm key and no public key: both stay empty. */
    return el3_write_manifest() && el3_set_up_granules() && el3_build_words() && el3_boot_first_cpu() && el3_boot_next_cpu(1);
}

int main(void)
{
    const uint64_t granule = MEMORY + 2 * PBEAM_GRANULE_BYTES;
    uint64_t done;
    if (!boot() || !el3_count_realm(0))
        return 1;
    if (monitor_delegate(granule) != E_RMM_OK || monitor_delegate(granule) != E_RMM_BAD_PAS) /* it is Realm already */
        return 1;
    if (monitor_delegate(HIGH) != E_RMM_OK || monitor_delegate(MEMORY + MEMORY_BYTES) != E_RMM_BAD_ADDR) /* the hole after the first bank */
        return 1;
    if (!el3_count_realm(2))
        return 1;
    if (monitor_hand_over(300, &done) != E_RMM_OK || done != GUEST_GRANULES)
        return 1;
    if (monitor_hand_over(0, &done) != E_RMM_BAD_PAS || done != 2) /* granule 2 is Realm already */
        return 1;
    if (!el3_count_realm(2 + GUEST_GRANULES + 2) || !el3_words_agree())
        return 1;
    if (!monitor_draw_token(0x41, 0x91) || !monitor_draw_token(0x91, 0))
        return 1;
    if (!monitor_token_in_manifest() || !monitor_manifest_is_whole())
        return 1;
    if (!monitor_complete_rmi())
        return 1;
    if (!monitor_push(granule, 7) || monitor_pull() != E_RMM_AGAIN) /* nothing is signed yet */
        return 1;
    el3_sign_oldest();
    if (monitor_pull() != E_RMM_OK)
        return 1;
    if (!el3_boot_next_cpu(1)) /* the monitor reads the manifest again */
        return 1;
    if (monitor_boot_complete(E_RMM_BOOT_SUCCESS) != PBEAM_X0_UNK || !el3_is_up()) /* CPU 1 is not booting */
        return 1;
    monitor.out_of_memory = true;
    if (el3_boot_next_cpu(2) || el3_boot_next_cpu(1)) /* after the first error no CPU enters the monitor */
        return 1;
    if (monitor_boot_complete(E_RMM_BOOT_SUCCESS) != PBEAM_X0_UNK || el3_is_up()) /* nor does a success open the record again */
        return 1;
    return monitor_delegate(granule) == E_RMM_UNK ? 0 : 1;
}
