/*
 * A stand-in for the monitor (RMM), at EL2. It boots from x0 to x3, draws a token while it boots, as 002 lets it, and then serves the
 * host's calls. Every answer of EL3 is compared with what the interface requires; differences are printed and counted.
 *
 * The buffers are at odd addresses, so that no word in them is aligned, and after the kept bytes, which hold the manifest: it is read again
 * after the token, at the warm boot and at the end.
 */
#include "potterbeam_types.h"

#include "board.h"
#include "console.h"
#include "lock.h"
#include "rmi.h"
#include "world.h"

#define CPUS_MOST 8 /* what the monitor is built for */

#define KEPT 232            /* bytes of the manifest: core, two banks, a console, a region, name and serial */
#define TOKEN_AT (KEPT + 1) /* offsets in the page */
#define KEY_AT 0x903
#define SIGN_AT 0xA05
#define TOKEN_BUFFER 64
#define OUTSIDE (PAGE + PBEAM_PAGE_BYTES)
#define ROOM (PBEAM_PAGE_BYTES - SIGN_AT) /* from the signing buffer to the page's end */

const char program[] = "monitor";
static pbeam_page_t *const page = (pbeam_page_t *)PAGE;
static pbeam_record_t record; /* the monitor's own */

/* ---- Calls of EL3 ---- */

struct step {
    const char *what;
    uint64_t x[5];   /* the call */
    uint64_t out[3]; /* the answer it must get */
};

static void take(const struct step *step)
{
    uint64_t x[8] = {step->x[0], step->x[1], step->x[2], step->x[3], step->x[4], 0x55, 0x66, 0x77};
    smc(x);
    say("monitor: %s: %s", step->what, pbeam_x0_text(x[0]));
    say(x[1] | x[2] ? ", %d, %d\n" : "\n", x[1], x[2]);
    expect("x0", x[0], step->out[0]);
    expect("x1", x[1], step->out[1]);
    expect("x2", x[2], step->out[2]);
    expect("x3, which stays", x[3], step->x[3]);
    expect("x7, which stays", x[7], 0x77);
}

static void take_all(const struct step *steps, size_t count)
{
    for (size_t i = 0; i < count; i++)
        take(&steps[i]);
}

#define TAKE_ALL(steps) take_all(steps, sizeof(steps) / sizeof(steps)[0])

static void bytes_are(const char *what, const uint8_t *at, size_t count, uint8_t first, uint8_t step)
{
    for (size_t i = 0; i < count; i++)
        expect(what, at[i], (uint8_t)(first + i * step));
}

/* ---- Boot ---- */

static void list_manifest(void)
{
    pbeam_view_t view;
    const int32_t code = pbeam_manifest_read(page, PAGE, PBEAM_EDITION_LAST, &view);
    const pbeam_bank_t bank = pbeam_view_dram(page, &view, 0), high = pbeam_view_dram(page, &view, 1);
    const pbeam_region_t region = pbeam_view_region(page, &view, PBEAM_COH, 0);
    const pbeam_bytes_t board = pbeam_view_board_name(page, &view), serial = pbeam_view_serial(page, &view);
    char of_board[PBEAM_NAME_MOST + 1];
    uint64_t number = 0;
    pbeam_console_t console; /* picked by name, at any place */
    const bool picked = pbeam_view_console_named(page, &view, "pl011", &console);
    for (size_t i = 0; i < board.length; i++)
        of_board[i] = (char)board.at[i];
    of_board[board.length] = '\0';
    for (size_t i = 0; i < serial.length; i++) /* as it is read, the first byte first */
        number = number << 8 | serial.at[i];
    say("monitor: manifest 0.%d: %s\n", pbeam_view_minor(&view), pbeam_read_text(code));
    say("monitor: banks 0x%x + 0x%x, 0x%x + 0x%x\n", bank.base, bank.size, high.base, high.size);
    say("monitor: device region 0x%x + 0x%x\n", region.base, region.size);
    say("monitor: console pl011 at 0x%x, %d baud\n", console.base, console.baud_rate);
    say("monitor: board %s, serial 0x%x\n", of_board, number);
    expect("manifest", (uint64_t)(int64_t)code, PBEAM_READ_ACCEPTED);
    expect("bank", bank.base, MEMORY);
    expect("second bank", high.base, HIGH);
    expect("console of the name", picked, true);
    expect("console", console.base, UART);
    expect("name", board.length, 4);
}

static void draw_token(void)
{
    const uint64_t at = PAGE + TOKEN_AT;
    const struct step busy = {"token for a challenge", {RMM_ATTEST_GET_PLAT_TOKEN, at, TOKEN_BUFFER, 48}, {PBEAM_X0_AGAIN}};
    const struct step start = {"token for the same challenge", {RMM_ATTEST_GET_PLAT_TOKEN, at, TOKEN_BUFFER, 48}, {PBEAM_X0_OK, 64, 36}};
    const struct step other = {"token for another challenge", {RMM_ATTEST_GET_PLAT_TOKEN, at, TOKEN_BUFFER, 48}, {PBEAM_X0_AGAIN}};
    const struct step rest = {"token goes on", {RMM_ATTEST_GET_PLAT_TOKEN, at, TOKEN_BUFFER}, {PBEAM_X0_OK, TOKEN_BYTES - TOKEN_BUFFER}};
    uint8_t *buffer = page->bytes + TOKEN_AT;
    memset(buffer, 0xC4, 48);
    take(&busy);
    take(&start);
    bytes_are("token's byte", buffer, TOKEN_BUFFER, 0xC4, 1);
    memset(buffer, 0x11, 48);
    take(&other);
    take(&rest);
    bytes_are("token's byte", buffer, TOKEN_BYTES - TOKEN_BUFFER, (uint8_t)(0xC4 + TOKEN_BUFFER), 1);
    list_manifest(); /* no hunk was written over it */
}

static bool has_signing(void)
{
    return pbeam_record_minor(&record) >= PBEAM_SIGNING_MINOR;
}

static void prepare(void)
{
    static const struct step key = {"realm key", {RMM_ATTEST_GET_REALM_KEY, PAGE + KEY_AT, 200}, {PBEAM_X0_OK, REALM_KEY_BYTES}};
    static const struct step signing[] = {
        {"features", {RMM_EL3_FEATURES}, {PBEAM_X0_OK, PBEAM_FEATURE_TOKEN_SIGNING}},
        {"public key, too early", {RMM_EL3_TOKEN_SIGN, PBEAM_OPCODE_KEY, PAGE + SIGN_AT, PUBLIC_KEY_BYTES}, {PBEAM_X0_AGAIN}},
    };
    if (has_signing())
        TAKE_ALL(signing);
    take(&key);
    bytes_are("realm key's byte", page->bytes + KEY_AT, REALM_KEY_BYTES, 0x21, 0);
    draw_token();
}

static void serve(uint64_t x[8]);

/* While EL3's record is not up. */
static const struct step after_error[] = {
    {"delegate after the error", {RMM_GTSI_DELEGATE, MEMORY}, {PBEAM_X0_UNK}},
    {"undelegate after the error", {RMM_GTSI_UNDELEGATE, MEMORY}, {PBEAM_X0_UNK}},
    {"realm key after the error", {RMM_ATTEST_GET_REALM_KEY, PAGE + KEY_AT, 200}, {PBEAM_X0_UNK}},
    {"token after the error", {RMM_ATTEST_GET_PLAT_TOKEN, PAGE + TOKEN_AT, TOKEN_BUFFER, 48}, {PBEAM_X0_UNK}},
    {"features after the error", {RMM_EL3_FEATURES}, {PBEAM_X0_UNK}},
    {"public key after the error", {RMM_EL3_TOKEN_SIGN, PBEAM_OPCODE_KEY, PAGE + SIGN_AT, PUBLIC_KEY_BYTES}, {PBEAM_X0_UNK}},
    {"key update after the error", {RMM_MECID_KEY_UPDATE, 9}, {PBEAM_X0_UNK}},
    {"boot complete after the error", {RMM_BOOT_COMPLETE}, {PBEAM_X0_UNK}},
};

/* The answer of RMM_BOOT_COMPLETE is the host's first call. After an error no call comes: EL3 serves nothing more. */
_Noreturn static void boot_complete(uint64_t code)
{
    uint64_t x[8] = {RMM_BOOT_COMPLETE, code};
    smc(x);
    if (code != E_RMM_BOOT_SUCCESS) {
        TAKE_ALL(after_error);
        off();
    }
    for (;;)
        serve(x);
}

_Noreturn void cold(uint64_t x0, uint64_t x1, uint64_t x2, uint64_t x3)
{
    const pbeam_cold_t x = {.cpu = x0, .version = x1, .cpus = x2, .base = x3};
    const pbeam_page_t *lent = (const pbeam_page_t *)x3;
    pbeam_view_t view;
    const bool shown = pbeam_manifest_read(lent, x3, PBEAM_EDITION_LAST, &view) == PBEAM_READ_ACCEPTED;
    const uint64_t kept = shown ? pbeam_view_kept(lent, &view) : 0; /* the cold boot answers for a refused page */
    const int32_t code = pbeam_record_cold_boot(&record, &x, CPUS_MOST, kept, lent);
    say("monitor: CPU %d at level %d%s, cold boot: %s\n", x0, level(), has_rme() ? " of the Realm world" : "", pbeam_boot_text(code));
    if (code == E_RMM_BOOT_SUCCESS) {
        say("monitor: %d CPUs, page at 0x%x, agreed minor %d, %d bytes kept\n", pbeam_record_cpus(&record), pbeam_record_base(&record),
            pbeam_record_minor(&record), pbeam_record_kept(&record));
        expect("kept bytes", pbeam_record_kept(&record), KEPT);
        list_manifest();
        expect_read("EL3's memory", SECURE_RAM, NO_ACCESS);
        prepare();
    }
    boot_complete(settings() & SET_HIGH ? UINT64_C(1) << 32 : (uint64_t)(int64_t)code);
}

_Noreturn void warm(uint64_t x0)
{
    const int32_t code = pbeam_record_warm_boot(&record, x0);
    say("monitor: CPU %d at level %d, warm boot: %s\n", x0, level(), pbeam_boot_text(code));
    list_manifest();
    boot_complete((uint64_t)(int64_t)code);
}

/* ---- Calls of the host ---- */

static bool is_realm; /* the host's granule */

/* Without RME there is no granule protection to see. */
static void read_granule(uint64_t granule)
{
    if (has_rme())
        expect_read("the granule", granule, is_realm ? 0 : NOT_THIS_WORLD);
}

static uint64_t change_granule(uint64_t id, uint64_t granule)
{
    uint64_t x[8] = {id, granule};
    read_granule(granule);
    smc(x);
    say("monitor: %s 0x%x: %s\n", id == RMM_GTSI_DELEGATE ? "delegate" : "undelegate", granule, pbeam_x0_text(x[0]));
    if (x[0] == PBEAM_X0_OK)
        is_realm = id == RMM_GTSI_DELEGATE;
    read_granule(granule);
    return x[0] == PBEAM_X0_OK ? RMI_SUCCESS : RMI_ERROR_INPUT;
}

static void put_request(uint64_t ticket)
{
    uint8_t hash[PBEAM_HASH_BYTES];
    memset(hash, (int)((0x30 + ticket) & 0xFF), sizeof hash);
    hash[1] = (uint8_t)(ticket >> 8);
    pbeam_put_request(page->bytes + SIGN_AT, MEMORY, ticket, hash);
}

static const struct step push = {
    "push a request", {RMM_EL3_TOKEN_SIGN, PBEAM_OPCODE_PUSH, PAGE + SIGN_AT, PBEAM_REQUEST_BYTES}, {PBEAM_X0_OK}};
static const struct step pull = {
    "pull a response", {RMM_EL3_TOKEN_SIGN, PBEAM_OPCODE_PULL, PAGE + SIGN_AT, PBEAM_RESPONSE_BYTES_MOST}, {PBEAM_X0_OK}};
static const struct step pull_none = {
    "pull a response", {RMM_EL3_TOKEN_SIGN, PBEAM_OPCODE_PULL, PAGE + SIGN_AT, PBEAM_RESPONSE_BYTES_MOST}, {PBEAM_X0_AGAIN}};

static void pull_ticket(uint64_t ticket)
{
    pbeam_response_t response;
    take(&pull);
    expect("response", pbeam_get_response(page->bytes + SIGN_AT, PBEAM_RESPONSE_BYTES_MOST, &response), true);
    expect("granule", response.rec_granule, MEMORY);
    expect("ticket", response.req_ticket, ticket);
    expect("signature's length", response.sig_len, SIGNATURE_BYTES);
    expect("signature's first byte", response.signature_buf[0], 0x30 + ticket);
    expect("signature's second byte", response.signature_buf[1], 0);
    bytes_are("signature's byte", response.signature_buf + 2, SIGNATURE_BYTES - 2, 0x5A, 0);
}

/* A realm asks for a token: the request at its first entry, the response at the next. */
static uint64_t rec_enter(void)
{
    static bool asked;
    if (asked) {
        pull_ticket(7);
    } else {
        put_request(7);
        take(&push);
        take(&pull_none);
    }
    asked = !asked;
    return RMI_SUCCESS;
}

static uint64_t refusals(void);
static uint64_t at_once_round(uint64_t number, uint64_t *result);
static uint64_t at_once_totals(void);
static uint64_t delegate_list(uint64_t number);
static uint64_t swap(void);

static uint64_t drain(void)
{
    struct step small = pull;
    small.what = "pull into too small a buffer";
    small.x[3] = PBEAM_RESPONSE_SIGNATURE + SIGNATURE_BYTES - 1;
    small.out[0] = PBEAM_X0_INVAL;
    take(&small);
    for (uint64_t ticket = 0; ticket < PBEAM_RESPONSES_MOST; ticket++)
        pull_ticket(ticket);
    take(&pull_none);
    return RMI_SUCCESS;
}

/* After all commands the manifest is still there. */
static uint64_t report(uint64_t *result)
{
    list_manifest();
    *result = wrong;
    return RMI_SUCCESS;
}

static uint64_t rmi(const uint64_t x[8], uint64_t *result)
{
    switch (x[0]) {
    case RMI_VERSION: *result = 0x10000; return RMI_SUCCESS;
    case RMI_GRANULE_DELEGATE: return change_granule(RMM_GTSI_DELEGATE, x[1]);
    case RMI_GRANULE_UNDELEGATE: return change_granule(RMM_GTSI_UNDELEGATE, x[1]);
    case RMI_REC_ENTER: return rec_enter();
    case RMI_REFUSALS: return refusals();
    case RMI_DRAIN: return drain();
    case RMI_REPORT: return report(result);
    case RMI_ROUND: return at_once_round(x[1], result);
    case RMI_TOTALS: return at_once_totals();
    case RMI_LIST: return delegate_list(x[1]);
    case RMI_SWAP: return swap();
    default: return RMI_ERROR_INPUT;
    }
}

/* One call of the host in x; its answer goes out by RMM_RMI_REQ_COMPLETE, whose own answer is the next call. */
static void serve(uint64_t x[8])
{
    uint64_t result = 0;
    const uint64_t status = rmi(x, &result);
    const uint64_t complete[8] = {RMM_RMI_REQ_COMPLETE, status, result};
    memcpy(x, complete, sizeof complete);
    smc(x);
}

/* ---- Refusals, in the order of the commands' checks. The first granule is Realm, the second Non-secure. ---- */

#define TOKEN(pa, size, c_size) {RMM_ATTEST_GET_PLAT_TOKEN, pa, size, c_size}
#define SIGN(opcode, pa, size, curve) {RMM_EL3_TOKEN_SIGN, opcode, pa, size, curve}
#define AT(offset) (PAGE + (offset))

static const struct step refused[] = {
    {"delegate between the banks", {RMM_GTSI_DELEGATE, MEMORY + MEMORY_BYTES}, {PBEAM_X0_BAD_ADDR}},
    {"delegate behind the banks", {RMM_GTSI_DELEGATE, HIGH + HIGH_BYTES}, {PBEAM_X0_BAD_ADDR}},
    {"delegate in mid-granule", {RMM_GTSI_DELEGATE, MEMORY + 8}, {PBEAM_X0_BAD_ADDR}},
    {"delegate a Realm granule", {RMM_GTSI_DELEGATE, MEMORY}, {PBEAM_X0_BAD_PAS}},
    {"undelegate before the banks", {RMM_GTSI_UNDELEGATE, MEMORY - PBEAM_GRANULE_BYTES}, {PBEAM_X0_BAD_ADDR}},
    {"undelegate right before the second", {RMM_GTSI_UNDELEGATE, HIGH - PBEAM_GRANULE_BYTES}, {PBEAM_X0_BAD_ADDR}},
    {"undelegate a Non-secure granule", {RMM_GTSI_UNDELEGATE, MEMORY + PBEAM_GRANULE_BYTES}, {PBEAM_X0_BAD_PAS}},
    {"realm key outside the page", {RMM_ATTEST_GET_REALM_KEY, OUTSIDE, 96}, {PBEAM_X0_BAD_ADDR}},
    {"realm key in the kept bytes", {RMM_ATTEST_GET_REALM_KEY, AT(KEPT - 1), 96}, {PBEAM_X0_BAD_ADDR}},
    {"realm key past the page", {RMM_ATTEST_GET_REALM_KEY, AT(4095), 2}, {PBEAM_X0_INVAL}},
    {"realm key of another curve", {RMM_ATTEST_GET_REALM_KEY, AT(KEY_AT), 96, 1}, {PBEAM_X0_INVAL}},
    {"realm key into too small a buffer", {RMM_ATTEST_GET_REALM_KEY, AT(KEY_AT), REALM_KEY_BYTES - 1}, {PBEAM_X0_UNK}},
    {"token outside the page", TOKEN(PAGE - 1, 64, 48), {PBEAM_X0_BAD_ADDR}},
    {"token in the kept bytes", TOKEN(AT(KEPT - 1), 64, 48), {PBEAM_X0_BAD_ADDR}},
    {"token past the page", TOKEN(AT(4033), 64, 48), {PBEAM_X0_INVAL}},
    {"token for 33 bytes of challenge", TOKEN(AT(TOKEN_AT), 64, 33), {PBEAM_X0_INVAL}},
    {"token for more challenge than buffer", TOKEN(AT(TOKEN_AT), 47, 48), {PBEAM_X0_INVAL}},
    {"token goes on without a session", TOKEN(AT(TOKEN_AT), 64, 0), {PBEAM_X0_INVAL}},
    {"features, register 1", {RMM_EL3_FEATURES, 1}, {PBEAM_X0_INVAL}},
    {"signing with opcode 4", SIGN(4, AT(SIGN_AT), 80, 0), {PBEAM_X0_INVAL}},
    {"push outside the page", SIGN(PBEAM_OPCODE_PUSH, OUTSIDE, 80, 0), {PBEAM_X0_INVAL}},
    {"push in the kept bytes", SIGN(PBEAM_OPCODE_PUSH, PAGE, 80, 0), {PBEAM_X0_INVAL}},
    {"pull into the kept bytes", SIGN(PBEAM_OPCODE_PULL, AT(KEPT - 1), 122, 0), {PBEAM_X0_INVAL}},
    {"public key into the kept bytes", SIGN(PBEAM_OPCODE_KEY, PAGE, PUBLIC_KEY_BYTES, 0), {PBEAM_X0_INVAL}},
    {"push past the page", SIGN(PBEAM_OPCODE_PUSH, AT(SIGN_AT), ROOM + 1, 0), {PBEAM_X0_INVAL}},
    {"push of 79 bytes", SIGN(PBEAM_OPCODE_PUSH, AT(SIGN_AT), 79, 0), {PBEAM_X0_INVAL}},
    {"public key of another curve", SIGN(PBEAM_OPCODE_KEY, AT(SIGN_AT), PUBLIC_KEY_BYTES, 1), {PBEAM_X0_INVAL}},
    {"public key into too small a buffer", SIGN(PBEAM_OPCODE_KEY, AT(SIGN_AT), PUBLIC_KEY_BYTES - 1, 0), {PBEAM_X0_INVAL}},
    {"public key", SIGN(PBEAM_OPCODE_KEY, AT(SIGN_AT), PUBLIC_KEY_BYTES, 0), {PBEAM_X0_OK, PUBLIC_KEY_BYTES}},
    {"key update of mecid 65,536", {RMM_MECID_KEY_UPDATE, 65536}, {PBEAM_X0_INVAL}},
    {"key update of mecid 9", {RMM_MECID_KEY_UPDATE, 9}, {PBEAM_X0_OK}},
    {"boot complete a second time", {RMM_BOOT_COMPLETE}, {PBEAM_X0_UNK}},
    {"a call that no one knows", {UINT64_C(0xC40001B7), 1, 2, 3, 4}, {PBEAM_X0_UNK}},
};

/* Refusals that depend on what the platform gives, which EL3 changes by its call for the test. A session outlives those within it. */
#define GIVES(key_bytes, token_bytes, width) {PLATFORM_GIVES, key_bytes, token_bytes, width}

static const struct step refused_by_platform[] = {
    {"platform to give no realm key", GIVES(0, TOKEN_BYTES, PBEAM_WIDTH_MOST), {PBEAM_X0_OK}},
    {"realm key that is not there", {RMM_ATTEST_GET_REALM_KEY, AT(KEY_AT), 96}, {PBEAM_X0_UNK}},
    {"platform to give empty tokens", GIVES(REALM_KEY_BYTES, 0, PBEAM_WIDTH_MOST), {PBEAM_X0_OK}},
    {"token for a challenge", TOKEN(AT(TOKEN_AT), TOKEN_BUFFER, 48), {PBEAM_X0_AGAIN}},
    {"token that is empty", TOKEN(AT(TOKEN_AT), TOKEN_BUFFER, 48), {PBEAM_X0_UNK}},
    {"platform to give whole tokens", GIVES(REALM_KEY_BYTES, TOKEN_BYTES, PBEAM_WIDTH_MOST), {PBEAM_X0_OK}},
    {"token for a challenge", TOKEN(AT(TOKEN_AT), TOKEN_BUFFER, 48), {PBEAM_X0_AGAIN}},
    {"token for the same challenge", TOKEN(AT(TOKEN_AT), TOKEN_BUFFER, 48), {PBEAM_X0_OK, TOKEN_BUFFER, TOKEN_BYTES - TOKEN_BUFFER}},
    {"platform to give shorter tokens", GIVES(REALM_KEY_BYTES, TOKEN_BYTES - 1, PBEAM_WIDTH_MOST), {PBEAM_X0_OK}},
    {"token of another length goes on", TOKEN(AT(TOKEN_AT), TOKEN_BUFFER, 0), {PBEAM_X0_UNK}},
    {"platform to give whole tokens, mecids of 8 bits", GIVES(REALM_KEY_BYTES, TOKEN_BYTES, 7), {PBEAM_X0_OK}},
    {"token goes on", TOKEN(AT(TOKEN_AT), TOKEN_BUFFER, 0), {PBEAM_X0_OK, TOKEN_BYTES - TOKEN_BUFFER}},
    {"key update of mecid 256", {RMM_MECID_KEY_UPDATE, 256}, {PBEAM_X0_INVAL}},
    {"key update of mecid 255", {RMM_MECID_KEY_UPDATE, 255}, {PBEAM_X0_OK}},
    {"platform to give mecids of 17 bits", GIVES(REALM_KEY_BYTES, TOKEN_BYTES, PBEAM_WIDTH_MOST + 1), {PBEAM_X0_OK}},
    {"key update with too great a width", {RMM_MECID_KEY_UPDATE, 9}, {PBEAM_X0_UNK}},
    {"platform to give more than it has", GIVES(REALM_KEY_BYTES, TOKEN_BYTES + 1, PBEAM_WIDTH_MOST), {PBEAM_X0_INVAL}},
    {"platform to give all as before", GIVES(REALM_KEY_BYTES, TOKEN_BYTES, PBEAM_WIDTH_MOST), {PBEAM_X0_OK}},
};

/* What an interface without token signing does not serve. The checks of the arguments come first. */
static const struct step refused_by_older[] = {
    {"features, register 1", {RMM_EL3_FEATURES, 1}, {PBEAM_X0_INVAL}},
    {"features", {RMM_EL3_FEATURES}, {PBEAM_X0_UNK}},
    {"signing with opcode 4", SIGN(4, AT(SIGN_AT), 80, 0), {PBEAM_X0_INVAL}},
    {"push a request", SIGN(PBEAM_OPCODE_PUSH, AT(SIGN_AT), PBEAM_REQUEST_BYTES, 0), {PBEAM_X0_UNK}},
    {"pull a response", SIGN(PBEAM_OPCODE_PULL, AT(SIGN_AT), PBEAM_RESPONSE_BYTES_MOST, 0), {PBEAM_X0_UNK}},
    {"public key", SIGN(PBEAM_OPCODE_KEY, AT(SIGN_AT), PUBLIC_KEY_BYTES, 0), {PBEAM_X0_UNK}},
    {"key update of mecid 65,536", {RMM_MECID_KEY_UPDATE, 65536}, {PBEAM_X0_INVAL}},
    {"key update of mecid 9", {RMM_MECID_KEY_UPDATE, 9}, {PBEAM_X0_UNK}},
};

static void platform_refusals(void)
{
    uint8_t *buffer = page->bytes + TOKEN_AT;
    memset(buffer, 0x3E, 48);
    TAKE_ALL(refused_by_platform);
    bytes_are("token's byte", buffer, TOKEN_BYTES - TOKEN_BUFFER, 0x3E + TOKEN_BUFFER, 1);
}

/* A push whose request has other ids. */
static void push_other(const char *what, size_t id)
{
    struct step step = push;
    step.what = what;
    step.out[0] = PBEAM_X0_INVAL;
    put_request(0);
    page->bytes[SIGN_AT + id] ^= 2;
    take(&step);
}

static void fill_queue(void)
{
    struct step full = push;
    full.what = "push a ninth request";
    full.out[0] = PBEAM_X0_AGAIN;
    for (uint64_t ticket = 0; ticket < PBEAM_REQUESTS_MOST; ticket++) {
        put_request(ticket);
        take(&push);
    }
    take(&full);
}

static uint64_t refusals(void)
{
    if (!has_signing()) {
        TAKE_ALL(refused_by_older);
        return RMI_SUCCESS;
    }
    TAKE_ALL(refused);
    platform_refusals();
    push_other("push for another algorithm", PBEAM_REQUEST_ALGORITHM);
    push_other("push for another hash", PBEAM_REQUEST_HASH_ID);
    fill_queue();
    if (settings() & SET_WRONG)
        take(&pull); /* nothing is signed yet: the answer is AGAIN */
    return RMI_SUCCESS;
}

/* ---- Two CPUs at the same time. Each prints nothing, and counts what it did and what was wrong. ---- */

#define ROUND_GRANULES (MEMORY + 64 * PBEAM_GRANULE_BYTES) /* of CPU 0 and CPU 1 in turn, so both change bits of one word */
#define SHARED_GRANULE (MEMORY + 63 * PBEAM_GRANULE_BYTES) /* of both */
#define TOKEN_ROUNDS 16 /* a token in each sixteenth round */

/* 002 makes the monitor responsible for the use of the page by one CPU at a time: it holds this from its first write to its last read. */
static struct lock page_lock;

static struct {
    uint64_t pushed, pulled; /* requests and responses */
    uint64_t tickets;        /* sum of the tickets pulled */
    uint64_t tokens;         /* drawn whole */
    uint64_t signatures;     /* over another ticket's hash */
    uint64_t answers;        /* other than the interface requires */
} tally[CPUS];

/* A call of EL3; returns x0. */
static uint64_t quiet_call(uint64_t id, uint64_t x1, uint64_t x2, uint64_t x3, uint64_t x[8])
{
    const uint64_t call[8] = {id, x1, x2, x3};
    memcpy(x, call, sizeof call);
    smc(x);
    return x[0];
}

static void must(uint64_t cpu, bool holds)
{
    tally[cpu].answers += !holds;
}

/* A granule of this CPU stays Realm. One of both is OK for the CPU that comes first, and only that CPU gives it back. */
static void round_granules(uint64_t cpu, uint64_t number)
{
    const uint64_t mine = ROUND_GRANULES + (2 * number + cpu) * PBEAM_GRANULE_BYTES;
    uint64_t x[8], x0;
    must(cpu, quiet_call(RMM_GTSI_DELEGATE, mine, 0, 0, x) == PBEAM_X0_OK);
    must(cpu, quiet_call(RMM_GTSI_DELEGATE, mine, 0, 0, x) == PBEAM_X0_BAD_PAS);
    x0 = quiet_call(RMM_GTSI_DELEGATE, SHARED_GRANULE, 0, 0, x);
    must(cpu, x0 == PBEAM_X0_OK || x0 == PBEAM_X0_BAD_PAS);
    if (x0 == PBEAM_X0_OK)
        must(cpu, quiet_call(RMM_GTSI_UNDELEGATE, SHARED_GRANULE, 0, 0, x) == PBEAM_X0_OK);
}

static void round_push(uint64_t cpu, uint64_t ticket)
{
    uint64_t x[8];
    lock_take(&page_lock);
    put_request(ticket);
    must(cpu, quiet_call(RMM_EL3_TOKEN_SIGN, PBEAM_OPCODE_PUSH, PAGE + SIGN_AT, PBEAM_REQUEST_BYTES, x) == PBEAM_X0_OK);
    lock_release(&page_lock);
    tally[cpu].pushed++;
}

/* Pulls one response, of any CPU's request. Returns whether there was one. */
static bool round_pull(uint64_t cpu)
{
    pbeam_response_t response;
    uint64_t x[8];
    bool there;
    lock_take(&page_lock);
    there = quiet_call(RMM_EL3_TOKEN_SIGN, PBEAM_OPCODE_PULL, PAGE + SIGN_AT, PBEAM_RESPONSE_BYTES_MOST, x) == PBEAM_X0_OK;
    must(cpu, there || x[0] == PBEAM_X0_AGAIN);
    if (there && pbeam_get_response(page->bytes + SIGN_AT, PBEAM_RESPONSE_BYTES_MOST, &response)) {
        const uint64_t ticket = response.req_ticket;
        tally[cpu].pulled++;
        tally[cpu].tickets += ticket;
        tally[cpu].signatures +=
            response.signature_buf[0] != (uint8_t)(0x30 + ticket) || response.signature_buf[1] != (uint8_t)(ticket >> 8);
    }
    lock_release(&page_lock);
    return there;
}

static void round_pull_all(uint64_t cpu)
{
    for (size_t i = 0; i < PBEAM_RESPONSES_MOST && round_pull(cpu); i++)
        ;
}

/* A whole session under the monitor's lock: there is one session for all CPUs. */
static void round_token(uint64_t cpu, uint64_t number)
{
    const uint64_t at = PAGE + TOKEN_AT;
    const uint8_t fill = (uint8_t)(2 * number + cpu), *buffer = page->bytes + TOKEN_AT;
    bool good;
    uint64_t x[8];
    lock_take(&page_lock);
    memset(page->bytes + TOKEN_AT, fill, 48);
    good = quiet_call(RMM_ATTEST_GET_PLAT_TOKEN, at, TOKEN_BUFFER, 48, x) == PBEAM_X0_AGAIN;
    good = quiet_call(RMM_ATTEST_GET_PLAT_TOKEN, at, TOKEN_BUFFER, 48, x) == PBEAM_X0_OK && x[2] == TOKEN_BYTES - TOKEN_BUFFER && good;
    for (size_t i = 0; i < TOKEN_BUFFER; i++)
        good = buffer[i] == (uint8_t)(fill + i) && good;
    good = quiet_call(RMM_ATTEST_GET_PLAT_TOKEN, at, TOKEN_BUFFER, 0, x) == PBEAM_X0_OK && x[2] == 0 && good;
    for (size_t i = 0; i < TOKEN_BYTES - TOKEN_BUFFER; i++)
        good = buffer[i] == (uint8_t)(fill + TOKEN_BUFFER + i) && good;
    lock_release(&page_lock);
    must(cpu, good);
    tally[cpu].tokens += good;
}

/* One round: EL3 signs what waits when the host's call is complete. */
static uint64_t at_once_round(uint64_t number, uint64_t *result)
{
    const uint64_t cpu = this_cpu();
    *result = 0;
    round_granules(cpu, number);
    round_pull_all(cpu);
    round_push(cpu, 2 * number + cpu);
    if (number % TOKEN_ROUNDS == 0)
        round_token(cpu, number);
    return RMI_SUCCESS;
}

/* ---- Lists in the page, which the other CPU changes ---- */

#define LIST_AT 0xC00                       /* offset in the page, a multiple of 8 */
#define LIST_GRANULES (MEMORY + 0x800000)   /* and as many 16 MiB after it, where byte 3 of the address is one more */
#define SWAPPED 3                           /* that byte */

static volatile bool swapping, lists_done;

/* Writes each address of a list but its byte 3, which is the other CPU's. Each list has granules of its own. */
static void put_list(uint64_t number)
{
    for (uint64_t i = 0; i < LIST_MOST; i++) {
        const uint64_t address = LIST_GRANULES + (number * LIST_MOST + i) * PBEAM_GRANULE_BYTES;
        uint8_t *at = page->bytes + LIST_AT + 8 * i;
        for (uint64_t byte = 0; byte < 8; byte++)
            if (byte != SWAPPED)
                at[byte] = (uint8_t)(address >> 8 * byte);
    }
}

/* With either byte 3 the address is that of a Non-secure granule: the whole list is OK. */
static uint64_t delegate_list(uint64_t number)
{
    uint64_t x[8];
    while (!swapping)
        ;
    put_list(number);
    must(0, quiet_call(BOARD_LIST, PAGE + LIST_AT, LIST_MOST, 0, x) == PBEAM_X0_OK && x[1] == LIST_MOST);
    lists_done = number == LISTS - 1;
    return RMI_SUCCESS;
}

/* Changes byte 3 of each address, between two granules, until the last list is done. A monitor that does this breaks 002; EL3 cannot stop it. */
static uint64_t swap(void)
{
    volatile uint8_t *at = page->bytes + LIST_AT + SWAPPED;
    for (uint64_t n = 0; !lists_done; n++) {
        for (uint64_t i = 0; i < LIST_MOST; i++)
            at[8 * i] = (uint8_t)((LIST_GRANULES >> 24) + ((n + i) & 1));
        swapping = true;
    }
    return RMI_SUCCESS;
}

/* ---- The sums are the same for any order of the two CPUs' calls. ---- */

static uint64_t at_once_totals(void)
{
    const uint64_t requests = CPUS * ROUNDS, before = wrong;
    round_pull_all(0);
    say("monitor: both CPUs: %d requests, %d responses, %d tokens\n", tally[0].pushed + tally[1].pushed, tally[0].pulled + tally[1].pulled,
        tally[0].tokens + tally[1].tokens);
    expect("responses", tally[0].pulled + tally[1].pulled, requests);
    expect("sum of the tickets", tally[0].tickets + tally[1].tickets, requests * (requests - 1) / 2);
    expect("tokens", tally[0].tokens + tally[1].tokens, CPUS * ROUNDS / TOKEN_ROUNDS);
    expect("signatures over another ticket's hash", tally[0].signatures + tally[1].signatures, 0);
    expect("answers that one CPU alone would not get", tally[0].answers + tally[1].answers, 0);
    say("monitor: both CPUs at once: %s\n", wrong == before ? "as one after another" : "NOT as one after another");
    return RMI_SUCCESS;
}
