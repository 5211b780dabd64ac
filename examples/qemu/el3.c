/*
 * The EL3 firmware of the board: it boots the monitor, serves its SMCs with the library, and passes calls between host and monitor.
 *
 * Without RME the monitor is at Non-secure EL2, with it at Realm EL2. The host, in the role of the Non-secure world, is at Non-secure
 * EL1. The second CPU boots while the first waits for it. Then both call at the same time.
 *
 * One lock guards all that the CPUs share: the library's context (boot record, session, queue, table, words), the platform's tokens and keys,
 * the granule protection table, and which CPU is booting. A CPU takes it for the whole of a command: the copy of the challenge or of
 * a list, the call of the library, the step in hardware, the signer's step. Boots and RMM_BOOT_COMPLETE take it, since they write the record.
 * A CPU releases it before it leaves EL3 and before it waits for another CPU.
 */
#include "board.h"
#include "console.h"
#include "lock.h"
#include "platform.h"
#include "protection.h"

/* Calls of the host that go to the monitor. */
#define RMI_FIRST UINT64_C(0xC4000150)
#define RMI_LAST UINT64_C(0xC400018F)

#define SCR_NON_SECURE UINT64_C(0x531)           /* NS, HCE, RW, reserved ones */
#define SCR_REALM (SCR_NON_SECURE | UINT64_C(1) << 62) /* NSE */
#define SPSR_EL1 UINT64_C(0x3C5)                 /* interrupts masked, its own stack pointer */
#define SPSR_EL2 UINT64_C(0x3C9)

enum { EXIT_GOOD, EXIT_WRONG, EXIT_NO_BOOT, EXIT_FAULT };

struct context {
    uint64_t x[31], elr, spsr, scr;
    uint8_t *stack;
};
_Static_assert(offsetof(struct context, elr) == CONTEXT_ELR && offsetof(struct context, spsr) == CONTEXT_SPSR, "el3.S");
_Static_assert(offsetof(struct context, scr) == CONTEXT_SCR && offsetof(struct context, stack) == CONTEXT_STACK, "el3.S");

enum world { WORLD_MONITOR, WORLD_HOST, WORLDS };

__attribute__((section(".stacks"), aligned(16))) uint8_t stacks[CPUS][AREA];
volatile uint64_t el3_released;       /* RELEASED: the second CPU may start */
static volatile uint64_t second_done; /* it has booted */

/* A CPU in the monitor: RMM_BOOT_COMPLETE is accepted from one that is booting. */
enum cpu_state { CPU_NOT_STARTED, CPU_BOOTING, CPU_BOOTED };

/* The lock, and what it guards. */
struct lock el3_lock;
static struct {
    pbeam_context_t kit; /* EL3's own boot record is in it */
    uint8_t table[GRANULES];
    uint64_t words[(GRANULES + 63) / 64]; /* one bit for each granule of the table */
    uint64_t list[LIST_MOST]; /* EL3's copy of a list */
    enum cpu_state cpus[CPUS];
    bool quiet; /* commands print no line */
} el3;

/* What each CPU has for itself. */
static struct {
    struct context worlds[WORLDS];
    uint64_t most_stack, overflows;
} own[CPUS];

void semihost(uint64_t operation, const uint64_t *block);

_Noreturn static void end(uint64_t code)
{
    const uint64_t block[2] = {0x20026, code}; /* SYS_EXIT: the application ended, with this code */
    for (;;)
        semihost(0x18, block);
}

/* ---- Faults ---- */

static const char *fault_text(uint64_t esr)
{
    const uint64_t class = esr >> 26 & 63, status = esr & 63;
    if (class == 0x07)
        return "an FP or SIMD instruction";
    if (class == 0x25 && status == 0x21)
        return "an unaligned access";
    return "an exception";
}

_Noreturn void el3_fault(uint64_t esr, uint64_t elr, uint64_t far)
{
    say("EL3: stopped by %s\nEL3: esr 0x%x, elr 0x%x, far 0x%x\n", fault_text(esr), esr, elr, far);
    end(EXIT_FAULT);
}

/* ---- Stack ---- */

/* How many bytes of this CPU's area no longer have the pattern. Above EL3_STACK it is an overflow. */
static uint64_t stack_used(uint64_t cpu)
{
    const uint64_t *words = (const uint64_t *)stacks[cpu];
    size_t i = 0;
    while (i < AREA / 8 && words[i] == PAINT)
        i++;
    return AREA - 8 * i;
}

static void stack_check(uint64_t cpu, const char *what, uint64_t number)
{
    const uint64_t used = stack_used(cpu);
    if (used > own[cpu].most_stack)
        own[cpu].most_stack = used;
    if (used > EL3_STACK) {
        own[cpu].overflows++;
        say("EL3: WRONG: %s 0x%x took %d bytes of a stack of %d\n", what, number, used, (uint64_t)EL3_STACK);
    } else if ((settings() & SET_STACK) && !el3.quiet) {
        say("EL3: stack: %s 0x%x took %d bytes\n", what, number, used);
    }
}

/* ---- Boot ---- */

static bool write_manifest(void)
{
    static const pbeam_bank_t banks[] = {{.base = MEMORY, .size = MEMORY_BYTES}, {.base = HIGH, .size = HIGH_BYTES}};
    static const pbeam_region_t pci = {.base = 0x10000000, .size = 0x2EFF0000};
    pbeam_console_t console = {.base = UART, .map_pages = 1, .clk_in_hz = 24000000, .baud_rate = 115200};
    static const uint8_t name[] = {'v', 'i', 'r', 't'}, serial[PBEAM_SERIAL_BYTES] = {0x20, 0x26, 0x11, 0x16, 0, 0, 0, 7};
    static uint8_t fields[32];
    pbeam_lists_t lists = {
        .dram = banks, .dram_count = sizeof banks / sizeof banks[0], .console = &console, .console_count = 1, .coh = &pci, .coh_count = 1};
    size_t used = 0;
    uint32_t refusal;
    if (!pbeam_console_set_name(&console, "pl011") ||
        !pbeam_fields_add(fields, sizeof fields, &used, PBEAM_TAG_NAME, pbeam_bytes(name, sizeof name)) ||
        !pbeam_fields_add(fields, sizeof fields, &used, PBEAM_TAG_SERIAL, pbeam_bytes(serial, sizeof serial)))
        return false;
    lists.fields = pbeam_bytes(fields, used);
    refusal = pbeam_manifest_write(PAGE, PBEAM_EDITION_LAST, &lists, el3.kit.page);
    say("EL3: CPU 0 at level %d writes the manifest: %s\n", level(), pbeam_write_text(refusal));
    return refusal == PBEAM_WRITE_PAGE;
}

/* The granule record, of the banks that the manifest shows, and the Realm words of the table. */
static bool set_up_granules(void)
{
    pbeam_view_t view;
    uint64_t x0;
    if (pbeam_manifest_read(el3.kit.page, PAGE, PBEAM_EDITION_LAST, &view) != PBEAM_READ_ACCEPTED)
        return false;
    x0 = pbeam_context_set_up_granules(&el3.kit, el3.kit.page, &view);
    say("EL3: sets up %d banks, %d granules: %s\n", pbeam_view_count(el3.kit.page, &view, PBEAM_DRAM),
        pbeam_view_granules(el3.kit.page, &view), pbeam_x0_text(x0));
    return x0 == PBEAM_X0_OK && pbeam_context_build_words(&el3.kit) == PBEAM_X0_OK;
}

/* A world's first entry. */
static struct context *enter(uint64_t cpu, enum world world, uint64_t x0)
{
    struct context *to = &own[cpu].worlds[world];
    const bool monitor = world == WORLD_MONITOR;
    to->x[0] = x0;
    to->elr = monitor ? MONITOR : HOST;
    to->spsr = monitor ? SPSR_EL2 : SPSR_EL1;
    to->scr = monitor && has_rme() ? SCR_REALM : SCR_NON_SECURE;
    to->stack = stacks[cpu] + AREA;
    return to;
}

/* EL3's own record goes up before the monitor is entered, over the registers and the page that it passes. It keeps the bytes that the
 * manifest takes: no command writes there. */
static struct context *cold_boot(void)
{
    const uint64_t offered = settings() & SET_OLDER ? PBEAM_SIGNING_MINOR - 1 : PBEAM_INTERFACE_MINOR; /* a version of major 0 */
    const pbeam_cold_t x = {.cpu = 0, .version = offered, .cpus = CPUS, .base = PAGE};
    struct context *to = enter(0, WORLD_MONITOR, x.cpu);
    pbeam_view_t view;
    const bool shown = pbeam_manifest_read(el3.kit.page, PAGE, PBEAM_EDITION_LAST, &view) == PBEAM_READ_ACCEPTED;
    const uint64_t kept = shown ? pbeam_view_kept(el3.kit.page, &view) : 0; /* the cold boot answers for a refused page */
    const int32_t code = pbeam_record_cold_boot(&el3.kit.record, &x, CPUS, kept, el3.kit.page);
    say("EL3: cold boot of its own record: %s, %d bytes kept\n", pbeam_boot_text(code), pbeam_record_kept(&el3.kit.record));
    if (code != E_RMM_BOOT_SUCCESS)
        end(EXIT_NO_BOOT);
    el3.cpus[0] = CPU_BOOTING;
    if (settings() & SET_BROKEN)
        el3.kit.page->bytes[PBEAM_CORE_DRAM + PBEAM_SECTION_CHECKSUM] ^= 1;
    to->x[1] = x.version;
    to->x[2] = x.cpus;
    to->x[3] = x.base;
    return to;
}

static struct context *first_cpu(void)
{
    struct context *to;
    lock_take(&el3_lock);
    el3.kit.page = (pbeam_page_t *)PAGE;
    el3.kit.table = el3.table;
    el3.kit.table_count = GRANULES;
    el3.kit.words = el3.words;
    el3.kit.words_count = pbeam_words_for(GRANULES);
    platform_start(&el3.kit);
    if (!write_manifest() || !set_up_granules())
        end(EXIT_NO_BOOT);
    to = cold_boot();
    lock_release(&el3_lock);
    return to;
}

static struct context *next_cpu(uint64_t cpu)
{
    int32_t code;
    lock_take(&el3_lock);
    code = pbeam_record_warm_boot(&el3.kit.record, cpu);
    say("EL3: CPU %d at level %d, warm boot of its own record: %s\n", cpu, level(), pbeam_boot_text(code));
    if (code != E_RMM_BOOT_SUCCESS)
        end(EXIT_NO_BOOT);
    el3.cpus[cpu] = CPU_BOOTING;
    lock_release(&el3_lock);
    return enter(cpu, WORLD_MONITOR, cpu);
}

struct context *el3_start(uint64_t cpu)
{
    struct context *to;
    if (cpu == 0)
        console_on();
    protection_on(cpu);
    to = cpu == 0 ? first_cpu() : next_cpu(cpu);
    stack_check(cpu, "boot of CPU", cpu);
    return to;
}

/* The lock is free meanwhile: the second CPU takes it. */
static void start_second_cpu(void)
{
    el3_released = RELEASED;
    __asm__ volatile("dsb sy; sev" ::: "memory");
    while (!second_done)
        ;
}

/* x1 has 64 bits: one that is no int32_t, for example 2^32, is no code of 002, and an error as any other that is not 0. */
static const char *code_text(uint64_t x1)
{
    const int32_t code = (int32_t)(uint32_t)x1;
    return (uint64_t)(int64_t)code == x1 ? pbeam_boot_text(code) : "no boot code";
}

/* Whether RMM_BOOT_COMPLETE is accepted: from a CPU that is booting, unless a boot has failed, which closed the record. An error closes it. */
static bool boot_ends(uint64_t cpu, uint64_t x1)
{
    const bool accepted = el3.cpus[cpu] == CPU_BOOTING && pbeam_record_is_up(&el3.kit.record);
    if (!accepted)
        return false;
    el3.cpus[cpu] = x1 == E_RMM_BOOT_SUCCESS ? CPU_BOOTED : CPU_NOT_STARTED;
    if (x1 != E_RMM_BOOT_SUCCESS)
        pbeam_record_close(&el3.kit.record);
    return true;
}

/* RMM_BOOT_COMPLETE. After an error no CPU enters the monitor again; this one may still stop itself, and gets UNK until then. */
static struct context *boot_complete(uint64_t cpu, struct context *from)
{
    const uint64_t x1 = from->x[1];
    bool accepted;
    lock_take(&el3_lock);
    accepted = boot_ends(cpu, x1);
    say("EL3: CPU %d, boot complete with %d: %s\n", cpu, x1, accepted ? code_text(x1) : "not accepted");
    lock_release(&el3_lock);
    if (!accepted) {
        from->x[0] = PBEAM_X0_UNK;
        return from;
    }
    if (x1 != E_RMM_BOOT_SUCCESS)
        return from;
    if (cpu == 0)
        start_second_cpu();
    return enter(cpu, WORLD_HOST, 0);
}

/* ---- SMCs ---- */

/* How many granules are Realm, from the words alone, and the first of them. */
static void say_realm(void)
{
    uint64_t number, first;
    if (el3.quiet)
        return;
    if (pbeam_context_realm_count(&el3.kit, &number) != PBEAM_X0_OK)
        say("EL3: the Realm words do not fit the granule record\n"); /* not here: they were built */
    if (pbeam_context_realm_next(&el3.kit, 0, &first) == PBEAM_X0_OK)
        say("EL3: Realm granules: %d, the first is granule %d\n", number, first);
    else
        say("EL3: Realm granules: %d\n", number);
}

/* The hardware's part, after a command and under the same lock: otherwise another CPU could undelegate the granule in between, and the
 * table would be Non-secure where the hardware becomes Realm. */
static void act(const pbeam_call_t *call, const pbeam_registers_t *out, const pbeam_work_t *work)
{
    const uint64_t id = call->words[PBEAM_CALL_ID], granule = call->words[PBEAM_CALL_X1];
    if (pbeam_registers_code(out) == E_RMM_OK && id == RMM_GTSI_DELEGATE) {
        protection_to_realm(granule);
        say_realm();
    }
    if (pbeam_registers_code(out) == E_RMM_OK && id == RMM_GTSI_UNDELEGATE) {
        protection_to_non_secure(granule);
        say_realm();
    }
    if (pbeam_work_is(work, PBEAM_WORK_REPROGRAM) && !el3.quiet)
        say("EL3: a new key for mecid %d\n", pbeam_work_value(work));
}

/* RMM_RMI_REQ_COMPLETE: the host goes on, with err_code in x0 and what the monitor has in x2 to x5. The signer has time now. */
static struct context *forward(uint64_t cpu, const struct context *from, const pbeam_work_t *work)
{
    struct context *host = &own[cpu].worlds[WORLD_HOST];
    host->x[0] = pbeam_work_value(work);
    memcpy(&host->x[1], &from->x[2], 4 * sizeof host->x[0]);
    platform_sign(&el3.kit, el3.quiet);
    return host;
}

/* A command, under the lock: x0 to x2 are its answer, all other registers keep the monitor's values. */
static struct context *locked_command(uint64_t cpu, struct context *from)
{
    const pbeam_call_t call = pbeam_call_of(from->x[0], from->x[1], from->x[2], from->x[3], from->x[4]);
    pbeam_registers_t out;
    pbeam_work_t work;
    bool is_new;
    if (from->x[0] == RMM_RMI_REQ_COMPLETE && el3.cpus[cpu] != CPU_BOOTED) {
        from->x[0] = PBEAM_X0_UNK; /* no call of the Non-secure world is under way on a CPU that boots or whose boot failed */
        return from;
    }
    is_new = from->x[0] == RMM_ATTEST_GET_PLAT_TOKEN && platform_choose_token(&el3.kit, &call, el3.quiet);
    pbeam_context_call(&el3.kit, &call, &out, &work);
    if (is_new && pbeam_registers_code(&out) == E_RMM_OK)
        platform_token_is_lent();
    act(&call, &out, &work);
    if (pbeam_work_is(&work, PBEAM_WORK_FORWARD))
        return forward(cpu, from, &work);
    memcpy(from->x, out.words, sizeof out.words);
    return from;
}

static struct context *command(uint64_t cpu, struct context *from)
{
    struct context *to;
    lock_take(&el3_lock);
    to = locked_command(cpu, from);
    lock_release(&el3_lock);
    return to;
}

/* EL3's copy of the list at an offset in the page: the monitor on another CPU may write the page, also while EL3 is here. */
static const uint64_t *own_list(uint64_t offset, uint64_t count)
{
    const uint8_t *at = el3.kit.page->bytes + offset;
#ifdef NO_COPY /* for the run that must fail */
    (void)count;
    return (const uint64_t *)at;
#else
    memcpy(el3.list, at, count * sizeof el3.list[0]);
    return el3.list;
#endif
}

/* BOARD_LIST, under the lock. The library judges the addresses of the copy, and the hardware gets the same. */
static void delegate_list(uint64_t pa, uint64_t count, pbeam_registers_t *out)
{
    const uint64_t kept = pbeam_record_kept(&el3.kit.record);
    const uint64_t *list;
    *out = (pbeam_registers_t){{PBEAM_X0_OK}};
    if (!pbeam_record_is_up(&el3.kit.record))
        out->words[PBEAM_OUT_X0] = PBEAM_X0_UNK;
    else if (pa < PAGE + kept || pa >= PAGE + PBEAM_PAGE_BYTES)
        out->words[PBEAM_OUT_X0] = PBEAM_X0_BAD_ADDR;
    else if (count > LIST_MOST || count * 8 > PAGE + PBEAM_PAGE_BYTES - pa)
        out->words[PBEAM_OUT_X0] = PBEAM_X0_INVAL;
    if (pbeam_registers_code(out) != E_RMM_OK)
        return;
    list = own_list(pa - PAGE, count);
    pbeam_context_delegate_list(&el3.kit, list, count, out);
    for (uint64_t i = 0; i < pbeam_registers_x1(out); i++)
        protection_to_realm(list[i]);
    say_realm();
}

static struct context *board_list(struct context *from)
{
    pbeam_registers_t out;
    lock_take(&el3_lock);
    delegate_list(from->x[1], from->x[2], &out);
    lock_release(&el3_lock);
    memcpy(from->x, out.words, sizeof out.words);
    return from;
}

/* PLATFORM_GIVES. A product has no such call. */
static struct context *change_platform(struct context *from)
{
    uint64_t out[3] = {PBEAM_X0_OK};
    bool done;
    lock_take(&el3_lock);
    done = platform_gives(&el3.kit, from->x[1], from->x[2], from->x[3]);
    lock_release(&el3_lock);
    if (!done)
        out[0] = PBEAM_X0_INVAL;
    else
        say("EL3: has a realm key of %d bytes, tokens of %d, MECIDWidthm1 %d\n", from->x[1], from->x[2], from->x[3]);
    memcpy(from->x, out, sizeof out);
    return from;
}

/* BOARD_QUIET. A product has no such call. */
static struct context *set_quiet(struct context *from)
{
    lock_take(&el3_lock);
    el3.quiet = from->x[1] != 0;
    lock_release(&el3_lock);
    from->x[0] = PBEAM_X0_OK;
    return from;
}

static bool is_up(void)
{
    bool up;
    lock_take(&el3_lock);
    up = pbeam_record_is_up(&el3.kit.record);
    lock_release(&el3_lock);
    return up;
}

/* A call of the host: the monitor's last call, RMM_BOOT_COMPLETE or RMM_RMI_REQ_COMPLETE, comes back to it with the host's registers. */
static struct context *from_host(uint64_t cpu, struct context *from)
{
    struct context *monitor = &own[cpu].worlds[WORLD_MONITOR];
    if (from->x[0] == BOARD_QUIET)
        return set_quiet(from);
    if (from->x[0] < RMI_FIRST || from->x[0] > RMI_LAST || !is_up()) {
        from->x[0] = PBEAM_X0_UNK;
        return from;
    }
    memcpy(monitor->x, from->x, 8 * sizeof from->x[0]);
    return monitor;
}

/* What must be the same as the table: the Realm words, and the granule protection table. */
static bool agrees(void)
{
    bool same = true;
    if (pbeam_context_words_agree(&el3.kit) != PBEAM_X0_OK) {
        say("EL3: the Realm words are not those of the table\n");
        same = false;
    }
    if (!protection_agrees(el3.table)) {
        say("EL3: the granule protection is not that of the table\n");
        same = false;
    }
    return same;
}

/* The lock stays taken: no other CPU is served any more. */
_Noreturn static void off(uint64_t wrong)
{
    uint64_t most = 0, overflows = 0;
    lock_take(&el3_lock);
    for (size_t cpu = 0; cpu < CPUS; cpu++) {
        most = own[cpu].most_stack > most ? own[cpu].most_stack : most;
        overflows += own[cpu].overflows;
    }
    if (settings() & SET_STACK)
        say("EL3: stack: %d bytes at most\n", most);
    say("EL3: off; %d wrong, %d over the stack of %d bytes\n", wrong, overflows, (uint64_t)EL3_STACK);
    if (!agrees() || wrong != 0 || overflows != 0)
        end(EXIT_WRONG);
    end(pbeam_record_is_up(&el3.kit.record) ? EXIT_GOOD : EXIT_NO_BOOT);
}

static struct context *serve(uint64_t cpu, enum world world, struct context *from)
{
    if (from->x[0] == SYSTEM_OFF)
        off(from->x[1]);
    if (world == WORLD_HOST)
        return from_host(cpu, from);
    switch (from->x[0]) {
    case RMM_BOOT_COMPLETE: return boot_complete(cpu, from);
    case PLATFORM_GIVES: return change_platform(from);
    case BOARD_LIST: return board_list(from);
    default: return command(cpu, from);
    }
}

/* The first entry of the second CPU's host: the last line of its boot is printed, and CPU 0 may go on. */
static void note_boot(uint64_t cpu, const struct context *to)
{
    if (cpu == 0 || to != &own[cpu].worlds[WORLD_HOST] || second_done)
        return;
    __asm__ volatile("dsb sy" ::: "memory");
    second_done = 1;
}

struct context *el3_lower(struct context *from, uint64_t esr)
{
    const uint64_t cpu = this_cpu(), id = from->x[0];
    struct context *to;
    if (esr >> 26 != 0x17) /* SMC */
        el3_fault(esr, from->elr, 0);
    to = serve(cpu, from == &own[cpu].worlds[WORLD_HOST] ? WORLD_HOST : WORLD_MONITOR, from);
    stack_check(cpu, "call", id);
    note_boot(cpu, to);
    return to;
}
