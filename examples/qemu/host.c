/* A stand-in for the Non-secure world, at EL1: it calls the monitor and prints what EL3 forwards. At the end it turns the board off. */
#include "potterbeam.h"

#include "board.h"
#include "console.h"
#include "rmi.h"
#include "world.h"

const char program[] = "host";

/* A call of the monitor; its error and its result must be these. */
static void call(const char *what, uint64_t id, uint64_t x1, uint64_t error, uint64_t result)
{
    uint64_t x[8] = {id, x1};
    smc(x);
    say("host: %s: error %d, result 0x%x\n", what, x[0], x[1]);
    expect("error", x[0], error);
    expect("result", x[1], result);
}

/* Without RME there is no granule protection to see. */
static void read_granule(uint64_t status)
{
    if (has_rme())
        expect_read("the granule", MEMORY, status);
}

static void granules(void)
{
    call("delegate the last granule of the second bank", RMI_GRANULE_DELEGATE, HIGH + HIGH_BYTES - 4096, RMI_SUCCESS, 0);
    call("undelegate it", RMI_GRANULE_UNDELEGATE, HIGH + HIGH_BYTES - 4096, RMI_SUCCESS, 0);
    read_granule(0);
    call("delegate a granule", RMI_GRANULE_DELEGATE, MEMORY, RMI_SUCCESS, 0);
    read_granule(NOT_THIS_WORLD);
    call("delegate it again", RMI_GRANULE_DELEGATE, MEMORY, RMI_ERROR_INPUT, 0);
}

static void tokens(void)
{
    call("enter a realm", RMI_REC_ENTER, 0, RMI_SUCCESS, 0);
    call("enter it again", RMI_REC_ENTER, 0, RMI_SUCCESS, 0);
    call("refusals", RMI_REFUSALS, 0, RMI_SUCCESS, 0);
    call("drain the queue", RMI_DRAIN, 0, RMI_SUCCESS, 0);
}

/* ---- Two CPUs at the same time ---- */

enum phase { NOT_BEGUN, IN_ROUNDS, IN_SWAP, AT_END };
static volatile enum phase wanted, reached; /* what CPU 0 wants CPU 1 to do, and what CPU 1 does */
static volatile uint64_t failed[CPUS];      /* calls that did not return RMI_SUCCESS with result 0 */

/* A call of the monitor, which calls EL3. It prints nothing: the lines would come in any order. */
static void quiet_call(uint64_t cpu, uint64_t id, uint64_t x1)
{
    uint64_t x[8] = {id, x1};
    smc(x);
    failed[cpu] += x[0] != RMI_SUCCESS || x[1] != 0;
}

static void rounds(uint64_t cpu)
{
    for (uint64_t i = 0; i < ROUNDS; i++)
        quiet_call(cpu, RMI_ROUND, i);
}

static void set(volatile enum phase *which, enum phase phase)
{
    __asm__ volatile("dsb sy" ::: "memory");
    *which = phase;
    __asm__ volatile("dsb sy; sev" ::: "memory");
}

static void wait_for(const volatile enum phase *which, enum phase phase)
{
    while (*which < phase)
        ;
    __asm__ volatile("dsb sy" ::: "memory");
}

static void set_quiet(uint64_t quiet)
{
    uint64_t x[8] = {BOARD_QUIET, quiet};
    smc(x);
    expect("quiet", x[0], PBEAM_X0_OK);
}

/* Both CPUs run their rounds. Then CPU 0 has lists delegated, while CPU 1 changes their addresses. */
static void both_at_once(void)
{
    set_quiet(1);
    set(&wanted, IN_ROUNDS);
    rounds(0);
    wait_for(&reached, IN_SWAP); /* its rounds are done */
    for (uint64_t i = 0; i < LISTS; i++)
        quiet_call(0, RMI_LIST, i);
    wait_for(&reached, AT_END);
    set_quiet(0);
    say("host: %d rounds on each of %d CPUs, at the same time; %d lists\n", (uint64_t)ROUNDS, (uint64_t)CPUS, (uint64_t)LISTS);
    expect("failed calls of CPU 0", failed[0], 0);
    expect("failed calls of CPU 1", failed[1], 0);
    call("totals", RMI_TOTALS, 0, RMI_SUCCESS, 0);
}

_Noreturn void cold(void)
{
    say("host: at level %d\n", level());
    call("version", RMI_VERSION, 0, RMI_SUCCESS, 0x10000);
    granules();
    if (settings() & SET_OLDER)
        call("refusals", RMI_REFUSALS, 0, RMI_SUCCESS, 0);
    else {
        tokens();
        both_at_once();
    }
    call("undelegate the granule", RMI_GRANULE_UNDELEGATE, MEMORY, RMI_SUCCESS, 0);
    read_granule(0);
    call("a call that the monitor does not know", RMI_UNKNOWN, 0, RMI_ERROR_INPUT, 0);
    call("report", RMI_REPORT, 0, RMI_SUCCESS, 0); /* its result: what was wrong in the monitor */
    off();
}

/* The second CPU: it does what the first wants, and then waits for ever. */
_Noreturn void warm(void)
{
    wait_for(&wanted, IN_ROUNDS);
    rounds(1);
    set(&reached, IN_SWAP);
    quiet_call(1, RMI_SWAP, 0);
    set(&reached, AT_END);
    for (;;)
        __asm__ volatile("wfi");
}
