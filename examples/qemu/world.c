#include "world.h"

#include "board.h"
#include "console.h"

__attribute__((section(".stacks"), aligned(16))) uint8_t stacks[CPUS][AREA];
uint64_t wrong;

uint64_t probe(uint64_t address);

_Noreturn void off(void)
{
    uint64_t x[8] = {SYSTEM_OFF, wrong};
    for (;;)
        smc(x);
}

/* From world.S: an exception that no read of expect_read made. */
_Noreturn void unexpected(uint64_t esr, uint64_t elr, uint64_t far)
{
    say("%s: WRONG: an exception: esr 0x%x, elr 0x%x, far 0x%x\n", program, esr, elr, far);
    wrong++;
    off();
}

void expect(const char *what, uint64_t got, uint64_t wanted)
{
    if (got == wanted)
        return;
    wrong++;
    say("%s: WRONG: %s: %d, not %d\n", program, what, got, wanted);
}

void expect_read(const char *what, uint64_t address, uint64_t status)
{
    const uint64_t esr = probe(address), got = esr & 63;
    say("%s: reads %s: %s\n", program, what, esr == 0 ? "works" : got == NOT_THIS_WORLD ? "granule protection fault" : "fault");
    expect("fault status", got, status);
}
