#!/usr/bin/env python3
"""Run vectors for H_TPM_COMM, made from the rules alone (docs/RULES.md: TP1 to TP9; request E9).

Run from the repository's root:  python3 tests/tpm/make.py
It rewrites crates/tpm_vectors/data/c000, c001, .. (8-byte words: the memory's length and seed and
the session; then for each call operation, in_buffer, in_size, out_buffer, out_size, the response's
length and seed, forbidden, fault), crates/tpm_vectors/stdout (what the program has to print for
them) and tests/tpm/CASES.md (what each call is for). Memory and response are given by a seed, and
the request and the memory after a call are compared by FNV-1a of 64 bits, so the files are small.
The same run always gives the same bytes.
"""

from collections import Counter, namedtuple
from itertools import combinations
from pathlib import Path
from random import Random
import sys

# The folder that the command line names, else the repository.
ROOT = Path(sys.argv[1]) if sys.argv[1:] else Path(__file__).resolve().parents[2]
HERE = ROOT / "tests" / "tpm"
CRATE = ROOT / "crates" / "tpm_vectors"

EXECUTE, CLOSE = 1, 2
WORD = 2**64
SIZES = (0, 1, 4095, 4096, 4097)
MEMORIES = (0, 1, 4096, 65536)
NUMBERS = {"H_SUCCESS": 0, "H_FUNCTION": -2, "H_PARAMETER": -4, "H_RESOURCE": -16, "H_P2": -55,
           "H_P3": -56, "H_P4": -57, "H_P5": -58}
ORDER = ("H_FUNCTION", "H_PARAMETER", "H_P2", "H_P3", "H_P4", "H_P5", "H_RESOURCE")
Call = namedtuple("Call", "text operation at size out room length seed forbidden fault")
Case = namedtuple("Case", "heading memory seed session calls")
Result = namedtuple("Result", "name r4 session memory request")
CASES = []


# ---- The call, from docs/RULES.md, chapter 21. All arithmetic is on plain numbers. ----

def seeded(length, seed):
    out, x = bytearray(), seed % 65521
    for _ in range(length):
        x = (x * 171 + 11213) % 65521
        out.append(x % 256)
    return bytes(out)


def failing(call, memory):
    """Every refusal whose condition holds, in the order of TP3. The first of them is the answer."""
    end, execute = len(memory), call.operation == EXECUTE
    holds = {
        "H_FUNCTION": call.forbidden != 0,
        "H_PARAMETER": call.operation not in (EXECUTE, CLOSE),
        "H_P2": execute and not call.at < end,
        "H_P3": execute and (call.size > 4096 or call.at + call.size > end),
        "H_P4": execute and not call.out < end,
        "H_P5": execute and (call.room < 4096 or call.out + call.room > end),
        "H_RESOURCE": execute and (call.fault != 0 or call.length > call.room)}
    return [name for name in ORDER if holds[name]]


def request_of(call, memory):
    """Offset and bytes of the request; nothing for close or before a refusal of the buffers."""
    refused = [name for name in failing(call, memory) if name != "H_RESOURCE"]
    if call.operation != EXECUTE or refused or call.size == 0:
        return 0, b""
    return call.at, memory[call.at:call.at + call.size]


def run(call, session, memory):
    fails, request = failing(call, memory), request_of(call, memory)
    if fails:
        return Result(fails[0], 0, session, memory, request)
    if call.operation == CLOSE:
        return Result("H_SUCCESS", 0, 0, memory, request)
    response = seeded(call.length, call.seed)
    after = memory[:call.out] + response + memory[call.out + len(response):]
    return Result("H_SUCCESS", len(response), 1, after, request)


# ---- The cases ----

def execute(text, at=0, size=16, out=0, room=4096, length=4096, operation=EXECUTE, forbidden=0,
            fault=0):
    seed = 1 + sum(len(case.calls) for case in CASES)
    return Call(text, operation, at, size, out, room, length, seed, forbidden, fault)


def close(text, **others):
    return execute(text, operation=CLOSE, **others)


def case(heading, memory, session=0):
    CASES.append(Case(heading, memory, 100 + len(CASES), session, []))
    return CASES[-1].calls.append


def around(end, size):
    """Starts of a buffer: 0, so that it ends at the end, one further, at the end and around it."""
    starts = {0, 1, end - 1, end, end + 1, end - size, end - size + 1, WORD - 1, WORD - size}
    return sorted(start for start in starts if 0 <= start < WORD)


def memories():
    for end in MEMORIES:
        add = case(f"Request in a memory of {end:,} bytes", end)
        for size in SIZES:
            for at in around(end, size):
                add(execute(f"in_buffer {at:#x}, in_size {size:,}", at=at, size=size))
        add = case(f"Output in a memory of {end:,} bytes", end, session=1)
        for room in (*SIZES, 65535, 65536, 65537):
            for out in around(end, room):
                add(execute(f"out_buffer {out:#x}, out_size {room:,}", size=0, out=out, room=room,
                            length=min(room, 200)))


def wrapping():
    add = case("Sums that wrap", 65536)
    for start in (1, 4096, 65535):
        for past in (0, 1, 4096):
            size = WORD - start + past
            if size < WORD:
                add(execute(f"in_size 2^64 - {start - past}", at=start, size=size))
                add(execute(f"out_size 2^64 - {start - past}", out=start, room=size))
    for half in (2**32, 2**63):
        for part in (0, 16, 4096):
            add(execute(f"in_buffer {half + part:#x}", at=half + part))
            add(execute(f"in_size {half + part:#x}", size=half + part))
            add(execute(f"out_buffer {half + part:#x}", out=half + part))
            add(execute(f"out_size {half + part:#x}", room=half + part))


def responses():
    add = case("Responses, and both buffers at one address", 65536)
    for room in (4096, 4097, 8192, 65536):
        for length in sorted({0, 1, 4095, 4096, 4097, room - 1, room, room + 1}):
            add(execute(f"response of {length:,} bytes, out_size {room:,}", room=room, at=60000,
                        length=length))
    for length in (0, 1, 16, 4096):
        add(execute(f"one address, response of {length:,} bytes", at=8192, size=4096, out=8192,
                    length=length))
        add(execute(f"request in the middle of the output, {length:,} bytes", at=9000, size=100,
                    out=8192, length=length))
    add(execute("output that begins in the request", at=20000, size=4096, out=22000))


def operations():
    add = case("Operations", 65536)
    for operation in (0, 1, 2, 3, 4, 0xEF10, 2**31, 2**32, 2**32 + 1, 2**32 + 2, 2**33 + 1,
                      2**63 + 2, WORD - 1, WORD - 2, 256 + 1):
        add(execute(f"operation {operation:#x}", operation=operation))
    for session in (0, 1):
        add = case(f"Close and the session, at the start {'open' if session else 'none'}", 8192,
                   session)
        add(close("close"))
        add(close("close again"))
        add(execute("execute that is refused: fault", fault=1))
        add(execute("execute that is refused: response too long", length=4097))
        add(execute("execute that is refused: H_P2", at=8192))
        add(close("close", fault=1, at=WORD - 1, out=WORD - 1, room=0, size=WORD - 1))
        add(execute("execute", length=10))
        add(execute("execute in an open session", length=20))
        add(execute("refused in an open session", fault=1))
        add(close("close that is forbidden", forbidden=1))
        add(execute("forbidden", forbidden=1))
        add(execute("operation 3", operation=3))
        add(close("close", length=9000))
    add = case("What the platform says, as any number", 8192)
    for flag in (1, 2, 256, 2**32, 2**63):
        add(execute(f"forbidden {flag:#x}", forbidden=flag))
        add(execute(f"fault {flag:#x}", fault=flag))


def together():
    """Each refusal alone, and each pair together: the first in order is the answer."""
    breaks = {"H_FUNCTION": {"forbidden": 1}, "H_PARAMETER": {"operation": 2**32 + 1},
              "H_P2": {"at": 65536, "size": 0}, "H_P3": {"size": 4097}, "H_P4": {"out": 65536},
              "H_P5": {"room": 4095}, "H_RESOURCE": {"fault": 1}}
    add = case("Refusals, alone and in pairs", 65536)
    for names in [(), *((name,) for name in breaks), *combinations(breaks, 2)]:
        how = {}
        for name in names:
            how.update(breaks[name])
        add(execute(" and ".join(names) or "none", length=4000, **how))
    for length in (4097, 4096):
        add(execute(f"H_P5 and a response of {length:,} bytes", room=4095, length=length))
        add(execute(f"H_P3 past the end and a response of {length:,} bytes", at=65535, size=2,
                    length=length))


def random_calls():
    dice = Random(9)
    for n in range(4):
        end = (4096, 8192, 20000, 65536)[n]
        add = case(f"Random calls in a memory of {end:,} bytes", end, session=n % 2)
        for i in range(40):
            room = 4096 + dice.randrange(max(1, end - 4095))
            call = {
                "at": dice.randrange(end), "size": dice.choice((dice.randrange(4097), 64, 64)),
                "out": dice.choice((0, max(0, end - room), dice.randrange(end))), "room": room,
                "length": dice.randrange(room + 2), "forbidden": int(dice.random() < 0.05),
                "fault": int(dice.random() < 0.1),
                "operation": dice.choice((EXECUTE,) * 6 + (CLOSE,) * 2 + (dice.randrange(WORD),))}
            add(execute(f"random call {i}", **call))


# ---- Output ----

def digest(data):
    x = 0xCBF29CE484222325
    for byte in data:
        x = (x ^ byte) * 0x100000001B3 % WORD
    return x


def words(*numbers):
    return b"".join(number.to_bytes(8, "little") for number in numbers)


def check(seen):
    """Every answer occurs; each refusal's condition holds alone and with each other one, as far as
    it can: those after H_PARAMETER are for execute only, and an output that begins at the memory's
    end or after it also ends after it or is too small."""
    tally = Counter(result.name for _, result, _ in seen)
    assert set(tally) == set(NUMBERS), tally
    sets = {frozenset(fails) for _, _, fails in seen}
    for names in [(), *((name,) for name in ORDER), *combinations(ORDER, 2)]:
        held = set(names) - set(ORDER[2:]) if "H_PARAMETER" in names else set(names)
        assert held | ({"H_P5"} if "H_P4" in held else set()) in sets, names
    for call, result, fails in seen:
        assert (result.name == "H_SUCCESS") == (not fails), call
    assert len(CASES) <= 1000 and all(24 + 72 * len(case.calls) <= 32768 for case in CASES)
    print(", ".join(f"{n} {name}" for name, n in sorted(tally.items())))
    print(f"{len(CASES)} cases, {len(seen)} calls")


def write_all():
    """Run the cases; write the data files, stdout and CASES.md."""
    data = CRATE / "data"
    data.mkdir(parents=True, exist_ok=True)
    HERE.mkdir(parents=True, exist_ok=True)
    for stale in data.glob("c*"):
        stale.unlink()
    stdout, table, seen = "", "# H_TPM_COMM cases\n\nWritten by make.py; do not edit.\n", []
    for n, (heading, end, seed, session, calls) in enumerate(CASES):
        memory, held = seeded(end, seed), words(end, seed, session)
        stdout += f"case {n:03}\n"
        table += f"\n## {n:03}: {heading}\n\n"
        table += "| Call | Answer | r4 | Session after |\n|---|---|---|---|\n"
        for call in calls:
            result = run(call, session, memory)
            seen.append((call, result, failing(call, memory)))
            session, memory = result.session, result.memory
            held += words(*call[1:])
            at, request = result.request
            name, r4 = result.name, result.r4
            stdout += (f"request {at:x} {len(request):x} {digest(request):x} r3 -{-NUMBERS[name]} "
                       f"r4 {r4:x} session {session} memory {digest(memory):x}\n")
            table += f"| {call.text} | `{name}` | {r4:,} | {'open' if session else 'none'} |\n"
        (data / f"c{n:03}").write_bytes(held)
    (CRATE / "stdout").write_text(stdout)
    (HERE / "CASES.md").write_text(table)
    check(seen)


if __name__ == "__main__":
    for group in (memories, wrapping, responses, operations, together, random_calls):
        group()
    write_all()
