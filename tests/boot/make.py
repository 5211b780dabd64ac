#!/usr/bin/env python3
"""Run vectors for the cold and warm boot checks, made from the rules alone (docs/RULES.md: BT1 to
BT7; request E5).

Run from the repository's root:  python3 tests/boot/make.py
It rewrites crates/boot_vectors/data/c000, c001, .. (8-byte words: the record's state, cpus, base,
minor and kept bytes, the number of steps; then for each step its kind, x0 to x3, the monitor's
maximum, the kept bytes, the page's length, the page), crates/boot_vectors/stdout (what the program
has to print for them in order) and tests/boot/CASES.md (what each case is for). The same run always
gives the same bytes.
With a folder as its argument it writes them below that folder.
"""

import sys
from collections import Counter, namedtuple
from itertools import combinations
from pathlib import Path
from random import Random

HERE = Path(__file__).resolve().parent

sys.dont_write_bytecode = True
sys.path[:0] = [str(HERE.parent), str(HERE.parent / "reader")]
from make import (B, CHOICE, HEAD, JUNK, NAME, PAGE, PLACE, SAMPLE, SERIAL, TOP, WORD, Page,
                  broken, example_14, field, field_pages, full, kept_for, read, with_entry)
from vectors import write_all

ONES = WORD - 1
STATES, KINDS = ("fresh", "up", "closed"), ("cold", "warm")     # a file has the index
# What is kept last is K, the number of bytes at the page's start that no command may write.
Record = namedtuple("Record", "state cpus base minor kept", defaults=(0,))
Step = namedtuple("Step", "kind x0 x1 x2 x3 most kept page")
Case = namedtuple("Case", "text record steps answers")          # answers as run gives them
FRESH, UP, CLOSED = Record("fresh", 0, 0, 0), Record("up", 8, B, 4), Record("closed", 0, 0, 0)


# ---- Boot, from docs/RULES.md in its order. All arithmetic is on plain numbers. ----

def code_of(record, step):
    """The code of the first check that fails, 0 if none does."""
    if record.state != ("fresh" if step.kind == "cold" else "up"):
        return -1
    if step.kind == "warm":
        return -4 if step.x0 >= record.cpus else 0
    minor, major, bit31 = step.x1 % 2**16, step.x1 // 2**16 % 2**15, step.x1 // 2**31 % 2
    if step.x1 >= 2**32 or bit31 != 0 or major != 0 or minor < 1:
        return -2
    if step.x2 > step.most:
        return -3
    if step.x0 >= step.x2:
        return -4
    if step.kept > PAGE:
        return -5
    answer, _ = read(4, step.x3, step.page)
    return answer if isinstance(answer, int) else 0


def run(record, steps):
    """Of each step its code and the record after it."""
    answers = []
    for step in steps:
        code = code_of(record, step)
        if code != 0:
            record = CLOSED
        elif step.kind == "cold":
            record = Record("up", step.x2, step.x3, min(5, step.x1 % 2**16), step.kept)
        answers.append((code, record))
    return answers


def file_of(case):
    """The bytes of a case's file."""
    state, *kept = case.record
    parts = [STATES.index(state), *kept, len(case.steps)]
    for kind, *registers, page in case.steps:
        parts += [KINDS.index(kind), *registers, len(page), page]
    return b"".join(p if isinstance(p, bytes) else p.to_bytes(8, "little") for p in parts)


def expected(number_of_case, case):
    """What the program prints for one case."""
    text = f"case {number_of_case:03}\n"
    for code, (state, *kept) in case.answers:
        words = "".join(f" {word:016x}" for word in kept if state == "up")
        text += f"code {code} {state}{words}\n"
    return text


# ---- The case list ----

GROUPS = []                         # (heading, [case, ..])
name = "{:#x}".format               # how a number is shown in a text


def cold(page=None, **other):
    """A cold boot that a fresh record accepts (CPU 0 of 8, version 0.4, no kept bytes, a full
    page), but for the page and the registers given. B is right for a page under construction."""
    page = full() if page is None else page
    registers = {"x0": 0, "x1": 4, "x2": 8, "x3": getattr(page, "b", B), "most": 8,
                 "kept": 0, **other}
    return Step("cold", **registers, page=bytes(getattr(page, "data", page)))


def warm(x0=0, x1=0, x2=0, x3=0, most=0, kept=0):
    return Step("warm", x0, x1, x2, x3, most, kept, b"")


def add(codes, text, *steps, record=FRESH, kept=None):
    """Note a case. Its steps have to give these codes (any if None); if kept is given, the record
    has to be up at the end and keep these values."""
    answers = run(record, steps)
    assert codes is None or [code for code, _ in answers] == list(codes), (text, answers)
    assert kept is None or answers[-1][1] == Record("up", *kept), (text, answers)
    GROUPS[-1][1].append(Case(text, record, steps, answers))


def versions():
    """The version in x1"""
    for x1 in (0, 0x10000, 0x10005, 0x40000004, 0x7FFF0005, 0x80000000, 0x80000005, 0xFFFFFFFF,
               2**32, 2**32 + 2, 5 * 2**32, 2**48 + 5, 2**63, 2**63 + 4, ONES):
        add([-2], f"x1 = {name(x1)}", cold(x1=x1))
    for minor in (1, 2, 3, 4, 5, 6, 9, 10, 255, 256, 257, 32768, 65535):
        agreed = minor if minor <= 5 else 5
        add([0, 0], f"x1 = {minor}: minor {agreed} is agreed; a warm boot keeps it",
            cold(x1=minor), warm(1, x1=9), kept=(8, B, agreed))


def processors():
    """Example 13; x0, x2 and the monitor's maximum at cold boot"""
    for code, x0, x2, most in (
            (-4, 0, 0, 8), (-4, 1, 0, 8), (-4, ONES, 0, 8), (-4, 0, 0, 0),      # example 13
            (0, 0, 7, 8), (0, 0, 1, 1), (0, 0, 5, 2**63), (0, 0, 2**32, 2**32), (0, 7, 8, 8),
            (0, 3, 8, ONES), (0, 2**32 - 1, 2**32, ONES), (0, 2**63, ONES, ONES),
            (0, ONES - 1, ONES, ONES), (-3, 0, 9, 8), (-3, 0, ONES, 8), (-3, 0, 1, 0),
            (-3, 0, ONES, 0), (-3, 0, 2**32, 8), (-3, 0, 2**32 + 1, 2**32),
            (-3, 0, 2**63, 2**63 - 1), (-3, 0, ONES, ONES - 1), (-4, 8, 8, 8), (-4, 8, 8, 16),
            (-4, 9, 8, 8), (-4, ONES, 8, 8), (-4, 1, 1, 8), (-4, 2**32, 8, 8),
            (-4, 2**32 + 1, 8, 8), (-4, 2**63, 8, 8), (-4, ONES, ONES, ONES)):
        add([code], f"x0 = {name(x0)}, x2 = {name(x2)}, maximum {name(most)}",
            cold(x0=x0, x2=x2, most=most), kept=None if code else (x2, B, 4))
    add([-4, -1, -1], "x2 = 0, then good boots", cold(x2=0), cold(), warm())


def bases_and_lengths():
    """B in x3 and the page's length"""
    for b in (4096, 0xFFBFF000, TOP - 4096):
        add([0, 0], f"B = {name(b)}, page made for it", cold(full(b=b)), warm(7), kept=(8, b, 4))
    for b in (0, B + 8, B + 2048, TOP, 2**63, WORD - 4096):
        add([-5], f"B = {name(b)}, page made for it", cold(full(b=b)))
    for b in (B + 1, TOP - 4095, ONES):
        add([-5], f"B = {name(b)}, all sections empty", cold(Page(), x3=b))
    add([0], "page made for another B, all sections empty", cold(Page(), x3=4096))
    add([-7], "page made for another B, sections filled", cold(x3=4096))
    for length in (0, 1, 4095, 4097, 4200):
        add([-5], f"page of {length:,} bytes", cold(bytes(full().data * 2)[:length]))


def manifests():
    """The manifest, read as edition 4 for any minor in x1"""
    for version in (0, 0x00010004, 0x80000004, 0x40000004):
        add([-6], f"manifest version 0x{version:08x}", cold(full().version(version)))
    for rule, text, page in (
            ("padding", "padding 1", full().put(4, b"\1")),
            ("plat_data", "plat_data 1 below the core's end", full().words(8, B + 111)),
            ("count", "dram: count 0 with a pointer", full().words(HEAD[0], 0, B + 512, 0)),
            ("align", "console: pointer not aligned", full(places=(0x200, 0x304, 0x500, 0x600))),
            ("place", "ncoh: pointer at B + 4,096", Page().seal(2, 1, B + 4096)),
            ("place", "dram: count 2^60 + 1", full().seal(0, 2**60 + 1, B + 512, SAMPLE[0][0])),
            ("overlap", "dram and coh overlap",
             Page().words(0x800, *[0x1000] * 6).claim(0, 2, 0x800).claim(3, 2, 0x810)),
            ("checksum", "coh: checksum 0", full().checksum(3, 0)),
            ("entry", "dram: last size 0", with_entry(0, -1, (0x90000000, 0))),
            ("entry", "coh: base + size wraps past 2^64", with_entry(3, 0, (WORD - 4096, 8192))),
            ("entry", "console: flags 1", with_entry(1, 0, (*SAMPLE[1][0][:5], 1)))):
        assert [rule] == [found for _, found in broken(4, B, page.data)], text
        add([-7], text, cold(page))
    for edition, text, page in ((1, "dram checksum 1", full().checksum(0, 1)),
                                (2, "console checksum 1", full().checksum(1, 1)),
                                (2, "plat_data at B + 40", Page().words(8, B + 40)),
                                (3, "coh checksum 1", full().checksum(3, 1))):
        assert not broken(edition, B, page.data)
        add([-7], f"x1 = {edition}: {text}, edition {edition} would accept", cold(page, x1=edition))
    for minor, x1, agreed in ((1, 5, 5), (2, 4, 4), (3, 6, 5), (4, 1, 1), (5, 2, 2), (9, 4, 4),
                              (9, 1, 1), (10, 10, 5), (256, 3, 3), (65535, 65535, 5)):
        page = full(minor, fill=JUNK)
        add([0], f"0.{minor} page, x1 = {x1}", cold(page, x1=x1), kept=(8, B, agreed))
    add([-7], "0.9 page, coh checksum broken", cold(full(9).checksum(3, 1), x1=9))
    add([0], "0.3 page, coh there but broken", cold(full().version(3).checksum(3, 1), x1=5))
    add([0], "example 14's page", cold(example_14()), kept=(8, B, 4))
    for stem, b, page, _ in field_pages():      # qemu's console checksum does not hold
        add([-7 if stem.startswith("qemu") else 0], f"field page {stem}", cold(page, x3=b))


def fields():
    """Request E7: cold boot reads the fields of the platform data by the new rules"""
    for minor in (1, 4, 9):
        page = full(minor, fill=JUNK).facts(0x703, NAME, SERIAL, CHOICE, field(9), field(9, b"ab"))
        add([0, 0], f"name, serial, console and two more, 0.{minor} page", cold(page), warm(7),
            kept=(8, B, 4))
    add([0], "an end mark alone", cold(full().facts(4093)))
    for rule, text, page in (
            ("fields", "serial twice", full().facts(0x703, SERIAL, NAME, SERIAL)),
            ("fields", "a name of 33 bytes", full().facts(0x703, field(1, JUNK[:33]))),
            ("fields", "no end mark", full(fill=JUNK).words(8, B + 4095)),
            ("fields in array", "fields in dram", full().words(8, B + PLACE[0]))):
        assert [rule] == [found for _, found in broken(4, B, page.data)], text
        add([-7], text, cold(page))
    page = full().words(8, B + PLACE[3])
    assert not broken(3, B, page.data)
    add([-7], "x1 = 3: fields in coh, edition 3 would accept", cold(page, x1=3))
    for text, page in (
            ("fields after the arrays", full().facts(0x703, NAME, SERIAL)),
            ("fields between the arrays", full().facts(0x281, NAME, SERIAL)),
            ("0.1, fields alone", Page(1).facts(16, NAME, SERIAL)),
            ("fields to the page's last byte", full().facts(4093 - len(NAME), NAME))):
        n = kept_for(min(4, page.data[0]), B, page.data)
        add([0, 0], f"{text}: K = {n:,}, what its manifest takes", cold(page, kept=n), warm(),
            kept=(8, B, 4, n))


# Three ways to break each check of cold boot and no other. Those of one index go together.
WAYS = {
    -2: (("x1 = 0", {"x1": 0}), ("x1 = 2^32 + 4", {"x1": 2**32 + 4}), ("major 1", {"x1": 0x10004})),
    -3: (("x2 = 9", {"x2": 9}), ("x2 = 2^32 + 8", {"x2": 2**32 + 8}), ("maximum 7", {"most": 7})),
    -4: (("x0 = 9", {"x0": 9}), ("x0 = 2^64 - 1", {"x0": ONES}), ("x0 = 8", {"x0": 8})),
    -5: (("length 4,095", {"length": 4095}), ("B zero", {"x3": 0}), ("B = 2^52", {"x3": TOP})),
    -6: [(f"manifest version 0x{n:08x}", {"version": n}) for n in (0, 0x10004, 0x80000004)],
    -7: (("padding 1", {"poke": (0, 2**32)}), ("coh checksum 2", {"poke": (104, 2)}),
         ("dram pointer 4", {"poke": (24, 4)}))}


def spoiled(i, *codes):
    """A cold boot that breaks these checks, each in its way i; and the words for it."""
    ways = [WAYS[code][i % 3] for code in codes]
    change = {key: value for _, way in ways for key, value in way.items()}
    page = full().words(*change.pop("poke", (8, 0))).version(change.pop("version", 4))
    step = cold(page.data[:change.pop("length", PAGE)], **change)
    return step, " with ".join(text for text, _ in ways)


def several_at_once():
    """Several checks broken together: the first in the order of docs/RULES.md answers"""
    assert all(code_of(FRESH, spoiled(i, code)[0]) == code for code in WAYS for i in range(3))
    for n, (one, two) in enumerate(combinations(WAYS, 2)):
        for i in (n, n + 1):
            step, text = spoiled(i, one, two)
            add([one], f"{one} and {two}: {text}", step)
    for first in (-2, -3, -4, -5):
        add([first], f"all of {first} to -7", spoiled(1, *range(first, -8, -1))[0])
    for n, code in enumerate(WAYS):
        step, text = spoiled(n, code)
        add([-1], f"-1 and {code}: up, {text}", step, record=UP)
        add([-1], f"-1 and {code}: closed, {text}", step, record=CLOSED)
    add([0, -1], "up by a cold boot, then all of -2 to -7", cold(), spoiled(1, *WAYS)[0])


def warm_boots():
    """Warm boot"""
    for code, record in ((-1, FRESH), (0, UP), (-1, CLOSED)):
        add([code], f"{record.state} record", warm(), record=record)
    add([-1], "fresh record, x0 = 2^64 - 1", warm(ONES))
    for x0 in (8, 9, 2**32, 2**63, ONES):
        add([-4, -1], f"x0 = {name(x0)} of 8, then a good one", warm(x0), warm(), record=UP)
    good = cold(x0=2, x2=4, x1=9)
    for x0, codes in ((3, (0, 0, 0)), (4, (0, -4, -1)), (ONES, (0, -4, -1))):
        add(codes, f"cold x2 = 4 of 8, warm x0 = {name(x0)}, then 0", good, warm(x0), warm())
    add([0] * 6, "junk in x1 to x3", good, warm(1, ONES, ONES, ONES, ONES), warm(3),
        warm(0, 2**32, 1, 8), warm(2, 0x80000000, 2, B + 8), warm(3, 5, 9, TOP), kept=(4, B, 5))
    add([0, -4], "its own x2 is not looked at: x0 = 4 of 4, x2 = 8", good, warm(4, 4, 8, B, 8))
    add([0] * 4, "one CPU twice, then another", cold(), warm(3), warm(3), warm(5), kept=(8, B, 4))
    add([0] * 6, "all five CPUs in turn", cold(x2=5), *map(warm, range(5)), kept=(5, B, 4))
    add([0] * 5 + [-4], "five CPUs, then a sixth", cold(x0=4, x2=5), *map(warm, (3, 2, 1, 0, 5)))


def sequences():
    """Sequences of boots"""
    add([0, -1, -1], "a second cold boot, then a warm boot", cold(), cold(), warm())
    add([0, 0, -1, -1, -1, -1], "a second cold boot after a warm boot, another B, and on",
        cold(), warm(1), cold(full(b=4096), x1=2, x2=3), warm(), cold(), warm(2))
    for n, code in enumerate(WAYS):
        step, text = spoiled(n + 1, code)
        add([code, -1, -1], f"{text}, then a good cold boot, a warm boot", step, cold(), warm())
    add([0, -4, -1, -1, -1, -1], "closed by a warm boot, then good boots",
        cold(), warm(8), warm(), cold(), warm(7), cold())
    for record in (FRESH, CLOSED):
        add([-1] * 6, f"{record.state}: warm, cold in turn", *[warm(), cold()] * 3, record=record)
    add([0] + [-1] * 5, "six good cold boots", *[cold(x0=i) for i in range(6)])
    add([-5] + [-1] * 5, "six pages of 4,200 bytes", *[cold(full().data + JUNK[:104])] * 6)


def forged_records():
    """Records that are up with any kept values"""
    for cpus, tries in ((0, [0]), (1, [0, 0, 1]), (ONES, [0, 2**63, ONES - 1, ONES])):
        for base, minor in ((0, 0), (ONES, ONES), (B + 1, 6)):
            add([0] * (len(tries) - 1) + [-4], f"cpus {name(cpus)}, base {name(base)}, minor "
                f"{name(minor)}: x0 = {', then '.join(map(name, tries))}",
                *map(warm, tries), record=Record("up", cpus, base, minor))
    add([-4], "cpus 0: x0 = 2^64 - 1", warm(ONES), record=Record("up", 0, 0, 1))
    for n in (2**32, 2**63):
        add([0, 0, -4], f"cpus {name(n)}: last, first, one too many",
            warm(n - 1), warm(), warm(n), record=Record("up", n, 0, 0))
    for n in (0, ONES):
        add([-1, -1], f"cpus, base and minor {name(n)}: cold, then warm boot",
            cold(), warm(), record=Record("up", n, n, n))
    add([0] * 6, "cpus, base and minor 2^64 - 1: six good warm boots", *map(warm, range(6)),
        record=Record("up", ONES, ONES, ONES), kept=(ONES, ONES, ONES))


def random_sequences():
    """Random sequences"""
    dice = Random(1)

    def pick(n):
        return dice.getrandbits(64) % n

    def wide():
        return pick(2**pick(65))    # of any number of digits

    def random_cold():
        cpus, b = max(1, wide()), 4096 * max(1, pick(2**pick(41)))
        step = cold(full(1 + pick(2**pick(16)), b, JUNK), x0=pick(cpus), x1=1 + pick(2**pick(16)),
                    x2=cpus, most=cpus + pick(WORD - cpus))
        return step if pick(3) else step._replace(**{("x0", "x1", "x2", "x3")[pick(4)]: wide()})

    for i in range(40):
        first = record = (*[FRESH] * 7, *[Record("up", wide(), wide(), wide())] * 2, CLOSED)[i % 10]
        steps = []
        for _ in range(2 + pick(5)):
            is_cold = pick(8) < (7 if record == FRESH else 1)
            x0 = pick(record.cpus) if record.cpus and pick(8) else wide()
            steps.append(random_cold() if is_cold else warm(x0, wide(), wide(), wide(), wide()))
            record = run(first, steps)[-1][1]
        add(None, f"{first.state}: {', '.join(step.kind for step in steps)}", *steps, record=first)


KEPT = (0, 1, 112, 4095, 4096)      # numbers of kept bytes that are accepted
TOO_MANY = (4097, 2**32, 2**63, ONES)


def kept_bytes():
    """The number of kept bytes K: 4,096 at most; a warm boot keeps it"""
    for n in KEPT:
        add([0, 0, 0], f"K = {n:,}; two warm boots keep it", cold(kept=n), warm(7), warm(),
            kept=(8, B, 4, n))
    for n in TOO_MANY:
        add([-5, -1, -1], f"K = {name(n)}, then a good cold boot, a warm boot",
            cold(kept=n), cold(), warm())
    add([0, 0], "a warm boot's own K is not looked at", cold(kept=112),
        warm(1, ONES, ONES, ONES, ONES, 4097), kept=(8, B, 4, 112))
    for text, page in (("no section filled, 0.1", Page(1)), ("no section filled, 0.4", Page()),
                       ("example 14's page", example_14()), ("a full page", full()),
                       ("a full page, 0.9", full(9)), ("a full page, 0.2", full(2))):
        n = kept_for(min(4, page.data[0]), B, page.data)
        add([0, 0, 0], f"{text}: K = {n:,}, what its manifest takes", cold(page, kept=n), warm(),
            warm(1), kept=(8, B, 4, n))
    for b in (4096, TOP - 4096):
        for n in (4095, 4096, 4097):
            add([-5 if n > 4096 else 0], f"B = {name(b)}, K = {n:,}", cold(full(b=b), kept=n),
                kept=None if n > 4096 else (8, b, 4, n))


def kept_bytes_at_once():
    """Too many kept bytes with another check broken: K comes after -4 and before the page"""
    for i, n in enumerate((4097, ONES)):
        for code in WAYS:
            step, text = spoiled(i, code)
            add([max(code, -5)], f"{code} and -5: {text}, K = {name(n)}", step._replace(kept=n))
        for record in (UP, CLOSED):
            add([-1], f"-1 and -5: {record.state}, K = {name(n)}", cold(kept=n), record=record)
        add([-5], f"-5 to -7, K = {name(n)}", spoiled(1, -5, -6, -7)[0]._replace(kept=n))
        add([-2], f"-2 to -7, K = {name(n)}", spoiled(1, *WAYS)[0]._replace(kept=n))
    for code in WAYS:                       # K itself is good: it changes no code
        step, text = spoiled(2, code)
        add([code, -1], f"{text}, K = 4,096; a closed record keeps nothing",
            step._replace(kept=4096), warm())
    add([0, -4, -1], "K = 112, closed by a warm boot", cold(kept=112), warm(8), warm())
    add([0, -1, -1], "K = 112, closed by a second cold boot", cold(kept=112), cold(kept=8), warm())


def forged_kept_bytes():
    """Records that are up with any number of kept bytes"""
    for n in (1, 112, *KEPT[3:], *TOO_MANY):
        add([0, 0, 0], f"K = {name(n)}: three warm boots", *map(warm, (0, 7, 7)),
            record=UP._replace(kept=n), kept=(8, B, 4, n))
        add([0, -4, -1], f"K = {name(n)}: closed by the second warm boot", *map(warm, (0, 8, 0)),
            record=UP._replace(kept=n))
    for n in (0, ONES):
        add([-1, -1], f"all that is kept {name(n)}: cold, then warm boot", cold(kept=112), warm(),
            record=Record("up", n, n, n, n))
    add([0] * 6, "all that is kept 2^64 - 1: six good warm boots", *map(warm, range(6)),
        record=Record("up", ONES, ONES, ONES, ONES), kept=(ONES,) * 4)


def random_kept_bytes():
    """Random sequences with kept bytes"""
    dice = Random(5)
    for i in range(20):
        n = dice.choice((dice.randrange(4097), dice.randrange(4097), dice.getrandbits(64)))
        page = full(1 + dice.randrange(9), 4096 * dice.randrange(1, 2**40), JUNK)
        steps = [cold(page, x0=dice.randrange(9), x1=1 + dice.randrange(9), kept=n)]
        steps += [warm(dice.randrange(9), kept=dice.getrandbits(64)) for _ in range(i % 5)]
        add(None, f"K = {name(n)}: {', '.join(step.kind for step in steps)}", *steps)


# ---- Output ----

def build_all():
    for group in (versions, processors, bases_and_lengths, manifests, several_at_once, warm_boots,
                  sequences, forged_records, random_sequences, kept_bytes, kept_bytes_at_once,
                  forged_kept_bytes, random_kept_bytes, fields):
        GROUPS.append((group.__doc__, []))
        group()


def check():
    """The bounds of a case file, the spread of codes, and that an error closes for good."""
    cases, tally = [case for _, group in GROUPS for case in group], Counter()
    for case in cases:
        good = next((i for i, (code, _) in enumerate(case.answers) if code), len(case.steps))
        assert all(record.state == "up" for _, record in case.answers[:good]), case.text
        assert all(answer == (-1, CLOSED) for answer in case.answers[good + 1:]), case.text
        tally.update((step.kind, code) for step, (code, _) in zip(case.steps, case.answers))
        assert 1 <= len(case.steps) <= 6 and len(file_of(case)) <= 32000
        assert all(len(step.page) <= (4200 if step.kind == "cold" else 0) for step in case.steps)
    assert len({file_of(case) for case in cases}) == len(cases) <= 400
    assert {code for kind, code in tally if kind == "cold"} == {0, *range(-7, 0)}
    assert {code for kind, code in tally if kind == "warm"} == {0, -1, -4}
    print(f"{len(cases)} cases, steps by code:",
          ", ".join(f"{kind} {code}: {n}" for (kind, code), n in sorted(tally.items())))


def case_of(n, case):
    """The file of a case, what the program prints for it, and its row of CASES.md."""
    codes = ", ".join(str(code) for code, _ in case.answers)
    return file_of(case), expected(n, case), case.text, f"`{codes}`"


if __name__ == "__main__":
    build_all()
    check()
    write_all("boot_vectors", "boot", "Boot", "What | Codes of its steps", GROUPS, case_of)
