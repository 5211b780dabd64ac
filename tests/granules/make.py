#!/usr/bin/env python3
"""Run vectors for setting up the granule record, for lists of granules and for questions to the
realm words, made from the rules alone (docs/RULES.md: CM2, CM3, LG1 to LG6, BN1 to BN8, RW1 to RW9,
SH1, SH2; requests E1, E2, E6, E8).

Run from the repository's root:  python3 tests/granules/make.py
It rewrites crates/granule_vectors/data/c000, c001, .. (8-byte words: the boot record's state, cpus,
base, minor and kept bytes, of which the last four count only when it is up; 0 to delegate, 1 to
undelegate, 2 to set up or 3 to ask the words; the granule record's offset in the file, the
length of the table, and of the list, or of the banks in bytes, or the index to ask from; then, of a
list, the table, the addresses, and the table at exit, of a question the table, else the banks'
bytes; at last the granule record: how many of its words are given, and these; and, but for a
set-up, the realm words in the same way), crates/granule_vectors/stdout (what the program has to
print for them in order) and tests/granules/CASES.md (what each case is for). The same run always
gives the same bytes. With a folder as its argument it writes them below that folder.
"""

import sys
from collections import Counter, namedtuple
from pathlib import Path
from random import Random

HERE = Path(__file__).resolve().parent

sys.dont_write_bytecode = True
sys.path.insert(0, str(HERE.parent))
from banks import (MANY, TWO, addresses_of, bank_ok, banks_in, faults, fit, granule_at,
                   granules_of, needed, one, put_bit, realm_words, record_of, set_up, shown, stored,
                   usual_words, words, words_line)
from vectors import write_all

WORD = 2**64
ONES = WORD - 1
TOP = 2**52                             # where memory ends
BASE = 0x80000000                       # B, that every record keeps
STATES = ("fresh", "up", "closed")      # a file has the index
DELEGATE, UNDELEGATE, SET_UP, ASK = range(4)    # of a move, the byte that a granule must have
NAMES = ("delegate", "undelegate", "set up")
CODES = {"OK": 0, "UNK": -1, "BAD_ADDR": -2, "BAD_PAS": -3, "INVAL": -5}
Case = namedtuple("Case", "text state direction record table addresses lent")
# Of a set-up the record is the one lent before, and the table's length may be any number.
SetUp = namedtuple("SetUp", "text record length banks")
Ask = namedtuple("Ask", "text record table index lent")
Answer = namedtuple("Answer", "code done table lent")
# None is INVAL; of the next one, "none" is an answer of its own.
Told = namedtuple("Told", "count next agrees built")


# ---- The rules. All arithmetic is on plain numbers. ----

def single(case, table, address):
    """CM2 and CM3: the code of one call, and the granule it names."""
    index = granule_at(case.record, len(table), address)
    if case.state != "up":
        return "UNK", None
    if index is None:
        return "BAD_ADDR", None
    if case.direction == UNDELEGATE and address == BASE:
        return "BAD_ADDR", None
    return ("OK" if table[index] == case.direction else "BAD_PAS"), index


def run(case):
    """Request E1: single calls in list order up to the first refusal; x1 counts those done. Request E6:
    INVAL first if the words do not fit; each granule's bit is written with its byte."""
    table, lent = bytearray(case.table), case.lent
    if not fit(case.record, lent):
        return Answer("INVAL", 0, case.table, lent)
    for done, address in enumerate(case.addresses):
        code, index = single(case, table, address)
        if code != "OK":
            return Answer(code, done, bytes(table), lent)
        table[index] = 1 - case.direction
        lent = put_bit(lent, index, 1 - case.direction)
    return Answer("OK", len(case.addresses), bytes(table), lent)


def ask(case):
    """Request E6: the answers to all four questions."""
    n, lent = granules_of(case.record), case.lent
    if not fit(case.record, lent):
        return Told(None, None, None, None)
    hits = [i for i in range(n) if lent[i // 64] >> i % 64 & 1]
    later = [i for i in hits if i >= case.index]
    hit = None if case.index >= n else later[0] if later else "none"
    made = realm_words(case.table) if len(case.table) == n else None
    return Told(len(hits), hit, None if made is None else "yes" if made == lent else "no", made)


def file_of(case):
    """The bytes of a case's file."""
    if isinstance(case, SetUp):
        up, direction, length, count = (0, 0, 0, 0, 0), SET_UP, case.length, len(case.banks)
        body, lent = case.banks, None
    elif isinstance(case, Ask):
        up, direction, length, count = (0, 0, 0, 0, 0), ASK, len(case.table), case.index
        body, lent = case.table, case.lent
    else:
        up, direction = (STATES.index(case.state), 8, BASE, 5, 0), case.direction
        length, count = len(case.table), len(case.addresses)
        body, lent = case.table + words(*case.addresses) + run(case).table, case.lent
    return words(*up, direction, 72 + len(body), length, count) + body + stored(case.record, lent)


def expected(n, case):
    """What the program prints for one case."""
    if isinstance(case, SetUp):
        code, record = set_up(case.banks, case.length, case.record)
        return (f"case {n:03}\nset_up {CODES[code] % WORD:016x}\n"
                f"record{''.join(f' {word:x}' for word in record)}\n")
    if isinstance(case, Ask):
        told = ask(case)
        count, hit, agrees = ("INVAL" if said is None else said for said in told[:3])
        built = "INVAL" if told.built is None else "OK"
        return (f"case {n:03}\ncount {count}\nnext {hit}\nagrees {agrees}\nbuild {built}\n"
                f"{words_line(case.lent if told.built is None else told.built)}\n")
    answer = run(case)
    registers = (CODES[answer.code] % WORD, answer.done, 0)
    return (f"case {n:03}\nregisters {' '.join(f'{word:016x}' for word in registers)}\n"
            f"table as expected\n{words_line(answer.lent)}\n")


# ---- The case list ----

GROUPS, NOTED = [], set()               # (heading, [case, ..]); the files of all cases so far
G = TWO[0][0]
OLD = (3, *range(0x1001, 0x1021))       # what is lent for a record before the set-up


def at(*indices, g=G):
    """The addresses of granules."""
    return [g + 4096 * i for i in indices]


def note(case):
    if file_of(case) not in NOTED:
        NOTED.add(file_of(case))
        GROUPS[-1][1].append(case)


def add(code, done, direction, text, addresses, state="up", record=None, table=None, lent=None):
    """Note a list with the code and the number done that it has to give; None if not said. Unless
    said otherwise the record has one bank at G, with the table's granules, and the words fit."""
    table = bytes([direction]) * 8 if table is None else bytes(table)
    record = one(G, len(table)) if record is None else record
    lent = usual_words(record, table) if lent is None else tuple(lent)
    case = Case(f"{NAMES[direction]}: {text}", state, direction, record, table, addresses, lent)
    answer = run(case)
    assert (code, done) in ((None, None), answer[:2]), (case.text, answer[:2])
    note(case)


def question(text, table, index, record=None, lent=None, **said):
    """Note a question, with the answers that are said."""
    record = of_length(len(table)) if record is None else record
    lent = usual_words(record, table) if lent is None else tuple(lent)
    case = Ask(f"ask: {text}", record, bytes(table), index, lent)
    told = ask(case)._asdict()
    assert all(told[name] == value for name, value in said.items()), (text, told)
    note(case)


def of_length(n):
    """A record of n granules: in two banks where there are two."""
    if n < 2:
        return one(G, n) if n else ()
    return record_of([(G, 4096), (G + 8192, 4096 * (n - 1))])


def make(code, text, banks, length=None, record=OLD):
    """Note a set-up with the code that it has to give: from bytes, or from banks; unless said
    otherwise for a table of as many granules as their sizes have."""
    if length is None:
        length = sum(size // 4096 for _, size in banks)
    data = banks if isinstance(banks, bytes) else shown(banks)
    case = SetUp(f"set up: {text}", record, length, data)
    found, _ = set_up(data, length, record)
    assert code in (None, found), (case.text, found)
    note(case)


def set_up_counts():
    """Set-up: how many banks, and parts of one"""
    usual = [(G + 8192 * i, 4096) for i in range(249)]
    for n in (1, 2, 3, 15, 16):
        make("OK", f"{n} banks", usual[:n])
    for n in (0, 17, 32, 249):
        make("INVAL", f"{n} banks", usual[:n])
    for n in (1, 8, 15, 17, 24, 31, 255, 257, 263, 271):
        data = shown(usual[:18])[:n]
        make("INVAL", f"{n} bytes, for the whole banks' granules", data, n // 16)
        make("INVAL", f"{n} bytes, for a granule more", data, n // 16 + 1)
    make("INVAL", "no bank, for a table of 1", b"", 1)
    make("INVAL", "16 banks and 1 byte", shown(usual[:16]) + b"\0", 16)
    make("OK", "16 banks of 1, 2, 3, .. granules", MANY)
    make("INVAL", "the same, for 16 granules", MANY, 16)


def set_up_order():
    """Set-up: banks next to, on and after each other"""
    a, b, size = G, G + 0x100000, 0x100000
    for text, code, banks in (
            ("touching", "OK", [(a, size), (b, size)]),
            ("a hole of one granule", "OK", TWO),
            ("a hole of one granule, 16 banks", "OK", [(G + 8192 * i, 4096) for i in range(16)]),
            ("touching, 16 banks", "OK", [(G + 4096 * i, 4096) for i in range(16)]),
            ("equal", "INVAL", [(a, size), (a, size)]),
            ("equal bases, the second longer", "INVAL", [(a, size), (a, 2 * size)]),
            ("overlapping by one granule", "INVAL", [(a, size + 4096), (b, size)]),
            ("overlapping by all but one granule", "INVAL", [(a, size), (a + 4096, size)]),
            ("the second inside the first", "INVAL", [(a, 4 * size), (b, size)]),
            ("descending", "INVAL", [(b, size), (a, size)]),
            ("descending, touching", "INVAL", [(a + 4096, 4096), (a, 4096)]),
            ("the third overlaps the first alone", "INVAL",
             [(a, size), (b, size), (a + 4096, 4096)]),
            ("the third below the first two", "INVAL", [(a, size), (b, size), (0, 4096)]),
            ("the last two of 16 swapped", "INVAL", MANY[:14] + [MANY[15], MANY[14]]),
            ("the first two of 16 swapped", "INVAL", [MANY[1], MANY[0]] + MANY[2:]),
            ("the last of 16 overlaps the one before", "INVAL",
             MANY[:15] + [(MANY[14][0] + 4096, 4096)])):
        make(code, text, banks)
        if code == "INVAL" and len(banks) == 2:     # the granules that the two cover together
            covered = len(set(addresses_of(banks)))
            make(code, f"{text}; for the granules covered", banks, covered)


def set_up_rule():
    """Set-up: a bank that breaks the reader's rule, alone, as the first and the last of 16"""
    for text, bank in (
            ("base 1 too high", (G + 1, 4096)), ("base 8 too low", (G - 8, 4096)),
            ("base 2,048 too high", (G + 2048, 4096)), ("size 1 too high", (G, 4097)),
            ("size 1 too low", (G, 4095)), ("size 6,144", (G, 6144)), ("size 1", (G, 1)),
            ("size 0", (G, 0)), ("base and size 0", (0, 0)),
            ("end one granule above 2^52", (TOP - 4096, 8192)), ("base 2^52", (TOP, 4096)),
            ("size 2^52 + 4,096 from 0", (0, TOP + 4096)),
            ("base 2^63", (2**63, 4096)), ("size 2^63 from 0", (0, 2**63)),
            ("base 2^64 - 4,096, whose end wraps to 0", (WORD - 4096, 4096)),
            ("base 2^64 - 4,096, whose end wraps to 4,096", (WORD - 4096, 8192)),
            ("base 4,096, size 2^64 - 4,096: the end wraps to 0", (4096, WORD - 4096)),
            ("all ones", (ONES, ONES))):
        make("INVAL", text, [bank])
        make("INVAL", f"{text}; for one granule", [bank], 1)
        make("INVAL", f"{text}; the last of 16", MANY[:15] + [bank])
        make("INVAL", f"{text}; the first of 16", [bank] + MANY[1:])
    for text, banks in (
            ("a bank to 2^52 exactly", [(TOP - 4096, 4096)]), ("all memory", [(0, TOP)]),
            ("all memory in two banks", [(0, TOP - 4096), (TOP - 4096, 4096)]),
            ("a bank at 0", [(0, 4096)]),
            ("the last of 16 to 2^52 exactly", MANY[:15] + [(TOP - 8192, 8192)])):
        make("OK", text, banks)


def set_up_sums():
    """Set-up: the table's length"""
    for text, banks in (("one bank", [(G, 8 * 4096)]), ("two banks", TWO), ("16 banks", MANY),
                        ("all memory", [(0, TOP)])):
        n = sum(size // 4096 for _, size in banks)
        make("OK", f"{text}, {n:,} granules", banks, n)
        for length in (0, n - 1, n + 1, n + 2**32, n + 2**52, n + 2**63, ONES, 4096 * n):
            make("INVAL", f"{text}, a table of {length:,}", banks, length)
    make("INVAL", "two banks, the first one's granules", TWO, 5)
    make("INVAL", "two banks, the second one's granules", TWO, 3)
    make("INVAL", "two banks, the hole counted", TWO, 9)
    for text, banks in (                # sums of sizes that come to 4,096 modulo 2^64
            ("sizes 2^63, 2^63 and 4,096", [(0, 2**63), (2**63, 2**63), (0, 4096)]),
            ("sizes 2^64 - 4,096 and 8,192", [(0, WORD - 4096), (G, 8192)]),
            ("sizes 8,192 and 2^64 - 4,096", [(G, 8192), (G + 8192, WORD - 4096)]),
            ("16 of size 2^60", [(2**60 * i, 2**60) for i in range(16)])):
        total = sum(size for _, size in banks)
        make("INVAL", f"{text}: the sum wraps", banks, total % WORD // 4096)
        make("INVAL", f"{text}: the sum as it is", banks, total // 4096 % WORD)
        make("INVAL", f"{text}: for one granule", banks, 1)


def set_up_lent():
    """Set-up: over any previous record"""
    for text, record in (("nothing", ()), ("a good record", record_of(MANY)),
                         ("all ones", (ONES,) * 33), ("a count of 17", (17, *record_of(MANY)[1:]))):
        make("OK", f"two banks, {text} lent before", TWO, record=record)
        make("OK", f"16 banks, {text} lent before", MANY, record=record)
        for why, banks, length in (("no bank", [], 0), ("a table one short", TWO, 7),
                                   ("overlap", [TWO[0], TWO[0]], 10),
                                   ("18 banks", MANY + TWO, 144)):
            make("INVAL", f"{why}, {text} lent before", banks, length, record=record)


def set_up_pages():
    """Set-up: the banks of pages that the reader accepts, in any order and number"""
    usual = [(G + 8192 * i, 4096) for i in range(249)]
    for text, banks in (("249 banks", usual), ("17 banks", usual[:17]),
                        ("two banks, the higher first", TWO[::-1]),
                        ("one bank twice", TWO[:1] * 2), ("bank inside another",
                                                          [(G, 16 * 4096), (G + 4096, 4096)])):
        assert len(banks) <= 249 and all(bank_ok(*bank) for bank in banks)
        make("INVAL", f"a page's {text}", banks, record=())
    make("INVAL", "a page without a bank", [], record=())
    field = HERE.parent / "reader" / "field" / "fvp-2.12.1.in"
    held = banks_in(dram_of(field.read_bytes()))
    make("OK", f"the banks of {field.stem}", held, record=())
    make("INVAL", f"the banks of {field.stem}, a table of the first", held, held[0][1] // 4096,
         record=())


def dram_of(raw):
    """The array of dram on a page that firmware wrote, after 8 bytes of B."""
    base, page = (int.from_bytes(raw[:8], "little"), raw[8:])
    count, pointer = (int.from_bytes(page[at:at + 8], "little") for at in (16, 24))
    return page[pointer - base:][:16 * count]


def empty():
    """Empty lists, for any records and table"""
    for way in (DELEGATE, UNDELEGATE):
        for state in STATES:
            add("OK", 0, way, f"empty, record {state}", [], state=state)
        add("OK", 0, way, "empty, an empty table", [], table=b"")
        add("OK", 0, way, "empty, a bank 1 too high", [], record=one(G + 1, 8))
        add("OK", 0, way, "empty, a count of 17", [], record=(17, G, 4096))
        add("OK", 0, way, "empty, a table one long", [], record=one(G, 7))


def whole():
    """Lists that are done whole"""
    for way in (DELEGATE, UNDELEGATE):
        for n in (1, 3, 8):
            add("OK", n, way, f"the first {n} of 8", at(*range(n)))
        add("OK", 8, way, "all of 8, the last first", at(*range(7, -1, -1)))
        add("OK", 200, way, "200 of 600", at(*range(0, 600, 3)), table=bytes([way]) * 600)
        add("OK", 600, way, "all of 600", at(*range(600)), table=bytes([way]) * 600)
        add("OK", 2, way, "a bank at 0", at(1, 0, g=0), record=one(0, 8))
        add("OK", 1, way, "a bank to 2^52 exactly", [TOP - 4096], record=one(TOP - 4096, 1),
            table=[way])


def banks():
    """Several banks: lists over all granules, and over the edges of each bank"""
    for way in (DELEGATE, UNDELEGATE):
        for text, held in (("two", TWO), ("16", MANY), ("16 that touch", [
                (G + 4096 * i, 4096) for i in range(16)])):
            record, every = record_of(held), addresses_of(held)
            table = bytes([way]) * len(every)
            same = {"record": record, "table": table}
            add("OK", len(every), way, f"{text} banks, every granule", every, **same)
            add("OK", len(every), way, f"{text} banks, the last granule first", every[::-1], **same)
            ends = sorted({edge for base, size in held for edge in (base, base + size - 4096)})
            add("OK", len(ends), way, f"{text} banks, first and last granule of each", ends, **same)
            for address in sorted({edge for base, size in held
                                   for edge in (base - 4096, base + size)} - set(every)):
                add("BAD_ADDR", 2, way, f"{text} banks, a hole at granule "
                    f"{(address - G) // 4096} from G", [every[0], every[-1], address], **same)
            add("BAD_ADDR", 1, way, f"{text} banks, 1 above a bank's last granule",
                [every[0], held[1][0] + held[1][1] - 4095], **same)
            for n in (len(every) - 1, len(every) + 1, len(every) + 256, 0):
                add("BAD_ADDR", 0, way, f"{text} banks, a table of {n}", every, record=record,
                    table=bytes([way]) * n)
            mixed = bytearray(table)
            mixed[-1] = 1 - way
            add("BAD_PAS", len(every) - 1, way, f"{text} banks, the last granule's byte wrong",
                every, record=record, table=mixed)


FORGED = (                              # text, record, granules of a table beside it
    ("a count of 0", (0, G, 4096), 1), ("a count of 0 and an empty table", (0, G, 4096), 0),
    ("a count of 17, banks as for 16", (17, *record_of(MANY)[1:]), 136),
    ("a count of 17, one bank", (17, G, 8 * 4096), 8),
    ("a count of 2^32 + 1", (2**32 + 1, G, 8 * 4096), 8),
    ("a count of 2^63 + 1", (2**63 + 1, G, 8 * 4096), 8),
    ("a count of 2^64 - 1", (ONES, G, 8 * 4096), 8),
    ("all ones", (ONES,) * 33, 8), ("all zero", (), 8), ("all zero and an empty table", (), 0),
    ("two banks counted, the second all zero", (2, G, 8 * 4096), 8),
    ("the second bank 1 too high", (2, G, 4 * 4096, G + 0x10001, 4 * 4096), 8),
    ("the second bank of size 0", (2, G, 8 * 4096, G + 0x100000, 0), 8),
    ("the second bank beyond 2^52", (2, G, 4 * 4096, TOP, 4 * 4096), 8),
    ("the second bank wraps", (2, G, 8 * 4096, WORD - 4096, 8192), 10),
    ("overlap", (2, G, 4 * 4096, G + 4096, 4 * 4096), 8),
    ("overlap, for the granules covered", (2, G, 4 * 4096, G + 4096, 4 * 4096), 5),
    ("a bank twice", (2, G, 4 * 4096, G, 4 * 4096), 8),
    ("descending", (2, G + 0x10000, 4 * 4096, G, 4 * 4096), 8),
    ("the last of 16 broken", (*record_of(MANY)[:32], 1), 120),
    ("the last of 16 on the one before", (*record_of(MANY)[:31], MANY[14][0], 4096), 121),
    ("the first bank 8 too high", (1, G + 8, 8 * 4096), 8),
    ("a size that is no multiple of 4,096", (1, G, 8 * 4096 + 512), 8))


def forged():
    """Forged records that the set-up would refuse have no granules"""
    for way in (DELEGATE, UNDELEGATE):
        for text, record, n in FORGED:
            add("BAD_ADDR", 0, way, text, at(0, 1), record=record, table=bytes([way]) * n)
        for state in ("fresh", "closed"):
            add("UNK", 0, way, f"a count of 17, record {state}", at(0), state=state,
                record=(17, G, 8 * 4096))
        # Words after the counted banks are ignored.
        for text, rest in (("all ones", (ONES,) * 30), ("a bank over the first", (G, 4096)),
                           ("a bank below", (0, 4096)), ("a broken bank", (1, 1))):
            add("OK", 8, way, f"one bank, after it {text}", at(*range(8)),
                record=(*one(G, 8), *rest))
        for base in (0, G + 0x100000):
            add("BAD_ADDR", 1, way, f"one bank, after it one at 0x{base:x}, which is named",
                [G, base], record=(*one(G, 8), base, 4096))


def records():
    """Records that are not up: UNK with nothing done, before any address is looked at"""
    for way in (DELEGATE, UNDELEGATE):
        for state in ("fresh", "closed"):
            add("UNK", 0, way, f"record {state}", at(0, 1, 2), state=state)
            add("UNK", 0, way, f"record {state}, the address not aligned", [G + 1], state=state)
            add("UNK", 0, way, f"record {state}, the byte wrong", at(0), state=state, table=[9])
            add("UNK", 0, way, f"record {state}, a table one long", at(0), state=state,
                record=one(G, 7))


def stopped():
    """A refusal at the first, a middle and the last address: those before it are done"""
    for way in (DELEGATE, UNDELEGATE):
        good = at(*range(5))
        for where, i in (("first", 0), ("middle", 2), ("last", 4)):
            for what, address in (("not aligned", G + 4096 * i + 8),
                                  ("one byte too high", G + 4096 * i + 1),
                                  ("one past the table", G + 8 * 4096), ("below G", G - 4096),
                                  ("0", 0), ("2^64 - 4,096", WORD - 4096)):
                add("BAD_ADDR", i, way, f"the {where} of five: {what}",
                    good[:i] + [address] + good[i + 1:])
            for byte in (0, 1, 2, 3, 4, 255):
                table = [way] * 8
                table[i] = byte
                code, done = ("OK", 5) if byte == way else ("BAD_PAS", i)
                add(code, done, way, f"the {where} of five has byte {byte}", good, table=table)
        add("BAD_ADDR", 0, way, "an empty table", good, table=b"")
        add("BAD_ADDR", 0, way, "the bank 8 too high", good, record=one(G + 8, 8))
        add("BAD_ADDR", 2, way, "two bad ones, the first answers", good[:2] + [G + 1] + good[:1])
        add("BAD_PAS", 2, way, "a repeat before one not aligned", good[:2] + good[:1] + [G + 1])


def repeats():
    """An address that is done already in the list, and lists longer than the table"""
    for way in (DELEGATE, UNDELEGATE):
        add("BAD_PAS", 1, way, "twice in a row", at(3, 3))
        add("BAD_PAS", 4, way, "the first again at the end", at(0, 1, 2, 3, 0))
        add("BAD_PAS", 3, way, "the second again, then two not done", at(0, 1, 2, 1, 3, 4))
        add("BAD_PAS", 8, way, "all of 8, twice", at(*range(8), *range(8)))
        add("BAD_ADDR", 8, way, "longer than the table", at(*range(12)))
        add("BAD_ADDR", 1, way, "a table of one granule", at(0, 1, 0), table=[way])


def shared_tables():
    """Where the shared page is among the granules: the text, the banks, and its index."""
    places = (("first", 0), ("middle", 2), ("last", 4))
    return [(f"B the {where} granule of a bank", [(BASE - 4096 * i, 5 * 4096)], i)
            for where, i in places] + [
        (f"B the {where} granule of the second bank",
         [(BASE - 4096 * (i + 4), 3 * 4096), (BASE - 4096 * i, 5 * 4096)], 3 + i)
        for where, i in places]


def shared():
    """Request E8: the shared page alone. It is not undelegated, for any byte"""
    for text, held, i in shared_tables():
        record, n = record_of(held), len(addresses_of(held))
        for byte in range(4):
            for way in (DELEGATE, UNDELEGATE):
                table = [way] * n
                table[i] = byte
                code = "BAD_ADDR" if way == UNDELEGATE else "BAD_PAS" if byte else "OK"
                add(code, int(code == "OK"), way, f"{text}, byte {byte}", [BASE], record=record,
                    table=table)
        for state in ("fresh", "closed"):
            add("UNK", 0, UNDELEGATE, f"{text}, record {state}", [BASE], state=state,
                record=record, table=[1] * n)
        add("BAD_ADDR", 0, UNDELEGATE, f"{text}: one byte above B", [BASE + 1], record=record,
            table=[1] * n)
    hole = record_of([(BASE - 4 * 4096, 4 * 4096), (BASE + 4096, 4 * 4096)])
    for way in (DELEGATE, UNDELEGATE):
        add("BAD_ADDR", 0, way, "B in no bank", [BASE])
        add("BAD_ADDR", 0, way, "B in a hole", [BASE], record=hole)
        add("OK", 2, way, "the granules beside the hole at B", [BASE - 4096, BASE + 4096],
            record=hole)
        add("BAD_ADDR", 0, way, "B one past the table", [BASE], record=one(BASE - 8 * 4096, 8))
        add("BAD_ADDR", 0, way, "B, an empty table", [BASE], record=one(BASE, 8), table=b"")
        add("OK", 2, way, "the granules before and after B", [BASE - 4096, BASE + 4096],
            record=one(BASE - 4096, 8))


def shared_lists():
    """Request E8: lists with the shared page in them; what comes before it is done"""
    for text, held, i in shared_tables():
        addresses = addresses_of(held)
        n, given = len(addresses), {"record": record_of(held)}
        others = [address for address in addresses if address != BASE][:4]
        for where, at_index in (("first", 0), ("in the middle", 2), ("last", 4)):
            picks = others[:at_index] + [BASE] + others[at_index:]
            add("BAD_ADDR", at_index, UNDELEGATE, f"{text}, {where} of five", picks,
                table=[1] * n, **given)
            add("OK", 5, DELEGATE, f"{text}, {where} of five", picks, table=[0] * n, **given)
            add("BAD_ADDR", at_index, UNDELEGATE, f"{text}, {where}, then one not aligned",
                others[:at_index] + [BASE, addresses[0] + 1, addresses[1] + 1], table=[1] * n,
                **given)
        add("BAD_PAS", 1, UNDELEGATE, f"{text}, after a repeat", [*others[:1] * 2, BASE],
            table=[1] * n, **given)
        add("BAD_ADDR", 1, UNDELEGATE, f"{text}, before a repeat", [*others[:1], BASE, *others[:1]],
            table=[1] * n, **given)
        add("BAD_PAS", 1, DELEGATE, f"{text}, twice", [BASE, BASE], table=[0] * n, **given)
        table = [1] * n
        table[i] = 0
        add("BAD_ADDR", 2, UNDELEGATE, f"{text}, its byte 0, after two", [*others[:2], BASE],
            table=table, **given)


SIZES = (0, 1, 63, 64, 65, 127, 128, 4096)


def sized(n):
    """A table of n granules with some Realm ones: the last hit is not the last granule, if it can
    be; other bytes than 0 and 1 are there too."""
    table = bytearray(2 * (i % 3 == 0) + 255 * (i % 5 == 1) & 255 for i in range(n))
    for i in (0, 5, 62, 63, 64, 100, 126, 1000, 4000):
        if i < n - 1 or (i, n) == (0, 1):
            table[i] = 1
    return bytes(table)


def word_lists():
    """Request E6: lists with words of each length, one word too few and one too many, for records that are up and not up"""
    for n in SIZES:
        record = of_length(n)
        every = [address for bank in (record[1:3], record[3:5]) if bank
                 for address in addresses_of([bank])]
        picks = [every[i] for i in sorted({0, 1, 62, 63, 64, 65, 126, 127, 4032, n - 2, n - 1})
                 if 0 <= i < n]
        for way in (DELEGATE, UNDELEGATE):
            same = {"record": record, "table": bytes([way]) * n}
            add("OK", len(picks), way, f"{n:,} granules, {needed(n)} words", picks, **same)
            for what, lent in (("one word too few", realm_words(same["table"])[1:]),
                               ("one word too many", (*realm_words(same["table"]), 0))):
                if len(lent) == needed(n):
                    continue
                add("INVAL", 0, way, f"{n:,} granules, {what}", picks, lent=lent, **same)
                if n in (0, 1, 64, 65) and way == n % 2:
                    add("INVAL", 0, way, f"{n:,} granules, {what}, an empty list", [], lent=lent,
                        **same)
                    add("INVAL", 0, way, f"{n:,} granules, {what}, record fresh", picks,
                        state="fresh", lent=lent, **same)
    for way in (DELEGATE, UNDELEGATE):
        for text, lent in (("no word", ()), ("80 words", (ONES,) * 80)):
            add("INVAL", 0, way, f"{text} for 8 granules, an empty list, record closed", [],
                state="closed", lent=lent)
        for text, record in (("no bank", ()), ("a count of 17", (17, *record_of(MANY)[1:]))):
            add("INVAL", 0, way, f"{text}, a table of 136, its three words", at(0), record=record,
                table=bytes([way]) * 136, lent=(0, 0, 0))
        add("BAD_ADDR", 0, way, "a table of 65, the one word of the record's 64", at(0),
            record=one(G, 64), table=bytes([way]) * 65)
        add("INVAL", 0, way, "a table of 65, its two words, the record's 64 have one", at(0),
            record=one(G, 64), table=bytes([way]) * 65, lent=(0, 0))


def odd_words():
    """Request E6: words at odds with the table, which decides; the granule's bit alone is written"""
    indices = (0, 63, 64, 127, 128, 129)
    for way in (DELEGATE, UNDELEGATE):
        table = bytearray([way]) * 130
        flipped = tuple(ONES - word for word in realm_words(table))
        for text, lent in (("all zero", (0,) * 3), ("all ones", (ONES,) * 3),
                           ("the table's, flipped", flipped),
                           ("the table's, spare bits set", (*realm_words(table)[:2], ONES - 3)),
                           ("junk", (0x0123456789ABCDEF, 0xA5A5A5A5A5A5A5A5, 0x5A5A5A5A5A5A5A5A))):
            add("OK", 6, way, f"words {text}", at(*indices), table=table, lent=lent)
            if text != "all ones":
                add("BAD_PAS", 2, way, f"words {text}, then a repeat", at(128, 63, 128, 64),
                    table=table, lent=lent)
        mixed = bytearray(table)
        mixed[64] = 1 - way             # its bit says that it is still to be done
        add("BAD_PAS", 1, way, "the bit right, the byte wrong", at(63, 64), table=mixed,
            lent=realm_words(table))
        mixed[65] = 2
        add("BAD_PAS", 1, way, "byte 2", at(63, 65), table=mixed, lent=(ONES,) * 3)
        add("BAD_ADDR", 1, way, "words at odds, an address off the table", at(64, 130),
            table=table, lent=flipped)
        add("UNK", 0, way, "words at odds, record closed", at(64), state="closed", table=table,
            lent=flipped)


def questions():
    """Request E6: how many, the next one, agreement and build, at each index that counts"""
    for n in SIZES:
        table, held = sized(n), realm_words(sized(n))
        hits = [i for i, byte in enumerate(table) if byte == 1]
        last = hits[-1] if hits else 0
        for text, index in (("0", 0), ("at a hit", last), ("after a hit", (hits or [0])[0] + 1),
                            ("after the last hit", last + 1), ("the last granule", n - 1),
                            ("the number of granules", n),
                            ("the last spare bit", 64 * len(held) - 1), ("2^64 - 1", ONES)):
            if 0 <= index and (index < ONES or n in (0, 64, 65)):
                question(f"{n:,} granules, index {text}", table, index, count=len(hits),
                         agrees="yes", built=held)
        if n == 0:
            question("no granule, a word", b"", 0, lent=(0,), count=None, built=None)
            continue
        for text, lent in (("one word too few", held[1:]), ("one word too many", (*held, 0))):
            question(f"{n:,} granules, {text}", table, 0, lent=lent, count=None, next=None,
                     agrees=None, built=None)
        question(f"{n:,} granules, none Realm", bytes([255] * n), 0, count=0, next="none",
                 agrees="yes")
        question(f"{n:,} granules, the last alone Realm", bytes(n - 1) + b"\1", 0, count=1,
                 next=n - 1)
        junk = tuple((0x9E3779B97F4A7C15 * (i + 1)) % WORD for i in range(len(held)))
        question(f"{n:,} granules, junk in the words", table, n // 2, lent=junk, agrees="no",
                 built=held)


def spare_bits():
    """Request E6: set spare bits are not counted and not hit; they do not agree; build clears them"""
    for n in (1, 63, 65, 127):
        table, k = bytes(n), needed(n)
        spare = (*[0] * (k - 1), ONES - (1 << n % 64) + 1)
        for index, hit in ((0, "none"), (n - 1, "none"), (n, None)):
            question(f"{n} granules, every spare bit set, index {index}", table, index, lent=spare,
                     count=0, next=hit, agrees="no", built=(0,) * k)
    for n, bit in ((65, 1), (127, 63)):
        question(f"{n} granules Realm, spare bit {bit} of the last word set", bytes([1] * n), 64,
                 lent=put_bit(realm_words([1] * n), 64 + bit, 1), count=n, agrees="no",
                 built=realm_words([1] * n))
    for n in (64, 128):
        question(f"{n} granules, every bit set", bytes(n), n - 1, lent=(ONES,) * needed(n), count=n,
                 next=n - 1, agrees="no", built=(0,) * needed(n))
        question(f"{n} granules Realm", bytes([1] * n), n - 1, count=n, next=n - 1, agrees="yes")


def odd_tables():
    """Request E6: agreement and build with a table of another length, and one bit or byte off"""
    record = of_length(65)
    for n in (0, 64, 66, 128, 130):
        question(f"65 granules, a table of {n}", bytes([1] * n), 3, record=record, lent=(8, 1),
                 count=2, next=3, agrees=None, built=None)
    question("no granule, a table of 1", b"\1", 0, record=(), lent=(), count=0, next=None,
             agrees=None, built=None)
    question("a count of 17, no word", bytes(8), 0, record=(17, G, 8 * 4096), count=0, next=None,
             agrees=None, built=None)
    question("a count of 17, no word, no table", b"", 0, record=(17, G, 8 * 4096), count=0,
             next=None, agrees="yes", built=())
    for i in (0, 63, 64):
        lent = put_bit(realm_words(bytes(65)), i, 1)
        question(f"65 granules, bit {i} set alone", bytes(65), i, lent=lent, count=1, next=i,
                 agrees="no", built=(0, 0))
        for byte in (2, 3, 129, 255):
            table = bytearray(65)
            table[i] = byte
            if i == 64 or byte == 255:
                question(f"65 granules, byte {byte} at {i}, its bit set", table, 0, lent=lent,
                         count=1, next=i, agrees="no", built=(0, 0))


def random_lists():
    """Random lists"""
    dice = Random(11)
    for i in range(40):
        way, length = i % 2, 1 + dice.randrange(60)
        table = [dice.choice((0, 0, 0, 1, 1, 1, 2)) for _ in range(length)]
        picks = [dice.randrange(length + i % 5 // 4) for _ in range(dice.randrange(30))]
        if i % 3:                       # mostly good ones, so that lists come far
            picks = [k for k in picks if k < length and table[k] == way] + picks[:1]
        add(None, None, way, f"random {i}", at(*picks), table=table)


def random_banks():
    """Random banks: lists over them, and set-ups"""
    dice = Random(12)
    for i in range(56):
        low, held = 4096 * dice.randrange(2**30), []
        for _ in range(1 + dice.randrange(16)):
            low += 4096 * dice.choice((0, 0, 1, 2, dice.randrange(2**20)))
            held.append((low, 4096 * (1 + dice.randrange(6))))
            low += held[-1][1]
        every, way = addresses_of(held), i % 2
        table = [dice.choice((way, way, way, way, 1 - way, 2)) for _ in every]
        good = [address for k, address in enumerate(every) if table[k] == way]
        dice.shuffle(good)
        others = [dice.choice(every), dice.choice(every) + 4096, low, held[0][0] - 4096]
        picks = good[:dice.randrange(40)] + [dice.choice(others)] * dice.randrange(2)
        if i % 8 == 7:                  # a forged bank
            k, far = dice.randrange(len(held)), dice.choice((-8192, -4096, 1, 4096))
            held[k] = (max(held[k][0] + far, 0), held[k][1])
        add(None, None, way, f"random banks {i}", picks, record=record_of(held), table=table)
        make(None, f"random banks {i}", held)
        if i % 4 == 3:
            dice.shuffle(held)
            make(None, f"random banks {i}, shuffled", held)


# ---- Output ----

def check():
    """A list changes one byte for each address done; every code occurs in both directions; the
    set-up has each fault."""
    cases = [case for _, group in GROUPS for case in group]
    moves = [case for case in cases if isinstance(case, Case)]
    for case in moves:
        answer = run(case)
        changed = [i for i, byte in enumerate(answer.table) if byte != case.table[i]]
        done = [granule_at(case.record, len(case.table), address)
                for address in case.addresses[:answer.done]]
        assert changed == sorted(done) and len(case.addresses) <= 600, case.text
        bits = [(answer.lent[i // 64] ^ case.lent[i // 64]) >> i % 64 & 1
                for i in range(64 * len(case.lent))]
        assert not any(bit and i not in done for i, bit in enumerate(bits)), case.text
        if case.lent == realm_words(case.table):        # agreement is kept
            assert answer.lent == realm_words(answer.table), case.text
        whole = answer.done == len(case.addresses)
        assert answer.code == "INVAL" or (answer.code == "OK") == whole, case.text
    assert len(cases) <= 1000 and max(len(file_of(case)) for case in cases) <= 12288
    for way in (DELEGATE, UNDELEGATE):
        tally = Counter(run(case).code for case in moves if case.direction == way)
        assert set(tally) == set(CODES), tally
        print(f"{NAMES[way]}:", ", ".join(f"{n} {code}" for code, n in sorted(tally.items())))
    ups = [case for case in cases if isinstance(case, SetUp)]
    alone = {", ".join(faults(banks_in(case.banks))) for case in ups if len(case.banks) % 16 == 0}
    assert {"", "no bank", "more than 16", "rule", "order", "overlap"} <= alone, alone
    tally = Counter(set_up(case.banks, case.length, case.record)[0] for case in ups)
    print(f"set up: {tally['OK']} OK, {tally['INVAL']} INVAL")
    asked = [ask(case) for case in cases if isinstance(case, Ask)]
    for told in asked:                  # the first two questions look at the words alone
        assert (told.count is None) <= (told.next is None) and (told.agrees is None) == (
            told.built is None), told
    assert {told.agrees for told in asked} == {"yes", "no", None}
    print(f"ask: {len(asked)}")
    print(f"{len(cases)} cases")


def case_of(n, case):
    """The file of a case, what the program prints for it, and its row of CASES.md."""
    if isinstance(case, SetUp):
        answer = f"`{set_up(case.banks, case.length, case.record)[0]}`"
    elif isinstance(case, Ask):
        count, hit, agrees, built = ask(case)
        said = (count, hit, agrees, None if built is None else "OK")
        answer = ", ".join("`INVAL`" if item is None else str(item) for item in said)
    else:
        answer = f"`{run(case).code}`, {run(case).done} done"
    return file_of(case), expected(n, case), case.text, answer


if __name__ == "__main__":
    for group in (set_up_counts, set_up_order, set_up_rule, set_up_sums, set_up_lent, set_up_pages,
                  empty, whole, banks, forged, records, stopped, repeats, random_lists,
                  random_banks, shared, shared_lists, word_lists, odd_words, questions, spare_bits,
                  odd_tables):
        GROUPS.append((group.__doc__, []))
        group()
    check()
    write_all("granule_vectors", "granules", "Granule record and list", "What | Answer", GROUPS,
              case_of)
