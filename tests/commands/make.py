#!/usr/bin/env python3
"""Run vectors for six runtime commands, made from the rules alone (docs/RULES.md: RT1 to RT10, CM1
to CM4, CM6, CM8; requests E2, E5, E6, E8).

Run from the repository's root:  python3 tests/commands/make.py
It rewrites crates/command_vectors/data/c000, c001, .. (8-byte words: the record's state, cpus,
base, minor and kept bytes, of which the last four count only when it is up; function id, x1, x2,
x3, the granule record's offset in the file, m, the lengths of table, key and page; then the
bytes of these three, those of table and page at exit, the granule record: how many of its words are
given, and these; and the realm words in the same way), crates/command_vectors/stdout (what the
program has to print for them in order) and tests/commands/CASES.md (what each case is for). The
same run always gives the same bytes. With a folder as its argument it writes them below that
folder.
"""

import sys
from collections import Counter, namedtuple
from itertools import combinations, product
from pathlib import Path
from random import Random

HERE = Path(__file__).resolve().parent

sys.dont_write_bytecode = True
sys.path.insert(0, str(HERE.parent))
from banks import (MANY, TWO, addresses_of, fit, granule_at, granule_fails, meant, needed, one,
                   put_bit, realm_words, record_of, stored, usual_words, words, words_line)
from vectors import write_all

PAGE = 4096
WORD = 2**64
ONES = WORD - 1
STATES = ("fresh", "up", "closed")      # a file has the index
FORWARD, DELEGATE, UNDELEGATE = 0xC400018F, 0xC40001B0, 0xC40001B1
KEY, FEATURES, UPDATE = 0xC40001B2, 0xC40001B4, 0xC40001B6
GRANULE = (DELEGATE, UNDELEGATE)        # the index is the byte that the command asks for
CODES = {"OK": 0, "UNK": -1, "BAD_ADDR": -2, "BAD_PAS": -3, "INVAL": -5}
GRANULE_CHECKS = {"words": "INVAL", "not up": "UNK", "banks": "BAD_ADDR", "table": "BAD_ADDR",
                  "address": "BAD_ADDR", "off": "BAD_ADDR", "byte": "BAD_PAS"}
SHARED_CHECKS = {"words": "INVAL", "not up": "UNK", "banks": "BAD_ADDR", "table": "BAD_ADDR",
                 "address": "BAD_ADDR", "off": "BAD_ADDR", "shared": "BAD_ADDR",   # request E8
                 "byte": "BAD_PAS"}
CHECKS = {                              # the checks of each command in the order of docs/RULES.md, with the code
    FORWARD: {}, DELEGATE: GRANULE_CHECKS, UNDELEGATE: SHARED_CHECKS,
    KEY: {"not up": "UNK", "length": "UNK", "outside": "BAD_ADDR", "too long": "INVAL",
          "curve": "INVAL", "key": "UNK"},
    FEATURES: {"not up": "UNK", "index": "INVAL", "minor": "UNK"},
    UPDATE: {"not up": "UNK", "mecid": "INVAL", "width": "UNK", "minor": "UNK"}}
Case = namedtuple("Case", "text state cpus base minor kept id x1 x2 x3 record m table key page "
                          "lent")
Answer = namedtuple("Answer", "code registers told table page lent")


# ---- The commands, from docs/RULES.md. All arithmetic is on plain numbers. ----

def failing(case):
    """Every check that fails, in the order of docs/RULES.md. The first of them gives the answer."""
    end, index = case.base + PAGE, meant(case.record, len(case.table), case.x1)
    fails = granule_fails(case.record, len(case.table), case.x1) | {
        "words": not fit(case.record, case.lent),
        "not up": case.state != "up",
        "length": len(case.page) != PAGE,
        "outside": case.x1 < case.base + case.kept or case.x1 >= end,
        "too long": case.x2 > end - case.x1,
        "curve": case.x3 != 0,
        "key": len(case.key) == 0 or len(case.key) > case.x2,
        "shared": case.x1 == case.base,
        "byte": index is not None and case.table[index] != (0 if case.id == DELEGATE else 1),
        "index": case.x1 != 0,
        "mecid": case.x1 > 65535 or case.x1 > 2**(min(case.m, 15) + 1) - 1,
        "width": case.m > 15,
        "minor": case.minor < (4 if case.id == FEATURES else 5)}
    return [name for name in CHECKS[case.id] if fails[name]]


def run(case):
    """The answer: code, x0 to x2, what else is returned, table, page and words at exit."""
    table, page, x1, told = bytearray(case.table), bytearray(case.page), 0, None
    lent = case.lent
    if case.id == FORWARD:
        return Answer("forward", None, case.x1, bytes(table), bytes(page), lent)
    codes = [CHECKS[case.id][name] for name in failing(case)]
    code = codes[0] if codes else "OK"
    if code == "OK":
        if case.id in GRANULE:
            index = granule_at(case.record, len(table), case.x1)
            table[index] = 1 if case.id == DELEGATE else 0
            lent = put_bit(lent, index, table[index])
        elif case.id == KEY:
            offset, x1 = case.x1 - case.base, len(case.key)
            page[offset:offset + x1] = case.key
        elif case.id == FEATURES:
            x1 = 1
        else:
            told = case.x1
    return Answer(code, (CODES[code] % WORD, x1, 0), told, bytes(table), bytes(page), lent)


def file_of(case):
    """The bytes of a case's file."""
    lent, answer = (case.table, case.key, case.page), run(case)
    body = b"".join(lent) + answer.table + answer.page
    head = words(STATES.index(case.state), case.cpus, case.base, case.minor, case.kept, case.id,
                 case.x1, case.x2, case.x3, 112 + len(body), case.m, *map(len, lent))
    return head + body + stored(case.record, case.lent)


def expected(number_of_case, case):
    """What the program prints for one case."""
    answer = run(case)
    text = f"case {number_of_case:03}\n"
    if answer.registers is not None:
        text += f"registers {' '.join(f'{word:016x}' for word in answer.registers)}\n"
    if answer.told is not None:
        text += f"{'forward' if case.id == FORWARD else 'reprogram'} {answer.told:016x}\n"
    return text + f"table as expected\npage as expected\n{words_line(answer.lent)}\n"


# ---- The case list ----

GROUPS, NOTED = [], set()               # (heading, [case, ..]); the files of all cases so far
B, G, TOP = 0x80000000, 0x880000000, 2**52
# No byte of the lent page is 0 or one of the key's, so that each byte written is seen.
LENT = bytes(1 + (i * 67 + i // 127 * 31) % 127 for i in range(4200))
SECRET = bytes(128 + (i * 89 + i // 128 * 57) % 128 for i in range(4200))
ONE = SECRET[:1]
ALL = {"state": "up", "cpus": 8, "base": B, "minor": 5, "kept": 0, "x2": ONES, "x3": ONES - 1,
       "m": 15, "table": bytes([0, 1, 2, 3, 255]), "key": SECRET[:96], "page": LENT[:PAGE]}
USUAL = {                               # for each command, input that it accepts
    FORWARD: {"x1": 1}, FEATURES: {"x1": 0}, UPDATE: {"x1": 200},
    DELEGATE: {"x1": G + 2 * 4096, "table": b"\0" * 8},
    UNDELEGATE: {"x1": G + 2 * 4096, "table": b"\1" * 8},
    KEY: {"x1": B + 0x315, "x2": 128, "x3": 0}}


def show(n):
    """A number in words: by its distance from a power of two if that is small."""
    for power in (64, 63, 32):
        far = n - 2**power
        if abs(far) <= 8192:
            return f"2^{power}" + (f" {'-' if far < 0 else '+'} {abs(far):,}" if far else "")
    return f"{n:,}" if n <= 65537 else f"0x{n:x}"


def add(outcome, command, text, **changes):
    """Note a case, unless the same is there already: the usual input with these changes, a record
    of one bank with the table's granules unless one is said, and words that fit. Its outcome is
    "OK", or all checks that fail with commas between; None if that is not said."""
    given = {**ALL, **USUAL[command], **changes}
    given.setdefault("record", one(G, len(given["table"])))
    given.setdefault("lent", usual_words(given["record"], given["table"]))
    case = Case(**given, id=command, text=f"{command % 4096:X}: {text}")
    found = ", ".join(failing(case)) or "OK"
    assert outcome in (None, found), (case.text, outcome, found)
    if file_of(case) not in NOTED:
        NOTED.add(file_of(case))
        GROUPS[-1][1].append(case)
    return case


def examples():
    """Examples 7 to 11"""
    add("OK", KEY, "example 7: pa = B + 4,095, size 1", x1=B + 4095, x2=1, key=ONE)
    add("too long", KEY, "example 7: pa = B + 4,095, size 2", x1=B + 4095, x2=2, key=ONE)
    add("outside, key", KEY, "example 8: pa = B + 4,096, size 0", x1=B + 4096, x2=0, key=ONE)
    case = add("address", DELEGATE, "example 9: code -2", x1=G + 1)
    assert run(case).registers == (0xFFFFFFFFFFFFFFFE, 0, 0)
    add("byte", DELEGATE, "example 10: a Realm granule", table=b"\1" * 8)
    add("OK", UPDATE, "example 11: m = 7, mecid 255", x1=255, m=7)
    add("mecid", UPDATE, "example 11: m = 7, mecid 256", x1=256, m=7)


def forwarding():
    """Forwarding, for any record"""
    for state in STATES:
        for err in (0, 1, ONES):
            add("OK", FORWARD, f"record {state}, err_code {show(err)}", state=state, x1=err)
    for err in (2**32, 2**63 + 1, 0x0123456789ABCDEF):
        add("OK", FORWARD, f"err_code {show(err)}", x1=err)


def records():
    """A command's usual input, with a record that is not up or holds forged values"""
    for command in (DELEGATE, UNDELEGATE, KEY, FEATURES, UPDATE):
        for state in ("fresh", "closed"):
            add("not up", command, f"record {state}", state=state)
    for value in (0, ONES):
        same = {"cpus": value, "base": value}
        for command in (FORWARD, DELEGATE, UNDELEGATE):
            add("OK", command, f"cpus, base and minor {show(value)}", **same, minor=value)
        for command in (FEATURES, UPDATE):
            add("OK", command, f"cpus and base {show(value)}", **same)
        add("OK", KEY, f"cpus, base, minor and pa {show(value)}", **same, minor=value, x1=value)


def page_lengths():
    """Pages that are not 4,096 bytes long: only 0xC40001B2 minds"""
    for length in (0, 4095, 4097, 4200):
        add("length", KEY, f"page of {length:,} bytes", page=LENT[:length])
    for command in (FORWARD, DELEGATE, UNDELEGATE, FEATURES, UPDATE):
        for length in (0, 4095, 4097):
            add("OK", command, f"page of {length:,} bytes", page=LENT[:length])


def granule_addresses():
    """One bank and the address, the byte being right"""
    for command in GRANULE:
        for text, g, index, length in (
                ("a middle granule", G, 5, 8), ("the first granule", G, 0, 8),
                ("the last granule of 8", G, 7, 8), ("granule 256 of 600", G, 256, 600),
                ("the last granule of 600", G, 599, 600),
                ("a bank at 0, the first granule", 0, 0, 8),
                ("a bank at 0, the last granule", 0, 7, 8),
                ("a bank of one granule to 2^52 exactly", TOP - 4096, 0, 1),
                ("a bank to 2^52 exactly, its last granule", TOP - 3 * 4096, 2, 3)):
            add("OK", command, text, record=one(g, length), x1=g + 4096 * index,
                table=right_at(command, index, length))
        for outcome, text, g, address in (
                ("address", "address 1 too high", G, G + 1),
                ("address", "address 2,048 too high", G, G + 2048),
                ("address", "the last byte of the last granule", G, G + 8 * 4096 - 1),
                ("off", "one past the table", G, G + 8 * 4096),
                ("off", "granule 256 of 8", G, G + 256 * 4096),
                ("off", "granule 2^32 of 8", G, G + 2**32 * 4096),
                ("off", "one below G", G, G - 4096),
                ("off", "address 2^64 - 4,096", G, WORD - 4096),
                ("address, off", "address G - 1", G, G - 1),
                ("address, off", "address 2^64 - 1", G, ONES),
                ("off", "a bank at 0, one past the table", 0, 8 * 4096),
                ("off", "a bank at 0, address 2^64 - 4,096", 0, WORD - 4096),
                ("off", "a bank to 2^52 exactly, address 2^52", TOP - 8 * 4096, TOP),
                ("off", "a bank to 2^52 exactly, address 0", TOP - 8 * 4096, 0),
                ("banks", "the bank 1 too high", G + 1, G + 4096),
                ("banks", "the bank 8 too low", G - 8, G + 4096),
                ("banks", "the bank 4,095 too high", G + 4095, G + 4096),
                ("banks, off", "the bank 1 too high, above the address", G + 1, G),
                ("banks, address", "bank and address 1 too high", G + 1, G + 4097),
                ("banks", "a bank that ends one granule above 2^52", TOP - 7 * 4096, TOP - 4096),
                ("banks", "a bank at 2^52", TOP, TOP),
                ("banks", "a bank at 2^64 - 4,096, whose end wraps", WORD - 4096, WORD - 4096),
                ("banks, address", "bank and address 2^64 - 1", ONES, ONES)):
            add(outcome, command, text, record=one(g, 8), x1=address)
        for g in (G, 0):
            add("banks, off", command, f"an empty table and bank, address = G = {show(g)}",
                record=one(g, 0), x1=g, table=b"")
            add("table, off", command, f"an empty table, address = G = {show(g)}", record=one(g, 8),
                x1=g, table=b"")


def right_at(command, index, length):
    """A table whose byte is right for this granule alone."""
    table = bytearray(b"\2" * length)
    table[index] = GRANULE.index(command)
    return bytes(table)


def granule_banks():
    """Several banks: the edges of each, holes, and tables of another length"""
    touching = [(G + 4096 * i * i, 4096 * (2 * i + 1)) for i in range(4)]
    for command, (text, held) in product(GRANULE, (("two", TWO), ("touching", touching),
                                                   ("16", MANY))):
        record, every = record_of(held), addresses_of(held)
        for k, (base, size) in enumerate(held):
            if len(held) == 16 and k not in (0, 1, 7, 14, 15):
                continue                # the lists go over every bank
            for what, address in (("first granule", base), ("last granule", base + size - 4096),
                                  ("one before the first granule", base - 4096),
                                  ("one after the last granule", base + size),
                                  ("last byte", base + size - 1)):
                index = every.index(address) if address in every else 0
                outcome = "OK" if address in every else "address" if address % 4096 else "off"
                add(outcome, command, f"{text} banks, bank {k}, {what}", record=record, x1=address,
                    table=right_at(command, index, len(every)) if outcome == "OK"
                    else bytes([GRANULE.index(command)]) * len(every))
        for what, n in (("one short", len(every) - 1), ("one long", len(every) + 1)):
            add("table", command, f"{text} banks, a table {what}", record=record, x1=G,
                table=bytes([GRANULE.index(command)]) * n)


def granule_records():
    """Forged records: one that the set-up would refuse has no granules"""
    for command, (outcome, text, record) in product(GRANULE, (
            ("banks, table, off", "a count of 0", (0, G, 8 * 4096)),
            ("banks, table, off", "a count of 17", (17, G, 8 * 4096)),
            ("banks, table, off", "a count of 2^32 + 1", (2**32 + 1, G, 8 * 4096)),
            ("banks, table, off", "a count of 2^64 - 1", (ONES, G, 8 * 4096)),
            ("banks, table, off", "all zero", ()), ("banks, table, off", "all ones", (ONES,) * 33),
            ("banks", "the second bank all zero", (2, G, 8 * 4096)),
            ("banks", "the second bank 8 too high", (2, G, 4 * 4096, G + 0x10008, 4 * 4096)),
            ("banks", "the second bank wraps", (2, G, 6 * 4096, WORD - 4096, 8192)),
            ("banks", "overlap", (2, G, 4 * 4096, G + 4096, 4 * 4096)),
            ("banks", "a bank twice", (2, G, 4 * 4096, G, 4 * 4096)),
            ("banks", "descending", (2, G + 0x10000, 4 * 4096, G, 4 * 4096)),
            ("OK", "one bank, after it a broken one", (*one(G, 8), 1, 1)),
            ("OK", "one bank, after it one over it", (*one(G, 8), G, 4096)),
            ("OK", "one bank, after it all ones", (*one(G, 8), *[ONES] * 30)))):
        add(outcome, command, text, record=record)


def granule_bytes():
    """The granule's byte, in a table that holds all 256: each in one direction, some in both"""
    table = bytes((i * 77 + 30) % 256 for i in range(256))
    assert sorted(table) == list(range(256))
    for value, command in product(range(256), GRANULE):
        if value % 2 == GRANULE.index(command) or value in (0, 1, 2, 3, 4, 127, 128, 254, 255):
            add("OK" if value == GRANULE.index(command) else "byte", command, f"byte {value}",
                x1=G + 4096 * table.index(value), table=table, key=b"", page=b"")


def key_ranges():
    """Realm key: pa and size, also with forged bases"""
    for base in (B, 0, B + 1, WORD - 4096, WORD - 2048, ONES):
        last, wrapped = min(base + 4095, ONES), (base + 4096) % WORD
        for pa in sorted({base - 1, wrapped - 1, wrapped, ONES} - {-1, last}):
            add("outside" if pa < base else "outside, too long", KEY,
                f"B = {show(base)}, pa = {show(pa)}", base=base, x1=pa, x2=1, key=ONE)
        for pa in sorted({base, base + 1, base + 2048, last} if base == B else {base, last}):
            room = base + 4096 - pa
            for outcome, size, key in (
                    ("key", 0, ONE), ("OK", 1, ONE), ("OK", room, SECRET[:room]),
                    ("too long", room + 1, ONE), ("too long", ONES, ONE)):
                add(outcome, KEY, f"B = {show(base)}, pa = {show(pa)}, size {show(size)}",
                    base=base, x1=pa, x2=size, key=key)
    for text, size in (("B", WORD - 100), ("0", WORD - B - 100), ("1", WORD - B - 99)):
        add("too long", KEY, f"pa = B + 100, pa + size is 2^64 + {text}", x1=B + 100, x2=size)
    add("outside", KEY, "pa 2^32 too low", base=B + 2**32, x1=B)
    add("outside, too long", KEY, "pa 2^32 too high", x1=B + 2**32)


def keys_and_curves():
    """Realm key: key and curve"""
    for outcome, k, size, offset in (
            ("OK", 1, 4096, 0), ("OK", 95, 96, 16), ("OK", 96, 96, 16), ("key", 97, 96, 16),
            ("OK", 96, 4080, 16), ("OK", 2, 2, 4094), ("key", 3, 2, 4094), ("key", 2, 1, 7),
            ("OK", 4095, 4096, 0), ("OK", 4096, 4096, 0), ("key", 4097, 4096, 0),
            ("key", 4200, 4096, 0), ("key", 4096, 4095, 1), ("key", 257, 1, 0), ("key", 0, 4096, 0),
            ("key", 0, 1, 4095), ("key", 0, 0, 0)):
        add(outcome, KEY, f"key of {k:,} bytes, size {size:,}, pa = B + {offset:,}",
            x1=B + offset, x2=size, key=SECRET[:k])
    for curve in (1, 256, 2**32, 2**63, ONES):
        add("curve", KEY, f"curve {show(curve)}", x3=curve)


def features():
    """Features: index and minor"""
    for index in (0, 1, 2**32, ONES):
        for minor in (0, 3, 4, 5, 2**32, ONES):
            fails = ["index"] * (index > 0) + ["minor"] * (minor < 4)
            add(", ".join(fails) or "OK", FEATURES, f"index {show(index)}, minor {show(minor)}",
                x1=index, minor=minor)


def key_updates():
    """Key update: mecid, m and minor"""
    def update(mecid, m, limit, minor=5):
        fails = ["mecid"] * (mecid > limit) + ["width"] * (m > 15) + ["minor"] * (minor < 5)
        add(", ".join(fails) or "OK", UPDATE,
            f"mecid {show(mecid)}, m = {show(m)}, minor {show(minor)}", x1=mecid, m=m, minor=minor)

    for m, limit in ((0, 1), (7, 255), (15, 65535), (16, 65535), (63, 65535), (ONES, 65535)):
        for mecid in (0, 255, 256, 65535, 65536, ONES):
            update(mecid, m, limit)
    for m, limit in ((7, 255), (16, 65535)):
        for minor in (0, 3, 4, ONES):
            update(limit, m, limit, minor)
            update(limit + 1, m, limit, minor)
    for m, limit in ((0, 1), (1, 3), (8, 511), (14, 32767)):
        update(limit, m, limit)
        update(limit + 1, m, limit)
    for mecid, m in ((2**32, 15), (3, 2**32), (200, 2**32 + 7), (3, 64)):
        update(mecid, m, 65535)


def together():
    """Several checks fail: the first in the order of docs/RULES.md answers"""
    ways = {                            # one or two ways to make each check fail
        "not up": ({"state": "fresh"}, {"state": "closed"}),
        "length": ({"page": LENT[:4095]}, {"page": LENT[:4097]}),
        "outside": ({"x1": B - 1}, {"x1": B + 4097}), "too long": ({"x2": ONES}, {"x2": 4097}),
        "curve": ({"x3": 1}, {"x3": 2**32}), "key": ({"key": b""}, {"key": SECRET}),
        "index": ({"x1": 1}, {"x1": 2**32}), "mecid": ({"x1": 65536}, {"x1": ONES}),
        "width": ({"m": 16}, {"m": 63}), "minor": ({"minor": 3}, {"minor": 0})}
    for command in (KEY, FEATURES, UPDATE):
        for first, second in combinations(CHECKS[command], 2):
            for i in range(2):
                case = add(None, command, f"{first} and {second}{', again' if i else ''}",
                           **ways[first][i], **ways[second][i])
                fails = failing(case)
                assert fails[0] == first and second in fails and (i or len(fails) == 2), case.text
    for command in GRANULE:
        for first, second in combinations(GRANULE_CHECKS, 2):
            if (first, second) != ("off", "byte"):      # off the table there is no byte
                granules_fail(command, (first, second))
        granules_fail(command, ("not up", "banks", "table", "address", "off"))
        granules_fail(command, ("not up", "banks", "table", "address", "byte"))
        granules_fail(command, ("words", "not up", "banks", "table", "address", "off"))
    late, names = {"x1": ONES, "x2": 0, "x3": 1}, "outside, too long, curve, key"
    add(f"not up, length, {names}", KEY, "all", state="fresh", page=b"", **late)
    add(f"length, {names}", KEY, "all but the first", page=b"", **late)
    add(names, KEY, "all but the first two", **late)
    add("too long, curve, key", KEY, "the last three", x2=ONES, x3=1, key=b"")
    add("not up, index, minor", FEATURES, "all", state="fresh", x1=ONES, minor=0)
    add("not up, mecid, width, minor", UPDATE, "all", state="fresh", x1=ONES, m=ONES, minor=0)


def granules_fail(command, names):
    """Delegate or undelegate with just these checks failing."""
    state, address = "closed" if "not up" in names else "up", G + 2 * 4096
    # A bank of size 0 breaks the rule and has no granule.
    banks = [(G, 8 * 4096)] + [(G + 0x100000, 0)] * ("banks" in names)
    address += 2**40 * ("off" in names) + 8 * ("address" in names)
    byte = 2 if "byte" in names else GRANULE.index(command)
    table, record = bytes([byte]) * (9 if "table" in names else 8), record_of(banks)
    add(", ".join(names), command, " and ".join(names), state=state, record=record,
        base=address if "shared" in names else B, x1=address, table=table,
        lent=usual_words(record, table) + (ONES,) * ("words" in names))


def random_inputs():
    """Random inputs"""
    dice = Random(7)

    def pick(n):
        return dice.getrandbits(64) % n

    for i in range(22):
        command = (KEY, DELEGATE, UNDELEGATE, UPDATE, KEY, FEATURES, KEY, FORWARD)[i % 8]
        base, g, length = pick(2**pick(65)), 4096 * pick(2**pick(42)), 1 + pick(600)
        x1, x2, x3 = pick(WORD), pick(WORD), pick(WORD)
        if command in GRANULE:
            x1 = g + 4096 * pick(length + 1)
        elif command == KEY:
            x1 = min(base + pick(4100), ONES)
            x2, x3 = pick(max(base + 4100 - x1, 1)), pick(5) // 4
        elif command in (FEATURES, UPDATE):
            x1 = pick(2) if command == FEATURES else pick(2**pick(18))
        add(None, command, f"random input {i}", cpus=pick(2**pick(65)), base=base, minor=pick(8),
            x1=x1, x2=x2, x3=x3, record=one(g, length), m=pick(18),
            table=bytes(pick(3) for _ in range(length)),
            key=bytes(pick(256) for _ in range(pick(300))),
            page=bytes(pick(256) for _ in range(PAGE if command == KEY else pick(100))))


def kept_bytes():
    """Kept bytes: a buffer that begins below B + K is outside; other commands do not mind"""
    for kept in (1, 112, 4095, 4096, 4097, ONES):
        last = min(B + kept, B + 4096)      # where the first byte after the kept ones is, if any
        for pa, size in product(sorted({last - 1, last, (B + kept - 1) % WORD}), (0, 1)):
            outside = pa < B + kept or pa >= B + PAGE
            fails = ["outside"] * outside + ["too long"] * (pa + size > B + PAGE)
            add(", ".join(fails + ["key"] * (size == 0)) or "OK", KEY,
                f"K = {show(kept)}, pa = {show(pa)}, size {size}", kept=kept, x1=pa, x2=size,
                key=ONE)
    for base, kept, pa in ((WORD - 4096, 4095, ONES), (0, 112, 112), (B + 1, 8, B + 9),
                           (B, 4000, B + 4000)):
        for text, before in (("at", 0), ("1 below", 1)):
            add("outside" if before else "OK", KEY, f"B = {show(base)}, pa {text} B + {kept:,}",
                base=base, kept=kept, x1=pa - before, x2=1, key=ONE)
    for base, kept, pa in ((WORD - 4096, 4096, ONES), (ONES, 1, ONES), (ONES, ONES, ONES),
                           (2**63, 2**63 + 5, 2**63 + 100), (B, WORD - B, B), (B, ONES, B + 4095),
                           (B, WORD - B + 64, B + 64)):
        add("outside", KEY, f"B = {show(base)}, K = {show(kept)}, pa = {show(pa)}: B + K is 2^64 "
            "or more", base=base, kept=kept, x1=pa, x2=1, key=ONE)
    for other, change in (("not up", {"state": "closed"}), ("length", {"page": LENT[:4095]}),
                          ("too long", {"x2": ONES}), ("curve", {"x3": 1}), ("key", {"key": b""})):
        case = add(None, KEY, f"{other} and outside by K", kept=112, **{"x1": B + 111, **change})
        assert sorted(failing(case)) == sorted([other, "outside"]), case.text
    for kept in (4096, ONES):
        for command in (FORWARD, DELEGATE, UNDELEGATE, FEATURES, UPDATE):
            add("OK", command, f"K = {show(kept)}", kept=kept)
    add("not up, outside", KEY, "closed, with K", state="closed", kept=ONES)


def shared_page():
    """Request E8: the granule at B is not undelegated, for any byte"""
    for where, i in (("first", 0), ("middle", 3), ("last", 7)):
        for byte in (0, 1, 2, 3) if where == "middle" else (0, 1):
            table = bytearray(b"\1" * 8)
            table[i] = byte
            given = {"base": G + 4096 * i, "x1": G + 4096 * i, "table": bytes(table)}
            text = f"B the {where} granule, its byte {byte}"
            add("shared" if byte == 1 else "shared, byte", UNDELEGATE, text, **given)
            add("byte" if byte else "OK", DELEGATE, text, **given)
        for state in ("fresh", "closed"):
            add("not up, shared", UNDELEGATE, f"B the {where} granule, record {state}", state=state,
                base=G + 4096 * i, x1=G + 4096 * i)
    for text, base in (("the granule before B", G + 3 * 4096), ("after B", G + 4096),
                       ("B one byte below it", G + 2 * 4096 - 1), ("B = 0", 0)):
        add("OK", UNDELEGATE, text, base=base)
    add("off, shared", UNDELEGATE, "B one past the table", base=G + 8 * 4096, x1=G + 8 * 4096)
    add("shared", UNDELEGATE, "B = 0, the first granule", base=0, x1=0, record=one(0, 8))
    add("address, shared", UNDELEGATE, "B not aligned", base=G + 4096 + 8, x1=G + 4096 + 8)
    for other in ("words", "not up", "banks", "table", "address", "off"):
        granules_fail(UNDELEGATE, (other, "shared"))
    hole = record_of([(G, 4 * 4096), (G + 5 * 4096, 4 * 4096)])
    add("off, shared", UNDELEGATE, "B in a hole", base=G + 4 * 4096, x1=G + 4 * 4096, record=hole)
    add("shared", UNDELEGATE, "B after the hole", base=G + 5 * 4096, x1=G + 5 * 4096, record=hole)


def word_numbers():
    """Request E6: words of each length, one too few and one too many; other commands do not mind"""
    for n, command in product((0, 1, 63, 64, 65, 127, 128), GRANULE):
        table = bytes([GRANULE.index(command)]) * n
        held, last = realm_words(table), {"x1": G + 4096 * (n - 1), "table": table}
        if n:
            add("OK", command, f"{n} granules, {needed(n)} words", **last)
            add("words", command, f"{n} granules, one word too few", lent=held[1:], **last)
        add("words" if n else "words, banks, off", command, f"{n} granules, one word too many",
            lent=(*held, 0), **last)
    for command in GRANULE:
        add("words, not up", command, "no word, record fresh", state="fresh", lent=())
        add("words, not up", command, "80 words, record closed", state="closed", lent=(ONES,) * 80)
        add("table", command, "a table of 65, the one word of the record's 64", record=one(G, 64),
            table=bytes([GRANULE.index(command)]) * 65)
    for command in (FORWARD, KEY, FEATURES, UPDATE):
        add("OK", command, "two words for five granules", lent=(ONES,) * 2)


def odd_words():
    """Request E6: words at odds with the table: it decides, and the granule's bit alone is written"""
    for command in GRANULE:
        table = bytes([GRANULE.index(command)]) * 130
        held = realm_words(table)
        for i in (0, 64, 129):
            for text, lent in (("flipped", tuple(ONES - word for word in held)),
                               ("its bit alone wrong", put_bit(held, i, table[i] ^ 1))):
                if text == "flipped" or i == 64:
                    add("OK", command, f"granule {i}, words {text}", x1=G + 4096 * i, table=table,
                        lent=lent)
        add("byte", command, "byte 2, every bit set", x1=G + 4096, table=b"\2" * 130,
            lent=(ONES,) * 3)


def usual_calls():
    """One bank, with one word: records that only the bank's rule refuses; banks about 2^51"""
    for command in GRANULE:
        right = bytes([GRANULE.index(command)])
        for outcome, text, record, address in (
                ("words, banks, address", "bank and address 8 too high", one(G + 8, 8),
                 G + 8 + 4096),
                ("words, banks", "a bank of 8 granules and 512 bytes", (1, G, 8 * 4096 + 512),
                 G + 4096),
                ("words, banks", "a bank that ends one granule above 2^52", one(TOP - 7 * 4096, 8),
                 TOP - 4096),
                ("words, banks", "a bank at 2^52", one(TOP, 8), TOP),
                ("words, banks", "a bank at 2^63", one(2**63, 8), 2**63)):
            add(outcome, command, f"{text}, one word", record=record, x1=address, lent=(0,))
        for outcome, text, base, n, address in (
                ("OK", "one granule to 2^51 exactly", 2**51 - 4096, 1, 2**51 - 4096),
                ("OK", "a bank over 2^51, its granule there", 2**51 - 4096, 2, 2**51),
                ("off", "a bank over 2^51, one past it", 2**51 - 4096, 2, 2**51 + 4096),
                ("OK", "a bank at 2^51, its second granule", 2**51, 2, 2**51 + 4096)):
            add(outcome, command, text, record=one(base, n), x1=address, table=right * n)


# ---- Output ----

def build_all():
    for group in (examples, forwarding, records, page_lengths, granule_addresses, granule_banks,
                  granule_records, granule_bytes, key_ranges, keys_and_curves, features,
                  key_updates, together, random_inputs, kept_bytes, shared_page, word_numbers,
                  odd_words, usual_calls):
        GROUPS.append((group.__doc__, []))
        group()


def check_exit(case):
    """What holds of registers, table, page and words at exit."""
    code, registers, told, table, page, lent = run(case)
    assert len(case.table) <= 600 and len(case.key) <= 4200 and len(case.page) <= 4200
    assert told == (case.x1 if (case.id, code) in ((FORWARD, "forward"), (UPDATE, "OK")) else None)
    assert table == case.table or case.id in GRANULE and code == "OK", case.text
    assert page == case.page or case.id == KEY and code == "OK", case.text
    assert lent == case.lent or case.id in GRANULE and code == "OK", case.text
    if code not in ("OK", "forward"):
        assert registers == (WORD + CODES[code], 0, 0), case.text
    elif case.id in GRANULE:
        i = granule_at(case.record, len(table), case.x1)
        assert i is not None and len(table) == len(case.table), case.text
        assert table[:i] + table[i + 1:] == case.table[:i] + case.table[i + 1:], case.text
        assert (case.table[i], table[i]) == ((0, 1) if case.id == DELEGATE else (1, 0)), case.text
        bits = [(old ^ new) & ~((k == i // 64) << i % 64)
                for k, (old, new) in enumerate(zip(case.lent, lent))]
        assert lent[i // 64] >> i % 64 & 1 == table[i] and not any(bits), case.text
    elif case.id == KEY:
        start, k = case.x1 - case.base, len(case.key)
        assert 0 <= start and start + k <= start + case.x2 <= PAGE == len(page), case.text
        assert page == case.page[:start] + case.key + case.page[start + k:] != case.page, case.text
        assert registers == (0, k, 0), case.text


def check():
    """Each code of each command occurs; each check fails alone and with each other one."""
    cases = [case for _, group in GROUPS for case in group]
    for case in cases:
        check_exit(case)
    assert len(cases) <= 1000
    for command, checks in CHECKS.items():
        ours = [case for case in cases if case.id == command]
        tally = Counter(run(case).code for case in ours)
        assert set(tally) == ({"OK", *checks.values()} if checks else {"forward"}), tally
        wanted = {fails for n in (0, 1, 2) for fails in combinations(checks, n)}
        assert wanted - {tuple(failing(case)) for case in ours} <= {("off", "byte")}
        print(f"0x{command:X}:", ", ".join(f"{n} {code}" for code, n in sorted(tally.items())))
    print(f"{len(cases)} cases")


def case_of(n, case):
    """The file of a case, what the program prints for it, and its row of CASES.md."""
    return file_of(case), expected(n, case), case.text, f"`{run(case).code}`"


if __name__ == "__main__":
    build_all()
    check()
    write_all("command_vectors", "commands", "Command", "What | Answer", GROUPS, case_of)
