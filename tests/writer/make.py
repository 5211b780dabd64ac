#!/usr/bin/env python3
"""Run vectors for the boot-manifest writer, made from the rules alone (docs/RULES.md: WR1 to WR9;
requests E7 and E10).

Run from the repository's root:  python3 tests/writer/make.py
It rewrites crates/writer_vectors/data/c000, c001, .. (8-byte words: B, edition, fill byte, page
length, the four list lengths in words, the words of the four lists; then the bytes of the page at
exit; then those of the fields), crates/writer_vectors/stdout (what the program has to print for
them in order) and tests/writer/CASES.md (what each case is for). The same run always gives the
same bytes. With a folder as its argument it writes them below that folder.
"""

import sys
from collections import Counter, namedtuple
from itertools import combinations
from pathlib import Path
from random import Random

HERE = Path(__file__).resolve().parent

sys.dont_write_bytecode = True
sys.path[:0] = [str(HERE.parent), str(HERE.parent / "reader")]
from make import (B, CHOICE, CORE, ENTRY, JUNK, MARK, NAME, NAMES, ONCE, PAGE, PL011, SAMPLE,
                  SERIAL, SINCE, TOP, WORD, Page, broken, entry_holds, example_14, field,
                  fields_of, head, listing, read)
from vectors import write_all

REFUSALS = ("W1", "W2", "W3", "W4", "W5")
ONES = WORD - 1


# ---- The writer, from docs/RULES.md in its order. All arithmetic is on plain numbers. ----

def raw(words):
    return b"".join(word.to_bytes(8, "little") for word in words)


def entries(k, words):
    """The entries of a list of section k; the last is short if the list is not whole."""
    size = ENTRY[k] // 8
    return [tuple(words[i:i + size]) for i in range(0, len(words), size)]


def sound(k, entry):
    """Whether an entry of section k is whole and keeps the reader's rules for it."""
    if 8 * len(entry) != ENTRY[k] or k == 1 and entry[5] != 0:
        return False                # the last word of a console is its flags
    base, size = entry[0], entry[1] * (4096 if k == 1 else 1)
    return base % 4096 == 0 and size % 4096 == 0 and size != 0 and base + size <= TOP


def split(fields):
    """Request E7: the fields of a description, in their order, each as tag, told length and the bytes
    that are there; what is left over at its end is a field without a length."""
    listed = []
    while fields:
        length = fields[1] + 256 * fields[2] if len(fields) >= 3 else None
        listed.append((fields[0], length, fields[3:3 + (length or 0)]))
        fields = fields[3 + (length or 0):]
    return listed


def fields_sound(fields):
    """Whether a description of fields is whole and keeps the reader's rules, with no tag 0 and, by
    request E10, no tag 3."""
    listed = split(fields)
    once = Counter(tag for tag, _, _ in listed if tag in ONCE)
    return max(once.values(), default=0) <= 1 and all(
        tag not in (0, 3) and length == len(value)
        and (tag not in ONCE or ONCE[tag][0] <= length <= ONCE[tag][1])
        for tag, length, value in listed)


def refusals(b, edition, lists, fields, length):
    """Every refusal that applies, in the order of docs/RULES.md. The first of them is the writer's answer."""
    core = CORE.get(edition, 0)     # at no known edition the arrays alone may be too long
    facts = len(fields) + len(MARK) if fields else 0
    applies = (
        length != PAGE or b == 0 or b % 4096 != 0 or b > TOP - 4096,
        not 1 <= edition <= 4,
        not (all(sound(k, entry) for k in range(4) for entry in entries(k, lists[k]))
             and fields_sound(fields)),
        any(lists[k] and SINCE[k] > edition for k in range(4)),
        core + 8 * sum(map(len, lists)) + facts > PAGE)
    return [name for name, applied in zip(REFUSALS, applies) if applied]


def write(b, edition, lists, fields=b"", length=PAGE):
    """The writer's answer: the name of a refusal, or the bytes of the page."""
    refused = refusals(b, edition, lists, fields, length)
    if refused:
        return refused[0]
    behind = b + CORE[edition] + 8 * sum(map(len, lists))
    core = [edition, behind if fields else 0]   # version 0.edition with the padding, plat_data
    pointer = b + CORE[edition]
    for k, words in enumerate(lists):
        if SINCE[k] <= edition:
            place = [8 * len(words) // ENTRY[k], pointer] if words else [0, 0]
            core += place + [-sum(place + words) % WORD]
            pointer += 8 * len(words)
    return (raw(core + sum(lists, [])) + fields).ljust(PAGE, b"\0")     # the end mark is zeros


# ---- A case, its file and what the program prints for it ----

Case = namedtuple("Case", "text b edition lists fields length fill")


def answer(case):
    """The second line of a case, and the page at exit."""
    made = write(case.b, case.edition, case.lists, case.fields, case.length)
    if isinstance(made, str):
        return f"refused {made}", bytes([case.fill]) * case.length
    return "made", made


def file_of(case):
    """The bytes of a case's file."""
    words = [case.b, case.edition, case.fill, case.length, *map(len, case.lists)]
    return raw(words + sum(case.lists, [])) + answer(case)[1] + case.fields


def expected(number_of_case, case):
    """What the program prints for one case."""
    line, page = answer(case)
    text = f"case {number_of_case:03}\n{line}\npage as expected\n"
    if line == "made":
        for r in range(1, 5):
            text += f"edition {r}\n" + listing(read(r, case.b, page)[0])
    return text


# ---- The case list ----

GROUPS = []                         # (heading, [case, ..])


def add(outcome, text, lists, edition=4, b=B, length=PAGE, fill=0xA5, fields=b""):
    """Note a case. Its outcome is "made", or all refusals that apply with a blank between."""
    found = " ".join(refusals(b, edition, lists, fields, length)) or "made"
    assert found == outcome, (text, found)
    shown = f"{text} ({outcome})" if " " in outcome else text
    GROUPS[-1][1].append(Case(shown, b, edition, lists, fields, length, fill))


def flat(listed):
    """The words of these entries, in order."""
    return [word for entry in listed for word in entry]


def filled(edition=4, only=range(4), count=3, other=None):
    """Four lists: those of the edition have entries; other gives the words of some sections."""
    listed = [SAMPLE[k][:count] if k in only and SINCE[k] <= edition else [] for k in range(4)]
    return [list((other or {}).get(k, flat(listed[k]))) for k in range(4)]


def with_entry(edition, k, i, entry):
    """Filled lists, but section k has another entry at index i."""
    listed = list(SAMPLE[k])
    listed[i] = entry
    return filled(edition, other={k: flat(listed)})


def many(k, n):
    """The words of n entries of section k, no two the same."""
    if k == 1:
        return flat((0x1000 * i, i + 1, ONES - i, i, 9600 * i, 0) for i in range(n))
    return flat((0x1000 * i, 0x1000 * (i + k + 1)) for i in range(n))


def amounts(*counts):
    """Four lists with these numbers of entries."""
    return [many(k, n) for k, n in enumerate(counts)]


def example():
    """Example 14"""
    lists = [[0x90000000, 0x10000000], [], [], []]
    page = write(B, 2, lists)
    assert page == bytes(example_14().data)
    assert head(page, 0) == [1, 0x80000028, 0xFFFFFFFEDFFFFFD7]     # example 4
    add("made", "example 14: example 4's bank at edition 2", lists, 2)


def lengths_and_bases():
    """Page length and B"""
    for length in (0, 4095, 4097, 8192):
        add("W1", f"page of {length} bytes", filled(), length=length)
    for outcome, b, text in (
            ("made", 4096, "4,096, the first"), ("made", TOP - 4096, "2^52 - 4,096, the last"),
            ("W1", 0, "0"), ("W1", B + 8, "aligned + 8"), ("W1", B + 2048, "aligned + 2,048"),
            ("W1", TOP - 4095, "2^52 - 4,096 + 1"), ("W1", TOP, "2^52"),
            ("W1", WORD - 4096, "2^64 - 4,096")):
        add(outcome, f"B = {text}", filled(), b=b)


def editions():
    """Editions"""
    for edition in range(1, 5):
        add("made", f"edition {edition}, its lists filled", filled(edition), edition, fill=0x5A)
    add("W2", "edition 0, all lists empty", filled(0), 0)
    for edition, text in ((5, "5"), (260, "260"), (2**32 + 2, "2^32 + 2"), (ONES, "2^64 - 1")):
        add("W2", f"edition {text}, dram filled", filled(only=[0]), edition)
    add("W2", "edition 5, all lists filled", filled(), 5)


def list_lengths():
    """Lists that are not whole entries"""
    for k, name in enumerate(NAMES):
        for n in (1, 2, 3, 4, 7, 8) if k == 1 else (1, 3, 7):
            add("W3", f"{name} list of length {n}", filled(other={k: many(k, 4)[:n]}))


def entry_rules():
    """The rules for an entry"""
    usual = (PL011, 24000000, 115200)
    banks = (
        ("made", "base + size is 2^52", (TOP - 0x3000, 0x3000)),
        ("W3", "base not aligned", (0x90000800, 0x1000)),
        ("W3", "size not aligned", (0x90000000, 0x1001)),
        ("W3", "size 0", (0x90000000, 0)),
        ("W3", "one page over 2^52", (TOP - 0x3000, 0x4000)),
        ("W3", "base + size wraps past 2^64", (WORD - 0x1000, 0x2000)))
    consoles = (
        ("made", "ends at 2^52", (TOP - 0x3000, 3, *usual, 0)),
        ("made", "name, clock and baud 0", (0, 1, 0, 0, 0, 0)),
        ("made", "name, clock and baud 2^64 - 1", (0x1000, 1, ONES, ONES, ONES, 0)),
        ("made", "base 0, map_pages 2^40", (0, 2**40, *usual, 0)),
        ("W3", "base not aligned", (0x1C090800, 1, *usual, 0)),
        ("W3", "map_pages 0", (0x1C090000, 0, *usual, 0)),
        ("W3", "one page over 2^52", (TOP - 0x3000, 4, *usual, 0)),
        ("W3", "map_pages 2^52, times 4,096 wraps to 0", (0x1C090000, 2**52, *usual, 0)),
        ("W3", "map_pages 2^52 + 1, times 4,096 wraps", (0x1C090000, 2**52 + 1, *usual, 0)),
        ("W3", "base 2^64 - 4,096, wraps past 2^64", (WORD - 0x1000, 2, *usual, 0)),
        ("W3", "flags 1", (0x1C090000, 1, *usual, 1)),
        ("W3", "flags 2^63", (0x1C090000, 1, *usual, 2**63)))
    for k, name in enumerate(NAMES):
        # the first entry at the edition that brought the section, the last at edition 4
        for i, which, edition in ((0, "first", SINCE[k]), (-1, "last", 4)):
            for outcome, text, entry in consoles if k == 1 else banks:
                add(outcome, f"edition {edition}, {name}, {which} entry: {text}",
                    with_entry(edition, k, i, entry), edition)
    for outcome, k, text, entry in (
            ("made", 0, "base 0 and size 2^52", (0, TOP)),
            ("W3", 2, "base 4,096, size 2^64 - 4,096", (0x1000, WORD - 0x1000)),
            ("W3", 3, "base and size not aligned, their sum is", (0x90000800, 0x1800)),
            ("W3", 1, "flags 2^32", (0x1C090000, 1, *usual, 2**32))):
        add(outcome, f"edition 4, {NAMES[k]}, middle entry: {text}", with_entry(4, k, 1, entry))


def later_sections():
    """Lists for sections after the edition, those of the edition being filled"""
    for edition in range(1, 4):
        for k in range(4):
            if SINCE[k] > edition:
                where, entry = f"edition {edition}, {NAMES[k]}", list(SAMPLE[k][0])
                add("W4", f"{where}: a good entry", filled(edition, other={k: entry}), edition)
                entry[1] = 0        # size or map_pages
                add("W3 W4", f"{where}: second word 0", filled(edition, other={k: entry}), edition)
        add("W3 W4", f"edition {edition}, coh: a list of length 3",
            filled(edition, other={3: [0x1000] * 3}), edition)
    add("W4", "edition 1, all lists filled", filled(), 1)


def fullest():
    """As many entries as fit, and one more (examples 5 and 6)"""
    for edition, k, most in ((2, 0, 253), (3, 0, 252), (3, 1, 84), (4, 0, 249), (4, 1, 83),
                             (4, 2, 249), (4, 3, 249)):
        for n, outcome in ((most, "made"), (most + 1, "W5")):
            counts = [n if i == k else 0 for i in range(4)]
            add(outcome, f"edition {edition}: {n} of {NAMES[k]}", amounts(*counts), edition)
    for edition, counts in ((3, (132, 40, 0, 0)), (4, (60, 40, 60, 9))):
        where = f"edition {edition}: {counts} entries"
        add("made", f"{where}, to the last byte", amounts(*counts), edition)
        for k in range(4):
            if SINCE[k] <= edition:
                more = [n + (i == k) for i, n in enumerate(counts)]
                add("W5", f"{where} and one more of {NAMES[k]}", amounts(*more), edition)
    add("W5", "edition 4: each list of length 600", amounts(300, 100, 300, 300))


def subsets():
    """Each choice of filled and empty lists, onto a page full of one byte"""
    for edition, there in ((1, 0), (2, 1), (3, 2), (4, 4)):
        for only in [some for n in range(there + 1) for some in combinations(range(there), n)]:
            names = ", ".join(NAMES[k] for k in only) or "none"
            for fill, count in ((0xFF, 3), (0xA5, 1), (0, 2)):
                add("made", f"edition {edition}, filled: {names}; onto 0x{fill:02x}",
                    filled(edition, only, count), edition, fill=fill)


def checksums():
    """Checksums that wrap, by the free words of consoles"""
    def consoles(*free, only=(0, 2)):
        return filled(only=only, other={1: flat((0x1C090000, 1, *words, 0) for words in free)})

    ones = [ONES] * 3
    add("made", "three consoles, their free words 2^64 - 1", consoles(ones, ones, ones))
    add("made", "83 consoles, their free words 2^64 - 1", consoles(*[ones] * 83, only=()))
    add("made", "one console, clock and baud 2^63", consoles((0, 2**63, 2**63)))
    pointer = B + 112 + 3 * 16      # three banks lie before the console
    for checksum, text in ((0, "0"), (1, "1"), (2**63, "2^63"), (ONES, "2^64 - 1")):
        name = -(checksum + 1 + pointer + 0x1C090000 + 1) % WORD
        lists = consoles((name, 0, 0))
        assert head(write(B, 4, lists), 1) == [1, pointer, checksum]
        add("made", f"one console, by its name the checksum is {text}", lists)


def together():
    """Several refusals apply: the first in the order of docs/RULES.md answers"""
    bank, flagged = SAMPLE[0][0], [*SAMPLE[1][0][:5], 1]
    ways = {                        # what is changed at edition 3, all lists being empty
        "W1": (("length 4,095", {"length": 4095}), ("B zero", {"b": 0}), ("B = 2^52", {"b": TOP})),
        "W2": [(f"edition {n}", {"edition": n}) for n in (5, 2**32 + 2, ONES)],
        "W3": (("a single word in dram", {"dram": [0x1000]}),
               ("a bank of size 0", {"dram": [0x1000, 0]}),
               ("a good bank and one not aligned", {"dram": [*bank, 0x1001, 0x1000]})),
        "W4": (("an ncoh region", {"ncoh": bank}), ("a coh region", {"coh": bank}),
               ("an ncoh and a coh region", {"ncoh": bank, "coh": bank})),
        "W5": [(f"{n} consoles", {"console": many(1, n)}) for n in (86, 90, 100)]}
    for one, two in combinations(REFUSALS, 2):
        for (first, change), (second, other) in zip(ways[one], ways[two]):
            changes = {"edition": 3, **change, **other}
            if (one, two) == ("W2", "W4"):      # no section comes after an edition above 4
                first, changes["edition"] = "edition 0", 0
            words = {k: changes.pop(name, []) for k, name in enumerate(NAMES)}
            add(f"{one} {two}", f"{first} with {second}", filled(other=words), **changes)
    for which, words in (("first", flagged + many(1, 83)), ("last", many(1, 83) + flagged)):
        add("W3 W5", f"84 consoles, the {which} with flags 1", filled(only=[], other={1: words}))
    add("W4 W5", "300 of coh at edition 3", amounts(0, 0, 0, 300), 3)
    worst = amounts(300, 100, 300, 299)
    worst[3] += [0x1000, 0]
    add("W3 W4 W5", "each list of length 600, the last size 0, edition 1", worst, 1)
    add("W2 W3 W4 W5", "the same at edition 0", worst, 0)
    add("W1 W2 W3 W4 W5", "the same at edition 0, page of 0 bytes", worst, 0, length=0)


def random_descriptions():
    """Random descriptions that keep all rules"""
    dice = Random(1)

    def pick(n):
        return dice.getrandbits(64) % n

    def entry(k):
        base = pick(2**pick(41))    # in pages, as is the size; of any number of digits
        size = 1 + pick(min(2**pick(41), 2**40 - base))
        free = [pick(2**pick(65)) for _ in range(3)]
        return (4096 * base, size, *free, 0) if k == 1 else (4096 * base, 4096 * size)

    for i in range(40):
        edition = (4, 3, 2, 4, 3, 4, 2, 4, 3, 1)[i % 10]
        counts, room, first = [0] * 4, PAGE - CORE[edition], pick(4)
        for k in [(first + j) % 4 for j in range(4)]:       # each may be the one with most room
            if SINCE[k] <= edition:
                counts[k] = pick(room // ENTRY[k] // (1, 4, 32)[i % 3] + 1)
                room -= counts[k] * ENTRY[k]
        lists = [flat(entry(k) for _ in range(n)) for k, n in enumerate(counts)]
        add("made", f"edition {edition}: {tuple(counts)} entries", lists, edition,
            b=4096 * (1 + pick(2**40 - 1)), fill=pick(256))


def field_rules():
    """Request E7: the rules for a field, and descriptions that are cut short"""
    def alone(outcome, text, *fields, **other):
        add(outcome, text, filled(count=1), fields=b"".join(fields), **other)

    alone("made", "name, serial and tag 4", NAME, SERIAL, field(4, b"x"))
    alone("W3", "name, serial, tag 3 and tag 4", NAME, SERIAL, CHOICE, field(4, b"x"))
    for tag, (least, most) in ONCE.items():
        for length in sorted({least - 1, least, most, most + 1}):
            alone("made" if least <= length <= most and tag != 3 else "W3", f"tag {tag} of {length} bytes",
                  field(tag, JUNK[:length]))
    for tag in (4, 128, 255):
        for length in (0, 1, 33, 255, 256):
            alone("made", f"tag {tag} of {length} bytes", field(tag, JUNK[:length]))
    for tag, one in ((1, NAME), (2, SERIAL), (3, CHOICE)):
        alone("W3", f"tag {tag} twice", one, one)
        alone("W3", f"tag {tag} twice, others between", one, field(4), field(9, b"ab"), one)
    alone("made", "tag 4 three times", field(4, b"a"), field(4), field(4, b"a"))
    alone("made", "serial, tag 200 and name", SERIAL, field(200, b"ab"), NAME)
    alone("W3", "tag 3, serial, tag 200 and name", CHOICE, SERIAL, field(200, b"ab"), NAME)
    alone("W3", "serial, tag 200, name and tag 3", SERIAL, field(200, b"ab"), NAME, CHOICE)
    for value in (0, 255):
        alone("W3", f"tag 3 with the value {value}", field(3, bytes([value])))
    alone("made", "a value that looks like tag 3", field(9, CHOICE))
    for text, fields in (
            ("an end mark alone", MARK), ("a name and an end mark", NAME + MARK),
            ("an end mark and a name", MARK + NAME),
            ("an end mark between name and serial", NAME + MARK + SERIAL),
            ("tag 0 of 1 byte", field(0, b"x")), ("tag 0 of 256 bytes", field(0, JUNK[:256])),
            ("a name and tag 0 of 1 byte", NAME + field(0, b"x")),
            ("one byte", b"\4"), ("two bytes", b"\4\0"), ("two zeros", bytes(2)),
            ("tag 4 of 1 byte, which is missing", field(4, b"", 1)),
            ("tag 4 of 65,535 bytes, all missing but 90", field(4, JUNK[:90], 65535)),
            ("a name without its last byte", NAME[:-1]),
            ("name and serial, the serial without its last byte", NAME + SERIAL[:-1]),
            ("a name and one byte", NAME + b"\4"), ("a name and two bytes", NAME + b"\4\0"),
            ("a length in the other byte order", b"\4\0\3abc")):
        alone("W3", text, fields)


def field_places():
    """Request E7: fields after core and arrays, at each edition"""
    for edition in range(1, 5):
        for count in (0, 1, 3) if edition > 1 else (0,):
            for fill in (0xFF, 0):
                add("made", f"edition {edition}, {count} entries a list; onto 0x{fill:02x}",
                    filled(edition, count=count), edition, fill=fill,
                    fields=NAME + field(9, b"\0\1") + SERIAL)
    for b in (4096, TOP - 4096):
        add("made", f"B = 0x{b:x}", filled(count=1), b=b, fields=NAME)
    for k, name in enumerate(NAMES):
        add("made", f"{name} alone and fields", filled(only=[k]), fields=SERIAL + field(66, b"abc"))


def field_room():
    """Request E7: as many bytes of fields as fit, and one more"""
    def both(text, lists, room, edition=4):
        """A field that fills the page with its end mark, and one with a byte more."""
        exact = field(99, JUNK[:room - 3 - len(MARK)])
        add("made", f"{text}: a field of {len(exact):,} bytes", lists, edition, fields=exact)
        add("W5", f"{text}: one byte more", lists, edition, fields=field(99, JUNK[:room - 5]))

    for edition in (1, 4):
        both(f"edition {edition}, no entry", filled(edition, []), PAGE - CORE[edition], edition)
    both("edition 2, 253 of dram", amounts(253, 0, 0, 0), 8, 2)
    both("edition 3, 80 consoles", amounts(0, 80, 0, 0), 192, 3)
    both("edition 4, 1, 1, 1 and 234 entries", amounts(1, 1, 1, 234), 160)
    add("W5", "edition 4: (60, 40, 60, 9) entries, to the last byte, and an empty field",
        amounts(60, 40, 60, 9), fields=field(9))
    add("W5", "edition 4: 249 of dram and a field of 1 byte", amounts(249, 0, 0, 0),
        fields=field(4, b"\1"))
    add("W3 W5", "edition 4: 249 of dram and tag 3", amounts(249, 0, 0, 0), fields=CHOICE)
    for size, name in ((0, "empty fields"), (1, "fields of 1 byte")):
        n = (PAGE - CORE[4] - 3) // (3 + size)
        listed = [field(4 + i % 252, JUNK[i:i + size]) for i in range(n + 1)]
        add("made", f"{n} {name}", filled(only=[]), fields=b"".join(listed[:-1]))
        add("W5", f"{n + 1} {name}", filled(only=[]), fields=b"".join(listed))
    add("W5", "5,000 bytes of fields", filled(), fields=field(8, JUNK + JUNK[:901]))


def field_order():
    """Request E7: several refusals apply, the fields among them"""
    bank, twice, much = list(SAMPLE[0][0]), SERIAL + SERIAL, field(9, JUNK)
    add("W1 W3", "B zero, serial twice", filled(), b=0, fields=twice)
    add("W2 W3", "edition 5, serial twice", filled(), 5, fields=twice)
    add("W2 W5", "edition 5, 4,099 bytes of fields", filled(only=[]), 5, fields=much)
    add("W3", "a bank of size 0, serial twice", filled(other={0: [0x1000, 0]}), fields=twice)
    add("W3", "a bank of size 0, good fields", filled(other={0: [0x1000, 0]}), fields=NAME)
    add("W3 W4", "edition 1, a bank, serial twice", filled(1, other={0: bank}), 1, fields=twice)
    add("W4", "edition 1, a bank, good fields", filled(1, other={0: bank}), 1, fields=NAME)
    add("W4 W5", "edition 1, a bank, 4,099 bytes of fields", filled(1, other={0: bank}), 1,
        fields=much)
    add("W3 W5", "4,099 bytes of fields, then an end mark", filled(), fields=much + MARK)
    add("W3 W5", "250 banks, an end mark alone", amounts(250, 0, 0, 0), fields=MARK)
    add("W3 W4 W5", "edition 3, 300 of coh, half a field", amounts(0, 0, 0, 300), 3, fields=b"\1")
    add("W1 W3 W4 W5", "the same, page of 4,095 bytes", amounts(0, 0, 0, 300), 3, fields=b"\1",
        length=4095)


def random_fields():
    """Request E7: random descriptions with fields that keep all rules"""
    dice = Random(7)

    def pick(n):
        return dice.getrandbits(64) % n

    def value(length):
        return bytes(pick(256) for _ in range(length))

    for i in range(30):
        edition = 1 + i % 4
        counts = [pick(12) if SINCE[k] <= edition else 0 for k in range(4)]
        listed = [field(4 + pick(252), value((0, 1, 2, 9, 40)[pick(5)]))
                  for _ in range((0, 1, 5, 40)[pick(4)])]
        for tag, (least, most) in list(ONCE.items())[:2]:
            if pick(3):
                one = field(tag, value(least + pick(most - least + 1)))
                listed.insert(pick(len(listed) + 1), one)
        add("made", f"edition {edition}: {tuple(counts)} entries and {len(listed)} fields",
            amounts(*counts), edition, fields=b"".join(listed), fill=pick(256))


# ---- Output ----

def build_all():
    for group in (example, lengths_and_bases, editions, list_lengths, entry_rules,
                  later_sections, fullest, subsets, checksums, together, random_descriptions,
                  field_rules, field_places, field_room, field_order, random_fields):
        GROUPS.append((group.__doc__, []))
        group()


def check_by_reader(case):
    """W1 and W3 have the reader's rules; each edition of the reader accepts a made page and shows
    what was described; the reader's page builder makes the same bytes."""
    listed = [entries(k, words) for k, words in enumerate(case.lists)]
    refused = refusals(case.b, case.edition, case.lists, case.fields, case.length)
    told = fields_of(case.fields + MARK)
    faults = broken(4, case.b, bytes(case.length))
    assert ("W1" in refused) == any(code == -5 for code, _ in faults)
    assert ("W3" in refused) != (told is not None and told[1] == len(case.fields) + len(MARK)
                                 and 3 not in [tag for tag, _ in told[0]]
                                 and all(8 * len(entry) == ENTRY[k] and entry_holds(4, k, entry)
                                         for k in range(4) for entry in listed[k]))
    if refused:
        return
    page, built, offset = answer(case)[1], Page(case.edition, case.b), CORE[case.edition]
    for k in [k for k in range(4) if listed[k]]:
        built.section(k, offset, listed[k])
        offset += len(listed[k]) * ENTRY[k]
    if case.fields:
        built.facts(offset, case.fields)
    assert page == bytes(built.data), case.text
    for r in range(1, 5):
        e = min(r, case.edition)
        sections = [listed[k] if SINCE[k] <= e else None for k in range(4)]
        lookups = [raw(case.lists[k]) if SINCE[k] <= e else b"" for k in range(4)]
        shown = case.edition, e, case.b + offset if case.fields else 0, told[0], sections
        assert read(r, case.b, page) == (shown, lookups), case.text


def check():
    """What is known apart from the writer above, the bounds of a case file, the spread."""
    cases = [case for _, group in GROUPS for case in group]
    for case in cases:
        check_by_reader(case)
        assert case.length <= 8192 and case.fill <= 255 and max(map(len, case.lists)) <= 600
        assert len(file_of(case)) < 32768
    assert len({file_of(case) for case in cases}) == len(cases) <= 1000
    tally = Counter(answer(case)[0] for case in cases)
    assert set(tally) == {"made", *[f"refused {name}" for name in REFUSALS]}
    print(f"{len(cases)} cases:", ", ".join(f"{tally[line]} {line}" for line in sorted(tally)))


def case_of(n, case):
    """The file of a case, what the program prints for it, and its row of CASES.md."""
    return file_of(case), expected(n, case), case.text, f"`{answer(case)[0]}`"


if __name__ == "__main__":
    build_all()
    check()
    write_all("writer_vectors", "writer", "Writer", "What | Answer", GROUPS, case_of)
