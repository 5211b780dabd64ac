#!/usr/bin/env python3
"""Run vectors for the packer and the mender, made from the rules alone (docs/RULES.md: PK1 to PK8,
MD1 to MD8; requests E11 and E12). The reader and the writer are those of tests/reader and
tests/writer.

Run from the repository's root:  python3 tests/pages/make.py
It rewrites crates/page_vectors/data/c000, c001, .. (8 bytes each: 0 to pack or 1 to mend, B, the
target's length, the byte that the target is filled with; then the page), crates/page_vectors/stdout
and tests/pages/CASES.md; and tests/pages/cases, for the programs: NAME.in, their standard input,
NAME.packed, the standard output of pack_page, and NAME.mended and NAME.report, standard output and
error of mend_page. The pages of tests/reader/field are inputs too. With a folder as its argument it
writes them below that folder.
"""

import importlib.util
import random
import sys
from collections import Counter, namedtuple
from itertools import combinations, permutations
from pathlib import Path

HERE = Path(__file__).resolve().parent

sys.dont_write_bytecode = True
sys.path[:0] = [str(HERE.parent), str(HERE.parent / "reader")]
from make import (B, CHOICE, CORE, ENTRY, HEAD, JUNK, MARK, NAME, NAMES, ONES, PAGE, PLACE, SAMPLE,
                  SERIAL, SINCE, TOP, WORD, Page, broken, example_14, field, field_pages, full,
                  listing, mark, number, read)
from vectors import ROOT, write_all

SPEC = importlib.util.spec_from_file_location("writer", HERE.parent / "writer" / "make.py")
WRITER = importlib.util.module_from_spec(SPEC)
SPEC.loader.exec_module(WRITER)


# ---- The packer, from request E11 ----

def pack(b, page, length):
    """A refusal's name, or the bytes that the target then has."""
    answer, _ = read(4, b, page)
    if isinstance(answer, int):
        return str(answer)
    w, _, _, fields, sections = answer
    if w >= 5:
        return "-6"
    lists = [[word for entry in section or [] for word in entry] for section in sections]
    kept = b"".join(field(tag, value) for tag, value in fields if tag != 3)
    return WRITER.write(b, w, lists, kept, length)


# ---- The mender, from request E12: each part is put back into a core without them while the reader
# still accepts ----

PARTS = ((4, 4), (8, 8), *((at, 24) for at in HEAD))    # padding, plat_data, the four sections


def mend(b, page):
    """A refusal's name; or for each of the six whether it was changed, and the page then."""
    codes = [code for code, _ in broken(4, b, page)]
    if codes and codes[0] != -7:
        return str(codes[0]), page
    e = min(4, number(page[0:2]))
    own = [at for at, _ in PARTS[:2]] + [HEAD[k] for k in range(4) if SINCE[k] <= e]
    mended = bytearray(page)
    for at, size in PARTS:
        if at in own:
            mended[at:at + size] = bytes(size)
    assert not broken(4, b, bytes(mended))
    for at, size in PARTS:
        if at in own:
            mended[at:at + size] = page[at:at + size]
            if broken(4, b, bytes(mended)):
                mended[at:at + size] = bytes(size)
    mended = bytes(mended)
    return [mended[at:at + size] != page[at:at + size] for at, size in PARTS], mended


# ---- A case, its file and what the program prints for it ----

Case = namedtuple("Case", "text mends b length fill page")


def file_of(case):
    words = (int(case.mends), case.b, case.length, case.fill)
    return b"".join(word.to_bytes(8, "little") for word in words) + case.page


def answer(case):
    """The lines of a case but the first, and the page that it leaves."""
    if case.mends:
        told, page = mend(case.b, case.page)
        refused = isinstance(told, str)
        line = f"refused {told}" if refused else "mended" + "".join(f" {int(c)}" for c in told)
        return [line, f"page {mark(page):016x}"], None if refused else page
    made = pack(case.b, case.page, case.length)
    if isinstance(made, str):
        left = bytes([case.fill]) * case.length
        return [f"refused {made}", f"target {mark(left):016x}"], None
    again = pack(case.b, made, PAGE)
    return ["packed", f"target {mark(made):016x}", f"again {mark(again):016x}"], made


def expected(n, case):
    lines, page = answer(case)
    text = "".join(line + "\n" for line in [f"case {n:03}", *lines])
    return text if page is None else text + listing(read(4, case.b, page)[0])


# ---- The case list ----

GROUPS = []                         # (heading, [case, ..])


def add(text, page, b, mends, length=PAGE, fill=0xFF):
    """Note a case, once. Raw bytes stand for themselves."""
    b = b if b is not None else getattr(page, "b", B)
    page = bytes(getattr(page, "data", page))
    case = Case(text, mends, b, length, fill, page)
    if not any(case[1:] == other[1:] for _, cases in GROUPS for other in cases):
        GROUPS[-1][1].append(case)
    return case


def packs(text, page, b=None, fill=0xFF):
    """A page that must be packed."""
    case = add(text, page, b, False, fill=fill)
    assert answer(case)[0][0] == "packed", text


def unpacked(code, text, page, b=None, length=PAGE):
    """A page or target that must be refused with this."""
    case = add(text, page, b, False, length)
    assert answer(case)[0][0] == f"refused {code}", (text, answer(case))


def mends(changed, text, page, b=None):
    """A page of which these parts, by number, have to be changed."""
    case = add(text, page, b, True)
    told = "mended" + "".join(f" {int(i in changed)}" for i in range(6))
    assert answer(case)[0][0] == told, (text, answer(case)[0])


def unmended(code, text, page, b=None):
    case = add(text, page, b, True)
    assert answer(case)[0][0] == f"refused {code}", text


BANKS = [(0x1000 * i, 0x1000 * (i + 1)) for i in range(256)]
CONSOLES = [(0x1000 * i, i + 1, WORD - i, i, 9600 * i, 0) for i in range(96)]
FACTS = (NAME, SERIAL, field(9, b"rev B"), field(4), field(9, bytes(range(40))))


def holes():
    """Packing: holes, and arrays in any order"""
    packs("example 14's page, packed already", example_14())
    for w in range(1, 5):
        for fill, text in ((bytes(PAGE), "0"), (ONES, "0xff"), (JUNK, "junk")):
            packs(f"0.{w} with holes of {text}", full(w, fill=fill))
    packs("a target of zeros", full(fill=JUNK), fill=0)
    for order in permutations(range(4)):
        places = [0x180 + 0x100 * order.index(k) for k in range(4)]
        names = ", ".join(NAMES[k] for k in order)
        packs(f"arrays in the order {names}", full(fill=JUNK, places=places))
    for n in range(5):
        for only in combinations(range(4), n):
            packs(f"sections {only or 'none'} alone", full(fill=JUNK, only=only))
    packs("arrays that touch, the last first",
          full(fill=JUNK, places=[4096 - 48, 4096 - 192, 4096 - 240, 4096 - 288]))
    for b in (4096, TOP - 4096):
        packs(f"B = 0x{b:x}", full(b=b, fill=JUNK))
    for name, b, page, _ in field_pages():
        if not broken(4, b, page):
            packs(f"field page {name}", page, b)
        else:
            unpacked(-7, f"field page {name}", page, b)
            packs(f"field page {name}, mended", mend(b, page)[1], b)


def facts():
    """Packing: fields"""
    for at, text in ((112, "before the arrays"), (0x280, "between the arrays"), (0xE00, "last")):
        packs(f"fields {text}", full(fill=JUNK).facts(at, *FACTS))
        packs(f"fields {text}, tag 3 among them", full(fill=JUNK).facts(at, NAME, CHOICE, SERIAL))
    for w in range(1, 5):
        packs(f"fields of a 0.{w} page", full(w, fill=JUNK).facts(0x800, *FACTS))
        packs(f"an end mark alone, 0.{w}", full(w, fill=JUNK).facts(0x800))
        packs(f"only tag 3, 0.{w}", full(w, fill=JUNK).facts(0x800, CHOICE))
    for order in permutations((NAME, CHOICE, field(200, b"\0"))):
        packs("three fields, one of tag 3, in another order", full(fill=JUNK).facts(0x700, *order))
    packs("tag 3 first", full(fill=JUNK).facts(0x700, CHOICE, *FACTS))
    packs("tag 3 last", full(fill=JUNK).facts(0x700, *FACTS, CHOICE))
    packs("fields at the page's end", full(fill=JUNK).facts(PAGE - 3 - len(NAME), NAME))
    packs("fields without arrays", Page(4, fill=JUNK).facts(0x600, *FACTS))
    packs("900 empty fields", Page(4, fill=JUNK).facts(0x200, *[field(7)] * 900))
    packs("a value of 3,900 bytes", Page(4, fill=JUNK).facts(150, field(77, JUNK[:3900])))


def fullest():
    """Packing: pages filled to the last byte"""
    for w, k, most in ((2, 0, 253), (3, 1, 84), (4, 0, 249), (4, 1, 83), (4, 2, 249)):
        listed = (CONSOLES if k == 1 else BANKS)[:most]
        packs(f"0.{w}: {most} of {NAMES[k]}", Page(w, fill=JUNK).section(k, CORE[w], listed))
    page = Page().section(3, 112, BANKS[200:209]).section(2, 112 + 144, BANKS[100:160])
    page.section(1, 112 + 1104, CONSOLES[:40]).section(0, 112 + 3024, BANKS[:60])
    packs("0.4: four arrays in reverse order fill the page", page)
    room = PAGE - 112 - 100 * 16 - 3 - 3
    page = Page(fill=JUNK).facts(112, field(8, JUNK[:room])).section(0, PAGE - 1600, BANKS[:100])
    packs("0.4: fields and 100 banks fill the page", page)
    room -= len(CHOICE)
    page = Page(fill=JUNK).facts(112, field(8, JUNK[:room]), CHOICE)
    packs("0.4: with tag 3 they fill it", page.section(0, PAGE - 1600, BANKS[:100]))


def refusals():
    """Packing: refusals, alone and together"""
    good, late = full(fill=JUNK), full(5, fill=JUNK)
    bad, late_bad = full(fill=JUNK).checksum(0, 1), full(5, fill=JUNK).checksum(0, 1)
    for length in (0, 4095, 4097, 8192):
        unpacked("W1", f"target of {length} bytes", good, length=length)
        unpacked(-5, f"page and target of {length} bytes", bytes(2 * PAGE)[:length], B, length)
        unpacked(-6, f"minor 5, target of {length} bytes", late, length=length)
        unpacked(-7, f"bad checksum, target of {length} bytes", bad, length=length)
    for minor in (5, 6, 10, 255, 65535):
        unpacked(-6, f"minor {minor}", full(minor, fill=JUNK))
        unpacked(-7, f"minor {minor}, bad checksum", full(minor, fill=JUNK).checksum(0, 1))
    for b in (0, B + 8, TOP, WORD - 4096):
        unpacked(-5, f"B = 0x{b:x}", full(b=b), b)
        unpacked(-5, f"B = 0x{b:x}, minor 5", full(5, b=b), b)
        unpacked(-5, f"B = 0x{b:x}, target of 4,095 bytes", full(b=b), b, 4095)
        unpacked(-5, f"B = 0x{b:x}, bad checksum", full(b=b).checksum(0, 1), b)
        unpacked(-5, f"B = 0x{b:x}, version 0", full(b=b).version(0), b)
    for version in (0, 0x00010004, 0x80000004):
        unpacked(-6, f"version 0x{version:08x}", full().version(version))
        unpacked(-6, f"version 0x{version:08x}, bad checksum", full().version(version).checksum(1, 1))
        for length in (0, 4095, 4097):
            unpacked(-6, f"version 0x{version:08x}, target of {length} bytes", full().version(version), length=length)
    unpacked(-7, "broken fields", full(fill=JUNK).facts(0x700, NAME, NAME))
    unpacked(-7, "tag 3 twice", full(fill=JUNK).facts(0x700, CHOICE, CHOICE))
    unpacked(-7, "padding", full(fill=JUNK).put(5, b"\1"))
    unpacked(-7, "minor 5, bad checksum, target of 0 bytes", late_bad, length=0)


# Parts 0 to 5, each broken by itself, on a full page with fields at 0x700.
def whole(minor=4, fill=JUNK):
    return full(minor, fill=fill).facts(0x700, *FACTS)


BREAKS = (
    lambda page: page.put(6, b"\1"),
    lambda page: page.words(8, B + 0x701),          # in the middle of a field
    lambda page: page.checksum(0, 1),
    lambda page: page.words(HEAD[1] + 8, B + 0x304),    # not a multiple of 8
    lambda page: page.words(HEAD[2], 0),            # a pointer without entries
    lambda page: page.seal(3, 3, B + PAGE - 40),    # past the page's end
)


def parts():
    """Mending: each part broken, and any of them together"""
    for n in (0, 1, 2, 3, 4, 5, 6):
        for chosen in combinations(range(6), n):
            page = whole()
            for i in chosen:
                BREAKS[i](page)
            mends(chosen, f"broken: {', '.join(map(str, chosen)) or 'none'}", page)


def rules():
    """Mending: each rule of a part"""
    for i in range(4, 8):
        mends([0], f"byte {i} of the padding", whole().put(i, b"\x80"))
    for at, text in ((8, "into the core"), (111, "at the core's last byte"), (PAGE, "after the page"),
                     (PAGE - 2, "two bytes before the end")):
        mends([1], f"plat_data {text}", whole(fill=bytes(PAGE)).words(8, B + at))
    mends([1], "plat_data 1", whole().words(8, 1))
    mends([1], "plat_data below B", whole().words(8, B - 8))
    for told, text in (((NAME, NAME), "the name twice"), ((CHOICE, CHOICE), "tag 3 twice"),
                       ((field(2, bytes(7)),), "a short serial"), ((field(0, b"\1"),), "tag 0 with a length"),
                       ((field(1, bytes(33)),), "a long name"), ((field(9, b"", 4000),), "a cut value")):
        mends([1], f"fields with {text}", full(fill=JUNK).facts(0x700, *told))
    mends([], "tag 3 is no damage", full(fill=JUNK).facts(0x700, CHOICE))
    for k in range(4):
        listed = list(SAMPLE[k])
        listed[1] = (listed[1][0] + 1, *listed[1][1:])
        mends([k + 2], f"{NAMES[k]}: a base that is no multiple of 4,096", full(fill=JUNK, **{NAMES[k]: listed}))
        mends([k + 2], f"{NAMES[k]}: a pointer into the core", whole().claim(k, 1, 104))
        mends([k + 2], f"{NAMES[k]}: 2^60 entries", whole().words(HEAD[k], 2**60))
        mends([k + 2], f"{NAMES[k]}: a checksum alone", whole().words(HEAD[k], 0, 0, 1))
        mends([], f"{NAMES[k]} empty", whole().words(HEAD[k], 0, 0, 0))
    console = (*SAMPLE[1][0][:5], 1)
    mends([3], "a console with flags at minor 4", full(fill=JUNK, console=[console]))
    mends([], "a console with flags at minor 5", full(5, fill=JUNK, console=[console]))


def overlaps():
    """Mending: overlap with a part that is kept, and with one that is not"""
    def run():
        """Good banks from 0x400 on, which no section names yet."""
        return Page(4, fill=JUNK).words(0x400, *[word for bank in BANKS[1:30] for word in bank])

    for j, k in combinations((0, 2, 3), 2):
        mends([k + 2], f"{NAMES[k]} overlaps {NAMES[j]}", run().claim(j, 8, 0x400).claim(k, 8, 0x440))
        mends([j + 2], f"{NAMES[k]} overlaps {NAMES[j]}, which is dropped",
              run().claim(j, 8, 0x400).claim(k, 8, 0x440).checksum(j, 1))
        mends([k + 2], f"{NAMES[k]} on the same bytes as {NAMES[j]}",
              run().claim(j, 8, 0x400).claim(k, 8, 0x400))
        mends([], f"{NAMES[k]} touches {NAMES[j]}", run().claim(j, 8, 0x480).claim(k, 8, 0x400))
    mends([4], "ncoh overlaps dram, and coh overlaps ncoh alone",
          run().claim(0, 8, 0x400).claim(2, 8, 0x440).claim(3, 8, 0x4A0))
    mends([4, 5], "ncoh and coh overlap dram", run().claim(0, 8, 0x400).claim(2, 8, 0x440).claim(3, 8, 0x470))
    page = Page(4, fill=JUNK).section(1, 0x400, SAMPLE[1])
    for k in (2, 3):
        mends([k + 2], f"{NAMES[k]} within a console", page.words(0x410, 0x1000, 0x1000).claim(1, 3, 0x400).claim(k, 1, 0x410))
        page.words(HEAD[k], 0, 0, 0)
    for k in range(4):
        raw = b"".join(word.to_bytes(8, "little") for entry in SAMPLE[k] for word in entry)
        page = full(fill=JUNK).facts(PLACE[k] - 3, field(60, raw))
        mends([k + 2], f"fields over {NAMES[k]}", page)
        page = full(fill=JUNK).facts(PLACE[k] - 3, field(60, raw), field(1, b""))
        mends([1], f"broken fields over {NAMES[k]}", page)
        page = full(fill=JUNK).facts(PLACE[k] - 3)
        mends([], f"an end mark that touches {NAMES[k]}", page)
        page = full(fill=JUNK).facts(PLACE[k] - 4, field(1, b"x"), end=b"")
        add(f"a field that runs into {NAMES[k]}", page, None, True)


def later():
    """Mending: sections after the edition, and later minors"""
    for w in range(1, 4):
        mends([], f"0.{w}, junk where later sections were", full(w, fill=JUNK))
        mends([], f"0.{w}, ones where later sections were", full(w, fill=ONES))
        page = full().version(w)
        for k in range(4):
            page.checksum(k, 1)
        mends([k + 2 for k in range(4) if SINCE[k] <= w], f"0.{w}, all checksums bad", page)
        mends([0, 1], f"0.{w}, padding and plat_data", full(w, fill=JUNK).put(4, b"\1").words(8, B + 15))
    for w in (5, 10, 255, 65535):
        mends([], f"0.{w}", full(w, fill=JUNK))
        page = full(w, fill=JUNK)
        for k in range(4):
            page.checksum(k, 1)
        mends([2, 3, 4, 5], f"0.{w}, all checksums bad", page)


def codes():
    """Mending: refusals, the page untouched"""
    page = whole().checksum(0, 1)
    for length in (0, 1, 4095, 4097, 8192):
        unmended(-5, f"page of {length} bytes", (bytes(page.data) * 2)[:length], B)
    for b in (0, B + 8, TOP, WORD - 4096):
        unmended(-5, f"B = 0x{b:x}", page, b)
        unmended(-5, f"B = 0x{b:x}, version 0", bytes(PAGE), b)
    for version in (0, 0x00010004, 0x80000004, 0xFFFFFFFF):
        unmended(-6, f"version 0x{version:08x}", whole().version(version).checksum(0, 1))
    unmended(-6, "a page of ones", ONES, B)


def known():
    """Mending: pages that real firmware wrote"""
    mends([], "example 14's page", example_14())
    for name, b, page, _ in field_pages():
        # qemu's console checksum does not hold
        mends([3] if name.startswith("qemu") else [], f"field page {name}", page, b)


def random_pages():
    """Mending and packing: sections and fields at any place"""
    rng = random.Random(12)
    for i in range(100):
        page = Page(rng.choice((1, 2, 3, 4, 4, 4, 7)), fill=rng.choice((JUNK, ONES, bytes(PAGE))))
        parts = list(range(5))
        rng.shuffle(parts)
        for k in parts:
            at = 8 * rng.randrange(14, 100)
            if k == 4:
                page.facts(at + rng.randrange(8), *rng.sample(FACTS + (CHOICE,), rng.randrange(4)))
            elif rng.randrange(6):
                page.section(k, at, rng.sample(SAMPLE[k], rng.randrange(1, 4)))
        if rng.randrange(4) == 0:
            page.put(rng.randrange(4, 112), bytes([rng.randrange(256)]))
        add(f"random page {i}", page, None, True)
        mended = mend(B, bytes(page.data))[1]
        add(f"random page {i}, mended, packed", mended, B, False)


# ---- Inputs of the programs: 8 bytes of B, then the page ----

REASON = {"-5": "place", "-6": "version", "-7": "rules"}
PART = ("padding", "platform", *NAMES)


def by_hand():
    """A page that grew under an editor: arrays where there was room, the last section first, and a
    console choice, which is withdrawn by now, between name and serial."""
    page = full(fill=JUNK, places=[0xE00, 0xA00, 0x600, 0x200])
    return page.facts(0x403, NAME, CHOICE, SERIAL)


def damaged():
    """Two manually edited sections: a console's word without a new checksum, and coh
    pointed into dram."""
    page = full(fill=JUNK).facts(0x700, NAME, SERIAL)
    page.words(PLACE[1] + 24, 48000000)
    return page.claim(3, 1, PLACE[0] + 16)


def inputs():
    """By name; those of tests/reader/field have their file there."""
    made = {"by-hand": by_hand(), "by-hand-0.2": full(2, fill=JUNK, places=[0x800] * 4),
            "damaged": damaged(), "six-parts": whole(), "minor-5": full(5, fill=JUNK),
            "refused-version": full().version(0x00010004), "refused-base": full(b=B + 8)}
    for spoil in BREAKS:
        spoil(made["six-parts"])
    told = {name: page.b.to_bytes(8, "little") + bytes(page.data) for name, page in made.items()}
    whole_input = told["by-hand"]
    for length in (0, 8, 4096, 4103, 4105, 8208):
        told[f"length-{length}"] = (whole_input * 2)[:length]
    real = {name: b.to_bytes(8, "little") + page for name, b, page, _ in field_pages()}
    return told, real


def packed_output(told):
    made = pack(number(told[:8]), told[8:], PAGE) if len(told) == 8 + PAGE else "-5"
    return made if isinstance(made, bytes) else f"refused {made} {REASON[made]}\n".encode()


def mended_output(told):
    """Standard output and standard error."""
    changed, page = mend(number(told[:8]), told[8:]) if len(told) == 8 + PAGE else ("-5", b"")
    if isinstance(changed, str):
        return b"", f"refused {changed}\n"
    lines = (f"{part} {'yes' if was else 'no'}\n" for part, was in zip(PART, changed))
    return page, "".join(lines)


def write_inputs():
    cases = (Path(sys.argv[1]) if sys.argv[1:] else ROOT) / "tests" / "pages" / "cases"
    cases.mkdir(parents=True, exist_ok=True)
    for stale in cases.iterdir():
        stale.unlink()
    made, real = inputs()
    for name, told in {**made, **real}.items():
        page, report = mended_output(told)
        if name in made:
            (cases / f"{name}.in").write_bytes(told)
        (cases / f"{name}.packed").write_bytes(packed_output(told))
        (cases / f"{name}.mended").write_bytes(page)
        (cases / f"{name}.report").write_text(report)


# ---- Output ----

def build_all():
    for group in (holes, facts, fullest, refusals, parts, rules, overlaps, later, codes, known,
                  random_pages):
        GROUPS.append((group.__doc__, []))
        group()


def check():
    """What is known apart from the two above: PK4, PK5, MD6 and MD7, on every case."""
    cases = [case for _, group in GROUPS for case in group]
    tally = Counter()
    for case in cases:
        lines, page = answer(case)
        tally[lines[0]] += 1
        if case.mends and page is not None:
            assert not broken(4, case.b, page)
            assert page[:4] == case.page[:4] and page[112:] == case.page[112:]
            if not broken(4, case.b, case.page):
                assert page == case.page and lines[0] == "mended 0 0 0 0 0 0"
        elif page is not None:
            assert lines[1][7:] == lines[2][6:], "packing again changes a byte"
            for r in range(1, 5):
                before, after = read(r, case.b, case.page), read(r, case.b, page)
                assert before[1] == after[1] and before[0][4] == after[0][4]
                assert before[0][:2] == after[0][:2]
                assert [f for f in before[0][3] if f[0] != 3] == after[0][3]
    assert len({file_of(case) for case in cases}) == len(cases) <= 1000, len(cases)
    assert len(tally) >= 20
    print(f"{len(cases)} cases: {tally['packed']} packed, {len(tally)} answers")


def case_of(n, case):
    lines = expected(n, case)
    return file_of(case), lines, case.text, f"`{lines.splitlines()[1]}`"


if __name__ == "__main__":
    build_all()
    check()
    write_all("page_vectors", "pages", "Packer and mender", "Page | Answer", GROUPS, case_of)
    write_inputs()
