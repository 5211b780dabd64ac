#!/usr/bin/env python3
"""Run vectors for the boot-manifest reader, made from the rules alone (docs/RULES.md: RD1 to RD15
and the manifest rules P1 to F5, FD1 to FD11, LS2 to LS5; requests E3, E7 and E10).

Run from the repository's root:  python3 tests/reader/make.py
It rewrites crates/reader_vectors/data/c000, c001, .. (8 bytes of reader edition, 8 bytes of B,
the page), crates/reader_vectors/stdout (what the program has to print for them in order) and
tests/reader/CASES.md (what each case is for). The same run always gives the same bytes.
With a folder as its argument it writes them below that folder.
"""

import sys
from itertools import combinations, permutations
from pathlib import Path

HERE = Path(__file__).resolve().parent

sys.dont_write_bytecode = True
sys.path.insert(0, str(HERE.parent))
from vectors import write_all

PAGE = 4096
TOP = 2**52                         # no address of a manifest reaches past this
WORD = 2**64
CORE = {1: 16, 2: 40, 3: 64, 4: 112}    # core size by edition
NAMES = ("dram", "console", "ncoh", "coh")
HEAD = (16, 40, 64, 88)             # offset of each section's count, pointer, checksum
SINCE = (2, 3, 4, 4)                # edition that brought the section
ENTRY = (16, 48, 16, 16)            # bytes of one entry
BANKS = (0, 2, 3)                   # the sections with base and size entries
ONCE = {1: (1, 32), 2: (8, 8), 3: (1, 1)}   # request E7: tags that appear at most once, by length


# ---- The reader, from docs/RULES.md in its order. All arithmetic is on plain numbers. ----

def number(raw):
    return int.from_bytes(raw, "little")


def words_at(page, offset, length):
    """The whole 8-byte words of page[offset : offset + length]."""
    part = page[offset:offset + length]
    return [number(part[i:i + 8]) for i in range(0, len(part) - 7, 8)]


def head(page, k):
    """Count, pointer and checksum of section k."""
    return words_at(page, HEAD[k], 24)


def entries(page, k, offset, count):
    """The entries of an array of section k, each a tuple of 2 or 6 words."""
    size = ENTRY[k]
    return [tuple(words_at(page, offset + i * size, size)) for i in range(count)]


def entry_holds(minor, k, entry):
    """The rules for one entry: a console in section 1, else a bank or region. Request E3: flags are
    held to 0 by the page's minor, not by the reader's edition."""
    if k == 1:
        base, map_pages, _name, _clk_in_hz, _baud_rate, flags = entry
        return (base % 4096 == 0 and map_pages != 0
                and base + 4096 * map_pages <= TOP and (flags == 0 or minor >= 5))
    base, size = entry
    return base % 4096 == 0 and size % 4096 == 0 and size != 0 and base + size <= TOP


def fields_of(raw):
    """Request E7: the fields from the first byte on, each as its tag and its value, and the number of
    bytes through their end mark. None if they are broken."""
    fields, at = [], 0
    while at + 3 <= len(raw):
        tag, length = raw[at], number(raw[at + 1:at + 3])
        value = bytes(raw[at + 3:at + 3 + length])
        at += 3 + length
        if tag == 0:
            return (fields, at) if length == 0 else None
        least, most = ONCE.get(tag, (0, 65535))
        twice = tag in ONCE and tag in [other for other, _ in fields]
        if len(value) < length or not least <= length <= most or twice:
            return None
        fields.append((tag, value))
    return None                     # no end mark in the page


def broken(r, b, page):
    """Every rule this page breaks for a reader of edition r, as (code, rule), in the order of docs/RULES.md."""
    found = []

    def rule(code, name, holds):
        if not holds and (code, name) not in found:
            found.append((code, name))

    rule(-5, "length", len(page) == PAGE)
    rule(-5, "B", b != 0 and b % 4096 == 0 and b <= TOP - 4096)
    if len(page) != PAGE:
        return found                # no byte of such a page is read
    version = number(page[0:4])
    minor, major, bit31 = version % 2**16, version // 2**16 % 2**15, version // 2**31
    rule(-6, "edition", 1 <= r <= 4)
    rule(-6, "version", bit31 == 0 and major == 0 and minor >= 1)
    if any(code == -6 for code, _ in found):
        return found                # there is no e to go on with

    e = min(r, minor)
    first, end = b + CORE[e], b + PAGE
    plat_data = number(page[8:16])
    rule(-7, "padding", page[4:8] == bytes(4))
    rule(-7, "plat_data", plat_data == 0 or first <= plat_data <= b + 4095)
    arrays = []                     # those that can be looked at: all bytes are in the page
    for k in range(4):
        if SINCE[k] > e or page[HEAD[k]:HEAD[k] + 24] == bytes(24):
            continue                # absent or empty
        count, pointer, _ = head(page, k)
        rule(-7, "count", count >= 1)
        if count == 0:
            continue
        length = count * ENTRY[k]
        rule(-7, "align", pointer % 8 == 0)
        rule(-7, "place", first <= pointer and pointer + length <= end)
        if b <= pointer and pointer + length <= end:
            arrays.append((k, pointer - b, length))
    for (_, a, a_length), (_, c, c_length) in combinations(arrays, 2):
        rule(-7, "overlap", a + a_length <= c or c + c_length <= a)
    for k, offset, length in arrays:
        total = sum(head(page, k)) + sum(words_at(page, offset, length))
        rule(-7, "checksum", total % WORD == 0)
    for k, offset, length in arrays:
        for entry in entries(page, k, offset, length // ENTRY[k]):
            rule(-7, "entry", entry_holds(minor, k, entry))
    if first <= plat_data < end:
        told = fields_of(page[plat_data - b:])
        rule(-7, "fields", told is not None)
        for _, offset, length in arrays if told else []:
            start = plat_data - b
            rule(-7, "fields in array", start + told[1] <= offset or offset + length <= start)
    return found


def kept_for(e, b, page):
    """Request E5: how many bytes at the page's start a manifest takes that a reader accepts as
    edition e: the highest end of its core, arrays and fields, up to a multiple of 8."""
    ends = [CORE[e]]
    plat_data = number(page[8:16])
    if plat_data:                   # request E7: through the end mark
        ends.append(plat_data - b + fields_of(page[plat_data - b:])[1])
    for k in range(4):
        count, pointer, _ = head(page, k) if SINCE[k] <= e else (0, b, 0)
        ends.append(pointer - b + count * ENTRY[k] if count else 0)
    return -(-max(ends) // 8) * 8


def read(r, b, page):
    """The reader's answer: a code, or w, e, plat_data, the fields and for each section None if
    absent, [] if empty, or its entries; and beside it the bytes that the lookup gives for each
    section."""
    faults = broken(r, b, page)
    if faults:
        return faults[0][0], [b""] * 4
    w = number(page[0:2])
    e = min(r, w)
    sections, lookups = [], []
    for k in range(4):
        count, pointer, _ = head(page, k) if SINCE[k] <= e else (0, b, 0)
        offset = pointer - b if count else 0
        shown = entries(page, k, offset, count) if SINCE[k] <= e else None
        if k == 1 and w >= 5 and shown:     # request E3: shown with flags 0
            shown = [(*entry[:5], 0) for entry in shown]
        sections.append(shown)
        lookups.append(bytes(page[offset:offset + count * ENTRY[k]]))
    plat_data = number(page[8:16])
    fields = fields_of(page[plat_data - b:])[0] if plat_data else []
    fields = [(tag, None if tag == 3 else value) for tag, value in fields]  # request E10: withdrawn
    return (w, e, plat_data, fields, sections), lookups


def listing(answer):
    """The lines of the listing (LS2 to LS5)."""
    if isinstance(answer, int):
        return f"refused {answer}\n"
    w, e, plat_data, fields, sections = answer
    lines = [f"manifest 0.{w} read as {e}",
             f"platform 0x{plat_data:016x}" if plat_data else "platform none"]
    for tag, value in fields:
        lines.append(f"{tag} withdrawn" if value is None else
                     " ".join([str(tag), str(len(value)), *[f"{byte:02x}" for byte in value]]))
    for k, section in enumerate(sections):
        lines.append(f"{NAMES[k]} {'absent' if section is None else len(section)}")
        for entry in section or []:
            shown = [f"0x{word:016x}" for word in entry]
            if k == 1:
                shown[2] = entry[2].to_bytes(8, "little").hex()     # the name, byte by byte
            lines.append(" ".join(shown))
    return "".join(line + "\n" for line in lines)


PRIME, BASES = 2**32 - 5, (0x9E3779B1, 0x85EBCA77)


def mark(part):
    """A number that tells one run of bytes from another: the bytes as the digits of a number in
    each of two bases, its length before them, by what it leaves modulo a prime."""
    high = low = len(part)
    for byte in part:
        high, low = [(x * base + byte) % PRIME for x, base in zip((high, low), BASES)]
    return high * 2**32 + low


def shown_field(found):
    """What follows on the line of a field lookup: the tag, the length and the mark of the value;
    or that the field is withdrawn, or that there is none."""
    if not found:
        return " none\n"
    tag, value = found[0]
    return " withdrawn\n" if value is None else f" {tag} {len(value)} {mark(value):016x}\n"


def asked(fields):
    """The lines of the field lookups: how many there are, the first of some tags, and some by
    number, the first that there is not among them."""
    text = f"fields {len(fields)}\n"
    for tag in (0, 1, 2, 3, 4, 255):
        text += f"tag {tag}" + shown_field([field for field in fields if field[0] == tag][:1])
    for i in (0, len(fields) // 2, len(fields)):
        text += f"field {i}" + shown_field(fields[i:i + 1])
    return text


ASKED = (b"pl011", b"uart-1ab", b"")


def consoles_named(sections):
    """The lines of the console lookup: the first console of some names, by its number."""
    names = [entry[2].to_bytes(8, "little") for entry in sections[1] or []]
    text = ""
    for name in ASKED:
        name = name.ljust(8, b"\0")
        text += f"console {name.hex()} {names.index(name) if name in names else 'none'}\n"
    return text


def expected(number_of_case, r, b, page):
    """What the program prints for one case."""
    answer, lookups = read(r, b, page)
    text = f"case {number_of_case:03}\n" + listing(answer)
    for k, part in enumerate(lookups + [b""]):      # there is no section 4
        text += f"array {k} {len(part)} {mark(part):016x}\n"
    if isinstance(answer, int):
        return text
    return text + asked(answer[3]) + consoles_named(answer[4])


# ---- The page builder ----

B = 0x80000000
ZERO = bytes(PAGE)
ONES = b"\xff" * PAGE
JUNK = bytes((i * 167 + (i >> 8) * 31 + 13) % 256 for i in range(PAGE))
PL011 = number(b"pl011\0\0\0")
PLACE = (0x200, 0x300, 0x500, 0x600)    # where a full page has its arrays, with holes between
SAMPLE = (
    [(0x80000000, 0x7C000000), (0x880000000, 0x80000000), (0x40000000, 0x1000)],
    [(0x1C090000, 1, PL011, 24000000, 115200, 0),
     (0x1C0A0000, 16, number(b"uart-1ab"), 0, 9600, 0),
     (0xFE660000, 2, 0, 1843200, 1500000, 0)],
    [(0x4000000000, 0x100000000), (0x6000000000, 0x3000), (0, 0x8000)],
    [(0x5000000000, 0x40000000), (0x7000001000, 0x1000), (0xFFFFF00000000, 0x10000000)],
)


MARK = bytes(3)                     # what ends the fields


def field(tag, value=b"", length=None):
    """A field of the platform data; the stored length may be wrong on purpose."""
    length = len(value) if length is None else length
    return bytes([tag]) + length.to_bytes(2, "little") + value


NAME = field(1, b"Potterbeam DK-1")
SERIAL = field(2, b"\x11\x22\x33\x44\x55\x66\x77\x88")
CHOICE = field(3, b"\1")


class Page:
    """A page under construction: the core of its minor is zero but for the version, and the
    rest is the fill. Every step hands the page back, so that steps can be chained."""

    def __init__(self, minor=4, b=B, fill=ZERO):
        self.b = b
        self.data = bytearray(fill)
        self.put(0, bytes(CORE[min(minor, 4)])).version(minor)

    def put(self, offset, raw):
        """Raw bytes; what would fall past the page's end is dropped."""
        raw = raw[:PAGE - offset]
        self.data[offset:offset + len(raw)] = raw
        return self

    def words(self, offset, *values):
        return self.put(offset, b"".join((v % WORD).to_bytes(8, "little") for v in values))

    def version(self, value):
        return self.put(0, value.to_bytes(4, "little"))

    def seal(self, k, count, pointer, words=()):
        """Write section k so that its checksum holds for an array of these words."""
        return self.words(HEAD[k], count, pointer, -(count + pointer + sum(words)))

    def claim(self, k, count, offset):
        """Let section k name count entries that are on the page already."""
        words = words_at(self.data, offset, count * ENTRY[k])
        return self.seal(k, count, self.b + offset, words)

    def section(self, k, offset, listed):
        """Write an array and let section k name it."""
        self.words(offset, *[word for entry in listed for word in entry])
        return self.claim(k, len(listed), offset)

    def checksum(self, k, value):
        return self.words(HEAD[k] + 16, value)

    def facts(self, offset, *fields, end=MARK):
        """Write fields and what ends them, and let plat_data point at the first."""
        return self.words(8, self.b + offset).put(offset, b"".join(fields) + end)


def full(minor=4, b=B, fill=ZERO, places=PLACE, only=range(4), **other):
    """A valid page with the sections of its minor filled; other, by name, replaces entries."""
    page = Page(minor, b, fill)
    for k in only:
        if SINCE[k] <= minor:
            page.section(k, places[k], other.get(NAMES[k], SAMPLE[k]))
    return page


def with_entry(k, i, entry):
    """A full page whose section k has another entry at index i, the checksum right for it."""
    listed = list(SAMPLE[k])
    listed[i] = entry
    return full(**{NAMES[k]: listed})


# ---- The case list ----

GROUPS = []                         # (heading, [(text, r, b, page), ..])


def add(text, page, r, b):
    """Note a case and say which rules it breaks. Raw bytes stand for themselves."""
    b = b if b is not None else getattr(page, "b", B)
    page = bytes(getattr(page, "data", page))
    GROUPS[-1][1].append((text, r, b, page))
    return broken(r, b, page)


def good(text, page, r=4, b=None):
    """A case that must be accepted."""
    faults = add(text, page, r, b)
    assert not faults, (text, faults)


def bad(rule, text, page, r=4, b=None):
    """A case that must break this one rule and no other."""
    faults = add(text, page, r, b)
    assert [name for _, name in faults] == [rule], (text, faults)


def mixed(code, text, page, r=4, b=None):
    """A case that breaks several rules, the first of which has this code."""
    faults = add(text, page, r, b)
    assert faults and faults[0][0] == code, (text, faults)


def by_edition(since, rule, text, page, b=None):
    """One page read by all editions: those below `since` accept, the others see one rule broken."""
    for r in range(1, 5):
        if r < since:
            good(f"{text}, edition {r}", page, r, b)
        else:
            bad(rule, f"{text}, edition {r}", page, r, b)


def example_14():
    return Page(2).section(0, 40, [(0x90000000, 0x10000000)])


def field_pages():
    """Name, B, page and listing of each page under field/."""
    for path in sorted((HERE / "field").glob("*.in")):
        raw = path.read_bytes()
        yield path.stem, number(raw[:8]), raw[8:], path.with_suffix(".out").read_text()


def known_pages():
    """Example 14 and pages that real firmware wrote"""
    good("example 14: one bank on a 0.2 page", example_14())
    for name, b, page, _ in field_pages():
        since = 3 if name.startswith("qemu") else 5     # qemu's console checksum does not hold
        by_edition(since, "checksum", f"field page {name}", page, b)


def lengths_and_bases():
    """Page length and B"""
    data = bytes(full().data)
    for length in (0, 1, 4095, 4097, 4104, 8192):
        bad("length", f"page of {length} bytes", (data + data)[:length])
    for b, text in ((4096, "4,096"), (TOP - 4096, "2^52 - 4,096, the last")):
        good(f"B = {text}", full(b=b))
    for b, text in ((0, "0"), (B + 8, "aligned + 8"), (B + 2048, "aligned + 2,048"), (TOP, "2^52"),
                    (2**63, "2^63"), (WORD - 4096, "2^64 - 4,096")):
        bad("B", f"B = {text}, pointers right for it", full(b=b))
    for b, text in ((B + 1, "aligned + 1"), (TOP - 4095, "2^52 - 4,096 + 1"),
                    (WORD - 1, "2^64 - 1")):
        bad("B", f"B = {text}, all sections empty", Page(b=b))


def editions():
    """Reader editions"""
    for r, text in ((0, "0"), (5, "5"), (260, "260"), (2**32 + 4, "2^32 + 4"),
                    (2**63 + 4, "2^63 + 4"), (WORD - 1, "2^64 - 1")):
        bad("edition", f"edition {text} on a full 0.4 page", full(), r)
    bad("edition", "edition 5 on a 0.5 page", full(5), 5)
    for r in range(1, 5):
        for w in range(1, 5):
            good(f"edition {r} on a full 0.{w} page", full(w), r)


def versions():
    """Versions"""
    for version in (0, 0x80000004, 0x80000000, 0x00010000, 0x00010002, 0x00010004, 0x40000004):
        bad("version", f"version 0x{version:08x}", full().version(version))
    for minor in (5, 9, 10, 255, 256, 260, 65535):
        for r in range(1, 5):
            good(f"minor {minor} (0x{minor:04x}), edition {r}", full(minor), r)
    bad("checksum", "minor 256, coh checksum broken", full(256).checksum(3, 1))


def padding_and_platform():
    """Padding and plat_data"""
    for i in range(4, 8):
        bad("padding", f"byte {i} is 1", full().put(i, b"\1"))
    bad("padding", "byte 7 is 0x80 on a 0.1 page", Page(1).put(7, b"\x80"), 1)
    for e, core in CORE.items():
        bad("plat_data", f"plat_data 1 below the core's end, 0.{e}", full(e).words(8, B + core - 1))
        good(f"plat_data at the core's end, 0.{e}", full(e).words(8, B + core))
    for value, text in ((B, "at B"), (1, "1"), (0x800, "an offset, B not added"), (B - 1, "B - 1"),
                        (B + 4096, "at B + 4,096"), (B + 2**63 + 0x800, "2^63 too high"),
                        (WORD - 1, "2^64 - 1")):
        bad("plat_data", f"plat_data {text}", full().words(8, value))
    for rule, value, text in (      # good before request E7, which has the fields read
            ("fields", B + 4095, "at B + 4,095"),
            ("fields in array", B + 0x200, "at an array's start"),
            ("fields in array", B + 0x315, "inside an array"),
            ("fields", B + 0x703, "at junk, not aligned")):
        bad(rule, f"plat_data {text}", full(fill=JUNK).words(8, value))
    for r in range(1, 5):           # a console's count is there: tag 3 with a length of 0
        bad("fields" if r < 3 else "plat_data", f"plat_data at B + 40 of a 0.4 page, edition {r}",
            full().words(8, B + 40), r)
    bad("plat_data", "plat_data at B + 111 of a 0.9 page", full(9).words(8, B + 111))


def section_heads():
    """Count, pointer and checksum of a section"""
    good("all four sections empty", Page())
    for k, name in enumerate(NAMES):
        good(f"{name} alone filled", full(only=[k]))
        at = B + PLACE[k]
        for rule, text, fields in (
                ("count", "count 0 with a pointer, checksum 0", (0, at, 0)),
                ("count", "count 0, pointer 0, checksum 1", (0, 0, 1)),
                ("count", "count 0 with a pointer, the sum right", (0, at, -at)),
                ("place", "count 1, pointer 0, the sum right", (1, 0, -1)),
                ("place", "array just below B", (1, B - ENTRY[k], -(1 + B - ENTRY[k]))),
                ("place", "pointer one page low, checksum right for the array a page on",
                 (1, at - 4096, -(1 + at - 4096 + sum(SAMPLE[k][0]))))):
            bad(rule, f"{name}: {text}", full().words(HEAD[k], *fields))


def pointers():
    """Where an array may lie"""
    for k, name in enumerate(NAMES):
        listed = SAMPLE[k]
        last = PAGE - len(listed) * ENTRY[k]
        for shift in (1, 4):
            places = [at + shift * (i == k) for i, at in enumerate(PLACE)]
            bad("align", f"{name}: pointer {shift} past a multiple of 8", full(places=places))
        good(f"{name}: array at the core's end", Page().section(k, 112, listed))
        good(f"{name}: array ends at the page's end", Page().section(k, last, listed))
        bad("place", f"{name}: array ends 8 past the end", Page().section(k, last + 8, listed))
        bad("place", f"{name}: pointer at B + 4,096", Page().seal(k, 1, B + 4096))
        bad("place", f"{name}: pointer one page high, checksum right for the array a page back",
            full().seal(k, len(listed), B + 4096 + PLACE[k], sum(listed, ())))
        if k < 3:                   # the array's first word is coh's checksum, 0 as coh is empty
            page = Page().section(k, 104, [(0, *listed[0][1:])])
            bad("place", f"{name}: array 8 bytes into the core", page)
    page = Page().section(3, 104, SAMPLE[3])
    mixed(-7, "coh: array 8 bytes into the core, on its own checksum", page)
    page = Page().section(0, 104, [(0, 0x1000), (0x2000, 0x1000)])
    by_edition(4, "place", "dram at offset 104 of a 0.4 page", page)
    page = Page(3).section(0, 56, [(0, 0x1000)])
    by_edition(3, "place", "dram at offset 56 of a 0.3 page", page)
    page = full().section(0, 40, SAMPLE[0])
    good("dram at offset 40 of a 0.4 page, edition 2", page, 2)
    mixed(-7, "dram at offset 40 of a 0.4 page, edition 3", page, 3)
    mixed(-7, "dram at offset 40 of a 0.4 page, edition 4", page, 4)
    page = Page().section(1, 64, SAMPLE[1])
    good("console at offset 64 of a 0.4 page, edition 3", page, 3)
    mixed(-7, "console at offset 64 of a 0.4 page, edition 4", page, 4)
    good("dram at offset 40 of a 0.2 page, edition 4", Page(2).section(0, 40, SAMPLE[0]))
    mixed(-7, "dram pointer at B", Page().claim(0, 1, 0))


def wrapping():
    """Counts and pointers that wrap; the checksum holds for what a wrapping reader would add up"""
    for k, name in enumerate(NAMES):
        size, array = ENTRY[k], sum(SAMPLE[k], ())
        most = (WORD - 1) // size   # the largest count whose bytes are below 2^64
        counts = {2**60, 2**60 + 1, 2**64 - 1}
        if k < 2:
            counts |= {most, most + 1, 2**32 + 1, 2**61 + 1, 2**63 + 1}
        for count in sorted(counts):
            length = count * size % 2**32   # what 32 bits keep, and 64 bits where these wrap
            words = array[:length // 8] if length <= 8 * len(array) else ()
            bad("place", f"{name}: count 0x{count:x}",
                full(only=[k]).seal(k, count, B + PLACE[k], words))
    for k in (0, 1):
        name, size, array = NAMES[k], ENTRY[k], sum(SAMPLE[k], ())
        at, count = B + PLACE[k], len(SAMPLE[k])
        around = -(-at // size) + 1     # this many entries from 2^64 - size end in the page
        for text, n, pointer, words in (
                ("array ends at 2^64", 1, WORD - size, ()),
                ("array ends 8 past 2^64", 1, WORD - size + 8, ()),
                ("array from below 2^64 around into the page", around, WORD - size, ()),
                ("pointer 2^32 too high", count, at + 2**32, array),
                ("pointer 2^63 too high", count, at + 2**63, array),
                ("pointer is an offset, B not added", count, PLACE[k], array),
                ("array from below B into the page", 3, B - size, ())):
            bad("place", f"{name}: {text}", full(only=[k]).seal(k, n, pointer, words))
        page = full(b=B + 2**32, only=[k]).seal(k, count, at, array)
        bad("place", f"{name}: B above 2^32, pointer without its upper half", page)


def overlaps():
    """Overlapping and touching arrays"""
    def words(*pair, flags=None):
        """A page where the arrays of this pair are still to be claimed: words from 0x800 on that
        are good as banks and, with one 0 for the flags, as a console. The others are filled."""
        page = full(only=[k for k in range(4) if k not in pair]).words(0x800, *[0x1000] * 16)
        return page if flags is None else page.words(0x800 + 8 * flags, 0)

    def in_turn(first, second):
        """A full page where two arrays touch."""
        places = list(PLACE)
        places[first], places[second] = 0x800, 0x800 + 3 * ENTRY[first]
        return full(places=places)

    for i, j in permutations(range(4), 2):
        good(f"{NAMES[i]} ends where {NAMES[j]} starts", in_turn(i, j))
    for i, j in permutations(BANKS, 2):
        page = words(i, j).claim(i, 2, 0x800).claim(j, 2, 0x810)
        bad("overlap", f"last of {NAMES[i]} is first of {NAMES[j]}", page)
    for i, j in combinations(BANKS, 2):
        page = words(i, j).claim(i, 4, 0x800).claim(j, 2, 0x810)
        bad("overlap", f"{NAMES[j]} wholly inside {NAMES[i]}", page)
        page = words(i, j).claim(i, 3, 0x800).claim(j, 3, 0x800)
        bad("overlap", f"{NAMES[i]} and {NAMES[j]} name the same array", page)
    for k in BANKS:
        name = NAMES[k]
        for text, bank, count, console in (     # words before the banks, banks, before the console
                (f"last of {name} is the console's first two words", 0, 2, 2),
                (f"the console's last word is the first of {name}", 5, 1, 0),
                (f"{name} wholly inside a console", 2, 1, 0),
                (f"console wholly inside {name}", 0, 4, 1),
                (f"{name} and console have one pointer", 0, 2, 0)):
            page = words(k, 1, flags=console + 5)
            page.claim(k, count, 0x800 + 8 * bank).claim(1, 1, 0x800 + 8 * console)
            bad("overlap", text, page)
    page = words(0, 1, flags=7).claim(0, 2, 0x800).claim(1, 1, 0x810)
    by_edition(3, "overlap", "dram overlaps console", page)


def checksums():
    """Checksums"""
    for k, name in enumerate(NAMES):
        count, _, right = head(full().data, k)
        last = [word for word in sum(SAMPLE[k], ()) if word][-1]
        for text, value in (("one too large", right + 1), ("one too small", right - 1),
                            ("the plain sum", -right), ("count left out", right + count),
                            ("last word that is not 0 left out", right + last), ("0", 0),
                            ("bit 63 turned", right + 2**63)):
            bad("checksum", f"{name}: checksum {text}", full().checksum(k, value))
    name = -(1 + B + PLACE[1] + 0x1C090000 + 1) % WORD
    page = full(console=[(0x1C090000, 1, name, 0, 0, 0)])
    assert head(page.data, 1)[2] == 0
    good("console: a checksum that holds and is 0", page)


def bank_entries():
    """Entries: banks and regions"""
    for k in BANKS:
        for i, which in ((0, "first"), (-1, "last")):
            where = f"{NAMES[k]}, {which} entry"
            good(f"{where}: base + size is 2^52", with_entry(k, i, (TOP - 0x3000, 0x3000)))
            for text, entry in (("base not aligned", (0x90000800, 0x1000)),
                                ("size not aligned", (0x90000000, 0x1001)),
                                ("size 0", (0x90000000, 0)),
                                ("one page over 2^52", (TOP - 0x3000, 0x4000)),
                                ("base + size wraps past 2^64", (WORD - 0x1000, 0x2000))):
                bad("entry", f"{where}: {text}", with_entry(k, i, entry))
    good("dram: base 0 and size 2^52", with_entry(0, 0, (0, TOP)))
    for text, entry in (("base 2^52, size 4,096", (TOP, 0x1000)),
                        ("base and size 2^63", (2**63, 2**63)),
                        ("base 4,096, size 2^64 - 4,096", (0x1000, WORD - 0x1000))):
        bad("entry", f"dram, middle entry: {text}", with_entry(0, 1, entry))
    good("dram: two banks overlap in memory",
         full(dram=[(0x80000000, 0x2000), (0x80001000, 0x2000)]))
    good("dram, ncoh and coh list the same memory", full(ncoh=SAMPLE[0], coh=SAMPLE[0]))


def console_entries():
    """Entries: consoles"""
    def console(i, base, pages, flags=0):
        return with_entry(1, i, (base, pages, PL011, 24000000, 115200, flags))

    for i, which in ((0, "first"), (-1, "last")):
        where = f"console, {which} entry"
        good(f"{where}: ends at 2^52", console(i, TOP - 0x3000, 3))
        for text, args in (("base not aligned", (0x1C090800, 1)), ("map_pages 0", (0x1C090000, 0)),
                           ("one page over 2^52", (TOP - 0x3000, 4)),
                           ("map_pages 2^52", (0x1C090000, 2**52)),
                           ("map_pages 2^52 + 1", (0x1C090000, 2**52 + 1)),
                           ("map_pages 2^63", (0x1C090000, 2**63)),
                           ("base 2^64 - 4,096", (WORD - 0x1000, 1)),
                           ("flags 1", (0x1C090000, 1, 1)), ("flags 2^63", (0x1C090000, 1, 2**63))):
            bad("entry", f"{where}: {text}", console(i, *args))
    bad("entry", "console, middle entry: flags 2^32", console(1, 0x1C090000, 1, 2**32))
    bad("entry", "console: base 4,096, map_pages 2^52 - 1", console(0, 0x1000, 2**52 - 1))
    bad("entry", "console: base 0, map_pages 2^40 + 1", console(0, 0, 2**40 + 1))
    good("console: base 0, map_pages 2^40", console(0, 0, 2**40))
    ones = WORD - 1
    for text, fields in (("all 0", (0, 0, 0)), ("all 2^64 - 1", (ones, ones, ones)),
                         ("bytes in order", (number(b"\0\1\2\3\xfc\xfd\xfe\xff"), 1, 2**63))):
        good(f"console: name, clock and baud {text}", with_entry(1, 0, (0, 1, *fields, 0)))


def console_flags():
    """Request E3: flags of consoles by the page's minor, for readers of each edition"""
    def page(minor, *flags):
        listed = [(0x1C090000 + 0x1000 * i, 1, PL011, 24000000, 115200, f)
                  for i, f in enumerate(flags)]
        return full(minor=minor, console=listed)

    for minor in (3, 4, 5, 6, 65535):
        for text, flags in (("0", 0), ("1", 1), ("2^63", 2**63), ("2^64 - 1", WORD - 1)):
            for r in range(1, 5):
                where = f"minor {minor:,}, flags {text}, edition {r}"
                if flags and minor <= 4 and r >= 3:
                    bad("entry", where, page(minor, flags), r)
                else:
                    good(where, page(minor, flags), r)
    for minor in (5, 65535):
        good(f"minor {minor:,}, the first of two with flags", page(minor, 7, 0))
        good(f"minor {minor:,}, the last of three with flags", page(minor, 0, 0, 2**32))
    bad("entry", "minor 4, the last of three with flags", page(4, 0, 0, 2**32))
    late = page(5, 9)
    _, _, right = head(late.data, 1)
    for r in (3, 4):
        bad("checksum", f"minor 5, the checksum leaves the flags out, edition {r}",
            page(5, 9).checksum(1, right + 9), r)
    bad("entry", "minor 5, flags set and map_pages 0",
        full(minor=5, console=[(0x1C090000, 0, PL011, 0, 0, 1)]))


def field_lengths():
    """Request E7: the tag and the length of a field"""
    def alone(rule, text, *fields, **other):
        page = full(fill=JUNK).facts(0x703, *fields, **other)
        good(text, page) if rule is None else bad(rule, text, page)

    alone(None, "name, serial, console and a field of tag 4", NAME, SERIAL, CHOICE, field(4, b"x"))
    for tag, (least, most) in ONCE.items():
        for length in sorted({least - 1, least, most, most + 1}):
            fine = least <= length <= most
            alone(None if fine else "fields", f"tag {tag} of {length} bytes",
                  field(tag, JUNK[:length]))
    for tag in (4, 127, 128, 255):
        for length in (0, 1, 7, 8, 9, 32, 33, 255, 256, 257):
            alone(None, f"tag {tag} of {length} bytes", field(tag, JUNK[:length]))
    for tag in (1, 4, 255):
        alone("fields", f"tag {tag} of 65,535 bytes", field(tag, JUNK[:2000], 65535))
    alone("fields", "tag 1 of 256 bytes, 1 in the other byte order", field(1, JUNK[:256]))
    alone("fields", "tag 1 of 257 bytes", field(1, JUNK[:257]))
    alone("fields", "tag 2 of 2,048 bytes, 8 in the other byte order", field(2, JUNK[:2048]))
    alone("fields", "tag 3 of 256 bytes, 1 in the other byte order", field(3, JUNK[:256]))
    for value in (0, 255):
        alone(None, f"a console choice of {value}", field(3, bytes([value])))
    for text, value in (("zeros", bytes(8)), ("0xff", b"\xff" * 8)):
        alone(None, f"name and serial of {text}", field(1, value), field(2, value))
    for tag in (1, 2, 3):
        alone("fields", f"a good field, then tag {tag} with one byte too many",
              field(9, b"abc"), field(tag, JUNK[:ONCE[tag][1] + 1]))


def field_repeats():
    """Request E7: tags that appear twice"""
    one = {1: NAME, 2: SERIAL, 3: CHOICE}
    for tag, first in one.items():
        others = [field for other, field in one.items() if other != tag]
        again = field(tag, bytes(ONCE[tag][0]))
        bad("fields", f"tag {tag} twice, one after the other", full().facts(0x700, first, first))
        bad("fields", f"tag {tag} twice, with other values",
            full().facts(0x700, first, *others, again))
        bad("fields", f"tag {tag} twice, tags from 4 up between",
            full().facts(0x700, first, field(4), field(200, b"ab"), first))
        good(f"tag {tag} again after the end mark",
             full().facts(0x700, first, end=MARK + first + MARK))
    for tag in (4, 5, 255):
        good(f"tag {tag} three times, two of them the same",
             full().facts(0x700, field(tag, b"ab"), field(tag), field(tag, b"ab")))
    for order in permutations((1, 2, 3)):
        good(f"tags {order} in this order", full().facts(0x700, *[one[tag] for tag in order]))
    good("tag 4, name, tag 4, serial, tag 4, console",
         full().facts(0x700, field(4, b"a"), NAME, field(4, b"b"), SERIAL, field(4), CHOICE))


def withdrawn():
    """Request E10: tag 3 is withdrawn"""
    other = (field(4, b"\1"), field(33, b"\3\1\0\1"))
    for order in permutations((CHOICE, *other)):
        at = order.index(CHOICE)
        good(f"tag 3 as field {at}", full(fill=JUNK).facts(0x700, *order))
    good("tag 3 alone", full(fill=JUNK).facts(0x700, CHOICE))
    for value in (1, 2, 3, 254):
        good(f"tag 3 with the value {value}, all else the same",
             full(fill=JUNK).facts(0x700, NAME, field(3, bytes([value])), SERIAL))
    for length in (0, 2, 3):
        bad("fields", f"tag 3 of {length} bytes", full(fill=JUNK).facts(0x700, NAME, field(3, JUNK[:length])))
    bad("fields", "tag 3 twice with one value", full().facts(0x700, CHOICE, NAME, CHOICE))
    for r in range(1, 5):
        good(f"tag 3, edition {r}", full(fill=JUNK).facts(0x700, SERIAL, CHOICE), r)


def console_names():
    """Request E10: consoles picked by name"""
    def named(*names):
        return [(0x1C090000 + 4096 * i, 1, number(name), 1, 1, 0) for i, name in enumerate(names)]

    for text, names in (
            ("the one asked for is the last", (b"uart-1ac", b"pl012", b"pl011")),
            ("two of one name", (b"pl010", b"pl011", b"pl011")),
            ("a longer name", (b"pl011-b",)), ("a name with a byte after its zeros", (b"pl011\0\0x",)),
            ("names of 8 bytes", (b"uart-1aa", b"uart-1ab")), ("no name", (b"pl011", b"")),
            ("capital letters", (b"PL011", b"UART-1AB")), ("a blank for a name", (b" ", b" pl011"))):
        good(text, full(fill=JUNK, console=named(*names)))
    good("two pl011, flags of later firmware",
         full(5, fill=JUNK, console=[(*entry[:5], 7) for entry in named(b"x", b"pl011", b"pl011")]))
    good("consoles that edition 2 does not read", full(), 2)
    good("no console", full(only=(0, 2, 3)))


def field_ends():
    """Request E7: the end mark, and fields up to the page's end"""
    for e, core in CORE.items():
        good(f"an end mark alone at the core's end of an empty 0.{e} page", Page(e).facts(core))
        good(f"an end mark alone at the core's end, all else junk, 0.{e}",
             full(e, fill=JUNK).facts(core))
    good("an end mark alone at B + 4,093", full(fill=JUNK).facts(4093))
    for offset in (4094, 4095):
        bad("fields", f"zeros from B + {offset:,} on", full(fill=JUNK).facts(offset))
    for length in (1, 255, 256, 65535):
        bad("fields", f"tag 0 with length {length}",
            full(fill=JUNK).facts(0x700, field(0, JUNK[:length][:900], length)))
        bad("fields", f"a name, then tag 0 with length {length}",
            full(fill=JUNK).facts(0x700, NAME, field(0, bytes(length)[:900], length)))
    for text, fields in (("a field of tag 4", [field(4, JUNK[:90])]),
                         ("an empty field", [field(8)]), ("name and serial", [NAME, SERIAL])):
        size = sum(map(len, fields))
        good(f"{text} and the end mark up to the page's end",
             full(fill=JUNK).facts(4093 - size, *fields))
        for cut in (1, 2, 3):
            bad("fields", f"{text}, {cut} bytes of the end mark past the page's end",
                full(fill=JUNK).facts(4093 - size + cut, *fields))
        bad("fields", f"{text}, its last byte past the page's end",
            full(fill=JUNK).facts(4097 - size, *fields))
    for left in (1, 2):
        bad("fields", f"a name, and {left} bytes up to the page's end",
            full(fill=JUNK).facts(4096 - left - len(NAME), NAME))
    for what, end in (("junk", JUNK[5:900]), ("a broken field", field(0, b"x")),
                      ("a field", field(9, b"later") + MARK), ("0xff", b"\xff" * 900)):
        good(f"after the end mark: {what}", full().facts(0x700, NAME, end=MARK + end))
    bad("fields", "no end mark but 0xff up to the page's end",
        full().facts(0x700, NAME, end=b"\xff" * 4096))


def fields_and_arrays():
    """Request E7: fields and the arrays that the reader reads"""
    def around(k, before, after):
        """A full page and a field from `before` bytes before the array to `after` bytes after it."""
        size = before - 3 + len(SAMPLE[k]) * ENTRY[k] + after
        page = full().facts(PLACE[k] - before, field(9, b"", size), end=b"")
        return page.put(PLACE[k] + len(SAMPLE[k]) * ENTRY[k] + after, MARK)

    for k, name in enumerate(NAMES):
        start, end = PLACE[k], PLACE[k] + len(SAMPLE[k]) * ENTRY[k]
        size = len(NAME) + 3
        good(f"fields end where {name} starts", full().facts(start - size, NAME))
        page = full(fill=JUNK, **{name: [(0x9000000000, *SAMPLE[k][0][1:])]})
        by_edition(SINCE[k], "fields in array", f"an end mark alone from the first byte of {name}",
                   page.words(8, B + start))
        by_edition(SINCE[k], "fields in array", f"the end mark's last byte is the first of {name}",
                   page.facts(start - size + 1, NAME, end=MARK[:2]))
        good(f"fields start where {name} ends", full(fill=JUNK).facts(end, NAME))
        by_edition(SINCE[k], "fields in array", f"{name} inside the value of a field",
                   around(k, 7, 5))
    page = full(only=[1, 2, 3]).section(0, PLACE[0], [(0x80000000, 0x1000)])
    good("fields start at the byte after a short array", page.facts(PLACE[0] + 16, NAME, SERIAL))
    page = full(only=[1, 2, 3]).section(0, PLACE[0], [(0x80000000, 0x1000)])
    bad("fields in array", "an end mark alone, its first byte the last of dram",
        page.words(8, B + PLACE[0] + 15))
    page = full().checksum(3, 1)
    by_edition(4, "checksum", "fields, and the checksum of coh broken", page.facts(0x700, NAME))
    page = Page().facts(0x200, field(9, bytes(300)))
    page.section(2, 0x240, SAMPLE[2])
    by_edition(4, "fields in array", "ncoh in a field of a page without other arrays", page)
    page = Page().section(0, 112, [(0x1000 * i, 0x1000) for i in range(200)])
    good("200 banks and fields to the page's end",
         page.facts(112 + 3200, field(9, JUNK[:4096 - 112 - 3200 - 6])))


def field_places():
    """Request E7: where fields may lie, and who reads them"""
    for shift in range(8):
        good(f"fields at an address of {shift} modulo 8",
             full(fill=JUNK).facts(0x700 + shift, NAME, field(7, b"abc"), SERIAL))
    for r in range(1, 5):
        for w in (1, 2, 3, 4, 5, 65535):
            good(f"edition {r} on a 0.{w} page with fields",
                 full(w, fill=JUNK).facts(0x801, NAME, SERIAL, field(77, b"\0\xff")), r)
        bad("fields", f"edition {r} on a page with broken fields",
            full(fill=JUNK).facts(0x801, NAME, NAME), r)
    good("fields at the core's end of a 0.1 page, to its last byte",
         Page(1).facts(16, NAME, SERIAL, field(200, JUNK[:4096 - 16 - 3 - len(NAME + SERIAL) - 3])))
    page = Page().facts(64, end=b"")
    by_edition(4, "plat_data", "an end mark alone where edition 4 has the count of ncoh", page)
    page = Page(4, fill=JUNK).section(0, 0x200, SAMPLE[0]).facts(70, NAME, end=b"").put(88, MARK)
    for r in (1, 2, 3):             # the fields lie where a newer core has its sections
        good(f"fields in what is the core of edition 4, edition {r}", page, r)
    mixed(-7, "fields in what is the core of edition 4, edition 4", page, 4)
    for b in (4096, TOP - 4096, 2**32 * 4096):
        good(f"fields, B = 0x{b:x}", full(b=b, fill=JUNK).facts(0x703, NAME, SERIAL))
    for text, pointer in (("one page high", B + 0x1703), ("one page low", B - 0x8FD),
                          ("without B", 0x703), ("2^32 too high", B + 2**32 + 0x703)):
        bad("plat_data", f"fields, the pointer {text}",
            full().facts(0x703, NAME).words(8, pointer))
    mixed(-7, "broken fields, and a broken checksum",
          full().facts(0x703, NAME, NAME).checksum(0, 1))
    mixed(-7, "broken fields, and padding", full().facts(0x703, NAME, NAME).put(4, b"\1"))


def many_fields():
    """Request E7: pages full of fields"""
    for w, core in CORE.items():
        room = PAGE - core - 3
        for size in (0, 1, 2, 5) if w == 4 else (1,):
            n = room // (3 + size)
            at = PAGE - 3 - n * (3 + size)
            listed = [field(4 + i % 252, bytes((i + j) % 256 for j in range(size)))
                      for i in range(n)]
            good(f"0.{w}: {n} fields of {size} bytes", Page(w).facts(at, *listed))
        bad("fields", f"0.{w}: fields of 1 byte and no end mark",
            Page(w, fill=b"\4\1\0\5" * 1024).words(8, B + core), 4)
        value = JUNK[:room - 3]
        good(f"0.{w}: one field of {len(value):,} bytes", Page(w).facts(core, field(9, value)))
        bad("fields", f"0.{w}: one field of {len(value) + 1:,} bytes",
            Page(w).facts(core, field(9, value + b"x")))
    good("1,000 bytes of names of other tags",
         full().facts(0x700, *[field(4 + i, bytes([i]) * 20) for i in range(43)]))
    bad("fields", "a second serial after 300 fields",
        full().facts(0x700, SERIAL, *[field(5, bytes([i % 256])) for i in range(300)], SERIAL))


def holes_and_order():
    """Bytes that are not named, and the order of arrays"""
    for w in (1, 2, 3):
        good(f"all sections there, version 0.{w}", full().version(w))
        page = full().version(w)
        for k in range(4):
            if SINCE[k] > w:
                page.checksum(k, 1)
        good(f"later sections there but broken, version 0.{w}", page)
    for w in range(1, 5):
        good(f"full 0.{w} page, all else 0xff", full(w, fill=ONES))
    for r in range(1, 5):
        good(f"full 0.4 page, all else junk, edition {r}", full(fill=JUNK), r)
    for order in ((3, 2, 1, 0), (1, 3, 0, 2), (2, 0, 3, 1)):
        places = [0x200 + 0x100 * order.index(k) for k in range(4)]
        names = ", ".join(NAMES[k] for k in order)
        good(f"arrays in the order {names}", full(fill=JUNK, places=places))
    bad("version", "page all 0xff", ONES)


def fullest():
    """As many entries as fit"""
    banks = [(0x1000 * i, 0x1000 * (i + 1)) for i in range(256)]
    consoles = [(0x1000 * i, i + 1, WORD - i, i, 9600 * i, 0) for i in range(96)]
    for w, k, most in ((2, 0, 253), (3, 0, 252), (3, 1, 84), (4, 0, 249), (4, 1, 83),
                       (4, 2, 249), (4, 3, 249)):
        listed = consoles if k == 1 else banks
        good(f"0.{w}: {most} of {NAMES[k]} fit", Page(w).section(k, CORE[w], listed[:most]))
        bad("place", f"0.{w}: {most + 1} of {NAMES[k]} do not fit",
            Page(w).section(k, CORE[w], listed[:most + 1]))
    page = Page().section(0, 112, banks[:60]).section(1, 112 + 960, consoles[:40])
    page.section(2, 112 + 2880, banks[100:160]).section(3, 112 + 3840, banks[200:209])
    good("0.4: all four arrays fill the page to its last byte", page)
    good("0.4: 253 banks from offset 40, edition 2", Page().section(0, 40, banks[:253]), 2)
    good("0.4: 84 consoles from offset 64, edition 3", Page().section(1, 64, consoles[:84]), 3)


def later_sections():
    """One page read by each edition: a section broken for the editions that have it"""
    for k, name in enumerate(NAMES):
        by_edition(SINCE[k], "checksum", f"{name} checksum broken", full().checksum(k, 1))


def two_at_once():
    """Several rules broken together: the first in the order of docs/RULES.md answers"""
    faults = (                      # code, what is changed on a full 0.4 page
        (-5, "length 4,095", {"length": 4095}), (-5, "B zero", {"b": 0}),
        (-5, "B + 8", {"b": B + 8}), (-5, "length 8,192", {"length": 8192}),
        (-5, "B = 2^52", {"b": TOP}),
        (-6, "edition 0", {"r": 0}), (-6, "version 0", {"version": 0}),
        (-6, "edition 5", {"r": 5}), (-6, "major 1", {"version": 0x10004}),
        (-6, "bit 31", {"version": 0x80000004}),
        (-7, "plat_data 1", {"poke": (8, 1)}), (-7, "dram count 0", {"poke": (16, 0)}),
        (-7, "console checksum 0", {"poke": (56, 0)}), (-7, "coh pointer 4", {"poke": (96, 4)}),
        (-7, "padding 1", {"poke": (0, 2**32 + 4)}))

    def spoiled(length=PAGE, b=B, r=4, version=4, poke=(8, 0)):
        page = full().words(*poke).version(version)
        return bytes(page.data * 2)[:length], r, b

    def together(*indices):
        chosen = [faults[i] for i in indices]
        for code, text, change in chosen:
            page, r, b = spoiled(**change)
            assert broken(r, b, page)[0][0] == code, text
        changes = {key: value for _, _, change in chosen for key, value in change.items()}
        first = max(code for code, _, _ in chosen)
        mixed(first, " with ".join(text for _, text, _ in chosen), *spoiled(**changes))

    for i in range(5):
        together(i, i + 5)
        together(i, i + 10)
        together(i + 5, i + 10)
    for edition in (5, 7):
        for version in (6, 8, 9):
            together(edition, version)
    together(1, 5, 10)
    together(0, 6, 14)


# ---- Output ----

def build_all():
    for group in (known_pages, lengths_and_bases, editions, versions, padding_and_platform,
                  section_heads, pointers, wrapping, overlaps, checksums, bank_entries,
                  console_entries, holes_and_order, fullest, later_sections, two_at_once,
                  console_flags, field_lengths, field_repeats, field_ends, fields_and_arrays,
                  field_places, many_fields, withdrawn, console_names):
        GROUPS.append((group.__doc__, []))
        group()


def check():
    """What is known apart from the reader above: the examples of docs/RULES.md, the field listings, the spread."""
    page = example_14().data
    assert head(page, 0) == [1, 0x80000028, 0xFFFFFFFEDFFFFFD7]     # example 4
    assert listing(read(4, B, page)[0]) == (
        "manifest 0.2 read as 2\nplatform none\ndram 1\n0x0000000090000000 0x0000000010000000\n"
        "console absent\nncoh absent\ncoh absent\n")
    assert len(list(field_pages())) == 4
    for name, b, page, shown in field_pages():
        assert listing(read(4, b, page)[0]) == shown, name
    cases = [case for _, group in GROUPS for case in group]
    firsts = [broken(r, b, page)[:1] for _, r, b, page in cases]
    tally = {code: sum(first[0][0] == code for first in firsts if first) for code in (-5, -6, -7)}
    assert len(cases) <= 1000 and min(tally.values()) > 0
    print(f"{len(cases)} cases, {firsts.count([])} accepted, refused by code: {tally}")


def case_of(n, case):
    """The file of a case, what the program prints for it, and its row of CASES.md."""
    text, r, b, page = case
    lines = expected(n, r, b, page)
    raw = r.to_bytes(8, "little") + b.to_bytes(8, "little") + page
    return raw, lines, text, f"`{lines.splitlines()[1]}`"


if __name__ == "__main__":
    build_all()
    check()
    write_all("reader_vectors", "reader", "Reader", "Broken or tested | First line", GROUPS, case_of)
