#!/usr/bin/env python3
"""Inputs of the listing program and what it must print for them, made from the rules alone
(docs/RULES.md: LS1 to LS7) by the reader and the listing of tests/reader/make.py.

Run from the repository's root:  python3 tests/listing/make.py
It rewrites tests/listing/cases: NAME.in, the program's standard input, and NAME.out, its standard
output. The same run always gives the same bytes. With a folder as its argument it writes them
below that folder.
"""

import sys
from pathlib import Path

HERE = Path(__file__).resolve().parent

sys.dont_write_bytecode = True
sys.path[:0] = [str(HERE.parent), str(HERE.parent / "reader")]
from make import (B, CHOICE, CORE, ENTRY, JUNK, NAME, NAMES, PAGE, PL011, SERIAL, Page, field, full,
                  listing, number, read)
from vectors import ROOT

INPUT = 8 + PAGE


def bank(i):
    """A bank whose two words have all their digits."""
    return 0x1234567890000 + i * 0x1000, 0x1000 * (i + 1)


def console(i):
    return 0xABCDEF000 + i * 0x1000, i + 1, PL011 + i * 2**40, 24000000 + i, 2**64 - 1 - i, 0


def fullest(minor, k):
    """A page with as many entries of section k as it holds, and an end mark if there is room."""
    most = (PAGE - CORE[minor]) // ENTRY[k]
    page = Page(minor)
    if CORE[minor] + most * ENTRY[k] + 3 <= PAGE:
        page.facts(PAGE - 3)
    return page.section(k, CORE[minor], [(console if k == 1 else bank)(i) for i in range(most)])


def four_full():
    """Every section, up to the page's end: 101 banks, 26 consoles, 60 and 10 regions."""
    page, at = Page(4), CORE[4]
    for k, most in enumerate((101, 26, 60, 10)):
        page.section(k, at, [(console if k == 1 else bank)(i) for i in range(most)])
        at += most * ENTRY[k]
    assert at == PAGE
    return page


def long_fields(minor):
    """A page whose fields take all bytes after the core: the longest text of a byte is that of a long
    value, or of a field's first three bytes if its tag has three digits."""
    room = PAGE - CORE[minor] - 3
    first = field(255, JUNK[:1500])
    return Page(minor).facts(CORE[minor], first, field(100, JUNK[:room - len(first) - 3]))


def short_fields(size):
    """A page full of fields with values of a given length."""
    n = (PAGE - CORE[4] - 3) // (3 + size)
    return Page(4).facts(CORE[4], *[field(4 + i % 252, JUNK[i:i + size]) for i in range(n)])


def raw(page, b=B):
    return b.to_bytes(8, "little") + bytes(page.data)


def cases():
    """Name and input of each case."""
    for minor, k in ((2, 0), (3, 0), (3, 1), (4, 0), (4, 1), (4, 2), (4, 3)):
        yield f"fullest-0.{minor}-{NAMES[k]}", raw(fullest(minor, k))
    yield "fullest-0.4-all", raw(four_full())
    yield "empty-0.1", raw(Page(1))
    yield "empty-0.4", raw(Page(4))
    yield "newer-0.65535", raw(full(4).version(65535))
    yield "fields-longest-0.1", raw(long_fields(1))
    yield "fields-longest-0.4", raw(long_fields(4))
    yield "fields-of-0", raw(short_fields(0))
    yield "fields-of-1", raw(short_fields(1))
    board = full().facts(0x703, NAME, SERIAL, CHOICE, field(9), field(200, b"\0\xff"))
    yield "fields-board", raw(board)
    yield "fields-end-alone", raw(full(fill=JUNK).facts(4093))
    yield "refused-fields", raw(full().facts(0x703, SERIAL, SERIAL))
    yield "refused-field-in-array", raw(full().words(8, B + 0x200))
    yield "refused-no-end", raw(full().facts(4094))
    yield "refused-base", raw(full(), B + 8)
    yield "refused-version", raw(full().version(0x00010004))
    yield "refused-checksum", raw(full().checksum(3, 1))
    page = raw(fullest(4, 0))           # it would be listed, were its length right
    for length in (0, 1, 8, 4096, 4103, 4105, 4107, 8208):
        yield f"length-{length}", (page + page)[:length]


def printed(data):
    """What the program must print for its whole input."""
    if len(data) != INPUT:
        return "refused -5\n"
    return listing(read(4, number(data[:8]), data[8:])[0])


def main():
    folder = (Path(sys.argv[1]) if sys.argv[1:] else ROOT) / "tests" / "listing" / "cases"
    folder.mkdir(parents=True, exist_ok=True)
    for stale in folder.glob("*"):
        stale.unlink()
    longest = 0
    for name, data in cases():
        text = printed(data)
        assert text.startswith("refused") == (name.split("-")[0] in ("refused", "length")), name
        (folder / f"{name}.in").write_bytes(data)
        (folder / f"{name}.out").write_text(text)
        longest = max(longest, len(text))
    assert longest == 12332             # a 0.65535 page read as edition 1 has 4 digits more
    print(f"{len(list(cases()))} listings, the longest of {longest} bytes")


if __name__ == "__main__":
    main()
