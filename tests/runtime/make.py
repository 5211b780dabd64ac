#!/usr/bin/env python3
"""Run vectors for the runtime as a whole, made from the rules alone (docs/RULES.md: RT1 to RT10, CM1
to CM8, SQ1 to SQ7; requests E2, E5, E6, E8): every call goes through the dispatcher; the platform token, token signing,
the challenge lookup, the signer's own step and the oldest request are tried at each edge, in
sequences on one state.

Run from the repository's root:  python3 tests/runtime/make.py
It rewrites crates/runtime_vectors/data/c000, c001, .. (8-byte words: the record's state, cpus,
base, minor and kept bytes; the granule record's offset in the file, m; the session: 0 or 1,
whole, sent; the places of page, table, realm key, public key and queue, a place being an offset in
the file and a length; the number of operations; then the operations, the bytes that the places
name, the granule record: how many of its words are given, and these; and the realm words in the
same way), crates/runtime_vectors/stdout (what the program has to print for them in order) and
tests/runtime/CASES.md (what each case is for). The same run always gives the same bytes. With a
folder as its argument it writes them below that folder.
"""

import sys
from collections import Counter, namedtuple
from itertools import combinations, product
from pathlib import Path
from random import Random

HERE = Path(__file__).resolve().parent

sys.dont_write_bytecode = True
sys.path[:0] = [str(HERE.parent), str(HERE.parent / "reader")]
from banks import (MANY, TWO, addresses_of, fit, granule_at, granule_fails, meant, one, put_bit,
                   realm_words, record_of, stored, usual_words, words, words_line)
from make import NAME, SERIAL, CHOICE, Page, field, field_pages, full, kept_for, read
from vectors import write_all

PAGE = 4096
WORD = 2**64
ONES = WORD - 1
STATES = ("fresh", "up", "closed")                  # a file has the index
CALL, SIGN, CHALLENGE, OLDEST = range(4)            # the kinds of operation
FORWARD, DELEGATE, UNDELEGATE = 0xC400018F, 0xC40001B0, 0xC40001B1
KEY, TOKEN, FEATURES = 0xC40001B2, 0xC40001B3, 0xC40001B4
SIGNING, UPDATE = 0xC40001B5, 0xC40001B6
LISTED = (FORWARD, DELEGATE, UNDELEGATE, KEY, TOKEN, FEATURES, SIGNING, UPDATE)
PUSH, PULL, PUBLIC = 1, 2, 3                        # the opcodes of SIGNING
CODES = {"OK": 0, "UNK": -1, "BAD_ADDR": -2, "BAD_PAS": -3, "INVAL": -5, "AGAIN": -6}

Request = namedtuple("Request", "algorithm granule ticket hashid hash")
Response = namedtuple("Response", "granule ticket length signature")
# One side of the queue as it is stored: its places; the first `count` wait.
Line = namedtuple("Line", "places count")
# Where no realm words are said, `lent` None, the case is given those that fit, or none if it moves
# no granule: no other command looks at them.
World = namedtuple("World", "state cpus base minor kept record m key public page table session "
                            "requests responses lent")
Op = namedtuple("Op", "kind id x1 x2 x3 x4 busy token signature")
Check = namedtuple("Check", "name code fails")
Answer = namedtuple("Answer", "fails code x1 x2 told after")
Case = namedtuple("Case", "text start ops answers")


# ---- The operations, from docs/RULES.md. All arithmetic is on plain numbers. ----

def waiting(line):
    """What waits, oldest first. There are eight places, so a higher count means eight."""
    return line.places[:min(line.count, 8)]


def signature_of(response):
    """A stored signature. There is room for 104 bytes, so a higher length means 104."""
    return response.signature[:min(response.length, 104)]


def number(data):
    return int.from_bytes(data, "little")


def request_at(w, pa):
    """The request at pa; None if it is not within the page."""
    at = pa - w.base
    if not 0 <= at <= len(w.page) - 80:
        return None
    return Request(number(w.page[at:at + 4]), number(w.page[at + 8:at + 16]),
                   number(w.page[at + 16:at + 24]), number(w.page[at + 24:at + 28]),
                   w.page[at + 32:at + 80])


def range_checks(w, pa, size, outside):
    end = w.base + PAGE
    return [Check("outside", outside, pa < w.base + w.kept or pa >= end),
            Check("too long", "INVAL", size > end - pa)]


def challenge_checks(w, op):
    """The BAD_ADDR and INVAL checks of the platform token that the challenge lookup also makes."""
    return range_checks(w, op.x1, op.x2, "BAD_ADDR") + [
        Check("c_size", "INVAL", op.x3 not in (0, 32, 48, 64)),
        Check("above", "INVAL", op.x3 > op.x2)]


def token_checks(w, op):
    more = op.x3 == 0
    other = more and w.session is not None and len(op.token) != w.session[0]
    return [Check("busy", "AGAIN", op.busy)] + challenge_checks(w, op) + [
        Check("no session", "INVAL", more and w.session is None),
        Check("token", "UNK", len(op.token) == 0 or other)]


def opcode_checks(w, op):
    """The checks of one opcode."""
    opcode, pa, size = op.x1, op.x2, op.x3
    if opcode == PUSH:
        request = request_at(w, pa)
        return [Check("short", "INVAL", size < 80),
                Check("algorithm", "INVAL", request is not None and request.algorithm != 0),
                Check("hash id", "INVAL", request is not None and request.hashid != 1),
                Check("full", "AGAIN", len(waiting(w.requests)) == 8)]
    if opcode == PULL:
        done = waiting(w.responses)
        return [Check("no response", "AGAIN", not done),
                Check("no room", "INVAL", bool(done) and 18 + len(signature_of(done[0])) > size)]
    if opcode == PUBLIC:
        return [Check("no key", "AGAIN", len(w.public) == 0),
                Check("long key", "INVAL", len(w.public) > size)]
    return []


def signing_checks(w, op):
    opcode, pa, size, curve = op.x1, op.x2, op.x3, op.x4
    return [Check("opcode", "INVAL", opcode not in (PUSH, PULL, PUBLIC)),
            *range_checks(w, pa, size, "INVAL"),
            Check("curve", "INVAL", opcode == PUBLIC and curve != 0),
            Check("minor", "UNK", w.minor < 4), *opcode_checks(w, op)]


def granule_checks(w, op):
    index, n = meant(w.record, len(w.table), op.x1), len(w.table)
    wrong = index is not None and w.table[index] != (op.id == UNDELEGATE)
    fails = granule_fails(w.record, n, op.x1)
    return [*(Check(name, "BAD_ADDR", fail) for name, fail in fails.items()),
            Check("shared", "BAD_ADDR", op.id == UNDELEGATE and op.x1 == w.base),     # request E8
            Check("byte", "BAD_PAS", wrong)]


def command_checks(w, op):
    """The checks of the other listed commands, after those of record and page."""
    if op.id == KEY:
        return range_checks(w, op.x1, op.x2, "BAD_ADDR") + [
            Check("curve", "INVAL", op.x3 != 0),
            Check("key", "UNK", len(w.key) == 0 or len(w.key) > op.x2)]
    if op.id == TOKEN:
        return token_checks(w, op)
    if op.id == FEATURES:
        return [Check("index", "INVAL", op.x1 != 0), Check("minor", "UNK", w.minor < 4)]
    if op.id == SIGNING:
        return signing_checks(w, op)
    return [Check("mecid", "INVAL", op.x1 > 65535 or op.x1 > 2**(min(w.m, 15) + 1) - 1),
            Check("width", "UNK", w.m > 15), Check("minor", "UNK", w.minor < 5)]


def checks(w, op):
    """The checks of an operation in the order of docs/RULES.md. Request E6: the words' number is looked at first, by
    delegate and undelegate alone."""
    if op.kind == CALL and op.id in (DELEGATE, UNDELEGATE):
        return [Check("words", "INVAL", not fit(w.record, w.lent)),
                Check("not up", "UNK", w.state != "up"), *granule_checks(w, op)]
    up = Check("not up", "UNK", w.state != "up")
    length = Check("length", "UNK", len(w.page) != PAGE)
    if op.kind == SIGN:
        return [Check("signature", "INVAL", not 1 <= len(op.signature) <= 104),
                Check("no request", "AGAIN", not waiting(w.requests)),
                Check("full", "AGAIN", len(waiting(w.responses)) == 8)]
    if op.kind == CHALLENGE:
        return [up, length] + challenge_checks(w, op)
    if op.kind == OLDEST or op.id == FORWARD:
        return []
    if op.id not in LISTED:
        return [Check("id", "UNK", True)]
    return [up] + [length] * (op.id in (KEY, TOKEN, SIGNING)) + command_checks(w, op)


def written(w, pa, data):
    at = pa - w.base
    return w._replace(page=w.page[:at] + data + w.page[at + len(data):])


def joined(line, item):
    return Line(waiting(line) + (item,), len(waiting(line)) + 1)


def without_oldest(line):
    return Line(waiting(line)[1:], len(waiting(line)) - 1)


def only_waiting(w):
    """The queue holds what waits and nothing else: no count above eight, no length above 104."""
    requests = waiting(w.requests)
    responses = tuple(r._replace(length=len(signature_of(r)), signature=signature_of(r))
                      for r in waiting(w.responses))
    return w._replace(requests=Line(requests, len(requests)),
                      responses=Line(responses, len(responses)))


def send(w, op):
    """An accepted token call: x1, x2 and the state after it."""
    sent = w.session[1] if op.x3 == 0 else 0
    rest = max(len(op.token) - sent, 0)             # a forged session may be past its token
    hunk = min(op.x2, rest)
    after = written(w, op.x1, op.token[sent:sent + hunk])
    session = (len(op.token), sent + hunk) if rest > hunk else None
    return hunk, rest - hunk, after._replace(session=session)


def signing(w, op):
    """An accepted signing call: x1 and the state after it."""
    if op.x1 == PUSH:
        return 0, w._replace(requests=joined(w.requests, request_at(w, op.x2)))
    if op.x1 == PUBLIC:
        return len(w.public), written(w, op.x2, w.public)
    oldest = waiting(w.responses)[0]
    signature = signature_of(oldest)
    after = written(w, op.x2, oldest.granule.to_bytes(8, "little")
                    + oldest.ticket.to_bytes(8, "little")
                    + len(signature).to_bytes(2, "little") + signature)
    return 0, after._replace(responses=without_oldest(w.responses))


def accepted(w, op):
    """What an accepted call or signer's step does: x1, x2, a mecid to reprogram, and the state."""
    if op.kind == SIGN:
        oldest = waiting(w.requests)[0]
        response = Response(oldest.granule, oldest.ticket, len(op.signature), op.signature)
        return 0, 0, None, only_waiting(w._replace(requests=without_oldest(w.requests),
                                                   responses=joined(w.responses, response)))
    if op.id in (DELEGATE, UNDELEGATE):
        i, byte = granule_at(w.record, len(w.table), op.x1), bytes([op.id == DELEGATE])
        return 0, 0, None, w._replace(table=w.table[:i] + byte + w.table[i + 1:],
                                      lent=put_bit(w.lent, i, byte[0]))
    if op.id == KEY:
        return len(w.key), 0, None, written(w, op.x1, w.key)
    if op.id == TOKEN:
        x1, x2, after = send(w, op)
        return x1, x2, None, after
    if op.id == SIGNING:
        x1, after = signing(w, op)
        return x1, 0, None, only_waiting(after)
    return (1, 0, None, w) if op.id == FEATURES else (0, 0, op.x1, w)


def step(w, op):
    """The answer of an operation and the state after it. `fails` has every check that fails: the
    first gives the code. `told` comes in addition to the registers, or instead of them."""
    fails = [check for check in checks(w, op) if check.fails]
    names = ", ".join(check.name for check in fails)
    if op.kind == CHALLENGE:
        at = op.x1 - w.base
        return Answer(names, "challenge", 0, 0, b"" if fails else w.page[at:at + op.x3], w)
    if op.kind == OLDEST:
        return Answer("", "oldest", 0, 0, (waiting(w.requests) or (None,))[0], w)
    if op.kind == CALL and op.id == FORWARD:
        return Answer("", "forward", 0, 0, op.x1, w)
    if fails:
        return Answer(names, fails[0].code, 0, 0, None, w)
    return Answer("", "OK", *accepted(w, op))


# ---- What a case's file holds, and what the program prints ----

def image_of(requests, responses):
    """The queue as a file has it; nothing if it is empty, with nothing in its places."""
    if (requests, responses) == (EMPTY, EMPTY):
        return b""
    image = words(requests.count, responses.count)
    for r in requests.places:
        image += words(r.algorithm, r.granule, r.ticket, r.hashid) + r.hash
    image = image.ljust(16 + 8 * 80, b"\0")
    for r in responses.places:
        image += words(r.granule, r.ticket, r.length) + r.signature.ljust(104, b"\0")
    return image.ljust(16 + 8 * 80 + 8 * 128, b"\0")


def change(before, after):
    """Where two runs of bytes of one length differ: the offset, and the bytes there afterwards."""
    assert len(before) == len(after)
    if before == after:
        return 0, b""
    spots = [i for i in range(len(after)) if before[i] != after[i]]
    return spots[0], after[spots[0]:spots[-1] + 1]


def file_of(case):
    """The bytes of a case's file: words, after them a pool of bytes, each run but once, and the
    granule record."""
    w, pool = case.start, bytearray()
    pool_at = 168 + 136 * len(case.ops)

    def place(data):
        found = pool.find(data)
        if found < 0:
            found = len(pool)
            pool.extend(data)
        return pool_at + found, len(data)

    places = b"".join(words(*place(data)) for data in (
        w.page, w.table, w.key, w.public, image_of(w.requests, w.responses)))
    ops = b""
    for op, answer in zip(case.ops, case.answers):
        page_at, page = change(w.page, answer.after.page)
        table_at, table = change(w.table, answer.after.table)
        ops += words(op.kind, op.id, op.x1, op.x2, op.x3, op.x4, op.busy, *place(op.token),
                     *place(op.signature), page_at, *place(page), table_at, *place(table))
        w = answer.after
    w = case.start
    head = words(STATES.index(w.state), w.cpus, w.base, w.minor, w.kept, pool_at + len(pool), w.m,
                 w.session is not None, *(w.session or (0, 0)))
    return head + places + words(len(case.ops)) + ops + bytes(pool) + stored(w.record, w.lent)


def hexes(*numbers):
    return "".join(f" {n:x}" for n in numbers)


def request_text(r):
    return hexes(r.algorithm, r.granule, r.ticket, r.hashid) + f" {r.hash.hex()}\n"


def answer_text(answer):
    if answer.code == "forward":
        return f"forward{hexes(answer.told)}\n"
    if answer.code == "challenge":
        return f"challenge {len(answer.told)} {answer.told.hex()}\n"
    if answer.code == "oldest":
        return "oldest none\n" if answer.told is None else "oldest" + request_text(answer.told)
    text = f"registers{hexes(CODES[answer.code] % WORD, answer.x1, answer.x2)}"
    return text + ("\n" if answer.told is None else f" reprogram{hexes(answer.told)}\n")


def expected(number_of_case, case):
    """What the program prints for one case."""
    text = f"case {number_of_case:03}\n"
    for answer in case.answers:
        w = answer.after
        session = "idle" if w.session is None else f"{w.session[0]} {w.session[1]}"
        text += answer_text(answer)
        text += f"session {session}, queue {w.requests.count} {w.responses.count}"
        text += ", page same, table same\n"
    last = case.answers[-1].after
    for r in waiting(last.requests):
        text += "request" + request_text(r)
    for r in waiting(last.responses):
        text += f"response{hexes(r.granule, r.ticket)} {r.length} {signature_of(r).hex()}\n"
    return text + words_line(last.lent) + "\n"


# ---- The case list ----

GROUPS, NOTED = [], set()               # (heading, [case, ..]); the files of all cases so far
EMPTY = Line((), 0)
B, G = 0x80000000, 0x880000000
# Bytes below 128 in the page, from 128 on in tokens, keys and signatures: each one written is seen.
LENT = bytes(1 + (i * 67 + i // 127 * 31) % 127 for i in range(4200))
SECRET = bytes(128 + (i * 89 + i // 128 * 57) % 128 for i in range(4300))
OTHER = bytes(128 + (i * 47 + i // 128 * 91 + 5) % 128 for i in range(4300))
PA = B + 0x315                          # where a buffer lies if it does not matter
SIGNATURE = SECRET[300:324]
NEED = 18 + len(SIGNATURE)              # the room that a response with such a signature takes


def request(n, **changes):
    """The request of ticket n, told by every byte of its fields."""
    usual = Request(0, 0x1122334455000000 + 0x010000 * n + 0xA5, 0x8877665544330000 + n, 1,
                    bytes((n * 7 + i * 5 + 3) % 256 for i in range(48)))
    return usual._replace(**changes)


def request_bytes(r, hole=0x5A):
    """A request as stored in the page, with its holes filled."""
    return (r.algorithm.to_bytes(4, "little") + bytes([hole] * 4) + words(r.granule, r.ticket)
            + r.hashid.to_bytes(4, "little") + bytes([hole ^ 0xFF] * 4) + r.hash)


def response(n, length=len(SIGNATURE)):
    """The response of ticket n, as it is stored."""
    r = request(n)
    return Response(r.granule, r.ticket, length, OTHER[n:n + 104])


def requests(count, first=100, places=None):
    held = count if places is None else places
    return Line(tuple(request(first + i) for i in range(held)), count)


def responses(count, first=200, places=None, length=len(SIGNATURE)):
    held = count if places is None else places
    return Line(tuple(response(first + i, length) for i in range(held)), count)


def page_of(*items, base=LENT):
    """A page with bytes laid at offsets, given in turn."""
    page = bytearray(base[:PAGE])
    for at, data in zip(items[::2], items[1::2]):
        page[at:at + len(data)] = data
    return bytes(page[:PAGE])


# 40 requests of tickets 0, 1, .. in a row; from 3,200 on there is room for what is written.
ASKED = page_of(0, b"".join(request_bytes(request(n), 17 * n % 256) for n in range(40)))
ALL = World("up", 8, B, 5, 0, one(G, 5), 15, SECRET[:96], OTHER[:97], LENT[:PAGE],
            bytes([0, 1, 2, 3, 255]), None, EMPTY, EMPTY, None)


def show(n):
    """A number in words: by its distance from a power of two if that is small."""
    for power in (64, 63, 32):
        far = n - 2**power
        if abs(far) <= 8192:
            return f"2^{power}" + (f" {'-' if far < 0 else '+'} {abs(far):,}" if far else "")
    return f"{n:,}" if n <= 65537 else f"0x{n:x}"


def start(**changes):
    return ALL._replace(**changes)


def add(text, world, *steps):
    """Note a case, unless the same is there already. A step is an operation with its outcome: ""
    if it is accepted, or all checks that fail with commas between ("too long.." leaves those after
    it unsaid), None if that is not said; and, where told, x1 and x2."""
    if world.lent is None:
        moves = any(op.kind == CALL and op.id in (DELEGATE, UNDELEGATE) for _, op, _ in steps)
        world = world._replace(lent=usual_words(world.record, world.table) if moves else ())
    w, ops, answers = world, [], []
    for outcome, op, registers in steps:
        answer = step(w, op)
        said = answer.fails if outcome is None else outcome
        if said.endswith(".."):
            said = said[:-2] + answer.fails[len(said) - 2:]
        assert said == answer.fails, (text, len(ops), outcome, answer.fails)
        assert registers in (None, (answer.x1, answer.x2)), (text, len(ops), answer.x1, answer.x2)
        ops.append(op)
        answers.append(answer)
        w = answer.after
    case = Case(text, world, tuple(ops), tuple(answers))
    file = file_of(case)
    assert len(file) <= 32768 and len(ops) <= 150, (text, len(file))
    if file not in NOTED:
        NOTED.add(file)
        GROUPS[-1][1].append(case)
    return case


def call(outcome, command, x1=ONES - 1, x2=ONES - 2, x3=ONES - 3, x4=ONES - 4, busy=False,
         token=SECRET[:100], registers=None):
    """A call. A register that a command does not use has some high value."""
    return outcome, Op(CALL, command, x1, x2, x3, x4, busy, token, b""), registers


def send_token(outcome, csize, size=64, pa=PA, token=SECRET[:100], busy=False, registers=None):
    return call(outcome, TOKEN, pa, size, csize, busy=busy, token=token, registers=registers)


def push(outcome, n=0, size=80, pa=None, x1=PUSH, curve=ONES):
    """A push of request n of the page ASKED, or of one at pa."""
    return call(outcome, SIGNING, x1, B + 80 * n if pa is None else pa, size, curve)


def pull(outcome, size=122, pa=B + 3300, x1=PULL, curve=ONES):
    return call(outcome, SIGNING, x1, pa, size, curve)


def public(outcome, size=128, pa=PA, x1=PUBLIC, curve=0, registers=None):
    return call(outcome, SIGNING, x1, pa, size, curve, registers=registers)


def sign(outcome="", signature=SIGNATURE):
    return outcome, Op(SIGN, 0, 0, 0, 0, 0, False, b"", signature), None


def challenge(outcome, csize, size=64, pa=PA):
    return outcome, Op(CHALLENGE, 0, pa, size, csize, 0, False, b"", b""), None


def oldest():
    return "", Op(OLDEST, 0, 0, 0, 0, 0, False, b"", b""), None


def examples():
    """Examples 7, 8, 9 and 12"""
    case = add("example 12: token of 100 bytes, buffer 64, c_size 48", ALL,
               send_token("", 48, registers=(64, 36)), send_token("", 0, registers=(36, 0)),
               send_token("no session", 0))
    assert case.answers[1].after.page[0x315:0x315 + 64] == SECRET[64:100] + SECRET[36:64]
    sending = start(session=(100, 64))
    add("example 7: pa = B + 4,095, size 1 is inside, size 2 too long", sending,
        send_token("too long", 0, 2, B + 4095), send_token("", 0, 1, B + 4095, registers=(1, 35)))
    case = add("example 8: pa = B + 4,096, size 0 is outside; example 9: x0 of BAD_ADDR", sending,
               send_token("outside", 0, 0, B + 4096))
    assert "registers fffffffffffffffe 0 0\n" in expected(0, case)


def buffers():
    """Token and challenge: pa and size, also with forged bases"""
    for base in (B, 0, B + 1, WORD - 4096, WORD - 2048, ONES):
        end, last = base + 4096, min(base + 4095, ONES)
        pas = {base - 1, base, last, base + 2048, end - 1, end, end % WORD, end % WORD - 1, ONES}
        pas = [pa for pa in sorted(pas) if 0 <= pa < WORD]

        def fails(pa, size, end=end, base=base):
            outside, long = pa < base or pa >= end, pa + size > end
            return ", ".join(["outside"] * outside + ["too long"] * long)

        add(f"token: B = {show(base)}, each edge of the page, sizes 0 and 1",
            start(base=base, session=(100, 0)),
            *(send_token(fails(pa, size), 0, size, pa) for pa, size in product(pas, (0, 1))))
        for pa in sorted({base, last}):
            room = end - pa
            sizes = {room - 1, room, room + 1, 2**32, ONES - pa, WORD - pa, WORD - pa + base, ONES}
            add(f"token: B = {show(base)}, pa = {show(pa)}, sizes about the room", start(base=base),
                *(send_token(", ".join(["too long"] * (size > room) + ["above"] * (size < 32)), 32,
                             size, pa, SECRET[:4200])
                  for size in sorted(sizes) if size < WORD))
        for csize in (32, 64):
            pas = (base - 1, base, end - csize - 1, end - csize, end - csize + 1, end)
            add(f"challenge: B = {show(base)}, {csize} bytes at each edge of the page",
                start(base=base), *(challenge(fails(pa, size), csize, size, pa) for pa, size
                                    in product(pas, (csize, csize + 1)) if 0 <= pa < WORD))
    for text, size in (("B", WORD - 100), ("0", WORD - B - 100), ("1", WORD - B - 99)):
        add(f"pa = B + 100, pa + size is 2^64 + {text}", start(session=(100, 64)),
            send_token("too long", 0, size, B + 100), challenge("too long", 48, size, B + 100),
            public("too long", size, B + 100))
    add("pa 2^32 too low", start(base=B + 2**32, session=(100, 64)),
        send_token("outside", 0, 1, B), challenge("outside", 48, 64, B), public("outside", 97, B))
    add("pa 2^32 too high", start(session=(100, 64)),
        send_token("outside, too long", 0, 1, B + 2**32),
        challenge("outside, too long", 48, 64, B + 2**32),
        public("outside, too long", 97, B + 2**32))


def challenge_sizes():
    """Token and challenge: c_size"""
    unlisted = (1, 16, 31, 33, 47, 49, 63, 65, 96, 128, 256, 2**32, 2**32 + 32, 2**32 + 48,
                2**32 + 64, 2**63 + 64, ONES - 31, ONES)
    for session in (None, (100, 64)):
        text = "no session" if session is None else "in mid-session"
        steps = []
        for csize in unlisted:
            name = "c_size, above" if csize > 4096 else "c_size"
            steps += [challenge(name, csize, 4096, B), send_token(name, csize, 4096, B)]
        add(f"c_size {', '.join(map(show, unlisted))}; {text}", start(session=session), *steps)
        for csize in (0, 32, 48, 64):
            add(f"c_size {csize}; {text}", start(session=session), challenge("", csize, 4096, B),
                send_token("no session" if csize == 0 and session is None else "", csize, 4096, B),
                challenge("", csize, 4096, B))
    for csize in (32, 48, 64):
        for size in (0, 1, csize - 1, csize, csize + 1):
            name = "above" if csize > size else ""
            add(f"c_size {csize} with a buffer of {size}", start(session=(100, 64)),
                challenge(name, csize, size), send_token(name, csize, size))
    add("c_size 33, 65 and 96, with a buffer one smaller", ALL,
        *(way("c_size, above", csize, csize - 1) for way in (challenge, send_token)
          for csize in (33, 65, 96)))


def tokens():
    """Token: tokens and sessions of each length"""
    for length in (0, 1, 31, 32, 63, 64, 65, 100, 4096, 4097):
        name = "" if length else "token"
        token = SECRET[:length]
        add(f"a start with a token of {length:,} bytes, buffers of 32, 64 and 4,096", ALL,
            send_token(name, 32, 32, token=token), send_token(name, 64, 64, token=token),
            send_token(name, 48, 4096, B, token))
        if length:
            add(f"in mid-session of a token of {length:,} bytes: 1 less, 1 more, none, then it",
                start(session=(length, length - 1)),
                *(send_token("token", 0, token=SECRET[:n]) for n in (length - 1, length + 1, 0)),
                send_token("", 0, token=token, registers=(1, 0)))
    for whole in (2**32 + 100, 2**63 + 100, 0, ONES):
        add(f"a session of {show(whole)} bytes, token of 100", start(session=(whole, 64)),
            send_token("token", 0), send_token("token", 0, token=b""), send_token("", 32))
    add("a session of no bytes, no token", start(session=(0, 0)), send_token("token", 0, token=b""))


def whole_tokens():
    """Token: sent whole, a buffer of b bytes takes L / b calls, rounded up"""
    for length in (1, 63, 64, 65, 100, 128, 4096, 4097):
        for size, csize in ((32, 32), (48, 48), (64, 64), (64, 32), (100, 64), (4096, 48)):
            pa = B if size == 4096 else PA
            if length // size > 130:
                continue
            rests = [max(length - size * (k + 1), 0) for k in range((length + size - 1) // size)]
            hunks = [min(size, length - size * k) for k in range(len(rests))]
            steps = [send_token("", 0 if k else csize, size, pa, SECRET[:length], registers=r)
                     for k, r in enumerate(zip(hunks, rests))]
            add(f"a token of {length:,} bytes, buffer {size:,}, c_size {csize}: {len(steps)} calls",
                ALL, *steps, send_token("no session", 0, size, pa, SECRET[:length]))
    add("a token of 100 bytes: 64, then 36 calls with a buffer of 1", ALL, send_token("", 64),
        *(send_token("", 0, 1, PA + k, registers=(1, 35 - k)) for k in range(36)),
        send_token("no session", 0, 1))
    add("buffers of 32, 1, 0, 64 and 4,096, a token of 4,097 bytes", ALL,
        *(send_token("", 48 if k == 0 else 0, size, B, SECRET[:4097], registers=(size, rest))
          for k, (size, rest) in enumerate(((64, 4033), (32, 4001), (1, 4000), (0, 4000),
                                            (64, 3936), (0, 3936)))),
        send_token("", 0, 4096, B, SECRET[:4097], registers=(3936, 0)))


def sessions():
    """Token: what becomes of a session"""
    first, again = send_token("", 48, registers=(64, 36)), send_token("", 32, registers=(64, 36))
    add("a start in mid-session begins again", ALL, first,
        send_token("", 0, 16, registers=(16, 20)), again, send_token("", 0, registers=(36, 0)))
    add("a start directly after a start", ALL, first, again, first, send_token("", 0))
    add("a start with a token of another length", ALL, first,
        send_token("", 64, token=OTHER[:77], registers=(64, 13)), send_token("token", 0),
        send_token("", 0, token=OTHER[:77], registers=(13, 0)))
    add("a refused start keeps the old session", ALL, first,
        send_token("busy", 48, busy=True), send_token("outside", 48, pa=B - 1),
        send_token("too long", 48, 4097), send_token("c_size", 33), send_token("above", 48, 47),
        send_token("token", 48, token=b""), send_token("", 0, registers=(36, 0)))
    add("a refused call keeps the session", ALL, first, send_token("busy", 0, busy=True),
        send_token("outside", 0, pa=B - 1),
        send_token("too long", 0, 4097), send_token("token", 0, token=b""),
        send_token("token", 0, token=SECRET[:99]), send_token("token", 0, token=SECRET[:101]),
        send_token("", 0, registers=(36, 0)))
    add("a token of the same length with other bytes: those lent at the call count", ALL, first,
        send_token("", 0, 20, token=OTHER[:100], registers=(20, 16)),
        send_token("", 0, 10, token=SECRET[:100], registers=(10, 6)),
        send_token("", 0, 10, token=OTHER[:100], registers=(6, 0)))
    for length in (1, 63, 64):
        add(f"a start that sends all {length} bytes leaves no session", start(session=(100, 64)),
            send_token("", 64, token=SECRET[:length], registers=(length, 0)),
            send_token("no session", 0, token=SECRET[:length]), send_token("no session", 0))
    add("size 0 with c_size 0 moves nothing", ALL, send_token("no session", 0, 0), first,
        send_token("", 0, 0, registers=(0, 36)), send_token("", 0, 0, B, registers=(0, 36)),
        send_token("", 0, 0, B + 4095, registers=(0, 36)),
        send_token("outside", 0, 0, B + 4096), send_token("outside", 0, 0, B - 1),
        send_token("token", 0, 0, token=SECRET[:99]), send_token("busy", 0, 0, busy=True),
        send_token("", 0, registers=(36, 0)), send_token("no session", 0, 0))
    add("busy, then not", ALL, send_token("busy", 48, busy=True), first,
        send_token("busy", 0, busy=True), send_token("busy", 0, busy=True), send_token("", 0))
    add("a hunk next to the last: buffers of 35, 36 and 37 for 36 bytes", ALL, first,
        send_token("", 0, 35, registers=(35, 1)), first, send_token("", 0, 36, registers=(36, 0)),
        first, send_token("", 0, 37, registers=(36, 0)), send_token("no session", 0, 37))


def challenges():
    """Challenge lookup, beside token calls"""
    page = page_of(0x315, bytes(range(64)))
    look = challenge("", 48)
    add("busy and UNK of the token do not empty the challenge", start(page=page), look,
        send_token("busy", 48, busy=True), look, send_token("token", 48, token=b""), look,
        send_token("", 48), look)
    add("the challenge needs no session and ends none", start(page=page, session=(100, 64)), look,
        send_token("", 0), look)
    add("c_size 0 is an empty challenge", start(page=page), challenge("", 0), challenge("", 0, 0))
    for state in ("fresh", "closed"):
        add(f"record {state}", start(page=page, state=state), challenge("not up", 48),
            send_token("not up", 48))
    for length in (0, 4095, 4097, 4200):
        add(f"a page of {length:,} bytes", start(page=LENT[:length]), challenge("length", 48),
            send_token("length", 48))
    for csize in (32, 48, 64):
        add(f"{csize} bytes at the start, in the middle and at the end of the page", ALL,
            *(challenge("", csize, csize, B + at) for at in (0, 1, 2001, PAGE - csize)))
    add("any minor, cpus and queue", start(minor=0, cpus=0, requests=requests(3)), look)


def signing_edges():
    """Token signing: opcode, buffer, curve and minor"""
    full = {"page": ASKED, "requests": requests(2), "responses": responses(3)}
    opcodes = (0, 4, 5, 255, 256, 2**32, 2**32 + 1, 2**32 + 2, 2**32 + 3, 2**63 + 1, ONES)
    add(f"opcode {', '.join(map(show, opcodes))}", start(**full),
        *(call("opcode", SIGNING, opcode, B, 128, 0) for opcode in opcodes))
    curves = (0, 1, 2**32, 2**63, ONES)
    for text, op, least, small in (("push", push, 80, "short.."), ("pull", pull, NEED, "no room"),
                                   ("key", public, 97, "long key")):
        # What each opcode reads or writes, also at the page's edges.
        edge = page_of(0, request_bytes(request(1)), PAGE - least, request_bytes(request(2)))
        world = start(**{**full, "page": edge})
        add(f"{text}: pa one below B, at B; the last that fits, one more; at the page's end", world,
            op("outside", pa=B - 1, size=least), op("", pa=B, size=least),
            op("", pa=B + PAGE - least, size=least),
            op("too long", pa=B + PAGE - least + 1, size=least),
            op("too long", pa=B + PAGE - 1, size=least),
            op(f"outside, {small}", pa=B + PAGE, size=0),
            op("outside, too long", pa=B + PAGE, size=least))
        add(f"{text}: sizes about the room up to the page's end", world,
            op("too long", pa=B + PAGE - least, size=least + 1), op("too long", pa=B, size=4097),
            op("too long", pa=B, size=ONES), op("too long", pa=B, size=2**32 + least),
            op("", pa=B, size=4096))
        for base in (0, WORD - 4096, WORD - 2048, ONES):
            last = min(base + 4095, ONES)
            add(f"{text}: B = {show(base)}", start(**{**full, "base": base, "page": edge}),
                op("", pa=base, size=least), op(small, pa=last, size=1), op(small, pa=last, size=0),
                op("outside..", pa=(base + 4096) % WORD, size=least),
                op("too long", pa=base, size=4097),
                op("outside..", pa=(base - 1) % WORD, size=least))
        for minor in (0, 3, 4, 5, 2**32, 2**32 + 3, ONES):
            add(f"{text}: minor {show(minor)}", start(**full, minor=minor),
                op("minor" if minor < 4 else ""))
        add(f"{text}: curve {', '.join(map(show, curves))}",
            start(**{**full, "responses": responses(5)}),
            *(op("curve" if op is public and curve else "", curve=curve) for curve in curves))
        for state in ("fresh", "closed"):
            add(f"{text}: record {state}", start(**full, state=state), op("not up"))
        for length in (0, 4095, 4097, 4200):
            add(f"{text}: a page of {length:,} bytes",
                start(**{**full, "page": (ASKED + LENT)[:length]}), op("length"))


def pushes():
    """Token signing: what is pushed"""
    for size in (0, 1, 79, 80, 81, 4096, 2**32 + 80):
        name = "too long" if size > 4096 else "short" if size < 80 else ""
        add(f"push: size {show(size)}", start(page=ASKED), push(name, size=size), oldest())
    algorithms = (1, 2, 256, 0x10000, 0x1000000, 0x80000000, 0xFFFFFFFF)
    page = page_of(0, b"".join(request_bytes(request(1, algorithm=a)) for a in algorithms))
    add(f"push: algorithm id {', '.join(map(hex, algorithms))}", start(page=page),
        *(push("algorithm", n) for n in range(len(algorithms))), oldest())
    hashids = (0, 2, 3, 0x101, 0x10001, 0x1000001, 0x80000001, 0xFFFFFFFF)
    page = page_of(0, b"".join(request_bytes(request(1, hashid=h)) for h in hashids))
    add(f"push: hash id {', '.join(map(hex, hashids))}", start(page=page),
        *(push("hash id", n) for n in range(len(hashids))), oldest())
    page = page_of(0, b"".join(request_bytes(request(hole), hole) for hole in (0, 1, 255)))
    add("push: holes of any bytes", start(page=page), *(push("", n) for n in range(3)), oldest())
    for text, r in (("zeros", Request(0, 0, 0, 1, bytes(48))),
                    ("ones", Request(0, ONES, ONES, 1, bytes([255] * 48)))):
        page = page_of(1000, request_bytes(r))
        add(f"push: fields of {text}, an odd pa", start(page=page[-1:] + page[:-1]),
            push("", pa=B + 1001), oldest(), sign(), pull(""))
    add("push: one and the same twice", start(page=ASKED), push("", 5), push("", 5), oldest(),
        sign(), oldest())
    for count in (0, 1, 6, 7, 8, 9):
        name = "full" if count >= 8 else ""
        add(f"push: {count} waiting{' (forged)' if count > 8 else ''}",
            start(page=ASKED, requests=requests(count, places=8)), push(name, 3), oldest())


def pulls():
    """Token signing: what is pulled, and the public key"""
    for length in (0, 1, 2, 95, 103, 104, 105, 255, 256, 2**32 + 1, ONES):
        held = min(length, 104)
        text = f"pull: a signature of {show(length)} bytes{' (forged)' * (not 1 <= length <= 104)}"
        add(f"{text}: one too short, then it fits",
            start(responses=responses(3, length=length)), pull("no room", 17 + held), oldest(),
            pull("", 18 + held), pull("", 4096, B), pull("no room", 0), pull("no room", 17))
    add("pull: size 0, 1, 17, 18 and 2^64 - 1", start(responses=responses(1)), pull("no room", 0),
        pull("no room", 1), pull("no room", 17), pull("no room", 18), pull("too long", ONES))
    for count in range(10):
        steps = [pull("", pa=B + 120 * i) for i in range(min(count, 8))]
        add(f"pull: {count} waiting{' (forged)' if count > 8 else ''}, all taken in order",
            start(responses=responses(count, places=8)), *steps, pull("no response"),
            pull("no response", 0))
    add("pull: bytes of the buffer past the response stay",
        start(page=bytes(PAGE), responses=responses(2)), pull("", 4096, B), pull("", 4089, B + 7))
    for k in (0, 1, 2, 96, 97, 255, 257, 4095, 4096, 4097):
        name = "no key" if k == 0 else ""
        key = SECRET[:k]
        add(f"key of {k:,} bytes: buffers one too small, right, one too large",
            start(public=key),
            *(public(name or ("too long" if size > 4096 else "long key" if size < k else ""), size,
                     B, registers=(k, 0) if k and k <= size <= 4096 else None)
              for size in (k - 1, k, k + 1, 0, 4096) if size >= 0))
    add("key: at the page's end, at an odd place; the realm key is another one", ALL,
        public("", 97, B + PAGE - 97, registers=(97, 0)),
        public("", 4000, B + 3, registers=(97, 0)),
        call("", KEY, B + 1000, 96, 0, registers=(96, 0)))


def signer():
    """The signer's own step, and the oldest request"""
    for length in (0, 1, 2, 103, 104, 105, 255, 256, 4096):
        name = "" if 1 <= length <= 104 else "signature"
        for asked, done in ((1, 0), (8, 7)):
            made = done + (name == "")
            add(f"signature of {length:,} bytes, {asked} asked, {done} done",
                start(requests=requests(asked), responses=responses(done)), oldest(),
                sign(name, SECRET[:length]), oldest(), pull("" if made else "no response", pa=B),
                pull("" if made > 1 else "no response", pa=B + 200))
    for asked in (0, 1, 2, 8, 9):
        for done in (0, 1, 7, 8, 9):
            name = ", ".join(["no request"] * (asked == 0) + ["full"] * (done >= 8))
            add(f"{asked} asked, {done} done{' (forged)' * (max(asked, done) > 8)}",
                start(requests=requests(asked, places=8), responses=responses(done, places=8)),
                oldest(), sign(name), oldest())
    for state in STATES:
        add(f"record {state}: it does not matter", start(state=state, requests=requests(2)),
            oldest(), sign(), oldest(), sign(), oldest(), sign("no request"))
    add("no page, no table, minor 0", start(page=b"", table=b"", minor=0, requests=requests(1)),
        oldest(), sign(), oldest())
    for n, r in enumerate((Request(0xFFFFFFFF, ONES, ONES, 0xFFFFFFFF, bytes([255] * 48)),
                           Request(0, 0, 0, 0, bytes(48)),
                           Request(0x04030201, 0x0807060504030201, 0x100F0E0D0C0B0A09, 0x14131211,
                                   bytes(range(100, 148))))):
        add(f"all fields of a stored request ({n})", start(requests=Line((r,), 1)), oldest(),
            sign(), pull(""))


def rounds():
    """The queue, round after round"""
    fill = [push("", n) for n in range(8)]
    add("eight pushes, a ninth; eight signed, a ninth; eight pulled, a ninth", start(page=ASKED),
        *fill, push("full", 8), oldest(), *[sign(signature=SECRET[n:n + 60 + n]) for n in range(8)],
        sign("no request, full"), *[pull("", pa=B + 3300 + n) for n in range(8)],
        pull("no response"), push("", 8), oldest())
    steps = list(fill)
    for n in range(8, 20):
        steps += [push("full", n), sign(signature=SECRET[n:n + 2 * n]), push("", n), oldest(),
                  pull("", pa=B + 3210 + n)]
    add("full, then twelve rounds of sign, push, pull", start(page=ASKED), *steps)
    steps = [push("", 0)]
    for n in range(1, 25):
        steps += [sign(signature=SECRET[n:n + 4 * n]), pull("", pa=B + 3400 + n), push("", n)]
    add("one at a time, 24 rounds", start(page=ASKED), *steps, oldest())
    steps = []
    for n in range(0, 30, 3):
        steps += [push("", n), push("", n + 1), push("", n + 2)]
        steps += [sign(signature=SECRET[n:n + 9])] * 3
        steps += [pull("", pa=B + 3300), pull("", pa=B + 3330), pull("", pa=B + 3360)]
    add("three at a time, ten rounds", start(page=ASKED), *steps)
    steps = []
    for n in range(8):
        steps += [push("", n), sign(signature=SECRET[n:n + 1])]
    for n in range(8, 16):
        steps += [push("", n)]
    add("both sides full: nothing goes but a pull", start(page=ASKED), *steps, push("full", 16),
        sign("full"), oldest(), pull(""), sign(), sign("full"), push("", 16), push("full", 17),
        pull("", pa=B + 3500), pull("", pa=B + 3600))
    steps = []
    for n in range(9):
        steps += [push("", n), sign("signature", b""), sign("signature", SECRET[:105]), sign(),
                  pull("no room", NEED - 1), pull("", NEED, B + 3300 + n)]
    add("a response that does not fit, then fits, nine rounds", start(page=ASKED), *steps)
    add("pull never gives a response that was dropped", start(page=ASKED), push(""), sign(),
        pull(""), pull("no response"), sign("no request"), pull("no response"), oldest())
    for at in (0, 1, 4, 7, 8):
        asked, done = requests(8), responses(8)
        add(f"both sides of eight, {at} taken from each, as many put back",
            start(page=ASKED, requests=asked, responses=done), *[pull("")] * at, *[sign()] * at,
            *[push("", n) for n in range(at)], push("full", 30), oldest(), sign("full"))


def forged():
    """Forged states: sessions past their token, counts above eight, lengths above 104"""
    for whole, sent in ((100, 100), (100, 101), (100, 2**32), (100, 2**32 + 10), (100, 2**63),
                        (100, ONES), (1, 1), (4096, 4096)):
        for size in (0, 64):
            add(f"a session of {show(whole)} bytes with {show(sent)} sent, size {size}",
                start(session=(whole, sent)), send_token("token", 0, token=SECRET[:whole + 1]),
                send_token("busy", 0, token=SECRET[:whole], busy=True),
                send_token("token", 0, token=b""),
                send_token("", 0, size, token=SECRET[:whole], registers=(0, 0)),
                send_token("no session", 0, size, token=SECRET[:whole]))
        add(f"a session of {show(whole)} bytes with {show(sent)} sent, started again",
            start(session=(whole, sent)), send_token("", 32, 32), send_token("", 0))
    for sent in (0, 1, 99):
        add(f"a session of 100 bytes with {sent} sent", start(session=(100, sent)),
            send_token("", 0, 50), send_token("no session" if sent == 99 else "", 0, 50))
    for count in (9, 256, 2**32 + 3, ONES):
        asked, done = requests(count, places=8), responses(count, places=8)
        add(f"{show(count)} asked: a push is refused and leaves the count",
            start(page=ASKED, requests=asked), push("full"), push("short, full", size=79), oldest(),
            sign("signature", b""), pull("no response"))
        add(f"{show(count)} asked: a signed one leaves seven", start(page=ASKED, requests=asked),
            oldest(), sign(), oldest(), push(""), push("full"))
        add(f"{show(count)} done: a pull leaves seven", start(responses=done, requests=requests(2)),
            sign("full"), pull("no room", NEED - 1), pull(""), sign(), sign("full"))
        add(f"{show(count)} on both sides, all worked off",
            start(page=ASKED, requests=asked, responses=done), push("full"), sign("full"),
            *[pull("", pa=B + 3200 + n) for n in range(8)], *[sign()] * 8, sign("no request, full"),
            push(""), oldest(), pull("", pa=B))
    for length in (105, 2**16 + 4, 2**32, ONES):
        places = (response(1), response(2, length), response(3))
        add(f"a stored length of {show(length)}", start(responses=Line(places, 3)), pull(""),
            pull("no room", 121), pull("", 122), pull(""))
    for count in (0, 3):
        add(f"{count} waiting, with more in the places after them",
            start(page=ASKED, requests=requests(count, places=8),
                  responses=responses(count, places=8)), oldest(), push("", 1), sign(),
            *[pull("")] * count, pull(""), pull("no response"))


def usual(command, **more):
    """A call that is accepted where the page is ASKED, with the table's granule 0 delegated or its
    granule 1 undelegated."""
    of_command = {FORWARD: (1,), DELEGATE: (G,), UNDELEGATE: (G + 4096,), KEY: (PA, 96, 0),
                 TOKEN: (PA, 64, 48), FEATURES: (0,), SIGNING: (PUSH, B, 80), UPDATE: (200,)}
    return call(more.pop("outcome", ""), more.pop("id", command), *of_command[command], **more)


def identities():
    """The dispatcher: function ids, records and page lengths"""
    near = (0xC400018E, 0xC4000190, 0xC40001AF, 0xC40001B7, 0xC40001B8, 0xC40001BF, 0xC40001CF,
            0xC4000000, 0xC40002B3, 0x1B3, 0xB3, 1, 0, ONES)
    world = start(page=ASKED, requests=requests(2), responses=responses(2), session=(100, 64))
    for command in LISTED:
        name = f"0x{command:X}"
        add(f"{name}: it alone", world, usual(command))
        add(f"{name}: right in the low 32 bits alone, or but for one bit", world,
            *(usual(command, outcome="id", id=other % WORD)
              for other in (command + 2**32, command + 2**33, command + 2**63, command - 2**32,
                            command - 2**30, command - 2**31, command + 2**16)))
        for state in ("fresh", "closed"):
            add(f"{name}: record {state}", world._replace(state=state),
                usual(command, outcome="" if command == FORWARD else "not up"))

    def each(text, world, minded, name, **more):
        """Each command in turn; those that mind are refused."""
        add(text, world, *(usual(command, outcome=name if command in minded else "", **more)
                           for command in LISTED))

    each("each command", world, (), "")
    for length in (0, 4095, 4097, 4200):
        each(f"a page of {length:,} bytes, which 0xC40001B2, B3 and B5 mind",
             world._replace(page=(ASKED + LENT)[:length]), (KEY, TOKEN, SIGNING), "length")
    each("busy, which only 0xC40001B3 minds", world, (TOKEN,), "busy", busy=True)
    each("no token lent, which only 0xC40001B3 minds", world, (TOKEN,), "token", token=b"")
    each("no realm key, which only 0xC40001B2 minds", world._replace(key=b""), (KEY,), "key")
    each("no public key, which no call here needs", world._replace(public=b""), (), "")
    each("a table one long, which only 0xC40001B0 and B1 mind", world._replace(record=one(G, 4)),
         (DELEGATE, UNDELEGATE), "table")
    for text, record in (("a count of 17", (17, *one(G, 5)[1:])), ("no bank", ()),
                         ("a count of 2^64 - 1", (ONES, *one(G, 5)[1:]))):
        each(f"{text}, which only 0xC40001B0 and B1 mind", world._replace(record=record),
             (DELEGATE, UNDELEGATE), "banks, table, off")
    for text, lent in (("no word", ()), ("a word too many", (ONES, ONES))):
        each(f"{text}, which only 0xC40001B0 and B1 mind", world._replace(lent=lent),
             (DELEGATE, UNDELEGATE), "words")
        add(f"{text}, which 0xC40001B0 and B1 mind before the record", world._replace(
            lent=lent, state="closed"), *(
                usual(command, outcome="words, not up" if command in (DELEGATE, UNDELEGATE)
                      else "" if command == FORWARD else "not up") for command in LISTED))
    for state in STATES:
        add(f"ids that are not listed, record {state}", world._replace(state=state),
            *(call("id", other, 0, 0, 0, 0) for other in near),
            *(call("id", other, PA, 64, 48, 0) for other in near))
    add("each id from 0xC4000180 to 0xC40001FF, registers 0", world,
        *(call(None if 0xC4000180 + n in LISTED else "id", 0xC4000180 + n, 0, 0, 0, 0)
          for n in range(128)))
    for state in STATES:
        add(f"0xC400018F: err_code 0, 1, 2^32, 2^64 - 1, record {state}",
            world._replace(state=state), *(call("", FORWARD, err) for err in (0, 1, 2**32, ONES)))
    add("0xC40001B4: index 0, 1, 2^32, 2^64 - 1", world,
        *(call("index" if index else "", FEATURES, index) for index in (0, 1, 2**32, ONES)))
    for minor in (3, 4, 5):
        add(f"minor {minor}: features, signing, key update, token, realm key",
            world._replace(minor=minor), usual(FEATURES, outcome="" if minor > 3 else "minor"),
            usual(SIGNING, outcome="" if minor > 3 else "minor"),
            usual(UPDATE, outcome="" if minor > 4 else "minor"), usual(TOKEN), usual(KEY))
    for m, mecid, name in ((7, 255, ""), (7, 256, "mecid"), (15, 65535, ""), (15, 65536, "mecid"),
                           (16, 65535, "width"), (16, 65536, "mecid, width")):
        add(f"0xC40001B6: m = {m}, mecid {mecid:,}", world._replace(m=m), call(name, UPDATE, mecid))


def banks():
    """Several banks: granules to and fro, the edges of each bank, tables of other lengths"""
    for text, held in (("two banks", TWO), ("16 banks", MANY)):
        every = addresses_of(held)
        n = len(every)
        world = start(record=record_of(held), table=bytes(n))
        add(f"{text}: every granule to Realm", world, *(call("", DELEGATE, at) for at in every))
        ends = sorted({edge for base, size in held for edge in (base, base + size - 4096)})
        add(f"{text}: first and last granule of each bank, to and fro, and again", world,
            *(call(outcome, command, at) for at in ends for outcome, command in (
                ("", DELEGATE), ("byte", DELEGATE), ("", UNDELEGATE), ("byte", UNDELEGATE))))
        holes = sorted({edge for base, size in held for edge in (base - 4096, base + size)}
                       - set(every))
        add(f"{text}: holes, below and above, and the last byte of each bank", world,
            *(call("off", command, at) for at in holes for command in (DELEGATE, UNDELEGATE)),
            *(call("address", DELEGATE, base + size - 1) for base, size in held))
        for what, length in (("one short", n - 1), ("one long", n + 1)):
            add(f"{text}: a table {what}", world._replace(table=bytes(length)),
                *(call(None, DELEGATE, at) for at in ends + holes))
        add(f"{text}: the last one broken", world._replace(record=(*record_of(held)[:-1], 0)),
            *(call(None, DELEGATE, at) for at in ends + holes))
        add(f"{text}: a broken bank after the counted ones", world._replace(
            record=(1, *record_of(held)[1:3], 1, 1), table=bytes(held[0][1] // 4096)),
            call("", DELEGATE, held[0][0]), call("off", DELEGATE, held[1][0]))
    add("two banks that overlap", start(record=(2, G, 8192, G + 4096, 3 * 4096), table=bytes(5)),
        *(call("banks", DELEGATE, at) for at in (G, G + 4096)))
    add("a bank to 2^52 exactly", start(record=one(2**52 - 8192, 2), table=bytes(2)),
        call("", DELEGATE, 2**52 - 4096), call("off", DELEGATE, 2**52), call("off", DELEGATE, 0))


def search(text, names, worlds, ops, impossible=(), each=""):
    """For each of these checks, and each two of them, the first input by which just these fail;
    where `each` is named, for those with it alone."""
    found = {}
    for world, op in product(worlds, ops):
        found.setdefault(step(world, op).fails, (world, op))
    for wanted in [(), *((name,) for name in names), *combinations(names, 2)]:
        if each and each not in wanted:
            continue
        assert (", ".join(wanted) in found) == (wanted not in impossible), (text, wanted)
        if wanted not in impossible:
            world, op = found[", ".join(wanted)]
            add(f"{text}: {' and '.join(wanted) or 'none'}", world, (", ".join(wanted), op, None))


def pairs():
    """Each check alone, and each two of them: the first in the order of docs/RULES.md answers"""
    pas, records = (PA, B - 1, B + 4096, B + 4090, B + 4095), product(("up", "fresh"), (5, 3))
    first, buffer = ("not up", "length"), ("outside", "too long")
    sent = [start(state=state, page=page, session=session) for state, page, session in product(
        ("up", "closed"), (ASKED, (ASKED + LENT)[:4097]), ((100, 64), None))]
    search("token", (*first, "busy", *buffer, "c_size", "above", "no session", "token"), sent,
           [send_token(None, *rest)[1] for rest in product(
               (0, 48, 65, 33), (64, 20, 0, 1, 4097), pas, (SECRET[:100], b"", SECRET[:99]),
               (False, True))], {("c_size", "no session"), ("above", "no session")})
    search("challenge", (*first, *buffer, "c_size", "above"), sent,
           [challenge(None, *rest)[1] for rest in product((48, 65, 33), (64, 20, 0, 4097), pas)])
    asked = [request_bytes(request(1, algorithm=algorithm, hashid=hashid))
             for algorithm, hashid in product((0, 1), (1, 2))]
    worlds = [start(page=(page_of(0x315, data) + LENT)[:length], state=state, minor=minor,
                    public=key, requests=requests(count), responses=responses(1 - count // 8))
              for (state, minor), data, length, count, key in product(
                  records, asked, (PAGE, PAGE + 1), (2, 8), (OTHER[:97], b""))]

    def signing_pairs(text, opcode, names, impossible=(), each=""):
        search(text, (*first, *names), worlds,
               [call(None, SIGNING, opcode, pa, size, curve)[1] for pa, size, curve in product(
                   pas, (128, 80, 79, 4, 4097, 0), (0, 1))], impossible, each)

    signing_pairs("opcode 4", 4, ("opcode", *buffer, "minor"), each="opcode")
    # Where the buffer is outside the page there is no request to look at.
    signing_pairs("push", PUSH, (*buffer, "minor", "short", "algorithm", "hash id", "full"),
                  {("outside", "algorithm"), ("outside", "hash id")})
    signing_pairs("pull", PULL, (*buffer, "minor", "no response", "no room"),
                  {("no response", "no room")})
    signing_pairs("key", PUBLIC, (*buffer, "curve", "minor", "no key", "long key"),
                  {("no key", "long key")})
    search("signer", ("signature", "no request", "full"),
           [start(requests=requests(asked), responses=responses(done))
            for asked, done in product((2, 0), (1, 8))],
           [sign(None, signature)[1] for signature in (SIGNATURE, b"", SECRET[:105])])


def mixed():
    """All commands in turn, refused calls in between"""
    world = start(page=ASKED, table=bytes([0, 1, 2, 0, 1]))
    steps = [
        call("", FORWARD, 7), call("", FEATURES, 0), call("index", FEATURES, 1),
        call("", DELEGATE, G), call("byte", DELEGATE, G), call("", UNDELEGATE, G + 4096),
        call("byte", UNDELEGATE, G + 8192), call("address, byte", DELEGATE, G + 1),
        call("off", UNDELEGATE, G + 5 * 4096), challenge("", 48),
        send_token("busy", 48, busy=True), send_token("", 48, pa=B + 3300, registers=(64, 36)),
        push("", 0), call("", DELEGATE, G + 3 * 4096), call("", KEY, B + 3400, 96, 0),
        send_token("c_size", 47, pa=B + 3300), send_token("", 0, 10, B + 3500, registers=(10, 26)),
        oldest(), push("", 1), sign(), pull("no room", NEED - 1), call("", UPDATE, 300),
        call("mecid", UPDATE, 65536), pull("", NEED, B + 3500), pull("no response"),
        send_token("", 0, 0, B, registers=(0, 26)), public("", 97, B + 3700),
        public("curve", 97, B + 3700, curve=1), call("id", 0xC40001B7, 0), push("", 2),
        call("outside, too long", KEY, B + 4096, 96, 0), sign("signature", b""), sign(), oldest(),
        send_token("token", 0, token=SECRET[:99]),
        send_token("", 0, 64, B + 3900, registers=(26, 0)), send_token("no session", 0), sign(),
        sign("no request"), pull("", 200, B + 3200),
        pull("", 200, B + 3203), pull("no response", 0), call("", UNDELEGATE, G),
        call("opcode", SIGNING, 0, B, 80, 0), call("", FORWARD, ONES), oldest()]
    add("one after the other", world, *steps)
    add("the same with a session, a queue and a full table", world._replace(
        session=(100, 90), requests=requests(1), responses=responses(1)),
        *((None, op, None) for _, op, _ in steps))
    for state, minor in (("up", 4), ("up", 3), ("fresh", 5), ("closed", 5)):
        add(f"the same, record {state}, minor {minor}", world._replace(state=state, minor=minor),
            *((None, op, None) for _, op, _ in steps))
    add("the same, a page of 4,095 bytes", world._replace(page=ASKED[:4095]),
        *((None, op, None) for _, op, _ in steps))
    add("what a token wrote is pushed", start(page=bytes(PAGE)),
        send_token("", 64, 80, token=request_bytes(request(9))), push("", pa=PA), oldest(),
        send_token("", 64, 4096, B, request_bytes(request(10)) * 9), push("", pa=B + 8 * 80),
        sign(), pull("", pa=PA), push("algorithm, hash id", pa=PA), challenge("", 64), sign(),
        oldest())


def random_sequences():
    """Random sequences"""
    dice = Random(20)

    def pick(n):
        return dice.getrandbits(64) % n

    def one_of(*items):
        return items[pick(len(items))]

    def some(n):
        return bytes(pick(256) for _ in range(n))

    def line(item):
        count = one_of(0, 0, 0, 1, 1, 1, 2, 2, 3, 4, 7, 8, one_of(8, 9, 2**32, ONES))
        return Line(tuple(item() for _ in range(min(count + pick(2), 8))), count)

    def stored_request():
        return Request(one_of(0, pick(2**32)), pick(WORD), pick(WORD), one_of(1, pick(2**32)),
                       some(48))

    def stored_response():
        return Response(pick(WORD), pick(WORD), one_of(1, 104, pick(105), pick(105), pick(200)),
                        some(104))

    def slot():
        return request_bytes(request(pick(2**16), algorithm=pick(12) // 11,
                                     hashid=1 + pick(12) // 11), pick(256))

    def bank_list():
        low, held = 4096 * pick(2**pick(39)), []
        for _ in range(1 + pick(one_of(1, 3, 16))):
            low += 4096 * one_of(0, 1, pick(2**pick(30)))
            held.append((low, 4096 * (1 + pick(6))))
            low += held[-1][1]
        return held

    def world():
        whole, slots, held = 1 + pick(300), b"".join(slot() for _ in range(24)), bank_list()
        granules = len(addresses_of(held)) + one_of(*[0] * 12, 1)
        return start(state=one_of(*["up"] * 18, "fresh", "closed"), cpus=pick(9),
                     base=one_of(B, B, B, 4096 * pick(2**40), pick(2**pick(65))),
                     minor=one_of(3, 4, 5, 5, 5, 5, 5, ONES), record=record_of(held),
                     m=pick(18), key=some(pick(140)),
                     public=some(one_of(0, pick(140), pick(140))),
                     page=page_of(0, slots)[:one_of(*[PAGE] * 15, 4095)],
                     table=bytes(pick(3) for _ in range(granules)),
                     session=one_of(None, None, (whole, pick(whole)), (whole, pick(whole)),
                                    (whole, whole + pick(9))),
                     requests=line(stored_request), responses=line(stored_response),
                     lent=random_words(len(addresses_of(held))))

    def random_words(n):
        """Mostly those that fit; else any bits, or a word more or less."""
        k = (n + 63) // 64
        return one_of(None, None, None, tuple(pick(WORD) for _ in range(k)),
                      tuple(pick(WORD) for _ in range(one_of(k, k, k, k + 1, k - 1))))

    def token_op(w, tokens):
        pa = w.base + one_of(pick(4096), 2000 + pick(2000), 2000 + pick(2000), 4090 + pick(8))
        room = max(w.base + 4096 - pa, 0)
        size = one_of(0, 1, 32, 48, 64, 64, 100, pick(300), room + pick(2), pick(5000))
        csize = one_of(0, 0, 0, 0, 32, 48, 64, one_of(1, 33, 65, 2**32 + 32))
        if pick(6) == 0:
            return challenge(None, csize, size, min(pa, ONES))
        return send_token(None, csize, size, min(pa, ONES), one_of(*tokens), pick(9) == 0)

    def signing_op(w):
        opcode = one_of(1, 1, 1, 2, 2, 2, 3, one_of(0, 4, 2**32 + 1))
        usually = 80 * pick(24) if opcode % 2**32 == PUSH else 2000 + pick(1900)
        pa = w.base + one_of(*[usually] * 5, pick(4100))
        size = one_of(80, 128, 128, 140, 79 + pick(3), 110 + pick(15), pick(200), 4096)
        return call(None, SIGNING, opcode, min(pa, ONES), size, one_of(0, 0, 0, pick(2)))

    def granule_edges(record):
        held = [record[k:k + 2] for k in range(1, len(record), 2)]
        return addresses_of(held) + [base + size for base, size in held]

    def other_op(w):
        command = one_of(FORWARD, DELEGATE, DELEGATE, UNDELEGATE, UNDELEGATE, KEY, FEATURES, UPDATE,
                         0xC40001B7 + pick(9))
        x1 = {KEY: w.base + pick(4100), FEATURES: pick(5) // 4, UPDATE: pick(2**pick(18))}.get(
            command, one_of(*granule_edges(w.record)) + pick(9) // 8)
        return call(None, command, min(x1, ONES), one_of(140, pick(200)), pick(8) // 7)

    for i in range(165):
        w = world()
        whole = w.session[0] if w.session else 1 + pick(300)
        main = some(whole)
        tokens = [main] * 6 + [some(whole), some(pick(300)), main[:-1]]
        steps = []
        for _ in range(8 + pick(12)):
            kind = pick(10)
            steps.append(token_op(w, tokens) if kind < 4 else signing_op(w) if kind < 7 else
                         sign(None, some(one_of(1, 104, pick(105), pick(110)))) if kind < 8 else
                         oldest() if kind < 9 and pick(2) else other_op(w))
        add(f"random sequence {i}", w, *steps)


KEPT = (0, 1, 112, 4095, 4096, 4097, ONES)


def around(kept, base=B):
    """Addresses at the end of the kept bytes, at the page's edges, and where B + K wraps to."""
    end = base + kept
    pas = {base - 1, base, end - 1, end, end + 1, base + 4095, base + 4096, end % WORD,
           (end - 1) % WORD}
    return [pa for pa in sorted(pas) if 0 <= pa < WORD]


def kept_bytes():
    """Kept bytes: a buffer that begins below B + K is outside, in each command and the lookup"""
    def fails(w, pa, size, *others):
        outside, long = pa < w.base + w.kept or pa >= w.base + PAGE, pa + size > w.base + PAGE
        return ", ".join(["outside"] * outside + ["too long"] * long + [*others])

    for kept in KEPT:
        w = start(kept=kept, session=(100, 0), key=SECRET[:1], public=OTHER[:1],
                  responses=responses(2))
        steps = []
        for pa, n in product(around(kept), (0, 1)):
            empty = n == 0
            steps += [
                send_token(fails(w, pa, n), 0, n, pa), challenge(fails(w, pa, n), 0, n, pa),
                challenge(fails(w, pa, n, "above"), 32, n, pa),
                call(fails(w, pa, n, *["key"] * empty), KEY, pa, n, 0),
                push(fails(w, pa, n, "short.."), size=n, pa=pa),
                pull(fails(w, pa, n, "no room"), n, pa),
                public(fails(w, pa, n, *["long key"] * empty), n, pa)]
        add(f"K = {show(kept)}: each edge, sizes 0 and 1, each command and the lookup", w, *steps)


def kept_and_room():
    """Kept bytes: buffers after them, and forged records"""
    sizes = {"token": 64, "challenge": 64, "push": 80, "pull": NEED, "key": 97, "realm key": 96}
    ops = {"token": lambda o, pa, n: send_token(o, 48, n, pa),
           "challenge": lambda o, pa, n: challenge(o, 48, n, pa),
           "push": lambda o, pa, n: push(o, size=n, pa=pa),
           "pull": lambda o, pa, n: pull(o, n, pa), "key": lambda o, pa, n: public(o, n, pa),
           "realm key": lambda o, pa, n: call(o, KEY, pa, n, 0)}
    for name, op in ops.items():
        n = sizes[name]
        for kept in (1, 112, PAGE - n - 1, PAGE - n):
            page = page_of(kept, request_bytes(request(1))) if name == "push" else LENT[:PAGE]
            w = start(kept=kept, page=page, responses=responses(2))
            add(f"{name}: K = {kept:,}: 1 below B + K, at it, 1 byte too long", w,
                op("outside..", B + kept - 1, n), op("outside..", B, n),
                op("too long", B + kept, PAGE - kept + 1), op("", B + kept, n))
        add(f"{name}: B = 2^64 - 4,096, K = {PAGE - n:,}", start(
            base=WORD - 4096, kept=PAGE - n, page=page_of(PAGE - n, request_bytes(request(1))),
            responses=responses(1)), op("outside..", ONES - n, n), op("", WORD - n, n))
    for base, kept in ((B, 4097), (B, WORD - B), (B, WORD - B + 64), (2**63, 2**63 + 5), (ONES, 1),
                       (ONES, ONES), (WORD - 4096, 4096), (1, ONES)):
        w = start(base=base, kept=kept, page=page_of(64, request_bytes(request(1))),
                  responses=responses(1))
        add(f"B = {show(base)}, K = {show(kept)}: all is outside", w,
            *(op("outside..", pa, size) for name, op in ops.items() for size in (0, sizes[name])
              for pa in (base, base + 64, base + 4095) if pa < WORD))


def kept_pairs():
    """Kept bytes: outside by K and one more check: the first in the order of docs/RULES.md answers"""
    first, pas = ("not up", "length"), (PA, B + 0x2FF, B)       # the last two are kept
    fresh = {"state": "fresh"}
    worlds = [start(kept=0x300, session=session, page=page, **state) for session, page, state in
              product(((100, 64), None), (ASKED, ASKED[:4095]), ({}, fresh))]
    search("token", (*first, "busy", "outside", "too long", "c_size", "above", "no session",
                     "token"), worlds, [send_token(None, *rest)[1] for rest in product(
                         (0, 48, 65, 33), (64, 20, 4097), pas, (SECRET[:100], b"", SECRET[:99]),
                         (False, True))], each="outside")
    search("challenge", (*first, "outside", "too long", "c_size", "above"), worlds,
           [challenge(None, *rest)[1] for rest in product((48, 65, 33), (64, 20, 4097), pas)],
           each="outside")
    search("realm key", (*first, "outside", "too long", "curve", "key"), worlds,
           [call(None, KEY, *rest)[1] for rest in product(pas, (128, 95, 4097), (0, 1))],
           each="outside")
    asked = [page_of(0, b"".join(request_bytes(request(1, algorithm=a, hashid=h))
                                 for _ in range(40))) for a, h in product((0, 1), (1, 2))]
    worlds = [start(kept=0x300, page=(page + LENT)[:length], minor=minor, public=key,
                    requests=requests(count), responses=responses(1 - count // 8), **state)
              for page, length, minor, key, count, state in product(
                  asked, (PAGE, PAGE + 1), (5, 3), (OTHER[:97], b""), (2, 8), ({}, fresh))]

    def signing_pairs(text, opcode, *names):
        search(text, (*first, *names), worlds,
               [call(None, SIGNING, opcode, pa, size, curve)[1] for pa, size, curve in product(
                   (PA, B), (128, 80, 79, 4, 4097), (0, 1))], each="outside")

    add("opcode 4: opcode and outside", worlds[0], call("opcode, outside", SIGNING, 4, B, 80, 0))
    signing_pairs("push", PUSH, "outside", "too long", "minor", "short", "algorithm", "hash id",
                  "full")
    signing_pairs("pull", PULL, "outside", "too long", "minor", "no response", "no room")
    signing_pairs("key", PUBLIC, "outside", "too long", "curve", "minor", "no key", "long key")


def kept_manifest(text, b, page):
    """Two cases: with the K of a page no command changes what is read; with 8 bytes less one does."""
    page, before = bytes(page), read(4, b, page)
    kept = kept_for(min(4, page[0]), b, page)
    ask = page_of(PAGE - 80, request_bytes(request(1)), base=page)
    steps = []
    for pa in (b, b + 16, b + kept - 1, b + kept, b + kept + 8):
        steps += [send_token(None, 48, 128, pa), send_token(None, 0, 128, pa),
                  call(None, KEY, pa, 96, 0), challenge(None, 48, 64, pa),
                  pull(None, 122, pa), public(None, 128, pa)]
    steps += [push("", pa=b + PAGE - 80), sign(), pull("", 122, b + kept)]
    case = add(f"{text}: K = {kept:,}", start(base=b, kept=kept, page=ask,
                                              responses=responses(3)), *steps)
    last = case.answers[-1].after.page
    assert last[:kept] == ask[:kept] and last != ask, text
    assert read(4, b, last) == before == read(4, b, ask), text
    one_less = add(f"{text}: K = {kept - 8:,} does not cover it", start(
        base=b, kept=kept - 8, page=ask), send_token("", 48, 128, b + kept - 8))
    assert read(4, b, one_less.answers[-1].after.page)[0] == -7, text


def kept_manifests():
    """A manifest in the kept bytes is read the same after all commands"""
    pages = [("a full page", B, full().data), ("a full page, 0.9", B, full(9).data),
             ("a full page, 0.2", B, full(2).data)]
    pages += [(f"field page {stem}", b, page) for stem, b, page, _ in field_pages()
              if not isinstance(read(4, b, page)[0], int)]
    for text, b, page in pages:
        kept_manifest(text, b, page)


def kept_fields():
    """Request E7: fields in the kept bytes are read the same after all commands"""
    for text, page in (
            ("a full page, fields after its arrays", full().facts(0x703, NAME, SERIAL, CHOICE)),
            ("a full page, 0.9, fields between its arrays", full(9).facts(0x281, NAME, field(9))),
            ("a 0.1 page of fields", Page(1).facts(16, SERIAL, *[field(4, b"ab")] * 9, NAME))):
        kept_manifest(text, B, page.data)


def random_kept():
    """Random sequences with kept bytes"""
    dice = Random(33)
    for i in range(20):
        base = dice.choice((B, 4096 * dice.randrange(1, 2**40), dice.getrandbits(64)))
        kept = dice.choice((dice.randrange(4097), dice.randrange(600), 4000, dice.getrandbits(64)))
        w, steps = start(base=base, kept=kept, page=ASKED, responses=responses(4),
                         requests=requests(2)), []
        for _ in range(12):
            near = kept + dice.randrange(-2, 3), dice.randrange(4097), kept + dice.randrange(900)
            pa = min(max(base + dice.choice(near), 0), ONES)
            n = dice.choice((0, 1, 64, 80, 128, 200))
            steps.append(dice.choice((
                send_token(None, dice.choice((0, 32, 48)), n, pa), challenge(None, 32, n, pa),
                call(None, KEY, pa, n, 0), push(None, size=n, pa=pa), pull(None, n, pa),
                public(None, n, pa))))
        case = add(f"random sequence {i}: B = {show(base)}, K = {show(kept)}", w, *steps)
        assert case.answers[-1].after.page[:kept] == w.page[:kept], i


def shared_page():
    """Request E8: the shared page stays Realm, so keys, hunks and responses go into Realm memory"""
    for where, i in (("first", 0), ("middle", 2), ("last", 4)):
        world = start(page=ASKED, record=one(B - 4096 * i, 5), table=bytes([1] * 5),
                      responses=responses(1))
        add(f"B the {where} granule: undelegated, then written to", world,
            call("shared", UNDELEGATE, B), call("", KEY, B + 3400, 96, 0),
            call("shared", UNDELEGATE, B),
            send_token("", 48, pa=B + 3300, registers=(64, 36)), pull("", 200, B + 3200),
            call("byte", DELEGATE, B), call("shared", UNDELEGATE, B), public("", 97, B + 3700))
        add(f"B the {where} granule, Non-secure: delegated once", world._replace(
            table=bytes(k != i for k in range(5))), call("shared, byte", UNDELEGATE, B),
            call("", DELEGATE, B), call("shared", UNDELEGATE, B), call("", KEY, B + 3400, 96, 0))
        for state in ("fresh", "closed"):
            add(f"B the {where} granule, record {state}", world._replace(state=state),
                call("not up, shared", UNDELEGATE, B), call("not up, byte", DELEGATE, B))


def words_of_each_length():
    """Request E6: the words beside tables of each length, one too few and one too many"""
    for n in (0, 1, 63, 64, 65, 127, 128):
        world = start(record=one(G, n) if n else (), table=bytes(n))
        picks = [G + 4096 * i for i in (0, 1, 62, 63, 64, 65, 126, 127) if i < n]
        there = [call("", DELEGATE, at) for at in picks]
        back = [call("", UNDELEGATE, at) for at in picks[::-1]]
        if n:
            add(f"{n} granules: to Realm, again, and back", world, *there,
                *(call("byte", DELEGATE, at) for at in picks), *back)
        for what, lent in (("one word too few", (ONES,) * ((n + 63) // 64 - 1)),
                           ("one word too many", (ONES,) * ((n + 63) // 64 + 1))):
            if n == 0 and not lent:
                continue
            fails = "words" if n else "words, banks, off"
            add(f"{n} granules: {what}", world._replace(lent=lent), call(fails, DELEGATE, G),
                call("words..", UNDELEGATE, G), call("", FORWARD, 1), call("", FEATURES, 0),
                call("words..", DELEGATE, G + 1))


def odd_words():
    """Request E6: words at odds with the table: it decides, and the granule's bit alone is written"""
    table = bytes((0, 1, 2, 255)[i % 4] for i in range(130))
    held = realm_words(table)
    steps = [call("", DELEGATE, G), call("byte", DELEGATE, G), call("", UNDELEGATE, G),
             call("", DELEGATE, G + 4096 * 64), call("", DELEGATE, G + 4096 * 128),
             call("", UNDELEGATE, G + 4096 * 129), call("byte", UNDELEGATE, G + 4096 * 63),
             call("byte", DELEGATE, G + 4096 * 66), call("off", DELEGATE, G + 4096 * 130),
             call("address", UNDELEGATE, G + 4097), call("", KEY, PA, 96, 0)]
    for text, lent in (("all zero", (0,) * 3), ("all ones", (ONES,) * 3),
                       ("flipped", tuple(ONES - word for word in held)),
                       ("right but for a spare bit", (*held[:2], held[2] + 2**63)),
                       ("right", held)):
        add(f"words {text}", start(record=one(G, 130), table=table, lent=lent), *steps)
    add("a table of another length than the record's", start(record=one(G, 130), table=table[:129],
                                                             lent=held),
        call("table", DELEGATE, G), call("table", UNDELEGATE, G + 4096))


def other_ids(dice):
    """Unlisted ids, each with the command whose registers go with it: 64 random bits; 0xC4000000
    with 16 random low bits; each listed id with one bit changed, with other upper 32 bits, and with
    only its low 16 bits kept."""
    pairs = [(0xC4000250, FEATURES), (0xC40001CF, FORWARD)]
    pairs += [(dice.getrandbits(64), dice.choice(LISTED)) for _ in range(32)]
    pairs += [(0xC4000000 + dice.getrandbits(16), dice.choice(LISTED)) for _ in range(16)]
    for command in LISTED:
        pairs += [(command ^ 2**bit, command) for bit in dice.sample(range(64), 8)]
        pairs += [(command + (dice.randrange(1, 2**32) << 32), command),
                  (command % 2**16 + (dice.getrandbits(48) << 16), command)]
    return [(other, command) for other, command in pairs if other not in LISTED]


def random_identities():
    """The dispatcher: function ids at random, with registers that a listed command would accept"""
    dice = Random(64)
    pairs = other_ids(dice)
    world = start(page=ASKED, session=(100, 64), requests=requests(1), responses=responses(1))
    world = world._replace(lent=usual_words(world.record, world.table))
    for state in STATES:
        some = pairs if state == "up" else pairs[:2] + dice.sample(pairs[2:], 6)
        add(f"{len(some)} ids that are not listed, record {state}", world._replace(state=state),
            *(usual(command, outcome="id", id=other) for other, command in some))


# ---- Output ----

def build_all():
    for group in (examples, buffers, challenge_sizes, tokens, whole_tokens, sessions, challenges,
                  signing_edges, pushes, pulls, signer, rounds, forged, identities, banks, pairs,
                  mixed, random_sequences, kept_bytes, kept_and_room, kept_pairs, kept_manifests,
                  random_kept, shared_page, words_of_each_length, odd_words, kept_fields,
                  random_identities):
        GROUPS.append((group.__doc__, []))
        group()


def check_step(w, op, answer):
    """What holds of every operation: a refused one changes nothing; an accepted one changes what
    it may, and a token call moves the next bytes."""
    after = answer.after
    if answer.code != "OK":
        assert after == w and (answer.x1, answer.x2) == (0, 0)
        return
    kept = [name for name in World._fields if getattr(w, name) == getattr(after, name)]
    free = {SIGN: ("requests", "responses")}.get(op.kind) or {
        DELEGATE: ("table", "lent"), UNDELEGATE: ("table", "lent"), KEY: ("page",),
        TOKEN: ("page", "session"), SIGNING: ("page", "requests", "responses"), FEATURES: (),
        UPDATE: ()}[op.id]
    assert set(kept) | set(free) == set(World._fields), (op, kept)
    assert len(after.page) == len(w.page) and len(after.table) == len(w.table)
    if w.lent == realm_words(w.table):          # agreement is kept
        assert after.lent == realm_words(after.table), op
    if op.kind == CALL and op.id == TOKEN:
        sent = 0 if op.x3 or w.session is None else min(w.session[1], len(op.token))
        at = op.x1 - w.base
        end = at + answer.x1
        assert sent + answer.x1 + answer.x2 == len(op.token) and answer.x1 <= op.x2
        assert after.page[at:end] == op.token[sent:sent + answer.x1]
        assert after.page[:at] == w.page[:at] and after.page[end:] == w.page[end:]
        assert (after.session is None) == (answer.x2 == 0)


def what(op):
    """The name by which operations are counted."""
    if op.kind != CALL:
        return ("", "signer", "challenge", "oldest")[op.kind]
    if op.id not in LISTED:
        return "other ids"
    if op.id == SIGNING:
        return "signing " + {PUSH: "push", PULL: "pull", PUBLIC: "key"}.get(op.x1, "other opcode")
    return f"0x{op.id:X}"


def check():
    """Each operation does as it should, and each code of each occurs."""
    tally, cases = {}, [case for _, group in GROUPS for case in group]
    for case in cases:
        w = case.start
        for op, answer in zip(case.ops, case.answers):
            check_step(w, op, answer)
            tally.setdefault(what(op), Counter())[answer.code] += 1
            w = answer.after
    assert len(cases) <= 1000
    # A program may print no more.
    assert sum(len(expected(n, case)) for n, case in enumerate(cases)) <= 2**20
    assert set(tally["0xC40001B3"]) == {"OK", "UNK", "BAD_ADDR", "INVAL", "AGAIN"}
    for name in ("push", "pull", "key"):
        assert set(tally[f"signing {name}"]) == {"OK", "UNK", "INVAL", "AGAIN"}
    assert set(tally["signer"]) == {"OK", "INVAL", "AGAIN"} and set(tally["other ids"]) == {"UNK"}
    for name, codes in sorted(tally.items()):
        print(f"{name}:", ", ".join(f"{n} {code}" for code, n in sorted(codes.items())))
    for heading, group in GROUPS:
        print(f"{len(group)} cases, {sum(len(case.ops) for case in group)} operations: {heading}")
    print(f"{len(cases)} cases, {sum(len(case.ops) for case in cases)} operations")


def answers_text(case):
    """The answers of a case in turn, or how many of each where they are many."""
    codes = [answer.code for answer in case.answers]
    if len(codes) <= 6:
        return ", ".join(f"`{code}`" for code in codes)
    return ", ".join(f"{n} `{code}`" for code, n in sorted(Counter(codes).items()))


def case_of(n, case):
    """The file of a case, what the program prints for it, and its row of CASES.md."""
    return file_of(case), expected(n, case), case.text, answers_text(case)


if __name__ == "__main__":
    build_all()
    check()
    write_all("runtime_vectors", "runtime", "Runtime", "What | Answers", GROUPS, case_of)
