#!/usr/bin/env python3
"""Run vectors for state blobs, made from the rules alone (docs/RULES.md: SB1 to SB10; request E13).

Run from the repository's root:  python3 tests/state_blobs/make.py
It rewrites crates/state_blobs_vectors/data/c000, c001, .. (calls of 256 bytes each: seven 8-byte
words, little-endian: the call, four numbers, how much of the buffer is lent, the message's length;
the message at 64, the 96 bytes of the buffer expected after the call at 160),
crates/state_blobs_vectors/stdout (what the program has to print for them in order) and
tests/state_blobs/CASES.md (what each case is for). The same run always gives the same bytes.
"""

from itertools import combinations
from pathlib import Path
import sys
from random import Random

# The folder that the command line names, else the repository.
ROOT = Path(sys.argv[1]) if sys.argv[1:] else Path(__file__).resolve().parents[2]
HERE = ROOT / "tests" / "state_blobs"
CRATE = ROOT / "crates" / "state_blobs_vectors"

MOST = 2**32 - 1
ROOM = 96                               # the buffer, and the longest message of a case
SET, READ_REQUEST, READ_RESPONSE, COLLECT, WRITE_REQUEST, WRITE_RESPONSE = range(6)
# The refusals; 0 is "accepted". SB4 of docs/RULES.md gives their order and their numbers.
REFUSALS = ("", "cut short", "too long", "wrong code", "above largest", "failed", "no room",
            "total differs", "past total", "past buffer", "no data")


# ---- The rules, from the text of 02. All arithmetic is on plain numbers. ----

def number(message, at):
    """The number at an offset; bytes that are not there count as 0."""
    return int.from_bytes(message[at:at + 4].ljust(4, b"\0"), "big")


def numbers(*them):
    return b"".join(n.to_bytes(4, "big") for n in them)


def request_fails(message, code):
    fails = {"cut short": len(message) < 16, "too long": len(message) > 16,
             "wrong code": number(message, 0) != code}
    return [name for name in fails if fails[name]]


def response_fails(message, largest):
    length = number(message, 12)
    fails = {"cut short": len(message) < 16 or len(message) - 16 < length,
             "too long": len(message) >= 16 and len(message) - 16 > length,
             "above largest": length > largest, "failed": number(message, 0) != 0}
    return [name for name in fails if fails[name]]


def collect_fails(message, largest, collector, room):
    accepted, first, held = collector
    total, new = number(message, 8), max(len(message) - 16, 0)
    fails = {"total differs": accepted != 0 and total != first, "past total": held + new > total,
             "past buffer": held + new > room, "no data": new == 0 and held < total}
    return response_fails(message, largest) + [name for name in fails if fails[name]]


def write_fails(length, largest, room):
    fails = {"above largest": length > largest, "no room": 16 + length > room}
    return [name for name in fails if fails[name]]


class Run:
    """What a case's calls are made on, and what they leave."""

    def __init__(self):
        self.collector, self.buffer = [0, 0, 0], bytearray(ROOM)
        self.parts, self.length = [0, 0, 0, 0], 0

    def make(self, kind, a, b, c, d, room, message):
        """Every check that fails, in the order of SB4. The first of them gives the answer."""
        if kind == SET:
            self.collector, self.buffer = [a, b, c], bytearray(message.ljust(ROOM, b"\xEE"))
            return []
        if kind == READ_REQUEST:
            fails = request_fails(message, a)
            if not fails:
                self.parts = [number(message, at) for at in (0, 4, 8, 12)]
        elif kind == READ_RESPONSE:
            fails = response_fails(message, a)
            if not fails:
                self.parts = [number(message, 4), number(message, 8), 16, len(message) - 16]
        elif kind == COLLECT:
            fails = collect_fails(message, a, self.collector, room)
            if not fails:
                held, new = self.collector[2], message[16:]
                self.buffer[held:held + len(new)] = new
                self.collector = [1, number(message, 8), held + len(new)]
        else:
            data = message if kind == WRITE_RESPONSE else b""
            whole = (numbers(a, b, c, d) if kind == WRITE_REQUEST
                     else numbers(b, c, d, len(data)) + data)
            fails = write_fails(len(data), a if kind == WRITE_RESPONSE else MOST, room)
            if not fails:
                self.buffer[:len(whole)], self.length = whole, len(whole)
        return fails

    def text(self, fails):
        """The line that the program prints for a call."""
        answer = REFUSALS.index(fails[0]) if fails else 0
        accepted, total, held = self.collector
        words = " ".join(f"{word:08x}" for word in self.collector)
        complete = " complete" if accepted and held == total else ""
        parts = " ".join(f"{word:08x}" for word in self.parts)
        return (f"answer {answer:08x} collector {words} held {held:08x}{complete} parts {parts} "
                f"length {self.length} buffer as expected\n")


# ---- The case list ----

GROUPS = []                             # (heading, [(text, calls), ..])
DATA = bytes(1 + (i * 67 + i // 127 * 31) % 127 for i in range(ROOM))
CODE = 0x01020304


def add(text, *calls, answers=None):
    """Note a case, with what its calls have to answer, unless that is not said."""
    if answers is not None:
        run, found = Run(), []
        for call in calls:
            fails = run.make(*call)
            found += [fails[0] if fails else "ok"] if call[0] != SET else []
        assert found == answers, (text, found, answers)
    GROUPS[-1][1].append((text, calls))


def forged(accepted, total, held, buffer=b""):
    return SET, accepted, total, held, 0, 0, buffer


def asking(message, code=CODE):
    return READ_REQUEST, code, 0, 0, 0, 0, message


def reading(message, largest=MOST):
    return READ_RESPONSE, largest, 0, 0, 0, 0, message


def collecting(message, largest=MOST, room=ROOM):
    return COLLECT, largest, 0, 0, 0, room, message


def request(code=CODE, flags=5, kind=2, offset=0x01000002):
    return numbers(code, flags, kind, offset)


def response(data=b"", total=None, result=0, length=None, flags=0x01000203):
    total = len(data) if total is None else total
    return numbers(result, flags, total, len(data) if length is None else length) + data


def lengths():
    """Every length field against every message length"""
    add("requests of 0 to 34 bytes", *(asking((request() + DATA)[:n]) for n in range(35)))
    for n in (0, 4, 12, 13, 15, 16, 17, 18, 20, 31, 32, 33, 96):
        near = [f % 2**32 for f in (n - 17, n - 16, n - 15)]
        swapped = int.from_bytes((max(n - 16, 0)).to_bytes(4, "little"), "big")
        fields = sorted({*near, swapped, 0, 1, 2, 4, 16, 80, 255, 256, 2**16, 2**24, 2**31,
                         2**32 - 17, 2**32 - 16, 2**32 - 15, MOST, (n - 16) % 2**32 ^ 2**24})
        add(f"responses of {n} bytes, {len(fields)} length fields",
            *(reading((response(length=f) + DATA)[:n]) for f in fields))
    add("a failed answer of 4 bytes", reading(numbers(9)), collecting(numbers(9)),
        answers=["cut short"] * 2)


def codes():
    """The code wrong in one byte"""
    wrong = [CODE ^ bit << 8 * k for k in range(4) for bit in (1, 0x80)]
    add("one bit of the code", *(asking(request(code=c)) for c in wrong),
        answers=["wrong code"] * 8)
    add("codes 0 and 2^32 - 1", asking(request(code=0), 0), asking(request(code=MOST), MOST),
        asking(request(code=0), MOST), asking(request(code=MOST), 0),
        answers=["ok", "ok", "wrong code", "wrong code"])
    add("the code with its bytes reversed", asking(request(code=0x04030201)), asking(request()),
        answers=["wrong code", "ok"])
    add("parts of any value", *(asking(numbers(CODE, a, b, c)) for a, b, c in
                                ((0, 0, 0), (MOST, 0, 1), (1, MOST, 2**31), (2**24, 256, MOST))))


def largest():
    """Largest 0, 1 and 2^32 - 1"""
    for most in (0, 1, 2, MOST):
        add(f"read, collect and write, largest {most:,}", *(
            call for n in (0, 1, 2, 3, 80) for call in
            (reading(response(DATA[:n]), most), forged(0, 0, 0),
             collecting(response(DATA[:n]), most),
             (WRITE_RESPONSE, most, 0, 7, n, ROOM, DATA[:n]))))


def parts():
    """Parts of an accepted response"""
    add("state_flags and totlength of any value", *(
        reading(response(DATA[:3], total=t, flags=f))
        for t, f in ((0, 0), (MOST, 1), (1, MOST), (2**31, 2**24), (0x01020304, 0x05060708))))


def collections():
    """Whole collections"""
    blob = DATA[:40]
    for sizes in ((40,), (1, 39), (39, 1), (13, 13, 13, 1), (20, 20)):
        at, calls = 0, []
        for n in sizes:
            calls.append(collecting(response(blob[at:at + n], total=40)))
            at += n
        add(f"40 bytes in pieces of {', '.join(map(str, sizes))}", forged(0, 0, 0, b"\xAA" * 96),
            *calls, answers=["ok"] * len(sizes))
    add("a blob of the whole buffer", forged(0, 0, 0),
        collecting(response(DATA[:48], total=96)), collecting(response(DATA[:48], total=96)),
        answers=["ok", "ok"])
    add("totlength 0: one response completes, an empty one more is accepted, a byte is not",
        collecting(response()), collecting(response()), collecting(response(b"x", total=0)),
        collecting(response(b"x")), collecting(response(), room=0),
        answers=["ok", "ok", "past total", "total differs", "ok"])
    add("complete, then more", collecting(response(blob)), collecting(response(total=40)),
        collecting(response(b"x", total=40)), collecting(response(total=41)),
        collecting(response(b"x", total=41)), collecting(response(total=40), room=39),
        collecting(response(total=40), room=40),
        answers=["ok", "ok", "past total", "total differs", "total differs", "past buffer", "ok"])
    add("no data while bytes are missing, at the start and later", collecting(response(total=1)),
        collecting(response(b"x", total=2)), collecting(response(total=2)),
        collecting(response(b"y", total=2)), collecting(response(total=2)),
        answers=["no data", "ok", "no data", "ok", "ok"])
    add("a shorter buffer in mid-collection", collecting(response(blob[:20], total=40)),
        collecting(response(blob[20:], total=40), room=39),
        collecting(response(blob[20:30], total=40), room=29),
        collecting(response(blob[20:21], total=40), room=20),
        collecting(response(blob[20:21], total=40), room=0),
        collecting(response(total=40), room=19), collecting(response(total=40), room=20),
        collecting(response(blob[20:30], total=40), room=30),
        collecting(response(blob[30:], total=40), room=40),
        answers=["ok"] + ["past buffer"] * 5 + ["no data", "ok", "ok"])
    bad = (response(DATA[:5], total=40, length=4), response(DATA[:5], total=40, result=1),
           response(DATA[:41], total=40), request(), b"")
    add("refusals in between change nothing", collecting(response(blob[:20], total=40)),
        *map(collecting, bad), collecting(response(blob[20:], total=40)), *map(collecting, bad))


def forgeries():
    """Forged collectors"""
    for image in ((0, 9, 5), (0, MOST, MOST), (2, 40, 20), (MOST, 40, 40), (1, 5, 9), (1, 0, 1),
                  (1, MOST, MOST), (1, MOST, MOST - 1), (1, 40, MOST), (1, 0, 0), (2**24, 0, 0),
                  (0, 40, 20), (1, 96, 95), (1, 97, 96), (1, MOST, 90)):
        _, total, held = image
        add(f"collector {image}", *(call for data, told in (
            (DATA[:1], total), (b"", total), (DATA[:20], 40), (DATA[:6], MOST), (b"", 0), (b"", 40),
            (DATA[:2], held % 2**32 + 2 if held < MOST - 2 else 1)) for call in
            (forged(*image, DATA), collecting(response(data, total=told)))))


def together():
    """Pairs of refusals: the first in order answers"""
    for bad, text in ((request()[:15], "cut short"), (request() + b"\0", "too long")):
        add(f"request: {text} and wrong code", asking(bad, CODE + 1), answers=[text])
    # A response of 5 bytes, total 40, on a collector that holds 20 of 40: what breaks each rule.
    ways = {"cut short": {"length": 6}, "too long": {"length": 4}, "above largest": {"largest": 3},
            "failed": {"result": 2**24}, "total differs": {"total": 41},
            "past total": {"held": 36}, "past buffer": {"room": 24}, "no data": {"data": b""}}

    def call(data=DATA[:5], length=None, result=0, total=40, held=20, room=ROOM, largest=MOST):
        return (forged(1, 40, held, DATA),
                collecting(response(data, total=total, result=result, length=length), largest, room))

    for one, two in combinations(ways, 2):
        broken = {**ways[one], **ways[two]}
        if {one, two} == {"cut short", "too long"} or {one, two} == {"past total", "no data"}:
            continue                    # no message breaks both
        if two == "no data":            # a length that is wrong, or too large, without data
            broken |= {"cut short": {"length": 1}, "past buffer": {"room": 19}}.get(one, {})
            if one in ("too long", "above largest"):
                continue                # no message breaks both
        if one == "total differs" and two == "past total":
            broken |= {"total": 39}
        if one == "past total" and two == "past buffer":
            broken |= {"room": 40}
        made = call(**broken)
        run = Run()
        run.make(*made[0])
        fails = run.make(*made[1])
        assert fails[0] == one and two in fails, (one, two, fails)
        add(f"collect: {one} and {two}", *made, answers=[one])
    add("read: above largest and failed", reading(response(DATA[:5], result=1), 4),
        answers=["above largest"])
    add("write: above largest and no room", (WRITE_RESPONSE, 4, 0, 0, 5, 20, DATA[:5]),
        (WRITE_RESPONSE, 4, 0, 0, 5, 0, DATA[:5]), answers=["above largest"] * 2)


def writing():
    """Writing"""
    add("a request into 0 to 20 bytes", *((WRITE_REQUEST, CODE, 1, 2, 2**24, n, b"")
                                          for n in range(21)))
    add("requests of any parts", *((WRITE_REQUEST, a, b, c, d, ROOM, b"") for a, b, c, d in
                                   ((0, 0, 0, 0), (MOST, 0, 1, 2), (1, MOST, 3, 4),
                                    (2**24, 2**16, 2**8, MOST), (CODE, 5, MOST, 2**31))))
    for n in (0, 1, 5, 79, 80, 81, 96):
        add(f"a response with {n} bytes of data, rooms near its length", *(
            call for room in (0, 15, 16, 15 + n, 16 + n, 17 + n, ROOM) if room <= ROOM for call in
            (forged(0, 0, 0, b"\xAA" * 96),
             (WRITE_RESPONSE, MOST, 0, 3, 2 * n, room, DATA[:n]))))
    add("any tpm_result, and a totlength below the length", *(
        (WRITE_RESPONSE, 9, result, flags, total, ROOM, DATA[:5]) for result, flags, total in
        ((0, 0, 0), (1, 2, 3), (MOST, MOST, MOST), (2**24, 256, 4))))
    for data in (b"", DATA[:1], DATA[:80]):
        add(f"a response with {len(data)} bytes is read back",
            (WRITE_RESPONSE, 80, 0, 8, 80, ROOM, data), reading(response(data, total=80, flags=8)))


def random_calls():
    """Random calls"""
    random = Random(13)
    for _ in range(12):
        calls, held, total = [], 0, random.randint(1, 60)
        for _ in range(random.randint(5, 12)):
            n = random.choice((0, 1, random.randint(0, 20), total - held))
            data = bytes(random.randrange(256) for _ in range(max(0, min(n, 80))))
            calls.append(collecting(
                response(data, total=random.choice((total, total, total, total + 1)),
                         result=random.choice((0, 0, 0, 7)),
                         length=random.choice((None, None, None, len(data) + 1))),
                random.choice((MOST, MOST, 10)), random.choice((ROOM, ROOM, total, held))))
            run = Run()
            for call in calls:
                run.make(*call)
            held = run.collector[2]
        add(f"a collection of {total} bytes with damaged responses", *calls)


def write_files():
    data = CRATE / "data"
    data.mkdir(parents=True, exist_ok=True)
    HERE.mkdir(parents=True, exist_ok=True)
    for old in data.glob("c*"):
        old.unlink()
    stdout, n, met = "", 0, {}
    lines = ["# State blob cases", "", "Written by make.py; do not edit."]
    for heading, cases in GROUPS:
        lines += ["", f"## {heading}", "", "| Number | What | Answers |", "|---|---|---|"]
        for text, calls in cases:
            run, told, out = Run(), [], bytearray()
            stdout += f"case {n:03}\n"
            assert 0 < len(calls) <= 256
            for kind, a, b, c, d, room, message in calls:
                fails = run.make(kind, a, b, c, d, room, message)
                sent = b"" if kind == SET else message
                words = (kind, a, b, c, d, room, len(sent), 0)
                out += b"".join(word.to_bytes(8, "little") for word in words)
                out += sent.ljust(ROOM, b"\0") + run.buffer
                assert len(sent) <= ROOM and len(run.buffer) == ROOM
                if kind != SET:
                    stdout += run.text(fails)
                    told.append(fails[0] if fails else "ok")
                    met[told[-1]] = met.get(told[-1], 0) + 1
            (data / f"c{n:03}").write_bytes(out)
            short = [(name, told.count(name)) for name in dict.fromkeys(told)]
            counted = ", ".join(name if k == 1 else f"{name} ({k})" for name, k in short)
            lines.append(f"| {n:03} | {text} | {counted} |")
            n += 1
    assert set(met) == set(REFUSALS[1:]) | {"ok"}, met
    counted = ", ".join(f"{name} {k}" for name, k in sorted(met.items()))
    lines += ["", f"{n} cases, {sum(met.values())} calls: {counted}."]
    (CRATE / "stdout").write_text(stdout)
    (HERE / "CASES.md").write_text("\n".join(lines) + "\n")
    print(lines[-1])


if __name__ == "__main__":
    for group in (lengths, codes, largest, parts, collections, forgeries, together, writing,
                  random_calls):
        GROUPS.append((group.__doc__, []))
        group()
    write_files()
