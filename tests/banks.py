"""The granule record of several banks and the realm words of a table, as docs/RULES.md (BN1 to
BN8, RW1 to RW9; requests E2, E6) has them. A record is given by its first words: how many banks,
then base and size of each; the words after those given are 0. All arithmetic is on plain numbers.
"""

WORDS = 33
MOST = 16
START = 0x880000000
# Two banks with a hole of one granule between them.
TWO = [(START, 5 * 4096), (START + 6 * 4096, 3 * 4096)]
# 16 banks of 1, 2, 3, .. granules; after each second one a hole of one granule.
MANY = [(START + 4096 * (i * (i + 1) // 2 + (i + 1) // 2), 4096 * (i + 1)) for i in range(16)]


def one(base, granules):
    """The record of one bank."""
    return record_of([(base, 4096 * granules)])


def record_of(banks):
    """The record of these banks."""
    return (len(banks), *(number for bank in banks for number in bank))


def addresses_of(banks):
    """The addresses of all granules, in the table's order."""
    return [address for base, size in banks for address in range(base, base + size, 4096)]


def shown(banks):
    """The banks as the array lookup gives them: 16 bytes a bank."""
    return words(*(number for bank in banks for number in bank))


def words(*numbers):
    return b"".join(number.to_bytes(8, "little") for number in numbers)


def stored(record, lent=None):
    """A record as a case's file has it, the number of words given, then these; and after it, if
    they are lent, the realm words in the same way."""
    assert len(record) <= WORDS
    behind = b"" if lent is None else words(len(lent), *lent)
    return words(len(record), *record) + behind


def whole(record):
    """All words of a record."""
    return (*record, *[0] * (WORDS - len(record)))


def banks_of(record):
    """The banks that a record counts; None if it counts more than there is room for."""
    full = whole(record)
    return [full[1 + 2 * i:3 + 2 * i] for i in range(full[0])] if full[0] <= MOST else None


def bank_ok(base, size):
    """The reader's rule."""
    return base % 4096 == 0 and size % 4096 == 0 and size != 0 and base + size <= 2**52


def faults(banks):
    """Request E2: what the set-up has against banks, but for the table's length."""
    pairs = list(zip(banks, banks[1:]))
    return [name for name, fails in (
        ("no bank", not banks), ("more than 16", len(banks) > MOST),
        ("rule", not all(bank_ok(*bank) for bank in banks)),
        ("order", any(b[0] < a[0] for a, b in pairs)),
        ("overlap", any(a[0] <= b[0] < a[0] + a[1] for a, b in pairs))) if fails]


def granules(record):
    """The addresses of a record's granules, a range for each bank; no range if the set-up would
    refuse the record."""
    banks = banks_of(record)
    if banks is None or faults(banks):
        return []
    return [range(base, base + size, 4096) for base, size in banks]


def granules_of(record):
    """How many granules a record has."""
    return sum(map(len, granules(record)))


def needed(n):
    """Request E6: the number of realm words for n granules: ceil(n / 64)."""
    return n // 64 + (n % 64 > 0)


def fit(record, lent):
    """Request E6: whether realm words are as many as the record's granules need."""
    return len(lent) == needed(granules_of(record))


def realm_words(table):
    """Request E6: the words of a table. Granule i is bit i mod 64 of word i / 64, set if its byte is
    1; the spare bits are 0."""
    lent = [0] * needed(len(table))
    for i, byte in enumerate(table):
        lent[i // 64] += (byte == 1) << i % 64
    return tuple(lent)


def usual_words(record, table):
    """As many words as the record needs: those of the table, as far as they go."""
    n = needed(granules_of(record))
    return (*realm_words(table), *[0] * n)[:n]


def put_bit(lent, i, bit):
    """The words with granule i's bit written."""
    word = lent[i // 64] & ~(1 << i % 64) | bit << i % 64
    return (*lent[:i // 64], word, *lent[i // 64 + 1:])


def words_line(lent):
    """Realm words as the programs print them."""
    return "words" + "".join(f" {word:016x}" for word in lent)


def granule_at(record, n, address):
    """The granule that an address falls on, in a table of n granules; None if it falls on none."""
    before = 0
    for bank in granules(record) if sum(map(len, granules(record))) == n else []:
        if address in bank:
            return before + bank.index(address)
        before += len(bank)
    return None


def meant(record, n, address):
    """The granule of a table of n that an address lies in by the banks as they stand, good or not:
    so each check can fail beside others."""
    before = 0
    for base, size in banks_of(record) or []:
        if base <= address < base + size:
            index = before + (address - base) // 4096
            return index if index < n else None
        before += size // 4096
    return None


def granule_fails(record, n, address):
    """Request E2: the checks of a granule's address, and whether each fails; BAD_ADDR if one does."""
    banks = banks_of(record)
    return {"banks": banks is None or faults(banks) != [],
            "table": sum(size // 4096 for _, size in banks or []) != n,
            "address": address % 4096 != 0, "off": meant(record, n, address) is None}


def banks_in(data):
    """The whole banks that bytes have."""
    return [tuple(int.from_bytes(data[at + i:at + i + 8], "little") for i in (0, 8))
            for at in range(0, len(data) - 15, 16)]


def set_up(data, n, record):
    """The code of the set-up from these bytes for a table of n granules, and the record after."""
    banks = banks_in(data)
    if len(data) % 16 or faults(banks) or sum(size // 4096 for _, size in banks) != n:
        return "INVAL", whole(record)
    return "OK", whole(record_of(banks))
