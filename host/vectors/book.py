"""Vectors for the program crate test_book: calls on books of fits, and what each answers.
In host/vectors: `python3 book.py` writes crates/test_book/stdin and stdout again, and says what
each call is for.

stdin is calls, one after another. A call is five words of 64 bits, lowest byte first: its kind, a
number, and the lengths of book, heads and numbers. Behind them stand the bytes of the book before
the call and, but for kind 0, each head and then each number as a word of 64 bits.

    0  the book is read into the two lists; the number says nothing. Entry k of a list is before
       the call 0xa5a5a5a5a5a50000 + k, of the heads the lower half of it
    1  the first records of the two lists are written as a book, as many as the number says
    2  one record of the two lists, the number says which from 0 on, is taken as a fit, and a
       record is made of the same floats

stdout has for each call the line `call N`, and then lines that begin with a word:

    is       the count of the book read, or the length of the book written
    refused  or the number by which the call is refused
    heads, numbers, book   all that an area then holds, written or not, in hexadecimal
    bytes    what `refused` says of the bytes that are read: 0, 14 or 15
    fit      the floats of a fit by their bits, every NaN as 0x7ff8000000000000

A book that was read is written again from the two lists, into an area of as many bytes: `is` and
`book` follow a second time. Of kind 2 there stand the record of the lists, its fit, and the record
made. Of a book or of numbers with 5,000 entries or more there stand the first 16, the last 16, and
a checksum: it begins as 0 and becomes (SUM * 65599 + entry + 1) mod 4294967291 with each entry. The
modulus is a prime, so that a change of one byte changes the sum.

Books are packed and unpacked by Python's `struct`; no code of this project has a part in it.
"""

import struct
from pathlib import Path

CRATES = Path(__file__).resolve().parents[2] / "crates"

HEADER = struct.Struct("<4I")
RECORD = struct.Struct("<4I13Q")
assert (HEADER.size, RECORD.size) == (16, 120)
NAN = 0x7FF8000000000000
PREFILLED = 0xA5A5A5A5A5A50000


# ---- what is expected


def total(count):
    return HEADER.size + RECORD.size * count


def rise(keys):
    return keys == sorted(set(keys))


def refused(book):
    """The number by which the bytes are refused, or 0."""
    if len(book) < HEADER.size:
        return 14
    count, offset, length, whole = HEADER.unpack_from(book)
    if (offset, length, whole) != (HEADER.size, RECORD.size, total(count)) or len(book) != whole:
        return 14
    records = list(RECORD.iter_unpack(book[HEADER.size :]))
    if any(grade > 2 or zero != 0 for _, _, grade, zero, *_ in records):
        return 14
    return 0 if rise([(panel, camera) for panel, camera, *_ in records]) else 15


def read(book, heads, numbers):
    """The answer, and the two lists."""
    number = refused(book)
    if number != 0:
        return f"refused {number}", heads, numbers
    records = list(RECORD.iter_unpack(book[HEADER.size :]))
    if len(heads) < 3 * len(records) or len(numbers) < 13 * len(records):
        return "refused 3", heads, numbers
    first_heads = [x for record in records for x in record[:3]]
    first_numbers = [x for record in records for x in record[4:]]
    heads = first_heads + heads[len(first_heads) :]
    numbers = first_numbers + numbers[len(first_numbers) :]
    return f"is {len(records)}", heads, numbers


def write(heads, numbers, count, book):
    """The answer, and the book."""
    if len(heads) < 3 * count or len(numbers) < 13 * count or len(book) < total(count):
        return "refused 3", book
    records = [(heads[3 * j : 3 * j + 3], numbers[13 * j : 13 * j + 13]) for j in range(count)]
    if total(count) > 4294967295 or any(head[2] > 2 for head, _ in records):
        return "refused 14", book
    if not rise([(head[0], head[1]) for head, _ in records]):
        return "refused 15", book
    text = packed(records)
    return f"is {len(text)}", text + book[len(text) :]


def packed(records):
    """The book of these records, whatever they hold."""
    text = HEADER.pack(len(records), HEADER.size, RECORD.size, total(len(records)))
    return text + b"".join(RECORD.pack(*head, 0, *numbers) for head, numbers in records)


def float_bits(pattern):
    """The bits of the float that has this pattern: a NaN has lost its own."""
    (x,) = struct.unpack("<d", struct.pack("<Q", pattern))
    return NAN if x != x else struct.unpack("<Q", struct.pack("<d", x))[0]


# ---- calls


def words(numbers):
    return struct.pack(f"<{len(numbers)}Q", *numbers)


def entries(label, numbers, digits):
    return label + "".join(f" {x:0{digits}x}" for x in numbers) + "\n"


def checksum(numbers):
    s = 0
    for x in numbers:
        s = (s * 65599 + x + 1) % 4294967291
    return s


def shown_numbers(numbers):
    if len(numbers) < 5000:
        return entries("numbers", numbers, 16)
    ends = entries("numbers", numbers[:16] + numbers[-16:], 16)
    return f"{ends[:-1]} {checksum(numbers)}\n"


def shown_bytes(label, area):
    if len(area) < 5000:
        return f"{label} {area.hex()}\n"
    return f"{label} {area[:16].hex()}{area[-16:].hex()} {checksum(area)}\n"


def shown_lists(heads, numbers):
    return entries("heads", heads, 8) + shown_numbers(numbers)


class Calls:
    def __init__(self):
        self.stdin = bytearray()
        self.stdout = bytearray()
        self.number = 0

    def put(self, what, head, given, answer):
        assert head[2] <= 65536 and head[3] <= 1640 and head[4] <= 7100
        self.stdin += struct.pack("<5Q", *head) + given
        self.stdout += f"call {self.number}\n{answer}".encode()
        print(f"call {self.number}: {what}: {answer.splitlines()[0]}")
        self.number += 1

    def read(self, what, book, heads=3, numbers=13):
        """A book read into lists of these lengths."""
        low = [PREFILLED % 2**32 + k for k in range(heads)]
        full = [PREFILLED + k for k in range(numbers)]
        answer, *after = read(book, low, full)
        text = f"{answer}\n{shown_lists(*after)}bytes {refused(book)}\n"
        if answer.startswith("is "):
            text += f"is {len(book)}\n{shown_bytes('book', book)}"
        self.put(f"read, {what}", (0, 0, len(book), heads, numbers), book, text)

    def write(self, what, heads, numbers, count, room):
        """A book written into an area of `room` bytes."""
        before = bytes((0xC0 + k) % 256 for k in range(room))
        answer, book = write(heads, numbers, count, before)
        head = (1, count, room, len(heads), len(numbers))
        given = before + words(heads + numbers)
        self.put(f"write, {what}", head, given, f"{answer}\n{shown_bytes('book', book)}")

    def keep(self, what, heads, numbers, j):
        """A fit out of record j, and a record of the same floats."""
        head, patterns = heads[3 * j : 3 * j + 3], numbers[13 * j : 13 * j + 13]
        floats = [float_bits(p) for p in patterns]
        text = shown_lists(head, patterns) + entries("fit", floats, 16)
        text += shown_lists(head[:2] + [min(head[2], 2)], floats)
        self.put(f"keep, {what}", (2, j, 0, len(heads), len(numbers)), words(heads + numbers), text)

    def records(self, what, records):
        """The book of these records read, and written from lists that hold them, with no room left
        anywhere."""
        n = len(records)
        self.read(what, packed(records), 3 * n, 13 * n)
        self.write(what, *lists(records), n, total(n))


# ---- records


def patterns(floats):
    return list(struct.unpack(f"<{len(floats)}Q", struct.pack(f"<{len(floats)}d", *floats)))


# The numbers of a fit, all different: nine of the matrix, k, cx, cy and norm.
FIT = patterns(
    [0.5719, -0.00997, 4.4732, 0.01439, 0.5354, 3.6979, -3.56e-05, 6.07e-05, 1.0]
    + [0.0193, 64.0, 56.0, 85.041]
)


def record(panel, camera, grade=0, numbers=FIT):
    """A record whose numbers tell it from others."""
    return (panel, camera, grade), [numbers[0] ^ (panel << 16) ^ camera] + numbers[1:]


def lists(records):
    """The two lists of these records."""
    heads = [x for head, _ in records for x in head]
    return heads, [x for _, numbers in records for x in numbers]


def changed(book, place, value):
    """The book with another u32 at a place."""
    return book[:place] + struct.pack("<I", value) + book[place + 4 :]


ONE = [record(7, 3, 1)]
THREE = [record(1, 9, 0), record(2, 4, 1), record(2, 5, 2)]
EQUAL = [record(1, 9), record(2, 4), record(2, 4)]


# ---- counts, lengths, header


def shapes(calls):
    empty = packed([])
    assert empty.hex() == "00000000100000007800000010000000"
    calls.records("no record", [])
    calls.read("no record, lists that stay", empty)
    calls.write("no record of three, 16 bytes and a rest", *lists(THREE), 0, 21)
    calls.records("one record", ONE)
    calls.records("three records", THREE)
    calls.read("one record, longer lists", packed(ONE), 7, 27)
    calls.read("three records, lists one longer", packed(THREE), 10, 40)
    calls.write("three records, one byte more", *lists(THREE), 3, total(3) + 1)
    calls.write("two of three records, room for three", *lists(THREE), 2, total(3))
    behind = THREE[:2] + [record(9, 9, 3)]
    calls.write("two records, behind them one of grade 3", *lists(behind), 2, total(2))
    calls.write("two records, behind them an equal key", *lists(EQUAL), 2, total(2))


def many(calls):
    """546 records have a total of 65,536; the count takes two bytes and the total three."""
    records = []
    for j in range(546):
        records.append(record(1000 + j // 20, j % 20, j % 3, [p + 256 * j for p in FIT]))
    calls.read("546 records", packed(records), 1640, 7100)


def lengths(calls):
    book = packed(ONE)
    for n in (0, 1, 15):
        calls.read(f"{n} bytes of no record", packed([])[:n])
    for n in (15, 16):
        calls.read(f"{n} bytes of one record", book[:n])
    for n in (17, 135):
        calls.read(f"{n} bytes of one record", book[:n])
        calls.read(f"{n} bytes of one record, which the total says", changed(book[:n], 12, n))
    calls.read("136 bytes of one record", book)
    for more in (1, 4, 120):
        longer = book + book[16 : 16 + more]
        calls.read(f"{136 + more} bytes", longer)
        calls.read(f"{136 + more} bytes, which the total says", changed(longer, 12, 136 + more))
    longer = packed([]) + b"\0"
    calls.read("no record in 17 bytes", longer)
    calls.read("no record in 17 bytes, which the total says", changed(longer, 12, 17))
    three = packed(THREE)
    calls.read("three records, the last byte missing", three[:-1], 9, 39)
    calls.read("three records, the header of two", packed(THREE[:2])[:16] + three[16:], 9, 39)
    calls.read("two records, the header of three", three[:16] + packed(THREE[:2])[16:], 9, 39)


def headers(calls):
    for records in ([], ONE):
        book = packed(records)
        for i, word in enumerate(HEADER.unpack_from(book)):
            for value in (word - 1, word + 1, word + 256, word + 2**31):
                calls.read(f"header word {i} {value}", changed(book, 4 * i, value % 2**32))
    calls.read("the highest byte first", struct.pack(">4I", 0, 16, 120, 16))


def totals(calls):
    """Counts whose total is past 2^32 - 1, and what is left of it modulo 2^32."""
    for count, records, rest in (
        (35791394, [], 0),
        (2**29, [], 0),
        (7 * 2**29, [], 0),
        (2**29 + 1, ONE, 0),
        (pow(15, -1, 2**29), [], 8),
        (2**32 - 1, [], 0),
    ):
        left = total(count) % 2**32
        book = changed(changed(packed(records) + bytes(rest), 0, count), 12, left)
        calls.read(f"count {count}, total {left}, {len(book)} bytes", book)


# ---- keys, grades, zero fields

MOST = 2**32 - 1


def keys(calls):
    for what, found in (
        ("equal", [(2, 4), (2, 4)]),
        ("falling camera", [(2, 4), (2, 3)]),
        ("falling panel, rising camera", [(2, 4), (1, 5)]),
        ("rising panel, falling camera", [(2, 4), (3, 1)]),
        ("rising panel, equal camera", [(2, 4), (3, 4)]),
        ("equal panel, rising camera", [(2, 4), (2, 5)]),
        ("falling panel, equal camera", [(2, 4), (1, 4)]),
        ("the last equal", [(1, 9), (2, 4), (2, 4)]),
        ("the first equal", [(2, 4), (2, 4), (2, 5)]),
        ("first and last equal", [(2, 4), (2, 5), (2, 4)]),
        ("the last falls, above the first", [(1, 1), (3, 1), (2, 1)]),
        ("panel past a byte", [(255, 0), (256, 0), (65536, 0)]),
        ("camera past a byte", [(0, 255), (0, 256), (0, 65536)]),
        ("panel past 2^31", [(2**31 - 1, 1), (2**31, 0)]),
        ("camera past 2^31", [(0, 2**31 - 1), (0, 2**31)]),
        ("the greatest panel, then the least", [(MOST, 0), (0, 1)]),
        ("the least and the greatest", [(0, 0), (0, MOST), (MOST, 0), (MOST, MOST)]),
    ):
        calls.records(f"keys, {what}", [record(*key) for key in found])


def grades(calls):
    for grade in (0, 1, 2, 3, 4, 255, 256, 2**16, 2**24, 2**31, MOST):
        calls.records(f"grade {grade}", [record(7, 3, grade)])
    for j in range(3):
        records = THREE[:j] + [record(*THREE[j][0][:2], 3)] + THREE[j + 1 :]
        calls.records(f"grade 3 in record {j} of three", records)


def zeros(calls):
    for byte in range(4):
        calls.read(f"zero field, 1 in byte {byte}", changed(packed(ONE), 28, 256**byte))
    calls.read("zero field, all ones", changed(packed(ONE), 28, MOST))
    for j in range(3):
        book = changed(packed(THREE), 28 + 120 * j, 1)
        calls.read(f"zero field 1 in record {j} of three", book, 9, 39)


# ---- which number is given


def first_given(calls):
    """A reader's 14, 15 and 3; a writer's 3, 14 and 15."""
    bad = [record(2, 4), record(2, 4), record(1, 1, 3)]
    zero = changed(packed(EQUAL), 28 + 240, 1)
    header = changed(packed(EQUAL), 4, 17)
    for what, book in (
        ("keys fall, grade 3 in the last", packed(bad)),
        ("keys equal, zero field 1 in the last", zero),
        ("keys equal, header wrong", header),
        ("keys equal", packed(EQUAL)),
        ("three records", packed(THREE)),
    ):
        for heads, numbers in ((9, 39), (8, 39), (9, 38), (0, 0)):
            calls.read(f"{what}, {heads} heads and {numbers} numbers", book, heads, numbers)
    for what, records in (
        ("keys fall, grade 3 in the last", bad),
        ("keys equal", EQUAL),
        ("three records", THREE),
    ):
        heads, numbers = lists(records)
        calls.write(f"{what}, room for them", heads, numbers, 3, total(3))
        calls.write(f"{what}, book one byte short", heads, numbers, 3, total(3) - 1)
        calls.write(f"{what}, heads one short", heads[:-1], numbers, 3, total(3))
        calls.write(f"{what}, numbers one short", heads, numbers[:-1], 3, total(3))
        calls.write(f"{what}, nothing lent", [], [], 3, 0)


def short(calls):
    for n in (0, 15):
        calls.write(f"no record, {n} bytes", [], [], 0, n)
    for room in (0, 16, 120, 135):
        calls.write(f"one record, {room} bytes", *lists(ONE), 1, room)
    calls.write("four records of three", *lists(THREE), 4, total(4))


def huge(calls):
    """Counts of which 3, 13 or 120 times as many pass 64 bits; and one whose total passes 32 bits,
    where 3 goes before 14."""
    for what, count in (
        ("35,791,394", 35791394),
        ("2^61", 2**61),
        ("2^61 + 1", 2**61 + 1),
        ("2^62", 2**62),
        ("2^63", 2**63),
        ("2^64 / 3 + 1", 2**64 // 3 + 1),
        ("2^64 / 13 + 1", 2**64 // 13 + 1),
        ("2^64 / 120 + 1", 2**64 // 120 + 1),
        ("2^64 - 1", 2**64 - 1),
    ):
        calls.write(f"count {what}", *lists(ONE), count, total(1))
        calls.write(f"count {what}, nothing lent", [], [], count, 0)


# ---- bit patterns

SPECIAL = {
    "the quiet NaN": NAN,
    "a quiet NaN": 0x7FFDEADBEEFCAFE1,
    "the first signalling NaN": 0x7FF0000000000001,
    "the last signalling NaN": 0x7FF7FFFFFFFFFFFF,
    "a negative quiet NaN": 0xFFF8000000000000,
    "a negative signalling NaN": 0xFFF4000000000002,
    "the last NaN": 0xFFFFFFFFFFFFFFFF,
    "0": 0x0000000000000000,
    "-0": 0x8000000000000000,
    "infinity": 0x7FF0000000000000,
    "-infinity": 0xFFF0000000000000,
    "the least subnormal": 0x0000000000000001,
    "the greatest subnormal": 0x000FFFFFFFFFFFFF,
    "a negative subnormal": 0x8000000000000001,
    "the least normal": 0x0010000000000000,
    "the greatest": 0x7FEFFFFFFFFFFFFF,
    "the least by value": 0xFFEFFFFFFFFFFFFF,
}


def bit_patterns(calls):
    """Each pattern in each of the thirteen places."""
    special = list(SPECIAL.values())
    records = []
    for j, name in enumerate(SPECIAL):
        turned = (special[j:] + special[:j])[:13]
        records.append(((40, j, j % 3), turned))
        calls.keep(f"{name} first", *lists(records[-1:]), 0)
    calls.records("patterns", records)
    calls.records("bytes all different", [((0x04030201, 0x08070605, 2), spread())])


def spread():
    """Thirteen numbers of which no two bytes are alike."""
    return list(struct.unpack("<13Q", bytes(range(16, 120))))


def kept(calls):
    for grade in (0, 1, 2, 7):
        calls.keep(f"grade {grade}", *lists([record(2**32 - 1, 2**31, grade)]), 0)
    for j in range(3):
        calls.keep(f"record {j} of three", *lists(THREE), j)
    calls.keep("bytes all different", *lists([((0x04030201, 0x08070605, 1), spread())]), 0)


def main():
    calls = Calls()
    for part in (shapes, many, lengths, headers, totals, keys, grades, zeros):
        part(calls)
    for part in (first_given, short, huge, bit_patterns, kept):
        part(calls)
    (CRATES / "test_book" / "stdin").write_bytes(calls.stdin)
    (CRATES / "test_book" / "stdout").write_bytes(calls.stdout)


if __name__ == "__main__":
    main()
