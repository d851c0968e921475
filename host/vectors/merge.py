"""Vectors for the program crate test_merge: pairs of books of fits, and what joining them answers.
In host/vectors: `python3 merge.py` writes crates/test_merge/stdin and stdout again, and says what
each call is for.

stdin is calls, one after another. A call is four words of 64 bits, lowest byte first: its kind and
three lengths.

    0  two books are joined: the lengths of the first, the second and the target. Behind them stand
       the bytes of the first and the second. Byte k of the target is before the call
       (7 * k + 165) mod 256
    1  whether a book of so many records is too long: the first length is their count, and the
       others say nothing
    2  as 0, but the first book is the second too, one slice lent twice: the second length is 0, and
       no bytes stand for it

stdout has for each call the line `call N`, and then lines that begin with a word:

    is       the length of the joined book
    refused  or the number by which the call is refused
    target   all that the target then holds, written or not, in hexadecimal
    long     of kind 1 alone: 1 where the book is longer than 4,294,967,295 bytes, else 0

Of a target of 5,000 bytes or more there stand the ends and a checksum, as book.py says.

What is expected comes from a dictionary by key of the bytes that Python's `struct` cuts out of the
books; no code of this project has a part in it. Builds that answer otherwise are tried here too.
They go through both books at once, as a program does: the right one has to answer each call as the
dictionary does, and of each wrong one it is printed how many calls tell it from the right one.
"""

import struct
from dataclasses import dataclass, replace
from itertools import product
from typing import Callable

from book import CRATES, FIT, HEADER, MOST, RECORD, SPECIAL
from book import changed, float_bits, packed, record, refused, shown_bytes, spread, total

GREATEST = 4294967295


# ---- what is expected


def records_of(book):
    """The bytes of each record."""
    return [book[p : p + RECORD.size] for p in range(HEADER.size, len(book), RECORD.size)]


def key(kept):
    """Panel and camera of a record's bytes."""
    return RECORD.unpack(kept)[:2]


def too_long(count):
    return total(count) > GREATEST


def headed(count, kept):
    """The header of a count, and these records."""
    return HEADER.pack(count, HEADER.size, RECORD.size, total(count)) + b"".join(kept)


def joined(first, second, target):
    """The answer, and the target."""
    number = refused(first) or refused(second)
    if number != 0:
        return f"refused {number}", target
    ours, theirs = ({key(kept): kept for kept in records_of(book)} for book in (first, second))
    both = ours | theirs
    if len(target) < total(len(both)):
        return "refused 3", target
    if too_long(len(both)) or any(ours[k] != theirs[k] for k in ours.keys() & theirs.keys()):
        return "refused 18", target
    text = headed(len(both), [both[k] for k in sorted(both)])
    return f"is {len(text)}", text + target[len(text) :]


# ---- calls


class Calls:
    def __init__(self):
        self.stdin = bytearray()
        self.stdout = bytearray()
        self.number = 0
        self.pairs = []
        self.counts = []

    def put(self, what, head, given, answer):
        self.stdin += struct.pack("<4Q", *head) + given
        self.stdout += f"call {self.number}\n{answer}".encode()
        print(f"call {self.number}: {what}: {answer.splitlines()[0]}")
        self.number += 1

    def pair(self, what, head, first, second):
        """Two books joined; the head says how they are handed in."""
        assert len(first) <= 65536 and len(second) <= 65536 and head[3] <= 65536
        target = bytes((7 * k + 165) % 256 for k in range(head[3]))
        answer, after = joined(first, second, target)
        given = first if head[0] == 2 else first + second
        self.put(what, head, given, f"{answer}\n{shown_bytes('target', after)}")
        self.pairs.append((first, second, target))

    def join(self, what, first, second, room):
        self.pair(what, (0, len(first), len(second), room), first, second)

    def twice(self, what, book, room):
        """A book joined with itself, one slice lent twice."""
        self.pair(f"twice, {what}", (2, len(book), 0, room), book, book)

    def both_ways(self, what, first, second):
        """Two accepted books in a target of the exact length, and exchanged in a longer one."""
        length = exact(first, second)
        self.join(what, first, second, length)
        self.join(f"{what}, the other way, 5 bytes more", second, first, length + 5)

    def long(self, what, count):
        self.put(f"count {what}", (1, count, 0, 0), b"", f"long {int(too_long(count))}\n")
        self.counts.append(count)


def exact(first, second):
    """The length of the joined book, also where a key has different bytes."""
    return total(len({key(kept) for kept in records_of(first) + records_of(second)}))


# ---- books


def of(*keys):
    """A book of a record for each key; one key has one record, whatever book it is in."""
    return packed([record(*k) for k in keys])


def byte_of(j, k):
    """The place of byte k of record j."""
    return HEADER.size + RECORD.size * j + k


def with_other(book, places, k, bits=1):
    """The book with another byte k in the records at these places."""
    other = bytearray(book)
    for j in places:
        other[byte_of(j, k)] ^= bits
    return bytes(other)


EMPTY = of()
ONE = of((7, 3))
LAST_BYTE = RECORD.size - 1


# ---- pairs that are accepted


def pairs(calls):
    three = [(1, 9), (2, 4), (2, 5)]
    for what, first, second in (
        ("no record and no record", [], []),
        ("no record and one", [], [(7, 3)]),
        ("no record and three", [], three),
        ("apart", [(1, 1), (1, 2)], [(2, 1), (3, 1)]),
        ("apart, one record and three", [(0, 3)], three),
        ("interleaved", [(1, 1), (3, 1), (5, 1)], [(2, 1), (4, 1), (6, 1)]),
        ("interleaved by two", [(1, 1), (1, 2), (3, 1), (3, 2)], [(2, 1), (2, 2), (4, 1)]),
        ("one between two of the other", [(1, 1), (9, 9)], [(3, 1), (4, 1), (5, 1)]),
        ("one a part of the other", [(1, 1), (2, 1), (3, 1), (4, 1)], [(2, 1), (3, 1)]),
        ("one a part, at both ends", [(1, 1), (2, 1), (3, 1)], [(1, 1), (3, 1)]),
        ("one shared", [(7, 3)], [(7, 3)]),
        ("all shared", three, three),
    ):
        calls.both_ways(what, of(*first), of(*second))


def orders(calls):
    """Keys that another order would exchange, or take for equal."""
    for what, first, second in (
        ("only cameras differ", [(7, 1), (7, 3)], [(7, 2), (7, 4)]),
        ("only panels differ", [(1, 7), (3, 7)], [(2, 7), (4, 7)]),
        ("cameras fall", [(1, 9), (3, 5)], [(2, 7), (4, 3)]),
        ("panel and camera exchanged", [(1, 2)], [(2, 1)]),
        ("panels 1 and 256", [(1, 0)], [(256, 0)]),
        ("panels 255 and 65,536", [(255, 0)], [(65536, 0)]),
        ("cameras 1 and 256", [(7, 1)], [(7, 256)]),
        ("panels 1 and 2^31", [(1, 0)], [(2**31, 0)]),
        ("panels 2^31 - 1 and 2^31", [(2**31 - 1, 1)], [(2**31, 0)]),
        ("cameras 1 and 2^31", [(7, 1)], [(7, 2**31)]),
        ("cameras 0 and 2^32 - 1", [(7, 0)], [(7, MOST)]),
        ("camera 2^32 - 1, next panel", [(7, MOST)], [(8, 0)]),
        ("panels 0 and 2^32 - 1", [(0, 7)], [(MOST, 7)]),
        ("least and greatest", [(0, 0), (MOST, 0)], [(0, MOST), (MOST, MOST)]),
        ("least and greatest, shared", [(0, 0), (MOST, MOST)], [(0, 0), (7, 3), (MOST, MOST)]),
    ):
        calls.both_ways(what, of(*first), of(*second))


def many(calls):
    """200 records in each, 100 of them in both: the joined count takes two bytes."""
    kept = []
    for j in range(300):
        kept.append(record(1000 + j // 20, j % 20, j // 3 % 3, [p + 256 * j for p in FIT]))
    first = packed([kept[j] for j in range(300) if j % 3 != 0])
    second = packed([kept[j] for j in range(300) if j % 3 != 1])
    calls.join("200 records and 200, half shared", first, second, total(300) + 100)
    calls.twice("200 records", first, total(200))


# ---- bytes of a key that stands in both


def special(first, last, grade=0):
    """A record whose first and last patterns are given."""
    return packed([((7, 3, grade), [first] + FIT[1:12] + [last])])


def equal_patterns(calls):
    """Patterns that are not equal to themselves as floats, and all others, in records of both."""
    nans = [p for name, p in SPECIAL.items() if "NaN" in name]
    calls.both_ways("a record of NaNs", *2 * [packed([((7, 3, 2), (nans + nans)[:13])])])
    every = list(SPECIAL.values())
    turned = [((7, j, j % 3), (every[j:] + every[:j])[:13]) for j in (0, 4, 9)]
    calls.both_ways("all patterns", packed(turned), packed(turned[1:]))
    calls.both_ways("bytes all different", *2 * [packed([((7, 3, 1), spread())])])


def other_patterns(calls):
    zero, negative = SPECIAL["0"], SPECIAL["-0"]
    quiet, other = SPECIAL["the quiet NaN"], SPECIAL["a quiet NaN"]
    signalling, minus = SPECIAL["the first signalling NaN"], SPECIAL["a negative quiet NaN"]
    for what, x, y in (
        ("-0 for 0", zero, negative),
        ("another NaN", quiet, other),
        ("a signalling NaN", quiet, signalling),
        ("a negative NaN", quiet, minus),
        ("-1 for 1", *struct.unpack("<2Q", struct.pack("<2d", 1.0, -1.0))),
    ):
        calls.both_ways(f"{what}, first pattern", special(x, 7), special(y, 7))
        calls.both_ways(f"{what}, last pattern", special(7, x), special(7, y))
    for x, y in ((0, 1), (1, 2), (0, 2)):
        calls.both_ways(f"grades {x} and {y}", special(7, 7, x), special(7, 7, y))


# Bytes of a record that can be other ones in an accepted book: the lowest of the grade, and those
# of the patterns.
FREE = [8, *range(16, RECORD.size)]


def other_bytes(calls):
    """Each of these bytes by one bit."""
    book = packed([((7, 3, 0), spread())])
    for k in FREE:
        other = with_other(book, [0], k, 1 << k % 8)
        assert refused(other) == 0
        calls.join(f"byte {k} by bit {k % 8}", book, other, len(book))


def around(place, below, above):
    """A book of three whose record at this place has the key (50, 5)."""
    return of(*[(k, 1) for k in below[:place]], (50, 5), *[(k, 1) for k in above[place:]])


def places(calls):
    """A shared key at each place of the first and of the second, with equal bytes and others."""
    for i, j in product(range(3), range(3)):
        first = around(i, (10, 12), (90, 92))
        second = around(j, (11, 13), (89, 93))
        calls.join(f"shared at {i} and {j}", first, second, total(5))
        other = with_other(second, [j], LAST_BYTE)
        calls.join(f"shared at {i} and {j}, last byte other", first, other, total(5))


def among_equal(calls):
    """Four keys in both, some of them with other bytes."""
    book = of((1, 1), (1, 2), (2, 1), (3, 1))
    for others in ([0], [1], [2], [3], [0, 3], [1, 2], [0, 1, 2, 3]):
        second = with_other(book, others, 16)
        calls.both_ways(f"four shared, first byte of patterns other in {others}", book, second)


# ---- refusals


def three_at(keys, start):
    """A book of three whose two records from the start or to the end have these keys."""
    return of(*keys, (9, 9)) if start else of((0, 0), *keys)


DAMAGED = {
    "no bytes": b"",
    "15 bytes": ONE[:15],
    "the header alone": ONE[:16],
    "count 0": changed(ONE, 0, 0),
    "count 2": changed(ONE, 0, 2),
    "records from 17": changed(ONE, 4, 17),
    "records of 121": changed(ONE, 8, 121),
    "total 137": changed(ONE, 12, 137),
    "total modulo 2^32": changed(EMPTY, 0, 2**29),
    "a byte too many": ONE + b"\0",
    "a byte too few": ONE[:-1],
    "grade 3": packed([record(7, 3, 3)]),
    "grade 3 in the first of two": packed([record(1, 9, 3), record(2, 4)]),
    "grade 3 in the last of two": packed([record(1, 9), record(2, 4, 3)]),
    "grade 2^31": packed([record(7, 3, 2**31)]),
    "zero field 1": changed(ONE, 28, 1),
    "zero field 2^31 in the last of two": changed(of((1, 9), (2, 4)), byte_of(1, 12), 2**31),
    "equal keys, grade 3": packed([record(2, 4), record(2, 4, 3)]),
    "falling keys, zero field 1": changed(of((2, 4), (1, 5)), byte_of(1, 12), 1),
}
UNSORTED = {
    "falling panel, start": three_at([(2, 4), (1, 5)], True),
    "falling panel, end": three_at([(2, 4), (1, 5)], False),
    "falling camera, start": three_at([(2, 4), (2, 3)], True),
    "falling camera, end": three_at([(2, 4), (2, 3)], False),
    "equal keys, start": three_at([(2, 4), (2, 4)], True),
    "equal keys, end": three_at([(2, 4), (2, 4)], False),
}
# An accepted book, of keys that the refused ones have too, with other bytes.
OTHER = with_other(of((2, 4), (7, 3)), [0, 1], LAST_BYTE)
# Room for all records of a refused book and of that one.
ROOM = total(5)


def refused_books(calls):
    assert {refused(book) for book in DAMAGED.values()} == {14}
    assert {refused(book) for book in UNSORTED.values()} == {15}
    for what, book in (DAMAGED | UNSORTED).items():
        refused_book(calls, what, book)


def refused_book(calls, what, book):
    """As the first, the second and both, with room and without."""
    for room in (ROOM, 0):
        calls.join(f"{what} in the first, room {room}", book, OTHER, room)
        calls.join(f"{what} in the second, room {room}", OTHER, book, room)
        calls.join(f"{what} in both, room {room}", book, book, room)


def both_refused(calls):
    unsorted = UNSORTED["equal keys, end"]
    for what in ("no bytes", "total 137", "grade 3", "zero field 1"):
        for room in (ROOM, 0):
            calls.join(f"15, then {what}, room {room}", unsorted, DAMAGED[what], room)
            calls.join(f"{what}, then 15, room {room}", DAMAGED[what], unsorted, room)


def rooms(calls):
    for room in (0, 15, 16, 17):
        calls.join(f"no record and no record, room {room}", EMPTY, EMPTY, room)
    first, second = of((1, 1), (2, 1)), of((2, 1), (3, 1))
    other = with_other(second, [0], LAST_BYTE)
    length = exact(first, second)
    for room in (0, 15, 16, length - 120, length - 1, length, length + 1, length + 120):
        calls.join(f"three keys, room {room}", first, second, room)
        calls.join(f"three keys, one has other bytes, room {room}", first, other, room)


def lent_twice(calls):
    nans = packed([((7, 3, 2), 13 * [SPECIAL["the last NaN"]])])
    for what, book in (("no record", EMPTY), ("one record", ONE), ("a record of NaNs", nans)):
        for room in (len(book) - 1, len(book), len(book) + 5):
            calls.twice(f"{what}, room {room}", book, room)
    calls.twice("three records", of((1, 9), (2, 4), (2, 5)), total(3))
    for what in ("no bytes", "grade 3", "zero field 1"):
        calls.twice(what, DAMAGED[what], ROOM)
    calls.twice("equal keys", UNSORTED["equal keys, end"], ROOM)


def lengths(calls):
    for what, count in (
        ("0", 0),
        ("1", 1),
        ("35,791,393", 35791393),
        ("35,791,394", 35791394),
        ("71,582,786", 71582786),
        ("2^32", 2**32),
        ("2^63", 2**63),
        ("2^64 - 1", 2**64 - 1),
    ):
        calls.long(what, count)


# ---- builds


@dataclass(frozen=True)
class Build:
    """A build, by what its answers are made of."""

    # Of both books and the target: the number that is given before the books are joined, or 0.
    tests: Callable = lambda first, second, target: refused(first) or refused(second)
    # What keys are compared by.
    order: Callable = lambda k: k
    # Of the places of a shared key, i of n records and j of m: whether its bytes are compared.
    seen: Callable = lambda i, n, j, m: True
    same: Callable = lambda a, b: a == b
    # Of the number of differing keys: whether 18 applies.
    clash: Callable = lambda differing: differing > 0
    # What is written of a shared key.
    shared: Callable = lambda a: [a]
    # What is written once a book has ended, of what is left of the first and the second.
    rest: Callable = lambda first, second: first + second
    # Of the keys, the shared and the differing ones: how many records the target has to hold.
    needed: Callable = lambda keys, shared, differing: keys
    # Of the target's length and the needed one.
    short: Callable = lambda room, length: room < length
    # The header's count, of the records written, of the first book and of the second.
    count: Callable = lambda written, first, second: written
    # The number that goes before the other.
    before: int = 3
    # The target after 3 and 18, and where the call is accepted.
    left: Callable = lambda number, text, target: target
    held: Callable = lambda text, target: text + target[len(text) :]

    def walk(self, first, second):
        """What is written, how many keys there are, how many are shared, and how many differ."""
        i = j = shared = differing = 0
        written = []
        while i < len(first) and j < len(second):
            a, b = first[i], second[j]
            x, y = self.order(key(a)), self.order(key(b))
            if x == y:
                compared = self.seen(i, len(first), j, len(second))
                differing += compared and not self.same(a, b)
                shared += 1
            written += self.shared(a) if x == y else [a if x < y else b]
            i, j = i + (x <= y), j + (y <= x)
        written += self.rest(first[i:], second[j:])
        return written, len(first) + len(second) - shared, shared, differing

    def answer(self, first, second, target):
        """The answer, and the target."""
        number = self.tests(first, second, target)
        if number != 0:
            return f"refused {number}", target
        ours, theirs = records_of(first), records_of(second)
        written, keys, shared, differing = self.walk(ours, theirs)
        text = headed(self.count(len(written), len(ours), len(theirs)), written)
        length = total(self.needed(keys, shared, differing))
        applies = {3: self.short(len(target), length), 18: self.clash(differing)}
        numbers = [n for n in (3, 18) if applies[n]]
        if numbers:
            number = self.before if self.before in numbers else numbers[0]
            return f"refused {number}", self.left(number, text, target)[: len(target)]
        return f"is {len(text)}", self.held(text, target)[: len(target)]


RIGHT = Build()


# ---- builds that give another number than the first that applies


def testing(tests):
    return replace(RIGHT, tests=tests)


def lowest(*numbers):
    """The lowest of those that are not 0, or 0."""
    return min((n for n in numbers if n != 0), default=0)


def no_header(target):
    """3 where not even a header has room, else 0."""
    return 3 if len(target) < HEADER.size else 0


def keys_first(book):
    """As if keys were tried before grades and zero fields."""
    clear = bytes(0 if 8 <= (p - 16) % 120 < 16 <= p else x for p, x in enumerate(book))
    return 15 if refused(clear) == 15 else refused(book)


def clash_first(first, second, _):
    """18 of books that are refused, where whole records of one key differ, before their number."""
    number = refused(first) or refused(second)
    ours, theirs = ([r for r in records_of(b) if len(r) == RECORD.size] for b in (first, second))
    clash = any(key(a) == key(b) and a != b for a in ours for b in theirs)
    return 18 if number != 0 and clash else number


WRONG_NUMBERS = {
    "18 before 3": replace(RIGHT, before=18),
    "the lowest number that applies": testing(
        lambda a, b, target: lowest(refused(a), refused(b), no_header(target))
    ),
    "the second tried before the first": testing(lambda a, b, _: refused(b) or refused(a)),
    "15 before 14": testing(lambda a, b, _: keys_first(a) or keys_first(b)),
    "14 of the second before 15 of the first": testing(
        lambda a, b, _: lowest(refused(a), refused(b))
    ),
    "15 of the second before 14 of the first": testing(lambda a, b, _: max(refused(a), refused(b))),
    "3 before 14 and 15": testing(
        lambda a, b, target: no_header(target) or refused(a) or refused(b)
    ),
    "3 before 14 and 15 of the second": testing(
        lambda a, b, target: refused(a) or no_header(target) or refused(b)
    ),
    "18 before 14 and 15": testing(clash_first),
    "a shared key counted twice for 3": replace(
        RIGHT, needed=lambda keys, shared, differing: keys + shared
    ),
    "a differing key counted twice for 3": replace(
        RIGHT, needed=lambda keys, shared, differing: keys + differing
    ),
    "a longer target refused": replace(RIGHT, short=lambda room, length: room != length),
    "an exact target refused": replace(RIGHT, short=lambda room, length: room <= length),
    "two differing keys accepted": replace(RIGHT, clash=lambda differing: differing == 1),
}


# ---- builds that take different bytes for equal, or equal ones for different


def comparing(same):
    return replace(RIGHT, same=same)


def seeing(seen):
    return replace(RIGHT, seen=seen)


def skipping(k):
    """The build that does not compare byte k."""
    return comparing(lambda a, b: a[:k] + a[k + 1 :] == b[:k] + b[k + 1 :])


def as_floats(kept):
    return struct.unpack("<4I13d", kept)


def one_zero(kept):
    """The numbers of a record with 0 for -0."""
    return [0 if p == SPECIAL["-0"] else p for p in RECORD.unpack(kept)]


def one_nan(kept):
    """The numbers of a record with one pattern for all NaNs."""
    return [float_bits(p) for p in RECORD.unpack(kept)]


WRONG_COMPARISONS = {
    "the bytes not compared": comparing(lambda a, b: True),
    "the last byte not compared": comparing(lambda a, b: a[:-1] == b[:-1]),
    "the first byte behind the key not compared": comparing(lambda a, b: a[9:] == b[9:]),
    "the first pattern alone compared": comparing(lambda a, b: a[:24] == b[:24]),
    "floats compared as values": comparing(
        lambda a, b: all(x == y for x, y in zip(as_floats(a), as_floats(b)))
    ),
    "-0 equal to 0": comparing(lambda a, b: one_zero(a) == one_zero(b)),
    "all NaNs equal": comparing(lambda a, b: one_nan(a) == one_nan(b)),
    "differing key at the end of both not seen": seeing(lambda i, n, j, m: i + j < n + m - 2),
    "differing key at the end of the first not seen": seeing(lambda i, n, j, m: i < n - 1),
    "differing key at the end of the second not seen": seeing(lambda i, n, j, m: j < m - 1),
    "differing key at the start of both not seen": seeing(lambda i, n, j, m: i + j > 0),
    "differing key seen at equal places alone": seeing(lambda i, n, j, m: i == j),
}


# ---- builds that write other bytes


def ordered(order):
    return replace(RIGHT, order=order)


def leaving(left):
    return replace(RIGHT, left=left)


def signed(k):
    return struct.unpack("<2i", struct.pack("<2I", *k))


WRONG_BYTES = {
    "camera before panel": ordered(lambda k: (k[1], k[0])),
    "keys compared by their bytes": ordered(lambda k: struct.pack("<2I", *k)),
    "keys compared signed": ordered(signed),
    "panels compared signed": ordered(lambda k: (signed(k)[0], k[1])),
    "cameras compared signed": ordered(lambda k: (k[0], signed(k)[1])),
    "cameras not compared": ordered(lambda k: k[0]),
    "panels not compared": ordered(lambda k: k[1]),
    "a shared key written twice": replace(RIGHT, shared=lambda a: [a, a]),
    "a shared key left out": replace(RIGHT, shared=lambda a: []),
    "the rest of the first lost": replace(RIGHT, rest=lambda first, second: second),
    "the rest of the second lost": replace(RIGHT, rest=lambda first, second: first),
    "the header's count of the first alone": replace(RIGHT, count=lambda n, first, second: first),
    "the header's count the sum of both": replace(
        RIGHT, count=lambda n, first, second: first + second
    ),
    "the target's rest zeroed": replace(
        RIGHT, held=lambda text, target: text.ljust(len(target), b"\0")
    ),
    "the target written although 18": leaving(
        lambda number, text, target: RIGHT.held(text, target) if number == 18 else target
    ),
    "the target written although 3": leaving(
        lambda number, text, target: text if number == 3 else target
    ),
}

WRONG_LENGTHS = {
    "35,791,393 records too long": lambda count: count >= 35791393,
    "35,791,394 records not too long": lambda count: count > 35791394,
    "the length modulo 2^64": lambda count: total(count) % 2**64 > GREATEST,
    "the count modulo 2^32": lambda count: too_long(count % 2**32),
    "never too long": lambda count: False,
}


def tell(what, told):
    """Stops where no call tells a wrong build from the right one."""
    print(f"{told:3} tell it: {what}")
    assert told >= 1, what


def told_by(build, calls):
    """How many of the pairs tell this build from the right one."""
    return sum(build.answer(*pair) != joined(*pair) for pair in calls.pairs)


def tell_all(calls):
    assert told_by(RIGHT, calls) == 0
    for what, build in (WRONG_NUMBERS | WRONG_COMPARISONS | WRONG_BYTES).items():
        tell(what, told_by(build, calls))
    fewest = min(told_by(skipping(k), calls) for k in FREE)
    tell(f"one byte not compared, each of {len(FREE)}", fewest)
    for what, wrong in WRONG_LENGTHS.items():
        tell(what, sum(wrong(count) != too_long(count) for count in calls.counts))


def main():
    calls = Calls()
    for part in (pairs, orders, many, equal_patterns, other_patterns, other_bytes, places):
        part(calls)
    for part in (among_equal, refused_books, both_refused, rooms, lent_twice, lengths):
        part(calls)
    tell_all(calls)
    (CRATES / "test_merge" / "stdin").write_bytes(calls.stdin)
    (CRATES / "test_merge" / "stdout").write_bytes(calls.stdout)


if __name__ == "__main__":
    main()
