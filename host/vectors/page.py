"""Vectors for the program crate test_page: calls of `candidate_page`, and what each answers.
In host/vectors: `python3 page.py` writes crates/test_page/stdin and stdout again, and says what
each call is for.

stdin is calls, one after another. A call is five words of 64 bits, lowest byte first: the count,
the length of the list, the length of the page, and two numbers A and B. Behind them stand A + B
floats by their bit patterns. The list has the first A over and over, but the other B at its end,
so that 10,000 candidates take a few words. Before each call every byte of the page is a tilde,
which no line has.

stdout has for each call the line `call N: NUMBER`, with the refusal's number or 0; the bytes of the
page, all of them, written or not; and a line feed. Of a page of 5,000 bytes or more there stand the
first 37 bytes, the last 37, and a checksum of all of them: it begins as 0 and becomes
(SUM * 65599 + byte + 1) mod 4294967291 with each byte. The modulus is a prime, so that a change of
one byte, wherever it is, changes the sum.

The numbers on a page are those of Python's `decimal`. Decimal(x) is the float's exact amount, at
any precision, and `quantize` rounds that amount itself, once, halves upward. The precision only
bounds the digits of the result: 312 for the largest float with three decimals. Each result is held
to the same rounding over fractions besides.
"""

import math
import struct
from decimal import ROUND_HALF_UP, Decimal, getcontext
from fractions import Fraction
from pathlib import Path

CRATES = Path(__file__).resolve().parents[2] / "crates"

# The numbers of a candidate in the page's order: the place in its record, the columns on the page
# and the decimals.
FIELDS = {"x": (0, 8, 2), "y": (1, 8, 2), "size": (3, 7, 2), "score": (2, 5, 3)}


# ---- what is expected


def field(name, x):
    """The text of a number in its columns; None where it cannot be printed."""
    _, columns, decimals = FIELDS[name]
    if math.isnan(x) or math.isinf(x) or x < 0:
        return None
    amount = Decimal(abs(x)).quantize(Decimal(1).scaleb(-decimals), ROUND_HALF_UP)
    units = math.floor(Fraction(abs(x)) * 10**decimals + Fraction(1, 2))
    assert amount == Decimal(units).scaleb(-decimals)
    text = f"{amount:f}"
    return text.rjust(columns) if len(text) <= columns else None


def line(rank, record):
    """The line of a record; None where a number of it cannot be printed."""
    fields = [field(name, record[place]) for name, (place, _, _) in FIELDS.items()]
    if None in fields:
        return None
    return " ".join([str(rank).rjust(4)] + fields) + "\n"


def answer(floats, count, room):
    """The refusal's number, or 0, and the page."""
    page = b"~" * room
    if len(floats) < 4 * count:
        return 3, page
    if room < 37 * count:
        return 12, page
    lines = [line(i + 1, floats[4 * i : 4 * i + 4]) for i in range(count)]
    if count > 9999 or None in lines:
        return 13, page
    text = "".join(lines).encode()
    return 0, text + page[len(text) :]


def checksum(page):
    s = 0
    for byte in page:
        s = (s * 65599 + byte + 1) % 4294967291
    return s


# ---- calls


class Calls:
    def __init__(self):
        self.stdin = bytearray()
        self.stdout = bytearray()
        self.number = 0

    def ask(self, what, count, listed, room, again, last=()):
        """A call on a list of `listed` floats: `again` over and over, and `last` at its end."""
        assert 1 <= len(again) <= 2048 and len(last) <= min(listed, 2048)
        assert listed <= 40004 and room <= 370037
        self.stdin += struct.pack("<5Q", count, listed, room, len(again), len(last))
        self.stdin += struct.pack(f"<{len(again) + len(last)}d", *again, *last)
        floats = [again[k % len(again)] for k in range(listed - len(last))] + list(last)
        number, page = answer(floats, count, room)
        shown = page
        if room >= 5000:
            shown = page[:37] + page[-37:] + str(checksum(page)).encode()
        self.stdout += f"call {self.number}: {number}\n".encode() + shown + b"\n"
        print(f"call {self.number}: {number}, {what}")
        self.number += 1

    def records(self, what, records):
        """A call on these candidates, with a page that they fill."""
        floats = [x for record in records for x in record]
        self.ask(what, len(records), len(floats), 37 * len(records), floats)

    def numbers(self, what, name, values):
        """Values of one number: pages of those that can be printed, a call for each other."""
        good = [x for x in values if field(name, x) is not None]
        for start in range(0, len(good), 100):
            part = [example(name, x) for x in good[start : start + 100]]
            self.records(f"{name}: {what}", part)
        for x in values:
            if field(name, x) is None:
                self.records(f"{name}: {what}, {x!r}", [example(name, x)])


def record(numbers):
    r = [0.0] * 4
    for name, (place, _, _) in FIELDS.items():
        r[place] = numbers[name]
    return r


def example(name="x", x=12.345):
    return record({"x": 12.345, "y": 100.0, "size": 24.5, "score": 0.941, name: x})


def top(name):
    """The power of ten that is too wide."""
    _, columns, decimals = FIELDS[name]
    return 10 ** (columns - decimals - 1)


def around(x, n=1):
    """x, the n floats before it and the n after it."""
    found = [x]
    for _ in range(n):
        found.insert(0, math.nextafter(found[0], -math.inf))
        found.append(math.nextafter(found[-1], math.inf))
    return found


# ---- single numbers


def named(calls):
    """The numbers by which order 1 was read, each with the text that it has to have."""
    assert line(1, example()) == "   1    12.35   100.00   24.50 0.941\n"
    calls.records("the line of the example", [example()])
    for name, x, text in (
        ("x", 0.125, "0.13"),
        ("y", 0.375, "0.38"),
        ("score", 0.8125, "0.813"),
        ("x", 1.115, "1.11"),
        ("size", 2.675, "2.67"),
        ("y", 1.005, "1.00"),
        ("x", 99999.995, "99999.99"),
        ("y", 99999.995, "99999.99"),
        ("size", 9999.995, None),
        ("score", 9.9995, "9.999"),
        ("x", -0.0, "0.00"),
        ("score", -0.0, "0.000"),
        ("size", -5e-324, None),
        ("score", -0.001, None),
    ):
        assert field(name, x) == (text and text.rjust(FIELDS[name][1])), (name, x)
        calls.records(f"{name}: {x!r}", [example(name, x)])


def special(calls):
    """Zeros, the smallest and the largest floats, negative ones, and what is no number."""
    tiny, normal, largest = 5e-324, 2.0**-1022, math.nextafter(math.inf, 0.0)
    values = [0.0, -0.0, tiny, math.nextafter(normal, 0.0), normal, 1e-300]
    values += [-tiny, -normal, -0.001, -0.004, -0.5, -99999.0]
    values += [largest, -largest, math.inf, -math.inf, math.nan]
    for name in FIELDS:
        calls.numbers("special", name, values)
    calls.records("-0 in all four places", [[-0.0] * 4])


def wide(calls):
    """Around the powers of ten, up to the one that is too wide, and around one unit and half a unit
    below them; and far beyond."""
    for name, (_, columns, decimals) in FIELDS.items():
        values = []
        for power in range(columns - decimals):
            values += around(10.0**power, 2)
            halves = 2 * 10 ** (power + decimals)
            values += around(float(Fraction(halves - 1, 2 * 10**decimals)), 2)
            values += around(float(Fraction(halves - 2, 2 * 10**decimals)))
        values += [2.0 * top(name), 10.0 * top(name), 2.0**31, 2.0**53, 2.0**63, 2.0**64, 1e20]
        calls.numbers("wide", name, values)


def small(calls):
    """Around few halves of a unit, and powers of two down to where nothing is left of a unit."""
    for name, (_, _, decimals) in FIELDS.items():
        values = []
        for halves in (1, 3, 5, 199):
            values += around(float(Fraction(halves, 2 * 10**decimals)), 2)
        for power in range(-12, -6):
            values += around(2.0**power)
        values += [2.0**power for power in range(-70, 17) if 2.0**power < top(name)]
        calls.numbers("small", name, values)


# ---- candidates


class Random:
    """The generator of host/scene, splitmix64."""

    def __init__(self, seed):
        self.state = seed

    def bits(self):
        mask = 2**64 - 1
        self.state = (self.state + 0x9E3779B97F4A7C15) & mask
        z = self.state
        z = ((z ^ (z >> 30)) * 0xBF58476D1CE4E5B9) & mask
        z = ((z ^ (z >> 27)) * 0x94D049BB133111EB) & mask
        return z ^ (z >> 31)

    def below(self, n):
        return self.bits() % n


def half(rng, name):
    """Half a unit above a whole one: an odd number of eighths, or of sixteenths for the score."""
    n = 2 ** (FIELDS[name][2] + 1)
    return (2 * rng.below(top(name) * n // 2) + 1) / n


def beside_half(rng, name):
    return around(half(rng, name))[2 * rng.below(2)]


def binary_parts(rng, name):
    n = (16, 32)[rng.below(2)]
    return rng.below((top(name) - 1) * n) / n


def decimal_half(rng, name):
    """The float nearest to a half: few halves are floats, and it lies on either side."""
    n = 10 ** FIELDS[name][2]
    return float(Fraction(2 * rng.below((top(name) - 1) * n) + 1, 2 * n))


def pattern(rng, low, high):
    """A bit pattern from that of low to that of high."""
    first, last = struct.unpack("<2Q", struct.pack("<2d", low, high))
    return struct.unpack("<d", struct.pack("<Q", first + rng.below(last - first + 1)))[0]


def any_pattern(rng, name):
    """Most of them are near 0."""
    return pattern(rng, 0.0, top(name) - 1.0)


def larger_pattern(rng, name):
    """As many of each exponent, from where a digit is printed."""
    return pattern(rng, 2.0**-12, top(name) - 1.0)


def drawn(calls):
    kinds = (half, beside_half, binary_parts, decimal_half, any_pattern, larger_pattern)
    for seed, kind in enumerate(kinds):
        rng = Random(seed)
        records = [record({name: kind(rng, name) for name in FIELDS}) for _ in range(100)]
        assert None not in [line(1, r) for r in records]
        calls.records(f"drawn: {kind.__name__}", records)


def captures(calls):
    """The candidates of the stored captures: test_geometry's stdout is the original's answers, and
    has them by their bits."""
    rows = (CRATES / "test_geometry" / "stdout").read_text().splitlines()
    capture = ""
    for at, row in enumerate(rows):
        if row.startswith("capture "):
            capture = row
        if row.startswith("candidates "):
            n = int(row.split()[1])
            words = [words.split()[:4] for words in rows[at + 1 : at + 1 + n]]
            floats = [[struct.unpack(">d", bytes.fromhex(w))[0] for w in r] for r in words]
            calls.ask(f"{capture}: {n} candidates", n, 4 * n, 37 * n, sum(floats, []) or [0.0])


# ---- counts and lengths

# Seven candidates, over and over.
SEVEN = [
    *(1.0, 2.0, 0.5, 3.0),
    *(99999.99, 0.0, 9.999, 9999.99),
    *(0.125, 0.375, 0.8125, 1.115),
    *(2.675, 1.005, 0.0005, 0.005),
    *(12345.678, 4095.5, 1.0, 25.5),
    *(-0.0, 5e-324, 0.0, 2.0**-1022),
    *(51.511845, 26.8007243, 0.8823529411764706, 1234.5),
]


def lengths(calls):
    for n in (1, 2, 10):
        for more in (-1, 0, 1, 36, 37, 100):
            calls.ask(f"{n} candidates, the page {more:+}", n, 4 * n, 37 * n + more, SEVEN)
    calls.ask("no page", 1, 4, 0, SEVEN)
    for short in (1, 2, 3, 4):
        calls.ask(f"the list {short} short", 2, 8 - short, 74, SEVEN)
    calls.ask("no list", 1, 0, 37, SEVEN)
    for more in (1, 3, 4, 8):
        calls.ask(f"{more} past the count, no numbers", 2, 8 + more, 80, SEVEN, [math.nan] * more)
    calls.ask("more listed than counted", 3, 28, 200, SEVEN)
    calls.ask("nothing counted", 0, 0, 40, SEVEN)
    calls.ask("nothing counted of what is no number", 0, 5, 40, [math.nan])
    calls.ask("nothing at all", 0, 0, 0, SEVEN)


def lowest(calls):
    """3 goes before 12, and 12 before 13."""
    calls.ask("list short, page short, a number bad", 2, 7, 73, [math.nan])
    calls.ask("list short, page short", 2, 7, 73, SEVEN)
    calls.ask("list short, a number bad", 2, 7, 74, [math.nan])
    calls.ask("page short, a number bad", 2, 8, 73, [math.nan])
    calls.ask("a number bad", 2, 8, 74, [math.nan])
    calls.ask("10000, list short, page short", 10000, 39999, 369999, [math.nan])
    calls.ask("10000, page short, numbers bad", 10000, 40000, 369999, [math.nan])
    calls.ask("10000, numbers bad", 10000, 40000, 370000, [math.nan])


def huge(calls):
    """Counts of which 4 or 37 times as many pass 64 bits, and what is left of that may be small."""
    for what, n in (
        ("2^62 - 1", 2**62 - 1),
        ("2^62", 2**62),
        ("2^62 + 1", 2**62 + 1),
        ("2^63", 2**63),
        ("2^63 + 1", 2**63 + 1),
        ("2^64 / 37 + 1", 2**64 // 37 + 1),
        ("2^64 - 1", 2**64 - 1),
    ):
        calls.ask(f"count {what}", n, 8, 80, SEVEN)
        calls.ask(f"count {what}, nothing lent", n, 0, 0, SEVEN)


def bad(calls):
    """One number of many cannot be printed: every byte of the page stays."""
    for name, x in (("x", -1.0), ("y", 1e5), ("size", math.nan), ("score", math.inf)):
        calls.ask(f"{name} bad in the first of 2", 2, 8, 74, example(name, x), example())
        calls.ask(f"{name} bad in the last of 3", 3, 12, 120, SEVEN, example(name, x))
        calls.ask(f"{name} bad in the last of 9999", 9999, 39996, 370000, SEVEN, example(name, x))
    last = example("y", -0.01) + example()
    calls.ask("y bad in the last but one of 100", 100, 400, 3700, SEVEN, last)


def counts(calls):
    for n in (0, 1, 9, 10, 99, 100, 999, 1000, 9999, 10000):
        calls.ask(f"{n} candidates", n, 4 * n, 37 * n, SEVEN)
    calls.ask("9999 candidates, the list a number short", 9999, 39995, 369963, SEVEN)
    calls.ask("9999 candidates, the page a byte short", 9999, 39996, 369962, SEVEN)
    calls.ask("9999 candidates, the page longer", 9999, 39996, 370000, SEVEN)
    calls.ask("9999 candidates, more listed", 9999, 40004, 369963, SEVEN)
    calls.ask("10000 candidates, the list a number short", 10000, 39999, 370000, SEVEN)
    calls.ask("10000 candidates, the page a byte short", 10000, 40000, 369999, SEVEN)
    calls.ask("10000 candidates, the page longer", 10000, 40000, 370037, SEVEN)


def main():
    getcontext().prec = 400
    calls = Calls()
    for part in (named, special, wide, small, drawn, captures, lengths, lowest, huge, bad, counts):
        part(calls)
    (CRATES / "test_page" / "stdin").write_bytes(calls.stdin)
    (CRATES / "test_page" / "stdout").write_bytes(calls.stdout)


main()
