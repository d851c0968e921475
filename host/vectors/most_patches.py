"""Vectors for the program crate test_most_patches: what `most_patches` prints for its input, and
what `patches` says of it. In host/vectors: `python3 most_patches.py` writes
crates/test_most_patches/stdin and stdout again.

stdin is inputs of `most_patches`, one after another. Before each stand two bytes: a letter and how
many bytes the input has.

    m  stdout has all that `most_patches` prints for it
    c  stdout has the first line of what `patches` prints for that: width, height, number of patches

The masks and their numbers of patches are formulas here: no code of this project has a part in it.
"""

from pathlib import Path

CRATE = Path(__file__).resolve().parents[2] / "crates" / "test_most_patches"

MOST = 64
REFUSED = b"refused 2\n"

# Whole masks: the smallest, a line, a column, an even and an odd width, the largest.
MASKS = [(1, 1), (MOST, 1), (1, MOST), (4, 5), (5, 4), (MOST, MOST)]

# What is no size, each for its own cause.
WRONG = [
    b"",
    b"\n",
    # a side outside 1 to 64
    b"0 3\n",
    b"3 0\n",
    b"0 0\n",
    b"65 1\n",
    b"1 65\n",
    b"99 9\n",
    b"9 99\n",
    b"100 1\n",
    b"1 100\n",
    b"18446744073709551617 1\n",
    b"1 18446744073709551617\n",
    # a zero in front
    b"03 3\n",
    b"3 03\n",
    b"00 3\n",
    b"3 00\n",
    b"003 3\n",
    b"3 003\n",
    # the line feed
    b"3 3",
    b"64 64",
    b"3 3\n\n",
    b"64 64\n\n",
    b"3 3\r\n",
    b"64 64\r\n",
    b"3\n3\n",
    b"3 3\0",
    # the blank
    b"33\n",
    b"3333\n",
    b" 3 3\n",
    b"3  3\n",
    b"3 3 \n",
    b"64  64\n",
    b"64 64 \n",
    b"3\t3\n",
    b"3,3\n",
    b"3\xa03\n",
    # a side lacks, or there are three
    b"3\n",
    b"3 \n",
    b" 3\n",
    b"  3\n",
    b"3 ",
    b" \n",
    b"3 3 3\n",
    b"1 1 1\n",
    # no digits
    b"+3 3\n",
    b"3 +3\n",
    b"-3 3\n",
    b"3 -3\n",
    b"a b\n",
    b"3 b\n",
    b"3a 3\n",
    b"3 3a\n",
    b"/ 3\n",
    b": 3\n",
    b"3 /\n",
    b"3 :\n",
    b"1/ 3\n",
    b"1: 3\n",
    b"3 1/\n",
    b"3 1:\n",
    b"0x3 3\n",
    b"3.0 3\n",
    b"\xb3 3\n",
    b"3 \xb3\n",
    b"\xff\xff\xff\xff",
    # nothing more than a size
    b"3 3\n3 3\n",
    b"64 64\n#",
    b"3 3\n" + 200 * b" ",
]


def text(w, h):
    return f"{w} {h}\n".encode()


def mask(w, h):
    """1 (`#`) where column plus row is even, else 0 (`.`)."""
    rows = ("".join("#" if (x + y) % 2 == 0 else "." for x in range(w)) for y in range(h))
    return "".join(row + "\n" for row in rows).encode()


def count(w, h):
    return f"{w} {h} {-(-w * h // 2)}\n".encode()


def cases():
    for w, h in MASKS:
        yield b"m", text(w, h), mask(w, h)
    for h in range(1, MOST + 1):
        for w in range(1, MOST + 1):
            yield b"c", text(w, h), count(w, h)
    for wrong in WRONG:
        yield b"m", wrong, REFUSED


def main():
    every = list(cases())
    assert len({given for kind, given, _ in every if kind == b"m"}) == len(MASKS) + len(WRONG)
    (CRATE / "stdin").write_bytes(b"".join(kind + bytes([len(given)]) + given for kind, given, _ in every))
    (CRATE / "stdout").write_bytes(b"".join(wanted for _, _, wanted in every))
    print(f"{len(every)} inputs, {len(WRONG)} of them refused")


main()
