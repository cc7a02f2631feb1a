#!/usr/bin/env python3
"""Makes crates/outside_53/stdin: pictures, each with the coefficients of an outside 5/3.

Needs a C compiler as `cc` and OpenJPEG's archive, version 2.5.0 (Debian 12: apt-get install libopenjp2-7-dev).
Run: python3 tools/outside_53/make.py
It writes the same bytes each time. The tests need neither OpenJPEG nor this script: the data is stored.

The file has pictures, one after the other until it ends. Each is
    width, height, levels, depth      1 byte each
    width x height samples            2 bytes each, big-endian, row by row
    width x height coefficients       2 bytes each, big-endian, two's complement, row by row
The outside program transforms columns before rows, and kernel 3 rows before columns: so it is given each
picture with rows and columns exchanged, and its coefficients are exchanged back. There is no level shift.
"""
import pathlib
import struct
import subprocess
import tempfile

HERE = pathlib.Path(__file__).resolve().parent
INPUT = HERE.parent.parent / "crates" / "outside_53" / "stdin"
LIMIT = 65536  # the most that the program reads

# Width, height, levels.
SIZES = [
    # multiples of 2^J
    (64, 32, 5), (2, 2, 1), (16, 8, 3), (4, 4, 2), (2, 64, 1), (16, 16, 4), (20, 4, 2), (6, 10, 1), (8, 24, 3),
    # even sides that are none, or that cannot be halved J times
    (6, 4, 2), (10, 6, 3), (22, 12, 5), (4, 4, 5), (30, 20, 4), (2, 2, 5), (2, 46, 3), (50, 2, 4), (12, 12, 3),
    # odd widths, even heights
    (3, 2, 1), (5, 4, 2), (7, 8, 3), (33, 32, 5), (31, 16, 4), (45, 6, 5), (13, 14, 1), (19, 10, 2), (9, 2, 4),
    # even widths, odd heights
    (2, 3, 1), (4, 5, 2), (8, 7, 3), (32, 33, 5), (16, 31, 4), (6, 45, 5), (14, 13, 1), (10, 19, 2), (2, 9, 4),
    # odd widths and heights
    (3, 3, 1), (3, 3, 2), (5, 5, 1), (5, 5, 3), (3, 5, 5), (5, 3, 1), (7, 9, 2), (9, 7, 5), (13, 11, 4), (11, 13, 1), (47, 45, 5),
    (31, 33, 5), (17, 15, 3), (15, 17, 2), (25, 3, 2), (3, 27, 4), (21, 23, 1),
    # rows and columns of one sample
    (1, 1, 1), (1, 1, 5), (1, 2, 1), (2, 1, 1), (3, 1, 1), (1, 3, 2), (5, 1, 5), (1, 5, 1), (64, 1, 5), (1, 64, 5), (63, 1, 1),
    (1, 63, 5), (255, 1, 5), (1, 255, 5), (1, 6, 2), (6, 1, 2),
    # a panel of 1,366 by 768 made smaller
    (43, 24, 5), (22, 12, 1),
]
DEPTHS = [8, 8, 10, 8, 8, 1, 8]  # in turn


class Numbers:
    """Numbers that look random and are the same each time (the constants are Knuth's MMIX)."""

    def __init__(self, seed):
        self.state = seed

    def below(self, limit):
        self.state = (self.state * 6364136223846793005 + 1442695040888963407) % 2**64
        return (self.state >> 32) % limit


def noise(numbers, w, h, top):
    return [[numbers.below(top + 1) for _ in range(w)] for _ in range(h)]


def extremes(numbers, w, h, top):
    return [[top * numbers.below(2) for _ in range(w)] for _ in range(h)]


def flat(numbers, w, h, top):
    value = numbers.below(top + 1)
    return [[value] * w for _ in range(h)]


def across(numbers, w, h, top):
    return [[top * x // max(w - 1, 1) for x in range(w)] for _ in range(h)]


def slope(numbers, w, h, top):
    return [[top - top * (x + y) // max(w + h - 2, 1) for x in range(w)] for y in range(h)]


def steps(numbers, w, h, top):
    corner, left, right = numbers.below(w), numbers.below(top + 1), numbers.below(top + 1)
    return [[left if x < corner or 3 * y < h else right for x in range(w)] for y in range(h)]


def thin_lines(numbers, w, h, top):
    column, row = numbers.below(5), numbers.below(7)
    return [[top if x % 5 == column or y % 7 == row else top // 4 for x in range(w)] for y in range(h)]


def chequered(numbers, w, h, top):
    return [[top * ((x + y) % 2) for x in range(w)] for y in range(h)]


def text(numbers, w, h, top):
    """Rows of blocks of 4 by 6 dots, with a gap below and right of each, on a light ground."""
    paper, ink = top - top // 8, top // 16
    rows = [[paper] * w for _ in range(h)]
    for y in range(h):
        for x in range(w):
            if y % 8 < 6 and x % 5 < 4 and numbers.below(2):
                rows[y][x] = ink
    return rows


KINDS = [text, noise, steps, across, extremes, thin_lines, flat, chequered, slope]  # in turn


def exchanged(rows):
    return [list(column) for column in zip(*rows)]


def transformed(program, rows, levels):
    """What the outside program makes of a picture."""
    w, h = len(rows[0]), len(rows)
    given = struct.pack(f"={3 + w * h}i", w, h, levels, *sum(rows, []))
    answer = subprocess.run([program], input=given, stdout=subprocess.PIPE, check=True).stdout
    cells = struct.unpack(f"={w * h}i", answer)
    return [list(cells[y * w:(y + 1) * w]) for y in range(h)]


def record(program, kind, numbers, w, h, levels, depth):
    """A picture and its coefficients, as the file holds them."""
    rows = kind(numbers, w, h, 2**depth - 1)
    coefficients = exchanged(transformed(program, exchanged(rows), levels))
    return (struct.pack("4B", w, h, levels, depth) + struct.pack(f">{w * h}H", *sum(rows, []))
            + struct.pack(f">{w * h}h", *sum(coefficients, [])))


def main():
    numbers = Numbers(53)
    with tempfile.TemporaryDirectory() as folder:
        program = pathlib.Path(folder) / "outside_53"
        subprocess.run(["cc", "-O2", HERE / "outside_53.c", "-l:libopenjp2.a", "-lm", "-lpthread", "-o", program], check=True)
        data = b"".join(record(program, KINDS[n % len(KINDS)], numbers, w, h, levels, DEPTHS[n % len(DEPTHS)])
                        for n, (w, h, levels) in enumerate(SIZES))
    if len(data) > LIMIT:
        raise SystemExit(f"make.py: {len(data)} bytes, and the program reads at most {LIMIT}")
    INPUT.write_bytes(data)
    print(f"{INPUT.name}: {len(SIZES)} pictures, {len(data)} bytes")


main()
