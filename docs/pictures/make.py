#!/usr/bin/env python3
"""Makes the pictures of README.md and docs/WHY.md, from this file and the tool alone.

    docs/pictures/make.py [FOLDER]

They go to FOLDER, or beside this file. SHEET names the tool's program; without it `./sheet` is run.
With the same zlib the files come out the same, byte for byte, and with any other their pixels do."""

import os
import random
import struct
import subprocess
import sys
import zlib
from pathlib import Path

HERE = Path(__file__).resolve().parent
SHEET = os.environ.get("SHEET", HERE.parents[1] / "sheet")

# ---- the small chart, a letter for each pixel

HARBOUR = """
LLLLL~~~~~~~~~~~~~~~~~~~
LLLL~~~~~~~~~~rrrrRRRR~~
LLLL~~~~~~~~rrrrrrRRRRR~
LLL~~~~~~~rrrrrSSSSSRRR~
LLL~~~~~rrrrrrrSSSSSRRR~
LLL~~~rrrrrrrrrSSSSSRRR~
LLL~~rrrrrwwrrrSSSSSRRR~
LLL~~~~rrrrwrrrrrrRRRR~~
LLL~~~~~~~~rrrrrrrRR~~~~
LLLL~~~~~~~~~~~~~~~~~~~~
LLLL~~ggggg~~~~~~~~~~~~~
LLLLL~~~gggggggg~~~~~~~~
LLLLL~~~~~ggggggggggg~~~
LLLLLL~~~~~~~ggggggg~~~~
LLLLLLL~~~~~~~~~~~~~~~~~
LLLLLLLL~~~~~~~~~~~~~~~~
""".split()

COLOURS = {
    "L": (236, 214, 150),  # land
    "~": (190, 220, 240),  # water
    "r": (200, 30, 40),    # the red sector
    "R": (212, 42, 46),    # the same, where the scan is lighter
    "S": (110, 160, 210),  # a shoal
    "w": (40, 36, 44),     # a wreck
    "g": (30, 150, 80),    # the green sector
}

# The pixel that WHY.md asks about.
ASKED = (20, 7)


def harbour():
    return [[COLOURS[letter] for letter in row] for row in HARBOUR]


# ---- the large chart

WIDTH, HEIGHT = 200, 150
LIGHT = (52, 76)
RANGE = 118

# The sectors: first and last edge as directions from the light, clockwise (rows are counted down), and the colour.
SECTORS = [
    ((20, -19), (20, -5), (214, 48, 52)), ((20, -5), (20, 4), (250, 246, 226)), ((20, 4), (20, 17), (48, 160, 92)),
]

# The coast: its column at rows 0, 10, 20 and so on; and how wide the shallows before it are.
COAST = [66, 58, 47, 40, 36, 34, 38, 46, 45, 36, 30, 30, 36, 44, 52, 60]
SHALLOWS = 9

# Column and row of the middle, and half the width and height.
ISLAND = (160, 128, 22, 10)
# Column and row of the middle, and the colour.
BUOYS = [(118, 52, COLOURS["r"]), (124, 99, COLOURS["g"])]
# Column and row of the top left, and the depth.
SOUNDINGS = [
    (96, 8, 14), (130, 14, 21), (172, 14, 35), (140, 36, 24), (84, 73, 6), (112, 74, 9), (142, 73, 17), (182, 70, 28),
    (104, 94, 15), (74, 120, 8), (104, 132, 16), (186, 104, 23), (112, 142, 19), (186, 142, 12),
]


def approach():
    """The approach to a harbour, as it comes from a scanner: a coast, a light with three sectors, an
    island, buoys and soundings. Whole numbers only, so that every machine draws the same."""
    rng = random.Random(7)
    marks = {(x + dx, y + dy) for x, y, depth in SOUNDINGS for dx, dy in text(str(depth))}
    rows = []
    for y in range(HEIGHT):
        row = []
        for x in range(WIDTH):
            colour = (60, 60, 70) if (x, y) in marks else drawn(x, y)
            # Darker towards the right edge of the page, and a grain.
            change = 3 - x // 20 + int(9 * rng.random()) - 4
            row.append(tuple(max(0, min(255, channel + change)) for channel in colour))
        rows.append(row)
    return rows


def drawn(x, y):
    """The colour of a place before it is scanned."""
    dx, dy = x - LIGHT[0], y - LIGHT[1]
    from_light = dx * dx + dy * dy
    if from_light < 36:
        return 250, 225, 70
    for column, row, colour in BUOYS:
        from_buoy = (x - column) ** 2 + (y - row) ** 2
        if from_buoy < 12:
            return colour if from_buoy < 6 else (30, 30, 35)
    off_coast = x - coast(y)
    column, row, wide, high = ISLAND
    off_island = ((x - column) * high) ** 2 + ((y - row) * wide) ** 2
    edge = (wide * high) ** 2
    if off_coast < 0 or off_island < edge:
        return COLOURS["L"]
    for first, last, colour in SECTORS:
        if from_light < RANGE ** 2 and cross(first, (dx, dy)) >= 0 > cross(last, (dx, dy)):
            return colour
    if off_coast < SHALLOWS or off_island < 2 * edge:
        return 130, 184, 222
    return COLOURS["~"]


def coast(y):
    """The column where the water begins."""
    place, part = divmod(y, 10)
    return (COAST[place] * (10 - part) + COAST[min(place + 1, len(COAST) - 1)] * part) // 10


def cross(a, b):
    """At least 0 where b lies clockwise of a, up to half a turn."""
    return a[0] * b[1] - a[1] * b[0]


# ---- drawing: a picture is rows of (red, green, blue)

DIGITS = {
    "0": "111101101101111", "1": "010110010010111", "2": "111001111100111", "3": "111001111001111", "4": "101101111001001",
    "5": "111100111001111", "6": "111100111101111", "7": "111001001001001", "8": "111101111101111", "9": "111101111001111",
}


def text(digits):
    """The places that a number darkens: three columns and five rows for each digit."""
    for index, digit in enumerate(digits):
        for place, bit in enumerate(DIGITS[digit]):
            if bit == "1":
                yield 4 * index + place % 3, place // 3


def enlarged(picture, scale):
    """Every pixel as a square."""
    return [[colour for colour in row for _ in range(scale)] for row in picture for _ in range(scale)]


SCALE, MARGIN, PAPER, INK = 16, 22, (255, 255, 255), (40, 40, 40)


def counted(picture):
    """Enlarged, with a line around each pixel, the numbers of columns and rows, and the asked pixel framed."""
    height, width = len(picture), len(picture[0])
    drawing = [[PAPER] * (MARGIN + SCALE * width) for _ in range(MARGIN + SCALE * height)]
    for y, row in enumerate(enlarged(picture, SCALE)):
        for x, colour in enumerate(row):
            inset = min(x % SCALE, y % SCALE, (-1 - x) % SCALE, (-1 - y) % SCALE)
            if x % SCALE == 0 or y % SCALE == 0:
                colour = tuple(channel * 7 // 8 for channel in colour)
            elif inset < 3 and (x // SCALE, y // SCALE) == ASKED:
                colour = PAPER
            drawing[MARGIN + y][MARGIN + x] = colour
    for column in range(0, width, 2):
        write(drawing, str(column), MARGIN + SCALE * column + SCALE // 2, MARGIN // 2)
    for row in range(height):
        write(drawing, str(row), MARGIN // 2, MARGIN + SCALE * row + SCALE // 2)
    return drawing


def write(drawing, digits, x, y):
    """Writes a number around a place, each point of a digit two pixels wide and high."""
    left, top = x - (4 * len(digits) - 1), y - 5
    for dx, dy in text(digits):
        for place in range(4):
            drawing[top + 2 * dy + place // 2][left + 2 * dx + place % 2] = INK


def beside(left, right, gap=8):
    """Two pictures of one height side by side."""
    return [first + [PAPER] * gap + second for first, second in zip(left, right, strict=True)]


# ---- PNG

SIGNATURE = b"\x89PNG\r\n\x1a\n"


def chunk(kind, data):
    return struct.pack(">I", len(data)) + kind + data + struct.pack(">I", zlib.crc32(kind + data))


def png(picture):
    """A PNG with four channels of a byte; each row is stored as its difference from the one above."""
    height, width = len(picture), len(picture[0])
    above, rows = bytes(4 * width), []
    for row in picture:
        row = b"".join(bytes(colour) + b"\xff" for colour in row)
        rows.append(b"\2" + bytes((new - old) % 256 for new, old in zip(row, above)))
        above = row
    header = struct.pack(">IIBBBBB", width, height, 8, 6, 0, 0, 0)
    data = zlib.compress(b"".join(rows), 9)
    return SIGNATURE + chunk(b"IHDR", header) + chunk(b"IDAT", data) + chunk(b"IEND", b"")


# ---- the tool

def sheet(*words):
    return subprocess.run([SHEET, *map(str, words)], check=True, capture_output=True).stdout


def sheet_of(chart):
    """The sheet that the tool makes of a chart, by way of PAM on its standard output."""
    _, image = sheet("make", chart, "-").split(b"ENDHDR\n", 1)
    with open(chart, "rb") as file:
        (width,) = struct.unpack_from(">I", file.read(24), 16)
    pixels = [tuple(image[place:place + 3]) for place in range(0, len(image), 4)]
    return [pixels[place:place + width] for place in range(0, len(pixels), width)]


def main():
    folder = Path(sys.argv[1]) if len(sys.argv) > 1 else HERE
    for name, chart in [("harbour", harbour()), ("approach", approach())]:
        (folder / f"{name}.png").write_bytes(png(chart))
    both = beside(counted(harbour()), counted(sheet_of(folder / "harbour.png")))
    (folder / "harbour-and-sheet.png").write_bytes(png(both))
    both = beside(enlarged(approach(), 2), enlarged(sheet_of(folder / "approach.png"), 2))
    (folder / "approach-and-sheet.png").write_bytes(png(both))
    sheet("explain", folder / "harbour.png", *ASKED, "--picture", folder / "harbour-patch.png")


if __name__ == "__main__":
    main()
