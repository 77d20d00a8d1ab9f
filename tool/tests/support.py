"""What the tests share: PNG and PAM written and read by the standard library alone, charts, and the
two programs, `sheet` and the judge (the Rust original)."""

import json
import math
import os
import random
import struct
import subprocess
import tempfile
import unittest
import zlib
from pathlib import Path

SHEET = os.environ["SHEET"]
# Empty where the original is not there.
JUDGE = os.environ["JUDGE"]

with_original = unittest.skipUnless(JUDGE, "for want of the original")

# Seconds after which a program counts as hung. It is there only so that one that never ends does end: a run takes a
# second, and a machine under load does not come near.
PATIENCE = 900

# Under these settings every pixel is a cluster of its own, so the sheet is the chart.
EACH_ITS_OWN = ["--is_same_color_a", "0", "--is_same_color_b", "-1", "--hierarchical", "0"]

SIGNATURE = b"\x89PNG\r\n\x1a\n"
CHANNELS = {0: 1, 2: 3, 3: 1, 4: 2, 6: 4}
PASSES = [(0, 0, 8, 8), (4, 0, 8, 8), (0, 4, 4, 8), (2, 0, 4, 4), (0, 2, 2, 4), (1, 0, 2, 2), (0, 1, 1, 2)]


class Case(unittest.TestCase):
    """A test with a folder of its own, in which `sheet` is run."""

    def setUp(self):
        folder = tempfile.TemporaryDirectory()
        self.addCleanup(folder.cleanup)
        self.folder = Path(folder.name)

    def sheet(self, *words, status=0, program=SHEET, **options):
        """Runs `sheet` and wants this exit status."""
        words = [str(word) for word in words]
        options = {"cwd": self.folder, "capture_output": True, "timeout": PATIENCE, **options}
        result = subprocess.run([program, *words], **options)
        said = f"{words}: {result.stderr} {result.stdout[:200] if result.stdout else b''}"
        self.assertEqual(result.returncode, status, said)
        return result

    def refused(self, *words, says, status=1, name=None, **options):
        """Wants one line of failure that says all of this, and that no file is made or changed."""
        before = self.files()
        error = self.sheet(*words, status=status, **options).stderr.decode()
        for part in [says] if isinstance(says, str) else says:
            self.assertIn(part, error)
        self.assertTrue(error.startswith("sheet: "), error)
        self.assertEqual(error.count("\n"), 1, error)
        if name:
            self.assertTrue(error.startswith(f"sheet: {name}: "), error)
        self.assertEqual(self.files(), before)
        return error

    def misused(self, *words, says="", **options):
        """Wants bad usage, and that no file is made or changed."""
        before = self.files()
        error = self.sheet(*words, status=2, **options).stderr.decode()
        self.assertIn(says, error)
        self.assertEqual(self.files(), before)

    def files(self):
        """Every file below the folder, with its bytes."""
        found = sorted(path for path in self.folder.rglob("*") if path.is_file())
        return {str(path.relative_to(self.folder)): path.read_bytes() for path in found}

    def json(self, *words, **options):
        """The lines of JSON that a command prints."""
        lines = self.sheet(*words, **options).stdout.decode().splitlines()
        return [json.loads(line) for line in lines]

    def put(self, name, data):
        path = self.folder / name
        path.write_bytes(data)
        return path

    def chart(self, name, chart):
        """Writes a chart (width, height, RGBA bytes) as PNG."""
        return self.put(name, png(*chart))


# ---- PNG

def chunk(kind, data):
    return struct.pack(">I", len(data)) + kind + data + struct.pack(">I", zlib.crc32(kind + data))


def header(width, height, depth=8, colour=6, interlaced=0):
    return chunk(b"IHDR", struct.pack(">IIBBBBB", width, height, depth, colour, 0, 0, interlaced))


def pack_row(samples, depth):
    """A row of samples as bytes."""
    if depth == 16:
        return b"".join(struct.pack(">H", sample) for sample in samples)
    bits = "".join(format(sample, f"0{depth}b") for sample in samples)
    bits += "0" * (-len(bits) % 8)
    return bytes(int(bits[place:place + 8], 2) for place in range(0, len(bits), 8))


def encode_png(width, height, samples, depth, colour, interlaced=False, extra=b""):
    """A PNG of samples in the order of the image; `extra` are chunks before the image data."""
    channels = CHANNELS[colour]
    passes = PASSES if interlaced else [(0, 0, 1, 1)]
    rows = []
    for left, top, right, down in passes:
        columns = range(left, width, right)
        for y in range(top, height, down) if columns else []:
            row = [samples[(y * width + x) * channels + k] for x in columns for k in range(channels)]
            rows.append(b"\0" + pack_row(row, depth))
    data = zlib.compress(b"".join(rows))
    return SIGNATURE + header(width, height, depth, colour, int(interlaced)) + extra + chunk(b"IDAT", data) + chunk(b"IEND", b"")


def png(width, height, rgba):
    return encode_png(width, height, rgba, 8, 6)


def chunks(data):
    """The chunks of a PNG: kind and data."""
    place = len(SIGNATURE)
    while place < len(data):
        length, kind = struct.unpack_from(">I4s", data, place)
        yield kind, data[place + 8:place + 8 + length]
        place += 12 + length


def decode_png(data):
    """Width, height and bytes of a PNG with four channels of a byte, not interlaced."""
    assert data.startswith(SIGNATURE)
    found = list(chunks(data))
    width, height, depth, colour, _, _, interlaced = struct.unpack(">IIBBBBB", found[0][1])
    assert (depth, colour, interlaced) == (8, 6, 0)
    raw = zlib.decompress(b"".join(part for kind, part in found if kind == b"IDAT"))
    stride = 4 * width
    previous, image = bytearray(stride), bytearray()
    for y in range(height):
        start = y * (stride + 1)
        kind, row = raw[start], bytearray(raw[start + 1:start + 1 + stride])
        for i in range(stride):
            left = row[i - 4] if i >= 4 else 0
            corner = previous[i - 4] if i >= 4 else 0
            row[i] = (row[i] + predict(kind, left, previous[i], corner)) % 256
        image += row
        previous = row
    return width, height, bytes(image)


def predict(kind, left, up, corner):
    if kind == 4:
        guess = left + up - corner
        return min((abs(guess - left), 0, left), (abs(guess - up), 1, up), (abs(guess - corner), 2, corner))[2]
    return [0, left, up, (left + up) // 2][kind]


# ---- PAM

def pam(width, height, rgba):
    head = f"P7\nWIDTH {width}\nHEIGHT {height}\nDEPTH 4\nMAXVAL 255\nTUPLTYPE RGB_ALPHA\nENDHDR\n"
    return head.encode() + rgba


def decode_pam(data):
    """Width, height and bytes of a PAM as `sheet` writes it."""
    head, image = data.split(b"ENDHDR\n", 1)
    lines = dict(line.split(" ") for line in head.decode().splitlines()[1:])
    assert head.startswith(b"P7\n")
    assert (lines["DEPTH"], lines["MAXVAL"], lines["TUPLTYPE"]) == ("4", "255", "RGB_ALPHA")
    width, height = int(lines["WIDTH"]), int(lines["HEIGHT"])
    assert len(image) == 4 * width * height
    return width, height, image


# ---- charts

def noisy(rng, colour, by):
    return bytes(max(0, min(255, channel + rng.randint(-by, by))) for channel in colour) + b"\xff"


def sector_chart(width, height, seed, by=6):
    """A light with a red, a green and a white sector, as it comes from a scanner."""
    rng = random.Random(seed)
    image = bytearray()
    for y in range(height):
        for x in range(width):
            dx, dy = x - width / 2, y - height / 2
            radius, angle = math.hypot(dx, dy), math.degrees(math.atan2(dy, dx)) % 360
            colour = (170, 200, 230)
            if radius < height / 15:
                colour = (250, 240, 60)
            elif radius < height / 2.3:
                colour = [(200, 30, 30), (20, 140, 60), (235, 235, 225)][int(angle // 120)]
            if abs(dx - width / 5) < 2 and abs(dy) < height / 10:
                colour = (10, 10, 10)
            image += noisy(rng, colour, by)
    return width, height, bytes(image)


def rings(side, colours, step):
    """Squares inside squares."""
    image = bytearray()
    for y in range(side):
        for x in range(side):
            ring = min(x, y, side - 1 - x, side - 1 - y) // step
            image += bytes(colours[min(ring, len(colours) - 1)])
    return side, side, bytes(image)


def speckled(width, height, colours, seed, run=3):
    """Short runs of colours from a small palette."""
    rng = random.Random(seed)
    image = bytearray()
    while len(image) < 4 * width * height:
        image += bytes(rng.choice(colours)) * rng.randint(1, run)
    return width, height, bytes(image[:4 * width * height])


# ---- the judge

DEFAULTS = {
    "is_same_color_a": 4, "is_same_color_b": 1, "hierarchical": 4294967295, "good_min_area": 16,
    "good_max_area": 65536, "hollow_neighbours": 1, "deepen_diff": 64, "key": "00000000", "action": "keep",
}


def options_of(settings):
    """The settings as options of `sheet`."""
    words = []
    for name, value in settings.items():
        words += [f"--{value}"] if name == "action" else [f"--{name}", str(value)]
    return words


def judged(chart, settings):
    """What the original answers: labels, links, table, outputs and the picture's bytes. For tests that are marked."""
    assert JUDGE, "a test that asks the original is not marked with_original"
    width, height, image = chart
    numbers = {**DEFAULTS, **settings}
    key = numbers["key"] + "ff" * (len(numbers["key"]) == 6)
    names = list(DEFAULTS)[:7]
    line = f"{width} {height} {' '.join(str(numbers[name]) for name in names)} {key} {numbers['action']} {image.hex()}"
    result = subprocess.run([JUDGE, "answer", "--json"], input=line.encode(), capture_output=True, timeout=PATIENCE, check=True)
    answer = json.loads(result.stdout)
    answer["picture"] = bytes.fromhex(answer["picture"])
    return answer


RED, GREEN, BLUE = (200, 30, 30, 255), (20, 140, 60, 255), (30, 40, 200, 255)
WHITE, BLACK, KEY = (240, 240, 235, 255), (8, 8, 8, 255), (255, 0, 255, 255)
NEAR_KEY = (250, 4, 251, 255)
