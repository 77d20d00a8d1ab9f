"""Charts of every kind are read as RGBA bytes: held against samples that this file made itself."""

import random
import struct
import subprocess

from support import *

WIDTH, HEIGHT = 11, 7
DEPTHS = {0: [1, 2, 4, 8, 16], 2: [8, 16], 3: [1, 2, 4, 8], 4: [8, 16], 6: [8, 16]}


def expected(samples, depth, colour, palette, transparent):
    """The RGBA bytes of samples: 16 bits by their high byte, fewer than 8 spread over all steps."""
    channels = CHANNELS[colour]
    full = 2 ** depth - 1

    def byte(sample):
        return sample >> 8 if depth == 16 else sample * 255 // full

    image = bytearray()
    for place in range(0, len(samples), channels):
        pixel = tuple(samples[place:place + channels])
        if colour == 3:
            alpha = transparent[pixel[0]] if transparent and pixel[0] < len(transparent) else 255
            image += bytes(palette[pixel[0]]) + bytes([alpha])
            continue
        values = [byte(sample) for sample in pixel]
        alpha = values.pop() if colour in (4, 6) else 255
        if transparent == pixel:
            alpha = 0
        image += bytes(values * 3 if len(values) == 1 else values) + bytes([alpha])
    return bytes(image)


class Reading(Case):
    def as_read(self, data):
        """The chart as `sheet` reads it: every pixel a cluster of its own."""
        result = self.sheet("make", "-", "-", *EACH_ITS_OWN, input=data)
        return decode_pam(result.stdout)

    def png_kinds(self, interlaced, with_transparency):
        rng = random.Random(3)
        for colour, depths in DEPTHS.items():
            for depth in depths:
                count = WIDTH * HEIGHT * CHANNELS[colour]
                samples = [rng.randrange(2 ** depth) for _ in range(count)]
                palette = [tuple(rng.randrange(256) for _ in range(3)) for _ in range(2 ** depth)]
                extra, transparent = b"", None
                if colour == 3:
                    extra = chunk(b"PLTE", b"".join(map(bytes, palette)))
                if with_transparency and colour == 3:
                    transparent = bytes(rng.randrange(256) for _ in range(2 ** depth - 1))
                    extra += chunk(b"tRNS", transparent)
                elif with_transparency and colour in (0, 2):
                    transparent = tuple(samples[:CHANNELS[colour]])
                    extra += chunk(b"tRNS", b"".join(struct.pack(">H", sample) for sample in transparent))
                data = encode_png(WIDTH, HEIGHT, samples, depth, colour, interlaced, extra)
                right = expected(samples, depth, colour, palette, transparent)
                with self.subTest(colour=colour, depth=depth):
                    self.assertEqual(self.as_read(data), (WIDTH, HEIGHT, right))

    def test_png_of_every_kind(self):
        self.png_kinds(False, False)

    def test_png_with_transparency(self):
        self.png_kinds(False, True)

    def test_interlaced_png(self):
        self.png_kinds(True, False)

    def test_interlaced_png_with_transparency(self):
        self.png_kinds(True, True)

    def test_png_in_many_small_chunks_and_with_text(self):
        chart = speckled(9, 5, [RED, WHITE], 1)
        whole = png(*chart)
        data = dict(chunks(whole))[b"IDAT"]
        parts = b"".join(chunk(b"IDAT", data[place:place + 3]) for place in range(0, len(data), 3))
        text = chunk(b"tEXt", b"Title\0A chart")
        split = SIGNATURE + header(9, 5) + text + parts + text + chunk(b"IEND", b"")
        self.assertEqual(self.as_read(split), chart)

    def test_of_an_animation_the_still_image_is_read(self):
        chart = speckled(4, 4, [RED, WHITE], 1)
        frame = struct.pack(">IIIIIHHBB", 0, 4, 4, 0, 0, 1, 10, 0, 0)
        animation = chunk(b"acTL", struct.pack(">II", 1, 0)) + chunk(b"fcTL", frame)
        data = encode_png(*chart, 8, 6, extra=animation)
        self.assertEqual(self.as_read(data), chart)

    def test_pam_of_every_kind(self):
        rng = random.Random(4)
        kinds = [("BLACKANDWHITE", 1), ("GRAYSCALE", 1), ("GRAYSCALE_ALPHA", 2), ("RGB", 3), ("RGB_ALPHA", 4)]
        for kind, depth in kinds:
            for maxval in [1] if kind == "BLACKANDWHITE" else [1, 7, 100, 255, 256, 1023, 65535]:
                samples = [rng.randint(0, maxval) for _ in range(WIDTH * HEIGHT * depth)]
                size = ">B" if maxval < 256 else ">H"
                head = f"P7\nWIDTH {WIDTH}\nHEIGHT {HEIGHT}\nDEPTH {depth}\nMAXVAL {maxval}\nTUPLTYPE {kind}\nENDHDR\n"
                data = head.encode() + b"".join(struct.pack(size, sample) for sample in samples)
                # Floor of the value and a half: the nearest step.
                byte = lambda sample: sample >> 8 if maxval == 65535 else (2 * 255 * sample + maxval) // (2 * maxval)
                right = bytearray()
                for place in range(0, len(samples), depth):
                    values = [byte(sample) for sample in samples[place:place + depth]]
                    alpha = values.pop() if depth in (2, 4) else 255
                    right += bytes(values * 3 if len(values) == 1 else values) + bytes([alpha])
                with self.subTest(kind=kind, maxval=maxval):
                    self.assertEqual(self.as_read(data), (WIDTH, HEIGHT, bytes(right)))

    def test_png_and_pam_by_file_and_by_pipe_give_the_same_sheet(self):
        chart = sector_chart(40, 30, 5)
        self.put("a.png", png(*chart))
        self.put("a.pam", pam(*chart))
        self.sheet("make", "a.png", "from_png.png")
        self.sheet("make", "a.pam", "from_pam.png")
        self.sheet("make", "a.png", "out.pam")
        self.sheet("make", "-", "from_pipe.png", input=png(*chart))
        piped = self.sheet("make", "-", "-", input=pam(*chart))
        files = self.files()
        made = decode_pam(files["out.pam"])
        for name in ["from_png.png", "from_pam.png", "from_pipe.png"]:
            self.assertEqual(decode_png(files[name]), made)
        self.assertEqual(piped.stdout, files["out.pam"])
        self.assertEqual(piped.stderr, b"")

    @with_original
    def test_that_sheet_is_the_original_s(self):
        chart = sector_chart(40, 30, 5)
        made = self.sheet("make", "-", "-", input=pam(*chart)).stdout
        self.assertEqual(decode_pam(made), (40, 30, judged(chart, {})["picture"]))

    def test_a_name_that_begins_with_a_dash(self):
        self.chart("-a.png", speckled(3, 3, [RED], 1))
        self.sheet("make", "./-a.png", "./-b.png")
        self.sheet("make", "--", "-a.png", "-c.png")
        self.assertEqual(self.files()["-b.png"], self.files()["-c.png"])

    def test_a_pipe_with_a_name(self):
        chart = speckled(5, 5, [RED, WHITE], 1)
        data = self.put("a.png", png(*chart))
        command = f'cat {data} | "{SHEET}" make /dev/stdin s.png'
        subprocess.run(["sh", "-c", command], cwd=self.folder, check=True, capture_output=True)
        self.assertIn("s.png", self.files())
