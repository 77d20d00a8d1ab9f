"""Broken, cut off, empty and enormous files: a clear line, status 1, and nothing left behind."""

import random
from concurrent.futures import ThreadPoolExecutor

from support import *

CHART = speckled(6, 5, [RED, WHITE, KEY], 2)
KINDS = [b"tRNS", b"PLTE", b"IDAT", b"fcTL", b"acTL", b"fdAT", b"IHDR", b"gAMA", b"iCCP", b"zTXt", b"pHYs"]


class Damaged(Case):
    def of_kind(self, data, kind):
        """Runs a damaged chart; it may only be refused in one line, or give a sheet."""
        result = subprocess.run([SHEET, "make", "-", "-"], input=data, capture_output=True, timeout=PATIENCE, cwd=self.folder)
        error = result.stderr.decode()
        if result.returncode == 0:
            decode_pam(result.stdout)
            self.assertEqual(error, "", kind)
        else:
            self.assertEqual((result.returncode, result.stdout), (1, b""), f"{kind}: {error}")
            self.assertRegex(error, r"\Asheet: standard input: [^\n]+\n\Z", kind)
            self.assertNotIn("internal", error, kind)
        return result.returncode

    def all_of(self, damaged):
        """The exit status of every damaged chart."""
        with ThreadPoolExecutor(4) as pool:
            statuses = list(pool.map(lambda pair: self.of_kind(pair[1], pair[0]), damaged))
        self.assertEqual(self.files(), {})
        return statuses

    def test_every_cut_of_a_png(self):
        whole = png(*CHART)
        self.assertEqual(set(self.all_of((n, whole[:n]) for n in range(len(whole)))), {1})

    def test_every_cut_of_a_pam(self):
        whole = pam(*CHART)
        self.assertEqual(set(self.all_of((n, whole[:n]) for n in range(len(whole)))), {1})

    def test_every_changed_byte_of_a_png(self):
        whole = png(*CHART)
        changed = lambda n: whole[:n] + bytes([whole[n] ^ 0x41]) + whole[n + 1:]
        self.assertEqual(set(self.all_of((n, changed(n)) for n in range(len(whole)))), {1})

    def test_changed_chunks_with_right_checksums(self):
        rng = random.Random(5)
        palette = chunk(b"PLTE", bytes(6)) + chunk(b"tRNS", b"\x01")
        kinds = [png(*CHART), encode_png(6, 5, [n % 2 for n in range(30)], 1, 3, True, palette)]
        damaged = []
        for index in range(600):
            found = [[kind, bytearray(data)] for kind, data in chunks(rng.choice(kinds))]
            for _ in range(rng.randint(1, 3)):
                what = rng.randrange(5)
                one = rng.choice(found)
                if what == 0 and one[1]:
                    one[1][rng.randrange(len(one[1]))] = rng.choice([0, 1, 3, 4, 127, 128, 255, rng.randrange(256)])
                elif what == 1:
                    del one[1][rng.randint(0, len(one[1])):]
                elif what == 2:
                    one[1] += bytes(rng.randrange(9))
                elif what == 3:
                    new = [rng.choice(KINDS), bytearray(rng.randbytes(rng.randrange(30)))]
                    found.insert(rng.randint(0, len(found)), new)
                elif len(found) > 1:
                    found.remove(one)
            damaged.append((index, SIGNATURE + b"".join(chunk(kind, bytes(data)) for kind, data in found)))
        statuses = self.all_of(damaged)
        self.assertIn(1, statuses)

    def test_changed_headers_of_pam(self):
        rng = random.Random(6)
        whole = pam(*CHART)
        damaged = []
        for index in range(300):
            data = bytearray(whole)
            for _ in range(rng.randint(1, 3)):
                data[rng.randrange(3, 75)] = rng.choice(b"0123456789 \n#ABCZ\0\xff")
            damaged.append((index, bytes(data)))
        self.assertIn(1, self.all_of(damaged))

    def test_words_for_what_is_wrong(self):
        whole = png(*CHART)
        for data, says in [
            (whole[:-1], "it is a broken PNG: it is cut off before its end"),
            (whole[:-12], "it is a broken PNG: it is cut off before its end"),
            (whole[:20], "it is a broken PNG: it is cut off before its end"),
            (whole[:5], "it ends after its first bytes"),
            (whole[:40] + b"x" + whole[41:], "it is a broken PNG: "),
            (SIGNATURE + header(6, 5) + chunk(b"IEND", b""), "it is a broken PNG: "),
            (SIGNATURE + header(6, 5) + chunk(b"IDAT", zlib.compress(bytes(30))) + chunk(b"IEND", b""), "it is a broken PNG: "),
            (SIGNATURE + header(6, 5, depth=3) + chunk(b"IEND", b""), "it is a broken PNG: "),
            (pam(*CHART)[:-1], "it is a broken PAM: it is cut off before its end"),
            (pam(*CHART) + b"P7", "more bytes follow after its last pixel"),
        ]:
            error = self.refused("make", "-", "s.png", says=says, name="standard input", input=data)
            self.assertTrue(error.endswith(". Save or copy it anew.\n"), error)
            self.assertNotIn("..", error)

    def test_a_small_size_with_enormous_data(self):
        packed = zlib.compress(bytes(200 << 20), 9)
        bomb = SIGNATURE + header(6, 5) + chunk(b"IDAT", packed) + chunk(b"IEND", b"")
        self.refused("make", "-", "s.png", says="unpacks to far more", input=bomb)

    def test_enormous_notes(self):
        notes = chunk(b"tEXt", b"Title\0" + b"x" * (2 << 20))
        data = encode_png(*CHART, 8, 6, extra=notes)
        self.refused("make", "-", "s.png", says=["more than 1 MiB of text", "Save it without them."], input=data)

    def test_an_enormous_file(self):
        path = self.folder / "large.png"
        path.write_bytes(SIGNATURE + header(6, 5))
        with open(path, "ab") as file:
            file.truncate(3 << 30)
        result = self.sheet("make", "large.png", "s.png", status=1)
        self.assertIn(b"it is a PNG of 64 MiB or more", result.stderr)
        self.assertFalse((self.folder / "s.png").exists())
