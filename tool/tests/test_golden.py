"""Golden files: sheets, explanations, pictures and lists as they were looked at and kept. Each sheet
is also held against the original. GOLDEN=write makes the files anew."""

import os

from support import *

FOLDER = Path(__file__).parent / "golden"

# Name: settings, and a pixel to explain.
CASES = {
    "sectors": ({}, (26, 24)),
    "rings": ({"good_min_area": 4}, (4, 4)),
    "thin": ({"deepen_diff": 200, "hierarchical": 300}, (20, 10)),
    "keep": ({"key": "ff00ff", "action": "keep", "good_min_area": 2}, (3, 3)),
    "discard": ({"key": "ff00ff", "action": "discard", "good_min_area": 2}, (3, 3)),
    "pixel": ({}, (0, 0)),
}


def charts():
    return {
        "sectors": sector_chart(48, 36, 1),
        "rings": rings(16, [WHITE, RED, GREEN, BLUE], 2),
        "thin": sector_chart(40, 30, 2, by=12),
        "keep": speckled(12, 12, [RED, WHITE, KEY, NEAR_KEY], 3, run=9),
        "discard": speckled(12, 12, [RED, WHITE, KEY, NEAR_KEY], 3, run=9),
        "pixel": (1, 1, bytes(RED)),
    }


class Golden(Case):
    def setUp(self):
        super().setUp()
        if os.environ.get("GOLDEN") == "write":
            for name, chart in charts().items():
                (FOLDER / f"{name}.png").write_bytes(png(*chart))

    def same(self, name, made):
        """The made bytes are those that were kept; of a PNG its pixels."""
        if os.environ.get("GOLDEN") == "write":
            (FOLDER / name).write_bytes(made)
        kept = (FOLDER / name).read_bytes()
        if name.endswith(".png"):
            made, kept = decode_png(made), decode_png(kept)
        # Not assertEqual, which takes minutes to show how large pictures differ.
        self.assertTrue(made == kept, f"{name} is not what it was")

    def each(self):
        for name, (settings, pixel) in CASES.items():
            with self.subTest(name):
                yield name, FOLDER / f"{name}.png", options_of(settings), pixel

    def test_the_charts_are_what_they_were(self):
        for name, chart in charts().items():
            self.assertEqual(decode_png((FOLDER / f"{name}.png").read_bytes()), chart, name)

    def test_sheets(self):
        for name, chart, options, _ in self.each():
            self.sheet("make", chart, "out.png", "--stored", "out.stored", *options)
            made = self.files()
            self.same(f"{name}.sheet.png", made["out.png"])
            self.same(f"{name}.stored", made["out.stored"])

    @with_original
    def test_the_sheets_are_the_original_s(self):
        for name, chart, options, _ in self.each():
            made = self.sheet("make", chart, "-", *options).stdout
            right = judged(charts()[name], CASES[name][0])["picture"]
            self.assertEqual(decode_pam(made)[2], right)

    def test_explanations(self):
        for name, chart, options, (x, y) in self.each():
            said = self.sheet("explain", chart, x, y, *options).stdout
            self.same(f"{name}.explain.txt", said)

    def test_pictures(self):
        for name, chart, options, (x, y) in self.each():
            self.sheet("explain", chart, x, y, "--picture", "out.png", *options)
            self.same(f"{name}.picture.png", self.files()["out.png"])

    def test_lists(self):
        for name, chart, options, _ in self.each():
            link = self.folder / "chart.png"
            link.write_bytes(chart.read_bytes())
            self.same(f"{name}.clusters.txt", self.sheet("clusters", "chart.png", *options).stdout)
