"""docs/WHY.md and the pictures: made anew they are what they were, and what the page quotes is what the tool prints."""

import re
import shlex
import sys
from collections import Counter

from support import *

ROOT = Path(__file__).resolve().parents[2]
DOCS = ROOT / "docs"
PAGE = (DOCS / "WHY.md").read_text()
SMALL = 60_000

# The pixels of the red sector, as the page counts them.
RED_SECTOR = {(200, 30, 40, 255): 56, (212, 42, 46, 255): 27, (40, 36, 44, 255): 3}


class Why(Case):
    def test_the_pictures_are_made_again(self):
        subprocess.run([sys.executable, DOCS / "pictures/make.py", self.folder], check=True, capture_output=True)
        made, kept = self.files(), {path.name: path.read_bytes() for path in (DOCS / "pictures").glob("*.png")}
        self.assertEqual(set(made), set(kept))
        for name, data in made.items():
            # Another zlib may pack the same pixels otherwise.
            self.assertTrue(data == kept[name] or decode_png(data) == decode_png(kept[name]), f"{name} is not what it was")
            self.assertLess(len(kept[name]), SMALL, name)

    def test_what_is_quoted_is_what_is_printed(self):
        quoted = re.findall(r"^    \$ \./sheet (.*)\n((?:    .*\n|\n(?=    ))*)", PAGE, re.MULTILINE)
        self.assertEqual([words for words, _ in quoted], ["explain docs/pictures/harbour.png 20 7"])
        for words, printed in quoted:
            said = self.sheet(*shlex.split(words), cwd=ROOT).stdout.decode()
            self.assertEqual(re.sub("^    ", "", printed, flags=re.MULTILINE), said)

    def test_the_counts_and_sums_on_the_page(self):
        _, _, image = decode_png((DOCS / "pictures/harbour.png").read_bytes())
        pixels = Counter(tuple(image[place:place + 4]) for place in range(0, len(image), 4))
        for colour, count in RED_SECTOR.items():
            self.assertEqual(pixels[colour], count)
        count = sum(RED_SECTOR.values())
        [said] = self.json("explain", DOCS / "pictures/harbour.png", 20, 7, "--json")
        for place, channel in enumerate("rgba"):
            total = sum(colour[place] * many for colour, many in RED_SECTOR.items())
            self.assertEqual((said["holders"][0]["residue"][channel], said["shown"][channel]), (total, total // count))
        for place in (0, 1):
            products = " + ".join(f"{many} × {colour[place]}" for colour, many in RED_SECTOR.items())
            self.assertIn(products + " =", PAGE)

    def test_the_pictures_that_are_shown_are_there(self):
        pages = {ROOT / "README.md", DOCS / "WHY.md"}
        shown = {page.parent / name for page in pages for name in re.findall(r"\((\S+\.png)\)", page.read_text())}
        self.assertGreaterEqual(len(shown), 4)
        for path in shown:
            self.assertTrue(path.is_file(), path)
