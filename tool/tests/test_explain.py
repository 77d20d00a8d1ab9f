"""What `explain` and `clusters` say, held against the original: its labels, lists, sums, outputs and picture."""

import random

from support import *

PALETTE = [RED, GREEN, WHITE, BLACK, (205, 40, 28, 255), (236, 236, 228, 200)]
DEEP = 4294967295


class Original:
    """The original's answer, as clusters with the sets of their pixels."""

    def __init__(self, chart, settings):
        self.width, self.height, self.image = chart
        self.answer = judged(chart, settings)
        self.table = self.answer["table"]
        self.pixels = [self.walk(slot) for slot in self.table]
        key = bytes.fromhex(settings.get("key", "00000000").ljust(8, "f"))
        self.discards = key if settings.get("action") == "discard" and any(key) else None

    def walk(self, slot):
        link, found = slot[0], []
        for _ in range(slot[1]):
            found.append(link - 1)
            link = self.answer["links"][link - 1]
        assert len(set(found)) == slot[1]
        return set(found)

    def holders(self, pixel):
        """The clusters that hold a pixel, from inner to outer."""
        holding = [k for k, pixels in enumerate(self.pixels) if pixel in pixels]
        return sorted(holding, key=lambda k: len(self.pixels[k]))

    def inside(self, outer):
        """The clusters directly inside one."""
        within = [k for k, pixels in enumerate(self.pixels) if pixels and pixels < self.pixels[outer]]
        return [k for k in within if not any(self.pixels[k] < self.pixels[other] for other in within)]

    def holes(self, outer):
        link, found = self.table[outer][19], set()
        while link:
            found.add(link - 1)
            link = self.table[link - 1][20]
        return found

    def painter(self, pixel):
        """The first output that holds the pixel."""
        return next((k for k in self.answer["outputs"] if pixel in self.pixels[k]), None)

    def cluster(self, k):
        """A cluster as the JSON has it."""
        slot = self.table[k]
        total = dict(zip("rgba", slot[6:10]), count=slot[10])
        residue = dict(zip("rgba", slot[11:15]), count=slot[15])
        return {
            "number": k, "size": slot[1], "rectangle": dict(zip(["left", "top", "right", "bottom"], slot[2:6])),
            "own_pixels": slot[15], "sum": total, "residue": residue, "shade": {c: residue[c] // slot[15] for c in "rgba"},
            "merged_into": slot[16], "depth": slot[17], "holes": slot[18], "put_out": k in self.answer["outputs"],
        }

    def explanation(self, pixel):
        """All that the JSON says of a pixel, what lies inside by its number."""
        place = slice(4 * pixel, 4 * pixel + 4)
        holders = self.holders(pixel)
        smallest = holders[0] if holders else None
        inside = [] if smallest is None else [{**self.cluster(k), "hole": k in self.holes(smallest)} for k in self.inside(smallest)]
        return {
            "chart": "chart.png", "width": self.width, "height": self.height, "n": self.answer["n"], "m": self.answer["m"],
            "x": pixel % self.width, "y": pixel // self.width,
            "colour": dict(zip("rgba", self.image[place])), "shown": dict(zip("rgba", self.answer["picture"][place])),
            "label": self.answer["labels"][pixel], "discarded": self.image[place] == self.discards,
            "smallest": smallest, "painted_by": self.painter(pixel),
            "holders": [self.cluster(k) for k in holders], "inside": inside,
        }


def kinds(said):
    """What is special about an explanation, in words."""
    painter, smallest = said["painted_by"], said["smallest"]
    special = {
        "three deep": len(said["holders"]) > 2,
        "something inside": bool(said["inside"]),
        "a hole": any(inner["hole"] for inner in said["inside"]),
        "discarded": said["discarded"],
        "held and not painted": smallest is not None and painter is None,
        "painted over": painter is not None and painter != smallest,
    }
    return {kind for kind, holds in special.items() if holds}


@with_original
class Explained(Case):
    def compare(self, chart, settings, pixels):
        """Every number that `explain` gives for these pixels is the original's. Answers the kinds that were seen."""
        original = Original(chart, settings)
        self.chart("chart.png", chart)
        seen = set()
        for pixel in pixels:
            y, x = divmod(pixel, chart[0])
            [said] = self.json("explain", "chart.png", x, y, "--json", *options_of(settings))
            said["inside"].sort(key=lambda inner: inner["number"])
            self.assertEqual(said, original.explanation(pixel))
            seen |= kinds(said)
        return seen

    def compare_some(self, rng, chart, settings, count):
        """The same for so many pixels by chance."""
        pixels = range(chart[0] * chart[1])
        return self.compare(chart, settings, rng.sample(pixels, min(count, len(pixels))))

    def test_sector_charts(self):
        rng = random.Random(1)
        for seed in range(6):
            self.compare_some(rng, sector_chart(48, 36, seed), {"good_min_area": seed}, 12)

    def test_nested_rings(self):
        chart = rings(24, [RED, WHITE, BLUE, WHITE, BLACK, RED], 2)
        seen = self.compare(chart, {"good_min_area": 3}, range(0, 24 * 24, 25))
        self.assertLessEqual({"three deep", "a hole"}, seen)

    def test_random_charts_and_settings(self):
        rng = random.Random(2)
        seen = set()
        for index in range(40):
            settings = {
                "is_same_color_a": rng.randint(0, 7), "is_same_color_b": rng.randint(-1, 3),
                "hierarchical": rng.choice([0, 5, 40, DEEP, DEEP, DEEP]),
                "good_min_area": rng.choice([0, 1, 4, 16]), "good_max_area": rng.choice([20, 65536]),
                "hollow_neighbours": rng.randint(0, 3), "deepen_diff": rng.choice([-1, 0, 64, 200]),
            }
            chart = speckled(rng.randint(1, 24), rng.randint(1, 24), PALETTE, index, run=rng.randint(2, 40))
            seen |= self.compare_some(rng, chart, settings, 6)
        self.assertIn("something inside", seen)

    def test_key_colours(self):
        rng = random.Random(3)
        seen = set()
        for index in range(80):
            settings = {
                "good_min_area": rng.choice([0, 2]), "hierarchical": rng.choice([DEEP, DEEP, 9]),
                "deepen_diff": rng.choice([0, 64]), "key": "ff00ff", "action": rng.choice(["keep", "discard"]),
            }
            palette = [RED, WHITE, KEY, KEY, NEAR_KEY, GREEN]
            chart = speckled(rng.randint(1, 14), rng.randint(1, 6), palette, index, run=rng.randint(2, 9))
            seen |= self.compare_some(rng, chart, settings, 5)
        self.assertLessEqual({"discarded", "held and not painted", "painted over"}, seen)

    def test_the_largest_chart(self):
        self.compare(sector_chart(260, 250, 1), {}, [0, 30_000, 33_000, 64_999])

    def test_the_list_of_clusters(self):
        rng = random.Random(4)
        for index in range(15):
            settings = {"good_min_area": rng.choice([0, 4]), "deepen_diff": rng.choice([0, 64])}
            chart = speckled(rng.randint(1, 30), rng.randint(1, 30), PALETTE, index, run=20)
            self.chart("chart.png", chart)
            original = Original(chart, settings)
            [listed] = self.json("clusters", "chart.png", "--json", *options_of(settings))
            right = [original.cluster(k) for k in original.answer["outputs"]]
            self.assertEqual(listed["clusters"], right)
            self.assertEqual((listed["n"], listed["m"]), (original.answer["n"], original.answer["m"]))


class Words(Case):
    def said(self, chart, x, y, settings={}):
        """What `explain` prints of a pixel."""
        self.chart("chart.png", chart)
        return self.sheet("explain", "chart.png", x, y, *options_of(settings)).stdout.decode()

    def explained(self, chart, x, y, settings={}):
        """What `explain` prints of a pixel, and the original's answer."""
        return self.said(chart, x, y, settings), Original(chart, settings)

    @with_original
    def test_the_division_is_the_original_s(self):
        for x, y in [(26, 24), (0, 0), (24, 18), (12, 18)]:
            said, original = self.explained(sector_chart(48, 36, 1), x, y)
            k = original.holders(48 * y + x)[0]
            slot = original.table[k]
            for name, total in zip(["red", "green", "blue", "alpha"], slot[11:15]):
                average, rest = divmod(total, slot[15])
                self.assertIn(f"{name:5}  {total:,} / {slot[15]:,} = {average}, rest {rest:,}\n", said)
            self.assertIn(f"The smallest cluster that holds this pixel is cluster {k}.", said)
            self.assertIn(f"It has {slot[1]:,} pixels, in columns {slot[2]} to {slot[4] - 1} and rows {slot[3]} to {slot[5] - 1}.", said)
            self.assertIn(f"of the {slot[15]:,} pixels left to cluster {k}.", said)

    def test_a_discarded_pixel(self):
        settings = {"key": "ff00ff", "action": "discard"}
        said = self.said((3, 1, bytes(RED) + bytes(KEY) + bytes(RED)), 1, 0, settings)
        self.assertIn("on the sheet  #00000000  red 0, green 0, blue 0, alpha 0 (transparent)", said)
        self.assertIn("0, which every discarded pixel has; no cluster holds it", said)
        self.assertIn("--discard leaves such pixels out (rule 5.4).\n  It belongs to no patch.", said)
        self.assertIn("No cluster holds the pixel.\n  So nothing is painted here, and the sheet is empty", said)
        self.assertNotIn("from inner to outer", said)
        words = ["explain", "chart.png", 1, 0, *options_of(settings), "--picture", "p.png"]
        self.refused(*words, says=["no cluster holds this pixel", "Leave --picture out"])

    @with_original
    def test_a_pixel_that_is_held_and_not_painted(self):
        # With a key that is kept, a cluster that touches nothing is passed over while larger ones are listed.
        chart = (5, 1, bytes(KEY) * 4 + bytes(GREEN))
        said, original = self.explained(chart, 4, 0, {"hierarchical": 3, "key": "ff00ff", "action": "keep"})
        self.assertEqual((original.holders(4), original.painter(4)), ([1], None))
        self.assertIn("Cluster 1 holds the pixel, but neither it nor any cluster around it was put out.", said)
        self.assertIn("So nothing is painted here, and the sheet is empty", said)
        self.assertIn("on the sheet  #00000000", said)

    @with_original
    def test_a_pixel_whose_smallest_cluster_is_painted_over(self):
        # With a key that is discarded, a cluster is put out as soon as it touches nothing; one that is put inside it
        # later is painted before it.
        letters = {"W": WHITE, "K": KEY, "R": RED, "N": NEAR_KEY, "G": GREEN}
        chart = (9, 2, b"".join(bytes(letters[letter]) for letter in "WWKKKKKKW" + "WWKRNNKGR"))
        said, original = self.explained(chart, 4, 1, {"good_min_area": 0, "key": "ff00ff", "action": "discard"})
        self.assertEqual((original.holders(13), original.painter(13)), ([0, 4], 4))
        self.assertIn(0, original.answer["outputs"])
        self.assertIn("Cluster 0 was put out after cluster 4.", said)
        self.assertRegex(said, r"pixels? left to cluster 4\.")
        self.assertIn("The smallest cluster that holds this pixel is cluster 0.", said)

    @with_original
    def test_picture(self):
        chart = rings(16, [WHITE, RED, GREEN], 4)
        self.chart("chart.png", chart)
        self.sheet("explain", "chart.png", 5, 5, "--picture", "p.png", "--good_min_area", 3)
        original = Original(chart, {"good_min_area": 3})
        held = original.pixels[original.holders(5 * 16 + 5)[0]]
        width, height, image = decode_png(self.files()["p.png"])
        scale = width // 16
        self.assertEqual((width, height), (16 * scale, 16 * scale))
        self.assertGreaterEqual(scale, 4)
        at = lambda x, y: image[4 * (y * width + x):4 * (y * width + x) + 4]
        for pixel in range(256):
            y, x = divmod(pixel, 16)
            shade = original.answer["picture"][4 * pixel:4 * pixel + 4]
            middle = at(x * scale + scale // 2, y * scale + scale // 2)
            dimmed = bytes([(channel + 2 * 208) // 3 for channel in shade[:3]]) + shade[3:]
            self.assertEqual(middle, shade if pixel in held else dimmed, pixel)
            if pixel in held:
                half, last = scale // 2, scale - 1
                sides = [(-1, 0, 0, half), (1, 0, last, half), (0, -1, half, 0), (0, 1, half, last)]
                for dx, dy, sx, sy in sides:
                    beyond = (y + dy) * 16 + x + dx if 0 <= x + dx < 16 and 0 <= y + dy < 16 else None
                    if beyond not in held:
                        self.assertIn(at(x * scale + sx, y * scale + sy), [b"\0\0\0\xff", b"\xff\xff\xff\xff"])

    def test_json_and_picture_together(self):
        self.chart("chart.png", rings(16, [WHITE, RED], 4))
        [said] = self.json("explain", "chart.png", 8, 8, "--json", "--picture", "p.pam")
        self.assertEqual(said["smallest"], said["holders"][0]["number"])
        self.assertTrue(decode_pam(self.files()["p.pam"]))
