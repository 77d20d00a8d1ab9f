"""The stored sheet, written and read back, and how a difference is told."""

import random
import struct

from support import *


class Check(Case):
    def setUp(self):
        super().setUp()
        self.image = sector_chart(48, 36, 1)
        self.chart("chart.png", self.image)

    def store(self, *options):
        self.sheet("make", "chart.png", "s.png", "--stored", "s.stored", "--quiet", *options)
        return self.files()["s.stored"]

    @with_original
    def test_the_stored_sheet_is_the_original_s_numbers(self):
        for settings in [{}, {"good_min_area": 0, "deepen_diff": 0}, {"key": "ff00ff", "action": "discard"}]:
            answer = judged(self.image, settings)
            numbers = [48, 36, answer["n"], answer["m"]]
            for pair in zip(answer["labels"], answer["links"]):
                numbers += pair
            for slot in answer["table"]:
                numbers += slot[:2]
            numbers += answer["outputs"]
            self.assertEqual(self.store(*options_of(settings)), struct.pack(f"<{len(numbers)}H", *numbers))

    def test_a_round_trip(self):
        rng = random.Random(1)
        for index in range(10):
            width, height = rng.randint(1, 40), rng.randint(1, 40)
            self.image = speckled(width, height, [RED, WHITE, KEY, BLACK], index, run=30)
            self.chart("chart.png", self.image)
            action = rng.choice(["keep", "discard"])
            settings = options_of({"good_min_area": rng.choice([0, 4]), "key": "ff00ff", "action": action})
            self.store(*settings)
            said = self.sheet("check", "s.stored", "chart.png", *settings).stdout.decode()
            self.assertEqual(said, "s.stored: equal to a fresh run of chart.png\n")
            [found] = self.json("check", "s.stored", "chart.png", "--json", *settings)
            self.assertEqual(found, {"stored": "s.stored", "chart": "chart.png", "same": True, "differences": []})
            self.assertEqual(self.sheet("check", "-q", "s.stored", "chart.png", *settings).stdout, b"")

    def test_every_kind_of_difference(self):
        whole = self.store()
        numbers = list(struct.unpack(f"<{len(whole) // 2}H", whole))
        pixels, slots, outputs = 48 * 36, numbers[2], numbers[3]
        places = {
            "labels": (4 + 2 * 50, "column 2, row 1", 50),
            "links": (4 + 2 * 50 + 1, "column 2, row 1", 50),
            "first_pixels": (4 + 2 * pixels + 2 * 7, "cluster 7", 7),
            "pixel_counts": (4 + 2 * pixels + 2 * 7 + 1, "cluster 7", 7),
            "outputs": (4 + 2 * pixels + 2 * slots + 1, "place 1", 1),
        }
        for what, (place, words, first) in places.items():
            changed = numbers.copy()
            changed[place] = 1 if changed[place] != 1 else 2
            self.put("changed.stored", struct.pack(f"<{len(numbers)}H", *changed))
            said = self.sheet("check", "changed.stored", "chart.png", status=1).stdout.decode()
            self.assertIn("changed.stored: differs from a fresh run of chart.png\n", said)
            both = f"stored {changed[place]:,}, fresh {numbers[place]:,}"
            self.assertIn(f": 1 differs, the first at {words}: {both}\n", said)
            [found] = self.json("check", "changed.stored", "chart.png", "--json", status=1)
            self.assertFalse(found["same"])
            right = {"what": what, "count": 1, "first": first, "stored": changed[place], "fresh": numbers[place]}
            self.assertEqual(found["differences"], [right])
        self.assertGreater(outputs, 1)

    def test_other_settings_and_other_charts_differ(self):
        self.store()
        said = self.sheet("check", "s.stored", "chart.png", "--deepen_diff", 300, status=1).stdout.decode()
        self.assertIn("m, the number of outputs", said)
        self.assertIn("the settings are not those", said)
        self.chart("other.png", sector_chart(36, 48, 1))
        [found] = self.json("check", "s.stored", "other.png", "--json", status=1)
        whats = [difference["what"] for difference in found["differences"]]
        self.assertEqual(whats[:2], ["width", "height"])
        self.assertNotIn("labels", whats)

    def test_damaged_ones(self):
        whole = self.store()
        for data, says in [
            (b"", "it is empty"), (whole[:7], "cut off in its first numbers"), (whole[:-1], "but its first numbers say"),
            (whole + b"\0", "but its first numbers say"), (b"\0" * 8, "no pixels or no clusters"),
            (whole[:8] + b"\xff\xff" + whole[10:], "a label is 65535"), (whole[:-2] + b"\xff\xff", "an output is 65535"),
        ]:
            self.put("s.stored", data)
            self.refused("check", "s.stored", "chart.png", says=says, name="s.stored")
        self.put("s.stored", whole + bytes(1 << 20))
        self.refused("check", "s.stored", "chart.png", says="no stored sheet: it has 1 MiB or more", name="s.stored")
        self.refused("check", "absent.stored", "chart.png", says="there is no such file", name="absent.stored")
        self.put("s.stored", whole)
        self.refused("check", "s.stored", "absent.png", says="its chart absent.png: there is no such file", name="s.stored")
        self.put("large.png", SIGNATURE + header(300, 300))
        self.refused("check", "s.stored", "large.png", says="refusal 3: the chart is 300 × 300", name="s.stored")

    def test_files_the_wrong_way_round(self):
        self.store()
        says = "it is a picture. Give the stored sheet first, and then its chart."
        self.refused("check", "chart.png", "s.stored", says=says, name="chart.png")
        self.put("chart.pam", pam(*self.image))
        self.refused("check", "chart.pam", "s.stored", says=says, name="chart.pam")
        self.refused("check", "s.stored", "s.stored", says="its chart s.stored: it is neither PNG nor PAM", name="s.stored")

    def test_json_of_a_failure_names_both_files(self):
        self.store()
        for stored, chart, refusal, error in [
            ("absent.stored", "chart.png", None, "there is no such file"),
            ("s.stored", "absent.png", None, "its chart absent.png: there is no such file"),
        ]:
            [found] = self.json("check", stored, chart, "--json", status=1)
            self.assertEqual(found, {"stored": stored, "chart": chart, "refusal": refusal, "error": error})

    def test_several_pairs(self):
        whole = self.store()
        self.put("bad.stored", whole[:-2])
        words = ["check", "s.stored", "chart.png", "bad.stored", "chart.png", "s.stored", "chart.png"]
        result = self.sheet(*words, status=1)
        self.assertEqual(result.stdout.decode(), 2 * "s.stored: equal to a fresh run of chart.png\n")
        self.assertEqual(result.stderr.count(b"\n"), 1)
        self.sheet("check", "s.stored", "-", input=png(*self.image))
        self.sheet("check", "-", "chart.png", input=whole)
