"""The list of clusters: its table, and how it is sorted."""

import os

from support import *

KEYS = {
    "number": lambda one: one["number"],
    "size": lambda one: one["size"],
    "left": lambda one: (one["rectangle"]["left"], one["rectangle"]["top"]),
    "top": lambda one: (one["rectangle"]["top"], one["rectangle"]["left"]),
    "shade": lambda one: tuple(one["shade"][channel] for channel in "rgba"),
    "depth": lambda one: one["depth"],
    "holes": lambda one: one["holes"],
}


class Clusters(Case):
    def setUp(self):
        super().setUp()
        self.chart("chart.png", sector_chart(60, 45, 3))

    def listed(self, *words):
        [listed] = self.json("clusters", "chart.png", "--json", *words)
        return listed["clusters"]

    def test_sorting(self):
        unsorted = self.listed()
        self.assertGreater(len(unsorted), 4)
        self.assertEqual(self.listed("--sort", "output"), unsorted)
        self.assertEqual(self.listed("--reverse"), unsorted[::-1])
        for by, key in KEYS.items():
            right = sorted(unsorted, key=key)
            self.assertEqual(self.listed("--sort", by), right, by)
            self.assertEqual(self.listed("--sort", by, "--reverse"), right[::-1], by)
        orders = {tuple(one["number"] for one in sorted(unsorted, key=key)) for key in KEYS.values()}
        self.assertGreater(len(orders), 3)

    def test_the_table_says_what_the_json_says(self):
        lines = self.sheet("clusters", "chart.png", "--sort", "size").stdout.decode().splitlines()
        found = self.listed("--sort", "size")
        self.assertEqual(lines[0], f"chart.png: 60 × 45, {len(found)} clusters painted")
        self.assertEqual(lines[1].split(), ["cluster", "pixels", "columns", "rows", "left", "to", "it", "shade", "depth", "holes"])
        for line, one in zip(lines[2:], found, strict=True):
            box, shade = one["rectangle"], one["shade"]
            right = [
                str(one["number"]), f"{one['size']:,}",
                f"{box['left']}-{box['right'] - 1}", f"{box['top']}-{box['bottom'] - 1}",
                f"{one['own_pixels']:,}", "#" + "".join(f"{shade[channel]:02X}" for channel in "rgba"),
                str(one["depth"]), str(one["holes"]),
            ]
            self.assertEqual(line.split(), right)
            self.assertEqual(len(line), len(lines[1]))

    def test_a_reader_that_stops_early_is_no_failure(self):
        reader, writer = os.pipe()
        os.close(reader)
        with open(writer, "wb") as closed:
            result = subprocess.run([SHEET, "clusters", "chart.png"], cwd=self.folder, stdout=closed, stderr=subprocess.PIPE)
        self.assertEqual((result.returncode, result.stderr), (0, b""))
