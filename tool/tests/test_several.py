"""Several charts at once: in parallel, in order, and one that fails does not stop the others."""

from support import *


class Several(Case):
    def setUp(self):
        super().setUp()
        self.images = {f"{name}.png": sector_chart(40 + index, 30, index) for index, name in enumerate("abcdefgh")}
        for name, image in self.images.items():
            self.chart(name, image)

    def test_each_sheet_is_the_one_it_has_alone(self):
        alone = {name: decode_pam(self.sheet("make", name, "-").stdout) for name in self.images}
        for jobs in ([], ["--jobs", "1"], ["--jobs", "7"]):
            said = self.sheet("make", *self.images, "--out-dir", "out", "--stored-dir", "stored/deep", *jobs).stdout.decode()
            for name in self.images:
                self.assertEqual(decode_png((self.folder / "out" / name).read_bytes()), alone[name])
                stem = name.removesuffix(".png")
                self.sheet("check", f"stored/deep/{stem}.stored", name)
            names = [line.split(":")[0] for line in said.splitlines()]
            self.assertEqual(names, [f"out/{name}" for name in self.images])

    @with_original
    def test_each_sheet_is_the_original_s(self):
        lines = self.json("make", *self.images, "--out-dir", "out", "--json")
        for (name, image), line in zip(self.images.items(), lines, strict=True):
            answer = judged(image, {})
            self.assertEqual(decode_png((self.folder / "out" / name).read_bytes())[2], answer["picture"])
            self.assertEqual((line["n"], line["m"]), (answer["n"], answer["m"]))

    def test_one_bad_chart_does_not_stop_the_others(self):
        self.put("c.png", b"no chart")
        self.put("f.png", SIGNATURE + header(300, 300))
        result = self.sheet("make", *self.images, "--out-dir", "out", status=1)
        errors = sorted(result.stderr.decode().splitlines())
        self.assertEqual(len(errors), 2)
        self.assertEqual(errors[0], "sheet: c.png: it is neither PNG nor PAM. Save the chart as PNG.")
        self.assertTrue(errors[1].startswith("sheet: f.png: refusal 3: "))
        made = sorted(path.name for path in (self.folder / "out").iterdir())
        self.assertEqual(made, [name for name in self.images if name not in ("c.png", "f.png")])
        self.assertEqual(len(result.stdout.splitlines()), 6)

    def test_json_has_a_line_for_each_in_their_order(self):
        self.put("c.png", b"no chart")
        lines = self.json("make", *self.images, "--out-dir", "out", "--json", status=1)
        self.assertEqual([line["chart"] for line in lines], list(self.images))
        for line in lines:
            if line["chart"] == "c.png":
                self.assertEqual(line, {"chart": "c.png", "refusal": None, "error": "it is neither PNG nor PAM. Save the chart as PNG."})
                continue
            [alone] = self.json("clusters", line["chart"], "--json")
            self.assertEqual((line["n"], line["m"]), (alone["n"], alone["m"]))
            self.assertEqual((line["width"], line["height"]), self.images[line["chart"]][:2])
            self.assertEqual(set(line["milliseconds"]), {"read", "run_and_paint", "write"})
            # A clock may be too coarse for a small chart.
            self.assertTrue(all(time >= 0 for time in line["milliseconds"].values()))

    def test_lists_of_several(self):
        self.put("b.png", b"")
        result = self.sheet("clusters", "a.png", "b.png", "c.png", status=1)
        self.assertEqual(result.stderr, b"sheet: b.png: it is empty\n")
        heads = [line for line in result.stdout.decode().splitlines() if "painted" in line]
        self.assertEqual([head.split(":")[0] for head in heads], ["a.png", "c.png"])
        lines = self.json("clusters", "a.png", "b.png", "c.png", "--json", status=1)
        self.assertEqual([line["chart"] for line in lines], ["a.png", "b.png", "c.png"])

    def test_two_charts_for_one_sheet_are_bad_usage(self):
        (self.folder / "x").mkdir()
        self.chart("x/a.png", self.images["a.png"])
        self.misused("make", "a.png", "x/a.png", "--out-dir", "out", says="out/a.png would be written twice, for a.png and x/a.png")
        self.put("a.pam", pam(*self.images["a.png"]))
        self.misused("make", "a.png", "a.pam", "--out-dir", "out", says="written twice")
        self.misused("make", "a.png", "a.png", "--out-dir", "out", says="written twice")
        self.misused("make", "-", "a.png", "--out-dir", "out", says="standard input has no name")
        self.misused("make", "a.png", "b.png", "--out-dir", "x", "--stored", "s", says="--stored")

    def test_a_sheet_never_falls_on_another_chart(self):
        (self.folder / "x").mkdir()
        self.chart("x/a.png", self.images["a.png"])
        self.misused("make", "a.png", "x/a.png", "b.png", "--out-dir", "x", says="written")
        self.misused("make", "x/a.png", "b.png", "--out-dir", ".", says="b.png is a chart and would be written over")

    def test_no_folder_is_made_where_all_fail(self):
        for name in self.images:
            self.put(name, b"")
        self.sheet("make", *self.images, "--out-dir", "out", status=1)
        self.assertFalse((self.folder / "out").exists())

    def test_quietly_only_what_is_wrong_is_told(self):
        for words in (["make", "--out-dir", "out"], ["clusters"]):
            result = self.sheet(*words, *self.images, "--quiet")
            self.assertEqual((result.stdout, result.stderr), (b"", b""))
            self.misused(*words, *self.images, "--quiet", "--json", says="--json")
            result = self.sheet(*words, "a.png", "absent.png", "-q", status=1)
            self.assertEqual((result.stdout, result.stderr), (b"", b"sheet: absent.png: there is no such file\n"))
