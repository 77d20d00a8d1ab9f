"""Each refusal becomes a sentence that names its number and what to do, with exit status 1; bad usage
has 2. Nothing is written either way."""

from support import *


class Refusals(Case):
    def setUp(self):
        super().setUp()
        self.chart("chart.png", speckled(6, 4, [RED, WHITE], 1))

    def test_1_the_shift(self):
        for shift in (8, -1, 2147483647):
            says = [f"refusal 1: is_same_color_a is {shift}, but it must be from 0 to 7", "Give --is_same_color_a"]
            self.refused("make", "chart.png", "s.png", "--is_same_color_a", shift, says=says, name="chart.png")
            self.refused("explain", "chart.png", 0, 0, "--is_same_color_a", shift, says=says, name="chart.png")
            self.refused("clusters", "chart.png", "--is_same_color_a", shift, says=says, name="chart.png")
        for shift in (0, 7):
            self.sheet("clusters", "chart.png", "--is_same_color_a", shift)

    def test_2_no_pixels(self):
        self.put("none.pam", pam(0, 5, b""))
        self.put("none.png", SIGNATURE + header(5, 0) + chunk(b"IDAT", zlib.compress(b"")) + chunk(b"IEND", b""))
        for name, size in [("none.pam", "0 × 5"), ("none.png", "5 × 0")]:
            says = [f"refusal 2: the chart is {size}", "at least 1 × 1"]
            self.refused("make", name, "s.png", says=says, name=name)

    def test_3_above_the_limit(self):
        self.put("large.png", png(65_001, 1, bytes(RED) * 65_001))
        self.put("large.pam", pam(300, 300, bytes(RED) * 90_000))
        says = ["refusal 3: the chart is 65,001 × 1, which is 65,001 pixels", "the limit is 65,000", "65,000 × 1 for example"]
        self.refused("make", "large.png", "s.png", says=says, name="large.png")
        says = ["300 × 300, which is 90,000 pixels", "the limit is 65,000", "254 × 254 for example"]
        self.refused("explain", "large.pam", 0, 0, says=["refusal 3", *says], name="large.pam")

    def test_3_is_told_by_the_header_alone(self):
        largest = 2 ** 31 - 1
        self.put("header.png", SIGNATURE + header(largest, largest))
        self.put("header.pam", pam(4294967295, 4294967295, b""))
        self.refused("make", "header.png", "s.png", says=["refusal 3", "2,147,483,647 × 2,147,483,647", "65,000"])
        self.refused("make", "header.pam", "s.png", says=["refusal 3", "4,294,967,295 × 4,294,967,295"])

    def test_the_largest_charts_pass(self):
        for width, height in [(65_000, 1), (1, 65_000), (260, 250)]:
            self.put("large.png", png(width, height, bytes(RED) * 65_000))
            self.sheet("make", "large.png", "s.png", "--quiet")
            self.assertEqual(decode_png(self.files()["s.png"])[:2], (width, height))

    def test_checks_come_in_their_order(self):
        self.put("header.png", SIGNATURE + header(70_000, 70_000))
        self.refused("make", "header.png", "s.png", "--is_same_color_a", 9, says="refusal 1")

    def test_11_no_such_row_and_no_such_column(self):
        says = ["refusal 11: the chart has no row 4: it has 4 rows, counted from 0 to 3", "Give such a Y"]
        self.refused("explain", "chart.png", 0, 4, says=says, name="chart.png")
        says = ["the chart has no column 6: it has 6 columns, counted from 0 to 5", "Give such an X"]
        self.refused("explain", "chart.png", 6, 0, says=says, name="chart.png")
        self.refused("explain", "chart.png", 0, 4294967295, "--picture", "p.png", says="no row 4,294,967,295")
        self.sheet("explain", "chart.png", 5, 3)

    def test_json_carries_the_number(self):
        self.put("header.png", SIGNATURE + header(300, 300))
        [made] = self.json("make", "header.png", "s.png", "--json", status=1)
        self.assertEqual((made["chart"], made["refusal"]), ("header.png", 3))
        self.assertIn("90,000", made["error"])
        [said] = self.json("explain", "chart.png", 0, 9, "--json", status=1)
        self.assertEqual((said["chart"], said["refusal"]), ("chart.png", 11))
        [listed] = self.json("clusters", "absent.png", "--json", status=1)
        self.assertEqual((listed["refusal"], listed["error"]), (None, "there is no such file"))

    def test_files_that_can_not_be_read(self):
        self.refused("make", "absent.png", "s.png", says="there is no such file", name="absent.png")
        (self.folder / "folder").mkdir()
        self.refused("make", "folder", "s.png", says="it is a folder", name="folder")
        self.put("text.png", b"a text, not a chart")
        self.refused("make", "text.png", "s.png", says="it is neither PNG nor PAM. Save the chart as PNG.", name="text.png")
        self.put("empty.png", b"")
        self.refused("make", "empty.png", "s.png", says="it is empty", name="empty.png")
        self.refused("make", "-", "s.png", says="it is empty", name="standard input", input=b"")
        with open("/dev/zero", "rb") as zeros:
            self.refused("make", "-", "s.png", says="neither PNG nor PAM", stdin=zeros)


class Usage(Case):
    def setUp(self):
        super().setUp()
        self.chart("chart.png", speckled(6, 4, [RED, WHITE], 1))

    def test_numbers_that_make_no_sense(self):
        for option, number in [
            ("--is_same_color_a", "2147483648"), ("--is_same_color_a", "four"), ("--is_same_color_b", "-2147483649"),
            ("--hierarchical", "4294967296"), ("--hierarchical", "-1"), ("--good_min_area", "1.5"),
            ("--good_max_area", ""), ("--hollow_neighbours", "99999999999999999999"), ("--deepen_diff", "0x10"),
            ("--key", "ff00f"), ("--key", "gg00ff"), ("--key", "ff00ff00ff"), ("--jobs", "0"), ("--jobs", "x"),
        ]:
            self.misused("make", "chart.png", "s.png", option, number, says=option)
        for x, y in [(-1, 0), (0, -1), ("a", 0), (4294967296, 0), (0.5, 0)]:
            self.misused("explain", "chart.png", x, y)

    def test_words_that_make_no_sense(self):
        self.misused(says="Usage")
        self.misused("paint", "chart.png", says="paint")
        self.misused("make", says="Usage")
        self.misused("make", "chart.png", says="give the sheet")
        self.misused("make", "chart.png", "a.png", "b.png", says="--out-dir")
        self.misused("make", "chart.png", "s.png", "--sharpen", says="--sharpen")
        self.misused("make", "chart.png", "s.png", "--keep", says="--key")
        self.misused("make", "chart.png", "s.png", "--key", "ff00ff", "--keep", "--discard", says="--discard")
        self.misused("make", "chart.png", "s.jpg", says=".png or .pam")
        self.misused("make", "chart.png", "s", says=".png or .pam")
        self.misused("make", "chart.png", "-", "--json", says="standard output")
        self.misused("make", "chart.png", "s.png", "--stored", "s.png", says="written twice")
        self.misused("make", "chart.png", "s.png", "--stored", "-", says="a stored sheet goes to a file")
        self.misused("make", "chart.png", "s.png", "--stored-dir", "d", says="--out-dir")
        self.misused("explain", "chart.png", "0", says="<Y>")
        self.misused("explain", "chart.png", 0, 0, "--picture", "p.gif", says=".png or .pam")
        self.misused("clusters", says="CHART")
        self.misused("clusters", "chart.png", "--sort", "colour", says="colour")
        self.misused("clusters", "-", "-", says="only once")
        self.misused("check", "s.stored", says="one after the other")
        self.misused("check", "-", "-", says="only once")

    def test_a_chart_is_never_written_over(self):
        self.misused("make", "chart.png", "chart.png", says="would be written over")
        self.misused("make", "chart.png", "./chart.png", says="would be written over")
        self.misused("make", "chart.png", "s.png", "--stored", "chart.png", says="would be written over")
        (self.folder / "link.png").symlink_to("chart.png")
        self.misused("make", "chart.png", "link.png", says="would be written over")
        self.misused("make", "chart.png", "--out-dir", ".", says="would be written over")
        self.misused("explain", "chart.png", 0, 0, "--picture", "./chart.png", says="would be written over")

    def test_help_is_there_for_each(self):
        everything = self.sheet("--help").stdout.decode()
        for command in ["make", "explain", "clusters", "check"]:
            self.assertIn(command, everything)
            said = self.sheet(command, "--help").stdout.decode()
            names = list(DEFAULTS)[:7]
            for word in [f"sheet {command}", "Exit status", "--json", "--key <RRGGBB[AA]>", "--keep", "--discard"]:
                self.assertIn(word, said)
            for name in names:
                self.assertIn(f"--{name} ", said)
                self.assertIn(f"[default: {DEFAULTS[name]}]".replace(" ", ""), "".join(said.split()))
        self.assertIn("high byte", self.sheet("make", "--help").stdout.decode())
        self.assertTrue(self.sheet("--version").stdout.startswith(b"sheet "))

    def test_options_may_be_written_with_hyphens_and_equals(self):
        self.chart("a.png", sector_chart(30, 20, 1))
        self.sheet("make", "a.png", "1.png", "--deepen_diff", "-5", "--good_min_area", "3")
        self.sheet("make", "--deepen-diff=-5", "--good-min-area=3", "a.png", "2.png")
        self.assertEqual(self.files()["1.png"], self.files()["2.png"])

    @with_original
    def test_options_are_the_original_s_settings(self):
        chart = sector_chart(30, 20, 1)
        self.chart("a.png", chart)
        self.sheet("make", "a.png", "1.png", "--deepen_diff", "-5", "--good_min_area", "3")
        right = judged(chart, {"deepen_diff": -5, "good_min_area": 3})["picture"]
        self.assertEqual(decode_png(self.files()["1.png"])[2], right)
