"""Used at a terminal, as a person would."""

import os
import pty
import select

from support import *


class Terminal(Case):
    def setUp(self):
        super().setUp()
        for index, name in enumerate("abcdef"):
            self.chart(f"{name}.png", sector_chart(120, 90, index))

    def at_terminal(self, *words, status=0):
        """Runs `sheet` with all three streams on a terminal, and answers what appears there."""
        master, slave = pty.openpty()
        environment = {**os.environ, "TERM": "xterm", "COLUMNS": "100"}
        process = subprocess.Popen([SHEET, *map(str, words)], cwd=self.folder, stdin=slave, stdout=slave, stderr=slave, env=environment)
        os.close(slave)
        shown = b""
        while True:
            if not select.select([master], [], [], PATIENCE)[0]:
                process.kill()
                self.fail("nothing more appears")
            try:
                part = os.read(master, 4096)
            except OSError:
                break
            if not part:
                break
            shown += part
        os.close(master)
        self.assertEqual(process.wait(PATIENCE), status, shown)
        return shown.decode()

    def test_a_progress_line_that_goes_away(self):
        names = [f"{name}.png" for name in "abcdef"]
        shown = self.at_terminal("make", *names, "--out-dir", "out")
        # The first chart that is done is drawn whenever that is; those after it only from time to time.
        self.assertRegex(shown, r"[1-6] of 6 charts")
        # Cleared, and then the sheets in their order.
        self.assertIn("\x1b[2K", shown)
        rest = shown[shown.rindex("\x1b[2K"):]
        self.assertNotIn("of 6 charts", rest)
        for name in names:
            self.assertIn(f"out/{name}: 120 × 90", rest)

    def test_failures_stand_on_lines_of_their_own(self):
        self.put("c.png", b"no chart")
        names = [f"{name}.png" for name in "abcdef"]
        shown = self.at_terminal("make", *names, "--out-dir", "out", status=1)
        lines = shown.replace("\r", "\n").replace("\x1b[2K", "\n").replace("\x1b[1A", "\n").splitlines()
        self.assertIn("sheet: c.png: it is neither PNG nor PAM. Save the chart as PNG.", lines)

    def test_one_chart_needs_no_progress_line(self):
        shown = self.at_terminal("make", "a.png", "s.png")
        self.assertEqual(shown.replace("\r\n", "\n"), "s.png: 120 × 90, 6 clusters painted\n")

    def test_an_explanation_is_plain_text(self):
        shown = self.at_terminal("explain", "a.png", 60, 60)
        self.assertEqual(shown.replace("\r\n", "\n"), self.sheet("explain", "a.png", 60, 60).stdout.decode())
        self.assertNotIn("\x1b", shown)
        self.assertLessEqual(max(map(len, shown.splitlines())), 100)

    def test_a_sheet_is_not_thrown_at_a_terminal(self):
        shown = self.at_terminal("make", "a.png", "-", status=2)
        self.assertIn("a sheet is not written to a terminal", shown)

    def test_help_fits_the_terminal(self):
        for command in ([], ["make"], ["explain"], ["clusters"], ["check"]):
            shown = self.at_terminal(*command, "--help")
            self.assertIn("Usage", shown)
            self.assertIn("Exit status", shown)

    def test_a_wrong_word_is_answered_with_the_usage(self):
        shown = self.at_terminal("mak", "a.png", status=2)
        self.assertIn("make", shown)
