"""A file is written whole or not at all, and nothing else is left."""

import os
import resource
import select
import shutil
import signal
import stat

from support import *

# Of a PAM.
FIRST_BYTE = b"P"


class Files(Case):
    def setUp(self):
        super().setUp()
        self.chart("chart.png", sector_chart(48, 36, 1))

    def test_a_refusal_leaves_the_old_sheet(self):
        self.put("s.png", b"old")
        self.put("s.stored", b"old too")
        self.refused("make", "chart.png", "s.png", "--stored", "s.stored", "--is_same_color_a", 9, says="refusal 1")
        self.put("chart.png", b"")
        self.refused("make", "chart.png", "s.png", "--stored", "s.stored", says="empty")

    def test_a_new_sheet_takes_the_place_of_the_old_with_its_permissions(self):
        path = self.put("s.png", b"old")
        path.chmod(0o640)
        self.sheet("make", "chart.png", "s.png")
        self.assertEqual(stat.S_IMODE(path.stat().st_mode), 0o640)
        self.assertTrue(path.read_bytes().startswith(SIGNATURE))

    def test_a_sheet_has_the_usual_permissions(self):
        self.sheet("make", "chart.png", "s.png", umask=0o027)
        self.assertEqual(stat.S_IMODE((self.folder / "s.png").stat().st_mode), 0o640)

    def test_a_link_is_written_through(self):
        self.put("real.png", b"old")
        (self.folder / "link.png").symlink_to("real.png")
        self.sheet("make", "chart.png", "link.png")
        self.assertTrue((self.folder / "link.png").is_symlink())
        self.assertTrue(self.files()["real.png"].startswith(SIGNATURE))

    def test_places_where_no_file_can_be(self):
        (self.folder / "folder.png").mkdir()
        self.refused("make", "chart.png", "folder.png", says="folder.png can't be written: it is a folder")
        self.refused("make", "chart.png", "absent/s.png", says="there is no folder absent")
        self.refused("make", "chart.png", "chart.png/s.png", says="chart.png/s.png can't be written")
        self.refused("make", "chart.png", "s.png", "--stored", "/dev/null", says="it is no plain file")
        os.mkfifo(self.folder / "pipe.png")
        self.refused("make", "chart.png", "pipe.png", says="it is no plain file")
        self.refused("explain", "chart.png", 0, 0, "--picture", "absent/p.png", says="there is no folder absent")
        self.refused("make", "chart.png", "s.png", "--stored", "absent/s.stored", says="there is no folder absent")

    def test_all_files_of_a_chart_or_none(self):
        self.refused("make", "chart.png", "absent/s.png", "--stored", "s.stored", says="there is no folder absent")

    def as_anybody(self, *words, says):
        """Wants a failure for a user with no rights here; the superuser becomes one."""
        self.folder.chmod(0o755)
        # The program may lie where no other user comes.
        program = self.folder / "program"
        shutil.copy(SHEET, program)
        user = {"user": 65534, "group": 65534, "extra_groups": []} if os.geteuid() == 0 else {}
        try:
            subprocess.run([program, "--version"], capture_output=True, check=True, **user)
        except (PermissionError, subprocess.CalledProcessError):
            self.skipTest("where no other user comes to the temporary folder")
        self.refused(*words, says=says, program=program, **user)

    def test_a_folder_that_may_not_be_written(self):
        (self.folder / "closed").mkdir(mode=0o555)
        self.as_anybody("make", "chart.png", "closed/s.png", says="you may not write in closed")

    def test_a_chart_that_may_not_be_read(self):
        (self.folder / "chart.png").rename(self.folder / "secret.png")
        (self.folder / "secret.png").chmod(0)
        self.addCleanup((self.folder / "secret.png").chmod, 0o600)
        self.files = lambda: sorted(os.listdir(self.folder))
        self.as_anybody("clusters", "secret.png", says="secret.png: it may not be read by you")

    def test_a_disk_that_is_full(self):
        # A limit on the size of files, with its signal ignored, fails as a full disk does.
        def limited():
            signal.signal(signal.SIGXFSZ, signal.SIG_IGN)
            resource.setrlimit(resource.RLIMIT_FSIZE, (100, 100))
        self.put("s.png", b"old")
        error = self.refused("make", "chart.png", "s.png", says="s.png can't be written", preexec_fn=limited, restore_signals=False)
        self.assertIn("too large", error.lower())

    def blocked(self, **options):
        """A run that has written its stored sheet beside its place, and waits to write the sheet to a full pipe, which
        holds a small part of it. The sheet comes second, so its first byte, taken here, tells that the run is there."""
        self.chart("large.png", sector_chart(260, 250, 1))
        words = [SHEET, "make", "large.png", "-", "--stored", "s.stored"]
        pipes = {"stdout": subprocess.PIPE, "stderr": subprocess.PIPE, "bufsize": 0, "pipesize": 4096}
        process = subprocess.Popen(words, cwd=self.folder, **pipes, **options)
        self.addCleanup(process.stdout.close)
        self.addCleanup(process.stderr.close)
        if not select.select([process.stdout], [], [], PATIENCE)[0]:
            process.kill()
        self.assertEqual(process.stdout.read(1), FIRST_BYTE)
        self.assertTrue(any(name.endswith(".part") for name in os.listdir(self.folder)))
        self.assertFalse((self.folder / "s.stored").exists())
        return process

    def test_signals_leave_nothing_half_written(self):
        for number in (signal.SIGHUP, signal.SIGINT, signal.SIGTERM):
            process = self.blocked()
            process.send_signal(number)
            self.assertEqual(process.wait(PATIENCE), -number)
            self.assertEqual(sorted(self.files()), ["chart.png", "large.png"])

    def test_a_run_that_was_told_to_live_through_a_signal_does(self):
        # As nohup and a shell's background jobs do.
        for number in (signal.SIGHUP, signal.SIGINT):
            process = self.blocked(preexec_fn=lambda: signal.signal(number, signal.SIG_IGN))
            process.send_signal(number)
            decode_pam(FIRST_BYTE + process.communicate(timeout=PATIENCE)[0])
            self.assertEqual(process.returncode, 0)
            self.assertEqual(sorted(self.files()), ["chart.png", "large.png", "s.stored"])
            (self.folder / "s.stored").unlink()

    def test_even_a_killed_run_leaves_nothing_under_the_name(self):
        process = self.blocked()
        process.kill()
        process.wait(PATIENCE)
        self.assertFalse((self.folder / "s.stored").exists())

    def test_a_reader_that_stops_early_makes_the_sheet_fail(self):
        process = self.blocked()
        process.stdout.close()
        self.assertEqual(process.wait(PATIENCE), 1)
        self.assertIn(b"standard output can't be written", process.stderr.read())
        self.assertEqual(sorted(self.files()), ["chart.png", "large.png"])

    def test_a_name_as_long_as_names_can_be(self):
        name = "s" * 251 + ".png"
        self.sheet("make", "chart.png", name)
        self.assertIn(name, self.files())
        self.refused("make", "chart.png", "s" + name, says="can't be written")

    def test_the_sheet_is_the_same_each_time(self):
        self.sheet("make", "chart.png", "1.png")
        self.sheet("make", "chart.png", "2.png")
        self.assertEqual(self.files()["1.png"], self.files()["2.png"])
