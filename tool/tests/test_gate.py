"""The gate, .ci/run over tool/test.sh: what it counts, and what it does where something fails or is missing. rt, cargo and
Debian's programs are stand-ins; the groups of tests are two small ones."""

import hashlib
import sys

from scripts import *

STAND_INS = {
    **DEBIAN,
    "python3": f'exec "{sys.executable}" "$@"',
    "rt": """echo "rt $* in ${PWD##*/}" >>"$LOG"
        case $1 in
        ci) echo 'rt: proving'; echo 'rt: ok; handles allowed: none; must-fail edits: 3 refused'; echo '5 passed, 0 failed' ;;
        lib) mkdir -p out; touch "out/lib${PWD##*/}.a" ;;
        esac""",
    "cargo": """echo "cargo $1 in ${PWD##*/}" >>"$LOG"
        mkdir -p "$CARGO_TARGET_DIR/release"
        case "$1 ${PWD##*/}" in
        'build tool') printf '#!/bin/sh\\n' >"$CARGO_TARGET_DIR/release/sheet"; chmod +x "$CARGO_TARGET_DIR/release/sheet" ;;
        'build reference') touch "$CARGO_TARGET_DIR/release/judge" ;;
        'test tool') echo 'test result: ok. 20 passed; 0 failed; 0 ignored' ;;
        'test reference') echo 'test result: ok. 300 passed; 0 failed; 0 ignored'; echo 'test result: ok. 1 passed; 0 failed' ;;
        esac""",
}

GROUP = """from support import *

class Group(Case):
    def test_alone(self):
        {alone}

    @with_original
    def test_asking(self):
        assert JUDGE
"""

LIBRARY, UNIT, REFERENCE = 5, 20, 301


class Gate(ScriptCase):
    def setUp(self):
        super().setUp()
        self.copy(".ci/run", "sheet", "tool/test.sh", "tool/tests/run.py", "tool/tests/support.py")
        self.copy("reference/packages.sh", "reference/setup.sh")
        for file in ["tool/src/main.rs", "tool/Cargo.toml", "tool/build.rs", "tool/.cargo/config.toml", "crates/rules/src/lib.rt", "crates/color_clusters_c/src/lib.rt"]:
            self.write(file)
        self.write("crates.txt", "rules:\ncolor_clusters_c staticlib: rules\n")
        for name in ("one", "two"):
            self.write(f"tool/tests/test_{name}.py", GROUP.format(alone="pass"))
        self.original = self.folder / "shared/docs/src"
        self.original.mkdir(parents=True)
        (self.original / "builder.rs").write_text("the original")
        self.write("reference/visioncortex/SHA256SUMS", f"{hashlib.sha256(b'the original').hexdigest()}  builder.rs\n")
        for name, text in STAND_INS.items():
            self.stand_in(name, text)
        self.environment["CI"] = "true"

    def gate(self, *, passed, failed=0, status=0):
        """Runs the gate and wants this status and these counts as its last line. Answers what was called, and the lines
        before the last."""
        self.log.write_text("")
        command = ["bash", self.root / ".ci/run"]
        streams = {"stdin": subprocess.DEVNULL, "stdout": subprocess.PIPE, "stderr": subprocess.STDOUT}
        result = subprocess.run(command, cwd=self.folder, env=self.environment, timeout=PATIENCE, text=True, **streams)
        *lines, last = result.stdout.splitlines()
        self.assertEqual((last, result.returncode), (f"{passed} passed, {failed} failed", status), result.stdout)
        return self.log.read_text().splitlines(), lines

    def test_both_are_counted(self):
        called, lines = self.gate(passed=LIBRARY + UNIT + REFERENCE + 4)
        tests = [f"unit tests: {UNIT} passed, 0 failed", f"reference: {REFERENCE} passed, 0 failed"]
        groups = ["one: 2 passed, 0 failed", "two: 2 passed, 0 failed", "all groups: 4 passed, 0 failed"]
        library, tool = f"{LIBRARY} passed, 0 failed", f"{UNIT + REFERENCE + 4} passed, 0 failed"
        ended = "rt: ok; handles allowed: none; must-fail edits: 3 refused"
        self.assertEqual(lines, ["rt: proving", ended, library, *tests, *groups, tool])
        self.assertEqual(called[:3], ["rt ci in repository", "rt lib in color_clusters_c", "cargo build in tool"])

    def test_the_archive_that_was_proved_is_tested(self):
        self.environment["COLOR_CLUSTERS_LIB"] = str(self.folder)
        called, _ = self.gate(passed=LIBRARY + UNIT + REFERENCE + 4)
        self.assertIn("rt lib in color_clusters_c", called)

    def test_where_the_library_fails_the_tool_is_not_tested(self):
        for says, end, passed, failed in [
            ("echo '4 passed, 2 failed'", 1, 4, 2),
            # A crash: no counts, with a status and without; counts of nothing failed, and a status.
            ("echo 'rt: broken' >&2", 2, 0, 1), ("echo 'rt: broken'", 0, 0, 1), ("echo '5 passed, 0 failed'", 2, 5, 1),
            # The counts come last or not at all.
            ("echo '5 passed, 0 failed'; echo 'rt: and then broken'", 0, 0, 1), ("kill -9 $$", 0, 0, 1),
        ]:
            with self.subTest(says):
                self.stand_in("rt", f"{says}; exit {end}")
                called, lines = self.gate(status=1, passed=passed, failed=failed)
                self.assertEqual((called, lines[-1]), ([], "gate: the tool's tests were not run, since rt ci did not pass"))
        (self.programs / "rt").unlink()
        self.gate(status=1, passed=0, failed=1)

    def test_edits_that_are_bad_are_a_failure(self):
        end = "handles allowed: none; must-fail edits:"
        kept = "done in this run: 0 of the 9 proofs (of crates and of their tests)"
        for says, bad in [("3 refused, 1 bad", 1), ("3 refused, 2 of them only by a limit, 12 bad", 12), (f"0 refused, 2 bad; {kept}", 2)]:
            with self.subTest(says):
                self.stand_in("rt", f"echo 'rt: ok; {end} {says}'; echo '5 passed, 0 failed'")
                called, lines = self.gate(status=1, passed=LIBRARY, failed=bad)
                self.assertEqual(called, [])
                self.assertIn(f"gate: {bad} of the must-fail edits are bad", lines)
        for says in ("3 refused", "3 refused, 0 bad", f"3 refused; {kept}", "3 refused, 2 of them only by a limit"):
            with self.subTest(says):
                self.stand_in("rt", STAND_INS["rt"].replace("3 refused", says))
                self.gate(passed=LIBRARY + UNIT + REFERENCE + 4)

    def test_a_test_that_fails(self):
        self.write("tool/tests/test_two.py", GROUP.format(alone="self.fail('on purpose')"))
        _, lines = self.gate(status=1, passed=LIBRARY + UNIT + REFERENCE + 3, failed=1)
        self.assertIn("two: 1 passed, 1 failed", lines)
        self.assertIn("AssertionError: on purpose", lines)

    def test_tests_that_crash(self):
        # A group that can't be read, and groups that end all of them.
        for text, passed in [("from absent import *", 2), ("import os; os._exit(0)", 0), ("import os; os._exit(7)", 0), ("raise SystemExit", 0)]:
            with self.subTest(text):
                self.write("tool/tests/test_two.py", text)
                self.gate(status=1, passed=LIBRARY + UNIT + REFERENCE + passed, failed=1)

    def test_cargo_s_tests_that_fail_or_crash(self):
        whole = STAND_INS["cargo"]
        for part, counts in [("tool", REFERENCE), ("reference", UNIT)]:
            for says, passed, failed in [
                ("echo 'test result: FAILED. 7 passed; 3 failed; 0 ignored'; exit 101", 7, 3), ("echo 'no such crate' >&2; exit 101", 0, 1),
                ("echo 'test result: ok. 7 passed; 0 failed; 0 ignored'; exit 101", 7, 1), ("exit 0", 0, 1),
            ]:
                with self.subTest(part=part, says=says):
                    self.stand_in("cargo", f'if [ "$1 ${{PWD##*/}}" = "test {part}" ]; then {says}; fi\n{whole}')
                    self.gate(status=1, passed=LIBRARY + counts + 4 + passed, failed=failed)

    def test_a_build_that_fails_is_a_failure(self):
        for part in ("tool", "reference"):
            with self.subTest(part):
                whole = STAND_INS["cargo"]
                self.stand_in("cargo", f'if [ "$1 ${{PWD##*/}}" = "build {part}" ]; then echo "error: no" >&2; exit 101; fi\n{whole}')
                _, lines = self.gate(status=1, passed=LIBRARY, failed=1)
                self.assertIn("error: no", lines)
        self.stand_in("cargo", STAND_INS["cargo"])
        self.stand_in("rt", "if [ $1 = lib ]; then exit 1; fi\n" + STAND_INS["rt"])
        (self.root / "target/staticlib/libcolor_clusters.a").unlink()
        self.gate(status=1, passed=LIBRARY, failed=1)

    def not_run(self, missing, why=".*"):
        """Wants one line that says that the tool's tests were not run, and why; and the count of rt ci alone."""
        called, lines = self.gate(passed=LIBRARY)
        self.assertEqual([line for line in lines if line.startswith("test: installing")], [f"test: installing {missing}"])
        self.assertEqual(sum("not run" in line for line in lines), 1)
        self.assertRegex(lines[-1], rf"^test: the tool's tests were not run, since Debian's packages can't be had \({why}\)$")
        self.assertEqual(called, ["rt ci in repository"])

    def test_where_packages_can_not_be_had(self):
        self.installed.write_text("")
        self.stand_in("apt-get", "echo 'E: no network' >&2; exit 100")
        self.not_run(" ".join(PACKAGES), "E: no network")
        self.installed.write_text("\n".join(PACKAGES[1:]))
        self.not_run(PACKAGES[0], "E: no network")
        self.without("apt-get")
        self.not_run(PACKAGES[0])

    def test_where_a_list_can_not_be_renewed_the_packages_decide(self):
        self.installed.write_text("")
        self.stand_in("apt-get", 'echo "apt-get $*" >>"$LOG"; [ "$1" != update ]')
        called, _ = self.gate(passed=LIBRARY + UNIT + REFERENCE + 4)
        self.assertIn("cargo build in tool", called)

    def without(self, name):
        """Hides a program of the machine: the PATH has links to all others."""
        hidden = self.folder / "machine"
        hidden.mkdir()
        for folder in ("/bin", "/usr/bin"):
            for program in os.listdir(folder):
                if program != name and not (hidden / program).exists():
                    (hidden / program).symlink_to(f"{folder}/{program}")
        (self.programs / name).unlink(missing_ok=True)
        self.environment["PATH"] = f"{self.programs}:{hidden}"

    def test_where_there_is_no_cargo(self):
        self.without("cargo")
        self.stand_in("apt-get", "echo 'E: no such package' >&2; exit 100")
        self.not_run("cargo-web", "E: no such package")
        self.stand_in("made", STAND_INS["cargo"])
        self.stand_in("apt-get", f'case $* in *" cargo-web") cp "{self.programs}/made" "{self.programs}/cargo" ;; esac')
        self.gate(passed=LIBRARY + UNIT + REFERENCE + 4)

    def test_where_there_is_no_compiler_of_c_plus_plus(self):
        self.without("c++")
        called, _ = self.gate(passed=LIBRARY + UNIT + REFERENCE + 4)
        self.assertTrue([line for line in called if line.startswith("apt-get install") and line.endswith(" g++")], called)

    def test_without_the_original(self):
        shutil.rmtree(self.original)
        called, lines = self.gate(passed=LIBRARY + UNIT + 2)
        self.assertIn("left out, for want of the original: reference, where every test is built with it", lines)
        self.assertIn("one: 1 passed, 0 failed, 1 left out", lines)
        self.assertIn("left out, for want of the original: one.test_asking, two.test_asking", lines)
        self.assertNotIn("cargo build in reference", called)

    def test_files_that_are_not_the_original_s_are_a_failure(self):
        (self.original / "builder.rs").write_text("another")
        _, lines = self.gate(status=1, passed=LIBRARY, failed=1)
        self.assertIn(f"setup: the files at {self.original} are not the original's: visioncortex, commit 0062088c89,", lines)
        (self.original / "builder.rs").unlink()
        self.gate(status=1, passed=LIBRARY, failed=1)

    def test_a_crate_that_is_not_listed(self):
        self.write("crates/stray/src/lib.rt")
        called, lines = self.gate(status=1, passed=0, failed=1)
        self.assertEqual((called, lines), ([], ["crates/stray is not listed in crates.txt"]))

    def test_one_group_alone(self):
        self.gate(passed=LIBRARY + UNIT + REFERENCE + 4)
        command = [self.root / "tool/test.sh", "two"]
        result = subprocess.run(command, cwd=self.folder, env=self.environment, timeout=PATIENCE, text=True, capture_output=True)
        self.assertEqual((result.stdout, result.returncode), ("two: 2 passed, 0 failed\nall groups: 2 passed, 0 failed\n2 passed, 0 failed\n", 0), result.stderr)
