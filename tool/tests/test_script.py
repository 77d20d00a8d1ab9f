"""The script at the repository's root: what it sets up, and when. Stand-ins on the PATH write down how
rt, cargo and Debian's programs are called."""

from scripts import *

FILES = [
    "tool/src/main.rs", "tool/Cargo.toml", "tool/build.rs", "tool/.cargo/config.toml", "crates.txt", "crates/rules/src/lib.rt",
    "crates/rules/specs/Lib.antt", "crates/color_clusters_c/src/lib.rt",
]

STAND_INS = {
    **DEBIAN,
    "rt": 'echo "rt $* in ${PWD##*/}" >>"$LOG"; mkdir -p out; echo "made by rt" >"out/lib${PWD##*/}.a"; echo proving',
    "cargo": """echo "cargo $* in ${PWD##*/} with $COLOR_CLUSTERS_LIB" >>"$LOG"
        mkdir -p "$CARGO_TARGET_DIR/release"
        printf '#!/bin/sh\\necho "ran: $*"; exit 7\\n' >"$CARGO_TARGET_DIR/release/sheet"
        chmod +x "$CARGO_TARGET_DIR/release/sheet\"""",
}


class Script(ScriptCase):
    def setUp(self):
        super().setUp()
        for file in FILES:
            self.write(file)
        self.copy("sheet", "reference/packages.sh")
        for name, text in STAND_INS.items():
            self.stand_in(name, text)

    def script(self, *words, program=None, status=7, **variables):
        """Runs the script from another folder, and answers what it called, said and printed."""
        self.log.write_text("")
        environment = {**self.environment, **variables}
        command = [program or self.root / "sheet", *words]
        result = subprocess.run(command, cwd=self.folder, env=environment, capture_output=True, timeout=PATIENCE)
        self.assertEqual(result.returncode, status, result.stderr)
        return self.log.read_text().splitlines(), result.stderr.decode(), result.stdout.decode()

    def test_from_nothing_and_then_quietly(self):
        called, said, printed = self.script("make", "a b.png", "c.png")
        self.assertEqual(called[0], "rt lib in color_clusters_c")
        self.assertEqual((self.root / "target/staticlib/libcolor_clusters.a").read_text(), "made by rt\n")
        self.assertEqual(called[1], f"cargo build --release --offline --quiet in tool with {self.root}/target/staticlib")
        self.assertEqual(len(called), 2)
        self.assertIn("proving", said)
        # Standard output is the tool's alone, and so is the exit status.
        self.assertEqual(printed, "ran: make a b.png c.png\n")
        self.assertEqual(self.script("clusters"), ([], "", "ran: clusters\n"))

    def test_only_what_is_stale_is_made_again(self):
        self.script()
        self.change("tool/src/main.rs")
        called, _, _ = self.script()
        self.assertEqual([line.split()[0] for line in called], ["cargo"])
        self.assertEqual(self.script()[0], [])
        self.change("crates/rules/specs/Lib.antt")
        called, _, _ = self.script()
        self.assertEqual([line.split()[0] for line in called], ["rt", "cargo"])
        self.assertEqual(self.script()[0], [])

    def test_packages_that_are_missing_are_installed_by_name(self):
        self.installed.write_text(self.installed.read_text().replace("librust-png-dev\n", "").replace("librust-rayon-dev\n", ""))
        called, said, _ = self.script()
        installing = [line for line in called if line.startswith("apt-get install")]
        self.assertEqual(len(installing), 1)
        self.assertTrue(installing[0].endswith(" librust-png-dev librust-rayon-dev"), installing)
        self.assertIn("sheet: installing librust-png-dev librust-rayon-dev", said)

    def test_an_archive_elsewhere_is_linked_and_none_is_built(self):
        elsewhere = self.folder / "elsewhere"
        elsewhere.mkdir()
        (elsewhere / "libcolor_clusters.a").write_text("")
        called, _, _ = self.script(COLOR_CLUSTERS_LIB="elsewhere")
        self.assertEqual(called, [f"cargo build --release --offline --quiet in tool with {elsewhere}"])
        self.assertEqual(self.script(COLOR_CLUSTERS_LIB="elsewhere")[0], [])
        called, _, _ = self.script()
        self.assertEqual([line.split()[0] for line in called], ["rt", "cargo"])

    def test_without_rt(self):
        (self.programs / "rt").unlink()
        called, said, _ = self.script(status=1)
        self.assertEqual(called, [])
        self.assertIn("there is no archive of the library, and no rt on the PATH", said)
        self.write("target/staticlib/libcolor_clusters.a")
        self.assertEqual(len(self.script()[0]), 1)

    def test_through_a_link(self):
        (self.folder / "link").symlink_to(self.root / "sheet")
        self.assertEqual(self.script("a", program=self.folder / "link")[2], "ran: a\n")

    def test_a_proof_or_build_that_fails_runs_nothing(self):
        for name in ("rt", "cargo"):
            self.stand_in(name, "exit 3")
            _, _, printed = self.script(status=3)
            self.assertEqual(printed, "")
            self.stand_in(name, STAND_INS[name])
        self.script()
