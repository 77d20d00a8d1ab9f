"""What the tests of the repository's scripts share: copies of the scripts in a repository of its own, and stand-ins on the
PATH for the programs that they call."""

import os
import re
import shutil

from support import *

ROOT = Path(__file__).resolve().parents[2]
PACKAGES = re.findall(r"librust-[a-z-]+-dev", (ROOT / "reference/packages.sh").read_text())
HOUR = 3600 * 10**9

# Debian's programs: INSTALLED is a file with the names of packages, and how apt-get is called goes to LOG.
DEBIAN = {
    "dpkg-query": 'for package; do :; done; if grep -qx "$package" "$INSTALLED"; then echo installed; fi',
    "apt-get": 'echo "apt-get $*" >>"$LOG"',
    "sudo": 'exec "$@"',
}


class ScriptCase(Case):
    def setUp(self):
        super().setUp()
        self.root, self.programs = self.folder / "repository", self.folder / "programs"
        self.root.mkdir()
        self.programs.mkdir()
        self.log, self.installed = self.folder / "log", self.folder / "installed"
        self.log.write_text("")
        self.installed.write_text("\n".join(PACKAGES) + "\n")
        self.environment = {"PATH": f"{self.programs}:/usr/bin:/bin", "LOG": str(self.log), "INSTALLED": str(self.installed)}

    def copy(self, *scripts):
        """Copies scripts of this repository."""
        for script in scripts:
            (self.root / script).parent.mkdir(parents=True, exist_ok=True)
            shutil.copy(ROOT / script, self.root / script)

    def write(self, file, text=""):
        """Writes a file of the repository."""
        (self.root / file).parent.mkdir(parents=True, exist_ok=True)
        (self.root / file).write_text(text)

    def stand_in(self, name, text):
        """A program on the PATH, in the shell's words."""
        (self.programs / name).write_text(f"#!/bin/sh\n{text}\n")
        (self.programs / name).chmod(0o755)

    def change(self, file):
        """Changes a file after all that is there. Times are set, since a clock may be coarse: all else ages by two hours,
        and the change was an hour ago."""
        for path in self.root.rglob("*"):
            time = path.stat().st_mtime_ns - 2 * HOUR
            os.utime(path, ns=(time, time))
        self.write(file, "changed")
        time = (self.root / file).stat().st_mtime_ns - HOUR
        os.utime(self.root / file, ns=(time, time))
