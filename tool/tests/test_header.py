"""The header for C: programs that use it alone, in C and in C++; bad uses, of which the compiler warns or which come
back as a refusal by its name; and its constants against the sources of the library. For 64 bits.

COLOR_CLUSTERS_LIB names the folder of the library's archive."""

import re
import shutil

from support import *

ROOT = Path(__file__).resolve().parents[2]
PROGRAMS = ROOT / "tool/tests/c"
INCLUDE = ROOT / "include"
HEADER = (INCLUDE / "color_clusters.h").read_text()
ARCHIVE = os.path.join(os.environ["COLOR_CLUSTERS_LIB"], "libcolor_clusters.a")

# The compile lines of a program that uses the header.
C = "cc -std=c99 -Wall -Wextra -Wconversion -pedantic -Werror"
CPP = "c++ -x c++ -std=c++11 -Wall -Wextra -Wconversion -pedantic -Werror"
LINES = [C, CPP, f"{C} -O2", f"{CPP} -O2"]

# The compile lines under which a bad use draws a warning. Those of clang are tried where it is installed.
GCC = "gcc -std=c99 -Wall -Wextra -Wconversion -pedantic -O2"
GPP = "g++ -x c++ -std=c++11 -Wall -Wextra -Wconversion -pedantic -O2"
CLANG = "clang -std=c99 -Wall -Wextra -Wconversion -pedantic -O2"
CLANGPP = "clang++ -x c++ -std=c++11 -Wall -Wextra -Wconversion -pedantic -O2"

# Under which the header itself, included twice, has no warning.
STRICT = "-Wall -Wextra -Wconversion -Wsign-conversion -Wshadow -pedantic -Werror"
DIALECTS = [
    *(f"gcc -std={year} {STRICT} -Wc++-compat" for year in ("c99", "c11", "c17")),
    *(f"g++ -x c++ -std={year} {STRICT} -Wold-style-cast" for year in ("c++11", "c++17")),
]
CLANG_DIALECTS = [line.replace("gcc", "clang").replace("g++ -x", "clang++ -x") for line in DIALECTS]


class Compiled(Case):
    """A test that compiles C in its folder."""

    def compile(self, line, source, name="object.o"):
        """Compiles a file; the object is `name`."""
        words = [*line.split(), "-I", str(INCLUDE), "-c", str(source), "-o", name]
        # The words of the compiler in English.
        english = {**os.environ, "LC_ALL": "C"}
        return subprocess.run(words, cwd=self.folder, env=english, capture_output=True, timeout=PATIENCE, text=True)

    def clean(self, line, source, name="object.o"):
        """Wants no word of the compiler."""
        result = self.compile(line, source, name)
        self.assertEqual((result.returncode, result.stderr), (0, ""), line)

    def link(self, line, *objects):
        words = [line.split()[0], *objects, "-pthread", "-o", "program"]
        result = subprocess.run(words, cwd=self.folder, capture_output=True, timeout=PATIENCE, text=True)
        self.assertEqual((result.returncode, result.stderr), (0, ""), words)

    def run_program(self, *words, error=""):
        """What the program of the folder prints; it must end well, with this on the other stream."""
        words = ["./program", *words]
        result = subprocess.run(words, cwd=self.folder, capture_output=True, timeout=PATIENCE, text=True)
        self.assertEqual((result.returncode, result.stderr), (0, error), result.stdout)
        return result.stdout

    def printed(self, name, line, *words, library=ARCHIVE):
        """What a program of the folder `c` prints, compiled by this line without a warning."""
        self.clean(line, PROGRAMS / name)
        self.link(line, "object.o", *[library] * bool(library))
        return self.run_program(*words)


EXAMPLE = """\
one pixel
n 2, m 1
labels 1
cluster 1
  pixels 0
  columns 0 to 1, rows 0 to 1
  sum (10,20,30,255; 1)
  residue (10,20,30,255; 1)
  merged into 0, depth 0, 0 holes
  holes
row 0 (10,20,30,255)
stored 1 1 2 1 1 0 0 0 1 1 1
a patch inside another
n 3, m 2
labels 2 2
cluster 1
  pixels 0
  columns 0 to 1, rows 0 to 1
  sum (0,0,0,255; 1)
  residue (0,0,0,255; 1)
  merged into 2, depth 0, 0 holes
  holes
cluster 2
  pixels 1 0
  columns 0 to 2, rows 0 to 1
  sum (255,255,255,510; 2)
  residue (255,255,255,255; 1)
  merged into 0, depth 1, 1 holes
  holes 1
row 0 (0,0,0,255) (255,255,255,255)
stored 2 1 3 2 2 0 2 1 0 0 1 1 2 2 1 2
merged
n 3, m 1
labels 2 2
cluster 2
  pixels 1 0
  columns 0 to 2, rows 0 to 1
  sum (255,255,255,510; 2)
  residue (255,255,255,510; 2)
  merged into 0, depth 0, 0 holes
  holes
row 0 (127,127,127,255) (127,127,127,255)
stored 2 1 3 1 2 0 2 1 0 0 0 0 2 2 2
key pixels kept
n 2, m 1
labels 1 1 1 1
cluster 1
  pixels 2 0 1 3
  columns 0 to 2, rows 0 to 2
  sum (764,0,765,1020; 4)
  residue (764,0,765,1020; 4)
  merged into 0, depth 0, 0 holes
  holes
row 0 (191,0,191,255) (191,0,191,255)
row 1 (191,0,191,255) (191,0,191,255)
stored 2 2 2 1 1 2 1 4 1 1 1 0 0 0 3 4 1
key pixels discarded
n 2, m 1
labels 0 0 1 1
cluster 1
  pixels 2 3
  columns 0 to 2, rows 1 to 2
  sum (254,0,255,510; 2)
  residue (254,0,255,510; 2)
  merged into 0, depth 0, 0 holes
  holes
row 0 (0,0,0,0) (0,0,0,0)
row 1 (127,0,127,255) (127,0,127,255)
stored 2 2 2 1 0 0 0 0 1 4 1 0 0 0 3 2 1
"""


# A program around the example of the header.
EXAMPLE_AROUND = """\
#include <stdio.h>
#include <stdlib.h>
#include "color_clusters.h"

int main(void)
{{
    const uint32_t w = 2, h = {};
    const uint8_t image[] = {{0, 0, 0, 255, 0, 0, 0, 255}};
    const size_t image_len = sizeof image, picture_len = COLOR_CLUSTERS_PICTURE_LEN(COLOR_CLUSTERS_PIXELS(w, h));
    uint8_t picture[16];
{}
    return 0;
}}
"""


class Programs(Compiled):
    def test_the_example_prints_what_was_worked_by_hand(self):
        # H1, H3, H4, H10 and H9 of the rules.
        for line in LINES:
            with self.subTest(line):
                self.assertEqual(self.printed("example.c", line), EXAMPLE)

    def test_the_example_of_the_header_runs(self):
        comment = HEADER[:HEADER.index("*/")]
        example = "\n".join(re.findall(r"(?m)^ \*     (.*)$|^ \*$", comment))
        self.assertIn("color_clusters_run_and_paint_with", example)
        for line in LINES:
            with self.subTest(line):
                for rows, error in [(1, ""), (2, f"{full('IMAGE')}\n")]:
                    self.put("example.c", EXAMPLE_AROUND.format(rows, example).encode())
                    self.clean(line, "example.c")
                    self.link(line, "object.o", ARCHIVE)
                    self.run_program(error=error)

    def test_what_buffers_held_and_other_threads_change_nothing(self):
        for line in LINES:
            with self.subTest(line):
                printed = self.printed("same.c", line).splitlines()
                results = [said.split(": ") for said in printed]
                names = ["over 0", "over 1", "over 90", "over 255", "in threads"]
                self.assertEqual([name for name, _ in results], names)
                self.assertEqual(len({result for _, result in results}), 1, printed)
                one, other = results[0][1].split()
                self.assertNotEqual(one, other)
                self.assertNotIn("00000000", (one, other))

    def test_no_call_has_a_state_of_its_own(self):
        # The archive has no section that is written, so no variable.
        listed = subprocess.run(["objdump", "-h", ARCHIVE], capture_output=True, timeout=PATIENCE, text=True).stdout
        sections = re.findall(r"(?m)^ *\d+ (.*\S) +([0-9a-f]{8})  [0-9a-f]{16} .*\n +(.*)$", listed)
        self.assertTrue(any("color_clusters_run" in name for name, _, _ in sections), listed)
        self.assertEqual([name for name, size, flags in sections if int(size, 16) and "READONLY" not in flags], [])

    def test_the_structs_pass_everything_on(self):
        # Values that need all of their types.
        settings = {
            "is_same_color_a": 2**31 - 1, "is_same_color_b": -2**31, "hierarchical": 2**32 - 1,
            "good_min_area": 2**32 - 2, "good_max_area": 2**32 - 3, "hollow_neighbours": 2**32 - 4,
            "deepen_diff": 1 - 2**31, "key_r": 255, "key_g": 254, "key_b": 253, "key_a": 252, "action": 1,
        }
        names = ["image", "picture", "destination", "labels", "links", "table", "outputs", "work"]
        whole = passed(settings, {name: f"{name} {length}" for length, name in enumerate(names, 1)})
        # NULL is passed on as nothing, and not as NULL.
        numbers = list(DEFAULTS.values())[:7]
        none = passed(dict(zip(settings, [*numbers, 0, 0, 0, 0, 0])), {name: "none 0" for name in names})
        for line in LINES:
            with self.subTest(line):
                printed = self.printed("passed.c", line, library=None)
                self.assertEqual(printed.splitlines(), ["by structs", *whole, "nothing lent", *none])


def passed(settings, lent):
    """What passed.c prints of calls with these settings and this lent."""
    of_settings = [f"{name} {value}" for name, value in settings.items()]
    size = ["w 4294967290", "h 4294967291"]
    buffers = [f"{name} {lent[name]}" for name in ["image", "labels", "links", "table", "outputs", "work"]]
    sheet = [f"{name} {lent[name]}" for name in ["links", "table", "outputs"]]
    counts = ["n 4294967287", "m 4294967288"]
    return [
        "run", *of_settings, *size, *buffers, "answered 0 4294967281 4294967282",
        "run_and_paint", *of_settings, *size, *buffers, f"picture {lent['picture']}",
        "answered 0 4294967283 4294967284",
        "paint", *size, *sheet, f"picture {lent['picture']}", *counts, "4294967285",
        "store", *size, f"labels {lent['labels']}", *sheet, f"destination {lent['destination']}", *counts, "4294967286",
        # What was refused is not painted or stored.
        "4294967289", "4294967289",
    ]


# Bad uses that compile, and what each comes back as. Those of RUNS are tried with painting and without.
RUNS = {
    "shift 8": "SHIFT", "shift 8 and no column": "SHIFT", "shift -1": "SHIFT",
    "no column": "EMPTY", "no row": "EMPTY",
    "65536 x 65536": "LIMIT",
    "bytes left out": "IMAGE", "width and height of another chart": "IMAGE", "no image": "IMAGE",
}
OTHERS = {
    "painted all the same": "IMAGE", "stored all the same": "IMAGE",
    "no labels": "BUFFER", "no links": "BUFFER", "no table": "BUFFER", "no outputs": "BUFFER", "no work": "BUFFER",
    "the size of a number as a length": "BUFFER",
    "no block": "BUFFER", "a block one short": "BUFFER", "a block above the limit": "BUFFER",
    "a block of the limit": None, "a block": None,
    "picture too long": "PICTURE", "no picture": "PICTURE", "picture left out": "PICTURE",
    "n too large": "BUFFER", "m too large": "BUFFER",
    "entry not below n": "ENTRY",
    "residue that counts nothing": "AVERAGE", "residue of too much": "AVERAGE",
    "more pixels than there are": "LIST", "no first pixel": "LIST", "link astray": "LIST",
    "the same, whole": None,
    "row h": "ROW", "row of another picture": "PICTURE", "last row": None,
    "destination too long": "DESTINATION", "no destination": "DESTINATION",
    "label of 65536": "NUMBER", "label of 65535": None, "labels for links too": None,
    "shift 8, labels twice": "SHIFT", "no column, labels twice": "EMPTY", "65001 x 1, labels twice": "LIMIT",
    "no image, labels twice": "IMAGE", "labels twice, picture too long": "BUFFER",
    "no work, picture in image": "BUFFER",
}

# The names of all numbers from 1 on.
NAMES = [
    "SHIFT", "EMPTY", "LIMIT", "IMAGE", "BUFFER", "PICTURE", "SUM", "ENTRY", "AVERAGE", "LIST", "ROW", "NUMBER",
    "DESTINATION",
]


# What calls may be given. Of each call by structs, with which of them it is tried as the later of a pair, and which of
# the earlier it is given.
GIVEN = ["labels", "links", "table", "outputs", "work", "image", "picture", "destination"]
CALLS = {
    "run": (GIVEN[:6], GIVEN), "run and paint": (GIVEN[:7], GIVEN),
    "paint": (["picture"], ["links", "table", "outputs"]),
    "store": (["destination"], ["labels", "links", "table", "outputs"]),
}


def overlaps():
    """What refusals.c prints of every pair: three times they overlap, and then they touch twice."""
    for place, later in enumerate(GIVEN):
        name = later.upper() if later in GIVEN[6:] else "BUFFER"
        for earlier in GIVEN[:place]:
            yield f"{earlier} and {later}"
            for overlapping in (True, True, True, False, False):
                for call, (tried, given) in CALLS.items():
                    if later in tried:
                        yield f" {call}: {full(name if overlapping and earlier in given else None)}"


def full(name):
    """The name of a number as the header spells it."""
    return f"COLOR_CLUSTERS_REFUSED_{name}" if name else "COLOR_CLUSTERS_ACCEPTED"


class Refused(Compiled):
    def refused(self, lines):
        """Runs all bad uses, compiled by these lines."""
        expected = []
        for what, name in RUNS.items():
            expected += [f"{what}: {full(name)}", f"and with painting: {full(name)}"]
        expected += [f"{what}: {full(name)}" for what, name in OTHERS.items()]
        expected += overlaps()
        expected += [f"{number} {full(name)}" for number, name in enumerate([None, *NAMES])]
        expected += ["14 no number of the library"]
        for line in lines:
            with self.subTest(line):
                self.assertEqual(self.printed("refusals.c", line).splitlines(), expected)

    def test_what_c_cannot_warn_of_is_refused_by_name(self):
        self.refused(LINES)
        # All but the one that no call answers.
        self.assertEqual({*RUNS.values(), *OTHERS.values()} - {None}, set(NAMES) - {"SUM"})

    @unittest.skipUnless(shutil.which("clang++"), "clang is not installed")
    def test_nothing_undefined_is_done_for_it(self):
        # A program that does such a thing is ended.
        self.refused([f"{line} -fsanitize=undefined -fsanitize-trap=undefined" for line in (CLANG, CLANGPP)])


# One fault at a time in good.c: what is wrong, the right text and the wrong one, and what gcc, g++, clang and clang++
# say of it; None where that compiler cannot tell.
SETTINGS = "settings = COLOR_CLUSTERS_DEFAULTS;\n    color_clusters_buffers"
RUN = "(&settings, w, h, image, COLOR_CLUSTERS_IMAGE_LEN(PIXELS), &buffers)"
PAINT = "&buffers, answer, picture, COLOR_CLUSTERS_PICTURE_LEN(PIXELS))"
SHORT, OVER, UNSET = "-Wstringop-overflow=", "-Wstringop-overread", "uninitialized"
BAD = [
    ("settings and buffers swapped", RUN, "(&buffers, w, h, image, COLOR_CLUSTERS_IMAGE_LEN(PIXELS), &settings)",
     "-Wincompatible-pointer-types", "cannot convert", "-Wincompatible-pointer-types", "no matching function"),
    ("settings by value", RUN, RUN.replace("&settings", "settings"),
     "incompatible type for argument 1", "cannot convert", "incompatible type", "no matching function"),
    ("n in place of the answer", PAINT, PAINT.replace("answer", "answer.n"),
     "incompatible type for argument 4", "could not convert", "incompatible type", "no matching function"),
    ("no image", RUN, RUN.replace("image", "NULL", 1), "-Wnonnull", "-Wnonnull", None, None),
    ("no picture", PAINT, PAINT.replace("picture", "NULL", 1), "-Wnonnull", "-Wnonnull", None, None),
    ("settings not set", SETTINGS, SETTINGS.replace(" = COLOR_CLUSTERS_DEFAULTS", ""), UNSET, UNSET, None, None),
    ("a setting left out", SETTINGS, SETTINGS.replace("COLOR_CLUSTERS_DEFAULTS", "{4, 1, 0, 16, 65536, 1, 64}"),
     *["-Wmissing-field-initializers"] * 4),
    ("a setting of another name", "settings.key_color.r", "settings.key_colour.r", *["key_colour"] * 4),
    ("a channel of 256", "key_color.r = 255", "key_color.r = 256", *["-Woverflow"] * 2, *["-Wconstant-conversion"] * 2),
    ("a fraction as a setting", "key_color.r = 255", "good_min_area = 0.5",
     *["-Wfloat-conversion"] * 2, *["-Wliteral-conversion"] * 2),
    ("a length as a width", RUN, RUN.replace("w, h", "buffers.labels_len, h"),
     *["-Wconversion"] * 2, *["-Wshorten-64-to-32"] * 2),
    ("another enum's constant", "COLOR_CLUSTERS_DISCARD", "COLOR_CLUSTERS_REFUSED_ROW",
     "-Wenum-conversion", "cannot convert", "-Wenum-conversion", "incompatible type"),
    ("a number for an action", "COLOR_CLUSTERS_DISCARD", "2", None, "invalid conversion", None, "incompatible type"),
    ("place and cluster swapped",
     "buffers.outputs[0], COLOR_CLUSTERS_PIXEL_COUNT", "COLOR_CLUSTERS_PIXEL_COUNT, buffers.outputs[0]",
     None, "invalid conversion", None, "no matching function"),
    ("labels of bytes", "uint32_t labels[", "uint8_t labels[",
     "-Wincompatible-pointer-types", "cannot convert", "-Wincompatible-pointer-types", "incompatible type"),
    ("links that are constant",
     "    uint32_t links[COLOR_CLUSTERS_LINKS_LEN(PIXELS)]", "    const uint32_t links[PIXELS] = {0}",
     "-Wdiscarded-qualifiers", "invalid conversion", "discards-qualifiers", "incompatible type"),
    ("an image not set", "image[COLOR_CLUSTERS_IMAGE_LEN(PIXELS)] = {0}", "image[COLOR_CLUSTERS_IMAGE_LEN(PIXELS)]",
     UNSET, UNSET, None, "default initialization"),
    *((f"{name} shorter than told", f"{name}[COLOR_CLUSTERS_{name.upper()}_LEN(PIXELS)]",
       f"{name}[COLOR_CLUSTERS_{name.upper()}_LEN(PIXELS) - 1]", SHORT, SHORT, None, None)
      for name in ("labels", "links", "table", "work")),
    ("outputs shorter than told", "COLOR_CLUSTERS_LEN(outputs)", "COLOR_CLUSTERS_LEN(outputs) + 1",
     SHORT, SHORT, None, None),
    ("a length in bytes", "COLOR_CLUSTERS_LEN(outputs)", "sizeof outputs", SHORT, SHORT, None, None),
    ("a block of bytes", "malloc(sizeof(uint32_t) * COLOR", "malloc(COLOR", SHORT, SHORT, None, None),
]

# Faults that do not compile at all, also with warnings off and the header among those of the system. The words of gcc,
# g++, clang and clang++.
WRONG = [
    ("a room above the limit", "ROOM(PIXELS)", "ROOM(65001)", *["within_the_limit"] * 4),
    ("a room of a size that is no constant", "buffers = COLOR_CLUSTERS_LEND(room)",
     "buffers = COLOR_CLUSTERS_LEND(room); COLOR_CLUSTERS_ROOM(w) more",
     "within_the_limit", "is not an integral constant-expression", *["fields must have a constant size"] * 2),
    ("a pointer for an array", "COLOR_CLUSTERS_LEN(outputs)", "COLOR_CLUSTERS_LEN(buffers.outputs)",
     "is negative", "no matching function", "is negative", "no matching function"),
    ("a struct with pointers for a room", "buffers = COLOR_CLUSTERS_LEND(room)",
     "buffers = COLOR_CLUSTERS_LEND(room), more = COLOR_CLUSTERS_LEND(buffers)",
     "is negative", "no matching function", "is negative", "no matching function"),
    ("a class for an array", "buffers.outputs_len = COLOR_CLUSTERS_LEN(outputs)",
     "struct { uint32_t *begin, *end, &operator[](int); } vector; buffers.outputs_len = COLOR_CLUSTERS_LEN(vector)",
     None, "no matching function", None, "no matching function"),
]


class Warned(Compiled):
    GOOD = (PROGRAMS / "good.c").read_text()

    def faults(self, lines):
        """Tries every fault by these lines, each with the place of its words in the list."""
        self.put("good.c", self.GOOD.encode())
        for line, _ in lines:
            self.clean(f"{line} -Werror", "good.c")
            self.clean(f"{line} -Werror -O0", "good.c")
        for what, right, wrong, *says in BAD:
            self.assertEqual(self.GOOD.count(right), 1, what)
            self.put("bad.c", self.GOOD.replace(right, wrong).encode())
            for line, place in lines:
                if says[place]:
                    with self.subTest(what, line=line):
                        self.assertIn(says[place], self.compile(line, "bad.c").stderr)

    def test_the_compiler_warns_of_what_it_can_tell(self):
        self.faults([(GCC, 0), (GPP, 1)])

    @unittest.skipUnless(shutil.which("clang++"), "clang is not installed")
    def test_clang_warns_too(self):
        self.faults([(CLANG, 2), (CLANGPP, 3)])

    def wrong(self, lines):
        """Tries every fault that does not compile by these lines."""
        in_any_case = f"-w -isystem {INCLUDE}"
        lines = [(f"{line.replace(' -pedantic', '')} {in_any_case}", place) for line, place in lines]
        self.put("good.c", self.GOOD.encode())
        for line, _ in lines:
            self.clean(line, "good.c")
        for what, right, wrong, *says in WRONG:
            self.assertEqual(self.GOOD.count(right), 1, what)
            self.put("bad.c", self.GOOD.replace(right, wrong).encode())
            for line, place in lines:
                if says[place]:
                    with self.subTest(what, line=line):
                        result = self.compile(line, "bad.c")
                        self.assertEqual(result.returncode, 1)
                        self.assertIn(says[place], result.stderr)

    def test_what_is_wrong_in_any_case_does_not_compile(self):
        self.wrong([(GCC, 0), (GPP, 1)])

    @unittest.skipUnless(shutil.which("clang++"), "clang is not installed")
    def test_clang_does_not_compile_it_either(self):
        self.wrong([(CLANG, 2), (CLANGPP, 3)])


# The functions of the header that answer, as what they answer, their name and their parameters.
BARE = re.sub(r"\s+", " ", re.sub(r"/\*.*?\*/", " ", HEADER, flags=re.S))
EXPORTED = re.findall(r"\b((?!return )\w+) (color_clusters_\w+)\( ?([^()]*)\);", BARE)
BY_STRUCTS = re.findall(r"(\w+) (color_clusters_\w+_with)\( ?([^()]*)\) {", BARE)


def names_of(parameters):
    return re.findall(r"(\w+)(?:,|$)", parameters)


def pointers_of(parameters, kinds):
    """The names of the pointers to these kinds, each with what it points to."""
    return {name: kind for kind, name in re.findall(rf"((?:const )?(?:{kinds})) \*(\w+)", parameters)}


class Told(Compiled):
    """What the compiler is told of each function and each argument: in files with a function on each line."""

    def warned(self, line, rows):
        """The rows of which the compiler warns, each with the names of the warnings."""
        self.put("rows.c", "\n".join(['#include "color_clusters.h"', *rows, ""]).encode())
        said = self.compile(line, "rows.c").stderr
        found = re.findall(r"(?m)^rows\.c:(\d+):\d+: warning: .*\[(-W[\w+=-]+)\]$", said)
        return {(rows[int(number) - 2], warning) for number, warning in found}

    def answers_dropped(self, lines):
        self.assertEqual((len(EXPORTED), len(BY_STRUCTS)), (5, 4))
        kept, dropped = [], []
        for kind, name, parameters in EXPORTED + BY_STRUCTS:
            call = f"{name}({', '.join(names_of(parameters))})"
            kept += [f"{kind} keep_{name}({parameters}) {{ return {call}; }}"]
            dropped += [f"void drop_{name}({parameters}) {{ {call}; }}"]
        for line in lines:
            with self.subTest(line):
                self.assertEqual(self.warned(line, kept + dropped), {(row, "-Wunused-result") for row in dropped})

    def nulls(self, lines):
        rows, none = [], []
        for functions, kinds in [(EXPORTED, r"\w+"), (BY_STRUCTS, r"color_clusters_\w+")]:
            for kind, name, parameters in functions:
                for pointer in [None, *pointers_of(parameters, kinds)]:
                    given = ["NULL" if argument == pointer else argument for argument in names_of(parameters)]
                    rows += [f"{kind} {name}_{pointer}({parameters}) {{ return {name}({', '.join(given)}); }}"]
                    none += rows[-1:] * bool(pointer)
        self.assertEqual(len(none), 6 + 4 + 7 + 1 + 5 + 2 + 2 + 1 + 1)
        for line in lines:
            with self.subTest(line):
                warned = self.warned(f"{line} -Wno-unused-parameter -O0", rows)
                self.assertEqual(warned, {(row, "-Wnonnull") for row in none})

    def test_no_answer_may_be_dropped(self):
        self.answers_dropped([GCC, GPP])

    @unittest.skipUnless(shutil.which("clang++"), "clang is not installed")
    def test_no_answer_may_be_dropped_with_clang(self):
        self.answers_dropped([CLANG, CLANGPP])

    def test_null_is_warned_of(self):
        self.nulls([GCC, GPP])

    @unittest.skipUnless(shutil.which("clang++"), "clang is not installed")
    def test_null_is_warned_of_with_clang(self):
        self.nulls([CLANG, CLANGPP])

    def test_an_array_shorter_than_told_is_warned_of(self):
        rows, short = [], set()
        for kind, name, parameters in EXPORTED + BY_STRUCTS:
            arrays = pointers_of(parameters, "uint8_t|uint32_t")
            lengths = {f"{array}_len": f"COLOR_CLUSTERS_{array.upper()}_LEN(4)" for array in arrays}
            if "destination" in arrays:
                lengths["destination_len"] = "COLOR_CLUSTERS_STORED_LEN(4, 1, 0)"
            call = f"{name}({', '.join(lengths.get(argument, argument) for argument in names_of(parameters))})"
            # The others are arguments of the row too.
            others = [each for each in parameters.split(", ") if names_of(each)[0] not in {*arrays, *lengths}]
            for shorter in [None, *arrays]:
                own = [f"{of.split()[-1]} {array}[{lengths[f'{array}_len']}{' - 1' * (array == shorter)}] = {{0}};"
                       for array, of in arrays.items()]
                rows += [f"{kind} {name}_{shorter}({', '.join(others)}) {{ {' '.join(own)} return {call}; }}"]
                if shorter:
                    short.add((rows[-1], OVER if arrays[shorter].startswith("const") else SHORT))
        self.assertEqual(len(short), 6 + 4 + 7 + 1 + 5 + 1 + 2 + 1 + 1)
        for line in (GCC, GPP):
            for optimised in ("-O0", "-O2"):
                with self.subTest(f"{line} {optimised}"):
                    self.assertEqual(self.warned(f"{line} {optimised}", rows), short)


class Alone(Compiled):
    def included_twice(self, lines):
        include = '#include "color_clusters.h"\n'
        self.put("alone.c", f"{include}{include}extern int some;\nint some = 0;\n".encode())
        for line in lines:
            for optimised in ("-O0", "-O2"):
                with self.subTest(f"{line} {optimised}"):
                    self.clean(f"{line} {optimised}", "alone.c")

    def test_the_header_compiles_alone_and_twice(self):
        self.included_twice(DIALECTS)

    @unittest.skipUnless(shutil.which("clang++"), "clang is not installed")
    def test_clang_takes_it_too(self):
        self.included_twice(CLANG_DIALECTS)

    def macros_defined(self, lines):
        words = ["access", "always_inline", "nonnull", "read_only", "warn_unused_result", "write_only"]
        macros = "".join(f'#define {word} "of the program"\n' for word in words)
        self.put("macros.c", f'{macros}#include "color_clusters.h"\nextern int some;\nint some = 0;\n'.encode())
        for line in lines:
            with self.subTest(line):
                self.clean(line, "macros.c")

    def test_a_program_may_have_macros_of_the_words_of_attributes(self):
        self.macros_defined(DIALECTS)

    @unittest.skipUnless(shutil.which("clang++"), "clang is not installed")
    def test_so_may_it_with_clang(self):
        self.macros_defined(CLANG_DIALECTS)

    def test_cpp_may_include_it_as_c(self):
        inside = 'extern "C" {\n#include "color_clusters.h"\n}\n'
        self.put("inside.c", f"{inside}extern size_t some;\nsize_t some = COLOR_CLUSTERS_LEN(\"four\");\n".encode())
        for line in DIALECTS:
            if line.startswith("g++"):
                with self.subTest(line):
                    self.clean(line, "inside.c")

    def test_a_compiler_may_know_no_attributes(self):
        # It speaks GNU C, and is told before the header that it does not. It warns of that.
        unknown = "#include <stdint.h>\n#include <stdlib.h>\n#undef __GNUC__\n#undef __has_attribute\n"
        self.put("plain.c", f"{unknown}{(PROGRAMS / 'good.c').read_text()}".encode())
        for line in (GCC, GPP):
            with self.subTest(line):
                result = self.compile(line, "plain.c")
                self.assertEqual((result.returncode, "[-W" in result.stderr), (0, False), result.stderr)

    def test_two_units_that_use_it_link(self):
        for line in LINES:
            with self.subTest(line):
                self.clean(line, PROGRAMS / "example.c", "one.o")
                self.clean(line, PROGRAMS / "good.c", "two.o")
                self.link(line, "one.o", "two.o", ARCHIVE)
                self.assertEqual(self.run_program(), EXAMPLE)

    def test_a_unit_in_c_and_one_in_cpp_link(self):
        self.clean(C, PROGRAMS / "example.c", "one.o")
        self.clean(CPP, PROGRAMS / "good.c", "two.o")
        self.link(CPP, "one.o", "two.o", ARCHIVE)
        self.assertEqual(self.run_program(), EXAMPLE)


# What a type of the library is in C, for an argument of this name.
IN_C = {
    "i32": "int32_t {}", "u32": "uint32_t {}", "u8": "uint8_t {}", "&[u8]": "const uint8_t *{0}, size_t {0}_len",
    "&[u32]": "const uint32_t *{0}, size_t {0}_len", "&mut [u8]": "uint8_t *{0}, size_t {0}_len",
    "&mut [u32]": "uint32_t *{0}, size_t {0}_len", "Answer": "color_clusters_answer {}",
}


def in_c(declaration):
    """`image: &[u8]` as C has it."""
    name, kind = declaration.split(": ")
    return IN_C[kind].format(name)


class Declared(unittest.TestCase):
    def test_the_functions_are_those_that_the_library_exports(self):
        source = (ROOT / "crates/color_clusters_c/src/lib.rt").read_text()
        exported = re.findall(r'pub extern "C" fn (\w+)\(([^)]*)\) -> (\w+)', source)
        self.assertEqual(len(exported), source.count("#[unsafe(no_mangle)]"))
        declared = [f"{kind} {name}({parameters})" for kind, name, parameters in EXPORTED]
        expected = []
        for name, arguments, answer in exported:
            parts = [in_c(part) for part in re.findall(r"\w+: [^,]+", re.sub(r"\s+", " ", arguments).strip())]
            expected.append(f"{in_c(f'{name}: {answer}')}({', '.join(parts)})")
        self.assertEqual(sorted(declared), sorted(expected))

    def test_the_answer_is_the_library_s(self):
        source = (ROOT / "crates/color_clusters/src/exports.rt").read_text()
        fields = re.search(r"pub struct Answer \{([^}]*)\}", source).group(1)
        ours = [in_c(field) for field in re.findall(r"(\w+: \w+),", fields)]
        theirs = re.search(r"typedef struct \{([^}]*)\} color_clusters_answer;", HEADER).group(1)
        self.assertEqual(re.findall(r"(\w+ \w+);", theirs), ours)
        self.assertGreater(len(ours), 2)


LENGTHS = """\
image less 1: COLOR_CLUSTERS_REFUSED_IMAGE
image plus 1: COLOR_CLUSTERS_REFUSED_IMAGE
picture less 1: COLOR_CLUSTERS_REFUSED_PICTURE
picture plus 1: COLOR_CLUSTERS_REFUSED_PICTURE
labels less 1: COLOR_CLUSTERS_REFUSED_BUFFER
links less 1: COLOR_CLUSTERS_REFUSED_BUFFER
table less 1: COLOR_CLUSTERS_REFUSED_BUFFER
outputs less 1: COLOR_CLUSTERS_REFUSED_BUFFER
work less 1: COLOR_CLUSTERS_REFUSED_BUFFER
block: COLOR_CLUSTERS_ACCEPTED
exact: COLOR_CLUSTERS_ACCEPTED
paint: COLOR_CLUSTERS_ACCEPTED
last row: COLOR_CLUSTERS_ACCEPTED
destination less 1: COLOR_CLUSTERS_REFUSED_DESTINATION
destination plus 1: COLOR_CLUSTERS_REFUSED_DESTINATION
store: COLOR_CLUSTERS_ACCEPTED
"""


class Constants(Compiled):
    def values(self, line, expressions, before="", after=""):
        """The values of expressions, as the compiler has them, with this before the header and these declarations."""
        rows = "".join(f'    printf("%lld\\n", (long long)({text}));\n' for text in expressions)
        main = f"int main(void)\n{{\n{after}\n{rows}    return 0;\n}}\n"
        source = f'#include <stdint.h>\n#include <stdio.h>\n{before}\n#include "color_clusters.h"\n{main}'
        self.put("values.c", source.encode())
        self.clean(line, "values.c")
        self.link(line, "object.o")
        return [int(value) for value in self.run_program().split()]

    def test_the_lengths_are_those_that_the_library_asks(self):
        for line in (C, CPP):
            self.clean(line, PROGRAMS / "lengths.c")
            self.link(line, "object.o", ARCHIVE)
            for size in [(1, 1), (3, 2), (260, 250)]:
                with self.subTest(line, size=size):
                    self.assertEqual(self.run_program(*map(str, size)), LENGTHS)

    NAMES = ["LABELS", "LINKS", "TABLE", "OUTPUTS", "WORK", "IMAGE", "PICTURE", "BLOCK"]

    def lengths(self, pixels):
        """Every length, that of a stored sheet with as many slots and outputs as pixels; and the pixels of a square."""
        lengths = [f"COLOR_CLUSTERS_{name}_LEN({pixels})" for name in self.NAMES]
        stored = f"COLOR_CLUSTERS_STORED_LEN({pixels}, {pixels}, {pixels})"
        return [*lengths, stored, f"COLOR_CLUSTERS_PIXELS({pixels}, {pixels})"]

    @staticmethod
    def of_the_rules(p):
        """The same by the rules."""
        return [p, p, 21 * (p + 1), 2 * p, 8 * p + 8, 4 * p, 4 * p, 33 * p + 29, 2 * (4 + 5 * p), p * p]

    def test_the_lengths_are_those_of_the_rules(self):
        # Of sums, in products.
        texts = [text for length in self.lengths("2 + 4") for text in (length, f"1000000 / {length}", f"{length} * 2")]
        expected = [value for length in self.of_the_rules(6) for value in (length, 1000000 // length, length * 2)]
        for line in (C, CPP):
            self.assertEqual(self.values(line, texts), expected)

    def test_lengths_of_variables_do_not_wrap(self):
        # Nor do products with them.
        for line in (C, CPP):
            for large in (65536, 2**32 - 1):
                texts = [*self.lengths("1 ? large : 0"), "color_clusters_at(large, COLOR_CLUSTERS_NEXT_HOLE)"]
                found = self.values(line, [f"{text} * 3" for text in texts], after=f"const uint32_t large = {large}u;")
                expected = [*self.of_the_rules(large), 21 * large + 20]
                self.assertEqual([value % 2**64 for value in found], [3 * value % 2**64 for value in expected])

    def test_a_room_has_exactly_the_lengths_and_is_lent_whole(self):
        rooms = "typedef COLOR_CLUSTERS_ROOM(2 + 4) rooms; static rooms two[2]; rooms *const pointer = &two[1];"
        lent = [f"const color_clusters_buffers {name} = COLOR_CLUSTERS_LEND({room});"
                for name, room in [("one", "two[1]"), ("same", "*pointer"), ("first", "*two")]]
        fields = [name.lower() for name in self.NAMES[:5]]
        texts, expected = [], []
        for field, length in zip(fields, self.of_the_rules(6)):
            texts += [f"sizeof two[0].{field} / sizeof(uint32_t)", f"COLOR_CLUSTERS_LEN(two[0].{field})",
                      f"1000000 / COLOR_CLUSTERS_LEN(two[0].{field})"]
            expected += [length, length, 1000000 // length]
            for name, place in [("one", 1), ("same", 1), ("first", 0)]:
                texts += [f"{name}.{field} == two[{place}].{field}", f"{name}.{field}_len"]
                expected += [1, length]
        # The last is for a compiler that speaks neither C++ nor GNU C.
        for line, before in [(C, ""), (CPP, ""), (C, "#undef __GNUC__")]:
            self.assertEqual(self.values(line, texts, before, " ".join([rooms, *lent])), expected)

    def test_the_limit_is_the_library_s(self):
        [limit] = self.values(C, ["COLOR_CLUSTERS_LIMIT"])
        self.clean(C, PROGRAMS / "lengths.c")
        self.link(C, "object.o", ARCHIVE)
        for size in [(65_000, 1), (1, 65_000), (limit, 1)]:
            self.assertEqual(self.run_program(*map(str, size)), LENGTHS)
        above = re.sub("COLOR_CLUSTERS_.*", "COLOR_CLUSTERS_REFUSED_LIMIT", LENGTHS)
        for size in [(65_001, 1), (1, 65_001), (limit + 1, 1)]:
            self.assertEqual(self.run_program(*map(str, size)), above)

    def test_a_room_may_have_the_limit(self):
        typed = "typedef COLOR_CLUSTERS_ROOM(COLOR_CLUSTERS_LIMIT) room;"
        self.put("room.c", f'#include "color_clusters.h"\n{typed}\nextern room all;\nroom all;\n'.encode())
        for line in (C, CPP):
            self.clean(line, "room.c")

    def test_the_places_are_those_of_the_library(self):
        source = (ROOT / "crates/image/src/layout.rt").read_text()
        places = {name: int(value) for name, value in re.findall(r"pub const (\w+): usize = (\d+);", source)}
        self.assertEqual(len(places), 22)
        body = re.search(r"typedef enum \{([^}]*)\} color_clusters_place;", HEADER).group(1)
        body = re.sub(r"/\*.*?\*/", "", body, flags=re.S)
        names = [name.strip().removeprefix("COLOR_CLUSTERS_") for name in body.split(",")]
        self.assertEqual(set(names), set(places))
        for line in (C, CPP):
            found = self.values(line, [f"COLOR_CLUSTERS_{name}" for name in places])
            self.assertEqual(dict(zip(places, found)), places)
            at = self.values(line, [f"color_clusters_at(5, COLOR_CLUSTERS_{name})" for name in places])
            self.assertEqual(at, [5 * 21 + place for place in places.values()])

    def test_the_other_constants_are_those_of_the_library(self):
        for file, name, constant in [
            ("crates/image/src/lib.rt", "LIMIT: u64", "LIMIT"),
            ("crates/runner/src/lib.rt", "HIERARCHICAL_MAX: u32", "HIERARCHICAL_MAX"),
        ]:
            value = re.search(rf"const {name} = (\d+);", (ROOT / file).read_text()).group(1)
            self.assertEqual(self.values(C, [f"COLOR_CLUSTERS_{constant}"]), [int(value)])
        self.assertEqual(self.values(C, ["COLOR_CLUSTERS_KEEP", "COLOR_CLUSTERS_DISCARD"]), [0, 1])
