"""Forms that were asked for and that no promise can say, read off the source: docs/FORMS.md."""

import re
import unittest
from pathlib import Path

COLOR = (Path(__file__).resolve().parents[2] / "crates/color/src/lib.rt").read_text()

# What arithmetic is written with, and the branches and comparisons that are written with the same letters and signs.
ARITHMETIC = re.compile(r"\s|\d+|\w+|>>|<<|[-+*/%^&|().,;=]")
OTHER_FORMS = re.compile(r"==|&&|\|\||\b(if|else|match|while|for|loop|return)\b")
CALL = re.compile(r"(\.\s*)?\b(\w+)\s*\(")


def body(source, name):
    """What stands between the braces of a function."""
    found = re.search(rf"(?ms)^(?:pub )?fn {name}\(.*?^\{{\n(.*?)^\}}", source)
    if not found:
        raise LookupError(f"there is no function {name} here")
    return found.group(1)


def needed(source, name, seen=()):
    """The functions that a function calls, itself among them. Each is one of this source and is arithmetic alone."""
    if name in seen:
        return seen
    text = body(source, name)
    if ARITHMETIC.sub("", text) or OTHER_FORMS.search(text):
        raise ValueError(f"{name} is not arithmetic alone: {text.strip()}")
    seen = (*seen, name)
    for method, called in CALL.findall(text):
        if method:
            raise ValueError(f"{name} calls {called} of another module")
        seen = needed(source, called, seen)
    return seen


class Distance(unittest.TestCase):
    def test_it_is_found_by_arithmetic_alone(self):
        self.assertEqual(needed(COLOR, "color_diff"), ("color_diff", "distance", "abs"))

    def test_other_forms_are_told(self):
        other = ["x.abs_diff(y)", "if x < y { y - x } else { x - y }", "TABLE[x as usize]", "(x == y) as u8",
                 "(x as bool && y as bool) as u8", "match x - y { d => d }", "u8::max(x, y) - u8::min(x, y)",
                 "max(x, y) - min(x, y)", "{ while x != y {} x }"]
        old = body(COLOR, "distance")
        for form in other:
            with self.assertRaises((ValueError, LookupError), msg=form):
                needed(COLOR.replace(old, f"    {form}\n"), "color_diff")
