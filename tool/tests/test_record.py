"""The recorded answers stand twice: where the judge keeps them, and where the program that replays them reads them."""

import unittest
from pathlib import Path

ROOT = Path(__file__).resolve().parents[2]


class Record(unittest.TestCase):
    def test_the_replay_reads_the_judge_s(self):
        recorded = (ROOT / "reference/answers.bin").read_bytes()
        self.assertTrue(recorded == (ROOT / "crates/replay/stdin").read_bytes(), "answers.bin and crates/replay/stdin differ")
