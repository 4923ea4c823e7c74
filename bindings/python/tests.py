"""The Python module against the library: each call once, each kind of refusal, nothing written that is lent for reading."""

import os
import sys
import unittest

sys.path.insert(0, os.path.dirname(os.path.abspath(__file__)))

import flamecurl  # noqa: E402  (the module stands beside this file)

TEXT = "6 100 101 102 103 104 105\n1 0\n4 0 4103 512 8199 1024 12295 1536 16391\n1 0 1 1536 20487\n1 0 8 0\n"


class Calls(unittest.TestCase):
    def refused(self, number, line, call, *words):
        with self.assertRaises(flamecurl.Refused) as caught:
            call(*words)
        self.assertEqual((caught.exception.number, caught.exception.line), (number, line))
        return str(caught.exception)

    def test_programs(self):
        self.assertEqual(flamecurl.answers(TEXT), "Q 0 8 0 2\nA 4 425992\nA 5 430088\n")
        self.assertEqual(flamecurl.run(TEXT.encode()), "E 1 0 0\n")

    def test_refused_texts(self):
        for call in (flamecurl.answers, flamecurl.run, flamecurl.read):
            self.assertEqual(self.refused(11, 2, call, "1 0\n1 1\n"), "line 2: number out of range (11)")
            self.refused(10, 1, call, "")
            self.refused(1, 0, call, b" " * 65537)

    def test_outcomes(self):
        puzzle = flamecurl.read(TEXT)
        before = list(puzzle.words)
        found = flamecurl.outcomes(puzzle.map, puzzle.cr3s, puzzle.words, puzzle.events, puzzle.questions[0])
        self.assertEqual(found, [("frame", 4), ("frame", 5)])
        self.assertEqual(puzzle.words, before)
        self.refused(6, None, flamecurl.outcomes, puzzle.map, puzzle.cr3s, puzzle.words, [], (0, 8, 6))
        self.refused(1, None, flamecurl.outcomes, [], [], [], [], (0, 8, 0))

    def test_machine(self):
        puzzle = flamecurl.read(TEXT)
        machine = flamecurl.Machine(puzzle.map, puzzle.cr3s, puzzle.words)
        events = [(4, 8, 0), (4, 8, 0), (1, 1536, 20487), (4, 8, 0), (2, 8, 0), (4, 8, 0), (4, 8, 0), (6, 0, 0)]
        kinds = [machine.put(0, *event) for event in events]
        old, new = ("address", 425992), ("address", 430088)
        wanted = [("again", 0), old, ("done", 0), old, ("done", 0), ("again", 0), new, ("no step", 0)]
        self.assertEqual(kinds, wanted)
        self.assertEqual(machine.words[1536], 20487 | 32)
        self.refused(9, None, machine.put, 0, flamecurl.DROP, 8)
        self.refused(7, None, flamecurl.Machine, puzzle.map, [6], puzzle.words)

    def test_numbers(self):
        machine = flamecurl.Machine([100], [0], [0] * 512)
        for number in (-1, 1 << 64):
            with self.assertRaises(OverflowError):
                machine.put(0, flamecurl.STORE, 0, number)


if __name__ == "__main__":
    unittest.main()
