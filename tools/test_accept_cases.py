#!/usr/bin/env python3
"""Tests tools/accept_cases.py over texts and a stub of the program that the test writes."""
import contextlib
import io
import os
import stat
import sys
import tempfile
import unittest
from unittest import mock

TOOLS = os.path.dirname(os.path.abspath(__file__))
sys.dont_write_bytecode = True
sys.path.insert(0, TOOLS)
import accept_cases

STORED = "# First\n> a 1\nyes\n= 0\n> a 1\nagain\n= 0\n? a\nusage\n= 64\n# Second\n> b\nold\n= 0\n> c\nkept\n= 0\n"


def stored_after(new, letters):
    """The stored text after these letters were typed, how many calls still differ, and what was shown."""
    changes = accept_cases.changes_of(accept_cases.blocks_of(STORED), accept_cases.blocks_of(new))
    shown = io.StringIO()
    with contextlib.redirect_stdout(shown), mock.patch("sys.stdin", io.StringIO("".join(f"{it}\n" for it in letters))):
        kept, left = accept_cases.chosen(changes, True, 80)
    return accept_cases.text_of(kept), left, shown.getvalue()


class Cases(unittest.TestCase):
    def test_blocks_make_the_text_again(self):
        self.assertEqual(accept_cases.text_of(accept_cases.blocks_of(STORED)), STORED)
        self.assertEqual(accept_cases.text_of(accept_cases.blocks_of("before\n> a\n\x0b\n")), "before\n> a\n\x0b\n")

    def test_nothing_is_asked_if_nothing_differs(self):
        self.assertEqual(stored_after(STORED, []), (STORED, 0, ""))

    def test_only_what_was_accepted_is_stored(self):
        new = STORED.replace("yes", "no").replace("old", "new")
        self.assertEqual(stored_after(new, ["y", "n"])[:2], (STORED.replace("yes", "no"), 1))
        self.assertEqual(stored_after(new, ["n", "y"])[:2], (STORED.replace("old", "new"), 1))
        self.assertEqual(stored_after(new, ["y", "y"])[:2], (new, 0))

    def test_a_call_that_is_made_twice_is_two_calls(self):
        new = STORED.replace("again", "otherwise")
        text, left, shown = stored_after(new, ["y"])
        self.assertEqual((text, left), (new, 0))
        self.assertNotIn("yes", shown)

    def test_a_section_is_accepted_whole(self):
        new = STORED.replace("yes", "no").replace("again", "otherwise").replace("old", "new")
        self.assertEqual(stored_after(new, ["s", "n"])[:2], (new.replace("new", "old"), 1))

    def test_new_and_gone_calls(self):
        new = STORED.replace("> b\nold\n= 0\n", "").replace("# Second\n", "# Second\n> d\nnone\n= 0\n")
        self.assertEqual(stored_after(new, ["y", "y"])[:2], (new, 0))
        self.assertEqual(stored_after(new, ["n", "n"])[:2], (STORED, 2))
        self.assertIn("(this call is new)", stored_after(new, ["n", "n"])[2])
        self.assertIn("(this call is gone)", stored_after(new, ["n", "n"])[2])

    def test_q_and_the_end_of_the_input_leave_the_rest(self):
        new = STORED.replace("yes", "no").replace("old", "new")
        for letters in (["q"], [], ["x", "q"]):
            self.assertEqual(stored_after(new, letters)[:2], (STORED, 2))

    def test_both_sides_are_shown(self):
        shown = stored_after(STORED.replace("old", "new"), ["n"])[2]
        self.assertRegex(shown, r"# Second\n> b\n  old +\| new\n  = 0 +  = 0\n")


class Program(unittest.TestCase):
    """The whole script, over a stub of the program."""

    def run_over(self, script, words, stored=STORED):
        with tempfile.TemporaryDirectory() as room:
            os.makedirs(f"{room}/cases/data")
            with open(f"{room}/cases/stdout", "w", encoding="utf-8") as it:
                it.write(stored)
            with open(f"{room}/cases/data/new", "w", encoding="utf-8") as it:
                it.write(STORED)
            with open(f"{room}/program", "w", encoding="utf-8") as it:
                it.write(f"#!/bin/sh\n{script}\n")
            os.chmod(f"{room}/program", stat.S_IRWXU)
            shown = io.StringIO()
            with mock.patch.object(accept_cases, "CASES", f"{room}/cases"), mock.patch("sys.argv", ["accept_cases", *words, "--program", f"{room}/program"]):
                with contextlib.redirect_stdout(shown), contextlib.redirect_stderr(shown):
                    try:
                        status = accept_cases.main()
                    except SystemExit as end:
                        status = end.code
            with open(f"{room}/cases/stdout", encoding="utf-8") as it:
                return status, it.read(), shown.getvalue()

    def test_the_program_runs_beside_the_files_of_the_cases(self):
        self.assertEqual(self.run_over("cat new", [])[:2], (0, STORED))

    def test_a_list_stores_nothing(self):
        status, stored, shown = self.run_over("sed s/old/new/ new", ["--list"])
        self.assertEqual((status, stored), (1, STORED))
        self.assertTrue(shown.endswith("1 of 7 pieces differ from what is stored\n"), shown)

    def test_a_program_that_fails_is_said(self):
        status, stored, shown = self.run_over("cat new; exit 3", [])
        self.assertEqual((status, stored), (2, STORED))
        self.assertIn("ended with status 3", shown)


if __name__ == "__main__":
    unittest.main()
