#!/usr/bin/env python3
"""Tests of between.py, with a stub in place of the program: it answers by the names of the files that it is given."""
import contextlib
import io
import os
import sys
import tempfile
import unittest

sys.dont_write_bytecode = True
sys.path.insert(0, os.path.dirname(os.path.realpath(__file__)))
import between  # noqa: E402
import plan_file  # noqa: E402

EXAMPLES = os.path.join(between.TOP, "examples")
OLD, NEW = (os.path.join(EXAMPLES, name) for name in ("cross_old.toml", "cross_new.toml"))
STUCK = """old accepted bound 2
new accepted bound 2
no order
stuck a loop 0 covers 2 2
new at a 4:0:1:4 6 490000000000 held none sent b target 0
old at b 4:0:1:4 6 490000000000 held none sent a target 0
stuck b loop 0 covers 0 0
old at a 4:0:1:4 6 480000000000 held none sent b target 0
new at b 4:0:1:4 6 480000000000 held none sent a target 0
"""
NODE = '\n[[node]]\nname = "{}"\npoint = "{}"\n'
ROW = '\n[[node.row]]\nselector = "4:0:1:4"\nprefix = "{}"\ntargets = [{}]\n'
COVER = '\n[[cover]]\nnode = "a"\nselector = "4:0:1:4"\nssn = 6\nprefix = "{}"\nleast = 4\nmost = 4\nallowed = ["2-0-1/6"]\n'
FINAL = '{ final = "2-0-1", ssn = 6 }'


def plan_of(*nodes, covers=("49",)):
    """The text of a plan of relays a, b, .., each given by its pairs of a prefix and the text of its targets."""
    text = "version = 2\n"
    for place, rows in enumerate(nodes):
        text += NODE.format("abc"[place], f"1-0-{place + 1}") + "".join(ROW.format(*row) for row in rows)
    return text + "".join(map(COVER.format, covers))


class Between(unittest.TestCase):
    def setUp(self):
        folder = tempfile.TemporaryDirectory()
        self.addCleanup(folder.cleanup)
        self.folder = folder.name

    def write(self, name, text, mode=0o644):
        path = os.path.join(self.folder, name)
        with open(path, "w", encoding="utf-8") as file:
            file.write(text)
        os.chmod(path, mode)
        return path

    def call(self, old, new, whole=STUCK, parts="exit 0"):
        """The status, what is printed, the messages and the file, if the stub answers `whole` of old and new, and runs `parts` of others."""
        program = self.write("stub", f"#!/bin/sh\necho \"$@\" >>{self.folder}/calls\nif [ \"$2 $3\" = \"{old} {new}\" ]; then\ncat <<'EOF'\n{whole}EOF\n"
                             f"exit 1\nfi\n{parts}\n", 0o755)
        output, printed, messages = os.path.join(self.folder, "between.toml"), io.StringIO(), io.StringIO()
        given, sys.argv = sys.argv, ["between.py", "--program", program, old, new, "-o", output]
        try:
            with contextlib.redirect_stdout(printed), contextlib.redirect_stderr(messages):
                status = between.main()
        finally:
            sys.argv = given
        made = None
        if os.path.exists(output):
            with open(output, encoding="utf-8") as file:
                made = file.read()
        return status, printed.getvalue(), messages.getvalue(), made

    def rows(self, made):
        """The rows of a plan that was made, by relays."""
        return {relay.name: [(row.prefix, [target.words() for target in row.targets]) for row in relay.rows]
                for relay in plan_file.of_text(made.encode()).relays}

    def test_each_relay_goes_its_own_way(self):
        status, printed, messages, made = self.call(OLD, NEW)
        own = [("48", ["2-0-1/6"]), ("49", ["2-0-1/6"])]
        self.assertEqual((status, messages, self.rows(made)), (0, "", {"a": own, "b": own}))
        self.assertTrue(printed.startswith(f"order {OLD} "))
        covers = [plan_file.read(OLD).covers, plan_file.of_text(made.encode()).covers]
        self.assertEqual(*[[vars(cover) for cover in found] for found in covers])

    def test_a_proposal_that_is_refused_is_not_written(self):
        status, printed, _, made = self.call(OLD, NEW, parts="exit 1")
        self.assertEqual((status, printed, made), (1, "No plan between was found.\n", None))
        with open(os.path.join(self.folder, "calls"), encoding="utf-8") as file:
            self.assertEqual(len(file.readlines()), 5)

    def test_no_plan_between_is_needed(self):
        old = self.write("old.toml", "")
        program = self.write("stub", "#!/bin/sh\necho order 0\n", 0o755)
        words = type("Words", (), {"old": old, "new": old, "program": program, "wide": False, "output": old + ".between"})
        with contextlib.redirect_stdout(io.StringIO()) as told:
            self.assertEqual(between.find(words), 0)
        self.assertTrue(told.getvalue().startswith("No plan between is needed.\n"))
        self.assertFalse(os.path.exists(words.output))

    def test_only_stuck_relays_and_those_of_the_steps_change(self):
        finals, onward = FINAL, '{ relay = "b" }'
        old = self.write("old.toml", plan_of([("49", onward)], [("49", finals)], [("4", finals)]))
        new = self.write("new.toml", plan_of([("49", finals)], [("49", '{ relay = "a" }')], [("49", finals)]))
        stuck = "old accepted bound 2\nnew accepted bound 2\nno order\nstep 1 c bound 2\nstuck a long covers 0 0\nstuck b long covers 0 0\n"
        status, _, _, made = self.call(old, new, stuck)
        self.assertEqual((status, self.rows(made)), (0, {"a": [("49", ["2-0-1/6"])], "b": [("49", ["2-0-1/6"])], "c": [("49", ["2-0-1/6"])]}))

    def test_a_way_over_another_relay_ends_where_the_title_ends(self):
        old = self.write("old.toml", plan_of([("49", '{ relay = "b" }')], [("49", FINAL)]))
        new = self.write("new.toml", plan_of([("49", '{ relay = "b" }, ' + '{ relay = "c" }')], [("49", FINAL)], [("49", FINAL)]))
        plans = [plan_file.read(old), plan_file.read(new)]
        missing = []
        self.assertEqual([[target.words() for target in row.targets] for row in between.own_rows(plans, "a", missing)], [["2-0-1/6"]])
        self.assertEqual(missing, [])

    def test_a_row_that_rewrites_is_left_out(self):
        old = self.write("old.toml", plan_of([("49", '{ relay = "b", put = "00" }')], [("00", FINAL)]))
        new = self.write("new.toml", plan_of([("49", '{ relay = "b", put = "01" }')], [("01", FINAL)]))
        stuck = "old accepted bound 2\nnew accepted bound 2\nno order\nstuck a no row 1 covers 0 0\nstuck b no row 1 covers 0 0\n"
        status, _, messages, made = self.call(old, new, stuck)
        self.assertEqual((status, self.rows(made)["a"]), (0, []))
        self.assertEqual(messages, "between: relay a has no way of its own for the row 4:0:1:4 - 49, which is left out\n")

    def test_faults(self):
        status, _, messages, _ = self.call(OLD, NEW, "old bad plan no cover\n")
        self.assertEqual(status, 2)
        self.assertIn("has no answer on an order", messages)
        status, _, messages, _ = self.call("absent", NEW)
        self.assertEqual((status, messages[:32]), (2, "between: absent cannot be read: "))


if __name__ == "__main__":
    unittest.main()
