#!/usr/bin/env python3
"""Tests of plan_of_csv.py: what it writes to the octet, and what it reports of faulty tables. The expected texts were typed by hand.

Run it from anywhere: tools/test_plan_of_csv.py. It needs nothing but Python, and no built program.
"""
import difflib
import os
import subprocess
import sys
import tempfile
import unittest

HERE = os.path.dirname(os.path.abspath(__file__))
HUB = os.path.join(os.path.dirname(HERE), "examples", "hub")
TOOL = os.path.join(HERE, "plan_of_csv.py")

RELAYS = """# Two relays.
# They are mates.
name,point,subsystems,concerned,comment
a,1-0-2,6 8,1-0-3 4097,The first one
b,2051,,,
"""
ROWS = """relay,selector,ssn,prefix,drop,put,target1,target2,target3,comment
b,4:00:1:3,,-,,,2-0-1/6,,,Everything
a,4:0:1:4,,49,2,0,b as 4:0:1:3,,,"Home, as national numbers"
a,4:0:1:4,8,49a,,,b drop 1 put ff ssn 7,1-0-2,5-255-7/255,
"""
COVERS = """relay,selector,ssn,prefix,least,most,allowed,comment
a,4:0:1:4,6,49,12,12,2-0-1/6 1-0-2/8,
b,4:0:1:3,0,-,0,32,4097/6,"A ""wide"" one"
"""
WITH_WIDE = "with --wide a plan has up to 255 relays, 1048576 rows, 65535 covers and 268435456 octets\n"

PLAN = """# Two relays.
# They are mates.
# Made by plan_of_csv.py from relays.csv, rows.csv and covers.csv: each comment below begins with a file and a line.
version = 2

# relays.csv 4: The first one
[[node]]
name = "a"
point = "1-0-2"
subsystems = [6, 8]
concerned = ["1-0-3", "2-0-1"]

# rows.csv 3: Home, as national numbers
[[node.row]]
selector = "4:0:1:4"
prefix = "49"
targets = [{ relay = "b", strip = 2, put = "0", selector = "4:0:1:3" }]

# rows.csv 4
[[node.row]]
selector = "4:0:1:4"
prefix = "49A"
ssn = 8
targets = [{ relay = "b", strip = 1, put = "FF", ssn = 7 }, { final = "1-0-2" }, { final = "5-255-7", ssn = 255 }]

# relays.csv 5
[[node]]
name = "b"
point = "1-0-3"

# rows.csv 2: Everything
[[node.row]]
selector = "4:0:1:3"
prefix = ""
targets = [{ final = "2-0-1", ssn = 6 }]

# covers.csv 2
[[cover]]
node = "a"
selector = "4:0:1:4"
ssn = 6
prefix = "49"
least = 12
most = 12
allowed = ["2-0-1/6", "1-0-2/8"]

# covers.csv 3: A "wide" one
[[cover]]
node = "b"
selector = "4:0:1:3"
ssn = 0
prefix = ""
least = 0
most = 32
allowed = ["2-0-1/6"]
"""


def run(*words):
    done = subprocess.run([sys.executable, TOOL, *words], capture_output=True, check=False)
    return done.returncode, done.stdout, done.stderr.decode()


def hub(name):
    with open(os.path.join(HUB, name), encoding="utf-8", newline="") as file:
        return file.read()


class Case(unittest.TestCase):
    def setUp(self):
        self.scratch = tempfile.TemporaryDirectory()
        self.addCleanup(self.scratch.cleanup)

    def path(self, name):
        return os.path.join(self.scratch.name, name)

    def made(self, relays=RELAYS, rows=ROWS, covers=COVERS, *options):
        """The answer for three tables, whose folder is left out of the reports."""
        words = [*options]
        for name, text in (("relays.csv", relays), ("rows.csv", rows), ("covers.csv", covers)):
            words.append(self.path(name))
            with open(words[-1], "wb") as file:
                file.write(text if isinstance(text, bytes) else text.encode())
        status, out, told = run(*words)
        return status, out, told.replace(self.scratch.name + os.sep, "")

    def reported(self, told, **tables):
        self.assertEqual((1, b"", told), self.made(**tables))


class Plans(Case):
    def test_a_plan_to_the_octet(self):
        self.assertEqual((0, PLAN.encode(), ""), self.made())

    def test_columns_in_any_order_and_without_the_optional_ones(self):
        status, out, told = self.made(
            "Point, Name\n1-0-2,a\n", "prefix,target1,relay,selector\n49,2-0-1,a,2:7\n",
            "selector,relay,ssn,least,most,prefix,allowed\n1:4,a,255,1,2,-,2-0-1/255\n")
        self.assertEqual((0, """# Made by plan_of_csv.py from relays.csv, rows.csv and covers.csv: each comment below begins with a file and a line.
version = 2

# relays.csv 2
[[node]]
name = "a"
point = "1-0-2"

# rows.csv 2
[[node.row]]
selector = "2:7"
prefix = "49"
targets = [{ final = "2-0-1" }]

# covers.csv 2
[[cover]]
node = "a"
selector = "1:4"
ssn = 255
prefix = ""
least = 1
most = 2
allowed = ["2-0-1/255"]
""", ""), (status, out.decode(), told))

    def test_other_separators_marks_and_line_ends_make_the_same_plan(self):
        for mark in (";", "\t"):
            rows = ROWS.replace('"Home, as national numbers"', "Home# as national numbers").replace(",", mark).replace("#", ",")
            tables = [RELAYS.replace(",", mark), rows, COVERS.replace(",", mark)]
            tables = [b"\xef\xbb\xbf" + text.replace("\n", "\r\n").encode() for text in tables]
            self.assertEqual((0, PLAN.encode(), ""), self.made(*tables))

    def test_skipped_lines_are_counted(self):
        covers = COVERS.replace("a,4:0", "\n# \"noted\", and skipped\n,,,,,,,\na,4:0", 1)
        status, out, told = self.made(covers=covers)
        self.assertEqual((0, ""), (status, told))
        self.assertEqual(PLAN.replace("# covers.csv 3", "# covers.csv 6").replace("# covers.csv 2", "# covers.csv 5").encode(), out)

    def test_a_cell_of_several_lines_is_one_comment_line(self):
        status, out, told = self.made(covers=COVERS.replace('"A ""wide"" one"', '"A\n\n""wide""\tone"') + "a,4:0:1:4,7,4,1,9,2-0-1/6,\n")
        self.assertEqual((0, ""), (status, told))
        self.assertIn('\n# covers.csv 3: A "wide" one\n', out.decode())
        self.assertIn("\n# covers.csv 6\n", out.decode())

    def test_a_long_list_of_targets_has_a_line_each(self):
        status, out, told = self.made(rows=ROWS.replace("2-0-1/6,,,", "2-0-1/6,1-100-7/100,2-100-7/100,") + "a,4:0:1:4,9,7,,,"
                                      "b as 4:100:1:100 put 100,b as 4:100:1:101 put 10,,\n")
        self.assertEqual((0, ""), (status, told))
        self.assertIn("""
prefix = ""
targets = [{ final = "2-0-1", ssn = 6 }, { final = "1-100-7", ssn = 100 }, { final = "2-100-7", ssn = 100 }]
""", out.decode())
        self.assertIn("""
ssn = 9
targets = [
    { relay = "b", put = "100", selector = "4:100:1:100" },
    { relay = "b", put = "10", selector = "4:100:1:101" },
]
""", out.decode())

    def test_a_cell_of_a_target_counts_before_the_columns(self):
        status, out, told = self.made(rows=ROWS.replace("2,0,b as 4:0:1:3", "2,0,b drop 0 put -"))
        self.assertEqual((0, ""), (status, told))
        self.assertEqual(PLAN.replace(', strip = 2, put = "0", selector = "4:0:1:3"', "").encode(), out)

    def test_the_plan_of_the_hub(self):
        status, out, told = run(*(os.path.join(HUB, name) for name in ("relays.csv", "rows.csv", "covers.csv")))
        self.assertEqual((0, ""), (status, told))
        self.assertEqual(hub("plan.toml"), out.decode())

    def test_the_other_plans_of_the_hub_differ_only_as_they_say(self):
        plan = hub("plan.toml")
        head, refused = hub("refused.toml").split("\n#\n", 1)
        self.assertEqual("# The plan of plan.toml with one mistake, in the row of in2 for the home network (rows.csv 42).", head)
        changes = [line for line in difflib.ndiff(plan.split("\n"), refused.split("\n")) if line[0] in "+-"]
        self.assertEqual([
            "- # rows.csv 42: Home network",
            "+ # rows.csv 42: Home network. The mistake: in1 is a backup, as in2 is in the table of in1 that this one was copied from",
            '- targets = [{ relay = "home" }]', '+ targets = [{ relay = "home" }, { relay = "in1" }]'], changes)
        head, east_first = hub("east_first.toml").split("\n#\n", 1)
        self.assertEqual("# The plan of plan.toml with Carrier East before Carrier West for all country codes, while West is not stable.", head)
        for kept in ("", ', selector = "4:0:1:4"', ', selector = "4:0:7:4"'):
            west, east = f'{{ relay = "west"{kept} }}', f'{{ relay = "east"{kept} }}'
            plan = plan.replace(f"{west}, {east}", f"{east}, {west}")
        self.assertEqual(plan, east_first)


class Faults(Case):
    def test_all_faults_of_all_tables_at_once(self):
        self.reported("""relays.csv:3: name: expected a name of 1 to 16 letters, digits, _ or -, that is not a point code, found "1-0-2"
relays.csv:3: point: expected a point code such as 2-0-1 (up to 7-255-7) or a number up to 16383, found "8-0-1"
relays.csv:4: subsystems: expected a subsystem number from 2 to 255, found "6 1"
relays.csv:4: concerned: expected no value twice, found "1-0-3 2051"
relays.csv:5: name: expected a name of its own, but line 4 has the same
relays.csv:6: point: expected a point code of its own, but line 4 has the same
relays.csv:7: expected 4 cells as in the head line, found 3
rows.csv:2: relay: expected a relay of the first table, found "z"
rows.csv:2: selector: expected a selector such as 4:0:1:4 (kind 1 to 4, then its numbers), found "4:0:16:4"
rows.csv:2: ssn: expected a subsystem number from 2 to 255, found "1"
rows.csv:2: prefix: expected 1 to 15 digits 0 to 9 or A to F, or - for none, found ""
rows.csv:2: drop: expected a number from 0 to 15, found "16"
rows.csv:2: put: expected 1 to 15 digits 0 to 9 or A to F, or - for none, found "+1"
rows.csv:2: target1: expected a relay of the first table, or a point code, or one with / and a subsystem number, found "y"
rows.csv:3: target1: expected another relay than the row's own, found "a"
rows.csv:3: target2: expected at most 2 digits dropped, as many as the prefix has, found "3"
rows.csv:3: target3: expected a new selector of another kind than 2, found "2:0"
rows.csv:4: target1: expected an even number of digits dropped and put together, since the title is of kind 2, found "3"
rows.csv:4: target2: expected no digits dropped or put and no other word for a place, where titles end as they are, found "2-0-1 put 1"
rows.csv:4: target3: expected after the relay's name each of drop N, put DIGITS, as SELECTOR and ssn N at most once, found "b ssn 7 ssn 8"
rows.csv:5: prefix: expected one row for a relay, selector, ssn and prefix, but line 3 has the same
rows.csv:5: target1: expected a target before that of target2
rows.csv:6: target1: expected a target
covers.csv:2: relay: expected a relay of the first table, found "z"
covers.csv:2: selector: expected a selector of another kind than 2, found "2:0"
covers.csv:2: ssn: expected a subsystem number from 0 to 255, found "256"
covers.csv:2: prefix: expected 1 to 15 digits 0 to 9, or - for none, found "4A"
covers.csv:2: least: expected a number from 0 to 32, found "33"
covers.csv:2: most: expected a number from 0 to 32, found "x"
covers.csv:2: allowed: expected a point code, / and a subsystem number, as 2-0-1/6, found "2-0-1/6 2-0-1"
covers.csv:3: least: expected at most 1, which is the value of most, found "2"
covers.csv:3: most: expected at least 2, which is the length of the prefix, found "1"
covers.csv:3: allowed: expected a place or more, as 2-0-1/6
""", relays="""# Faults
name,point,subsystems,concerned
1-0-2,8-0-1,,
a,1-0-3,6 1,1-0-3 2051
a,1-0-4,,
b,2051,,
c,1-0-5,
""", rows="""relay,selector,ssn,prefix,drop,put,target1,target2,target3
z,4:0:16:4,1,,16,+1,y,,
a,4:0:1:4,,49,,,a,b drop 3,b as 2:0
a,2:0,,49,,,b drop 2 put 7,2-0-1 put 1,b ssn 7 ssn 8
a,4:00:1:4,,49,,,,2-0-1,
b,4:0:1:4,,49,,,,,
""", covers="""relay,selector,ssn,prefix,least,most,allowed
z,2:0,256,4A,33,x,2-0-1/6 2-0-1
a,4:0:1:4,6,49,2,1,
""")

    def test_faults_of_head_lines(self):
        self.reported("""relays.csv:1: expected a column name
relays.csv:1: expected one of the columns name, point, subsystems, concerned, comment, found "nam"
relays.csv:1: expected each column once, found point again
rows.csv:1: expected a head line with the names of the columns
covers.csv:2: relay: expected a relay of the first table, found "1-0-2"
covers.csv:3: ssn: expected a subsystem number from 0 to 255, found ""
""", relays="nam,point,point\na,1-0-2,\n", rows="", covers=COVERS.replace("a,4", "1-0-2,4").replace(",0,-", ",,-"))

    def test_a_table_of_covers_has_one(self):
        self.reported("covers.csv:1: expected a cover or more below the head line\n", covers=COVERS.split("\n", maxsplit=1)[0])

    def test_text_that_is_none(self):
        self.reported("""relays.csv:4: expected text in UTF-8
rows.csv:3: expected cells as in CSV: unexpected end of data
""", relays=RELAYS.encode().replace(b"The first", b"\xff"), rows=ROWS.replace('numbers"', "numbers"), covers=COVERS)

    def test_limits(self):
        relays = "name,point\n" + "".join(f"n{i},{i}\n" for i in range(66))
        rows = "relay,selector,prefix,target1\n" + "".join(f"n1,4:0:1:4,{i:04},2-0-1\n" for i in range(4098))
        covers = "relay,selector,ssn,prefix,least,most,allowed\n" + "n1,4:0:1:4,6,-,1,2,2-0-1/6\n" * 258
        self.reported("""relays.csv:66: expected at most 64 relays, found 66
rows.csv:4098: expected at most 4096 rows, found 4098
covers.csv:258: expected at most 256 covers, found 258
""" + WITH_WIDE, relays=relays, rows=rows, covers=covers)

    def test_wide_limits(self):
        relays = "name,point\n" + "".join(f"n{i},{i}\n" for i in range(256))
        rows = "relay,selector,prefix,target1\n" + "".join(f"n{i % 255},4:0:1:4,{i:05},2-0-1\n" for i in range(4097))
        covers = "relay,selector,ssn,prefix,least,most,allowed\n" + "n1,4:0:1:4,6,-,1,2,2-0-1/6\n" * 65536
        few_relays, few_covers = relays.removesuffix("n255,255\n"), covers[:-len("n1,4:0:1:4,6,-,1,2,2-0-1/6\n")]
        status, out, told = self.made(few_relays, rows, few_covers, "--wide")
        self.assertEqual((0, ""), (status, told))
        self.assertEqual([255, 4097, 65535], [out.count(b"\n" + head) for head in (b"[[node]]", b"[[node.row]]", b"[[cover]]")])
        self.assertEqual((1, b"", """relays.csv:257: expected at most 255 relays, found 256
covers.csv:65537: expected at most 65535 covers, found 65536
"""), self.made(relays, rows, covers, "--wide"))

    def test_a_plan_that_is_too_long(self):
        def covers(length):
            return COVERS + f"a,4:0:1:4,7,4,1,9,2-0-1/6,{'x' * 100000}\n" * 10 + f"a,4:0:1:4,7,4,1,9,2-0-1/6,{'x' * length}\n"
        length = 40000
        length += 1048576 - len(self.made(covers=covers(length))[1])
        status, out, told = self.made(covers=covers(length))
        self.assertEqual((0, 1048576, ""), (status, len(out), told))
        told = "the plan has 1048577 octets: expected at most 1048576, so write shorter comments\n" + WITH_WIDE
        self.assertEqual((1, b"", told), self.made(covers=covers(length + 1)))

    def test_words_and_files(self):
        self.assertEqual((64, b"", "usage: plan_of_csv.py [--wide] RELAYS ROWS COVERS > PLAN\n"), run("relays.csv", "rows.csv"))
        self.assertEqual(64, run("--wide", "relays.csv", "rows.csv")[0])
        status, out, told = run("--help")
        self.assertEqual((0, b"Makes a plan file of version 2 from three tables in CSV.", ""), (status, out.split(b"\n")[0], told))
        absent = self.path("absent.csv")
        self.assertEqual((74, b"", f"{absent}: cannot be read: No such file or directory\n" * 3), run(absent, absent, absent))


if __name__ == "__main__":
    unittest.main()
