#!/usr/bin/env python3
"""Tests of picture.py and report.py over the plans and the stored answers of the cases, and over small plans typed by hand.

Run it from anywhere: tools/test_report.py. It needs nothing but Python, and no built program: the printed lines are those of
crates/worked_cases/stdout. Pictures are drawn too if dot is there.
"""
import contextlib
import html.parser
import io
import os
import re
import shutil
import stat
import sys
import tempfile
import types
import unittest

HERE = os.path.dirname(os.path.abspath(__file__))
TOP = os.path.dirname(HERE)
CASES = os.path.join(TOP, "crates", "worked_cases")
DATA = os.path.join(CASES, "data")
sys.dont_write_bytecode = True
sys.path.insert(0, HERE)
if sys.version_info < (3, 11):
    print("picture.py and report.py are not tried: they need Python 3.11, for tomllib")
    sys.exit(0)
import lines  # noqa: E402
import picture  # noqa: E402
import plan_file  # noqa: E402
import replay_counts  # noqa: E402
import report  # noqa: E402
import stored_cases  # noqa: E402

VOID = {"meta", "br"}
PLAN = """version = 2

[[node]]
name = "a"
point = "1-0-2"
subsystems = [8]

# rows.csv 2: <b>Home</b> & "more"
[[node.row]]
selector = "4:0:1:4"
prefix = "49"
targets = [{ final = "2-0-1", ssn = 6 }, { relay = "b", strip = 2, put = "0" }]

[[node.row]]
selector = "4:0:1:4"
prefix = "49"
ssn = 6
targets = [{ relay = "b" }, { final = "2-0-2" }]

[[node.row]]
selector = "4:0:1:4"
prefix = "491"
targets = [{ final = "1-0-2" }]

[[node]]
name = "b"
point = "1-0-3"

[[node.row]]
selector = "4:0:1:4"
prefix = ""
targets = [{ final = "2-0-1", ssn = 6 }]

[[cover]]
node = "a"
selector = "4:0:1:4"
ssn = 6
prefix = "49"
least = 4
most = 12
allowed = ["2-0-1/6"]
"""


STORED = {}
for mark, one_call, its_lines in stored_cases.stored_calls():
    if mark == ">":
        STORED.setdefault(tuple(one_call), its_lines)


class Answers:
    """In place of the program: gives the stored lines of a call."""

    def __init__(self, more=None):
        self.calls, self.more = [], more or {}

    def lines(self, words):
        of_plans = {(command, *words[1:]): [] for command in ("covers", "unused", "margin")}
        printed = {**of_plans, **STORED, **self.more}[tuple(words)]
        self.calls.append({"words": words, "lines": len(printed), "status": 0})
        return iter(printed)

    def about(self):
        return []


class Balance(html.parser.HTMLParser):
    """Fails for a tag that is not closed, or closed out of turn."""

    def __init__(self):
        super().__init__(convert_charrefs=True)
        self.open, self.faults, self.outer = [], [], []

    def handle_starttag(self, tag, attrs):
        self.outer += [value for key, value in attrs if key in ("src", "href", "xlink:href", "srcset", "data", "action")]
        if tag not in VOID:
            self.open.append(tag)

    def handle_startendtag(self, tag, attrs):
        self.outer += [value for key, value in attrs if key in ("src", "href", "xlink:href")]

    def handle_endtag(self, tag):
        if not self.open or self.open.pop() != tag:
            self.faults.append(f"{tag} at {self.getpos()}")


def words_of(plan, **given):
    return types.SimpleNamespace(**{"plan": plan, "losses": 3, "change": None, "trace": None, "workers": 1, "output": None, "wide": False} | given)


def hops_in(graph):
    """The numbers at the hops of a picture, in its order."""
    return [int(number) for number in re.findall(r'-> .*\[label="(\d+)[^"]*".*class="hop ', graph)]


class Cases(unittest.TestCase):
    """Both tools over all that is stored."""

    def setUp(self):
        self.before = os.getcwd()
        os.chdir(DATA)

    def tearDown(self):
        os.chdir(self.before)

    def check_page(self, made):
        """The page is whole, and refers to nothing outside of it."""
        seen = Balance()
        seen.feed(made)
        seen.close()
        self.assertEqual((seen.faults, seen.open, seen.outer), ([], [], []))
        self.assertNotRegex(made, r"https?:|url\(|@import|<script|<link")

    def page_of(self, words, answers=None, dot=None):
        known = report.Report(words, answers or Answers(), report.Dot(dot))
        self.assertEqual(known.unread(), [])
        made = report.page(known)
        self.check_page(made)
        return made

    def test_pages_of_all_plans(self):
        calls = [words for words in STORED if words[:1] == ("verify",) and len(words) == 2 and os.path.isfile(words[1])]
        self.assertGreater(len(calls), 150)
        for _, plan in calls:
            with self.subTest(plan):
                made = self.page_of(words_of(plan))
                self.assertNotIn("not understood", made)
                self.assertNotIn("Not understood", made)
                self.assertNotIn("another step", made)
                self.assertIn(html.escape(STORED["verify", plan][0]), made)

    def test_each_bad_cover(self):
        """A page has the route of each bad cover, each once."""
        plan = "plans/many_covers.toml"
        of_first = STORED["covers", plan][1:3]
        made = self.page_of(words_of(plan), Answers({("verify", plan): ["refused loop 0 cover 0 steady yes", *of_first]}))
        self.assertEqual(["0", "1", "3"], re.findall(r"Bad route of a title of cover (\d+)", made))
        self.assertEqual(3, made.count("To mend it:"))

    def test_unused_by_relay(self):
        """A page has each unused place with the line of its row in the file, each needless cover, and each title without a row."""
        plan = "plans/left_over.toml"
        made = self.page_of(words_of(plan), Answers({("verify", plan): ["refused no row 1 cover 3 steady yes", "at a 4:0:1:4 6 470000000000 held none no row 1"]}))
        with open(plan, encoding="utf-8") as file:
            headers = [number for number, line in enumerate(file, 1) if line.strip() == "[[node.row]]"]
        for said in ("Unused: 1 relay, 1 row, 1 target, 1 cover. ", "<td><b>c</b></td>", "the relay: no covered title gets to it",
                     f'<td><b>b</b></td><td class="n">0</td><td class="n">{headers[1]}</td><td><code>4:0:1:4</code></td><td><code>49</code></td>',
                     f'<td><b>b</b></td><td class="n">1</td><td class="n">{headers[2]}</td>', "the 2nd target, <code>1-0-5/6</code>",
                     '<td class="n">1</td><td class="n">0</td>', "<code>4:0:1:4 6 470000000000</code>", "Titles that no cover has"):
            self.assertIn(said, made)

    def test_pages_of_what_is_unused(self):
        calls = [words for words in STORED if words[:1] == ("unused",) and len(words) == 2 and os.path.isfile(words[1]) and words[1].startswith("plans/")]
        self.assertGreater(len(calls), 12)
        for _, plan in calls:
            with self.subTest(plan):
                made = self.page_of(words_of(plan), Answers({("verify", plan): STORED.get(("verify", plan), ["accepted bound 1"])}))
                is_idle = STORED["unused", plan] == ["unused relays 0 rows 0 targets 0 covers 0 gaps 0"]
                self.assertEqual(is_idle, "Nothing: some covered title uses each relay" in made)

    def test_lost_points(self):
        """A page has the margin of each cover, and the titles that are stopped, those of the fewest points first."""
        calls = [words for words in STORED if words[:1] == ("margin",) and len(words) == 3 and os.path.isfile(words[1])]
        calls = [words for words in calls if STORED[words][0].startswith("accepted")]
        self.assertGreater(len(calls), 12)
        for call in calls:
            with self.subTest(" ".join(call)):
                answers = Answers({("verify", call[1]): STORED[call][:1], ("margin", call[1], str(int(call[2]))): STORED[call]})
                made = self.page_of(words_of(call[1], losses=int(call[2])), answers)
                stopped = [line.split(" ") for line in STORED[call] if " stopped by " in line]
                by_points = sorted((int(words[4]), int(words[1])) for words in stopped)
                self.assertEqual([str(cover) for _, cover in by_points], re.findall(r"A title of cover (\d+)", made))
                self.assertNotIn("another step", made)
        plan = "plans/mates.toml"
        made = self.page_of(words_of(plan, losses=9), Answers({("verify", plan): ["accepted bound 2"]}))
        for said in ("The least number of lost points that stop a covered title is 1. ", "2 covers are stopped.", "any number", "2; 3 points can stop a title",
                     "0; 1 point can stop a title", "blocked at relay b.", "blocked, cause 5"):
            self.assertIn(said, made)

    def test_searches_that_are_given_up(self):
        plan = "plans/q.toml"
        made = self.page_of(words_of(plan), Answers({("unused", plan): ["too wide"], ("margin", plan, "3"): [
            "accepted bound 1", "cover 0 too wide at 3", "cover 1 too wide at 0", "least 3 stopped 0 too wide 2"]}))
        for said in ("No answer: too wide. ", "stop a covered title is 3 or more. ", "The search was given up for 2 covers.", "2; for 3 the search was given up", "not known"):
            self.assertIn(said, made)
        made = self.page_of(words_of(plan), Answers({("margin", plan, "3"): ["accepted bound 1", "cover 0 survives 3"]}))
        self.assertIn("The program ended before its last line.", made)

    def test_wide(self):
        """Every call begins with the word wide, and a limit that was passed is that of its line."""
        plan = "plans/q.toml"
        answers = Answers({("wide", "verify", plan): ["too wide 67108864"], ("wide", "covers", plan): ["cover 0 too wide 67108864", "accepted 0 refused 0 too wide 1"],
                           ("wide", "unused", plan): ["too wide 67108864"], ("wide", "change", plan, plan): ["old accepted bound 1", "new accepted bound 1", "change too wide 67108864"]})
        made = self.page_of(words_of(plan, change=plan, wide=True), answers)
        self.assertEqual([["wide", command] for command in ("verify", "covers", "unused", "change")], [call["words"][:2] for call in answers.calls])
        for said in ("The plan reaches at least 67,108,864 classes of titles.", "Covered titles get to at least 67,108,864 classes.",
                     "The two plans together reach at least 67,108,864 classes of titles."):
            self.assertIn(said, made)

    def test_pages_of_all_changes(self):
        calls = [words for words in STORED if words[:1] == ("change",) and len(words) == 3 and all(map(os.path.isfile, words[1:]))]
        self.assertGreater(len(calls), 15)
        for _, old, new in calls:
            with self.subTest(old + " " + new):
                made = self.page_of(words_of(old, change=new), Answers({("verify", old): ["accepted bound 1"]}))
                self.assertNotIn("another step", made)
                self.assertIn("Changeover", made)
                is_refused = any(line.startswith("change refused") for line in STORED["change", old, new])
                self.assertEqual(is_refused, f"<code>order {old} {new}</code>" in made)

    def test_pages_of_all_replays(self):
        calls = [words for words in STORED if words[:1] == ("replay",) and len(words) == 4 and os.path.isfile(words[1]) and words[3].isdigit()]
        self.assertGreater(len(calls), 60)
        for _, plan, trace, workers in calls:
            with self.subTest(f"{plan} {trace}"):
                words = words_of(plan, trace=trace, workers=int(workers))
                made = self.page_of(words, Answers({("verify", plan): STORED.get(("verify", plan), ["accepted bound 1"])}))
                printed = STORED["replay", plan, trace, workers]
                journeys = [line for line in printed if re.match(r"\d+ by ", line)]
                if printed[0].startswith("plan 1 "):
                    self.assertIn(f"{len(journeys):,} message", made)

    def test_pictures_of_all_routes(self):
        """Each hop of each printed route is in its picture once, in order, and its row is found."""
        seen = 0
        for words, printed in STORED.items():
            for route in picture.routes_in(lines.read_groups(printed)) if words and words[0] in ("verify", "route", "change") else []:
                names = words[1:3] if words[0] == "change" else words[1:2]
                if not all(map(os.path.isfile, names)):
                    continue
                plans = dict(zip(("old", "new") if words[0] == "change" else (None,), map(plan_file.read, names)))
                with self.subTest(" ".join(words)):
                    for rows in (True, False):
                        graph = picture.draw(plans, route, rows)
                        self.assertEqual(hops_in(graph), list(range(len(route.hops))))
                        self.assertNotIn("another step", graph)
                    seen += 1
        self.assertGreater(seen, 100)

    def test_drawn_by_dot(self):
        if shutil.which("dot") is None:
            self.skipTest("there is no dot")
        plans = ["plans/loop.toml", "plans/long.toml", "plans/overgrown.toml", "plans/no_row.toml", "plans/eight_targets.toml"]
        for plan in plans:
            made = self.page_of(words_of(plan), dot=shutil.which("dot"))
            self.assertIn("<svg", made)
            self.assertNotIn(' id="', made)


class Pictures(unittest.TestCase):
    """What a picture of one plan has, edge by edge."""

    def setUp(self):
        self.plan = plan_file.of_text(PLAN.encode())

    def draw(self, *printed, plans=None, **given):
        route = picture.first_route(picture.routes_in(lines.read_groups(printed)))
        return picture.draw(plans or {None: self.plan}, route, **given)

    def step(self, ssn, digits, *held, relay="a"):
        return self.plan.step(self.plan.by_name[relay], plan_file.Title("4:0:1:4", ssn, digits), held)

    def test_row_that_counts(self):
        self.assertEqual(self.step(6, "4900").row.place, 1)
        self.assertEqual(self.step(7, "4900").row.place, 0)
        self.assertEqual(self.step(6, "4910").row.place, 2)
        self.assertEqual((self.step(6, "4910").what, self.step(6, "4910").cause), ("no row", 4))
        self.assertEqual(self.step(8, "4910").to, "1-0-2/8")
        self.assertEqual((self.step(6, "50").what, self.step(6, "50").cause), ("no row", 1))
        self.assertEqual(self.plan.step(self.plan.by_name["a"], plan_file.Title("1:4", 6, "49"), []).cause, 0)

    def test_marks_that_close(self):
        self.assertEqual(self.step(6, "4900", "point:1-0-3").to, "2-0-2/6")
        self.assertEqual(self.step(6, "4900", "sccp:1-0-3").to, "2-0-2/6")
        self.assertEqual(self.step(6, "4900", "subsystem:1-0-3/6").to, "b")
        self.assertEqual(self.step(6, "4900", "point:1-0-3", "subsystem:2-0-2/6").cause, 3)
        self.assertEqual(self.step(7, "4900", "subsystem:2-0-1/6").title.digits, "000")
        self.assertEqual(self.step(8, "4910", "point:1-0-2").to, "1-0-2/8")
        self.assertEqual(self.step(8, "4910", "subsystem:1-0-2/8").what, "blocked")

    def test_edges_of_rows(self):
        graph = self.draw()
        self.assertIn('"relay a" -> "relay b" [style="solid", class="rows", label="49 ssn 6 1st\\n49 2nd"]', graph)
        self.assertIn('"relay a" -> "place 2-0-2/-" [style="dashed", class="rows", label="49 ssn 6 2nd"]', graph)
        self.assertIn('"relay b" -> "place 2-0-1/6" [style="solid", class="rows", label="any 1st"]', graph)
        self.assertIn('label="1-0-2 (relay a)\\nssn of the title"', graph)
        self.assertNotIn("hop", graph)

    def test_many_prefixes(self):
        rows = "".join(f'[[node.row]]\nselector = "4:0:1:4"\nprefix = "{n}"\ntargets = [{{ final = "2-0-1", ssn = 6 }}]\n' for n in range(50, 54))
        plan = plan_file.of_text(PLAN.replace('[[node]]\nname = "b"', rows + '[[node]]\nname = "b"').encode())
        self.assertIn('label="49 .. 53 (5) 1st"', picture.draw({None: plan}))

    def test_bad_route(self):
        graph = self.draw("refused forbidden 2-0-2/6 cover 0 steady yes", "at a 4:0:1:4 6 4900 held point:1-0-3 ended 2-0-2/6 target 1")
        self.assertIn('"relay a" -> "place 2-0-2/-" [label="0", color="#b3261e"', graph)
        self.assertIn('label="b\\n1-0-3\\n1 row\\nprohibited at a"', graph)
        self.assertIn('label="4:0:1:4 ssn 6\\n4900"', graph)
        self.assertIn("0  a, 4:0:1:4 6 4900, 1-0-3 prohibited: ends at 2-0-2/6 by the 2nd target", graph)

    def test_hop_that_does_not_fit(self):
        graph = self.draw("refused forbidden 2-0-2/6 cover 0 steady yes", "at a 4:0:1:4 6 4900 held none ended 2-0-2/6 target 1")
        self.assertEqual(hops_in(graph), [])
        self.assertIn("0  at a 4:0:1:4 6 4900 held none ended 2-0-2/6 target 1 (the plan has another step here)", graph)

    def test_hop_that_leads_elsewhere(self):
        graph = self.draw("accepted bound 2", "at a 4:0:1:4 6 4900 held none sent b target 0", "at b 4:0:1:4 6 4901 held none ended 2-0-1/6 target 0")
        self.assertEqual(hops_in(graph), [1])

    def test_mixed_route(self):
        new = plan_file.of_text(PLAN.replace('{ relay = "b" }, { final = "2-0-2" }', '{ final = "2-0-3" }').encode())
        graph = self.draw("change accepted bound 1", "new at a 4:0:1:4 6 4900 held none ended 2-0-3/6 target 0", plans={"old": self.plan, "new": new})
        self.assertIn('label="0 new"', graph)
        self.assertIn('label="old 49 ssn 6 1st\\nold 49 2nd\\nnew 49 2nd"', graph)

    def test_many_edges(self):
        """Above 40 edges a plan has no words at them, and a route only its own relays and places."""
        rows = "".join(f'[[node.row]]\nselector = "4:0:1:4"\nprefix = "{n}"\ntargets = [{{ final = "3-{n}-1" }}]\n' for n in range(100, 140))
        plan = plan_file.of_text(PLAN.replace('[[node]]\nname = "b"', rows + '[[node]]\nname = "b"').encode())
        whole = picture.draw({None: plan})
        self.assertIn('"relay a" -> "place 3-100-1/-" [style="solid", class="rows"]', whole)
        self.assertNotIn("label=\"1", whole.replace('label="1-0-2', ""))
        graph = self.draw("accepted bound 1", "at a 4:0:1:4 6 4900 held point:1-0-3 ended 2-0-2/6 target 1", plans={None: plan})
        self.assertNotIn("3-100-1", graph)
        self.assertIn('"relay a" -> "relay b" [style="solid", class="rows"]', graph)

    def test_version_one_and_spellings(self):
        text = PLAN.replace("version = 2", "version = 1").replace("ssn = 6\ntargets = [{ relay", 'first = { final = "2050", ssn = 6 }\nx = [{ relay')
        text = text.replace("targets = [{ final = \"2-0-1\", ssn = 6 }, { relay = \"b\", strip = 2, put = \"0\" }]", 'first = { final = "4097" }\nbackup = { relay = "b" }')
        plan = plan_file.of_text(text.replace('"4:0:1:4"', '"4:00:01:4"').encode())
        row = plan.relays[0].rows[0]
        self.assertEqual(([target.words() for target in row.targets], row.selector, row.line, row.comment), (["2-0-1", "b"], "4:0:1:4", 9, 'rows.csv 2: <b>Home</b> & "more"'))

    def test_unreadable_plans(self):
        for text in (b"", b"\xff", b"version = ", b'version = 2\nnode = [{ name = "a" }]', b"node = 3", PLAN.replace('relay = "b"', 'relay = "c"').encode()):
            with self.assertRaises(plan_file.Unreadable):
                plan_file.of_text(text)


class Pages(unittest.TestCase):
    """The commands, with a stub for the program."""

    def setUp(self):
        self.folder = tempfile.TemporaryDirectory()
        self.addCleanup(self.folder.cleanup)
        self.plan = self.write("a <plan> & more.toml", PLAN)

    def write(self, name, text):
        path = os.path.join(self.folder.name, name)
        with open(path, "w", encoding="utf-8") as file:
            file.write(text)
        return path

    def stub(self, printed, status=0):
        path = self.write("stub", f"#!/bin/sh\n[ \"$1\" = --version ] && exit 64\ncase $1 in covers | unused | margin) exit 1 ;; esac\ncat <<'EOF'\n{printed}\nEOF\nexit {status}\n")
        os.chmod(path, os.stat(path).st_mode | stat.S_IXUSR)
        return path

    def call(self, tool, *words):
        output, errors = io.StringIO(), io.StringIO()
        with contextlib.redirect_stdout(output), contextlib.redirect_stderr(errors):
            status = tool.main(list(words))
        return status, output.getvalue(), errors.getvalue()

    def test_escapes(self):
        """Names, comments and lines that are not understood have no markup in the page."""
        program = self.stub("refused forbidden 2-0-2/6 cover 0 steady no\nat a 4:0:1:4 7 4900 held point:2-0-1 sent b target 1\n<script>alert(1)</script>", 1)
        status, made, errors = self.call(report, self.plan, "--program", program, "--dot", "-")
        self.assertEqual((status, errors), (0, ""))
        self.assertIn("a &lt;plan&gt; &amp; more.toml", made)
        self.assertIn("&lt;b&gt;Home&lt;/b&gt; &amp; &quot;more&quot;", made)
        self.assertIn("&lt;script&gt;alert(1)", made)
        self.assertNotRegex(made, "<script|<b>Home|<plan>")

    def test_bad_route_in_words(self):
        program = self.stub("refused forbidden 2-0-2/6 cover 0 steady no\nat a 4:0:1:4 6 4900 held point:1-0-3 ended 2-0-2/6 target 1", 1)
        status, made, _ = self.call(report, self.plan, "--program", program, "--dot", "-")
        self.assertEqual(status, 0)
        for said in ("Titles of 4 to 12 decimal digits that begin with 49", "translation type 0; numbering plan 1, E.164; nature of address 4",
                     "The title ends at 2-0-2/6, which its cover does not allow.", "allow 2-0-2/6 in the cover", "The relays hold different marks",
                     "row 1, line 14", "<code>49</code> subsystem 6"):
            self.assertIn(said, made)

    def test_replay_and_calls(self):
        """A page has the strip and the ends of a replay, and each call with its status and its number of lines."""
        replayed = "plan 1 p.toml accepted bound 1\n2 pause a 2-0-1\n3 by 1 via a,b returned 5 marks point:2-0-1 no service\n4 by 1 via a ended 2-0-1/6 AA\nend 4"
        program = self.stub(f"accepted bound 1\nEOF\n[ $1 = replay ] || exit 0\ncat <<'EOF'\n{replayed}", 3)
        with open(program, encoding="utf-8") as file:
            text = file.read().replace("cat <<'EOF'\naccepted", "[ $1 = replay ] || cat <<'EOF'\naccepted")
        self.write("stub", text)
        status, made, _ = self.call(report, self.plan, "--trace", self.plan, "--workers", "2", "--program", program, "--dot", "-")
        self.assertEqual(status, 0)
        for said in ('plan&gt; &amp; more.toml</code></td><td class="n">0</td><td class="n">1</td>', '2</code></td><td class="n">3</td><td class="n">5</td>',
                     "4 lines of the trace. 2 messages routed: 1 ended at a place, 1 returned. 1 event.", "2 workers",
                     "<td>returned</td><td>5 MTP failure</td><td>b</td><td><span class=\"nb\">2-0-1</span></td><td class=\"n\">1</td>",
                     '<rect class="message" x="500.0" y="0.0"', '<rect class="returned" x="500.0" y="0.0"', '<line class="event" x1="375.0"'):
            self.assertIn(said, made)

    def test_output_file_and_dot(self):
        program, output = self.stub("accepted bound 1"), os.path.join(self.folder.name, "page.html")
        dot = self.write("dot", "#!/bin/sh\ncat >/dev/null\necho '<?xml version=\"1.0\"?><!DOCTYPE svg><svg width=\"10pt\" xmlns=\"http://x\"><g id=\"g\"></g></svg>'\n")
        os.chmod(dot, 0o755)
        self.assertEqual(self.call(report, self.plan, "--program", program, "--dot", dot, "-o", output)[:2], (0, ""))
        with open(output, encoding="utf-8") as file:
            self.assertIn('<svg role="img" aria-label="All relays of the plan" width="10pt"><g></g></svg>', file.read())
        self.assertEqual(self.call(report, self.plan, "--program", program, "--dot", "/absent/dot")[0], 0)

    def test_large_plan(self):
        """A plan of more than 300 edges is not drawn as a whole."""
        rows = "".join(f'[[node.row]]\nselector = "4:0:1:4"\nprefix = "{n}"\ntargets = [{{ final = "3-{n % 256}-{n // 256}" }}]\n' for n in range(500, 800))
        plan = self.write("large.toml", PLAN.replace('[[node]]\nname = "b"', rows + '[[node]]\nname = "b"'))
        made = self.call(report, plan, "--program", self.stub("accepted bound 1"), "--dot", "/absent/dot")[1]
        self.assertIn("It has 305 edges between relays and places, too many for a picture.", made)

    def test_statuses(self):
        program, absent = self.stub("accepted bound 1"), os.path.join(self.folder.name, "absent")
        self.assertEqual(self.call(report)[0], 64)
        self.assertEqual(self.call(report, self.plan, "--workers", "17")[0], 64)
        self.assertEqual(self.call(report, self.plan, "--program", absent)[0], 70)
        self.assertEqual(self.call(report, self.plan, "--program", self.stub("", 70))[0], 70)
        self.assertEqual(self.call(report, absent, "--program", program)[0], 74)
        self.assertEqual(self.call(report, self.plan, "--program", self.stub("accepted bound 1"), "-o", absent + "/page")[0], 75)
        self.assertEqual(self.call(picture)[0], 64)
        self.assertEqual(self.call(picture, self.plan, "--change", self.plan, self.plan)[0], 64)
        self.assertEqual(self.call(picture, self.plan, "--verify", "--program", absent)[0], 70)
        self.assertEqual(self.call(picture, absent)[0], 74)
        self.assertEqual(self.call(picture, self.plan, "--route", absent)[0], 74)
        self.assertEqual(self.call(picture, self.plan, "--verify", "--program", self.stub("too wide", 67))[0], 1)
        self.assertEqual(self.call(picture, self.write("bad.toml", "x"))[0], 1)
        self.assertEqual((self.call(report, "--help")[0], self.call(picture, "--help")[0]), (0, 0))

    def test_pictures(self):
        printed = "accepted bound 1\nat a 4:0:1:4 6 4900 held point:1-0-3 ended 2-0-2/6 target 1"
        asked = self.call(picture, self.plan, "--verify", "--program", self.stub(printed))
        given = self.call(picture, self.plan, "--route", self.write("lines", printed + "\n"))
        self.assertEqual((asked[0], asked), (0, given))
        self.assertEqual(hops_in(asked[1]), [0])
        program = self.stub(printed)
        with open(program, encoding="utf-8") as file:
            self.write("stub", file.read().replace("case $1", "[ \"$1 $2\" = 'wide verify' ] || exit 70\ncase $1"))
        self.assertEqual((self.call(picture, self.plan, "--verify", "--wide", "--program", program), asked), (asked, asked))
        self.assertEqual(self.call(picture, self.plan, "--verify", "--program", program)[0], 70)
        mixed = "old accepted bound 1\nnew accepted bound 1\nchange accepted bound 1\nold at b 4:0:1:4 6 - held none ended 2-0-1/6 target 0"
        status, graph, _ = self.call(picture, "--change", self.plan, self.plan, "--program", self.stub(mixed))
        self.assertEqual((status, hops_in(graph)), (0, [0]))


class Replays(unittest.TestCase):
    """The counts of a replay."""

    def test_counts(self):
        printed = """plan 1 p.toml accepted bound 2
2 by 1 via a,b ended 2-0-1/6 AA
3 pause a 2-0-1
4 by 1 via a returned 5 marks point:2-0-1 service AA sent 1-0-1
5 by 1 via a returned 5 marks point:2-0-1 no service
6 plan 2 q.toml accepted bound 3
7 plan r.toml refused loop 0 cover 0 steady yes
at a 4:0:1:4 6 49 held none sent b target 0
8 by 2 via b local 8 data AA segment more
9 tick b
9 sends 2-0-1 AA
10 by 2 via a,b cut
bad trace line 11 not a line""".splitlines()
        counts = replay_counts.Counts()
        for record in lines.read_lines(printed, "replay"):
            counts.take(record)
        self.assertEqual(counts.ends, {("ended", "2-0-1/6", "", "b"): 1, ("returned", "5", "point:2-0-1", "a"): 2, ("local", "8", "", "b"): 1, ("cut", "", "", "b"): 1})
        self.assertEqual((counts.reached, counts.ended, counts.events), ({"a": 4, "b": 3}, {"a": 2, "b": 3}, {"a": 1, "b": 1}))
        self.assertEqual(counts.plans, [(None, 1, "p.toml", "accepted bound 2"), (6, 2, "q.toml", "accepted bound 3"), (7, None, "r.toml", "refused loop 0 cover 0 steady yes")])
        self.assertEqual((counts.by_plan, counts.fault, counts.others), ({1: 3, 2: 2}, "bad trace line 11 not a line", {"sends": 1}))
        self.assertEqual(counts.services, {"sent to the point that the message was from": 1, "none was asked for": 1})

    def test_strip(self):
        """The pieces grow with the lines, and no line is lost."""
        strip = replay_counts.Strip()
        for line in range(1, 100001):
            strip.add(line, "messages")
            if line % 1000 == 0:
                strip.add(line, "returned")
        self.assertEqual((len(strip.bins), strip.width), (196, 512))
        self.assertEqual([sum(one[kind] for one in strip.bins) for kind in strip.KINDS], [100000, 100, 0, 0])
        self.assertTrue(all(one["messages"] == 512 for one in strip.bins[:-1]))

    def test_many_ends(self):
        counts = replay_counts.Counts()
        for line in range(1, 3001):
            counts.take(lines.read_line(f"{line} by 1 via a ended {line % 8}-{line >> 3 & 255}-{line >> 11}/{line % 250} AA", "replay"))
        self.assertEqual((sum(counts.ends.values()), len(counts.ends)), (3000, replay_counts.MOST_KINDS + 1))


if __name__ == "__main__":
    unittest.main()
