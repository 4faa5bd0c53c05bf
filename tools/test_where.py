#!/usr/bin/env python3
"""Tests of where.py: the lines that it gives for the stored faults of the cases, for drawn plans, and for texts that are no TOML.

The lines for the fault plans of crates/worked_cases were found by reading these files, and typed. A drawn plan knows the lines of
each of its keys, and the lines are also found anew by brute force: by reading each beginning of the text.

Run it from anywhere: tools/test_where.py. It calls no program of this repository, and needs nothing but Python 3.11 or later.
"""
import contextlib
import io
import os
import random
import re
import sys
import tempfile
import unittest

sys.dont_write_bytecode = True
import stored_cases
import where

HERE = os.path.dirname(os.path.abspath(__file__))
CASES = os.path.join(os.path.dirname(HERE), "crates", "worked_cases")
PLANS = 10

# The lines of each fault plan, in the order in which they are printed; - is no line.
LINES = """
cover_least_above_most 18
cover_of_kind_two 15
cover_prefix_before_least 9
cover_prefix_longer_than_most 19
cover_prefix_not_decimal 17
cover_prefix_of_16 17
cover_prefix_of_32 17
first_node_before_second 5-8
key_twice 2
kind_two 5-8
kind_two_eighth 222-225
kind_two_listed 5-8
kind_two_odd 9-12
nested_200 -
nested_40 3
no_cover -
no_covers_of_version_two -
no_node_no_cover -
not_toml 1
not_utf8 1
repeated_before_unknown 11 4
repeated_fourth 13 10
repeated_name 6 3
repeated_point 10 7
self_backup 9
self_first 8
self_listed 8
self_listed_alone 8
self_of_second_node 19
shape_allowed_integers 10
shape_backup_and_targets 9
shape_backup_empty 2
shape_backup_without_first 2
shape_concerned_mixed 2
shape_concerned_text 2
shape_cover_empty 3
shape_cover_integer 3
shape_cover_of_arrays 3
shape_cover_subsystem_text 6
shape_cover_unknown 11
shape_cover_without_prefix 3-7
shape_empty -
shape_final_integer 2
shape_final_subsystem_boolean 2
shape_first_and_targets 9
shape_first_in_version_two 5-8 8
shape_first_node_whole 2
shape_listed_relay_and_final 8
shape_listed_target_empty 8
shape_listed_target_unknown_key 8
shape_most_float 9
shape_name_integer 2
shape_no_allowed 3-9
shape_no_least 3-7
shape_no_least_but_most 3-8
shape_no_point 2
shape_no_prefix 2
shape_no_selector 3-4
shape_no_targets 5-7
shape_no_version -
shape_node_empty 2
shape_node_of_integers 2
shape_node_table 2
shape_node_text 2
shape_node_unknown 2
shape_other_key - 1
shape_point_integer 2
shape_prefix_integer 2
shape_put_integer 2
shape_relay_and_final 2
shape_relay_integer 2
shape_relay_selector_integer 2
shape_relay_subsystem_text 2
shape_row_empty 2
shape_row_of_texts 2
shape_row_of_version_two_in_version_three 5-8 8
shape_row_subsystem_in_version_one 2
shape_row_subsystem_text 8
shape_row_table 2
shape_second_element 2
shape_second_node 2
shape_second_row_before_the_top 10-11
shape_strip_of_final 2
shape_strip_text 2
shape_subsystems_integer 2
shape_subsystems_mixed 2
shape_target_empty 2
shape_target_integer 2
shape_targets_alone_in_version_one 2 2
shape_targets_in_version_one 2
shape_targets_integer 8
shape_targets_of_integers 8
shape_targets_table 8
shape_top_unknown 3
shape_version_alone -
shape_version_float 1
shape_version_text 1
shape_version_two_alone -
shape_version_two_float 1
strip_too_long 5-8
strip_too_long_backup 9-13
strip_too_long_listed 5-8
strip_too_long_second 9-12
twice 8-11 12-15
twice_before_strip 5-8 9-12
twice_before_strip_of_four 5-8 17-20
twice_by_spelling 5-8 9-12
twice_in_t 10-14 15-19
twice_of_subsystems 9-13 19-23
twice_of_the_first_node 5-8 9-12
twice_sixth 11-14 31-34
twice_without_subsystem 5-8 14-17
unknown_backup 9
unknown_backup_of_second_node 12
unknown_by_case 8
unknown_cover_before_bad_cover 6
unknown_cover_node 6
unknown_cover_node_of_none 4
unknown_first 8
unknown_listed 8
unknown_listed_alone 8
unknown_row_before_cover 8
value_allowed_point_alone 20
value_allowed_subsystem_256 20
value_backup 13
value_before_an_unknown_node 11
value_concerned_half 5
value_concerned_twice 5
value_cover_prefix_letter 17
value_cover_prefix_of_33 17
value_cover_selector 15
value_cover_subsystem_256 16
value_final_point 8
value_final_subsystem_256 8
value_least_33 18
value_listed_strip_16 8
value_listed_subsystem_one 8
value_listed_target 8
value_most_33 19
value_name_empty 3
value_name_of_17 3
value_name_with_blank 3
value_nine_targets 8
value_nine_targets_before_their_values 8
value_no_target_listed 8
value_point_16384 4
value_point_area_256 4
value_point_empty 4
value_point_last_part_8 4
value_point_of_four_parts 4
value_point_of_six_digits 4
value_point_of_two_parts 4
value_point_with_sign 4
value_prefix_letter 11
value_prefix_of_16 11
value_put_of_16 8
value_relay_empty 8
value_relay_selector 8
value_relay_subsystem_one 8
value_row_prefix_before_subsystem 7
value_row_selector 10
value_row_subsystem_256 8
value_row_subsystem_one 9
value_row_subsystem_zero 8
value_strip_16 8
value_strip_negative 8
value_subsystem_256 5
value_subsystem_one 5
value_subsystem_twice 5
value_t_without_targets 9
value_third_row 16
value_version_negative 1
value_version_three 1
value_version_three_alone 1
value_version_zero 1
value_zone_eight 4
"""


def stored():
    """The line that the program prints of each fault plan, by the plan's name."""
    found = {}
    for _, words, printed in stored_cases.stored_calls():
        names = re.findall(r"faults/(\w+)\.toml", " ".join(words))
        if len(names) == 1 and printed and printed[0].startswith("bad plan "):
            found[names[0]] = printed[0]
    return found


def answer(*words):
    """The status, the output and what is written to standard error."""
    out, told = io.TextIOWrapper(io.BytesIO(), encoding="utf-8"), io.StringIO()
    with contextlib.redirect_stdout(out), contextlib.redirect_stderr(told):
        status = where.main(list(words))
    out.flush()
    return status, out.buffer.getvalue().decode("utf-8"), told.getvalue()


def lines_of(path, line):
    """The lines of each finding, as they are printed."""
    status, out, told = answer(path, "--line", line)
    assert (status, told) == (65, ""), (status, told, line)
    found = []
    for printed in out.split("\n"):
        if printed.startswith(path):
            place, _, text = printed[len(path):].partition(": ")
            assert text == line, (text, line)
            found.append(place[1:] or "-")
    return found


def as_printed(first, last):
    return str(first) if first == last else f"{first}-{last}"


class Case(unittest.TestCase):
    def setUp(self):
        self.scratch = tempfile.TemporaryDirectory()
        self.addCleanup(self.scratch.cleanup)

    def file(self, text, name="plan.toml"):
        path = os.path.join(self.scratch.name, name)
        with open(path, "wb") as file:
            file.write(text if isinstance(text, bytes) else text.encode())
        return path


class StoredFaults(unittest.TestCase):
    def test_each_fault_plan_of_the_cases(self):
        faults, lines = stored(), dict(line.split(" ", 1) for line in LINES.strip().split("\n"))
        self.assertEqual({name[:-5] for name in os.listdir(os.path.join(CASES, "data", "faults"))}, set(lines))
        for name, expected in lines.items():
            with self.subTest(name=name, line=faults[name]):
                self.assertEqual(expected.split(), lines_of(os.path.join(CASES, "data", "faults", name + ".toml"), faults[name]))


# ---- drawn plans

NOISE = ["", "# [[node.row]] of nobody", '# a " and a \' and """', "   # { [", "\t"]


class Drawn:
    """A plan in a drawn form. `known` has the first and last line of each key and of each table, by its words in the program's
    line, and `ways` the way to it in the document."""

    def __init__(self, drawn):
        self.drawn, self.lines, self.known, self.ways, self.inline = drawn, [], {}, {}, False
        self.version = drawn.choice((1, 2))
        self.put_noise()
        self.put_key("", (), "version", str(self.version))
        self.inline = drawn.random() < 0.2
        if self.inline:
            self.put_inline_nodes()
        else:
            for number in range(drawn.randint(1, 3)):
                self.put_node(number)
        for number in range(drawn.randint(1, 3)):
            self.put_cover(number)

    def put(self, *lines):
        self.lines += lines
        return len(self.lines) - len(lines) + 1, len(self.lines)

    def put_noise(self):
        while self.drawn.random() < 0.4:
            self.put(self.drawn.choice(NOISE))

    def know(self, words, way, span):
        before = self.known.get(words, span)
        self.known[words], self.ways[words] = (before[0], span[1]), way

    def comment(self):
        return self.drawn.choice(("", "", "  # one", ' # ] } " [[', "\t# '''"))

    def put_header(self, words, way, header):
        self.put_noise()
        self.know(words, way, self.put(self.drawn.choice((header, "  " + header, header.replace("[[", "[[ "))) + self.comment()))

    def put_key(self, words, way, key, value):
        self.put_noise()
        name = self.drawn.choice((key, key, f'"{key}"', f"'{key}'", f"  {key} "))
        self.know_key(words, way, key, self.put(f"{name} = {value}{self.comment()}"))

    def know_key(self, words, way, key, span):
        self.know((words + " " + key).strip(), way + (key,), span)
        if words:
            self.know(words, way, span)

    def put_array(self, words, way, key, items):
        if self.drawn.random() < 0.5:
            self.put_key(words, way, key, "[" + ", ".join(items) + "]")
            return
        self.put_noise()
        between = [self.drawn.choice(NOISE)] if self.drawn.random() < 0.3 else []
        body = [f"    {item},{self.comment()}" for item in items]
        self.know_key(words, way, key, self.put(f"{key} = [{self.comment()}", *body[:1], *between, *body[1:], "]" + self.comment()))

    def put_text(self, words, way, key, value):
        """A text, on one line or on several."""
        form = self.drawn.random()
        if form < 0.7:
            self.put_key(words, way, key, f'"{value}"' if form < 0.5 else f"'{value}'")
            return
        marks, end = ('"""', "\\") if form < 0.85 else ("'''", "")
        self.put_noise()
        lines = [f"{key} = {marks}", value + end, f"{marks}{self.comment()}"] if end else [f"{key} = {marks}", value + marks + self.comment()]
        self.know_key(words, way, key, self.put(*lines))

    def put_node(self, number):
        words, way = f"node {number}", ("node", number)
        self.put_header(words, way, "[[node]]")
        keys = [lambda: self.put_text(words, way, "name", f"n{number}"), lambda: self.put_text(words, way, "point", f"1-0-{number + 1}")]
        if self.drawn.random() < 0.5:
            keys.append(lambda: self.put_array(words, way, "subsystems", ["6", "7"]))
        if self.drawn.random() < 0.5:
            keys.append(lambda: self.put_array(words, way, "concerned", ['"1-0-3"', '"a#]"', "'[{#\"'"]))
        for key in self.drawn.sample(keys, len(keys)):
            key()
        for row in range(self.drawn.randint(0, 3)):
            self.put_row(f"{words} row {row}", (*way, "row", row))

    def put_row(self, words, way):
        self.put_header(words, way, "[[node.row]]")
        keys = [lambda: self.put_text(words, way, "selector", "4:0:1:4"), lambda: self.put_text(words, way, "prefix", str(self.drawn.randint(0, 999)))]
        form = self.drawn.choice(("usual", "usual", "headers", "dotted"))
        if self.version == 2:
            if self.drawn.random() < 0.4:
                keys.append(lambda: self.put_key(words, way, "ssn", "8"))
            if form != "headers":
                keys.append(lambda: self.put_array(words, way, "targets", ['{ final = "2-0-1" }', '{ relay = "n0", put = "#" }']))
        elif form == "usual":
            keys.append(lambda: self.put_key(words, way, "first", '{ final = "2-0-1", ssn = 6 }'))
        elif form == "dotted":
            keys.append(lambda: self.know_key(words, way, "first", self.put('first.final = "2-0-1"')))
            keys.append(lambda: self.know_key(words, way, "first", self.put(' first . "ssn" = 6' + self.comment())))
        for key in self.drawn.sample(keys, len(keys)):
            key()
        if form == "headers":
            self.put_header_targets(words, way)

    def put_header_targets(self, words, way):
        key, header, count = ("targets", "[[node.row.targets]]", 2) if self.version == 2 else ("first", "[node.row.first]", 1)
        for _ in range(count):
            self.put_noise()
            self.know_key(words, way, key, self.put(header + self.comment()))
            self.put_noise()
            self.know_key(words, way, key, self.put('final = "2-0-1"' + self.comment()))

    def put_inline_nodes(self):
        row = '{ selector = "1:4", prefix = "4", ' + ('first = { final = "2" } }' if self.version == 1 else 'targets = [{ final = "2" }] }')
        self.put_noise()
        span = self.put("node = [ # all", f'  {{ name = "n0", point = "1-0-1", row = [{row}, {row}] }},', "", f'  {{ name = "n1", row = [', f"    {row}",
                        '  ], point = "1-0-2" }', "]")
        for node, rows in ((0, 2), (1, 1)):
            words, way = f"node {node}", ("node", node)
            self.know_key(words, way, "name", span)
            self.know_key(words, way, "point", span)
            for number in range(rows):
                for key in ("selector", "prefix", "first" if self.version == 1 else "targets"):
                    self.know_key(f"{words} row {number}", (*way, "row", number), key, span)

    def put_cover(self, number):
        words, way = f"cover {number}", ("cover", number)
        self.put_header(words, way, "[[cover]]")
        keys = ["node", "selector", "prefix", "ssn", "least", "most", "allowed"]
        for key in self.drawn.sample(keys, len(keys)):
            if key in ("node", "selector", "prefix"):
                self.put_text(words, way, key, {"node": "n0", "selector": "1:4", "prefix": "4"}[key])
            elif key == "allowed":
                self.put_array(words, way, key, ['"2-0-1/6"', "'2-0-2/6'"])
            else:
                self.put_key(words, way, key, "12")

    def text(self):
        end = self.drawn.choice(("\n", "\r\n"))
        text = end.join(self.lines) + self.drawn.choice((end, ""))
        return self.drawn.choice(("", "\ufeff")) + text


class Force:
    """The beginnings of a text that are documents, each line tried."""

    def __init__(self, text):
        lines, self.documents = text.removeprefix("\ufeff").split("\n"), []
        for count in range(len(lines) + 1):
            begun = "\n".join(lines[:count]) + ("\n" if 0 < count < len(lines) else "")
            with contextlib.suppress(where.tomllib.TOMLDecodeError):
                self.documents.append((count, where.tomllib.loads(begun)))

    def lines(self, way, without=()):
        """The lines that bring a place and its value: by the words of the definition, from the longest beginning without it."""
        values = [(count, value_at(document, way, without)) for count, document in self.documents]
        first = max(count for count, value in values if value is None) + 1
        last = min(count for count, value in values if value == values[-1][1])
        return first, last


def value_at(document, way, without):
    try:
        for step in way:
            document = document[step]
    except (KeyError, IndexError):
        return None
    return {key: value for key, value in document.items() if key not in without} if without else document


class DrawnPlans(Case):
    def each(self, seed):
        """Drawn plans, each with its file and what brute force finds in it."""
        for number in range(PLANS):
            plan = Drawn(random.Random(f"{seed} {number}"))
            text = plan.text()
            yield number, plan, self.file(text), Force(text)

    def test_the_lines_of_a_value(self):
        for number, plan, path, force in self.each("value"):
            keys = [words for words in plan.known if isinstance(plan.ways[words][-1], str)]
            for words in plan.drawn.sample(keys, min(6, len(keys))):
                with self.subTest(plan=number, words=words):
                    self.assertEqual(plan.known[words], force.lines(plan.ways[words]))
                    self.assertEqual([as_printed(*plan.known[words])], lines_of(path, f"bad plan bad value {words}"))

    def test_the_lines_of_rows(self):
        for number, plan, path, force in self.each("rows"):
            rows = [words for words in plan.known if re.fullmatch(r"node \d row \d", words)]
            for words in rows:
                _, node, _, row = words.split()
                other = plan.drawn.choice([words for words in rows if words.startswith(f"node {node} ")])
                with self.subTest(plan=number, words=words, other=other):
                    self.assertEqual(plan.known[words], force.lines(plan.ways[words]))
                    self.assertEqual([as_printed(*plan.known[words])], lines_of(path, f"bad plan rule node {node} strip too long {row}"))
                    expected = [as_printed(*plan.known[one]) for one in (words, other)]
                    self.assertEqual(expected, lines_of(path, f"bad plan rule node {node} twice {row} {other.split()[3]}"))

    def test_a_key_that_is_misspelt(self):
        for number, plan, path, _ in self.each("shape"):
            tables = [words for words, way in plan.ways.items() if isinstance(way[-1], int) and not (plan.inline and way[0] == "node")]
            words = plan.drawn.choice(tables)
            table, keys = plan.known[words], ("name", "selector", "least")
            key = plan.drawn.choice([key for key in keys if f"{words} {key}" in plan.known])
            span = plan.known[f"{words} {key}"]
            lines = plan_lines(path)
            lines[span[0] - 1] = lines[span[0] - 1].replace(key, key + "s", 1)
            self.file("\n".join(lines))
            with self.subTest(plan=number, words=words, key=key):
                without = ("row",) if re.fullmatch(r"node \d", words) else ()
                self.assertEqual(table, Force("\n".join(lines)).lines(plan.ways[words], without))
                expected = [as_printed(*table), as_printed(*span)]
                self.assertEqual(expected, lines_of(path, f"bad plan wrong shape {words} {key}"))
                self.assertEqual(expected[1:], lines_of(path, f"bad plan wrong shape {words} unknown key"))


def plan_lines(path):
    with open(path, encoding="utf-8", newline="") as file:
        return file.read().split("\n")


# ---- typed plans

PLAN = """version = 2

[[node]]
name = "a"
point = "1-0-2"

# A row.
[[node.row]]
selector = "4:0:1:4"
prefix = "49"
targets = [
    { relay = "b", strip = 16 },  # too many ]
    { final = "2-0-1" },
]

[[node]]
name = "b"
point = "2050"
"""

# TOML 1.1: lines, comments and a last comma inside of braces, \\x and \\e, a time without seconds.
NEWER = """version = 2
node = [{ name = "a", point = "1-0-2" }]
cover = [
    { node = "\\x61", selector = "4:0:1:4", },
    {
        node = "\\e", # }
        when = 07:32,
    },
]
[other]
a = 1
b = { c = [
  1,
], }
"""


class Plans(Case):
    def test_what_is_printed_to_the_octet(self):
        path = self.file(PLAN)
        self.assertEqual((65, f"""{path}:11-14: bad plan bad value node 0 row 0 targets
     11 | targets = [
     12 |     {{ relay = "b", strip = 16 }},  # too many ]
     13 |     {{ final = "2-0-1" }},
     .. |
""", ""), answer(path, "--line", "bad plan bad value node 0 row 0 targets"))

    def test_repeats_by_value(self):
        path = self.file(PLAN)
        self.assertEqual((65, f"""{path}:18: bad plan repeated node 1 point
     18 | point = "2050"
{path}:5: bad plan repeated node 1 point
      5 | point = "1-0-2"
        = node 0 has the same point
""", ""), answer(path, "--line", "bad plan repeated node 1 point"))

    def test_a_misspelt_key_is_shown_with_its_table(self):
        path = self.file(PLAN.replace("targets", "target").replace("prefix", "prefix\t") + "rows = nan\nother = 1\n")
        self.assertEqual((65, f"""{path}:8-14: bad plan wrong shape node 0 row 0 targets
      8 | [[node.row]]
      9 | selector = "4:0:1:4"
     10 | prefix  = "49"
     .. |
        = the key targets is missing
{path}:11-14: bad plan wrong shape node 0 row 0 targets
     11 | target = [
     12 |     {{ relay = "b", strip = 16 }},  # too many ]
     13 |     {{ final = "2-0-1" }},
     .. |
        = unknown key: target
""", ""), answer(path, "--line", "bad plan wrong shape node 0 row 0 targets"))
        self.assertEqual(["19", "20"], lines_of(path, "bad plan wrong shape node 1 unknown key"))

    def test_a_node_without_a_key_has_its_own_lines_only(self):
        self.assertEqual(["3-4"], lines_of(self.file(PLAN.replace('point = "1-0-2"\n', "")), "bad plan wrong shape node 0 point"))

    def test_many_unknown_keys(self):
        path = self.file("".join(f"key{i} = {i}\n" for i in range(30)))
        status, out, told = answer(path, "--line", "bad plan wrong shape version")
        self.assertEqual((65, ""), (status, told))
        self.assertEqual([f"{path}: bad plan wrong shape version", "        = the key version is missing", f"{path}:1: bad plan wrong shape version"],
                         out.split("\n")[:3])
        self.assertEqual(["     20 | key19 = 19", "        = unknown key: key19 (10 more unknown keys are not shown)", ""], out.split("\n")[-3:])

    def test_one_header_in_place_of_two(self):
        self.assertEqual(["3-5"], lines_of(self.file(PLAN.split("\n# A row")[0].replace("[[node]]", "[node]")), "bad plan wrong shape node"))
        self.assertEqual(["8-14"], lines_of(self.file(PLAN.replace("[[node.row]]", "[node.row]")), "bad plan wrong shape node 0 row"))

    def test_toml_1_1(self):
        path = self.file(NEWER)
        self.assertEqual(["2"], lines_of(path, "bad plan bad value node 0 point"))
        self.assertEqual(["3-9", "3-9"], lines_of(path, "bad plan wrong shape cover 1 selector"))
        self.assertEqual(["10-14"], lines_of(path, "bad plan wrong shape unknown key"))

    def test_a_text_that_only_the_program_reads(self):
        path = self.file("version = 2\nnode = " + "[" * 3000 + "]" * 3000 + "\n")
        status, out, _ = answer(path, "--line", "bad plan wrong shape node")
        self.assertEqual(65, status)
        self.assertIn(f"{path}: bad plan wrong shape node\n        = no line is known, since Python's tomllib does not read this text: ", out)

    def test_few_beginnings_are_read(self):
        rows = "".join(f'[[node.row]]\nselector = "1:4"\nprefix = "{i}"\ntargets = [\n{{ final = "2" }},\n]\n' for i in range(210))
        path = self.file("version = 2\n" + "".join(f'[[node]]\nname = "{name}"\npoint = "1"\n{rows}' for name in "ab"))
        before, counts = where.read, []
        self.addCleanup(setattr, where, "read", before)
        where.read = lambda text: counts.append(len(text)) or before(text)
        self.assertEqual(["2489-2491"], lines_of(path, "bad plan bad value node 1 row 203 targets"))
        self.assertLess(len(counts), 8)
        where.headers, guess = lambda pieces: {("node", 1, "row", 203): (7, 9)}, where.headers
        self.addCleanup(setattr, where, "headers", guess)
        counts.clear()
        self.assertEqual(["2489-2491"], lines_of(path, "bad plan bad value node 1 row 203 targets"))
        self.assertLess(len(counts), 20)

    def test_no_lines(self):
        path = self.file(PLAN)
        for line in ("bad plan no cover", "bad plan limit nodes", "bad plan limit rows", "bad plan limit covers", "bad plan limit nodes 255"):
            self.assertEqual((65, f"{path}: {line}\n", ""), answer(path, "--line", line))

    def test_a_line_of_another_command(self):
        path = self.file(PLAN)
        for line in ("7 plan new.toml bad plan bad value node 1 name\n", "new bad plan bad value node 1 name"):
            self.assertEqual((65, f"{path}:17: bad plan bad value node 1 name\n     17 | name = \"b\"\n", ""), answer(path, "--line", line))

    def test_a_long_line_with_a_tab(self):
        path = self.file('version = 2\nother = "\t' + "x" * 200 + '"\r\nnode = []\r\n')
        status, out, told = answer(path, "--line", "bad plan wrong shape unknown key")
        shown = ('other = " ' + "x" * 200)[:118] + ".."
        self.assertEqual((65, f"{path}:2: bad plan wrong shape unknown key\n      2 | {shown}\n        = unknown key: other\n", ""), (status, out, told))


class NotToml(Case):
    def found(self, text):
        return lines_of(self.file(text), "bad plan not toml")

    def test_the_line_at_which_reading_stops(self):
        self.assertEqual(["10"], self.found(PLAN.replace('"49"', '"49')))
        self.assertEqual(["10"], self.found(PLAN.replace('"49"', '49 x').replace("\n", "\r\n")))
        self.assertEqual(["9"], self.found("\ufeff" + PLAN.replace('"4:0:1:4"', "4:0:1:4")))
        self.assertEqual(["12"], self.found(PLAN.replace("strip = 16", "strip = 16 ssn = 6")))
        self.assertEqual(["5"], self.found(PLAN.replace("point", "name", 1)))

    def test_values_that_are_not_closed(self):
        self.assertEqual(["11-16"], self.found(PLAN.replace("\n]\n", "\n\n")))
        self.assertEqual(["10"], self.found(PLAN.replace('"49"', '"""49')))
        self.assertEqual(["19-20"], self.found(PLAN + "subsystems = [\n6"))
        self.assertEqual(["19"], self.found(PLAN + "x = '''"))
        self.assertEqual(["11-13"], self.found(PLAN.replace('"2-0-1" }', '"2-0-1"')))

    def test_after_what_toml_1_1_added(self):
        self.assertEqual(["15"], self.found(NEWER + "c 1\n"))
        self.assertEqual(["12-14"], self.found(NEWER.replace("], }", "], } x")))

    def test_line_ends_that_toml_1_1_does_not_allow(self):
        self.assertEqual(["12"], self.found(PLAN.replace('relay = "b"', 'relay\n= "b"')))
        self.assertEqual(["12"], self.found(PLAN.replace('relay = "b"', 'relay = # no\n"b"')))
        self.assertEqual(["12"], self.found(PLAN.replace('relay = "b"', 'relay = "\nb"')))
        self.assertEqual(["12"], self.found(PLAN.replace("strip = 16", "strip = 1\n6")))
        self.assertEqual(["12"], self.found(PLAN.replace("strip = 16", "strip = 16,,")))
        self.assertEqual(["13"], self.found(PLAN.replace('{ final = "2-0-1" }', "{ , }")))
        allowed = PLAN.replace('relay = "b"', '\n# }\nrelay = "b" # "\n').replace("16 }", "16\n# ]\n, }")
        self.assertEqual(["11-19"], lines_of(self.file(allowed), "bad plan bad value node 0 row 0 targets"))
        self.assertEqual(["24"], self.found(allowed + "x\n"))

    def test_octets_that_are_not_utf_8(self):
        self.assertEqual(["10"], self.found(PLAN.encode().replace(b"49", b"\xc3\x28")))

    def test_a_text_that_tomllib_reads(self):
        status, out, _ = answer(self.file(PLAN), "--line", "bad plan not toml")
        self.assertEqual((65, "        = Python's tomllib reads this, but the program does not"), (status, out.split("\n")[1]))


class Calls(Case):
    """The calls of the program, with a stub in its place."""

    def stub(self, script):
        self.addCleanup(setattr, where, "TOP", where.TOP)
        where.TOP = self.scratch.name
        os.chmod(self.file("#!/bin/sh\n" + script, "sccp"), 0o755)

    def test_a_fault_of_the_plan(self):
        self.stub('echo "bad plan bad value node 1 name"\necho "$*" > "$(dirname "$0")/words"\nexit 65\n')
        path = self.file(PLAN, "a plan.toml")
        self.assertEqual((65, f"{path}:17: bad plan bad value node 1 name\n     17 | name = \"b\"\n", ""), answer(path))
        with open(os.path.join(self.scratch.name, "words"), encoding="utf-8") as file:
            self.assertEqual("verify plan.toml\n", file.read())

    def test_wide(self):
        self.stub('echo "bad plan limit rows 1048576"\necho "$*" > "$(dirname "$0")/words"\nexit 65\n')
        path = self.file(PLAN)
        self.assertEqual((65, f"{path}: bad plan limit rows 1048576\n", ""), answer("--wide", path))
        with open(os.path.join(self.scratch.name, "words"), encoding="utf-8") as file:
            self.assertEqual("wide verify plan.toml\n", file.read())
        path = self.file(b"#" * 1048577 + b"\nversion = 3\n")
        self.assertEqual((65, f"{path}:2: bad plan bad value version\n      2 | version = 3\n", ""),
                         answer("--wide", path, "--line", "bad plan bad value version"))

    def test_no_fault(self):
        path = self.file(PLAN)
        for status in (0, 1, 67):
            self.stub(f"echo accepted\nexit {status}\n")
            self.assertEqual((status, f"{path}: no fault\n", ""), answer(path))

    def test_other_ends(self):
        path = self.file(PLAN)
        self.stub("echo too long\nexit 68\n")
        self.assertEqual((68, "", f"where.py: {path}: too long\n"), answer(path))
        self.stub("exit 70\n")
        self.assertEqual((70, "", "where.py: verify ends with status 70\n"), answer(path))
        self.stub("kill -9 $$\n")
        self.assertEqual((70, "", "where.py: verify ends with status -9\n"), answer(path))
        os.remove(os.path.join(self.scratch.name, "sccp"))
        self.assertEqual((70, "", "where.py: ./sccp cannot be run: No such file or directory\n"), answer(path))

    def test_the_program_says_where_a_text_ends_that_tomllib_reads(self):
        self.stub('grep -q 99999999999999999999 plan.toml || exit 0\necho "bad plan not toml"\nexit 65\n')
        path = self.file(PLAN.replace("16", "99999999999999999999"))
        status, out, told = answer(path)
        self.assertEqual((65, ""), (status, told))
        self.assertEqual(f"{path}:11-14: bad plan not toml", out.split("\n", maxsplit=1)[0])
        self.assertEqual("        = Python's tomllib reads this, but the program does not", out.split("\n")[-2])
        self.stub("grep -q '[[][[][[]' plan.toml || exit 0\necho bad plan not toml\nexit 65\n")
        path = self.file("version = 2\nother = " + "[" * 3000 + "]" * 3000 + "\nnode = []\n")
        status, out, told = answer(path)
        self.assertEqual((65, "", f"{path}:2: bad plan not toml"), (status, told, out.split("\n", maxsplit=1)[0]))
        self.assertIn("\n        = Python's tomllib gives no line: ", out)

    def test_words_and_files(self):
        path = self.file(PLAN)
        for words in ((), (path, path), (path, "--line"), (path, "--lines", "x"), ("--line", "x", path)):
            self.assertEqual((64, "", "usage: where.py [--wide] PLAN [--line LINE]\n"), answer(*words))
        status, out, told = answer("--help")
        first = "Shows the lines of a plan file that have the fault which the program reports."
        self.assertEqual((0, first, ""), (status, out.split("\n", maxsplit=1)[0], told))
        absent = os.path.join(self.scratch.name, "absent")
        self.assertEqual((66, "", f"where.py: {absent}: cannot be read: No such file or directory\n"), answer(absent))

    def test_lines_that_do_not_fit(self):
        path = self.file(PLAN)
        for place in ("node 2 name", "node 0 row 1 prefix", "node 0 row 0 ssn", "cover 0 node", "cover"):
            self.assertEqual((64, "", f"where.py: {path} has no such place: is the line of this file?\n"), answer(path, "--line", f"bad plan bad value {place}"))
        for place in ("node 2 name", "node 0 unknown key", "unknown key"):
            self.assertEqual((64, "", f"where.py: {path} has no such place: is the line of this file?\n"), answer(path, "--line", f"bad plan wrong shape {place}"))
        self.assertEqual((64, "", "where.py: no node before node 1 has the same name: is the line of this file?\n"),
                         answer(path, "--line", "bad plan repeated node 1 name"))
        for line in ("bad plan", "bad plan bad value node x name", "bad plan limit", "accepted bound 2", "bad plan wrong shape node 0 rows"):
            self.assertEqual((64, "", f"where.py: expected a line with the fault of a plan, found {line}\n"), answer(path, "--line", line))
        path = self.file(b"#" * 1048577)
        self.assertEqual((64, "", f"where.py: {path} has more than 1048576 octets: is the line of this file?\n"), answer(path, "--line", "bad plan no cover"))


if __name__ == "__main__":
    if where.tomllib is None:
        print("test_where.py: left out, since Python is older than 3.11 and has no tomllib", file=sys.stderr)
    else:
        unittest.main()
