#!/usr/bin/env python3
"""Shows the lines of a plan file that have the fault which the program reports.

  tools/where.py [--wide] PLAN [--line LINE]

Without --line it calls ./sccp verify PLAN, and with --wide ./sccp wide verify PLAN. A fault of a plan text is `bad plan ..` with a
place in numbers, such as node 17 row 203 targets. For each place of the fault one line is printed, PLAN:LINE: or PLAN:LINE-LINE:
and the program's own line, and below it the first three lines there and a note if one is needed. With --line no program is called:
LINE is a line that has `bad plan`, of whatever command. PLAN has to be the file that the command read.

  a value                   the lines of the key and of its value
  a key that is missing     the lines of its table, without those of the rows of a node
  wrong shape               also the lines of each unknown key of that table, up to twenty
  a repeated name or point  the lines of the later node's key, and of the earlier one's
  rules of rows             the lines of the row, or of both rows
  not toml                  the line at which Python's reader stops; if it gives none, the lines with which the program stops

A limit, a plan without a cover and a key that is missing at the top have no line: PLAN: and the program's line is printed.

Lines are found by cutting. The first lines of a plan, up to the end of a key and its value or of a header, are a plan text too.
A key is brought by the lines between the longest such beginning without it and the shortest with it. Its value goes on up to the
shortest beginning that has all of it. About twenty beginnings are read for a place.

Statuses: that of verify, so 65 for a fault of the text, which --line always gives; 64 the words are wrong, or the line is not of
this file; 66 the file cannot be read; 70 the program cannot be run, or Python is older than 3.11.
"""
import os
import re
import subprocess
import sys
import tempfile

try:
    import tomllib
except ModuleNotFoundError:
    tomllib = None

TOP = os.path.dirname(os.path.dirname(os.path.abspath(__file__)))
USAGE = "usage: where.py [--wide] PLAN [--line LINE]"
ACCEPTED, REFUSED, BAD_PLAN, TOO_WIDE = 0, 1, 65, 67
WRONG_WORDS, NO_INPUT, NO_PROGRAM = 64, 66, 70
MOST_UNKNOWN, SHOWN_LINES, WIDEST = 20, 3, 120
# The most octets of a plan, without the word wide and after it.
MOST_OCTETS = {(): 1048576, ("wide",): 268435456}

# The keys that each table may have (docs/PLAN-FILE.md).
TOP_KEYS = {"version", "node", "cover"}
NODE_KEYS = {"name", "point", "subsystems", "concerned", "row"}
ROW_KEYS = {1: {"selector", "prefix", "first", "backup"}, 2: {"selector", "prefix", "ssn", "targets"}}
COVER_KEYS = {"node", "selector", "ssn", "prefix", "least", "most", "allowed"}

UNKNOWN = "unknown key"
KEYS = "|".join(sorted(TOP_KEYS | NODE_KEYS | ROW_KEYS[1] | ROW_KEYS[2] | COVER_KEYS) + [UNKNOWN])
FAULT = re.compile(
    rf"bad plan (?:(?P<kind>wrong shape|bad value|repeated|unknown node|relay to self|bad cover) "
    rf"(?:node (?P<node>\d+) (?:row (?P<row>\d+) )?|cover (?P<cover>\d+) )?(?P<key>{KEYS})"
    rf"|rule node (?P<of>\d+) (?:twice (?P<one>\d+) (?P<two>\d+)|(?:strip too long|kind two) (?P<only>\d+))"
    rf"|(?P<toml>not toml)|no cover|limit (?:nodes|rows|covers)(?: \d+)?)")

# What decides whether a value goes on after a line end. Texts of several lines are tried before those of one.
TOKEN = re.compile(r'"""(?:\\.|[^\\])*?"""(?!")|' r"'''.*?'''(?!')|" r'"(?:\\.|[^"\\\n])*"|' r"'[^'\n]*'|#[^\n]*|\r?\n|[][{},]", re.S)
SHORT_TIME = re.compile(r"(?<![\d:+-])(\d\d:\d\d)(?![\d:])")
HEADER = re.compile(r"\s*\[\[\s*(node|cover)\s*(\.\s*row\s*)?\]\]")
NEW_ESCAPE = re.compile(r"\\(?:x([0-9A-Fa-f]{2})|(e)|.)", re.S)


class Stop(Exception):
    """An end without an answer: the status, and what to say of it."""

    def __init__(self, status, text):
        super().__init__(text)
        self.status = status


# ---- the pieces of a text

class Piece:
    """Lines of a text, counted from 1, after which a beginning of it is whole; and these lines as TOML 1.0."""

    def __init__(self, first, last, text, is_changed, is_open):
        self.first, self.last, self.text, self.is_changed, self.is_open = first, last, text, is_changed, is_open


class Cutter:
    """Cuts a text into pieces. Brackets, texts of several lines and comments decide; values do not matter.

    tomllib reads TOML 1.0. What 1.1 added is rewritten: line ends, comments and a last comma inside of braces, two escapes in
    texts, and times without seconds. A piece has as many lines as before."""

    def __init__(self, text):
        self.source, self.pieces = text, []
        self.begin(0, 1)
        place = 0
        for token in TOKEN.finditer(text):
            self.take_between(text[place:token.start()])
            place = token.end()
            self.take(token.group(), place)
        if self.start < len(text):
            self.take_between(text[place:])
            self.end(len(text))

    def begin(self, place, line):
        self.start, self.line, self.parts = place, line, []
        self.open, self.dropped, self.ends = [], 0, []
        self.last = ""  # what is before, without blanks, line ends and comments: a bracket, a comma, or "value" for all others
        self.comma = None  # the part that has the comma after which there was nothing yet

    def take_between(self, text):
        if text.strip():
            self.take_value()
        self.parts.append(SHORT_TIME.sub(r"\1:00", text))

    def take_value(self):
        """A key, a part of a value, or what opens one. A line end before it counts, unless a comma or { is before that."""
        for part, token in self.ends:
            self.parts[part] = token
            self.dropped -= token.count("\n")
        self.last, self.comma, self.ends = "value", None, []

    def take(self, token, place):
        """One bracket, comma, text, comment or line end; `place` is after it."""
        inside = bool(self.open) and self.open[-1] == "{"
        if token in "[{":
            self.take_value()
            self.open.append(token)
            self.last = token
        elif token in "]},":
            self.take_end(token, inside)
        elif token[0] == "#" or token.endswith("\n"):
            token = self.take_line_end(token) if inside else token
        else:
            self.take_value()
            token = old_escapes(token) if token[0] == '"' else token
        self.parts.append(token)
        if not self.open and token.endswith("\n"):
            self.end(place)

    def take_end(self, token, inside):
        """A comma or a closing bracket: before it line ends are as blanks, and before a closing brace a comma."""
        if token == "}" and self.comma is not None:
            self.parts[self.comma] = " "
        self.comma = len(self.parts) if token == "," and inside and self.last == "value" else None
        self.last, self.ends = token if token == "," else "value", []
        if token != ",":
            self.open[-1:] = []

    def take_line_end(self, token):
        """A comment or a line end inside of braces."""
        if self.last == "value":
            self.ends.append((len(self.parts), token))
        self.dropped += token.count("\n")
        return " "

    def end(self, place):
        """The piece that ends here. One that is not closed is the last one, and is kept as it was."""
        raw = self.source[self.start:place]
        text = raw if self.open else "".join(self.parts) + "\n" * self.dropped
        lines = raw.count("\n") + (not raw.endswith("\n"))
        self.pieces.append(Piece(self.line, self.line + lines - 1, text, text != raw, bool(self.open)))
        self.begin(place, self.line + lines)


def old_escapes(text):
    """A text in which the escapes that TOML 1.1 added are written as those of 1.0."""
    return NEW_ESCAPE.sub(lambda found: rf"\u00{found[1] or '1b'}" if found[1] or found[2] else found[0], text)


def read(text):
    """The document of a text, or what tomllib says against it."""
    try:
        return tomllib.loads(text), None
    except (ValueError, RecursionError) as fault:
        return None, str(fault)


# ---- places in a document

class Place:
    """A key or an element of an array by the way to it, and what is left out of its value."""

    def __init__(self, *way, without=()):
        self.way, self.without = way, without

    def value(self, document):
        """The value, or none if the document does not have the place."""
        for step in self.way:
            if isinstance(step, int):
                if not isinstance(document, list) or step >= len(document):
                    return None
            elif not isinstance(document, dict) or step not in document:
                return None
            document = document[step]
        if self.without and isinstance(document, dict):
            return {key: value for key, value in document.items() if key not in self.without}
        return document

    def key(self, key):
        return Place(*self.way, key)

    def table(self):
        """The way to the table that has the place, or that it is."""
        return self.way if self.way and isinstance(self.way[-1], int) else self.way[:-1]


class Beginnings:
    """The beginnings of a text, by their numbers of pieces, with how much each has of some places: 0 nothing, 1 a part, 2 all."""

    def __init__(self, pieces, document, places):
        self.pieces, self.places = pieces, places
        self.tables = headers(pieces)
        self.wholes = [spelled(place.value(document)) for place in places]
        self.known = {0: [0] * len(places), len(pieces): [2] * len(places)}

    def has(self, count):
        if count not in self.known:
            document, longer = None, count
            while document is None:  # once, since each beginning up to the end of a piece is a document
                document, _ = read("".join(piece.text for piece in self.pieces[:longer]))
                longer += 1
            self.known[count] = [self.part(place.value(document), whole) for place, whole in zip(self.places, self.wholes)]
        return self.known[count]

    @staticmethod
    def part(value, whole):
        return 0 if value is None else 2 if spelled(value) == whole else 1

    def shortest(self, number, part):
        """The shortest beginning that has so much of a place. A longer one never has less."""
        below, count = 0, len(self.pieces)
        likely = list(self.tables.get(self.places[number].table(), ()))
        while count - below > 1:
            middle = likely.pop() if likely else (below + count) // 2
            if not below < middle < count:
                continue
            if self.has(middle)[number] < part:
                below = middle
            else:
                count = middle
        return count

    def lines(self, number):
        """The lines that bring a place and its value."""
        first = self.shortest(number, 1)
        last = first if self.has(first)[number] == 2 else self.shortest(number, 2)
        return self.pieces[first - 1].first, self.pieces[last - 1].last


def headers(pieces):
    """The tables that have a header of their own as usual, each with the beginnings before it and after it. This is a guess that
    saves readings: whether it is right is seen from the beginnings."""
    found, starts, node, row, cover = {}, [], -1, -1, -1
    for count, piece in enumerate(pieces):
        header = HEADER.match(piece.text)
        if not header:
            continue
        if header[1] == "cover":
            cover += 1
            starts.append((("cover", cover), count))
        elif header[2]:
            row += 1
            starts.append((("node", node, "row", row), count))
        else:
            node, row = node + 1, -1
            starts.append((("node", node), count))
    for (way, count), (_, after) in zip(starts, starts[1:] + [(None, len(pieces))]):
        found[way] = (count, after)
    return found


def spelled(value):
    """A value as a text, since a number that is none does not equal itself."""
    return repr(value)


# ---- what a fault leads to

class Finding:
    """A part of a fault: its place or its lines, or neither; and a note."""

    def __init__(self, place=None, note="", lines=None):
        self.place, self.note, self.lines = place, note, lines


def findings_of(fault, document):
    """What is to be found for a fault that has a place in the document."""
    if fault["of"]:
        rows = [fault["only"]] if fault["only"] else [fault["one"], fault["two"]]
        return [Finding(Place("node", int(fault["of"]), "row", int(row))) for row in rows]
    if not fault["kind"]:
        return [Finding()]
    table, known = table_of(fault, document)
    if fault["kind"] == "wrong shape":
        return shape_findings(fault["key"], table, known, document)
    found = [Finding(table.key(fault["key"]))]
    if fault["kind"] == "repeated":
        found.append(earlier(fault["key"], int(fault["node"] or 0), document))
    return found


def table_of(fault, document):
    """The table of a fault, without the tables in it that the program looks at by themselves, and the keys that it may have."""
    if fault["row"]:
        return Place("node", int(fault["node"]), "row", int(fault["row"])), ROW_KEYS[2 if document.get("version") == 2 else 1]
    if fault["node"]:
        return Place("node", int(fault["node"]), without=("row",)), NODE_KEYS
    if fault["cover"]:
        return Place("cover", int(fault["cover"])), COVER_KEYS
    return Place(), TOP_KEYS


def shape_findings(key, table, known, document):
    """The key, or the table if it does not have the key; and the keys that the table should not have."""
    keys = Place(*table.way).value(document)
    if not isinstance(keys, dict):
        return [Finding(table)]  # this is not the file of the fault
    found = []
    if key in keys:
        found.append(Finding(table.key(key)))
    elif key != UNKNOWN:
        note = f"the key {key} is missing"
        found.append(Finding(table, note) if table.way else Finding(None, note))
    unknown = [name for name in keys if name not in known]
    found += [Finding(table.key(name), f"unknown key: {one_line(name)}") for name in unknown[:MOST_UNKNOWN]]
    if len(unknown) > MOST_UNKNOWN:
        found[-1].note += f" ({len(unknown) - MOST_UNKNOWN} more unknown keys are not shown)"
    return found or [Finding(table.key(key))]


def earlier(key, later, document):
    """The node before that has the same name or point code."""
    values = [same_if_equal(key, Place("node", number, key).value(document)) for number in range(later + 1)]
    if values[later] not in values[:later]:
        raise Stop(WRONG_WORDS, f"no node before node {later} has the same {key}: is the line of this file?")
    number = values.index(values[later])
    return Finding(Place("node", number, key), f"node {number} has the same {key}")


def same_if_equal(key, value):
    """A name as it is, a point code as a number however it is spelled."""
    parts = str(value).split("-")
    if key != "point" or not all(re.fullmatch("[0-9]+", part) for part in parts):
        return value
    zone, area, number = [int(part) for part in parts] if len(parts) == 3 else (0, 0, int(parts[0]))
    return zone << 11 | area << 3 | number


# ---- the answer

class Plan:
    """A plan file: its octets, up to one more than there may be, its lines, its pieces."""

    def __init__(self, path, most):
        self.path = path
        try:
            with open(path, "rb") as file:
                self.octets = file.read(most + 1)
        except OSError as fault:
            raise Stop(NO_INPUT, f"{path}: cannot be read: {fault.strerror}") from None

    def findings(self, fault, asked):
        """Each finding with its lines. `asked` says how the program reads a beginning of the file, if it may be called."""
        if fault["toml"]:
            return [self.end_of_toml(asked)]
        text = self.octets.removeprefix(b"\xef\xbb\xbf").decode("utf-8", "replace")
        pieces = Cutter(text).pieces
        document, against = read("".join(piece.text for piece in pieces))
        if document is None:
            return [Finding(note=f"no line is known, since Python's tomllib does not read this text: {against}")]
        found = findings_of(fault, document)
        placed = [finding for finding in found if finding.place]
        if any(finding.place.value(document) is None for finding in placed):
            raise Stop(WRONG_WORDS, f"{self.path} has no such place: is the line of this file?")
        beginnings = Beginnings(pieces, document, [finding.place for finding in placed])
        for number, finding in enumerate(placed):
            finding.lines = beginnings.lines(number)
        return found

    def end_of_toml(self, asked):
        """The lines after which the text is no TOML."""
        octets = self.octets.removeprefix(b"\xef\xbb\xbf")
        try:
            text = octets.decode("utf-8")
        except UnicodeDecodeError as fault:
            line = octets.count(b"\n", 0, fault.start) + 1
            return Finding(note="this is not UTF-8", lines=(line, line))
        pieces = Cutter(text).pieces
        _, against = read("".join(piece.text for piece in pieces))
        place = against and re.fullmatch(r"(.*) \(at (?:line (\d+), column (\d+)|end of document)\)", against, re.S)
        if place and not place[2]:
            return end_by(pieces, lambda count: read("".join(piece.text for piece in pieces[:count]))[0] is None, place[1])
        if place:
            return at_line(pieces, int(place[2]), int(place[3]), place[1])
        note = f"Python's tomllib gives no line: {against}" if against else "Python's tomllib reads this, but the program does not"
        if asked is None or not pieces:
            return Finding(note=note)
        lines = octets.split(b"\n")

        def is_none(count):
            return asked(b"\n".join(lines[:pieces[count - 1].last]) + b"\n") == "bad plan not toml"
        return end_by(pieces, is_none, note)

    def show(self, line, found):
        """The findings, each with the first lines of it."""
        lines = self.octets.decode("utf-8", "replace").removeprefix("\ufeff").split("\n")
        for finding in found:
            first, last = finding.lines or (1, 0)
            at = f":{first}" + (f"-{last}" if last > first else "") if finding.lines else ""
            print(f"{self.path}{at}: {line}")
            for number in range(first, min(last, first + SHOWN_LINES - 1) + 1):
                print(f"{number:>7} | {one_line(lines[number - 1])}".rstrip())
            if last >= first + SHOWN_LINES:
                print(f"{'..':>7} |")
            if finding.note:
                print(f"{'':7} = {finding.note}")


def at_line(pieces, line, column, against):
    """The line at which tomllib stops. Of a piece that was rewritten all lines count, and of one that is not closed those before."""
    for piece in pieces:
        if piece.is_changed and piece.first <= line <= piece.last:
            return Finding(note=against, lines=(piece.first, piece.last))
        if piece.is_open and piece.first <= line:
            return Finding(note=f"{against} (line {line}, column {column})", lines=(piece.first, line))
    return Finding(note=f"{against} (column {column})", lines=(line, line))


def end_by(pieces, is_none, note):
    """The piece with which a beginning is none for the first time."""
    below, count = 0, len(pieces)
    while count - below > 1:
        middle = (below + count) // 2
        if is_none(middle):
            count = middle
        else:
            below = middle
    return Finding(note=note, lines=(pieces[count - 1].first, pieces[count - 1].last))


def one_line(text):
    """A text on one line, cut if it has more than WIDEST characters."""
    text = "".join(c if c.isprintable() else " " for c in text.rstrip("\r"))
    return text if len(text) <= WIDEST else text[:WIDEST - 2] + ".."


# ---- calls

def call(before, command, octets, *words):
    """The status and the first line of a command of the program about a plan of these octets, with the words before it."""
    with tempfile.TemporaryDirectory(prefix="where.") as folder:
        with open(os.path.join(folder, "plan.toml"), "wb") as file:
            file.write(octets)
        try:
            done = subprocess.run([os.path.join(TOP, "sccp"), *before, command, "plan.toml", *words], cwd=folder, stdin=subprocess.DEVNULL,
                                  stdout=subprocess.PIPE, check=False)
        except OSError as fault:
            raise Stop(NO_PROGRAM, f"./sccp cannot be run: {fault.strerror}") from None
    return done.returncode, done.stdout.decode("utf-8", "replace").partition("\n")[0]


def asked_by_route(before):
    """How `route` begins, which reads a plan and does not verify it."""
    return lambda octets: call(before, "route", octets, "-", "1:0", "0", "-")[1]


def answer(before, path, line):
    """Prints the answer, and gives its status."""
    plan, asked = Plan(path, MOST_OCTETS[before]), None
    if line is not None and len(plan.octets) > MOST_OCTETS[before]:
        raise Stop(WRONG_WORDS, f"{path} has more than {MOST_OCTETS[before]} octets: is the line of this file?")
    if line is None:
        asked = asked_by_route(before)
        status, line = call(before, "verify", plan.octets)
        if status in (ACCEPTED, REFUSED, TOO_WIDE):
            print(f"{path}: no fault")
            return status
        if status != BAD_PLAN:
            raise Stop(status if status > 0 else NO_PROGRAM, f"{path}: {line}" if line else f"verify ends with status {status}")
    fault = FAULT.fullmatch(line[max(line.find("bad plan "), 0):].rstrip())
    if not fault:
        raise Stop(WRONG_WORDS, f"expected a line with the fault of a plan, found {one_line(line)}")
    plan.show(fault[0], plan.findings(fault, asked))
    return BAD_PLAN


def main(words):
    sys.stdout.reconfigure(errors="backslashreplace")
    if words in (["-h"], ["--help"]):
        print(__doc__, end="")
        return 0
    before, words = (("wide",), words[1:]) if words[:1] == ["--wide"] else ((), words)
    if len(words) not in (1, 3) or len(words) == 3 and words[1] != "--line" or words[0].startswith("--"):
        print(USAGE, file=sys.stderr)
        return WRONG_WORDS
    if tomllib is None:
        print("where.py: Python 3.11 or a later one is needed, for its tomllib", file=sys.stderr)
        return NO_PROGRAM
    try:
        return answer(before, words[0], words[2] if len(words) == 3 else None)
    except Stop as stop:
        print(f"where.py: {stop}", file=sys.stderr)
        return stop.status


if __name__ == "__main__":
    sys.exit(main(sys.argv[1:]))
