#!/usr/bin/env python3
"""Makes a plan file of version 2 from three tables in CSV.

  tools/plan_of_csv.py [--wide] RELAYS ROWS COVERS > PLAN

With --wide the plan may have as many relays, rows, covers and octets as the program reads after its word wide.

Each table has a head line with the names of its columns, in any order. A column with a ? may be absent.

  RELAYS  name, point, subsystems ?, concerned ?, comment ?
  ROWS    relay, selector, ssn ?, prefix, drop ?, put ?, target1, target2 ? .. target8 ?, comment ?
  COVERS  relay, selector, ssn, prefix, least, most, allowed, comment ?

The values are those of a plan file (docs/PLAN-FILE.md). Several values of one cell (subsystems, concerned, allowed) have blanks
between them. A prefix of - is the empty one, which begins every title. The targets of a row are in the order in which they are
tried. A cell of a target is one of

  NAME [drop N] [put DIGITS] [as SELECTOR] [ssn N]    the relay of that name
  POINT  or  POINT/SSN                                the place where titles end

The columns drop and put are for all targets of a row, which are relays then. What a target's own cell says counts before them.

Commas, semicolons or tabs separate the cells, whichever is first in the head line. Empty lines and lines that begin with # are
skipped; those with # at the top of RELAYS become the first lines of the plan. Each relay, row and cover of the plan has a comment
above it with the file and the line that it was made from.

Faults are written to standard error, each with its file and line and what was expected there, and no plan is written then.
Statuses: 0 the plan was written, 1 there are faults, 64 the words are wrong, 74 a file cannot be read.
"""
import collections
import csv
import os
import re
import sys

Limits = collections.namedtuple("Limits", "relays rows covers octets")
STANDARD, WIDE = Limits(64, 4096, 256, 1048576), Limits(255, 1048576, 65535, 268435456)
MOST_TARGETS = 8
WIDEST = 120  # a list of targets that would make a longer line has one target a line
ANY = 0  # in place of the subsystem number of a row that is for all

A_POINT = "a point code such as 2-0-1 (up to 7-255-7) or a number up to 16383"
A_SELECTOR = "a selector such as 4:0:1:4 (kind 1 to 4, then its numbers)"
SOME_DIGITS = "1 to 15 digits 0 to 9 or A to F, or - for none"


class Bad(Exception):
    """A value that does not read: what was expected in its place."""


# ---- values

def number(text, least, most, what="a number"):
    if not re.fullmatch("[0-9]{1,3}", text) or not least <= int(text) <= most:
        raise Bad(f"{what} from {least} to {most}")
    return int(text)


def point(text):
    """A point code, as zone, area and point."""
    if re.fullmatch("[0-9]{1,5}", text) and int(text) <= 16383:
        value = int(text)
        return f"{value >> 11}-{value >> 3 & 255}-{value & 7}"
    parts = re.fullmatch("([0-9]{1,3})-([0-9]{1,3})-([0-9]{1,3})", text)
    if not parts or any(int(part) > most for part, most in zip(parts.groups(), (7, 255, 7))):
        raise Bad(A_POINT)
    return "-".join(str(int(part)) for part in parts.groups())


def is_point(text):
    try:
        point(text)
    except Bad:
        return False
    return True


def selector(text):
    kinds = {"1": (127,), "2": (255,), "3": (255, 15), "4": (255, 15, 127)}
    kind, *rest = text.split(":")
    most = kinds.get(kind, ())
    if not most or len(rest) != len(most) or any(not re.fullmatch("[0-9]{1,3}", n) or int(n) > m for n, m in zip(rest, most)):
        raise Bad(A_SELECTOR)
    return ":".join([kind] + [str(int(n)) for n in rest])


def digits(text):
    if text == "-":
        return ""
    if not re.fullmatch("[0-9A-Fa-f]{1,15}", text):
        raise Bad(SOME_DIGITS)
    return text.upper()


def decimal(text):
    if text != "-" and not re.fullmatch("[0-9]{1,15}", text):
        raise Bad("1 to 15 digits 0 to 9, or - for none")
    return digits(text)


def name(text):
    if not re.fullmatch("[A-Za-z0-9_-]{1,16}", text) or is_point(text):
        raise Bad("a name of 1 to 16 letters, digits, _ or -, that is not a point code")
    return text


def place(text):
    where, slash, ssn = text.partition("/")
    if not slash:
        raise Bad("a point code, / and a subsystem number, as 2-0-1/6")
    return f"{point(where)}/{number(ssn, 0, 255, 'a subsystem number')}"


def several(text, read):
    return [read(word) for word in text.split()]


def none_twice(values):
    if len(set(values)) < len(values):
        raise Bad("no value twice")
    return values


# ---- tables

class Faults:
    """All faults of all tables, reported in the order of tables, lines and columns."""

    def __init__(self):
        self.all, self.has_passed_limit = [], False

    def add(self, table, line, column, text):
        self.all.append((table.place, line, column, f"{table.path}:{line}: {text}"))

    def text(self):
        return "".join(fault[3] + "\n" for fault in sorted(self.all, key=lambda fault: fault[:3]))


class Table:
    """A table as it was read: its columns, and its lines with the number of each."""

    def __init__(self, path, place_of, faults):
        self.path, self.place, self.faults = path, place_of, faults
        self.base = one_line(os.path.basename(path)).encode("utf-8", "replace").decode()
        self.head, self.head_line, self.above, self.records = None, 1, [], []

    def fault(self, line, text, column=0):
        self.faults.add(self, line, column, text)

    def read(self, octets):
        if octets.startswith(b"\xef\xbb\xbf"):
            octets = octets[3:]
        try:
            text = octets.decode("utf-8")
        except UnicodeDecodeError as fault:
            self.fault(octets.count(b"\n", 0, fault.start) + 1, "expected text in UTF-8")
            return
        # A line ends with a line feed, a carriage return, or both.
        lines = re.sub("\r\n?", "\n", text).split("\n")
        first = 0
        while first < len(lines) and (not lines[first].strip() or lines[first].startswith("#")):
            if lines[first].strip():
                self.above.append(one_line(lines[first]))
            first += 1
        if first == len(lines):
            self.fault(1, "expected a head line with the names of the columns")
            return
        self.head_line = first + 1
        parts = re.search("[,;\t]", lines[first])
        reader = csv.reader((line + "\n" for line in lines[first:]), delimiter=parts.group() if parts else ",", strict=True)
        begun = first + 1
        try:
            for cells in reader:
                self.take(begun, [cell.strip() for cell in cells])
                begun = first + reader.line_num + 1
        except csv.Error as fault:
            self.fault(begun, f"expected cells as in CSV: {fault}")

    def take(self, line, cells):
        """One line of the table: the first is the head."""
        if not any(cells) or cells[0].startswith("#"):
            return
        if self.head is None:
            self.head = [cell.lower() for cell in cells]
        else:
            self.records.append((line, cells))

    def has_columns(self, needed, optional):
        """Reports what is wrong with the head line, and answers whether nothing is."""
        if self.head is None:
            return False
        sound = True
        for column in needed:
            if column not in self.head:
                sound = False
                self.fault(self.head_line, f"expected a column {column}")
        for i, column in enumerate(self.head):
            if column not in needed + optional:
                sound = False
                self.fault(self.head_line, f'expected one of the columns {", ".join(needed + optional)}, found "{column}"')
            elif column in self.head[:i]:
                sound = False
                self.fault(self.head_line, f"expected each column once, found {column} again")
        return sound

    def lines(self, most, what):
        """The lines of the table as records, those with a wrong number of cells left out."""
        for count, (line, cells) in enumerate(self.records):
            if count == most:
                self.faults.has_passed_limit = True
                self.fault(line, f"expected at most {most} {what}, found {len(self.records)}")
            if len(cells) != len(self.head):
                self.fault(line, f"expected {len(self.head)} cells as in the head line, found {len(cells)}")
            else:
                yield Record(self, line, dict(zip(self.head, cells)))


class Record:
    """A line of a table: the cells by their columns. A value that does not read is reported, and is None then."""

    def __init__(self, table, line, cells):
        self.table, self.line, self.cells = table, line, cells

    def fault(self, column, expected, found=None):
        found = "" if found is None else f', found "{one_line(found)}"'
        self.table.fault(self.line, f"{column}: expected {expected}{found}", self.table.head.index(column))

    def value(self, column, read, absent=None):
        """The value of a cell; `absent`, if it is given, is that of an empty or missing one."""
        text = self.cells.get(column, "")
        if not text and absent is not None:
            return absent
        try:
            return read(text)
        except Bad as fault:
            self.fault(column, fault, text)
            return None

    def comment(self):
        said = one_line(self.cells.get("comment", ""))
        return f"# {self.table.base} {self.line}" + (f": {said}" if said else "")


def one_line(text):
    return re.sub(r"[\x00-\x1f\x7f\s]+", " ", text).strip()


# ---- relays, rows and covers

class Relay:
    """A relay as the first table has it."""

    def __init__(self, record):
        self.record = record
        self.name = record.value("name", name)
        self.point = record.value("point", point)
        self.subsystems = record.value("subsystems", lambda text: none_twice(several(text, subsystem)), [])
        self.concerned = record.value("concerned", lambda text: none_twice(several(text, point)), [])

    def text(self):
        lines = [self.record.comment(), "[[node]]", f'name = "{self.name}"', f'point = "{self.point}"']
        if self.subsystems:
            lines.append(f"subsystems = {self.subsystems}")
        if self.concerned:
            lines.append(f"concerned = {listed(self.concerned)}")
        return "\n".join(lines) + "\n"


def subsystem(text):
    return number(text, 2, 255, "a subsystem number")


def dropped(text):
    return number(text, 0, 15)


def listed(texts):
    return "[" + ", ".join(f'"{text}"' for text in texts) + "]"


class Target:
    """A relay with what it does to a title, or the place where titles end."""

    def __init__(self, text, names, drop, put):
        first, *words = text.split()
        self.relay = first if is_relay(first, names) else None
        self.drop, self.put, self.selector, self.ssn = drop, put, None, None
        if self.relay is None:
            self.read_place(first, words)
        else:
            self.read_words(words)

    def read_place(self, first, words):
        where, slash, ssn = first.partition("/")
        try:
            self.point = point(where)
        except Bad:
            raise Bad("a relay of the first table, or a point code, or one with / and a subsystem number") from None
        if slash:
            self.ssn = subsystem(ssn)
        if words or self.drop or self.put:
            raise Bad("no digits dropped or put and no other word for a place, where titles end as they are")

    def read_words(self, words):
        readers = {"drop": ("drop", dropped), "put": ("put", digits), "as": ("selector", selector), "ssn": ("ssn", subsystem)}
        if len(words) % 2 or any(word not in readers for word in words[::2]) or len(set(words[::2])) < len(words[::2]):
            raise Bad("after the relay's name each of drop N, put DIGITS, as SELECTOR and ssn N at most once")
        for word, value in zip(words[::2], words[1::2]):
            field, read = readers[word]
            setattr(self, field, read(value))

    def change(self):
        """By how many digits a title gets shorter or longer, the two added up."""
        return (self.drop or 0) + len(self.put or "")

    def text(self):
        if self.relay is None:
            keys = [f'final = "{self.point}"']
        else:
            keys = [f'relay = "{self.relay}"']
            keys += [f"strip = {self.drop}"] if self.drop else []
            keys += [f'put = "{self.put}"'] if self.put else []
            keys += [f'selector = "{self.selector}"'] if self.selector else []
        keys += [f"ssn = {self.ssn}"] if self.ssn is not None else []
        return "{ " + ", ".join(keys) + " }"


class Row:
    """A row of a relay, with the rules of a table of rows that it may break."""

    def __init__(self, record, names):
        self.record = record
        self.relay = known_relay(record, names)
        self.selector = record.value("selector", selector)
        self.ssn = record.value("ssn", subsystem, ANY)
        self.prefix = record.value("prefix", digits)
        drop = record.value("drop", dropped, 0)
        put = record.value("put", digits, "")
        self.targets = self.read_targets(names, drop, put)

    def read_targets(self, names, drop, put):
        """The targets with their columns. An empty cell may be only after the last one."""
        found, empty = [], None
        for column in (f"target{i + 1}" for i in range(MOST_TARGETS)):
            if not self.record.cells.get(column, ""):
                empty = empty or column
                continue
            if empty:
                self.record.fault(empty, f"a target before that of {column}")
                empty = None
            target = self.record.value(column, lambda text: Target(text, names, drop, put))
            if target is not None:
                found.append((column, target))
                self.check_target(column, target)
        if empty == "target1":
            self.record.fault(empty, "a target")
        return [target for _, target in found]

    def check_target(self, column, target):
        """The rules of a table of rows that one target may break."""
        if target.relay is None:
            return
        if target.relay == self.relay:
            self.record.fault(column, "another relay than the row's own", target.relay)
        if self.prefix is not None and (target.drop or 0) > len(self.prefix):
            self.record.fault(column, f"at most {len(self.prefix)} digits dropped, as many as the prefix has", str(target.drop))
        if target.selector is not None and target.selector.startswith("2:"):
            self.record.fault(column, "a new selector of another kind than 2", target.selector)
        if self.selector is not None and self.selector.startswith("2:") and target.selector is None and target.change() % 2:
            expected = "an even number of digits dropped and put together, since the title is of kind 2"
            self.record.fault(column, expected, str(target.change()))

    def key(self):
        return self.relay, self.selector, self.ssn, self.prefix

    def text(self):
        lines = [self.record.comment(), "[[node.row]]", f'selector = "{self.selector}"', f'prefix = "{self.prefix}"']
        if self.ssn != ANY:
            lines.append(f"ssn = {self.ssn}")
        targets = [target.text() for target in self.targets]
        line = f"targets = [{', '.join(targets)}]"
        if len(line) > WIDEST:
            line = "targets = [\n" + "".join(f"    {target},\n" for target in targets) + "]"
        return "\n".join(lines + [line]) + "\n"


class Cover:
    """A cover, with the rules that its values have to keep together."""

    def __init__(self, record, names):
        self.record = record
        self.relay = known_relay(record, names)
        self.selector = record.value("selector", selector)
        self.ssn = record.value("ssn", lambda text: number(text, 0, 255, "a subsystem number"))
        self.prefix = record.value("prefix", decimal)
        self.least = record.value("least", lambda text: number(text, 0, 32))
        self.most = record.value("most", lambda text: number(text, 0, 32))
        self.allowed = record.value("allowed", lambda text: several(text, place))
        if self.selector is not None and self.selector.startswith("2:"):
            record.fault("selector", "a selector of another kind than 2", self.selector)
        if None not in (self.least, self.most) and self.least > self.most:
            record.fault("least", f"at most {self.most}, which is the value of most", str(self.least))
        if None not in (self.prefix, self.most) and len(self.prefix) > self.most:
            record.fault("most", f"at least {len(self.prefix)}, which is the length of the prefix", str(self.most))
        if self.allowed == []:
            record.fault("allowed", "a place or more, as 2-0-1/6")

    def text(self):
        return "\n".join([
            self.record.comment(), "[[cover]]", f'node = "{self.relay}"', f'selector = "{self.selector}"', f"ssn = {self.ssn}",
            f'prefix = "{self.prefix}"', f"least = {self.least}", f"most = {self.most}", f"allowed = {listed(self.allowed)}"]) + "\n"


def is_relay(text, names):
    """Whether a relay has that name; if the names could not be read, whether it is not a place."""
    return text in names if names is not None else not is_point(text.partition("/")[0])


def known_relay(record, names):
    text = record.cells["relay"]
    if is_relay(text, names):
        return text
    record.fault("relay", "a relay of the first table", text)
    return None


def report_repeats(found, key, column, expected):
    """Reports each record whose key an earlier one has. A key has the value None for what does not read."""
    met = {}
    for one in found:
        value = key(one)
        if None in value:
            continue
        if value in met:
            one.record.fault(column, f"{expected}, but line {met[value]} has the same")
        else:
            met[value] = one.record.line


def read_relays(table, most):
    if not table.has_columns(["name", "point"], ["subsystems", "concerned", "comment"]):
        return []
    relays = [Relay(record) for record in table.lines(most, "relays")]
    report_repeats(relays, lambda relay: (relay.name,), "name", "a name of its own")
    report_repeats(relays, lambda relay: (relay.point,), "point", "a point code of its own")
    return relays


def read_rows(table, names, most):
    targets = [f"target{i + 1}" for i in range(MOST_TARGETS)]
    if not table.has_columns(["relay", "selector", "prefix", "target1"], ["ssn", "drop", "put"] + targets[1:] + ["comment"]):
        return []
    rows = [Row(record, names) for record in table.lines(most, "rows")]
    report_repeats(rows, Row.key, "prefix", "one row for a relay, selector, ssn and prefix")
    return rows


def read_covers(table, names, most):
    needed = ["relay", "selector", "ssn", "prefix", "least", "most", "allowed"]
    if not table.has_columns(needed, ["comment"]):
        return []
    covers = [Cover(record, names) for record in table.lines(most, "covers")]
    if not table.records:
        table.fault(table.head_line, "expected a cover or more below the head line")
    return covers


def names_in(table):
    """The names of the relays, those of faulty lines too, so that no row is reported for its relay's fault; None without the column."""
    if table.head is None or "name" not in table.head:
        return None
    column = table.head.index("name")
    return {cells[column] for _, cells in table.records if column < len(cells)}


def plan_of(tables, faults, limits):
    """The text of the plan, if there are no faults."""
    relays = read_relays(tables[0], limits.relays)
    names = names_in(tables[0])
    rows, covers = read_rows(tables[1], names, limits.rows), read_covers(tables[2], names, limits.covers)
    if faults.all:
        return ""
    rows_of = {relay.name: [] for relay in relays}
    for row in rows:
        rows_of[row.relay].append(row)
    bases = [table.base for table in tables]
    made = f"# Made by plan_of_csv.py from {bases[0]}, {bases[1]} and {bases[2]}: each comment below begins with a file and a line."
    parts = ["".join(line + "\n" for line in [*tables[0].above, made, "version = 2"])]
    for relay in relays:
        parts += [one.text() for one in [relay, *rows_of[relay.name]]]
    return "\n".join(parts + [cover.text() for cover in covers])


def main(words):
    if words in (["-h"], ["--help"]):
        print(__doc__, end="")
        return 0
    limits, words = (WIDE, words[1:]) if words[:1] == ["--wide"] else (STANDARD, words)
    if len(words) != 3:
        print("usage: plan_of_csv.py [--wide] RELAYS ROWS COVERS > PLAN", file=sys.stderr)
        return 64
    faults, unread, tables = Faults(), False, []
    for place_of, path in enumerate(words):
        table = Table(path, place_of, faults)
        tables.append(table)
        try:
            with open(path, "rb") as file:
                table.read(file.read())
        except OSError as fault:
            unread = True
            print(f"{path}: cannot be read: {fault.strerror}", file=sys.stderr)
    if unread:
        return 74
    octets = plan_of(tables, faults, limits).encode("utf-8")
    if faults.all:
        sys.stderr.write(faults.text())
    elif len(octets) > limits.octets:
        print(f"the plan has {len(octets)} octets: expected at most {limits.octets}, so write shorter comments", file=sys.stderr)
        faults.has_passed_limit = True
    if faults.has_passed_limit and limits is STANDARD:
        print(f"with --wide a plan has up to {WIDE.relays} relays, {WIDE.rows} rows, {WIDE.covers} covers and {WIDE.octets} octets", file=sys.stderr)
    if faults.all or faults.has_passed_limit:
        return 1
    sys.stdout.buffer.write(octets)
    return 0


if __name__ == "__main__":
    sys.exit(main(sys.argv[1:]))
