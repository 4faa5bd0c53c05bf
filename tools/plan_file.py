"""The relays, rows and covers of a plan file, as Python's tomllib reads them, and the step of a title at a relay.

For tools that show a plan: the program decides about it, and nothing here is a second verdict. `read(path)` answers a `Plan`, or
raises `Unreadable` if the text is no plan that can be shown. That is also so for a text with what TOML 1.1 has more than 1.0, which
tomllib does not read. Points, selectors and digits have the spelling in which the program prints them.
"""
import re
import sys

try:
    import tomllib
except ImportError:
    sys.exit("plans are read by tomllib, which Python has from 3.11 on")

ANY_SSN = "-"  # in a place: the subsystem number is that of the title
MOST_DIGITS = 32


class Unreadable(Exception):
    """Why a file cannot be shown as a plan."""


class Target:
    """A relay with what it does to a title, or the point at which titles end."""

    def __init__(self, table):
        self.relay = table.get("relay")
        self.point = None if self.relay is not None else point_text(table["final"])
        self.strip = table.get("strip", 0)
        self.put = table.get("put", "").upper()
        self.selector = selector_text(table["selector"]) if "selector" in table else None
        self.ssn = table.get("ssn")

    def words(self):
        """What a row says of the target."""
        if self.relay is None:
            return self.point + ("" if self.ssn is None else f"/{self.ssn}")
        words = [self.relay]
        words += [f"drop {self.strip}"] if self.strip else []
        words += [f"put {self.put}"] if self.put else []
        words += [f"as {self.selector}"] if self.selector else []
        words += [f"ssn {self.ssn}"] if self.ssn is not None else []
        return " ".join(words)


class Row:
    """A row of a relay, with its place among the relay's rows, and its line in the file if that is known."""

    def __init__(self, place, table):
        self.place, self.line, self.comment = place, None, ""
        self.selector = selector_text(table["selector"])
        self.prefix = table["prefix"].upper()
        self.ssn = table.get("ssn")
        listed = table["targets"] if "targets" in table else [table[key] for key in ("first", "backup") if key in table]
        self.targets = [Target(target) for target in listed]

    def has(self, title):
        return self.selector == title.selector and self.ssn in (None, title.ssn) and title.digits.startswith(self.prefix)


class Relay:
    def __init__(self, table):
        self.name = table["name"]
        self.point = point_text(table["point"])
        self.subsystems = list(table.get("subsystems", []))
        self.concerned = [point_text(text) for text in table.get("concerned", [])]
        self.rows = [Row(place, row) for place, row in enumerate(table.get("row", []))]

    def row_of(self, title):
        """The row that counts: that of the longest prefix, and of two the one that names the subsystem number."""
        fitting = [row for row in self.rows if row.has(title)]
        return max(fitting, key=lambda row: (len(row.prefix), row.ssn is not None), default=None)


class Cover:
    def __init__(self, place, table):
        self.place = place
        self.relay = table["node"]
        self.selector = selector_text(table["selector"])
        self.ssn, self.prefix, self.least, self.most = (table[key] for key in ("ssn", "prefix", "least", "most"))
        self.allowed = [place_text(text) for text in table["allowed"]]


class Title:
    def __init__(self, selector, ssn, digits):
        self.selector, self.ssn, self.digits = selector, ssn, digits

    def __eq__(self, other):
        return (self.selector, self.ssn, self.digits) == (other.selector, other.ssn, other.digits)

    def by(self, target):
        """The title as it reaches the relay of a target."""
        digits = target.put + self.digits[target.strip:]
        return Title(target.selector or self.selector, self.ssn if target.ssn is None else target.ssn, digits)


class Step:
    """What a relay does with a title: `what` is sent, ended, blocked, no row or overgrown.

    `row` is the row that counts and `target` the place of the target in it, `to` the relay's name or the place, `cause` a number.
    """

    def __init__(self, what, row=None, target=None, to=None, cause=None, title=None):
        self.what, self.row, self.target, self.to, self.cause, self.title = what, row, target, to, cause, title


class Plan:
    def __init__(self, tables):
        self.relays = [Relay(table) for table in tables["node"]]
        self.covers = [Cover(place, table) for place, table in enumerate(tables.get("cover", []))]
        self.by_name = {relay.name: relay for relay in self.relays}
        self.by_point = {relay.point: relay for relay in self.relays}
        for row in (row for relay in self.relays for row in relay.rows):
            for target in row.targets:
                if target.relay is not None and target.relay not in self.by_name:
                    raise Unreadable(f"no relay has the name {target.relay}")

    def step(self, relay, title, held):
        """What a relay does with a title while it holds these marks prohibited (docs/STANDARD.md, section 5)."""
        row = relay.row_of(title)
        if row is None:
            return Step("no row", cause=1 if any(row.selector == title.selector for row in relay.rows) else 0)
        closing = []
        for place, target in enumerate(row.targets):
            mark = next((mark for mark in self.marks(relay, target, title) if mark in held), None)
            if mark is None:
                return self.taken(relay, row, place, title)
            closing.append(mark)
        return Step("blocked", row, cause={"point": 5, "sccp": 11, "subsystem": 3}[closing[-1].partition(":")[0]])

    def marks(self, relay, target, title):
        """The marks that close a target, in the order in which they are looked for."""
        if target.relay is not None:
            point = self.by_name[target.relay].point
            return [f"point:{point}", f"sccp:{point}"]
        own = [f"subsystem:{target.point}/{title.ssn if target.ssn is None else target.ssn}"]
        return own if target.point == relay.point else [f"point:{target.point}", f"sccp:{target.point}"] + own

    def taken(self, relay, row, place, title):
        target = row.targets[place]
        if target.relay is None:
            ssn = title.ssn if target.ssn is None else target.ssn
            if target.point == relay.point and ssn not in relay.subsystems:
                return Step("no row", row, place, cause=4)
            return Step("ended", row, place, f"{target.point}/{ssn}")
        changed = title.by(target)
        if len(changed.digits) > MOST_DIGITS:
            return Step("overgrown", row, place, target.relay)
        return Step("sent", row, place, target.relay, title=changed)


def point_text(text):
    """A point code as zone, area and point."""
    if re.fullmatch("[0-9]{1,5}", text):
        return f"{int(text) >> 11}-{int(text) >> 3 & 255}-{int(text) & 7}"
    parts = text.split("-")
    if len(parts) != 3:
        raise Unreadable(f"{text} is no point code")
    return "-".join(str(int(part)) for part in parts)


def selector_text(text):
    return ":".join(str(int(part)) for part in text.split(":"))


def place_text(text):
    point, _, ssn = text.partition("/")
    return f"{point_text(point)}/{int(ssn)}"


def find_lines(plan, text):
    """Gives each row the line of its header and the comment above it, if headers are written as usual."""
    lines = text.splitlines()
    found, relay, above = [], -1, ""
    for number, line in enumerate(lines, 1):
        bare = line.strip()
        if re.fullmatch(r"\[\[\s*node\s*\]\]\s*(#.*)?", bare):
            relay += 1
        elif re.fullmatch(r"\[\[\s*node\s*\.\s*row\s*\]\]\s*(#.*)?", bare):
            found.append((relay, number, above))
        above = bare.lstrip("# ") if bare.startswith("#") else ""
    rows = [(place, row) for place, relay in enumerate(plan.relays) for row in relay.rows]
    if [place for place, _ in rows] == [place for place, _, _ in found]:
        for (_, row), (_, number, comment) in zip(rows, found):
            row.line, row.comment = number, comment


def of_text(octets):
    """The plan of a text."""
    try:
        text = octets.decode("utf-8")
        plan = Plan(tomllib.loads(text.replace("\r\n", "\n")))
    except Unreadable:
        raise
    except (UnicodeDecodeError, tomllib.TOMLDecodeError) as fault:
        raise Unreadable(f"Python does not read the text as TOML 1.0: {fault}") from None
    except (KeyError, TypeError, ValueError, AttributeError, RecursionError) as fault:
        raise Unreadable(f"the tables are not those of a plan: {type(fault).__name__} {fault}") from None
    find_lines(plan, text)
    return plan


def read(path):
    """The plan in a file. A file that cannot be read raises OSError."""
    with open(path, "rb") as file:
        return of_text(file.read())
