"""Small plans for the tools that compare the program with brute force: what a relay does, which titles covers have, and drawn plans.

All is written anew from the definitions in docs/STANDARD.md, section 5, for titles one by one and marks set by set. There are no
classes of titles here and no search.

A target is a `Relay` by the relay's name or a `Final`; what it leaves as it is, is None. A spot has the place of its node.
"""
import collections
import itertools
import random
import subprocess
import sys

SELECTORS = ["4:0:1:4", "4:0:1:3"]
FAR = ["2-0-1", "2-0-2"]
MOST_HOPS, MOST_DIGITS = 14, 32
CAUSES = {"point": 5, "sccp": 11, "subsystem": 3}

Node = collections.namedtuple("Node", "name point subsystems concerned rows")
Row = collections.namedtuple("Row", "selector ssn prefix targets")
Relay = collections.namedtuple("Relay", "name strip put selector ssn")
Final = collections.namedtuple("Final", "point ssn")
Cover = collections.namedtuple("Cover", "node selector ssn prefix least most allowed")
Plan = collections.namedtuple("Plan", "nodes covers")
Spot = collections.namedtuple("Spot", "node selector ssn digits")


# ---- what a relay does

def row_of(plan, spot):
    """The row that counts, or the cause why there is none."""
    node = plan.nodes[spot.node]
    of_selector = [row for row in node.rows if row.selector == spot.selector]
    matching = [row for row in of_selector if row.ssn in (None, spot.ssn) and spot.digits.startswith(row.prefix)]
    if not matching:
        return None, (1 if of_selector else 0)
    return max(matching, key=lambda row: (len(row.prefix), row.ssn is not None)), None


def place_of(plan, name):
    return [node.name for node in plan.nodes].index(name)


def marks_of(plan, spot, target):
    """The marks of a target, in the order in which they are looked for."""
    if isinstance(target, Relay):
        point = plan.nodes[place_of(plan, target.name)].point
        return [("point", point), ("sccp", point)]
    ssn = spot.ssn if target.ssn is None else target.ssn
    own = target.point == plan.nodes[spot.node].point
    return ([] if own else [("point", target.point), ("sccp", target.point)]) + [("subsystem", target.point, ssn)]


def choice(plan, spot, row, marking):
    """The place of the target that is taken under a marking, or the cause why all are closed."""
    closing = []
    for place, target in enumerate(row.targets):
        held = [mark for mark in marks_of(plan, spot, target) if mark in marking]
        if not held:
            return ("taken", place)
        closing.append(held[0])
    return ("blocked", CAUSES[closing[-1][0]])


def outcome(plan, spot, row, chosen):
    """What a choice makes of a title."""
    if chosen[0] == "blocked":
        return chosen
    place = chosen[1]
    target = row.targets[place]
    ssn = spot.ssn if target.ssn is None else target.ssn
    if isinstance(target, Final):
        node = plan.nodes[spot.node]
        if target.point == node.point and ssn not in node.subsystems:
            return ("no row", 4)
        return ("ended", target.point, ssn, place)
    digits = target.put + spot.digits[target.strip:]
    if len(digits) > MOST_DIGITS:
        return ("overgrown",)
    return ("sent", Spot(place_of(plan, target.name), target.selector or spot.selector, ssn, digits), place)


def step(plan, spot, marking):
    """What a relay does with a title under a marking."""
    row, cause = row_of(plan, spot)
    return ("no row", cause) if row is None else outcome(plan, spot, row, choice(plan, spot, row, marking))


CHOICES = {}


def choices_of(plan, spot, row):
    """What can be chosen of a row for a title, over every set of the marks that its targets have."""
    key = (id(plan), spot.node, spot.ssn, id(row))  # what is chosen asks nothing of the digits
    if key not in CHOICES:
        marks = sorted({mark for target in row.targets for mark in marks_of(plan, spot, target)})
        markings = [frozenset(held) for n in range(len(marks) + 1) for held in itertools.combinations(marks, n)]
        CHOICES[key] = {choice(plan, spot, row, marking) for marking in markings}
    return CHOICES[key]


def steps_of(plan, spot):
    """Every step of a title, under every set of the marks that its targets have."""
    row, cause = row_of(plan, spot)
    if row is None:
        return {("no row", cause)}
    return {outcome(plan, spot, row, chosen) for chosen in choices_of(plan, spot, row)}


# ---- which titles a cover has, and whether they go well

def has(cover, spot):
    return (cover.node == spot.node and cover.selector == spot.selector and cover.ssn == spot.ssn
            and all(d in "0123456789" for d in spot.digits) and spot.digits.startswith(cover.prefix)
            and cover.least <= len(spot.digits) <= cover.most)


def spots_of(cover):
    for count in range(max(cover.least, len(cover.prefix)), cover.most + 1):
        for rest in itertools.product("0123456789", repeat=count - len(cover.prefix)):
            yield Spot(cover.node, cover.selector, cover.ssn, cover.prefix + "".join(rest))


class Unsafe(Exception):
    """A title goes wrong on its way: it returns to a relay, has a fifteenth hop, finds no row, or grows past 32 digits."""


class Walk:
    """How titles go on under some plans, any of which each relay may hold, or those that are given for its place."""

    def __init__(self, plans, may=None):
        self.plans = plans
        self.may = may
        self.seen = {}
        self.way = set()

    def of(self, spot):
        """The most hops of a title's routes, and the places where they can end."""
        if spot in self.way or len(self.way) == MOST_HOPS:
            raise Unsafe
        if spot in self.seen:
            return self.seen[spot]
        self.way.add(spot)
        most, ends = 1, set()
        for plan in self.may[spot.node] if self.may else self.plans:
            for made in steps_of(plan, spot):
                if made[0] == "sent":
                    hops, further = self.of(made[1])
                    most = max(most, hops + 1)
                    ends |= further
                elif made[0] == "ended":
                    ends.add(made[1:3])
                elif made[0] != "blocked":
                    raise Unsafe
        self.way.remove(spot)
        self.seen[spot] = (most, frozenset(ends))
        return self.seen[spot]


def is_safe(plans, may=None):
    """The bound if every title that all plans cover is brought where it should, and None if one is not.

    Each relay may hold any of the plans, or those that `may` has for its place.
    """
    CHOICES.clear()
    walk = Walk(plans, may)
    bound = 0
    for cover in plans[0].covers:
        for spot in spots_of(cover):
            covers = [[c for c in plan.covers if has(c, spot)] for plan in plans]
            if not all(covers):
                continue
            try:
                most, ends = walk.of(spot)
            except Unsafe:
                return None
            if most > MOST_HOPS or any(end not in c.allowed for end in ends for cs in covers for c in cs):
                return None
            bound = max(bound, most)
    return bound


# ---- the program

def answer_of(program, folder, *words):
    """The status and the printed lines of a call in this folder. A program that cannot be run ends the tool."""
    try:
        done = subprocess.run([program, *words], cwd=folder, stdin=subprocess.DEVNULL, capture_output=True, text=True, check=False)
    except OSError as fault:
        sys.exit(f"{program} cannot be run: {fault.strerror}")
    if done.returncode == 70 or done.returncode < 0:
        sys.exit(f"{program} ended with status {done.returncode}: {done.stderr}")
    return done.returncode, done.stdout.splitlines()


# ---- printed hops

def hop_of(plan, line):
    """The spot, the marking and the words of the step of a printed hop."""
    at, name, selector, ssn, digits, held, marks, *rest = line.split(" ")
    assert at == "at" and held == "held", f"no hop: {line}"
    found = [] if marks == "none" else [mark_of(mark) for mark in marks.split(",")]
    assert len(set(found)) == len(found), f"a mark is there twice: {line}"
    spot = Spot(place_of(plan, name), selector, int(ssn), "" if digits == "-" else digits)
    return spot, frozenset(found), " ".join(rest)


def mark_of(text):
    kind, what = text.split(":")
    return (kind, what.split("/")[0], int(what.split("/")[1])) if kind == "subsystem" else (kind, what)


def step_text(plan, made):
    if made[0] == "sent":
        return f"sent {plan.nodes[made[1].node].name} target {made[2]}"
    if made[0] == "ended":
        return f"ended {made[1]}/{made[2]} target {made[3]}"
    return " ".join(str(word) for word in made)


def route_of(hops):
    """The spots and the last step of printed hops, each given as its plan and its line, if each is what the relay does."""
    assert hops, "no hop"
    spots, next_spot, made = [], None, None
    for plan, line in hops:
        spot, marking, told = hop_of(plan, line)
        assert next_spot is None or spot == next_spot, "the hops don't follow each other"
        made = step(plan, spot, marking)
        assert step_text(plan, made) == told, f"not what the relay does: {line}"
        spots.append(spot)
        next_spot = made[1] if made[0] == "sent" else "over"
    return spots, made


# ---- plans that are drawn

class Draw:
    def __init__(self, seed):
        self.random = random.Random(seed)

    def chance(self, share):
        return self.random.random() < share

    def one(self, values):
        return self.random.choice(values)

    def digits(self, most):
        return "".join(self.one("012") for _ in range(self.random.randint(0, most)))

    def target(self, names, place, order, prefix):
        """A target; a relay leads to a node that is later in the order, most times."""
        later = [n for n in range(len(names)) if order.index(n) > order.index(place)]
        others = [n for n in range(len(names)) if n != place]
        if (later and self.chance(0.6)) or self.chance(0.03):
            to = self.one(later if later and self.chance(0.95) else others)
            grow = 15 if self.chance(0.02) else 1
            return Relay(names[to], self.random.randint(0, min(2, len(prefix))) if self.chance(0.4) else 0,
                         "".join(self.one("012") for _ in range(grow)) if self.chance(0.25) else "",
                         self.one(SELECTORS) if self.chance(0.15) else None, self.one([6, 8]) if self.chance(0.1) else None)
        return self.final(place)

    def final(self, place):
        return Final(self.one(FAR), 6 if self.chance(0.9) else None)

    def rows(self, names, place, order):
        rows = {}
        for selector in SELECTORS:
            prefixes = {"" if self.chance(0.93) else "0"} | {self.digits(2) for _ in range(self.one([0, 0, 1, 2]))}
            for prefix in sorted(prefixes):
                ssn = self.one([6, 8]) if self.chance(0.1) else None
                targets = [self.target(names, place, order, prefix) for _ in range(self.one([1, 1, 1, 2, 3]))]
                rows[(selector, ssn, prefix)] = Row(selector, ssn, prefix, targets)
        return list(rows.values())

    def cover(self, count):
        prefix = self.digits(1)
        most = self.one([1, 2, 2, 3])
        places = [(point, ssn) for point in FAR for ssn in (6, 8)]
        allowed = places if self.chance(0.85) else [place for place in places if self.chance(0.7)]
        node, ssn = self.random.randrange(count), self.one([6, 6, 6, 8])
        return Cover(node, SELECTORS[0], ssn, prefix, self.random.randint(0, most), most, allowed)

    def shape(self):
        """Nodes without rows."""
        count = self.one([2, 2, 3, 3, 4, 5])
        return [Node("abcde"[i], f"1-0-{i + 1}", self.one([[], [6], [6, 8]]), self.one([[], ["2-0-1"]]), []) for i in range(count)]

    def plan(self, shape):
        names = [node.name for node in shape]
        order = list(range(len(shape)))
        self.random.shuffle(order)
        nodes = [node._replace(rows=self.rows(names, i, order)) for i, node in enumerate(shape)]
        return Plan(nodes, [self.cover(len(shape)) for _ in range(self.one([1, 1, 2, 3]))])

    def until_safe(self, make):
        for _ in range(40):
            plan = make()
            if is_safe([plan]) is not None or self.chance(0.01):
                return plan
        return plan


# ---- the text of a plan

def target_text(target):
    if isinstance(target, Final):
        return f'{{ final = "{target.point}"' + (f", ssn = {target.ssn}" if target.ssn is not None else "") + " }"
    text = f'{{ relay = "{target.name}", strip = {target.strip}, put = "{target.put}"'
    text += f', selector = "{target.selector}"' if target.selector else ""
    return text + (f", ssn = {target.ssn}" if target.ssn is not None else "") + " }"


def plan_text(plan):
    lines = ["version = 2"]
    for node in plan.nodes:
        lines += ["[[node]]", f'name = "{node.name}"', f'point = "{node.point}"', f"subsystems = {node.subsystems}",
                  f"concerned = {list(node.concerned)}".replace("'", '"')]
        for row in node.rows:
            lines += ["[[node.row]]", f'selector = "{row.selector}"', f'prefix = "{row.prefix}"',
                      "targets = [" + ", ".join(target_text(target) for target in row.targets) + "]"]
            lines += [f"ssn = {row.ssn}"] if row.ssn is not None else []
    for cover in plan.covers:
        allowed = ", ".join(f'"{point}/{ssn}"' for point, ssn in cover.allowed)
        lines += ["[[cover]]", f'node = "{plan.nodes[cover.node].name}"', f'selector = "{cover.selector}"', f"ssn = {cover.ssn}",
                  f'prefix = "{cover.prefix}"', f"least = {cover.least}", f"most = {cover.most}", f"allowed = [{allowed}]"]
    return "\n".join(lines) + "\n"
