#!/usr/bin/env python3
"""What `conform` has to print of a text of DATA messages or of a capture, from the definitions alone.

  tools/conform_reference.py PLAN FILE    the lines; FILE has one DATA message of M3UA a line, in hexadecimal digits, or is a capture

A capture is read by capture_reference.py.

`sends` is what a relay sends under one marking, `ways` is the same for all markings at once, `explanations` are those ways that send
one given message, and `Watch` judges a list of captured messages. tools/check_conform.py compares the program with it. The standard's
sections are those of ITU-T Q.713 and Q.714.
"""
import os
import sys
import tomllib
from collections import namedtuple

sys.dont_write_bytecode = True
sys.path.insert(0, os.path.dirname(os.path.realpath(__file__)))
import capture_reference  # noqa: E402

MOST_WAITING = 16_384       # arrivals that nothing has answered yet
MOST_ANSWERED = 1024        # answered arrivals that are remembered, for `again`
MOST_OCTETS, MOST_LINES, LONGEST_LINE = 1_048_576, 1_000_000, 8192
USER_PART = 3               # the service indicator of SCCP

# ---- messages (Q.713), those that relays route -----------------------------------------------------------------------------

# title: None, ('raw', kind, octets) or (selector, digits) with the selector as a tuple of four numbers
Address = namedtuple("Address", "national by_ssn pc ssn title")
# fixed: the class of UDT, XUDT and LUDT, the cause of the service messages; hops: None for UDT and UDTS
Message = namedtuple("Message", "type fixed hops called calling data params")

TYPES = {0x09: "UDT", 0x0A: "UDTS", 0x11: "XUDT", 0x12: "XUDTS", 0x13: "LUDT", 0x14: "LUDTS"}
CODES = {name: code for code, name in TYPES.items()}
# the others by their codes: name, octets of the fixed part, whether a called address is the first variable part, whether data is one,
# whether there is an optional part
OTHERS = {0x01: ("CR", 4, 1, 0, True), 0x02: ("CC", 7, 0, 0, True), 0x03: ("CREF", 4, 0, 0, True), 0x04: ("RLSD", 7, 0, 0, True),
          0x05: ("RLC", 6, 0, 0, False), 0x06: ("DT1", 4, 0, 1, False), 0x07: ("DT2", 5, 0, 1, False), 0x08: ("AK", 5, 0, 0, False),
          0x0B: ("ED", 3, 0, 1, False), 0x0C: ("EA", 3, 0, 0, False), 0x0D: ("RSR", 7, 0, 0, False), 0x0E: ("RSC", 6, 0, 0, False),
          0x0F: ("ERR", 4, 0, 0, False), 0x10: ("IT", 10, 0, 0, False)}
KNOWN = {"CR": (9, 4, 15, 17, 18), "CC": (9, 3, 15, 18), "CREF": (3, 15, 18), "RLSD": (15, 18)}


class Bad(Exception):
    """Octets that are not a message, with the words of the first fault."""


def address(b):
    if not b:
        raise Bad("empty")
    kind, place, pc, ssn = b[0] >> 2 & 15, 1, None, None
    if b[0] & 1:
        if len(b) < place + 2:
            raise Bad("short")
        pc, place = int.from_bytes(b[1:3], "little") % 16384, 3
    if b[0] & 2:
        if len(b) < place + 1:
            raise Bad("short")
        ssn, place = b[place], place + 1
    return Address(b[0] & 128 != 0, b[0] & 64 != 0, pc, ssn, title(kind, b[place:]))


def title(kind, b):
    head = {0: 0, 1: 1, 2: 1, 3: 2, 4: 3}.get(kind, 0)
    if len(b) < head:
        raise Bad("short")
    if kind == 0:
        if b:
            raise Bad("extra")
        return None
    raw = ("raw", kind, b)
    if kind > 4:
        return raw
    odd = kind == 1 and b[0] > 127
    selector = {1: (1, 0, 0, b[0] % 128), 2: (2, b[0], 0, 0)}.get(kind)
    if kind > 2:
        if b[1] % 16 not in (1, 2):
            return raw
        odd = b[1] % 16 == 1
        selector = (kind, b[0], b[1] >> 4, b[2] % 128 if kind == 4 else 0)
    packed = b[head:]
    if odd and not packed:
        raise Bad("odd without digits")
    digits = "".join("%X%X" % (octet % 16, octet >> 4) for octet in packed)
    digits = digits[:-1] if odd else digits
    return (selector, digits) if len(digits) <= 32 else raw


def address_octets(a):
    kind, rest = 0, b""
    if a.title is not None and a.title[0] == "raw":
        kind, rest = a.title[1], a.title[2]
    elif a.title is not None:
        (kind, translation, plan, nature), digits = a.title
        odd = len(digits) % 2
        padded = digits + "0" * odd
        coded = 16 * plan + 2 - odd
        head = {1: [nature + 128 * odd], 2: [translation], 3: [translation, coded], 4: [translation, coded, nature]}[kind]
        rest = bytes(head) + bytes(int(padded[i + 1] + padded[i], 16) for i in range(0, len(padded), 2))
    first = (a.pc is not None) + 2 * (a.ssn is not None) + 4 * kind + 64 * a.by_ssn + 128 * a.national
    return bytes([first]) + (b"" if a.pc is None else a.pc.to_bytes(2, "little")) + (b"" if a.ssn is None else bytes([a.ssn])) + rest


def parts_of(b, fixed, count, optional, long):
    """The variable parts, and the parameters, by the pointers."""
    width = 2 if long else 1
    after = 1 + fixed + width * (count + optional)
    if len(b) < after:
        raise Bad("short")
    number = lambda at: int.from_bytes(b[at:at + width], "little")

    def place(i):
        at = 1 + fixed + width * i
        to = at + number(at) + width - 1
        if number(at) == 0 or not after <= to < len(b):
            raise Bad("bad pointer %d" % i)
        return to

    parts = []
    for i in range(count):
        at, size = place(i), 2 if long and i == 2 else 1
        length = int.from_bytes(b[at:at + size], "little")
        if at + size > len(b) or at + size + length > len(b):
            raise Bad("bad part %d" % i)
        parts.append(b[at + size:at + size + length])
    params = []
    if optional and number(1 + fixed + width * count):
        at = place(count)
        while True:
            if at >= len(b):
                raise Bad("bad optional")
            if b[at] == 0:
                break
            if at + 1 >= len(b) or at + 2 + b[at + 1] > len(b):
                raise Bad("bad optional")
            params.append((b[at], b[at + 2:at + 2 + b[at + 1]]))
            at += 2 + b[at + 1]
    return parts, params


def test_params(params, known):
    for name in known:
        first = next((octets for other, octets in params if other == name), None)
        if first is None:
            continue
        good = True
        if name in (3, 4):
            try:
                address(first)
            except Bad:
                good = False
        elif name in (9, 17, 18):
            good = len(first) == 1
        elif name == 16:
            good = len(first) == 4
        if not good:
            raise Bad("field %02X" % name)


def decode(b):
    """A Message, or the name of a connection-oriented type; Bad if the octets are not a message."""
    if not b:
        raise Bad("short")
    if b[0] in OTHERS:
        name, fixed, called, data, optional = OTHERS[b[0]]
        parts, params = parts_of(b, fixed, called + data, optional, False)
        if called:
            read_part(parts, 0)
        test_params(params, KNOWN.get(name, ()))
        return name
    if b[0] not in TYPES:
        raise Bad("unknown type")
    name = TYPES[b[0]]
    counted = name[0] in "XL"
    parts, params = parts_of(b, 2 if counted else 1, 3, counted, name[0] == "L")
    called, calling = read_part(parts, 0), read_part(parts, 1)
    test_params(params, (16, 18))
    return Message(name, b[1], b[2] if counted else None, called, calling, parts[2], tuple(params))


def read_part(parts, i):
    try:
        return address(parts[i])
    except Bad as fault:
        raise Bad("address %d %s" % (i, fault)) from None


def encode(m):
    """The octets, or None if a part or a pointer does not fit."""
    long, counted = m.type[0] == "L", m.hops is not None
    width, most = (2, 65535) if long else (1, 255)
    fixed = bytes([m.fixed]) + (bytes([m.hops]) if counted else b"")
    pieces = []
    for a in (m.called, m.calling):
        octets = address_octets(a)
        if len(octets) > 255:
            return None
        pieces.append(bytes([len(octets)]) + octets)
    if len(m.data) > most or any(len(octets) > 255 for _, octets in m.params):
        return None
    pieces.append(len(m.data).to_bytes(width, "little") + m.data)
    if counted:
        listed = b"".join(bytes([name, len(octets)]) + octets for name, octets in m.params)
        pieces.append(listed + b"\0" if m.params else b"")
    at, pointers = 1 + len(fixed) + width * len(pieces), b""
    for i, piece in enumerate(pieces):
        value = at - (1 + len(fixed) + width * i + width - 1) if piece else 0
        if value > most:
            return None
        pointers += value.to_bytes(width, "little")
        at += len(piece)
    return bytes([CODES[m.type]]) + fixed + pointers + b"".join(pieces)


# ---- plans -----------------------------------------------------------------------------------------------------------------

Target = namedtuple("Target", "relay pc strip put selector ssn")
Row = namedtuple("Row", "selector ssn prefix targets")
Node = namedtuple("Node", "name pc subsystems rows")


def point_value(text):
    if "-" not in text:
        return int(text)
    zone, area, point = (int(part) for part in text.split("-"))
    return zone * 2048 + area * 8 + point


def point_text(pc):
    return "%d-%d-%d" % (pc >> 11, pc >> 3 & 255, pc & 7)


def selector_of(text):
    kind, *numbers = (int(part) for part in text.split(":"))
    if kind == 1:
        return (1, 0, 0, numbers[0])
    return (kind, *numbers) + (0,) * (3 - len(numbers))


def plan_of(text):
    """The nodes of a plan text that reads."""
    document = tomllib.loads(text)
    points = {}
    for node in document["node"]:
        points.setdefault(node["name"], point_value(node["point"]))

    def target(t):
        if "relay" in t:
            return Target(True, points[t["relay"]], t.get("strip", 0), t.get("put", "").upper(),
                          selector_of(t["selector"]) if "selector" in t else None, t.get("ssn"))
        return Target(False, point_value(t["final"]), 0, "", None, t.get("ssn"))

    def row(r):
        listed = r["targets"] if "targets" in r else [r["first"]] + ([r["backup"]] if "backup" in r else [])
        return Row(selector_of(r["selector"]), r.get("ssn"), r["prefix"].upper(), tuple(target(t) for t in listed))

    return [Node(n["name"], point_value(n["point"]), tuple(n.get("subsystems", ())), tuple(row(r) for r in n.get("row", ())))
            for n in document["node"]]


def row_for(node, selector, ssn, digits):
    """The place of the row that counts and None, or None and the return cause."""
    of_selector = [i for i, row in enumerate(node.rows) if row.selector == selector]
    fit = [i for i in of_selector if node.rows[i].ssn in (None, ssn) and digits.startswith(node.rows[i].prefix)]
    if fit:
        return max(fit, key=lambda i: (len(node.rows[i].prefix), node.rows[i].ssn is not None)), None
    return None, 1 if of_selector else 0


# ---- marks and conditions --------------------------------------------------------------------------------------------------

def marks_of(node, ssn, target):
    """The marks of a target, in the order in which they are looked for."""
    subsystem = ("subsystem", target.pc, ssn if target.ssn is None else target.ssn)
    if not target.relay and target.pc == node.pc:
        return [subsystem]
    return [("point", target.pc), ("sccp", target.pc)] + ([] if target.relay else [subsystem])


def cause_of(mark):
    return {"point": 5, "sccp": 11, "subsystem": 3}[mark[0]]


# A marking meets a condition if it holds a mark of each list of `one_of`, and none of `none_of`.
Condition = namedtuple("Condition", "one_of none_of")
ALWAYS = Condition((), ())


def meets(marking, c):
    return all(any(m in marking for m in marks) for marks in c.one_of) and not any(m in marking for m in c.none_of)


def both(c, d):
    return Condition(c.one_of + d.one_of, c.none_of + tuple(m for m in d.none_of if m not in c.none_of))


def settled(c):
    """The same condition without marks that cannot count, each list once; None if no marking meets it."""
    lists = []
    for marks in c.one_of:
        left = tuple(m for m in marks if m not in c.none_of)
        if not left:
            return None
        if left not in lists:
            lists.append(left)
    return Condition(tuple(lists), c.none_of)


# ---- what a relay sends ----------------------------------------------------------------------------------------------------

# what a relay does with a title: ("sent", pc, (selector, ssn, digits)), ("ended", pc, ssn), ("blocked", cause), ("no row", cause) or
# ("overgrown",)

def led(node, target, selector, ssn, digits):
    named = ssn if target.ssn is None else target.ssn
    if not target.relay:
        if target.pc == node.pc and named not in node.subsystems:
            return ("no row", 4)
        return ("ended", target.pc, named)
    new = target.put + digits[target.strip:]
    return ("overgrown",) if len(new) > 32 else ("sent", target.pc, (target.selector or selector, named, new))


def step(node, marking, selector, ssn, digits):
    """Under one marking."""
    place, cause = row_for(node, selector, ssn, digits)
    if place is None:
        return ("no row", cause)
    closing = None
    for target in node.rows[place].targets:
        held = [m for m in marks_of(node, ssn, target) if m in marking]
        if not held:
            return led(node, target, selector, ssn, digits)
        closing = held[0]
    return ("blocked", cause_of(closing))


def steps(node, selector, ssn, digits):
    """Under every marking: what is done, with the condition under which it is, and the row and target that are taken."""
    place, cause = row_for(node, selector, ssn, digits)
    if place is None:
        return [(ALWAYS, ("no row", cause), None)]
    targets = node.rows[place].targets
    lists = [tuple(marks_of(node, ssn, t)) for t in targets]
    out = [(Condition(tuple(lists[:i]), lists[i]), led(node, t, selector, ssn, digits), (place, i)) for i, t in enumerate(targets)]
    last = lists[-1]
    out += [(Condition(tuple(lists[:-1]) + ((m,),), last[:i]), ("blocked", cause_of(m)), None) for i, m in enumerate(last)]
    return out


def one_less(hops):
    return None if hops is None else min(hops, 15) - 1


def onward(m, done):
    """The point and the message after a step that sends or ends, or None; the message may be one that cannot be written."""
    a = m.called
    if done[0] == "sent":
        selector, ssn, digits = done[2]
        new = Address(a.national, False, None, None if a.ssn is None and ssn == 0 else ssn, (selector, digits))
    elif done[0] == "ended":
        new = Address(a.national, True, None, done[2], a.title)
    else:
        return None
    return done[1], m._replace(called=new, hops=one_less(m.hops))


def asks_for_return(m):
    return m.type in ("UDT", "XUDT", "LUDT") and m.fixed >> 4 == 8


def service_of(m, cause):
    """The service message that the sender asked for, or None."""
    if not asks_for_return(m):
        return None
    service = Message(m.type + "S", cause, None if m.hops is None else 15, m.calling, m.called, m.data, m.params)
    return None if encode(service) is None else service


def has_title(a):
    return a.title is not None and a.title[0] != "raw"


def routes_on_title(a):
    return not a.by_ssn and has_title(a)


def spot_of(a):
    return a.title[0], 0 if a.ssn is None else a.ssn, a.title[1]


def sends(node, marking, origin, m, back=True):
    """What a relay that holds a marking sends because of a message: (point, message), or None."""
    def returned(cause):
        service = service_of(m, cause) if back else None
        if service is None:
            return None
        if routes_on_title(service.called):
            return sends(node, marking, node.pc, service, False)
        to = origin if service.called.pc is None else service.called.pc
        return None if ("point", to) in marking or ("sccp", to) in marking else (to, service)

    a = m.called
    if a.by_ssn:
        if a.ssn == 1:
            return None
        if a.ssn not in node.subsystems:
            return returned(4)
        return returned(3) if ("subsystem", node.pc, a.ssn) in marking else None
    if m.hops is not None and m.hops <= 1:
        return returned(12)
    if not has_title(a):
        return returned(0)
    done = step(node, marking, *spot_of(a))
    if done[0] in ("blocked", "no row"):
        return returned(done[1])
    if done[0] == "overgrown":
        return returned(9)
    if done[0] == "ended" and done[1] == node.pc:
        return None
    to, new = onward(m, done)
    return returned(9) if encode(new) is None else (to, new)


# a way in which a relay can send something because of a message: the condition, the point, the message, and what was done; the target
# that the message itself took or None, the return cause or None, the target that the service message took or None, each target as
# (row, place)
Way = namedtuple("Way", "condition to message taken cause back")


def ways(node, origin, m):
    """All of them that some marking lets the relay take. Under a marking that meets none of their conditions nothing is sent."""
    return [w._replace(condition=settled(w.condition)) for w in all_ways(node, origin, m) if settled(w.condition) is not None]


def all_ways(node, origin, m):
    """The same, and those whose condition no marking meets."""
    out = []

    def returned(condition, cause):
        service = service_of(m, cause)
        if service is None:
            return
        if routes_on_title(service.called):
            for c, done, taken in steps(node, *spot_of(service.called)):
                gone = onward(service, done)
                if gone is not None and gone[0] != node.pc and encode(gone[1]) is not None:
                    add(both(condition, c), *gone, None, cause, taken)
            return
        to = origin if service.called.pc is None else service.called.pc
        add(both(condition, Condition((), (("point", to), ("sccp", to)))), to, service, None, cause, None)

    def add(condition, to, message, taken, cause, back):
        out.append(Way(condition, to, message, taken, cause, back))

    a = m.called
    if a.by_ssn:
        if a.ssn != 1:
            if a.ssn not in node.subsystems:
                returned(ALWAYS, 4)
            else:
                returned(Condition(((("subsystem", node.pc, a.ssn),),), ()), 3)
        return out
    if m.hops is not None and m.hops <= 1:
        returned(ALWAYS, 12)
        return out
    if not has_title(a):
        returned(ALWAYS, 0)
        return out
    for c, done, taken in steps(node, *spot_of(a)):
        if done[0] in ("blocked", "no row"):
            returned(c, done[1])
        elif done[0] == "overgrown":
            returned(c, 9)
        elif done[0] == "ended" and done[1] == node.pc:
            continue
        else:
            to, new = onward(m, done)
            if encode(new) is None:
                returned(c, 9)
            else:
                add(c, to, new, taken, None, None)
    return out


# ---- likeness --------------------------------------------------------------------------------------------------------------

def is_same_point(to, a, b):
    """The point code of the point that the message goes to may be there or not."""
    return a == b or {a, b} == {None, to}


def is_alike(to, expected, sent):
    """The message that the plan has the relay send, and one that was sent to the point."""
    a, b = expected.called, sent.called
    return (expected._replace(called=None) == sent._replace(called=None)
            and (a.national, a.by_ssn, a.ssn) == (b.national, b.by_ssn, b.ssn)
            and is_same_point(to, a.pc, b.pc)
            and (a.title == b.title or (a.by_ssn and b.title is None)))


def explanations(node, origin, m, to, sent):
    """The ways in which the relay sends this message to this point because of that one."""
    return [way for way in ways(node, origin, m) if way.to == to and is_alike(to, way.message, sent)]


# ---- why not ---------------------------------------------------------------------------------------------------------------

# the nearest last
REASONS = ["type", "not asked", "class", "cause", "calling", "parameters", "stays", "hops", "point", "national", "routing", "ssn", "title",
           "digits", "called point", "closed"]


def reason(node, origin, m, to, sent):
    """The first of the tests that fails, of a sent message and an arrived one with the same data that does not explain it."""
    service = sent.type == m.type + "S"
    if not service and sent.type != m.type:
        return "type"
    if service and not asks_for_return(m):
        return "not asked"
    if not service and sent.fixed != m.fixed:
        return "class"
    there = [w for w in all_ways(node, origin, m) if (w.cause is not None) == service]
    if service:
        there = [w for w in there if w.cause == sent.fixed]
        if not there:
            return "cause"
    if sent.calling != (m.called if service else m.calling):
        return "calling"
    if sent.params != m.params:
        return "parameters"
    if not there:
        return "stays"
    there = [w for w in there if w.message.hops == sent.hops]
    if not there:
        return "hops"
    there = [w for w in there if w.to == to]
    if not there:
        return "point"
    return max((called_reason(to, w.message.called, sent.called) for w in there), key=REASONS.index)


def called_reason(to, a, b):
    if a.national != b.national:
        return "national"
    if a.by_ssn != b.by_ssn:
        return "routing"
    if a.ssn != b.ssn:
        return "ssn"
    if a.title != b.title and not (a.by_ssn and b.title is None):
        return "digits" if has_title(a) and has_title(b) and a.title[0] == b.title[0] else "title"
    return "called point" if not is_same_point(to, a.pc, b.pc) else "closed"


# ---- the judgement on captured messages ------------------------------------------------------------------------------------

# packet: the number of its packet, if it is of a capture
Event = namedtuple("Event", "number origin destination octets packet", defaults=(None,))
Arrival = namedtuple("Arrival", "number node origin message")


def mark_text(m):
    return "%s:%s%s" % (m[0], point_text(m[1]), "/%d" % m[2] if m[0] == "subsystem" else "")


def condition_text(c):
    held = ",".join("|".join(mark_text(m) for m in marks) for marks in c.one_of) or "none"
    free = ",".join(mark_text(m) for m in c.none_of) or "none"
    return "held %s free %s" % (held, free)


def way_text(w):
    did = []
    if w.taken is not None:
        did.append("target %d/%d" % w.taken)
    if w.cause is not None:
        did.append("return %d" % w.cause)
    if w.back is not None:
        did.append("target %d/%d" % w.back)
    return " ".join(did) + " " + condition_text(w.condition)


WORDS = {1: "ssa", 2: "ssp", 3: "sst", 4: "sor", 5: "sog", 6: "ssc"}


def management_text(m):
    if m.type in ("UDT", "XUDT", "LUDT") and len(m.data) >= 5 and m.data[0] in WORDS:
        return "management %s %s/%d" % (WORDS[m.data[0]], point_text(int.from_bytes(m.data[2:4], "little") % 16384), m.data[1])
    return "management unknown"


class Counts:
    def __init__(self):
        self.arrived = self.sent = self.plain = self.failing = self.unexplained = self.unanswered = self.others = 0
        self.taken = {}
        self.markings, self.so_far = 0, ALWAYS


class Watch:
    """Judges captured messages one after the other."""

    def __init__(self, nodes):
        self.nodes = nodes
        self.at = {}
        for i, node in enumerate(nodes):
            self.at.setdefault(node.pc, i)
        self.waiting, self.answered = [], []
        self.named = set()       # arrivals that a line on a sent message names without being explained by them
        self.counts = [Counts() for _ in nodes]
        self.events = 0
        self.judged = []         # (number, arrival's number or None, ways)

    def name(self, pc):
        return self.nodes[self.at[pc]].name if pc in self.at else point_text(pc)

    def take(self, event):
        """The lines of an event."""
        self.events += 1
        packet = "" if event.packet is None else "packet %d " % event.packet
        head = "%d %sfrom %s to %s " % (event.number, packet, self.name(event.origin), self.name(event.destination))
        source, target = self.at.get(event.origin), self.at.get(event.destination)
        try:
            m = decode(event.octets)
        except Bad as fault:
            for node in (source, target):
                if node is not None:
                    self.counts[node].others += 1
            return [head + "undecodable %s" % fault]
        if isinstance(m, str):
            for node in (source, target):
                if node is not None:
                    self.counts[node].others += 1
            return [head + "connection %s" % m]
        if source is None and target is None:
            return [head + "%s other" % m.type]
        is_management = m.called.by_ssn and m.called.ssn == 1
        # A message for SCCP management that an arrival explains is told as any other.
        verdict = self.sent(source, event, m, is_management) if source is not None else ""
        words = management_text(m) if is_management and not verdict else m.type
        lines = [head + words + verdict]
        if target is not None:
            lines += self.arrived(target, event, m, is_management)
        return lines

    def sent(self, source, event, m, is_management):
        node, counts = self.nodes[source], self.counts[source]
        for i, arrival in enumerate(self.waiting):
            if arrival.node != source or arrival.message.data != m.data:
                continue
            found = explanations(node, arrival.origin, arrival.message, event.destination, m)
            if not found:
                continue
            del self.waiting[i]
            self.answered = (self.answered + [(arrival, event.number)])[-MOST_ANSWERED:]
            self.judged.append((event.number, arrival.number, found))
            counts.sent += 1
            plain = any(not w.condition.one_of for w in found)
            counts.plain += plain
            counts.failing += not plain
            for taken in (found[0].taken, found[0].back):
                if taken is not None:
                    counts.taken[taken] = counts.taken.get(taken, 0) + 1
            together = settled(both(counts.so_far, found[0].condition))
            if counts.markings == 0 or together is None:
                counts.markings += 1
                together = found[0].condition
            counts.so_far = together
            return " explained by %d " % arrival.number + " or ".join(way_text(w) for w in found)
        if is_management:
            counts.others += 1
            return ""
        if m.calling.by_ssn and m.calling.ssn in node.subsystems and m.calling.pc in (None, node.pc):
            counts.others += 1
            return " own %d" % m.calling.ssn
        counts.sent += 1
        counts.unexplained += 1
        self.judged.append((event.number, None, []))
        return " unexplained " + self.nearest(source, event, m)

    def nearest(self, source, event, m):
        best = None
        for arrival in self.waiting:
            if arrival.node == source and arrival.message.data == m.data:
                word = reason(self.nodes[source], arrival.origin, arrival.message, event.destination, m)
                if best is None or REASONS.index(word) > REASONS.index(best[1]):
                    best = arrival.number, word
        if best is not None:
            self.named.add(best[0])
            return "by %d %s" % best
        for arrival, number in self.answered:
            if arrival.node == source and arrival.message.data == m.data \
                    and explanations(self.nodes[source], arrival.origin, arrival.message, event.destination, m):
                return "again %d" % number
        return "no arrival"

    def arrived(self, target, event, m, is_management):
        if is_management:
            self.counts[target].others += 1
            return []
        self.counts[target].arrived += 1
        if m.called.by_ssn and not asks_for_return(m):
            return []            # nothing is ever sent because of it
        self.waiting.append(Arrival(event.number, target, event.origin, m))
        if len(self.waiting) > MOST_WAITING:
            return self.given_up(self.waiting.pop(0))
        return []

    def given_up(self, arrival):
        """An arrival that no sent message named is reported if something would be sent with nothing prohibited."""
        if arrival.number in self.named:
            self.named.discard(arrival.number)
            return []
        if sends(self.nodes[arrival.node], frozenset(), arrival.origin, arrival.message) is None:
            return []
        self.counts[arrival.node].unanswered += 1
        return ["%d unanswered at %s" % (arrival.number, self.nodes[arrival.node].name)]

    def finish(self):
        lines = []
        for arrival in self.waiting:
            lines += self.given_up(arrival)
        self.waiting = []
        for node, c in zip(self.nodes, self.counts):
            lines.append("relay %s arrived %d sent %d plain %d failing %d unexplained %d unanswered %d others %d markings %d"
                         % (node.name, c.arrived, c.sent, c.plain, c.failing, c.unexplained, c.unanswered, c.others, c.markings))
            for i, row in enumerate(node.rows):
                for j in range(len(row.targets)):
                    lines.append("relay %s target %d/%d taken %d" % (node.name, i, j, c.taken.get((i, j), 0)))
        bad = sum(c.unexplained for c in self.counts)
        return lines + ["end %d unexplained %d" % (self.events, bad)], 2 if bad else 0


# ---- the text

class BadLine(Exception):
    """The number of a line, and what is wrong with it."""


def events_of(octets):
    """What a text gives, line by line: an Event, or a line on what carries none. Other services give nothing."""
    out = []
    lines = octets.split(b"\n")
    for number, line in enumerate(lines, 1):
        ended = number < len(lines)
        if not ended and not line:
            break
        if number > MOST_LINES:
            raise BadLine(number, "too many")
        if len(line) > LONGEST_LINE:
            raise BadLine(number, "too long")
        line = line[:-1] if ended and line.endswith(b"\r") else line
        if line:
            out += of_line(number, line)
    return out


def of_line(number, line):
    if len(line) % 2 or any(octet not in b"0123456789ABCDEFabcdef" for octet in line):
        raise BadLine(number, "not a line")
    read = capture_reference.data_message(bytes.fromhex(line.decode()))
    if isinstance(read, int):
        return ["# line %d refused %d" % (number, read)]
    _, origin, destination, service, payload = read
    if service != USER_PART:
        return []
    if max(origin, destination) > 16383:
        return ["# line %d point" % number]
    return [Event(number, origin, destination, payload) if payload else "# line %d empty" % number]


def judged(nodes, items):
    """The lines of events and others, the status, and the watch that judged them."""
    watch, lines = Watch(nodes), []
    for item in items:
        lines += [item] if isinstance(item, str) else watch.take(item)
    last, status = watch.finish()
    return lines + last, status, watch


MAGICS = [bytes.fromhex(word) for word in ("A1B2C3D4", "D4C3B2A1", "A1B23C4D", "4D3CB2A1", "0A0D0D0A")]


class CapturedEvents(capture_reference.Lines):
    """What a capture gives: an Event for each message of SCCP between two points, and the line on whatever is not one."""

    def take_signal(self, origin, destination, service, octets, number):
        if service != USER_PART:
            self.counts["others"] += 1
        elif max(origin, destination) > 16383:
            self.line("left", "point", number)
        elif not octets:
            self.line("left", "empty", number)
        elif len(octets) > capture_reference.MOST_SCCP:
            self.line("left", "long", number)
        else:
            self.counts["messages"] += 1
            self.printed.append(Event(self.counts["messages"], origin, destination, octets, self.counts["packets"]))


def printed(nodes, octets):
    """The lines and the status of a text or of a capture."""
    if octets[:4] in MAGICS:
        items, damaged = capture_reference.printed({}, octets, CapturedEvents)
        lines, status, _ = judged(nodes, items)
        return lines, damaged or status
    if len(octets) > MOST_OCTETS:
        return ["too long"], 68
    try:
        items = events_of(octets)
    except BadLine as fault:
        return ["bad trace line %d %s" % fault.args], 66
    return judged(nodes, items)[:2]


def main(words):
    with open(words[0]) as file:
        nodes = plan_of(file.read())
    with open(words[1], "rb") as file:
        lines, status = printed(nodes, file.read())
    sys.stdout.write("".join(line + "\n" for line in lines))
    return status


if __name__ == "__main__":
    sys.exit(main(sys.argv[1:]))
