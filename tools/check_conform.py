#!/usr/bin/env python3
"""Compares what `conform` prints with a reading of its own (conform_reference.py), on what relays are seen to send.

  tools/check_conform.py [--plans N] [--replays N] [--seed N] [--program FILE] [--alone] [--write FOLDER]

First the reference is held against itself: of messages of drawn plans, the ways that it finds for all markings at once have to be what a
relay sends under each set of the marks that occur. Then the program is called with seven scenarios of one plan, with N drawn plans (100
unless given), whose relays lose, repeat, change and misdirect some messages, with messages of all kinds over each of these plans, and
with texts that have other lines. Each scenario, and what is drawn for each plan, is a capture too. Last, N traces (30
unless given) are replayed by the program over accepted plans; what the relays of a replay send has to be explained, line by line, by
conditions that the marks which the replay held meet.

The program is ./sccp of this repository if none is named. With --alone no program is called. With --write the scenarios are written into
the folder, each as NAME.txt and NAME.pcap beside `relays.toml`, and nothing is compared. The last line counts. Each text with a
difference is kept beside its name, and the status is then 1.
"""
import argparse
import collections
import itertools
import os
import random
import re
import struct
import subprocess
import sys
import tempfile

sys.dont_write_bytecode = True
sys.path.insert(0, os.path.dirname(os.path.realpath(__file__)))
import conform_reference as relays  # noqa: E402

TOP = os.path.dirname(os.path.dirname(os.path.abspath(__file__)))
PLAN = """# Relay a drops 49 and hands national numbers to b. If b cannot be reached, it brings them to 2-0-3 itself. Relay b brings them to
# 2-0-1, else 2-0-2. Service messages for 43 go back to 1-0-1 over either relay. Relay a has a subsystem of its own.
version = 2

[[node]]
name = "a"
point = "1-0-2"
subsystems = [8]
concerned = ["1-0-1"]

[[node.row]]
selector = "4:0:1:4"
prefix = "49"
targets = [{ relay = "b", strip = 2, put = "0", selector = "4:0:1:3" }, { final = "2-0-3", ssn = 6 }]

[[node.row]]
selector = "4:0:1:4"
prefix = "43"
targets = [{ final = "1-0-1", ssn = 8 }]

[[node]]
name = "b"
point = "1-0-3"

[[node.row]]
selector = "4:0:1:3"
prefix = "0"
targets = [{ final = "2-0-1", ssn = 6 }, { final = "2-0-2", ssn = 6 }]

[[node.row]]
selector = "4:0:1:4"
prefix = "43"
targets = [{ relay = "a" }, { final = "1-0-1", ssn = 8 }]

[[cover]]
node = "a"
selector = "4:0:1:4"
ssn = 6
prefix = "49"
least = 12
most = 12
allowed = ["2-0-1/6", "2-0-2/6", "2-0-3/6"]
"""
USER, A, B, ONE, TWO, THREE = (relays.point_value(text) for text in ("1-0-1", "1-0-2", "1-0-3", "2-0-1", "2-0-2", "2-0-3"))
INTERNATIONAL, NATIONAL = (4, 0, 1, 4), (4, 0, 1, 3)


# ---- messages

def titled(digits, ssn=6):
    return relays.Address(False, False, None, ssn, (INTERNATIONAL, digits))


def at_point(pc, ssn):
    return relays.Address(False, True, pc, ssn, None)


def unit(data, called="491710000012", calling=None, returns=False, kind="UDT", hops=15, params=()):
    """The octets of a message from subsystem 8 at 1-0-1, unless another calling address is given."""
    calling = calling or at_point(USER, 8)
    return relays.encode(relays.Message(kind, 0x80 if returns else 0, None if kind == "UDT" else hops, titled(called), calling, data, tuple(params)))


def to_subsystem(called, calling, data, returns=False):
    return relays.encode(relays.Message("UDT", 0x80 if returns else 0, None, called, calling, data, ()))


def status_message(kind, ssn, pc):
    return to_subsystem(at_point(None, 1), at_point(None, 1), bytes([kind, ssn]) + pc.to_bytes(2, "little") + b"\0")


def changed(octets, **fields):
    """The message with other fields, of its called address or of its own."""
    m = relays.decode(octets)
    called = {name: value for name, value in fields.items() if name in relays.Address._fields}
    rest = {name: value for name, value in fields.items() if name not in called}
    return relays.encode(m._replace(called=m.called._replace(**called), **rest))


def other_form(octets):
    """The same UDT: its data first, a gap before each part, and octets after the last one."""
    pointers = [octets[2 + place] + 2 + place for place in range(3)]
    parts = [octets[at:at + 1 + octets[at]] for at in pointers]
    places, body = [0, 0, 0], b""
    for place in (2, 0, 1):
        body += b"\xEE"
        places[place] = 5 + len(body) - (2 + place)
        body += parts[place]
    return octets[:2] + bytes(places) + body + b"\xEE\xEE"


def data_message(origin, destination, octets, service=3):
    """A DATA message of M3UA."""
    data = struct.pack(">IIBBBB", origin, destination, service, 2, 0, 5) + octets
    parameter = struct.pack(">HH", 0x0210, 4 + len(data)) + data + bytes(-len(data) % 4)
    return struct.pack(">BBBBI", 1, 0, 1, 1, 8 + len(parameter)) + parameter


def text_of(events):
    return "".join(data_message(*event).hex().upper() + "\n" for event in events).encode()


class Scene:
    """Relays that hold markings, and what is seen of them: the origin, the destination and the octets of each message."""

    def __init__(self, nodes):
        self.nodes = nodes
        self.at = {node.pc: place for place, node in enumerate(nodes)}
        self.held = [set() for _ in nodes]
        self.events = []

    def add(self, origin, to, octets):
        self.events.append((origin, to, octets))

    def sent(self, origin, node, octets):
        """The point and the octets that a relay sends because of octets, or None."""
        sent = relays.sends(self.nodes[node], self.held[node], origin, relays.decode(octets))
        return None if sent is None else (sent[0], relays.encode(sent[1]))

    def run(self, origin, to, octets, limit=20):
        """Octets arrive, and go on from relay to relay."""
        self.add(origin, to, octets)
        while to in self.at and limit:
            sent = self.sent(origin, self.at[to], octets)
            if sent is None:
                return
            origin, (to, octets), limit = to, sent, limit - 1
            self.add(origin, to, octets)


# ---- the scenarios

def plain(s):
    for number in range(3):
        s.run(USER, A, unit(bytes([number])))


def failing(s):
    s.run(USER, A, unit(b"\1"))
    s.held[1] = {("subsystem", ONE, 6)}
    s.run(USER, A, unit(b"\2"))
    s.held[0] = {("point", B), ("sccp", B)}
    s.run(USER, A, unit(b"\3"))


def returned(s):
    s.held[0] = {("point", B), ("point", THREE)}
    s.run(USER, A, unit(b"\1", returns=True))
    s.run(USER, A, unit(b"\2", returns=True, calling=titled("43664000", 8)))
    s.run(USER, A, unit(b"\3", called="47", returns=True))
    s.run(USER, A, unit(b"\4", returns=True, kind="XUDT", hops=1))
    s.run(USER, A, unit(b"\5"))
    s.held = [set(), {("point", ONE), ("sccp", TWO)}]
    s.run(USER, A, unit(b"\6", returns=True, calling=titled("43664000", 8), kind="XUDT", params=[(0x12, b"\3")]))


def unexplained(s):
    def arrive(octets):
        s.add(USER, A, octets)
        return s.sent(USER, 0, octets)

    s.run(USER, A, unit(b"\1", kind="XUDT"))
    to, octets = arrive(unit(b"\2", kind="XUDT"))
    s.add(A, to, changed(octets, hops=15))                                   # the counter is not lowered
    s.add(A, ONE, arrive(unit(b"\3"))[1])                                    # to another point
    s.add(A, B, changed(arrive(unit(b"\4"))[1], title=(NATIONAL, "1710000012")))  # without the 0
    arrive(unit(b"\5"))
    s.add(A, B, s.events[-1][2])                                             # as it arrived
    s.add(A, B, unit(b"\6"))                                                 # what never arrived
    arrive(unit(b"\7"))                                                      # nothing is sent because of this one
    s.run(USER, A, unit(b"\x08"))
    s.add(A, B, s.events[-2][2])                                             # a second time
    to, octets = arrive(unit(b"\x09", called="47", returns=True))
    s.add(A, to, changed(octets, fixed=0))                                   # another return cause
    s.add(B, TWO, changed(s.events[3][2], by_ssn=True))


def alike(s):
    s.add(USER, A, other_form(unit(b"\1")))
    to, octets = s.sent(USER, 0, unit(b"\1"))
    s.add(A, to, other_form(octets))
    to, octets = s.sent(A, 1, octets)
    s.add(B, to, changed(octets, pc=ONE, title=None))                        # with the point code, and without the title
    s.add(USER, A, unit(b"\2"))
    s.add(A, B, changed(s.sent(USER, 0, unit(b"\2"))[1], pc=ONE))            # with a point code that is not where it goes


def turns(s):
    for number in range(6):
        s.held[1] = {("point", ONE)} if number % 2 else set()
        s.run(USER, A, unit(bytes([number])))


def others(s):
    s.add(ONE, B, status_message(2, 6, ONE))
    s.add(B, ONE, status_message(3, 6, ONE))
    s.add(USER, A, to_subsystem(at_point(None, 8), at_point(USER, 8), b"\1"))      # for the subsystem of a
    s.add(A, USER, to_subsystem(at_point(USER, 8), at_point(A, 8), b"\2"))         # and what it answers
    s.add(USER, A, bytes.fromhex("011100000202000B1206001204947101000021"))        # a connection
    s.add(A, B, bytes.fromhex("010200000202000B1206001103101700001002"))
    s.add(USER, A, bytes.fromhex("0980030E"))
    s.add(ONE, TWO, unit(b"\3"))
    refused = to_subsystem(at_point(None, 9), at_point(USER, 8), b"\4", True)      # for none of its subsystems
    s.add(USER, A, refused)
    s.add(A, USER, s.sent(USER, 0, refused)[1])


def scenarios():
    """Each scenario by its name."""
    nodes = relays.plan_of(PLAN)
    for made in (plain, failing, returned, unexplained, alike, turns, others):
        scene = Scene(nodes)
        made(scene)
        yield made.__name__, scene.events


# ---- scenarios that are drawn

def draw_plan(draw, safe=False):
    """A plan of three relays, whose rows lead anywhere. In a safe one they lead to later relays only."""
    names, points = ["a", "b", "c"], ["1-0-2", "1-0-3", "1-0-4"]
    out = ["version = 2\n"]
    for place, (name, point) in enumerate(zip(names, points)):
        out.append(f'[[node]]\nname = "{name}"\npoint = "{point}"\nsubsystems = [8]\n')
        prefixes = draw.sample(["", "49", "4917", "43", "0"], draw.randrange(1, 5))
        for prefix in [""] + prefixes[:2] if safe and "" not in prefixes else prefixes:
            targets = []
            others_of = names[place + 1:] if safe else [other for other in names if other != name]
            for _ in range(draw.randrange(1, 4)):
                if draw.random() < .5 or not others_of:
                    ssn = draw.choice(["", ", ssn = 6", ", ssn = 7"])
                    targets.append('{ final = "%s"%s }' % (draw.choice(["2-0-1", "2-0-2", "2-0-3"]), ssn))
                else:
                    strip = draw.randrange(len(prefix) + 1)
                    put = draw.choice(["", "49", "0"])
                    targets.append('{ relay = "%s", strip = %d, put = "%s" }' % (draw.choice(others_of), strip, put))
            out.append('[[node.row]]\nselector = "4:0:1:4"\nprefix = "%s"\ntargets = [%s]\n' % (prefix, ", ".join(targets)))
    places = ", ".join(f'"2-0-{point}/{ssn}"' for point in (1, 2, 3) for ssn in (6, 7))
    out.append('[[cover]]\nnode = "a"\nselector = "4:0:1:4"\nssn = 6\nprefix = "49"\nleast = 12\nmost = 12\nallowed = [%s]\n' % places)
    return "\n".join(out)


def draw_unit(draw, number):
    return unit(bytes([number]), called=draw.choice(["491710000012", "49171", "43664", "0171"]), returns=draw.random() < .5,
                kind=draw.choice(["UDT", "XUDT", "LUDT"]), calling=draw.choice([None, titled("43664000", 8), titled("49", 7)]),
                hops=draw.choice([15, 2, 16]))


def draw_title(draw):
    """A title of any kind, or none; some are of kinds that are not read."""
    if draw.random() < .5:
        return INTERNATIONAL, draw.choice(["491710000012", "4917", "43664", "0171", "", "49" + "0" * 30])
    return draw.choice([None, ("raw", 12, b"\x01\x02"), ("raw", 0, b""), ("raw", 4, b"\0\x13\4\x21"), ((1, 0, 0, 4), "4917"),
                        ((2, 7, 0, 0), "4917"), ((3, 0, 1, 0), "491"), (NATIONAL, "0171")])


def draw_address(draw):
    title = draw_title(draw)
    title = None if title == ("raw", 0, b"") else title
    return relays.Address(draw.random() < .1, draw.random() < .4, draw.choice([None, None, USER, A, B, ONE]),
                          draw.choice([None, 0, 1, 6, 6, 8, 9]), title)


def draw_octets(draw, number):
    """Octets of any connectionless message, or now and then of another one or of none."""
    if draw.random() < .05:
        return draw.choice([bytes.fromhex("011100000202000B1206001204947101000021"), bytes.fromhex("0980030E"), b"\x15", draw.randbytes(9)])
    kind = draw.choice(list(relays.CODES))
    fixed = draw.choice([0, 1, 3, 5, 11, 12]) if kind.endswith("S") else draw.choice([0, 1, 0x80, 0x80, 0x81, 5])
    hops = None if kind in ("UDT", "UDTS") else draw.choice([0, 1, 2, 14, 15, 16, 255])
    params = draw.choice([(), ((0x12, b"\3"),), ((0x99, b"\1\2"), (0x12, b"\3"))]) if hops is not None else ()
    data = draw.choice([bytes([number]), bytes([number % 3]), b"", b"\2\6\1\x10\0"])
    octets = relays.encode(relays.Message(kind, fixed, hops, draw_address(draw), draw_address(draw), data, params))
    return b"\x09" if octets is None else octets


def redrawn(draw, octets):
    """The message with another value of one field, or the octets if they are of no such message."""
    try:
        m = relays.decode(octets)
    except relays.Bad:
        return octets
    if isinstance(m, str):
        return octets
    field = draw.choice(["type", "fixed", "hops", "called", "calling", "data", "params", "national", "by_ssn", "pc", "ssn", "title"])
    values = {"type": "UDT" if m.hops is None else draw.choice(["XUDT", "LUDT"]), "fixed": draw.choice([0, 1, 5, 0x80]),
              "hops": None if m.hops is None else draw.choice([m.hops + 1 & 255, 15]), "called": draw_address(draw),
              "calling": draw_address(draw), "data": draw.choice([b"", m.data + b"\1"]), "params": m.params[:-1],
              "national": not m.called.national, "by_ssn": not m.called.by_ssn,
              "pc": draw.choice([None, A, ONE, TWO]), "ssn": draw.choice([None, 6, 7, 9]), "title": draw_title(draw)}
    if field == "title" and values["title"] == ("raw", 0, b""):
        return octets
    if field in ("called", "calling"):
        new = m._replace(**{field: values[field]})
    elif field in relays.Address._fields:
        new = m._replace(called=m.called._replace(**{field: values[field]}))
    else:
        new = m._replace(**{field: values[field]})
    return relays.encode(new) or octets


def draw_mixture(draw, nodes):
    """Messages of all kinds, sent as the plan has it, with other values, by users, or not at all."""
    s = Scene(nodes)
    points = [node.pc for node in nodes] + [USER, ONE, TWO, THREE]
    for number in range(draw.randrange(4, 30)):
        if draw.random() < .3:
            s.held[draw.randrange(len(nodes))] = set(draw.sample(marks_at(nodes), draw.randrange(6)))
        octets = draw_octets(draw, number)
        to = draw.choice(points)
        s.add(draw.choice(points), to, octets)
        if to in s.at and draw.random() < .9:
            try:
                m = relays.decode(octets)
            except relays.Bad:
                continue
            sent = None if isinstance(m, str) else relays.sends(nodes[s.at[to]], s.held[s.at[to]], s.events[-1][0], m)
            if sent is not None:
                out = relays.encode(sent[1])
                out = redrawn(draw, out) if draw.random() < .4 else out
                s.add(to, sent[0] if draw.random() < .9 else draw.choice(points), out)
    return s.events


def marks_at(nodes):
    points = [node.pc for node in nodes] + [ONE, TWO, THREE]
    return [(kind, pc) for kind in ("point", "sccp") for pc in points] + [("subsystem", pc, ssn) for pc in (ONE, TWO, THREE) for ssn in (6, 7)]


def spoil(draw, s, first):
    """One of the messages that relays sent from that place on is lost, repeated, misdirected or changed."""
    points = [node.pc for node in s.nodes] + [ONE, TWO, THREE]
    at = draw.randrange(first, len(s.events))
    origin, to, octets = s.events[at]
    fault = draw.randrange(5)
    if fault == 0:
        del s.events[at]
    elif fault == 1:
        s.events.insert(at, s.events[at])
    elif fault == 2:
        s.events[at] = (origin, draw.choice(points), octets)
    elif fault == 3:
        s.events[at] = (origin, to, changed(octets, ssn=9))
    else:
        s.events[at] = (origin, to, changed(octets, data=b"other"))


def draw_scenario(draw, nodes):
    s = Scene(nodes)
    for number in range(draw.randrange(4, 40)):
        if draw.random() < .3:
            s.held[draw.randrange(len(nodes))] = set(draw.sample(marks_at(nodes), draw.randrange(5)))
        before = len(s.events)
        s.run(USER, draw.choice(nodes).pc, draw_unit(draw, number))
        if draw.random() < .25 and len(s.events) > before + 1:
            spoil(draw, s, before + 1)
    return s.events


# ---- the reference against itself

def marks_in(ways):
    listed = [mark for way in ways for marks in (*way.condition.one_of, way.condition.none_of) for mark in marks]
    return sorted(set(listed))


def markings_of(draw, marks):
    """All sets of these marks, or 512 drawn ones if there are more."""
    if len(marks) <= 9:
        return [set(chosen) for size in range(len(marks) + 1) for chosen in itertools.combinations(marks, size)]
    return [set(draw.sample(marks, draw.randrange(len(marks) + 1))) for _ in range(512)]


def hold_against_itself(draw, nodes, octets):
    """How many sets of marks were tried for octets at each relay. A way that is met has to be what is sent, and only one is met."""
    tried, m = 0, relays.decode(octets)
    for node in nodes:
        ways = relays.ways(node, USER, m)
        for marking in markings_of(draw, marks_in(ways)):
            met = [way for way in ways if relays.meets(marking, way.condition)]
            sent = relays.sends(node, marking, USER, m)
            assert len(met) <= 1, f"two ways at {node.name}: {octets.hex()} under {marking}"
            assert sent == ((met[0].to, met[0].message) if met else None), f"{octets.hex()} at {node.name} under {marking}"
            tried += 1
    return tried


# ---- the program

class Check:
    def __init__(self, program, folder, keep):
        self.program, self.folder, self.keep = program, folder, keep
        self.calls, self.kinds, self.differences = 0, collections.Counter(), 0

    def write(self, name, octets):
        with open(os.path.join(self.folder, name), "wb") as file:
            file.write(octets)

    def call(self, *words):
        self.calls += 1
        done = subprocess.run([self.program, *words], cwd=self.folder, stdin=subprocess.DEVNULL, capture_output=True, text=True, check=False)
        return done.stdout.splitlines(), done.returncode

    def differs(self, title, plan, text, words):
        self.differences += 1
        kept = os.path.join(self.keep, f"conform_{self.differences}")
        for ending, octets in ((".toml", plan.encode()), (".txt", text)):
            with open(kept + ending, "wb") as file:
                file.write(octets)
        print(f"check_conform: {title} differs, kept as {kept}.txt\n  {words}")

    def compare(self, title, plan, text):
        """The lines of a call, which have to be those of the reference."""
        self.write("plan.toml", plan.encode())
        self.write("seen.txt", text)
        wanted = relays.printed(relays.plan_of(plan), text)
        given = self.call("conform", "plan.toml", "seen.txt")
        self.kinds.update(kind_of(line) for line in wanted[0])
        if given != wanted:
            pairs = itertools.zip_longest(given[0], wanted[0])
            shown = next((pair for pair in pairs if pair[0] != pair[1]), ("", ""))
            self.differs(title, plan, text, f"status {given[1]} and not {wanted[1]}\n  printed: {shown[0]}\n  wanted:  {shown[1]}")
        return given[0]


def kind_of(line):
    words = line.split()
    return next((word for word in ("explained", "unexplained", "unanswered", "own", "management", "connection", "undecodable", "other", "from")
                 if word in words[1:] and words[0].isdigit()), "end" if words[0] == "end" else "summary" if words[0] == "relay" else "rest")


# ---- texts with other lines

def answer(data):
    """What relay a of the scenarios sends because of unit(data), with nothing prohibited."""
    return relays.encode(relays.sends(relays.plan_of(PLAN)[0], frozenset(), USER, relays.decode(unit(data)))[1])


def other_texts():
    one = data_message(USER, A, unit(b"\1")).hex()
    yield "nothing", b""
    yield "empty lines", b"\n\r\n" + one.encode() + b"\r\n\n"
    yield "small letters, and no line feed at the end", one.encode()
    yield "another service", text_of([(USER, A, unit(b"\1"), 5)])
    yield "wide points", text_of([(70_000, A, unit(b"\1")), (USER, 16_384, unit(b"\1"))])
    yield "no octets", text_of([(USER, A, b"")])
    yield "no DATA message", b"0100010100000008\n01000101\n"
    yield "not a line", one.encode() + b"\n" + one.encode() + b"0\n"
    yield "a blank", one.encode() + b" \n"
    yield "a comment", b"# here\n"
    yield "the front of a capture", bytes.fromhex("D4C3B2")
    yield "a packed file", bytes.fromhex("1F8B08000000000000")
    answered = text_of([event for _ in range(1023) for event in ((USER, A, unit(b"\1")), (A, B, answer(b"\1")))])
    first = text_of([(USER, A, unit(b"\0")), (A, B, answer(b"\0"))])
    yield "a message again after 1,023 answers", first + answered + text_of([(A, B, answer(b"\0"))])
    last = text_of([(USER, A, unit(b"\2")), (A, B, answer(b"\2")), (A, B, answer(b"\0"))])
    yield "a message again after 1,024 answers", first + answered + last
    yield "a line that is too long", b"0" * 8194 + b"\n"
    yield "the longest line", b"0" * 8192 + b"\n"


# ---- captures

ETHERNET, MTP3, CHUNK_OF_M3UA = 1, 141, 3


def sctp(tag, chunks):
    """An SCTP packet with DATA chunks: their numbers, flags and user data."""
    out = struct.pack(">HHII", 2905, 2905, tag, 0)
    for number, flags, data in chunks:
        out += struct.pack(">BBHIHHI", 0, flags, 16 + len(data), number, 0, number % 65_536, CHUNK_OF_M3UA) + data + bytes(-len(data) % 4)
    return out


def ethernet(packet):
    ip = struct.pack(">BBHHHBBHII", 0x45, 0, 20 + len(packet), 0, 0, 64, 132, 0, 1, 2) + packet
    return bytes(12) + b"\x08\x00" + ip


def mtp3(origin, to, octets, service=3):
    return bytes([0x80 + service]) + (to + origin * 2**14).to_bytes(4, "little") + octets


def pcap(link, packets):
    records = (struct.pack("<IIII", 0, 0, len(packet), len(packet)) + packet for packet in packets)
    return struct.pack("<IHHIIII", 0xA1B2C3D4, 2, 4, 0, 0, 262_144, link) + b"".join(records)


def block(kind, body):
    body += bytes(-len(body) % 4)
    return struct.pack("<II", kind, 12 + len(body)) + body + struct.pack("<I", 12 + len(body))


def pcapng(link, packets):
    head = block(0x0A0D0D0A, struct.pack("<IHHq", 0x1A2B3C4D, 1, 0, -1)) + block(1, struct.pack("<HHI", link, 0, 0))
    return head + b"".join(block(6, struct.pack("<IIIII", 0, 0, 0, len(packet), len(packet)) + packet) for packet in packets)


def capture_of(events):
    """Each message in a packet of its own; an association for each pair of points."""
    numbers, packets = collections.Counter(), []
    for origin, to, octets in events:
        numbers[origin, to] += 1
        chunks = [(numbers[origin, to], 3, data_message(origin, to, octets))]
        packets.append(ethernet(sctp(1 + origin * 16_384 + to, chunks)))
    return pcap(ETHERNET, packets)


def drawn_capture(draw, events):
    """Messages of SCCP in packets of any kind: bundled, in two chunks, sent again, between others, and over MTP3; cut or damaged too."""
    numbers, packets = collections.Counter(), []
    if draw.random() < .3:
        packets = [mtp3(origin, to, octets) for origin, to, octets in events]
        for _ in range(draw.randrange(4)):
            other = draw.choice([mtp3(USER, A, b"\1\2", 5), mtp3(USER, A, b""), mtp3(USER, A, bytes(4073)), b"\x83\0", b"\x83"])
            packets.insert(draw.randrange(len(packets) + 1), other)
        link = MTP3
    else:
        place, link = 0, ETHERNET
        while place < len(events):
            origin, to, _ = events[place]
            chunks = []
            while place < len(events) and events[place][:2] == (origin, to) and (not chunks or draw.random() < .5):
                data = data_message(origin, to, events[place][2])
                cut = draw.randrange(1, len(data)) if draw.random() < .2 else len(data)
                for flags, part in ((3, data),) if cut == len(data) else ((2, data[:cut]), (1, data[cut:])):
                    numbers[origin, to] += 1
                    chunks.append((numbers[origin, to], flags, part))
                place += 1
            packets.append(ethernet(sctp(1 + origin * 16_384 + to, chunks)))
            if draw.random() < .1:
                packets.append(draw.choice([packets[-1], packets[-1][:-draw.randrange(1, 20)], b"", ethernet(b"")]))
    octets = draw.choice([pcap, pcapng])(link, packets)
    if draw.random() < .1:
        octets = octets[:draw.randrange(4, len(octets))]
    if draw.random() < .1:
        at = draw.randrange(4, len(octets))
        octets = octets[:at] + bytes([draw.randrange(256)]) + octets[at + 1:]
    return octets


# ---- replays

class Replayed(Scene):
    """Relays whose markings follow the events of a trace."""

    def __init__(self, nodes):
        super().__init__(nodes)
        self.lines, self.markings = [], []

    def happens(self, draw):
        node = draw.randrange(len(self.nodes))
        word = draw.choice(["pause", "no-sccp", "resume", "resume"])
        pc = draw.choice([other.pc for place, other in enumerate(self.nodes) if place != node] + [ONE, TWO, THREE])
        held = self.held[node]
        if word == "resume":
            held -= {("point", pc), ("sccp", pc)} | {mark for mark in held if mark[0] == "subsystem" and mark[1] == pc}
        else:
            held |= {("sccp", pc)} | ({("point", pc)} if word == "pause" else set())
        self.lines.append(f"{word} {self.nodes[node].name} {relays.point_text(pc)}")

    def arrives(self, octets):
        """A message for the first relay. Returns the relays that it reaches, and the last octets with their point."""
        first = len(self.events)
        self.lines.append(f"msg a 1-0-1 {octets.hex().upper()}")
        self.run(USER, A, octets)
        self.markings += [[set(held) for held in self.held]] * (len(self.events) - first)
        return first


def journey_of(line):
    """The relays that a message reached, and how its journey ended."""
    found = re.fullmatch(r"\d+ by 1 via (\S+) (ended|local|returned|cut)( .*)?", line)
    return found[1].split(","), found[2], (found[3] or "").split()


def end_differs(s, first, line):
    """What the line of a replay has that its relays did not send, or None."""
    via, kind, words = journey_of(line)
    sent = s.events[first:]
    reached = [s.nodes[s.at[to]].name for _, to, octets in sent if to in s.at]
    last = sent[-1]
    if kind == "ended":
        point, octets = words[0].split("/")[0], words[1]
        return None if (reached, relays.point_text(last[1]), last[2].hex().upper()) == (via, point, octets) else "its end"
    if kind == "returned" and "sent" in words:
        octets, point = words[words.index("service") + 1], words[-1]
        return None if (reached[:len(via)], relays.point_text(last[1]), last[2].hex().upper()) == (via, point, octets) else "its service message"
    if kind == "returned" and "via" in words:
        return None if reached[:len(via)] == via else "its relays"
    return None if reached == via else "its relays"


def marks_of(text):
    def mark(word):
        kind, place = word.split(":")
        point, *ssn = place.split("/")
        return (kind, relays.point_value(point), *(int(number) for number in ssn))
    return tuple(mark(word) for word in text)


def condition_of(words):
    held, free = words[words.index("held") + 1], words[words.index("free") + 1]
    lists = () if held == "none" else tuple(marks_of(part.split("|")) for part in held.split(","))
    return relays.Condition(lists, () if free == "none" else marks_of(free.split(",")))


def replay(draw, check, title):
    """Replays a drawn trace, and judges what its relays send. Returns how many messages were explained."""
    while True:
        plan = draw_plan(draw, True)
        check.write("plan.toml", plan.encode())
        if check.call("verify", "plan.toml")[1] == 0:
            break
    s, firsts = Replayed(relays.plan_of(plan)), {}
    for number in range(draw.randrange(10, 60)):
        if draw.random() < .4:
            s.happens(draw)
        else:
            line = len(s.lines) + 1
            firsts[line] = s.arrives(draw_unit(draw, number))
    check.write("trace.txt", "".join(line + "\n" for line in s.lines).encode())
    printed, status = check.call("replay", "plan.toml", "trace.txt", "1")
    text = text_of(s.events)
    if status:
        check.differs(title, plan, text, f"replay has status {status}")
        return 0
    ends = {int(line.split()[0]): line for line in printed if " by " in line}
    places = sorted(firsts.values()) + [len(s.events)]
    for number, first in firsts.items():
        one = Replayed(s.nodes)
        one.events = s.events[first:places[places.index(first) + 1]]
        fault = end_differs(one, 0, ends[number])
        if fault:
            check.differs(title, plan, text, f"replay: {fault} in {ends[number]}")
    explained = 0
    for line in check.compare(title, plan, text):
        words = line.split()
        if kind_of(line) == "explained":
            explained += 1
            origin = s.events[int(words[0]) - 1][0]
            marking = s.markings[int(words[0]) - 1][s.at[origin]]
            rest = " ".join(words[words.index("explained"):]).split(" or ")
            if not any(relays.meets(marking, condition_of(way.split())) for way in rest):
                check.differs(title, plan, text, f"the marks that the replay held do not meet {line}")
        elif kind_of(line) == "unexplained":
            check.differs(title, plan, text, f"of a replay: {line}")
    sent = sum(origin in s.at for origin, _, _ in s.events)
    if explained != sent:
        check.differs(title, plan, text, f"of {sent} messages of a replay {explained} are explained")
    return explained


# ---- all

def main():
    words = argparse.ArgumentParser()
    words.add_argument("--plans", type=int, default=100)
    words.add_argument("--replays", type=int, default=30)
    words.add_argument("--seed", type=int, default=1)
    words.add_argument("--program", default=os.path.join(TOP, "sccp"))
    words.add_argument("--alone", action="store_true")
    words.add_argument("--write")
    given = words.parse_args()
    if given.write:
        os.makedirs(given.write, exist_ok=True)
        made = [(name + ending, make(events)) for name, events in scenarios() for ending, make in ((".txt", text_of), (".pcap", capture_of))]
        for name, octets in [("relays.toml", PLAN.encode())] + made:
            with open(os.path.join(given.write, name), "wb") as file:
                file.write(octets)
        return 0
    tried, explained = 0, 0
    with tempfile.TemporaryDirectory() as folder:
        check = Check(os.path.abspath(given.program), folder, tempfile.gettempdir())
        if not given.alone:
            for name, events in scenarios():
                check.compare(f"the scenario {name}", PLAN, text_of(events))
                check.compare(f"the scenario {name} as a capture", PLAN, capture_of(events))
            for name, text in other_texts():
                check.compare(f"the text of {name}", PLAN, text)
        for number in range(given.plans):
            draw = random.Random(given.seed * 1_000_003 + number)
            plan = draw_plan(draw)
            nodes = relays.plan_of(plan)
            events = draw_scenario(draw, nodes)
            tried += hold_against_itself(draw, nodes, draw_unit(draw, 1))
            if given.alone:
                check.kinds.update(kind_of(line) for line in relays.printed(nodes, text_of(events))[0])
            else:
                check.compare(f"plan {number} of seed {given.seed}", plan, text_of(events))
                check.compare(f"mixture {number} of seed {given.seed}", plan, text_of(draw_mixture(draw, nodes)))
                check.compare(f"capture {number} of seed {given.seed}", plan, drawn_capture(draw, events))
        if not given.alone:
            for number in range(given.replays):
                draw = random.Random(given.seed * 2_000_003 + number)
                explained += replay(draw, check, f"replay {number} of seed {given.seed}")
    kinds = ", ".join(f"{count} {kind}" for kind, count in sorted(check.kinds.items()))
    print(f"check_conform: {given.plans} plans, {tried} sets of marks, {check.calls} calls, {explained} messages of replays explained; "
          f"lines: {kinds}; {check.differences} differ")
    return 1 if check.differences else 0


if __name__ == "__main__":
    sys.exit(main())
