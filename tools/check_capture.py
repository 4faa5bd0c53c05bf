#!/usr/bin/env python3
"""Compares what `capture` prints with a reader of its own (capture_reference.py), on captures that are drawn.

  tools/check_capture.py [--captures N] [--cut N] [--seed N] [--program FILE]

Captures of all formats, links and layers are drawn, with messages in several chunks, lost and repeated ones, and octets that are cut
off, changed or put in. Each is read as a file, and some also through a pipe that is filled piece by piece, so that packets cross the
pieces in which the program reads. Of the first N small ones (2 unless given) each beginning is a capture of its own. Before them go
captures at each limit: octets of a packet, interfaces, chunks that may be repeated or wait.

300 captures are drawn unless N is given. The program is ./sccp of this repository if none is named. The last line counts captures,
calls and lines of each kind. Each capture with a difference is kept beside its name, and the status is then 1.
"""
import argparse
import collections
import os
import random
import struct
import subprocess
import sys
import tempfile
import threading
import time

sys.dont_write_bytecode = True
sys.path.insert(0, os.path.dirname(os.path.realpath(__file__)))
import capture_reference  # noqa: E402

TOP = os.path.dirname(os.path.dirname(os.path.abspath(__file__)))
NODES = {2050: "a", 2051: "b"}
PLAN = """version = 2
[[node]]
name = "a"
point = "1-0-2"
[[node.row]]
selector = "4:0:1:4"
prefix = "49"
targets = [{ relay = "b" }]
[[node]]
name = "b"
point = "1-0-3"
[[node.row]]
selector = "4:0:1:4"
prefix = "49"
targets = [{ final = "2-0-1", ssn = 6 }]
[[cover]]
node = "a"
selector = "4:0:1:4"
ssn = 6
prefix = "49"
least = 12
most = 12
allowed = ["2-0-1/6"]
"""


# ---- captures that are drawn

class Drawing:
    """Packets of some associations, each of which counts its chunks and messages."""

    def __init__(self, seed):
        self.draw = random.Random(seed)
        self.tsns, self.sent = collections.defaultdict(lambda: self.draw.choice((1, 2 ** 32 - 3))), []

    def some(self, most):
        return self.draw.randbytes(self.draw.randrange(most))

    def message(self, most):
        """A message of M3UA, mostly DATA for a relay."""
        draw = self.draw
        if draw.random() < 0.05:
            return self.some(40)
        label = struct.pack(">IIBBBB", 2049, draw.choice((2050, 2050, 2051, 2052, 70_000)), draw.choice((3, 3, 3, 3, 5)), 2, 0, 5)
        user = self.some(most) if draw.random() < 0.9 else b""
        parts = [(0x0210, label + user)]
        if draw.random() < 0.2:
            parts.insert(draw.randrange(2), (draw.choice((0x0006, 0x0013, 0x0200, 0x7777)), draw.randbytes(draw.choice((4, 4, 4, 5)))))
        body = b"".join(struct.pack(">HH", tag, 4 + len(value)) + value + bytes(-len(value) % 4) for tag, value in parts)
        kind = (1, 1) if draw.random() < 0.9 else (3, 1)
        return struct.pack(">BBBBI", 1, 0, *kind, 8 + len(body)) + body

    def m2pa(self, most):
        unit = b"\x09" + self.mtp3(most)
        return struct.pack(">BBBBI", 1, 0, 11, self.draw.choice((1, 1, 2)), 16 + len(unit)) + bytes(8) + unit

    def mtp3(self, most):
        label = self.draw.choice((2050, 2051, 2052)) | 2049 << 14
        return bytes([0x83 if self.draw.random() < 0.9 else 0x85]) + struct.pack("<I", label) + self.some(most)

    def chunks(self, most):
        """DATA chunks of one user message."""
        draw = self.draw
        key = draw.choice(((2905, 2905, 7), (2905, 2905, 7), (2905, 40_000, 8), (5000, 5001, 9), (3565, 3565, 10), (2905, 2905, 0)))
        protocol = draw.choice((5, 5, 3)) if key[0] == 3565 else draw.choice((3, 3, 3, 3, 0, 46))
        data = self.m2pa(most) if protocol == 5 else self.message(most)
        size = max(1, len(data)) if draw.random() < 0.7 else draw.randrange(1, len(data) + 2)
        pieces = [data[at:at + size] for at in range(0, len(data), size)] or [b""]
        flags, stream, sequence = 4 * (draw.random() < 0.1), draw.randrange(3), draw.randrange(2 ** 16)
        made = []
        for number, piece in enumerate(pieces):
            own = flags + 2 * (number == 0) + (number == len(pieces) - 1)
            head = struct.pack(">BBHIHHI", 0, own, 16 + len(piece), self.tsns[key], stream, sequence, protocol)
            self.tsns[key] = (self.tsns[key] + 1) % 2 ** 32
            made.append((key, head + piece + bytes(-len(piece) % 4)))
        return made

    def sctp(self, most):
        """Packets with the chunks of some messages, in turn, late, lost or again."""
        draw = self.draw
        waiting = [one for _ in range(draw.randrange(1, 4)) for one in self.chunks(most)]
        if draw.random() < 0.2:
            draw.shuffle(waiting)
        if draw.random() < 0.1:
            waiting.pop(draw.randrange(len(waiting)))
        if self.sent and draw.random() < 0.2:
            waiting.append(draw.choice(self.sent))
        self.sent = (self.sent + waiting)[-50:]
        packets = []
        while waiting:
            key = waiting[0][0]
            count = draw.randrange(1, 4)
            own = [chunk for at, chunk in waiting if at == key][:count]
            waiting = [one for one in waiting if one[0] != key or one[1] not in own]
            if draw.random() < 0.2:
                own.insert(draw.randrange(len(own) + 1), struct.pack(">BBHIIHH", 3, 0, 16, 1, 65_535, 0, 0))
            if draw.random() < 0.03:
                own.append(draw.choice((b"\0\3\0\2", b"\x40\3\0\x14" + bytes(16), b"\0\3\0\x10" + bytes(12), b"\0\3\1\0")))
            packets.append(struct.pack(">HHII", *key, 0) + b"".join(own))
        return packets

    def ip(self, payload):
        draw = self.draw
        options = bytes(4 * draw.choice((0, 0, 0, 1, 2)))
        total = draw.choice((20 + len(options) + len(payload),) * 8 + (0, 19))
        fragment = draw.choice((0,) * 12 + (0x4000, 0x2000, 5))
        head = struct.pack(">BBHHHBBH", 0x45 + len(options) // 4, 0, total % 65536, 1, fragment, 64, draw.choice((132,) * 12 + (6,)), 0)
        return head + bytes(8) + options + payload

    def ipv6(self, payload):
        draw = self.draw
        kind = 132 if draw.random() < 0.9 else 6
        for _ in range(draw.choice((0, 0, 0, 1, 2))):
            header = draw.choice((0, 43, 44, 51, 60))
            place = draw.choice((0, 0, 6, 1)) if header == 44 else 0
            payload = bytes([kind, 1 if header == 51 else 0]) + struct.pack(">H", place) + bytes(8 if header == 51 else 4) + payload
            kind = header
        size = draw.choice((len(payload),) * 8 + (0,))
        return struct.pack(">IHBB", 6 << 28, size % 65536, kind, 64) + bytes(32) + payload

    def framed(self, link, payload):
        """A frame of that link around a packet of SCTP."""
        draw = self.draw
        if link == 248:
            return payload
        six = link == 229 or (link != 228 and draw.random() < 0.4)
        inner, kind = (self.ipv6(payload), 0x86DD) if six else (self.ip(payload), 0x0800)
        if link in (12, 14, 101, 228, 229):
            return inner
        if link in (0, 108):
            family = draw.choice((24, 28, 30)) if six else 2
            return struct.pack("<I" if link == 0 and draw.random() < 0.7 else ">I", family) + inner
        tags = draw.choice(((), (), (0x8100,), (0x88A8, 0x8100)))
        kinds = [*tags, kind if draw.random() < 0.95 else 0x0806]
        rest = b"".join(struct.pack(">HH", 5, after) for after in kinds[1:]) + inner
        if link == 1:
            return bytes(12) + struct.pack(">H", kinds[0]) + rest
        return (bytes(14) + struct.pack(">H", kinds[0]) if link == 113 else struct.pack(">H", kinds[0]) + bytes(18)) + rest

    def packets(self, link, count, most):
        """Packets of that link, each with the length that it had before it was captured."""
        draw, made = self.draw, []
        while len(made) < count:
            if link == 142:
                frames = [self.some(most)]
            elif link in (140, 141):
                unit = self.mtp3(min(most, 300))
                frames = [unit if link == 141 else bytes([0x80, 0x80, draw.choice((min(len(unit), 63),) * 5 + (1,))]) + unit]
            elif link == 99:
                frames = [self.some(30)]
            else:
                frames = [self.framed(link, packet) for packet in self.sctp(most)]
            made += [(frame, len(frame)) if draw.random() < 0.93 else (frame[:draw.randrange(len(frame) + 1)], len(frame))
                     for frame in frames]
        return made

    def pcap(self, count, most):
        order = self.draw.choice("<>")
        link = self.draw.choice((1, 1, 1, 0, 12, 101, 108, 113, 140, 141, 142, 228, 229, 248, 276, 99))
        magic = self.draw.choice((0xA1B2C3D4, 0xA1B23C4D))
        records = [struct.pack(order + "IIII", 1, 2, len(octets), size) + octets for octets, size in self.packets(link, count, most)]
        return struct.pack(order + "IHHIIII", magic, 2, 4, 0, 0, 65_535, link) + b"".join(records)

    def pcapng(self, count, most):
        draw, made = self.draw, b""
        for _ in range(draw.choice((1, 1, 2))):
            order = draw.choice("<>")

            def block(kind, body):
                body += bytes(-len(body) % 4)
                size = 12 + len(body)
                return struct.pack(order + "II", kind, size) + body + struct.pack(order + "I", size)
            made += block(0x0A0D0D0A, struct.pack(order + "IHHq", 0x1A2B3C4D, 1, draw.randrange(3), -1) + bytes(draw.choice((0, 8))))
            links = [draw.choice((1, 113, 101, 248, 141, 276)) for _ in range(draw.randrange(1, 4))]
            for link in links:
                made += block(1, struct.pack(order + "HHI", link, 0, draw.choice((0, 65_535))))
            for _ in range(count):
                number = draw.randrange(len(links)) if draw.random() < 0.95 else len(links)
                octets, size = self.packets(links[min(number, len(links) - 1)], 1, most)[0]
                kind = draw.choice((6, 6, 6, 2, 3, 5))
                if kind == 6:
                    made += block(6, struct.pack(order + "IIIII", number, 1, 2, len(octets), size) + octets)
                elif kind == 2:
                    made += block(2, struct.pack(order + "HHIIII", number, 0, 1, 2, len(octets), size) + octets)
                elif kind == 3:
                    made += block(3, struct.pack(order + "I", len(octets)) + octets)
                else:
                    made += block(draw.choice((4, 5, 0x0BAD)), self.some(40))
        return made

    def changed(self, octets):
        """The capture with octets that are cut off, changed, taken out or put in, or as it is."""
        draw, way = self.draw, self.draw.random()
        place = draw.randrange(len(octets) + 1)
        if way < 0.55:
            return octets
        if way < 0.7:
            return octets[:place]
        if way < 0.9:
            made = bytearray(octets)
            for _ in range(draw.randrange(1, 5)):
                made[draw.randrange(len(made))] = draw.choice((0, 1, 2, 255, draw.randrange(256)))
            return bytes(made)
        return octets[:place] + self.some(9) + octets[place + draw.randrange(9):]

    def capture(self):
        """A capture of some packets, a few of them longer than the pieces that the program reads."""
        many = self.draw.random() < 0.1
        count, most = (self.draw.randrange(30, 90), 6000) if many else (self.draw.randrange(9), self.draw.choice((40, 300)))
        make = self.pcap if self.draw.random() < 0.5 else self.pcapng
        return self.changed(make(count, most))


# ---- captures at the limits, by what is at a limit

def of_chunks(tsns):
    """A packet of SCTP with chunks that are too short for M3UA."""
    head = struct.pack(">HHII", 2905, 2905, 7, 0)
    return head + b"".join(struct.pack(">BBHIHHI", 0, 3, 20, tsn, 0, 0, 3) + b"\1\1\1\1" for tsn in tsns)


def of_records(link, packets):
    return struct.pack("<IHHIIII", 0xA1B2C3D4, 2, 4, 0, 0, 0, link) + b"".join(
        struct.pack("<IIII", 1, 2, len(octets), len(octets)) + octets for octets in packets)


def of_interfaces(count, octets=b""):
    """A section with so many interfaces of SCTP, and a packet of the last one."""
    blocks = struct.pack("<IIIHHqI", 0x0A0D0D0A, 28, 0x1A2B3C4D, 1, 0, -1, 28) + count * struct.pack("<IIHHII", 1, 20, 248, 0, 0, 20)
    size = 32 + len(octets) + -len(octets) % 4
    head = struct.pack("<IIIIIII", 6, size, count - 1, 1, 2, len(octets), len(octets))
    return blocks + head + octets + bytes(-len(octets) % 4) + struct.pack("<I", size)


def limits():
    one = of_chunks([9])
    for size in (262_144, 262_145):
        yield f"a record of {size} octets", of_records(248, [one + bytes(size - len(one)), of_chunks([8])])
        yield f"a block of {size} octets", of_interfaces(1, one + bytes(size - len(one)))
    for count in (4096, 4097):
        yield f"{count} interfaces", of_interfaces(count, one)
    keys = [of_chunks(range(at, at + 64)) for at in range(0, 65_536, 64)]
    yield "65,536 keys", of_records(248, [*keys, of_chunks([0, 65_536, 1, 65_537, 3, 0])])
    alone = [struct.pack(">HHII", 2905, 2905, 7, 0) + struct.pack(">BBHIHHI", 0, 2, 17, 2 * tsn, 0, 0, 3) + b"x\0\0\0" for tsn in range(259)]
    for count in (256, 257, 259):
        yield f"{count} chunks that wait", of_records(248, alone[:count])


# ---- the program

def call(program, folder, name, octets=None):
    """What it prints, and its status. Octets are put through a pipe, in pieces."""
    words = [program, "capture", "plan.toml", name]
    if octets is None:
        done = subprocess.run(words, cwd=folder, stdin=subprocess.DEVNULL, capture_output=True)
        return done.stdout, done.returncode
    started = subprocess.Popen(words, cwd=folder, stdin=subprocess.PIPE, stdout=subprocess.PIPE, stderr=subprocess.DEVNULL)

    def fill():
        draw, place = random.Random(len(octets)), 0
        try:
            while place < len(octets):
                size = draw.choice((1, 3, 20, 400, 20_000))
                started.stdin.write(octets[place:place + size])
                started.stdin.flush()
                place += size
                time.sleep(0.0005 if len(octets) < 20_000 else 0)
            started.stdin.close()
        except BrokenPipeError:
            pass
    filling = threading.Thread(target=fill)
    filling.start()
    out = started.stdout.read()
    filling.join()
    return out, started.wait()


class Check:
    def __init__(self, program, folder, keep):
        self.program, self.folder, self.keep = program, folder, keep
        self.calls, self.kinds, self.differences = 0, collections.Counter(), 0

    def compare(self, octets, title, in_pieces=False):
        lines, status = capture_reference.printed(NODES, octets)
        wanted = "".join(line + "\n" for line in lines).encode(), status
        if in_pieces:
            given = call(self.program, self.folder, "/dev/stdin", octets)
        else:
            with open(os.path.join(self.folder, "it.pcap"), "wb") as file:
                file.write(octets)
            given = call(self.program, self.folder, "it.pcap")
        self.calls += 1
        self.kinds.update("message" if line.startswith("msg") else "packet" if line.startswith("# packet") else line.split()[1]
                          for line in lines)
        if given != wanted:
            self.differences += 1
            with open(os.path.join(self.keep, f"differs_{self.differences}.pcap"), "wb") as file:
                file.write(octets)
            pairs = zip(given[0].decode(errors="replace").splitlines() + [""], lines + [""])
            shown = next((pair for pair in pairs if pair[0] != pair[1]), ("", ""))
            print(f"check_capture: {title} differs, status {given[1]} and not {status}\n  printed: {shown[0]}\n  wanted:  {shown[1]}")


def main():
    words = argparse.ArgumentParser()
    words.add_argument("--captures", type=int, default=300)
    words.add_argument("--cut", type=int, default=2)
    words.add_argument("--seed", type=int, default=1)
    words.add_argument("--program", default=os.path.join(TOP, "sccp"))
    given = words.parse_args()
    with tempfile.TemporaryDirectory() as folder:
        with open(os.path.join(folder, "plan.toml"), "w") as file:
            file.write(PLAN)
        check, cut = Check(os.path.abspath(given.program), folder, tempfile.gettempdir()), given.cut
        for title, octets in limits():
            check.compare(octets, title)
            check.compare(octets, title + " in pieces", True)
        for number in range(given.captures):
            octets = Drawing(given.seed * 1_000_003 + number).capture()
            title = f"capture {number} of seed {given.seed}"
            check.compare(octets, title)
            if number % 10 == 0 or len(octets) > 65_536:
                check.compare(octets, title + " in pieces", True)
            if cut and 300 < len(octets) < 900:
                cut -= 1
                for size in range(len(octets)):
                    check.compare(octets[:size], f"{title}, its first {size} octets,")
    kinds = ", ".join(f"{count} {kind}" for kind, count in sorted(check.kinds.items()))
    print(f"check_capture: {given.captures} captures, {check.calls} calls, lines: {kinds}; {check.differences} differ")
    return 1 if check.differences else 0


if __name__ == "__main__":
    sys.exit(main())
