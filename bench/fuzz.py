#!/usr/bin/env python3
"""Hands drawn and mutated messages, plan texts and traces to the built program, and ends by itself after a given count.

  bench/fuzz.py [--program PROGRAM] [--count N] [--seed N] [--jobs N] [messages] [plans] [traces] [relays]
                [captures]

Of each kind N inputs are made (100,000 if not given) and handed over through files:

- messages, a few thousand to a file, to `show`: drawn octets, and messages of each type whose octets were changed, cut,
  left out, put in twice or exchanged. What is printed has to be what the second reader (reference.py) says, to the octet,
  and the status 0; a file with a broken line has to end with 66 and name the first such line. One in each file goes to
  `cuts` as a word.
- plan texts to `verify`: drawn octets, drawn TOML, and plans whose octets, words, lines or tables were changed. The status
  has to be 0, 1, 65 or 67, and the first word of the output has to fit it.
- traces to `replay` of a plan that is accepted: lines drawn from every form, and changed as texts are. The status has to be
  0, 65, 66, 67, 68 or 74 (a plan line may name an absent file), and the last line has to fit it.
- messages to `send-on`, one a call, over two plans: every third one drawn as above, the others with a called title of the
  plan, most of them long. What is printed has to be what the second maker (send_on.py) says, to the octet, and the status 0.

- captures to `capture`, drawn and changed as tools/check_capture.py does it. What is printed has to be what its reader
  (tools/capture_reference.py) says, to the octet, and so has the status, 0 or 70.

A kind whose command the program does not have is left out, and said so. Nothing may be printed on standard error, no call may end by a
signal or take more than a minute, twice. The first ten faults are printed with the file that shows each, which is kept; the last
line counts, and the status is 0 if there was no fault.

It builds nothing: run ./sccp --prove before.
"""
import argparse
import collections
import concurrent.futures
import os
import random
import shutil
import subprocess
import sys
import tempfile
import tomllib

TOP = os.path.dirname(os.path.dirname(os.path.abspath(__file__)))
AT_A_TIME = 20_000
sys.path.insert(0, os.path.join(TOP, "bench"))
import reference  # noqa: E402
import send_on  # noqa: E402

sys.dont_write_bytecode = True
sys.path.insert(0, os.path.join(TOP, "tools"))
import capture_reference  # noqa: E402
import check_capture  # noqa: E402

PLAN = """version = 1
[[node]]
name = "a"
point = "1-0-2"
subsystems = [8, 9]
concerned = ["1-0-1", "2-0-1"]
[[node.row]]
selector = "4:0:1:4"
prefix = "49"
first = { relay = "b", strip = 2, put = "0", selector = "4:0:1:3" }
backup = { final = "2-0-2", ssn = 6 }
[[node.row]]
selector = "3:0:1"
prefix = ""
first = { final = "1-0-2", ssn = 8 }
[[node]]
name = "b"
point = "1-0-3"
[[node.row]]
selector = "4:0:1:3"
prefix = "0"
first = { final = "2-0-1", ssn = 6 }
[[cover]]
node = "a"
selector = "4:0:1:4"
ssn = 6
prefix = "49"
least = 12
most = 12
allowed = ["2-0-1/6", "2-0-2/6"]
"""

SECOND = """version = 2
[[node]]
name = "a"
point = "1-0-2"
[[node.row]]
selector = "4:0:1:4"
prefix = "4"
ssn = 6
targets = [{ final = "2-0-1", ssn = 6 }, { final = "2-0-2", ssn = 6 }, { final = "2-0-3", ssn = 6 }]
[[node.row]]
selector = "4:0:1:4"
prefix = ""
targets = [{ final = "2-0-4", ssn = 6 }]
[[cover]]
node = "a"
selector = "4:0:1:4"
ssn = 6
prefix = ""
least = 1
most = 3
allowed = ["2-0-1/6", "2-0-2/6", "2-0-3/6", "2-0-4/6"]
"""

WORDS = ["version", "node", "row", "cover", "name", "point", "subsystems", "concerned", "selector", "prefix", "first",
         "backup", "targets", "relay", "final", "strip", "put", "ssn", "least", "most", "allowed", "=", "[", "]", "[[", "]]",
         "{", "}", ",", '"', "'", '"""', "#", "\n", " ", "\t", "\r\n", "1", "2", "0", "-1", "255", "256", "1e9", "inf", "true",
         "1979-05-27", "9999999999999999999", "0x10", '"49"', '"4:0:1:4"', '"2-0-1"', '"2-0-1/6"', '"a"', '"b"', "\\u0000",
         "\\", "[[node.row]]", "[[node]]", "[[cover]]", "[node]", "a.b", "é", "\x00"]


def address(draw):
    kind = draw.choice([0, 0, 1, 2, 3, 4, 4, 4, draw.randrange(16)])
    first = 4 * kind + draw.choice([0, 2, 2, 1, 3]) + draw.choice([0, 64, 0, 128])
    body = [draw.randrange(256) for _ in range(draw.choice([0, 1, 2, 3]))]
    before = {1: [draw.randrange(256)], 2: [draw.randrange(256)], 3: [0, draw.choice([0x11, 0x12, 0x13])],
              4: [0, draw.choice([0x11, 0x12, 0x12, 0x10]), 4]}.get(kind, [])
    digits = [draw.randrange(256) for _ in range(draw.choice([0, 1, 5, 6, 16, 17]))] if kind else []
    return [first] + body + before + digits


def message(draw):
    """A message of a drawn type, whose parts are in pointer order."""
    code = draw.choice(list(reference.ROWS))
    _, fixed, addresses, data, known = reference.ROWS[code]
    long = code in reference.LONG
    width = 2 if long else 1
    parts = []
    for i in range(addresses):
        octets = address(draw)
        parts.append([len(octets)] + octets)
    if data:
        octets = [draw.randrange(256) for _ in range(draw.choice([0, 1, 5, 60]))]
        parts.append(([len(octets), 0] if long else [len(octets)]) + octets)
    if known is not None:
        listed = []
        for _ in range(draw.choice([0, 0, 1, 2, 4])):
            name = draw.choice(known + [0x7F, 0x10])
            octets = [draw.randrange(256) for _ in range(draw.choice([0, 1, 1, 4, 4, 9]))]
            listed += [name, len(octets)] + octets
        parts.append(listed + [0] if listed else [])
    at, pointers = 1 + fixed + width * len(parts), []
    for i, part in enumerate(parts):
        value = at - (1 + fixed + width * i + (1 if long else 0)) if part else 0
        pointers += [value % 256, value // 256 % 256] if long else [value % 256]
        at += len(part)
    return [code] + [draw.randrange(256) for _ in range(fixed)] + pointers + [o for part in parts for o in part]


def changed(draw, octets):
    """The same with up to three changes."""
    octets = list(octets)
    for _ in range(draw.choice([0, 1, 1, 1, 2, 3])):
        kind = draw.randrange(7)
        at = draw.randrange(len(octets) + 1)
        if kind == 0 and octets:
            octets[at % len(octets)] = draw.randrange(256)
        elif kind == 1 and octets:
            octets[at % len(octets)] ^= 1 << draw.randrange(8)
        elif kind == 2:
            octets = octets[:at]
        elif kind == 3:
            octets.insert(at, draw.choice([0, 1, 255, draw.randrange(256)]))
        elif kind == 4:
            del octets[at:at + draw.choice([1, 2, 8])]
        elif kind == 5:
            octets[at:at] = octets[at:at + draw.choice([1, 4, 16])]
        elif octets:
            other = draw.randrange(len(octets))
            at %= len(octets)
            octets[at], octets[other] = octets[other], octets[at]
    return octets


def drawn_message(draw):
    if draw.randrange(6) == 0:
        octets = [draw.randrange(256) for _ in range(draw.choice([1, 2, 5, 12, 40]))]
        if draw.randrange(4):
            octets[0] = draw.randrange(1, 21)
    else:
        octets = changed(draw, message(draw))
    return octets or [0]


def drawn_text(draw, whole):
    """A text: drawn, or this one with changes of digits, octets, words and lines."""
    kind = draw.randrange(10)
    if kind == 0:
        return bytes(draw.randrange(256) for _ in range(draw.choice([0, 1, 10, 100])))
    if kind == 1:
        return " ".join(draw.choice(WORDS) for _ in range(draw.choice([1, 5, 50]))).encode()
    text = whole
    for _ in range(draw.choice([1, 1, 1, 2, 3])):
        lines = text.split(b"\n")
        at = draw.randrange(len(lines))
        what = draw.randrange(10)
        digits = [i for i, octet in enumerate(text) if 48 <= octet <= 57]
        if what > 6 and digits:
            place = draw.choice(digits)
            text = text[:place] + str(draw.randrange(10)).encode() + text[place + 1:]
            continue
        if what == 0:
            del lines[at]
        elif what == 1:
            lines.insert(at, draw.choice(lines))
        elif what == 2:
            other = draw.randrange(len(lines))
            lines[at], lines[other] = lines[other], lines[at]
        elif what == 3:
            words = lines[at].split(b" ")
            words[draw.randrange(len(words))] = draw.choice(WORDS).encode()
            lines[at] = b" ".join(words)
        elif what == 4:
            start = draw.randrange(len(lines))
            lines[at:at] = lines[start:start + draw.randrange(1, 8)]
        else:
            text = bytes(changed(draw, b"\n".join(lines)))
            continue
        text = b"\n".join(lines)
    return text


def trace_line(draw):
    node = draw.choice(["a", "b", "a", "c"])
    point = draw.choice(["1-0-1", "2-0-1", "2-0-2", "1-0-2", "3-0-1", "4097"])
    form = draw.randrange(12)
    if form < 5:
        octets = message(draw) if draw.randrange(2) else drawn_message(draw)
        return f"msg {node} {point} {bytes(octets).hex()}"
    return [f"pause {node} {point}", f"resume {node} {point}", f"no-sccp {node} {point}", f"up {node} 8", f"down {node} 8",
            f"tick {node}", draw.choice(["plan p.toml", "plan q.toml", "plan absent.toml", "fence", "# no event", ""])][form - 5]


def trace(draw):
    lines = [trace_line(draw) for _ in range(draw.choice([1, 3, 10, 40]))]
    text = ("\n".join(lines) + draw.choice(["\n", ""])).encode()
    return drawn_text(draw, text) if draw.randrange(3) == 0 else text


class Faults:
    """What may not happen and did, with the files that show it."""

    def __init__(self, keep):
        self.keep, self.count = keep, 0

    def add(self, why, *files):
        self.count += 1
        if self.count <= 10:
            os.makedirs(self.keep, exist_ok=True)
            kept = [shutil.copy(file, os.path.join(self.keep, f"{self.count}_{os.path.basename(file)}")) for file in files]
            print(f"fault: {why} {' '.join(kept)}", flush=True)


def call(program, folder, *words):
    """The status, the output, and a word for what no call may do. One that took a minute is made once more, for a
    machine may pause."""
    for again in (True, False):
        try:
            done = subprocess.run([program, *words], cwd=folder, capture_output=True, timeout=60)
            break
        except subprocess.TimeoutExpired:
            if not again:
                return None, b"", "it took more than a minute, twice"
    if done.returncode < 0:
        return done.returncode, done.stdout, f"signal {-done.returncode}"
    return done.returncode, done.stdout, "words on standard error" if done.stderr else None


def show_batch(program, folder, seed, size):
    draw = random.Random(seed)
    name = f"m{seed}.txt"
    messages = [drawn_message(draw) for _ in range(size)]
    lines = [bytes(octets).hex() if draw.randrange(2) else bytes(octets).hex().upper() for octets in messages]
    broken = draw.randrange(size) if draw.randrange(8) == 0 else None
    if broken is not None:
        lines[broken] += draw.choice(["0", "g0", " ", "\r\r", "é"])
    path = os.path.join(folder, name)
    with open(path, "w", encoding="utf-8") as made:
        made.write("\n".join(lines) + "\n")
    found = []
    status, output, why = call(program, folder, "show", name)
    if broken is None:
        want = 0, "".join(reference.text(octets) + "\n" for octets in messages).encode()
    else:
        want = 66, f"bad trace line {broken + 1} not a line\n".encode()
    if why or (status, output) != want:
        found.append((why or f"show {name}: status {status}, wanted {want[0]}, and another text", path))
    word = bytes(messages[0]).hex()
    status, output, why = call(program, folder, "cuts", word)
    if status != 64 and (why or (status, output) != (0, reference.cuts(messages[0]).encode())):
        found.append((why or f"cuts {word}: status {status}, or another text", path))
    if not found:
        os.remove(path)
    return collections.Counter({0 if broken is None else 66: 1}), found


def verify_one(program, folder, seed):
    draw = random.Random(seed)
    path = os.path.join(folder, f"p{seed}.toml")
    with open(path, "wb") as made:
        made.write(drawn_text(draw, draw.choice([PLAN, SECOND]).encode()))
    status, output, why = call(program, folder, "verify", os.path.basename(path))
    begins = {0: b"accepted bound ", 1: b"refused ", 65: b"bad plan ", 67: b"too wide\n"}
    if status not in begins:
        why = why or f"status {status}"
    elif not output.startswith(begins[status]) or not output.endswith(b"\n"):
        why = why or f"status {status} with another text"
    if why is None:
        os.remove(path)
    return collections.Counter({status: 1}), [(f"verify: {why}", path)] if why else []


def replay_one(program, folder, seed):
    draw = random.Random(seed)
    path = os.path.join(folder, f"t{seed}.txt")
    with open(path, "wb") as made:
        made.write(trace(draw))
    status, output, why = call(program, folder, "replay", "p.toml", os.path.basename(path), "1")
    last = {0: b"end ", 66: b"bad trace line ", 68: b"too long", 74: b"read fault"}
    if status not in last:
        why = why or f"status {status}"
    elif not output.endswith(b"\n") or not output[:-1].split(b"\n")[-1].startswith(last[status]):
        why = why or f"status {status} with another last line"
    if why is None:
        os.remove(path)
    return collections.Counter({status: 1}), [(f"replay: {why}", path)] if why else []


def titled_message(draw, node):
    """A message with a called title that a row of the node begins, mostly; long ones for the most part."""
    code = draw.choice([0x13] * 6 + [0x11, 0x12, 0x14, 0x09, 0x0A])
    row = draw.choice(node["row"])
    begins = [int(digit) for digit in row["prefix"]] if draw.randrange(8) else [5]
    digits = begins + [draw.randrange(10) for _ in range(draw.choice([0, 1, 8, 10, 28]))]
    title = row["selector"], digits
    called = draw.random() < 0.2, draw.random() < 0.1, draw.choice([None, 2057]), draw.choice([None, 1, 6, 8]), title
    calling = False, True, draw.choice([None, 2057]), draw.choice([None, 8]), None
    short = code in (0x09, 0x0A)
    fixed = [draw.choice([0, 1, 0x80, 0xF1])] + ([] if short else [draw.choice([15, 15, 15, 2, 200, 1])])
    size = draw.choice([0, 1, 5, 40, 300, 1500, 3800]) if code in reference.LONG else draw.randrange(100)
    params = []
    if not short:
        segment = [draw.choice([0x80, 0x80, 0xC0, 0xB0, 0x81, 0]), 1, 2, draw.randrange(256)]
        drawn = [(0x10, segment), (0x12, [3]), (0x7F, [7] * draw.choice([0, 1, 200, 220])), (0x10, [0x80, 9, 9, 9])]
        params = draw.sample(drawn, draw.choice([0, 0, 1, 2, 4]))
    return send_on.joined(code, fixed, [called, calling], draw.randbytes(size), params)


def relay_one(program, folder, seed):
    draw = random.Random(seed)
    name = draw.choice(["p.toml", "p.toml", "q.toml"])
    plan = tomllib.loads(PLAN if name == "p.toml" else SECOND)
    node = draw.choice(plan["node"])
    octets = None if draw.randrange(3) == 0 else titled_message(draw, node)
    octets = bytes(drawn_message(draw) if octets is None else octets)
    size = draw.choice([1, 2, 20, 100, 200, 238, 240, 255])
    entry = node["name"] if draw.randrange(50) else "c"
    status, output, why = call(program, folder, "send-on", name, entry, "1-0-1", str(size), octets.hex())
    if (status, output) != (0, send_on.text(plan, entry, size, octets).encode()):
        why = why or f"status {status}, or another text"
    if why is None:
        return collections.Counter({status: 1}), []
    path = os.path.join(folder, f"r{seed}.txt")
    with open(path, "w") as made:
        made.write(f"{name} {entry} 1-0-1 {size} {octets.hex()}\n")
    return collections.Counter({status: 1}), [(f"send-on: {why}", path)]


def capture_one(program, folder, seed):
    drawing = check_capture.Drawing(seed)
    octets = drawing.changed(drawing.capture())
    path = os.path.join(folder, f"c{seed}.pcap")
    with open(path, "wb") as made:
        made.write(octets)
    lines, wanted = capture_reference.printed(check_capture.NODES, octets)
    status, output, why = call(program, folder, "capture", "p.toml", os.path.basename(path))
    if (status, output) != (wanted, "".join(line + "\n" for line in lines).encode()):
        why = why or f"status {status}, or another text"
    if why is None:
        os.remove(path)
    return collections.Counter({status: 1}), [(f"capture: {why}", path)] if why else []


def turns_of(pool, kind, one, count):
    """What each input gives, in turn. A pool keeps all that it is handed, so it is handed some at a time, and these are reported."""
    for first in range(0, count, AT_A_TIME):
        yield from pool.map(one, range(first, min(count, first + AT_A_TIME)))
        if count > AT_A_TIME:
            print(f"{kind}: {min(count, first + AT_A_TIME)} of {count}", file=sys.stderr, flush=True)


def main():
    words = argparse.ArgumentParser(usage=__doc__)
    words.add_argument("--program", default=os.path.join(TOP, "crates/sccp/out/sccp"))
    words.add_argument("--count", type=int, default=100_000)
    words.add_argument("--seed", type=int, default=1)
    words.add_argument("--jobs", type=int, default=os.cpu_count())
    words.add_argument("kinds", nargs="*", default=[])
    given = words.parse_args()
    program = os.path.abspath(given.program)
    kinds = given.kinds or ["messages", "plans", "traces", "relays", "captures"]
    batch = 2_000
    faults = Faults(os.path.join(tempfile.gettempdir(), f"sccp_fuzz_{os.getpid()}"))
    with tempfile.TemporaryDirectory() as folder:
        for name, text in (("p.toml", PLAN), ("q.toml", SECOND)):
            with open(os.path.join(folder, name), "w") as made:
                made.write(text)
        for kind in kinds:
            first = given.seed * 10_000_000
            if kind == "traces" and call(program, folder, "replay", "p.toml", "p.toml", "1")[0] == 64:
                print("traces: left out, the program has no replay")
                continue
            if kind == "relays" and call(program, folder, "send-on", "p.toml", "a", "1-0-1", "1", "05")[0] == 64:
                print("relays: left out, the program has no send-on")
                continue
            if kind == "captures" and call(program, folder, "capture", "p.toml", "p.toml")[0] == 64:
                print("captures: left out, the program has no capture")
                continue
            with concurrent.futures.ThreadPoolExecutor(given.jobs) as pool:
                by_kind = {"plans": verify_one, "relays": relay_one, "captures": capture_one, "traces": replay_one}
                count, one = given.count, lambda i: by_kind[kind](program, folder, first + i)
                if kind == "messages":
                    count, one = -(-count // batch), lambda i: show_batch(program, folder, first + i, min(batch, given.count - i * batch))
                told = collections.Counter()
                for counts, found in turns_of(pool, kind, one, count):
                    told += counts
                    for why, *files in found:
                        faults.add(why, *files)
            by_status = ", ".join(f"{status}: {count}" for status, count in sorted(told.items(), key=str))
            calls = "calls of show by status" if kind == "messages" else "calls by status"
            print(f"{kind}: {given.count} inputs, {calls} {by_status}", flush=True)
    print(f"{faults.count} faults")
    return 1 if faults.count else 0


sys.exit(main())
