"""What `capture` has to print of a capture file, from the formats alone (docs/STANDARD.md, section 9; docs/CAPTURES.md).

  printed(nodes, octets)    the lines and the status; nodes are the names of relays by their point codes as numbers

A file is read whole. `packets` goes over its records or blocks, `found` over the layers of a packet, `Messages` puts DATA chunks
together, and `Lines` counts and prints. tools/check_capture.py compares the program with it.
"""
import collections

MOST_OCTETS, MOST_INTERFACES, MOST_KEYS, MOST_WAITING, MOST_SCCP = 262_144, 4096, 65_536, 256, 4072
MAGIC = {bytes.fromhex(magic): order for magic, order in
         (("A1B2C3D4", "big"), ("A1B23C4D", "big"), ("D4C3B2A1", "little"), ("4D3CB2A1", "little"))}
SECTION = bytes.fromhex("0A0D0D0A")
SECTION_MAGIC = {bytes.fromhex("1A2B3C4D"): "big", bytes.fromhex("4D3C2B1A"): "little"}
INTERFACE, OLD, SIMPLE, ENHANCED = 1, 2, 3, 6
LEAST = {INTERFACE: 20, OLD: 32, SIMPLE: 16, ENHANCED: 32}
DATA_CHUNK, I_DATA_CHUNK = 0, 64
TAGS = (0x8100, 0x88A8, 0x9100)

Chunk = collections.namedtuple("Chunk", "key tsn stream sequence protocol unordered begins ends data")


def big(octets):
    return int.from_bytes(octets, "big")


def padded(size):
    return (size + 3) // 4 * 4


class End(Exception):
    """The file ends, or cannot be read: the place and the words."""


# ---- the packets of a file: (link, original length, octets), or the word on a block without one

def packets(b):
    if len(b) < 4:
        raise End(0, "cut")
    if b[:4] == SECTION:
        yield from packets_of_blocks(b)
    elif b[:4] in MAGIC:
        yield from packets_of_records(b, MAGIC[b[:4]])
    else:
        raise End(0, "no capture")


def packets_of_records(b, order):
    if len(b) < 24:
        raise End(0, "cut")
    if int.from_bytes(b[4:6], order) != 2 or int.from_bytes(b[6:8], order) != 4:
        raise End(0, "version")
    link, place = int.from_bytes(b[20:24], order) % 65536, 24
    while place < len(b):
        need(b, place, 16, place)
        size, original = (int.from_bytes(b[at:at + 4], order) for at in (place + 8, place + 12))
        if size > MOST_OCTETS:
            raise End(place, "length")
        need(b, place, 16 + size, place)
        yield link, original, b[place + 16:place + 16 + size]
        place += 16 + size


def need(b, place, size, begun):
    if len(b) < place + size:
        raise End(begun, "cut")


def packets_of_blocks(b):
    place, order, links, snap = 0, None, [], 0
    while place < len(b):
        need(b, place, 12, place)
        if b[place:place + 4] == SECTION:
            order, links, snap = SECTION_MAGIC.get(b[place + 8:place + 12]), [], 0
            if not order:
                raise End(place, "order")
        kind, size, first, second, _, captured, original = (
            int.from_bytes(b[place + at:place + at + 4], order) for at in (0, 4, 8, 12, 16, 20, 24))
        if b[place:place + 4] == SECTION:
            if size % 4 or size < 28:
                raise End(place, "length")
            need(b, place, 16, place)
            if int.from_bytes(b[place + 12:place + 14], order) != 1:
                raise End(place, "version")
        else:
            if size % 4 or size < LEAST.get(kind, 12):
                raise End(place, "length")
            if kind == INTERFACE:
                need(b, place, 16, place)
                if len(links) == MOST_INTERFACES:
                    raise End(place, "interfaces")
                snap = snap if links else second
                links.append(int.from_bytes(b[place + 8:place + 10], order))
            elif kind in (ENHANCED, OLD):
                need(b, place, 28, place)
                number = first if kind == ENHANCED else int.from_bytes(b[place + 8:place + 10], order)
                yield packet_of_block(b, place, size, 28, links, number, captured, original)
            elif kind == SIMPLE:
                yield packet_of_block(b, place, size, 12, links, 0, min(first, snap) if snap else first, first)
        need(b, place, size, place)
        if int.from_bytes(b[place + size - 4:place + size], order) != size:
            raise End(place, "end")
        place += size


def packet_of_block(b, place, size, start, links, number, captured, original):
    if number >= len(links):
        return "interface"
    if captured > size - 4 - start:
        return "length"
    if captured > MOST_OCTETS:
        return "long"
    need(b, place, start + captured, place)
    return links[number], original, b[place + start:place + start + captured]


# ---- what a packet carries: ("fault", chunk number or None, words), ("chunk", number, Chunk), ("signal", origin, destination, service,
# octets), ("bare", octets) or ("other",)

OTHER = ("other",)


def fault(words, number=None):
    return "fault", number, words


def found(link, original, b):
    if link == 1:
        return of_type(big(b[12:14]), b[14:]) if len(b) >= 14 else [fault("short ethernet")]
    if link in (113, 276):
        size, at = (16, 14) if link == 113 else (20, 0)
        return of_type(big(b[at:at + 2]), b[size:]) if len(b) >= size else [fault("short cooked")]
    if link in (0, 108):
        if len(b) < 4:
            return [fault("short loopback")]
        family = int.from_bytes(b[:4], "little")
        return of_family(big(b[:4]) if link == 108 or family >= 65536 else family, b[4:])
    if link in (12, 14, 101):
        version = b[0] // 16 if b else None
        return ip(b) if version == 4 else ipv6(b) if version == 6 else [fault("short ip" if version is None else "bad ip")]
    if link == 228:
        return ip(b)
    if link == 229:
        return ipv6(b)
    if link == 248:
        return sctp(b, max(original, len(b)))
    if link == 140:
        return [mtp2(b, original)]
    if link == 141:
        return [fault("short mtp3") if len(b) < original else mtp3(b)]
    if link == 142:
        return [fault("short sccp") if len(b) < original else ("bare", b)]
    return [fault(f"link {link}")]


def of_type(kind, b):
    while kind in TAGS:
        if len(b) < 4:
            return [fault("short ethernet")]
        kind, b = big(b[2:4]), b[4:]
    return ip(b) if kind == 0x0800 else ipv6(b) if kind == 0x86DD else [OTHER]


def of_family(family, b):
    return ip(b) if family == 2 else ipv6(b) if family in (24, 28, 30) else [OTHER]


def ip(b):
    if len(b) < 20:
        return [fault("short ip")]
    header, total = b[0] % 16 * 4, big(b[2:4])
    if b[0] // 16 != 4 or header < 20 or 0 < total < header:
        return [fault("bad ip")]
    if len(b) < header:
        return [fault("short ip")]
    if b[9] != 132:
        return [OTHER]
    if big(b[6:8]) & 0x3FFF:
        return [fault("fragment")]
    size = (total or len(b)) - header
    return sctp(b[header:header + size], size)


def ipv6(b):
    if len(b) < 40:
        return [fault("short ipv6")]
    if b[0] // 16 != 6:
        return [fault("bad ipv6")]
    size = big(b[4:6]) or len(b) - 40
    kind, b = b[6], b[40:40 + size]
    while kind != 132:
        if kind not in (0, 43, 44, 51, 60):
            return [OTHER]
        if len(b) < 8:
            return [fault("short ipv6")]
        if kind == 44 and big(b[2:4]) & 0xFFF9:
            return [fault("fragment") if b[0] == 132 else OTHER]
        own = 8 if kind == 44 else 4 * b[1] + 8 if kind == 51 else 8 * b[1] + 8
        if len(b) < own:
            return [fault("short ipv6")]
        kind, b, size = b[0], b[own:], size - own
    return sctp(b, size)


def sctp(b, size):
    """The chunks of a packet that had so many octets, of which b are there."""
    if len(b) < 12:
        return [fault("short sctp")]
    key, place, number, made = b[:8], 12, 0, []
    while place < size:
        number += 1
        own = big(b[place + 2:place + 4])
        if len(b) < place + 4 or own < 4 or len(b) < place + own:
            return [*made, fault("bad" if len(b) >= place + 4 and own < 4 else "short", number)]
        made.append(chunk(number, key, b[place:place + own]))
        place += padded(own)
    return made


def chunk(number, key, b):
    if b[0] == I_DATA_CHUNK:
        return fault("interleaved", number)
    if b[0] != DATA_CHUNK:
        return OTHER
    if len(b) < 17:
        return fault("bad", number)
    flags = (bool(b[1] & 4), bool(b[1] & 2), bool(b[1] & 1))
    return "chunk", number, Chunk(key, big(b[4:8]), big(b[8:10]), big(b[10:12]), big(b[12:16]), *flags, b[16:])


def mtp2(b, original):
    size = b[2] % 64 if len(b) >= 3 else None
    if size is None:
        return fault("short mtp2")
    if size < 3:
        return OTHER
    if size == 63:
        return fault("short mtp2") if len(b) < max(original, 66) else mtp3(b[3:])
    return fault("short mtp2") if len(b) < 3 + size else mtp3(b[3:3 + size])


def mtp3(b):
    if len(b) < 5:
        return fault("short mtp3")
    label = int.from_bytes(b[1:5], "little")
    return "signal", label >> 14 & 0x3FFF, label & 0x3FFF, b[0] % 16, b[5:]


def m2pa(b):
    size = big(b[4:8])
    if len(b) < 16:
        return fault("short m2pa")
    if b[0] != 1 or b[2] != 11 or not 16 <= size <= len(b):
        return fault("bad m2pa")
    return mtp3(b[17:size]) if b[3] == 1 and size > 16 else OTHER


# ---- user messages

def goes_on(a, b):
    same = (a.key, a.stream, a.protocol, a.unordered) == (b.key, b.stream, b.protocol, b.unordered)
    return b.tsn == (a.tsn + 1) % 2 ** 32 and not a.ends and not b.begins and same and (a.unordered or a.sequence == b.sequence)


class Messages:
    """The chunks that a later one may repeat, and those that wait: each with its place, in the order in which they arrived."""

    def __init__(self):
        self.keys, self.waiting = collections.OrderedDict(), []

    def repeats(self, one):
        key, known = (one.key, one.tsn), False
        if one.key[4:8] != bytes(4):
            known = self.keys.pop(key, None) is not None
            self.keys[key] = True
            if len(self.keys) > MOST_KEYS:
                self.keys.popitem(last=False)
        return known

    def whole(self, one):
        """The chunks of the message that this one makes whole, or None."""
        run = [one]
        while not run[0].begins:
            before = [chunk for _, chunk in self.waiting if goes_on(chunk, run[0])]
            if not before or len(run) > MOST_WAITING:
                return None
            run.insert(0, before[0])
        while not run[-1].ends:
            after = [chunk for _, chunk in self.waiting if goes_on(run[-1], chunk)]
            if not after or len(run) > MOST_WAITING:
                return None
            run.append(after[0])
        return run

    def take(self, place, one):
        """The data of a message, or the place of a chunk that is given up, or neither."""
        run = self.whole(one)
        if run:
            members = {(chunk.key, chunk.tsn) for chunk in run}
            if len(run) > 1:
                self.waiting = [(at, chunk) for at, chunk in self.waiting if (chunk.key, chunk.tsn) not in members]
            return b"".join(chunk.data for chunk in run), None
        self.waiting.append((place, one))
        return None, self.waiting.pop(0)[0] if len(self.waiting) > MOST_WAITING else None


# ---- DATA messages of M3UA: the number of the first fault, or what they carry

def data_message(b):
    if len(b) < 8:
        return 1
    if b[0] != 1 or b[2:4] != b"\1\1":
        return 2
    size = big(b[4:8])
    if size < 8 or len(b) not in (size, padded(size)):
        return 3
    first, place, count = {}, 8, 0
    while place < size:
        own = big(b[place + 2:place + 4])
        if size - place < 4 or own < 4 or place + own > size or count == 1024:
            return 4
        first.setdefault(big(b[place:place + 2]), b[place + 4:place + own])
        place, count = padded(place + own), count + 1
    if 0x0210 not in first:
        return 5
    if any(tag in first and len(first[tag]) != 4 for tag in (0x0200, 0x0006, 0x0013)) or len(first[0x0210]) < 12:
        return 6
    data = first[0x0210]
    return "signal", big(data[:4]), big(data[4:8]), data[8], data[12:]


# ---- lines

class Lines:
    def __init__(self, nodes):
        self.nodes, self.messages, self.printed = nodes, Messages(), []
        self.counts = dict.fromkeys(("packets", "messages", "left", "repeated", "others", "faults"), 0)

    def line(self, counted, words, number=None, packet=None):
        self.counts[counted] += 1
        place = f"chunk {number} " if number else ""
        self.printed.append(f"# packet {packet or self.counts['packets']} {place}{words}")

    def take(self, packet):
        self.counts["packets"] += 1
        if isinstance(packet, str):
            self.line("faults", packet)
            return
        for one in found(*packet) or [OTHER]:
            self.take_one(one)

    def take_one(self, one, number=None):
        if one[0] == "fault":
            self.line("faults", one[2], one[1] or number)
        elif one[0] == "signal":
            self.take_signal(*one[1:], number)
        elif one[0] == "bare":
            words = "empty" if not one[1] else "long" if len(one[1]) > MOST_SCCP else "sccp " + one[1].hex().upper()
            self.line("left", words)
        elif one[0] == "chunk" and (is_m3ua(one[2]) or one[2].protocol == 5):
            self.take_chunk(*one[1:])
        else:
            self.counts["others"] += 1

    def take_chunk(self, number, one):
        if self.messages.repeats(one):
            self.counts["repeated"] += 1
            return
        data, given_up = self.messages.take((self.counts["packets"], number), one)
        if given_up:
            self.line("faults", "alone", given_up[1], given_up[0])
        if data is None:
            return
        if not is_m3ua(one):
            self.take_one(m2pa(data), number)
        elif len(data) >= 8 and data[0] == 1 and data[2:4] != b"\1\1":
            self.counts["others"] += 1
        else:
            read = data_message(data)
            if isinstance(read, int):
                self.line("left", f"refused {read}", number)
            else:
                self.take_one(read, number)

    def take_signal(self, origin, destination, service, octets, number):
        name = self.nodes.get(destination)
        for fails, words in ((service != 3, f"service {service}"), (max(origin, destination) > 16383, "point"),
                             (not name, "unknown node"), (not octets, "empty"), (len(octets) > MOST_SCCP, "long")):
            if fails:
                self.line("left", words, number)
                return
        self.counts["messages"] += 1
        self.printed.append(f"msg {name} {origin >> 11}-{origin >> 3 & 255}-{origin & 7} {octets.hex().upper()}")


def is_m3ua(one):
    return one.protocol == 3 or 2905 in (big(one.key[:2]), big(one.key[2:4]))


def printed(nodes, octets, kind=Lines):
    lines, status = kind(nodes), 0
    try:
        for packet in packets(octets):
            lines.take(packet)
    except End as end:
        place, words = end.args
        lines.counts["faults"] += 1
        lines.printed.append(f"# octet {place} {words}")
        status = 0 if words == "cut" else 70
    for (packet, number), _ in lines.messages.waiting:
        lines.line("faults", "alone", number, packet)
    return lines.printed + ["# end " + " ".join(f"{name} {count}" for name, count in lines.counts.items())], status
