#!/usr/bin/env python3
"""A second reader of SCCP messages, written from the formats alone, to compare the program with.

It shares no text with the program. `text(octets)` is what `show-hex` has to print of them, `cuts(octets)` what `cuts` has
to print. Run it with words of hexadecimal digits, and it prints the text of each; with `cuts` before them, the cuts.
"""
import sys

# code: name, octets of the fixed part, addresses, whether data follow, known parameters (None: no optional part)
ROWS = {
    0x01: ("CR", 4, 1, False, [0x09, 0x04, 0x0F, 0x11, 0x12]),
    0x02: ("CC", 7, 0, False, [0x09, 0x03, 0x0F, 0x12]),
    0x03: ("CREF", 4, 0, False, [0x03, 0x0F, 0x12]),
    0x04: ("RLSD", 7, 0, False, [0x0F, 0x12]),
    0x05: ("RLC", 6, 0, False, None),
    0x06: ("DT1", 4, 0, True, None),
    0x07: ("DT2", 5, 0, True, None),
    0x08: ("AK", 5, 0, False, None),
    0x09: ("UDT", 1, 2, True, None),
    0x0A: ("UDTS", 1, 2, True, None),
    0x0B: ("ED", 3, 0, True, None),
    0x0C: ("EA", 3, 0, False, None),
    0x0D: ("RSR", 7, 0, False, None),
    0x0E: ("RSC", 6, 0, False, None),
    0x0F: ("ERR", 4, 0, False, None),
    0x10: ("IT", 10, 0, False, None),
    0x11: ("XUDT", 2, 2, True, [0x10, 0x12]),
    0x12: ("XUDTS", 2, 2, True, [0x10, 0x12]),
    0x13: ("LUDT", 2, 2, True, [0x10, 0x12]),
    0x14: ("LUDTS", 2, 2, True, [0x10, 0x12]),
}
LONG = (0x13, 0x14)

RETURN = dict(enumerate([
    "no translation for an address of such nature", "no translation for this specific address", "subsystem congestion",
    "subsystem failure", "unequipped user", "MTP failure", "network congestion", "unqualified",
    "error in message transport", "error in local processing", "destination cannot perform reassembly", "SCCP failure",
    "hop counter violation", "segmentation not supported", "segmentation failure"]))
REFUSAL = {
    4: "destination address unknown", 5: "destination inaccessible", 6: "QoS not available non-transient",
    7: "QoS not available transient", 10: "subsystem failure", 16: "hop counter violation", 17: "SCCP failure",
    18: "no translation for an address of such nature", 19: "unequipped user"}
ERROR = {0: "unassigned destination reference", 1: "inconsistent source reference"}


class Fault(Exception):
    pass


def number(b, at, two):
    return b[at] + 256 * b[at + 1] if two else b[at]


def address(b):
    """Of the octets of an address: national, routes on SSN, point code, SSN, title, digits."""
    if not b:
        raise Fault("empty")
    indicator, rest = b[0], b[1:]
    pc = ssn = None
    if indicator & 1:
        if len(rest) < 2:
            raise Fault("short")
        pc, rest = (rest[0] + 256 * rest[1]) & 0x3FFF, rest[2:]
    if indicator & 2:
        if not rest:
            raise Fault("short")
        ssn, rest = rest[0], rest[1:]
    kind = indicator >> 2 & 15
    title = title_of(kind, rest)
    return bool(indicator & 128), bool(indicator & 64), pc, ssn, title


def title_of(kind, rest):
    if kind == 0:
        if rest:
            raise Fault("extra")
        return None
    if kind > 4:
        return kind, rest
    before = {1: 1, 2: 1, 3: 2, 4: 3}[kind]
    if len(rest) < before:
        raise Fault("short")
    packed = rest[before:]
    if kind == 1:
        odd, name = rest[0] >> 7, f"1:{rest[0] & 127}"
    elif kind == 2:
        odd, name = 0, f"2:{rest[0]}"
    else:
        scheme = rest[1] & 15
        if scheme not in (1, 2):
            return kind, rest
        odd = scheme == 1
        name = f"3:{rest[0]}:{rest[1] >> 4}" if kind == 3 else f"4:{rest[0]}:{rest[1] >> 4}:{rest[2] & 127}"
    if odd and not packed:
        raise Fault("odd without digits")
    digits = [half for octet in packed for half in (octet & 15, octet >> 4)]
    if odd:
        digits.pop()
    if len(digits) > 32:
        return kind, rest
    return name, digits


def split(b):
    """The row, the variable parts and the parameters."""
    if not b:
        raise Fault("short")
    if b[0] not in ROWS:
        raise Fault("unknown type")
    row = ROWS[b[0]]
    _, fixed, addresses, data, known = row
    long = b[0] in LONG
    width = 2 if long else 1
    count = addresses + data
    behind = 1 + fixed + width * (count + (known is not None))
    if len(b) < behind:
        raise Fault("short")

    def place(i):
        at = 1 + fixed + width * i
        pointer = number(b, at, long)
        to = at + pointer + (1 if long else 0)
        if pointer == 0 or to < behind or to >= len(b):
            raise Fault(f"bad pointer {i}")
        return to

    parts = []
    for i in range(count):
        at, two = place(i), long and i == 2
        start = at + (2 if two else 1)
        if start > len(b) or start + number(b, at, two) > len(b):
            raise Fault(f"bad part {i}")
        parts.append(b[start:start + number(b, at, two)])
    params = []
    if known is not None and number(b, 1 + fixed + width * count, long):
        at = place(count)
        while True:
            if at >= len(b):
                raise Fault("bad optional")
            if b[at] == 0:
                break
            if at + 1 >= len(b) or at + 2 + b[at + 1] > len(b):
                raise Fault("bad optional")
            params.append((b[at], b[at + 2:at + 2 + b[at + 1]]))
            at += 2 + b[at + 1]
    return row, parts, params


def reads(name, octets):
    if name in (0x03, 0x04):
        try:
            address(octets)
        except Fault:
            return False
        return True
    if name in (0x09, 0x11, 0x12):
        return len(octets) == 1
    return name != 0x10 or len(octets) == 4


def decode(b):
    row, parts, params = split(b)
    found = []
    for i in range(row[2]):
        try:
            found.append(address(parts[i]))
        except Fault as fault:
            raise Fault(f"address {i} {fault}") from None
    for name in row[4] or []:
        first = next((octets for other, octets in params if other == name), None)
        if first is not None and not reads(name, first):
            raise Fault(f"field {name:02X}")
    return row, found, parts[row[2]:], params


def octets_text(b):
    return bytes(b).hex().upper() or "-"


def digits_text(digits):
    return "".join(f"{digit:X}" for digit in digits) or "-"


def address_text(name, a):
    national, by_ssn, pc, ssn, title = a
    point = "-" if pc is None else f"{pc >> 11}-{pc >> 3 & 255}-{pc & 7}"
    if title is None:
        of = "title - digits -"
    elif isinstance(title[0], int):
        of = f"title raw:{title[0]} digits {octets_text(title[1])}"
    else:
        of = f"title {title[0]} digits {digits_text(title[1])}"
    ssn = "-" if ssn is None else ssn
    return f"{name} route {'ssn' if by_ssn else 'title'} point {point} ssn {ssn} {of}{' national' if national else ''}"


def cause_text(name, table, value):
    return f"{name} cause {value}" + (f" {table[value]}" if value in table else "")


def fields(b):
    """The lines of the fixed part."""
    f, code = b[1:], b[0]

    def reference(name, at):
        return f"{name} {f[at] + 256 * f[at + 1] + 65536 * f[at + 2]}"

    def of_class(at):
        return f"class {f[at] & 15} options {f[at] >> 4}"

    both = lambda: [reference("destination", 0), reference("source", 3)]
    more = lambda at: f"more {'yes' if f[at] & 1 else 'no'}"
    name = ROWS[code][0]
    return {
        "CR": lambda: [reference("source", 0), of_class(3)],
        "CC": lambda: both() + [of_class(6)],
        "CREF": lambda: [reference("destination", 0), cause_text("refusal", REFUSAL, f[3])],
        "RLSD": lambda: both() + [f"release cause {f[6]}"],
        "RLC": both,
        "RSC": both,
        "DT1": lambda: [reference("destination", 0), more(3)],
        "DT2": lambda: [reference("destination", 0), f"send {f[3] >> 1}", f"receive {f[4] >> 1}", more(4)],
        "AK": lambda: [reference("destination", 0), f"receive {f[3] >> 1}", f"credit {f[4]}"],
        "ED": lambda: [reference("destination", 0)],
        "EA": lambda: [reference("destination", 0)],
        "RSR": lambda: both() + [f"reset cause {f[6]}"],
        "ERR": lambda: [reference("destination", 0), cause_text("error", ERROR, f[3])],
        "IT": lambda: both() + [of_class(6), f"send {f[7] >> 1}", f"receive {f[8] >> 1}", more(8), f"credit {f[9]}"],
        "UDT": lambda: [of_class(0)],
        "UDTS": lambda: [cause_text("return", RETURN, f[0])],
        "XUDT": lambda: [of_class(0), f"hops {f[1]}"],
        "LUDT": lambda: [of_class(0), f"hops {f[1]}"],
        "XUDTS": lambda: [cause_text("return", RETURN, f[0]), f"hops {f[1]}"],
        "LUDTS": lambda: [cause_text("return", RETURN, f[0]), f"hops {f[1]}"],
    }[name]()


def address_octets(a):
    """The octets that are written of an address."""
    national, by_ssn, pc, ssn, title = a
    kind, rest = 0, []
    if title is not None and isinstance(title[0], int):
        kind, rest = title[0], list(title[1])
    elif title is not None:
        numbers = [int(n) for n in title[0].split(":")]
        digits = list(title[1])
        odd = len(digits) % 2
        kind = numbers[0]
        if kind == 1:
            rest = [numbers[1] + 128 * odd]
        elif kind == 2:
            rest = [numbers[1]]
        else:
            rest = [numbers[1], 16 * numbers[2] + (1 if odd else 2)] + numbers[3:]
        digits += [0] * odd
        rest += [digits[i] + 16 * digits[i + 1] for i in range(0, len(digits), 2)]
    first = (pc is not None) + 2 * (ssn is not None) + 4 * kind + 64 * by_ssn + 128 * national
    return [first] + ([] if pc is None else [pc % 256, pc // 256]) + ([] if ssn is None else [ssn]) + rest


def written(b):
    """The octets that are written of the message that these are, or None if a part or a pointer does not fit."""
    row, found, data, params = decode(b)
    long = b[0] in LONG
    fixed = list(b[1:1 + row[1]])
    if row[0] == "DT1":
        fixed[3] &= 1
    elif row[0] == "DT2":
        fixed[3] &= 0xFE
    elif row[0] == "AK":
        fixed[3] &= 0xFE
    elif row[0] == "IT":
        fixed[7] &= 0xFE
    pieces = []
    for i, part in enumerate([address_octets(a) for a in found] + [list(x) for x in data]):
        two = long and i == 2
        if len(part) > (65535 if two else 255):
            return None
        pieces.append(([len(part) % 256, len(part) // 256] if two else [len(part)]) + part)
    if row[4] is not None:
        listed = [octet for name, octets in params for octet in [name, len(octets), *octets]]
        pieces.append(listed + [0] if params else [])
    width = 2 if long else 1
    at = 1 + row[1] + width * len(pieces)
    pointers = []
    for i, piece in enumerate(pieces):
        value = at - (1 + row[1] + width * i + (1 if long else 0)) if piece else 0
        if value > (65535 if long else 255):
            return None
        pointers += [value % 256, value // 256] if long else [value]
        at += len(piece)
    return [b[0]] + fixed + pointers + [octet for piece in pieces for octet in piece]


def text(b):
    b = list(b)
    try:
        row, found, data, params = decode(b)
    except Fault as fault:
        return f"undecodable {fault}\n"
    lines = [row[0]] + fields(b)
    lines += [address_text(name, a) for name, a in zip(["called", "calling"], found)]
    lines += [f"data {octets_text(payload)}" for payload in data]
    lines += [f"parameter {name:02X} {octets_text(octets)}" for name, octets in params]
    lines.append(f"canonical {'yes' if written(b) == b else 'no'}")
    return "\n".join(lines) + "\n"


def cuts(b):
    b = list(b)
    lines = []
    for n in range(len(b) + 1):
        try:
            decode(b[:n])
            lines.append(f"{n} ok\n")
        except Fault as fault:
            lines.append(f"{n} undecodable {fault}\n")
    return "".join(lines)


if __name__ == "__main__":
    words = sys.argv[1:]
    print_of = cuts if words[:1] == ["cuts"] else text
    for word in words[1:] if print_of is cuts else words:
        print(print_of(bytes.fromhex(word)), end="")
