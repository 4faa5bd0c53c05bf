#!/usr/bin/env python3
"""A second maker of what `send-on` has to print, written only from the formats.

It uses the reader of `reference.py` and shares no text with the program. Run it with the words of the command,
PLAN NODE ORIGIN SIZE HEX, of a plan that reads: what becomes of the octets at the node while nothing is prohibited, and of
a long message that leaves it the segments.
"""
import sys
import tomllib

import reference

XUDT, LUDT, SEGMENTATION = 0x11, 0x13, 0x10
WITH_COUNTER = (0x11, 0x12, 0x13, 0x14)


def point(text):
    """The value of a point code."""
    if "-" not in text:
        return int(text)
    zone, area, last = (int(part) for part in text.split("-"))
    return 2048 * zone + 8 * area + last


def selector(text):
    return ":".join(str(int(part)) for part in text.split(":"))


def joined(code, fixed, found, data, params):
    """The octets of a message, or None if a part or a pointer does not fit."""
    long = code == LUDT or code == 0x14
    width, most = (2, 65535) if long else (1, 255)
    pieces = []
    for address in found:
        octets = reference.address_octets(address)
        if len(octets) > 255:
            return None
        pieces.append([len(octets)] + octets)
    if len(data) > most:
        return None
    pieces.append(list(len(data).to_bytes(width, "little")) + list(data))
    if reference.ROWS[code][4] is not None:
        if any(len(octets) > 255 for _, octets in params):
            return None
        listed = [octet for name, octets in params for octet in [name, len(octets), *octets]]
        pieces.append(listed + [0] if params else [])
    at, pointers = 1 + len(fixed) + width * len(pieces), b""
    for i, piece in enumerate(pieces):
        # a pointer counts from its own place, a pointer of two octets from the second of them
        value = at - (1 + len(fixed) + width * i + width - 1) if piece else 0
        if value > most:
            return None
        pointers += value.to_bytes(width, "little")
        at += len(piece)
    return bytes([code, *fixed, *pointers, *(octet for piece in pieces for octet in piece)])


def row_for(node, title, ssn):
    """The row that counts, or the cause that there is none."""
    name, digits = title
    word = "".join(f"{digit:X}" for digit in digits)
    named = [row for row in node.get("row", []) if selector(row["selector"]) == name]
    if not named:
        return None, 0
    fits = [row for row in named if word.startswith(row["prefix"].upper()) and row.get("ssn", ssn) == ssn]
    if not fits:
        return None, 1
    return max(fits, key=lambda row: (len(row["prefix"]), "ssn" in row)), None


def arrival(plan, node, b):
    """What becomes of octets at a node: a line, or the point that the octets go to with them."""
    try:
        row, found, rest, params = reference.decode(list(b))
    except reference.Fault as fault:
        return f"undecodable {fault}"
    code, data, fixed = b[0], rest[0] if rest else [], list(b[1:1 + row[1]])
    if row[2] < 2:
        return f"connection {row[0]}"
    national, by_ssn, _, ssn, title = found[0]
    if by_ssn:
        if ssn == 1:
            return "management"
        return f"local {ssn}" if ssn in node.get("subsystems", []) else "returned 4 marks none"
    if code in WITH_COUNTER:
        if fixed[1] <= 1:
            return "returned 12 marks none"
        fixed[1] = min(fixed[1], 15) - 1
    if title is None or isinstance(title[0], int):
        return "returned 0 marks none"
    taken, cause = row_for(node, title, ssn or 0)
    if taken is None:
        return f"returned {cause} marks none"
    target = taken["targets"][0] if "targets" in taken else taken["first"]
    if "final" in target:
        to, number = point(target["final"]), target.get("ssn", ssn or 0)
        if to == point(node["point"]):
            return f"local {number}" if number in node.get("subsystems", []) else "returned 4 marks none"
        called = (national, True, None, number, title)
    else:
        to = next(point(other["point"]) for other in plan["node"] if other["name"] == target["relay"])
        digits = [int(digit, 16) for digit in target.get("put", "")] + title[1][target.get("strip", 0):]
        if len(digits) > 32:
            return "returned 9 marks none"
        called = (national, False, None, target.get("ssn", ssn), (selector(target.get("selector", title[0])), digits))
    octets = joined(code, fixed, [called, found[1]], data, params)
    return "returned 9 marks none" if octets is None else (to, octets)


def segments(octets, size, reference_number):
    """The segments of a long message, or why there are none."""
    _, found, (data,), params = reference.decode(list(octets))
    own = next((contents for name, contents in params if name == SEGMENTATION), None)
    if own is not None and (own[0] < 128 or own[0] % 16):
        return "already segment"
    count = max(1, -(-len(data) // size))
    if count > 16:
        return "too many"
    options, kind = octets[1] // 16, octets[1] % 16
    number = own[1:] if own is not None else list(reference_number.to_bytes(3, "little"))
    others = [(name, contents) for name, contents in params if name != SEGMENTATION]
    made = []
    for i in range(count):
        first = [128 * (i == 0) + 64 * (kind == 1) + count - 1 - i, *number]
        one = joined(XUDT, [1 + 16 * options * (i == 0), octets[2]], found, data[size * i:size * (i + 1)],
                     [(SEGMENTATION, first)] + others)
        if one is None:
            return "not writable"
        made.append(one)
    return made


def text(plan, name, size, b):
    node = next((node for node in plan["node"] if node["name"] == name), None)
    if node is None:
        return "unknown node\n"
    came = arrival(plan, node, b)
    if isinstance(came, str):
        return came + "\n"
    to, octets = came
    parts = [octets] if octets[0] != LUDT else segments(octets, size, 1)
    if isinstance(parts, str):
        return f"not split {parts}\n"
    return "".join(f"to {to >> 11}-{to >> 3 & 255}-{to & 7} {part.hex().upper()}\n" for part in parts)


if __name__ == "__main__":
    with open(sys.argv[1], "rb") as file:
        read = tomllib.load(file)
    print(text(read, sys.argv[2], int(sys.argv[4]), bytes.fromhex(sys.argv[5])), end="")
