#!/usr/bin/env python3
"""Measures how fast the built program makes a trace of a capture: packets a second, and the peak memory.

The capture is a pcap file of Ethernet. Each packet has IPv4, SCTP and one DATA chunk with a DATA message of M3UA, whose message of
SCCP (UDT of 31 octets) ends with the number of the packet; with its record a packet has 134 octets. A second capture has the same
messages in chunks of 20 octets, one a packet, and the others have random octets: as a file, as packets, and as chunks. The time has
to grow as the number of packets does, and the memory not at all. The last line of the output is compared with what it has to be.

With tshark on the path the same file is read by it, too, for the messages of M3UA.

Run it from anywhere: bench/capture.py [PROGRAM]. It builds nothing: run ./sccp --prove before.
"""
import os
import random
import shutil
import struct
import subprocess
import sys
import tempfile

TOP = os.path.dirname(os.path.dirname(os.path.abspath(__file__)))
PROGRAM = os.path.abspath(sys.argv[1]) if len(sys.argv) > 1 else os.path.join(TOP, "crates/sccp/out/sccp")
CHILD = ("import resource, subprocess, sys, time; out = open(sys.argv[1], 'wb'); start = time.monotonic(); "
         "done = subprocess.run(sys.argv[2:], stdout=out, stderr=subprocess.DEVNULL); seconds = time.monotonic() - start; "
         "used = resource.getrusage(resource.RUSAGE_CHILDREN); "
         "print(done.returncode, seconds, used.ru_utime + used.ru_stime, used.ru_maxrss)")
PLAN = """version = 2
[[node]]
name = "a"
point = "1-0-2"
[[node.row]]
selector = "4:0:1:4"
prefix = "49"
targets = [{ final = "2-0-1", ssn = 6 }]
[[cover]]
node = "a"
selector = "4:0:1:4"
ssn = 6
prefix = "49"
least = 12
most = 12
allowed = ["2-0-1/6"]
"""
UDT = bytes.fromhex("0900030E120B1206001204947101000021044301080808")
HEADING = struct.pack("<IHHIIII", 0xA1B2C3D4, 2, 4, 0, 0, 262_144, 1)


def record(octets):
    return struct.pack("<IIII", 1_700_000_000, 0, len(octets), len(octets)) + octets


def message(number):
    """A DATA message for relay a."""
    user = UDT + number.to_bytes(8, "big")
    body = struct.pack(">HHIIBBBB", 0x0210, 16 + len(user), 2049, 2050, 3, 2, 0, 5) + user
    body += bytes(-len(body) % 4)
    return struct.pack(">BBBBI", 1, 0, 1, 1, 8 + len(body)) + body


def packet(tsn, flags, sequence, data):
    """A frame with one DATA chunk."""
    chunk = struct.pack(">BBHIHHI", 0, flags, 16 + len(data), tsn % 2 ** 32, 0, sequence % 65_536, 3) + data + bytes(-len(data) % 4)
    sctp = struct.pack(">HHII", 2905, 2905, 0x11223344, 0) + chunk
    head = struct.pack(">BBHHHBBHII", 0x45, 0, 20 + len(sctp), 0, 0, 64, 132, 0, 0x0A000001, 0x0A000002)
    return bytes(12) + b"\x08\x00" + head + sctp


def whole(count):
    """A message in each packet."""
    return (record(packet(number, 3, number, message(number))) for number in range(count))


def pieces(count):
    """A part of 20 octets of a message in each packet."""
    tsn = 0
    for number in range(count):
        data = message(number)
        parts = [data[at:at + 20] for at in range(0, len(data), 20)]
        for place, part in enumerate(parts):
            yield record(packet(tsn, 2 * (place == 0) + (place == len(parts) - 1), number, part))
            tsn += 1


def write(path, heading, records):
    with open(path, "wb") as made:
        made.write(heading)
        for one in records:
            made.write(one)
    return os.path.getsize(path)


def last_line(path):
    with open(path, "rb") as out:
        out.seek(max(0, os.path.getsize(path) - 200))
        return out.read().decode().splitlines()[-1]


def measure(folder, words, runs=3):
    """Status, seconds by the clock and of the processor, and the peak in MB, of the run that used the processor least."""
    def once():
        done = subprocess.run([sys.executable, "-c", CHILD, "out", *words], cwd=folder, capture_output=True, check=True)
        status, seconds, used, peak = done.stdout.split()
        return float(used), float(seconds), int(peak) / 1024, int(status)
    return min(once() for _ in range(runs))


def end_line(**counts):
    names = ("packets", "messages", "left", "repeated", "others", "faults")
    return "# end " + " ".join(f"{name} {counts.get(name, 0)}" for name in names)


def show(folder, what, size, wanted, packets=None):
    used, seconds, peak, status = measure(folder, [PROGRAM, "capture", "plan.toml", "it.pcap"])
    line = last_line(os.path.join(folder, "out"))
    if wanted and line != wanted:
        sys.exit(f"{what}: status {status}, {line} and not {wanted}")
    rate = f", {packets / used:,.0f} packets in a second of the processor" if packets else ""
    print(f"{what}, {size:,} octets: status {status}, processor {used:.2f} s, clock {seconds:.2f} s{rate}, peak {peak:.1f} MB", flush=True)
    return used


def main():
    with tempfile.TemporaryDirectory() as folder:
        it = os.path.join(folder, "it.pcap")
        with open(os.path.join(folder, "plan.toml"), "w") as made:
            made.write(PLAN)
        for count in (250_000, 1_000_000):
            size = write(it, HEADING, whole(count))
            used = show(folder, f"{count:,} packets with a message each", size, end_line(packets=count, messages=count), count)
        if shutil.which("tshark"):
            words = ["tshark", "-r", "it.pcap", "-Y", "m3ua.message_class == 1", "-T", "fields", "-e", "frame.number",
                     "-e", "m3ua.protocol_data_opc"]
            other = measure(folder, words, 1)
            print(f"tshark on the same file: processor {other[0]:.2f} s, peak {other[2]:.1f} MB, {other[0] / used:.1f} times as long")
        size = write(it, HEADING, pieces(200_000))
        show(folder, "200,000 messages in pieces of 20 octets", size, end_line(packets=600_000, messages=200_000), 600_000)
        draw = random.Random(1)
        size = write(it, b"", (draw.randbytes(1_000_000) for _ in range(100)))
        show(folder, "random octets", size, end_line(faults=1))
        size = write(it, HEADING, (record(draw.randbytes(1460)) for _ in range(70_000)))
        show(folder, "packets of random octets", size, None, 70_000)
        size = write(it, HEADING, (record(packet(0, 3, 0, b"\0")[:46] + draw.randbytes(1400)) for _ in range(70_000)))
        show(folder, "packets of SCTP with random chunks", size, None, 70_000)


if __name__ == "__main__":
    main()
