#!/usr/bin/env python3
"""Runs the program for ./sccp --json, and writes each line that it prints as a JSON object.

  as_json.py PROGRAM WORD..

The objects are the records of lines.py. All else is as without this script: words, standard input, standard error, and how the
program ends, by a status or a signal. If standard output takes no more, the status is 75, as it is of the program.
"""
import contextlib
import json
import os
import select
import signal
import subprocess
import sys

sys.dont_write_bytecode = True
sys.path.insert(0, os.path.dirname(os.path.realpath(__file__)))
import lines

NO_PROGRAM, WRITE_FAULT, USAGE = 70, 75, 64
# A pipe that is ready takes this number of octets without a wait.
ALWAYS_TAKEN = 512
SIGNALS = (signal.SIGINT, signal.SIGTERM, signal.SIGHUP, signal.SIGQUIT)


def say(text):
    with contextlib.suppress(OSError, AttributeError):
        sys.stderr.write(f"sccp: {text}\n")
        sys.stderr.flush()


class Ended(Exception):
    """A signal while standard output took nothing."""


class Objects:
    """Writes the objects of the lines of one call."""

    def __init__(self, command):
        self.command, self.count, self.unread = command, 0, 0
        self.is_writing = self.is_ending = False

    def of(self, line):
        """The object of a line. One without a line feed was cut off, so it has no form."""
        text = line.decode("utf-8", "backslashreplace")
        record = lines.read_line(text, self.command) if text.endswith("\n") else {"form": "text", "text": text}
        self.count += 1
        if record["form"] == "text":
            self.unread += 1
            if self.unread == 1:
                say(f"--json: line {self.count} has no form that is known: {record['text'][:200]}")
        return json.dumps(record) + "\n"

    def write(self, whole):
        octets = "".join(self.of(line) for line in whole).encode()
        self.is_writing = True
        try:
            while octets and not self.is_ending:
                octets = octets[os.write(1, octets):]
            # After a signal nothing waits for long on an output that nobody reads.
            while octets:
                if not select.select([], [1], [], 1)[1]:
                    raise Ended
                octets = octets[os.write(1, octets[:ALWAYS_TAKEN]):]
        finally:
            self.is_writing = False

    def pass_on(self, source):
        """Writes each line as it comes, and gives whether standard output has taken all of them."""
        rest = b""
        try:
            while piece := os.read(source, 1 << 16):
                *whole, rest = (rest + piece).split(b"\n")
                self.write([line + b"\n" for line in whole])
            self.write([rest] if rest else [])
        except (OSError, Ended):
            return False
        return True

    def end(self):
        if self.unread > 1:
            say(f"--json: {self.unread} lines have no form that is known")


class Signals:
    """Sends signals on to the program."""

    def __init__(self, objects):
        self.objects, self.program, self.early = objects, None, []
        # One that whoever called has ignored stays so, as under nohup.
        for number in SIGNALS:
            if signal.getsignal(number) is not signal.SIG_IGN:
                signal.signal(number, self.send_on)
        # The launcher has them wait until now.
        signal.pthread_sigmask(signal.SIG_UNBLOCK, SIGNALS)

    def send_on(self, number, _):
        if not self.program:
            self.early.append(number)
            return
        self.program.send_signal(number)
        self.objects.is_ending = True
        if self.objects.is_writing:
            raise Ended

    def go_to(self, program):
        self.program = program
        for number in self.early:
            program.send_signal(number)
            self.objects.is_ending = True


def run(program, words):
    """Runs the program, and gives its status or ends by its signal."""
    objects = Objects(lines.command_of(words))
    signals = Signals(objects)
    try:
        started = subprocess.Popen([program, *words], stdout=subprocess.PIPE)
    except OSError as error:
        say(f"{program}: {error.strerror}")
        return NO_PROGRAM
    signals.go_to(started)
    is_written = objects.pass_on(started.stdout.fileno())
    # If standard output takes no more, neither does the pipe from the program.
    started.stdout.close()
    status = started.wait()
    objects.end()
    if status < 0:
        signal.signal(-status, signal.SIG_DFL)
        os.kill(os.getpid(), -status)
    return status if is_written else WRITE_FAULT


if __name__ == "__main__":
    if len(sys.argv) < 2:
        say("usage: as_json.py PROGRAM WORD..")
        sys.exit(USAGE)
    sys.exit(run(sys.argv[1], sys.argv[2:]))
