#!/usr/bin/env python3
"""Keeps of the lines of `conform` those on relays that were captured, if others of the plan were not.

  ./sccp conform PLAN FILE | tools/judged_at.py RELAY..

`conform` judges every relay of the plan. What arrived at a relay that was not captured is not in the file, so what it sent is mostly
unexplained. This keeps the messages that the named relays sent, their arrivals that are unanswered, their counts, and the lines of what
is no message. The last line has the number of these messages, and how many of them are unexplained.

Status 0: none is unexplained; 2: one is; 64: a word is the name of no relay, or none is given; 70: the capture is damaged. If there are
no counts, since conform ended before, all lines are kept, and the status is 66.
"""
import os
import sys

sys.dont_write_bytecode = True
sys.path.insert(0, os.path.dirname(os.path.realpath(__file__)))
import lines  # noqa: E402


def is_on(relays, record):
    """Whether a line is on a message that one of these relays sent, on one of them, or on what is no message."""
    return record["from"] in relays if record["form"] == "captured" else record.get("node") in (None, *relays)


def judged_at(relays, text):
    """The kept lines of these lines, and the status."""
    records = [(line, lines.read_line(line, "conform")) for line in text]
    if not records or records[-1][1]["form"] != "judged":
        return text, 66
    absent = set(relays) - {record["node"] for _, record in records if record["form"] == "relay_counted"}
    if absent or not relays:
        return [f"no relay of the plan has the name {' or '.join(sorted(absent))}" if absent else "no relay is named"], 64
    kept = [(line, record) for line, record in records[:-1] if is_on(relays, record)]
    sent = [record for _, record in kept if record["form"] == "captured"]
    unexplained = sum(record["verdict"] == "unexplained" for record in sent)
    is_damaged = any(record["form"] == "capture_ended" and record["why"] != "cut" for _, record in kept)
    last = lines.write_line({"form": "judged", "messages": len(sent), "unexplained": unexplained})
    return [*(line for line, _ in kept), last], 70 if is_damaged else 2 if unexplained else 0


def main():
    kept, status = judged_at(sys.argv[1:], sys.stdin.read().splitlines())
    print("\n".join(kept), file=sys.stderr if status == 64 else sys.stdout)
    return status


if __name__ == "__main__":
    sys.exit(main())
