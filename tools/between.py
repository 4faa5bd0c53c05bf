#!/usr/bin/env python3
"""Proposes a plan between two plans from the one of which to the other there is no order.

  tools/between.py [--wide] [--program FILE] OLD NEW -o BETWEEN

It asks `order OLD NEW`. If there is an order, no plan between is needed, and nothing is written. If there is none, it makes plans and
asks of each `order OLD PLAN` and `order PLAN NEW`. The first plan for which both have an order is written to BETWEEN, and both answers
are printed. A proposal proves nothing: the answers of the program do. Wait between the last step of the first order and the first one of
the second, as between any two steps.

In a proposal a relay goes its own way for each of its rows that the two plans have otherwise: it brings the row's titles to final
places itself, those of the rows of both plans, or else those at which such a title ends under either plan while nothing is prohibited.
No circle leads over a relay that hands nothing on. First only the relays that `order` shows as stuck go their own way, while those of the
steps before have the new rows; then all relays at which the plans differ.

A row is left out, and named on standard error, if no way of its own is known: the title gets to no place, or it is rewritten on
its way, so that the place would get other digits. The covers are those of OLD, in which each title keeps its places. Only titles that
all three plans cover are judged in both changeovers.

Status 0: no plan between is needed, or one is written; 1: none was found; 2: a file cannot be read or written, or the program has no
answer. The program is ./sccp of this repository if none is named.
"""
import argparse
import os
import subprocess
import sys
import tempfile

sys.dont_write_bytecode = True
sys.path.insert(0, os.path.dirname(os.path.realpath(__file__)))
import lines  # noqa: E402
import plan_file  # noqa: E402

TOP = os.path.dirname(os.path.dirname(os.path.realpath(__file__)))
MOST_TARGETS, MOST_HOPS = 8, 14


class Fault(Exception):
    """Why no proposal can be made."""


# ---- the text of a plan

def quoted(values):
    return "[" + ", ".join(f'"{value}"' for value in values) + "]"


def target_text(target):
    if target.relay is None:
        words = [f'final = "{target.point}"']
    else:
        words = [f'relay = "{target.relay}"'] + ([f"strip = {target.strip}"] if target.strip else [])
        words += ([f'put = "{target.put}"'] if target.put else []) + ([f'selector = "{target.selector}"'] if target.selector else [])
    words += [f"ssn = {target.ssn}"] if target.ssn is not None else []
    return "{ " + ", ".join(words) + " }"


def row_text(row):
    text = f'\n[[node.row]]\nselector = "{row.selector}"\nprefix = "{row.prefix}"\n'
    text += f"ssn = {row.ssn}\n" if row.ssn is not None else ""
    return text + f"targets = [{', '.join(map(target_text, row.targets))}]\n"


def plan_text(relays, covers):
    """The text of a plan of these pairs of a relay and its rows."""
    text = "version = 2\n"
    for relay, rows in relays:
        text += f'\n[[node]]\nname = "{relay.name}"\npoint = "{relay.point}"\n'
        text += f"subsystems = {relay.subsystems}\n" if relay.subsystems else ""
        text += f"concerned = {quoted(relay.concerned)}\n" if relay.concerned else ""
        text += "".join(map(row_text, rows))
    for cover in covers:
        text += f'\n[[cover]]\nnode = "{cover.relay}"\nselector = "{cover.selector}"\nssn = {cover.ssn}\nprefix = "{cover.prefix}"\n'
        text += f"least = {cover.least}\nmost = {cover.most}\nallowed = {quoted(cover.allowed)}\n"
    return text


# ---- a relay's own way

def key_of(row):
    return row.selector, row.ssn, row.prefix


def texts_of(rows):
    return [row_text(row) for row in rows]


def titles_of(row, covers):
    """Titles of a row, one for each cover that may have some."""
    for cover in covers:
        longer = max(row.prefix, cover.prefix, key=len)
        if row.selector == cover.selector and row.ssn in (None, cover.ssn) and longer.startswith(row.prefix) and longer.startswith(cover.prefix):
            yield plan_file.Title(row.selector, cover.ssn, longer.ljust(cover.least, "0"))


def end_of(plan, name, title):
    """The place at which a title ends that goes on from this relay while nothing is prohibited, if nothing of it is rewritten."""
    relay, first = plan.by_name[name], title
    for _ in range(MOST_HOPS):
        step = plan.step(relay, title, [])
        if step.what == "ended":
            return step.to
        if step.what != "sent" or step.title != first:
            return None
        relay, title = plan.by_name[step.to], step.title
    return None


def final_of(place):
    point, _, ssn = place.partition("/")
    return plan_file.Target({"final": point, "ssn": int(ssn)})


def own_targets(plans, name, row):
    """The final targets of a row in both plans, or else those at which its titles end under them."""
    counting = [plan.by_name[name].row_of(plan_file.Title(row.selector, row.ssn, row.prefix)) for plan in plans]
    found = [target for one in counting if one for target in one.targets if target.relay is None]
    if not found:
        places = [end_of(plan, name, title) for plan in plans for title in titles_of(row, plans[0].covers + plans[1].covers)]
        found = [final_of(place) for place in places if place]
    return list({target.words(): target for target in found}.values())[:MOST_TARGETS]


def own_rows(plans, name, missing):
    """The rows of a relay that goes its own way wherever the two plans have other rows. What is left out is noted."""
    own = [{key_of(row): row for row in plan.by_name[name].rows} for plan in plans]
    rows = []
    for key in list(own[0]) + [key for key in own[1] if key not in own[0]]:
        row, other = own[0].get(key), own[1].get(key)
        if row and other and row_text(row) == row_text(other):
            rows.append(row)
            continue
        targets = own_targets(plans, name, row or other)
        if targets:
            table = {"selector": key[0], "prefix": key[2], "targets": []} | ({} if key[1] is None else {"ssn": key[1]})
            rows.append(plan_file.Row(len(rows), table))
            rows[-1].targets = targets
        else:
            missing.append((name, key))
    return rows


# ---- proposals

class Call:
    """Runs `order` on two files, and keeps what it prints."""

    def __init__(self, words, old, new):
        words = ([words.program] if words.program else [os.path.join(TOP, "sccp")]) + (["wide"] if words.wide else []) + ["order", old, new]
        try:
            done = subprocess.run(words, stdin=subprocess.DEVNULL, capture_output=True, text=True, check=False)
        except OSError as fault:
            raise Fault(f"{words[0]} cannot be run: {fault.strerror}") from None
        self.status, self.text = done.returncode, done.stdout
        self.records = [lines.read_line(line, "order") for line in done.stdout.splitlines()]

    def names(self, form):
        """The relays of the lines of a form."""
        return [name for record in self.records if record["form"] == form for name in record.get("nodes", [record.get("node")])]

    def is_refused(self):
        return self.status == 1 and any(record["form"] == "no_order" for record in self.records)


def proposals(plans, call):
    """The texts of plans between, with what each leaves out."""
    old, new = plans
    differ = [relay.name for relay in old.relays if texts_of(relay.rows) != texts_of(new.by_name[relay.name].rows)]
    done = call.names("step")
    for own, behind in ((call.names("stuck"), done), (differ, [])):
        missing = []
        yield plan_text([(relay, own_rows(plans, relay.name, missing) if relay.name in own
                          else (new if relay.name in behind else old).by_name[relay.name].rows) for relay in old.relays], old.covers), missing


def read(name):
    try:
        return plan_file.read(name)
    except OSError as fault:
        raise Fault(f"{name} cannot be read: {fault.strerror}") from None
    except plan_file.Unreadable as fault:
        raise Fault(f"{name}: {fault}") from None


def write(name, text):
    try:
        with open(name, "w", encoding="utf-8") as file:
            file.write(text)
    except OSError as fault:
        raise Fault(f"{name} cannot be written: {fault.strerror}") from None


def find(words):
    """The status. A plan between that the program judges well is written."""
    call = Call(words, words.old, words.new)
    if call.status == 0:
        print(f"No plan between is needed.\n{call.text}", end="")
        return 0
    if not call.is_refused():
        raise Fault(f"order {words.old} {words.new} has no answer on an order (status {call.status}):\n{call.text}")
    plans = [read(words.old), read(words.new)]
    with tempfile.TemporaryDirectory() as folder:
        trial = os.path.join(folder, "between.toml")
        for text, missing in proposals(plans, call):
            write(trial, text)
            first, second = Call(words, words.old, trial), Call(words, trial, words.new)
            if first.status == 0 and second.status == 0:
                write(words.output, text)
                for name, (selector, ssn, prefix) in missing:
                    row = f"{selector} {'-' if ssn is None else ssn} {prefix or '-'}"
                    print(f"between: relay {name} has no way of its own for the row {row}, which is left out", file=sys.stderr)
                print(f"order {words.old} {words.output}\n{first.text}order {words.output} {words.new}\n{second.text}", end="")
                return 0
    print("No plan between was found.")
    return 1


def main():
    parser = argparse.ArgumentParser(description=__doc__, formatter_class=argparse.RawDescriptionHelpFormatter)
    parser.add_argument("old")
    parser.add_argument("new")
    parser.add_argument("-o", "--output", required=True)
    parser.add_argument("--wide", action="store_true")
    parser.add_argument("--program")
    try:
        return find(parser.parse_args())
    except Fault as fault:
        print(f"between: {fault}", file=sys.stderr)
        return 2


if __name__ == "__main__":
    sys.exit(main())
