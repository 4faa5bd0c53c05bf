#!/usr/bin/env python3
"""Plants mistakes in plans like those of an international gateway, and looks whether `wide verify` and `wide covers` find them.

The plans are made by tools/gateway_plan.py, which knows what it plants: each mistake is in another country. A plan without mistakes has
to be accepted. Each mistake by itself has to make `wide verify` refuse the plan for the reason that its kind has, with a title of its
country, and `wide covers` refuse covers of that country only. All of them together have to make `wide verify` show one of them, and
`wide covers` refuse exactly the covers that they make it refuse one by one.

  tools/check_gateway.py [--plans N] [--seed N] [--mistakes N] [--program FILE]

Three plans are made, with five mistakes each. The program is ./sccp of this repository if none is named. The last line counts what was
found. Each plan with a difference is named with it, and the status is then 1.
"""
import argparse
import collections
import os
import re
import subprocess
import sys
import tempfile

sys.dont_write_bytecode = True
sys.path.insert(0, os.path.dirname(os.path.realpath(__file__)))
import gateway_plan  # noqa: E402

TOP = os.path.dirname(os.path.dirname(os.path.abspath(__file__)))
Sizes = collections.namedtuple("Sizes", "rows covers relays seed")
SIZES = [(800, 80, 2), (1200, 120, 4), (2400, 240, 6)]
# How the refusal begins for a mistake of each kind.
REASONS = {"back": "loop ", "place": "forbidden ", "gap": "no row ", "put": "no row ", "own": "no row "}


def codes_of(text):
    """The kind and the country of each mistake, as the comments at the top of a plan say them."""
    return [(kind, country) for kind, country in re.findall(r"^# mistake \d+: (\w+), country (\d+),", text, re.MULTILINE)]


def covers_of(text):
    """The prefix of each cover of a plan."""
    return [re.search(r'^prefix = "(\d*)"$', cover, re.MULTILINE)[1] for cover in text.split("[[cover]]")[1:]]


def country_of(prefix):
    """The country code that begins a prefix, of which there is one."""
    return next(code for code in gateway_plan.CODES if prefix.startswith(code))


def answer_of(program, words, text):
    """The status and the lines of a call with a plan."""
    with tempfile.TemporaryDirectory() as folder:
        with open(os.path.join(folder, "plan"), "w", encoding="ascii") as made:
            made.write(text)
        done = subprocess.run([program, "wide", *words, "plan"], cwd=folder, capture_output=True, text=True, check=False)
    assert not done.stderr, f"{' '.join(words)}: {done.stderr}"
    return done.returncode, done.stdout.splitlines()


def refused_covers(program, text):
    """The covers that `wide covers` refuses, by their places. It has a line on each cover."""
    status, lines = answer_of(program, ["covers"], text)
    told = [re.match(r"cover (\d+) (accepted|refused) ", line) for line in lines]
    told = [(int(line[1]), line[2]) for line in told if line]
    assert [place for place, _ in told] == list(range(len(covers_of(text)))), "covers: not a line for each cover"
    refused = {place for place, word in told if word == "refused"}
    assert status == (1 if refused else 0), f"covers: status {status}"
    return refused


def shown_country(lines, reasons):
    """The country of the title that a refusal for one of these reasons shows."""
    assert any(lines[0].startswith(f"refused {reason}") for reason in reasons), f"verify: {lines[0]}"
    return country_of(lines[1].split()[4])


def check_alone(program, sizes, number, count):
    """One mistake by itself. Gives its country and the covers that it makes the program refuse."""
    text = gateway_plan.made(sizes, count, number)
    (kind, country), = codes_of(text)
    status, lines = answer_of(program, ["verify"], text)
    assert status == 1 and shown_country(lines, [REASONS[kind]]) == country, f"mistake {number}, {kind} in {country}: verify, {lines[:2]}"
    refused, prefixes = refused_covers(program, text), covers_of(text)
    others = {country_of(prefixes[place]) for place in refused}
    assert others == {country}, f"mistake {number}, {kind} in {country}: covers, those of {sorted(others)}"
    return country, refused


def check_plan(program, sizes, count):
    """A plan without mistakes, with each of them, and with all. Gives how many covers all of them make the program refuse."""
    good = gateway_plan.made(sizes)
    assert answer_of(program, ["verify"], good)[0] == 0, "verify: not accepted"
    assert not refused_covers(program, good), "covers: not accepted"
    alone = [check_alone(program, sizes, number, count) for number in range(1, count + 1)]
    text = gateway_plan.made(sizes, count)
    assert len(codes_of(text)) == count, "not as many mistakes as were wanted"
    status, lines = answer_of(program, ["verify"], text)
    found = shown_country(lines, REASONS.values())
    assert status == 1 and found in {country for country, _ in alone}, f"all together: verify, {lines[:2]}"
    refused = refused_covers(program, text)
    wanted = set().union(*(places for _, places in alone))
    assert refused == wanted, f"all together: covers, {sorted(refused ^ wanted)} only together or only by themselves"
    return len(refused)


def main():
    parser = argparse.ArgumentParser(description=__doc__, formatter_class=argparse.RawDescriptionHelpFormatter)
    parser.add_argument("--plans", type=int, default=3)
    parser.add_argument("--seed", type=int, default=1)
    parser.add_argument("--mistakes", type=int, default=5)
    parser.add_argument("--program", default=os.path.join(TOP, "sccp"))
    words = parser.parse_args()
    program, refused, faults = os.path.abspath(words.program), 0, 0
    for number in range(words.plans):
        sizes = Sizes(*SIZES[number % len(SIZES)], words.seed + number // len(SIZES))
        try:
            refused += check_plan(program, sizes, words.mistakes)
        except AssertionError as fault:
            faults += 1
            print(f"rows {sizes.rows}, covers {sizes.covers}, relays {sizes.relays}, seed {sizes.seed}: {fault}")
    print(f"{words.plans} plans, {words.plans * words.mistakes} mistakes, {refused} covers refused, {faults} with a difference")
    return 1 if faults else 0


if __name__ == "__main__":
    sys.exit(main())
