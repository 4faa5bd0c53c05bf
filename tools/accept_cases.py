#!/usr/bin/env python3
"""Shows which stored lines of the cases a change alters, each call side by side, and stores those that you accept.

  tools/accept_cases.py [--list] [--program FILE]

The cases are the calls in crates/worked_cases/data/calls, and their stored answers crates/worked_cases/stdout. Without
--program the program of the cases is built without proofs, which takes one to two minutes. It runs in a copy of data/, as the
gate runs it. For each call whose answer differs, the stored answer is on the left and the new one on the right, and one letter
is read: y stores the new answer, n leaves the stored one, s stores this one and the rest of its section, q leaves the rest.
Read each new answer against the specification before you accept it: the gate compares with what is stored, and nothing else does.

With --list, or if the input is no terminal, nothing is asked and nothing is stored. Status 0: nothing differs any more; 1: something
does; 2: the program could not be built or did not end well.
"""
import argparse
import contextlib
import difflib
import os
import re
import shutil
import subprocess
import sys
import tempfile

TOP = os.path.dirname(os.path.dirname(os.path.realpath(__file__)))
CASES = os.path.join(TOP, "crates/worked_cases")
MOST_SECONDS = 120


def blocks_of(text):
    """The printed text in pieces, each a line of the list of calls with the answer below it: (line, which of its kind, answer)."""
    found, count = [], {}
    for line in text.removesuffix("\n").split("\n"):
        if re.match(r"[>?#+!*]", line):
            count[line] = count.get(line, 0) + 1
            found.append(((line, count[line]), []))
        elif found:
            found[-1][1].append(line)
        else:
            found.append((("", 1), [line]))
    return found


def text_of(blocks):
    return "".join(f"{line}\n" for (head, _), answer in blocks for line in ([head] if head else []) + answer)


def changes_of(stored, new):
    """What differs, in order: (section, stored block or None, new block or None), and with each the pieces that are alike as (block, block)."""
    section, all_of = "", []
    matcher = difflib.SequenceMatcher(None, [head for head, _ in stored], [head for head, _ in new], autojunk=False)
    for kind, i, to_i, j, to_j in matcher.get_opcodes():
        if kind == "equal":
            pairs = zip(stored[i:to_i], new[j:to_j])
        else:
            pairs = [(old, None) for old in stored[i:to_i]] + [(None, it) for it in new[j:to_j]]
        for old, it in pairs:
            head = (it or old)[0][0]
            section = head if head.startswith("#") else section
            all_of.append((section, old, it))
    return all_of


def side_by_side(old, new, width):
    """The lines of two answers beside each other; a line in the middle says that they differ there."""
    half = max(20, (width - 3) // 2)

    def cut(line):
        return [line[at : at + half] for at in range(0, max(1, len(line)), half)]

    matcher = difflib.SequenceMatcher(None, old, new, autojunk=False)
    for kind, i, to_i, j, to_j in matcher.get_opcodes():
        left, right = old[i:to_i], new[j:to_j]
        for at in range(max(len(left), len(right))):
            of_left = cut(left[at]) if at < len(left) else [""]
            of_right = cut(right[at]) if at < len(right) else [""]
            for row in range(max(len(of_left), len(of_right))):
                one = of_left[row] if row < len(of_left) else ""
                other = of_right[row] if row < len(of_right) else ""
                yield f"{one:<{half}} {' ' if kind == 'equal' else '|'} {other}".rstrip()


def show(section, old, new, width):
    if section:
        print(section)
    print((new or old)[0][0])
    if old is None or new is None:
        print("(this call is new)" if old is None else "(this call is gone)")
    for line in side_by_side(old[1] if old else [], new[1] if new else [], width):
        print(f"  {line}")


def answer_to(question):
    while True:
        sys.stdout.write(question)
        sys.stdout.flush()
        line = sys.stdin.readline()
        if not line:
            return "q"
        if line.strip() in ("y", "n", "s", "q"):
            return line.strip()


def chosen(changes, asks, width):
    """The blocks to be stored, and how many calls still differ from what the program prints."""
    kept, left, whole, is_over = [], 0, None, False
    for section, old, new in changes:
        if old == new:
            kept.append(old)
            continue
        show(section, old, new, width)
        letter = "n"
        if whole is not None and whole == section:
            letter = "y"
        elif asks and not is_over:
            letter = answer_to("store the new answer? y, n, s (this section), q: ")
        if letter == "s":
            whole, letter = section, "y"
        is_over = is_over or letter == "q"
        if letter == "y":
            kept += [new] if new else []
        else:
            kept += [old] if old else []
            left += 1
        print()
    return kept, left


def built(room):
    """Builds the program of the cases without proofs, in this folder."""
    sys.dont_write_bytecode = True
    sys.path.insert(0, os.path.join(TOP, "tools"))
    import build_program

    try:
        program = build_program.built_in(room, "worked_cases")
    except build_program.Failed as failed:
        sys.exit(f"{failed}")
    return program or fail("the program of the cases could not be built without proofs by this kit: give one by --program")


def fail(text):
    print(f"accept_cases: {text}", file=sys.stderr)
    sys.exit(2)


def printed(program, room):
    """What the program prints over a copy of the cases' files."""
    shutil.copytree(f"{CASES}/data", f"{room}/data")
    try:
        done = subprocess.run([program], cwd=f"{room}/data", stdin=subprocess.DEVNULL, capture_output=True, timeout=MOST_SECONDS, check=False)
    except (OSError, subprocess.TimeoutExpired) as error:
        fail(f"the program of the cases did not run: {error}")
    if done.returncode:
        fail(f"the program of the cases ended with status {done.returncode}: {done.stderr.decode(errors='replace')}")
    return done.stdout.decode("utf-8", "surrogateescape")


def main():
    parser = argparse.ArgumentParser(description=__doc__, formatter_class=argparse.RawDescriptionHelpFormatter)
    parser.add_argument("--list", action="store_true", help="show what differs, ask nothing and store nothing")
    parser.add_argument("--program", metavar="FILE", help="a build of worked_cases")
    words = parser.parse_args()
    with open(f"{CASES}/stdout", encoding="utf-8", errors="surrogateescape") as it:
        stored = it.read()
    with tempfile.TemporaryDirectory() as room:
        new = printed(os.path.abspath(words.program) if words.program else built(room), room)
    changes = changes_of(blocks_of(stored), blocks_of(new))
    asks = not words.list and sys.stdin.isatty()
    kept, left = chosen(changes, asks, shutil.get_terminal_size((160, 24)).columns)
    if text_of(kept) != stored:
        part = f"{CASES}/stdout.new"
        with open(part, "w", encoding="utf-8", errors="surrogateescape") as it:
            it.write(text_of(kept))
        os.replace(part, f"{CASES}/stdout")
    print(f"{left} of {len(changes)} pieces differ from what is stored")
    return 1 if left else 0


if __name__ == "__main__":
    with contextlib.suppress(BrokenPipeError):
        sys.exit(main())
