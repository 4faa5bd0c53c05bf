#!/usr/bin/env python3
"""Breaks lines of code that are longer than 140 columns in .rt and .antt files.

  tools/wrap_lines.py [--list] [FILE ..]

Without names it goes over all files of crates/. A long list of imports becomes several. Any other line is broken at an operator
or before an argument, as far out and as late as it goes, and at a comma or a semicolon only if nothing else is left: `rt fmt`
then puts each item on a line of its own. Comments and texts stay. Run `rt fmt` afterwards: it decides how continued lines are
indented, and may join some again. With --list the long lines are printed, and nothing is changed. Status 0.
"""
import os
import re
import sys

TOP = os.path.dirname(os.path.dirname(os.path.abspath(__file__)))
LONGEST = 140
LEAST_FRONT = 24  # no piece is shorter than this, without its indentation
JOINS = r"λ|→|×|=|≡|⊎|∙|\+\+|∷|if|then|else|in|let|as|:|==|<|≤|&&|\|\||\+|-|\*"


def cost_at(front, rest, level):
    """How well a line breaks at a blank between these two, 1 for the best; None if it does not."""
    if front.endswith((",", ";")):
        return {"commas": 1, "all": 5}.get(level)
    if re.match(r"[→↔] ", rest):
        return 1
    if re.match(r"(×|⊎|∙|&&|\|\|) ", rest):
        return 2
    if re.match(r"(≡|≤|<|==|\+\+|∷|then|else) ", rest):
        return 3
    if rest[:1] in "({[" and not re.search(rf"(^|[\s(])({JOINS})$", front):
        return 4
    if level == "all" and re.search(r"[\w.\])']$", front) and re.match(r"[\w(]", rest) and not is_head(front, rest):
        return 6
    return None


def is_head(front, rest):
    """Whether the front ends with a word that belongs to what follows it, or the rest begins with one that belongs to the front."""
    return (
        "λ" in front[-12:]
        or re.search(r"(^|[\s(])(let|in|if|then|else|as|record|match|fn|pub|elim)$", front)
        or re.match(r"(in|then|else|as|with)\b", rest)
    )


def breaks_of(line, level):
    """The blanks at which a line may be broken: (place, how deep in brackets, cost)."""
    depth, i = 0, 0
    while i < len(line):
        c = line[i]
        if c == '"':
            i += 1
            while i < len(line) and line[i] != '"':
                i += 2 if line[i] == "\\" else 1
        elif c in "([{":
            depth += 1
        elif c in ")]}":
            depth -= 1
        elif c == " ":
            cost = cost_at(line[:i], line[i + 1 :], "all" if level == "all" else level if depth is not None else None)
            if cost is None and depth == 0 and level != "commas" and line[:i].endswith(" ="):
                cost = 3
            if cost is not None:
                yield i, depth, cost
        i += 1


def indentation(line):
    return len(line) - len(line.lstrip())


def pieces_of(line, indent, level):
    if len(line) <= LONGEST:
        return [line]
    least = indentation(line) + LEAST_FRONT
    places = [it for it in breaks_of(line, level) if least < it[0] <= LONGEST]
    places = places or [it for it in breaks_of(line, "all") if least < it[0] <= LONGEST]
    if not places:
        return [line]

    def weight(place):
        at, depth, cost = place
        late = at / LONGEST
        return 1.3 * depth + 0.8 * cost - 2.6 * min(late, 0.92) + (1.5 if late < 0.4 else 0)

    at = min(places, key=weight)[0]
    rest = " " * indent + line[at + 1 :].lstrip()
    if len(rest) >= len(line):
        return [line]
    return [line[:at].rstrip(), *pieces_of(rest, indent, level)]


def imports_of(line):
    """A list of imports as several, none too long."""
    found = re.match(r"(\s*(?:pub |ghost )*use [^{]*\{)([^{}]*)(\};?)\s*$", line)
    if not found:
        return [line]
    head, names, tail = found.groups()
    lists = [[]]
    for name in filter(None, (it.strip() for it in names.split(","))):
        if lists[-1] and len(head + ", ".join([*lists[-1], name]) + tail) > LONGEST:
            lists.append([])
        lists[-1].append(name)
    return [head + ", ".join(it) + tail for it in lists]


def wrapped(text, kind):
    lines = []
    for line in text.split("\n"):
        is_comment = re.match(r"\s*//" if kind == "rt" else r"\s*--", line) or (kind == "antt" and re.search(r"\s--\s", line))
        if len(line) <= LONGEST or is_comment:
            lines.append(line)
        elif re.match(r"\s*(pub |ghost )*use ", line):
            lines += imports_of(line)
        else:
            level = "commas" if kind == "rt" and line.lstrip().startswith("#[") else "operators"
            lines += pieces_of(line, indentation(line) + 4, level)
    return "\n".join(lines)


def sources():
    for here, folders, names in os.walk(os.path.join(TOP, "crates")):
        folders[:] = sorted(it for it in folders if it not in ("out", "data", "must-fail"))
        yield from (os.path.join(here, it) for it in sorted(names) if it.endswith((".rt", ".antt")))


def main():
    names = [it for it in sys.argv[1:] if it != "--list"] or list(sources())
    changed = 0
    for name in names:
        with open(name, encoding="utf-8") as file:
            text = file.read()
        if "--list" in sys.argv[1:]:
            for number, line in enumerate(text.split("\n"), 1):
                if len(line) > LONGEST:
                    print(f"{os.path.relpath(name, TOP)}:{number}: {len(line)} columns")
            continue
        new = wrapped(text, name.rpartition(".")[2])
        if new != text:
            changed += 1
            with open(name, "w", encoding="utf-8") as file:
                file.write(new)
    if "--list" not in sys.argv[1:]:
        print(f"{changed} files changed")
    return 0


if __name__ == "__main__":
    sys.exit(main())
