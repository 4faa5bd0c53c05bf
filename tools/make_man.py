#!/usr/bin/env python3
"""Makes the man page docs/sccp.1, and the tables of commands in completions/, of the texts in docs/help.

  tools/make_man.py           writes what is not as the texts have it
  tools/make_man.py --check   only reports it, with status 1

docs/help has a text for each command, and sccp.txt on the program and its launcher. Each is made of headings in capitals, with
lines that are indented by two blanks, or in a list of statuses by one. A line that is followed by lines with four blanks more is a term, which they explain. In
sccp.txt all from the first paragraph that names the launcher is on the launcher. The date is that of the newest version in
CHANGELOG.md.
"""
import os
import re
import sys
import textwrap

TOP = os.path.dirname(os.path.dirname(os.path.abspath(__file__)))
HELP = os.path.join(TOP, "docs", "help")
HEADINGS = ["NAME", "USE", "WHAT IT DOES", "WHAT IT PRINTS", "STATUS", "EXAMPLE"]
TABLE = re.compile(r"(?<=^_sccp_uses=')\n.*?(?=^'\n)", re.MULTILINE | re.DOTALL)
CALL = "./sccp "
INSTALLED = """.PP
A package has the program without the launcher.
There no call begins with two hyphens, and this page has the texts of
\\-\\-help.
.SH FILES
.TP
.I /usr/share/doc/sccp
the documents that this page names, and the files of its examples
"""


class Fault(Exception):
    """What is wrong with a text."""


def read(name):
    with open(os.path.join(TOP, name), encoding="utf-8") as file:
        return file.read()


def sections(name):
    """The lines of each section of a text, without their two blanks."""
    found = {}
    for number, line in enumerate(read(f"docs/help/{name}.txt").splitlines(), 1):
        if line in HEADINGS:
            found[line] = []
        elif found and (line.startswith(" ") or not line):
            list(found.values())[-1].append(line.removeprefix(" ").removeprefix(" "))
        else:
            raise Fault(f"docs/help/{name}.txt, line {number}: neither a heading nor an indented line: {line}")
    if list(found) != HEADINGS:
        raise Fault(f"docs/help/{name}.txt has the headings {', '.join(found)}, not {', '.join(HEADINGS)}")
    return {heading: without_end(lines) if heading != "EXAMPLE" else lines for heading, lines in found.items()}


def without_end(lines):
    while lines and not lines[-1]:
        lines = lines[:-1]
    return lines


def pieces(lines):
    """The paragraphs and terms of a section: pairs of a term, which is none for a paragraph, and a text in one line."""
    found, fresh = [], True
    for line, after in zip(lines, lines[1:] + [""]):
        if not line:
            fresh = True
        elif line.startswith("    "):
            if not found or found[-1][0] is None:
                raise Fault(f"lines without a term: {line}")
            found[-1][1].append(line.strip())
        elif after.startswith("    "):
            found.append((line, []))
            fresh = True
        elif fresh:
            found.append((None, [line]))
            fresh = False
        else:
            found[-1][1].append(line)
    return [(term, " ".join(text)) for term, text in found]


def summary(name, text):
    """What the first section says of a command, without its name."""
    name_again, _, rest = " ".join(" ".join(text["NAME"]).split()).partition(" - ")
    if name_again != name or not rest:
        raise Fault(f"docs/help/{name}.txt: NAME is not '{name} - ' and what it does")
    return rest


def uses(text):
    """The ways to call a command, as its USE lines have them, without the name of the launcher."""
    for line in text["USE"]:
        if not line.startswith(CALL):
            raise Fault(f"a line of USE does not begin with {CALL}: {line}")
    return [line[len(CALL):] for line in text["USE"]]


def commands(texts):
    """The names of the commands in the order in which sccp.txt explains them. Each has its use there."""
    terms = [term for term, _ in pieces(texts["sccp"]["WHAT IT DOES"]) if term and not term.startswith("--")]
    wanted = sorted(use for name, text in texts.items() if name != "sccp" for use in uses(text))
    if sorted(terms) != wanted:
        raise Fault(f"docs/help/sccp.txt explains other commands than there are texts of: {sorted(set(terms) ^ set(wanted))}")
    return list(dict.fromkeys(term.split()[0] for term in terms))


# ---- The man page


def escaped(text):
    """A text as a line of the page."""
    line = text.replace("\\", "\\e").replace("-", "\\-").replace("'", "\\(aq").replace("^", "\\(ha").replace("~", "\\(ti").replace("`", "\\(ga")
    return "\\&" + line if line.startswith(".") else line


def use_line(use, program="sccp"):
    """The words of a call: what is typed as it is in bold, and what takes its place in italics."""
    return " ".join([f"\\fB{program}\\fR"] + [f"\\fI{escaped(word)}\\fR" if word.isupper() or word.endswith("..") else f"\\fB{escaped(word)}\\fR"
                                        for word in use.split()])


def body(found):
    """Paragraphs and terms."""
    lines = []
    for term, text in found:
        lines += [".TP", f"\\fB{escaped(term)}\\fR"] if term else [".PP"]
        # A sentence begins a line.
        for sentence in re.split(r"(?<=[.:]) (?=[A-Z])", text):
            lines += [escaped(line) for line in textwrap.wrap(sentence, 76, break_long_words=False, break_on_hyphens=False)]
    return lines


def statuses(lines):
    """A list without empty lines between its rows."""
    found = [".PD 0"]
    for line in lines:
        row = re.fullmatch(r" *(\d+)  (\S.*)", line)
        if row:
            found += [".TP 6", f"\\fB{row[1]}\\fR", escaped(row[2])]
        else:
            raise Fault(f"no row of a list of statuses: {line}")
    return found + [".PD"]


def example(lines):
    """What is typed and printed, as it is. An empty line at its end is dropped."""
    return [".PP", ".RS 4", ".EX", *(escaped(line.replace(CALL, "sccp ")) for line in without_end(lines)), ".EE", ".RE"]


def page(texts):
    """The whole page."""
    whole = texts["sccp"]
    found = pieces(whole["WHAT IT DOES"])
    start = next((place for place, (_, text) in enumerate(found) if "launcher" in text), len(found))
    own = [use for use in uses(whole) if use.startswith("--")]
    lines = ['.\\" Made by tools/make_man.py of docs/help; changes are made there.', f".TH SCCP 1 {date()} Ladgirzu \"User Commands\"", ".nr HY 0", ".nh", ".ad l",
             ".SH NAME", f"sccp \\- {escaped(summary('sccp', whole))}", ".SH SYNOPSIS", ".nf"]
    lines += [use_line(use) for use in uses(whole) if use not in own] + [".fi"]
    lines += [".SH DESCRIPTION", *body(found[:start])[1:], ".SH COMMANDS"]
    for name in commands(texts):
        text = texts[name]
        lines += [f".SS {escaped(name)}", ".nf", *(use_line(use) for use in uses(text)), ".fi"]
        lines += body(pieces(text["WHAT IT DOES"])) + body(pieces(text["WHAT IT PRINTS"]))
        lines += [".PP", "Its statuses:", *statuses(text["STATUS"]), ".PP", "For example,", *example(text["EXAMPLE"])]
    lines += [".SH EXIT STATUS", *statuses(whole["STATUS"]), ".SH EXAMPLES", *example(whole["EXAMPLE"])[1:]]
    lines += [".SH LAUNCHER", ".nf", *(use_line(use, CALL.strip()) for use in own), ".fi"]
    lines += body(found[start:]) + body(pieces(whole["WHAT IT PRINTS"]))
    return "\n".join(lines) + "\n" + INSTALLED


def date():
    found = re.search(r"^## .* - (\d{4}-\d\d-\d\d)$", read("CHANGELOG.md"), re.MULTILINE)
    if not found:
        raise Fault("CHANGELOG.md has no heading with a date")
    return found[1]


# ---- The completions


def table(texts, described):
    """A line for each use: of the commands in their order, and of the launcher. With descriptions a colon and one follow."""
    found = {use: summary(name, texts[name]) for name in commands(texts) for use in uses(texts[name])}
    own = [use for use in uses(texts["sccp"]) if use.startswith("--")]
    terms = dict(pieces(texts["sccp"]["WHAT IT DOES"]))
    for use in own:
        # A call that another one only makes longer is in its line.
        if not any(other.startswith(use + " ") for other in own):
            found[use] = re.split(r"(?<=\S)\.(?: |$)", terms[use])[0]
    return "".join(f"{use}:{text}\n" if described else f"{use}\n" for use, text in found.items())


def with_table(name, lines):
    text = read(name)
    if len(TABLE.findall(text)) != 1:
        raise Fault(f"{name} has no table of commands")
    return TABLE.sub(lambda _: "\n" + lines, text)


def main():
    if sys.argv[1:] not in ([], ["--check"]):
        print(__doc__, file=sys.stderr)
        return 2
    texts = {name[:-4]: sections(name[:-4]) for name in sorted(os.listdir(HELP)) if name.endswith(".txt")}
    made = {"docs/sccp.1": page(texts), "completions/sccp.bash": with_table("completions/sccp.bash", table(texts, False)),
            "completions/_sccp": with_table("completions/_sccp", table(texts, True))}
    status = 0
    for name, text in made.items():
        place = os.path.join(TOP, name)
        if os.path.exists(place) and read(name) == text:
            continue
        if sys.argv[1:]:
            print(f"{name} is not what docs/help makes; tools/make_man.py makes it", file=sys.stderr)
            status = 1
        else:
            with open(place, "w", encoding="utf-8") as file:
                file.write(text)
            print(f"{name} is made")
    return status


if __name__ == "__main__":
    try:
        sys.exit(main())
    except Fault as fault:
        sys.exit(f"tools/make_man.py: {fault}")
