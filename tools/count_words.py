#!/usr/bin/env python3
"""Counts the words that the house avoids, in documents, scripts and comments.

The columns are the documents (README.md and docs/), the scripts (tools/, bench/, .ci/ and the launcher: comments and docstrings),
and the crates (comments). A word is counted whatever it means at its place: that a `where` names a place and not a
condition is for a reader to see. Of the documents it also counts sentences: their number, their average length, those
above 45 words, and headings that are clauses, as a few finite verbs show them. A piece of code in a line counts as one word.
Fenced blocks are not counted. A full stop, a question mark, the end of a paragraph, of an item of a list or of a cell of a
table ends a sentence. The average is that of paragraphs and items, without the cells.

Run it from anywhere: tools/count_words.py [--list] [FILE ..]. With --list it prints each find with its file and line; with
names it counts only these files. The status is 0.
"""
import os
import re
import sys
import tokenize

TOP = os.path.dirname(os.path.dirname(os.path.abspath(__file__)))
LONGEST = 45

WORDS = [
    ("where", r"\bwhere\b"),
    ("behind", r"\bbehind\b"),
    ("tell, tells, told", r"\b(?:tell|tells|told)\b"),
    ("come, comes", r"\bcomes?\b"),
    ("stand, stands", r"\bstands?\b"),
    ("so many", r"\bso many\b"),
    ("hang(s) on", r"\bhangs? on\b"),
    ("dear", r"\bdear(?:er|est)?\b"),
    ("sought", r"\bsought\b"),
    ("alone, else at an end", r"\b(?:alone|else)(?=[.:;!?](?:\s|$))"),
    ("contractions", r"\b\w+n't\b|\b\w+'(?:re|ve|ll|m)\b|\b(?:it|that|there|here|what|who|let|how|where|he|she)'s\b"),
]
WORDS = [(name, re.compile(pattern, re.I)) for name, pattern in WORDS]

VERBS = re.compile(
    r"\b(?:is|are|was|were|am|be|do|does|did|has|have|had|can|may|must|will|would|should|go|goes|come|comes|stand|stands|say|says"
    r"|see|sees|give|gives|take|takes|make|makes|leave|leaves|become|becomes|becoming|tell|tells|find|finds|keep|keeps|get|gets"
    r"|write|writes|print|prints|mean|means|costs|holds|works|happens|wants|fails|looks)\b", re.I)


def below(folder, wanted):
    for here, folders, names in os.walk(os.path.join(TOP, folder)):
        folders[:] = sorted(f for f in folders if f not in ("out", "__pycache__", "data"))
        for name in sorted(names):
            if wanted(name):
                yield os.path.join(here, name)


def documents():
    return [os.path.join(TOP, "README.md"), *below("docs", lambda name: name.endswith(".md"))]


def scripts():
    return [os.path.join(TOP, "sccp"), *below("tools", lambda name: True), *below("bench", lambda name: True), *below(".ci", lambda name: True)]


def sources():
    return list(below("crates", lambda name: name.endswith((".rt", ".antt"))))


def read(path):
    with open(path, encoding="utf-8") as file:
        return file.read()


def comment_lines(path):
    """The comments of a source or a script, each line with its number."""
    text = read(path)
    if path.endswith((".rt", ".antt")):
        mark = r"--+\s?(.*)" if path.endswith(".antt") else r"//[/!]?\s?(.*)"
        for number, line in enumerate(text.splitlines(), 1):
            found = re.match(r"\s*" + mark, line)
            if found:
                yield number, found.group(1)
    elif path.endswith(".py") or text.startswith("#!/usr/bin/env python3"):
        yield from python_comments(path, text)
    else:
        for number, line in enumerate(text.splitlines(), 1):
            found = re.match(r"\s*#(?!!)\s?(.*)", line)
            if found:
                yield number, found.group(1)


def python_comments(path, text):
    """Comments and docstrings."""
    begins = True
    with open(path, "rb") as file:
        for token in tokenize.tokenize(file.readline):
            if token.type == tokenize.COMMENT and not token.string.startswith("#!"):
                yield token.start[0], token.string.lstrip("# ")
            elif token.type == tokenize.STRING and begins:
                yield from enumerate(token.string.splitlines(), token.start[0])
            begins = token.type in (tokenize.NEWLINE, tokenize.INDENT, tokenize.DEDENT, tokenize.ENCODING) or (
                begins and token.type in (tokenize.NL, tokenize.COMMENT))


def prose_lines(path):
    """The lines of a document outside of fenced blocks; code in a line is one word."""
    fenced = False
    for number, line in enumerate(read(path).splitlines(), 1):
        if line.lstrip().startswith("```"):
            fenced = not fenced
            yield number, ""
        elif not fenced:
            yield number, re.sub(r"(`+)[^`].*?\1", "code", line)


def pieces(path):
    """Paragraphs, items and cells, each with the number of its first line and whether it is a cell; no headings."""
    first, held = 0, []

    def done():
        nonlocal held
        if held:
            yield first, " ".join(held), False
        held = []

    for number, line in prose_lines(path):
        bare = line.strip()
        if not bare or bare.startswith("#"):
            yield from done()
        elif bare.startswith("|"):
            yield from done()
            for cell in bare.strip("|").split("|"):
                if not re.fullmatch(r"[\s:-]*", cell):
                    yield number, cell.strip(), True
        elif re.match(r"(?:[-*]|\d+\.)\s", bare):
            yield from done()
            first, held = number, [re.sub(r"^(?:[-*]|\d+\.)\s+", "", bare)]
        else:
            if not held:
                first = number
            held.append(bare)
    yield from done()


def sentences(path):
    for number, piece, is_cell in pieces(path):
        piece = re.sub(r"\]\([^)]*\)", "]", piece)
        for sentence in re.split(r"(?<=[.!?])[)\"*_]*\s+", piece):
            count = len(re.findall(r"[\w'\-/.]*\w[\w'\-/.]*", sentence))
            if count:
                yield number, count, sentence, is_cell


def headings(path):
    for number, line in prose_lines(path):
        if re.match(r"#+ ", line):
            yield number, line.lstrip("# ").strip()


def finds(paths, lines):
    """Of each word, the file, line and text of each find."""
    found = {name: [] for name, _ in WORDS}
    for path in paths:
        for number, line in lines(path):
            for name, pattern in WORDS:
                for _ in pattern.finditer(line):
                    found[name].append((path, number, line.strip()))
    return found


def shown(kind, path, number, text):
    print(f"{kind}: {os.path.relpath(path, TOP)}:{number}: {text[:160]}")


def main():
    words = sys.argv[1:]
    listed = "--list" in words
    names = [os.path.abspath(word) for word in words if word != "--list"]

    def chosen(paths):
        return [path for path in paths if os.path.isfile(path) and (not names or path in names)]

    texts = chosen(documents())
    columns = [finds(texts, prose_lines), finds(chosen(scripts()), comment_lines), finds(chosen(sources()), comment_lines)]
    spans = [(path, *sentence) for path in texts for sentence in sentences(path)]
    long = [span for span in spans if span[2] > LONGEST]
    clauses = [(path, *heading) for path in texts for heading in headings(path) if VERBS.search(heading[1])]
    if listed:
        for column in columns:
            for name, found in column.items():
                for path, number, line in found:
                    shown(name, path, number, line)
        for path, number, count, sentence, _ in long:
            shown(f"{count} words", path, number, sentence)
        for path, number, heading in clauses:
            shown("clause as heading", path, number, heading)
    print("| Words | Documents | Scripts | Crates |")
    print("|---|---|---|---|")
    for name, _ in WORDS:
        print(f"| {name} | " + " | ".join(str(len(column[name])) for column in columns) + " |")
    counts = [span[2] for span in spans if not span[4]]
    average = sum(counts) / len(counts) if counts else 0
    print(f"| sentences | {len(counts)} | | |")
    print(f"| average of their words | {average:.1f} | | |")
    print(f"| above {LONGEST} words | {len(long)} | | |")
    print(f"| headings that are clauses | {len(clauses)} | | |")
    print(f"| octets | {sum(os.path.getsize(path) for path in texts)} | | |")


if __name__ == "__main__":
    sys.exit(main())
