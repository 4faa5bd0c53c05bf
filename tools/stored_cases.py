"""Reads the stored answers of the cases, crates/worked_cases/stdout, for the tests of other tools."""
import os

TOP = os.path.dirname(os.path.dirname(os.path.abspath(__file__)))
STDOUT = os.path.join(TOP, "crates/worked_cases/stdout")


def stored_calls():
    """Each call as its mark, its words and the lines that it prints. One that begins with `?` has `usage` for the usage line."""
    found, mark, words, printed = [], "", None, []
    with open(STDOUT, encoding="utf-8", newline="\n") as file:
        for line in file.read().split("\n"):
            if words is None and line[:1] in (">", "?"):
                mark, words, printed = line[0], line[2:].split(" "), []
            elif words is not None and line.startswith("= "):
                found.append((mark, words, printed))
                words = None
            elif words is not None:
                printed.append(line)
    return found
