"""Parts of an HTML page that needs nothing beside it: its style, tags with their text escaped, tables, and pictures that dot draws.

A text is escaped when it is put into a tag, unless it is `Raw`, which is HTML already. No part refers to anything outside of the page.
"""
import html
import re
import subprocess

WIDE = 1100  # points of a picture above which a screen scrolls it

STYLE = """
:root { color-scheme: light dark; --text: #1f2328; --dim: #57606a; --line: #d0d7de; --page: #fff; --soft: #f6f8fa;
  --bad: #b3261e; --bad-soft: #fbeae9; --good: #1a7f37; --good-soft: #e9f6ec; --warn: #9a6700; --warn-soft: #fff8e5; --note: #0550ae; }
@media (prefers-color-scheme: dark) { :root { --text: #e6edf3; --dim: #9da7b3; --line: #3d444d; --page: #0d1117; --soft: #161b22;
  --bad: #ff7b72; --bad-soft: #3c1618; --good: #56d364; --good-soft: #12301a; --warn: #e3b341; --warn-soft: #332701; --note: #79c0ff; } }
* { box-sizing: border-box; }
body { font: 16px/1.5 system-ui, -apple-system, "Segoe UI", Roboto, "DejaVu Sans", Arial, sans-serif; color: var(--text);
  background: var(--page); max-width: 66rem; margin: 0 auto; padding: 1rem; }
h1 { font-size: 1.5em; margin: .5rem 0; overflow-wrap: anywhere; }
h2 { font-size: 1.2em; margin: 2rem 0 .5rem; border-bottom: 1px solid var(--line); padding-bottom: .2rem; }
h3 { font-size: 1em; margin: 1.2rem 0 .3rem; }
p { margin: .5rem 0; max-width: 46rem; }
.verdict { padding: .6rem 1rem; border-left: .4rem solid var(--dim); background: var(--soft); max-width: none; }
.verdict.bad { border-color: var(--bad); background: var(--bad-soft); }
.verdict.good { border-color: var(--good); background: var(--good-soft); }
.verdict.warn { border-color: var(--warn); background: var(--warn-soft); }
code, .code { font: .875em/1.5 ui-monospace, "DejaVu Sans Mono", Menlo, Consolas, monospace; overflow-wrap: anywhere; }
td code, .nb { white-space: nowrap; }
.hops td:last-child { min-width: 13rem; }
td code.long { white-space: normal; }
.scroll { overflow-x: auto; margin: .6rem 0; }
table { border-collapse: collapse; font-size: .9em; }
td, th { border-bottom: 1px solid var(--line); padding: .25rem .9rem .25rem 0; text-align: left; vertical-align: top; }
th { color: var(--dim); font-weight: 600; }
td.n, th.n { text-align: right; font-variant-numeric: tabular-nums; }
tr.bad td { background: var(--bad-soft); }
summary { cursor: pointer; }
details { margin: .3rem 0; }
.dim { color: var(--dim); }
.picture svg { height: auto; max-width: 100%; }
.picture.wide svg { max-width: none; }
.picture .graph > polygon { fill: none; stroke: none; }
.picture text { fill: var(--text); }
.picture .relay path { fill: var(--soft); stroke: var(--dim); }
.picture .relay.bad path { fill: var(--bad-soft); stroke: var(--bad); }
.picture .relay.good path { fill: var(--good-soft); stroke: var(--good); }
.picture .place ellipse { fill: var(--page); stroke: var(--dim); }
.picture .place.closed ellipse { fill: var(--soft); }
.picture .place.closed text, .picture .rows text { fill: var(--dim); }
.picture .rows path, .picture .rows polygon { stroke: var(--dim); }
.picture .rows polygon { fill: var(--dim); }
.picture .title path, .picture .title polyline, .picture .node.title polygon { stroke: var(--note); }
.picture .node.title polygon { fill: none; }
.picture .edge.title polygon { fill: var(--note); stroke: var(--note); }
.picture .title text { fill: var(--note); }
.picture .hop.bad path, .picture .hop.bad polygon, .picture .stop.bad polygon { stroke: var(--bad); }
.picture .hop.bad polygon, .picture .hop.bad text, .picture .stop.bad text { fill: var(--bad); }
.picture .hop.good path, .picture .hop.good polygon, .picture .stop.good polygon { stroke: var(--good); }
.picture .hop.good polygon, .picture .hop.good text, .picture .stop.good text { fill: var(--good); }
.picture .stop polygon { fill: none !important; }
.strip svg { width: 100%; height: 9rem; display: block; }
.strip .message { fill: var(--line); } .strip .returned { fill: var(--bad); }
.strip .event { stroke: var(--text); } .strip .plan { stroke: var(--note); } .strip .axis { stroke: var(--dim); }
.ends { display: flex; justify-content: space-between; font-size: .85rem; color: var(--dim); }
.key span::before { content: ""; display: inline-block; width: .8em; height: .8em; margin: 0 .3em 0 .8em; background: var(--line); }
.key .k-returned::before { background: var(--bad); }
.key .k-event::before { width: 2px; background: var(--text); }
.key .k-plan::before { width: 2px; background: var(--note); }
@media (max-width: 45rem) { body { padding: .7rem; } td, th { white-space: nowrap; } td:last-child { white-space: normal; min-width: 12rem; } .picture svg { max-width: none; } h2 { margin-top: 1.5rem; } }
@media print { :root { color-scheme: light; } body { max-width: none; font-size: 11px; padding: 0; } .scroll { overflow: visible; }
  .picture svg, .picture.wide svg { max-width: 100%; max-height: 24cm; } .picture, tr, .verdict { break-inside: avoid; }
  h2, h3 { break-after: avoid; } .verdict, tr.bad td, .strip { print-color-adjust: exact; -webkit-print-color-adjust: exact; } }
"""


class Raw(str):
    """Text that is HTML already."""


def text(value):
    return value if isinstance(value, Raw) else Raw(html.escape(str(value)))


def tag(name, *inner, **given):
    shown = "".join(f' {key.rstrip("_")}="{html.escape(str(value))}"' for key, value in given.items() if value)
    return Raw(f"<{name}{shown}>{''.join(map(text, inner))}</{name}>")


def whole(value):
    """A text in which points and places do not break over two lines."""
    return Raw(re.sub(r"\d+-\d+-\d+(/\d+)?", lambda found: f'<span class="nb">{found[0]}</span>', text(value)))


def joined(parts, between=""):
    return Raw(between.join(map(text, parts)))


def code(value):
    return tag("code", value)


def table(head, rows, bad=()):
    """A table. A column whose head is a number of something, in a tuple, is aligned to the right."""
    numbers = [isinstance(column, tuple) for column in head]
    cells = [tag("th", column[0] if number else column, class_="n" if number else None) for column, number in zip(head, numbers)]
    body = [tag("tr", cells and joined(tag("td", cell, class_="n" if number else None) for cell, number in zip(row, numbers)),
                class_="bad" if place in bad else None) for place, row in enumerate(rows)]
    return tag("div", tag("table", tag("thead", tag("tr", *cells)), tag("tbody", *body)), class_="scroll")


def section(title, *inner):
    return joined([tag("h2", title), *inner], "\n")


def counted(count, one, many=None):
    return f"{count:,} {one if count == 1 else many or one + 's'}"


class Dot:
    """Draws pictures, if there is a dot."""

    def __init__(self, path):
        self.path = path

    def svg(self, graph, said):
        """A picture as a part of the page, or nothing."""
        if not self.path:
            return Raw("")
        try:
            done = subprocess.run([self.path, "-Tsvg"], input=graph, capture_output=True, text=True, timeout=60, check=True)
        except (OSError, subprocess.SubprocessError):
            return Raw("")
        found = re.search(r"<svg.*</svg>", done.stdout, re.S)
        if not found:
            return Raw("")
        drawn = re.sub(r"<!--.*?-->\n?", "", found[0], flags=re.S)
        drawn = re.sub(r' (?:id|xmlns|xmlns:xlink|xml:space)="[^"]*"', "", drawn)
        drawn = drawn.replace("<svg", f'<svg role="img" aria-label="{html.escape(said)}"', 1)
        width = re.search(r'width="(\d+)pt"', drawn)
        wide = " wide" if width and int(width[1]) > WIDE else ""
        return Raw(f'<div class="scroll picture{wide}">{drawn}</div>')


def document(title, body):
    """The whole page."""
    head = joined([Raw('<meta charset="utf-8">'), Raw('<meta name="viewport" content="width=device-width, initial-scale=1">'), tag("title", title), tag("style", Raw(STYLE))], "\n")
    return f'<!DOCTYPE html>\n<html lang="en">\n<head>\n{head}\n</head>\n<body>\n{body}\n</body>\n</html>\n'
