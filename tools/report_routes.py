"""The parts of a report on a route: its picture, and a table of its hops."""
import lines
import picture
from html_page import Raw, code, joined, table, tag, whole
from report_words import marks_words, row_words

FOCUS = 20  # edges of a plan above which its route is drawn by itself as well


def hops_table(route):
    has_which = any(hop.which for hop in route.hops)
    head = [("hop",)] + (["plan"] if has_which else []) + ["relay", "title", "held prohibited", "what happens", "row that counts"]
    rows = []
    for hop in route.hops:
        title = code(f"{hop.title.selector} {hop.title.ssn} {hop.title.digits or '-'}")
        if hop.step:
            cells = [whole(hop.outcome()), row_words(hop.step.row)]
        else:
            cells = [joined([code(lines.write_line(hop.record)), " (the plan has another step here)"]), Raw("")]
        which = [hop.which or ""] if has_which else []
        rows.append([hop.number, *which, tag("b", hop.relay), title, whole(marks_words(hop.held)), *cells])
    return tag("div", table(head, rows, bad=[len(rows) - 1] if route.is_bad else []), class_="hops")


def route_parts(dot, plans, route):
    """The picture of a route, and its hops."""
    edges = {edge for plan in plans.values() for edge in picture.Edges(plan).rows}
    drawn = picture.draw(plans, route, rows=len(edges) <= FOCUS, words=False) if plans else ""
    said = f"The route over {', '.join(dict.fromkeys(hop.relay for hop in route.hops))}"
    return [dot.svg(drawn, said) if drawn else Raw(""), hops_table(route)]
