"""The words of a report: of verdicts, covers, rows, and of what is bad about a route and how to mend it."""
import picture
from html_page import Raw, code, counted, joined, tag

PLANS_OF_NUMBERING = {1: "E.164", 6: "E.212", 7: "E.214"}


def selector_words(selector):
    kind, *numbers = selector.split(":")
    names = {"1": ["nature of address"], "2": ["translation type"], "3": ["translation type", "numbering plan"],
             "4": ["translation type", "numbering plan", "nature of address"]}[kind]
    words = []
    for name, number in zip(names, numbers):
        known = PLANS_OF_NUMBERING.get(int(number)) if name == "numbering plan" else None
        words.append(f"{name} {number}" + (f", {known}" if known else ""))
    return "; ".join(words)


def length_words(cover):
    return f"{cover.least}" if cover.least == cover.most else f"{cover.least} to {cover.most}"


def cover_words(cover):
    digits = "digit" if cover.least == cover.most == 1 else "digits"
    begins = f" that begin with {cover.prefix}" if cover.prefix else ""
    return joined([f"Titles of {length_words(cover)} decimal {digits}{begins}, with the selector ", code(cover.selector),
                   f" ({selector_words(cover.selector)}) and the subsystem number {cover.ssn}, that reach relay ", tag("b", cover.relay),
                   " first. They may end at ", joined((code(place) for place in cover.allowed), ", ") if cover.allowed else "no place", "."])


def row_words(row):
    if row is None:
        return Raw("")
    words = [code(row.prefix) if row.prefix else "any digits"] + ([f" subsystem {row.ssn}"] if row.ssn is not None else [])
    words += [tag("span", f", row {row.place}" + (f", line {row.line}" if row.line else ""), class_="dim")]
    words += [tag("span", f" ({row.comment})", class_="dim")] if row.comment else []
    return joined(words)


def marks_words(marks):
    return ", ".join(picture.mark_words(mark) for mark in marks) or "nothing"


def no_row_words(cause):
    if cause == 4:
        return "The relay {0} is itself the destination, and does not have the subsystem.", "Give {0} the subsystem, or the row another target."
    if cause == 0:
        return "The relay {0} has no row with this selector.", "Give {0} rows with this selector, or hand it no such titles, or do not cover them."
    return ("The relay {0} has rows with this selector, but none of them is for these digits and this subsystem number.",
            "Give {0} a row for them, or hand it no such titles, or do not cover them.")


def kind_words(verdict):
    """Of a bad route: what happens, and how to mend it. {0} is the relay of the last hop."""
    kind = verdict["kind"]
    if kind == "loop":
        return (f"The title is back where it was at hop {verdict['hop']}, and goes round.",
                "Let {0} not hand it back: take the target away, or give the title a selector there whose rows do not lead back.")
    if kind == "long":
        return ("The fifteenth relay sends the title on, and it was at no relay twice in the same form.",
                "Bring the title to its place sooner: give a relay of the route a row that ends it.")
    if kind == "forbidden":
        place = f"{verdict['point']}/{verdict['ssn']}"
        return (f"The title ends at {place}, which its cover does not allow." if "cover" in verdict else
                f"The title ends at {place}, which one of its two covers does not allow.",
                f"Give the row of {{0}} another target, or allow {place} in the cover, if titles may end there.")
    if kind == "overgrown":
        return "The title would have more than 32 digits.", "Let the relays put fewer digits before it, or cover shorter titles."
    return no_row_words(verdict["cause"])


KIND_NAMES = {"loop": "Loop", "long": "Long route", "forbidden": "Forbidden place", "no row": "No row", "overgrown": "Too many digits"}


def first_line(records):
    """The line that answers a call: the first one, or the last verdict."""
    return next((record for record in records if record["form"] in ANSWERS), records[0] if records else {"form": "text", "text": ""})


ANSWERS = ("refused", "too_wide", "bad_plan", "change_refused", "change_accepted", "change_too_wide", "other_nodes", "read_fault", "too_long")


def passed(record):
    """The number of classes at which a search gave up: the one of the line, or the standard one."""
    return f"{record.get('limit', 262144):,}"


def verdict_line(record):
    """A coloured line for a verdict or an answer."""
    form, said = record["form"], picture.line_of(record)
    kinds = {"accepted": ("good", "Accepted.", "Whatever the relays hold prohibited, each covered title ends within "
                          f"{counted(record.get('bound', 0), 'hop')} at a place that its covers allow, or is blocked because all targets at some relay are closed."),
             "change_accepted": ("good", "The changeover is accepted.", "Relays may hold either plan, in any order of change, and whatever they hold prohibited: each title "
                                 f"that both plans cover goes as it should within {counted(record.get('bound', 0), 'hop')}."),
             "refused": ("bad", "Refused.", "A covered title takes the bad route below."),
             "change_refused": ("bad", "The changeover is refused.", "While some relays hold the old plan and others the new one, a title that both cover takes the bad route below."),
             "too_wide": ("warn", "No verdict: too wide.", f"The plan reaches at least {passed(record)} classes of titles. That says nothing about safety."),
             "change_too_wide": ("warn", "No answer: too wide.", f"The two plans together reach at least {passed(record)} classes of titles. That says nothing about safety."),
             "bad_plan": ("bad", "The file is no plan.", "Nodes, rows and covers are counted from 0 in the fault."),
             "other_nodes": ("warn", "Other nodes.", "The two plans do not have the same relays, points, own subsystems and concerned points, so nothing is said."),
             "read_fault": ("bad", "A file could not be read.", ""), "too_long": ("bad", "A file is too long.", "")}
    kind, head, words = kinds.get(form, ("warn", "Not understood.", "The program printed:"))
    which = {"old": "The old plan: ", "new": "The new plan: "}.get(record.get("which"), "")
    return tag("p", tag("b", which + head), " ", words, " ", code(said), class_=f"verdict {kind}")


def bad_parts(verdict, route):
    """What a bad route is and what to mend, in words."""
    what, mend = (words.format(route.hops[-1].relay) for words in kind_words(verdict))
    step = route.hops[-1].step
    at = [" The row is ", row_words(step.row), "."] if step and step.row else []
    steady = {True: " One set of marks, held by every relay, is enough for it.", False: " The relays hold different marks for it, as while a failure spreads."}
    return tag("p", tag("b", KIND_NAMES[verdict["kind"]] + ". "), what, steady.get(verdict.get("steady"), ""), " ", tag("b", "To mend it: "), mend, *at, class_="verdict bad")
