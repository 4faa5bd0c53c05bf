"""Reads the lines that the program prints, for other tools. One of them is as_json.py, which ./sccp --json runs.

  read_line(line, command=None)     the record of one line, with or without its line feed
  read_lines(lines, command=None)   the record of each line, in order; any number of lines in constant memory
  read_groups(lines, command=None)  the same, but lines that belong to the one before them are in its record (see below)
  write_line(record)                the line of a record, without a line feed; of one with lists by read_groups its own line
  command_of(words)                 the command of the words of a call: the first one, or the one after wide
  mark_text(mark)                   the text of a mark, as point:2-0-1
  FORMS                             the forms by their names
  RETURN_CAUSES, REFUSAL_CAUSES, ERROR_CAUSES    the texts of causes by their numbers

A record is a dict. Its "form" is the name of a form in FORMS, and its other keys are the fields of that form, each of one type.
Every line that the program prints is read by exactly one form of its command, which command_of gives, and can be written again from
the fields. Without a command that is known all forms are tried; a line such as `5 undecodable short` is then taken
for one of a replay, not of `cuts`. A line of no form gives {"form": "text", "text": LINE}.

  number      a whole number, as an int
  text        the name of a relay or of a file, a point code such as "2-0-1", a selector such as "4:0:1:4", or words
  octets      a text of hexadecimal digits in upper case, two for each octet, or "" if there are none; digits of a title likewise
  list        of names (via, nodes), of marks (held, marks), of numbers (place.rows), or of texts (shapes)
  mark        {"kind": "point", "point": "2-0-1"}, or the same with "sccp"; one of kind "subsystem" also has "ssn": 6
  yes or no   a bool; what is absent (`-`) is None

Fields in [] are only there if the line has them. A.B is the key B of the dict A.

  form               fields                                       lines, and the commands that print them
  usage              shapes                                       every command
  too_long           [limit]                                      every command that reads a file
  read_fault                                                      the same
  bad_plan           [which] FAULT                                every command that reads a plan
  bad_trace_line     line fault                                   show, import, conform, replay
  unknown_node       [line]                                       route, connect, send-on; with a line: replay
  accepted           [which] bound                                verify, margin; with which ("old" or "new"): change, order
  refused            [which] KIND cover steady                    verify, margin, replay, load, connect; with which: change, order
  too_wide           [which] [limit]                              the same, and unused
  cover_accepted     cover bound                                  covers
  cover_refused      KIND cover steady                            covers
  cover_too_wide     cover [points] [limit]                       covers; with points: margin
  covers_accepted    bound                                        covers
  covers_counted     accepted refused too_wide                    covers: how many, if not all are accepted
  unused_relay       node                                         unused
  unused_row         node row selector ssn prefix                 unused: ssn is None if the row has none
  unused_target      node row target                              unused
  unused_cover       cover within                                 unused: within is the other cover
  gap                cover cause node title                       unused
  unused_counted     relays rows targets covers gaps              unused: how many
  cover_stopped      cover points                                 margin: points is how many
  cover_survives     cover points                                 margin
  cover_survives_any cover                                        margin
  covers_survive     points                                       margin: if each cover survives them
  margins_counted    least stopped too_wide                       margin: otherwise
  hop                [which] node title held step ..              verify, covers, margin, route, replay, load, connect, change, order
  change_accepted    bound                                        change
  change_refused     KIND old_cover new_cover                     change
  change_too_wide    [limit]                                      change
  other_nodes                                                     change, order
  order              steps                                        order: how many
  step               number nodes bound                           order: nodes are its relays
  no_order                                                        order
  stuck              node KIND old_cover new_cover                order
  undecided                                                       order
  plan_accepted      [line] plan file bound                       replay: the first plan (no line), and later ones
  plan_refused       line file KIND cover steady                  replay: a later plan; so are the next three
  plan_too_wide      line file [limit]
  plan_bad           line file FAULT
  plan_other_nodes   line file
  journey            line plan via end ..                         replay: a message that was routed
  sends              line to octets                               replay: a message that is sent because of the line
  event              line event node [point] [ssn]                replay: event is pause, resume, no-sccp, up, down or tick
  management         [line] [status] [point] [ssn]                replay; without any field: send-on
  connection         [line] type                                  replay; without a line: send-on
  undecodable        [line] WHY                                   show-hex, show, send-on; with a line: replay
  end                lines                                        replay
  count              of number                                    load: of is messages, ended, returned or translations
  leaves             to octets                                    send-on
  not_split          why                                          send-on
  local              ssn                                          send-on
  returned           cause marks                                  send-on
  opened             via to                                       connect
  forth, back        octets                                       connect
  sections           number                                       connect
  connection_refused cause text                                   connect
  unanswered, unsettled, end_is_node                              connect
  trace_message      node origin octets                           import, capture
  captured           line [packet] from to VERDICT                conform: a message; from and to are relays, or points
  arrival_unanswered line node                                    conform
  line_skipped       line why [number]                            conform: a line without a message
  relay_counted      node arrived sent plain failing unexplained unanswered others markings, conform: how many
  target_counted     node row target taken                        conform: how many messages went to it
  judged             messages unexplained                         conform: how many
  skipped            why [number]                                 import
  packet_skipped     packet [chunk] why [number] [layer] [octets] capture, conform: a packet or a chunk that gives no message
  capture_ended      octet why                                    capture, conform: the file is cut off or damaged there
  capture_counted    packets messages left repeated others faults capture, conform
  cut                count ok [WHY]                               cuts: ok is a bool
  message            type                                         show-hex, show, as all that follow but empty
  class              class options
  source, destination, send, receive, credit, hop_counter         each with one field, number
  more, canonical    yes
  return_cause, refusal_cause, error_cause    cause text          text is None for a cause without one
  release_cause, reset_cause                  cause
  called, calling    route point ssn title national               route is "ssn" or "title"; point, ssn and title may be None
  data               octets
  parameter          name octets
  empty                                                           show: the line after each message; import: an empty line

KIND is kind, and for "loop" hop, for "forbidden" point and ssn, for "no row" cause; "long" and "overgrown" have no more.
FAULT is fault, with place.node, place.row, place.cover and place.key as far as the place has them. "rule" also has rule: "twice" with
place.rows, "strip too long" or "kind two" with place.row. "limit" has of and [limit], and "not toml" and "no cover" have no more. limit is the number that was passed, if it is not the standard
one, as it is after wide.
VERDICT is verdict and its fields: "arrived" and "other" have type; "own" type and ssn; "explained" type, by (the line of the arrival) and
ways; "unexplained" type and either by and why, or again (the line that was explained before), or why "no arrival"; "management"
status, and point and ssn unless that is None; "connection" type; "undecodable" WHY. A way has row and target, or cause, or all three,
with held, a list of lists of marks, and free, a list of marks.
WHY is fault, and for "bad pointer" and "bad part" number, for "address" number and why, for "field" name.

title of a hop or a gap is title.selector, title.ssn and title.digits. step is "sent" with next and target, "ended" with point, ssn and
target, "blocked" or "no row" with cause, or "overgrown". title of an address is None, or title.selector and title.digits, or
title.raw (its kind) and title.octets.

end of a journey is "ended" with point, ssn and octets; "local" with ssn, data and [segment]; "returned" with cause, marks and
service; or "cut". segment is "more", "full", "whole" with whole, or "dropped" with reason. service is None, or has service.octets and
service.way: "sent" with service.to, "closed" with service.mark, or "via" with service.via and service.end. That is "ended" with
service.point, service.ssn and service.arrived; "local" with service.ssn; "lost" with service.cause; "management"; "cut"; or None.

read_groups puts hops into the list "hops" of the record before them, if that is accepted, refused, cover_refused, cover_stopped,
change_accepted, change_refused, stuck or plan_refused; other hops, as those of `route`, become {"form": "route", "hops": [..]}. The lines of a
message become the list "parts" of the record message. The records sends go into the list "sends" of the record before them, if it is of the
same line of the trace.
"""
import json
import re

# ---- The texts of causes (Q.713 sections 3.12, 3.14 and 3.15)

RETURN_CAUSES = {
    0: "no translation for an address of such nature", 1: "no translation for this specific address", 2: "subsystem congestion",
    3: "subsystem failure", 4: "unequipped user", 5: "MTP failure", 6: "network congestion", 7: "unqualified",
    8: "error in message transport", 9: "error in local processing", 10: "destination cannot perform reassembly", 11: "SCCP failure",
    12: "hop counter violation", 13: "segmentation not supported", 14: "segmentation failure",
}
REFUSAL_CAUSES = {
    4: "destination address unknown", 5: "destination inaccessible", 6: "QoS not available non-transient",
    7: "QoS not available transient", 10: "subsystem failure", 16: "hop counter violation", 17: "SCCP failure",
    18: "no translation for an address of such nature", 19: "unequipped user",
}
ERROR_CAUSES = {0: "unassigned destination reference", 1: "inconsistent source reference"}

# ---- The types of fields: what a field looks like, how it is read, and how it is written

WHOLE = "(?:0|[1-9][0-9]{0,19})"
CODE = f"{WHOLE}-(?:[0-9]|[1-9][0-9]|1[0-9][0-9]|2[0-4][0-9]|25[0-5])-[0-7]"
NODE = "[A-Za-z0-9_-]{1,16}"
MARK = f"(?:(?:point|sccp):{CODE}|subsystem:{CODE}/{WHOLE})"
SHAPE = r"[a-z][a-z-]*(?: [A-Z]+)*(?: \[[a-z]+\])?"


def read_mark(text):
    kind, _, place = text.partition(":")
    point, _, ssn = place.partition("/")
    return {"kind": kind, "point": point, "ssn": int(ssn)} if ssn else {"kind": kind, "point": point}


def mark_text(mark):
    return f"{mark['kind']}:{mark['point']}" + (f"/{mark['ssn']}" if "ssn" in mark else "")


def as_it_is(text):
    return text


class Type:
    """A type of fields: the expression of their texts, and the functions that make a value of a text and a text of a value."""

    def __init__(self, pattern, read=as_it_is, write=as_it_is):
        self.pattern, self.read, self.write = pattern, read, write


def listed(mark, read=as_it_is, write=as_it_is):
    """The functions of a list with this mark between its members."""
    return lambda text: [read(member) for member in text.split(mark)], lambda values: mark.join(write(value) for value in values)


def or_else(absent, value, read=as_it_is, write=as_it_is):
    """The functions of a value with a text of its own."""
    return lambda text: value if text == absent else read(text), lambda given: absent if given == value else write(given)


def one_of(texts):
    """One of these texts, which have commas between them."""
    return Type(f"(?:{texts.replace(', ', '|')})")


def without(causes):
    """A number that has no text in this table."""
    return Type(f"(?!(?:{'|'.join(map(str, causes))})\\b){WHOLE}", int, str)


MARK_LIST = f"{MARK}(?:,{MARK})*"
MARK_LISTS = f"{MARK}(?:\\|{MARK})*(?:,{MARK}(?:\\|{MARK})*)*"
WAY = re.compile(f"(?:return (?P<cause>{WHOLE}))? ?(?:target (?P<row>{WHOLE})/(?P<target>{WHOLE}))? "
                 f"held (?P<held>none|{MARK_LISTS}) free (?P<free>none|{MARK_LIST})")
TARGET = f"target {WHOLE}/{WHOLE}"
ONE_WAY = f"(?:return {WHOLE}(?: {TARGET})?|{TARGET}) held (?:none|{MARK_LISTS}) free (?:none|{MARK_LIST})"


def read_way(text):
    found = WAY.fullmatch(text)
    way = {name: int(found[name]) for name in ("cause", "row", "target") if found[name]}
    held, free = ([] if found[name] == "none" else found[name].split(",") for name in ("held", "free"))
    way["held"] = [[read_mark(mark) for mark in marks.split("|")] for marks in held]
    way["free"] = [read_mark(mark) for mark in free]
    return way


def write_way(way):
    words = [f"return {way['cause']}"] if "cause" in way else []
    words += [f"target {way['row']}/{way['target']}"] if "row" in way else []
    held = ",".join("|".join(mark_text(mark) for mark in marks) for marks in way["held"]) or "none"
    free = ",".join(mark_text(mark) for mark in way["free"]) or "none"
    return " ".join([*words, "held", held, "free", free])


CONNECTION_ORIENTED = "CR, CC, CREF, RLSD, RLC, DT1, DT2, AK, ED, EA, RSR, RSC, ERR, IT"
CONNECTIONLESS = "UDT, UDTS, XUDT, XUDTS, LUDT, LUDTS"
NUMBER = Type(WHOLE, int, str)
NAME = Type(NODE)
POINT = Type(CODE)
OCTETS = Type("(?:-|(?:[0-9A-F]{2})+)", *or_else("-", ""))
DIGITS = Type("(?:-|[0-9A-F]+)", *or_else("-", ""))
MARKS = Type(f"(?:none|{MARK}(?:,{MARK})*)", *or_else("none", [], *listed(",", read_mark, mark_text)))
NAMES = Type(f"{NODE}(?:,{NODE})*", *listed(","))
SELECTOR = Type(f"(?:[12]:{WHOLE}|3:{WHOLE}:{WHOLE}|4:{WHOLE}:{WHOLE}:{WHOLE})")

# The types of fields by their whole names or by the last part of them. A field that is not named here is a number.
TYPES = {
    "node": NAME, "next": NAME, "place.node": NUMBER,
    "point": POINT, "to": POINT, "origin": POINT,
    "octets": OCTETS, "data": OCTETS, "whole": OCTETS, "arrived": OCTETS, "digits": DIGITS, "prefix": DIGITS,
    "held": MARKS, "marks": MARKS, "mark": Type(MARK, read_mark, mark_text), "via": NAMES, "nodes": NAMES,
    "selector": SELECTOR, "ways": Type(f"{ONE_WAY}(?: or {ONE_WAY})*", *listed(" or ", read_way, write_way)),
    "file": Type("[!-~]{1,255}"),
    "name": Type("[0-9A-F]{2}"),
    "rows": Type(f"{WHOLE} {WHOLE}", *listed(" ", int, str)),
    "shapes": Type(f"{SHAPE}(?: \\| {SHAPE})*", *listed(" | ")),
    # Types that the patterns name.
    "number": NUMBER,
    "of_connection": one_of(CONNECTION_ORIENTED), "of_unit": one_of(CONNECTIONLESS),
    "test": one_of("type, not asked, class, cause, calling, parameters, stays, hops, point, national, routing, ssn, title, digits, "
                   "called point, closed"),
    "status_word": one_of("ssa, ssp, sst, sor, sog, ssc"),
    "key_word": one_of("version, node, cover, name, point, subsystems, concerned, row, selector, prefix, first, backup, targets, ssn, "
                       "least, most, allowed, unknown key"),
    "placed_fault": one_of("wrong shape, bad value, repeated, unknown node, relay to self, bad cover"),
    "line_fault": one_of("too many, too long, not a line"),
    "layer": one_of("ethernet, cooked, loopback, ip, ipv6, sctp, m2pa, mtp2, mtp3, sccp"),
    "address_fault": one_of("empty, short, extra, odd without digits"),
    "return_cause": without(RETURN_CAUSES), "refusal_cause": without(REFUSAL_CAUSES), "error_cause": without(ERROR_CAUSES),
}

# ---- The forms
#
# In a pattern {A.B} is a field of the type of its name, and {A.B:TYPE} one of that type. {A.B=WORDS} is a field with these words, and
# {A.B:=VALUE:WORDS} one with a value for which these words are printed. (P|Q) is P or Q, and <NAME> is what NAME is below.

NAMED = {
    "WHICH": "({which=old} |{which=new} )",
    "KIND": "({kind=loop} {hop}|{kind=long}|{kind=overgrown}|{kind=forbidden} {point}/{ssn}|{kind=no row} {cause})",
    "STEADY": "steady ({steady:=true:yes}|{steady:=false:no})",
    "PLACE": "(|node {place.node} (|row {place.row} )|cover {place.cover} ){place.key:key_word}",
    "RULE": "({rule=twice} {place.rows}|{rule=strip too long} {place.row}|{rule=kind two} {place.row})",
    "LIMIT": "{fault=limit} ({of=nodes}|{of=rows}|{of=covers})<PASSED>",
    "PASSED": "(| {limit})",
    "BAD_PLAN": "bad plan ({fault=not toml}|{fault=no cover}|<LIMIT>|{fault:placed_fault} <PLACE>|{fault=rule} node {place.node} <RULE>)",
    "NUMBERED": "{fault=bad pointer} {number}|{fault=bad part} {number}|{fault=address} {number} {why:address_fault}",
    "WHY": "({fault=unknown type}|{fault=short}|{fault=bad optional}|<NUMBERED>|{fault=field} {name})",
    "SENT": "{step=sent} {next} target {target}|{step=ended} {point}/{ssn} target {target}",
    "STEP": "(<SENT>|{step=blocked} {cause}|{step=no row} {cause}|{step=overgrown})",
    "TITLE": "{title.selector} {title.ssn} {title.digits}",
    "HOP": "at {node} <TITLE> held {held} <STEP>",
    "SEGMENT": "(| segment ({segment=more}|{segment=full}|{segment=whole} {whole}|{segment=dropped} {reason}))",
    "LOST": "{service.end=lost} {service.cause}|{service.end=management}|{service.end=cut}",
    "CAME": "{service.end=ended} {service.point}/{service.ssn} {service.arrived}|{service.end=local} {service.ssn}",
    "BACK": "({service.end:=null:}| (<CAME>|<LOST>))",
    "WAY": "({service.way=sent} {service.to}|{service.way=closed} {service.mark}|{service.way=via} {service.via}<BACK>)",
    "SERVICE": "({service:=null:no service}|service {service.octets} <WAY>)",
    "RETURNED": "{end=returned} {cause} marks {marks} <SERVICE>",
    "END": "({end=ended} {point}/{ssn} {octets}|{end=local} {ssn} data {data}<SEGMENT>|<RETURNED>|{end=cut})",
    "STATUS": "({status:=null:unknown}|{status:status_word} {point}/{ssn})",
    "DASHED": "point ({point:=null:-}|{point}) ssn ({ssn:=null:-}|{ssn})",
    "RAW": "title raw:{title.raw} digits {title.octets}",
    "OWN_TITLE": "({title:=null:title - digits -}|title {title.selector} digits {title.digits}|<RAW>)",
    "PARTY": "route ({route=ssn}|{route=title}) <DASHED> <OWN_TITLE>({national:=false:}|{national:=true: national})",
    "UNIT": "{type:of_unit}",
    "UNEXPLAINED": "{verdict=unexplained} (by {by} {why:test}|again {again}|{why=no arrival})",
    "ON_UNIT": "({verdict:=\"arrived\":}| {verdict=other}| {verdict=own} {ssn}| {verdict=explained} by {by} {ways}| <UNEXPLAINED>)",
    "VERDICT": "(<UNIT><ON_UNIT>|{verdict=management} <STATUS>|{verdict=connection} {type:of_connection}|{verdict=undecodable} <WHY>)",
    "SENT_COUNTS": "sent {sent} plain {plain} failing {failing} unexplained {unexplained}",
    "YES": "({yes:=true:yes}|{yes:=false:no})",
    "LEFT_OUT": "({why=refused} {number}|{why=service} {number}|{why=point}|{why=unknown node}|{why=empty}|{why=long})",
    "UNREAD": "({why=short} {layer}|{why=bad} {layer})",
    "ENDED": "({why=cut}|{why=no capture}|{why=version}|{why=order}|{why=length}|{why=end}|{why=interfaces})",
}


def either(name, text):
    """The pattern of a field that is one of these words."""
    return "(" + "|".join(f"{{{name}={word}}}" for word in text.split(", ")) + ")"


def causes(table, other):
    """The pattern of a cause: its number, and its text if the table has one."""
    with_texts = [f"{{cause:={number}:{number}}} {{text={text}}}" for number, text in table.items()]
    return f"({'|'.join(with_texts)}|{{cause:{other}}}{{text:=null:}})"


EVERY = "show-hex show cuts route verify covers unused margin change order replay load send-on connect import conform capture wide"
FILES = "show route verify covers unused margin change order replay send-on connect import conform capture"
COMMANDS = frozenset(EVERY.split())
JUDGED = "verify margin replay load connect"
OF_TWO = "change order"
SHOWN = "show-hex show"

# Each form: its name, and each of its patterns after the commands that print such lines.
TABLE = [
    ("usage", (EVERY, "usage: {shapes}")),
    ("too_long", (FILES, "too long<PASSED>")),
    ("read_fault", (FILES, "read fault")),
    ("bad_plan",
     ("route verify covers unused margin replay send-on connect import conform capture", "<BAD_PLAN>"), (OF_TWO, "<WHICH><BAD_PLAN>")),
    ("bad_trace_line", ("show import conform replay", "bad trace line {line} {fault:line_fault}")),
    ("unknown_node", ("route connect send-on", "unknown node"), ("replay", "{line} unknown node")),
    ("accepted", ("verify margin", "accepted bound {bound}"), (OF_TWO, "<WHICH>accepted bound {bound}")),
    ("refused", (JUDGED, "refused <KIND> cover {cover} <STEADY>"), (OF_TWO, "<WHICH>refused <KIND> cover {cover} <STEADY>")),
    ("too_wide", (f"{JUDGED} unused", "too wide<PASSED>"), (OF_TWO, "<WHICH>too wide<PASSED>")),
    ("cover_accepted", ("covers", "cover {cover} accepted bound {bound}")),
    ("cover_refused", ("covers", "cover {cover} refused <KIND> <STEADY>")),
    ("cover_too_wide", ("covers", "cover {cover} too wide<PASSED>"), ("margin", "cover {cover} too wide at {points}")),
    ("covers_accepted", ("covers", "all accepted bound {bound}")),
    ("covers_counted", ("covers", "accepted {accepted} refused {refused} too wide {too_wide}")),
    ("unused_relay", ("unused", "unused relay {node}")),
    ("unused_row", ("unused", "unused row {node} {row} {selector} ({ssn:=null:-}|{ssn}) {prefix}")),
    ("unused_target", ("unused", "unused target {node} {row} {target}")),
    ("unused_cover", ("unused", "unused cover {cover} within {within}")),
    ("gap", ("unused", "gap cover {cover} no row {cause} at {node} <TITLE>")),
    ("unused_counted",
     ("unused", "unused relays {relays} rows {rows:number} targets {targets} covers {covers} gaps {gaps}")),
    ("cover_stopped", ("margin", "cover {cover} stopped by {points}")),
    ("cover_survives", ("margin", "cover {cover} survives {points}")),
    ("cover_survives_any", ("margin", "cover {cover} survives any")),
    ("covers_survive", ("margin", "all survive {points}")),
    ("margins_counted", ("margin", "least {least} stopped {stopped} too wide {too_wide}")),
    ("hop", (f"{JUDGED} covers route {OF_TWO}", "<HOP>"), (OF_TWO, "<WHICH><HOP>")),
    ("change_accepted", ("change", "change accepted bound {bound}")),
    ("change_refused", ("change", "change refused <KIND> covers {old_cover} {new_cover}")),
    ("change_too_wide", ("change", "change too wide<PASSED>")),
    ("other_nodes", (OF_TWO, "other nodes")),
    ("order", ("order", "order {steps}")),
    ("step", ("order", "step {number} {nodes} bound {bound}")),
    ("no_order", ("order", "no order")),
    ("stuck", ("order", "stuck {node} <KIND> covers {old_cover} {new_cover}")),
    ("undecided", ("order", "undecided")),
    ("plan_accepted", ("replay", "({line} plan {plan}|plan {plan:=1:1}) {file} accepted bound {bound}")),
    ("plan_refused", ("replay", "{line} plan {file} refused <KIND> cover {cover} <STEADY>")),
    ("plan_too_wide", ("replay", "{line} plan {file} too wide<PASSED>")),
    ("plan_bad", ("replay", "{line} plan {file} <BAD_PLAN>")),
    ("plan_other_nodes", ("replay", "{line} plan {file} other nodes")),
    ("journey", ("replay", "{line} by {plan} via {via} <END>")),
    ("sends", ("replay", "{line} sends {to} {octets}")),
    ("event",
     ("replay", "{line} ({event=pause}|{event=resume}|{event=no-sccp}) {node} {point}"),
     ("replay", "{line} ({event=up}|{event=down}) {node} {ssn}"),
     ("replay", "{line} {event=tick} {node}")),
    ("management", ("send-on", "management"), ("replay", "{line} management <STATUS>")),
    ("connection", ("send-on", "connection {type:of_connection}"), ("replay", "{line} connection {type:of_connection}")),
    ("undecodable", (f"{SHOWN} send-on", "undecodable <WHY>"), ("replay", "{line} undecodable <WHY>")),
    ("end", ("replay", "end {lines}")),
    ("count", ("load", "({of=messages}|{of=ended}|{of=returned}|{of=translations}) {number}")),
    ("leaves", ("send-on", "to {to} {octets}")),
    ("not_split", ("send-on", "not split ({why=already segment}|{why=too many}|{why=not writable})")),
    ("local", ("send-on", "local {ssn}")),
    ("returned", ("send-on", "returned {cause} marks {marks}")),
    ("opened", ("connect", "opened via {via} to {to}")),
    ("forth", ("connect", "forth {octets}")),
    ("back", ("connect", "back {octets}")),
    ("sections", ("connect", "sections {number}")),
    ("connection_refused", ("connect", "refused " + causes(REFUSAL_CAUSES, "refusal_cause"))),
    ("unanswered", ("connect", "unanswered")),
    ("unsettled", ("connect", "unsettled")),
    ("end_is_node", ("connect", "end is a node")),
    ("trace_message", ("import capture", "msg {node} {origin} {octets}")),
    ("skipped", ("import", "# ({why=refused} {number}|{why=service} {number}|{why=point}|{why=unknown node}|{why=empty})")),
    ("captured", ("conform", "{line} (|packet {packet} )from {from:node} to {to:node} <VERDICT>")),
    ("arrival_unanswered", ("conform", "{line} unanswered at {node}")),
    ("line_skipped", ("conform", "# line {line} ({why=refused} {number}|{why=point}|{why=empty})")),
    ("relay_counted",
     ("conform", "relay {node} arrived {arrived:number} <SENT_COUNTS> unanswered {unanswered} others {others} markings {markings}")),
    ("target_counted", ("conform", "relay {node} target {row}/{target} taken {taken}")),
    ("judged", ("conform", "end {messages} unexplained {unexplained}")),
    ("packet_skipped",
     ("capture conform", "# packet {packet} (|chunk {chunk} )(<LEFT_OUT>|<UNREAD>)"),
     ("capture conform", "# packet {packet} ({why=sccp} {octets}|{why=link} {number}|{why=fragment}|{why=interface}|{why=length})"),
     ("capture conform", "# packet {packet} chunk {chunk} ({why=short}|{why=bad}|{why=interleaved}|{why=alone})")),
    ("capture_ended", ("capture conform", "# octet {octet} <ENDED>")),
    ("capture_counted", ("capture conform", "# end packets {packets} messages {messages} left {left} repeated {repeated} others {others} "
                                            "faults {faults}")),
    ("cut", ("cuts", "{count} ({ok:=true:ok}|{ok:=false:undecodable} <WHY>)")),
    ("message", (SHOWN, either("type", f"{CONNECTION_ORIENTED}, {CONNECTIONLESS}"))),
    ("class", (SHOWN, "class {class} options {options}")),
    ("source", (SHOWN, "source {number}")),
    ("destination", (SHOWN, "destination {number}")),
    ("send", (SHOWN, "send {number}")),
    ("receive", (SHOWN, "receive {number}")),
    ("credit", (SHOWN, "credit {number}")),
    ("hop_counter", (SHOWN, "hops {number}")),
    ("more", (SHOWN, "more <YES>")),
    ("canonical", (SHOWN, "canonical <YES>")),
    ("return_cause", (SHOWN, "return cause " + causes(RETURN_CAUSES, "return_cause"))),
    ("refusal_cause", (SHOWN, "refusal cause " + causes(REFUSAL_CAUSES, "refusal_cause"))),
    ("error_cause", (SHOWN, "error cause " + causes(ERROR_CAUSES, "error_cause"))),
    ("release_cause", (SHOWN, "release cause {cause}")),
    ("reset_cause", (SHOWN, "reset cause {cause}")),
    ("called", (SHOWN, "called <PARTY>")),
    ("calling", (SHOWN, "calling <PARTY>")),
    ("data", (SHOWN, "data {octets}")),
    ("parameter", (SHOWN, "parameter {name} {octets}")),
    ("empty", ("show import", "")),
]


def expanded(pattern):
    """The patterns without alternatives that a pattern is made of."""
    return alternatives(re.findall(r"[(|)]|[^(|)]+", pattern))


def alternatives(pieces):
    """The patterns of these pieces up to the bracket that closes them, which are taken out."""
    done, begun = [], [""]
    while pieces:
        piece = pieces.pop(0)
        if piece == ")":
            break
        if piece == "|":
            done, begun = done + begun, [""]
        else:
            inner = alternatives(pieces) if piece == "(" else [piece]
            begun = [before + after for before in begun for after in inner]
    return done + begun


def spelled(pattern):
    """A pattern with what its names in <> are."""
    while "<" in pattern:
        pattern = re.sub("<([A-Z_]+)>", lambda named: NAMED[named[1]], pattern)
    return pattern


class Field:
    """A field of a pattern: its path, its type, and its value if each line of the pattern has the same."""

    def __init__(self, path, kind, is_fixed=False, value=None):
        self.path, self.kind, self.is_fixed, self.value = path, kind, is_fixed, value

    @staticmethod
    def of(name, kind, words, value):
        path = tuple(name.split("."))
        if words is None:
            return Field(path, TYPES.get(kind or name) or TYPES.get(path[-1], NUMBER))
        fixed = words if value is None else json.loads(value)
        return Field(path, Type(re.escape(words), lambda _: fixed, lambda _: words), True, fixed)

    def may_be(self, value):
        return not self.is_fixed or type(value) is type(self.value) and value == self.value


class Pattern:
    """One pattern without alternatives: which lines it has, and their fields."""

    PIECE = re.compile(r"\{([a-z_.]+)(?::([a-z_]+))?(?::?=(?:([^:{}]*):)?([^:{}]*))?\}")

    def __init__(self, commands, text):
        self.commands, self.text = frozenset(commands.split()), text
        # Words, and between them the four groups of each field.
        self.words, *groups = (self.PIECE.split(text)[at::5] for at in range(5))
        self.fields = [Field.of(name, kind, words, value) for name, kind, value, words in zip(*groups)]
        self.paths = {field.path for field in self.fields}
        self.expression = None

    def read(self, form, line):
        """The record of a line, or None."""
        if self.expression is None:
            # Not before it is needed, since there are hundreds.
            made = [re.escape(words) + f"({field.kind.pattern})" for words, field in zip(self.words, self.fields)]
            self.expression = re.compile("".join(made) + re.escape(self.words[-1]))
        found = self.expression.fullmatch(line)
        if not found:
            return None
        record = {"form": form}
        for field, text in zip(self.fields, found.groups()):
            into = record
            for key in field.path[:-1]:
                into = into.setdefault(key, {})
            into[field.path[-1]] = field.kind.read(text)
        return record

    def write(self, values):
        """The line with these values by the paths of their fields, or None if the pattern has other fields or other fixed values."""
        if values.keys() != self.paths or not all(field.may_be(values[field.path]) for field in self.fields):
            return None
        made = [words + field.kind.write(values[field.path]) for words, field in zip(self.words, self.fields)]
        return "".join(made) + self.words[-1]

    def key(self):
        """What key_of gives of each line of the pattern."""
        made = [words + (field.kind.write(field.value) if field.is_fixed else "0") for words, field in zip(self.words, self.fields)]
        return key_of("".join(made) + self.words[-1])


class Form:
    """One form of lines: its name, and the patterns that make it up."""

    def __init__(self, name, *patterns):
        self.name = name
        self.patterns = [Pattern(commands, plain) for commands, text in patterns for plain in expanded(spelled(text))]

    def write(self, record):
        values = {path: value for path, value in flat(record) if path[0] not in ("form", *LISTS)}
        for pattern in self.patterns:
            line = pattern.write(values)
            if line is not None:
                return line
        raise ValueError(f"no line of the form {self.name} has these fields: {record}")


def flat(record, before=()):
    """The values of a record by their paths. A mark is one value."""
    for key, value in record.items():
        if isinstance(value, dict) and "kind" not in value:
            yield from flat(value, (*before, key))
        else:
            yield (*before, key), value


FORMS = {name: Form(name, *patterns) for name, *patterns in TABLE}


def key_of(line):
    """The words by which the patterns of a line are found: its first one, with the second one after a number, old, new or change."""
    first, *more = line.split(" ", 2)
    if more and (first.isdigit() or first in ("old", "new", "change")):
        return ("0" if first.isdigit() else first, more[0])
    return first


def by_keys():
    """The patterns, and the names of their forms, by what key_of gives of their lines."""
    found = {}
    for form in FORMS.values():
        for pattern in form.patterns:
            found.setdefault(pattern.key(), []).append((form.name, pattern))
    return found


KNOWN = by_keys()

# ---- Reading and writing

def command_of(words):
    """The command of a call: its first word, or the one after wide. None of a call without words."""
    words = words[1:] if words[:1] == ["wide"] and len(words) > 1 else words
    return words[0] if words else None


# What read_groups adds to records.
LISTS = ("hops", "parts", "sends")


def read_line(line, command=None):
    """The record of a line, which may have its line feed. A line of no form is one of the form text."""
    line = line[:-1] if line.endswith("\n") else line
    for name, pattern in KNOWN.get(key_of(line), ()):
        if command in pattern.commands or command not in COMMANDS:
            record = pattern.read(name, line)
            if record is not None:
                return record
    return {"form": "text", "text": line}


def read_lines(lines, command=None):
    """The record of each line."""
    return (read_line(line, command) for line in lines)


def write_line(record):
    """The line of a record, without a line feed."""
    return record["text"] if record["form"] == "text" else FORMS[record["form"]].write(record)


# ---- Lines that belong together

HAVE_HOPS = ("accepted", "refused", "cover_refused", "cover_stopped", "change_accepted", "change_refused", "stuck", "plan_refused", "route")
OF_MESSAGES = [name for name, (commands, _), *_ in TABLE if commands == SHOWN and name != "message"]


def read_groups(lines, command=None):
    """The record of each line, but one that belongs to the record before it is put into a list there."""
    last = None
    for record in read_lines(lines, command):
        into = list_in(last, record)
        if into:
            last.setdefault(into, []).append(record)
            continue
        if last:
            yield last
        last = {"form": "route", "hops": [record]} if record["form"] == "hop" else record
    if last:
        yield last


def list_in(last, record):
    """The list of the last record that this one belongs to, or None."""
    form = record["form"]
    if last and form == "hop" and last["form"] in HAVE_HOPS:
        return "hops"
    if last and form == "sends" and last.get("line") == record["line"]:
        return "sends"
    if last and form in OF_MESSAGES and last["form"] == "message" and last.get("parts", [last])[-1]["form"] != "canonical":
        return "parts"
    return None
