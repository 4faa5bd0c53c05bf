#!/usr/bin/env python3
"""Tests of lines.py: each line that the stored cases print is read by one form and written back, and no faulty line is read.

Run it from anywhere: tools/test_lines.py. It needs nothing but Python, and no built program. The records and lines below were typed
by hand; those of the cases are in crates/worked_cases/stdout.
"""
import itertools
import json
import os
import re
import subprocess
import sys
import tempfile
import unittest

HERE = os.path.dirname(os.path.abspath(__file__))
TOP = os.path.dirname(HERE)
sys.path.insert(0, HERE)
sys.dont_write_bytecode = True
import lines
import stored_cases

PIPELINE = os.path.join(TOP, "examples", "pipeline", "verify_plans.py")
CRATES = os.path.join(TOP, "crates")


# The calls that begin with ? print the usage line, which those that begin with > have in full.
CALLS = [(words, [line for line in printed if (mark, line) != ("?", "usage")]) for mark, words, printed in stored_cases.stored_calls()]
PRINTED = sorted({(command if (command := lines.command_of(words)) in lines.COMMANDS else "", line) for words, printed in CALLS for line in printed})

POINT, SCCP = {"kind": "point", "point": "2-0-1"}, {"kind": "sccp", "point": "7-255-7"}
SUBSYSTEM = {"kind": "subsystem", "point": "0-0-0", "ssn": 6}
TITLE = {"selector": "4:0:1:4", "ssn": 6, "digits": "49A"}


def record(form, **fields):
    return {"form": form, **fields}


def hop(step, **fields):
    return record("hop", node="a", title=TITLE, held=[], step=step, **fields)


def captured(line, origin, to, **fields):
    return record("captured", line=line, to=to, **{"from": origin}, **fields)


def returned(**service):
    return record("journey", line=7, plan=2, via=["a"], end="returned", cause=5, marks=[POINT, SUBSYSTEM], service=service)


# Lines with their records, by commands: a few of each kind, and what no case prints.
TYPED = {
    "verify": [
        ("accepted bound 14", record("accepted", bound=14)),
        ("refused loop 0 cover 3 steady yes", record("refused", kind="loop", hop=0, cover=3, steady=True)),
        ("at a 4:0:1:4 6 49A held none sent b target 0", hop("sent", next="b", target=0)),
        ("at a 4:0:1:4 6 49A held none ended 7-255-7/255 target 7", hop("ended", point="7-255-7", ssn=255, target=7)),
        ("at a 4:0:1:4 6 49A held none blocked 5", hop("blocked", cause=5)),
        ("at a 4:0:1:4 6 49A held none no row 1", hop("no row", cause=1)),
        ("at a 4:0:1:4 6 49A held none overgrown", hop("overgrown")),
        ("bad plan not toml", record("bad_plan", fault="not toml")),
        ("bad plan limit nodes 255", record("bad_plan", fault="limit", of="nodes", limit=255)),
        ("bad plan limit rows 1048576", record("bad_plan", fault="limit", of="rows", limit=1048576)),
        ("too long", record("too_long")),
        ("too long 268435456", record("too_long", limit=268435456)),
        ("too wide 67108864", record("too_wide", limit=67108864)),
    ],
    "change": [
        ("old accepted bound 2", record("accepted", which="old", bound=2)),
        ("new refused overgrown cover 1 steady no", record("refused", which="new", kind="overgrown", cover=1, steady=False)),
        ("old too wide", record("too_wide", which="old")),
        ("new too wide 67108864", record("too_wide", which="new", limit=67108864)),
        ("change too wide", record("change_too_wide")),
        ("change too wide 67108864", record("change_too_wide", limit=67108864)),
        ("old bad plan limit covers 65535", record("bad_plan", which="old", fault="limit", of="covers", limit=65535)),
        ("change refused overgrown covers 2 0", record("change_refused", kind="overgrown", old_cover=2, new_cover=0)),
        ("new at sixteen_octets-_ 2:255 0 - held point:2-0-1,sccp:7-255-7,subsystem:0-0-0/6 overgrown",
         record("hop", which="new", node="sixteen_octets-_", title={"selector": "2:255", "ssn": 0, "digits": ""},
                held=[POINT, SCCP, SUBSYSTEM], step="overgrown")),
        ("new bad plan limit covers", record("bad_plan", which="new", fault="limit", of="covers")),
    ],
    "order": [
        ("old accepted bound 2", record("accepted", which="old", bound=2)),
        ("new refused overgrown cover 1 steady no", record("refused", which="new", kind="overgrown", cover=1, steady=False)),
        ("order 0", record("order", steps=0)),
        ("step 1 a bound 0", record("step", number=1, nodes=["a"], bound=0)),
        ("step 12 b,sixteen_octets-_ bound 14", record("step", number=12, nodes=["b", "sixteen_octets-_"], bound=14)),
        ("no order", record("no_order")),
        ("stuck a loop 0 covers 2 255", record("stuck", node="a", kind="loop", hop=0, old_cover=2, new_cover=255)),
        ("stuck b forbidden 2-0-1/6 covers 0 0",
         record("stuck", node="b", kind="forbidden", point="2-0-1", ssn=6, old_cover=0, new_cover=0)),
        ("stuck order no row 1 covers 0 0", record("stuck", node="order", kind="no row", cause=1, old_cover=0, new_cover=0)),
        ("new at a 4:0:1:4 6 49A held none no row 1", hop("no row", cause=1) | {"which": "new"}),
        ("undecided", record("undecided")),
        ("other nodes", record("other_nodes")),
    ],
    "covers": [
        ("cover 0 refused loop 0 steady yes", record("cover_refused", cover=0, kind="loop", hop=0, steady=True)),
        ("cover 255 refused forbidden 2-0-3/6 steady no",
         record("cover_refused", cover=255, kind="forbidden", point="2-0-3", ssn=6, steady=False)),
        ("cover 3 refused no row 1 steady yes", record("cover_refused", cover=3, kind="no row", cause=1, steady=True)),
        ("cover 2 accepted bound 14", record("cover_accepted", cover=2, bound=14)),
        ("cover 1 too wide", record("cover_too_wide", cover=1)),
        ("cover 65534 too wide 67108864", record("cover_too_wide", cover=65534, limit=67108864)),
        ("all accepted bound 2", record("covers_accepted", bound=2)),
        ("accepted 2 refused 3 too wide 0", record("covers_counted", accepted=2, refused=3, too_wide=0)),
    ],
    "unused": [
        ("unused relay c", record("unused_relay", node="c")),
        ("unused row b 0 4:0:1:4 - 49", record("unused_row", node="b", row=0, selector="4:0:1:4", ssn=None, prefix="49")),
        ("unused row b 4095 2:255 6 -", record("unused_row", node="b", row=4095, selector="2:255", ssn=6, prefix="")),
        ("unused row b 1 1:4 255 49ABCDEF", record("unused_row", node="b", row=1, selector="1:4", ssn=255, prefix="49ABCDEF")),
        ("unused target b 1 7", record("unused_target", node="b", row=1, target=7)),
        ("unused cover 1 within 0", record("unused_cover", cover=1, within=0)),
        ("gap cover 3 no row 1 at a 4:0:1:4 6 49A", record("gap", cover=3, cause=1, node="a", title=TITLE)),
        ("gap cover 0 no row 0 at a 2:255 0 -",
         record("gap", cover=0, cause=0, node="a", title={"selector": "2:255", "ssn": 0, "digits": ""})),
        ("unused relays 1 rows 12 targets 0 covers 255 gaps 256",
         record("unused_counted", relays=1, rows=12, targets=0, covers=255, gaps=256)),
        ("too wide", record("too_wide")),
    ],
    "margin": [
        ("accepted bound 14", record("accepted", bound=14)),
        ("refused overgrown cover 3 steady no", record("refused", kind="overgrown", cover=3, steady=False)),
        ("too wide", record("too_wide")),
        ("cover 0 stopped by 3", record("cover_stopped", cover=0, points=3)),
        ("at a 4:0:1:4 6 49A held point:2-0-1 blocked 5", hop("blocked", cause=5) | {"held": [POINT]}),
        ("cover 255 survives 0", record("cover_survives", cover=255, points=0)),
        ("cover 2 survives any", record("cover_survives_any", cover=2)),
        ("cover 2 too wide at 99", record("cover_too_wide", cover=2, points=99)),
        ("all survive 1", record("covers_survive", points=1)),
        ("least 1 stopped 2 too wide 0", record("margins_counted", least=1, stopped=2, too_wide=0)),
    ],
    "load": [
        ("refused long cover 0 steady no", record("refused", kind="long", cover=0, steady=False)),
        ("ended 55101", record("count", of="ended", number=55101)),
    ],
    "connect": [
        ("refused no row 4 cover 0 steady yes", record("refused", kind="no row", cause=4, cover=0, steady=True)),
        ("opened via a,b to 2-0-1", record("opened", via=["a", "b"], to="2-0-1")),
        ("refused 4 destination address unknown", record("connection_refused", cause=4, text="destination address unknown")),
        ("refused 8", record("connection_refused", cause=8, text=None)),
        ("forth -", record("forth", octets="")),
        ("sections 0", record("sections", number=0)),
        ("end is a node", record("end_is_node")),
        ("unanswered", record("unanswered")),
        ("unsettled", record("unsettled")),
    ],
    "replay": [
        ("refused forbidden 2-0-3/6 cover 1 steady yes",
         record("refused", kind="forbidden", point="2-0-3", ssn=6, cover=1, steady=True)),
        ("plan 1 plan.toml accepted bound 1", record("plan_accepted", plan=1, file="plan.toml", bound=1)),
        ("5 plan 2 2 accepted bound 1", record("plan_accepted", line=5, plan=2, file="2", bound=1)),
        ("5 plan 2 refused loop 0 cover 0 steady no",
         record("plan_refused", line=5, file="2", kind="loop", hop=0, cover=0, steady=False)),
        ("5 plan 2 too wide", record("plan_too_wide", line=5, file="2")),
        ("5 plan 2 too wide 67108864", record("plan_too_wide", line=5, file="2", limit=67108864)),
        ("5 plan 2 bad plan limit rows 1048576", record("plan_bad", line=5, file="2", fault="limit", of="rows", limit=1048576)),
        ("5 plan 2 other nodes", record("plan_other_nodes", line=5, file="2")),
        ("5 plan 2 bad plan repeated node 1 name",
         record("plan_bad", line=5, file="2", fault="repeated", place={"node": 1, "key": "name"})),
        ("2 by 1 via a,b ended 2-0-1/6 0980",
         record("journey", line=2, plan=1, via=["a", "b"], end="ended", point="2-0-1", ssn=6, octets="0980")),
        ("2 by 1 via a cut", record("journey", line=2, plan=1, via=["a"], end="cut")),
        ("2 by 1 via a local 8 data -", record("journey", line=2, plan=1, via=["a"], end="local", ssn=8, data="")),
        ("2 by 1 via a local 8 data AA segment full",
         record("journey", line=2, plan=1, via=["a"], end="local", ssn=8, data="AA", segment="full")),
        ("2 by 1 via a local 8 data AA segment dropped 3",
         record("journey", line=2, plan=1, via=["a"], end="local", ssn=8, data="AA", segment="dropped", reason=3)),
        ("2 by 1 via a local 8 data AA segment whole AABB",
         record("journey", line=2, plan=1, via=["a"], end="local", ssn=8, data="AA", segment="whole", whole="AABB")),
        ("2 by 1 via a returned 12 marks none no service",
         record("journey", line=2, plan=1, via=["a"], end="returned", cause=12, marks=[], service=None)),
        ("3 pause b 2-0-1", record("event", line=3, event="pause", node="b", point="2-0-1")),
        ("3 no-sccp b 2-0-1", record("event", line=3, event="no-sccp", node="b", point="2-0-1")),
        ("3 up b 6", record("event", line=3, event="up", node="b", ssn=6)),
        ("3 tick tick", record("event", line=3, event="tick", node="tick")),
        ("3 unknown node", record("unknown_node", line=3)),
        ("3 management ssp 2-0-1/6", record("management", line=3, status="ssp", point="2-0-1", ssn=6)),
        ("3 management unknown", record("management", line=3, status=None)),
        ("3 connection CR", record("connection", line=3, type="CR")),
        ("3 sends 1-0-1 0A", record("sends", line=3, to="1-0-1", octets="0A")),
        ("3 undecodable address 1 odd without digits",
         record("undecodable", line=3, fault="address", number=1, why="odd without digits")),
        ("end 0", record("end", lines=0)),
    ],
    "route": [
        ("bad plan wrong shape node", record("bad_plan", fault="wrong shape", place={"key": "node"})),
        ("bad plan relay to self node 17 row 203 targets",
         record("bad_plan", fault="relay to self", place={"node": 17, "row": 203, "key": "targets"})),
        ("bad plan bad cover cover 2 unknown key", record("bad_plan", fault="bad cover", place={"cover": 2, "key": "unknown key"})),
    ],
    "import": [
        ("bad plan rule node 0 twice 0 12", record("bad_plan", fault="rule", place={"node": 0, "rows": [0, 12]}, rule="twice")),
        ("bad plan rule node 0 kind two 3", record("bad_plan", fault="rule", place={"node": 0, "row": 3}, rule="kind two")),
        ("msg a 1-0-1 09", record("trace_message", node="a", origin="1-0-1", octets="09")),
        ("# refused 3", record("skipped", why="refused", number=3)),
        ("# unknown node", record("skipped", why="unknown node")),
    ],
    "conform": [
        ("bad trace line 3 not a line", record("bad_trace_line", line=3, fault="not a line")),
        ("too long 268435456", record("too_long", limit=268435456)),
        ("1 from 1-0-1 to a UDT", captured(1, "1-0-1", "a", verdict="arrived", type="UDT")),
        ("1 from 1-0-1 to 2-0-1 LUDTS other", captured(1, "1-0-1", "2-0-1", verdict="other", type="LUDTS")),
        ("12 from a to b XUDT own 8", captured(12, "a", "b", verdict="own", type="XUDT", ssn=8)),
        ("12 packet 40 from a to b XUDT own 8", captured(12, "a", "b", packet=40, verdict="own", type="XUDT", ssn=8)),
        ("# packet 3 chunk 2 alone", record("packet_skipped", packet=3, chunk=2, why="alone")),
        ("# octet 58 cut", record("capture_ended", octet=58, why="cut")),
        ("2 from a to b UDT explained by 1 target 0/12 held none free point:2-0-1,sccp:7-255-7",
         captured(2, "a", "b", verdict="explained", type="UDT", by=1, ways=[{"row": 0, "target": 12, "held": [], "free": [POINT, SCCP]}])),
        ("2 from a to b UDTS explained by 1 return 5 held point:2-0-1|sccp:7-255-7,subsystem:0-0-0/6 free none",
         captured(2, "a", "b", verdict="explained", type="UDTS", by=1,
                  ways=[{"cause": 5, "held": [[POINT, SCCP], [SUBSYSTEM]], "free": []}])),
        ("2 from a to b UDTS explained by 1 return 1 target 3/0 held none free none or return 1 target 3/1 held point:2-0-1 free none",
         captured(2, "a", "b", verdict="explained", type="UDTS", by=1,
                  ways=[{"cause": 1, "row": 3, "target": 0, "held": [], "free": []},
                        {"cause": 1, "row": 3, "target": 1, "held": [[POINT]], "free": []}])),
        ("2 from a to b UDT unexplained by 1 not asked", captured(2, "a", "b", verdict="unexplained", type="UDT", by=1, why="not asked")),
        ("2 from a to b UDT unexplained by 1 called point",
         captured(2, "a", "b", verdict="unexplained", type="UDT", by=1, why="called point")),
        ("2 from a to b UDT unexplained again 1", captured(2, "a", "b", verdict="unexplained", type="UDT", again=1)),
        ("2 from a to b UDT unexplained no arrival", captured(2, "a", "b", verdict="unexplained", type="UDT", why="no arrival")),
        ("2 from a to b management ssp 2-0-1/6", captured(2, "a", "b", verdict="management", status="ssp", point="2-0-1", ssn=6)),
        ("2 from a to b management unknown", captured(2, "a", "b", verdict="management", status=None)),
        ("2 from a to b connection CR", captured(2, "a", "b", verdict="connection", type="CR")),
        ("2 from a to b undecodable bad part 1", captured(2, "a", "b", verdict="undecodable", fault="bad part", number=1)),
        ("2 unanswered at from", record("arrival_unanswered", line=2, node="from")),
        ("# line 3 refused 4", record("line_skipped", line=3, why="refused", number=4)),
        ("# line 3 point", record("line_skipped", line=3, why="point")),
        ("# line 3 empty", record("line_skipped", line=3, why="empty")),
        ("relay a arrived 1 sent 2 plain 3 failing 4 unexplained 5 unanswered 6 others 7 markings 8",
         record("relay_counted", node="a", arrived=1, sent=2, plain=3, failing=4, unexplained=5, unanswered=6, others=7, markings=8)),
        ("relay a target 17/3 taken 12", record("target_counted", node="a", row=17, target=3, taken=12)),
        ("end 8 unexplained 1", record("judged", messages=8, unexplained=1)),
    ],
    "capture": [
        ("msg a 1-0-1 09", record("trace_message", node="a", origin="1-0-1", octets="09")),
        ("# packet 3 chunk 1 service 5", record("packet_skipped", packet=3, chunk=1, why="service", number=5)),
        ("# packet 3 long", record("packet_skipped", packet=3, why="long")),
        ("# packet 1 sccp 0511", record("packet_skipped", packet=1, why="sccp", octets="0511")),
        ("# packet 7 link 65535", record("packet_skipped", packet=7, why="link", number=65535)),
        ("# packet 7 short ipv6", record("packet_skipped", packet=7, why="short", layer="ipv6")),
        ("# packet 7 chunk 2 bad m2pa", record("packet_skipped", packet=7, chunk=2, why="bad", layer="m2pa")),
        ("# packet 7 chunk 2 short", record("packet_skipped", packet=7, chunk=2, why="short")),
        ("# octet 58 cut", record("capture_ended", octet=58, why="cut")),
        ("# octet 0 no capture", record("capture_ended", octet=0, why="no capture")),
        ("# octet 82040 interfaces", record("capture_ended", octet=82_040, why="interfaces")),
        ("# end packets 4 messages 1 left 2 repeated 3 others 5 faults 6",
         record("capture_counted", packets=4, messages=1, left=2, repeated=3, others=5, faults=6)),
    ],
    "show": [
        ("bad trace line 1000001 too many", record("bad_trace_line", line=1000001, fault="too many")),
        ("", record("empty")),
        ("UDT", record("message", type="UDT")),
        ("class 1 options 8", record("class", **{"class": 1}, options=8)),
        ("hops 15", record("hop_counter", number=15)),
        ("more no", record("more", yes=False)),
        ("return cause 200", record("return_cause", cause=200, text=None)),
        ("return cause 14 segmentation failure", record("return_cause", cause=14, text="segmentation failure")),
        ("called route title point - ssn - title - digits -",
         record("called", route="title", point=None, ssn=None, title=None, national=False)),
        ("calling route ssn point 1-0-1 ssn 8 title 3:1:7 digits - national",
         record("calling", route="ssn", point="1-0-1", ssn=8, title={"selector": "3:1:7", "digits": ""}, national=True)),
        ("called route title point - ssn 6 title raw:12 digits AABB",
         record("called", route="title", point=None, ssn=6, title={"raw": 12, "octets": "AABB"}, national=False)),
        ("parameter 0F -", record("parameter", name="0F", octets="")),
        ("usage: show-hex HEX | show FILE", record("usage", shapes=["show-hex HEX", "show FILE"])),
        ("usage: margin PLAN LOSSES [subsystems] | wide COMMAND",
         record("usage", shapes=["margin PLAN LOSSES [subsystems]", "wide COMMAND"])),
    ],
    "cuts": [
        ("3 undecodable bad pointer 0", record("cut", count=3, ok=False, fault="bad pointer", number=0)),
        ("13 ok", record("cut", count=13, ok=True)),
    ],
    "show-hex": [
        ("undecodable field 0D", record("undecodable", fault="field", name="0D")),
    ],
    "send-on": [
        ("management", record("management")),
        ("connection IT", record("connection", type="IT")),
        ("local 2", record("local", ssn=2)),
        ("returned 0 marks none", record("returned", cause=0, marks=[])),
        ("not split too many", record("not_split", why="too many")),
        ("to 1-0-3 11AB", record("leaves", to="1-0-3", octets="11AB")),
    ],
}

# What becomes of the service message of a journey that is returned.
SERVICES = [
    ("sent 1-0-1", {"way": "sent", "to": "1-0-1"}),
    ("closed sccp:7-255-7", {"way": "closed", "mark": SCCP}),
    ("via b,a", {"way": "via", "via": ["b", "a"], "end": None}),
    ("via b ended 1-0-1/8 0A01", {"way": "via", "via": ["b"], "end": "ended", "point": "1-0-1", "ssn": 8, "arrived": "0A01"}),
    ("via b local 8", {"way": "via", "via": ["b"], "end": "local", "ssn": 8}),
    ("via b lost 1", {"way": "via", "via": ["b"], "end": "lost", "cause": 1}),
    ("via b management", {"way": "via", "via": ["b"], "end": "management"}),
    ("via b cut", {"way": "via", "via": ["b"], "end": "cut"}),
]
TYPED["replay"] += [(f"7 by 2 via a returned 5 marks point:2-0-1,subsystem:0-0-0/6 service 0A {words}", returned(octets="0A", **service))
                    for words, service in SERVICES]

# Lines that are near to one, and are none.
FAULTY = {
    "verify": [
        "accepted bound", "accepted bound 02", "accepted  bound 2", "accepted bound 2 ", " accepted bound 2", "Accepted bound 2",
        "accepted bound 2\r", "accepted bound -1", "accepted bound ٢", "old accepted bound 2", "messages 5",
        "refused loop cover 0 steady yes", "refused loop 0 cover 0 steady maybe", "refused loop 0 steady yes",
        "at a 4:0:1:4 6 49 held sent b target 0", "at a 4:0:1:4 6 49 held none sent b", "at a 4:0:1:4 6 4g held none overgrown",
        "at a 4:0:1:4 6 4a held none overgrown", "at a 4:0:1 6 49 held none overgrown", "at a 5:0 6 49 held none overgrown",
        "at seventeen_octets_ 4:0:1:4 6 49 held none overgrown", "at a 4:0:1:4 6 49 held none,point:2-0-1 overgrown",
        "at a 4:0:1:4 6 49 held point:2-0-8 overgrown", "at a 4:0:1:4 6 49 held point:2-256-1 overgrown",
        "at a 4:0:1:4 6 49 held subsystem:2-0-1 overgrown", "at a 4:0:1:4 6 49 held point:2-0-1/6 overgrown",
        "bad plan bad value row 0 targets", "bad plan bad value node 1 row targets", "bad plan bad value node 1",
        "bad plan rule node 0 twice 1", "bad plan rule node 0 kind two", "bad plan", "bad plan limit", "bad plan limit 255",
        "bad plan limit nodes 0255", "bad plan limit nodes  255", "bad plan no cover 1", "too wide 067108864", "too wide 1 2", "too long -",
    ],
    "covers": [
        "accepted bound 2", "too wide", "refused long cover 0 steady yes", "cover 0 refused loop steady yes", "cover accepted bound 2",
        "cover 0 refused long cover 0 steady yes", "cover 01 too wide", "all accepted", "accepted 2 refused 3", "all accepted bound 2 ",
    ],
    "unused": [
        "accepted bound 2", "unused relay", "unused relay c 0", "unused row b 4:0:1:4 - 49", "unused row b 0 4:0:1:4 -",
        "unused row b 0 4:0:1:4 49",
        "unused row b 00 4:0:1:4 - 49", "unused row b 0 5:0 - 49", "unused row b 0 4:0:1:4 - 4a", "unused target b 1", "unused cover 1",
        "unused cover 1 within", "gap cover 3 no row at a 4:0:1:4 6 49", "gap cover 3 at a 4:0:1:4 6 49", "gap no row 1 at a 4:0:1:4 6 49",
        "gap cover 3 no row 1 at a 4:0:1:4 - 49", "unused relays 1 rows 1 targets 1 covers 1",
        "unused relays 1 rows 1 2 targets 1 covers 1 gaps 1",
        "cover 0 too wide",
    ],
    "margin": [
        "cover 0 stopped by any", "cover 0 stopped 3", "cover stopped by 3", "cover 0 survives", "cover 0 survives 01", "all survive any",
        "cover 0 too wide", "cover 0 too wide at", "cover 0 too wide at 1 67108864", "cover 0 too wide 67108864",
        "cover 0 accepted bound 2", "least 1 stopped 2", "least any stopped 2 too wide 0", "all accepted bound 2",
    ],
    "change": [
        "accepted bound 2", "too wide", "refused long cover 0 steady yes", "bad plan no cover", "order 1", "no order",
    ],
    "order": [
        "accepted bound 2", "order", "order 01", "order a", "step a bound 1", "step 1 bound 1", "step 1 a", "step 1 a, bound 1",
        "step 1 a b bound 1", "no order 1", "stuck a", "stuck loop 0 covers 2 2", "stuck a loop 0 covers 2", "stuck a loop covers 2 2",
        "stuck a,b long covers 2 2", "undecided 1", "change accepted bound 2",
    ],
    "replay": [
        "plan 2 plan.toml accepted bound 1", "plan 1 a b accepted bound 1", "plan 1 accepted bound 1", "2 by 1 via a, ended 2-0-1/6 09",
        "2 by 1 via a ended 2-0-1/6 098", "2 by 1 via a ended 2-0-1/6 0a", "2 by 1 via a ended 2-0-1/6",
        "2 by 1 via a returned 5 marks none",
        "2 by 1 via a returned 5 marks none service 0A", "2 by 1 via a local 8 data AA segment", "02 by 1 via a cut",
        "3 pause b 2-0-1/6", "3 pause b", "3 up b", "3 tick", "3 management", "end", "3 ok",
    ],
    "cuts": [
        "3", "undecodable short",
    ],
    "show": [
        "return cause 5", "return cause 5 SCCP failure", "return cause 200 unknown",
        "called route title point - ssn - title - digits 49", "UDTX", "parameter F AA",
    ],
    "connect": [
        "refused 4", "refused 8 ",
    ],
    "show-hex": [
        "",
    ],
    "import": [
        "# refused", "#", "msg a 1-0-1 -0",
    ],
    "conform": [
        "1 from 1-0-1 to a", "1 from a UDT", "1 from a to b CR", "1 from a to b connection UDT", "1 from a to b UDT own",
        "packet 2 from a to b UDT", "1 packet from a to b UDT", "2 from a to b UDT explained by 1", "2 from a to b UDT explained by 1 held none free none",
        "2 from a to b UDT explained by 1 target 0/0 held free none",
        "2 from a to b UDT explained by 1 target 0/0 held none free point:2-0-1|sccp:2-0-1",
        "2 from a to b UDT explained by 1 target 0 held none free none",
        "2 from a to b UDT explained by 1 target 0/0 return 5 held none free none",
        "2 from a to b UDT explained by 1 target 0/0 held none free none or",
        "2 from a to b UDT explained by 1 target 00/0 held none free none",
        "2 from a to b UDT unexplained", "2 from a to b UDT unexplained by 1", "2 from a to b UDT unexplained by closed",
        "2 from a to b UDT unexplained again", "2 from a to b UDT unexplained by 1 again", "2 from a to b management", "2 unanswered at",
        "2 unanswered", "# line 3", "# line 3 service 5", "# refused 3", "relay a target 0 taken 1", "relay a taken 1", "end 8",
        "end unexplained 0", "bound 2",
        "relay a arrived 1 sent 2 plain 3 failing 4 unexplained 5 unanswered 6 others 7",
    ],
    "capture": [
        "# refused 3", "# packet 3 short", "# packet 3 alone", "# packet 3 chunk 1 fragment", "# packet 3 chunk 1 link 1", "# packet long",
        "# packet 3 short ip4", "# packet 3 sccp", "# octet cut", "# octet 58", "# octet 58 alone", "end packets 4", "# end packets 4",
        "# end packets 4 messages 1 left 2 repeated 3 others 5", "bad trace line 3 not a line",
    ],
    "": [
        "usage:", "usage", "accepted bound " + "9" * 5000, "\0",
    ],
}

REPORT = """<testsuite name="plans" tests="5" failures="4">
<testcase name="good"/>
<testcase name='a&lt;&amp;".toml'><failure message="status 1 refused loop">a 49A: sent b
a 49A: overgrown</failure></testcase>
<testcase name="faulty"><failure message="status 65 bad_plan rule"></failure></testcase>
<testcase name="wide"><failure message="status 67 too_wide"></failure></testcase>
<testcase name="nothing"><failure message="status 70"></failure></testcase>
</testsuite>
"""


def paths(value, before=""):
    """The places in a record, with the types of what is there."""
    for key, inner in value.items():
        if isinstance(inner, dict):
            yield from paths(inner, f"{before}{key}.")
        elif inner is not None:
            yield before + key, type(inner)


def readers(line, command):
    """Each pattern that reads a line, tried one by one."""
    return [(form.name, pattern) for form in lines.FORMS.values() for pattern in form.patterns
            if (not command or command in pattern.commands) and pattern.read(form.name, line) is not None]


class Cases(unittest.TestCase):
    def test_each_line_is_read_by_one_form_and_written_back(self):
        self.assertGreater(len(CALLS), 900)
        for command, line in PRINTED:
            found = readers(line, command)
            self.assertEqual(1, len(found), (command, line, found))
            made = lines.read_line(line + "\n", command)
            self.assertEqual(found[0][0], made["form"])
            self.assertEqual(found[0][1].read(found[0][0], line), made)
            self.assertEqual(line, lines.write_line(made))
            self.assertEqual(made, json.loads(json.dumps(made)))

    def test_without_a_command_only_lines_of_cuts_may_be_taken_for_others(self):
        for command, line in PRINTED:
            found = {form for form, _ in readers(line, None)}
            self.assertIn(found, [{lines.read_line(line, command)["form"]}, {"cut", "undecodable"}], line)
            if "undecodable" in found:
                self.assertEqual("undecodable", lines.read_line(line)["form"])

    def test_a_field_has_one_type(self):
        types = {}
        for command, line in PRINTED:
            for path, kind in paths(lines.read_line(line, command)):
                self.assertIs(kind, types.setdefault(path, kind), (path, line))

    def test_no_line_with_a_fault_is_read(self):
        """A word that is left out or misspelled, a blank too many, and a zero before a number that has none."""
        for command, line in PRINTED:
            (form, pattern), = readers(line, command)
            if form == "usage":
                continue
            words = line.split(" ")
            faulty = [" ".join(words[:at] + words[at + 1:]) for at in range(len(words)) if len(words) > 1 and not may_be_absent(words, at)]
            faulty += [line[:at] + " " + line[at:] for at in (0, len(line), line.find(" "))]
            groups, at = pattern.expression.fullmatch(line), 0
            for number, field in enumerate(pattern.fields, 1):
                if field.kind in (lines.NUMBER, lines.POINT, lines.SELECTOR):
                    faulty.append(line[:groups.start(number)] + "0" + line[groups.start(number):])
                faulty += misspelled(line, at, groups.end(number) if field.is_fixed else groups.start(number))
                at = groups.end(number)
            for wrong in faulty + misspelled(line, at, len(line)):
                self.assertEqual(record("text", text=wrong), lines.read_line(wrong, command), line)


def may_be_absent(words, at):
    # `called point` is one reason, and `point` another; a message between other points has `other` after its type.
    if words[at:at + 2] == ["called", "point"] or (words[1:2] in (["from"], ["packet"]) and words[at:] == ["other"]):
        return True
    if words[at] == "national" or (words[at] in ("old", "new") and words[at + 1:at + 2] == ["at"]):
        return True
    # The layer of a fault in a chunk.
    if words[1:2] == ["packet"] and words[3:4] == ["chunk"] and words[5:at] in (["short"], ["bad"]):
        return True
    # A limit that was passed. The last lines of covers and margin end with a count.
    is_limit = words[at - 2:at] in (["too", "wide"], ["too", "long"]) or words[at - 2:at - 1] == ["limit"]
    return is_limit and at == len(words) - 1 and words[0] not in ("accepted", "least")


def misspelled(line, start, end):
    """The line with another letter at the end of each word of small letters in this part of it."""
    ends = [found.end() for found in re.finditer(r"(?<![\w:-])[a-z]+(?![\w-])", line[start:end])]
    return [line[:start + at - 1] + ("q" if line[start + at - 1] != "q" else "p") + line[start + at:] for at in ends]


class Commands(unittest.TestCase):
    def test_the_command_of_a_call(self):
        for words, command in (("verify p", "verify"), ("wide verify p", "verify"), ("wide", "wide"), ("wide wide verify", "wide"), ("", None)):
            self.assertEqual(command, lines.command_of(words.split()))


class Typed(unittest.TestCase):
    def test_lines_and_their_records(self):
        for command, pairs in TYPED.items():
            for line, wanted in pairs:
                self.assertEqual(wanted, lines.read_line(line, command), line)
                self.assertEqual(line, lines.write_line(wanted))
                self.assertEqual(1, len(readers(line, command)), line)

    def test_every_form_and_every_part_is_tried(self):
        """By a case or by a typed line. Of the causes with texts each table is compared with the specification instead."""
        def parts(form, pattern):
            return {form} | {text for text in re.findall(r"\{.*?\}", pattern.text) if not text.startswith(("{cause:=", "{text="))}
        typed = [(command, line) for command, pairs in TYPED.items() for line, _ in pairs]
        tried = {part for command, line in PRINTED + typed for found in readers(line, command) for part in parts(*found)}
        every = {part for form in lines.FORMS.values() for pattern in form.patterns for part in parts(form.name, pattern)}
        self.assertEqual(set(), every - tried)

    def test_lines_with_faults(self):
        for command, faulty in FAULTY.items():
            for line in faulty:
                self.assertEqual(record("text", text=line), lines.read_line(line, command))
                self.assertEqual(line, lines.write_line(record("text", text=line)))

    def test_a_record_with_other_fields_is_not_written(self):
        for wrong in (record("accepted"), record("accepted", bound=1, cover=2), record("refused", kind="loop", cover=0, steady=True),
                      record("more", yes=1)):
            with self.assertRaises(ValueError):
                lines.write_line(wrong)


class Agreement(unittest.TestCase):
    def source(self, *path):
        with open(os.path.join(CRATES, *path), encoding="utf-8") as file:
            return file.read()

    def test_the_texts_of_causes_are_those_of_the_specification(self):
        text = self.source("sccp_message", "specs", "Causes.antt")
        for name, table in (("Return", lines.RETURN_CAUSES), ("Refusal", lines.REFUSAL_CAUSES), ("Fault", lines.ERROR_CAUSES)):
            part = text.split(f"texts {name} =\n")[1].split("[]")[0]
            self.assertEqual(table, {int(number): words for number, words in re.findall(r'\((\d+), codes "(.*?)"\)', part)})

    def test_the_keys_are_those_of_the_specification(self):
        keys = re.findall(r'word_of \w+ = codes "(.*?)"', self.source("plan_model", "specs", "Keys.antt"))
        self.assertEqual(sorted(keys), sorted(lines.TYPES["key_word"].pattern[3:-1].split("|")))

    def test_the_commands_are_those_of_the_usage_line(self):
        line = re.search(r'b"(usage: .*?)\\n"', re.sub(r"\\\n\s*", "", self.source("sccp_tool", "src", "program.rt")))[1]
        self.assertEqual(lines.COMMANDS, {shape.split(" ")[0] for shape in lines.read_line(line)["shapes"]})
        self.assertLessEqual({one for _, one in PRINTED if one.startswith("usage")}, {line})

    def test_the_comment_names_each_form(self):
        table = lines.__doc__.split("form               fields")[1].split("\nKIND is")[0]
        named = [name for line in table.split("\n")[1:] if line for name in re.match(r"  ((?:\w+, )*\w+)", line)[1].split(", ")]
        self.assertEqual(sorted(lines.FORMS), sorted(named))


class Streams(unittest.TestCase):
    def test_lines_are_read_as_they_come(self):
        endless = itertools.chain(["1 by 1 via a cut\n"], itertools.repeat("2 ok\n"))
        self.assertEqual(["journey", "text", "text"], [it["form"] for it in itertools.islice(lines.read_lines(endless, "replay"), 3)])

    def test_groups(self):
        def groups(command, *text):
            return list(lines.read_groups(text, command))
        bad = "refused loop 0 cover 0 steady yes"
        first, second = "at a 4:0:1:4 6 49A held none sent b target 0", "at b 4:0:1:4 6 49A held none no row 1"
        read = lines.read_line
        self.assertEqual([{**read(bad), "hops": [read(first), read(second)]}], groups("verify", bad, first, second))
        self.assertEqual([{"form": "route", "hops": [read(first), read(second)]}], groups("route", first, second))
        stopped = ["accepted bound 1", "cover 0 stopped by 0", first, second, "cover 1 survives any", "least 0 stopped 1 too wide 0"]
        kept, of, hop_one, hop_two, any_points, least = (read(line, "margin") for line in stopped)
        self.assertEqual([kept, {**of, "hops": [hop_one, hop_two]}, any_points, least], groups("margin", *stopped))
        mixed = ["old accepted bound 1", "new accepted bound 2", "change accepted bound 2", "old " + first, "new " + second]
        old, new, kept, *hops = map(read, mixed)
        self.assertEqual([old, new, {**kept, "hops": hops}], groups("change", *mixed))
        none = ["no order", "step 1 c bound 2", "stuck a long covers 0 0", "new " + first, "stuck b long covers 0 1", "old " + second]
        no_order, done, stuck, of_stuck, last, of_last = map(read, none)
        self.assertEqual([no_order, done, {**stuck, "hops": [of_stuck]}, {**last, "hops": [of_last]}], groups("order", *none))
        later = ["2 by 1 via a cut", f"3 plan b.toml {bad}", first, second, "4 pause a 2-0-1", "4 sends 1-0-1 0A", "4 sends 1-0-2 0A",
                 "end 4"]
        cut, refused, one, two, pause, sent, more, end = map(read, later)
        self.assertEqual([cut, {**refused, "hops": [one, two]}, {**pause, "sends": [sent, more]}, end], groups("replay", *later))
        shown = ["RLC", "destination 1", "source 2", "canonical yes", "", "undecodable short", ""]
        kind, to, of, same, empty, short, _ = (read(line, "show") for line in shown)
        self.assertEqual([{**kind, "parts": [to, of, same]}, empty, short, empty], groups("show", *shown))
        self.assertEqual([pause, read("5 sends 1-0-1 0A")], groups("replay", later[4], "5 sends 1-0-1 0A"))
        self.assertEqual([{**kind, "parts": [same]}, to], groups("show", "RLC", "canonical yes", "destination 1"))
        self.assertEqual([], groups("verify"))
        self.assertEqual([bad, "change accepted bound 2", "4 pause a 2-0-1"], [lines.write_line(group) for group in (
            groups("verify", bad, first, second)[0], groups("change", *mixed)[2], groups("replay", *later)[2])])

    def test_groups_of_the_cases_have_each_line_once(self):
        def spread(group):
            inner = [part for name in lines.LISTS for part in group.get(name, ())]
            head = {key: value for key, value in group.items() if key not in lines.LISTS}
            return ([] if head == {"form": "route"} else [head]) + inner
        for words, printed in CALLS:
            command = lines.command_of(words)
            whole = [part for group in lines.read_groups(printed, command) for part in spread(group)]
            self.assertEqual(list(lines.read_lines(printed, command)), whole, words)


class Pipeline(unittest.TestCase):
    def test_the_report_on_plans(self):
        """The script of examples/pipeline with a launcher that prints the lines of stored cases as JSON."""
        with tempfile.TemporaryDirectory() as folder:
            answers = {"good": (0, ["accepted bound 2"] + [hop_of_a("sent b target 0")]),
                       'a<&".toml': (1, ["refused loop 0 cover 0 steady yes", hop_of_a("sent b target 0"), hop_of_a("overgrown")]),
                       "faulty": (65, ["bad plan rule node 0 twice 1 2"]), "wide": (67, ["too wide"]), "nothing": (70, [])}
            for name, (status, printed) in answers.items():
                objects = [json.dumps(lines.read_line(line, "verify")) for line in printed]
                with open(os.path.join(folder, name), "w", encoding="utf-8") as file:
                    file.write("".join(one + "\n" for one in [str(status), *objects]))
            launcher = os.path.join(folder, "launcher")
            with open(launcher, "w", encoding="utf-8") as file:
                file.write('#!/bin/sh\n[ "$1 $2" = "--json verify" ] || exit 99\ntail -n +2 "$3"\nexit "$(head -n 1 "$3")"\n')
            os.chmod(launcher, 0o755)

            def report(*names):
                done = subprocess.run([sys.executable, PIPELINE, *names], cwd=folder, env={**os.environ, "SCCP": launcher},
                                      capture_output=True, check=False)
                return done.returncode, done.stdout.decode(), done.stderr.decode()
            self.assertEqual((1, REPORT, ""), report(*answers))
            good = REPORT.replace('tests="5" failures="4"', 'tests="1" failures="0"').split("\n")
            self.assertEqual((0, "\n".join(good[:2] + good[-2:]), ""), report("good"))


def hop_of_a(words):
    return f"at a 4:0:1:4 6 49A held point:2-0-1 {words}"


if __name__ == "__main__":
    unittest.main()
