#!/usr/bin/env python3
"""Tests tools/unreached_calls.py over a repository of four small crates that the test writes."""
import contextlib
import io
import os
import sys
import tempfile
import unittest

TOOLS = os.path.dirname(os.path.abspath(__file__))
sys.dont_write_bytecode = True
sys.path.insert(0, TOOLS)
import unreached_calls

FILES = {
    "crates.txt": "low:\nhigh: low   # above\nprogram: high low\ntests: high low\n",
    "crates/low/src/lib.rt": """//! Its calls.
mod calls;
mod kinds;
mod other;
pub use calls::{called, by_name as renamed, in_clause, in_comment, in_text, law, shadowed, by_macro, LIMIT, UNUSED};
pub use kinds::{Box2, Count, Kind, Stack};
pub use other::{join, Fill};
""",
    "crates/low/src/calls.rt": """ghost use Rattle.low.specs.Calls.{in_clause};
pub const LIMIT: u32 = 7;
pub const UNUSED: u32 = 8;
pub fn called(x: u32) -> u32
    requires { in_clause x ≡ 1 }
    ensures first { result ≡ in_clause x }
{
    // in_comment(x)
    let shadowed = private(x);
    let text = "in_text(x) \\" in_text(x)";
    shadowed
}
fn private(x: u32) -> u32 { x }
pub fn by_name() {
    let _x = 1;
}
pub fn in_clause(x: u32) -> u32 { x }
pub fn in_comment(x: u32) -> u32 { x }
pub fn in_text(x: u32) -> u32 { 'a'; x }
pub fn law()
    ensures { true }
{}
pub fn shadowed() -> u32 { 1 }
pub fn by_macro(x: u32) -> u32 { x }
pub fn not_shown() -> u32 { 1 }
""",
    "crates/low/src/kinds.rt": """/// A count.
pub struct Count { number: u32, ghost sound: { true } }
impl Count {
    pub fn new(number: u32) -> Self { Count { number } }
    pub fn len(&self) -> usize { 0 }
    pub fn rise(&mut self, by: u32) { self.number = by; }
    pub(crate) fn inner(&self) -> u32 { self.number }
}
impl Drop for Count { fn drop(&mut self) { self.inner(); } }
pub struct Stack { items: Vec<u8>, count: Count }
impl Stack {
    pub fn of(items: Vec<u8>) -> Stack { Stack { items, count: Count::new(1) } }
    pub fn len(&self) -> usize { self.items.len() }
    pub fn rise(&mut self) -> u32 { 1 }
    pub fn size(&self) -> usize { 3 }
}
pub struct Box2<T> { item: T }
impl<T> Box2<T> {
    pub fn size(&self) -> usize { 2 }
}
pub enum Kind { One(Count), Two }
impl Kind {
    pub const FIRST: u32 = 1;
    pub fn part(&self) -> u32 { Self::other() }
    pub fn other() -> u32 { 2 }
    pub fn name(&self) -> u32 { 3 }
}
""",
    "crates/low/src/other.rt": """pub fn join(x: u32) -> u32 { x }
pub trait Fill { fn fill(&mut self, with: u32); fn empty(&mut self); }
""",
    "crates/high/src/lib.rt": """mod work;
pub use work::{Tank, fill_up, run, never};
""",
    "crates/high/src/work.rt": """use low::{Count, Fill, Kind, LIMIT, Stack, called, renamed as again};
macro_rules! make { ($f:ident $x:expr) => { low::$f($x) }; }
macro_rules! calls { ($x:expr) => { low::by_macro($x) }; }
pub struct Tank { stack: Stack }
impl Fill for Tank {
    fn fill(&mut self, with: u32) { self.stack.rise(); }
    fn empty(&mut self) { self.stack.len(); }
}
pub fn run(x: u32) -> u32 {
    again();
    let stack = Stack::of(vec![1]);
    let parts = [1].iter().map(|part| part + 1);
    stack.len();
    calls!(x) + called(LIMIT)
}
pub fn fill_up<F: Fill>(one: &mut F) {
    one.fill(1);
}
pub fn never(kind: &Kind) -> u32 { kind.part() }
""",
    "crates/program/src/main.rt": "use high::run;\nfn main() { run(1); }\n",
    "crates/tests/src/lib.rt": "#[cfg(test)]\nmod tests;\n",
    "crates/tests/src/tests.rt": """use high::{Tank, fill_up};
use low::{Box2, Kind};
fn made() -> Tank { unreachable!() }
#[test]
fn fills() {
    let mut tank = made();
    fill_up(&mut tank);
    for one in [Kind::Two] { one.name(); }
    for one in boxes() { one.size(); }
}
fn boxes() -> Vec<Box2<u8>> { vec![] }
""",
}
UNREACHED = {
    "low::UNUSED", "low::in_clause", "low::in_comment", "low::in_text", "low::shadowed", "low::join", "low::Count::len", "low::Count::rise",
    "low::Kind::FIRST", "low::Kind::part", "low::Kind::other", "low::Fill::empty", "high::Tank::empty", "high::never",
}


class Found(unittest.TestCase):
    def answer(self, changes=None, reasons="", words=()):
        """The status and the lines that the tool prints."""
        with tempfile.TemporaryDirectory() as top:
            for name, text in {**FILES, **(changes or {}), "tools/unreached_calls.txt": reasons}.items():
                os.makedirs(os.path.dirname(os.path.join(top, name)), exist_ok=True)
                with open(os.path.join(top, name), "w", encoding="utf-8") as file:
                    file.write(text)
            unreached_calls.TOP, unreached_calls.CRATES = top, os.path.join(top, "crates")
            unreached_calls.LISTED = os.path.join(top, "tools/unreached_calls.txt")
            out, sys.argv = io.StringIO(), ["unreached_calls.py", *words]
            with contextlib.redirect_stdout(out), contextlib.redirect_stderr(out):
                status = unreached_calls.main()
        return status, out.getvalue().splitlines()

    def names(self, changes=None):
        status, lines = self.answer(changes)
        found = {line.partition(": ")[2] for line in lines if line.startswith("unreached: ")}
        self.assertEqual(status, 1 if found else 0)
        return found

    def test_what_nothing_reaches(self):
        self.assertEqual(self.names(), UNREACHED)

    def test_a_call_more_takes_one_off(self):
        calls = {"low::join": "low::join(1);", "low::Count::len": "let c = low::Count::new(1); c.len();", "low::Count::rise": "low::Count::new(1).rise(2);",
                 "low::Kind::FIRST": "low::Kind::FIRST;", "low::UNUSED": "low::UNUSED;", "low::shadowed": "[1].map(low::shadowed);"}
        for name, call in calls.items():
            changes = {"crates/program/src/main.rt": f"use high::run;\nfn main() {{ run(1); {call} }}\n"}
            self.assertEqual(self.names(changes), UNREACHED - {name}, call)

    def test_a_call_less_puts_one_on(self):
        for call, names in (("calls!(x) + ", {"low::by_macro"}), ("stack.len();", {"low::Stack::len"}), ("again();", {"low::by_name"})):
            changes = {"crates/high/src/work.rt": FILES["crates/high/src/work.rt"].replace(call, "")}
            self.assertEqual(self.names(changes), UNREACHED | names, call)
        changes = {"crates/tests/src/tests.rt": FILES["crates/tests/src/tests.rt"].replace("#[test]", "")}
        self.assertEqual(self.names(changes), UNREACHED | {"low::Fill::fill", "high::Tank::fill", "high::fill_up", "low::Stack::rise", "low::Kind::name",
                                                          "low::Box2::size", "low::Stack::size"})

    def test_what_has_a_reason(self):
        reasons = "# why\n" + "".join(f"{name} it is to come\n" for name in sorted(UNREACHED))
        self.assertEqual(self.answer(reasons=reasons)[0], 0)
        status, lines = self.answer(reasons=reasons + "low::called it is reached\nlow::no_more it is gone\n")
        self.assertEqual(status, 1)
        self.assertEqual(lines[:2], [f"tools/unreached_calls.txt:{len(UNREACHED) + 2}: low::called is reached",
                                     f"tools/unreached_calls.txt:{len(UNREACHED) + 3}: low::no_more is gone"])
        self.assertEqual(self.answer(reasons="low::join\n")[0], 2)

    def test_what_cannot_be_read(self):
        for text in ("use low::*;\nfn main() {}\n", "fn main() {\n", "main() {}\n"):
            self.assertEqual(self.answer({"crates/program/src/main.rt": text})[0], 2)

    def test_own_crate(self):
        lines = self.answer(words=["--own"])[1]
        self.assertEqual([line for line in lines if line.startswith("own crate: ")], ["own crate: low::Count::new"])


if __name__ == "__main__":
    unittest.main()
