#!/usr/bin/env python3
"""Tests tools/fail_alloc.py over stubs of the program and of the tests of a crate, which the test compiles."""
import contextlib
import io
import os
import shutil
import subprocess
import sys
import tempfile
import unittest
from unittest import mock

TOOLS = os.path.dirname(os.path.abspath(__file__))
sys.dont_write_bytecode = True
sys.path.insert(0, TOOLS)
import fail_alloc

# Each test takes memory three times. What it does if there is none differs.
TESTS = r"""
#include <pthread.h>
#include <stdio.h>
#include <stdlib.h>
#include <string.h>
#include <unistd.h>

static void out(const char *text) { if (write(1, text, strlen(text)) < 0) abort(); }
static void err(const char *text) { if (write(2, text, strlen(text)) < 0) abort(); }

static int takes(const char *name, int turn) {
    void *volatile at = malloc(turn + 1);
    if (at) return 1;
    if (strstr(name, "goes_on")) return 1;
    if (strstr(name, "crashes") && turn == 1) *(volatile int *)at = 1;
    if (strstr(name, "asserts") && turn == 2) { err("assertion failed\n"); abort(); }
    if (strstr(name, "waits") && turn == 0) pause();
    if (strstr(name, "ends_early")) exit(0);
    err(strstr(name, "own_words") ? "error: \"the text\"\n" : strstr(name, "errs") ? "error: Other\n" : "error: OutOfMemory\n");
    err("the test failed: its result gives status 1\n");
    return 0;
}

static void *of_thread(void *nothing) {
    for (int turn = 0; turn < 1000; turn++) free(malloc(1));
    return nothing;
}

int main(int count, char **words) {
    if (count < 2) return 2;
    if (!strcmp(words[1], "--list")) {
        out("tests::answers: test\ntests::goes_on: test\ntests::crashes: test\ntests::asserts: test\ntests::waits: test\n");
        out("tests::ends_early: test\ntests::own_words: test\ntests::errs: test\ntests::left_out: ignored\ntests::fails: test\n");
        out("tests::beside: test\ntests: 11\n");
        return 0;
    }
    if (strstr(words[1], "fails")) { err("error: Other\nthe test failed: its result gives status 1\n"); return 101; }
    if (strstr(words[1], "beside")) {
        pthread_t threads[2];
        for (int at = 0; at < 2; at++) if (pthread_create(&threads[at], NULL, of_thread, NULL)) return 3;
        for (int at = 0; at < 2; at++) pthread_join(threads[at], NULL);
    }
    for (int turn = 0; turn < 3; turn++)
        if (!takes(words[1], turn)) return 101;
    out("\ntest result: ok\n");
    return 0;
}
"""

# It prints two lines, and takes memory before each.
PROGRAM = r"""
#include <stdlib.h>
#include <string.h>
#include <unistd.h>

int main(int count, char **words) {
    for (int turn = 0; turn < 2; turn++) {
        void *volatile at = malloc(8);
        if (!at) return count > 1 && !strcmp(words[1], "wrong") ? 64 : 71;
        if (write(1, turn ? "two\n" : "one\n", 4) < 0) return 1;
    }
    return 0;
}
"""


@unittest.skipUnless(shutil.which("cc"), "there is no cc")
class Runs(unittest.TestCase):
    @classmethod
    def setUpClass(cls):
        cls.room = tempfile.TemporaryDirectory()
        cls.addClassCleanup(cls.room.cleanup)
        for name, text in (("tests", TESTS), ("program", PROGRAM)):
            with open(f"{cls.room.name}/{name}.c", "w", encoding="utf-8") as it:
                it.write(text)
            subprocess.run(["cc", "-o", f"{cls.room.name}/{name}", f"{cls.room.name}/{name}.c", "-pthread"], check=True)

    def run_with(self, *words):
        """The status and what was printed."""
        shown = io.StringIO()
        with mock.patch.object(fail_alloc, "PROGRAM", f"{self.room.name}/program"), mock.patch.object(fail_alloc, "SECONDS", 2):
            with mock.patch("sys.argv", ["fail_alloc", *words]), contextlib.redirect_stdout(shown), contextlib.redirect_stderr(shown):
                try:
                    status = fail_alloc.main()
                except SystemExit as end:
                    status = end.code
        return status, shown.getvalue()

    def run_test(self, part, *words):
        return self.run_with("--test", "some_tests", part, "--program", f"{self.room.name}/tests", *words)

    def test_want_of_memory_is_allowed(self):
        status, shown = self.run_test("::answers")
        self.assertEqual((status, shown.splitlines()), (0, [
            "tests::answers: status 0, 3 allocations",
            "  3 ended with error: OutOfMemory",
            "3 runs: 3 answered want of memory, 0 the sound answer, 0 anything else",
        ]))

    def test_a_test_that_passes_is_allowed(self):
        status, shown = self.run_test("::goes_on")
        self.assertEqual((status, shown.splitlines()[-1]), (0, "3 runs: 0 answered want of memory, 3 the sound answer, 0 anything else"))

    def test_a_signal_is_printed(self):
        for part, number, how in (("crashes", 2, "status -11"), ("asserts", 3, "status -6"), ("waits", 1, "not ended")):
            status, shown = self.run_test(part)
            self.assertEqual(status, 1)
            self.assertIn(f"tests::{part}: allocation {number} of 3: {how}, ", shown)
            self.assertTrue(shown.endswith("3 runs: 2 answered want of memory, 0 the sound answer, 1 anything else\n"), shown)

    def test_an_end_without_a_result_is_printed(self):
        status, shown = self.run_test("ends_early")
        self.assertEqual((status, shown.splitlines()[-1]), (1, "3 runs: 0 answered want of memory, 0 the sound answer, 3 anything else"))

    def test_another_error_is_printed(self):
        for part, words, want in (("errs", [], 0), ("own_words", [], 0), ("own_words", ["--want", "the"], 0), ("own_words", ["--want", "the text"], 3)):
            status, shown = self.run_test(part, *words)
            self.assertEqual(status, 1 if want == 0 else 0)
            self.assertTrue(shown.endswith(f"3 runs: {want} answered want of memory, 0 the sound answer, {3 - want} anything else\n"), shown)

    def test_each_call_of_a_thread_fails_once(self):
        with tempfile.TemporaryDirectory() as room:
            shim = fail_alloc.shim_in(room)
            made = {fail_alloc.call(shim, [f"{self.room.name}/tests", "tests::beside"], room, 0).made for _ in range(5)}
        self.assertEqual(len(made), 1, made)
        self.assertGreaterEqual(made.pop(), 2003)

    def test_what_cannot_be_run(self):
        self.assertEqual(self.run_test("no_such")[0], 2)
        self.assertEqual(self.run_test("left_out")[0], 2)
        status, shown = self.run_test("fails")
        self.assertEqual(status, 2)
        self.assertIn("tests::fails does not pass: status 101", shown)
        self.assertEqual(self.run_with("--want", "x")[0], 2)
        self.assertEqual(self.run_test("answers", "word")[0], 2)

    def test_a_part_of_several_names(self):
        shown = self.run_test("o")[1]
        self.assertIn("tests::goes_on: status 0", shown)
        self.assertIn("tests::own_words: status 0", shown)

    def test_the_program(self):
        status, shown = self.run_with("--", "x")
        self.assertEqual((status, shown), (0, "x: status 0, 2 allocations\n2 runs: 2 answered want of memory, 0 the sound answer, 0 anything else\n"))
        status, shown = self.run_with("--", "wrong")
        self.assertEqual(status, 1)
        self.assertIn("wrong: allocation 2 of 2: status 64, text b'one\\n', errors b''\n", shown)

    def test_the_five_calls(self):
        status, shown = self.run_with()
        self.assertEqual((status, shown.splitlines()[-1]), (0, "10 runs: 10 answered want of memory, 0 the sound answer, 0 anything else"))
        with mock.patch.object(fail_alloc, "PROGRAM", "no_such"), contextlib.redirect_stderr(io.StringIO()), mock.patch("sys.argv", ["fail_alloc"]):
            self.assertRaisesRegex(SystemExit, "2", fail_alloc.main)

    def test_a_program_that_does_not_load_the_library(self):
        with mock.patch.object(fail_alloc, "SHIM", "int nothing;"):
            status, shown = self.run_with("--", "x")
        self.assertEqual(status, 2)
        self.assertIn("does not load the library that counts", shown)


if __name__ == "__main__":
    unittest.main()
