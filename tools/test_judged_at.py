#!/usr/bin/env python3
"""Tests tools/judged_at.py on the stored answers of conform: for each relay of each, and for all of them together."""
import os
import subprocess
import sys
import unittest

sys.dont_write_bytecode = True
TOP = os.path.dirname(os.path.dirname(os.path.abspath(__file__)))
sys.path.insert(0, os.path.join(TOP, "tools"))
import judged_at  # noqa: E402
import lines  # noqa: E402
import stored_cases  # noqa: E402

STORED = [(words, printed) for mark, words, printed in stored_cases.stored_calls() if mark == ">" and lines.command_of(words) == "conform"]
JUDGED = [(words, printed) for words, printed in STORED if printed and printed[-1].startswith("end ")]


def counts_of(printed):
    """The counts of each relay, by its name."""
    records = [lines.read_line(line, "conform") for line in printed]
    return {record["node"]: record for record in records if record["form"] == "relay_counted"}


class OneRelay(unittest.TestCase):
    def test_the_last_line_has_the_relays_own_count(self):
        self.assertGreater(len(JUDGED), 30)
        for words, printed in JUDGED:
            for relay, counts in counts_of(printed).items():
                kept, status = judged_at.judged_at([relay], printed)
                last = lines.read_line(kept[-1], "conform")
                self.assertEqual(last["unexplained"], counts["unexplained"], words)
                self.assertTrue(status == 70 or (status == 2) == (counts["unexplained"] > 0), words)
                self.assertTrue(set(kept[:-1]) <= set(printed), words)
                self.assertEqual(sum(f" from {relay} to " in f" {line}" for line in printed), last["messages"], words)

    def test_another_relays_fault_does_not_count(self):
        found = {judged_at.judged_at([relay], printed)[1] for _, printed in JUDGED for relay in counts_of(printed)
                 if judged_at.judged_at(list(counts_of(printed)), printed)[1] == 2}
        self.assertEqual(found, {0, 2})


class AllRelays(unittest.TestCase):
    def test_the_status_is_that_of_conform(self):
        for words, printed in JUDGED:
            relays = list(counts_of(printed))
            if relays:
                kept, status = judged_at.judged_at(relays, printed)
                whole = lines.read_line(printed[-1], "conform")["unexplained"]
                self.assertEqual(lines.read_line(kept[-1], "conform")["unexplained"], whole, words)
                self.assertIn(status, (70, 2 if whole else 0), words)


class Calls(unittest.TestCase):
    def call(self, words, text):
        done = subprocess.run([os.path.join(TOP, "tools/judged_at.py"), *words], input=text, capture_output=True, encoding="utf-8")
        return done.returncode, done.stdout, done.stderr

    def test_names_of_no_relay(self):
        text = "".join(f"{line}\n" for line in JUDGED[0][1])
        self.assertEqual(self.call(["nobody"], text), (64, "", "no relay of the plan has the name nobody\n"))
        self.assertEqual(self.call([], text), (64, "", "no relay is named\n"))

    def test_what_conform_did_not_judge_stays(self):
        for text in ("bad trace line 1 not a line\n", "read fault\n", "too long\n"):
            self.assertEqual(self.call(["a"], text), (66, text, ""))


if __name__ == "__main__":
    unittest.main()
