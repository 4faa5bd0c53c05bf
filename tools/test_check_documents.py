#!/usr/bin/env python3
"""Tests tools/check_documents over small trees with a program of a few lines: documents that are right, and others that are wrong.

Run it from anywhere: tools/test_check_documents.py. It needs neither the prover nor the program.
"""
import os
import shutil
import signal
import subprocess
import sys
import tempfile
import time
import unittest

TOOL = os.path.join(os.path.dirname(os.path.abspath(__file__)), "check_documents")

PROGRAM = """#!/usr/bin/env bash
case "$1" in
  count) for ((i = 1; i <= $2; i++)); do echo "line $i"; done ;;
  read) cat "$2" ;;
  *) echo "usage: count NUMBER | read FILE"; echo "no command $1" >&2; exit 64 ;;
esac
"""

RIGHT = """# A right document

See [the other page](docs/OTHER.md#two-words-and-code), [below](#a-right-document-1) and `examples/plan.txt`; `docs/*.md` too.

```console
$ ./sccp count 2
line 1
line 2
$ ./sccp count 9
line 1
...
line 5
...
line 9
$ ./sccp say
usage: count NUMBER | read FILE
[status 64]
$ ./sccp say 2>&1 | tail -1
no command say
$ ./sccp read examples/plan.txt > kept.txt
$ cat kept.txt
a plan

with an empty line
$ ./sccp count \\
    1
line 1
```

```console needs=no-such-program
$ no-such-program
nothing
```

```sh
./sccp count 5
```

~~~
$ cat kept.txt | wc -l
3
~~~

# A right document
"""

HELP = """NAME
  count - counts, as docs/OTHER.md says

EXAMPLE
  $ ./sccp count 2 | tail -1
  line 2
"""

OTHER = """# The other page

## Two words, and `code`
"""


class Tree:
    """A small repository with the tool in it."""

    def __init__(self, readme, program=PROGRAM, help_text=HELP):
        self.folder = tempfile.TemporaryDirectory()
        self.top = os.path.join(self.folder.name, "repository")
        for name, text in (("README.md", readme), ("docs/OTHER.md", OTHER), ("docs/help/count.txt", help_text), ("examples/plan.txt", "a plan\n\nwith an empty line\n")):
            self.write(name, text)
        if program:
            self.write("crates/sccp/out/sccp", program)
            os.chmod(os.path.join(self.top, "crates/sccp/out/sccp"), 0o755)
        os.makedirs(os.path.join(self.top, "tools"))
        shutil.copy(TOOL, os.path.join(self.top, "tools"))
        self.scratch = os.path.join(self.folder.name, "scratch")
        os.mkdir(self.scratch)

    def write(self, name, text):
        place = os.path.join(self.top, name)
        os.makedirs(os.path.dirname(place), exist_ok=True)
        with open(place, "w", encoding="utf-8") as file:
            file.write(text)

    def begin(self, *words):
        return subprocess.Popen([sys.executable, os.path.join(self.top, "tools/check_documents"), *words], stdout=subprocess.PIPE,
                                stderr=subprocess.PIPE, text=True, env=dict(os.environ, TMPDIR=self.scratch))


class Documents(unittest.TestCase):
    def found(self, readme, *words, program=PROGRAM, help_text=HELP):
        """The status of the tool over a tree, and what it reported. It prints nothing else, and leaves nothing in the scratch folder."""
        tree = Tree(readme, program, help_text)
        with tree.folder:
            with tree.begin(*words) as process:
                printed, told = process.communicate(timeout=60)
            self.assertEqual(printed, "")
            self.assertEqual(os.listdir(tree.scratch), [])
            return process.returncode, told

    def assert_fault(self, readme, *parts, words=()):
        status, told = self.found(readme, *words)
        self.assertEqual(status, 1, told)
        for part in parts:
            self.assertIn(part, told)

    def test_a_right_document_passes(self):
        status, told = self.found(RIGHT)
        self.assertEqual(status, 0, told)
        self.assertIn("README.md: 8 commands, 2 paths, 2 links, 1 commands left out: all as shown", told)
        self.assertIn("since no-such-program is not there", told)

    def test_another_output_is_a_fault(self):
        self.assert_fault(RIGHT.replace("line 2\n", "line two\n"), "1 faults", "line 6: $ ./sccp count 2", "-line two", "+line 2")

    def test_output_that_ends_early_is_a_fault(self):
        self.assert_fault(RIGHT.replace("line 2\n$", "$"), "1 faults", "+line 2")

    def test_an_empty_line_counts(self):
        self.assert_fault(RIGHT.replace("a plan\n\nwith", "a plan\nwith"), "1 faults", "line 21: $ cat kept.txt")

    def test_what_stands_between_must_be_there(self):
        self.assert_fault(RIGHT.replace("line 5", "line 10"), "1 faults", "line 9: $ ./sccp count 9")

    def test_another_status_is_a_fault(self):
        self.assert_fault(RIGHT.replace("[status 64]", "[status 1]"), "1 faults", "ends with status 64, not 1",
                          "standard error: no command say")

    def test_an_example_of_a_help_text_counts(self):
        status, told = self.found(RIGHT)
        self.assertIn("docs/help/count.txt: 1 commands, 1 paths, 0 links: all as shown", told)
        status, told = self.found(RIGHT, help_text=HELP.replace("  line 2", "  line 3"))
        self.assertEqual(status, 1)
        self.assertIn("line 5: $ ./sccp count 2 | tail -1: prints something else", told)

    def test_a_path_that_is_not_there_is_a_fault(self):
        self.assert_fault(RIGHT.replace("`examples/plan.txt`", "`examples/other.txt`"), "line 3: there is no examples/other.txt")

    def test_a_link_that_leads_nowhere_is_a_fault(self):
        self.assert_fault(RIGHT.replace("#two-words-and-code", "#two-words"), "the link to docs/OTHER.md#two-words leads to no heading")
        self.assert_fault(RIGHT.replace("(#a-right-document-1)", "(docs/NONE.md)"), "the link to docs/NONE.md leads to no file")

    def test_a_call_that_is_not_run_is_a_fault(self):
        self.assert_fault(RIGHT + "```\n./sccp count 1\n```\n", "not run, since it does not begin with '$ ': ./sccp count 1")
        self.assert_fault(RIGHT + "```\nline 1\n$ ./sccp count 0\n```\n", "output without a command")

    def test_a_command_that_takes_too_long_is_a_fault(self):
        begun = time.monotonic()
        self.assert_fault("```\n$ sleep 50 & sleep 50\n```\n", "not done in 0.5 seconds", words=("--limit", "0.5"))
        self.assertLess(time.monotonic() - begun, 20)

    def test_without_a_program_it_fails(self):
        status, told = self.found(RIGHT, program=None)
        self.assertEqual(status, 1)
        self.assertIn("no program has been built", told)
        status, told = self.found(RIGHT, "--program", "nothing-here")
        self.assertEqual(status, 1)
        self.assertIn("there is no program nothing-here", told)

    def test_the_proved_program_comes_first(self):
        tree = Tree("```\n$ ./sccp\nproved\n```\n")
        with tree.folder:
            for name, text in (("tools/sources", "echo 12ab sccp_base sccp"), ("out/proved/12ab/sccp", "echo proved")):
                tree.write(name, f"#!/usr/bin/env bash\n{text}\n")
                os.chmod(os.path.join(tree.top, name), 0o755)
            with tree.begin(os.path.join(tree.top, "README.md")) as process:
                _, told = process.communicate(timeout=60)
            self.assertEqual(process.returncode, 0, told)
            self.assertIn("the program is out/proved/12ab/sccp", told)

    def test_an_end_by_a_signal_leaves_nothing(self):
        for number in (signal.SIGINT, signal.SIGTERM):
            tree = Tree("```\n$ echo $$ > \"$TMPDIR/begun\"; sleep 50\n```\n")
            with tree.folder, tree.begin() as process:
                mark = os.path.join(tree.scratch, "begun")
                while not os.path.exists(mark) or not os.path.getsize(mark):
                    time.sleep(0.02)
                with open(mark, encoding="utf-8") as file:
                    group = int(file.read())
                process.send_signal(number)
                process.communicate(timeout=20)
                self.assertEqual(process.returncode, 128 + number)
                self.assertEqual(os.listdir(tree.scratch), ["begun"])
                self.assertRaises(ProcessLookupError, self.wait_for_end, group)

    def wait_for_end(self, group):
        """Looks for a group of processes until there is none, and at most for some seconds."""
        for _ in range(200):
            os.killpg(group, 0)
            time.sleep(0.02)


if __name__ == "__main__":
    unittest.main()
