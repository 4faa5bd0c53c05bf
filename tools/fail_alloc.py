#!/usr/bin/env python3
"""Makes each allocation of the program, or of a test, fail in turn, and looks at the answer.

  tools/fail_alloc.py [-- WORD ..]
  tools/fail_alloc.py --test CRATE PART [--want TEXT]... [--program FILE]

A small library, compiled by `cc` and loaded before the C library, counts the calls of `malloc`, `calloc` and `realloc` that
are made and answers none at the one whose number it is given. First nothing fails: that is the sound answer. Then there is one
run for each call. An answer that is not allowed is printed, and the status is 1. The last line counts the runs. Status 2: the
runs could not be made.

Of the program, what is allowed is the sound answer, or status 71 (want of memory) with a front of its text. Without words it
makes five calls: the verdict on a plan of two relays, a replay with later plans between fences, by one worker and by four, one
with every kind of line, and one of 64 messages by four workers, of which a thread may find no memory for a block that the
caller then serves. It builds nothing: run ./sccp --prove before.

With --test, each test of a crate whose name has this part is run by itself. What is allowed is that it passes, or that it ends
with an error that says want of memory: no failed assertion, no signal, no other error. The errors are counted by their text.
--want gives one more text that this test has for want of memory. The tests are built without proofs first, which takes minutes,
unless --program gives a build of them.
"""
import argparse
import collections
import os
import re
import resource
import shutil
import subprocess
import sys
import tempfile

TOP = os.path.dirname(os.path.dirname(os.path.abspath(__file__)))
PROGRAM = os.path.join(TOP, "crates/sccp/out/sccp")
CASES = os.path.join(TOP, "crates/worked_cases/data")
NO_MEMORY, TEST_FAILED = 71, 101
SECONDS = 60
# How a test prints the errors of the libraries that are want of memory.
WANT = r"error: .*\b(?:OutOfMemory|AllocError|AllocFailed)\b.*"

SHIM = r"""
#define _GNU_SOURCE
#include <dlfcn.h>
#include <errno.h>
#include <stdlib.h>
#include <sys/mman.h>
#include <unistd.h>
#include <fcntl.h>

static long failing = -1, *count;
static char first[65536];
static size_t used;
static int looking_up;
static void *(*real_malloc)(size_t), *(*real_calloc)(size_t, size_t), *(*real_realloc)(void *, size_t);

/* Each call has a number of its own, also in several threads. */
static int fails(void) {
    return failing >= 0 && __atomic_add_fetch(count, 1, __ATOMIC_RELAXED) == failing;
}

static void *lacking(void) {
    errno = ENOMEM;
    return NULL;
}

static void *next(const char *name) {
    looking_up = 1;
    void *found = dlsym(RTLD_NEXT, name);
    looking_up = 0;
    return found;
}

static void *early(size_t size) {
    void *at = first + used;
    used += (size + 15) / 16 * 16;
    return used <= sizeof first ? at : NULL;
}

static void look_up(void) {
    real_malloc = (void *(*)(size_t))next("malloc");
    real_calloc = (void *(*)(size_t, size_t))next("calloc");
    real_realloc = (void *(*)(void *, size_t))next("realloc");
}

/* The real calls are looked up before there are threads. The count is in a file, since the program may end without the exit
   handlers. */
__attribute__((constructor)) static void begin(void) {
    look_up();
    int file = open(getenv("COUNT_TO"), O_RDWR | O_CREAT | O_TRUNC, 0600);
    if (file < 0 || ftruncate(file, sizeof *count)) abort();
    count = mmap(NULL, sizeof *count, PROT_READ | PROT_WRITE, MAP_SHARED, file, 0);
    if (count == MAP_FAILED) abort();
    close(file);
    failing = atol(getenv("FAIL_AT"));
}

void *malloc(size_t size) {
    if (looking_up) return early(size);
    if (!real_malloc) look_up();
    return fails() ? lacking() : real_malloc(size);
}

void *calloc(size_t number, size_t size) {
    if (looking_up) return early(number * size);
    if (!real_calloc) look_up();
    return fails() ? lacking() : real_calloc(number, size);
}

void *realloc(void *old, size_t size) {
    if (!real_realloc) look_up();
    return fails() ? lacking() : real_realloc(old, size);
}
"""


Answer = collections.namedtuple("Answer", "status text errors made")


def fail(text):
    print(f"fail_alloc: {text}", file=sys.stderr)
    sys.exit(2)


def sixty_four():
    """A trace of this number of messages for relay a of examples/roaming.toml, each for another title."""
    lines = (f"msg a 1-0-1 0980030E120B12060012049471010000{i % 10}{i // 10}044301080802AABB" for i in range(64))
    return "\n".join(lines) + "\n"


def shim_in(room):
    """The small library, compiled in a folder."""
    source, shim = os.path.join(room, "fail.c"), os.path.join(room, "fail.so")
    with open(source, "w", encoding="utf-8") as file:
        file.write(SHIM)
    subprocess.run(["cc", "-O1", "-shared", "-fPIC", "-o", shim, source, "-ldl"], check=True)
    return shim


def call(shim, words, folder, failing):
    """The answer of one run in a folder, in which the call of this number fails; 0 is none. It has no status if it had to be stopped."""
    counted = os.path.join(os.path.dirname(shim), "count")
    if os.path.exists(counted):
        os.remove(counted)
    names = {"LD_PRELOAD": shim, "FAIL_AT": str(failing), "COUNT_TO": counted, "PATH": "/usr/bin:/bin"}
    try:
        ran = subprocess.run(words, cwd=folder, env=names, stdin=subprocess.DEVNULL, capture_output=True, timeout=SECONDS, check=False)
        status, text, errors = ran.returncode, ran.stdout, ran.stderr
    except subprocess.TimeoutExpired as ended:
        status, text, errors = None, ended.stdout or b"", ended.stderr or b""
    if not os.path.exists(counted):
        fail(f"{words[0]} does not load the library that counts")
    with open(counted, "rb") as file:
        return Answer(status, text, errors, int.from_bytes(file.read(), sys.byteorder))


def of_program(now, sound):
    """The kind of an answer of the program, given the one of a run with all its memory."""
    if (now.status, now.text) == (sound.status, sound.text):
        return "sound"
    return "no memory" if now.status == NO_MEMORY and sound.text.startswith(now.text) else "strange"


def passes(now):
    return now.status == 0 and now.text.endswith(b"\ntest result: ok\n")


def error_of(now):
    """The text of the error with which a test ended, or None if it ended otherwise."""
    lines = now.errors.decode(errors="replace").splitlines()
    ends_so = now.status == TEST_FAILED and lines[1:] == ["the test failed: its result gives status 1"]
    return lines[0] if ends_so else None


def of_test(wants):
    """Gives the kind of an answer of a test. Errors of this form are want of memory."""

    def kind(now, _):
        error = error_of(now)
        return "sound" if passes(now) else "no memory" if error and re.fullmatch(wants, error) else "strange"

    return kind


def sweep(name, run, kind_of, runs):
    """Makes a run in which nothing fails and one for each call, and counts what they answered. Prints each one that is not allowed."""
    sound, failing, reached, errors = run(0), 0, True, collections.Counter()
    # Threads may make some calls more or fewer each time.
    while failing < sound.made or reached:
        failing += 1
        now = run(failing)
        kind, reached = kind_of(now, sound), now.made >= failing
        if kind == "strange":
            how = "not ended" if now.status is None else f"status {now.status}"
            print(f"{name}: allocation {failing} of {sound.made}: {how}, text {now.text[-200:]!r}, errors {now.errors[-400:]!r}", flush=True)
        if reached or kind == "strange":
            runs[kind] += 1
            errors[error_of(now)] += 1
    del errors[None]
    print(f"{name}: status {sound.status}, {sound.made} allocations", flush=True)
    for error, number in errors.most_common():
        print(f"  {number} ended with {error}")


def calls_of(room, words):
    """The calls of the program that are made, each as its folder and words."""
    if words:
        return [(os.getcwd(), words)]
    shutil.copy(os.path.join(TOP, "examples/roaming.toml"), os.path.join(room, "plan"))
    with open(os.path.join(room, "trace"), "w", encoding="utf-8") as file:
        file.write(sixty_four())
    return [
        (CASES, ["verify", "plans/s.toml"]),
        (CASES, ["replay", "plans/p.toml", "traces/later_plan_between_fences.txt", "1"]),
        (CASES, ["replay", "plans/p.toml", "traces/later_plan_between_fences.txt", "4"]),
        (TOP, ["replay", "examples/roaming.toml", "examples/every_line.txt", "1"]),
        (room, ["replay", "plan", "trace", "4"]),
    ]


def sweep_program(room, words, runs):
    if not os.access(PROGRAM, os.X_OK):
        fail("the program is not built: run ./sccp --prove")
    shim = shim_in(room)
    for folder, given in calls_of(room, words):
        sweep(" ".join(given), lambda failing: call(shim, [PROGRAM, *given], folder, failing), of_program, runs)


def built(room, crate):
    """Builds the tests of a crate without proofs, in this folder."""
    sys.dont_write_bytecode = True
    sys.path.insert(0, os.path.join(TOP, "tools"))
    import build_program

    print(f"the tests of {crate} are built without proofs, which takes minutes", flush=True)
    try:
        program = build_program.built_in(room, crate, tests=True)
    except build_program.Failed as failed:
        fail(failed)
    return program or fail("the tests could not be built without proofs by this kit: give a build of them by --program")


def tests_of(program, part):
    """The names with this part, of the tests that a program lists."""
    listed = subprocess.run([program, "--list"], stdin=subprocess.DEVNULL, capture_output=True, text=True, timeout=SECONDS, check=False)
    return [name for name in re.findall(r"^(.+): test$", listed.stdout, re.M) if part in name]


def sweep_tests(room, program, part, wants, runs):
    names = tests_of(program, part) or fail(f"no test has {part} in its name")
    shim = shim_in(room)
    for name in names:
        sound = call(shim, [program, name], room, 0)
        if not passes(sound):
            fail(f"{name} does not pass: status {sound.status}, {sound.errors.decode(errors='replace')}")
        sweep(name, lambda failing: call(shim, [program, name], room, failing), of_test(wants), runs)


def main():
    parser = argparse.ArgumentParser(description=__doc__, formatter_class=argparse.RawDescriptionHelpFormatter)
    parser.add_argument("--test", nargs=2, metavar=("CRATE", "PART"), help="the tests of a crate with this part in their names")
    parser.add_argument("--want", action="append", default=[], metavar="TEXT", help="one more error that is want of memory")
    parser.add_argument("--program", metavar="FILE", help="a build of the tests")
    parser.add_argument("words", nargs="*", metavar="WORD", help="a call of the program, after --")
    given = parser.parse_args()
    if given.words if given.test else given.want or given.program:
        parser.error("--want and --program go with --test, and words go without it")
    # A failed assertion aborts, and would leave a file.
    resource.setrlimit(resource.RLIMIT_CORE, (0, 0))
    runs = collections.Counter()
    with tempfile.TemporaryDirectory() as room:
        if given.test:
            crate, part = given.test
            program = os.path.abspath(given.program) if given.program else built(room, crate)
            sweep_tests(room, program, part, "|".join([WANT, *(f'error: "?{re.escape(it)}"?' for it in given.want)]), runs)
        else:
            sweep_program(room, given.words, runs)
    strange = runs["strange"]
    print(f"{sum(runs.values())} runs: {runs['no memory']} answered want of memory, {runs['sound']} the sound answer, {strange} anything else")
    return 1 if strange else 0


if __name__ == "__main__":
    sys.exit(main())
