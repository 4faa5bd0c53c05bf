#!/usr/bin/env python3
"""Tests tools/package over a small repository with a substitute for the program. Nothing is installed.

Run it from anywhere: tools/test_package.py. It needs git and dpkg-deb; without them it says so, and ends with status 0.
"""
import hashlib
import os
import re
import shutil
import subprocess
import sys
import tarfile
import tempfile
import time
import unittest

TOP = os.path.dirname(os.path.dirname(os.path.abspath(__file__)))
FILES = {
    "CHANGELOG.md": "# Changelog\n\n## [1.2.0] - 2026-01-02\n\n## [1.1.0] - 2026-01-01\n",
    "README.md": "A document\n",
    "docs/PAGE.md": "A page\n",
    "docs/sccp.1": ".TH SCCP 1\n",
    "docs/help/verify.txt": "NAME\n",
    "examples/plan.toml": "version = 2\n",
    "completions/sccp.bash": "complete -F _sccp sccp\n",
    "completions/_sccp": "#compdef sccp\n",
    ".gitignore": "out/\n",
    "tools/sources": "#!/bin/sh\necho 12ab sccp\n",
    "tools/make_man.py": "import sys\nsys.exit('stale' in open('docs/sccp.1').read())\n",
}
PROGRAM = b"\x7fELF\0libc.so.6\0GLIBC_2.4\0GLIBC_2.34\0GLIBC_2.9\0"
INSTALLED = ["bin/sccp", "share/bash-completion/completions/sccp", "share/doc/sccp/CHANGELOG.md", "share/doc/sccp/README.md",
             "share/doc/sccp/docs/PAGE.md", "share/doc/sccp/examples/plan.toml", "share/man/man1/sccp.1.gz"]


def sums(names):
    found = []
    for name in names:
        with open(name, "rb") as file:
            found.append(hashlib.sha256(file.read()).hexdigest())
    return found


class Package(unittest.TestCase):
    def setUp(self):
        self.folder = tempfile.TemporaryDirectory()
        self.addCleanup(self.folder.cleanup)
        self.top = os.path.join(self.folder.name, "repository")
        for name, text in FILES.items():
            self.write(name, text.encode())
        shutil.copy(os.path.join(TOP, "tools", "package"), os.path.join(self.top, "tools"))
        os.chmod(os.path.join(self.top, "tools/sources"), 0o755)
        self.git("init", "-q", "-b", "main")
        self.commit()
        self.write("out/proved/12ab/sccp", PROGRAM)
        os.chmod(os.path.join(self.top, "out/proved/12ab/sccp"), 0o755)

    def write(self, name, octets):
        place = os.path.join(self.top, name)
        os.makedirs(os.path.dirname(place), exist_ok=True)
        with open(place, "wb") as file:
            file.write(octets)

    def git(self, *words):
        names = ["-c", "user.name=Someone", "-c", "user.email=someone@example.org", "-c", "commit.gpgsign=false"]
        return subprocess.run(["git", *names, *words], cwd=self.top, check=True, capture_output=True, text=True).stdout.strip()

    def commit(self):
        self.git("add", "-A")
        self.git("commit", "-q", "-m", "A change")

    def made(self, folder="made"):
        """The files that the tool makes, in order of their names."""
        done = self.run_tool("--out", os.path.join(self.folder.name, folder))
        self.assertEqual(done.returncode, 0, done.stderr)
        names = done.stdout.splitlines()
        self.assertEqual(sorted(os.path.basename(name) for name in names), sorted(os.listdir(os.path.join(self.folder.name, folder))))
        return sorted(names)

    def run_tool(self, *words):
        return subprocess.run([sys.executable, "tools/package", *words], cwd=self.top, capture_output=True, text=True, check=False)

    def assert_refused(self, words):
        done = self.run_tool("--out", os.path.join(self.folder.name, "refused"))
        self.assertEqual(done.returncode, 1)
        self.assertIn(words, done.stderr)
        self.assertFalse(os.path.exists(os.path.join(self.folder.name, "refused")))

    def test_both_packages_have_all_files_of_root(self):
        tarball, package = self.made()
        with tarfile.open(tarball) as found:
            entries = found.getmembers()
        top = entries[0].name.split("/")[0]
        names = [entry.name.removeprefix(top + "/") for entry in entries]
        self.assertEqual(sorted(names), sorted([*INSTALLED, "share/zsh/site-functions/_sccp"]))
        self.assertEqual({(entry.uid, entry.gid, entry.uname) for entry in entries}, {(0, 0, "root")})
        self.assertEqual([entry.name for entry in entries if entry.mode == 0o755], [top + "/bin/sccp"])
        listed = subprocess.run(["dpkg-deb", "-c", package], capture_output=True, text=True, check=True).stdout.splitlines()
        files = [line.split() for line in listed if not line.startswith("d")]
        self.assertEqual(sorted(words[5] for words in files),
                         sorted("./usr/" + name for name in [*INSTALLED, "share/zsh/vendor-completions/_sccp"]))
        self.assertEqual({words[1] for words in files}, {"root/root"})
        self.assertEqual([words[5] for words in files if words[0] == "-rwxr-xr-x"], ["./usr/bin/sccp"])

    def test_the_same_commit_makes_the_same_files(self):
        first = sums(self.made("first"))
        time.sleep(1.1)
        os.utime(os.path.join(self.top, "README.md"), (1, 1))
        os.chmod(os.path.join(self.top, "docs/PAGE.md"), 0o600)
        self.assertEqual(first, sums(self.made("second")))

    def test_the_version_is_that_of_the_changelog_with_the_commit(self):
        _, package = self.made()
        self.assertEqual(self.field(package, "Version"), "1.2.0+g" + self.git("rev-parse", "--short=12", "HEAD"))
        self.assertEqual(self.field(package, "Depends"), "libc6 (>= 2.34)")
        self.assertEqual(self.field(package, "Maintainer"), "Someone <someone@example.org>")

    def test_what_is_not_released_is_newer(self):
        _, before = self.made("before")
        self.write("CHANGELOG.md", FILES["CHANGELOG.md"].replace("## [1.2.0]", "## [Unreleased]\n\n## [1.2.0]").encode())
        self.commit()
        _, after = self.made("after")
        version = self.field(after, "Version")
        self.assertTrue(re.fullmatch(r"1\.2\.0\+next\d{14}\.g[0-9a-f]{12}", version), version)
        subprocess.run(["dpkg", "--compare-versions", version, "gt", self.field(before, "Version")], check=True)
        subprocess.run(["dpkg", "--compare-versions", version, "lt", "1.2.1"], check=True)

    def field(self, package, name):
        return subprocess.run(["dpkg-deb", "-f", package, name], capture_output=True, text=True, check=True).stdout.strip()

    def test_changes_that_are_not_committed_are_refused(self):
        self.write("docs/PAGE.md", b"Another page\n")
        self.assert_refused("there are changes that are not committed")

    def test_a_file_that_git_does_not_know_is_refused(self):
        self.write("docs/NEW.md", b"A new page\n")
        self.assert_refused("there are changes that are not committed")

    def test_a_build_that_is_not_proved_is_refused(self):
        os.rename(os.path.join(self.top, "out/proved"), os.path.join(self.top, "out/unproved"))
        self.assert_refused("there is no proved program of these sources")

    def test_a_proved_program_of_other_sources_is_refused(self):
        os.rename(os.path.join(self.top, "out/proved/12ab"), os.path.join(self.top, "out/proved/34cd"))
        self.assert_refused("there is no proved program of these sources")

    def test_a_man_page_that_is_out_of_date_is_refused(self):
        self.write("docs/sccp.1", b".TH SCCP 1 stale\n")
        self.commit()
        self.assert_refused("tools/make_man.py --check")

    def test_a_library_without_a_package_is_refused(self):
        self.write("out/proved/12ab/sccp", PROGRAM + b"libunknown.so.1\0")
        done = self.run_tool("--out", os.path.join(self.folder.name, "made"))
        self.assertEqual(done.returncode, 1)
        self.assertIn("libunknown.so.1", done.stderr)


if __name__ == "__main__":
    if not shutil.which("git") or not shutil.which("dpkg-deb"):
        print("git or dpkg-deb is not there, so tools/package is not tried")
        sys.exit(0)
    unittest.main()
