"""Tests of runtests.py: what it finds in code, what it says is missing, and how it counts."""

import contextlib
import io
import os
import pathlib
import shutil
import tempfile
import unittest
from unittest import mock

import runtests

LINES = """
both.a:     file format elf64-x86-64
0000000000000000 <fmadd>:
   0:\tendbr64
   4:\tjmp    fadd <fmadd+0xfadd>
   9:\tdata16 cs nopw 0x0(%rax,%rax,1)
  12:\tfs nop
  14:\t{vex} vfmadd213sd %xmm2,%xmm1,%xmm0
  19:\tmulsd  0x8(%rip),%xmm0        # 29 <fmul>
"""

assembling = unittest.skipUnless(all(map(shutil.which, ["gcc", "ar", "objdump"])), "gcc or binutils is not there")


class Search(unittest.TestCase):
    def of(self, text):
        with mock.patch.object(runtests, "run", return_value=text):
            return runtests.disassembled("both.a")

    def test_a_mnemonic_stands_behind_its_prefixes(self):
        self.assertEqual(self.of(LINES), [["endbr64", "jmp", "nopw", "nop", "vfmadd213sd", "mulsd"]])

    def test_only_mnemonics_are_forbidden(self):
        self.assertEqual(runtests.forbidden(self.of(LINES)), ["vfmadd213sd"])

    @assembling
    def test_planted_instructions_are_found(self):
        runtests.search_finds()
        with mock.patch.object(runtests, "FORBIDDEN", runtests.re.compile("vfmadd.*")):
            self.assertRaises(runtests.Failed, runtests.search_finds)

    def searched(self, text):
        with tempfile.TemporaryDirectory() as folder:
            return runtests.searched(runtests.assembled(pathlib.Path(folder), text, "code.o"))

    @assembling
    def test_code_must_be_seen(self):
        self.assertEqual(self.searched(runtests.SOUND), (1, 6))
        for text, words in [
            ("", "code of 0 seen"),
            ("nop", "no multiplication"),
            ("mulsd %xmm1, %xmm0\n fmulp", "fmulp"),
        ]:
            with self.subTest(text):
                self.assertRaisesRegex(runtests.Failed, words, self.searched, text)


class Needs(unittest.TestCase):
    def test_what_is_missing_is_named(self):
        with tempfile.TemporaryDirectory() as empty:
            with mock.patch.dict(os.environ, PATH=empty, CFSEM_SRC=empty):
                with mock.patch.object(runtests, "REGISTRY", pathlib.Path(empty)):
                    with self.assertRaises(runtests.Failed) as failed:
                        runtests.needs()
        said = str(failed.exception)
        for words in ["rt\n", "gcc (Debian package gcc)\n", "(Debian package librust-libm-dev)\n", "CFSEM_SRC"]:
            self.assertIn(words, said)
        self.assertEqual(said.count("missing: "), len(runtests.COMMANDS) + len(runtests.CRATES) + 1)

    def installed(self, root, after):
        """The commands that install what is missing, for root or another user, where `after` is missing afterwards."""
        with mock.patch.object(runtests, "missing", side_effect=[{"gcc": "gcc", "libm": "librust-libm-dev"}, after]):
            with mock.patch.object(runtests.os, "geteuid", return_value=0 if root else 1000):
                with mock.patch.object(runtests.shutil, "which", return_value="/usr/bin/apt-get"):
                    with mock.patch.object(runtests, "run") as run, mock.patch.dict(os.environ):
                        runtests.needs()
        return [call.args for call in run.call_args_list]

    def test_root_installs_debian_packages(self):
        commands = [("apt-get", "update"), ("apt-get", "install", "--yes", "gcc", "librust-libm-dev")]
        self.assertEqual(self.installed(True, {}), commands)
        self.assertRaisesRegex(runtests.Failed, "missing: rt\n", self.installed, True, {"rt": None})

    def test_another_user_installs_nothing(self):
        self.assertEqual(self.installed(False, {}), [])


class Verdict(unittest.TestCase):
    GOOD = ("good", lambda: None)
    BAD = ("bad", runtests.command("sh", "-c", "echo what is wrong; exit 3"))
    ABSENT = ("absent", runtests.command("/nosuch/program"))

    def of(self, first, parts):
        printed = io.StringIO()
        with contextlib.redirect_stdout(printed), mock.patch.object(runtests.time, "monotonic", return_value=0.0):
            status = runtests.verdict(first, parts)
        return status, printed.getvalue().splitlines()

    def test_all_pass(self):
        status, lines = self.of([self.GOOD], [self.GOOD, ("noted", lambda: "7 objects")])
        self.assertEqual(status, 0)
        good, noted = "good: passed (0 s)", "noted: passed (0 s; 7 objects)"
        self.assertEqual(lines, [good, good, noted, "3 passed, 0 failed"])

    def test_a_part_that_fails_is_shown_and_the_others_are_run(self):
        status, lines = self.of([], [self.BAD, self.ABSENT, self.GOOD])
        self.assertEqual(status, 1)
        self.assertEqual(lines[:2], ["bad: failed (0 s)", "what is wrong"])
        self.assertIn("/nosuch/program", lines[4])
        self.assertEqual(lines[-2:], ["good: passed (0 s)", "1 passed, 2 failed"])

    def test_nothing_is_run_after_a_first_part_that_fails(self):
        status, lines = self.of([self.BAD, self.GOOD], [self.GOOD])
        self.assertEqual((status, lines[-1], len(lines)), (1, "0 passed, 1 failed", 4))


if __name__ == "__main__":
    unittest.main()
