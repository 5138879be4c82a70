"""Tests of conformance/run: what it says of programs that are right, wrong, silent, late or missing; and of the kit's edition."""

import importlib.machinery
import importlib.util
import pathlib
import re
import subprocess
import sys
import unittest

ROOT = pathlib.Path(__file__).resolve().parent.parent
RUN = ROOT / "conformance/run"
LISTINGS = ROOT / "conformance/listings"


def load_run():
    """The script as a module, without a file of compiled code beside it."""
    loader = importlib.machinery.SourceFileLoader("run", str(RUN))
    spec = importlib.util.spec_from_loader("run", loader)
    module = importlib.util.module_from_spec(spec)
    sys.dont_write_bytecode, before = True, sys.dont_write_bytecode
    loader.exec_module(module)
    sys.dont_write_bytecode = before
    return module


run = load_run()

# A job on which the program below does not end.
LATE = "refused-10-nodes-alone"

# Finds the job on standard input among those of the kit and prints its listing, but for question 21 and that job.
PROGRAM = """
import pathlib, sys, time
job = sys.stdin.buffer.read()
kit = pathlib.Path({kit!r})
for known in kit.glob("jobs/*.job"):
    if known.stat().st_size == len(job) and known.read_bytes() == job:
        if known.stem == {late!r}:
            time.sleep(60)
        listing = (kit / "listings" / (known.stem + ".txt")).read_bytes()
        sys.stdout.buffer.write(listing.replace(b"refused 21", b"refused 20"))
"""


class Edition(unittest.TestCase):
    def test_the_kit_is_for_the_header_s_edition(self):
        header = (ROOT / "include/sobrizenta.h").read_text()
        edition = re.search(r"^#define SOBRIZENTA_EDITION (\d+)$", header, re.MULTILINE)[1]
        readme = (ROOT / "conformance/README.md").read_text()
        self.assertEqual(re.findall(r"edition (\d+)", readme), [edition])


class FirstDifference(unittest.TestCase):
    LISTING = b"query 2 0 0\n0 a b\n1 c d\n"

    def test_equal(self):
        self.assertIsNone(run.first_difference(self.LISTING, self.LISTING))

    def test_by_line_and_field(self):
        for printed, words in [
            (b"", "nothing was printed"),
            (b"query 2 1 0\n", 'line 1, field 3 (elements with repeated nodes): expected "0", printed "1"'),
            (b"query 2 0 0\n0 a x\n1 c d\n", 'line 2, field 3 (node\'s distance): expected "b", printed "x"'),
            (b"query 2 0 0\n0 a\n1 c d\n", 'line 2, field 3 (node\'s distance): expected "b", printed nothing'),
            (b"query 2 0 0\n0 a b \n1 c d\n", 'line 2, field 4 (element): expected nothing, printed ""'),
            (b"query 2 0 0\r\n", 'line 1, field 4 (points inside): expected "0", printed "0\\r"'),
            (b"query 2 0 0\n0 a b\n1 c d", "line 3: its line feed is missing"),
            (b"query 2 0 0\n0 a b\n", 'line 3: missing, expected was "1 c d"'),
            (b"query 2 0 0\n0 a b\n1 c d\n\n", "line 4: the listing has ended, printed was more"),
            (b"query 2 0 0\n0 a b\n1 c d\n2", 'line 4: the listing has ended, printed was "2"'),
        ]:
            with self.subTest(printed):
                self.assertEqual(run.first_difference(self.LISTING, printed), words)

    def test_a_refusal(self):
        words = run.first_difference(b"refused 18 2\n", b"refused 18 3\n")
        self.assertEqual(words, 'line 1, field 3 (place): expected "2", printed "3"')

    def test_every_listing_of_the_kit_differs_from_a_listing_with_one_byte_changed(self):
        for listing in LISTINGS.iterdir():
            right = listing.read_bytes()
            for at in {0, len(right) // 2, len(right) - 1}:
                wrong = right[:at] + bytes([right[at] ^ 1]) + right[at + 1 :]
                self.assertIn("line ", run.first_difference(right, wrong))


class Programs(unittest.TestCase):
    def ended(self, *program):
        ended = subprocess.run([sys.executable, RUN, *program], capture_output=True, text=True)
        return ended.returncode, ended.stdout.splitlines(), ended.stderr

    def test_a_program_that_is_right_but_for_one_question_and_one_job(self):
        """It names 21 wrongly, and does not end on the job LATE. The limit leaves it time on a busy machine."""
        program = PROGRAM.format(kit=str(ROOT / "conformance"), late=LATE)
        status, lines, _ = self.ended("--seconds", "15", sys.executable, "-S", "-c", program)
        wrong = len(list(LISTINGS.glob("refused-21-*")))
        jobs = len(list(LISTINGS.iterdir()))
        self.assertEqual(status, 1)
        self.assertEqual(lines[-1], f"{jobs} jobs, {jobs - wrong - 1} agree, {wrong + 1} differ")
        words = 'line 1, field 2 (question): expected "21", printed "20"'
        self.assertEqual([words in line for line in lines].count(True), wrong)
        self.assertEqual([line for line in lines if "stopped" in line], [f"{LATE}.job: stopped after 15 seconds"])

    def test_a_silent_program(self):
        status, lines, _ = self.ended("true")
        self.assertEqual(status, 1)
        self.assertTrue(all(line.endswith("nothing was printed") for line in lines[:-1]))

    def test_no_program(self):
        self.assertEqual(self.ended()[0], 2)
        self.assertEqual(self.ended("/nosuch/program")[2], "/nosuch/program: No such file or directory\n")


if __name__ == "__main__":
    unittest.main()
