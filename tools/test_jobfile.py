"""Tests of jobfile.py: `python3 -m unittest discover -s tools`."""

import contextlib
import io
import pathlib
import re
import struct
import subprocess
import sys
import tempfile
import unittest

import jobfile

TOOL = pathlib.Path(jobfile.__file__)
ROOT = TOOL.parent.parent
EXAMPLE = ROOT / "crates/probe/stdin"
LISTING = ROOT / "crates/probe/stdout"
KIT = ROOT / "conformance"

TEXT = """\
# the example of docs/DEFINITION.md
family 4 iterations 0

node 0 0
node 2.0, 0
node 2; 2e0
node .0 +2
element 0 1 2 3  # counter-clockwise
point 3 1
"""


class Header(unittest.TestCase):
    def test_the_constants_are_the_header_s(self):
        text = (ROOT / "include/sobrizenta.h").read_text()
        header = dict(re.findall(r"^#define SOBRIZENTA_(\w+) (\d+)", text, re.MULTILINE))
        ours = {f"JOB_MOST_{word.upper()}S": most for word, most in jobfile.MOST.items()}
        ours.update(EDITION=jobfile.EDITION, MOST_ITERATIONS=jobfile.MOST_ITERATIONS)
        for name, number in ours.items():
            self.assertEqual(number, int(header[name]), name)


class InAFolder(unittest.TestCase):
    def setUp(self):
        folder = tempfile.TemporaryDirectory()
        self.addCleanup(folder.cleanup)
        self.folder = pathlib.Path(folder.name)

    def file(self, name, content):
        path = self.folder / name
        path.write_bytes(content if isinstance(content, bytes) else content.encode())
        return path

    def run_tool(self, *arguments, stdin=b""):
        """Status, standard output and standard error of a run in the folder."""
        command = [sys.executable, TOOL, *map(str, arguments)]
        ended = subprocess.run(command, input=stdin, capture_output=True, cwd=self.folder)
        return ended.returncode, ended.stdout, ended.stderr.decode()


class Write(InAFolder):
    def written(self, *arguments):
        status, _, errors = self.run_tool("write", "out.job", *arguments)
        self.assertEqual((status, errors), (0, ""))
        return (self.folder / "out.job").read_bytes()

    def assert_refused(self, message, *arguments):
        """The message, and neither a file nor a part of one is left."""
        before = sorted(self.folder.iterdir())
        status, _, errors = self.run_tool("write", "out.job", *arguments)
        self.assertEqual((status, errors), (1, message + "\n"))
        self.assertEqual(sorted(self.folder.iterdir()), before)

    def assert_text_refused(self, text, message):
        self.file("job.txt", text)
        self.assert_refused("job.txt" + message, "job.txt")

    def tables(self, nodes="0 0\n2 0\n2 2\n0 2\n", elements="0 1 2 3\n", points="3 1\n"):
        for name, content in (("nodes", nodes), ("elements", elements), ("points", points)):
            self.file(name, content)
        names = ("--nodes", "nodes", "--elements", "elements", "--points", "points")
        return ["--family", "4", "--iterations", "0", *names]

    def test_a_text_makes_the_example(self):
        self.file("job.txt", TEXT)
        self.assertEqual(self.written("job.txt"), EXAMPLE.read_bytes())

    def test_tables_make_the_example(self):
        self.assertEqual(self.written(*self.tables()), EXAMPLE.read_bytes())

    def test_tables_with_commas_headers_carriage_returns_and_a_byte_order_mark(self):
        tables = self.tables("\ufeffr,z\r\n0,0\r\n2,0\r\n\"2\",2\r\n0,2\r\n", "a;b;c;d\n0;1;2;3", "x y\n3 1\n")
        self.assertEqual(self.written(*tables, "--header"), EXAMPLE.read_bytes())

    def test_the_tables_of_the_example_folder(self):
        names = ("nodes", "elements", "points")
        tables = [part for name in names for part in (f"--{name}", TOOL.parent / f"example/{name}.csv")]
        written = self.written("--family", "4", "--iterations", "0", "--header", *tables)
        self.assertEqual(written, EXAMPLE.read_bytes())

    def test_points_may_be_left_out(self):
        self.assertEqual(self.written(*self.tables()[:-2]), EXAMPLE.read_bytes()[:-18])

    def test_family_9(self):
        nodes = "".join(f"node {k} {k}\n" for k in range(9))
        self.file("job.txt", f"family 9 iterations 1000\n{nodes}element 0 1 2 3 4 5 6 7 8\n")
        self.assertEqual(self.written("job.txt")[:5], b"QF\x09\xe8\x03")

    def test_records_keep_their_order(self):
        self.file("job.txt", "family 4 iterations 1\npoint 1 1\nelement 0 0 0 0\nnode 5 5\n")
        marks = [word for word, _ in jobfile.read_job(self.written("job.txt"))[0]]
        self.assertEqual(marks, ["family", "point", "element", "node"])

    def test_special_coordinates(self):
        special = ["inf", "-Infinity", "nan", "-0.0", "5e-324", "0x7ff0000000000001"]
        for field in special:
            packed = jobfile.coordinate("f", 1, field)
            self.assertEqual(jobfile.coordinate("f", 1, jobfile.coordinate_text(packed)), packed)
        self.assertEqual(jobfile.coordinate("f", 1, "-0.0"), struct.pack("<d", -0.0))

    def test_an_old_file_stays_when_the_new_one_is_bad(self):
        old = self.file("out.job", b"old")
        self.file("job.txt", "family 5 iterations 0\n")
        self.assert_refused("job.txt:1: the family must be 4 or 9, not 5", "job.txt")
        self.assertEqual(old.read_bytes(), b"old")

    def test_bad_lines_are_named(self):
        begin = "family 4 iterations 0\n"
        for text, message in [
            ("node 0 0\n", ":1: the first line must read: family F iterations N"),
            ("family 4\n", ":1: this line must read: family F iterations N"),
            ("family 4 iterations 1001\n", ":1: the iteration limit must be from 0 to 1000, not 1001"),
            ("family 4 iterations -1\n", ":1: the iteration limit must be a whole number, not '-1'"),
            (begin + begin, ":2: the family stands once, before everything else"),
            (begin + "knot 0 0\n", ":2: 'knot' is none of family, node, element, point"),
            (begin + "\n# here\nnode 0\n", ":4: a node has 2 coordinates, here are 1 fields"),
            (begin + "point 1 2 3\n", ":2: a point has 2 coordinates, here are 3 fields"),
            (begin + "element 0 1 2\n", ":2: an element of family 4 has 4 node numbers, here are 3 fields"),
            (begin + "element 0 1 2 3.0\n", ":2: a node number must be a whole number, not '3.0'"),
            (begin + "element 0 1 2 4294967296\n", ":2: a node number must be from 0 to 4294967295, not 4294967296"),
            (begin + "node 1 one\n", ":2: 'one' is no number"),
            (begin + "node 1 1_0\n", ":2: '1_0' is no number"),
            (begin + "node 1 1e999\n", ":2: 1e999 is too large for binary64; write inf if that is meant"),
            (begin + "node 1,,2\n", ":2: field 2 is empty"),
            (begin + "node 0 0\nelement 0 0 1 0\n", ":3: node 1 does not exist: there are 1 nodes, numbered from 0"),
            (begin + "node 0 0\n", ": there is no element"),
            (begin, ": there is no node"),
            ("", ": there is no node"),
            (begin + "node 0 0\n" * 513, ":514: a job has at most 512 nodes, this is one more"),
            (begin + "point 0 0\n" * 257, ":258: a job has at most 256 points, this is one more"),
            (begin + "element 0 0 0 0\n" * 257, ":258: a job has at most 256 elements, this is one more"),
            (begin.encode() + b"node \xff 0\n", ":2: this is no text (UTF-8)"),
        ]:
            with self.subTest(message):
                self.assert_text_refused(text, message)

    def test_a_bad_table_is_named(self):
        self.assert_refused("points:2: 'x' is no number", *self.tables(points="1 1\n1 x\n"))
        self.assert_refused("elements:1: node 7 does not exist: there are 4 nodes, numbered from 0", *self.tables(elements="0 1 2 7"))
        self.assert_refused("nodes: there is no node", *self.tables(nodes="# none\n"))

    def test_files_that_cannot_be_opened(self):
        self.assert_refused("nosuch.txt: No such file or directory", "nosuch.txt")
        self.file("job.txt", TEXT)
        status, _, errors = self.run_tool("write", "nosuch/out.job", "job.txt")
        self.assertEqual((status, errors), (1, "nosuch/out.job: No such file or directory\n"))

    def test_a_folder_in_place_of_the_file(self):
        self.file("job.txt", TEXT)
        (self.folder / "out.job").mkdir()
        self.assert_refused("out.job: Is a directory", "job.txt")

    def test_half_the_arguments(self):
        self.assertEqual(self.run_tool("write", "out.job")[0], 2)
        self.assertEqual(self.run_tool("write", "out.job", "job.txt", "--family", "4")[0], 2)
        self.assertEqual(list(self.folder.iterdir()), [])


class Show(InAFolder):
    def test_the_example(self):
        status, text, _ = self.run_tool("show", EXAMPLE)
        lines = [line.split("#")[0].strip() for line in text.decode().splitlines()]
        self.assertEqual(status, 0)
        self.assertEqual(lines[0], "family 4 iterations 0")
        self.assertEqual(lines[5:], ["element 0 1 2 3", "point 3.0 1.0"])

    def test_a_refused_job_is_shown_as_far_as_it_can_be_read(self):
        job = self.file("cut.job", EXAMPLE.read_bytes()[:-1])
        status, text, errors = self.run_tool("show", job.name)
        self.assertEqual((status, len(text.splitlines())), (1, 6))
        self.assertIn("cut.job: the probe refuses this job: question 20 at record 6:", errors)
        self.assertIn("begins at byte 95", errors)

    def test_what_is_shown_of_the_kit_is_written_again(self):
        """Byte for byte, through the text, for every accepted job."""
        for job in sorted(KIT.glob("jobs/*.job")):
            if jobfile.read_job(job.read_bytes())[1] is None:
                shown = io.StringIO()
                with contextlib.redirect_stdout(shown):
                    jobfile.show(job)
                text = self.file("job.txt", shown.getvalue())
                self.assertEqual(jobfile.job_of_text(text), job.read_bytes(), job.name)


class Explain(InAFolder):
    def explained(self, listing, *arguments):
        self.file("listing", listing)
        return self.run_tool("explain", "listing", *arguments)

    def test_the_example(self):
        status, text, _ = self.explained(LISTING.read_bytes())
        self.assertEqual(status, 0)
        self.assertIn("nearest node 1: distance 1.4142135623730951 (3ff6a09e667f3bcd)", text.decode())
        self.assertIn("nearest face 1 of element 0: s 0.0 (0000000000000000)", text.decode())

    def test_a_refusal_with_its_job(self):
        name = "refused-8-two-elements-family-4"
        listing = (KIT / f"listings/{name}.txt").read_bytes()
        words = "refused by question 8 at element 1: a node number of the element is not below the number of nodes"
        self.assertEqual(self.explained(listing)[1].decode(), words + "\n")
        with_job = self.explained(listing, "--job", KIT / f"jobs/{name}.job")[1].decode()
        self.assertEqual(with_job, words + "; its numbers are 1 2 6 8, and there are 8 nodes\n")
        other = self.explained(listing, "--job", EXAMPLE)[1].decode()
        self.assertIn("not refused so", other)

    def test_bad_listings_are_named(self):
        point = LISTING.read_text().splitlines()[1]
        for listing, message in [
            ("", ": this listing is empty"),
            ("query 0 0 0", ":1: the last line has no line feed"),
            ("answer 1\n", ":1: a listing begins with query or refused, not 'answer'"),
            ("refused 8\n", ":1: after refused come 2 whole numbers"),
            ("refused 7 0\n", ":1: question 7 is not asked of a job file"),
            ("refused 8 0\nquery 0 0 0\n", ":2: a refusal has one line"),
            ("query 2 0 0\n" + point + "\n", ":3: there are 2 points, and 1 lines for them"),
            ("query 0 0 0\n" + point + "\n", ":2: there are 0 points, and 1 lines for them"),
            ("query 1 0 0\n0 1\n", ":2: a point's line has 11 fields, here are 2"),
            ("query 1 0 0\n1" + point[1:] + "\n", ":2: point 0 is expected here, not 1"),
            (
                "query 1 0 0\n" + point.upper() + "\n",
                ":2: field 3 (node's distance) must be 16 lower-case hexadecimal digits or nan, not '3FF6A09E667F3BCD'",
            ),
        ]:
            with self.subTest(message):
                status, text, errors = self.explained(listing)
                self.assertEqual((status, text, errors), (1, b"", f"listing{message}\n"))

    def test_every_listing_of_the_kit_can_be_explained(self):
        for listing in KIT.glob("listings/*.txt"):
            with contextlib.redirect_stdout(io.StringIO()) as words:
                jobfile.explain(listing, KIT / f"jobs/{listing.stem}.job")
            self.assertNotIn("not refused so", words.getvalue(), listing.name)


class Reading(unittest.TestCase):
    def test_the_tool_refuses_what_the_kit_refuses(self):
        """Number and place, for every job of the kit."""
        for job in KIT.glob("jobs/*.job"):
            listing = (KIT / f"listings/{job.stem}.txt").read_text()
            fault = jobfile.read_job(job.read_bytes())[1]
            if fault:
                self.assertEqual(listing, f"refused {fault.number} {fault.place}\n", job.name)
            else:
                self.assertTrue(listing.startswith("query "), job.name)


if __name__ == "__main__":
    unittest.main()
