#!/usr/bin/env python3
"""Writes, shows and explains the probe's files. Python 3.8 or newer, nothing else.

    jobfile.py write JOB TEXT                          writes a job file from one plain text
    jobfile.py write JOB --family 4 --iterations 0 --nodes FILE --elements FILE --points FILE
                                                       writes a job file from tables
    jobfile.py show JOB                                prints a job file as text, which `write` takes again
    jobfile.py explain LISTING [--job JOB]             says in words what a listing says

A file named - is standard input, or for `write` standard output.

A text has one record a line, the family first:

    family 4 iterations 0
    node 0 0
    element 0 1 2 3
    point 3 1

A table has one node, element or point a line: two coordinates, or 4 or 9 node numbers from 0. In both, fields are
separated by spaces, commas or semicolons; from # on a line is a comment; empty lines are skipped. With --header the
first line of each table is skipped too.

A coordinate is a decimal such as -1.5e3, or inf, -inf, nan, or 0x and the 16 hexadecimal digits of its bits.

Bad input ends with status 1 and a message that names the file and the line, and nothing is written.
"""

import argparse
import csv
import math
import os
import re
import signal
import struct
import sys
from collections import namedtuple

# The edition of docs/DEFINITION.md that these job files and listings are of.
EDITION = 1

FAMILIES = (4, 9)
MOST_ITERATIONS = 1000
MOST = {"node": 512, "element": 256, "point": 256}
MARKS = {"family": b"QF", "node": b"QN", "element": b"QE", "point": b"QP"}
WORDS = {mark: word for word, mark in MARKS.items()}

# What was asked, in words, and what the place counts. Only these are asked of a job file.
QUESTIONS = {
    1: ("the family is neither 4 nor 9", "record"),
    4: ("the iteration limit is above 1,000", None),
    8: ("a node number of the element is not below the number of nodes", "element"),
    9: ("there is no node", None),
    10: ("there is no element", None),
    18: ("the record's two-byte mark is cut short or not one of QF, QN, QE, QP", "record"),
    19: ("the first record must be QF, and no other may be", "record"),
    20: ("the record is cut short by the end of the file", "record"),
    21: ("the record is one too many: at most 512 nodes, 256 elements, 256 points", "record"),
}


class Bad(Exception):
    """Input that cannot be used: which file, where in it, and why."""

    def __init__(self, file, place, why):
        super().__init__(f"{file}:{place}: {why}" if place else f"{file}: {why}")


# ---- lines of text


def read_bytes(file):
    try:
        if file == "-":
            return sys.stdin.buffer.read()
        with open(file, "rb") as stream:
            return stream.read()
    except OSError as error:
        raise Bad(file, None, error.strerror) from error


def lines_of(file):
    """The lines of a text, with their numbers from 1."""
    lines = read_bytes(file).split(b"\n")
    for number, line in enumerate(lines, 1):
        try:
            yield number, line.decode("utf-8-sig" if number == 1 else "utf-8").rstrip("\r")
        except UnicodeDecodeError as error:
            raise Bad(file, number, "this is no text (UTF-8)") from error


def fields_of(file, number, line):
    """The fields of a line, or none if it is empty or a comment."""
    line = line.split("#")[0].strip()
    for separator in ";,":
        if separator in line:
            try:
                fields = [field.strip() for field in next(csv.reader([line], delimiter=separator, strict=True))]
            except csv.Error as error:
                raise Bad(file, number, f"this line is no CSV: {error}") from error
            if "" in fields:
                raise Bad(file, number, f"field {fields.index('') + 1} is empty")
            return [part for field in fields for part in field.split()]
    return line.split()


def rows_of(file, header=False):
    """The lines that have fields, with their numbers."""
    for number, line in lines_of(file):
        if header and number == 1:
            continue
        fields = fields_of(file, number, line)
        if fields:
            yield number, fields


# ---- numbers

DECIMAL = re.compile(r"[+-]?(\d+\.?\d*|\.\d+)([eE][+-]?\d+)?", re.ASCII)
NAMED = re.compile(r"[+-]?(inf|infinity)|nan", re.IGNORECASE)
BITS = re.compile(r"0[xX][0-9a-fA-F]{16}")
WHOLE = re.compile(r"\d+", re.ASCII)


def coordinate(file, line, field):
    """The eight bytes of a coordinate."""
    if BITS.fullmatch(field):
        return int(field, 16).to_bytes(8, "little")
    if NAMED.fullmatch(field):
        return struct.pack("<d", float(field))
    if not DECIMAL.fullmatch(field):
        raise Bad(file, line, f"{field!r} is no number")
    if math.isinf(float(field)):
        raise Bad(file, line, f"{field} is too large for binary64; write inf if that is meant")
    return struct.pack("<d", float(field))


def coordinate_text(packed):
    """A coordinate so that `coordinate` gives the same bytes again."""
    (number,) = struct.unpack("<d", packed)
    text = repr(number)
    same = struct.pack("<d", float(text)) == packed
    return text if same else f"0x{int.from_bytes(packed, 'little'):016x}"


def whole(file, line, field, least, most, what):
    if not WHOLE.fullmatch(field):
        raise Bad(file, line, f"{what} must be a whole number, not {field!r}")
    if not least <= int(field) <= most:
        raise Bad(file, line, f"{what} must be from {least} to {most}, not {field}")
    return int(field)


# ---- writing


class Job:
    """A job file on its way: records in order, each asked what the probe would ask."""

    def __init__(self):
        self.family = None
        self.records = []
        self.counts = dict.fromkeys(MOST, 0)
        self.rows = []

    def begin(self, file, line, family, iterations):
        self.family = whole(file, line, family, 0, 255, "the family")
        if self.family not in FAMILIES:
            raise Bad(file, line, f"the family must be 4 or 9, not {family}")
        limit = whole(file, line, iterations, 0, MOST_ITERATIONS, "the iteration limit")
        self.records.append(MARKS["family"] + struct.pack("<BH", self.family, limit))

    def add(self, file, line, word, fields):
        expected = self.family if word == "element" else 2
        if len(fields) != expected:
            has = f"an element of family {expected} has {expected} node numbers"
            has = has if word == "element" else f"a {word} has 2 coordinates"
            raise Bad(file, line, f"{has}, here are {len(fields)} fields")
        if self.counts[word] == MOST[word]:
            raise Bad(file, line, f"a job has at most {MOST[word]} {word}s, this is one more")
        self.counts[word] += 1
        if word == "element":
            numbers = [whole(file, line, field, 0, 2**32 - 1, "a node number") for field in fields]
            self.rows.append((file, line, numbers))
            body = struct.pack(f"<{len(numbers)}I", *numbers)
        else:
            body = b"".join(coordinate(file, line, field) for field in fields)
        self.records.append(MARKS[word] + body)

    def bytes(self, file):
        """The whole file, once every node is known; `file` is named where something is missing."""
        for word in ("node", "element"):
            if not self.counts[word]:
                raise Bad(file, None, f"there is no {word}")
        nodes = self.counts["node"]
        for row_file, line, numbers in self.rows:
            for number in numbers:
                if number >= nodes:
                    why = f"node {number} does not exist: there are {nodes} nodes, numbered from 0"
                    raise Bad(row_file, line, why)
        return b"".join(self.records)


def job_of_text(file):
    job = Job()
    for line, (word, *fields) in rows_of(file):
        if word == "family":
            if job.family is not None:
                raise Bad(file, line, "the family stands once, before everything else")
            if len(fields) != 3 or fields[1] != "iterations":
                raise Bad(file, line, "this line must read: family F iterations N")
            job.begin(file, line, fields[0], fields[2])
        elif word not in MARKS:
            raise Bad(file, line, f"{word!r} is none of family, node, element, point")
        elif job.family is None:
            raise Bad(file, line, "the first line must read: family F iterations N")
        else:
            job.add(file, line, word, fields)
    return job.bytes(file)


def job_of_tables(family, iterations, nodes, elements, points, header):
    job = Job()
    job.begin("--family, --iterations", None, family, iterations)
    for word, file in (("node", nodes), ("element", elements), ("point", points)):
        if file:
            for line, fields in rows_of(file, header):
                job.add(file, line, word, fields)
    return job.bytes(elements if job.counts["node"] else nodes)


def write_whole(file, content):
    """Writes the file whole or not at all."""
    if file == "-":
        sys.stdout.buffer.write(content)
        return
    part = f"{file}.part"
    try:
        with open(part, "xb") as stream:
            stream.write(content)
        os.replace(part, file)
    except FileExistsError as error:
        raise Bad(part, None, "is in the way; remove it first") from error
    except OSError as error:
        if os.path.exists(part):
            os.remove(part)
        raise Bad(file, None, error.strerror) from error


# ---- reading a job file


# The first question that a job file fails, its place, and the byte where the record begins, if it is about one.
Fault = namedtuple("Fault", ["number", "place", "byte"], defaults=[None])


def read_job(content):
    """The records (word, body) up to the first fault, and that fault or None."""
    records, counts = [], dict.fromkeys(MOST, 0)
    at, family = 0, None
    while at < len(content):
        word = WORDS.get(content[at : at + 2])
        index = len(records)
        if word is None:
            return records, Fault(18, index, at)
        if (word == "family") != (index == 0):
            return records, Fault(19, index, at)
        length = 3 if word == "family" else 4 * family if word == "element" else 16
        body = content[at + 2 : at + 2 + length]
        if len(body) < length:
            return records, Fault(20, index, at)
        if word == "family":
            family = body[0]
            if family not in FAMILIES:
                return records, Fault(1, index, at)
        elif counts[word] == MOST[word]:
            return records, Fault(21, index, at)
        else:
            counts[word] += 1
        records.append((word, body))
        at += 2 + length
    return records, query_fault(records, counts) if records else Fault(19, 0, 0)


def query_fault(records, counts):
    """What is asked once all records are read."""
    if limit_of(records) > MOST_ITERATIONS:
        return Fault(4, 0)
    for place, row in enumerate(rows_of_job(records)):
        if any(number >= counts["node"] for number in row):
            return Fault(8, place)
    if not counts["node"]:
        return Fault(9, 0)
    return None if counts["element"] else Fault(10, 0)


def limit_of(records):
    return struct.unpack("<BH", records[0][1])[1]


def rows_of_job(records):
    return [numbers_of(body) for word, body in records if word == "element"]


def numbers_of(body):
    return struct.unpack(f"<{len(body) // 4}I", body)


def show(file):
    """Prints the records; a fault is told on standard error, with status 1."""
    content = read_bytes(file)
    records, fault = read_job(content)
    counts = dict.fromkeys(MARKS, 0)
    for index, (word, body) in enumerate(records):
        if word == "family":
            text, note = "family {} iterations {}".format(*struct.unpack("<BH", body)), ""
        else:
            numbers = numbers_of(body) if word == "element" else map(coordinate_text, (body[:8], body[8:]))
            text, note = " ".join(map(str, (word, *numbers))), f", {word} {counts[word]}"
        counts[word] += 1
        print(f"{text:<40} # record {index}{note}")
    if fault:
        raise Bad(file, None, f"the probe refuses this job: {refusal_words(fault.number, fault.place, content)}")


# ---- explaining a listing


def refusal_words(number, place, content=None):
    why, counted = QUESTIONS[number]
    where = f" at {counted} {place}" if counted else ""
    text = f"question {number}{where}: {why}"
    return text + (refusal_detail(number, place, content) if content is not None else "")


def refusal_detail(number, place, content):
    """What the job file has at the place."""
    records, fault = read_job(content)
    if fault is None or (fault.number, fault.place) != (number, place):
        return " (but the job file that was given is not refused so)"
    if number == 4:
        return f"; it is {limit_of(records)}"
    if number == 8:
        row = rows_of_job(records)[place]
        nodes = sum(word == "node" for word, _ in records)
        return f"; its numbers are {' '.join(map(str, row))}, and there are {nodes} nodes"
    if fault.byte is None or not content:
        return ""
    return f"; it begins at byte {fault.byte} with {content[fault.byte:fault.byte + 5].hex(' ')}"


DIGITS = re.compile(r"[0-9a-f]{16}|nan")

# The fields of a point's line: a name, and whether it is a float.
POINT_FIELDS = [
    ("point", False),
    ("node", False),
    ("node's distance", True),
    ("element", False),
    ("xi", True),
    ("eta", True),
    ("element's distance", True),
    ("face's element", False),
    ("face", False),
    ("s", True),
    ("face's distance", True),
]


def float_words(field):
    """The decimal of a float, and its digits beside."""
    if field == "nan":
        return "nan"
    (number,) = struct.unpack(">d", bytes.fromhex(field))
    return f"{number!r} ({field})"


def point_words(file, line, fields, point):
    if len(fields) != len(POINT_FIELDS):
        raise Bad(file, line, f"a point's line has {len(POINT_FIELDS)} fields, here are {len(fields)}")
    for at, (field, (name, is_float)) in enumerate(zip(fields, POINT_FIELDS), 1):
        if not (DIGITS if is_float else WHOLE).fullmatch(field):
            kind = "16 lower-case hexadecimal digits or nan" if is_float else "a whole number"
            raise Bad(file, line, f"field {at} ({name}) must be {kind}, not {field!r}")
    if int(fields[0]) != point:
        raise Bad(file, line, f"point {point} is expected here, not {fields[0]}")
    node, element, face_element, face = (fields[at] for at in (1, 3, 7, 8))
    node_far, xi, eta, far, s, face_far = (float_words(fields[at]) for at in (2, 4, 5, 6, 9, 10))
    return (
        f"\npoint {point}\n"
        f"  nearest node {node}: distance {node_far}\n"
        f"  nearest element {element}: xi {xi}, eta {eta}, distance {far}\n"
        f"  nearest face {face} of element {face_element}: s {s}, distance {face_far}"
    )


def explain(file, job):
    lines = [line for _, line in lines_of(file)]
    if lines.pop():
        raise Bad(file, len(lines) + 1, "the last line has no line feed")
    if not lines:
        raise Bad(file, None, "this listing is empty")
    word, *numbers = lines[0].split(" ")
    expected = {"query": 3, "refused": 2}.get(word)
    if expected is None:
        raise Bad(file, 1, f"a listing begins with query or refused, not {word!r}")
    if len(numbers) != expected or not all(map(WHOLE.fullmatch, numbers)):
        raise Bad(file, 1, f"after {word} come {expected} whole numbers")
    values = list(map(int, numbers))
    if word == "refused":
        print(explain_refusal(file, lines, values, job))
    else:
        print(explain_query(file, lines, values))


def explain_refusal(file, lines, values, job):
    if len(lines) > 1:
        raise Bad(file, 2, "a refusal has one line")
    if values[0] not in QUESTIONS:
        raise Bad(file, 1, f"question {values[0]} is not asked of a job file")
    content = None if job is None else read_bytes(job)
    return f"refused by {refusal_words(*values, content)}"


def explain_query(file, lines, values):
    points, repeated, inside = values
    if len(lines) != 1 + points:
        first_wrong = min(len(lines), points + 1) + 1
        raise Bad(file, first_wrong, f"there are {points} points, and {len(lines) - 1} lines for them")
    counts = f"points: {points}\nelements with repeated nodes: {repeated}\npoints inside an element: {inside}"
    words = [point_words(file, point + 2, line.split(" "), point) for point, line in enumerate(lines[1:])]
    return "\n".join([counts, *words])


# ---- the commands


def arguments():
    parser = argparse.ArgumentParser(
        description=__doc__, formatter_class=argparse.RawDescriptionHelpFormatter, usage="jobfile.py COMMAND .."
    )
    commands = parser.add_subparsers(dest="command", required=True, metavar="COMMAND")
    write = commands.add_parser("write", help="writes a job file")
    write.add_argument("job", metavar="JOB")
    write.add_argument("text", metavar="TEXT", nargs="?")
    for name in ("family", "iterations", "nodes", "elements", "points"):
        write.add_argument(f"--{name}")
    write.add_argument("--header", action="store_true", help="skip the first line of each table")
    commands.add_parser("show", help="prints a job file as text").add_argument("job", metavar="JOB")
    explained = commands.add_parser("explain", help="says in words what a listing says")
    explained.add_argument("listing", metavar="LISTING")
    explained.add_argument("--job", help="the job file that was answered, so that a refusal names what it has there")
    return parser, parser.parse_args()


def write(parser, given):
    tables = (given.family, given.iterations, given.nodes, given.elements)
    if given.text is not None and not any(tables) and not given.points and not given.header:
        write_whole(given.job, job_of_text(given.text))
    elif given.text is None and all(tables):
        write_whole(given.job, job_of_tables(*tables, given.points, given.header))
    else:
        parser.error("write needs a text, or --family, --iterations, --nodes and --elements")


def main():
    if hasattr(signal, "SIGPIPE"):  # so that `show .. | head` ends quietly
        signal.signal(signal.SIGPIPE, signal.SIG_DFL)
    parser, given = arguments()
    try:
        if given.command == "write":
            write(parser, given)
        elif given.command == "show":
            show(given.job)
        else:
            explain(given.listing, given.job)
    except Bad as bad:
        sys.stdout.flush()
        print(bad, file=sys.stderr)
        return 1
    return 0


if __name__ == "__main__":
    sys.exit(main())
