"""Tests of sobrizenta.py: `make -C bindings/python test`."""

import pathlib
import re
import struct
import subprocess
import sys
import unittest

import sobrizenta
from sobrizenta import AXISYMMETRIC, PLANE_STRAIN, Refusal

try:
    import numpy
except ImportError:
    numpy = None

HERE = pathlib.Path(__file__).resolve().parent
ROOT = HERE.parent.parent

NODES = [(0, 0), (2, 0), (2, 2), (0, 2), (4, 0), (4, 2)]
ELEMENTS = [(0, 1, 2, 3), (1, 4, 5, 2)]


def digits(number):
    return "nan" if number != number else struct.pack(">d", number).hex()


class Header(unittest.TestCase):
    def test_every_constant_of_the_header_is_here(self):
        text = (ROOT / "include/sobrizenta.h").read_text()
        constants = re.findall(r"^#define SOBRIZENTA_(\w+) (\d+)", text, re.MULTILINE)
        formulations = re.findall(r"enum sobrizenta_formulation {(.*?)};", text, re.DOTALL)
        constants += re.findall(r"SOBRIZENTA_(\w+) = (\d+)", formulations[0])
        ours = {name: value for name, value in vars(sobrizenta).items() if isinstance(value, int)}
        self.assertEqual(ours, {name: int(number) for name, number in constants})


class Stored(unittest.TestCase):
    """The stored jobs and operator cases, whose answers are the published Rust's."""

    def test_every_job_of_the_kit(self):
        jobs = list(ROOT.glob("conformance/jobs/*.job"))
        self.assertGreater(len(jobs), 100)
        for job in jobs:
            listing = (ROOT / "conformance/listings" / (job.stem + ".txt")).read_bytes()
            self.assertEqual(sobrizenta.answer_job(job.read_bytes()), listing, job.name)

    def test_every_operator_case(self):
        """Their bytes and their text are described in compare/README.md."""
        folder = ROOT / "crates/replay_operators"
        rest, compared = (folder / "stdin").read_bytes(), 0
        texts = (folder / "stdout").read_text().split("kept\n")
        for expected in texts[:-1]:
            (length,) = struct.unpack_from("<I", rest)
            case, rest = rest[4 : 4 + length], rest[4 + length :]
            # Lists of the caller that are too short do not arise here: the module lends its own.
            if expected != "refused 7 0\n":
                self.assertEqual(operated(case), expected)
                compared += 1
        self.assertEqual(rest, b"")
        self.assertGreater(compared, 700)


def operated(case):
    operator, family, formulation, given, thickness = struct.unpack_from("<4Bd", case)
    counts = struct.unpack_from("<10H", case, 12)
    at, lists = 32, []
    for count, letter in zip(counts, "dIIdIdd"):
        lists.append(list(struct.unpack_from(f"<{count}{letter}", case, at)))
        at += struct.calcsize(f"<{count}{letter}")
    nodes, elements, indices, references, ids, table, pairs = lists
    mesh = family, nodes, elements, indices, references
    try:
        if operator == 0:
            built = sobrizenta.quad_mesh_interpolation_operator(*mesh)
        elif operator == 1:
            built = sobrizenta.quad_mesh_strain_operator(*mesh, formulation, thickness)
        else:
            turned = pairs if given else None
            built = sobrizenta.quad_mesh_stress_operator(*mesh, ids, table, turned, formulation, thickness)
    except Refusal as refusal:
        return f"refused {refusal.question} {refusal.place}\n"
    lines = [f"built {built.nrow} {built.ncol} {len(built.vals)}\n"]
    lines += [f"{row} {col} {digits(val)}\n" for row, col, val in zip(built.rows, built.cols, built.vals)]
    return "".join(lines)


class Calls(unittest.TestCase):
    def assert_refused(self, question, place, call, *arguments):
        with self.assertRaises(Refusal) as caught:
            call(*arguments)
        self.assertEqual((caught.exception.question, caught.exception.place), (question, place))
        return str(caught.exception)

    def test_the_example(self):
        printed = subprocess.run([sys.executable, HERE / "example.py"], capture_output=True, text=True, cwd="/")
        self.assertEqual(printed.stdout, (HERE.parent / "worked.txt").read_text())

    def test_every_list_of_a_query(self):
        found = sobrizenta.query_quad_mesh(4, NODES, ELEMENTS, [3, 1.5], 10)
        self.assertEqual(
            found,
            ([2], [(2, 2)], [1.25**0.5], [1], [(0, 0.5)], [(3, 1.5)], [0], [1], [2], [0], [(3, 2)], [0.5], 0, 1),
        )

    def test_no_points_and_no_numbers(self):
        self.assertEqual(sobrizenta.query_quad_mesh(4, NODES, ELEMENTS, [], 0), ([],) * 12 + (0, 0))
        self.assertEqual(sobrizenta.quad_mesh_interpolation_operator(9, [], [], [], []), ([], [], [], 0, 0))

    def test_refusals(self):
        query, strain = sobrizenta.query_quad_mesh, sobrizenta.quad_mesh_strain_operator
        self.assert_refused(1, 0, query, 5, NODES, ELEMENTS, [], 0)
        self.assert_refused(4, 0, query, 4, NODES, ELEMENTS, [], 1001)
        self.assert_refused(5, 0, query, 4, NODES, ELEMENTS, [0.0] * 2_000_002, 0)
        words = self.assert_refused(8, 1, query, 4, NODES[:5], ELEMENTS, [], 0)
        self.assertEqual(
            words, "refused by question 8 at element 1: a node number of the element is not below the number of nodes"
        )
        self.assert_refused(17, 1, strain, 4, NODES, ELEMENTS, [0, 0], [0, 0, -1, 0], AXISYMMETRIC)
        self.assertEqual(strain(4, NODES, ELEMENTS, [0], [-1, 0], PLANE_STRAIN).nrow, 4)

    def test_what_is_no_number_of_its_type(self):
        query = sobrizenta.query_quad_mesh
        for error, arguments in [
            (OverflowError, (-4, NODES, ELEMENTS, [], 0)),
            (OverflowError, (4, NODES, ELEMENTS, [], 2**64)),
            (OverflowError, (4, NODES, [0, 1, 2, -3], [], 0)),
            (OverflowError, (4, NODES, [0, 1, 2, 2**32], [], 0)),
            (TypeError, (4, NODES, [0, 1, 2, 3.0], [], 0)),
            (TypeError, (4, ["0", "1"], ELEMENTS, [], 0)),
            (TypeError, (4, None, ELEMENTS, [], 0)),
        ]:
            with self.subTest(arguments), self.assertRaises(error):
                query(*arguments)


@unittest.skipIf(numpy is None, "numpy is not there")
class Arrays(unittest.TestCase):
    def test_arrays_in_and_out(self):
        nodes, elements = numpy.array(NODES, dtype=float), numpy.array(ELEMENTS)
        points = numpy.array([[3, 1.5], [1, 1], [9, 9]])
        found = sobrizenta.query_quad_mesh(4, nodes, elements, points, 10)
        listed = sobrizenta.query_quad_mesh(4, NODES, ELEMENTS, points.tolist(), 10)
        for array, expected in zip(found[:12], listed[:12]):
            self.assertIsInstance(array, numpy.ndarray)
            numpy.testing.assert_array_equal(array, expected)
        self.assertEqual(found.nearest_face_points.shape, (3, 2))
        self.assertEqual(found[12:], listed[12:])
        operator = sobrizenta.quad_mesh_interpolation_operator(
            4, nodes, elements, found.nearest_element_indices, found.nearest_element_reference_points
        )
        self.assertEqual(operator.vals.dtype, numpy.float64)
        self.assertEqual((operator.nrow, operator.ncol), (3, 6))

    def test_arrays_that_do_not_lie_as_the_library_reads(self):
        turned = numpy.array(NODES, dtype=numpy.float32).T.copy().T[::-1][::-1]
        found = sobrizenta.query_quad_mesh(4, turned, numpy.array(ELEMENTS, dtype=numpy.int8), [[3, 1.5]], 10)
        self.assertEqual(found.nearest_element_indices.tolist(), [1])

    def test_empty_arrays(self):
        empty = numpy.array([])
        self.assertEqual(len(sobrizenta.query_quad_mesh(4, NODES, ELEMENTS, empty, 0).nearest_node_indices), 0)
        self.assertEqual(len(sobrizenta.quad_mesh_interpolation_operator(4, empty, empty, empty, empty).vals), 0)

    def test_arrays_of_another_kind(self):
        nodes = numpy.array(NODES, dtype=float)
        for error, elements in [(TypeError, nodes), (OverflowError, numpy.array([[0, 1, 2, -3]]))]:
            with self.assertRaises(error):
                sobrizenta.query_quad_mesh(4, nodes, elements, [], 0)
        with self.assertRaises(TypeError):
            sobrizenta.query_quad_mesh(4, nodes.astype(complex), ELEMENTS, [], 0)


if __name__ == "__main__":
    unittest.main()
