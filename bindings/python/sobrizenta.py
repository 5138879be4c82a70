"""The nearest node, element and face of each point on a mesh of quadrilaterals, and sparse rows for interpolation,
strain and stress, in binary64.

A thin layer over the C interface of a library whose every answer is proved, to the last bit, against a written
definition (docs/DEFINITION.md; EDITION is its edition). This layer is not proved: it makes the lists, calls, and hands
them out. Python 3.8 or newer, standard library only. Names follow cfsem-py's.

Lists may be flat or nested: [0, 0, 2, 0] and [[0, 0], [2, 0]] are the same two nodes. Everything is counted from 0.
If one of a call's lists is a numpy array, the answer's lists are numpy arrays; else they are Python's, with a tuple for
each pair of coordinates. include/sobrizenta.h explains parameters, units and limits.

A call that is refused raises Refusal, which has the question's number and the place (docs/REFUSALS.md).
"""

import ctypes
import os
import sys
from array import array
from collections import namedtuple
from ctypes import POINTER, c_double, c_size_t, c_uint8, c_uint32, c_uint64
from pathlib import Path

# The constants of include/sobrizenta.h, which says what they are.
EDITION = 1

MOST_NODES = 1_000_000
MOST_ELEMENTS = 1_000_000
MOST_ITERATIONS = 1000
MOST_POINTS = 1_000_000
MOST_MATERIALS = 1_000_000

JOB_MOST_NODES = 512
JOB_MOST_ELEMENTS = 256
JOB_MOST_POINTS = 256

LISTING_ROOM = 30_738

AXISYMMETRIC = 0
PLANE_STRAIN = 1

QuadMeshQueryResult = namedtuple(
    "QuadMeshQueryResult",
    [
        "nearest_node_indices",
        "nearest_node_points",
        "nearest_node_distances",
        "nearest_element_indices",
        "nearest_element_reference_points",
        "nearest_element_points",
        "nearest_element_distances",
        "nearest_face_element_indices",
        "nearest_face_local_faces",
        "nearest_face_reference_coordinates",
        "nearest_face_points",
        "nearest_face_distances",
        "repeated",
        "inside",
    ],
)
QuadMeshQueryResult.__doc__ = """What a query found: twelve lists with one place a point, and two counts.

repeated: elements with fewer distinct node numbers than the family. inside: points with an element distance of 0.
"""

QuadMeshSparseOperator = namedtuple("QuadMeshSparseOperator", ["rows", "cols", "vals", "nrow", "ncol"])
QuadMeshSparseOperator.__doc__ = """A sparse matrix over the nodes: its value in row rows[i] and column cols[i] is vals[i].

Where an element repeats a node, a row and a column can occur together more than once; their values are to be added.
"""

# What a no says, and what the place counts, if it counts anything.
_QUESTIONS = {
    1: ("the family is neither 4 nor 9", None),
    2: ("the node list's length is odd, or there are more than 1,000,000 nodes", None),
    3: ("the connectivity is not whole elements, or there are more than 1,000,000", None),
    4: ("the limit of steps is above 1,000", None),
    5: ("the points are not whole pairs, or there are more than 1,000,000 of them or of element numbers", None),
    6: ("the material table is not whole sixteens, or there are more than 1,000,000, or the list of pairs is odd", None),
    7: ("a lent list is too short", None),
    8: ("a node number of the element is not below the number of nodes", "element"),
    9: ("there is no node", None),
    10: ("there is no element", None),
    11: ("there are not as many element numbers as reference points", None),
    12: ("there are not as many material numbers as elements", None),
    13: ("there are not as many pairs as elements", None),
    14: ("the point's element number is not in the mesh", "point"),
    15: ("the material number of the point's element is not in the table", "point"),
    16: ("the Jacobian determinant at the point is at most 0", "point"),
    17: ("the radius at the point is at most 2^-52", "point"),
}


class Refusal(ValueError):
    """The first question that was answered no, by its number in docs/REFUSALS.md, and where."""

    def __init__(self, question, place):
        words, counted = _QUESTIONS[question]
        where = f" at {counted} {place}" if counted else ""
        super().__init__(f"refused by question {question}{where}: {words}")
        self.question = question
        self.place = place


def query_quad_mesh(family, nodes_rz, elements, query_points, max_iterations):
    """The nearest node, element and face of each point, as a QuadMeshQueryResult.

    family: nodes an element, 4 or 9. nodes_rz and query_points: two coordinates each. elements: `family` node numbers
    each, corners counter-clockwise, then for 9 the midsides and the centre. max_iterations: 0 to 1,000.
    """
    given = _floats(nodes_rz), _numbers(elements, "I"), _floats(query_points)
    count = _accepted_points(given[2].count // 2)
    indices, faces, single, pairs = ("Q", count), ("B", count), ("d", count), ("d", 2 * count)
    node, element = (indices, pairs, single), (indices, pairs, pairs, single)
    lent = [_Lent(*shape) for shape in (*node, *element, indices, faces, single, pairs, single)]
    numbers = _unsigned(family), _unsigned(max_iterations)
    answer = _library().sobrizenta_query_quad_mesh(*numbers, *_spread(given), *_spread(lent))
    _raise_refusal(answer)
    as_numpy = any(map(_is_numpy, (nodes_rz, elements, query_points)))
    lists = [each.taken(each.count, as_numpy) for each in lent]
    for at, name in enumerate(QuadMeshQueryResult._fields[:12]):
        if name.endswith("points"):
            lists[at] = _in_pairs(lists[at], as_numpy)
    return QuadMeshQueryResult(*lists, answer.repeated, answer.inside)


def quad_mesh_interpolation_operator(family, nodes_rz, elements, element_indices, reference_points):
    """Rows that interpolate values of the nodes, as a QuadMeshSparseOperator: one row a point, one column a node.

    element_indices: the element of each point. reference_points: (xi, eta) of each in it, such as a query hands out.
    """
    lists = nodes_rz, elements, element_indices, reference_points
    return _operator(_library().sobrizenta_interpolation_operator, family, lists, (), 1)


def quad_mesh_strain_operator(
    family, nodes_rz, elements, element_indices, reference_points, formulation, thickness=1.0
):
    """Rows that make strains of displacements: row 4 × point + component, column 2 × node + displacement component.

    formulation: AXISYMMETRIC or PLANE_STRAIN. thickness: neither read nor tested.
    """
    lists = nodes_rz, elements, element_indices, reference_points
    more = _unsigned(formulation), c_double(thickness)
    return _operator(_library().sobrizenta_strain_operator, family, lists, more, 8)


def quad_mesh_stress_operator(
    family,
    nodes_rz,
    elements,
    element_indices,
    reference_points,
    material_ids,
    material_table,
    material_orientation_pairs,
    formulation,
    thickness=1.0,
):
    """Rows that make stresses of displacements: the material of the point's element times its strain.

    material_ids: the material number of each element. material_table: sixteen numbers a material, row by row.
    material_orientation_pairs: None, or if the materials are turned (cosine, sine) of the angle of each element.
    """
    lists = nodes_rz, elements, element_indices, reference_points
    pairs_given = material_orientation_pairs is not None
    ids, table = _numbers(material_ids, "Q"), _floats(material_table)
    pairs = _floats(material_orientation_pairs if pairs_given else [])
    more = (
        _unsigned(formulation),
        c_double(thickness),
        *_spread((ids, table)),
        c_uint64(pairs_given),
        *_spread((pairs,)),
    )
    as_numpy = any(map(_is_numpy, (material_ids, material_table, material_orientation_pairs)))
    return _operator(_library().sobrizenta_stress_operator, family, lists, more, 8, as_numpy)


def answer_job(job):
    """The listing of a job file, both as bytes. A job that is refused has a listing too."""
    given, lent = _Given("B", array("B", job)), _Lent("B", LISTING_ROOM)
    answer = _library().sobrizenta_answer_job(*_spread((given, lent)))
    _raise_refusal(answer)
    return lent.values[: answer.bytes].tobytes()


def _operator(call, family, lists, more, per_node, as_numpy=False):
    nodes_rz, elements, element_indices, reference_points = lists
    given = _floats(nodes_rz), _numbers(elements, "I"), _numbers(element_indices, "Q"), _floats(reference_points)
    # A family that is not known is refused before the lists are measured.
    places = _accepted_points(given[2].count) * per_node * (9 if family == 9 else 4)
    lent = _Lent("Q", places), _Lent("Q", places), _Lent("d", places)
    answer = call(_unsigned(family), *_spread(given), *more, *_spread(lent))
    _raise_refusal(answer)
    as_numpy = as_numpy or any(map(_is_numpy, lists))
    triplets = (each.taken(answer.triplets, as_numpy) for each in lent)
    return QuadMeshSparseOperator(*triplets, answer.rows, answer.columns)


def _accepted_points(points):
    """The points for which lists are made. A call with more of them, or of element numbers, is refused before its lists
    are measured."""
    return min(points, MOST_POINTS)


def _raise_refusal(answer):
    if answer.question:
        raise Refusal(answer.question, answer.place)


# ---- lists

_TYPES = {"B": c_uint8, "I": c_uint32, "Q": c_uint64, "d": c_double}


class _Given:
    """A list that the library reads. An empty one has a place that is not counted, so no pointer is null."""

    def __init__(self, code, values):
        self.count = len(values)
        self.values = values if self.count else array(code, [0])
        self.pointer = ctypes.cast(self.values.buffer_info()[0], POINTER(_TYPES[code]))


class _GivenArray:
    """A numpy array with places, which the library reads where it lies."""

    def __init__(self, code, values):
        self.count = values.size
        self.values = values
        self.pointer = ctypes.cast(values.ctypes.data, POINTER(_TYPES[code]))


class _Lent(_Given):
    """A list that the library writes."""

    def __init__(self, code, count):
        super().__init__(code, array(code, bytes(count * array(code).itemsize)))

    def taken(self, count, as_numpy):
        """The first values, as a numpy array or as a list."""
        if as_numpy:
            return sys.modules["numpy"].array(self.values[:count])
        return self.values[:count].tolist()


def _spread(lists):
    """Pointer and count of each list, one after the other."""
    return [part for each in lists for part in (each.pointer, each.count)]


def _is_numpy(values):
    """Whether this is a numpy array. If it is, numpy is loaded."""
    numpy = sys.modules.get("numpy")
    return numpy is not None and isinstance(values, numpy.ndarray)


def _floats(values):
    if not _is_numpy(values):
        return _Given("d", array("d", _flat(values)))
    if values.dtype.kind not in "iuf":
        raise TypeError(f"numbers are needed, not {values.dtype}")
    return _of_numpy("d", values)


def _numbers(values, code):
    """Whole numbers; one below 0 or too large for its type raises OverflowError."""
    if not _is_numpy(values):
        return _Given(code, array(code, _flat(values)))
    if values.size and values.dtype.kind not in "iu":
        raise TypeError(f"whole numbers are needed, not {values.dtype}")
    if values.size and not 0 <= int(values.min()) <= int(values.max()) < 256 ** array(code).itemsize:
        raise OverflowError("a number is below 0 or too large")
    return _of_numpy(code, values)


def _of_numpy(code, values):
    if not values.size:
        return _Given(code, array(code))
    return _GivenArray(code, sys.modules["numpy"].ascontiguousarray(values, dtype=code))


def _flat(values):
    """The numbers of nested lists, in order."""
    for value in values:
        if hasattr(value, "__iter__") and not isinstance(value, (str, bytes)):
            yield from _flat(value)
        else:
            yield value


def _in_pairs(values, as_numpy):
    return values.reshape(-1, 2) if as_numpy else list(zip(values[::2], values[1::2]))


def _unsigned(number):
    """A number as the library takes it; one below 0 or too large raises OverflowError, which ctypes would not."""
    return c_uint64(array("Q", [number])[0])


# ---- the library


def _structure(*names):
    return type("Answer", (ctypes.Structure,), {"_fields_": [(name, c_uint64) for name in names]})


_QUERY_ANSWER = _structure("question", "place", "points", "repeated", "inside")
_OPERATOR_ANSWER = _structure("question", "place", "rows", "columns", "triplets")
_JOB_ANSWER = _structure("question", "place", "bytes")

# Each call: its answer, and its parameters, a list by the letter of its type and a number by its own type.
_MESH = [c_uint64, "d", "I"]
_TRIPLETS = ["Q", "Q", "d"]
_FORMULATION = [c_uint64, c_double]
_CALLS = {
    "sobrizenta_query_quad_mesh": (_QUERY_ANSWER, [c_uint64, c_uint64, *"dId", *"Qdd", *"Qddd", *"QBddd"]),
    "sobrizenta_interpolation_operator": (_OPERATOR_ANSWER, [*_MESH, *"Qd", *_TRIPLETS]),
    "sobrizenta_strain_operator": (_OPERATOR_ANSWER, [*_MESH, *"Qd", *_FORMULATION, *_TRIPLETS]),
    "sobrizenta_stress_operator": (
        _OPERATOR_ANSWER,
        [*_MESH, *"Qd", *_FORMULATION, *"Qd", c_uint64, "d", *_TRIPLETS],
    ),
    "sobrizenta_answer_job": (_JOB_ANSWER, ["B", "B"]),
}

_LOADED = []


def _library():
    """The shared object, loaded once: SOBRIZENTA_LIBRARY, or the one that `make` put beside this file."""
    if not _LOADED:
        made = Path(__file__).resolve().parent / "target" / "libsobrizenta.so"
        path = os.environ.get("SOBRIZENTA_LIBRARY", made)
        try:
            library = ctypes.CDLL(str(path))
        except OSError as error:
            message = f"{error}; `make -C bindings/python` makes it, or SOBRIZENTA_LIBRARY names it"
            raise ImportError(message) from error
        for name, (answer, parameters) in _CALLS.items():
            call = getattr(library, name)
            call.restype = answer
            call.argtypes = [kind for parameter in parameters for kind in _kinds(parameter)]
        _LOADED.append(library)
    return _LOADED[0]


def _kinds(parameter):
    return (POINTER(_TYPES[parameter]), c_size_t) if isinstance(parameter, str) else (parameter,)
