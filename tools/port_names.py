#!/usr/bin/env python3
"""Brings the names of this repository's definitions and lemmas to today's spelling.

usage: tools/port_names.py [--list]

Run once, after the toolchain's own script and before any edit by hand. Words are in snake case: a definition
`pointAnswer` is `point_answer`, a lemma `root-is` is `root_is`. Types, modules, names of src/ and exported C names
stay. OTHER has the names that would fall together with another in a file that has both. In a comment only what stands
between backquotes is turned. --list prints the pairs and writes nothing.
"""

import pathlib
import re
import sys

ROOT = pathlib.Path(__file__).resolve().parent.parent
DECLARED = re.compile(
    r"^\s*(?:(?:abbrev|unfoldable|pub|ruleset|inline) )*(\+?[^\W\d][\w'⊗⊖⊕+-]*)\s*(?:[({][^:]*[)}]\s*)*:(?=\s)",
    re.MULTILINE,
)
# A name: parts of letters, digits, _ and ', joined by dashes.
NAME = re.compile(r"(?<![\w'-])\+?[^\W\d][\w']*(?:-[\w'⊗⊖⊕*]+)*(?![\w'])")
HUMP = re.compile(r"(?<=[a-z0-9])([A-Z])")
# Goals and fields that a check makes have names of their own.
MADE = re.compile(
    r"(returns|loop|invariant|decreases|add|sub|mul|div|rem|shl|shr|cast|slice|array|shared|mut|float|enum|aggregate)-.*"
    r"|.*-requires(-\d+)?|.*-\d+|in-[A-Z]\w*|well-formed"
)
OTHER = {
    "answer_at": "answer_at_lem",
    "element-distance": "element_distance_is",
    "element-in": "element_is_in",
    "element-stored": "element_stored_lem",
    "elements-whole": "elements_whole_lem",
    "face-distance": "face_distance_is",
    "face-stored": "face_stored_lem",
    "grain-of": "grain_of_product",
    "is-in": "is_in_lem",
    "node-distance": "node_distance_is",
    "node-stored": "node_stored_lem",
    "nodes-whole": "nodes_whole_lem",
    "on-face": "on_face_lem",
    "points-whole": "points_whole_lem",
    "rows-of": "rows_of_lem",
    "rows-of'": "rows_of_lem'",
    "shown_of": "shown_of_lem",
    "some-element": "some_element_lem",
    "some-node": "some_node_lem",
    "ty-at": "ty_at_lem",
}


def parts(line, path):
    """A line's code and its comment."""
    mark = "//" if path.suffix == ".rt" else "--"
    at = line.find(mark)
    return (line, "") if at < 0 else (line[:at], line[at:])


def snake(part):
    return HUMP.sub(lambda m: "_" + m[1].lower(), part) if re.match("[a-z]", part) else part


def spelled(name):
    if name in OTHER:
        return OTHER[name]
    if MADE.fullmatch(name):
        return name
    name = "-".join(snake(part) for part in name.split("-"))
    return re.sub(r"-(?=[\w'])", "_", name)


def main():
    kinds = ("crates/*/specs/**/*.antt", "crates/*/proofs/**/*.antt", "crates/*/src/**/*.rt")
    texts = {p: p.read_text() for kind in kinds for p in sorted(ROOT.glob(kind)) if "out" not in p.parts}
    declared, fields = set(OTHER), set()
    for path, text in texts.items():
        if path.suffix == ".antt":
            code = "\n".join(parts(line, path)[0] for line in text.splitlines())
            declared.update(DECLARED.findall(code))
            for record in re.findall(r"\brecord\b[^\n]*(?:\n[^\n]+)*? where((?:\n[ ]+[^\n]*)+)", code):
                fields.update(DECLARED.findall(record))
    pairs = {n: spelled(n) for n in declared if spelled(n) != n}
    made = {}
    for old, new in pairs.items():
        made.setdefault(new, []).append(old)
    for new, olds in sorted(made.items()):
        if len(olds) > 1 or new in declared:
            print("together:", new, *olds, file=sys.stderr)
    if "--list" in sys.argv[1:]:
        for old, new in sorted(pairs.items()):
            print(old, new)
        return

    def turned(m):
        name = m[0]
        # After a value's dot a name with a dash is a field that a check made, unless a record here has it.
        if "-" in name and name not in fields and re.search(r"(?<![\w'])[a-z][\w']*\.$|\)\.$", m.string[: m.start()]):
            return name
        if name in pairs:
            return pairs[name]
        return snake(name) if HUMP.search(name) and "-" not in name else name

    for path, text in texts.items():
        lines = []
        for line in text.split("\n"):
            code, comment = parts(line, path)
            comment = re.sub(r"`[^`]*`", lambda m: NAME.sub(turned, m[0]), comment)
            lines.append(NAME.sub(turned, code) + comment)
        if lines != text.split("\n"):
            path.write_text("\n".join(lines))


if __name__ == "__main__":
    main()
