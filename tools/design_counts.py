#!/usr/bin/env python3
"""Counts the places of crates/*/src and crates/*/proofs that an older form of Rattle would explain.

usage: tools/design_counts.py [--summary] [--point N] [ROOT]

For each of eight points it prints how many places it found, and then each: the crate, the file, the line and what
stands there. ROOT is the repository's top, by default this one's. Tests and must-fail edits are not read.

 1 an enum of the shape of Option or Result, a flag beside its value, a number for a kind or a refusal
 2 twins: functions or types that are the same but for names, numbers and types
 3 a loop that counts an index by hand
 4 equality, order, copying, conversion or printing by hand
 5 parameters that always travel together, and facts that the contracts of three or more functions repeat
 6 a buffer with a length beside it, parallel arrays
 7 a switch on which step to run
 8 proof files: answers, and lemmas that nobody cites

A place that a comment `Kept:` explains, in one of the eight lines above it or in the line itself, is marked `kept`.
What a count by form cannot tell is listed in JUDGED with its reason, marked `judged`, and not counted; some names there are
of an older state of the code, for which the script is run too. Point 2 leaves out the crates of the C interface, where each
function stands twice by the interface's rule.
"""

import collections
import difflib
import itertools
import pathlib
import re
import sys

# Forms that match a test below and are none of its places: (point, crate, name) and why.
JUDGED = {
    (1, "definition", "Structural2dFormulation"): "a choice of strains, no success or absence",
    (1, "search", "element_seed"): "the index of a seed in a table",
    (1, "search", "face_seed"): "the index of a seed in a table",
    (2, "answers", "store_element"): "an element's places and a face's, which are others",
    (2, "answers", "store_face"): "an element's places and a face's, which are others",
    (2, "elements", "is_family"): "two functions of a number, no twins",
    (2, "elements", "nodes_per_element"): "two functions of a number, no twins",
    (2, "listing", "put_counts"): "two lines with words of their own",
    (2, "listing", "put_refusal"): "two lines with words of their own",
    (2, "job", "put_floats"): "a list's floats, and a page's bytes",
    (2, "listing", "put_text"): "a list's floats, and a page's bytes",
    (2, "lists", "part_end"): "the two ends of a part",
    (2, "lists", "part_start"): "the two ends of a part",
    (2, "operator_questions", "pairs_match"): "no twin of a list's room",
    (2, "search", "nearer_on_face"): "a place of an element and one on its face",
    (2, "search", "nearer_place"): "a place of an element and one on its face",
    (2, "triplets", "put_node"): "a node's triplets and a row's",
    (2, "triplets", "put_row"): "a node's triplets and a row's",
    (2, "materials", "stress_to_global"): "two matrices of the definition with entries of their own",
    (2, "materials", "strain_to_local"): "two matrices of the definition with entries of their own",
    (2, "materials", "put_row"): "one row, and the four rows",
    (2, "materials", "put_stress_values"): "one row, and the four rows",
    (2, "operator_questions", "mesh_questions"): "two parts of a call's questions, each with its own",
    (2, "operator_questions", "number_questions"): "two parts of a call's questions, each with its own",
    (2, "listing", "Page"): "bytes in one list, and triplets in three",
    (2, "triplets", "Strip"): "bytes in one list, and triplets in three",
    (2, "triplets", "TripletLists"): "the lent lists, and the arrays of a program that lends them",
    (4, "materials", "copy_material"): "an array of a list of any length, made by the library",
    (4, "records", "has_room"): "a question by kind, no conversion",
    (5, "calls", "new"): "the constructor of the struct that holds them",
    (5, "mesh", "new"): "the constructor of the struct that holds them",
    (5, "interpolation", "put_values"): "one method of a trait",
    (5, "operators", "put_values"): "one method of a trait",
    (5, "strain", "put_values"): "one method of a trait",
    (5, "stress", "put_values"): "one method of a trait",
    (6, "materials", "put_stress_values"): "a material, the strains and the stresses, which are no parallel lists",
    (6, "listing", "Page"): "the struct that holds the two together",
    (6, "query", "query_answer"): "the count is of the points",
}

# Crates whose proofs are theorems for their own sake, and the lemmas of theirs that are none.
THEOREMS = {
    "definition": "a theorem or a computed row on the definition",
    "laws": "a theorem on the definition",
    "numbers": "a theorem: what a caller of C knows by question 0",
    "worked": "a computed row on the definition",
    "view": "the law of a thin call over a view",
    "walks": "a law of straight code, for its own sake",
}
# Files of lemmas for others in these crates: one of theirs that nobody cites is none of those.
LEMMAS = {("definition", "Lists.antt"), ("definition", "Passing.antt")}

RUST = re.compile(
    r"//[^\n]*|\"(?:\\.|[^\"\\])*\"|b?'(?:\\.|[^'\\])'|'[A-Za-z_]\w*|[A-Za-z_]\w*|\d[\w.]*"
    r"|::|->|=>|==|!=|<=|>=|&&|\|\||[-+*/%]=|\S"
)
TYPES = {"u8", "u16", "u32", "u64", "u128", "usize", "i8", "i16", "i32", "i64", "isize", "f32", "f64", "bool", "char"}
WORDS = TYPES | set(
    "as break const continue crate else enum extern false fn for if impl in let loop match mod move mut pub ref "
    "return self Self static struct super trait true type unsafe use where while".split()
)
INTEGER = re.compile(r"\d[\d_]*(?:u8|u16|u32|u64|usize)?$")
FLAGS = re.compile(r"(?:\w+_)?(?:given|known|first|found|ended|present|valid)$")
LENGTHS = re.compile(r"(?:\w+_)?(?:count|len|length|values)$")
PLACES = re.compile(r"(?:at|next|start)$")
C_INTERFACE = {"exports", "exports_c", "operator_exports", "operator_exports_c"}


class Token(str):
    line = 0


def tokens(text):
    found = []
    line = 1
    at = 0
    for match in RUST.finditer(text):
        line += text.count("\n", at, match.start())
        at = match.start()
        if not match.group().startswith("//"):
            token = Token(match.group())
            token.line = line
            found.append(token)
    return found


def closing(ts, at):
    """The place of the bracket that closes the one at a place."""
    depth = 0
    for i in range(at, len(ts)):
        if ts[i] in "([{":
            depth += 1
        elif ts[i] in ")]}":
            depth -= 1
            if depth == 0:
                return i
    return len(ts) - 1


def split(ts, mark=","):
    """The parts of a list of tokens between the marks that stand in no bracket."""
    parts, part, depth = [], [], 0
    for i, t in enumerate(ts):
        if t in "([{" or (t == "<" and i and re.match(r"\w", ts[i - 1])):
            depth += 1
        elif t in ")]}" or (t == ">" and depth):
            depth -= 1
        if t == mark and depth == 0:
            parts.append(part)
            part = []
        else:
            part.append(t)
    return [p for p in parts + [part] if p]


class Item:
    """A function, struct or enum: its name, line, fields or parameters, clauses and body."""

    def __init__(self, source, kind, name):
        self.source, self.kind, self.name, self.line = source, kind, str(name), name.line
        self.fields, self.clauses, self.body, self.variants, self.result = [], [], [], [], []
        self.of_trait, self.is_method = False, False


def named(parts):
    """Names and types of `name: type` parts."""
    found = []
    for part in parts:
        part = [t for t in part if t not in ("pub", "mut") or part.index(t) > 2]
        while part and part[0] == "#":
            part = part[closing(part, 1) + 1 :]
        if part and part[0] == "ghost":
            continue
        if ":" in part:
            at = part.index(":")
            name = part[at - 1]
            found.append((str(name), "".join(re.sub(r"^'\w+$", "", t) for t in part[at + 1 :]), name.line))
    return found


class Source:
    def __init__(self, root, path):
        self.crate = path.relative_to(root / "crates").parts[0]
        self.file = "/".join(path.relative_to(root / "crates").parts[1:])
        self.text = path.read_text()
        self.lines = self.text.split("\n")
        self.ts = tokens(self.text)
        self.items = []
        self.read()

    def kept(self, line):
        """Whether a line `Kept:` stands above, with no empty line between."""
        for above in reversed(self.lines[:line]):
            if "Kept:" in above or not above.strip():
                return "Kept:" in above
        return False

    def read(self):
        ts, i = self.ts, 0
        impls = []
        while i < len(ts):
            t = ts[i]
            while impls and i > impls[-1][0]:
                impls.pop()
            if t == "impl" and (i == 0 or ts[i - 1] in ";}{]" or ts[i - 1] == "unsafe"):
                j = i
                while j < len(ts) and ts[j] != "{":
                    j += 1
                head = [str(x) for x in ts[i + 1 : j]]
                impls.append((closing(ts, j), "for" in head))
                i = j + 1
            elif t in ("struct", "enum") and re.match(r"\w", ts[i + 1]):
                item = Item(self, str(t), ts[i + 1])
                j = i + 2
                while ts[j] not in "{(;":
                    j += 1
                if ts[j] != ";":
                    end = closing(ts, j)
                    parts = split(ts[j + 1 : end])
                    if t == "struct":
                        item.fields = named(parts)
                        item.body = ts[j : end + 1]
                    else:
                        for part in parts:
                            while part[0] == "#":
                                part = part[closing(part, 1) + 1 :]
                            item.variants.append((str(part[0]), len(part) > 1 and part[1] in "({", part))
                    j = end
                self.items.append(item)
                i = j + 1
            elif t == "fn" and re.match(r"\w", ts[i + 1]) and (i == 0 or ts[i - 1] != "("):
                item = Item(self, "fn", ts[i + 1])
                item.of_trait = bool(impls and impls[-1][1])
                j = i + 2
                while ts[j] != "(":
                    j += 1
                end = closing(ts, j)
                parts = split(ts[j + 1 : end])
                item.fields, item.is_method = named(parts), any("self" in part for part in parts[:1])
                j = end + 1
                while j < len(ts) and ts[j] not in ("{", ";"):
                    if ts[j] in ("requires", "ensures"):
                        word = str(ts[j])
                        k = j
                        while ts[k] != "{":
                            k += 1
                        stop = closing(ts, k)
                        item.clauses.append((word, ts[k + 1 : stop]))
                        j = stop + 1
                    elif ts[j] in ("[", "("):
                        stop = closing(ts, j)
                        item.result += ts[j : stop + 1]
                        j = stop + 1
                    else:
                        item.result.append(ts[j])
                        j += 1
                if j < len(ts) and ts[j] == "{":
                    end = closing(ts, j)
                    item.body = ts[j : end + 1]
                    j = end
                self.items.append(item)
                i = j + 1
            else:
                i += 1


class Count:
    def __init__(self):
        self.places = collections.defaultdict(list)

    def add(self, point, item, what, line=None, name=None):
        source = item.source
        line = line or item.line
        name = name or item.name
        self.places[point].append((source.crate, source.file, line, name, what, source.kept(line)))


def loops(ts):
    """The loops among tokens: the word's place, the condition and the body."""
    for i, t in enumerate(ts):
        if t in ("while", "loop"):
            j = i + 1
            depth = 0
            while ts[j] != "{" or depth:
                depth += (ts[j] in "([") - (ts[j] in ")]")
                j += 1
            yield i, ts[i + 1 : j], ts[j + 1 : closing(ts, j)]


def point1(items, count):
    for item in items:
        if item.kind == "enum" and len(item.variants) == 2:
            full = sum(v[1] for v in item.variants)
            if full:
                count.add(1, item, "enum of the shape of " + ("Option" if full == 1 else "Result"))
        if item.kind in ("struct", "fn") and len(item.fields) > 1:
            for name, kind, line in item.fields:
                if FLAGS.match(name) and (kind == "bool" or name.endswith("_given")):
                    count.add(1, item, f"flag `{name}` beside the value that it stands for", line)
        for name, kind, line in item.fields:
            if name == "question" and kind in TYPES:
                count.add(1, item, "a number for a refusal: `question`", line)
        for variant in item.variants:
            if any(f[0] == "question" and f[1] in TYPES for f in named(split(variant[2][2:-1]))):
                count.add(1, item, f"a number for a refusal: `{variant[0]}` holds `question`", variant[2][0].line)
        ts = item.body
        for i, t in enumerate(ts):
            value = ts[i + 2] if t == "question" and i + 2 < len(ts) and ts[i + 1] == ":" else "0"
            if INTEGER.match(value) and value != "0":
                count.add(1, item, f"question {value} by its number", t.line)
            if t in ("then", "refusal") and ts[i + 1] == "(":
                numbers = [p[0] for p in split(ts[i + 2 : closing(ts, i + 1)]) if len(p) == 1 and INTEGER.match(p[0])]
                if numbers and item.name != t:
                    count.add(1, item, f"question {numbers[0]} by its number", t.line)
            if t in ("family", "count") and ts[i + 1] == "==" and ts[i + 2] in ("4", "9"):
                count.add(1, item, f"a family by its number: `{t} == {ts[i + 2]}`", t.line)
            if t == "match":
                j = i + 1
                while ts[j] != "{":
                    j += 1
                arms = [a for a in ts[j : closing(ts, j)]]
                literals = sum(1 for a, b in zip(arms, arms[1:]) if b == "=>" and INTEGER.match(a))
                if literals >= 2 and item.name not in ("from", "try_from"):
                    count.add(1, item, f"`match` on the number of a kind, {literals} literals", t.line)
    for source in {id(i.source): i.source for i in items}.values():
        codes = re.findall(r"^const (\w+): (?:u8|usize|u32) = (\d+);", source.text, re.M)
        run = [c for c in codes if int(c[1]) < 64]
        if len(run) >= 3:
            for name, number in run:
                line = next(i + 1 for i, l in enumerate(source.lines) if l.startswith(f"const {name}:"))
                what = f"the number {number} for a kind"
                count.places[1].append((source.crate, source.file, line, name, what, source.kept(line)))


def shape(item):
    """A function or struct without its names, numbers and types."""
    ts = []
    body = item.body
    if item.kind == "fn":
        params = [f[1] for f in item.fields]
        ts += ["P"] * len(params)
    for t in body:
        if re.match(r"[A-Za-z_]", t) and t not in WORDS:
            ts.append("x")
        elif t in TYPES:
            ts.append("T")
        elif re.match(r"\d", t):
            ts.append("N")
        else:
            ts.append(str(t))
    return ts


def is_twin(i, j):
    """Whether two items are the same but for names, numbers and types, or nearly so."""
    if i.kind != j.kind:
        return False
    if i.kind == "struct":
        mine, theirs = [f[0] for f in i.fields], [f[0] for f in j.fields]
        others = sum(f[1] != g[1] for f, g in zip(i.fields, j.fields))
        renamed = sum(a != b for a, b in zip(mine, theirs))
        return len(mine) == len(theirs) > 1 and (renamed == 0 or renamed == 1 and others <= 1)
    if calls(i.body[1:-1]) or calls(j.body[1:-1]) or "new" in (i.name, j.name):
        return False
    s, t = shape(i), shape(j)
    if min(len(s), len(t)) / max(len(s), len(t)) < 0.7 or min(len(s), len(t)) < 12:
        return False
    alike = 1.0 if s == t else difflib.SequenceMatcher(None, s, t, autojunk=False).ratio()
    words = (set(name_words(i)) & set(name_words(j))) - {"at", "of", "is"}
    same_parameters = [f[:2] for f in i.fields] == [f[:2] for f in j.fields] and i.fields
    beside = same_parameters and i.source is j.source
    return (alike >= 0.97 and len(s) >= 30) or (alike >= 0.8 and words) or (alike >= 0.85 and beside)


def point2(items, count):
    big = [i for i in items if i.kind in ("fn", "struct") and len(i.body) > 4 and i.source.crate not in C_INTERFACE]
    group = list(range(len(big)))

    def head(a):
        while group[a] != a:
            a = group[a]
        return a

    for (a, i), (b, j) in itertools.combinations(enumerate(big), 2):
        if head(a) != head(b) and is_twin(i, j):
            group[head(b)] = head(a)
    groups = collections.defaultdict(list)
    for a, item in enumerate(big):
        groups[head(a)].append(item)
    for found in groups.values():
        if len(found) > 1:
            for item in found:
                others = ", ".join(o.name for o in found if o is not item)
                count.add(2, item, f"{item.kind} {item.name}, twin of {others}")


def name_words(item):
    return re.findall(r"[a-z]+", re.sub(r"([A-Z])", lambda m: "_" + m.group().lower(), item.name))


def until(ts, at):
    """The tokens up to the next semicolon."""
    end = at
    while end < len(ts) and ts[end] != ";":
        end += 1
    return ts[at:end]


def point3(items, count):
    for item in items:
        for i, test, body in loops(item.body):
            counters = {str(body[k - 1]) for k in range(1, len(body)) if body[k] in ("+=", "-=")}
            sets = [k for k in range(len(body) - 3) if body[k + 1] == "="]
            assigned = {str(body[k]) for k in sets if body[k] in until(body, k + 2)}
            used = (counters | assigned) & ({str(t) for t in test} if test else counters)
            if used:
                count.add(3, item, f"`{item.body[i]}` counts {', '.join(sorted(used))}", item.body[i].line)


PRINTING = re.compile(
    r"(digit|(put|print)_(byte|text|number|numbers|pair|float|digits|answer|place|places|kept|outcome))$"
)
BOTH_EQUAL = re.compile(r"if [^{}]+ \{ (?:[^{}]* ==? [^{}]*|[\w:]+ \( [^{}]* \)) \} else \{ false \}$")
OF_BYTES = re.compile(r"\bnumber\d|wide|\b8\b|65536")


def into_other(item):
    """Whether a function goes from one type of the repository to another type."""
    return item.fields[0][1] not in TYPES and item.result[:2] == ["->", item.result[-1]]


def point4(items, count):
    for item in items:
        if item.kind != "fn" or not item.body:
            continue
        b = [str(t) for t in item.body[1:-1]]
        if item.of_trait:
            continue
        text = " ".join(b)
        if len(b) == 3 and b[1] == "as" and b[0] != "self":
            count.add(4, item, f"conversion by hand: `{text}`")
        elif re.match(r"if (\w+) <=? (\w+) \{ \1 \} else \{ \2 \}$", text):
            count.add(4, item, "the least or greatest by hand")
        elif re.match(r"match \w+ \{ (?:[\w: ]+ => (?:true|false) ,? ?)+\}$", text):
            count.add(4, item, "equality with a variant by hand")
        elif BOTH_EQUAL.match(text) and re.search(r"same|==", text):
            count.add(4, item, "equality of two parts by hand")
        elif len(item.fields) == 1 and re.match(r"match \w+ \{", text) and into_other(item):
            count.add(4, item, f"conversion by hand: {item.fields[0][1]} to {item.result[-1]}")
        elif len(item.fields) <= 2 and re.match(r"(?:if \w+ == b'.' \{ return [\w: ]+ ; \} ){3,}", text):
            count.add(4, item, "conversion by hand, a letter at a time")
        elif re.match(r"number(?:\d|_at)$|byte_after$", item.name) and OF_BYTES.search(text):
            count.add(4, item, "conversion by hand: bytes to a number")
        elif re.match(r"copy_|\w+_copy$", item.name):
            count.add(4, item, "copying by hand")
        elif item.name == "digit" or PRINTING.match(item.name) and (item.is_method or any(f[0] in ("out", "rt") for f in item.fields)):
            count.add(4, item, "printing by hand")
        elif item.name in ("clamp", "float_of") and "if" in b:
            count.add(4, item, "what std has, by hand")


def groups_of(items):
    """Groups of two and more parameters, alike in name and type, that three or more functions take."""
    functions = [i for i in items if i.kind == "fn"]
    sets = [(i, frozenset((f[0], f[1]) for f in i.fields if f[0] not in ("self", "rt"))) for i in functions]
    closed = {a & b for (_, a), (_, b) in itertools.combinations(sets, 2) if len(a & b) > 1}
    taken, groups = set(), []
    score = lambda g: (len(g) - 1) * sum(1 for _, s in sets if g <= s)
    for g in sorted(closed, key=lambda g: (-score(g), sorted(g))):
        users = [i for i, s in sets if g <= s]
        fresh = [i for i in users if (id(i), None) not in taken]
        if len(users) >= 3 and len(fresh) >= 3:
            groups.append((g, users))
            taken |= {(id(i), None) for i in users}
    return groups


def point5(items, count):
    found = groups_of(items)
    for item in {id(u): u for _, users in found for u in users}.values():
        mine = [(g, users) for g, users in found if any(u is item for u in users)]
        for g, users in mine:
            if not any(g < h for h, _ in mine):
                names = ", ".join(sorted(n for n, _ in g))
                count.add(5, item, f"travel together in {len(users)} functions: {names}")
    facts = collections.defaultdict(list)
    for item in items:
        if item.kind != "fn":
            continue
        for word, clause in item.clauses:
            for part in conjuncts(clause):
                text = " ".join(part)
                if len(part) > 2 and not re.search(r"\bresult\b|\blet\b", text):
                    facts[text].append(item)
    for text, users in facts.items():
        users = list({id(u): u for u in users}.values())
        if len(users) >= 3:
            for item in users:
                count.add(5, item, f"a fact in {len(users)} contracts: {text.replace(' . ', '.')}")


def conjuncts(ts):
    for part in split(ts, "×"):
        while part and part[0] == "(" and closing(part, 0) == len(part) - 1:
            inner = part[1:-1]
            if len(split(inner, "×")) > 1:
                yield from conjuncts(inner)
                part = []
                break
            part = inner
        if part:
            yield [str(t) for t in part]


def is_list(kind):
    return bool(re.match(r"&(mut)?\[|\[", kind))


def point6(items, count):
    for item in items:
        lists = [f for f in item.fields if is_list(f[1])]
        lent = any(f[1].startswith("&mut") for f in lists)
        numbers = [f for f in item.fields if f[1] in ("usize", "u32", "u64")]
        numbers = [f for f in numbers if LENGTHS.match(f[0]) or lent and PLACES.match(f[0])]
        if item.kind == "struct" and lists and numbers:
            count.add(6, item, f"buffer `{lists[0][0]}` with `{numbers[0][0]}` beside it")
        if item.kind == "struct" and len([f for f in lists if re.match(r"\[", f[1])]) >= 3:
            count.add(6, item, f"{len(lists)} parallel arrays in a struct")
        if item.kind == "fn":
            if lists and numbers:
                count.add(6, item, f"buffer `{lists[0][0]}` with `{numbers[0][0]}` beside it")
            wide = [f for f in item.fields if re.match(r"&mut\[|&?\[\w+;", f[1])]
            if len(wide) >= 3:
                count.add(6, item, f"{len(wide)} parallel lists as parameters")
            b = item.body
            made = [i for i in range(len(b) - 5) if b[i : i + 2] == ["let", "mut"]]
            local = [i for i in made if b[i + 3 : i + 5] == ["=", "["]]
            if len(local) >= 3:
                count.add(6, item, f"{len(local)} parallel arrays")


def calls(ts):
    """The called path and the arguments, if tokens are one call."""
    text = [str(t) for t in ts]
    while text and text[-1] in (",", ";"):
        text.pop()
    match = re.match(r"((?:\w+ :: )*\w+) \(", " ".join(text))
    if match:
        at = match.group(1).count(" ") + 1
        if closing(text, at) == len(text) - 1:
            return match.group(1).replace(" ", ""), " ".join(text[at + 1 : -1]).rstrip(" ,")
    return None


def point7(items, count):
    for item in items:
        ts = item.body
        for i, t in enumerate(ts):
            if t not in ("if", "match"):
                continue
            j = i + 1
            while ts[j] != "{":
                j += 1
            end = closing(ts, j)
            arms = []
            if t == "if" and end + 2 < len(ts) and ts[end + 1] == "else" and ts[end + 2] == "{":
                arms = [calls(ts[j + 1 : end]), calls(ts[end + 3 : closing(ts, end + 2)])]
            elif t == "match":
                for part in split(ts[j + 1 : end]):
                    if "=>" in part:
                        arms.append(calls(part[part.index("=>") + 1 :]))
            names = {a[0] for a in arms if a and re.match(r"[a-z]", a[0].split("::")[-1])}
            same = any(a and b and a[1] == b[1] for a, b in itertools.combinations(arms, 2))
            if all(arms) and len(names) > 1 and same and len({a[1].count(",") for a in arms}) == 1:
                count.add(7, item, f"`{t}` chooses among {', '.join(sorted(names))}", t.line)


DECLARED = re.compile(
    r"^( {0,4})(?:(?:abbrev|unfoldable|pub|ruleset|inline|record|data) )*([^\W\d][\w'+⊗⊖⊕-]*)"
    r"(?: (?:\([^)]*\)|\{[^}]*\}))*\s+:(?:\s|$)"
)
NAME = re.compile(r"(?<![\w'-])[^\W\d][\w']*(?:-[\w'⊗⊖⊕*]+)*(?![\w'])")


PROOF_FILES = ("Answers.antt", "Invariants.antt", "Proof.antt", "Lib.antt")


def cited(path):
    """The words that a document has between backquotes."""
    return set(re.findall(r"[\w'-]+", " ".join(re.findall(r"`[^`\n]*`", path.read_text()))))


def point8(root, count, out):
    files = sorted(p for p in (root / "crates").glob("*/proofs/**/*.antt") if "out" not in p.relative_to(root).parts)
    kinds = collections.Counter()
    lines = collections.Counter()
    for path in files:
        kind = path.name if path.name in PROOF_FILES else "lemma files"
        kinds[kind] += 1
        lines[kind] += path.read_text().count("\n")
    for kind in sorted(kinds):
        out.append(f"    {kind}: {kinds[kind]} files, {lines[kind]} lines")
    blocks, mentions = [], collections.Counter()
    for path in sorted((root / "crates").glob("*/specs/**/*.antt")) + files:
        if "out" in path.relative_to(root).parts:
            continue
        here = []
        for number, line in enumerate(path.read_text().split("\n"), 1):
            code = line.split("--")[0]
            if re.match(r"\s*use |\s*pub use ", code):
                continue
            if re.match(r"\s*module ", code):
                here.append([path, number, -1, "", False, []])
            match = DECLARED.match(code)
            inside = here and len(match.group(1)) > here[-1][2] if match else False
            if match and not (inside and here[-1][4]):
                where = False
                here.append([path, number, len(match.group(1)), match.group(2), where, []])
            if re.match(r"\s*(where|mutual)\b", code) or re.search(r"\b(record|data) \w", code):
                if here:
                    here[-1][4] = True
            if here:
                here[-1][5] += NAME.findall(code)
        blocks += here
    for block in blocks:
        for name in set(block[5]):
            mentions[name] += 1
    other = collections.Counter()
    for path in (root / "crates").glob("*/src/**/*.rt"):
        if "out" not in path.relative_to(root).parts:
            other.update(re.findall(r"\w+", path.read_text()))
    documents = [*(root / "docs").glob("*.md"), root / "README.md"]
    docs = {p.name: cited(p) for p in documents if p.exists()}
    for path, number, _, name, _, _ in blocks:
        rel = path.relative_to(root / "crates").parts
        if rel[1] != "proofs" or path.name in ("Invariants.antt",):
            continue
        if re.search(rf"{re.escape(name)} : goal\.", path.read_text()):
            continue
        if name and mentions[name] <= 1 and not other[name] and len(name) > 1:
            named_in = sorted(d for d, words in docs.items() if name in words)
            if named_in:
                JUDGED[(8, rel[0], name)] = f"a theorem that {', '.join(named_in)} names"
            elif rel[0] in THEOREMS and (rel[0], path.name) not in LEMMAS:
                JUDGED[(8, rel[0], name)] = THEOREMS[rel[0]]
            count.places[8].append((rel[0], "/".join(rel[1:]), number, name, "a lemma that nobody cites", False))


TITLES = {
    1: "enums of Option or Result shape, flags beside values, numbers for kinds and refusals",
    2: "twins",
    3: "loops that count an index by hand",
    4: "equality, order, copying, conversion and printing by hand",
    5: "parameters that travel together, and repeated facts",
    6: "buffers with a length beside, parallel arrays",
    7: "switches on which step to run",
    8: "lemmas that nobody cites",
}


def main():
    args = sys.argv[1:]
    summary = "--summary" in args
    only = int(args[args.index("--point") + 1]) if "--point" in args else None
    paths = [a for k, a in enumerate(args) if not a.startswith("--") and (k == 0 or args[k - 1] != "--point")]
    root = pathlib.Path(paths[0]).resolve() if paths else pathlib.Path(__file__).resolve().parent.parent
    sources = [Source(root, p) for p in sorted((root / "crates").glob("*/src/**/*.rt"))]
    items = [i for s in sources for i in s.items]
    count = Count()
    for point in (point1, point2, point3, point4, point5, point6, point7):
        point(items, count)
    out = []
    point8(root, count, out)
    for point in range(1, 9):
        if only and point != only:
            continue
        places = sorted(set(count.places[point]))
        judged = [p for p in places if (point, p[0], p[3]) in JUDGED]
        places = [p for p in places if p not in judged]
        kept = sum(p[5] for p in places)
        names = {(p[0], p[1], p[3]) for p in places}
        found = f"{len(places)} places in {len(names)} items, {kept} of them kept; {len(judged)} judged none"
        print(f"{point} {TITLES[point]}: {found}")
        if point == 8:
            print("\n".join(out))
        if not summary:
            for crate, file, line, name, what, keep in places:
                print(f"    {crate} {file}:{line} {name}: {what}{' (kept)' if keep else ''}")
            for crate, file, line, name, what, _ in judged:
                print(f"    (judged) {crate} {file}:{line} {name}: {JUDGED[(point, crate, name)]}")


if __name__ == "__main__":
    main()
