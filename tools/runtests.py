#!/usr/bin/env python3
"""Runs the tests that `rt ci` does not run, one part after the other. Python 3.8 or newer, nothing else.

    tools/runtests.py

For each part one line is printed; of a part that fails, also what it printed. The last line is 'N passed, M failed',
and the exit status is 0 only if none failed.

First it looks for what the parts need. Missing Debian packages are installed where this is root and apt-get is there;
anything else that is missing is named, and nothing is run. CFSEM_SRC names the folder that holds the published Rust's
src (compare/README.md).
"""

import os
import pathlib
import re
import shutil
import subprocess
import sys
import tempfile
import time

ROOT = pathlib.Path(__file__).resolve().parent.parent
ARCHIVE = ROOT / "target/staticlib/libsobrizenta.a"
PROGRAMS = [ROOT / "crates" / name / "out" / name for name in ["probe", "replay_operators"]]

# The commands that are called, each with the Debian package that has it. Debian's Rust is too old.
COMMANDS = {
    "rt": None,
    "cargo": None,
    "rustc": None,
    "gcc": "gcc",
    "make": "make",
    "ar": "binutils",
    "objdump": "binutils",
}

# The Rust crates that compare/ takes from Debian, likewise; .cargo/config.toml names their folder.
CRATES = {"num-traits": "librust-num-traits-dev", "libm": "librust-libm-dev"}
REGISTRY = pathlib.Path("/usr/share/cargo/registry")

# A line of `objdump -d --no-show-raw-insn`: address, prefixes, mnemonic.
INSTRUCTION = re.compile(r"\s*[0-9a-f]+:\t(?:(?:data16|addr32|lock|rep\w*|[c-gs]s|bnd|notrack|rex\S*|\{\w+\}) +)*(\S+)")
OBJECT = re.compile(r"(.+):\s+file format elf64-x86-64")

# Fused multiply-adds, and every instruction of the x87: both round otherwise than one binary64 operation after another.
# The prefix fs has too few letters to be one.
FORBIDDEN = re.compile(r"vfn?m(?:add|sub)\w*|f\w{2,}")

# What the search must find in an object, and what it must pass over.
PLANTED = """
    vfmadd132sd %xmm2, %xmm1, %xmm0
    vfmadd213pd %ymm2, %ymm1, %ymm0
    vfmsub231sd (%rax), %xmm1, %xmm0
    vfnmadd213ss %xmm2, %xmm1, %xmm0
    vfnmsub132sd %xmm2, %xmm1, %xmm0
    vfmaddsub213pd %xmm2, %xmm1, %xmm0
    vfmsubadd231pd %xmm2, %xmm1, %xmm0
    fldl (%rax)
    faddp
    fmull (%rax)
    fsqrt
"""
SOUND = """
    mulsd %xmm1, %xmm0
    addsd %xmm2, %xmm0
    divsd %xmm2, %xmm0
    sqrtsd %xmm0, %xmm0
    vmulsd %xmm1, %xmm0, %xmm0
    jmp 0xfadd
"""


class Failed(Exception):
    """A part that failed, with what it printed."""


def run(*command, folder=".", text=None):
    """What a command prints, run in a folder of the repository; Failed if it ends with another status than 0."""
    ended = subprocess.run(
        [str(word) for word in command],
        cwd=ROOT / folder,
        input=text or "",
        stdout=subprocess.PIPE,
        stderr=subprocess.STDOUT,
        encoding="utf-8",
        errors="replace",
    )
    if ended.returncode:
        raise Failed(f"{ended.stdout}{' '.join(map(str, command))}: exit status {ended.returncode}\n")
    return ended.stdout


def published():
    """The folder of the published Rust's src, as compare/build.rs finds it."""
    return ROOT / "compare" / os.environ.get("CFSEM_SRC", "../../shared/docs/src")


def missing():
    """What is not there, each with the Debian package that has it or None."""
    absent = {name: package for name, package in COMMANDS.items() if not shutil.which(name)}
    for name, package in CRATES.items():
        if not any(REGISTRY.glob(name + "-[0-9]*")):
            absent[f"the Rust crate {name} in {REGISTRY}"] = package
    if not (published() / "src/mesh/quad2d.rs").is_file():
        absent[f"the published Rust in {published()}; CFSEM_SRC names its folder"] = None
    return absent


def named(absent):
    name, package = absent
    return f"missing: {name} (Debian package {package})\n" if package else f"missing: {name}\n"


def install(packages):
    """Installs Debian packages; what apt-get prints if it fails."""
    os.environ["DEBIAN_FRONTEND"] = "noninteractive"
    try:
        run("apt-get", "update")
        run("apt-get", "install", "--yes", *packages)
    except Failed as failure:
        return str(failure)
    return ""


def needs():
    packages = sorted({package for package in missing().values() if package})
    said = install(packages) if packages and os.geteuid() == 0 and shutil.which("apt-get") else ""
    absent = missing()
    if absent:
        raise Failed(said + "".join(map(named, absent.items())))


def proved_programs():
    # `rt run` also runs them, here on an empty input.
    for program in PROGRAMS:
        run("rt", "run", folder=f"crates/{program.name}")
    run("bindings/archive")
    os.environ["SOBRIZENTA_ARCHIVE"] = str(ARCHIVE)


def disassembled(file):
    """The mnemonics of each object of a program or an archive."""
    objects = []
    for line in run("objdump", "-d", "--no-show-raw-insn", file).splitlines():
        if OBJECT.fullmatch(line):
            objects.append([])
        elif INSTRUCTION.match(line):
            objects[-1].append(INSTRUCTION.match(line)[1])
    return objects


def forbidden(objects):
    return [mnemonic for mnemonics in objects for mnemonic in mnemonics if FORBIDDEN.fullmatch(mnemonic)]


def assembled(folder, text, name):
    run("gcc", "-c", "-x", "assembler", "-", "-o", folder / name, text=text)
    return folder / name


def search_finds():
    """The search finds each planted instruction in the second object of an archive, and nothing in the first."""
    with tempfile.TemporaryDirectory() as name:
        folder = pathlib.Path(name)
        objects = [assembled(folder, SOUND, "sound.o"), assembled(folder, PLANTED, "planted.o")]
        run("ar", "rc", folder / "both.a", *objects)
        sound, planted = disassembled(folder / "both.a")
    words = [line.split()[0] for line in PLANTED.strip().splitlines()]
    if forbidden([sound]) or forbidden([planted]) != words:
        raise Failed(f"planted {words}, found {forbidden([planted])} and in sound code {forbidden([sound])}\n")


def searched(file):
    """How many objects and instructions a file has, none of them forbidden."""
    objects = disassembled(file)
    members = len(run("ar", "t", file).splitlines()) if file.suffix == ".a" else 1
    if len(objects) != members or not all(objects):
        raise Failed(f"{file}: {members} objects, code of {len([o for o in objects if o])} seen\n")
    if not any("mulsd" in mnemonics for mnemonics in objects):
        raise Failed(f"{file}: no multiplication seen\n")
    if forbidden(objects):
        raise Failed(f"{file}: {', '.join(forbidden(objects))}\n")
    return len(objects), sum(map(len, objects))


def no_fused_multiply_add():
    search_finds()
    objects, instructions = map(sum, zip(*map(searched, [*PROGRAMS, ARCHIVE])))
    return f"{objects} objects, {instructions:,} instructions"


def stored_lists():
    """compare/ writes both stored lists again, the same bytes."""
    for command, crate in [("write", "replay"), ("write-operators", "replay_operators")]:
        with tempfile.TemporaryDirectory() as folder:
            run("cargo", "run", "--", command, folder, folder="compare")
            for name in ["stdin", "stdout"]:
                if pathlib.Path(folder, name).read_bytes() != (ROOT / "crates" / crate / name).read_bytes():
                    raise Failed(f"crates/{crate}/{name} is not what compare/ writes\n")


def command(*words, folder="."):
    """A part that is one command."""

    def part():
        run(*words, folder=folder)

    return part


# Where one of the first two fails, no other part is run.
FIRST = [
    ("what is needed", needs),
    ("proved programs and archive", proved_programs),
]
PARTS = [
    ("no fused multiply-add, no x87", no_fused_multiply_add),
    ("bindings/rust, tests", command("cargo", "test", folder="bindings/rust")),
    ("bindings/c, example", command("make", "test", folder="bindings/c")),
    ("bindings/python, tests", command("make", "test", folder="bindings/python")),
    ("tools, tests", command(sys.executable, "-m", "unittest", "discover", "-s", "tools")),
    ("conformance kit on probe", command("conformance/run", PROGRAMS[0])),
    ("compare, tests", command("cargo", "test", folder="compare")),
    ("compare, stored lists", stored_lists),
    ("beside, tests", command("cargo", "test", folder="beside")),
    ("beside, seed 1", command("cargo", "run", "--release", "--", "all", "1", folder="beside")),
]


def passes(name, part):
    """Whether a part passes. Its line is printed; of one that fails, also what it printed."""
    print(f"{name}: ", end="", flush=True)
    began = time.monotonic()
    word, output = "passed", ""
    try:
        note = part()
    except (Failed, OSError) as failure:
        word, note, output = "failed", None, str(failure)
    seconds = f"{time.monotonic() - began:.0f} s"
    print(f"{word} ({seconds}; {note})" if note else f"{word} ({seconds})", flush=True)
    if output:
        print(output.rstrip("\n"), flush=True)
    return word == "passed"


def verdict(first, parts):
    """Runs the parts and prints how many passed and how many failed; the exit status."""
    results = []
    for part in first:
        results.append(passes(*part))
        if not results[-1]:
            parts = []
            break
    results += [passes(*part) for part in parts]
    print(f"{results.count(True)} passed, {results.count(False)} failed")
    return 0 if all(results) else 1


if __name__ == "__main__":
    sys.exit(verdict(FIRST, PARTS))
