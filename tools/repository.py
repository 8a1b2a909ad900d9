"""What the tools of the repository share: its crates, what they stand on, and what each costs the gate."""

import contextlib
import dataclasses
import importlib.machinery
import importlib.util
import os
import pathlib
import re
import subprocess
import sys
import types
from collections.abc import Iterator

TOP = pathlib.Path(__file__).resolve().parent.parent
# The table of times. A row has a crate, and the seconds of its proof, of its tests and of its edits.
TIMES = pathlib.Path("tools/times.tsv")
ROW = re.compile(r"(\w+)\t(\d+)\t(\d+)\t(\d+)")
# The table that a run of the gate leaves of what it measured.
MEASURED = pathlib.Path("out/times.tsv")
# What the numbers of a row are of.
PARTS = ["proof", "tests", "edits"]


class Fault(Exception):
    """Why a tool stops. The text names the place."""


def lines_of(text: str) -> dict[str, str]:
    """The crates of a crates.txt in its order, each with its line, without what is a comment."""
    lines = [it.partition("#")[0].strip() for it in text.splitlines()]
    return {it.partition(":")[0].split()[0]: it for it in lines if it.partition(":")[0].strip()}


def listed(text: str) -> dict[str, list[str]]:
    """The crates of a crates.txt in its order, each with all that it uses."""
    return {name: it.partition(":")[2].replace(",", " ").split() for name, it in lines_of(text).items()}


def crates_of(text: str) -> dict[str, list[str]]:
    """The crates of a crates.txt, lowest first as they stand there, each with those of the file that it uses."""
    found = listed(text)
    return {name: [it for it in uses if it in found] for name, uses in found.items()}


def version() -> str:
    """The version of the library, as the file VERSION has it."""
    file = TOP / "VERSION"
    text = file.read_text(encoding="utf-8").strip() if file.is_file() else ""
    if not re.fullmatch(r"\d+\.\d+\.\d+", text):
        raise Fault("VERSION is to have one line such as 0.1.0")
    return text


def crates() -> dict[str, list[str]]:
    """The crates of this repository."""
    return crates_of((TOP / "crates.txt").read_text(encoding="utf-8"))


def headed(begin: str) -> list[str]:
    """The crates that crates.txt lists below headings that begin so."""
    text = (TOP / "crates.txt").read_text(encoding="utf-8")
    parts = re.split(r"^# (.*)$", text, flags=re.MULTILINE)
    found = [lines_of(lines) for heading, lines in zip(parts[1::2], parts[2::2]) if heading.startswith(begin)]
    if not found:
        raise Fault(f"crates.txt is to have a heading '# {begin}', and crates below it")
    return [name for it in found for name in it]


def benchmarks() -> list[str]:
    """The benchmarks, which the gate does not prove: tests/benchmarks runs them."""
    return headed("Benchmarks")


def checked() -> list[str]:
    """The tests and examples that the gate does not prove: tests/checked compiles them with checks and runs them."""
    return headed("Run with checks")


def unproved() -> list[str]:
    """All crates that the gate does not prove."""
    return [*checked(), *benchmarks()]


def below(crates: dict[str, list[str]], names: list[str]) -> list[str]:
    """These crates and all that they stand on, in the order of the file."""
    found: set[str] = set()
    left = list(names)
    while left:
        name = left.pop()
        if name not in crates:
            raise Fault(f"crates.txt lists no crate {name}")
        if name not in found:
            found.add(name)
            left += crates[name]
    return [it for it in crates if it in found]


def above(crates: dict[str, list[str]], names: list[str]) -> list[str]:
    """These crates and all that stand on them, in the order of the file."""
    found = set(names)
    if lacking := sorted(found.difference(crates)):
        raise Fault(f"crates.txt lists no crate {lacking[0]}")
    while more := {it for it in crates if it not in found and not found.isdisjoint(crates[it])}:
        found |= more
    return [it for it in crates if it in found]


def has_tests(name: str) -> bool:
    """Whether the crate has test functions."""
    files = (TOP / "crates" / name / "src").rglob("*.rt")
    return any("#[test]" in it.read_text(encoding="utf-8") for it in files)


def tests_of(name: str) -> list[str]:
    """The crates of tests that crates/README.md names as tests of the crate, or that have its name."""
    page = (TOP / "crates" / "README.md").read_text(encoding="utf-8")
    rows = re.findall(r"^\| (\w+) \| (.*) \|$", page, re.MULTILINE)
    found = [f"tests_{name}", *(test for test, of in rows if f"`{name}`" in of)]
    return [it for it in crates() if it in found and it.startswith("tests_")]


def is_program(folder: pathlib.Path) -> bool:
    return (folder / "src" / "main.rt").is_file()


def static_libraries() -> list[str]:
    """The crates that crates.txt lists as static libraries."""
    lines = lines_of((TOP / "crates.txt").read_text(encoding="utf-8"))
    return [name for name, it in lines.items() if "staticlib" in it.partition(":")[0].split()]


def is_made(name: str) -> bool:
    """Whether the crate was proved and built before, as far as can be seen without reading its files."""
    folder = TOP / "crates" / name
    if is_program(folder):
        return (folder / "out" / name).is_file()
    made = f"lib{name}.a" if name in static_libraries() else "rlib/stamp"
    return (folder / "out" / made).is_file()


def tool(path: str) -> types.ModuleType:
    """A tool as a module: `repository.tool("tests/faults")`, or one of the toolchain by its whole path."""
    name = pathlib.Path(path).stem
    if name not in sys.modules:
        # (where it stands nothing is written)
        sys.dont_write_bytecode = True
        loader = importlib.machinery.SourceFileLoader(name, str(TOP / path))
        sys.modules[name] = importlib.util.module_from_spec(importlib.util.spec_from_loader(name, loader))
        loader.exec_module(sys.modules[name])
    return sys.modules[name]


def kit() -> pathlib.Path:
    """The folder of the toolchain."""
    found = subprocess.run(["rt", "doc"], stdin=subprocess.DEVNULL, capture_output=True, text=True, check=True)
    return pathlib.Path(found.stdout.strip()).parent


@contextlib.contextmanager
def crates_of_toolchain() -> Iterator[types.ModuleType]:
    """The toolchain's module of crates, by which the files of each are read once. It reads them anew by each way from a crate
    above, and there are more such ways than can be walked.
    """
    rtlib = tool(f"{kit()}/bin/rtlib.py")
    of_files, sums = rtlib.Crate.stamp, {}

    def stamp(crate: object) -> str:
        if crate.folder not in sums:
            sums[crate.folder] = of_files(crate)
        return sums[crate.folder]

    rtlib.Crate.stamp = stamp
    try:
        yield rtlib
    finally:
        rtlib.Crate.stamp = of_files


def built(names: list[str]) -> list[str]:
    """Those of these crates that are built here of the files that they have, lowest first. None where that cannot be seen."""
    try:
        with crates_of_toolchain() as rtlib:
            found = [it for it in names if rtlib.Crate(str(TOP / "crates" / it), str(TOP), {}).is_built()]
    except (Exception, SystemExit):
        return []
    return [it for it in found if set(below(crates(), [it])).issubset(found)]


def note_built(top: pathlib.Path, names: list[str]) -> None:
    """Has the toolchain take the libraries that `rt ci` left in a copy of the repository, and prove none of them again.

    `rt ci` leaves them without the stamp by which other commands know a library that fits those below it. Here each was
    built by one run over the others, or kept by sums of them, so each fits. A library that is missing is proved again.
    """
    with crates_of_toolchain() as rtlib:
        for name in names:
            crate = rtlib.Crate(str(top / "crates" / name), str(top), {})
            if pathlib.Path(crate.rlib, "format").is_file():
                stamp = pathlib.Path(crate.rlib).with_name("stamp")
                stamp.write_text(crate.stamp(), encoding="utf-8")


@dataclasses.dataclass(frozen=True)
class Cost:
    """What a crate costs the gate, in seconds of a processor."""

    proof: int
    tests: int
    edits: int

    def whole(self) -> int:
        return self.proof + self.tests + self.edits


def costs() -> dict[str, Cost]:
    """What each crate costs, by the table of times."""
    file = TOP / TIMES
    if not file.is_file():
        raise Fault(f"there is no table {TIMES}")
    found = {}
    for number, line in enumerate(file.read_text(encoding="utf-8").splitlines(), 1):
        row = ROW.fullmatch(line)
        if row:
            found[row[1]] = Cost(int(row[2]), int(row[3]), int(row[4]))
        elif line and not line.startswith("#"):
            raise Fault(f"{TIMES}:{number} is no row of a crate and three numbers")
    return found


def processors() -> int:
    """How many processors there are for this process."""
    return len(os.sched_getaffinity(0))


def free_memory() -> int:
    """The memory that is free, in bytes."""
    with open("/proc/meminfo", encoding="ascii") as it:
        return 1024 * int(re.search(r"MemAvailable:\s+(\d+)", it.read())[1])
