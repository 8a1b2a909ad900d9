"""Runs tests and programs that are compiled with checks by `rt try`, with no proof: what tools/quick and tests/checked share.

As many are worked on at once as there are processors and memory for. What each run said stands in a folder below out/.
"""

import dataclasses
import pathlib
import re
import shutil
import subprocess
import time

import repository
from repository import TOP

PROGRAM = "trierun"
# The memory that a run is given room for, and what is left to all else, in bytes.
ROOM = 2_500_000_000
SPARE = 1_000_000_000
# How long a test or a program may run, in seconds: some take ten times as long with checks, and more on a busy machine.
LIMIT = 900
# How often it is looked whether a run is done, in seconds.
MOMENT = 0.2
# What a test of memory meets in such a run: it asks for more than the checks give.
TAKES_ALL = "AddressSanitizer failed to allocate"
# How trierun is run on a script by other crews.
CREWS = {"by the usual crew": [], "by one worker": ["--workers", "1"], "by sixteen": ["--workers", "16", "--grain", "1"]}


@dataclasses.dataclass
class Counts:
    """What a run came to."""

    passed: int = 0
    # what failed, and what was left out, each by its name
    failed: list[str] = dataclasses.field(default_factory=list)
    left_out: list[str] = dataclasses.field(default_factory=list)


class Tests:
    """The tests of a crate."""

    def __init__(self, name: str) -> None:
        self.name = self.crate = name
        self.words = ["--test", "--seconds", str(LIMIT)]

    def count(self, printed: str, told: str, status: int) -> Counts:
        counts = Counts()
        text = printed + told
        parts = re.split(r"^test (\S+) \.\.\. (\w+)$", text, flags=re.MULTILINE)
        for test, result, behind in zip(parts[1::3], parts[2::3], parts[3::3]):
            if result == "ok":
                counts.passed += 1
            elif TAKES_ALL in behind:
                counts.left_out.append(test)
            else:
                counts.failed.append(test)
        listed = re.search(r"^tests: (\d+)$", text, re.MULTILINE)
        if not listed or int(listed[1]) != len(parts) // 3 or (status != 0 and not counts.failed and not counts.left_out):
            counts.failed.append("not all of its tests were run")
        return counts


class Program:
    """A program that is run on what its folder has, as the gate runs it."""

    def __init__(self, name: str) -> None:
        self.name = self.crate = name
        arguments = self.text("args").splitlines()
        self.words = ["--seconds", str(LIMIT), *(["--", *arguments] if arguments else [])]

    def text(self, part: str) -> str:
        file = TOP / "crates" / self.crate / part
        return file.read_text(encoding="utf-8") if file.is_file() else ""

    def count(self, printed: str, told: str, status: int) -> Counts:
        if (printed, status) == (self.text("stdout"), int(self.text("status") or 0)):
            return Counts(passed=1)
        return Counts(failed=[f"its output, with status {status}"])


@dataclasses.dataclass
class Case:
    """A run of trierun: its name, its words and its input, and the status, output and fault that it may end with."""

    name: str
    words: list[str]
    given: bytes
    status: int
    # the texts that may be printed, or how many lines are
    printed: list[str] | int
    told: str

    def is_right(self, printed: str, told: str, status: int) -> bool:
        if isinstance(self.printed, int):
            return (printed.count("\n"), told, status) == (self.printed, self.told, self.status)
        return printed in self.printed and (told, status) == (self.told, self.status)


class Scripts:
    """The scripts that trierun is run on: it is compiled once for all of them."""

    def __init__(self, folder: pathlib.Path) -> None:
        self.name, self.crate = "scripts", PROGRAM
        self.left_out: list[str] = []
        self.cases: dict[str, Case] = {}
        self.add_examples()
        self.add_faults()
        self.add_programs()
        self.words = ["--seconds", str(LIMIT), "--cases", str(folder)]
        for name, case in self.cases.items():
            (folder / name).write_bytes(case.given)
            if case.words:
                (folder / f"{name}.args").write_text("".join(f"{it}\n" for it in case.words), encoding="utf-8")

    def add(self, *case: object) -> None:
        self.cases[f"case{len(self.cases):03}"] = Case(*case)

    def add_examples(self) -> None:
        """Adds the scripts of examples/, each by all crews."""
        for script in sorted((TOP / "examples").glob("*.trie")):
            for crew, words in CREWS.items():
                wanted = script.with_suffix(".out").read_text(encoding="utf-8")
                self.add(f"examples/{script.name} {crew}", words, script.read_bytes(), 0, [wanted], "")

    def add_faults(self) -> None:
        """Adds the scripts of tests/faults."""
        for wanted, script in repository.tool("tests/faults").rows():
            lines = re.fullmatch(r"(\d+) lines?", wanted)
            name = f"tests/faults, not '{wanted}': {script!r}"
            if lines:
                self.add(name, [], script, 0, int(lines[1]), "")
            else:
                self.add(name, [], script, 2, [""], f"{wanted}\n")

    def add_programs(self) -> None:
        """Adds the cases of tests/cases that are run on standard input alone."""
        for folder in sorted(it for it in (TOP / "tests" / "cases").iterdir() if it.is_dir()):
            words = text_of(folder / "args").splitlines()
            files = {it.name for it in folder.iterdir()} | {".", "/dev/full"}
            is_odd = any(part in it for it in words for part in ("\\x", "$", "../"))
            if is_odd or files & {"streams", "limit", "written", *words}:
                self.left_out.append(folder.name)
                continue
            given = (folder / "stdin").read_bytes() if (folder / "stdin").is_file() else b""
            printed = [text_of(folder / "stdout"), *(text_of(it) for it in sorted(folder.glob("stdout-*")))]
            self.add(folder.name, words, given, int(text_of(folder / "status")), printed, text_of(folder / "stderr"))

    def count(self, printed: str, told: str, status: int) -> Counts:
        counts = Counts(left_out=self.left_out)
        pieces = re.split(r"^== (case\d+)\n", printed, flags=re.MULTILINE)
        outputs = dict(zip(pieces[1::2], pieces[2::2]))
        pieces = re.split(r"^case=(case\d+) run=(\w+)(?: status=(\d+))?.*\n", told, flags=re.MULTILINE)
        ends = dict(zip(pieces[1::4], zip(pieces[::4], pieces[2::4], pieces[3::4])))
        for name, case in self.cases.items():
            said, how, end = ends.get(name, ("", "none", None))
            if how == "ended" and case.is_right(outputs.get(name, ""), said, int(end or -1)):
                counts.passed += 1
            else:
                counts.failed.append(case.name)
        return counts


def text_of(file: pathlib.Path) -> str:
    return file.read_text(encoding="utf-8") if file.is_file() else ""


class Tries:
    """What is still to begin, what is worked on, and what it came to."""

    def __init__(self, told_by: str, works: list) -> None:
        self.told_by = told_by
        self.logs = TOP / "out" / told_by
        crates = repository.crates()
        below = {it.crate: len(repository.below(crates, [it.crate])) for it in works}
        # what takes longest begins first
        self.left = sorted(works, key=lambda it: (not isinstance(it, Scripts), -below[it.crate]))
        self.running: list[tuple[object, subprocess.Popen, float]] = []
        self.counts: dict[str, Counts] = {}
        self.began = time.monotonic()

    def say(self, text: str) -> None:
        print(f"{self.told_by}: {time.monotonic() - self.began:5.0f} s: {text}", flush=True)

    def has_room(self) -> bool:
        """Whether one more may begin."""
        if not self.running:
            return True
        young = sum(time.monotonic() - began < 20 for _, _, began in self.running)
        free = repository.free_memory() - SPARE - young * ROOM
        return len(self.running) < repository.processors() and free >= ROOM

    def start(self) -> None:
        work = self.left.pop(0)
        with open(self.logs / f"{work.name}.out", "wb") as out, open(self.logs / f"{work.name}.log", "wb") as log:
            words = [str(TOP / "tools" / "try_alone"), *work.words]
            given = TOP / "crates" / work.crate / "stdin"
            with open(given if isinstance(work, Program) and given.is_file() else "/dev/null", "rb") as stdin:
                how = {"stdin": stdin, "stdout": out, "stderr": log, "process_group": 0}
                running = subprocess.Popen(words, cwd=TOP / "crates" / work.crate, **how)
        self.running.append((work, running, time.monotonic()))

    def end(self, work: object, status: int, began: float) -> None:
        """Adds up what the run came to, and says so."""
        files = [self.logs / f"{work.name}.{it}" for it in ("out", "log")]
        printed, told = (it.read_text(encoding="utf-8", errors="replace") for it in files)
        counts = self.counts[work.name] = work.count(printed, told, status)
        left_out = f", {len(counts.left_out)} left out" if counts.left_out else ""
        took = time.monotonic() - began
        self.say(f"{work.name}: {counts.passed} passed, {len(counts.failed)} failed{left_out}, in {took:.0f} s")
        for it in counts.failed:
            where = self.logs.relative_to(TOP) / f"{work.name}.log"
            print(f"{self.told_by}: {work.name}: FAILED: {it}; {where} says more", flush=True)

    def stop(self) -> None:
        for _, running, _ in self.running:
            running.terminate()
        for _, running, _ in self.running:
            running.wait()

    def run(self) -> None:
        """Runs all."""
        shutil.rmtree(self.logs, ignore_errors=True)
        self.logs.mkdir(parents=True)
        try:
            while self.left or self.running:
                while self.left and self.has_room():
                    self.start()
                ended = [it for it in self.running if it[1].poll() is not None]
                for it in ended:
                    self.running.remove(it)
                    self.end(it[0], it[1].returncode, it[2])
                if not ended:
                    time.sleep(MOMENT)
        finally:
            self.stop()

    def tell(self) -> int:
        """Says what passed, and returns the status."""
        passed = sum(it.passed for it in self.counts.values())
        failed = sum(len(it.failed) for it in self.counts.values())
        print(f"{passed} passed, {failed} failed")
        return 0 if failed == 0 else 1
