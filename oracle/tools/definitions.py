"""Holds the definitions of crates/rules against numbers that the oracle gave: as theorems, proved by computation."""
import re
import shutil
import subprocess
import tempfile
from dataclasses import dataclass
from multiprocessing.pool import ThreadPool
from pathlib import Path

import every
import profiles
from runs import COLLECTORS, Run, Said, Trouble, hear_both

ROOT = Path(__file__).resolve().parent.parent.parent
# Not named .antt where it stands, because every antt file of the repository has to be in a crate.
REPLAY = ROOT / "oracle" / "replay" / "Replay.antt.txt"
# Two crates of theorems, which are checked at the same time.
CRATES = ("replay_a", "replay_b")
# The crate whose definitions are compared. Its laws and examples are the gate's business, and are left out.
COMPARED = "rules"
THEOREMS_PER_FILE = 40
ROWS_AT_ONCE = 40

HEADER = """\
-- Made from the oracle's answers.
-- Assumes nothing.
use Rattle.std.specs.Prelude.{List, [], ◌∷◌, ◌≡◌, refl, ℕ}
use Rattle.rules.specs.Calls.{new_root, new_unique}
use Rattle.CRATE.specs.Replay.{at_sweep, at_once, limits, first_lines, replay, replay_untested, replay_from, every}
"""


@dataclass
class Theorem:
    """That a text of antt computes to another. `opened` is the definition of the replay that it opens."""

    name: str
    opened: str
    left: str
    right: str

    def text(self):
        statement = f"pub {self.name} :\n    {self.left}\n    ≡ {self.right}"
        return f"\n{statement}\nunfolding {self.opened}\n{self.name} = refl\n"


# ## antt's text

def antt_list(items):
    return " ∷ ".join([*items, "[]"])


def antt_numbers(numbers):
    return antt_list(str(number) for number in numbers)


def antt_rows(rows):
    return antt_list(f"({antt_numbers(row)})" for row in rows)


def antt_text(text):
    escaped = text.replace("\\", "\\\\").replace('"', '\\"').replace("\n", "\\n")
    return f'"{escaped}"'


# ## The temporary repository

def used_modules(text, crate):
    """The modules of a crate's specs that an antt file uses."""
    return set(re.findall(rf"use Rattle\.{crate}\.specs\.(\w+)\.", text)) - {"declared"}


def needed_modules(specs):
    """What the replay stands on, of the compared crate, and what the crate's own code does."""
    code = (specs.parent / "src" / "lib.rt").read_text()
    needed, waiting = set(), used_modules(REPLAY.read_text() + code, COMPARED)
    while waiting:
        module = waiting.pop()
        needed.add(module)
        waiting |= used_modules((specs / f"{module}.antt").read_text(), COMPARED) - needed
    return needed


def drop_the_rest(specs):
    needed = needed_modules(specs)
    for file in specs.glob("*.antt"):
        if file.stem not in needed and file.name != "Lib.antt":
            file.unlink()
    library = specs / "Lib.antt"
    kept = [line for line in library.read_text().splitlines() if line.split()[-1] in needed]
    library.write_text("\n".join(kept) + "\n")
    # These are laws.
    shutil.rmtree(specs.parent / "proofs")


class Repository:
    """A copy of the crates with one more, outside the tree; gone at the end."""

    def __init__(self):
        self.folder = Path(tempfile.mkdtemp(prefix="compare-"))
        shutil.copy(ROOT / "crates.txt", self.folder)
        shutil.copytree(ROOT / "crates", self.folder / "crates", ignore=shutil.ignore_patterns("out", "must-fail"))
        self.keep_only_below_the_replay()
        drop_the_rest(self.specs_of(COMPARED))
        for crate in CRATES:
            self.write_theorems(crate, [])

    def __enter__(self):
        return self

    def __exit__(self, *_):
        shutil.rmtree(self.folder)

    def specs_of(self, crate):
        return self.folder / "crates" / crate / "specs"

    def keep_only_below_the_replay(self):
        """Crates that stand on the compared one are not needed, and might refuse a changed definition."""
        lines = {}
        for line in (self.folder / "crates.txt").read_text().splitlines():
            name, colon, below = line.partition("#")[0].partition(":")
            if colon:
                lines[name.strip()] = below.split()
        needed, waiting = {}, [COMPARED]
        while waiting:
            name = waiting.pop()
            needed[name] = lines.get(name, [])
            waiting += [below for below in needed[name] if below in lines and below not in needed]
        for crate in (self.folder / "crates").iterdir():
            if crate.name not in needed:
                shutil.rmtree(crate)
        definitions = list(needed)
        for crate in CRATES:
            needed[crate] = definitions
        self.write("crates.txt", "".join(f"{name}: {' '.join(below)}\n" for name, below in needed.items()))

    def write(self, path, text):
        file = self.folder / path
        file.parent.mkdir(parents=True, exist_ok=True)
        file.write_text(text)

    def edit(self, file, old, new):
        path = self.folder / "crates" / COMPARED / file
        text = path.read_text()
        if text.count(old) != 1:
            raise Trouble(f"{file}: the text to change stands there {text.count(old)} times, not once: {old}")
        path.write_text(text.replace(old, new))

    def check(self, *crates):
        """All at the same time; the highest status, and what is printed of all."""
        how = {"stdout": subprocess.PIPE, "stderr": subprocess.STDOUT, "text": True}
        started = [subprocess.Popen(["rt", "check"], cwd=self.folder / "crates" / crate, **how) for crate in crates]
        with ThreadPool(len(started)) as pool:
            printed = pool.map(lambda one: one.communicate()[0], started)
        return max(one.returncode for one in started), "".join(printed)

    def check_definitions(self):
        """By themselves, so that what fails after them is a theorem."""
        status, printed = self.check(COMPARED)
        if status != 0:
            raise Trouble(f"the definitions are refused by themselves:\n{printed[-3000:]}")

    def write_theorems(self, crate, theorems):
        shutil.rmtree(self.specs_of(crate), ignore_errors=True)
        self.write(f"crates/{crate}/src/lib.rt", "// Nothing is built: the theorems in specs are all.\n")
        self.write(f"crates/{crate}/specs/Replay.antt", REPLAY.read_text())
        files = ["Replay"]
        for start in range(0, len(theorems), THEOREMS_PER_FILE):
            files.append(f"Runs{start // THEOREMS_PER_FILE}")
            some = theorems[start: start + THEOREMS_PER_FILE]
            text = HEADER.replace("CRATE", crate) + "".join(theorem.text() for theorem in some)
            self.write(f"crates/{crate}/specs/{files[-1]}.antt", text)
        self.write(f"crates/{crate}/specs/Lib.antt", "".join(f"pub mod {file}\n" for file in files))

    def failing(self, theorems):
        """The names of these theorems that are refused, each with what was printed of it."""
        for number, crate in enumerate(CRATES):
            self.write_theorems(crate, theorems[number:: len(CRATES)])
        status, printed = self.check(*CRATES)
        if status == 0:
            return {}
        failed = errors_by_theorem(printed)
        undecided = [name for name, text in failed.items() if "stopped at the step limit" in text]
        if undecided:
            raise Trouble(f"no verdict, for the step limit was met: {', '.join(undecided)}")
        unknown = set(failed) - {theorem.name for theorem in theorems}
        if not failed or unknown:
            raise Trouble(f"rt check ended with {status}, and not for a theorem:\n{printed[-3000:]}")
        return failed


def errors_by_theorem(printed):
    """antt names the declaration in each of its errors."""
    failed = {}
    for part in re.split(r"(?m)^(?=\S*\.antt:\d+:\d+: )", printed):
        named = re.match(r"\S*\.antt:\d+:\d+: error: `([\w-]+)`", part)
        if named:
            failed.setdefault(named.group(1), part.split("\nlogic ")[0])
    return failed


# ## Theorems of runs

COLLECTOR_NAMES = ("at_sweep", "at_once")


@dataclass
class Held:
    """A run with what the oracle says of it, and the image that it is replayed in, once for each collector."""

    run: Run
    said: tuple
    limits: tuple
    opened: str = "replay"
    start: str = ""  # what `opened` takes first, if anything

    def replayed(self, number):
        collector, image = COLLECTOR_NAMES[number], self.limits[number]
        return f"{self.opened} {self.start} {collector} ({image}) {antt_text(self.run.text())}"

    def theorem(self, number):
        name = f"{self.run.name}-{COLLECTOR_NAMES[number]}"
        return Theorem(name, self.opened, self.replayed(number), antt_rows(self.said[number].numbers()))

    def theorems(self):
        return [self.theorem(number) for number in range(len(self.said))]

    def theorem_to_row(self, number, row):
        """Of everything up to a row, with one of the two collectors."""
        left = f"first_lines {row} ({self.replayed(number)})"
        return Theorem(f"row-{row}", self.opened, left, antt_rows(self.said[number].numbers()[:row]))


def limits(shapes, tables, keys, edges):
    return f"limits {max(1, shapes)} {max(1, tables)} {keys} {max(1, edges)}"


def hold(run):
    """With an image that has room for what the oracle made, and for no more. Each edge is made with its child, so there
    are never more edges than shapes were made."""
    said = hear_both(run)
    return Held(run, said, tuple(limits(one.shapes, one.tables, one.keys, one.shapes) for one in said))


def where_it_differs(repository, held, number):
    """The first row that differs (from 1), with one of the two collectors; none if no row does."""
    agrees, differs = 0, len(held.said[number].numbers()) + 1
    while differs - agrees > 1:
        stride = -(-(differs - agrees - 1) // ROWS_AT_ONCE)
        rows = range(agrees + stride, differs, stride)
        failed = repository.failing([held.theorem_to_row(number, row) for row in rows])
        failing = [row for row in rows if f"row-{row}" in failed]
        agrees = max([agrees] + [row for row in rows if row not in failing])
        differs = min([differs] + failing)
    return differs if differs <= len(held.said[number].numbers()) else None


def describe(held, number, row):
    """The run up to a row that differs, with the oracle's answer there."""
    run, said = held.run, held.said[number]
    if row is None:
        return f"{run.name}, {COLLECTOR_NAMES[number]}: the definitions say more than the oracle\n"
    lines = run.lines + ([run.unended] if run.unended else [])
    shown = "".join(f"    {line}\n" for line in lines[:row])
    place = f"line {row}" if row <= len(lines) else f"handle {said.numbers()[row - 1][0]} at the end"
    oracle = " ".join(str(n) for n in said.numbers()[row - 1])
    return f"{run.name}, {COLLECTOR_NAMES[number]}, {place}: the oracle says {oracle}\n{shown}"


def hold_counters(run):
    """Of the profile `counters`. Its edges are too many for the soundness test at each line, and for a sweep after
    each."""
    late = hear_both(run)[0]
    shapes, tables, edges = run.room
    return Held(run, (late,), (limits(shapes, tables, late.keys, edges),), "replay_untested")


def trail_length(run):
    """How many prototype steps a run of the profile `limit` begins with, of which later lines know only the last. The
    shape at their end has to be shared, so they are fewer than the limit."""
    lines = run.lines
    steps = 0
    while steps < profiles.LIMIT - 1 and lines[steps + 1].startswith(f"P {steps + 1} "):
        steps += 1
    return min([steps] + [int(line.split(" ")[1]) - 1 for line in lines[steps + 1:]])


def renumbered(row, handle_at, first):
    """A row with its two handles counted from another first one. (In an answer, a 0 stands in the first place.)"""
    moved = list(row)
    for at in handle_at:
        moved[at] = max(0, moved[at] - first)
    return moved


def hold_limit(run):
    """Of the profile `limit`. A thousand shapes meet the step limit, so it is replayed from the end of its trail."""
    late, length = hear_both(run)[0], trail_length(run)
    lines = []
    for line in run.lines[length + 1:]:
        kind, handle, *rest = line.split(" ")
        lines.append(" ".join([kind, str(int(handle) - length), *rest]))
    answers = [renumbered(row, [5], length) if len(row) > 3 else row for row in late.answers[length + 1:]]
    live = [renumbered(row, [0, 5], length) for row in late.live if row[0] > length]
    prototype = late.answers[length][4]
    image = limits(late.shapes - length, late.tables, late.keys, late.shapes - length)
    said = Said(answers, live)
    return Held(Run(run.name, lines), (said,), (image,), "replay_from", f"{length} {prototype}")


def every_theorems():
    """All sequences below each start and two calls."""
    table, sizes = every.all_digests(COLLECTORS[0])
    if every.all_digests(COLLECTORS[1])[0] != table:
        raise Trouble("the two collectors differ in a sequence of four calls")
    image = limits(sizes.shapes, sizes.tables, len(every.KEYS), sizes.shapes)
    starts = {"R": "new_root", "U": "new_unique"}
    theorems = []
    for (start, first), values in table.items():
        for second, value in enumerate(values):
            left = f"every ({image}) {starts[start]} {first} {second}"
            theorems.append(Theorem(f"every-{start}-{first}-{second}", "every", left, str(value)))
    return theorems
