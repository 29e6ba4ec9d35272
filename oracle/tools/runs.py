"""Runs of handle lines: how they are written down, and what the oracle says of them.

A run is written as

    # NAME
    > a line of input
    >! a last line of input that no line feed ends

A line of input may be anything, also nothing: it stands after the mark.
"""
import subprocess
from dataclasses import dataclass
from pathlib import Path

COLLECTORS = ("--free-at-sweep", "--free-at-once")
ORACLE_FOLDER = Path(__file__).resolve().parent.parent
BAD_LINE = [14]
# Loads nothing; from then on what is inside the shapes is shown too.
EMPTY_IMAGE = "L 0"


class Trouble(Exception):
    """Something that ends the command with a message."""


@dataclass
class Run:
    name: str
    lines: list
    unended: str = ""  # a last line without its line feed, if there is one
    room: tuple = ()  # S, T and E of an image that suffices, where the run sweeps so much that few are needed at a time

    def text(self):
        return "".join(line + "\n" for line in self.lines) + self.unended


@dataclass
class Said:
    """What the oracle says: a list of numbers for each line, and for each handle that is live at the end."""

    answers: list
    live: list
    # All that was made, swept or not, and the most keys of a shape: an image of these sizes has room for the run.
    shapes: int = 0
    tables: int = 0
    keys: int = 0

    def numbers(self):
        return self.answers + self.live


def write(run):
    marked = [f"# {run.name}"] + [f"> {line}" for line in run.lines]
    if run.unended:
        marked.append(f">! {run.unended}")
    return "\n".join(marked) + "\n"


def read(text):
    runs = []
    for line in text.splitlines():
        if line.startswith("# "):
            runs.append(Run(line[2:], []))
        elif line.startswith("> ") and runs:
            runs[-1].lines.append(line[2:])
        elif line.startswith(">! ") and runs:
            runs[-1].unended = line[3:]
        else:
            raise Trouble(f"not a line of a run: {line!r}")
    return runs


def loads(run):
    """Whether a run begins at an image of its own."""
    return run.lines[0].startswith("L ")


def many_text(runs, shown=False, inside=False):
    """Runs one after another, begun and ended by `N`, and what is live shown after each; with what is inside the shapes
    where that is asked for. Only the last of them may have an unended line."""
    def text(run):
        lines = [EMPTY_IMAGE] if inside and not loads(run) else []
        return "".join(f"{line}\n" for line in ["N", *lines, *run.lines, *(["?"] if shown else [])])
    return "".join(map(text, runs)) + "N\n" + runs[-1].unended


def answers_of_each(answered):
    """The answers to `many_text`, line by line, for each run; the last of each is the line `ended ..`."""
    each = []
    for line in answered.splitlines():
        if each:
            each[-1].append(line)
        if line.startswith("ended "):
            each.append([])
    return each[:-1]


# ## The oracle

def build(source):
    built = subprocess.run([ORACLE_FOLDER / "build", source], capture_output=True, text=True)
    if built.returncode != 0:
        raise Trouble(f"oracle/build {source} failed:\n{built.stdout}{built.stderr}")


def ask(collector, text, *options):
    """The oracle's answers to a text."""
    program = ORACLE_FOLDER / "target" / "debug" / "oracle"
    done = subprocess.run([program, collector, *options], input=text, capture_output=True, text=True)
    if done.returncode != 0:
        raise Trouble(f"the oracle ended with {done.returncode}: {done.stderr}{done.stdout[-500:]}")
    return done.stdout


def bracketed(words):
    """The items of `[..]` at the front of the words, and the words after it."""
    end = next(i for i, word in enumerate(words) if word.endswith("]"))
    items = " ".join(words[: end + 1])[1:-1].split()
    return items, words[end + 1:]


def shape_numbers(line):
    """The handle of a line `shape ..`, and what is said of it."""
    words = line.split(" ")
    handle, form = int(words[1]), words[2]
    count, action, prototype, same = (int(words[i]) for i in (4, 6, 8, 10))
    entries, rest = bracketed(words[12:])
    keys, _ = bracketed(rest[1:])
    numbers = [1 if form == "shared" else 0, count, action, prototype, same, len(entries)]
    for entry in entries:
        numbers += [int(number) for number in entry.split(":")]
    return handle, numbers + [int(key) for key in keys]


def answer_numbers(line):
    kind, _, rest = line.partition(" ")
    if kind == "refused":
        return [int(rest)]
    if kind == "released":
        return [0]
    if kind in ("swept", "ended"):
        return [0] + [int(number) for number in rest.split()]
    if kind == "shape":
        return [0] + shape_numbers(line)[1]
    raise Trouble(f"an answer that cannot be read: {line}")


def entry_count(answer):
    return answer[6] if len(answer) > 6 else 0


def freed(answers):
    """How many shapes and tables the sweeps among these answers free."""
    swept = [answer for answer in answers if len(answer) == 3]
    return sum(shapes for _, shapes, _ in swept), sum(tables for _, _, tables in swept)


def made(lines):
    """How many shapes and tables these lines make in all: what sweeps free, once every handle is released."""
    answers = [answer_numbers(line) for line in ask("--free-at-sweep", "\n".join([*lines, "N"]) + "\n").splitlines()]
    return freed(answers)


def swept_after_each(lines):
    """A collector that frees at once makes more: what it freed may have to be made again."""
    return [swept for line in lines for swept in (line, "S")]


def hear(run, collector):
    """Makes a run with the oracle, and shows all live handles at its end."""
    count = len(run.lines)
    answered = ask(collector, "\n".join(run.lines + ["?"]) + "\n").splitlines()
    answers = [answer_numbers(line) for line in answered[:count]]
    live = []
    for line in answered[count + 1:]:
        handle, numbers = shape_numbers(line)
        live.append([handle] + numbers)
    if run.unended:
        # `?` cannot follow such a line, so its answer is heard by itself.
        last = answer_numbers(ask(collector, run.text()).splitlines()[-1])
        if last != BAD_LINE:
            raise Trouble(f"{run.name}: an unended line was answered {last}")
        answers.append(last)
    shapes, tables = made(run.lines if collector == "--free-at-sweep" else swept_after_each(run.lines))
    return Said(answers, live, shapes, tables, max([1] + [entry_count(answer) for answer in answers]))


def is_sweep(line):
    return line == "S"


def hear_both(run):
    """What both collectors say. They may differ in what a sweep frees, and in nothing else."""
    late, early = (hear(run, collector) for collector in COLLECTORS)
    lines = run.lines + ([run.unended] if run.unended else [])
    for number, line in enumerate(lines):
        if not is_sweep(line) and late.answers[number] != early.answers[number]:
            raise Trouble(f"{run.name}, line {number + 1}, `{line}`: the two collectors differ")
    if late.live != early.live:
        raise Trouble(f"{run.name}: the two collectors differ in the handles that are live at the end")
    return late, early
