"""Holds a port against the oracle: both make the same runs, and their answers are compared byte by byte.

A driver (drivers/) stands between: it makes the oracle's lines with the port, and prints the oracle's answers.
"""
import itertools
import os
import re
import shlex
import shutil
import subprocess
import tempfile
from multiprocessing.pool import ThreadPool

from runs import ORACLE_FOLDER, Trouble, answer_numbers, answers_of_each, ask, freed, loads, many_text

ROOT = ORACLE_FOLDER.parent
RUNS_PER_PROCESS = 4096
# The images of the C calls are just large enough, twice or three times as large, in turn.
LARGEST_FACTOR = 3


def run_tool(command, folder=ROOT):
    try:
        done = subprocess.run(command, cwd=folder, capture_output=True, text=True)
    except OSError as error:
        raise Trouble(f"{command[0]} cannot be run: {error}")
    if done.returncode != 0:
        raise Trouble(f"{shlex.join(map(str, command))} failed:\n{done.stdout}{done.stderr}")


def build_driver(name, *more):
    """The driver of handle lines with this port, and what the compiler needs for that."""
    drivers, program = ORACLE_FOLDER / "drivers", ORACLE_FOLDER / "target" / name
    flags = ["-std=c11", "-D_POSIX_C_SOURCE=200809L", "-O2", "-Wall", "-Wextra", "-Werror"]
    run_tool(["cc", *flags, "-o", program, drivers / "handles.c", drivers / f"{name}.c", *more])
    return program


def driver_output(command, text):
    """What a driver prints. One that is killed, as by a fault in the C calls, has said something wrong."""
    done = subprocess.run(command, input=text, capture_output=True, text=True)
    if done.returncode > 0:
        raise Trouble(f"{command[0]} ended with {done.returncode}: {done.stderr}")
    return done.stdout + (f"error: ended by signal {-done.returncode}\n" if done.returncode else "")


class StepRunner:
    """A program that reads document 01's lines, and answers after each block that it reads."""

    oracle_options = ["--brief"]
    shows_all = False
    # Its image has no room for 1,024 transitions.
    long_runs = {"trails": 500, "counters": 200}

    def __init__(self, command):
        self.driver = build_driver("step_runner")
        self.command = shlex.split(command)
        if not self.command or not shutil.which(self.command[0]):
            raise Trouble(f"there is no such program: {command}")

    def answers(self, text, _part, _said):
        """Line by line; and the runner has to answer the same when it reads all lines at once, in blocks."""
        with tempfile.NamedTemporaryFile() as sent, tempfile.NamedTemporaryFile() as answers:
            answered = driver_output([self.driver, sent.name, answers.name, *self.command], text)
            again = subprocess.run(self.command, stdin=sent, capture_output=True).stdout
            same = again == answers.read()
            return answered + ("" if same else "error: the runner answers otherwise where it reads more at once\n")


class CCalls:
    """The archive of the C calls, with an image of its own for each run."""

    oracle_options = []
    shows_all = True
    # Each call and question tests the whole image, so there are fewer of these.
    long_runs = {"limit": 2, "trails": 20, "counters": 2}

    def __init__(self, archive):
        if archive is None:
            crate = ROOT / "crates" / "shapes_c"
            run_tool(["rt", "lib"], crate)
            archive = crate / "out" / "libshapes_c.a"
        inside = ORACLE_FOLDER / "drivers" / "inside.c"
        self.driver = build_driver("c_calls", inside, "-I", ROOT / "include", archive)

    def answers(self, text, part, said):
        with tempfile.NamedTemporaryFile("w", prefix="limits-") as limits:
            for number, (run, answered) in enumerate(zip(part, answers_of_each(said))):
                factor = 1 + number % LARGEST_FACTOR
                print(*(size * factor for size in image_limits(run, answered)), file=limits)
            limits.flush()
            return driver_output([self.driver, limits.name], text)


def image_limits(run, answered):
    """S, T, K and E with room for what the oracle made in this run, and for no more. Each edge is made with its child,
    so there are never more edges than shapes were made. A loaded image has its own."""
    if loads(run):
        return [1, 1, 1, 1]
    swept = [answer_numbers(line) for line in answered if re.match("swept|ended", line)]
    shapes, tables = freed(swept)
    shapes, tables, edges = run.room or (shapes, tables, shapes)
    keys = max(line.count(":") // 2 for line in answered if not line.startswith(" "))
    return [max(1, size) for size in (shapes, tables, keys, edges)]


def parts(runs):
    """Some runs for each process. It ends with a run whose last line is unended."""
    part = []
    for run in runs:
        part.append(run)
        if run.unended or len(part) == RUNS_PER_PROCESS:
            yield part
            part = []
    if part:
        yield part


def complaint(port, part):
    """What is wrong with the port's answers to these runs: nothing, or the first thing."""
    text = many_text(part, port.shows_all, port.shows_all)
    said = ask("--free-at-sweep", text, *port.oracle_options)
    answered = port.answers(text, part, said)
    return None if answered == said else first_difference(part, text, said, answered)


def complaints(port, runs):
    """The parts of some runs, each with its complaint: as many at once as there are processors."""
    at_once = os.cpu_count() or 1
    remaining = parts(runs)
    with ThreadPool(at_once) as pool:
        while some := list(itertools.islice(remaining, at_once)):
            yield from zip(some, pool.map(lambda part: complaint(port, part), some))


def by_line(answered):
    """The answer to each line: more lines of it are indented, complain, or are the shapes that are live."""
    answers, shapes = [], 0
    for line in answered.splitlines():
        if answers and (shapes or line.startswith((" ", "error"))):
            answers[-1].append(line)
            shapes -= line.startswith("shape ")
        else:
            answers.append([line])
            shapes = int(line.split()[1]) if line.startswith("live ") else 0
    return answers


def first_difference(part, text, said, answered):
    lines = text.splitlines()
    pairs = itertools.zip_longest(by_line(said), by_line(answered), fillvalue=[])
    number, wanted, got = next((number, *pair) for number, pair in enumerate(pairs) if pair[0] != pair[1])
    begun = max((at for at, line in enumerate(lines[:number]) if line == "N"), default=0)
    run = part[min(max(1, lines[:number].count("N")), len(part)) - 1]
    wanted, got = next(pair for pair in itertools.zip_longest(wanted, got) if pair[0] != pair[1])
    read = "".join(f"    {line}\n" for line in lines[begun + 1: number + 1])
    return f"{run.name}: answered `{got}`, the oracle says `{wanted}`, after\n{read}"
