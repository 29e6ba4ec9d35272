"""Which lines of the six files some runs reach: an unoptimised build of the oracle under valgrind's callgrind.

A line counts if the program's line table has code for it, also in functions that nothing calls.
"""
import os
import re
import subprocess
import tempfile
from pathlib import Path

from runs import BAD_LINE, COLLECTORS, ORACLE_FOLDER, Trouble, hear

SHAPES = ORACLE_FOLDER / "src" / "object" / "shape"
FILES = [
    "mod.rs", "property_table.rs", "slot.rs", "unique_shape.rs", "shared_shape/mod.rs",
    "shared_shape/forward_transition.rs",
]
BUILD = ORACLE_FOLDER / "target" / "coverage"


def must(command, **options):
    done = subprocess.run(command, capture_output=True, text=True, **options)
    if done.returncode != 0:
        raise Trouble(f"{command[0]} failed:\n{done.stderr[-2000:]}")
    return done.stdout


def build_unoptimised():
    """Functions that nothing calls are compiled too, so that their lines are counted."""
    settings = dict(os.environ, CARGO_TARGET_DIR=str(BUILD), CARGO_PROFILE_DEV_OPT_LEVEL="0",
                    RUSTFLAGS="-C link-dead-code")
    must(["cargo", "build", "--offline", "--quiet"], cwd=ORACLE_FOLDER, env=settings)
    return BUILD / "debug" / "oracle"


# ## The lines that have code

def file_of(folder, name):
    """Which of the six a path of the line table is; none if it is another."""
    return next((file for file in FILES if f"{folder}/{name}".endswith(f"src/object/shape/{file}")), None)


def lines_with_code(program):
    """By file, from the line table: each unit has its folders, its files and then its rows."""
    code, folders, names, files = {file: set() for file in FILES}, {}, {}, {}
    for line in must(["llvm-dwarfdump", "--debug-line", str(program)]).splitlines():
        if line.startswith("debug_line["):
            folders, names, files = {}, {}, {}
        elif part := re.match(r'include_directories\[ *(\d+)\] = "(.*)"', line):
            folders[part.group(1)] = part.group(2)
        elif part := re.match(r"file_names\[ *(\d+)\]:", line):
            number = part.group(1)
        elif part := re.match(r'\s+name: "(.*)"', line):
            names[number] = part.group(1)
        elif part := re.match(r"\s+dir_index: (\d+)", line):
            files[number] = file_of(folders.get(part.group(1), ""), names[number])
        elif part := re.match(r"0x[0-9a-f]+ +(\d+) +\d+ +(\d+) ", line):
            file = files.get(part.group(2))
            if file and "end_sequence" not in line:
                code[file].add(int(part.group(1)))
    return {file: lines - {0} for file, lines in code.items()}


# ## The lines that ran

def lines_run(program, text, collector):
    """By file, from callgrind's output, whose positions are lines, many of them relative to the one before."""
    with tempfile.TemporaryDirectory() as folder:
        output = Path(folder) / "callgrind.out"
        measure = ["valgrind", "--tool=callgrind", "--dump-line=yes", f"--callgrind-out-file={output}"]
        must([*measure, str(program), collector], input=text)
        return parse_callgrind(output.read_text())


def parse_callgrind(text):
    ran, names, file, position = {}, {}, None, 0
    for line in text.splitlines():
        place = re.match(r"(fl|fi|fe|cfi|cfl)=\((\d+)\)(?: (.*))?$", line)
        if place:
            kind, number, name = place.groups()
            if name:
                names[number] = name
            if kind in ("fl", "fi", "fe"):
                file = names[number]
            continue
        cost = re.match(r"(\+\d+|-\d+|\*|\d+) \d+$", line)
        if cost:
            word = cost.group(1)
            if word[0] in "+-":
                position += int(word)
            elif word != "*":
                position = int(word)
            ran.setdefault(file, set()).add(position)
    return {name: ran.get(str(SHAPES / name), set()) for name in FILES}


# ## All runs as one

def joined(runs):
    """One text that makes all runs one after the other: each releases its handles at its end, and counts its own from
    the first that is free."""
    text, base = [], 0
    for run in runs:
        said = hear(run, COLLECTORS[0])
        for line, answer in zip(run.lines, said.answers):
            text.append(line if answer == BAD_LINE else moved(line, base))
        given = sum(len(answer) > 3 for answer in said.answers)
        text += [f"F {base + handle}" for handle in range(1, given + 1)] + ["S"]
        base += given
    return "\n".join(text) + "\n"


def moved(line, base):
    words = line.split(" ")
    # Handle 0 is nobody's in any run, and so is one that no run is long enough for.
    if len(words) > 1 and 0 < int(words[1]) < 2**31:
        words[1] = str(int(words[1]) + base)
    return " ".join(words)


def ranges(numbers):
    """As text: 3-5, 9."""
    spans = []
    for number in sorted(numbers):
        if spans and spans[-1][1] == number - 1:
            spans[-1][1] = number
        else:
            spans.append([number, number])
    return ", ".join(str(a) if a == b else f"{a}-{b}" for a, b in spans)


def report(runs):
    program = build_unoptimised()
    code, text = lines_with_code(program), joined(runs)
    ran = [lines_run(program, text, collector) for collector in COLLECTORS]
    for name in FILES:
        reached = set().union(*(one[name] for one in ran))
        missed = code[name] - reached
        print(f"{name}: {len(code[name])} lines with code, {len(code[name] & reached)} reached")
        print(f"    not reached: {ranges(missed) or 'none'}")
