"""Every sequence of so many calls, from a root and from a unique, each to the newest shape."""
import functools
import itertools
import re
from dataclasses import dataclass

from profiles import A, B
from runs import Run, answer_numbers, answers_of_each, ask, many_text

KEYS = (A, B)
ATTRIBUTES = (7, 5, 14)
CALLS = (
    [("I", key, attributes) for key in KEYS for attributes in ATTRIBUTES]
    + [("C", key, attributes) for key in KEYS for attributes in ATTRIBUTES]
    + [("D", key) for key in KEYS]
    + [("P", prototype) for prototype in (8, 9)]
)
STARTS = ("R", "U")
# How many calls the sequences have that the definitions are compared on.
DEFINITIONS_DEPTH = 4


def count(depth):
    return len(STARTS) * len(CALLS) ** depth


def refused(start, keys, call):
    """Whether a call is refused, with these keys held."""
    kind, key = call[0], call[1]
    if kind == "I":
        return key in keys
    if kind == "C":
        return key not in keys
    return kind == "D" and start == "R" and key not in keys


def keys_after(keys, call):
    if call[0] == "I":
        return keys | {call[1]}
    return keys - {call[1]} if call[0] == "D" else keys


def sequence_lines(start, calls):
    lines, keys, newest = [start], frozenset(), 1
    for call in calls:
        kind, *numbers = call
        lines.append(" ".join([kind, str(newest), *map(str, numbers)]))
        if not refused(start, keys, call):
            keys = keys_after(keys, call)
            newest += 1
    return lines


def runs_below(start, first, depth):
    """Every sequence that starts so, the last call changing fastest."""
    for number, rest in enumerate(itertools.product(CALLS, repeat=depth - 1)):
        calls = (CALLS[first], *rest)
        yield Run(f"every-{start}-{first}-{number}", sequence_lines(start, calls))


def all_runs(depth):
    for start, first in itertools.product(STARTS, range(len(CALLS))):
        yield from runs_below(start, first, depth)


# ## Digests: all sequences below two calls, as one number. As `every` of replay/Replay.antt makes them.

PRIME = 2**61 - 1
FACTOR = 1000003


def digest(value, numbers):
    for number in numbers:
        value = (FACTOR * value + number + 1) % PRIME
    return value


def digest_row(value, row):
    return digest(digest(value, [len(row)]), row)


@functools.cache
def lists_numbers(text):
    """The numbers of `entries [..] keys [..]`; few such texts differ."""
    entries, keys = re.fullmatch(r"entries \[(.*)\] keys \[(.*)\]", text).groups()
    numbers = [int(number) for entry in entries.split() for number in entry.split(":")]
    return [len(numbers) // 3, *numbers, *(int(key) for key in keys.split())]


def row_of(line):
    """What an answer says: its numbers, and its handle if it has one."""
    if not line.startswith("shape "):
        return answer_numbers(line), 0
    words = line.split(" ", 11)
    numbers = [1 if words[2] == "shared" else 0, *(int(words[at]) for at in (4, 6, 8, 10))]
    return [0, *numbers, *lists_numbers(words[11])], int(words[1])


def sequence_digest(answers, live):
    value = 0
    for line in answers:
        value = digest_row(value, row_of(line)[0])
    for line in live:
        numbers, handle = row_of(line)
        value = digest_row(value, [handle, *numbers[1:]])
    return value


@dataclass
class Sizes:
    """The largest image that any sequence needs."""

    shapes: int = 1
    tables: int = 1

    def widen(self, swept):
        self.shapes = max(self.shapes, swept[1])
        self.tables = max(self.tables, swept[2])


def digests_below(collector, start, first, sizes):
    """The digest below each second call."""
    below = list(runs_below(start, first, DEFINITIONS_DEPTH))
    each = answers_of_each(ask(collector, many_text(below, shown=True)))
    digests, lines = [], DEFINITIONS_DEPTH + 1
    per_second = len(below) // len(CALLS)
    for number, answered in enumerate(each):
        if number % per_second == 0:
            digests.append(0)
        value = sequence_digest(answered[:lines], answered[lines + 1: -1])
        digests[-1] = digest(digests[-1], [value])
        sizes.widen(answer_numbers(answered[-1]))
    return digests


def all_digests(collector):
    """By start, first and second call; and the sizes of an image that has room for each sequence."""
    sizes = Sizes()
    table = {}
    for start, first in itertools.product(STARTS, range(len(CALLS))):
        table[start, first] = digests_below(collector, start, first, sizes)
    return table, sizes
