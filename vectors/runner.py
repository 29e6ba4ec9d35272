#!/usr/bin/env python3
"""The step runner, written from document 01's sentences; it shares nothing with the definitions or the code.

Reads crates/runner/stdin and prints what the program `runner` should print: crates/runner/stdout is what

    python3 vectors/runner.py > crates/runner/stdout

wrote. With the argument `-` it reads standard input instead.
"""
import re
import sys
from pathlib import Path

NOTHING, REMOVE, INSERT = 0, 1, 2
FORM = re.compile(rb"([RUS])|([IC]) (\d+) (\d+) (\d+)|([DP]) (\d+) (\d+)|(F) (\d+)", re.ASCII)


class Refused(Exception):
    """A refusal's number; every lent word stays as it was."""


class Shape:
    def __init__(self, table, previous=0, kind="root", transitions=0, properties=0, prototype=0, unique=False):
        self.table, self.previous, self.kind, self.transitions = table, previous, kind, transitions
        self.properties, self.prototype, self.unique = properties, prototype, unique
        self.holds, self.counters = 0, {"property": 0, "prototype": 0}

    def copy(self):
        other = Shape(0)
        other.__dict__.update(self.__dict__, counters=dict(self.counters))
        return other


class Image:
    """Shapes, tables and edges by place; an edge is [parent, kind, key or prototype, attributes, child (0 dead)]."""

    S, T, K, E = 256, 32, 32, 256

    def __init__(self, shapes=None, tables=None, edges=None):
        self.shapes, self.tables, self.edges = shapes or {}, tables or {}, edges or {}

    def copy(self):
        return Image({n: s.copy() for n, s in self.shapes.items()}, {t: list(es) for t, es in self.tables.items()},
                     {n: list(e) for n, e in self.edges.items()})

    # -- places: "The lowest free place is always taken"

    def new_shape(self, shape, entries=None):
        """A shape, and a table for it if it has entries of its own. "7 to 10: the lowest that applies"."""
        if len(self.shapes) == self.S:
            raise Refused(8)
        if entries is not None and len(self.tables) == self.T:
            raise Refused(9)
        if entries is not None:
            shape.table = next(t for t in range(1, self.T + 1) if t not in self.tables)
            self.tables[shape.table] = list(entries)
            shape.properties = len(entries)
        place = next(n for n in range(1, self.S + 1) if n not in self.shapes)
        self.shapes[place] = shape
        return place

    def keys(self, n):
        """The shape's own entries, (key, attributes), without those that its table has of others."""
        shape = self.shapes[n]
        return self.tables[shape.table][:shape.properties]

    # -- one step from a shared shape

    def prune(self, n, kind):
        self.edges = {p: e for p, e in self.edges.items() if not (e[0] == n and e[1] == kind and e[4] == 0)}

    def step(self, n, kind, label, attributes=0):
        parent = self.shapes[n]
        edge_kind = "prototype" if kind == "prototype" else "property"
        edge = next((e for e in self.edges.values() if e[:4] == [n, edge_kind, label, attributes]), None)
        if edge and edge[4]:
            return edge[4]
        if edge:
            self.prune(n, edge_kind)
            parent.counters[edge_kind] = 0
        own = self.keys(n)
        appends = kind == "insert" and len(self.tables[parent.table]) == len(own)
        if kind == "insert" and len(own) == self.K:
            raise Refused(7)
        child = Shape(parent.table, n, kind, parent.transitions + 1, parent.properties, parent.prototype)
        entries = None
        if kind == "insert" and not appends:
            entries = own + [(label, attributes)]
        elif kind == "configure":
            entries = [(k, attributes if k == label else a) for k, a in self.tables[parent.table]]
        elif kind == "prototype":
            child.prototype = label
        place = self.new_shape(child, entries)
        if kind == "configure":
            child.properties = parent.properties
        if appends:
            self.tables[parent.table].append((label, attributes))
            child.properties = parent.properties + 1
        if parent.counters[edge_kind] == 255:
            self.prune(n, edge_kind)
        parent.counters[edge_kind] = (parent.counters[edge_kind] + 1) % 256
        if len(self.edges) == self.E:
            raise Refused(10)
        free = next(p for p in range(1, self.E + 1) if p not in self.edges)
        self.edges[free] = [n, edge_kind, label, attributes, place]
        return place

    def steps(self, n, steps):
        """No conversion at 1,024 transitions: 256 shapes are too few for such a trail."""
        for kind, label, attributes in steps:
            n = self.step(n, kind, label, attributes)
        return n

    def rollback(self, n, key):
        """The base before a held key's insert, the newest prototype step passed, the yields in their old order."""
        prototype, yields = [], {}
        while True:
            shape = self.shapes[n]
            if shape.kind == "prototype":
                prototype = prototype or [("prototype", shape.prototype, 0)]
            else:
                last, attributes = self.keys(n)[-1]
                if shape.kind == "insert" and last == key:
                    return shape.previous, prototype, [("insert", k, a) for k, a in reversed(yields.items())]
                if last != key:
                    yields.setdefault(last, attributes)
            n = shape.previous

    def renew(self, n, entries, prototype, kept):
        """A unique shape is replaced by a new one; the old one keeps its number and table, with no keys."""
        place = self.new_shape(Shape(0, prototype=prototype, unique=True), entries)
        old = self.shapes[n]
        self.tables[old.table], old.properties, old.prototype = [], 0, kept
        return place

    # -- calls

    def held(self, n):
        if n not in self.shapes or not self.shapes[n].holds:
            raise Refused(4)
        return self.shapes[n]

    def grant(self, n, action=NOTHING):
        shape = self.shapes[n]
        if shape.holds == 65535:
            raise Refused(11)
        shape.holds += 1
        return n, action, shape.transitions

    def insert(self, n, key, attributes):
        check_key(key)
        check_attributes(attributes)
        shape = self.held(n)
        if key in dict(self.keys(n)):
            raise Refused(5)
        if not shape.unique:
            return self.grant(self.steps(n, [("insert", key, attributes)]))
        if shape.properties == self.K:
            raise Refused(7)
        self.tables[shape.table].append((key, attributes))
        shape.properties += 1
        return self.grant(n)

    def change(self, n, key, attributes):
        check_key(key)
        check_attributes(attributes)
        shape = self.held(n)
        own = self.keys(n)
        if key not in dict(own):
            raise Refused(6)
        old = dict(own)[key]
        same = width(old) == width(attributes)
        action = NOTHING if same else REMOVE if width(old) == 2 else INSERT
        changed = [(k, attributes if k == key else a) for k, a in own]
        if shape.unique and same:
            self.tables[shape.table] = changed
        elif shape.unique:
            n = self.renew(n, changed, shape.prototype, 0)
        elif same:
            n = self.steps(n, [("configure", key, attributes)])
        else:
            base, prototype, yields = self.rollback(n, key)
            n = self.steps(base, prototype + [("insert", key, attributes)] + yields)
        return self.grant(n, action)

    def remove(self, n, key):
        check_key(key)
        shape = self.held(n)
        own = self.keys(n)
        if shape.unique:
            if key in dict(own):
                n = self.renew(n, [(k, a) for k, a in own if k != key], shape.prototype, 0)
            return self.grant(n)
        if key not in dict(own):
            raise Refused(6)
        base, prototype, yields = self.rollback(n, key)
        return self.grant(self.steps(base, prototype + yields))

    def set_prototype(self, n, prototype):
        shape = self.held(n)
        if shape.unique:
            return self.grant(self.renew(n, self.keys(n), prototype, shape.prototype))
        return self.grant(self.steps(n, [("prototype", prototype, 0)]))

    def release(self, n):
        self.held(n).holds -= 1
        return 0, 0, 0

    def sweep(self):
        kept = set()
        for n, shape in self.shapes.items():
            while shape.holds and n and n not in kept:
                kept.add(n)
                n = self.shapes[n].previous
        shapes, tables = len(self.shapes), len(self.tables)
        self.shapes = {n: s for n, s in self.shapes.items() if n in kept}
        self.tables = {t: es for t, es in self.tables.items() if any(s.table == t for s in self.shapes.values())}
        self.edges = {p: e[:4] + [e[4] if e[4] in kept else 0] for p, e in self.edges.items() if e[0] in kept}
        return shapes - len(self.shapes), tables - len(self.tables), 0


def width(attributes):
    return 2 if attributes & 24 else 1


def check_key(key):
    if key >> 30 == 3:
        raise Refused(2)


def check_attributes(attributes):
    if attributes > 31:
        raise Refused(3)


def call(image, letter, numbers):
    if letter == b"R":
        return image.grant(image.new_shape(Shape(0), []))
    if letter == b"U":
        return image.grant(image.new_shape(Shape(0, unique=True), []))
    return {b"I": image.insert, b"C": image.change, b"D": image.remove, b"P": image.set_prototype,
            b"F": image.release, b"S": image.sweep}[letter](*numbers)


def answer(image, line):
    """The image afterwards, and the four numbers."""
    form = FORM.fullmatch(line) if len(line) <= 64 else None
    letter, *words = [word for word in form.groups() if word is not None] if form else [b""]
    numbers = [int(word) for word in words]
    if not form or any(number >= 2**32 for number in numbers):
        return image, (14, 0, 0, 0)
    after = image.copy()
    try:
        return after, (0, *call(after, letter, numbers))
    except Refused as refusal:
        return image, (refusal.args[0], 0, 0, 0)


def input_of(program):
    """Standard input if the argument is `-`, else what the gate runs the program on."""
    root = Path(__file__).resolve().parent.parent
    text = sys.stdin.buffer.read() if sys.argv[1:] == ["-"] else (root / "crates" / program / "stdin").read_bytes()
    return text.split(b"\n")


def main():
    *lines, unended = input_of("runner")
    image = Image()
    for line in lines:
        image, numbers = answer(image, line)
        print(*numbers)
    if unended:
        print(14, 0, 0, 0)


if __name__ == "__main__":
    main()
