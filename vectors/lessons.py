#!/usr/bin/env python3
"""Document 01's lesson sheet, over the image of runner.py; it shares nothing with the definitions or the code.

Prints what the program `lessons` should print: crates/lessons/stdout is what

    python3 vectors/lessons.py

writes.
"""
import damage
from runner import Image, Shape, width

ACTIONS = ["Nothing", "Remove", "Insert"]
STRING, SYMBOL, INDEX = 0, 2**30, 2 * 2**30
A, B, C, SYMBOL_S, INDEX_5 = STRING + 1, STRING + 2, STRING + 3, SYMBOL, INDEX + 5
NAMES = {A: "a", B: "b", C: "c", SYMBOL_S: "s"}


class Large(Image):
    """Room for the longest lesson."""

    S, T, K, E = 1026, 256, 4, 1024

    def steps(self, n, steps):
        """"If the final result has 1,024 transitions, a new unique shape copies its keys and prototype"."""
        n = super().steps(n, steps)
        if self.shapes[n].transitions < 1024:
            return n
        return self.new_shape(Shape(0, prototype=self.shapes[n].prototype, unique=True), self.keys(n))

    def slots(self, n):
        """Attributes and slot index of each key: "the sum of the widths before it"."""
        slot, slots = 0, {}
        for key, attributes in self.keys(n):
            slots[key] = attributes, slot
            slot += width(attributes)
        return slots

    def key_list(self, n):
        """"strings in order, then symbols in order, index keys dropped"."""
        kinds = [(key >> 30, key) for key, _ in self.keys(n)]
        return [key for wanted in (0, 1) for kind, key in kinds if kind == wanted]


def started(unique=False):
    image = Large()
    return image, image.grant(image.new_shape(Shape(0, unique=unique), []))


def walk(image, reply, *steps):
    """Each step from the shape that the one before has given."""
    for name, *numbers in steps:
        reply = getattr(image, name)(reply[0], *numbers)
    return reply


def shape_text(image, n):
    shape, slots = image.shapes[n], image.slots(n)
    text = f"shape {n} {'unique' if shape.unique else 'shared'}, count {shape.transitions}, prototype {shape.prototype}"
    return text + "".join(f", {NAMES[key]} {slots[key][0]} at {slots[key][1]}" for key in image.key_list(n))


def lesson(name, image, reply, *steps):
    reply = walk(image, reply, *steps)
    print(f"{name}: {ACTIONS[reply[1]]}, {shape_text(image, reply[0])}")
    return reply


def lessons_1_to_4():
    image, root = started()
    before_c = lesson("1, before c", image, root, ("insert", A, 7), ("insert", B, 14))
    one = lesson("1", image, before_c, ("insert", C, 7))
    lesson("2", image, one, ("remove", B))
    lesson("3", image, one, ("change", B, 7))
    changed = lesson("4", image, one, ("change", A, 5))
    lesson("4, then", image, changed, ("remove", C))


def lessons_5_and_6():
    a_and_b = ("insert", A, 7), ("insert", B, 7)
    lesson("5", *started(), *a_and_b, ("change", B, 5), ("remove", A))
    lesson("6", *started(), *a_and_b, ("set_prototype", 9), ("insert", C, 7), ("set_prototype", 0), ("remove", A))


def lessons_7_and_8():
    image, unique = started(unique=True)
    old = lesson("7", image, unique, ("insert", A, 14), ("insert", B, 7), ("insert", C, 7))
    lesson("7, then", image, old, ("remove", A))
    print(f"7, the old one: {shape_text(image, old[0])}")
    lesson("8", *started(unique=True), ("insert", A, 7), ("insert", B, 7), ("change", A, 14))


def lessons_9_and_10():
    lesson("9", *started(), ("insert", SYMBOL_S, 7), ("insert", A, 7), ("insert", INDEX_5, 7), ("insert", B, 7))
    image, root = started()
    long = walk(image, root, *(("set_prototype", step) for step in range(1, 1023)))
    last_shared = lesson("10, step 1023", image, long, ("set_prototype", 1023))
    lesson("10, step 1024", image, last_shared, ("set_prototype", 1024))


def lesson_11(name, step):
    image, root = started()
    for child in range(1, 257):
        step(image, root[0], child)
        if child >= 255:
            counters = image.shapes[root[0]].counters
            print(f"11, {name}: counters {counters['property']} and {counters['prototype']}")


def root_words():
    """An image with a root, word for word."""
    S, T, K, E = Large.S, Large.T, Large.K, Large.E
    tables_at = 8 + 10 * S
    edges_at = tables_at + (1 + 3 * K) * T
    words = [S, T, K, E, 8, tables_at, edges_at, edges_at + 5 * E] + [0] * (edges_at + 5 * E - 8)
    words[8:18] = [1, 1, 0, 0, 0, 0, 0, 1, 0, 0]
    words[tables_at] = 1
    return words


def formattable(words, S, T, K, E):
    """Not "a limit or the total out of range, or slice length differs from the total"."""
    total = 8 + 10 * S + (1 + 3 * K) * T + 5 * E
    in_range = all(1 <= limit <= 65535 for limit in (S, T, E)) and 1 <= K <= 2048 and total <= 16777216
    return in_range and len(words) == total


def refusals():
    words = root_words()
    assert damage.sound(words) and formattable(words, *words[:4])
    print(f"no edges: refusal {0 if formattable(words, *words[:3], 0) else 12}")
    image, root = started()
    shape = walk(image, root, ("insert", A, 7), ("insert", B, 7))
    print(f"a list of two keys into one word: refusal {13 if len(image.key_list(shape[0])) > 1 else 0}")
    words[8] = 3
    print(f"a damaged image: refusal {0 if damage.sound(words) else 1}")


def main():
    lessons_1_to_4()
    lessons_5_and_6()
    lessons_7_and_8()
    lessons_9_and_10()
    lesson_11("keys", lambda image, root, child: image.insert(root, child, 7))
    lesson_11("prototypes", lambda image, root, child: image.set_prototype(root, child))
    refusals()


if __name__ == "__main__":
    main()
