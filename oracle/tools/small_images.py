"""Every sound image of a small kind, and ten calls from each of its held shapes.

An image has one to three shared shapes, of one or two roots, by steps over one key with attributes 7, 5 and 14 and one
prototype; each way to share tables; an entry of a second key behind every table's own, or none; at most one dead edge;
all counters at 0 or all at 255; all shapes held or one of them. Places are drawn.
"""
import itertools
import random

from images import SHARED, Image, Shape, Table, load_line
from profiles import is_wide
from runs import Run

MOST_SHAPES = 3
MOST_ROOTS = 2
KEY, SECOND_KEY = 1, 2
ATTRIBUTES = (7, 5, 14)
EDGES = [(0, KEY, attributes) for attributes in ATTRIBUTES] + [(1, 9, 0)]
CALLS = (
    [f"I {{}} {KEY} {attributes}" for attributes in ATTRIBUTES]
    + [f"C {{}} {KEY} {attributes}" for attributes in ATTRIBUTES]
    + [f"I {{}} {SECOND_KEY} 7", f"D {{}} {KEY}", "P {} 9", "P {} 0"]
)
# Enough for any of the calls.
MADE_BY_A_CALL = 4
# A shape's parent, by its number, and the number of the edge to it.
ROOT = (-1, -1)


def allows(parent, edge):
    """Whether a shape may have an edge for this step: a held key keeps its width."""
    held = dict(parent.entries).get(edge[1], edge[2])
    return edge[0] == 1 or is_wide(held) == is_wide(edge[2])


def grow(forest, random_source):
    """An image of these shapes, or none where an edge is not allowed."""
    image = Image(random_source)
    for parent, number in forest:
        if (parent, number) == ROOT:
            image.shapes.append(Shape(SHARED, []))
        elif allows(image.shapes[parent], EDGES[number]):
            image.child(image.shapes[parent], EDGES[number])
        else:
            return None
    return image


def forests(begun=(ROOT,)):
    """Those that begin so, each once: shapes stand in the order of their parents and edges."""
    yield begun
    if len(begun) == MOST_SHAPES:
        return
    steps = itertools.product(range(len(begun)), range(len(EDGES)))
    more = [step for step in steps if step > begun[-1]]
    if begun[-1] == ROOT and len(begun) < MOST_ROOTS:
        more.append(ROOT)
    for step in more:
        yield from forests((*begun, step))


def table_choices(shapes):
    """For each shape the number of its table. Of two shapes that share one, one's keys begin with the other's."""
    def share(one, other):
        length = min(len(one.entries), len(other.entries))
        return one.entries[:length] == other.entries[:length]

    for numbers in itertools.product(range(len(shapes)), repeat=len(shapes)):
        in_order = all(number <= max(numbers[:at], default=-1) + 1 for at, number in enumerate(numbers))
        pairs = itertools.combinations(zip(numbers, shapes), 2)
        if in_order and all(one[0] != other[0] or share(one[1], other[1]) for one, other in pairs):
            yield numbers


def dead_choices(shapes):
    yield None
    for number, shape in enumerate(shapes):
        yield from ((number, edge) for edge in EDGES if edge not in shape.edges and allows(shape, edge))


def held_choices(count):
    yield range(count)
    if count > 1:
        yield from ([number] for number in range(count))


def set_tables(image, numbers, lengthened):
    image.tables = [Table([]) for _ in set(numbers)]
    for shape, number in zip(image.shapes, numbers):
        shape.table = image.tables[number]
        shape.table.entries = max(shape.table.entries, shape.entries, key=len)
    if lengthened:
        for table in image.tables:
            table.entries = table.entries + [(SECOND_KEY, 7)]


def all_images():
    random_source = random.Random("small images")
    for forest in forests():
        shapes = (image := grow(forest, random_source)) and image.shapes
        if not shapes:
            continue
        choices = itertools.product(table_choices(shapes), (False, True), dead_choices(shapes), (0, 255),
                                    held_choices(len(shapes)))
        for tables, lengthened, dead, counter, held in choices:
            image = grow(forest, random_source)
            set_tables(image, tables, lengthened)
            if dead:
                image.shapes[dead[0]].edges[dead[1]] = None
            for number, shape in enumerate(image.shapes):
                shape.counters = (counter, counter)
                shape.holds = int(number in held)
            yield image


def all_runs():
    """A run for each call from each held shape of each image, with a sweep after it."""
    for number, image in enumerate(all_images()):
        line = load_line(*image.words(MADE_BY_A_CALL))
        for handle in range(1, 1 + sum(shape.holds for shape in image.shapes)):
            for call in CALLS:
                yield Run(f"small-{number}", [line, call.format(handle), "S"])
