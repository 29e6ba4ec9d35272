"""Sound images of document 01, drawn at random, and runs that begin at one.

A run from a formatted image leads to few of the sound images. Here all that Sound leaves open is drawn: which shapes
share a table, what stands in it behind their keys, dead edges, counters, holds, and every place.
"""
import itertools
import random
from dataclasses import dataclass, field

from profiles import ATTRIBUTES, INDEX, LIMIT, SYMBOL, Draft, Sketch, is_wide, one_of
from runs import Run

# The largest and the smallest number of a kind are among them; 0 is a string.
KEYS = [0, 1, 2, 2**30 - 1, SYMBOL, INDEX, 3 * 2**30 - 1]
PROTOTYPES = [0, 8, 9, 2**32 - 1]
INSERT, CONFIGURE, PROTOTYPE = 0, 1, 2
SHARED, UNIQUE = 1, 2
MOST_HOLDS = 65_535
MOST_HANDLES = 2
MOST_HELD = 30  # and never the first shapes of a long trail
# A line makes at most a prototype's child, a child for each key, and a unique shape: each with a table and an edge.
MADE_BY_A_LINE = len(KEYS) + 2
LONG_TRAILS = 400  # of so many images one has a trail up to the limit


@dataclass(eq=False)
class Table:
    entries: list  # pairs of key and attributes


@dataclass(eq=False)
class Shape:
    """A shape of the image. Its edges are those that begin at it, each by kind, key or prototype, and attributes, with
    its child if it is live."""

    state: int
    entries: list  # pairs of key and attributes
    prototype: int = 0
    previous: object = None
    kind: int = INSERT
    transitions: int = 0
    table: Table = None
    holds: int = 0
    counters: tuple = (0, 0)
    edges: dict = field(default_factory=dict)
    place: int = 0


def is_prototype(edge):
    return edge[0] == 1


class Image:
    def __init__(self, random_source):
        self.random = random_source
        self.shapes = []
        self.tables = []

    def shared(self):
        return [shape for shape in self.shapes if shape.state == SHARED]

    # ### Shapes and their edges

    def attributes(self, width_of=None):
        """Any, or of the width of these."""
        any_of = ATTRIBUTES if self.random.random() < 0.8 else range(32)
        fitting = [one for one in any_of if width_of is None or is_wide(one) == is_wide(width_of)]
        return self.random.choice(fitting)

    def edge(self, parent):
        """A step that this shape may have an edge for."""
        if self.random.random() < 0.25:
            return 1, self.random.choice(PROTOTYPES), 0
        key = self.random.choice(KEYS)
        return 0, key, self.attributes(dict(parent.entries).get(key))

    def child(self, parent, edge):
        _, key, attributes = edge
        kind, entries, prototype = PROTOTYPE, parent.entries, key
        if not is_prototype(edge):
            kind, prototype = INSERT, parent.prototype
            entries = parent.entries + [(key, attributes)]
            if key in dict(parent.entries):
                kind = CONFIGURE
                entries = [(held, attributes if held == key else old) for held, old in parent.entries]
        child = Shape(SHARED, entries, prototype, parent, kind, parent.transitions + 1)
        parent.edges[edge] = child
        self.shapes.append(child)
        return child

    def grow(self, count):
        """So many shapes more, each a child of the newest or of any other."""
        for _ in range(count):
            parents = [shape for shape in self.shared() if shape.transitions < LIMIT]
            parent = parents[-1] if self.random.random() < 0.6 else self.random.choice(parents)
            edge = self.edge(parent)
            if edge not in parent.edges:
                self.child(parent, edge)

    def trail(self, length):
        """From the newest, by prototypes."""
        for number in range(length):
            self.child(self.shapes[-1], (1, number % 7, 0))

    def dead_edges(self, count):
        for _ in range(count):
            parent = self.random.choice(self.shared())
            parent.edges.setdefault(self.edge(parent), None)

    def uniques(self, count):
        for _ in range(count):
            keys = self.random.sample(KEYS, self.random.randint(0, 4))
            entries = [(key, self.attributes()) for key in keys]
            self.shapes.append(Shape(UNIQUE, entries, self.random.choice(PROTOTYPES)))

    # ### Tables

    def fitting_tables(self, entries):
        """Those that begin with these entries, or are the beginning of them."""
        def fits(table):
            length = min(len(table.entries), len(entries))
            return table.entries[:length] == entries[:length]
        return [table for table in self.tables if fits(table)]

    def choose_tables(self):
        """For each shared shape a table that others have too, longer or not, or one of its own."""
        sharing = self.random.choice([0.3, 0.8, 0.95])
        shapes = self.shared()
        if self.random.random() < 0.5:
            self.random.shuffle(shapes)
        for shape in shapes:
            fitting = self.fitting_tables(shape.entries)
            if not fitting or self.random.random() > sharing:
                shape.table = Table(shape.entries)
                self.tables.append(shape.table)
                continue
            usual = shape.previous and shape.previous.table
            shape.table = usual if usual in fitting and self.random.random() < 0.7 else self.random.choice(fitting)
            if len(shape.table.entries) < len(shape.entries):
                shape.table.entries = shape.entries

    def lengthen_tables(self):
        """Entries that no shape has, as a swept one leaves them."""
        for table in self.tables:
            while self.random.random() < 0.25:
                held = dict(table.entries)
                absent = [key for key in KEYS if key not in held]
                if absent:
                    table.entries = table.entries + [(self.random.choice(absent), self.attributes())]

    # ### Numbers

    def choose_numbers(self):
        for number, shape in enumerate(reversed(self.shapes)):
            if number < MOST_HELD and shape.transitions < LIMIT:
                shape.holds = self.random.choice([0, 0, 0, 1, 1, 1, 2, 3, MOST_HOLDS - 1000])
            if shape.state == SHARED:
                counters = [0, 0, 1, 2, 3, 254, 255, self.random.randint(0, 255)]
                shape.counters = tuple(self.random.choices(counters, k=2))
            else:
                shape.table = Table(shape.entries)
                self.tables.append(shape.table)
        if not any(shape.holds for shape in self.shapes):
            self.shapes[0].holds = 1

    def places(self, things, more):
        """A place for each of these, and how many there are in all."""
        highest = len(things) + self.random.randint(0, 3)
        return dict(zip(things, self.random.sample(range(1, highest + 1), len(things)))), highest + more

    # ### Words

    def words(self, more):
        """Of an image in which so many shapes, tables and edges more can be made: those that are not 0, by position;
        and how many words there are."""
        shape_places, shapes = self.places(self.shapes, more)
        table_places, tables = self.places(self.tables, more)
        edges_drawn = [(shape, edge) for shape in self.shapes for edge in shape.edges]
        edge_places, edges = self.places(edges_drawn, more)
        table_words = 1 + 3 * len(KEYS)
        tables_at = 8 + 10 * shapes
        edges_at = tables_at + table_words * tables
        total = edges_at + 5 * edges
        words = dict(enumerate([shapes, tables, len(KEYS), edges, 8, tables_at, edges_at, total]))

        def put(at, numbers):
            words.update((at + number, word) for number, word in enumerate(numbers) if word)

        for shape, place in shape_places.items():
            shape.place = place
            put(8 + 10 * (place - 1), [shape.state, shape.holds, shape_places.get(shape.previous, 0), shape.kind,
                                       shape.transitions, len(shape.entries), shape.prototype,
                                       table_places[shape.table], *shape.counters])
        for table, place in table_places.items():
            put(tables_at + table_words * (place - 1), table_numbers(table))
        for (parent, edge), place in edge_places.items():
            child = shape_places.get(parent.edges[edge], 0)
            put(edges_at + 5 * (place - 1), [shape_places[parent], *edge, child])
        return words, total


def table_numbers(table):
    numbers, slot = [1 + len(table.entries)], 0
    for key, attributes in table.entries:
        numbers += [key, attributes, slot]
        slot += 2 if is_wide(attributes) else 1
    return numbers


def load_line(words, total):
    return " ".join([f"L {total}", *(f"{position}:{word}" for position, word in sorted(words.items()))])


def draw_image(random_source, long_trail):
    image = Image(random_source)
    for _ in range(random_source.choice([1, 1, 2, 3])):
        image.shapes.append(Shape(SHARED, []))
    if long_trail:
        image.trail(random_source.randint(LIMIT - 4, LIMIT - 1))
    image.grow(random_source.randint(0, 14))
    image.dead_edges(random_source.choice([0, 1, 3, 6, 12, 40]))
    image.choose_tables()
    image.lengthen_tables()
    image.uniques(random_source.choice([0, 0, 1, 2]))
    image.choose_numbers()
    return image


# ## Which of them no run leads to

def counter_without_edge(image):
    """The edge that raised a counter goes only with a prune, which puts the counter at 0."""
    return any(counter and not any(edge[0] == kind for edge in shape.edges)
               for shape in image.shared() for kind, counter in enumerate(shape.counters))


def steps(image, kind):
    """The shapes that such a step made, and whether each has its previous's table."""
    return [(shape, shape.table is shape.previous.table) for shape in image.shared()
            if shape.previous and shape.kind == kind]


def prototype_to_another_table(image):
    return any(not same for _, same in steps(image, PROTOTYPE))


def configure_in_the_same_table(image):
    return any(same for _, same in steps(image, CONFIGURE))


def insert_to_another_table_for_no_reason(image):
    """The previous's table ends with its keys, and a table of shared shapes never becomes shorter."""
    return any(not same and len(shape.previous.table.entries) == len(shape.previous.entries)
               for shape, same in steps(image, INSERT))


def table_with_two_beginnings(image):
    """A shape has the table that was made for it, or its previous's."""
    begun = [shape.table for shape in image.shared() if not shape.previous or shape.previous.table is not shape.table]
    return len(begun) > len(set(begun))


OUT_OF_REACH = (counter_without_edge, prototype_to_another_table, configure_in_the_same_table,
                insert_to_another_table_for_no_reason, table_with_two_beginnings)


def out_of_reach(image):
    """Why no run from a formatted image leads to this one, as far as that is plain."""
    return [reason.__name__ for reason in OUT_OF_REACH if reason(image)]


# ## Runs

def sketch_of(shape):
    keys = {key: is_wide(attributes) for key, attributes in shape.entries}
    return Sketch(shape.state == UNIQUE, keys, shape.transitions)


class ImageDraft(Draft):
    """A run that begins at an image. It follows which handles have a shape of the image."""

    def __init__(self, random_source, image, first_line):
        super().__init__(random_source)
        self.add(first_line)
        self.loaded = {}
        self.sketches = {shape: sketch_of(shape) for shape in image.shapes}
        for shape in sorted(image.shapes, key=lambda shape: shape.place):
            for _ in range(min(shape.holds, MOST_HANDLES)):
                self.give_loaded(shape)

    def give_loaded(self, shape):
        self.loaded[self.give(self.sketches[shape])] = shape

    def some_loaded(self, wanted):
        """A live handle of such a shape of the image; 0 if there is none."""
        return self.random.choice([handle for handle in self.live()
                                   if handle in self.loaded and wanted(self.loaded[handle])] or [0])

    def along_an_edge(self):
        """The step of an edge that the image has, dead or live."""
        handle = self.some_loaded(lambda shape: shape.edges)
        if handle == 0:
            return
        edge = self.random.choice(list(self.loaded[handle].edges))
        _, key, attributes = edge
        if is_prototype(edge):
            self.prototype(handle, key)
        elif key in self.held(handle):
            self.change(handle, key, attributes)
        else:
            self.insert(handle, key, attributes)

    def hold(self):
        handle = self.handle()
        if handle:
            self.add(f"H {handle}")
            self.give(self.shapes[handle])

    def previous(self):
        """A root and a unique shape have none, so that no handle is given."""
        handle = self.some_loaded(lambda shape: True)
        if handle:
            self.add(f"V {handle}")
            if self.loaded[handle].previous:
                self.give_loaded(self.loaded[handle].previous)


def calls(draft, count):
    weights = {"insert": 24, "change": 16, "remove": 16, "prototype": 9, "release": 8, "sweep": 7, "root": 1,
               "unique": 1, "refused": 3}
    for _ in range(count):
        draw = draft.random.random()
        if draw < 0.25:
            draft.along_an_edge()
        elif draw < 0.28:
            draft.hold()
        elif draw < 0.33:
            draft.previous()
        else:
            attributes = ATTRIBUTES if draft.random.random() < 0.9 else range(32)
            one_of(draft, weights, KEYS, attributes, PROTOTYPES)


def image_run(seed, number):
    """A run that begins at an image; and the image."""
    source = random.Random(f"images {seed} {number}")
    image = draw_image(source, number % LONG_TRAILS == LONG_TRAILS - 1)
    count = source.randint(4, 12)
    draft = ImageDraft(source, image, load_line(*image.words(MADE_BY_A_LINE * count)))
    calls(draft, count)
    return Run(f"images-{seed}-{number}", draft.lines), image


def image_runs(seed, lines):
    """So many runs that they have at least so many lines."""
    for number in itertools.count():
        if lines <= 0:
            return
        run, image = image_run(seed, number)
        lines -= len(run.lines)
        yield run, image
