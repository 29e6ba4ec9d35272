"""Seeded runs, by named profiles. Few keys, so that runs collide."""
import itertools
import random
from dataclasses import dataclass

from runs import ORACLE_FOLDER, Run, read

HAND_WRITTEN = ORACLE_FOLDER.parent / "vectors" / "hand.runs"
LONGEST_SHORT = 40
LIMIT = 1024

A, B, C, D = 1, 2, 3, 4
SYMBOL = 2**30 + 1
INDEX = 2 * 2**30 + 5
BAD_KEY = 3 * 2**30 + 1
STRINGS = [A, B, C]
ALL_KEYS = [A, B, C, SYMBOL, INDEX]
DATA, DATA_2, ACCESSOR, ACCESSOR_2 = 7, 5, 14, 24
ATTRIBUTES = [DATA, DATA_2, ACCESSOR, ACCESSOR_2]
PROTOTYPES = [0, 8, 9]


def is_wide(attributes):
    return attributes & 24 != 0


@dataclass
class Sketch:
    """What a draft knows of a shape: its form, and its keys in order, each with whether it is an accessor."""

    unique: bool
    keys: dict
    transitions: int = 0  # at most; a removal may lead to fewer

    def after(self, keys, more):
        """The shape that comes of this one, with so many transitions more."""
        transitions = self.transitions + more
        return Sketch(self.unique or transitions >= LIMIT, keys, transitions)


class Draft:
    """A run being written. It follows which keys each handle has, so that most calls are taken."""

    def __init__(self, random_source):
        self.random = random_source
        self.lines = []
        self.shapes = [None]  # by handle; none for handle 0 and for released ones

    # ### What the next line may speak of

    def live(self):
        return [handle for handle, shape in enumerate(self.shapes) if shape]

    def handle(self):
        """A live handle, most often the newest; 0 if there is none."""
        live = self.live()
        if not live:
            return 0
        return live[-1] if self.random.random() < 0.6 else self.random.choice(live)

    def held(self, handle):
        shape = self.shapes[handle]
        return list(shape.keys) if shape else []

    def absent(self, handle, keys):
        return [key for key in keys if key not in self.held(handle)]

    # ### Lines

    def add(self, line):
        self.lines.append(line)

    def give(self, shape):
        self.shapes.append(shape)
        return len(self.shapes) - 1

    def replace(self, shape, keys, more):
        """A unique shape that a new one takes the place of is empty from then on."""
        new = shape.after(keys, more)
        if shape.unique:
            shape.keys = {}
        return self.give(new)

    def root(self):
        self.add("R")
        return self.give(Sketch(False, {}))

    def unique(self):
        self.add("U")
        return self.give(Sketch(True, {}))

    def insert(self, handle, key, attributes):
        self.add(f"I {handle} {key} {attributes}")
        shape = self.shapes[handle]
        keys = {**shape.keys, key: is_wide(attributes)}
        if shape.unique:
            shape.keys = keys
            return self.give(shape)
        return self.give(shape.after(keys, 1))

    def change(self, handle, key, attributes):
        self.add(f"C {handle} {key} {attributes}")
        shape = self.shapes[handle]
        same_width = shape.keys[key] == is_wide(attributes)
        if shape.unique and same_width:
            return self.give(shape)
        return self.replace(shape, {**shape.keys, key: is_wide(attributes)}, 1 if same_width else 0)

    def remove(self, handle, key):
        self.add(f"D {handle} {key}")
        shape = self.shapes[handle]
        return self.replace(shape, {other: wide for other, wide in shape.keys.items() if other != key}, -1)

    def prototype(self, handle, prototype):
        self.add(f"P {handle} {prototype}")
        shape = self.shapes[handle]
        return self.replace(shape, dict(shape.keys), 1)

    def release(self, handle):
        self.add(f"F {handle}")
        self.shapes[handle] = None

    def sweep(self):
        self.add("S")

    def forget_before(self, handle):
        """Later lines speak of this handle and newer ones only."""
        self.shapes[:handle] = [None] * handle

    def release_all(self):
        """The sweep then says how many shapes and tables there were."""
        live = self.live()
        self.random.shuffle(live)
        for handle in live:
            self.release(handle)
        self.sweep()


# ## A line whose key, attributes or prototype is drawn; where there is no such line, none

def insert_some(draft, handle, keys, attributes):
    free = draft.absent(handle, keys)
    return draft.insert(handle, draft.random.choice(free), draft.random.choice(attributes)) if free else handle


def change_some(draft, handle, attributes):
    held = draft.held(handle)
    return draft.change(handle, draft.random.choice(held), draft.random.choice(attributes)) if held else handle


def remove_some(draft, handle):
    held = draft.held(handle)
    return draft.remove(handle, draft.random.choice(held)) if held else handle


def prototype_some(draft, handle, prototypes):
    return draft.prototype(handle, draft.random.choice(prototypes))


def release_some(draft):
    live = draft.live()
    if len(live) > 1:
        draft.release(draft.random.choice(live))


def one_of(draft, weights, keys, attributes, prototypes=PROTOTYPES):
    """One more line of a kind that is drawn by its weight."""
    kind = draft.random.choices(list(weights), list(weights.values()))[0]
    handle = draft.handle()
    if handle == 0 or kind == "root":
        draft.root()
    elif kind == "unique":
        draft.unique()
    elif kind == "insert":
        insert_some(draft, handle, keys, attributes)
    elif kind == "change":
        change_some(draft, handle, attributes)
    elif kind == "remove":
        remove_some(draft, handle)
    elif kind == "prototype":
        prototype_some(draft, handle, prototypes)
    elif kind == "release":
        release_some(draft)
    elif kind == "sweep":
        draft.sweep()
    else:
        refused_line(draft)


# ## Lines that are refused

BAD_LINES = [
    "", " ", "R ", " R", "R 1", "U 0", "I 1 1", "I 1 1 7 7", "I  1 1 7", "I 1 1  7", "i 1 1 7", "C 1", "D 1", "P 1",
    "F", "F 1 1", "S 0", "X", "I 1 1 x", "P 1 4294967296", "P 1 -1", "P 1 +1", "I1 1 7", "I,1,1,7", "R;",
    "P 1 99999999999999999999", "F " + "0" * 63,
]


def refused_line(draft):
    """A line that earns a refusal, often several of them."""
    r = draft.random
    handle = draft.handle()
    released = [number for number, shape in enumerate(draft.shapes) if not shape]
    nobody = r.choice([len(draft.shapes) + 3, 4294967295] + released)
    held = draft.held(handle)
    key = r.choice(held) if held else A
    absent = r.choice(draft.absent(handle, ALL_KEYS) or [D])
    shape = draft.shapes[handle]
    choices = [
        f"I {r.choice([handle, nobody])} {BAD_KEY} {r.choice([DATA, 32])}",
        f"C {r.choice([handle, nobody])} {BAD_KEY} {r.choice([DATA, 255])}",
        f"D {r.choice([handle, nobody])} {BAD_KEY}",
        f"I {r.choice([handle, nobody])} {key} {r.choice([32, 64, 4294967295])}",
        f"C {r.choice([handle, nobody])} {key} 32",
        f"I {nobody} {key} {DATA}",
        f"C {nobody} {key} {DATA}",
        f"D {nobody} {key}",
        f"P {nobody} 9",
        f"F {nobody}",
        f"C {handle} {absent} {DATA}",
        r.choice(BAD_LINES),
        r.choice(BAD_LINES),
    ]
    if held:
        choices += [f"I {handle} {key} {r.choice(ATTRIBUTES)}"] * 2
    if shape and not shape.unique:
        choices += [f"D {handle} {absent}"] * 2
    draft.add(r.choice(choices))


# ## The short profiles

def start(draft, kinds):
    return draft.root() if draft.random.choice(kinds) == "R" else draft.unique()


def mixed(draft):
    start(draft, "RU")
    weights = {"insert": 30, "change": 18, "remove": 14, "prototype": 10, "release": 9, "sweep": 6, "root": 3,
               "unique": 3, "refused": 4}
    for _ in range(draft.random.randint(8, 14)):
        one_of(draft, weights, ALL_KEYS, ATTRIBUTES)


def shared(draft):
    start(draft, "R")
    weights = {"insert": 34, "change": 18, "remove": 18, "prototype": 10, "release": 3}
    for _ in range(draft.random.randint(7, 12)):
        one_of(draft, weights, STRINGS + [SYMBOL], [DATA, DATA_2, ACCESSOR])


def unique(draft):
    start(draft, "U")
    weights = {"insert": 40, "change": 22, "remove": 16, "prototype": 10, "release": 8, "sweep": 5, "unique": 3}
    for _ in range(draft.random.randint(8, 14)):
        one_of(draft, weights, ALL_KEYS, ATTRIBUTES)


def width_changes(draft):
    handle = start(draft, "RRU")
    for _ in range(draft.random.randint(2, 4)):
        handle = insert_some(draft, handle, ALL_KEYS, [DATA, ACCESSOR, 16])
    for _ in range(draft.random.randint(3, 6)):
        source = draft.handle()
        if draft.random.random() < 0.15:
            prototype_some(draft, source, PROTOTYPES)
        else:
            change_some(draft, source, [DATA, DATA_2, ACCESSOR, 8, 16, 31])


def removals_under_prototypes(draft):
    """Inserts, changes and prototypes in any order, and then the removal of old keys."""
    handle = start(draft, "RRRU")
    for _ in range(draft.random.randint(5, 8)):
        draw = draft.random.random()
        if draw < 0.5 or not draft.held(handle):
            handle = insert_some(draft, handle, [A, B, C, SYMBOL], [DATA, ACCESSOR])
        elif draw < 0.8:
            handle = prototype_some(draft, handle, PROTOTYPES)
        else:
            handle = change_some(draft, handle, [DATA, DATA_2, ACCESSOR])
    for _ in range(draft.random.randint(2, 3)):
        handle = remove_some(draft, draft.random.choice([handle, handle, draft.handle()]))


def sweeps(draft):
    """Steps whose shapes are swept, and the same steps again: they meet dead edges."""
    root = start(draft, "R")
    steps = [("I", A, DATA), ("I", A, DATA_2), ("I", B, DATA), ("P", 9), ("P", 0)]
    chosen = draft.random.sample(steps, draft.random.randint(2, 3))
    for _ in range(draft.random.randint(2, 3)):
        made = []
        for step in chosen:
            handle = draft.insert(root, *step[1:]) if step[0] == "I" else draft.prototype(root, step[1])
            made.append(handle)
            if draft.random.random() < 0.4 and draft.held(handle):
                made.append(change_some(draft, handle, [DATA, DATA_2]))
        for handle in dict.fromkeys(made):
            if draft.random.random() < 0.75:
                draft.release(handle)
        draft.sweep()
    insert_some(draft, draft.handle(), STRINGS, ATTRIBUTES)


def refused(draft):
    start(draft, "RU")
    for _ in range(draft.random.randint(8, 12)):
        if draft.random.random() < 0.55:
            refused_line(draft)
        else:
            one_of(draft, {"insert": 5, "change": 2, "remove": 1, "release": 2, "sweep": 1}, ALL_KEYS, ATTRIBUTES)


# ## The long profiles

def trail(draft, transitions):
    """By prototypes to so many transitions, and on from the end of that trail by everything else."""
    handle = draft.root()
    for number in range(transitions):
        handle = draft.prototype(handle, number % 7)
    draft.forget_before(handle)
    for _ in range(16):
        weights = {"insert": 8, "change": 7, "remove": 1, "prototype": 6}
        one_of(draft, weights, ALL_KEYS, [DATA, DATA_2, DATA_2, ACCESSOR])


def limit(draft):
    trail(draft, draft.random.randint(LIMIT - 6, LIMIT - 3))


def trails(draft):
    """As long as the step runner's image has room for all that comes of it."""
    trail(draft, draft.random.randint(100, 160))


def counters(draft):
    """More than 255 children of one kind of one shape, released and swept as they come."""
    root = draft.root()
    kind = draft.random.choice("IP")
    kept = draft.random.sample(range(270), 3)
    for number in range(270):
        handle = draft.insert(root, number + 1, DATA) if kind == "I" else draft.prototype(root, number)
        if number not in kept:
            draft.release(handle)
            if draft.random.random() < 0.7:
                draft.sweep()
    draft.sweep()
    # The first ones again: some have an edge, dead or live, and some have none.
    for number in [0, 1, kept[0], kept[1], 268, 269]:
        draft.insert(root, number + 1, DATA) if kind == "I" else draft.prototype(root, number)


SHORT = {
    "mixed": mixed,
    "shared": shared,
    "unique": unique,
    "width-changes": width_changes,
    "removals-under-prototypes": removals_under_prototypes,
    "sweeps": sweeps,
    "refused": refused,
}
LONG = {"limit": limit, "trails": trails, "counters": counters}
PROFILES = {**SHORT, **LONG}


def generate_one(profile, seed, number):
    """The same run for the same three, on every machine."""
    draft = Draft(random.Random(f"{profile} {seed} {number}"))
    PROFILES[profile](draft)
    if profile in SHORT and number % 2 == 1:
        draft.release_all()
    run = Run(f"{profile}-{seed}-{number}", draft.lines)
    if profile == "refused" and number % 5 == 4:
        run.unended = "R"
    if profile == "counters":
        # Its 256 edges are just enough, if dead ones are pruned at 255.
        run.room = (32, 32, 256)
    return run


def generate(profile, seed, count):
    return [generate_one(profile, seed, number) for number in range(count)]


def by_hand():
    return read(HAND_WRITTEN.read_text())


def is_short(run):
    return len(run.lines) <= LONGEST_SHORT


def short_runs(seed, count):
    """The short ones of those written by hand, and at least so many over all short profiles."""
    each = -(-count // len(SHORT))
    return [*filter(is_short, by_hand()), *(run for profile in SHORT for run in generate(profile, seed, each))]


def short_lines(seed, lines):
    """Of all short profiles in turn, so many runs that they have at least so many lines."""
    for number in itertools.count():
        for profile in SHORT:
            if lines <= 0:
                return
            run = generate_one(profile, seed, number)
            lines -= len(run.lines)
            yield run
