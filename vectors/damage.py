#!/usr/bin/env python3
"""The independent count for the program `damage`: document 01's sentences, applied to each changed image.

Reads the image's words, the program's input, and prints what the program should print.
Written from document 01's sentences; it shares nothing with the definitions or the code.
"""
from collections import Counter
from pathlib import Path

VALUES = [0, 1, 2, 3, 4, 8, 24, 31, 32, 255, 256, 1024, 1025, 65535, 65536, 2**30, 3 * 2**30, 2**32 - 1]
SHAPE = "state holds previous kind transitions properties prototype table counter0 counter1".split()
EDGE = "parent kind label attributes child".split()


def width(attributes):
    return 2 if attributes & 8 or attributes & 16 else 1


def good_key(key):
    return key >> 30 != 3


def sound(words):
    if len(words) < 8:
        return False
    S, T, K, E, shapes_at, tables_at, edges_at, total = words[:8]
    if not (1 <= S <= 65535 and 1 <= T <= 65535 and 1 <= E <= 65535 and 1 <= K <= 2048):
        return False
    if total > 16777216 or total != len(words) or shapes_at != 8:
        return False
    if tables_at != 8 + 10 * S or edges_at != tables_at + (1 + 3 * K) * T or total != edges_at + 5 * E:
        return False
    shapes = {n: dict(zip(SHAPE, words[8 + 10 * (n - 1):8 + 10 * n])) for n in range(1, S + 1)}
    edges = [dict(zip(EDGE, words[edges_at + 5 * n:edges_at + 5 * n + 5])) for n in range(E)]
    tables = {}
    for t in range(1, T + 1):
        row = words[tables_at + (1 + 3 * K) * (t - 1):tables_at + (1 + 3 * K) * t]
        count = row[0]
        if count > K + 1 or any(row[1 + 3 * max(count - 1, 0):]):
            return False
        if count:
            tables[t] = [tuple(row[1 + 3 * i:4 + 3 * i]) for i in range(count - 1)]
    for shape in shapes.values():
        if shape["state"] == 0 and any(shape.values()):
            return False
    for edge in edges:
        if edge["parent"] == 0 and any(edge.values()):
            return False
    shapes = {n: s for n, s in shapes.items() if s["state"]}
    edges = [e for e in edges if e["parent"]]
    return (tables_sound(tables, shapes) and all(fields_sound(s, tables) for s in shapes.values())
            and edges_sound(edges, shapes, tables)
            and all(child_sound(n, s, shapes, tables, edges) for n, s in shapes.items()))


def tables_sound(tables, shapes):
    users = Counter(s["table"] for s in shapes.values())
    for t, entries in tables.items():
        if users[t] == 0 or len({key for key, _, _ in entries}) != len(entries):
            return False
        place = 0
        for key, attributes, slot in entries:
            if not good_key(key) or attributes > 31 or slot != place:
                return False
            place += width(attributes)
    return all(s["state"] != 2 or users[s["table"]] == 1 for s in shapes.values())


def fields_sound(s, tables):
    if s["state"] not in (1, 2) or s["kind"] > 2 or s["table"] not in tables:
        return False
    long = len(tables[s["table"]])
    if s["transitions"] > 1024 or s["transitions"] == 1024 and s["holds"]:
        return False
    if s["holds"] > 65535 or s["counter0"] > 255 or s["counter1"] > 255:
        return False
    if s["state"] == 2:
        zero = ("previous", "kind", "transitions", "counter0", "counter1")
        return s["properties"] == long and not any(s[field] for field in zero)
    if s["properties"] > long:
        return False
    if s["previous"] == 0:
        return not any(s[field] for field in ("kind", "transitions", "properties", "prototype"))
    return True


def own(shape, tables):
    return [(key, attributes) for key, attributes, _ in tables[shape["table"]][:shape["properties"]]]


def edges_sound(edges, shapes, tables):
    names = [(e["parent"], e["kind"], e["label"], e["attributes"]) for e in edges]
    if len(set(names)) != len(names):
        return False
    for e in edges:
        parent = shapes.get(e["parent"])
        if parent is None or parent["state"] != 1 or e["kind"] > 1:
            return False
        if e["kind"] == 0:
            held = dict(own(parent, tables))
            if not good_key(e["label"]) or e["attributes"] > 31:
                return False
            if e["label"] in held and width(held[e["label"]]) != width(e["attributes"]):
                return False
        elif e["attributes"]:
            return False
        if e["child"]:
            child = shapes.get(e["child"])
            if child is None or child["state"] != 1 or child["previous"] != e["parent"]:
                return False
            if (child["kind"] == 2) != (e["kind"] == 1):
                return False
    return True


def child_sound(n, s, shapes, tables, edges):
    if s["state"] != 1 or s["previous"] == 0:
        return True
    before = shapes.get(s["previous"])
    if before is None or before["state"] != 1 or s["transitions"] != before["transitions"] + 1:
        return False
    leading = [e for e in edges if e["child"] == n]
    if len(leading) != 1 or leading[0]["parent"] != s["previous"]:
        return False
    key, attributes = leading[0]["label"], leading[0]["attributes"]
    keys, prototype = own(before, tables), before["prototype"]
    held = dict(keys)
    if s["kind"] == 0:
        if key in held:
            return False
        keys = keys + [(key, attributes)]
    elif s["kind"] == 1:
        if key not in held or width(held[key]) != width(attributes):
            return False
        keys = [(k, attributes if k == key else a) for k, a in keys]
    else:
        prototype = key
    return own(s, tables) == keys and s["prototype"] == prototype


def main():
    root = Path(__file__).resolve().parent.parent
    words = [int(word) for word in (root / "crates/damage/stdin").read_text().split()]
    S, T, K = words[:3]
    areas = [("header", 0, 8), ("shapes", 8, 8 + 10 * S), ("tables", 8 + 10 * S, words[6]), ("edges", words[6], len(words))]
    print("unchanged", int(sound(words)))
    for name, start, end in areas:
        tried = still = 0
        for at in range(start, end):
            old = words[at]
            for value in VALUES + [(old + 1) % 2**32, (old - 1) % 2**32]:
                if value != old:
                    words[at] = value
                    tried += 1
                    still += sound(words)
            words[at] = old
        print(name, tried, still)


if __name__ == "__main__":
    main()
