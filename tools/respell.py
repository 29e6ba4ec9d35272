#!/usr/bin/env python3
"""Brings this repository's own names to today's spelling: the second half of the port, run once, right after
the kit's port.py, at the top of the repository.

Words of our own go from camel case to snake case. A dash stays in a name whose parts are all defined words (as in
`parse-words`); elsewhere it becomes an underscore (`used-place-inside` is `used_place_inside`). Names of the library,
functions and types of src/, strings and generated names keep their spelling. It stops, and writes nothing, where two
names of one file would fall together. With --table it prints what is renamed.
"""
import glob
import os
import re
import subprocess
import sys

TOKEN = re.compile(r"(?<![\w\"])\"(?:[^\"\\\n]|\\.)*\"|[A-Za-z_μκλ][\w'₀-₉]*(?:[-→≡^<≤][\w'₀-₉]+)*")
LIBRARY_WORDS = set("""
length take drop set sets append replicate map and or not eqb leb ltb get_or suc zero one add sub mul div mod pow
reverse filter cond min max cons nil ap subst
""".split())
# Lemmas that would fall together with a definition get `_lem`; `getD` of the library is `get_or` now.
BY_HAND = {"getD": "get_or"}
for lemma in "is_made is_free was_free in_use not_alike count_fits none_after".split():
    BY_HAND[lemma] = lemma + "_lem"
for lemma in """
is-shared read-on live-child no-edge table-in-use right-from in-range free-zero edges-good edge-kind good-entries good-label
was-used is-used same-core previous-shared same-pairs same-trail was-held key-order no-shape step-of next-index
""".split():
    BY_HAND[lemma] = lemma.replace("-", "_") + "_lem"


def snake(word):
    word = re.sub(r"(?<=[a-z0-9'])([A-Z])", lambda m: "_" + m.group(1).lower(), word)
    return re.sub(r"(?<=_[a-z])([A-Z])", lambda m: "_" + m.group(1).lower(), word)


def is_camel(word):
    return re.match(r"[a-z_][\w']*[a-z0-9'][A-Z]", word) or re.match(r"[a-z][A-Z]", word)


def parts_of(name):
    return re.split(r"(-)", name)


class Names:
    def __init__(self):
        self.specs = glob.glob("crates/*/specs/*.antt")
        self.lemmas = glob.glob("crates/*/proofs/*.antt")
        self.proofs = [f for f in glob.glob("crates/*/proofs/**/*.antt", recursive=True) if f not in self.lemmas]
        self.sources = glob.glob("crates/*/src/**/*.rt", recursive=True)
        own = {f.split("/")[1] for f in self.sources}
        self.text = {f: open(f, encoding="utf-8").read() for f in self.specs + self.lemmas + self.proofs + self.sources}
        self.foreign, self.words, self.defined, self.fields = set(), set(LIBRARY_WORDS), set(), set()
        for f, text in self.text.items():
            for path, names in re.findall(r"use ([\w.'+-]+?)\.\{([^}]*)\}", text):
                p = path.split(".")
                if p[0] == "Rattle" and p[1] in own and p[2] == "specs" and p[3] != "declared":
                    continue
                self.foreign |= {n.split(" as ")[0].strip() for n in names.split(",")}
        for f in self.specs + self.lemmas:
            for line in self.text[f].splitlines():
                m = re.match(r"\s*(abbrev pub|unfoldable pub|abbrev|unfoldable|pub record|record|pub data|data|pub)?\s*([^\s(){}:.]+)(?: [^:]*)? :(?: |$)", line)
                if m:
                    self.defined.add(m.group(2))
                    if m.group(1) and m.group(1) != "pub":
                        self.words.add(m.group(2))
                    if re.match(r"\s+pub ", line):
                        self.fields.add(m.group(2))

    def new(self, name, proof_file=False, dotted=False):
        if name in BY_HAND and not dotted:
            return BY_HAND[name]
        if name in self.foreign:
            return name
        if dotted and not (is_camel(name) or name in self.fields):
            return name
        if proof_file and not dotted and name not in self.defined and not is_camel(name):
            return name
        out = ""
        parts = parts_of(name)
        joined = all(part in self.words for part in parts[::2])
        for i, part in enumerate(parts):
            if part == "-":
                out += "-" if joined or parts[i - 1][:1].isupper() else "_"
            else:
                part = BY_HAND.get(part, part)
                out += snake(part) if is_camel(part) else part
        return out

    def turned(self, f):
        text, source, proof = self.text[f], f.endswith(".rt"), f in self.proofs
        table = {}

        def one(m):
            name = m.group(0)
            if name[0] == '"' or name[:2] == "b'":
                return name
            line = text[text.rfind("\n", 0, m.start()) + 1 : m.start()]
            said = re.search(r"(^|\s)(--|//)", line)
            if source or said:
                if not is_camel(name) and not (said and name in self.defined and line.count("`") % 2):
                    return name
                new = self.new(name)
            elif "Need-" in name or line.startswith("use Rattle.") and "proofs" in line and "{" not in line:
                return name
            else:
                new = self.new(name, proof, bool(re.search(r"[\w')}]\.$", line)))
            path = line.startswith("use ") and "{" not in line
            if not said and not path and not proof:
                table[name] = new
            return new

        token = re.compile(r"b'.'|\"(?:[^\"\\\\\n]|\\\\.)*\"|[A-Za-z_][\w']*") if source else TOKEN
        return token.sub(one, text), table


def main():
    names, everything, bad = Names(), {}, []
    out = {}
    for f in names.text:
        out[f], table = names.turned(f)
        seen = {}
        for old, new in table.items():
            if new in seen and seen[new] != old:
                bad.append(f"{f}: {seen[new]} and {old} are both {new}")
            seen[new] = old
            if old != new:
                everything.setdefault(old, new)
    if "--table" in sys.argv:
        for old, new in sorted(everything.items()):
            print(old, new)
        print("\n".join(bad))
        return 0
    if bad:
        print("\n".join(bad))
        return 1
    for f, text in out.items():
        if text != names.text[f]:
            with open(f, "w", encoding="utf-8") as it:
                it.write(text)
    for crate in sorted(os.listdir("crates")):
        subprocess.run(["rt", "fmt"], cwd=os.path.join("crates", crate), stdout=subprocess.DEVNULL)
    print(f"respell: {len(everything)} names in {sum(out[f] != names.text[f] for f in out)} files")
    return 0


raise SystemExit(main())
