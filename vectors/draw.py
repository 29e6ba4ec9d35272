#!/usr/bin/env python3
"""The graph of a step file's shapes, over the step runner of runner.py; it shares nothing with the definitions or the code.

Reads crates/draw/stdin and prints what the program `draw` should print: crates/draw/stdout is what

    python3 vectors/draw.py > crates/draw/stdout

wrote. With the argument `-` it reads standard input instead.
"""
from runner import Image, answer, input_of, width

FONT = 'fontname="Helvetica,Arial,sans-serif"'
OPENING = f"""\
digraph shapes {{
nodesep=0.5
ranksep=0.25
{FONT}
node [shape=plain {FONT}]
edge [{FONT}]
label="\\lA row is a storage place: slot index, key, attributes, what is stored.\\l\
w writable, e enumerable, c configurable, g get, s set. A dashed edge is dead.\\l"
"""


def key_name(key):
    return ["", "symbol ", "index "][key >> 30] + str(key & 2**30 - 1)


def letters(attributes):
    return "".join(letter if attributes >> bit & 1 else "-" for bit, letter in enumerate("wecgs"))


def rows(entries):
    slot = 0
    for key, attributes in entries:
        cells = [key_name(key), letters(attributes)]
        if width(attributes) == 2:
            held = "".join(f'</td><td rowspan="2">{cell}' for cell in cells)
            yield f"<tr><td>{slot}{held}</td><td>get</td></tr>"
            yield f"<tr><td>{slot + 1}</td><td>set</td></tr>"
        else:
            yield f"<tr><td>{slot}</td><td>{cells[0]}</td><td>{cells[1]}</td><td>value</td></tr>"
        slot += width(attributes)


def print_node(image, n):
    shape = image.shapes[n]
    print(f's{n} [label=<<table border="0" cellborder="1" cellspacing="0" cellpadding="4">')
    print(f'<tr><td colspan="4"><b>shape {n}</b>, {"unique" if shape.unique else "shared"}<br/>holds {shape.holds}, '
          f"prototype {shape.prototype}<br/>transitions {shape.transitions}</td></tr>")
    for row in rows(image.keys(n)):
        print(row)
    print("</table>>]")
    if shape.unique:
        print(f'subgraph cluster_unique {{ label="unique shapes" s{n} }}')


def print_edge(image, place):
    parent, kind, label, attributes, child = image.edges[place]
    if kind == "prototype":
        step = f"prototype {label}"
    else:
        held = label in dict(image.keys(parent))
        step = f'{"configure" if held else "insert"} {key_name(label)} {letters(attributes)}'
    if child:
        print(f's{parent} -> s{child}[label=" {step}"]')
    else:
        print(f'e{place} [shape=point]\ns{parent} -> e{place}[style=dashed label=" {step}"]')


def main():
    image = Image()
    for line in input_of("draw")[:-1]:
        image, _ = answer(image, line)
    print(OPENING, end="")
    for n in sorted(image.shapes):
        print_node(image, n)
    for place in sorted(image.edges):
        print_edge(image, place)
    print("}")


main()
