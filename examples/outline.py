#!/usr/bin/env python3
"""Writes crates/outline/stdin and stdout: python3 outline.py. The outlines come from a recursive reading of this script's own."""
import os

HERE = os.path.dirname(os.path.abspath(__file__))
EXAMPLES = sorted(f for f in os.listdir(HERE) if f.endswith(".bin"))


def read(bs):
    """The declarations, and each body and goal as the lines of its terms; the examples named refused are no problems."""
    at, types, functions, unknowns, goals = 0, [[[], []]], [], [], []
    while bs[at] == 0x44:
        count, at, cases = bs[at + 2], at + 3, []
        for _ in range(count):
            cases.append(bs[at + 1:at + 1 + bs[at]])
            at += 1 + bs[at]
        types.append(cases)
    while bs[at] == 0x46:
        n = bs[at + 2]
        start = at + 6 + n
        functions.append((bs[at + 3:at + 3 + n], bs[at + 3 + n], start))
        at = start + 256 * bs[start - 2] + bs[start - 1]
    while bs[at] == 0x55:
        unknowns.append(bs[at + 2])
        at += 3
    while bs[at] == 0x47:
        goals.append(at + 4)
        at += 4 + 256 * bs[at + 2] + bs[at + 3]
    assert bs[at:] == [0x45, 0x4E]
    return types, functions, unknowns, goals


def depths(types):
    least = [9] * len(types)
    for _ in range(9):
        least = [min([9] + [1 + max([0] + [least[a] for a in c]) for c in cases]) for cases in types]
    return least


def terms(bs, types, functions, at):
    """The lines of the term at a place, and the place after it."""
    tag = bs[at]
    if tag < 2:
        return [f"    {at}: {('variable', 'unknown')[tag]} {bs[at + 1]}"], at + 2
    if tag == 2:
        start, count = at + 3, len(types[bs[at + 1]][bs[at + 2]])
        say = f"constructor {bs[at + 2]} of type {bs[at + 1]}, {count} from {start}"
    elif tag == 3:
        start, count = at + 2, len(functions[bs[at + 1]][0])
        say = f"call of {bs[at + 1]}, {count} from {start}"
    elif tag == 4:
        start, count = at + 2, 1 + len(types[bs[at + 1]])
        say = f"case of type {bs[at + 1]}, subject {start}"
    else:
        start, count = at + (2 if tag == 7 else 1), 1 if tag == 6 else 2
        say = None
    place, lines, places = start, [], []
    for _ in range(count):
        places.append(place)
        more, place = terms(bs, types, functions, place)
        lines += more
    if say is None:
        say = f"not of {places[0]}" if tag == 6 else f"{'and' if tag == 5 else 'equal'} of {places[0]} and {places[1]}"
    return [f"    {at}: {say}"] + lines, place


def shown(numbers):
    return "[" + ", ".join(map(str, numbers)) + "]"


def outline(name, bs):
    types, functions, unknowns, goals = read(bs)
    least = depths(types)
    out = [f"{name}: {len(bs)} bytes, unknowns {shown(unknowns)}"]
    for t, cases in enumerate(types):
        out.append(f"  type {t}: least depth {least[t]}")
        for c, args in enumerate(cases):
            out.append(f"    constructor {c} over {shown(args)} needs {1 + max([0] + [least[a] for a in args])}")
    for f, (params, result, body) in enumerate(functions):
        out.append(f"  function {f}: {shown(params)} to {result}")
        out += terms(bs, types, functions, body)[0]
    for g, place in enumerate(goals):
        out.append(f"  goal {g}")
        out += terms(bs, types, functions, place)[0]
    return out


def main():
    lines, out = [], []
    for f in EXAMPLES:
        name = f[:-4]
        with open(os.path.join(HERE, f), "rb") as source:
            bs = list(source.read())
        lines.append(name + " " + bytes(bs).hex())
        out += outline(name, [0x45, 0x4E] if name.startswith("refused") else bs)
    for file, text in (("stdin", lines), ("stdout", out)):
        with open(os.path.join(HERE, "..", "crates", "outline", file), "w") as target:
            target.write("\n".join(text) + "\n")


if __name__ == "__main__":
    main()
