#!/usr/bin/env python3
"""Respells this repository's definitions and lemmas: words in snake case, types in camel case, a prime as an apostrophe.

usage: python3 tools/respell.py [--list] [FOLDER]

To be run once, straight after the toolchain's own script that turns an older repository to today's spelling. It turns
the names that files of specs/ and proofs/ define, wherever those files, the clauses of src/, must-fail edits and the
planted bugs of tests/edits name them. Names that the check makes (goals, steps, labels), functions of src/, strings
and comments keep their spelling. --list prints each old and new name and changes nothing.
"""
import collections
import os
import re
import sys

# names for which the plain rule gives one that is taken; each with what it is called instead
OTHERWISE = {
    # another crate's `ShowsAll` is of partial values
    "Shows-all": "AlwaysShows",
    "bit-or": "bit_or_lem",
    # a lemma that would have the name of the function whose contract it stands on
    "depths-stand": "depths_stand_lem",
    "ends-give-parts": "ends_give_parts_lem",
    "findings-stand": "findings_stand_lem",
    "models-stand": "models_stand_lem",
    "never-stands": "never_stands_lem",
    "none-stands": "none_stands_lem",
    "prefix-free": "prefix_free_lem",
    "reading-is-exact": "reading_is_exact_lem",
    "shallow-stands": "shallow_stands_lem",
    "undeclared-is-exact": "undeclared_is_exact_lem",
    "values-are-terms": "values_are_terms_lem",
}

NAME = r"[^\s(){}\[\].,;:\"«»]+(?:\[\][^\s(){}\[\].,;:\"«»]*)?"
PARAMETER = r"(?:\((?:[^()]|\((?:[^()]|\([^()]*\))*\))*\)|\{[^{}]*\})"
HEAD = re.compile(r"^(\s*)((?:(?:abbrev|unfoldable|pub|mutual)\s+)*)(?:(data|record)\s+)?(" + NAME + r")((?:\s+" + PARAMETER + r")*)\s*:(?:\s(.*))?$")


def files(root):
    for top in ("crates", "tests"):
        for folder, dirs, names in os.walk(os.path.join(root, top)):
            dirs[:] = sorted(d for d in dirs if d not in ("out", "target", "data"))
            for n in sorted(names):
                if n.endswith((".antt", ".rt", ".edit")) or top == "tests" and "edits" in folder:
                    yield os.path.join(folder, n)


def defined(text):
    """The names that a file of specs/ or proofs/ defines, each with whether it is a type, and whether a field."""
    lines = text.split("\n")
    for i, line in enumerate(lines):
        code = line.split("--")[0]
        m = HEAD.match(code)
        if not m:
            continue
        indent, kind, name, rest = len(m.group(1)), m.group(3), m.group(4), m.group(6) or "→"
        if name in ("let", "in", "λ") or "=" in code.split(":")[0]:
            continue
        full = rest
        k = i + 1
        while k < len(lines) and lines[k].strip() and len(lines[k]) - len(lines[k].lstrip()) > indent and ("→" in lines[k] or "→" in full[-2:]):
            full += " " + lines[k].split("--")[0].strip()
            k += 1
        made = re.match(r"(?:goal|given|goals)\w*'?\." + re.escape(name) + r"(?:\s|$)", rest.strip())
        typed = bool(re.search(r"Type\s+[0-9ℓ]+\s*(?:where)?\s*$", full.strip()))
        yield name, typed or kind in ("data", "record"), made, kind, indent


def camel(name):
    parts = name.split("-")
    return "".join(p[:1].upper() + p[1:] for p in parts)


def wanted(name, typed):
    new = name.replace("′", "'")
    if typed and new[:1].isupper() and "_" in new and "[]" not in new and "◌" not in new:
        new = new.replace("_", "-")
    if "-" in new.strip("-"):
        if new[:1].isupper() and typed:
            return camel(new)
        parts = new.split("-")
        return "_".join(parts)
    return new


TOKEN = re.compile(r"(?:(?<![^\s(){}\[\],;:\"«».])w\.(?=[^\s]*-is\b))?" + NAME)
RUST_PART = re.compile(r'//[^\n]*|b?"(?:\\.|[^"\\])*"')
ANTT_PART = re.compile(r'--(?=\s)[^\n]*|"(?:\\.|[^"\\])*"')


def turned(code, table):
    """The names in a piece of code, respelled. The equation `w.x-is` of a branch is the check's own."""
    return TOKEN.sub(lambda m: m.group() if m.group().startswith("w.") else table.get(m.group(), m.group()), code)


def turn(text, table, part):
    out, at = [], 0
    for m in part.finditer(text):
        out += [turned(text[at : m.start()], table), m.group()]
        at = m.end()
    return "".join(out) + turned(text[at:], table)


IMPORT = re.compile(r"\buse\s+([\w.·-]+)\.\{([^{}]*)\}")


def borrowed(text, own):
    """What a file imports from elsewhere, which keeps its spelling."""
    out = set()
    for m in IMPORT.finditer(text):
        if not any(m.group(1).startswith(f"Rattle.{c}.") for c in own):
            out |= {w for part in m.group(2).split(",") for w in part.split()}
    return out


def turn_page(text, table):
    """In a page, what stands between backticks."""
    return re.sub(r"`[^`\n]+`", lambda m: "`" + turned(m.group()[1:-1], table) + "`", text)


def pages(root):
    yield os.path.join(root, "README.md")
    for n in sorted(os.listdir(os.path.join(root, "docs"))):
        if n.endswith(".md") and not n.startswith("PORT"):
            yield os.path.join(root, "docs", n)


def turn_all(root, table):
    changed = 0
    own = os.listdir(os.path.join(root, "crates"))
    for path in [*files(root), *pages(root)]:
        with open(path, encoding="utf-8") as f:
            text = f.read()
        if path.endswith(".md"):
            new = turn_page(text, table)
        else:
            here = borrowed(text, own)
            mine = {a: b for a, b in table.items() if a not in here}
            new = turn(text, mine, ANTT_PART if path.endswith(".antt") else RUST_PART)
        if new != text:
            changed += 1
            with open(path, "w", encoding="utf-8") as f:
                f.write(new)
    print(f"{len(table)} names respelled, in {changed} files")


def main():
    args = [a for a in sys.argv[1:] if a != "--list"]
    root = args[0] if args else "."
    names, made = {}, set()
    where = collections.defaultdict(set)
    for path in files(root):
        if not path.endswith(".antt"):
            continue
        text = open(path, encoding="utf-8").read()
        for name, typed, is_made, kind, indent in defined(text):
            if is_made:
                made.add(name)
                continue
            where[name].add((os.path.relpath(path, root), typed, indent))
            names[name] = names.get(name, False) or typed
    table = {}
    for name, typed in names.items():
        if name in made:
            continue
        new = OTHERWISE.get(name) or wanted(name, typed)
        if new != name:
            table[name] = new
    if "--list" in sys.argv:
        for a, b in sorted(table.items()):
            print(a, b, "T" if names[a] else "", sorted(w[0] for w in where[a])[:3])
        print(len(table), "made:", sorted(n for n in made if n in names and "-" in n))
        return
    turn_all(root, table)


if __name__ == "__main__":
    main()
