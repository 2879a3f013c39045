#!/usr/bin/env python3
"""Counts places in crates/*/src that an older way of writing leaves behind.

    python3 tools/places.py [FOLDER] [--list]

FOLDER holds a checkout (this one, if it is not given). It prints a count for each kind of place and, with --list, each
place: file, line and text. The counts are of candidates: which of them are to be changed is a matter of reading.
"""
import collections
import difflib
import pathlib
import re
import sys

LINE = {
    # 1: answers and kinds as numbers, own enums of the shape of Option or Result
    "1 enums": r"^\s*(pub(\(crate\))? )?enum ",
    "1 sentinels": r"\bNONE\b|\bUNKNOWN\b|\bNO_VALUE\b|\b6553[56]\b|\bcode\b",
    "1 none or error passed on by hand": r"=> (return )?None,|return None;|return Ok\(None\);|=> (return )?Err\(\w+\),|Err\(MakeFault::NoMemory\)|Err\(ReadError::NoMemory\)",
    "1 bytes for flags and states": r"\b(marks?|val|seen|off|phase|values): (&mut |&)?(\[?u8\b|Vec<u8>)",
    # 3: loops by an index
    "3 for over a range": r"\bfor \w+ in [^&{]*\.\.",
    "3 while": r"^\s*('\w+: )?while ",
    # 4: conversion and printing by hand
    "4 words and numbers by hand": r"-> &'static (str|\[u8\])|fn (number|byte|of|word|words|layer|refusal|unmade|tell_fault|tell_refusal)\(",
    # 6: arrays of a fixed length, and lengths beside
    "6 fields and variables of a fixed length": r"\w+: (\[[\w<>; ]+; \w+\])",
    "6 a length beside": r"^\s*(pub(\(crate\))? )?(count|len|size|used|levels|top): (u8|u16|u32|usize)\b",
    # 7: functions as values
    "7 functions as values": r"\bdyn \w|: fn\(|impl Fn|F: Fn",
}
FN = re.compile(r"^\s*(pub(\(crate\))? )?fn (\w+)", re.M)


def functions(text):
    """Each function: its name, line, head and body."""
    for m in FN.finditer(text):
        depth, i, body = 0, m.start(), None
        clause = False
        while i < len(text):
            c = text[i]
            if c == "{":
                if depth == 0:
                    line = text[text.rfind("\n", 0, i) + 1:i]
                    clause = bool(re.match(r"\s*(requires|ensures)\b", line))
                    if not clause:
                        body = i
                depth += 1
            elif c == "}":
                depth -= 1
                if depth == 0 and body is not None:
                    break
            elif c == ";" and depth == 0 and not re.search(r"\[[^\]]*$", text[m.start():i]):
                break
            i += 1
        yield m.group(3), text.count("\n", 0, m.start()) + 1, text[m.start():body or i], text[body:i + 1] if body else ""


def shape(body):
    """The body with comments, numbers and the case of names left out."""
    body = re.sub(r"//[^\n]*", "", body)
    body = re.sub(r"\b0x[0-9A-Fa-f]+\b|\b\d+(u\d+|usize)?\b", "#", body)
    return re.findall(r"\w+|[^\w\s]", body)


def main():
    args = [a for a in sys.argv[1:] if not a.startswith("--")]
    root = pathlib.Path(args[0] if args else pathlib.Path(__file__).parent.parent)
    full = "--list" in sys.argv
    found = collections.OrderedDict((k, []) for k in LINE)
    bodies, clauses, lists, selves = [], collections.defaultdict(list), collections.defaultdict(list), []
    for path in sorted(root.glob("crates/*/src/**/*.rt")):
        text = path.read_text()
        name = str(path.relative_to(root / "crates"))
        for n, line in enumerate(text.split("\n"), 1):
            code = line.split("//")[0]
            for k, p in LINE.items():
                if re.search(p, code):
                    found[k].append(f"{name}:{n}: {line.strip()}")
        for f, n, head, body in functions(text):
            where = f"{name}:{n}: {f}"
            if len(shape(body)) > 12:
                bodies.append((where, shape(body)))
            if re.search(rf"\b{f}\(", body) and not re.search(rf"(\.|::){f}\(", body):
                selves.append(where)
            for c in re.findall(r"(?:requires|ensures)(?: \w+)? (\{.*\})", head):
                clauses[re.sub(r"\s+", " ", c)].append(where)
            names = re.findall(r"(\w+): (?:&(?:'\w+ )?(?:mut )?)?[\w\[\]<>;', ]+?[,)\n]", head[head.find("("):head.find("->") if "->" in head else None])
            for i in range(len(names) - 2):
                lists[tuple(names[i:i + 3])].append(where)
    found["3 functions that call themselves"] = selves
    twins = []
    for i, (a, x) in enumerate(bodies):
        for b, y in bodies[i + 1:]:
            if abs(len(x) - len(y)) * 5 <= len(x) + len(y):
                m = difflib.SequenceMatcher(None, x, y, False)
                if m.quick_ratio() > 0.85 and m.ratio() > 0.85:
                    twins.append(f"{a} / {b}")
    found["2 pairs of functions that are nearly one"] = twins
    found["5 clauses that three functions or more have"] = [f"{len(v)} times: {k}" for k, v in clauses.items() if len(v) > 2]
    found["5 three parameters in a row that three functions or more take"] = [
        f"{len(v)} times: {', '.join(k)}" for k, v in lists.items() if len(v) > 2
    ]
    for k in sorted(found):
        print(f"{len(found[k]):4}  {k}")
        if full:
            for x in found[k]:
                print("        " + x)


main()
