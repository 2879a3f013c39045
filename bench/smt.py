#!/usr/bin/env python3
"""Writes a problem in SMT-LIB 2: python3 smt.py FILE. It reads the bytes that seek reads.

Type t is T<t> (type 0 is Bool), its constructor c is t<t>c<c> with selectors t<t>c<c>a<i>, and functions, unknowns and variables are
f<n>, u<n> and v<n>. The text asks what the problem asks, of values of any depth, where every function ends on every value: SMT-LIB's
functions are total, while here a goal that does not end is never true."""
import os
import sys
sys.path.insert(0, os.path.join(os.path.dirname(os.path.abspath(__file__)), "..", "examples"))
from outline import read


def sort(t):
    return f"T{t}" if t else "Bool"


def applied(head, parts):
    return f"({' '.join([head] + parts)})" if parts else head


def constructor(t, c):
    return f"t{t}c{c}" if t else ("false", "true")[c]


class Terms:
    """Translates the terms of one problem; each call takes a place and gives what stands there, and the place after it."""

    def __init__(self, bs, types, functions):
        self.bs, self.types, self.functions = bs, types, functions

    def terms(self, at, count, scope):
        parts = []
        for _ in range(count):
            text, at = self.term(at, scope)
            parts.append(text)
        return parts, at

    def case(self, at, scope):
        t = self.bs[at + 1]
        subject, at = self.term(at + 2, scope)
        branches = []
        for c, arguments in enumerate(self.types[t]):
            branch, at = self.term(at, scope + len(arguments))
            bound = [f"v{scope + i}" for i in range(len(arguments))]
            branches.append((applied(constructor(t, c), bound), branch))
        if t == 0:
            return f"(ite {subject} {branches[1][1]} {branches[0][1]})", at
        return f"(match {subject} ({' '.join(f'({pattern} {branch})' for pattern, branch in branches)}))", at

    def term(self, at, scope):
        tag = self.bs[at]
        if tag < 2:
            return f"{'vu'[tag]}{self.bs[at + 1]}", at + 2
        if tag == 4:
            return self.case(at, scope)
        if tag == 2:
            t, c = self.bs[at + 1:at + 3]
            head, start, count = constructor(t, c), at + 3, len(self.types[t][c])
        elif tag == 3:
            f = self.bs[at + 1]
            head, start, count = f"f{f}", at + 2, len(self.functions[f][0])
        else:
            head, start, count = {5: ("and", at + 1, 2), 6: ("not", at + 1, 1), 7: ("=", at + 2, 2)}[tag]
        parts, end = self.terms(start, count, scope)
        return applied(head, parts), end


def datatypes(types):
    names = " ".join(f"({sort(t)} 0)" for t in range(1, len(types)))
    bodies = []
    for t in range(1, len(types)):
        cases = [applied(constructor(t, c), [f"(t{t}c{c}a{i} {sort(a)})" for i, a in enumerate(arguments)]) for c, arguments in enumerate(types[t])]
        bodies.append("(" + " ".join(case if case.startswith("(") else f"({case})" for case in cases) + ")")
    return f"(declare-datatypes ({names})\n  (" + "\n   ".join(bodies) + "))"


def definitions(terms, functions):
    heads, bodies = [], []
    for f, (params, result, place) in enumerate(functions):
        heads.append(f"(f{f} ({' '.join(f'(v{v} {sort(t)})' for v, t in enumerate(params))}) {sort(result)})")
        bodies.append(terms.term(place, len(params))[0])
    return "(define-funs-rec\n  (" + "\n   ".join(heads) + ")\n  (" + "\n   ".join(bodies) + "))"


def problem(bs):
    types, functions, unknowns, goals = read(bs)
    terms = Terms(bs, types, functions)
    lines = ["(set-logic ALL)"]
    if len(types) > 1:
        lines.append(datatypes(types))
    if functions:
        lines.append(definitions(terms, functions))
    lines += [f"(declare-const u{k} {sort(t)})" for k, t in enumerate(unknowns)]
    lines += [f"(assert {terms.term(place, 0)[0]})" for place in goals]
    lines.append("(check-sat)")
    if unknowns:
        lines.append(f"(get-value ({' '.join(f'u{k}' for k in range(len(unknowns)))}))")
    return "\n".join(lines) + "\n"


if __name__ == "__main__":
    with open(sys.argv[1], "rb") as source:
        sys.stdout.write(problem(list(source.read())))
