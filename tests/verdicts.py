#!/usr/bin/env python3
"""Writes the cases of the program `verdicts` (its stdin) and what it must say of each (its stdout).

Every refusal at its exact place, and the edges of every limit: none, the most, one more."""
import os, sys
sys.path.insert(0, os.path.join(os.path.dirname(os.path.abspath(__file__)), "..", "examples"))
sys.dont_write_bytecode = True
from writers import *

CASES = []


def case_of(name, expected, *records):
    CASES.append((name, sum(records, []), expected))


def refused(name, number, place, *records):
    layer = {5: "types", 7: "types", 6: "terms"}.get(number, "records")
    case_of(name, f"refused {number} at {place} in {layer}", *records)


def accepted(name, *records):
    case_of(name, "accepted", *records)


def nots(n): return [6] * n + TRUE


accepted("empty-problem", END)
# 1: too long. A goal of nested `not` fills the bytes to the limit and past it.
full = lambda total: goal(nots(total - 9)) + END
accepted("16384-bytes", full(16384))
refused("16385-bytes", 1, 16384, full(16385))
refused("16385-zeros", 1, 16384, [0] * 16385)
# 2: wrong or missing mark
refused("no-bytes", 2, 0)
refused("half-a-mark", 2, 0, [0x45])
refused("unknown-mark", 2, 0, [0x44, 0x55], END)
refused("no-end", 2, 6, NAT)
refused("half-an-end", 2, 6, NAT, [0x45])
refused("type-after-unknown", 2, 3, declare(0), NAT, END)
refused("function-after-goal", 2, 7, goal(TRUE), function((), 0, TRUE), END)
refused("wrong-second-byte", 2, 6, NAT, [0x45, 0x4F])
# 3: a record past the end, at its mark
refused("type-without-count", 3, 0, [0x44, 0x54])
refused("type-without-arity", 3, 0, [0x44, 0x54, 2, 0])
refused("type-without-argument", 3, 6, NAT, [0x44, 0x54, 1, 2, 1])
refused("function-without-count", 3, 0, [0x46, 0x4E])
refused("function-without-parameter", 3, 0, [0x46, 0x4E, 1])
refused("function-without-result", 3, 0, [0x46, 0x4E, 0])
refused("function-without-length", 3, 0, [0x46, 0x4E, 0, 0, 0])
refused("function-cut-short", 3, 0, [0x46, 0x4E, 0, 0, 0, 3, 2, 0])
refused("unknown-without-type", 3, 6, NAT, [0x55, 0x4B])
refused("goal-without-length", 3, 0, [0x47, 0x4C, 0])
refused("goal-cut-short", 3, 0, [0x47, 0x4C, 0, 4, 2, 0, 0])
refused("goal-high-length", 3, 0, [0x47, 0x4C, 1, 0], TRUE, END)
# 4: counts outside their limits
refused("no-constructors", 4, 2, [0x44, 0x54, 0], END)
accepted("one-constructor", datatype(()), END)
accepted("sixteen-constructors", datatype(*[()] * 16), END)
refused("seventeen-constructors", 4, 2, datatype(*[()] * 17), END)
accepted("six-arguments", datatype((0,) * 6), END)
refused("seven-arguments", 4, 3, datatype((0,) * 7), END)
refused("seven-arguments-later", 4, 4, datatype((), (0,) * 7), END)
accepted("no-parameters", function((), 0, TRUE), END)
accepted("six-parameters", function((0,) * 6, 0, var(5)), END)
refused("seven-parameters", 4, 2, function((0,) * 7, 0, TRUE), END)
unit = datatype(())
accepted("thirty-one-types", *[unit] * 31, END)
refused("thirty-two-types", 4, 31 * len(unit), *[unit] * 32, END)
constant = function((), 0, TRUE)
accepted("sixty-four-functions", *[constant] * 64, END)
refused("sixty-five-functions", 4, 64 * len(constant), *[constant] * 65, END)
accepted("sixteen-unknowns", *[declare(0)] * 16, END)
refused("seventeen-unknowns", 4, 48, *[declare(0)] * 17, END)
accepted("thirty-two-goals", *[goal(TRUE)] * 32, END)
refused("thirty-three-goals", 4, 32 * 7, *[goal(TRUE)] * 33, END)
# a record too many is refused before its contents are read, and before a fault of a later layer
refused("too-many-and-cut-short", 4, 48, *[declare(9)] * 16, [0x55, 0x4B])
# 8: bytes after the end
refused("one-byte-after", 8, 2, END, [0])
refused("a-record-after", 8, 8, NAT, END, declare(0))
# 5: undeclared types, front to back, before 7
refused("undeclared-argument", 5, 5, datatype((), (2,)), END)
accepted("a-later-type", datatype((), (2,)), datatype(()), END)
refused("undeclared-parameter", 5, 3, function((1,), 0, TRUE), END)
refused("undeclared-result", 5, 3, function((), 1, TRUE), END)
refused("undeclared-second-parameter", 5, 10, NAT, function((1, 2), 0, TRUE), END)
refused("undeclared-unknown", 5, 2, declare(1), END)
refused("undeclared-second-unknown", 5, 5, declare(0), declare(1), END)
refused("argument-before-result", 5, 4, datatype((9,)), function((), 8, TRUE), END)
refused("undeclared-outranks-no-value", 5, 7, datatype((1,)), declare(3), END)
# 7: no value, or a least depth above 8, at the mark
refused("no-value", 7, 0, datatype((1,)), END)
refused("no-value-later", 7, 6, NAT, datatype((2,)), END)
refused("no-value-in-two", 7, 0, datatype((2,)), datatype((1,)), END)
chain = lambda n: sum([datatype((k,)) for k in range(n)], [])  # the type k has least depth k + 1, Bool 1
accepted("least-depth-8", chain(7), END)
refused("least-depth-9", 7, 7 * 5, chain(8), END)
# 6: terms, each kind of byte that fails, and bytes that lack or are left over
refused("empty-goal", 6, 4, goal([]), END)
refused("tag-8", 6, 4, goal([8]), END)
refused("no-variable", 6, 5, goal(var(0)), END)
refused("variable-of-other-type", 6, 14, NAT, function((1,), 0, var(0)), END)
refused("no-unknown", 6, 5, goal(unknown(0)), END)
refused("unknown-of-other-type", 6, 14, NAT, declare(1), goal(unknown(0)), END)
refused("constructor-of-other-type", 6, 11, NAT, goal(con(1, 0)), END)
refused("no-such-constructor", 6, 6, goal(con(0, 2)), END)
refused("constructor-without-argument", 6, 15, NAT, function((), 1, con(1, 1)), END)
refused("no-function", 6, 5, goal(call(0)), END)
refused("function-of-other-type", 6, 6 + 9 + 5, NAT, function((), 1, zero), goal(call(0)), END)
refused("case-on-no-type", 6, 5, goal(case(1, TRUE, TRUE, TRUE)), END)
refused("case-without-branch", 6, 4 + 2 + 3 + 3, goal(case(0, TRUE, TRUE)), END)
refused("equal-on-no-type", 6, 5, goal(equal(1, TRUE, TRUE)), END)
refused("and-of-a-natural", 6, 12, NAT, function((), 1, both(TRUE, TRUE)), END)
refused("not-of-a-natural", 6, 12, NAT, function((), 1, negated(TRUE)), END)
refused("equal-of-a-natural", 6, 12, NAT, function((), 1, equal(0, TRUE, TRUE)), END)
refused("left-over", 6, 7, goal(TRUE + [0]), END)
refused("cut-in-a-constructor", 6, 6, goal([2, 0]), END)
refused("second-goal", 6, 7 + 4, goal(TRUE), goal([8]), END)
refused("body-before-goal", 6, 6, function((), 0, [9]), goal([9]), END)
# 64 variables in scope are the most: ten branches of six, on top of four parameters, and one more
six = datatype((0,) * 6)
def nest(params, depth, inside):
    body = inside
    for _ in range(depth): body = case(1, con(1, 0, *[TRUE] * 6), body)
    return function((0,) * params, 0, body)
accepted("64-variables", six, nest(4, 10, var(63)), END)
refused("variable-64", 6, 10 + (6 + 4) + 10 * 23 + 1, six, nest(4, 10, var(64)), END)
refused("65-variables", 6, 10 + (6 + 5) + 10 * 23, six, nest(5, 10, TRUE), END)
accepted("16000-nested-not", goal(nots(16000)), END)
refused("16000-nested-not-cut", 6, 4 + 16000, goal([6] * 16000), END)
for name in ["two-equal-naturals", "reversal-keeps-length", "palindrome", "valves-faulty", "valves-interlocked", "tree-of-three"]:
    accepted(name, list(open(os.path.join(os.path.dirname(os.path.abspath(__file__)), "..", "examples", name + ".bin"), "rb").read()))

crate = os.path.join(os.path.dirname(os.path.abspath(__file__)), "..", "crates", "verdicts")
with open(os.path.join(crate, "stdin"), "w") as f:
    f.writelines(f"{name} {bytes(bs).hex()}\n" for name, bs, _ in CASES)
with open(os.path.join(crate, "stdout"), "w") as f:
    f.writelines(f"{name}: {expected}\n" for name, _, expected in CASES)
print(len(CASES), "cases")
