#!/usr/bin/env python3
"""Writes the problems of the judging benchmark into the folder that is named: python3 judging.py FOLDER."""
import os
import sys
sys.path.insert(0, os.path.join(os.path.dirname(os.path.abspath(__file__)), "..", "examples"))
from writers import *

sys.setrecursionlimit(10000)


def put(name, *records):
    write(os.path.join(sys.argv[1], name), *records)


# Function 0 adds, function 1 goes down to zero and says true.
ADD = function((1, 1), 1, case(1, var(0), var(1), con(1, 1, call(0, var(2), var(1)))))
DOWN = function((1,), 0, case(1, var(0), TRUE, call(1, var(1))))
for n in (250, 500):
    put(f"addition-{n}.bin", NAT, ADD, DOWN, goal(call(1, call(0, number(n // 2), number(n - n // 2)))), END)

# Lists of naturals: joining (0), reversal (1), and going down to the empty list (2).
def numbers(n): return nil if n == 0 else cons(number(0), numbers(n - 1))


EMPTY = function((2,), 0, case(2, var(0), TRUE, call(2, var(2))))
for n in (15, 30):
    put(f"reversal-{n}.bin", NAT, LIST, JOIN, REVERSE, EMPTY, goal(call(2, call(1, numbers(n)))), END)

# A type of 16 constants, and a function that goes from each to the next.
SIXTEEN = datatype(*[()] * 16)
NEXT = function((1,), 1, case(1, var(0), *[con(1, (c + 1) % 16) for c in range(16)]))
for n in (500, 1000):
    term = con(1, 0)
    for _ in range(n):
        term = call(0, term)
    put(f"chain-{n}.bin", SIXTEEN, NEXT, goal(case(1, term, *[TRUE] * 16)), END)

# The deepest recursions: each step asks for another head, and 4,096 of them are open at once.
DEEP = 4000
put("nested-not.bin", goal([6] * DEEP + TRUE), END)
put("nested-and.bin", goal([5] * DEEP + TRUE * (DEEP + 1)), END)
put("nested-equal.bin", goal([7, 0] * 3200 + TRUE * 3201), END)
put("nested-case.bin", goal([4, 0] * 2000 + TRUE + TRUE * 2 * 2000), END)
put("nested-calls.bin", function((), 0, [5] + call(0) + TRUE), goal(call(0)), END)
