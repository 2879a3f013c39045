#!/usr/bin/env python3
"""Writes the example models of this folder: python3 models.py. A model is, for each unknown of its problem in order, the bytes
4D 44, the unknown's number and its value; 08 stands for an open part."""
import os
from writers import con, cons, nil, number

OPEN = [8]


def write(name, *values):
    with open(os.path.join(os.path.dirname(os.path.abspath(__file__)), name), "wb") as f:
        f.write(bytes(sum([[0x4D, 0x44, k] + value for k, value in enumerate(values)], [])))


# Of two-equal-naturals: the natural two, which makes the goal true; three; and the successor of something open, which the goal waits on.
write("two-equal-naturals.two.model", number(2))
write("two-equal-naturals.three.model", number(3))
write("two-equal-naturals.open.model", con(1, 1, OPEN))
# Of palindrome: two equal elements, of which only the first is known to be zero; and two elements that differ.
write("palindrome.open.model", cons(number(0), cons(OPEN, nil)))
write("palindrome.differ.model", cons(number(0), cons(number(1), nil)))
# Refused: a value of another type, and bytes after the last value.
write("refused-value.model", [2, 0, 1])
write("refused-after.model", number(0), number(0))
