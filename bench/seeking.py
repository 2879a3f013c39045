#!/usr/bin/env python3
"""Writes the problems of the searching benchmark into the folder that is named: python3 seeking.py FOLDER."""
import os
import sys
sys.path.insert(0, os.path.join(os.path.dirname(os.path.abspath(__file__)), "..", "examples"))
from writers import *


def put(name, *records):
    write(os.path.join(sys.argv[1], name), *records)


# Beside joining (0), reversal (1) and length (2): addition (3) and the sum of a list (4).
ADD = function((1, 1), 1, case(1, var(0), var(1), suc(call(3, var(2), var(1)))))
SUM = function((2,), 1, case(2, var(0), zero, call(3, var(1), call(4, var(2)))))
LISTS = NAT + LIST + JOIN + REVERSE + LENGTH + ADD + SUM

# Which palindrome has this length and this sum? One of even length has no odd sum.
for length in (2, 4, 6):
    for total in (2, 3, 8, 12):
        put(f"palindrome-{length}-{total}.bin", LISTS, declare(2), goal(equal(2, call(1, unknown(0)), unknown(0))),
            goal(equal(1, call(2, unknown(0)), number(length))), goal(equal(1, call(4, unknown(0)), number(total))), END)

# Is there a list whose reversal has another length?
put("reversal.bin", LISTS, declare(2), goal(negated(equal(1, call(2, call(1, unknown(0))), call(2, unknown(0))))), END)


# Not above, and whether a list is sorted; each takes the numbers of the functions that it calls.
def not_above(f): return function((1, 1), 0, case(1, var(0), TRUE, case(1, var(1), FALSE, call(f, var(2), var(3)))))


def is_sorted(above, f):
    return function((2,), 0, case(2, var(0), TRUE, case(2, var(2), TRUE, both(call(above, var(1), var(3)), call(f, var(2))))))


# Which sorted list has this length and this sum?
for length, total in ((2, 3), (4, 6), (6, 8)):
    put(f"sorted-{length}-{total}.bin", LISTS, not_above(5), is_sorted(5, 6), declare(2), goal(call(6, unknown(0))),
        goal(equal(1, call(2, unknown(0)), number(length))), goal(equal(1, call(4, unknown(0)), number(total))), END)


# Putting into a sorted list (1) and sorting (2), over not above (0) and under the test whether a list is sorted (3).
def putting(stop):
    return function((1, 2), 2, case(2, var(1), cons(var(0), nil), case(0, call(0, var(0), var(2)), cons(var(2), call(1, var(0), var(3))), stop)))


SORT = function((2,), 2, case(2, var(0), nil, call(1, var(1), call(2, var(2)))))
SORTING = NAT + LIST + not_above(0)
UNSORTED = goal(negated(call(3, call(2, unknown(0)))))
# Is there a list that comes out unsorted? In the second of these problems, putting ends behind the list's first element.
put("sorting.bin", SORTING, putting(cons(var(0), var(1))), SORT, is_sorted(0, 3), declare(2), UNSORTED, END)
put("sorting-faulty.bin", SORTING, putting(cons(var(2), cons(var(0), var(3)))), SORT, is_sorted(0, 3), declare(2), UNSORTED, END)

# Sixteen naturals above 40 need more unknowns than a table has.
put("unknowns.bin", NAT, not_above(0), *[declare(1)] * 16, *[goal(call(0, number(41), unknown(k))) for k in range(16)], END)

# A row of digits of which none is right, which shows only at the last of them.
DIGIT = datatype(*[()] * 16)


def reading(parameters, *branches):
    """A function that decides by its first digit: the digits not below the number of branches do as the last of these."""
    return function((1,) * parameters, 0, case(1, var(0), *branches, *[branches[-1]] * (16 - len(branches))))


for digits in (2, 3):
    rows = [reading(digits - f, call(f + 1, *[var(v) for v in range(1, digits - f)])) for f in range(digits - 1)]
    put(f"digits-{digits}.bin", DIGIT, *rows, reading(1, FALSE), *[declare(1)] * digits, goal(call(0, *[unknown(k) for k in range(digits)])), END)

# As many conflicts as the chooser has entries for: of four digits the last is read only where the first is 0 and the second is below 7.
put("digits-most.bin", DIGIT,
    reading(4, call(1, var(1), var(2), var(3)), call(3, var(1), var(2))),  # 0: the first digit
    reading(3, *[call(2, var(1), var(2))] * 7, call(4, var(1))),  # 1: the second of four
    reading(2, call(4, var(1))),  # 2: the third of four
    reading(2, call(4, var(1))),  # 3: the second of three
    reading(1, FALSE),  # 4: the last
    *[declare(1)] * 4, goal(call(0, *[unknown(k) for k in range(4)])), END)
