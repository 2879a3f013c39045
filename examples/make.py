#!/usr/bin/env python3
"""Writes the example problems of this folder: python3 make.py. docs/FORMAT.md has the format that it writes."""
import os
from writers import *

HERE = os.path.dirname(os.path.abspath(__file__))
LISTS = NAT + LIST + JOIN + REVERSE + LENGTH


def put(name, *records):
    write(os.path.join(HERE, name), *records)


def naturals_and_lists():
    # Which natural is two?
    put("two-equal-naturals.bin", NAT, declare(1), goal(equal(1, unknown(0), number(2))), END)
    # Is there a list whose reversal has another length?
    put("reversal-keeps-length.bin", LISTS, declare(2), goal(negated(equal(1, call(2, call(1, unknown(0))), call(2, unknown(0))))), END)
    # Which list of two elements is its own reversal?
    put("palindrome.bin", LISTS, declare(2), goal(equal(2, call(1, unknown(0)), unknown(0))), goal(equal(1, call(2, unknown(0)), number(2))), END)


# Two valves, each open (true) or closed (false); commands to open and close them; and lists of commands.
VALVES = datatype((0, 0))
COMMAND = datatype((), (), (), ())  # open the first, close the first, open the second, close the second
COMMANDS = datatype((), (2, 3))
def valves(a, b): return con(1, 0, a, b)


def step(open_second):
    # variables: 0 the valves, 1 the command, 2 the first valve, 3 the second
    open_first = case(0, var(3), valves(TRUE, var(3)), var(0))  # only while the second is closed
    return function((1, 2), 1, case(1, var(0), case(2, var(1), open_first, valves(FALSE, var(3)), open_second, valves(var(2), FALSE))))


def valve_problems():
    run = function((1, 3), 1, case(3, var(1), var(0), call(1, call(0, var(0), var(2)), var(3))))
    both_open = function((1,), 0, case(1, var(0), both(var(1), var(2))))
    safe_second = case(0, var(2), valves(var(2), TRUE), var(0))
    unsafe = goal(call(2, call(1, valves(FALSE, FALSE), unknown(0))))
    # Do some commands, from both closed, open both? The second valve's interlock was forgotten in the first of these problems.
    put("valves-faulty.bin", VALVES, COMMAND, COMMANDS, step(valves(var(2), TRUE)), run, both_open, declare(3), unsafe, END)
    put("valves-interlocked.bin", VALVES, COMMAND, COMMANDS, step(safe_second), run, both_open, declare(3), unsafe, END)


def trees_and_forests():
    # They need each other: a tree is a node over a forest; a forest is bare, or a tree beside a forest.
    tree, forest = datatype((3,)), datatype((), (2, 3))
    add = function((1, 1), 1, case(1, var(0), var(1), suc(call(0, var(2), var(1)))))
    nodes = function((2,), 1, case(2, var(0), suc(call(2, var(1)))))
    nodes_in = function((3,), 1, case(3, var(0), zero, call(0, call(1, var(1)), call(2, var(2)))))
    # Which tree has three nodes?
    put("tree-of-three.bin", NAT, tree, forest, add, nodes, nodes_in, declare(2), goal(equal(1, call(1, unknown(0)), number(3))), END)


def refused():
    # Each layer of the check refuses one of these: a constructor of seven arguments; a type that no value has, since
    # its one constructor needs a value of it; a goal that compares a natural with a truth value.
    put("refused-records.bin", datatype((0, 0, 0, 0, 0, 0, 0)), END)
    put("refused-types.bin", datatype((1,)), END)
    put("refused-terms.bin", NAT, declare(1), goal(equal(1, unknown(0), TRUE)), END)


if __name__ == "__main__":
    naturals_and_lists()
    valve_problems()
    trees_and_forests()
    refused()
