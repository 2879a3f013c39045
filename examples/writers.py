"""Writers of the problem format (docs/FORMAT.md): each makes the bytes of a term or of a record, as a list of numbers.

The scripts that write example problems, benchmarks and test cases share these, and the naturals and lists below."""


# Terms.
def var(v): return [0, v]
def unknown(k): return [1, k]
def con(t, c, *args): return [2, t, c] + sum(args, [])
def call(f, *args): return [3, f] + sum(args, [])
def case(t, subject, *branches): return [4, t] + subject + sum(branches, [])
def both(a, b): return [5] + a + b
def negated(a): return [6] + a
def equal(t, a, b): return [7, t] + a + b


FALSE, TRUE = con(0, 0), con(0, 1)


# Records.
def datatype(*constructors):
    return [0x44, 0x54, len(constructors)] + sum([[len(c)] + list(c) for c in constructors], [])


def part(bs): return [len(bs) >> 8, len(bs) & 255] + bs
def function(params, result, body): return [0x46, 0x4E, len(params)] + list(params) + [result] + part(body)
def declare(t): return [0x55, 0x4B, t]
def goal(term): return [0x47, 0x4C] + part(term)


END = [0x45, 0x4E]


def write(path, *records):
    with open(path, "wb") as f:
        f.write(bytes(sum(records, [])))


# Naturals, where they are type 1: zero, and the successor of a natural.
NAT = datatype((), (1,))
zero = con(1, 0)
def suc(n): return con(1, 1, n)
def number(n): return zero if n == 0 else suc(number(n - 1))


# Lists of naturals, where they are type 2, with their joining (function 0), reversal (1) and length (2).
LIST = datatype((), (1, 2))
nil = con(2, 0)
def cons(x, xs): return con(2, 1, x, xs)


JOIN = function((2, 2), 2, case(2, var(0), var(1), cons(var(2), call(0, var(3), var(1)))))
REVERSE = function((2,), 2, case(2, var(0), nil, call(0, call(1, var(2)), cons(var(1), nil))))
LENGTH = function((2,), 1, case(2, var(0), zero, suc(call(2, var(2)))))
