#!/usr/bin/env python3
"""Makes the sheets of the benchmark (README.md says what each is for), into the folder that is named.

For each sheet NAME.sheet there is a twin, NAME.base: the same lines, but its work is done once and not again and again. What the two runs
differ in is the work alone, without starting a process and reading and checking a sheet. Some more, NAME.bound, are only to be checked, and
not in Lua, which has other bounds: runs that end just at or past one.
"""
import os
import sys

# fieldrun grants a run so many statements; every run here ends by itself under that.
ALLOWANCE = 1_000_000


class Sheet:
    """Lines, each made by a method that gives its number."""

    def __init__(self):
        self.lines = []

    def line(self, kind, *fields):
        fields = list(fields) + [0] * (4 - len(fields))
        self.lines.append(kind + "," + ",".join(str(f) for f in fields))
        return len(self.lines)

    def text(self):
        return "".join(f"{i},{line}\n" for i, line in enumerate(self.lines, 1))

    def k(self, n):
        return self.line("k", n)

    def x(self, name):
        return self.line("x", name)

    def work(self, sign, a, b):
        return self.line(sign, a, b)

    def put(self, variable, value):
        return self.line("s", variable, value)

    def call(self, procedure, value, variable):
        return self.line("p", procedure, value, variable)

    def chain(self, statements):
        """Statements one after another, the second of each pair being all the rest."""
        rest = statements[-1]
        for statement in reversed(statements[:-1]):
            rest = self.line(";", statement, rest)
        return rest

    def halves(self):
        """Procedure 1: with value n, calls procedure 2 n times: it halves n as long as it is above 1, which takes few levels."""
        few = self.line("<", self.x(1), self.k(2))
        once = self.call(2, self.x(1), self.x(2))
        half = lambda: self.work("/", self.x(1), self.k(2))
        first = self.call(1, half(), self.x(2))
        second = self.call(1, self.work("-", self.x(1), half()), self.x(2))
        return self.line("d", 1, 1, 2, self.line("i", few, once, self.line(";", first, second)))

    def close(self, procedures, rounds):
        """The system of the procedures, around a call of procedure 1 with the number of rounds and global 1."""
        declared = procedures[0]
        for procedure in procedures[1:]:
            declared = self.line("&", declared, procedure)
        self.line("e", declared, self.call(1, self.k(rounds), self.x(1)))


def deep(rounds, depth):
    """A procedure calls itself `depth` times, each a `;` and a call deeper. Rounds of that."""
    s = Sheet()
    s.line("g", 1)
    starts = s.line("d", 2, 1, 2, s.call(3, s.k(depth), s.x(2)))
    last = s.put(s.x(2), s.work("+", s.x(2), s.k(1)))
    deeper = s.call(3, s.work("-", s.x(1), s.k(1)), s.x(2))
    adds = s.put(s.x(2), s.work("+", s.x(2), s.x(1)))
    body = s.line("i", s.line("=", s.x(1), s.k(0)), last, s.line(";", deeper, adds))
    s.close([s.halves(), starts, s.line("d", 3, 1, 2, body)], rounds)
    return s


def straight(rounds, assignments):
    """A procedure with a long chain of assignments: to its variable formal, to a global and to elements. Rounds of that."""
    s = Sheet()
    s.line("g", 1)
    s.line("g", 3)
    s.line("g", 1, 8)
    element = lambda i: s.line("a", 1, s.k(i % 8))
    forms = [
        lambda i: s.put(s.x(2), s.work("+", s.x(2), s.k(i))),
        lambda i: s.put(s.x(3), s.work("-", s.k(i), s.x(3))),
        lambda i: s.put(element(i), s.x(3)),
        lambda i: s.put(s.x(3), element(3 * i)),
        lambda i: s.put(s.x(2), s.work("/", s.x(2), s.k(2))),
    ]
    body = s.chain([forms[i % len(forms)](i) for i in range(assignments)])
    s.close([s.halves(), s.line("d", 2, 1, 2, body)], rounds)
    return s


def choosing(rounds, choices):
    """A procedure with a long body of which a call runs little: a tree of choices. Rounds of that, global 4 telling what to choose."""
    step = 7
    s = Sheet()
    s.line("g", 1)
    s.line("g", 4)

    def tree(low, high):
        if high - low == 1:
            return s.put(s.x(2), s.work("+", s.x(2), s.k(low % 3)))
        middle = (low + high) // 2
        return s.line("i", s.line("<", s.x(1), s.k(middle)), tree(low, middle), tree(middle, high))

    chooses = s.line("d", 3, 1, 2, tree(0, choices))
    within = s.line("<", s.x(4), s.k(choices - step))
    moved = s.line("?", within, s.work("+", s.x(4), s.k(step)), s.work("-", s.x(4), s.k(choices - step)))
    moves = s.put(s.x(4), moved)
    starts = s.line("d", 2, 1, 2, s.line(";", moves, s.call(3, s.x(4), s.x(2))))
    s.close([s.halves(), starts, chooses], rounds)
    return s


def nested(rounds, assignments):
    """A procedure with a chain of assignments that is nested the other way: the first of each pair is all before it, and a level deeper."""
    s = Sheet()
    s.line("g", 1)
    body = s.put(s.x(2), s.x(1))
    for _ in range(assignments - 1):
        body = s.line(";", body, s.put(s.x(2), s.x(1)))
    s.close([s.halves(), s.line("d", 2, 1, 2, body)], rounds)
    return s


def within(rounds, variables):
    """A procedure with new variables, each within the last, and in the innermost a chain of assignments, three for each. Rounds of that."""
    s = Sheet()
    s.line("g", 1)
    body = s.chain([s.put(s.x(2), s.x(1)) for _ in range(3 * variables)])
    for _ in range(variables):
        body = s.line("v", 3, body)
    s.close([s.halves(), s.line("d", 2, 1, 2, body)], rounds)
    return s


def trivial():
    s = Sheet()
    s.line("g", 1)
    s.put(s.x(1), s.k(0))
    return s


def at_the_allowance(more, faults):
    """A run that begins 999,999 statements and `more`, by as many choices before its last statement, which may be one that faults."""
    s = Sheet()
    s.line("g", 1)
    s.line("g", 1, 4)
    adds = s.line("d", 2, 1, 2, s.put(s.x(2), s.work("+", s.x(2), s.k(1))))
    declared = s.line("&", s.halves(), adds)
    # with the three around this call, seven statements a round
    calls = s.call(1, s.k((ALLOWANCE - 1) // 7), s.x(1))
    last = s.put(s.line("a", 1, s.k(4)) if faults else s.x(1), s.k(-1))
    for _ in range(more):
        last = s.line("i", s.line("t"), last, s.put(s.x(1), s.k(0)))
    s.line("e", declared, s.line(";", calls, last))
    return s


def levels(count):
    """So many new variables, each a level deeper than the last."""
    s = Sheet()
    s.line("g", 1)
    inner = s.put(s.x(1), s.k(count))
    for _ in range(count):
        inner = s.line("v", 2, inner)
    return s


def cells(more):
    """Arrays for all 1,024 cells and so many more."""
    s = Sheet()
    s.line("g", 1)
    inner = s.put(s.line("a", 1, s.k(0)), s.k(1))
    for length in (255 + more, 256, 256, 256):
        inner = s.line("r", 1, length, inner)
    return s


def rounds_for(statements):
    """How many rounds stay under the allowance, where one begins so many statements, and procedure 1 six more."""
    return (ALLOWANCE - 10) // (statements + 6)


# Each sheet with how it is made, its size, and how many statements one round begins at most.
SHEETS = {
    "deep": (deep, 240, 4 * 240 + 3),
    "deep_tenth": (deep, 24, 4 * 24 + 3),
    "straight": (straight, 352, 2 * 352 - 1),
    "straight_tenth": (straight, 33, 2 * 33 - 1),
    "choosing": (choosing, 222, 3 + 8 + 1),
    "choosing_tenth": (choosing, 22, 3 + 5 + 1),
    "nested": (nested, 300, 2 * 300 - 1),
    "nested_tenth": (nested, 30, 2 * 30 - 1),
    "within": (within, 150, 7 * 150 - 1),
    "within_tenth": (within, 15, 7 * 15 - 1),
}


def main():
    folder = sys.argv[1]
    os.makedirs(folder, exist_ok=True)

    def write(name, sheet):
        with open(os.path.join(folder, name), "w", newline="") as file:
            file.write(sheet.text())

    write("trivial.sheet", trivial())
    for more in (0, 1, 2):
        write(f"allowance_{more}.bound", at_the_allowance(more, False))
        write(f"allowance_fault_{more}.bound", at_the_allowance(more, True))
    for count in (512, 513):
        write(f"levels_{count}.bound", levels(count))
    for more in (0, 1):
        write(f"cells_{more}.bound", cells(more))
    for name, (make, size, statements) in SHEETS.items():
        write(name + ".sheet", make(rounds_for(statements), size))
        write(name + ".base", make(1, size))


if __name__ == "__main__":
    main()
