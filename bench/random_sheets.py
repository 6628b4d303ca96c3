#!/usr/bin/env python3
"""Makes random sheets that are scripts: random_sheets.py FOLDER HOW_MANY. The same number gives the same sheets.

There are few names, so that declarations hide each other often; procedures call themselves and each other, and hand on their formals.
"""
import os
import random
import sys

from sheets import Sheet

NAMES = 3


class Scope:
    """What is declared at a place: the names of simple variables and of procedures, the length of each array, the innermost value formal."""

    def __init__(self, simple, arrays, procedures, formal=None):
        self.simple, self.arrays, self.procedures, self.formal = simple, arrays, procedures, formal

    def having(self, simple=(), arrays=None, procedures=(), formal=None):
        return Scope(self.simple | set(simple), {**self.arrays, **(arrays or {})}, self.procedures | set(procedures), formal or self.formal)


class Random:
    def __init__(self, seed):
        self.r, self.s = random.Random(seed), Sheet()
        self.budget = self.r.choice([10, 40, 120])

    def name(self):
        return self.r.randint(1, NAMES)

    def constant(self):
        r = self.r
        return self.s.k(r.choice([0, 1, 1, 2, 3, -1, r.randint(-9, 9), r.randint(-9, 9), r.choice([-(2**31), 2**31 - 1, 46341, 65536])]))

    def variable(self, scope, deep):
        if scope.arrays and self.r.random() < 0.4:
            name = self.r.choice(sorted(scope.arrays))
            if self.r.random() < 0.8:
                return self.s.line("a", name, self.s.k(self.r.randrange(scope.arrays[name])))
            return self.s.line("a", name, self.expression(scope, deep - 1))
        return self.s.x(self.r.choice(sorted(scope.simple)))

    def expression(self, scope, deep):
        pick = self.r.random()
        if deep <= 0 or pick < 0.25:
            return self.constant()
        if pick < 0.6:
            return self.variable(scope, deep)
        if pick < 0.7:
            return self.s.line("?", self.condition(scope, deep - 1), self.expression(scope, deep - 1), self.expression(scope, deep - 1))
        sign = self.r.choice("+++--*/")
        return self.s.work(sign, self.expression(scope, deep - 1), self.expression(scope, deep - 1))

    def condition(self, scope, deep):
        pick = self.r.random()
        if deep > 0 and pick < 0.1:
            return self.s.line("!", self.condition(scope, deep - 1))
        if deep > 0 and pick < 0.2:
            return self.s.line(">", self.condition(scope, deep - 1), self.condition(scope, deep - 1))
        if pick < 0.25:
            return self.s.line(self.r.choice("tf"))
        return self.s.line(self.r.choice("=<<"), self.expression(scope, deep - 1), self.expression(scope, deep - 1))

    def procedure(self, name, scope):
        first = self.name()
        second = self.r.choice([n for n in range(1, NAMES + 1) if n != first])
        inner = scope.having(simple=(first, second), formal=first)
        body = self.statement(inner)
        if self.r.random() < 0.7:
            # most procedures end their calls when the value formal is no longer above zero
            body = self.s.line("i", self.s.line("<", self.s.x(first), self.s.k(1)), self.assignment(inner), body)
        return self.s.line("d", name, first, second, body)

    def system(self, scope):
        names = self.r.sample(range(1, NAMES + 1), self.r.randint(1, NAMES))
        inner = scope.having(procedures=names)
        declared = self.procedure(names[0], inner)
        for name in names[1:]:
            declared = self.s.line("&", declared, self.procedure(name, inner))
        calls = [self.call(inner) for _ in range(self.r.randint(1, 3))]
        return self.s.line("e", declared, self.s.chain(calls + [self.statement(inner)]))

    def call(self, scope):
        if self.r.random() < 0.3:
            value = self.expression(scope, 2)
        elif scope.formal and self.r.random() < 0.9:
            value = self.s.work("-", self.s.x(scope.formal), self.s.k(self.r.choice([1, 1, 2])))
        else:
            value = self.s.k(self.r.choice([1, 2, 3, 4, 6, 9, 300]))
        return self.s.call(self.r.choice(sorted(scope.procedures)), value, self.variable(scope, 2))

    def assignment(self, scope):
        if self.r.random() < 0.5:
            # small steps, so that not every run ends out of range
            name = self.r.choice(sorted(scope.simple))
            return self.s.put(self.s.x(name), self.s.work(self.r.choice("+-"), self.s.x(name), self.s.k(self.r.randint(1, 5))))
        variable = self.variable(scope, 2)
        return self.s.put(variable, self.expression(scope, 3))

    def statement(self, scope):
        self.budget -= 1
        if self.budget < 0:
            return self.call(scope) if scope.procedures and self.r.random() < 0.3 else self.assignment(scope)
        pick = self.r.random()
        if pick < 0.40:
            return self.s.line(";", self.statement(scope), self.statement(scope))
        if pick < 0.50:
            return self.s.line("i", self.condition(scope, 3), self.statement(scope), self.statement(scope))
        if pick < 0.57:
            name = self.name()
            return self.s.line("v", name, self.statement(scope.having(simple=(name,))))
        if pick < 0.64:
            name, length = self.name(), self.r.choice([1, 2, 5, 40])
            return self.s.line("r", name, length, self.statement(scope.having(arrays={name: length})))
        if pick < 0.72:
            return self.system(scope)
        if pick < 0.86 and scope.procedures:
            return self.call(scope)
        return self.assignment(scope)

    def sheet(self):
        scope = Scope(set(), {}, set())
        for name in range(1, self.r.randint(1, NAMES) + 1):
            self.s.line("g", name)
            scope = scope.having(simple=(name,))
        if self.r.random() < 0.7:
            self.s.line("g", 1, 4)
            scope = scope.having(arrays={1: 4})
        self.system(scope)
        return self.s


def main():
    folder, count = sys.argv[1], int(sys.argv[2])
    os.makedirs(folder, exist_ok=True)
    for seed in range(count):
        text = Random(seed).sheet()
        if len(text.lines) > 2048 or len(text.text()) > 65536:
            continue
        with open(os.path.join(folder, f"random{seed}.sheet"), "w", newline="") as file:
            file.write(text.text())


if __name__ == "__main__":
    main()
