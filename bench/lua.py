#!/usr/bin/env python3
"""Translates a sheet (standard input) into a Lua 5.4 program (standard output).

The program works on whole numbers as the sheet does, with the same faults 21, 22 and 23, and writes the closing without its count
(`f,0,0`, or `x`, the fault and its line) and then the globals. It counts no statements, no levels and no cells: a run that the sheet's rule
stops, or ends by fault 24 or 25, it would go on with. So it is for sheets whose runs end within the allowance.

A procedure becomes a nested function, and what it uses from around itself are upvalues. A variable formal is a table and a key; so a variable
that is somewhere handed to a call is kept in a table of one entry, any other in a Lua local.
The sheet has to be one that is accepted, with fewer than 200 names and nestings at one place, which are Lua's own bounds.
"""
import sys

FIELDS = {
    "g": "n#", "k": "#", "x": "n", "a": "nl", "+": "ll", "-": "ll", "*": "ll", "/": "ll", "=": "ll", "<": "ll", "?": "lll", "t": "", "f": "",
    "!": "l", ">": "ll", "s": "ll", ";": "ll", "i": "lll", "p": "nll", "v": "nl", "r": "n#l", "e": "ll", "d": "nnnl", "&": "ll",
}


class Node:
    def __init__(self, text, earlier):
        number, self.kind, *fields = text.split(",")
        self.line = int(number)
        self.names, self.number, self.parts = [], 0, []
        for sort, field in zip(FIELDS[self.kind], fields):
            if sort == "n":
                self.names.append(int(field))
            elif sort == "#":
                self.number = int(field)
            else:
                self.parts.append(earlier[int(field) - 1])


class Simple:
    """A simple variable: a Lua local, or a table of one entry if some call is handed it."""

    def __init__(self, lua):
        self.lua, self.handed = lua, False

    def place(self):
        return f"{self.lua}[1]" if self.handed else self.lua

    def first(self, value):
        return f"{{{value}}}" if self.handed else value

    def pair(self):
        return f"{self.lua}, 1"


class Formal:
    """A variable formal: a table and a key."""

    handed = False

    def __init__(self, line):
        self.line = line

    def place(self):
        return f"t{self.line}[k{self.line}]"

    def pair(self):
        return f"t{self.line}, k{self.line}"


class Array:
    def __init__(self, lua, length):
        self.lua, self.length = lua, length


def procedures(node):
    return procedures(node.parts[0]) + procedures(node.parts[1]) if node.kind == "&" else [node]


def resolve(node, scope):
    """Gives each use (`to`) and each declaration what the innermost declaration of the name is."""
    if node.kind == "x":
        node.to = scope["x", node.names[0]]
    elif node.kind == "a":
        node.to = scope["a", node.names[0]]
    elif node.kind == "p":
        node.to = scope["p", node.names[0]]
    elif node.kind == "v":
        node.to = Simple(f"v{node.line}")
        scope = {**scope, ("x", node.names[0]): node.to}
    elif node.kind == "r":
        node.to = Array(f"a{node.line}", node.number)
        scope = {**scope, ("a", node.names[0]): node.to}
    elif node.kind == "e":
        scope = {**scope, **{("p", d.names[0]): f"p{d.line}" for d in procedures(node.parts[0])}}
    elif node.kind == "d":
        node.value, node.variable = Simple(f"w{node.line}"), Formal(node.line)
        scope = {**scope, ("x", node.names[1]): node.value, ("x", node.names[2]): node.variable}
    for part in node.parts:
        resolve(part, scope)
    if node.kind == "p" and node.parts[1].kind == "x":
        node.parts[1].to.handed = True


class Function:
    """The code of one Lua function, and how many temporaries (_1, _2, ...) it uses; they hold the parts of a statement's values."""

    def __init__(self):
        self.code, self.temporaries, self.line = [], 0, 0

    def emit(self, text):
        self.code.append(text)

    def temporary(self, n):
        self.temporaries = max(self.temporaries, n)
        return f"_{n}"

    def check(self, condition, fault):
        self.emit(f"if {condition} then fault({fault}, {self.line}) end")

    # Each of the next takes the first free temporary, and gives Lua text with the first that is free then.

    def value(self, node, free):
        if node.kind == "k":
            return (f"({node.number})" if node.number < 0 else str(node.number)), free
        if node.kind == "x":
            return node.to.place(), free
        if node.kind == "a":
            index, after = self.index(node, free)
            return f"{node.to.lua}[{index}]", after
        if node.kind == "?":
            condition, _ = self.condition(node.parts[0], free)
            result = self.temporary(free)
            self.emit(f"if {condition} then")
            self.emit(f"{result} = {self.value(node.parts[1], free)[0]}")
            self.emit("else")
            self.emit(f"{result} = {self.value(node.parts[2], free)[0]}")
            self.emit("end")
            return result, free + 1
        left, after = self.value(node.parts[0], free)
        right, _ = self.value(node.parts[1], after)
        result = self.temporary(free)
        if node.kind == "/":
            self.divide(left, right, result)
        else:
            self.emit(f"{result} = {left} {node.kind} {right}")
        # not from -2147483648 to 2147483647
        self.check(f"{result} + 2147483648 >> 32 ~= 0", 21)
        return result, free + 1

    def divide(self, left, right, result):
        """Lua's // goes downwards, the sheet's quotient to the nearest number: a half is added before, or taken off a negative one."""
        self.check(f"{right} == 0", 22)
        up = f"({left} * 2 + {right}) // ({right} * 2)"
        down = f"-(({right} - {left} * 2) // ({right} * 2))"
        self.emit(f"if {left} ~ {right} < 0 then {result} = {down} else {result} = {up} end")

    def index(self, node, free):
        """The index of an element, checked."""
        part = node.parts[0]
        index, after = self.value(part, free)
        if part.kind != "k":
            self.check(f"{index} < 0 or {index} >= {node.to.length}", 23)
        elif not 0 <= part.number < node.to.length:
            self.check("true", 23)
        return index, after

    def condition(self, node, free):
        if node.kind in "tf":
            return ("true" if node.kind == "t" else "false"), free
        if node.kind == "!":
            condition, after = self.condition(node.parts[0], free)
            return f"not ({condition})", after
        if node.kind == ">":
            # both sides are worked: what can go wrong in them is in the code before
            premise, after = self.condition(node.parts[0], free)
            conclusion, after = self.condition(node.parts[1], after)
            return f"(not ({premise}) or ({conclusion}))", after
        left, after = self.value(node.parts[0], free)
        right, after = self.value(node.parts[1], after)
        return f"{left} {'==' if node.kind == '=' else '<'} {right}", after

    def statement(self, node):
        self.line = node.line
        if node.kind == "s":
            variable, value = node.parts
            value, after = self.value(value, 1)
            if variable.kind == "a":
                self.emit(f"{variable.to.lua}[{self.index(variable, after)[0]}] = {value}")
            else:
                self.emit(f"{variable.to.place()} = {value}")
        elif node.kind == ";":
            while node.kind == ";":
                self.statement(node.parts[0])
                node = node.parts[1]
            self.statement(node)
        elif node.kind == "i":
            self.emit(f"if {self.condition(node.parts[0], 1)[0]} then")
            self.statement(node.parts[1])
            self.emit("else")
            self.statement(node.parts[2])
            self.emit("end")
        elif node.kind == "p":
            value, after = self.value(node.parts[0], 1)
            variable = node.parts[1]
            pair = f"{variable.to.lua}, {self.index(variable, after)[0]}" if variable.kind == "a" else variable.to.pair()
            self.emit(f"{node.to}({value}, {pair})")
        else:
            self.block(node)

    def block(self, node):
        self.emit("do")
        if node.kind == "v":
            self.emit(f"local {node.to.lua} = {node.to.first('0')}")
        elif node.kind == "r":
            self.emit(f"local {node.to.lua} = zeros({node.number})")
        else:
            declared = procedures(node.parts[0])
            self.emit("local " + ", ".join(f"p{d.line}" for d in declared))
            for d in declared:
                self.code += procedure(d)
        self.statement(node.parts[-1])
        self.emit("end")

    def finished(self):
        names = ", ".join(f"_{n}" for n in range(1, self.temporaries + 1))
        return ([f"local {names}"] if names else []) + self.code


def procedure(node):
    body = Function()
    body.statement(node.parts[0])
    value = node.value.lua
    head = [f"p{node.line} = function({value}, t{node.line}, k{node.line})"]
    if node.value.handed:
        head.append(f"{value} = {{{value}}}")
    return head + body.finished() + ["end"]


HEAD = """\
local function fault(number, line) error({number = number, line = line}, 0) end
local function zeros(length)
  local array = {}
  for i = 0, length - 1 do array[i] = 0 end
  return array
end
"""

TAIL = """\
local done, why = pcall(main)
if done then print("f,0,0")
elseif type(why) == "table" then print(string.format("x,%d,%d", why.number, why.line))
else error(why, 0) end
local function show(sort, name, index, number) print(string.format("%s,%d,%d,%d", sort, name, index, number & 0xffffffff)) end
"""


def translate(text):
    nodes = []
    for line in text.splitlines():
        nodes.append(Node(line, nodes))
    scope, head, tail = {}, [], []
    globals_ = [node for node in nodes if node.kind == "g"]
    for node in globals_:
        sort = "a" if node.number else "x"
        node.to = Array(f"a{node.line}", node.number) if node.number else Simple(f"g{node.line}")
        scope[sort, node.names[0]] = node.to
    resolve(nodes[-1], scope)
    for node in globals_:
        if node.number:
            head.append(f"local {node.to.lua} = zeros({node.number})")
            tail.append(f'for i = 0, {node.number - 1} do show("a", {node.names[0]}, i, {node.to.lua}[i]) end')
        else:
            head.append(f"local {node.to.lua} = {node.to.first('0')}")
            tail.append(f'show("x", {node.names[0]}, 0, {node.to.place()})')
    main = Function()
    main.statement(nodes[-1])
    return HEAD + "\n".join(head + ["local function main()"] + main.finished() + ["end"]) + "\n" + TAIL + "\n".join(tail) + "\n"


if __name__ == "__main__":
    sys.setrecursionlimit(20000)
    sys.stdout.write(translate(sys.stdin.read()))
