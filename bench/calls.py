#!/usr/bin/env python3
"""Answers lists of session calls by the copy rule: calls.py COPYING [--write] FILE .. (bench.sh calls it).

The lists are those of crates/call_vectors (data/NOTES.md has their form), and those of them that are of whole numbers are answered. A session is
played here by the table of docs/SESSIONS.md, and each run by the interpreter COPYING. It says of each file how many lists have just the answers
that are due, tells the first line of each that has another, and fails then. With --write it writes the files anew, with the answers that are due.

Refusals 12, 15, 19 and 26 are not here: every word is lawful for whole numbers, no list begins so many runs, and all calls are over one store.
"""
import subprocess
import sys

MOST = 4294967295  # of a count of statements


CALLS = ("open", "post", "reading", "begin", "grant", "close")
NOTHING_BEGUN = ["s", "0", "0", "0"]  # a closing


class Refused(Exception):
    """A call is refused, with this number."""


class Place:
    """A place for a session of a sheet of whole numbers, over its store of globals."""

    def __init__(self, copying, sheet, cells, words):
        self.copying, self.sheet, self.cells = copying, "".join(line + "\n" for line in sheet), cells
        # of each global: its kind, name, first cell and length
        self.globals, used = {}, 0
        for line in sheet:
            _, kind, name, length, *_ = line.split(",")
            if kind != "g":
                break
            self.globals["xa"[int(length) > 0], int(name)] = used, max(int(length), 1)
            used += max(int(length), 1)
        self.used = used
        self.words = (words + [0] * cells)[:cells][:used]
        self.runs = None  # how many runs the session has begun; None where there is no session
        self.run = None  # the open run's granted sum, its words at the begin, and its closing

    def cell(self, kind, name, index):
        first, length = self.globals.get((kind, name), (0, 0))
        if index >= length:
            raise Refused(14)
        return first + index

    def at_rest(self):
        if self.runs is None or self.run:
            raise Refused(13)

    def open_run(self, ticket):
        if not self.run or ticket != self.runs:
            raise Refused(16)
        return self.run

    def closing(self, words, statements):
        """What a run of so many statements leaves in the globals, and how it is told."""
        command = [self.copying, str(self.cells), str(statements)] + [str(word) for word in words]
        closing, *rows = subprocess.run(command, input=self.sheet, stdout=subprocess.PIPE, check=True, text=True).stdout.split()
        return closing.split(","), [int(row.rsplit(",", 1)[1]) for row in rows]

    def open(self):
        self.runs = self.run = None
        if self.used > self.cells:
            raise Refused(11)
        self.runs = 0
        return "opened"

    def post(self, kind, name, index, word):
        self.at_rest()
        self.words[self.cell(kind, int(name), int(index))] = int(word)
        return "posted"

    def reading(self, kind, name, index):
        self.at_rest()
        return f"word {self.words[self.cell(kind, int(name), int(index))]}"

    def begin(self):
        self.at_rest()
        self.runs += 1
        self.run = 0, self.words, NOTHING_BEGUN
        return f"ticket {self.runs}"

    def grant(self, ticket, count):
        granted, first, told = self.open_run(int(ticket))
        if told[0] != "s":
            raise Refused(18)
        if not 0 < int(count) <= MOST - granted:
            raise Refused(17)
        granted += int(count)
        told, self.words = self.closing(first, granted)
        self.run = granted, first, told
        return "running" if told[0] == "s" else "over"

    def close(self, ticket):
        _, _, told = self.open_run(int(ticket))
        self.run = None
        return "closed " + " ".join(told)

    def answer(self, call):
        name, *arguments = call.split()
        if name not in CALLS:
            sys.exit(f"{call}: no call")
        try:
            return getattr(self, name)(*arguments)
        except Refused as refused:
            return f"refused {refused} 0"


def answered(copying, part):
    """A list with the answers that are due; one of singles stays as it is."""
    lines = part.splitlines()
    kind, cells = lines[0].split()[1:]
    if kind not in ("whole", "single"):
        sys.exit(f"{kind}: no number kind")
    if kind == "single":
        return part
    count = 2 + int(lines[1].split()[1])
    place = Place(copying, lines[2:count], int(cells), [int(word) for word in lines[count].split()[1:]])
    calls = (line.split(" = ")[0] for line in lines[count + 1:])
    return "\n".join(lines[:count + 1] + [f"{call} = {place.answer(call)}" for call in calls]) + "\n"


def lists_of(file):
    with open(file) as text:
        *parts, rest = text.read().split("end\n")
    if rest or not parts:
        sys.exit(f"{file}: a list has no end, or there is none")
    return parts


def check(file, parts, due):
    """Whether all answers are those that are due; and what differs is told."""
    others = 0
    for number, (part, wanted) in enumerate(zip(parts, due), 1):
        if part != wanted:
            others += 1
            line, right = next(pair for pair in zip(part.splitlines(), wanted.splitlines()) if pair[0] != pair[1])
            print(f"UNEQUAL {file}: list {number}: {line}, where is due {right}")
    whole = sum(part.startswith("case whole") for part in parts)
    print(f"{file.rsplit('/', 1)[-1]}: {whole - others} of {whole} lists of whole numbers: the answers that are due")
    return others == 0


def main():
    copying, *files = sys.argv[1:]
    write = files[:1] == ["--write"]
    equal = True
    for file in files[write:]:
        parts = lists_of(file)
        due = [answered(copying, part) for part in parts]
        equal = check(file, parts, due) and equal
        if write:
            with open(file, "w") as text:
                text.write("".join(part + "end\n" for part in due))
    sys.exit(0 if equal or write else 1)


if __name__ == "__main__":
    main()
