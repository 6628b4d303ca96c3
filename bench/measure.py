#!/usr/bin/env python3
"""Checks and times the three: measure.py ENGINE COPYING FOLDER SAMPLE RANDOM REPEATS (bench.sh calls it).

FOLDER has the sheets and their twins (sheets.py), RANDOM random sheets, SAMPLE is one more sheet to check. Times are the processor time of the
process, as the system counts it for a child that is waited for, so that other work on the machine adds little.
"""
import os
import statistics
import subprocess
import sys

import lua
from sheets import SHEETS

# what Lua does not tell: a run that is stopped, and faults of levels and of cells
NOT_LUA = ("s,", "x,24,", "x,25,", "r,")


def output(command, file):
    with open(file, "rb") as text:
        return subprocess.run(command, stdin=text, stdout=subprocess.PIPE, check=True).stdout.decode()


def translated(sheet):
    """The sheet in Lua, in a file beside it."""
    name = sheet + ".lua"
    with open(sheet) as text, open(name, "w") as file:
        file.write(lua.translate(text.read()))
    return name


def without_count(text):
    first, rest = text.split("\n", 1)
    return first.rsplit(",", 1)[0] + "\n" + rest


def check(engine, copying, sheet):
    """Whether all print the same of a sheet; and what differs is told."""
    one, other = output([engine], sheet), output([copying], sheet)
    if one != other:
        print(f"UNEQUAL {sheet}: the engine's {one.split()[:4]}, by copying {other.split()[:4]}")
        return False
    if one.startswith(NOT_LUA) or sheet.endswith(".bound"):
        return True
    third = output(["lua5.4", translated(sheet)], sheet)
    if third != without_count(one):
        print(f"UNEQUAL {sheet}: the engine's {one.split()[:4]}, Lua's {third.split()[:4]}")
        return False
    return True


def seconds(command, file):
    """The processor time of one run."""
    with open(file, "rb") as text, open(os.devnull, "wb") as nothing:
        redirected = [(os.POSIX_SPAWN_DUP2, text.fileno(), 0), (os.POSIX_SPAWN_DUP2, nothing.fileno(), 1)]
        child = os.posix_spawnp(command[0], command, os.environ, file_actions=redirected)
        _, status, usage = os.wait4(child, 0)
    if status:
        sys.exit(f"{command} failed on {file}")
    return usage.ru_utime + usage.ru_stime


def all_times(jobs, repeats):
    """Each job's times. The jobs take turns, so that a slow spell of the machine falls on all."""
    times = {key: [] for key in jobs}
    for _ in range(repeats):
        for key, (command, file) in jobs.items():
            times[key].append(seconds(command, file))
    return times


def more(times, others):
    """By how much one job takes longer than another: the median of the differences within a turn."""
    return statistics.median(one - other for one, other in zip(times, others))


def begun(engine, sheet):
    return int(output([engine], sheet).split("\n", 1)[0].rsplit(",", 1)[1])


def line_count(sheet):
    with open(sheet) as text:
        return len(text.readlines())


def ratio(a, b):
    return f"{a / b:.2f}" if a > 0.1 * b else f"{a / b:.4f}"


def table(engine, copying, folder, repeats):
    commands = {"engine": lambda s: [engine], "copying": lambda s: [copying], "lua": lambda s: ["lua5.4", translated(s)]}
    trivial = os.path.join(folder, "trivial.sheet")
    print("| sheet | lines | statements | engine | copying | Lua | engine / copying | engine / Lua | read and checked (ms) |")
    print("|---|---|---|---|---|---|---|---|---|")
    for name in SHEETS:
        sheet, twin = (os.path.join(folder, name + end) for end in (".sheet", ".base"))
        # the first run after another program's is slower, and not counted
        jobs = {("engine", "first"): ([engine], trivial), ("engine", "trivial"): ([engine], trivial)}
        for who, command in commands.items():
            jobs[who, "twin"] = (command(twin), twin)
            jobs[who, "whole"] = (command(sheet), sheet)
        times = all_times(jobs, repeats)
        count = begun(engine, sheet) - begun(engine, twin)
        speed = {who: count / more(times[who, "whole"], times[who, "twin"]) / 1e6 for who in commands}
        reading = more(times["engine", "twin"], times["engine", "trivial"]) * 1e3
        print(
            f"| {name} | {line_count(sheet)} | {count:,} | {speed['engine']:.1f} | {speed['copying']:.1f} | {speed['lua']:.1f} "
            f"| {ratio(speed['engine'], speed['copying'])} | {ratio(speed['engine'], speed['lua'])} | {reading:.1f} |",
            flush=True,
        )


def main():
    engine, copying, folder, sample, random, repeats = sys.argv[1:]
    sys.setrecursionlimit(20000)
    sheets = [os.path.join(folder, name) for name in sorted(os.listdir(folder)) if name.endswith((".sheet", ".base", ".bound"))]
    sheets += [os.path.join(random, name) for name in sorted(os.listdir(random)) if name.endswith(".sheet")] + [sample]
    equal = sum(check(engine, copying, sheet) for sheet in sheets)
    print(f"{equal} of {len(sheets)} sheets: equal closings and globals\n")
    print("Millions of statements a second:\n")
    table(engine, copying, folder, int(repeats))
    sys.exit(0 if equal == len(sheets) else 1)


if __name__ == "__main__":
    main()
