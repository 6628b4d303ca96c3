#!/usr/bin/env python3
"""Brings the names of this repository's definitions and lemmas to the library's spelling, once.

usage: python3 tools/respell.py            at the top of the repository, after the kit's port.py
       python3 tools/respell.py --list     only prints what it would rename

Types are in camel case (`Each-once` is EachOnce) and everything else in snake case (`statement-apart` is statement_apart).
Names that the library has too, names that the check makes (goals, steps) and names of src/ stay. A name that two definitions
of one module would share is told and left.
"""

import os
import re
import sys

TOKEN = re.compile(r"(?<![\w'′-])([A-Za-zα-ωΑ-Ω][\w'′₀-₉⁺]*(?:-[\w'′₀-₉⁺]+)+)(?![\w'′-])")
SIGNATURE = re.compile(r"^([ \t]*)((?:(?:pattern|unfoldable|abbrev|pub|axiom)\s+)*)((?:record|data)\s+)?([A-Za-zα-ω][^\s(){}:;,.]*)((?:\s+[({][^=\n]*)?)\s:\s(.*(?:\n[ \t]+(?:→|×|≡).*)*)", re.M)
# the names in mixed case
MIXED = {
    "constantWord": "constant_word",
    "finiteAnswer": "finite_answer",
    "finiteWord": "finite_word",
    "sumSign": "sum_sign",
    "getD-last": "get_or_last",
    "getD_last": "get_or_last",
}


def files(*endings):
    for top in ("crates", "docs", "."):
        for folder, dirs, names in os.walk(top):
            dirs[:] = sorted(d for d in dirs if d not in ("out", ".git", "data", "target", "tools"))
            if top == ".":
                dirs[:] = []
            for name in sorted(names):
                if name.endswith(endings) and name != "PORT.md":  # which tells old names
                    yield os.path.join(folder, name)


def library_names():
    """The hyphenated names that this repository imports from other libraries."""
    crates = "|".join(sorted(os.listdir("crates")))
    found = set()
    for path in files(".antt", ".rt"):
        with open(path, encoding="utf-8") as f:
            text = f.read()
        for m in re.finditer(r"use Rattle\.(\w+)[^{};\n]*\{([^}]*)\}", text):
            if not re.fullmatch(crates, m.group(1)):
                found.update(TOKEN.findall(m.group(2)))
    return found


def is_made(name):
    """Names that the check makes: goals, invariants, measures and steps of a function's proof."""
    if re.match(r"(invariant-loop|decreases|returns|loop|overflow|offset|bounds)[-_]", name):
        return True
    return bool(re.search(r"-requires(-\d+)?$|-returns-(in|then|else)-", name)) or name == "float-to-bits-result"


def own_names():
    """Each hyphenated name that a file of specs/ or proofs/ declares, and whether it is a type."""
    found = {}
    for path in files(".antt"):
        with open(path, encoding="utf-8") as f:
            text = f.read()
        for m in SIGNATURE.finditer(text):
            name, kind = m.group(4), m.group(6)
            if "-" not in name and "′" not in name or is_made(name):
                continue
            if re.match(r"(goal|goals|need|needs|rules)\.", kind) or "Goals" in kind.split()[0]:
                continue
            is_type = bool(m.group(3)) or bool(re.search(r"\bType\b(?: ?\d| ?\{\d\})?\s*(?:where)?$", kind.strip()))
            if name[0].isupper() and not is_type and re.search(r"\bType\b", kind):
                is_type = True
            found[name] = found.get(name, False) or is_type
        for m in re.finditer(r"^[ \t]*(?:abbrev |pub |mutual|unfoldable )*((?:[A-Za-z][\w'-]*\s+)+[A-Za-z][\w'-]*)\s:\s(?!goals?\.|needs?\.|rules\.)", text, re.M):
            for name in m.group(1).split():
                if "-" in name and not is_made(name):
                    found.setdefault(name, False)
        # variables that a signature or a binder names
        for m in re.finditer(r"[({]((?:[A-Za-zα-ω][\w'′-]*\s+)*[A-Za-zα-ω][\w'′-]*)\s:\s", text):
            for name in m.group(1).split():
                if "-" in name:
                    found.setdefault(name, False)
    return found


def respelled(name, is_type):
    name = name.replace("′", "'")
    if is_type:
        return "".join(w[0].upper() + w[1:] for w in name.split("-"))
    return name.replace("-", "_")


def table():
    own, library = own_names(), library_names()
    kept = sorted(n for n in own if n in library)
    return {n: respelled(n, t) for n, t in own.items() if n not in library}, kept, own


def turn(text, path, names):
    def put(m):
        return names.get(m.group(1), m.group(1))

    def words(part):
        part = re.sub(r"(?<![\w'-])(" + "|".join(MIXED) + r")(?![\w'-])", lambda m: MIXED[m.group(1)], part)
        return TOKEN.sub(put, part.replace("after-all-++", "after_all-++"))

    def quoted(part):
        """In prose only what stands in backticks, or begins with a capital, is a name."""
        part = re.sub(r"`[^`\n]*`", lambda m: words(m.group(0)), part)
        return TOKEN.sub(lambda m: put(m) if m.group(1)[0].isupper() else m.group(0), part)

    if path.endswith(".md"):
        return re.sub(r"`[^`\n]*`", lambda m: words(m.group(0)), text)
    mark = "--" if path.endswith(".antt") else "//"
    lines = []
    for line in text.split("\n"):
        at = line.find(mark)
        if path.endswith(".edit") or at < 0 or (mark == "--" and at > 0 and line[at - 1] not in " \t"):
            body, comment = line, ""
        else:
            body, comment = line[:at], line[at:]
        if path.endswith(".rt"):
            body = "".join(p if p.startswith('"') else words(p) for p in re.split(r'("(?:[^"\\]|\\.)*")', body))
        else:
            body = words(body)
        lines.append(body + (quoted(comment) if comment else ""))
    return "\n".join(lines)


def main():
    names, kept, own = table()
    taken = {}
    for name, new in sorted(names.items()):
        taken.setdefault(new, []).append(name)
    for new, olds in sorted(taken.items()):
        if len(olds) > 1:
            print("falls together:", new, olds)
    for n in kept:
        print("library's too, kept:", n)
    if "--list" in sys.argv:
        for n in sorted(names):
            print(n, "->", names[n], "(type)" if own[n] else "")
        return
    changed = 0
    for path in files(".antt", ".rt", ".edit", ".md"):
        if os.path.relpath(path).startswith("tools"):
            continue
        with open(path, encoding="utf-8") as f:
            old = f.read()
        new = turn(old, path, names)
        if new != old:
            changed += 1
            with open(path, "w", encoding="utf-8") as f:
                f.write(new)
    print(f"{len(names)} names respelled in {changed} files")


main()
