#!/usr/bin/env python3
"""Brings the repository's own definitions and lemmas to the spelling of today's Rattle: words in snake case.

usage: python3 tools/respell.py [--list]     at the top of the repository, once, right after the kit's port.py

It takes every name that a file of specs/ or proofs/ declares and that is spelled in mixed case (`msgOf`) or with a dash
between plain words (`total-cons`), and the names that a `ghost use` gives by `as`, and writes them in snake case in each
.antt and .rt file and in each must-fail edit. It leaves alone: types and modules (upper camel case), names of goals,
which Rattle makes, and the names of the library. Where two names would fall together it stops and names them.
With --list it prints the table and writes nothing.
"""

import os
import re
import sys

NAME = r"[A-Za-z_][\w'+]*(?:-[\w'+*]+)*"
DECLARED = re.compile(r"^\s*(?:(?:pub|abbrev|unfoldable|ruleset|open)\s+)*(" + NAME + r")\s*(?:\([^\n]*?\)\s*|\{[^\n]*?\}\s*)*:\s([^\n]*)", re.M)
ALIAS = re.compile(r"\bas (" + NAME + ")")
TOKEN = re.compile(r"(?<![\w'◌«-])(" + NAME + r")(?![\w'◌])")


# Names that would fall together with another in the same file, by file: a lemma gives way.
APART = {
    "crates/law/proofs/Whole.antt": {"has_room": "has_room_lem"},
    "crates/law/proofs/Links.antt": {"is_open": "is_open_lem"},
    "crates/notes/proofs/Bits.antt": {"bit-or": "bit_or_lem", "bit-and": "bit_and_lem"},
}
# A definition that is to have the name of the function whose answer it is: a clause cannot mean the function.
SHARED = {"goes_right"}


def files(*ends):
    for folder, dirs, names in os.walk("crates"):
        dirs[:] = sorted(d for d in dirs if d != "out")
        for name in sorted(names):
            if name.endswith(ends):
                yield os.path.join(folder, name)


def read(path):
    with open(path, encoding="utf-8") as f:
        return f.read()


def snake(name):
    if not re.match(r"[a-z]", name):
        return name
    name = re.sub(r"(?<=[a-z0-9])([A-Z])", lambda m: "_" + m.group(1).lower(), name)
    return name.replace("-", "_") if re.fullmatch(r"[\w'-]+", name) else name


def table():
    own, library = {}, set()
    for path in files(".antt"):
        text = read(path)
        for found in DECLARED.finditer(text):
            name, kind = found.groups()
            if re.match(r"(goal|given|need)\.", kind):
                continue
            own.setdefault(name, path)
    for path in files(".antt", ".rt"):
        for line in read(path).splitlines():
            if re.match(r"\s*(ghost )?use ", line):
                for found in ALIAS.finditer(line):
                    own.setdefault(found.group(1), path)
                if re.match(r"\s*(ghost )?use Rattle\.std\.", line):
                    library |= set(re.findall(NAME, line.split("{")[-1]))
    names = {n: snake(n) for n in own if snake(n) != n and n not in library}
    # a lemma that would have its function's name ends with _lem
    for name in names:
        if "-" in name and (names[name] in own or any(names[o] == names[name] for o in names if "-" not in o)):
            names[name] += "_lem"
    return names, own, library


def main(argv):
    names, own, library = table()
    if argv == ["--list"]:
        for old in sorted(names):
            print(f"{old} {names[old]}")
        return 0
    together = []
    for new in sorted(set(names.values())):
        olds = [o for o in names if names[o] == new]
        if len(olds) > 1 or new in own and not any(new in apart for apart in APART.values()):
            together.append(f"{new}: {', '.join(olds)} {own.get(new, '')}")
    for path in files(".antt", ".rt"):
        words = set(re.findall(NAME, read(path)))
        for old, new in names.items():
            if old in words and new in words and new not in SHARED and not {old, new} & set(APART.get(path, {})):
                together.append(f"{path}: {old} and {new}")
    if together:
        print("\n".join("falls together: " + line for line in together))
        return 1
    changed = 0
    for path in files(".antt", ".rt", ".edit"):
        text = read(path)
        here = names | APART.get(path, {})
        new = TOKEN.sub(lambda m: here.get(m.group(1), m.group(1)), text)
        if new != text:
            changed += 1
            with open(path, "w", encoding="utf-8") as f:
                f.write(new)
    print(f"{len(names)} names, {changed} files")
    return 0


if __name__ == "__main__":
    raise SystemExit(main(sys.argv[1:]))
