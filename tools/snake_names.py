#!/usr/bin/env python3
"""Brings this repository's own names to Rattle's spelling, once, after port.py: definitions, fields and constructors in snake case, lemmas in snake case
with their dashes. Types, modules, functions of src/, strings, inputs and outputs keep their names.

usage: python3 tools/snake_names.py        at the top of the repository; writes the files in place and prints each name with its new one
       python3 tools/snake_names.py --list  prints the names and what falls together, and writes nothing
"""

import os
import re
import sys

NAME = r"[a-zA-Z_][\w'-]*"
# Lemmas that had the name of a definition but for dashes or capitals: the module, the name and its new one.
LEMMAS = {
    "Rattle.sender.proofs.BeginRange": {"out_of_range": "outside-is"},
    "Rattle.sender.proofs.EqualFile": {"started_with": "started-empty"},
    "Rattle.hostports.proofs.HostPort": {"has_room": "room-left"},
    "Rattle.transfer.proofs.FitTests": {"count_fits": "count-passes"},
    "Rattle.transfer.proofs.ArrivalTaken": {"not_taken": "refused-piece"},
    "Rattle.runs.proofs.FittingChannel": {"written_after": "written-part"},
}


def files(root, *endings):
    for folder, dirs, names in os.walk(os.path.join(root, "crates")):
        dirs[:] = sorted(d for d in dirs if d != "out")
        for f in sorted(names):
            if f.endswith(endings):
                yield os.path.join(folder, f)


def snake(name):
    return re.sub(r"(?<=[a-z0-9])([A-Z])", lambda m: "_" + m.group(1).lower(), name)


def own_names(root):
    """The names that the files of specs/ and proofs/ declare, each with whether it is a field or a constructor."""
    found = {}
    for path in files(root, ".antt"):
        if os.path.basename(path) in ("Proof.antt", "Answers.antt", "Invariants.antt"):
            inner = True
        else:
            inner = False
        block = False
        for line in open(path, encoding="utf-8"):
            if re.match(r"\S", line):
                block = bool(re.match(r"(pub )?(record|data)\b", line))
                m = re.match(r"(?:abbrev |unfoldable |pub )*(" + NAME + r")(?: \{ℓ\})? :", line)
                if m and not inner:
                    found.setdefault(m.group(1), False)
            elif block:
                m = re.match(r"  (?:pub )?((?:" + NAME + r" )+): ?", line) or re.match(r"  (?:pub )?(" + NAME + r") :", line)
                if m:
                    for n in m.group(1).split():
                        found[n] = True
    return found


def renamings(root):
    own = {name: part for name, part in own_names(root).items() if name[0].islower()}
    definitions = {snake(name) for name, part in own.items() if not part}
    to = {}
    for name, part in own.items():
        new = snake(name)
        if part and "-" in name:
            # a later field of a record would see the field in place of the definition
            new = new.replace("-", "_")
            new += "_is" if new in definitions else ""
        if new != name:
            to[name] = new
    # what is left: lemmas inside others, names of an import, variables
    for path in files(root, ".antt"):
        text = open(path, encoding="utf-8").read()
        for token in set(re.findall(r"(?<![\w'-])[a-z][\w'-]*", text)) - imported(text):
            if re.search(r"[a-z0-9][A-Z]", token) and len(token) > 2:
                to.setdefault(token, snake(token))
    return to


def imported(text):
    """The names that a file takes from elsewhere than this repository."""
    names = set()
    for m in re.finditer(r"use ([\w.·]+)\.\{([^}]*)\}", text):
        if not m.group(1).startswith("Rattle.") or m.group(1).startswith("Rattle.std"):
            names |= {n.strip() for n in m.group(2).split(",")}
    return names


def turn(text, to, keep=()):
    token = re.compile(r"(?<![\w'-])[a-z][\w'-]*")

    def one(m):
        n = m.group(0)
        return to[n] if n in to and n not in keep else n

    return token.sub(one, text)


def main(argv):
    root = "."
    to = renamings(root)
    new = {}
    for a, b in sorted(to.items()):
        new.setdefault(b, []).append(a)
    for b, names in sorted(new.items()):
        if len(names) > 1:
            print(f"falls together: {' '.join(names)} -> {b}")
    tokens = {}
    for path in files(root, ".antt", ".rt"):
        for t in set(re.findall(r"(?<![\w'-])[a-z][\w'-]*", open(path, encoding="utf-8").read())):
            tokens.setdefault(t, []).append(path)
    for b in sorted(new):
        if b in tokens:
            print(f"is there already: {b} (from {' '.join(new[b])}) in {len(tokens[b])} files, as {tokens[b][0]}")
    if "--list" in argv:
        for a, b in sorted(to.items()):
            print(f"{a} -> {b}")
        return 0
    for path in files(root, ".antt", ".rt", ".edit"):
        text = open(path, encoding="utf-8").read()
        after = text
        for module, names in LEMMAS.items():
            file = module[len("Rattle."):].replace(".", "/") + ".antt"
            if path.endswith(file) or module + "." in text or module + " " in text:
                for a, b in names.items():
                    after = re.sub(r"(?<![\w'-])" + a + r"(?![\w'-])(?!\.(ensures|result))", b, after)
        after = turn(after, to, imported(text) if not path.endswith(".edit") else ())
        if after != text:
            open(path, "w", encoding="utf-8").write(after)
    for a, b in sorted(to.items()):
        print(f"{a} -> {b}")
    return 0


if __name__ == "__main__":
    raise SystemExit(main(sys.argv[1:]))
