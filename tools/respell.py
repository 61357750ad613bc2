#!/usr/bin/env python3
"""Respells the names of this repository's own definitions, lemmas, fields and variables as today's Rattle does: words in snake case.

usage: python3 tools/respell.py   once, at the top of a tree that port.py has just turned

A name that the Rattle library declares or that a file imports from it stays. Names of src/, strings and comments stay; in a comment a
name in backticks is respelled. Where a definition and a lemma would get one name, the lemma's ends in `_lem`.
"""

import collections
import os
import re
import sys

LIBRARY = "/opt/rattle/rattle"
NAME = r"[^\s(){}\[\],;.«»\"`|:]+"
WORDS = r"(?:(?:abbrev|unfoldable|pub|data|record)\s+)*"
BINDERS = r"(?:\s+(?:\([^)]*\)|\{[^}]*\}))*"
DECLARED = re.compile("^" + WORDS + "(" + NAME + ")" + BINDERS + r"\s*: (.*)$")
# Such a name is made by the check, and a proof by hand cites it.
MADE = ("Need-", "Lts-", "loop-test")


def files(root, endings):
    for folder, dirs, names in os.walk(root):
        dirs[:] = sorted(d for d in dirs if d != "out")
        for name in sorted(names):
            if name.endswith(endings):
                yield os.path.join(folder, name)


def respelled(name):
    new = re.sub(r"(?<=[A-Za-z0-9_'≤<≡₀])-(?=[A-Za-z0-9_≤<≡])", "_", name)
    if re.match("[a-z]", new):
        new = re.sub("([a-z0-9])([A-Z])", lambda m: m.group(1) + "_" + m.group(2).lower(), new)
    return new


def is_comment(line):
    return line.lstrip().startswith("--")


def declared_in(lines):
    """Each declaration's name, its type as far as the line has it, and whether it is a record's field."""
    record = None
    for line in lines:
        text = line.strip()
        if not text or text.startswith(("--", "use ", "open ")):
            continue
        depth = len(line) - len(line.lstrip())
        if record is not None and depth <= record:
            record = None
        it = DECLARED.match(text)
        if it:
            yield it.group(1), it.group(2), record is not None
        if re.match(r"(pub )?record .* where$", text):
            record = depth


def library_names():
    names = set()
    head = re.compile(r"^\s*" + WORDS + "(" + NAME + r")\s*(?:\([^)]*\)\s*|\{[^}]*\}\s*)*:")
    for path in files(LIBRARY, ".antt"):
        with open(path, encoding="utf-8") as f:
            for line in f:
                it = head.match(line)
                if it:
                    names.add(it.group(1))
    return names


def imported_from_library(text, own):
    """The names that a file imports from elsewhere than the repository's crates."""
    names = set()
    for it in re.finditer(r"^(?:ghost )?use (\S+?)\.\{([^}]*)\}", text, re.M):
        parts = it.group(1).split(".")
        if parts[0] == "Rattle" and parts[1] in own:
            continue
        names |= {n.split(" as ")[0].strip() for n in it.group(2).split(",")}
    return names


def name_map(crates):
    """What each name becomes; the names in `_lem` that had their new spelling before."""
    places = collections.defaultdict(set)
    used = collections.Counter()
    for path in files(crates, ".antt"):
        with open(path, encoding="utf-8") as f:
            lines = f.readlines()
        for name, kind, field in declared_in(lines):
            if ".Need-" not in kind:
                places[name].add("field" if field else "specs" if "/specs/" in path else "proofs")
        for line in lines:
            if not is_comment(line):
                used.update(re.findall(NAME, re.sub(r'"[^"]*"', "", line)))
    library = library_names()
    for name in used:
        if name not in places and name not in library and not name.startswith(MADE + ("#",)) and "\\" not in name:
            if respelled(name) != name:
                places[name] = {"local"}
    together = collections.defaultdict(list)
    for name in places:
        together[respelled(name)].append(name)
    turned, snake = {}, {}
    for new, names in together.items():
        first = sorted(names, key=lambda n: ("specs" not in places[n], not re.search("[a-z][A-Z]", n), n))[0]
        for name in names:
            if name == first or "field" in places[name]:
                turned[name] = new
            elif name == new:
                snake[name] = new + "_lem"
            else:
                turned[name] = new + "_lem"
    return {k: v for k, v in turned.items() if k != v}, snake


def turn_code(text, turned, snake):
    def one(it):
        name = it.group(0)
        # What follows a point is a field, as that of a call's step, which has the function's name.
        if it.string[it.start() - 1 : it.start()] == ".":
            return respelled(name) if name in turned else name
        return snake.get(name) or turned.get(name, name)

    parts = re.split(r'("(?:[^"\\]|\\.)*")', text)
    return "".join(p if i % 2 else re.sub(NAME, one, p) for i, p in enumerate(parts))


def turn_comment(text, turned):
    def one(it):
        return "`" + re.sub(NAME, lambda n: turned.get(n.group(0), n.group(0)), it.group(1)) + "`"

    return re.sub("`([^`]*)`", one, text)


def turn_logic(path, turned, snake, own):
    with open(path, encoding="utf-8") as f:
        text = f.read()
    kept = imported_from_library(text, own)
    mine = {k: v for k, v in turned.items() if k not in kept}
    less = {k: v for k, v in snake.items() if k not in kept}
    return "".join(turn_comment(l, mine) if is_comment(l) else turn_code(l, mine, less) for l in text.splitlines(keepends=True))


def turn_source(path, turned, own):
    """Of a source only what is ghost: imports, clauses."""
    with open(path, encoding="utf-8") as f:
        text = f.read()
    kept = imported_from_library(text, own)
    mine = {k: v for k, v in turned.items() if k not in kept}
    lines = []
    inside = False
    for line in text.splitlines(keepends=True):
        starts = re.match(r"\s*(ghost |requires |ensures |invariant )", line)
        if line.lstrip().startswith("//"):
            lines.append(turn_comment(line, mine))
        elif starts or inside:
            lines.append(turn_code(line, mine, {}))
            inside = line.count("{") > line.count("}") if starts else inside and line.count("}") <= line.count("{")
        else:
            lines.append(line)
    return "".join(lines)


def turn_edit(path, turned):
    with open(path, encoding="utf-8") as f:
        lines = f.readlines()
    return "".join(turn_code(l, turned, {}) if l.startswith(("old: ", "new: ")) else turn_comment(l, turned) for l in lines)


def main():
    root = os.getcwd()
    crates = os.path.join(root, "crates")
    own = set(os.listdir(crates))
    turned, snake = name_map(crates)
    changed = 0
    for path in files(crates, (".antt", ".rt", ".edit")):
        if path.endswith(".antt"):
            new = turn_logic(path, turned, snake, own)
        elif path.endswith(".rt"):
            new = turn_source(path, turned, own)
        else:
            new = turn_edit(path, turned)
        with open(path, encoding="utf-8") as f:
            old = f.read()
        if new != old:
            changed += 1
            with open(path, "w", encoding="utf-8") as f:
                f.write(new)
    print(f"respell: {len(turned) + len(snake)} names, {changed} files")
    for name, new in sorted(list(snake.items()) + [it for it in turned.items() if it[1].endswith("_lem")]):
        print(f"  {name} -> {new}")


if __name__ == "__main__":
    sys.exit(main())
