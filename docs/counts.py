#!/usr/bin/env python3
"""Which definitions the public promises rest on, file by file, and how many lines that is.

    python3 docs/counts.py            from the project's root: prints the files, and what docs/READING.md says otherwise
    python3 docs/counts.py --write    puts the numbers of lines into docs/READING.md

Begins at the definitions that the contracts of the engine's public functions name (ROOTS) and follows every name through the files below
crates/*/specs. Types declared in the code (enums and structs) are met as crates/*/src/lib.rt and are not counted. Ends with status 0 when
docs/READING.md lists exactly these files, each with its number of lines.
"""
import glob
import os
import re
import sys

READING = "docs/READING.md"
ROOTS = ["engine", "capi"]
NAME = r"[^\s(){}.,:;λ]+"


class File:
    """A file of definitions: its lines, its blocks (each with the names that it defines, and its text), and what its imports name."""

    def __init__(self, path):
        text = open(path, encoding="utf-8").read()
        self.lines = text.count("\n")
        self.imports, self.modules, self.blocks = {}, {}, []
        for crate, module, names, alias in re.findall(
            r"^use Rattle\.(\w+)\.specs\.([\w.-]+?)(?:\.\{(.*)\}| as (\w+))$", text, re.M
        ):
            target = f"crates/{crate}/specs/{module}.antt"
            if not os.path.exists(target):
                continue
            if alias:
                self.modules[alias] = target
            for name in filter(None, names.split(", ")):
                self.imports[name.split(" as ")[-1]] = (target, name.split(" as ")[0])
        code = re.sub(r"(?m)^\s*--.*\n", "", text)
        for block in re.split(r"\n(?=(?:pub |abbrev |unfoldable |module |data |record |mutual)\S)", code):
            self.blocks.append((defined(block), block))


def defined(block):
    """The names that a block defines: of a record its own and not its fields', of a data type also its constructors'."""
    names = re.findall(rf"^(?:  )?(?:(?:unfoldable|abbrev|pub|data|record)\s+)+({NAME})", block, re.M)
    if re.match(r"(pub )?record ", block):
        return set(names[:1])
    constructors = re.findall(rf"^  (?:  )?({NAME}(?: {NAME})*) : ", block, re.M) if "data " in block else []
    return set(names).union(*(each.split() for each in constructors))


def follow(roots):
    """Every file met, with the numbers of the blocks of it that are reached."""
    files, met, left = {}, {}, list(roots)
    while left:
        path, name = left.pop()
        if path not in files:
            files[path], met[path] = File(path), set()
        file = files[path]
        for index, (names, block) in enumerate(file.blocks):
            if name not in names or index in met[path]:
                continue
            met[path].add(index)
            for word in set(re.findall(NAME, block)):
                left += [(path, word), file.imports.get(word, (path, word))]
            for alias, word in re.findall(rf"\b(\w+)\.({NAME})", block):
                left += [(file.modules[alias], word)] if alias in file.modules else []
    return {path: (files[path], blocks) for path, blocks in met.items() if blocks}


def roots():
    """What the contracts of public functions name."""
    found = []
    for crate in ROOTS:
        for path in glob.glob(f"crates/{crate}/src/*.rt"):
            text = open(path, encoding="utf-8").read()
            contracts = " ".join(re.findall(r"^pub [^{]*?fn[^{]*?(ensures \{.*?\})\n\{", text, re.M | re.S))
            for owner, module, names in re.findall(r"^ghost use Rattle\.(\w+)\.specs\.(\w+)\.\{(.*)\};$", text, re.M):
                for name in names.split(", "):
                    if re.search(rf"(?<![\w·]){re.escape(name.split(' as ')[-1])}(?![\w·])", contracts):
                        found.append((f"crates/{owner}/specs/{module}.antt", name.split(" as ")[0]))
        if crate == "engine":
            found.append(("crates/engine/specs/Claim.antt", "Together"))
    return found


def main():
    met = {path.removeprefix("crates/"): file.lines for path, (file, _) in follow(roots()).items()}
    text = open(READING, encoding="utf-8").read()
    believed = text.split("## What must be believed\n")[1].split("\n## ")[0]
    listed = dict(re.findall(r"^\| `([\w/]+\.antt)` \| (\d+) \|", believed, re.M))
    if "--write" in sys.argv:
        for path in listed.keys() & met.keys():
            text = text.replace(f"| `{path}` | {listed[path]} |", f"| `{path}` | {met[path]} |")
            listed[path] = str(met[path])
        open(READING, "w", encoding="utf-8").write(text)
    wrong = 0
    for path in sorted(met.keys() | listed.keys()):
        now, said = met.get(path, "no promise rests on it"), listed.get(path, "not listed")
        wrong += str(now) != said
        print(f"{path}: {now}" + (f"; {READING}: {said}" if str(now) != said else ""))
    print(f"{sum(met.values())} lines in {len(met)} files")
    sys.exit(wrong != 0)


main()
