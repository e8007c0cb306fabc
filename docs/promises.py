#!/usr/bin/env python3
"""Holds docs/CLAIMS.md to the code: every public function, and what its must-fail edits show.

    python3 docs/promises.py            from the project's root: prints what is amiss
    python3 docs/promises.py --write    puts the first line of each edit behind its name in docs/CLAIMS.md

Under the heading "Public promises" a row is for one function, `crate::name`, or a method, `crate::Type::name`, also one that a trait asks for; under "Definitions" for a crate. The
last column names edits of that crate's must-fail/, or `crate/name` of another's, which holds the definition. Ends with status 0 when each public function has a row with
two edits or more, each edit named is there, each edit there is named, and each of a function stands beside what its first line says.
"""
import glob
import os
import re
import sys

CLAIMS = "docs/CLAIMS.md"


def functions():
    """The public functions of every crate, methods with their type; those that an impl has of a trait are public."""
    found = []
    for path in sorted(glob.glob("crates/*/src/*.rt")):
        owner, of_trait = "", False
        for line in open(path, encoding="utf-8"):
            if block := re.match(r"impl(?:<[^>]*>)? ([\w:]+(?:<[^>]*>)? for )?(\w+)(?:<[^>]*>)? \{", line):
                owner, of_trait = f"{block.group(2)}::", bool(block.group(1))
            elif line == "}\n":
                owner, of_trait = "", False
            elif name := re.match(r'(?:    )?pub (?:extern "C" )?fn (\w+)' if not of_trait else r"    fn (\w+)", line):
                found.append(f"{path.split('/')[1]}::{owner}{name.group(1)}")
    return found


def placed(crate, name):
    """The crate of an edit, and its name there."""
    return tuple(name.split("/")) if "/" in name else (crate, name)


def shows(crate, edit):
    """What an edit shows: its first line, without the names of the functions that it is about."""
    path = "crates/{}/must-fail/{}.edit".format(*placed(crate, edit))
    if not os.path.exists(path):
        return None
    first = open(path, encoding="utf-8").readline().strip().removeprefix("# ")
    return re.sub(r"^\w+(, \w+)*: ", "", first)


def rows_of(text, heading):
    """The rows of the table under a heading: subject, what it equals, edits, and the line itself."""
    lines = text.split(f"\n{heading}\n")[1].split("\n## ")[0].splitlines()
    return [[part.strip() for part in line.strip("| ").split(" | ")] + [line] for line in lines if re.match(r"\|.*`", line)]


def main():
    text = open(CLAIMS, encoding="utf-8").read()
    amiss, rows, named = [], {}, set()
    for subject, equals, edits, line in rows_of(text, "## Public promises"):
        crate, function = re.match(r"`(\w+)::((?:\w+::)?\w+)`$", subject).groups()
        names = re.findall(r"`([\w/]+)`:", edits)
        rows[f"{crate}::{function}"] = names
        named |= {placed(crate, name) for name in names}
        if len(names) < 2:
            amiss.append(f"{crate}::{function}: {len(names)} edits")
        shown = "; ".join(f"`{name}`: {shows(crate, name)}" for name in names) or "none"
        if "--write" in sys.argv:
            text = text.replace(line, f"| {subject} | {equals} | {shown} |")
        elif shown != edits:
            amiss.append(f"{crate}::{function}: the edits say otherwise (--write)")
    for subject, _, edits, _ in rows_of(text, "## Definitions"):
        crate = re.search(r"`(\w+)`", subject).group(1)
        named |= {(crate, name) for name in re.findall(r"`(\w+)`", edits)}
    there = {(path.split("/")[1], os.path.basename(path)[:-5]) for path in glob.glob("crates/*/must-fail/*.edit")}
    amiss += [f"{function}: no row" for function in functions() if function not in rows]
    amiss += [f"{function}: no such public function" for function in rows if function not in functions()]
    amiss += [f"{crate}/must-fail/{name}.edit: not there" for crate, name in sorted(named - there)]
    amiss += [f"{crate}/must-fail/{name}.edit: no row names it" for crate, name in sorted(there - named)]
    if "--write" in sys.argv:
        open(CLAIMS, "w", encoding="utf-8").write(text)
    print("\n".join(amiss), end="\n" if amiss else "")
    sys.exit(bool(amiss))


main()
