#!/usr/bin/env python3
"""Lists the places of docs/DESIGN-PASS.md in the crates' src/: for each point those that its test finds, and their number.

    python3 tools/forms.py            of the files as they stand
    python3 tools/forms.py COMMIT     of a commit
    python3 tools/forms.py -v ..      with each place

The tests read the text: what they find is a place to look at, and the page says of each what became of it.
"""
import re
import subprocess
import sys
from collections import defaultdict


def sources(commit):
    names = subprocess.run(
        ["git", "ls-tree", "-r", "--name-only", commit, "crates"] if commit else ["git", "ls-files", "crates"],
        capture_output=True, text=True, check=True).stdout.split()
    for name in names:
        if re.fullmatch(r"crates/\w+/src/.*\.rt", name):
            if commit:
                yield name, subprocess.run(["git", "show", f"{commit}:{name}"], capture_output=True, text=True, check=True).stdout
            else:
                with open(name) as file:
                    yield name, file.read()


def line_of(text, at):
    return text.count("\n", 0, at) + 1


def code(text):
    return re.sub(r"//[^\n]*", lambda m: " " * len(m.group()), text)


def enums(text):
    """Own enums with a variant that holds something and at most three that do."""
    for m in re.finditer(r"enum (\w+) \{\n(.*?)\n\}", text, re.S):
        variants = re.findall(r"^\s+(\w+)(\([^)]*\))?,", m.group(2), re.M)
        holding = [v for v in variants if v[1]]
        if holding and len(variants) <= 4 and len(holding) <= 3:
            yield m.start(), f"enum {m.group(1)}"


def marks(text):
    """A number that stands for no value: 255, or 0 where a place or a count is looked up."""
    for m in re.finditer(r"\w[\w.()\[\] +]* [=!]= 255\b|\b255\b(?= \{)|known == 0|0 < known|place == 0|place_of\([^)]*\) != 0", text):
        yield m.start(), m.group()


def kinds(text):
    """The numbers of record kinds, where they are declared and where a decision is made over them."""
    for m in re.finditer(r"pub const KIND_\w+|KIND_\w+(?:\.\.=KIND_\w+)?(?= =>| \|)|[=!]= KIND_\w+|< KIND_\w+", text):
        yield m.start(), m.group()


def twins(text):
    """Functions of one name or one purpose in several crates, and limits that stand in several."""
    for m in re.finditer(r"fn (wide|word_of|has_arguments|type_byte|fill_types|write_order|ranged|in_range|signed|fits|slot_of)\b", text):
        yield m.start(), m.group()
    for m in re.finditer(r"const (VARIABLES|ROW|STEPS|LINKS|WIDTH|SCOPES): usize", text):
        yield m.start(), m.group()


def loops(text):
    """Loops that count an index by hand: a while or loop whose body moves a variable by one."""
    for m in re.finditer(r"^( *)(?:while |loop \{|let \w+ = '\w+: loop)[^\n]*\n(.*?)^\1\}", text, re.S | re.M):
        if re.search(r"\b\w+ [+-]= 1;", m.group(2)):
            yield m.start(), m.group().split("\n")[0].strip()


def other_loops(text):
    """Other while and loop: a position that moves by a record's length, or along links."""
    for m in re.finditer(r"^( *)(?:while |loop \{|let \w+ = '\w+: loop)[^\n]*\n(.*?)^\1\}", text, re.S | re.M):
        if not re.search(r"\b\w+ [+-]= 1;", m.group(2)):
            yield m.start(), m.group().split("\n")[0].strip()


def conversions(text):
    """Equality, copying, conversion and printing by functions of their own."""
    names = r"same_\w+|equal|wide|word_of|bit_of|type_byte|byte_of|type_of|is_given|is_rule|copy|copy_cells|\w+_number|operator_of|unary_kind|binary_kind|mark_of|clear_from"
    for m in re.finditer(rf"fn (?:{names})\(", text):
        yield m.start(), m.group()[:-1]


def buffers(text):
    """Memory beside the place up to which it is filled, and an arena whose rows are found by numbers."""
    for m in re.finditer(r"\b(?:out|st|tr): &(?:mut )?\[\w+\],\s+(?:at|h|t): usize", text):
        yield m.start(), re.sub(r"\s+", " ", m.group())
    for m in re.finditer(r"\w+\[[^\]\n]*\b(?:ROW|WIDTH|MARKS|CALLED|SIBLINGS|EXCEPTIONS|RULES|STARTS)\b[^\]\n]*\]", text):
        yield m.start(), m.group()


def facts(files):
    """Facts that stand in the contracts of three functions or more, and parameters that are passed together in three or more."""
    where = defaultdict(list)
    for name, text in files:
        for m in re.finditer(r"requires(?: \w+)? \{ (.*)", text):
            for fact in re.findall(r"\b[A-Z]\w+ [a-z_][\w. ]*\w", m.group(1)):
                where[re.sub(r"\.(?:old|new)\b", ".now", fact)].append((name, line_of(text, m.start())))
        for m in re.finditer(r"fn \w+[^{]*?\(([^)]*)\)", text):
            types = [re.sub(r"\s+", " ", p.strip()) for p in m.group(1).split(",")]
            for a, b in zip(types, types[1:]):
                if "&" in a and "&" in b and "self" not in a:
                    where[f"{a}, {b}"].append((name, line_of(text, m.start())))
    return {fact: places for fact, places in where.items() if len(places) >= 3}


def choices(text):
    """Tables of functions, and switches on which step to run."""
    for m in re.finditer(r"\bfn\(|\bdyn \w", text):
        yield m.start(), m.group()


def main():
    words = sys.argv[1:]
    verbose = "-v" in words
    words = [w for w in words if w != "-v"]
    commit = words[0] if words else None
    files = [(name, code(text)) for name, text in sources(commit)]
    tests = [("1a own enums of few cases that hold something", enums), ("1b numbers for no value", marks), ("1c numbers for kinds", kinds),
             ("2 twins", twins), ("3 loops that count", loops), ("3 other while and loop", other_loops),
             ("4 equality and conversions by hand", conversions), ("6 memory with its fill beside, and rows found by numbers", buffers), ("7 tables of functions", choices)]
    for title, test in tests:
        found = [(name, line_of(text, at), what) for name, text in files for at, what in test(text)]
        print(f"{len(found):4}  {title}")
        if verbose:
            for name, line, what in found:
                print(f"        {name}:{line}: {what}")
    repeated = facts(files)
    print(f"{len(repeated):4}  5 facts and parameters in three contracts or more, in {sum(map(len, repeated.values()))} places")
    if verbose:
        for fact, places in sorted(repeated.items(), key=lambda it: -len(it[1])):
            print(f"        {len(places):3} {fact}")


main()
