#!/usr/bin/env python3
"""Lists the sentences of the specification that no definition cites and no table explains.

    python3 docs/uncited.py PAPER      from the project's root; PAPER is paper 01

A definition cites a sentence by quoting it, or a part of it, in a comment of a file below crates/*/specs or of the code: "..", where two
dots inside stand for words left out; a comment that repeats a whole sentence cites it without marks. A row of a table is a sentence.
Sentences that no definition renders stand in docs/READING.md, under the heading named below, each with why.

Ends with status 0 when nothing is left: every sentence is cited or explained, and every row of that table is about a sentence of the paper
that no definition cites.
"""
import glob
import re
import sys

EXPLAINED = "docs/READING.md"
HEADING = "## Sentences that no definition renders"
SHORT = 12

# Behind a full stop, colon, semicolon or question mark, before a capital, a quotation mark, a bracket or a digit; not inside "[ .. : 5]".
SPLIT = r"(?<=[.;?])\s+(?=[A-Z\"−(\d])|(?<=:)\s+(?=[A-Z\"−(])|(?<=\.)\s+(?=[b-m] )"


def plain(text):
    """Letters and digits only, in lower case."""
    return re.sub(r"[^a-z0-9]+", " ", text.lower()).strip()


def sentences(paper):
    """The sentences of a paper, each with the number of its line; a printed example and a few words belong to the sentence before."""
    found = []
    lines = paper.splitlines()
    printed = False
    for number, line in enumerate(lines, 1):
        line = line.strip()
        if line.startswith("```"):
            printed = not printed
        heads = line.startswith("|") and number < len(lines) and lines[number].startswith("|---")
        if printed or heads or not line or line.startswith(("#", "|---", "```")):
            continue
        parts = [line] if line.startswith("|") else re.split(SPLIT, line)
        for part in filter(plain, parts):
            if len(plain(part)) < SHORT and "[" not in part:
                number, part = found[-1][0], f"{found.pop()[1]} {part}"
            found.append((number, part))
    return found


def parts_of(quotation):
    """What a quotation quotes: its parts between words left out, too short ones not counted."""
    return {part for part in map(plain, re.split(r"\s*\.\.\s*|\[|\]", quotation)) if len(part) >= SHORT}


def quotations():
    """What the comments of definitions and code quote, and these comments themselves, each a run of comment lines."""
    parts, whole = set(), []
    for name in glob.glob("crates/*/specs/*.antt") + glob.glob("crates/*/src/*.rt"):
        text = open(name, encoding="utf-8").read()
        for run in re.findall(r"(?:^[ \t]*(?:--|//)[^\n]*\n)+", text, re.M):
            comment = " ".join(re.sub(r"^\s*(?:--|//)", "", line) for line in run.splitlines())
            whole.append(f" {plain(comment)} ")
            for quotation in re.findall(r'"([^"]+)"', comment):
                parts |= parts_of(quotation)
    return parts, whole


def explanations():
    """What the first column of the table quotes, row by row."""
    section = open(EXPLAINED, encoding="utf-8").read().split(HEADING + "\n")[1].split("\n## ")[0]
    rows = [line.split("|")[1] for line in section.splitlines() if line.startswith('| "')]
    return [(row.strip(), [parts_of(quotation) for quotation in re.findall(r'"([^"]+)"', row)]) for row in rows]


def main():
    if len(sys.argv) != 2:
        sys.exit(__doc__)
    parts, whole = quotations()
    rows = explanations()
    about = {row: 0 for row, _ in rows}
    left = 0
    for number, sentence in sentences(open(sys.argv[1], encoding="utf-8").read()):
        words = plain(sentence)
        if any(part in words or words in part for part in parts) or any(f" {words} " in comment for comment in whole):
            continue
        explained = [row for row, quoted in rows if any(some and all(part in words for part in some) for some in quoted)]
        for row in explained:
            about[row] += 1
        if not explained:
            left += 1
            print(f"{number}: {sentence}")
    for row, times in about.items():
        if not times:
            left += 1
            print(f"{EXPLAINED}: no sentence left for {row}")
    if left:
        sys.exit(f"{left} sentences or rows are left")


main()
