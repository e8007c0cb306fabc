#!/usr/bin/env python3
"""Holds the documents to the code.

    python3 docs/check.py      from the project's root; counts what passed and failed in its last line

Runs the scripts that know the list of files to believe, the table of promises and the picture of the layers; and looks whether each file that
a document names is there, each theorem in its file, and each that a row cites in the table of theorems.
"""
import glob
import os
import re
import subprocess
import sys

SCRIPTS = [["docs/counts.py"], ["docs/promises.py"], ["docs/layers.py", "--check"]]


def script(words):
    run = subprocess.run([sys.executable, *words], capture_output=True, text=True)
    return f"{run.stdout}{run.stderr}exit status {run.returncode}" if run.returncode else ""


def read(path):
    return open(path, encoding="utf-8").read()


def files():
    """The files that documents name and that are not there. Files of crates are named from crates/ on. docs/PORT.md and
    docs/DESIGN-PASS.md speak of former files, too."""
    missing = ""
    for document in ["README.md"] + sorted(set(glob.glob("docs/*.md")) - {"docs/PORT.md", "docs/DESIGN-PASS.md"}):
        for name in re.findall(r"`(\w+/[\w./+]+)`", read(document)):
            places = [name, f"crates/{name}", f"crates/{name}.edit", "crates/" + name.replace("/", "/must-fail/", 1) + ".edit"]
            if not name.startswith(("target/", "src/")) and not any(map(os.path.exists, places)):
                missing += f"{document}: {name}\n"
    return missing


def theorems():
    """The theorems of docs/CLAIMS.md that are not in the file, or the folder, that stands beside them."""
    missing = ""
    for names, places in re.findall(r"^\| (`.*?`) \| (`.*?`) \|", read("docs/CLAIMS.md").split("\n## Theorems\n")[1], re.M):
        folder, text = "", ""
        for place in re.findall(r"`([\w./]+)`", places):
            path = f"crates/{place}" if "/" in place else f"{folder}/{place}"
            folder = os.path.dirname(path)
            text += "".join(map(read, glob.glob(f"{path}/*.antt") if os.path.isdir(path) else [path]))
        for name in re.findall(r"`([\w']+)`", names):
            if not re.search(rf"^\s*(?:pub )?{name} :", text, re.M):
                missing += f"{name}: not in {places}\n"
    return missing


def declared(folder):
    """The public names that the files of every crate's folder declare."""
    found = [re.findall(r"^\s*(?:\w+ )*pub ([\w']+) :", read(path), re.M) for path in glob.glob(f"crates/*/{folder}/*.antt")]
    return set(sum(found, []))


def written():
    """The words of definitions and code, and the names of edits."""
    words = [re.findall(r"[\w']+", read(path)) for path in glob.glob("crates/*/specs/*.antt") + glob.glob("crates/*/src/*.rt")]
    return set(sum(words, [os.path.basename(path)[:-5] for path in glob.glob("crates/*/must-fail/*.edit")]))


def cited(text):
    """The rows of a document, without the last column under the two headings where it names edits."""
    for section in re.split(r"^## ", text, flags=re.M):
        has_edits = section.startswith(("Public promises\n", "Definitions\n"))
        for row in re.findall(r"^\|.*", section, re.M):
            yield row.strip("| ").rpartition(" | ")[0] if has_edits else row


def citations():
    """The theorems that a row of docs/CLAIMS.md or docs/READING.md cites and the table of theorems does not list. A theorem is declared in proofs
    and is no definition's name; so is a name with an underscore that no definition, code or edit has."""
    claims, table = read("docs/CLAIMS.md").split("\n## Theorems\n")
    listed = set(re.findall(r"`([\w']+)`", " ".join(re.findall(r"^\| (`.*?`) \|", table, re.M))))
    laws, names = declared("proofs") - declared("specs"), written()
    missing = ""
    for document, text in [("docs/CLAIMS.md", claims), ("docs/READING.md", read("docs/READING.md"))]:
        for name in sorted(set(re.findall(r"`([a-z][\w']*)`", " ".join(cited(text)))) - listed):
            if name in laws or "_" in name and name not in names:
                missing += f"{document}: {name} is not in the table of theorems\n"
    return missing


def main():
    checks = [(" ".join(words), script(words)) for words in SCRIPTS] + [("files", files()), ("theorems", theorems() + citations())]
    failed = [f"{name}:\n{said}" for name, said in checks if said]
    print("\n".join(failed + [f"{len(checks) - len(failed)} passed, {len(failed)} failed"]))
    sys.exit(bool(failed))


main()
