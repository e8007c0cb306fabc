#!/usr/bin/env python3
"""Brings the repository's own names to today's spelling: words in snake case, where they were in camel case or joined by dashes.

usage: python3 tools/respell.py            at the top of the repository, once, behind the kit's port.py

A name is taken where specs/ or a file of lemmas of proofs/ declares it. It is turned in every file of specs/, proofs/ and must-fail/, in the clauses of
src/, and in the documents. Functions of src/ and their folders in proofs/, what the kit makes and libraries' names keep their spelling. Where two names
would fall together, the definition has the name, a lemma ends in _lem and a constructor in _case; these are printed.
"""
import os
import re

WORD = re.compile(r"[^\s(){}\[\];,.:\"`@|λ\\]+")
DECLARED = re.compile(
    r"^\s*(?:[{;(]\s*)?(?:(?:abbrev|unfoldable|mutual|pub|record|data|module|private|opaque)\s+)*((?:[A-Za-z][\w'-]*\s+)*[A-Za-z][\w'-]*)\s*(?:\([^)]*\)\s*|\{[^}]*\}\s*)*:(?!=)"
)
HOLDS_IN = re.compile(r"[{;(]\s*(?:pub\s+)?([A-Za-z][\w'-]*)\s*:(?!=)")


def files(root):
    for folder, dirs, names in os.walk(root):
        dirs[:] = sorted(d for d in dirs if d not in ("out", ".git", "target"))
        for name in sorted(names):
            yield os.path.join(folder, name)


def of_function(path):
    return re.search(r"/proofs/[^/]+/", path) is not None and "/proofs/+" not in path or "/proofs/+" in path


def respelled(name):
    parts = [re.sub(r"(?<=[a-z0-9])([A-Z])", r"_\1", p).lower() if p[:1].islower() else p for p in name.split("-")]
    return "_".join(parts)


def collect():
    found, in_specs, fields = set(), set(), set()
    for path in files("crates"):
        if not path.endswith(".antt") or "/must-fail/" in path or of_function(path):
            continue
        for line in open(path, encoding="utf-8"):
            text = line.split("--")[0]
            m = DECLARED.match(text)
            names = m[1].split() if m else []
            names = [n for n in names if n not in ("abbrev", "unfoldable", "mutual", "pub", "record", "data", "module", "use", "where")]
            inner = HOLDS_IN.findall(text)
            for n in names + inner:
                found.add(n)
                if "/specs/" in path:
                    in_specs.add(n)
                if re.match(r"\s*pub [\w' -]+:", text) and line.startswith(" "):
                    fields.add(n)
    old = {n for n in found if n[0].islower() and ("-" in n.strip("-") or re.search(r"[a-z0-9][A-Z]", n))}
    return found, in_specs, old, fields


def main():
    found, in_specs, old, fields = collect()
    new = {n: respelled(n) for n in old}
    back = {}
    for n, to in new.items():
        back.setdefault(to, []).append(n)
    kept = {}
    # a definition has its name; a lemma of the same name ends in _lem, and a constructor in _case
    for to, ns in back.items():
        others = ns + ([to] if to in found else [])
        if len(others) > 1:
            first = min(others, key=lambda n: (n not in in_specs or "-" in n, "-" in n or n == to, n))
            for n in others:
                if n != first:
                    new[n] = to + ("_case" if n in in_specs else "_lem")
                    print(f"{n} is {new[n]}, since {first} is {to}")
            if first == to:
                new.pop(to, None)
    # a name of a library, imported beside it
    for path in files("crates"):
        if path.endswith(".antt"):
            text = open(path, encoding="utf-8").read()
            words = set(WORD.findall(text))
            for m in re.finditer(r"^use ([^\n{]*)\.\{([^}]*)\}", text, re.M):
                if not m[1].startswith("Rattle.") or m[1].startswith("Rattle.std"):
                    for n in re.split(r",\s*", m[2]):
                        for o in back.get(n.strip(), []):
                            if o in words:
                                kept[o] = f"{path} imports {n.strip()}"
    for n in kept:
        new.pop(n, None)
    for path in files("."):
        turn(path, new, fields)
    for n in sorted(kept):
        print(f"kept: {n}: {kept[n]}")
    print(f"{len(new)} names turned, {len(kept)} kept")


def turn(path, new, fields):
    if path.startswith("./tools/") or path.endswith("PORT.md"):
        return
    text = None
    if path.endswith((".antt", ".edit", ".rt", ".md", ".py")):
        text = open(path, encoding="utf-8").read()
    if text is None:
        return
    if path.endswith(".antt"):
        out = "".join(antt(line, new, fields, of_function(path)) for line in text.splitlines(keepends=True))
    elif path.endswith(".edit"):
        of_rt = re.search(r"(?m)^file: .*\.rt", text)
        out = "".join(
            (word(line, {k: v for k, v in new.items() if "-" not in k} if of_rt else new, fields, False) if line.startswith(("old:", "new:")) else comment(line, new)) for line in text.splitlines(keepends=True)
        )
    elif path.endswith(".rt"):
        camel = {k: v for k, v in new.items() if "-" not in k}
        out = "".join(word(line, camel, fields, False) for line in text.splitlines(keepends=True))
    else:
        out = comment(text, new)
    if out != text:
        open(path, "w", encoding="utf-8").write(out)


def comment(text, new):
    """In prose: what stands in backticks, and names in camel case."""
    text = re.sub(r"`[^`\n]*`", lambda m: word(m[0], new, set(), False), text)
    return word(text, {k: v for k, v in new.items() if "-" not in k}, set(), False)


def antt(line, new, fields, of_function):
    code, dash, said = line.partition("--")
    if dash and not re.search(r"(^|\s)$", code):
        code, dash, said = line, "", ""
    code = word(code, new, fields, of_function)
    if dash:
        if re.match(r"\s{2,}", said):
            names, gap, rest = re.match(r"(\s+\S+(?:, \S+)*)(\s*)(.*)", said, re.S).groups() if said.strip() else (said, "", "")
            turned = word(names, new, fields, False)
            said = turned + gap + comment(rest, new)
        else:
            said = comment(said, new)
    return code + dash + said


def word(text, new, fields, of_function):
    out, last = [], 0
    for m in WORD.finditer(text):
        w = m[0]
        if w not in new:
            continue
        before = text[: m.start()]
        if of_function and before.endswith("."):
            root = re.search(r"([^\s(){}\[\];,:\"`@|λ\\]+)\.$", before)
            head = root[1].split(".")[0] if root else ""
            if (len(head) == 1 or head in ("goal", "tie", "")) and w not in fields:
                continue
        out.append(text[last : m.start()])
        out.append(new[w])
        last = m.end()
    out.append(text[last:])
    return "".join(out)


if __name__ == "__main__":
    main()
