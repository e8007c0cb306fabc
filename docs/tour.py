#!/usr/bin/env python3
"""Runs every command of docs/TOUR.md, word for word, and looks for what the tour says that they print.

    python3 docs/tour.py      from the project's root

An indented block is commands, or what the commands before it print. A block of commands begins with one of the words below. Commands of
the first block, which prove the engine and build the programs, are run too. Commands that end as below, and the conflict, must fail.
"""
import re
import subprocess
import sys

COMMANDS = ("bash", "cargo", "export", "cat", "text", "sed", "cc", "scanner")
FAILS = ("text judge target/wrong.book\n", "text judge target/wrong.rules\n", "text check target/speed.rules\n")
CONFLICT = "text evaluate target/speed.rules film shrunken=yes nitrate=yes\n"


def blocks(text):
    """The indented blocks, without their indentation."""
    found = re.findall(r"(?:(?<=\n\n)|\A)((?:    .*\n|\n(?=    ))+)", text)
    return [re.sub(r"(?m)^    ", "", block) for block in found]


def commands(block):
    """The commands of a block, one a line but for a text that is typed in."""
    return re.findall(r"^cat > .* <<'RULES'\n(?:.*\n)*?RULES\n|^.+\n", block, re.M)


def main():
    text = open("docs/TOUR.md", encoding="utf-8").read()
    setting, printed, passed, failed, ran = "", "", 0, [], []
    for block in blocks(text):
        if not block.startswith(COMMANDS):
            ok = block in printed
            passed += ok
            failed += [] if ok else [f"not printed:\n{block}"]
            continue
        for command in commands(block):
            if command.startswith("export"):
                setting = command
                continue
            run = subprocess.run(["bash", "-c", setting + command], capture_output=True, text=True)
            fails = command.endswith(FAILS) or (command == CONFLICT and command not in ran)
            ran += [command]
            printed += run.stdout
            ok = (run.returncode == 0) != fails
            passed += ok
            failed += [] if ok else [f"{command}{run.stdout}{run.stderr}"]
    for word in re.findall(r"prints `([^`]+)`", text):
        passed += f"\n{word}\n" in "\n" + printed
        failed += [] if f"\n{word}\n" in "\n" + printed else [f"not printed: {word}"]
    print("\n".join(failed + [f"{passed} passed, {len(failed)} failed"]))
    sys.exit(bool(failed))


main()
