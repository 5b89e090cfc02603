#!/usr/bin/env python3
"""Holds the pages against the program and the sources. In a block of README.md or docs/, each line `$ COMMAND` is run at the top of the
repository, and what it writes must be the lines that follow, up to the next command or the end of the block. A page may set several of
these lines on one, with `; ` between them, and after three spaces or more say what they mean. A block of definitions, marked `antt`, must
stand in a source file, but for its indents."""
import pathlib
import re
import subprocess
import sys

TOP = pathlib.Path(__file__).resolve().parent.parent


def commands(page):
    """The commands of a page with the lines that follow each."""
    for block in re.findall(r"^```\n(.*?)^```", page.read_text(encoding="utf-8"), re.M | re.S):
        if block.startswith("$ "):
            for part in re.split(r"^\$ ", block, flags=re.M)[1:]:
                command, _, text = part.partition("\n")
                yield command, text


def unfolded(text):
    """A text of a page without what it says beside its lines, and with each line on one of its own."""
    lines = [re.sub(r"(?<=\S) {3,}\S.*", "", line) for line in text.splitlines()]
    return "".join(f"{part}\n" for line in lines for part in line.split("; "))


def definitions(page):
    """The blocks of definitions of a page."""
    return re.findall(r"^```antt\n(.*?)^```", page.read_text(encoding="utf-8"), re.M | re.S)


def flat(text):
    """A text with one space between its words."""
    return " ".join(text.split())


def sources():
    """The sources of all crates, each flat."""
    files = [file for file in (TOP / "crates").rglob("*") if file.suffix in (".antt", ".rt") and "out" not in file.parts]
    return [flat(file.read_text(encoding="utf-8")) for file in files]


def main():
    passed, failed, texts = 0, 0, sources()
    for page in [TOP / "README.md", *sorted((TOP / "docs").glob("*.md"))]:
        for command, text in commands(page):
            done = subprocess.run(["bash", "-c", command], cwd=TOP, capture_output=True, text=True, check=False)
            if done.stdout in (text, unfolded(text)) and not done.stderr:
                passed += 1
            else:
                failed += 1
                print(f"FAILED: {page.name}: {command}\n{done.stdout}{done.stderr}")
        for block in definitions(page):
            if any(flat(block) in text for text in texts):
                passed += 1
            else:
                failed += 1
                print(f"FAILED: {page.name}: no source has\n{block}")
    print(f"{passed} commands and definitions of the pages passed, {failed} failed")
    sys.exit(failed > 0)


main()
