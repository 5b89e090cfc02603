#!/usr/bin/env python3
"""Looks for definitions and lemmas that nothing reaches: from the contracts and the code, and from the answers and invariants of functions,
over what each names. Definitions are known by their names alone, so one that shares its name with another may be passed over. The
status is 1 where there is one."""
import collections
import pathlib
import re
import sys

TOP = pathlib.Path(__file__).resolve().parent.parent
WORD = re.compile(r"[^\W\d][\w'×≤≢-]*")
HEAD = re.compile(r"^(\s*)(?:(?:abbrev|unfoldable|pub|record|data)\s+)*([^\W\d][\w'×≤≢-]*)(?:\s*[({].*?[)}])*\s*:\s")
# The first line of a record whose type stands on the next one.
RECORD = re.compile(r"^(\s*)(?:pub )?record ([^\W\d][\w'×≤≢-]*)")
# A list of lemmas for the prover to try.
RULESET = re.compile(r"^(\s*)(?:pub )?ruleset ([^\W\d][\w'×≤≢-]*) =")
# Files that answer goals of functions: what they name is reached.
ANSWERING = ("Answers.antt", "Invariants.antt", "Proof.antt")


def without_comments(line):
    return re.sub(r"(^|\s)--(\s.*)?$", "", line)


def words(text):
    return set(WORD.findall(text))


def blocks(file):
    """The definitions of a file: each name with the words of its block, which ends at the next definition of the same depth or less."""
    name, depth, held = None, 0, []
    for line in map(without_comments, file.read_text(encoding="utf-8").splitlines()):
        if re.match(r"\s*(pub )?(use|mod|unfolding) ", line):
            continue
        found = HEAD.match(line) or RECORD.match(line) or RULESET.match(line)
        opens = re.match(r"\s*module ", line)
        indent = len(line) - len(line.lstrip())
        if opens or found and (name is None or indent <= depth) and found[2] not in ("let", "in"):
            if name:
                yield name, held
            name, depth, held = (None, indent, []) if opens else (found[2], indent, [])
            if opens:
                depth = indent + 2
        held.append(line)
    if name:
        yield name, held


def main():
    named, reached, places = collections.defaultdict(set), set(), {}
    for file in sorted((TOP / "crates").rglob("*")):
        if "out" in file.parts or file.suffix not in (".antt", ".rt"):
            continue
        if file.suffix == ".rt":
            reached |= words(re.sub(r"//.*", "", file.read_text(encoding="utf-8")))
        elif file.name in ANSWERING or file.name.startswith(("Send", "Sync")):
            reached |= words(file.read_text(encoding="utf-8"))
        else:
            for name, held in blocks(file):
                named[name] |= words("\n".join(held)) - {name}
                places.setdefault(name, file.relative_to(TOP))
    waiting = [name for name in named if name in reached]
    while waiting:
        for name in named[waiting.pop()] - reached:
            reached.add(name)
            if name in named:
                waiting.append(name)
    lost = sorted((str(places[name]), name) for name in named if name not in reached)
    for place, name in lost:
        print(f"{place}: nothing reaches {name}")
    print(f"{len(named)} names of definitions, {len(lost)} unreached")
    sys.exit(bool(lost))


main()
