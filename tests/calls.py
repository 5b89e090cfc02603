#!/usr/bin/env python3
"""Lists the public calls of each crate with what each says of itself and the clauses that carry it: docs/CALLS.md. `calls.py --write` writes
that page; without it the page is compared, and the status is 1 where it is not that of the sources."""
import pathlib
import re
import sys

TOP = pathlib.Path(__file__).resolve().parent.parent
PAGE = TOP / "docs" / "CALLS.md"
HEAD = """# Public calls

Each public call of each crate, in the order of crates.txt: what it does, in the first sentence of its comment, and the clauses of its
contract by name. A call with one clause that needs no name has *its value* in that column. Every call is safe and returns, whatever it is
given that meets its conditions (the names after "where"); that is no clause, the check itself shows it. What a clause says stands beside
the call in `crates/NAME/src`, in the words of `crates/NAME/specs`. `python3 tests/calls.py --write` writes this page.
"""
NAMED = r"(?:pub )?(?:const )?fn (\w+)"


def crates():
    """The names of the crates in their order."""
    for line in (TOP / "crates.txt").read_text(encoding="utf-8").splitlines():
        if line and not line.startswith("#"):
            yield line.split(":")[0].split()[0]


def exported(crate):
    """The names that the crate gives away, and its public modules."""
    root = TOP / "crates" / crate / "src" / "lib.rt"
    text = root.read_text(encoding="utf-8") if root.exists() else ""
    names = set()
    for group in re.findall(r"^pub use \w+(?:::\w+)*::(?:\{([^}]*)\}|(?=\w))", text, re.M):
        names.update(word.strip() for word in group.split(","))
    names.update(re.findall(r"^pub use \w+(?:::\w+)*::(\w+);", text, re.M))
    return names, set(re.findall(r"^pub mod (\w+);", text, re.M))


def clauses(head, word):
    """The names of the clauses of this kind in the head of a call; an empty one stands for a clause without a name."""
    return [name for name in re.findall(rf"^\s*{word}(?: (\w+))? \{{", head, re.M)]


def calls(crate):
    """Each public call of a crate: its name, its sentence, its conditions and its clauses."""
    names, modules = exported(crate)
    for file in sorted((TOP / "crates" / crate / "src").glob("*.rt")):
        owner, comment, lines = "", [], file.read_text(encoding="utf-8").splitlines()
        for at, line in enumerate(lines):
            if found := re.match(r"(?:impl|pub trait)(?:<[^>]*>)? (?:(\w+)(?:<.*?>)? for )?(\w+)", line):
                owner = found[2] if not found[1] else f"{found[2]} as {found[1]}"
            elif line == "}":
                owner = ""
            stripped = line.strip()
            if stripped.startswith("///"):
                comment.append(stripped[3:].strip())
                continue
            found = re.match(rf"\s*{NAMED}", line)
            of_trait = owner and re.match(r"\s+fn ", line) and re.search(rf"^pub trait {owner}\b", "\n".join(lines), re.M)
            if found and (line.lstrip().startswith("pub fn") or of_trait):
                public = owner.split(" ")[0] in names if owner else found[1] in names or file.stem in modules
                if public:
                    yield call(owner, found[1], comment, lines, at)
            if not stripped.startswith("#["):
                comment = []


def call(owner, name, comment, lines, at):
    """One call by its lines."""
    indent = re.match(r"\s*", lines[at])[0]
    head = []
    for line in lines[at:]:
        head.append(line)
        if line == indent + "{" or line.endswith(";") and line.startswith(indent) or line == indent + "}":
            break
        if line.endswith("{}") or (line.startswith(indent) and not line.startswith(indent + " ") and line.endswith(" {")):
            break
    text = "\n".join(head)
    sentence = re.split(r"(?<=[.])\s", " ".join(comment) + " ")[0]
    shown = f"{owner}::{name}" if owner else name
    wants, gives = clauses(text, "requires"), clauses(text, "ensures")
    return shown, sentence, wants, gives


def listed(names, empty):
    return ", ".join(f"`{name}`" if name else empty for name in names)


def page():
    parts = [HEAD]
    for crate in crates():
        rows = []
        for name, sentence, wants, gives in calls(crate):
            carried = listed(gives, "its value") or "safe"
            if wants:
                carried += f"; where {listed(wants, 'its condition')}"
            rows.append(f"| `{name}` | {sentence} | {carried} |")
        if rows:
            parts.append("\n".join([f"\n## {crate}\n", "| call | what it does | clauses |", "|---|---|---|", *rows, ""]))
    return "".join(parts)


def main():
    text = page()
    if "--write" in sys.argv[1:]:
        PAGE.write_text(text, encoding="utf-8")
        return
    if not PAGE.exists() or PAGE.read_text(encoding="utf-8") != text:
        print("docs/CALLS.md is not that of the sources: python3 tests/calls.py --write")
        sys.exit(1)
    print(f"docs/CALLS.md has the {text.count(chr(10) + '| `')} public calls")


main()
