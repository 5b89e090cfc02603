#!/usr/bin/env python3
"""Follows the links of the pages: each that leads to a file of the repository must find it, and its heading where it names one. Each
document of examples/ must stand in the index. The status is 1 where one does not."""
import pathlib
import re
import sys

TOP = pathlib.Path(__file__).resolve().parent.parent


def pages():
    """All pages of the repository."""
    return [page for page in sorted(TOP.rglob("*.md")) if not {"out", ".git"} & set(page.relative_to(TOP).parts)]


def anchor(heading):
    """The name of a heading in a link."""
    words = re.sub(r"[`*]", "", heading).strip().lower()
    return re.sub(r"[^\w\- ]", "", words).replace(" ", "-")


def text_of(page):
    """A page without what stands in blocks of code."""
    return re.sub(r"^```.*?^```", "", page.read_text(encoding="utf-8"), flags=re.M | re.S)


def headings(page):
    return {anchor(found) for found in re.findall(r"^#+ (.*)$", text_of(page), re.M)}


def lost(page):
    """The links of a page that lead nowhere."""
    for target in re.findall(r"\]\(([^)\s]+)\)", text_of(page)):
        if re.match(r"[a-z]+:", target):
            continue
        path, _, name = target.partition("#")
        file = (page.parent / path).resolve() if path else page
        if not file.exists() or name and file.suffix == ".md" and name not in headings(file):
            yield target


def unnamed():
    """The documents of examples/ that the index does not name."""
    index = (TOP / "examples" / "README.md").read_text(encoding="utf-8")
    for document in sorted((TOP / "examples").rglob("*.osektime")):
        if f"({document.relative_to(TOP / 'examples')})" not in index:
            yield document.relative_to(TOP)


def main():
    faults = [f"{page.relative_to(TOP)}: {target} leads nowhere" for page in pages() for target in lost(page)]
    faults += [f"{document} is not in examples/README.md" for document in unnamed()]
    for fault in faults:
        print(fault)
    print(f"{len(pages())} pages, {len(faults)} links or documents lost")
    sys.exit(bool(faults))


main()
