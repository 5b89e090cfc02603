#!/usr/bin/env python3
"""Gives the built program documents of 2^20 bytes and the longest trace, with memory to spare, and compares the whole text and the status
with those that docs/FORMAT.md and docs/BEHAVIOUR.md give for them: large.py PROGRAM. An answer "out of memory" is no refusal that a proof
excludes, so it is excluded here. The status is 1 where an answer differs."""
import subprocess
import sys

sys.dont_write_bytecode = True
from tables import DOCUMENT  # noqa: E402

MOST_BYTES = 2**20
MODES = range(6)
OFFSETS = range(0, 8192, 2)

LONGEST = DOCUMENT.decode().replace("rounds 1\n", "rounds 100000\n")


def filled(document):
    """The document with comment lines after it, up to the most bytes."""
    left = MOST_BYTES - len(document)
    whole, rest = divmod(left, 200)
    lines = ["#" * 199 + "\n"] * whole + (["#" * (rest - 1) + "\n"] if rest else [])
    return document + "".join(lines)


def many_rows():
    """Six modes of 4,096 activations, each of which takes the one tick up to its deadline."""
    rows = [f"at {offset} m{mode} activate A {offset + 1} stringent\n" for mode in MODES for offset in OFFSETS]
    modes = "".join(f"mode m{mode}\n" for mode in MODES)
    return filled("osektime 1\nround 8192\n" + modes + "task A 8\nwork 1\nend\n" + "".join(rows) + "start m0\nrounds 1\n")


def table_of_many_rows():
    for mode in MODES:
        yield f"mode m{mode}"
        for offset in OFFSETS:
            yield f"{offset} activate A {offset + 1} stringent"
            yield f"{offset + 1} check A"


def check_of_many_rows():
    for mode in MODES:
        for offset in OFFSETS:
            yield f"m{mode} {offset} A response {offset + 1} deadline {offset + 1}"
    yield "bounds kept"
    yield "check yes"


def load_of_many_rows():
    events = 3 + 5 * len(OFFSETS)
    yield from ("ticks 8192", "rounds 1", f"events {events}", f"activations {len(OFFSETS)}")
    yield from ("depth 1 of 1", "words 8 of 8", "end last round")


def trace_of_many_rows():
    yield from ("0 os start m0", "0 round 1 m0")
    for offset in OFFSETS:
        yield from (f"{offset} activate A", f"{offset} run A")
        yield from (f"{offset + 1} end A", f"{offset + 1} check A met", f"{offset + 1} run idle")
    yield "8192 stop"


def longest_trace():
    yield "0 os start m"
    for number in range(100_000):
        start = 10 * number
        yield from (f"{start} round {number + 1} m", f"{start} activate A", f"{start} run A")
        yield from (f"{start + 3} end A", f"{start + 3} run idle", f"{start + 5} check A met")
    yield "1000000 stop"


def cases():
    ends = "end\n" * 2**18
    yield "show of 2^18 rows", "show", ends, ends
    rows = many_rows()
    for command, lines in (
        ("table", table_of_many_rows()),
        ("check", check_of_many_rows()),
        ("load", load_of_many_rows()),
        ("trace", trace_of_many_rows()),
    ):
        yield f"{command} of 2^20 bytes", command, rows, "\n".join(lines) + "\n"
    yield "the trace of 100,000 rounds", "trace", LONGEST, "\n".join(longest_trace()) + "\n"


def answers(program, name, command, document, text):
    """Whether the program writes this text for the document, with the status 0 and without a message."""
    done = subprocess.run([program, command], input=document.encode(), capture_output=True, check=False)
    if (done.stdout, done.returncode, done.stderr) == (text.encode(), 0, b""):
        return True
    print(f"FAILED: {name}: status {done.returncode}, {len(done.stdout)} bytes in place of {len(text)}")
    return False


def main():
    results = [answers(sys.argv[1], *case) for case in cases()]
    print(f"{results.count(True)} large documents passed, {results.count(False)} failed")
    sys.exit(not all(results))


main()
