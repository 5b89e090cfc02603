#!/usr/bin/env python3
"""Gives hostile input to the built program, and compares text and status with tables that were found by hand from docs/FORMAT.md:
tables.py PROGRAM. A document is cut at each byte; one of its lines is replaced. The status is 1 where an answer differs."""
import subprocess
import sys

DOCUMENT = b"""osektime 1
round 10
mode m
task A 8
work 3
end
at 0 m activate A 5 stringent
start m
rounds 1
"""

# By the number of bytes left of the document: the rule that is broken, and its line. Each other cut is one within a line.
CUT_AFTER_A_LINE = {
    0: (1, 1),
    11: (4, 1),
    20: (8, 1),
    27: (25, 1),
    36: (2, 4),
    43: (2, 5),
    47: (25, 1),
    77: (25, 1),
    85: (26, 1),
}

# What stands in place of the line `work 3`, the answer, and its status.
REPLACED = [
    (b"repeat 65535\n" * 3 + b"work 1\n" + b"end\n" * 3, "rule 17 line 4", 7),
    (b"repeat 1\n" * 5 + b"work 1\n" + b"end\n" * 5, "rule 3 line 9", 7),
    (b"work 0\n", "rule 9 line 5", 7),
    (b"work 10000001\n", "rule 9 line 5", 7),
    (b"set x + 1\n", "form line 5 row", 6),
    (b"out " + b"+ " * 97 + b"1\n", "form line 5 row", 6),
    (b"#" * 201 + b"\n", "form line 5 long", 6),
    (b"work 3\xff\n", "form line 5 byte", 6),
    (b"work 3\r\n", "form line 5 byte", 6),
    (b"work 3\x00\n", "form line 5 byte", 6),
    (b"\xff" * 201 + b"\n", "form line 5 byte", 6),
    (b"work\t3\n", "form line 5 byte", 6),
    (b"work 03\n", "form line 5 row", 6),
    (b"work -3\n", "form line 5 row", 6),
    (b"work 3 3\n", "form line 5 row", 6),
    (b"task " + b"A" * 17 + b" 8\n", "form line 5 row", 6),
    (b"Work 3\n", "form line 5 row", 6),
]


def answers(program, name, document, text, status):
    """Whether the program writes this line for the document, with this status and without a message."""
    done = subprocess.run([program, "trace"], input=document, capture_output=True, check=False)
    if (done.stdout, done.returncode, done.stderr) == (text.encode() + b"\n", status, b""):
        return True
    print(f"FAILED: {name}: status {done.returncode}, wanted {status}: {done.stdout[:200]!r}, wanted {text!r}")
    return False


def cases():
    for length in range(len(DOCUMENT)):
        front = DOCUMENT[:length]
        if length in CUT_AFTER_A_LINE:
            rule, line = CUT_AFTER_A_LINE[length]
            yield f"the first {length} bytes", front, f"rule {rule} line {line}", 7
        else:
            yield f"the first {length} bytes", front, f"form line {front.count(10) + 1} cut", 6
    for line, text, status in REPLACED:
        yield f"the line {line[:40]!r}", DOCUMENT.replace(b"work 3\n", line), text, status


def main():
    results = [answers(sys.argv[1], *case) for case in cases()]
    print(f"{results.count(True)} hostile documents passed, {results.count(False)} failed")
    sys.exit(not all(results))


if __name__ == "__main__":
    main()
