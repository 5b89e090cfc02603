#!/usr/bin/env python3
"""Measures the built program against the plain one: measure.py PROGRAM PLAIN FOLDER [--quick] [--table FILE] [NAME ..]

For each document and command the texts and statuses are compared first; then both programs run in turn, output to /dev/null. The table has the
least wall time, the least processor time and the peak memory of each, and the ratios. What it does is printed on standard error while it does
it; the table goes to standard output and, with --table, between the marks of that file. The status is 1 where an answer differs. A program
that is stopped after 20 s of processor time, or that has no memory below 4 GiB, differs too, and has a row that says so. A command that the program does not know yet (status 2) is left out."""
import hashlib
import os
import subprocess
import sys
import time

import documents

RUNS = 9
QUICK_RUNS = 3
LONGEST = 20
MEMORY = 4 << 20
MARKS = ("<!-- table of bench/run.sh -->\n", "<!-- end of the table -->\n")


def tell(text):
    print(text, file=sys.stderr, flush=True)


def limited(words):
    """The words, with a limit for memory in KiB and for time in seconds."""
    return ["/bin/bash", "-c", f'ulimit -v {MEMORY} -t {LONGEST}; exec "$@"', "bash", *words]


def answer(words, document):
    """The number of bytes and of lines of the text, its hash, and the status."""
    with open(document, "rb") as source:
        process = subprocess.Popen(limited(words), stdin=source, stdout=subprocess.PIPE)
    text, size, lines = hashlib.blake2b(), 0, 0
    while piece := process.stdout.read(1 << 20):
        text.update(piece)
        size += len(piece)
        lines += piece.count(b"\n")
    return size, lines, text.hexdigest(), process.wait()


def once(words, document):
    """Wall time and processor time of one run."""
    with open(document, "rb") as source, open(os.devnull, "wb") as sink:
        actions = [(os.POSIX_SPAWN_DUP2, source.fileno(), 0), (os.POSIX_SPAWN_DUP2, sink.fileno(), 1)]
        start = time.perf_counter()
        child = os.posix_spawn(words[0], words, os.environ, file_actions=actions)
        used = os.wait4(child, 0)[2]
        return time.perf_counter() - start, used.ru_utime + used.ru_stime


def peak(words, document):
    """The peak memory in KiB, by GNU time, which is small itself: what a child shares with its parent before it starts counts for it too."""
    with open(document, "rb") as source:
        timed = ["/usr/bin/time", "-q", "-f", "%M", *words]
        done = subprocess.run(timed, stdin=source, stdout=subprocess.DEVNULL, stderr=subprocess.PIPE, text=True)
    return int(done.stderr.split()[-1])


def milliseconds(seconds):
    return f"{seconds * 1000:.1f}"


def least(words, document, runs):
    found = [once(words, document) for _ in range(runs)]
    return min(run[0] for run in found), min(run[1] for run in found)


def refused(name, command, answers, plain, document, runs):
    """The row of a program that was stopped or that had no memory, beside the plain one's numbers. None for every other difference."""
    status = answers[0][3]
    if status < 0 or status > 128:
        reason = f"> {LONGEST * 1000:,}"
    elif status == 1:
        reason = "no memory"
    else:
        return None
    wall, used = least(plain, document, runs)
    memory = f"{peak(plain, document) / 1024:.1f}"
    row = [name, command, f"{answers[1][1]:,}", reason, milliseconds(wall), "", reason, milliseconds(used), "", "", memory, ""]
    return row


def measure(name, command, programs, document, runs):
    """A row of the table, or None where the answers differ, and whether all is well."""
    words = [[program, *command.split()] for program in programs]
    tell(f"{name}, {command}: comparing the answers")
    answers = [answer(one, document) for one in words]
    if answers[0] != answers[1]:
        for one, (size, lines, text, status) in zip(words, answers):
            tell(f"DIFFERENT: {name}: {' '.join(one)}: {lines} lines, {size} bytes, hash {text[:16]}, status {status}")
        return refused(name, command, answers, words[1], document, runs), False
    tell(f"{name}, {command}: {answers[0][1]} lines, status {answers[0][3]}; measuring")
    found = [[], []]
    for _ in range(runs):
        for which, one in enumerate(words):
            found[which].append(once(one, document))
    walls = [min(run[0] for run in part) for part in found]
    used = [min(run[1] for run in part) for part in found]
    peaks = [max(peak(one, document) for _ in range(min(runs, 3))) for one in words]
    ratio = walls[0] / walls[1]
    processor_ratio = used[0] / max(used[1], 0.0001)
    memory_ratio = peaks[0] / peaks[1]
    row = [name, command, f"{answers[0][1]:,}", milliseconds(walls[0]), milliseconds(walls[1]), f"{ratio:.2f}"]
    row += [milliseconds(used[0]), milliseconds(used[1]), f"{processor_ratio:.2f}"]
    row += [f"{peaks[0] / 1024:.1f}", f"{peaks[1] / 1024:.1f}", f"{memory_ratio:.2f}"]
    tell(f"{name}, {command}: {ratio:.2f} times as long, {processor_ratio:.2f} times the processor time, {memory_ratio:.2f} times the memory")
    return row, True


def write_table(path, text):
    with open(path, encoding="utf-8") as file:
        page = file.read()
    before, rest = page.split(MARKS[0])
    after = rest.split(MARKS[1])[1]
    with open(path, "w", encoding="utf-8") as file:
        file.write(before + MARKS[0] + text + MARKS[1] + after)


def options(words):
    quick = "--quick" in words
    table = words[words.index("--table") + 1] if "--table" in words else None
    names = [word for word in words if not word.startswith("--") and word != table]
    return quick, table, names


def main():
    program, plain, folder, *rest = sys.argv[1:]
    quick, table, names = options(rest)
    tell("writing the documents")
    work = [(name, command) for name, commands in documents.write(folder).items() for command in commands]
    work.append(("bulk", "bulk 30"))
    with open(os.path.join(folder, "bulk"), "wb"):
        pass
    known = {name for name, _ in work}
    for name in names:
        if name not in known:
            sys.exit(f"measure.py: no document has the name {name}")
    head = ["document", "command", "lines", "ms", "plain ms", "ratio", "processor ms", "plain", "ratio", "MiB", "plain", "ratio"]
    rows, faults, unknown = [], 0, {}
    for name, command in work:
        if names and name not in names:
            continue
        if command not in unknown:
            nothing = os.path.join(folder, "bulk")
            unknown[command] = answer([program, *command.split()], nothing)[3] == 2
            if unknown[command]:
                tell(f"left out: {command}, which the program does not know")
        if unknown[command]:
            continue
        row, well = measure(name, command, (program, plain), os.path.join(folder, name), QUICK_RUNS if quick else RUNS)
        faults += not well
        if row is not None:
            rows.append(row)
    lines = ["| " + " | ".join(row) + " |" for row in [head, ["---"] * 2 + ["---:"] * 10, *rows]]
    text = "\n".join(lines) + "\n"
    print(text, end="")
    if table:
        write_table(table, text)
    if faults or not rows:
        sys.exit(f"{faults} answers differ, {len(rows)} were measured")


main()
