#!/usr/bin/env python3
"""Writes the documents that the benchmarks run on into a folder."""
import os
import sys

LIMIT = 1 << 20
MODES = "abcdefghijklmnop"
SOURCES = "ABCDEFGHIJKLMNOP"

EVERY_ROW = """osektime 1
round 10000
adjust 500
mode run
var count -17
demand filter 300 120
task Brake 128
work 200
take filter
set count + count * 3 - count 1
if <= count 50
out count
else
repeat 12
sync
end
end
switch run
shutdown
end
isr Fault 1 64
work 60
end
isr CanRx 2 64 2000
work 40
end
osek Logger 1
chain Logger
terminate
end
osek Init 2 auto
activate Logger
end
oisr Timer 1
activate Logger
end
hook error
out 1
end
hook shutdown
out 2
end
at 1700 run activate Brake 2500 stringent
at 3300 run activate Brake 4100 nonstringent
at 2500 run enable CanRx
start run
rounds 100
value filter 180
arrive CanRx 120
time 8905
"""


def every_row():
    """Every kind of row, over and over, nearly 2^20 bytes."""
    return EVERY_ROW * (LIMIT // len(EVERY_ROW))


def many_ends():
    """The most rows that a document can have."""
    return "end\n" * (LIMIT // 4)


def numbered(form, count):
    """A row for each number from 0, with the number in the place of {0}."""
    return "".join(form.format(i) for i in range(count))


def table_rows():
    """33,008 rows of the dispatcher tables of 16 modes, from the last offset to the first, the modes in turn: in each 1,500
    activations of one task, each at the deadline of the one before, and 563 enables of one source."""
    rows = ["osektime 1\nround 10000\n"]
    rows += [f"mode {mode}\n" for mode in MODES]
    rows.append("task A 8\nwork 1\nend\nisr K 1 4\nwork 1\nend\n")
    for i in reversed(range(1500)):
        rows += [f"at {6 * i} {mode} activate A {6 * i + 6} stringent\n" for mode in MODES]
    for i in reversed(range(563)):
        rows += [f"at {16 * i} {mode} enable K\n" for mode in MODES]
    rows.append("start a\nrounds 1\n")
    return "".join(rows)


def filled(head, rows, tail):
    """As many of the rows as a document has room for, the last of them first."""
    room = LIMIT - len(head) - len(tail)
    taken = []
    for row in rows:
        if len(row) > room:
            break
        room -= len(row)
        taken.append(row)
    return head + "".join(reversed(taken)) + tail


def most_rows():
    """The most rows of dispatcher tables that a document can have: 59,793 enables of 16 sources in 16 modes, from the last offset to
    the first, the modes in turn."""
    head = "osektime 1\nround 256\n" + "".join(f"mode {mode}\n" for mode in MODES)
    head += "".join(f"isr {source} {i + 1} 0\nsync\nend\n" for i, source in enumerate(SOURCES))
    rows = (f"at {offset} {mode} enable {source}\n" for offset in range(256) for source in SOURCES for mode in MODES)
    return filled(head, rows, "start a\nrounds 1\n")


def most_points():
    """27,337 activations in 16 modes, from the last offset to the first, the modes in turn. Their deadlines are not stringent, and each is
    monitored at the next activation of the mode."""
    head = "osektime 1\nround 10000\n" + "".join(f"mode {mode}\n" for mode in MODES) + "task A 8\nwork 1\nend\n"
    rows = (f"at {2 * i} {mode} activate A {2 * i + 1} nonstringent\n" for i in range(4096) for mode in MODES)
    return filled(head, rows, "start a\nrounds 1\n")


def used_names():
    """656 declared names, the most of each kind, which are used 100,000 times: 81,600 variables in expressions and 18,400 demands."""
    rows = ["osektime 1\nround 10000\n", numbered("mode m_{0:03}\n", 16), numbered("var v_{0:03} 0\n", 256), numbered("demand d_{0:03} 2 1\n", 256)]
    for task in range(64):
        rows.append(f"task t_{task:03} 8\n")
        for line in range(task, 3400, 64):
            names = [f"v_{(24 * line + i) % 256:03}" for i in range(24)]
            rows.append("out + " + " + ".join(names[:-1]) + f" {names[-1]}\n")
        rows += [f"take d_{i % 256:03}\n" for i in range(task, 18400, 64)]
        rows.append("end\n")
    rows += [f"isr i_{i:03} {i + 1} 4\nwork 1\nend\n" for i in range(16)]
    rows += [f"osek q_{i:03} {i + 1}\nwork 1\nend\n" for i in range(32)]
    rows += [f"oisr x_{i:03} {i + 1}\nwork 1\nend\n" for i in range(16)]
    rows.append("start m_015\nrounds 1\n")
    return "".join(rows)


def many_names():
    """80,000 variables of different names: all are compared by rule 7 before rule 8 refuses the 257th."""
    return "osektime 1\nround 10\nmode m\n" + numbered("var v{0:05} 0\n", 80000) + "start m\nrounds 1\n"


def deep_blocks():
    """110,000 blocks, each inside the one before: all are closed, as rule 2 asks, before rule 3 refuses the fifth."""
    return "osektime 1\nround 10\nmode m\ntask A 8\n" + "if 1\n" * 110000 + "end\n" * 110001 + "start m\nrounds 1\n"


def arrivals():
    """60,000 interrupts of 32 sources in turn."""
    sources = SOURCES + SOURCES.lower()
    rows = ["osektime 1\nround 1000000\nmode Z\n"]
    rows += [f"isr {name} {i + 1} 4\nwork 1\nend\n" for i, name in enumerate(SOURCES)]
    rows += [f"oisr {name} {i + 1}\nwork 1\nend\n" for i, name in enumerate(SOURCES.lower())]
    rows.append("start Z\nrounds 1\n")
    rows += [f"arrive {sources[i % 32]} {500 * (i // 32)}\n" for i in range(60000)]
    return "".join(rows)


def nested_blocks():
    """One body of 100,000 statements, nested four deep, which takes 100,000 ticks."""
    group = "if 1\nif 1\nrepeat 1\nif 1\nwork 1\nend\nend\nend\nend\n"
    head = "osektime 1\nround 200000\nmode m\ntask A 8\n"
    return head + group * 20000 + "end\nat 0 m activate A 200000 stringent\nstart m\nrounds 1\n"


def many_tasks():
    """64 tasks, each of which preempts the one before, over 1,000 rounds of 1,000 ticks: 321,002 lines."""
    tasks = numbered("task T{0} 8\nwork 10\nend\n", 64) + numbered("at {0} m activate T{0} 1000 stringent\n", 64)
    return "osektime 1\nround 1000\nmode m\n" + tasks + "start m\nrounds 1000\n"


def long_table():
    """4,096 activations in each of 10 rounds of 100,000 ticks, of which 95,904 are idle: 204,812 lines."""
    rows = "".join(f"at {2 * i} m activate A {2 * i + 2} stringent\n" for i in range(4096))
    return "osektime 1\nround 100000\nmode m\ntask A 8\nwork 1\nend\n" + rows + "start m\nrounds 10\n"


def much_output():
    """Four repeats inside each other, which put out 500,000 values in 1,552,550 ticks."""
    body = "repeat 50\nrepeat 50\nrepeat 20\nrepeat 10\nset x + x 1\nout x\nend\nend\nend\nend\nend\n"
    head = "osektime 1\nround 2000000\nmode m\nvar x 0\ntask A 8\n"
    return head + body + "at 0 m activate A 2000000 stringent\nstart m\nrounds 1\n"


def comment_lines():
    """38,836 lines that say nothing."""
    return "# a line that says nothing\n" * (LIMIT // 27)


def work_rows():
    """One body of 149,780 statements."""
    return "osektime 1\nround 10\nmode m\ntask A 8\n" + "work 5\n" * 149780 + "end\nstart m\nrounds 1\n"


def out_rows():
    """One body of 174,748 statements, each with an expression: what takes the most memory."""
    return "osektime 1\nround 10000\nmode m\ntask A 8\n" + "out 1\n" * 174748 + "end\nstart m\nrounds 1\n"


def empty_blocks():
    """One body of 116,500 blocks without a statement."""
    return "osektime 1\nround 10000\nmode m\ntask A 8\n" + "if 1\nend\n" * 116500 + "end\nstart m\nrounds 1\n"


def long_expressions():
    """6,300 lines, each of an expression of 81 terms."""
    line = "out " + "+ " * 40 + " ".join(["a"] * 41) + "\n"
    return "osektime 1\nround 10\nmode m\nvar a 1\ntask A 8\n" + line * 6300 + "end\nstart m\nrounds 1\n"


def full_modes():
    """4,096 activations, the most of a mode, in each of 7 modes, from the last offset to the first."""
    rows = ["osektime 1\nround 10000\n"] + [f"mode {mode}\n" for mode in MODES[:7]] + ["task A 8\nwork 1\nend\n"]
    for i in reversed(range(4096)):
        rows += [f"at {2 * i} {mode} activate A {2 * i + 2} stringent\n" for mode in MODES[:7]]
    rows.append("start a\nrounds 1\n")
    return "".join(rows)


def storm():
    """A storm of 16 sources: all of them arrive in each of 3,990 ticks, one gate is opened in each tick, and the run goes on for 100,000
    rounds of 16 ticks."""
    rows = ["osektime 1\nround 16\nmode m\n"]
    rows += [f"isr {name} {i + 1} 4\nwork {1 + i % 2}\nend\n" for i, name in enumerate(SOURCES)]
    rows += [f"at {i} m enable {name}\n" for i, name in enumerate(SOURCES)]
    rows.append("start m\nrounds 100000\n")
    rows += [f"arrive {name} {tick}\n" for tick in range(3990) for name in SOURCES]
    return "".join(rows)


def one_source():
    """60,000 arrivals of one source in consecutive ticks, of which one in ten is accepted and eight are merged."""
    rows = ["osektime 1\nround 100\nmode m\nisr K 1 4\nwork 3\nend\n"]
    rows += [f"at {10 * i} m enable K\n" for i in range(10)]
    rows.append("start m\nrounds 600\n")
    rows += [f"arrive K {tick}\n" for tick in range(60000)]
    return "".join(rows)


def corrected_rounds():
    """100,000 rounds of 8 ticks with a correction and a mode switch in each."""
    rows = ["osektime 1\nround 8\nadjust 2\nmode m\nmode n\n"]
    rows.append("task A 8\nsync\nswitch n\nend\ntask B 8\nsync\nswitch m\nend\n")
    rows.append("at 0 m activate A 6 stringent\nat 0 n activate B 6 nonstringent\nstart m\nrounds 100000\n")
    rows += [f"time {i % 8}\n" for i in range(100000)]
    return "".join(rows)


def osek_load():
    """32 OSEK tasks that chain to and activate one another in all idle time, and 20,000 arrivals of 16 OSEK routines: 5,000,000 ticks."""
    rows = ["osektime 1\nround 100\nmode m\ntask A 8\nwork 3\nend\n"]
    for i in range(32):
        rows.append(f"osek P{i} {i + 1} auto\nactivate P{(i + 5) % 32}\nactivate P{(i + 11) % 32}\nchain P{(i + 1) % 32}\nend\n")
    rows += [f"oisr X{i} {i + 1}\nactivate P{2 * i}\nwork 2\nend\n" for i in range(16)]
    rows.append("at 10 m activate A 50 stringent\nstart m\nrounds 50000\n")
    tick = 0
    for i in range(20000):
        tick += 1 + (i * 7919 + i * i * 31) % 490
        rows.append(f"arrive X{(i * 5 + i // 16) % 16} {tick}\n")
    return "".join(rows)


def preemptions():
    """64 preemptions in each of 100,000 rounds: 32,100,002 lines."""
    tasks = numbered("task T{0} 8\nwork 2\nend\n", 64) + numbered("at {0} m activate T{0} 200 stringent\n", 64)
    return "osektime 1\nround 200\nmode m\n" + tasks + "start m\nrounds 100000\n"


def arrival_in_each_tick():
    """An arrival in each of 65,000 ticks beside a work of 10,000,000 ticks."""
    rows = ["osektime 1\nround 10000000\nmode m\ntask A 8\nwork 9900000\nend\nisr K 1 4\nwork 1\nend\n"]
    rows.append("at 0 m activate A 10000000 stringent\nat 9950000 m enable K\nstart m\nrounds 1\n")
    rows += [f"arrive K {tick}\n" for tick in range(65000)]
    return "".join(rows)


def long_work():
    """10^12 ticks, all of them work."""
    return ("osektime 1\nround 10000000\nmode m\ntask A 8\nwork 10000000\nend\nat 0 m activate A 10000000 stringent\n"
            "start m\nrounds 100000\n")


def long_idle():
    """10^12 ticks, all of them idle."""
    return "osektime 1\nround 10000000\nmode m\nstart m\nrounds 100000\n"


def many_responses():
    """As many activations of budget 1 as a document has room for, up to 4,000 in each of 6 modes, of 64 tasks in turn, each with its deadline
    at the next activation of its task or near the end of a round of 10,000,000 ticks; 16 routines, of which every second has a distance."""
    modes, count = MODES[:6], 4000
    rows = ["osektime 1\nround 10000000\n"] + [f"mode {mode}\n" for mode in modes]
    rows += [f"task T{i} 8\nwork 1\nend\n" for i in range(64)]
    for i, name in enumerate(SOURCES):
        distance = f" {100 + 50 * i}" if i % 2 else ""
        rows.append(f"isr {name} {i + 1} 4{distance}\nwork 2\nend\n")
    for mode in modes:
        rows += [f"at {100 * i} {mode} enable {SOURCES[i % 16]}\n" for i in range(80)]
    tail = "start a\nrounds 1\n"
    head = "".join(rows)
    ends = [2400 * (i + 64) if i + 64 < count else 9999999 for i in range(count)]
    activations = (f"at {2400 * i} {mode} activate T{i % 64} {ends[i]} stringent\n" for i in range(count) for mode in modes)
    return filled(head, activations, tail)


def long_responses():
    """64 activations of budget 1 and 3,900 enables in consecutive ticks in each of 11 modes: each response takes about 3,900 steps."""
    modes = MODES[:11]
    rows = ["osektime 1\nround 10000\n"] + [f"mode {mode}\n" for mode in modes]
    rows += [f"task T{i} 8\nwork 1\nend\n" for i in range(64)] + ["isr K 1 4\nsync\nend\nisr J 2 4 9\nsync\nend\n"]
    for mode in modes:
        rows += [f"at {i} {mode} activate T{i} {9000 + i} stringent\n" for i in range(64)]
        rows += [f"at {i} {mode} enable K\n" for i in range(66, 3900)] + [f"at {64 * i} {mode} enable J\n" for i in range(60)]
    rows.append("start a\nrounds 1\n")
    return "".join(rows)


# Each document with the commands that are measured on it.
ALL = ["show", "trace", "table"]
DOCUMENTS = {
    every_row: ["show", "trace"],
    many_ends: ["show", "trace"],
    table_rows: ALL,
    most_rows: ALL,
    most_points: ALL,
    used_names: ["show", "trace"],
    many_names: ["trace"],
    deep_blocks: ["trace"],
    arrivals: ["show", "trace"],
    nested_blocks: ["show", "trace"],
    many_tasks: ["trace", "load"],
    long_table: ["trace", "load", "table"],
    much_output: ["trace", "load"],
    comment_lines: ["show"],
    work_rows: ["show", "trace"],
    out_rows: ["show", "trace"],
    empty_blocks: ["show", "trace"],
    long_expressions: ["show", "trace"],
    full_modes: ["trace", "table", "check"],
    storm: ["trace", "load"],
    one_source: ["trace", "load"],
    corrected_rounds: ["trace", "load"],
    osek_load: ["trace", "load"],
    preemptions: ["trace", "load"],
    arrival_in_each_tick: ["trace", "load"],
    long_work: ["trace", "load"],
    long_idle: ["trace", "load"],
    many_responses: ["check"],
    long_responses: ["check"],
}


def write(folder):
    """Writes all documents into the folder and gives their names with the commands that are measured on them."""
    os.makedirs(folder, exist_ok=True)
    for make in DOCUMENTS:
        text = make()
        assert len(text) <= LIMIT, make.__name__
        with open(os.path.join(folder, make.__name__), "w", encoding="ascii") as file:
            file.write(text)
    return {make.__name__: commands for make, commands in DOCUMENTS.items()}


if __name__ == "__main__":
    write(sys.argv[1])
