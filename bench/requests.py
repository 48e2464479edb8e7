#!/usr/bin/env python3
"""Times the program's requests on modules and on streams of messages, on an input and on twice the input.

usage: bench/requests.py [-n RUNS] [-k PART]

Each input whose name has PART in it is run RUNS times (3 unless given), and the least time counts: processor time, and
the peak memory of the run on the larger input. A ratio of 2 is time that grows with the input. A module that is
refused is one by its size.
"""
import os
import subprocess
import sys
import tempfile

TOP = os.path.dirname(os.path.dirname(os.path.abspath(__file__)))
PROGRAM = os.path.join(TOP, "crates", "asn_convert_main", "out", "asn_convert_main")


def small(count):
    """So many small assignments, each of which names the one before."""
    rows = (f"T{i} ::= SEQUENCE {{ a INTEGER, b T{max(i - 1, 0)} OPTIONAL, ... }}\n" for i in range(count))
    return "module\n" + "".join(rows)


def deep(count):
    """So many assignments of notations 64 deep."""
    return "module\n" + "".join(f"T{i} ::= {'SEQUENCE OF ' * 64}NULL\n" for i in range(count))


def chain(count, names=64):
    """A chain of so many names that are open at once, among so many assignments."""
    rows = [f"T{i} ::= SEQUENCE {{ a T{i + 1} }}\n" for i in range(names - 1)] + [f"T{names - 1} ::= NULL\n"]
    return "grows T0 T0\n" + "".join(rows) + "".join(f"X{i} ::= NULL\n" for i in range(count))


def wide(count):
    """A type of so many nodes: its name, the SEQUENCE and the fields."""
    return "grows T T\nT ::= SEQUENCE { " + ", ".join(f"f{i} NULL" for i in range(count - 2)) + " }\n"


def messages(count):
    """So many messages, one a line, of which every third is refused."""
    lines = ('{"kids":[]}', '{"kids":[],"label":"x"}', '{"kids":1}')
    return "keep jer OldTree NewTree\n" + "".join(lines[i % 3] + "\n" for i in range(count))


INPUTS = {
    "a module of small assignments": (small, 10_000),
    "a module of deep notations": (deep, 650),
    "a chain of 64 names": (chain, 30_000),
    "a chain of 65 names": (lambda count: chain(count, 65), 30_000),
    "types of 32,768 and 65,536 nodes": (wide, 32_768),
    "types of 65,537 and 131,074 nodes": (wide, 65_537),
    "500,000 and 1,000,000 messages": (messages, 500_000),
}


def run(path):
    """Seconds, peak MB and the status of one run."""
    with open(path, "rb") as text:
        child = subprocess.Popen([PROGRAM], stdin=text, stdout=subprocess.DEVNULL)
        _, status, usage = os.wait4(child.pid, 0)
    return usage.ru_utime + usage.ru_stime, usage.ru_maxrss / 1024, os.waitstatus_to_exitcode(status)


def least(text, runs, folder):
    """The size of the text in MB, and the least of the runs on it."""
    path = os.path.join(folder, "input")
    with open(path, "w") as file:
        file.write(text)
    return os.path.getsize(path) / 1e6, min(run(path) for _ in range(runs))


def main():
    arguments, runs, part = sys.argv[1:], 3, ""
    while arguments:
        option = arguments.pop(0)
        if option == "-n":
            runs = int(arguments.pop(0))
        elif option == "-k":
            part = arguments.pop(0)
        else:
            sys.exit(__doc__)
    subprocess.run([os.path.join(TOP, "asn_convert"), "--prove"], stdout=subprocess.DEVNULL, check=True)
    print(f"{'requests':36} {'MB':>11} {'seconds':>13} {'ratio':>6} {'peak MB':>8} {'statuses':>8}")
    with tempfile.TemporaryDirectory() as folder:
        for name, (make, count) in INPUTS.items():
            if part not in name:
                continue
            size, once = least(make(count), runs, folder)
            larger, twice = least(make(2 * count), runs, folder)
            ratio = twice[0] / max(once[0], 0.001)
            print(
                f"{name:36} {size:5.1f} {larger:5.1f} {once[0]:6.2f} {twice[0]:6.2f} {ratio:6.2f} {twice[1]:8.0f}"
                f" {once[2]:4} {twice[2]:3}",
                flush=True,
            )


main()
