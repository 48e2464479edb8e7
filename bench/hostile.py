#!/usr/bin/env python3
"""Runs the program on hostile inputs of 8 MB and of 16 MB, in both notations.

usage: bench/hostile.py [-n RUNS] [-k PART]

Each row is an input whose name has PART in it: the exit status, the least seconds (user and system) and the peak memory
of RUNS runs (2 unless given) at 16 MB, and how many times the seconds of 8 MB that is. It ends with status 1 where a run
takes more than 4 seconds, or ends with another status than 0 or 1.
"""
import os
import subprocess
import sys
import tempfile

TOP = os.path.dirname(os.path.dirname(os.path.abspath(__file__)))
# The program is run itself, since the launcher looks at the sources first.
PROGRAM = [os.path.join(TOP, "crates", "asn_convert_main", "out", "asn_convert_main")]
PROVE = [os.path.join(TOP, "asn_convert"), "--prove"]
LIMIT = 16_777_216
SECONDS = 4.0


def repeated(begin, unit, end=b""):
    """An input that repeats the unit between its begin and its end, up to a size."""
    return lambda size: begin + unit * ((size - len(begin) - len(end)) // len(unit)) + end


def listed(begin, member, end):
    """An input of distinct members with commas between them, up to a size."""

    def make(size):
        members, length = [], len(begin) + len(end)
        while length < size - 20:
            members.append(member % len(members))
            length += len(members[-1]) + 1
        return begin + b",".join(members) + end

    return make


INPUTS = {
    "open brackets, JER": repeated(b"jer avn Nest\n", b"["),
    "open braces, JER": repeated(b"jer avn Nest\n", b'{"a":'),
    "open braces, AVN": repeated(b"avn jer Nest\n", b"{"),
    "open string, JER": repeated(b'jer avn Utf8String\n"', b"a"),
    "open string, AVN": repeated(b'avn jer Utf8String\n"', b"a"),
    "open string of quotes, AVN": repeated(b'avn jer Utf8String\n"', b'""'),
    "one identifier, JER": repeated(b'jer avn SimpleEnum\n"', b"a", b'"'),
    "one identifier, AVN": repeated(b"avn jer SimpleEnum\n", b"a"),
    "alternatives in one another, AVN": repeated(b"avn jer SimpleChoice\n", b"a:"),
    "digits, JER": repeated(b"jer avn Integer\n", b"9"),
    "digits, AVN": repeated(b"avn jer Integer\n", b"9"),
    "distinct unknown members, JER": listed(b"jer avn Defaulted\n{", b'"u%d":0', b"}"),
    "distinct unknown members, AVN": listed(b"avn jer Defaulted\n{", b"u%d 0", b"}"),
    "one repeated member, JER": repeated(b'jer avn Defaulted\n{"u":0', b',"u":0', b"}"),
    "one repeated member, AVN": repeated(b"avn jer Defaulted\n{u 0", b",u 0", b"}"),
    "escapes, JER": repeated(b'jer avn Utf8String\n"', b"\\u00e9", b'"'),
    "doubled quotes, AVN": repeated(b'avn jer Utf8String\n"', b'""', b'"'),
    "8,000,000 items, JER": repeated(b"jer avn SequenceOf<u8>\n[0", b",0", b"]"),
    "8,000,000 items, AVN": repeated(b"avn jer SequenceOf<u8>\n{0", b",0", b"}"),
    "8,000,000 elements of a set, JER": repeated(b"jer avn SetOf<u8>\n[0", b",0", b"]"),
    "8,000,000 elements of a set, AVN": repeated(b"avn jer SetOf<u8>\n{0", b",0", b"}"),
}


def run(path):
    """Seconds, peak MB and status of one run, whose output is thrown away."""
    with open(path, "rb") as file, open(os.devnull, "wb") as out:
        child = subprocess.Popen(PROGRAM, stdin=file, stdout=out)
        _, status, usage = os.wait4(child.pid, 0)
    child.returncode = os.waitstatus_to_exitcode(status)
    return usage.ru_utime + usage.ru_stime, usage.ru_maxrss / 1024, child.returncode


def least(make, size, path, runs):
    """The run of the input at this size that took the least seconds."""
    if (pid := os.fork()) == 0:
        with open(path, "wb") as file:
            file.write(make(size))
        os._exit(0)
    os.waitpid(pid, 0)
    return min(run(path) for _ in range(runs))


def main():
    arguments, runs, part = sys.argv[1:], 2, ""
    while arguments:
        option = arguments.pop(0)
        if option == "-n":
            runs = int(arguments.pop(0))
        elif option == "-k":
            part = arguments.pop(0)
        else:
            sys.exit(__doc__)
    subprocess.run(PROVE, stdout=subprocess.DEVNULL, check=True)
    print(f"{'hostile input, 16 MB':34} {'status':>6} {'seconds':>8} {'twice':>6} {'peak MB':>8}")
    bad = []
    with tempfile.TemporaryDirectory() as room:
        for name, make in INPUTS.items():
            if part not in name:
                continue
            half = least(make, LIMIT // 2, f"{room}/input", runs)
            whole = least(make, LIMIT, f"{room}/input", runs)
            print(f"{name:34} {whole[2]:6} {whole[0]:8.3f} {whole[0] / half[0]:6.2f} {whole[1]:8.0f}", flush=True)
            if whole[0] > SECONDS or whole[2] not in (0, 1):
                bad.append(name)
    for name in bad:
        print(f"{name}: not as it should be")
    sys.exit(1 if bad else 0)


main()
