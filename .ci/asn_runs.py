"""Runs the command `./asn` for the scripts beside this file, and compares what it comes to. It runs
the launcher, and so the proved program where that is built."""
import os
import subprocess

TOP = os.path.dirname(os.path.dirname(os.path.abspath(__file__)))
ASN = f"{TOP}/asn"
# What an unproved program says before it runs.
UNPROVED = b"isn't proved yet"
counts = {"comparisons": 0, "faults": 0}


def fault(text):
    counts["faults"] += 1
    print(text, flush=True)


def said(lines):
    """What a program said on standard error, but for that it isn't proved."""
    return b"".join(it for it in lines.splitlines(True) if UNPROVED not in it)


def run(words, data=b"", **how):
    """The status, the output and the errors of the command."""
    how = {"input": data, "capture_output": True, "cwd": TOP, **how}
    done = subprocess.run([ASN, *words], check=False, **how)
    return done.returncode, done.stdout, said(done.stderr or b"")


def expect(what, found, wanted):
    counts["comparisons"] += 1
    if found != wanted:
        fault(f"{what}: {found} in place of {wanted}"[:900])


def shows(words, status, output, errors=b"", data=b""):
    """Compares what the words come to with what is expected."""
    expect(" ".join(words), run(words, data), (status, output, errors))


def end(name):
    """What was compared, and 1 where something differs."""
    print(f"{name}: " + ", ".join(f"{many} {what}" for what, many in counts.items()))
    return 1 if counts["faults"] else 0
