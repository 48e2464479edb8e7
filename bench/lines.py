#!/usr/bin/env python3
"""Times `asn convert --lines` over small messages beside the pipe on one text of the same messages,
and shows that a stream takes no memory.

usage: bench/lines.py [-n RUNS] [-c MESSAGES]

The programs are $ASN and $PIPE, or else the proved ones of this repository. The command gets
MESSAGES messages (1,000,000 unless given), one a line, and the pipe a list of them, or as many as
its 16 MiB hold. Each is run RUNS times (3 unless given), and the least processor time counts, for
each message. Then the command gets half of the stream, for its memory and its time. Last it
converts as many reports by a module: alone, and in pieces side by side, by GNU parallel where that
is there; what both write is compared byte for byte. The status is 1 where a message of the stream
takes more than twice the time of one of the pipe, where the whole stream takes more memory than
half of it, or where the pieces are other bytes.
"""
import argparse
import os
import shutil
import subprocess
import sys
import tempfile
import time

TOP = os.path.dirname(os.path.dirname(os.path.abspath(__file__)))
ASN = os.environ.get("ASN") or f"{TOP}/crates/asn_command_main/out/asn_command_main"
PIPE = os.environ.get("PIPE") or f"{TOP}/crates/asn_convert_main/out/asn_convert_main"
LIMIT = 16_777_216
# What a message of the stream may take of the time of one of the pipe, and how many MB more than
# half of the stream the whole may take.
RATIO = 2
MORE = 1
MESSAGES = ['{"Test1":%d}' % number for number in range(256)] + ['{"Test2":"text"}'] * 256
WORDS = ["convert", "-t", "SimpleChoice", "--from", "jer", "--to", "jer", "--lines"]
REPORT = '{"readings":[{"temperature":-31},{"wind":{"speed":%d}}],"station":7,"taken":"20261130081500Z"}'
BY_MODULE = ["convert", "-m", f"{TOP}/examples/sensor.asn", "-t", "Report", *WORDS[3:]]
PIECES = ["parallel", "--pipe", "--keep-order", "--block", "8M", "-j", "4", "--"]


def peak(process):
    """The most MB that a process had until now. What `wait4` tells of a child isn't less than what
    this script itself has."""
    try:
        with open(f"/proc/{process}/status") as file:
            lines = [line.split() for line in file if line.startswith("VmHWM:")]
    except OSError:
        lines = []
    return int(lines[0][1]) / 1024 if lines else 0


def run(words, path, out=os.devnull):
    """Seconds of processor time, peak MB and seconds on the clock of one run."""
    with open(path, "rb") as given, open(out, "wb") as taken:
        before, most, ended = time.monotonic(), 0, 0
        child = subprocess.Popen(words, stdin=given, stdout=taken)
        while not ended:
            time.sleep(0.005)
            most = max(most, peak(child.pid))
            ended, status, usage = os.wait4(child.pid, os.WNOHANG)
        clock = time.monotonic() - before
    child.returncode = os.waitstatus_to_exitcode(status)
    if child.returncode:
        sys.exit(f"{words}: status {child.returncode}")
    return usage.ru_utime + usage.ru_stime, most, clock


def least(words, path, runs):
    """The least time of several runs, and the most memory."""
    done = [run(words, path) for _ in range(runs)]
    return min(it[0] for it in done), max(it[1] for it in done)


def stream(path, count, line):
    """Writes so many messages, one a line, and returns how many bytes they have."""
    with open(path, "w") as file:
        file.writelines(f"{line(number)}\n" for number in range(count))
    return os.path.getsize(path)


def message(number):
    return MESSAGES[number % len(MESSAGES)]


def whole(path, most):
    """Writes a request of the pipe with so many messages or as many as it takes, and returns their
    number."""
    text, count = ["jer jer SequenceOf<SimpleChoice>\n[", message(0)], 1
    size = sum(map(len, text))
    while count < most and size + len(message(count)) + 2 < LIMIT:
        text.append(f",{message(count)}")
        size += len(text[-1])
        count += 1
    with open(path, "w") as file:
        file.write("".join(text) + "]")
    return count


def beside_pipe(room, count, runs):
    """Runs the stream beside the pipe and beside half of it, and returns what is wrong."""
    of_pipe = whole(f"{room}/whole", count)
    size = stream(f"{room}/lines", count, message)
    stream(f"{room}/half", count // 2, message)
    pipe = least([PIPE], f"{room}/whole", runs)
    lines = least([ASN, *WORDS], f"{room}/lines", runs)
    half = least([ASN, *WORDS], f"{room}/half", runs)
    each, other = lines[0] / count, pipe[0] / of_pipe
    print(f"pipe: {of_pipe} messages in one text, {pipe[0]:.2f} s, {other * 1e9:.0f} ns each, "
          f"{pipe[1]:.1f} MB")
    print(f"stream: {count} messages, {size / 1e6:.1f} MB, {lines[0]:.2f} s, {each * 1e9:.0f} ns "
          f"each, {each / other:.2f} of the pipe's; {lines[1]:.1f} MB")
    print(f"half of the stream: {half[0]:.2f} s, {half[1]:.1f} MB", flush=True)
    if each > RATIO * other:
        yield f"a message of the stream takes {each / other:.2f} of the time of one of the pipe"
    if lines[1] > half[1] + MORE:
        yield f"the stream takes {lines[1] - half[1]:.1f} MB more than half of it"


def in_pieces(room, count):
    """Runs a stream of reports alone and by GNU parallel, and returns what is wrong."""
    size = stream(f"{room}/reports", count, lambda number: REPORT % (number % 97))
    used, memory, alone = run([ASN, *BY_MODULE], f"{room}/reports", f"{room}/alone")
    print(f"reports: {count}, {size / 1e6:.1f} MB; alone {alone:.1f} s on the clock, "
          f"{used:.1f} s of processor time, {count / alone:.0f} a second, {memory:.1f} MB")
    if not shutil.which(PIECES[0]):
        print("GNU parallel isn't there")
        return
    used, _, pieces = run([*PIECES, ASN, *BY_MODULE, "-"], f"{room}/reports", f"{room}/pieces")
    print(f"in pieces by 4 processes: {pieces:.1f} s on the clock, {used:.1f} s of processor time, "
          f"{count / pieces:.0f} a second, {alone / pieces:.2f} times as many")
    if subprocess.run(["cmp", f"{room}/alone", f"{room}/pieces"], check=False).returncode:
        yield "the pieces are other bytes"
    else:
        print(f"both write the same {os.path.getsize(f'{room}/alone')} bytes")


def main():
    parser = argparse.ArgumentParser(description=__doc__.split("\n\n", maxsplit=1)[0])
    parser.add_argument("-n", type=int, default=3)
    parser.add_argument("-c", type=int, default=1_000_000)
    given = parser.parse_args()
    with tempfile.TemporaryDirectory() as room:
        wrong = [*beside_pipe(room, given.c, given.n), *in_pieces(room, given.c)]
    for line in wrong:
        print(line)
    sys.exit(1 if wrong else 0)


main()
