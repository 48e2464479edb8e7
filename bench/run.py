#!/usr/bin/env python3
"""Runs the program beside peers on large inputs.

usage: bench/run.py [-n RUNS] [-k PART] [-s | -p PROGRAM DIR]

Each input whose name has PART in it is run RUNS times (3 unless given) by either program in turn, and the least time
counts. Times are processor times. Both outputs have to be equal. A speed is the peer's time by ours, so that more than
1 is faster than the peer. bench/native/build.sh builds the peers in Rust (Debian's librust-serde-json-dev and
librust-hex-dev).

The first table is of the program, beside Python's json module or Rust's serde_json: seconds, user and system, and peak
memory.

With -p, the inputs are the files *.in in DIR, each a request line and a text, and the peer is PROGRAM, which takes the
same requests: seconds and peak memory of both, and ours by its.

With -s, the table is of the command `asn`, which converts by a shape that it holds as data, beside the program: seconds
and peak memory of both, the first by the second, and how many times as long by a shape twice the input takes.

The second table is of the string types, from and to either notation: seconds of each on one ASCII text, by those of
UTF8String on the same text. The third is of a SET OF a million numbers, from and to either notation: seconds for
elements in some orders, by those of a SEQUENCE OF the same text, and those of twice the elements.
"""
import hashlib
import os
import random
import subprocess
import sys

TOP = os.path.dirname(os.path.dirname(os.path.abspath(__file__)))
OUT = os.path.join(TOP, "bench", "out")
PYTHON = (
    "import json,sys\n"
    "text=sys.stdin.buffer.read().decode().split('\\n',1)[1]\n"
    "sys.stdout.write(json.dumps(json.loads(text),separators=(',',':'),ensure_ascii=False)+'\\n')\n"
)
NATIVE = [os.path.join(OUT, "native_peer")]
OCTETS = [os.path.join(OUT, "octets_peer")]
# The program is run itself, since the launcher looks at the sources first.
PROGRAM = [os.path.join(TOP, "crates", "asn_convert_main", "out", "asn_convert_main")]
PROVE = [os.path.join(TOP, "asn_convert"), "--prove"]
INPUTS = {
    "blanks and one number, 16 MB": (
        lambda: b"jer jer u64\n" + b" " * 16_777_000 + b"18446744073709551615",
        ["python3", "-c", PYTHON],
    ),
    "one plain string, 10 MB": (
        lambda: b'jer jer Utf8String\n"' + b"The quick brown fox. " * 476_190 + b'"',
        NATIVE,
    ),
    "one string of escapes, 10 MB": (
        lambda: b'jer jer Utf8String\n"' + b"line\\n\\u00e9\\\\ " * 666_666 + b'"',
        NATIVE,
    ),
    "one string past ASCII, 10 MB": (
        lambda: b'jer jer Utf8String\n"' + "größe 漢字 ".encode() * 625_000 + b'"',
        NATIVE,
    ),
    "octets, 10 MB": (
        lambda: b'jer jer OctetString\n"' + b"00ff5A17" * 1_250_000 + b'"',
        OCTETS,
    ),
    "octets, 5 MB": (
        lambda: b'jer jer OctetString\n"' + b"00ff5A17" * 625_000 + b'"',
        OCTETS,
    ),
}

COMMAND = os.path.join(TOP, "crates", "asn_command_main", "out", "asn_command_main")
PART_JSON, PART_AVN = '{"text":"b"},{"code":7}', 'text : "b", code : 7'
SHAPED = {
    "numbers, JSON": lambda size: "jer jer SequenceOf<u8>\n[" + "7,213," * (1_000_000 * size) + "1]",
    "numbers, AVN": lambda size: "avn avn SequenceOf<u8>\n{" + "7,213," * (1_000_000 * size) + "1}",
    "choices, JSON": lambda size: "jer jer SequenceOf<SimpleChoice>\n["
    + '{"Test1":17},{"Test2":"x"},' * (175_000 * size)
    + '{"Test1":1}]',
    "choices, AVN": lambda size: "avn avn SequenceOf<SimpleChoice>\n{"
    + 'Test1 : 17, Test2 : "x",' * (175_000 * size)
    + "Test1 : 1}",
    "report, JSON": lambda size: 'jer jer NewReport\n{"id":1,"owner":"o","parts":['
    + f"{PART_JSON}," * (150_000 * size)
    + f"{PART_JSON}]}}",
    "report, AVN": lambda size: 'avn avn NewReport\n{ id 1, owner "o", parts {'
    + f"{PART_AVN}, " * (150_000 * size)
    + f"{PART_AVN}}}}}",
    "document, JSON": lambda size: 'jer jer Document\n{"array":['
    + '{"bool":true},{"string":"xy"},' * (150_000 * size)
    + '{"null":null}]}',
    "document, AVN": lambda size: "avn avn Document\narray : {"
    + 'bool : TRUE, string : "xy", ' * (150_000 * size)
    + "null : NULL}",
}

WAYS = ("jer jer", "jer avn", "avn jer", "avn avn")
STRINGS = (
    "NumericString PrintableString VisibleString Ia5String UniversalString GeneralString GraphicString BmpString"
).split()
MILLION = 1_000_000
SETS = (
    ("random, a million", "random", MILLION),
    ("random, two million", "random", 2 * MILLION),
    ("all equal", "all equal", MILLION),
    ("sorted", "sorted", MILLION),
    ("reversed", "reversed", MILLION),
)


def write_input(make, path):
    """Writes the input in a process of its own, whose memory would else count for the programs that are measured."""
    if (pid := os.fork()) == 0:
        with open(path, "wb") as file:
            file.write(make())
        os._exit(0)
    os.waitpid(pid, 0)
    return os.path.getsize(path) / 1e6


def measure(command, path):
    """Seconds, peak MB, status and a digest of the output of one run."""
    read_end, write_end = os.pipe()
    pid = os.fork()
    if pid == 0:
        os.dup2(os.open(path, os.O_RDONLY), 0)
        os.dup2(write_end, 1)
        os.close(read_end)
        os.execvp(command[0], command)
    os.close(write_end)
    digest = hashlib.sha256()
    with os.fdopen(read_end, "rb") as pipe:
        while block := pipe.read(1 << 20):
            digest.update(block)
    _, status, usage = os.wait4(pid, 0)
    seconds = usage.ru_utime + usage.ru_stime
    return seconds, usage.ru_maxrss / 1024, os.waitstatus_to_exitcode(status), digest.hexdigest()


def least_runs(name, first, second, runs):
    """The least of the runs of two commands, each on a file, which take turns."""
    pairs = [(measure(*first), measure(*second)) for _ in range(runs)]
    ours, theirs = (min(run[side] for run in pairs) for side in (0, 1))
    if ours[2:] != theirs[2:]:
        sys.exit(f"{name}: the outputs differ")
    return ours, theirs


def compare_program(name, make, peer, runs):
    """Prints the row of one input of the program."""
    path = os.path.join(OUT, "input")
    size = write_input(make, path)
    ours, theirs = least_runs(name, (PROGRAM, path), (peer, path), runs)
    print(
        f"{name:32} {size:5.1f} {ours[0]:7.3f} {theirs[0]:7.3f} {theirs[0] / ours[0]:6.2f}"
        f" {ours[1]:8.1f} {theirs[1]:8.1f}  {os.path.basename(peer[0])}",
        flush=True,
    )


def compare_peer(program, path, runs):
    """Prints the row of one input file, beside a program that takes the same requests."""
    ours, theirs = least_runs(path, (PROGRAM, path), ([program], path), runs)
    print(
        f"{os.path.basename(path)[:-3]:24} {os.path.getsize(path) / 1e6:5.1f}  | {ours[0]:7.2f} {theirs[0]:7.2f}"
        f" {ours[0] / theirs[0]:6.2f}  | {ours[1]:7.0f} {theirs[1]:7.0f} {ours[1] / theirs[1]:6.2f}",
        flush=True,
    )


def compare_shape(name, runs):
    """Prints the row of one input by a shape, beside the program."""
    request, text = os.path.join(OUT, "input"), os.path.join(OUT, "text")
    source, target, type_name = SHAPED[name](1).partition("\n")[0].split()
    command = [COMMAND, "convert", "-t", type_name, "--from", source, "--to", target]
    write_input(lambda: SHAPED[name](2).partition("\n")[2].encode(), text)
    twice = min(measure(command, text)[0] for _ in range(runs))
    size = write_input(lambda: SHAPED[name](1).encode(), request)
    write_input(lambda: SHAPED[name](1).partition("\n")[2].encode(), text)
    typed, shaped = least_runs(name, (PROGRAM, request), (command, text), runs)
    print(
        f"{name:24} {size:5.1f}  | {shaped[0]:7.2f} {typed[0]:7.2f} {shaped[0] / typed[0]:6.2f}"
        f"  | {shaped[1]:7.0f} {typed[1]:7.0f} {shaped[1] / typed[1]:6.2f}  | {twice / shaped[0]:5.2f}",
        flush=True,
    )


def compare_strings(runs):
    """Prints the rows of the string types, beside UTF8String on the same text of digits."""
    path = os.path.join(OUT, "input")
    print(f"{'string types':20}" + "".join(f"  {way + ' s':>9} {'by UTF8':>7}" for way in WAYS))
    plain = {}
    for name in ["Utf8String", *STRINGS]:
        row = f"{name:20}"
        for way in WAYS:
            write_input(lambda: f"{way} {name}\n".encode() + b'"' + b"0123456789 " * 900_000 + b'"', path)
            seconds = min(measure(PROGRAM, path)[0] for _ in range(runs))
            plain.setdefault(way, seconds)
            row += f"  {seconds:9.3f} {seconds / plain[way]:7.2f}"
        print(row, flush=True)


def numbers(order, count):
    """The text of so many numbers below 256, in braces or brackets, in that order."""
    source = random.Random(1)
    values = [7] * count if order == "all equal" else [source.randrange(256) for _ in range(count)]
    if order in ("sorted", "reversed"):
        values.sort(reverse=order == "reversed")
    return ",".join(map(str, values)).encode()


def least_seconds(way, name, elements, path, runs):
    """The least seconds of the program on a list of these elements."""
    brackets = (b"[", b"]") if way.startswith("jer") else (b"{", b"}")
    write_input(lambda: f"{way} {name}\n".encode() + brackets[0] + elements + brackets[1], path)
    return min(measure(PROGRAM, path)[0] for _ in range(runs))


def compare_sets(runs):
    """Prints the rows of SET OF, beside SEQUENCE OF on the same text."""
    path = os.path.join(OUT, "input")
    print(f"{'set of numbers':20}" + "".join(f"  {way + ' s':>9} {'by list':>7}" for way in WAYS))
    for name, order, count in SETS:
        row = f"{name:20}"
        elements = numbers(order, count)
        for way in WAYS:
            seconds = least_seconds(way, "SetOf<u8>", elements, path, runs)
            row += f"  {seconds:9.3f} {seconds / least_seconds(way, 'SequenceOf<u8>', elements, path, runs):7.2f}"
        print(row, flush=True)


def run_peer(program, folder, part, runs):
    """The table beside a program that takes the same requests."""
    subprocess.run(PROVE, stdout=subprocess.DEVNULL, check=True)
    columns = f"{'ours':>7} {'peer':>7} {'ratio':>6}"
    print(f"{'beside ' + os.path.basename(program):24} {'MB':>5}  | {'seconds':^22}  | {'peak MB':^22}")
    print(f"{'':30}  | {columns}  | {columns}")
    for name in sorted(os.listdir(folder)):
        if name.endswith(".in") and part in name:
            compare_peer(program, os.path.join(folder, name), runs)


def run_shapes(part, runs):
    """The table of conversions by a shape."""
    os.makedirs(OUT, exist_ok=True)
    for launcher in ("asn_convert", "asn"):
        subprocess.run([os.path.join(TOP, launcher), "--prove"], stdout=subprocess.DEVNULL, check=True)
    columns = f"{'shape':>7} {'typed':>7} {'ratio':>6}"
    print(f"{'by a shape':24} {'MB':>5}  | {'seconds':^22}  | {'peak MB':^22}  | twice")
    print(f"{'':30}  | {columns}  | {columns}  |")
    for name in SHAPED:
        if part in name:
            compare_shape(name, runs)


def main():
    arguments, runs, part, peer, shapes = sys.argv[1:], 3, "", None, False
    while arguments:
        option = arguments.pop(0)
        if option == "-n":
            runs = int(arguments.pop(0))
        elif option == "-k":
            part = arguments.pop(0)
        elif option == "-s":
            shapes = True
        elif option == "-p":
            peer = arguments.pop(0), arguments.pop(0)
        else:
            sys.exit(__doc__)
    if peer:
        return run_peer(*peer, part, runs)
    if shapes:
        return run_shapes(part, runs)
    os.makedirs(OUT, exist_ok=True)
    program_inputs = [name for name in INPUTS if part in name]
    if not os.path.exists(NATIVE[0]):
        subprocess.run([os.path.join(TOP, "bench", "native", "build.sh")], check=True)
    if program_inputs:
        subprocess.run(PROVE, stdout=subprocess.DEVNULL, check=True)
        print(f"{'program':32} {'MB':>5} {'ours s':>7} {'peer s':>7} {'speed':>6} {'ours MB':>8} {'peer MB':>8}  peer")
    for name in program_inputs:
        compare_program(name, *INPUTS[name], runs)
    if part in "string types":
        compare_strings(runs)
    if part in "sets":
        compare_sets(runs)


main()
