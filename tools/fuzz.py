#!/usr/bin/env python3
"""Holds the program to what needs no model of it, on random and damaged texts of every sample type.

usage: tools/fuzz.py [--texts N] [--seed S] [--types a,b,..] PROGRAM

PROGRAM takes a request on standard input, as ./asn_convert does. Of each text:
  ends       the status is 0 or 1, within a second of processor time and one more for each megabyte
  stable     what status 0 wrote is read again in its notation, and gives itself
  round      what JSON becomes in AVN becomes in JSON what JSON became at once
  whole      a text that was not damaged has status 0
  grows      what a newer type reads and writes, its older type reads (PAIRS)
Each breach is printed with its input; the last line counts texts and breaches, and the status is 1 if there are any.
"""
import argparse
import collections
import json
import math
import os
import random
import subprocess
import sys
from concurrent.futures import ThreadPoolExecutor

# Older types with the newer ones that extend them, and the alternative or item that the older one lacks, if any.
PAIRS = {
    "OldPart": ("NewPart", "flag"),
    "OldReport": ("NewReport", "flag"),
    "OldMode": ("NewMode", "high"),
    "OldTree": ("NewTree", None),
}
LETTERS = "abcdefghijklmnopqrstuvwxyz"
SIGNS = ['"', "'", "{", "}", "[", "]", ":", ",", " ", "\n", "-", "0", "9", "e", ".", "\\", "\x00", "é", "\U0001F600", "H", "B"]

Text = collections.namedtuple("Text", "jer avn")


def both(value, avn=None):
    """A value that JSON writes as `value`, and AVN the same or as told."""
    jer = json.dumps(value, ensure_ascii=False)
    return Text(jer, jer if avn is None else avn)


def number(low, high):
    return lambda r: both(r.choice([low, high, r.randint(low, high), r.randint(max(low, -9), min(high, 9))]))


def boolean(r):
    flag = r.random() < 0.5
    return both(flag, "TRUE" if flag else "FALSE")


def string(alphabet, most=12):
    def make(r):
        text = "".join(r.choice(alphabet) for _ in range(r.randint(0, most)))
        return both(text, '"' + text.replace('"', '""') + '"')
    return make


def octets(r):
    digits = bytes(r.randrange(256) for _ in range(r.randint(0, 6))).hex().upper()
    return Text(f'"{digits}"', f"'{digits}'H")


def padded(bits):
    return int(bits.ljust(-(-len(bits) // 8) * 8, "0") or "0", 2).to_bytes(-(-len(bits) // 8), "big").hex().upper()


def bits(size=None, fixed=False):
    def make(r):
        length = r.randint(1, 20) if size is None else size
        digits = "".join(r.choice("01") for _ in range(length))
        jer = f'"{padded(digits)}"' if fixed else f'{{"length":{length},"value":"{padded(digits)}"}}'
        return Text(jer, f"'{digits}'B")
    return make


def arcs(r):
    first = r.randint(0, 2)
    numbers = [first, r.randint(0, 39 if first < 2 else 1 << 20)] + [r.randrange(1 << 32) for _ in range(r.randint(0, 4))]
    return Text('"' + ".".join(map(str, numbers)) + '"', "{ " + " ".join(map(str, numbers)) + " }")


def items(*names):
    def make(r):
        name = r.choice(names)
        return Text(f'"{name}"', name)
    return make


def list_of(element, most=5):
    def make(r):
        parts = [element(r) for _ in range(r.randint(0, most))]
        return Text("[" + ",".join(p.jer for p in parts) + "]", "{" + ", ".join(p.avn for p in parts) + "}")
    return make


def choice(**alternatives):
    def make(r):
        name, part = r.choice(list(alternatives.items()))
        value = part(r)
        return Text(f'{{"{name}":{value.jer}}}', f"{name} : {value.avn}")
    return make


def fields(*rows):
    """Of rows (name, type, is optional), in any order in JSON."""
    def make(r):
        parts = [(name, part(r)) for name, part, optional in rows if not optional or r.random() < 0.6]
        jer = [f'"{name}":{value.jer}' for name, value in parts]
        r.shuffle(jer)
        return Text("{" + ",".join(jer) + "}", "{" + ", ".join(f"{name} {value.avn}" for name, value in parts) + "}")
    return make


def nest(r, depth=6):
    return list_of(lambda r: nest(r, depth - 1), 3 if depth else 0)(r)


def tree(*added):
    """Of rows of extension additions, which each tree has at every depth."""
    def make(r, depth=4):
        kids = list_of(lambda r: make(r, depth - 1), 3 if depth else 0)
        return fields(("kids", kids, False), *added)(r)
    return make


def document(r, depth=4):
    """A JSON document, whose arrays and objects nest to the depth."""
    def part(r):
        return document(r, depth - 1)
    kinds = {
        "null": lambda r: both(None, "NULL"), "bool": boolean, "integer": number(-(1 << 63), (1 << 63) - 1),
        "decimal": lambda r: both(str(r.randint(1 << 63, (1 << 64) - 1))), "string": string(LETTERS),
    }
    if depth:
        kinds["array"] = list_of(part, 3)
        kinds["object"] = list_of(fields(("key", string("abc", 2), False), ("value", part, False)), 3)
    return choice(**kinds)(r)


def moment(form):
    def make(r):
        year, month, day = r.randint(1950, 2049), r.randint(1, 12), r.randint(1, 28)
        clock = "%02d%02d%02d" % (r.randrange(24), r.randrange(60), r.randrange(60))
        if form == "day":
            text = f"{year}-{month:02}-{day:02}"
        elif form == "utc":
            text = f"{year % 100:02}{month:02}{day:02}{clock}Z"
        else:
            text = f"{year}{month:02}{day:02}{clock}" + r.choice(["", ".5", ".125"]) + r.choice(["Z", "+0130", "-2359"])
        return both(text)
    return make


PRINTABLE = "Az09 '()+,-./:=?"
VISIBLE = "".join(map(chr, range(32, 127)))
struct = fields(("strct", number(0, 255), True))
inner = choice(Wine=number(0, 255))
nested = fields(("very", struct, True), ("nested", boolean, True))
simple = choice(Test1=number(0, 255), Test2=string(LETTERS))
identified = ("id", number(-9, 1 << 62), False)
old_part = {"code": number(0, 255), "text": string("abcde")}
TYPES = {
    "bool": boolean, "Null": lambda r: both(None, "NULL"), "u8": number(0, 255),
    "i64": number(-(1 << 63), (1 << 63) - 1), "u64": number(0, (1 << 64) - 1), "u128": number(0, (1 << 64) - 1),
    "Integer": number(-(1 << 63), (1 << 63) - 1), "Utf8String": string(LETTERS + '"é\U0001F600\n\\'),
    "NumericString": string("0123456789 "), "PrintableString": string(PRINTABLE), "VisibleString": string(VISIBLE),
    "Ia5String": string(VISIBLE), "GeneralString": string(VISIBLE + "é"), "GraphicString": string(VISIBLE + "é"),
    "BmpString": string(VISIBLE + "é\uffff"), "UniversalString": string(VISIBLE + "é\U0001F600"),
    "UtcTime": moment("utc"), "GeneralizedTime": moment("generalized"), "Date": moment("day"),
    "SequenceOf<u8>": list_of(number(0, 255)), "SequenceOf<i64>": list_of(number(-(1 << 63), (1 << 63) - 1)),
    "SequenceOf<bool>": list_of(boolean), "SequenceOf<SimpleChoice>": list_of(simple), "OctetString": octets,
    "BitString": bits(), "Any": octets, "ObjectIdentifier": arcs,
    "Renamed": fields(("so-very", number(-9, 1 << 62), False), ("re_named", boolean, True)),
    "WithNullOpt": fields(("name", string(LETTERS), False), ("flag", lambda r: both(None, "NULL"), True)),
    "Nested": nested, "Struct": struct, "Very": fields(("a", nested, True)),
    "TestTypeA": fields(("juice", number(-9, 9), False), ("wine", inner, False), ("grappa", bits(), False)),
    "Defaulted": fields(("level", number(-9, 9), True)), "SetOf<u8>": list_of(number(0, 255), 9),
    "MarkSet": fields(("mark", number(-9, 1 << 62), False), ("note", string(LETTERS), True)),
    "OldPart": choice(**old_part), "NewPart": choice(**old_part, flag=boolean),
    "OldReport": fields(identified, ("parts", list_of(choice(**old_part)), False)),
    "NewReport": fields(
        identified,
        ("parts", list_of(choice(**old_part, flag=boolean)), False),
        ("note", string(LETTERS), True),
        ("owner", string(LETTERS), False),
    ),
    "OldMode": items("low"), "NewMode": items("low", "high"),
    "OldTree": tree(), "NewTree": tree(("label", string(LETTERS), True)),
    "SimpleEnum": items("Test1", "Test2"), "ExtEnum": items("Test1", "Test2", "Test3"),
    "Inner": inner, "SimpleChoice": simple,
    "ExtChoice": choice(Test1=number(0, 255), Test2=string(LETTERS), Test3=boolean), "Nest": nest,
    "ConstrainedBitString": bits(3, True), "ExtensibleBitString": bits(),
    "ExtensibleBitStringField": fields(("bits", bits(), False)), "Document": document,
}


def damaged(r, text):
    """The text with a few characters left out, doubled, put in or exchanged."""
    text = list(text)
    for _ in range(r.randint(1, 3)):
        at = r.randrange(len(text) + 1)
        way = r.randrange(4)
        if way == 0:
            del text[at:at + r.randint(1, 3)]
        elif way == 1:
            text[at:at] = text[at:at + r.randint(1, 4)]
        elif way == 2:
            text.insert(at, r.choice(SIGNS))
        else:
            other = r.randrange(len(text) + 1)
            text[at:at + 1], text[other:other + 1] = text[other:other + 1], text[at:at + 1]
    return "".join(text)


def convert(program, source, target, name, text):
    """The status and the text written, without its line feed; a signal's status where it took too long."""
    given = f"{source} {target} {name}\n".encode() + text.encode()
    # Processor time, so that other work on the machine is no breach.
    limit = f"--cpu={1 + math.ceil(len(given) / 1e6)}"
    done = subprocess.run(["prlimit", limit, program], input=given, capture_output=True)
    return done.returncode, done.stdout.decode("utf-8", "replace")[:-1]


def breaches(program, source, target, name, text, is_damaged):
    """The names of the rules that the program breaks on this text."""
    found = []
    status, written = convert(program, source, target, name, text)
    if status not in (0, 1):
        found.append("ends")
    if status == 1 and not is_damaged:
        found.append("whole")
    if status != 0:
        return found
    if convert(program, target, target, name, written) != (0, written):
        found.append("stable")
    if (source, target) == ("jer", "avn"):
        if convert(program, "avn", "jer", name, written) != convert(program, "jer", "jer", name, text):
            found.append("round")
    for older, (newer, lacking) in PAIRS.items():
        known = newer == name and (lacking is None or lacking not in written)
        if known and convert(program, target, target, older, written)[0] != 0:
            found.append(f"grows: {older}")
    return found


def main():
    options = argparse.ArgumentParser(description=__doc__, formatter_class=argparse.RawDescriptionHelpFormatter)
    options.add_argument("--texts", type=int, default=100_000)
    options.add_argument("--seed", type=int, default=1)
    options.add_argument("--types", type=lambda names: names.split(","), default=sorted(TYPES))
    options.add_argument("program")
    options = options.parse_args()
    r = random.Random(options.seed)

    def rows():
        for _ in range(options.texts):
            name, source, target = r.choice(options.types), r.choice(("jer", "avn")), r.choice(("jer", "avn"))
            text, is_damaged = getattr(TYPES[name](r), source), r.random() < 0.6
            yield source, target, name, damaged(r, text) if is_damaged else text, is_damaged

    count = 0
    with ThreadPoolExecutor(os.cpu_count()) as pool:
        batch = list(rows())
        for row, found in zip(batch, pool.map(lambda row: breaches(options.program, *row), batch, chunksize=64)):
            for rule in found:
                count += 1
                print(f"{rule}: {row[0]} {row[1]} {row[2]} {row[3]!r}")
    print(f"{options.texts} texts, {count} breaches")
    sys.exit(count > 0)


if __name__ == "__main__":
    main()
