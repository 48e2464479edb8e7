#!/usr/bin/env python3
"""Makes random values in JSON of the types that ASN.1 modules assign, by a reader of its own.

usage: tools/module_values.py [--count N] [--seed N] --trials TRIALS.asn FILE.asn..
       tools/module_values.py [--count N] [--seed N] --only TYPE FILE.asn..
       tools/module_values.py --compare VALUES ANSWERS

It prints lines, each a value in the JSON encoding rules (ITU-T X.697). The first form makes ten of
each type of which it finds values, as alternatives of a CHOICE of all these types, Trials.Trial,
which it writes to the file TRIALS.asn. Types that lead to nothing that is read (a name that isn't
assigned, EXTERNAL, fields of object classes and the like) are told on standard error. The second form makes values of one
type. It knows no constraint but the fixed size of a BIT STRING.

The third form compares the lines that it made with the answers to them, each a line: it prints how
many are the same JSON, and those that are not, and ends with status 1 where there are some.
"""
import argparse
import itertools
import json
import random
import re
import string
import sys

TOKEN = re.compile(
    r'(?P<space>\s+|--(?:(?!--)[^\n])*(?:--|(?=\n)|\Z)|/\*.*?\*/)'
    r"|(?P<bits>'[01\s]*'B)|(?P<hex>'[0-9A-Fa-f\s]*'H)"
    r'|(?P<text>"(?:[^"]|"")*")'
    r'|(?P<word>[A-Za-z](?:[A-Za-z0-9_]|-(?=[A-Za-z0-9_]))*)'
    r'|(?P<number>[0-9]+)'
    r'|(?P<sign>::=|\.\.\.|\.\.|\[\[|\]\]|.)',
    re.S,
)
TEXTS = {
    "UTF8String": string.ascii_letters + " é漢😀\"\\",
    "NumericString": string.digits + " ",
    "PrintableString": string.ascii_letters + string.digits + " '()+,-./:=?",
    "VisibleString": string.ascii_letters + string.digits + " ~!#%&*<>@[]^_",
    "ISO646String": string.ascii_letters + string.digits + " ~",
    "IA5String": string.ascii_letters + string.digits + " \t\"",
    "GeneralString": string.ascii_letters + " é漢",
    "TeletexString": string.ascii_letters + " é",
    "T61String": string.ascii_letters + " é",
    "GraphicString": string.ascii_letters + " Zoë",
    "BMPString": string.ascii_letters + " 漢字",
    "UniversalString": string.ascii_letters + " 😀",
}
CLOSED = {
    "REAL", "EXTERNAL", "RELATIVE-OID", "ObjectDescriptor", "EMBEDDED", "CHARACTER",
    "VideotexString", "TIME", "TIME-OF-DAY", "DATE-TIME", "DURATION",
}
DEPTH = 12
# How many types stand in one CHOICE of those in which they are converted.
GROUP = 50


class Unusable(Exception):
    """No value is made of a type."""


def tokens_of(text):
    """Returns the tokens of a text."""
    found = []
    for match in TOKEN.finditer(text):
        if match.lastgroup != "space":
            found.append((match.lastgroup, match.group()))
    return found


class Reader:
    """Goes over tokens."""

    def __init__(self, tokens):
        self.tokens, self.at = tokens, 0

    def peek(self, ahead=0):
        at = self.at + ahead
        return self.tokens[at][1] if at < len(self.tokens) else ""

    def take(self, expected=None):
        token = self.peek()
        if expected is not None and token != expected:
            raise SyntaxError(f"expected {expected}, met {token!r} near {self.tokens[self.at - 5:self.at + 5]}")
        self.at += 1
        return token

    def past(self, token):
        if self.peek() == token:
            self.at += 1
            return True
        return False

    def balanced(self, opening, closing):
        """Takes what stands in brackets, with them."""
        inside, depth = [], 0
        while True:
            token = self.take()
            if token == "":
                raise SyntaxError("the end of the text in brackets")
            inside.append(token)
            depth += (token == opening) - (token == closing)
            if depth == 0:
                return inside

    def module(self):
        """Reads a module: its name, whether lists are extensible, its imports and assignments."""
        name = self.take()
        if self.peek() == "{":
            self.balanced("{", "}")
        self.take("DEFINITIONS")
        extensible = False
        while not self.past("::="):
            extensible |= self.take() == "EXTENSIBILITY"
        self.take("BEGIN")
        if self.past("EXPORTS"):
            while not self.past(";"):
                self.take()
        imports, names = {}, []
        if self.past("IMPORTS"):
            while not self.past(";"):
                if self.past("{"):
                    self.take("}")
                elif self.past("FROM"):
                    home = self.take()
                    imports.update((imported, home) for imported in names)
                    names = []
                    if self.peek() == "{":
                        self.balanced("{", "}")
                elif not self.past(","):
                    names.append(self.take())
        found = {"extensible": extensible, "imports": imports, "types": {}, "values": {}, "templates": {}}
        while not self.past("END"):
            self.assignment(found)
        return name, found

    def assignment(self, found):
        name = self.take()
        parameters = self.balanced("{", "}")[1:-1] if self.peek() == "{" else None
        if self.past("::="):
            read = self.type()
            if parameters is not None:
                found["templates"][name] = (parameters[::2], set(parameters[1::2]) <= {","}, read)
            elif name not in TEXTS:
                found["types"][name] = read
        else:
            self.type()
            self.take("::=")
            value = self.value()
            if parameters is None:
                found["values"][name] = value

    def value(self):
        if self.peek() == "{":
            return self.balanced("{", "}")
        found = [self.take()]
        if found[0] == "-":
            found.append(self.take())
        if self.peek() in (":", "."):
            self.take()
            if self.past("&"):
                return found + ["&"] + self.value()
            return found + ["."] + self.value()
        if self.peek() == "{":
            return found + self.balanced("{", "}")
        return found

    def type(self):
        """Reads a type, with the sizes behind it."""
        while self.past("["):
            while not self.past("]"):
                self.take()
            if self.peek() in ("IMPLICIT", "EXPLICIT"):
                self.take()
        read = self.base()
        sizes = []
        while self.peek() == "(" or self.peek() == "SIZE":
            prefix = ["SIZE"] if self.past("SIZE") else []
            sizes.append(prefix + self.balanced("(", ")"))
        read["sizes"] = sizes
        return read

    def base(self):
        word = self.take()
        if word in TEXTS or word in ("BOOLEAN", "NULL", "UTCTime", "GeneralizedTime", "DATE"):
            return {"kind": word}
        if word == "INTEGER":
            return {"kind": "INTEGER", "numbers": self.named() if self.peek() == "{" else {}}
        if word == "OCTET":
            self.take("STRING")
            return {"kind": "OCTETS"}
        if word == "BIT":
            self.take("STRING")
            if self.peek() == "{":
                self.balanced("{", "}")
            return {"kind": "BITS"}
        if word == "OBJECT":
            self.take("IDENTIFIER")
            return {"kind": "OID"}
        if word == "ANY":
            if self.past("DEFINED"):
                self.take("BY")
                self.take()
            return {"kind": "ANY"}
        if word == "ENUMERATED":
            return {"kind": "ENUMERATED", "items": self.items()}
        if word in ("SEQUENCE", "SET"):
            if self.peek() == "{":
                return {"kind": word, "members": self.members()}
            while self.peek() == "(" or self.peek() == "SIZE":
                self.past("SIZE")
                self.balanced("(", ")")
            self.take("OF")
            return {"kind": f"{word} OF", "element": self.type()}
        if word == "CHOICE":
            return {"kind": "CHOICE", "members": self.members()}
        if word in CLOSED:
            if word in ("EMBEDDED", "CHARACTER"):
                self.take()
            return {"kind": "CLOSED", "name": word}
        if word == "CLASS":
            self.balanced("{", "}")
            if self.past("WITH"):
                self.take("SYNTAX")
                self.balanced("{", "}")
            return {"kind": "CLOSED", "name": word}
        if word == "INSTANCE":
            self.take("OF"), self.take()
            return {"kind": "CLOSED", "name": word}
        home = None
        if self.peek() == "." and self.peek(1) != "&":
            self.take()
            home, word = word, self.take()
        if self.peek() == ".":
            while self.past("."):
                self.take("&"), self.take()
            return {"kind": "CLOSED", "name": f"a field of {word}"}
        if self.peek() == "{":
            return {"kind": "INSTANCE", "home": home, "name": word, "arguments": self.arguments()}
        return {"kind": "NAME", "home": home, "name": word}

    def arguments(self):
        """Reads actual parameters: the types, or nothing where one isn't a type."""
        inside = Reader([("", token) for token in self.balanced("{", "}")[1:-1]])
        found = []
        try:
            while True:
                if not (inside.peek()[:1].isalpha() or inside.peek() == "["):
                    return None
                found.append(inside.type())
                if not inside.past(","):
                    return found if inside.peek() == "" else None
        except SyntaxError:
            return None

    def named(self):
        """Reads named numbers, those by a value's name as that name."""
        inside, numbers = self.balanced("{", "}")[1:-1], {}
        for match in re.finditer(r"(\S+) \( (- )?(\S+) \)", " ".join(inside)):
            numbers[match[1]] = ("-" if match[2] else "") + match[3]
        return numbers

    def items(self):
        items = []
        inside = self.balanced("{", "}")[1:-1]
        depth, fresh = 0, True
        for token in inside:
            depth += (token == "(") - (token == ")")
            if depth == 0 and token == ",":
                fresh = True
            elif fresh and token != "...":
                items.append(token)
                fresh = False
        return items

    def members(self):
        """Reads the entries between braces."""
        self.take("{")
        members = []
        while not self.past("}"):
            if self.past(",") or self.past("..."):
                continue
            if self.past("[["):
                if self.peek(1) == ":":
                    self.take(), self.take()
                while not self.past("]]"):
                    if not self.past(","):
                        members.append({**self.member(), "grouped": True})
            else:
                members.append(self.member())
        return members

    def member(self):
        if self.peek() == "COMPONENTS":
            self.take(), self.take("OF")
            return {"components": self.type()}
        found = {"name": self.take(), "type": self.type(), "presence": "required"}
        if self.past("OPTIONAL"):
            found["presence"] = "optional"
        elif self.past("DEFAULT"):
            found |= {"presence": "default", "default": self.value()}
        return found


class Maker:
    """Makes values of types."""

    def __init__(self, modules, rng):
        self.modules, self.rng = modules, rng
        self.least, self.put = {}, {}

    def find(self, home, wanted, sort="types"):
        """Returns the module and the type or value that a name stands for in a module."""
        module, name = wanted
        if module is not None:
            if module in self.modules and name in self.modules[module][sort]:
                return module, self.modules[module][sort][name]
            raise Unusable(f"{module}.{name}")
        if name in self.modules[home][sort]:
            return home, self.modules[home][sort][name]
        origin = self.modules[home]["imports"].get(name)
        if origin in self.modules and name in self.modules[origin][sort]:
            return origin, self.modules[origin][sort][name]
        homes = [m for m in self.modules if name in self.modules[m][sort]]
        if origin is not None and len(homes) == 1:
            return homes[0], self.modules[homes[0]][sort][name]
        raise Unusable(name)

    def next(self, home, read):
        """Returns the module and the type that a name, with actual parameters or not, stands for."""
        if read["kind"] == "NAME":
            return self.find(read.get("where", home), (read["home"], read["name"]))
        if id(read) not in self.put:
            self.put[id(read)] = self.instance(home, read)
        return self.put[id(read)]

    def instance(self, home, read):
        """Puts the types in the places of parameters."""
        where, (names, plain, body) = self.find(home, (read["home"], read["name"]), "templates")
        given = read["arguments"]
        if not plain or given is None or len(given) != len(names) or body["kind"] == "NAME":
            raise Unusable(f"{read['name']}'s parameters")
        bound = dict(reversed(list(zip(names, ((home, argument) for argument in given)))))
        return where, self.replaced(body, bound)

    def replaced(self, read, bound):
        """Returns a copy of a type with these in the places of names."""
        read = dict(read)
        if read["kind"] == "INSTANCE":
            raise Unusable("actual parameters in a type with parameters")
        if read["kind"] == "NAME" and read["home"] is None and read["name"] in bound:
            home, argument = bound[read["name"]]
            if argument["kind"] != "NAME" or argument["sizes"]:
                return {"kind": "CLOSED", "name": "a type in the place of a parameter", "sizes": []}
            return {**read, "where": home, "home": argument["home"], "name": argument["name"]}
        if "element" in read:
            read["element"] = self.replaced(read["element"], bound)
        if "members" in read:
            read["members"] = [self.replaced_member(member, bound) for member in read["members"]]
        return read

    def replaced_member(self, member, bound):
        if "components" in member:
            if member["components"]["kind"] == "NAME":
                raise Unusable("COMPONENTS OF in a type with parameters")
            return {"components": self.replaced(member["components"], bound)}
        return {**member, "type": self.replaced(member["type"], bound)}

    def number(self, home, token):
        if token.isdigit():
            return int(token)
        where, value = self.find(home, (None, token), "values")
        return self.number(where, value[0])

    def fixed(self, home, sizes):
        """Returns the fixed size that the sizes state, if one is."""
        for size in sizes:
            words = [w for w in size if w not in ("(", ")", "SIZE")]
            if "SIZE" not in size or "..." in words:
                continue
            if len(words) == 1:
                return self.number(home, words[0])
            if len(words) == 3 and words[1] == "..":
                low, high = self.number(home, words[0]), self.number(home, words[2])
                if low == high:
                    return low
        return None

    def fields(self, home, members):
        """Returns the members with those of COMPONENTS OF in place."""
        for member in members:
            if "components" in member:
                if member["components"]["kind"] == "INSTANCE":
                    raise Unusable("COMPONENTS OF a type with actual parameters")
                where, read = self.opened(home, member["components"])
                yield from self.fields(where, read["members"])
            else:
                yield home, member

    def opened(self, home, read):
        seen = 0
        while read["kind"] in ("NAME", "INSTANCE"):
            home, read = self.next(home, read)
            seen += 1
            if seen > 100:
                raise Unusable("a cycle")
        return home, read

    def make(self, home, read, depth, sizes=()):
        rng, kind = self.rng, read["kind"]
        sizes = list(sizes) + read["sizes"]
        if depth > 60:
            raise Unusable("too deep")
        if kind in ("NAME", "INSTANCE"):
            where, found = self.next(home, read)
            if sizes:
                fixed = self.fixed(home, sizes)
                sizes = [["SIZE", "(", str(fixed), ")"]] if fixed is not None else []
            return self.make(where, found, depth + 1, sizes)
        if kind in ("SEQUENCE", "SET"):
            value = {}
            for where, member in self.fields(home, read["members"]):
                required = member["presence"] == "required" and not member.get("grouped")
                if not required and (depth > DEPTH or rng.random() < 0.5):
                    continue
                try:
                    made = self.make(where, member["type"], depth + 1)
                except Unusable:
                    if required:
                        raise
                    continue
                # A value that is the default isn't written, so it isn't made.
                if member["presence"] != "default" or not self.is_default(where, member, made):
                    value[member["name"]] = made
            return value
        if kind == "CHOICE":
            choices = list(self.fields(home, read["members"]))
            if depth > DEPTH:
                choices.sort(key=lambda c: self.depth_of(c[0], c[1]["type"]))
            else:
                rng.shuffle(choices)
            for where, member in choices:
                try:
                    return {member["name"]: self.make(where, member["type"], depth + 1)}
                except Unusable:
                    continue
            raise Unusable("CHOICE")
        if kind.endswith(" OF"):
            # The elements of a SET OF are written in another order, so at most one is made.
            count = 0 if depth > DEPTH else rng.choice([0, 1, 1, 1 if kind == "SET OF" else 2])
            try:
                return [self.make(home, read["element"], depth + 1) for _ in range(count)]
            except Unusable:
                return []
        return self.leaf(home, read, sizes)

    def is_default(self, home, member, made):
        """Returns whether a value is the one that its member's DEFAULT states."""
        where, read = self.opened(home, member["type"])
        stated = "".join(member["default"])
        if read["kind"] == "BOOLEAN":
            return stated.upper() == str(made).upper()
        if read["kind"] == "INTEGER":
            stated = read["numbers"].get(stated, stated)
            if not re.fullmatch("-?[0-9]+", stated):
                stated = str(self.number(home, stated))
            return int(stated) == made
        return made == stated.strip('"')

    def depth_of(self, home, read, seen=0):
        """Returns about how deep the least value of a type is."""
        key = id(read)
        if key in self.least:
            return self.least[key]
        if seen > 30:
            return 99
        self.least[key] = 99
        kind = read["kind"]
        try:
            if kind in ("NAME", "INSTANCE"):
                where, found = self.next(home, read)
                least = self.depth_of(where, found, seen + 1)
            elif kind in ("SEQUENCE", "SET"):
                depths = [
                    self.depth_of(where, m["type"], seen + 1)
                    for where, m in self.fields(home, read["members"])
                    if m["presence"] == "required" and not m.get("grouped")
                ]
                least = 1 + max(depths, default=0)
            elif kind == "CHOICE":
                depths = [self.depth_of(w, m["type"], seen + 1) for w, m in self.fields(home, read["members"])]
                least = 1 + min(depths, default=99)
            elif kind == "CLOSED":
                least = 99
            else:
                least = 0
        except Unusable:
            least = 99
        self.least[key] = least
        return least

    def leaf(self, home, read, sizes):
        rng, kind = self.rng, read["kind"]
        if kind == "BOOLEAN":
            return rng.random() < 0.5
        if kind == "NULL":
            return None
        if kind == "INTEGER":
            return rng.choice([0, 1, -1, rng.randrange(-1000, 1000), rng.randrange(-2**63, 2**64)])
        if kind in ("OCTETS", "ANY"):
            return rng.randbytes(rng.randrange(0, 6)).hex().upper()
        if kind == "BITS":
            fixed = self.fixed(home, sizes)
            length = rng.randrange(0, 20) if fixed is None else fixed
            bits = "".join(rng.choice("01") for _ in range(length))
            digits = "".join(f"{int(bits[i:i + 8].ljust(8, '0'), 2):02X}" for i in range(0, length, 8))
            return digits if fixed is not None else {"length": length, "value": digits}
        if kind == "OID":
            return f"{rng.randrange(0, 3)}.{rng.randrange(0, 40)}.{rng.randrange(0, 2**31)}"
        if kind == "ENUMERATED":
            if not read["items"]:
                raise Unusable("ENUMERATED")
            return rng.choice(read["items"])
        if kind in TEXTS:
            return "".join(rng.choice(TEXTS[kind]) for _ in range(rng.randrange(0, 8)))
        month, day, hour, minute, second = (rng.randrange(*r) for r in ((1, 13), (1, 29), (0, 24), (0, 60), (0, 60)))
        if kind == "UTCTime":
            return f"{rng.randrange(0, 100):02}{month:02}{day:02}{hour:02}{minute:02}{second:02}Z"
        if kind == "GeneralizedTime":
            return f"{rng.randrange(1900, 2100)}{month:02}{day:02}{hour:02}{minute:02}{second:02}Z"
        if kind == "DATE":
            return f"{rng.randrange(1900, 2100)}-{month:02}-{day:02}"
        raise Unusable(read.get("name", kind))


def compare(values, answers):
    """Prints how many answers are the JSON that was made, and which aren't."""
    same, other = 0, 0
    with open(values, encoding="utf-8") as made, open(answers, encoding="utf-8") as given:
        for line, answer in itertools.zip_longest(made, given, fillvalue=""):
            try:
                is_same = json.loads(line) == json.loads(answer)
            except ValueError:
                is_same = False
            same += is_same
            other += not is_same
            if not is_same and other <= 5:
                print(f"  {line[:200].rstrip()}\n    {answer[:200].rstrip()}")
    print(f"  {same} values are written as they were made, {other} aren't")
    return 1 if other else 0


def modules_of(files):
    """Returns the modules of the files."""
    modules = {}
    for file in files:
        with open(file, encoding="utf-8", errors="replace") as opened:
            reader = Reader(tokens_of(opened.read()))
        while reader.at < len(reader.tokens):
            name, module = reader.module()
            modules[name] = module
    return modules


def values_of(maker, home, read, count):
    """Returns lines of values of a type."""
    made = (maker.make(home, read, 0) for _ in range(count))
    return [json.dumps(value, ensure_ascii=False, separators=(",", ":")) for value in made]


def make_trials(maker, count, trials):
    """Prints values of all types, and writes the module with their CHOICE, in which each alternative
    is a CHOICE of some of the types: so none is searched for long."""
    groups = []
    for home, module in maker.modules.items():
        for name, read in module["types"].items():
            try:
                lines = values_of(maker, home, read, count)
            except Unusable as why:
                print(f"{home}.{name}: nothing is made of it: {why}", file=sys.stderr)
                continue
            if not groups or len(groups[-1]) == GROUP:
                groups.append([])
            group, word = f"g{len(groups)}", f"t{len(groups[-1])}-{name}"
            groups[-1].append(f"    {word} {home}.{name}")
            for line in lines:
                print(f'{{"{group}":{{"{word}":{line}}}}}')
    with open(trials, "w", encoding="utf-8") as file:
        inside = ",\n".join(
            f"  g{number} CHOICE {{\n{joined}\n  }}"
            for number, joined in enumerate((",\n".join(group) for group in groups), 1)
        )
        file.write(f"Trials DEFINITIONS AUTOMATIC TAGS ::= BEGIN\nTrial ::= CHOICE {{\n{inside}\n}}\nEND\n")


def make_only(maker, count, wanted):
    """Prints values of the type of this name."""
    for home, module in maker.modules.items():
        if wanted in module["types"]:
            for line in values_of(maker, home, module["types"][wanted], count):
                print(line)
            return
    sys.exit(f"no type {wanted}")


def main():
    parser = argparse.ArgumentParser(description=__doc__.split("\n")[0])
    parser.add_argument("--count", type=int, default=10)
    parser.add_argument("--seed", type=int, default=1)
    parser.add_argument("--compare", action="store_true")
    parser.add_argument("--trials")
    parser.add_argument("--only")
    parser.add_argument("files", nargs="+")
    asked = parser.parse_args()
    if asked.compare:
        sys.exit(compare(*asked.files))
    sys.setrecursionlimit(10000)
    maker = Maker(modules_of(asked.files), random.Random(asked.seed))
    if asked.only is not None:
        make_only(maker, asked.count, asked.only)
    elif asked.trials is not None:
        make_trials(maker, asked.count, asked.trials)
    else:
        parser.error("--trials or --only is missing")


if __name__ == "__main__":
    main()
