#!/usr/bin/env python3
"""Runs the command `asn check` on hostile ASN.1 modules.

usage: tools/hostile_modules.py [-u] [-k PART]

The program is $ASN, or else ./asn. It has to end with status 0, or with status 1 and a refusal
`FILE:LINE:COLUMN: ..` of one line on standard error; where a row knows which, with that status and
with the words that it states. Nothing else is taken for an answer: no other status, no signal, no
run of more than 120 seconds, no more than 4 GB of memory.

First a text with every kind of notation is cut at each token and at each byte, and each of its
tokens is left out, doubled, or put into the next one's place. Each row behind that is a kind of
text at a size and at twice the size: the status, the size of the larger text, the processor time
that it takes, user and system, how many times that of the smaller one this is, and the memory, or
that of this script where it is more.
Where the larger one takes more than 0.2 seconds, it may take at most 2.6 times as long as the
smaller one: the least times of up to four runs of each count. -k runs the rows whose names have
PART in them. -u is for a program that isn't proved, which is slow and takes much memory: the text
isn't cut at bytes, each row is a tenth as large, and neither times nor memory count. The status is
1 where an answer or a time isn't as it should be.
"""
import argparse
import os
import re
import resource
import subprocess
import sys
import tempfile

MEMORY = 4_000_000_000
SECONDS = 120
FAST = 0.2
RATIO = 2.6

SAMPLE = '''-- Every kind of notation. --
Sample { iso standard(0) 1 } DEFINITIONS AUTOMATIC TAGS EXTENSIBILITY IMPLIED ::= BEGIN
EXPORTS A, five;
IMPORTS X, Y FROM Other { iso 5 } Z FROM Third;
/* A comment /* within */ another */
A ::= SEQUENCE {
  a BOOLEAN, b [5] IMPLICIT INTEGER { one(1), two(five), less(-3) } (0..10, ..., MAX) DEFAULT one,
  c BIT STRING { first(0), last(five) } (SIZE (8)) OPTIONAL, ...,
  [[ 2: d OCTET STRING (SIZE (0..MAX)), e NULL ]], COMPONENTS OF B, ..., z UTF8String DEFAULT "a ""word"""
}
B ::= SET { o OBJECT IDENTIFIER, t UTCTime, g GeneralizedTime, d DATE, any ANY DEFINED BY o }
C ::= CHOICE {
  a [APPLICATION 5] EXPLICIT A, b Other.X, ..., c SEQUENCE SIZE (1..five) OF C, d SET (SIZE (5)) OF NULL,
  e SEQUENCE OF SET OF D
}
D ::= ENUMERATED { red, green(5), ..., blue(7) }
E ::= SEQUENCE { r REAL, e EXTERNAL, p EMBEDDED PDV, s CHARACTER STRING, o RELATIVE-OID, t TIME-OF-DAY }
F ::= SEQUENCE { p PrintableString (FROM ("a".."z" | "0".."9")) (SIZE (1..5)), t TeletexString, b BMPString }
UTF8String ::= [UNIVERSAL 12] IMPLICIT OCTET STRING
five INTEGER ::= 5
bits BIT STRING ::= '1010'B
octets OCTET STRING ::= 'A0FF'H
choice C ::= a : { a TRUE, { 1, 2 { } } }
root OBJECT IDENTIFIER ::= { iso member-body(2) five }
other INTEGER ::= Other.five
END
'''
TOKEN = re.compile(r'--(?:(?!--).)*(?:--)?|/\*.*\*/|"(?:[^"]|"")*"|\'[0-9A-F]*\'[BH]|::=|\.\.\.|\.\.|\[\[|\]\]|[\w-]+|\S')


def damaged(tokens):
    """Texts of the tokens with one left out, doubled, or put into the place of the next one."""
    for at, token in enumerate(tokens):
        yield " ".join(tokens[:at] + tokens[at + 1 :])
        yield " ".join(tokens[:at] + [token] + tokens[at:])
        yield " ".join(tokens[:at] + [token, token] + tokens[at + 2 :])


def module(assignments, head="", name="M"):
    return f"{name} DEFINITIONS AUTOMATIC TAGS ::= BEGIN {head}\n{assignments}\nEND\n"


def joined(pattern, size, between=", "):
    """The pattern at each number below the size; `{next}` is the number behind it, and behind the last one 0."""
    return between.join(pattern.format(i=i, next=(i + 1) % size, down=size - i) for i in range(size))


def values(size, name="a"):
    """Values whose names begin so, each of which but the last is the name of the next one."""
    return "".join(f"{name}{i} INTEGER ::= {name}{i + 1}\n" for i in range(size)) + f"{name}{size} INTEGER ::= 5\n"


def included(size):
    """Types that each have the components of A."""
    return joined("B{i} ::= SEQUENCE {{ COMPONENTS OF A }}", size, "\n")


def nested(opening, inside, closing):
    return lambda size: opening * size + inside + closing * size


# Of each row: the name, the text of a size, the size, and the start of what is answered to the text of twice the size: an
# empty text for status 0, words of a refusal, or None for either.
ROWS = [
    ("tokens on one line", lambda n: "A ::= SEQUENCE { " + joined("a{i} NULL", n // 3) + " }", 500_000, ""),
    ("tokens on one line, then one too many", lambda n: "A ::= SEQUENCE { " + joined("a{i} NULL", n // 3) + " } }", 500_000, "expected"),
    ("lines, then a token too many", lambda n: "A ::= SEQUENCE {\n" + joined("a{i} NULL", n // 3, ",\n") + " } }", 500_000, "expected"),
    ("characters of four octets, then a token too many", lambda n: "A ::= NULL /* " + "\U0001F600" * n + " */ }", 1_000_000, "expected"),
    ("white space", lambda n: " \t\n" * n, 1_000_000, ""),
    ("comments", lambda n: "-- --" * n, 1_000_000, ""),
    ("one word", lambda n: "A" * n + " ::= NULL", 1_000_000, ""),
    ("one number", lambda n: "a INTEGER ::= " + "9" * n, 1_000_000, ""),
    ("a digit string", lambda n: "a OCTET STRING ::= '" + "A0" * n + "'H", 1_000_000, ""),
    ("comments in one another", lambda n: nested("/*", "", "*/")(n) + "A ::= NULL", 100_000, ""),
    ("comments in one another without an end", lambda n: "A ::= NULL " + "/*" * n, 500_000, "this comment isn't closed"),
    ("a comment without an end", lambda n: "A ::= NULL /* " + "a" * n, 1_000_000, "this comment isn't closed"),
    ("a comment without an end, of stars", lambda n: "A ::= NULL /*" + "*" * n, 1_000_000, "this comment isn't closed"),
    ("a string without an end", lambda n: 'a UTF8String ::= "' + "a" * n, 1_000_000, "this string isn't closed"),
    ("a string without an end, of quotes", lambda n: 'a UTF8String ::= "' + '""' * n, 500_000, "this string isn't closed"),
    ("digits without an end", lambda n: "a BIT STRING ::= '" + "10" * n, 500_000, "these digits aren't closed"),
    ("braces in a value", lambda n: "a NULL ::= " + nested("{", "", "}")(n), 500_000, ""),
    ("braces in a value without an end", lambda n: "a NULL ::= " + "{" * n, 500_000, None),
    ("parentheses in a constraint", lambda n: "A ::= INTEGER " + nested("(", "5", ")")(n), 500_000, ""),
    ("parentheses in a constraint without an end", lambda n: "A ::= INTEGER " + "(" * n, 500_000, None),
    ("braces behind the name of a module", lambda n: "M " + nested("{", "", "}")(n) + " DEFINITIONS ::= BEGIN END", 500_000, ""),
    ("constraints of one type", lambda n: "A ::= INTEGER " + "(1..5)" * n, 200_000, ""),
    ("tags of one type", lambda n: "A ::= " + "[5] " * n + "NULL", 200_000, ""),
    ("SEQUENCE OF in one another", lambda n: "A ::= " + "SEQUENCE OF " * n + "NULL", 100_000, "types nested beyond 64 levels aren't read"),
    ("SEQUENCE in one another", lambda n: "A ::= " + nested("SEQUENCE { a ", "NULL", " }")(n), 100_000, "types nested beyond 64 levels aren't read"),
    ("types of 64 levels", lambda n: "\n".join(f"A{i} ::= " + "SET OF " * 64 + "NULL" for i in range(n)), 5_000, ""),
    ("types that name the next and themselves", lambda n: module(joined("T{i} ::= SEQUENCE {{ next T{next} OPTIONAL, own T{i} OPTIONAL }}", n, "\n")), 50_000, ""),
    ("choices of the next and themselves", lambda n: module(joined("T{i} ::= CHOICE {{ next T{next}, own T{i}, end NULL }}", n, "\n")), 50_000, ""),
    ("lists of the next", lambda n: module(joined("T{i} ::= SEQUENCE OF T{next}", n, "\n")), 50_000, ""),
    ("names of the next", lambda n: module(joined("T{i} ::= T{next}", n, "\n")), 50_000, ""),
    ("types that all name one", lambda n: module("T ::= SEQUENCE OF T\n" + joined("T{i} ::= T", n, "\n")), 50_000, ""),
    ("a type assigned again and again", lambda n: module("T ::= NULL\n" * n), 100_000, "`T` is assigned twice in its module"),
    ("a type assigned twice, the last one", lambda n: module(joined("T{i} ::= NULL", n, "\n") + f" T{n - 1} ::= NULL"), 50_000, "is assigned twice in its module"),
    ("a value assigned twice, the last one", lambda n: module(joined("a{i} INTEGER ::= 5", n, "\n") + f" a{n - 1} INTEGER ::= 5"), 50_000, "is assigned twice in its module"),
    ("modules of one name", lambda n: module("") * n, 50_000, "`M` is the name of two modules"),
    ("modules", lambda n: "".join(module("A ::= NULL", name=f"M{i}") for i in range(n)), 50_000, ""),
    ("one name through imports in a circle", lambda n: "".join(module("T ::= A", f"IMPORTS A FROM M{(i + 1) % n};", f"M{i}") for i in range(n)), 5_000, ""),
    ("names through imports in a circle", lambda n: "".join(module(f"A{i} ::= A{(i + 1) % n}", f"IMPORTS A{(i + 1) % n} FROM M{(i + 1) % n};", f"M{i}") for i in range(n)), 5_000, ""),
    ("components through imports in a circle", lambda n: "".join(module(f"A{i} ::= SEQUENCE {{ a A{(i + 1) % n} OPTIONAL }}", f"IMPORTS A{(i + 1) % n} FROM M{(i + 1) % n};", f"M{i}") for i in range(n)), 5_000, ""),
    ("exports, and as many imports", lambda n: module("", "EXPORTS " + joined("T{i}", n) + ";") + module("", "IMPORTS " + joined("T{i}", n) + " FROM M;", "N"), 50_000, ""),
    ("exports, and as many imports the other way round", lambda n: module("", "EXPORTS " + joined("T{i}", n) + ";") + module("", "IMPORTS " + joined("T{down}", n - 1) + " FROM M;", "N"), 50_000, ""),
    ("exports, and as many modules that import one", lambda n: module("T ::= NULL", "EXPORTS " + joined("T{i}", n) + ", T;") + "".join(module("", "IMPORTS T FROM M;", f"N{i}") for i in range(n)), 25_000, ""),
    ("exports and imports, then one that isn't exported", lambda n: module("", "EXPORTS " + joined("T{i}", n) + ";") + module("", "IMPORTS " + joined("T{i}", n) + ", T FROM M;", "N"), 50_000, "`T` isn't exported by its module"),
    ("imports from as many modules", lambda n: "".join(module("T ::= NULL", name=f"M{i}") for i in range(n)) + module("", "IMPORTS " + joined("T FROM M{i}", n, " ") + ";", "N"), 25_000, ""),
    ("imports from a module that isn't there", lambda n: module(joined("T{i} ::= NULL", n, "\n")) + module(joined("U{i} ::= T{i}", n, "\n"), "IMPORTS " + joined("T{i}", n) + " FROM K;", "N"), 25_000, ""),
    ("one name, assigned by as many modules that export nothing", lambda n: "".join(module("T ::= NULL", "EXPORTS;", f"M{i}") for i in range(n)) + module("", "IMPORTS " + joined("T", n) + " FROM K;", "N"), 25_000, ""),
    ("components", lambda n: "A ::= SEQUENCE { " + joined("a{i} INTEGER OPTIONAL", n) + " }", 50_000, ""),
    ("components of a SET", lambda n: "A ::= SET { " + joined("a{i} INTEGER OPTIONAL", n) + " }", 50_000, ""),
    ("extension additions", lambda n: "A ::= SEQUENCE { ..., " + joined("[[ a{i} INTEGER ]]", n) + " }", 50_000, ""),
    ("alternatives", lambda n: "A ::= CHOICE { " + joined("a{i} INTEGER", n) + " }", 50_000, ""),
    ("components that all have a DEFAULT", lambda n: "a INTEGER ::= 5 A ::= SEQUENCE { " + joined("a{i} INTEGER DEFAULT a", n) + " }", 25_000, ""),
    ("a component twice, the last one", lambda n: "A ::= SEQUENCE { " + joined("a{i} NULL", n) + f", a{n - 1} NULL }}", 50_000, "stands twice in its list"),
    ("an alternative twice, the last one", lambda n: "A ::= CHOICE { " + joined("a{i} NULL", n) + f", a{n - 1} NULL }}", 50_000, "stands twice in its list"),
    ("an item twice, the last one", lambda n: "A ::= ENUMERATED { " + joined("a{i}", n) + f", a{n - 1} }}", 32_768, "stands twice in its list"),
    ("a named number twice, the last one", lambda n: "A ::= INTEGER { " + joined("a{i}({i})", n) + f", a{n - 1}(0) }}", 50_000, "stands twice in its list"),
    ("a named bit twice, the last one", lambda n: "A ::= BIT STRING { " + joined("a{i}({i})", n) + f", a{n - 1}({n}) }}", 50_000, "stands twice in its list"),
    ("items with numbers", lambda n: "A ::= ENUMERATED { " + joined("a{i}({i})", n) + " }", 32_768, ""),
    ("items with numbers that fall", lambda n: "A ::= ENUMERATED { " + joined("a{i}({down})", n) + " }", 32_768, ""),
    ("items without numbers", lambda n: "A ::= ENUMERATED { " + joined("a{i}", n) + " }", 32_768, ""),
    ("items without numbers beside taken ones", lambda n: "A ::= ENUMERATED { " + joined("a{i}", n // 2) + ", " + joined("b{i}({i})", n // 2) + " }", 32_768, ""),
    ("additional items without numbers", lambda n: "A ::= ENUMERATED { " + joined("a{i}({i})", n // 2) + ", ..., " + joined("b{i}", n // 2) + " }", 32_768, ""),
    ("items, the last of which has the first one's number", lambda n: "A ::= ENUMERATED { " + joined("a{i}({i})", n) + ", b(0) }", 32_768, "has the number of another item"),
    ("named bits", lambda n: "A ::= BIT STRING { " + joined("a{i}({i})", n) + " }", 50_000, ""),
    ("named bits, the last of which has the first one's number", lambda n: "A ::= BIT STRING { " + joined("a{i}({i})", n) + ", b(0) }", 50_000, "has the number of another bit"),
    ("named numbers", lambda n: "A ::= INTEGER { " + joined("a{i}({i})", n) + " }", 50_000, ""),
    ("named numbers that components have by default", lambda n: "A ::= SEQUENCE { " + joined("a{i} B DEFAULT a{i}", n) + " } B ::= INTEGER { " + joined("a{i}({i})", n) + " }", 20_000, ""),
    ("values of the next in a circle", lambda n: joined("a{i} INTEGER ::= a{next}", n, "\n"), 25_000, "`a0` leads to no value"),
    ("values of the next and themselves", lambda n: "a INTEGER ::= a0\n" + joined("a{i} INTEGER ::= a{i}", n, "\n"), 25_000, "`a` leads to no value"),
    ("values of the next", lambda n: values(n) + " A ::= SEQUENCE { a INTEGER DEFAULT a0 }", 25_000, ""),
    ("values of the one before", lambda n: "a0 INTEGER ::= 5\n" + "\n".join(f"a{i} INTEGER ::= a{i - 1}" for i in range(1, n)), 25_000, ""),
    ("values of one that isn't there", lambda n: joined("a{i} INTEGER ::= b", n, "\n"), 25_000, "`b` is neither assigned nor imported"),
    ("sizes by values of the next", lambda n: values(n) + joined("A{i} ::= BIT STRING (SIZE (a{i}))", n, "\n"), 10_000, ""),
    ("values through imports in a circle", lambda n: "".join(module(f"a{i} INTEGER ::= a{(i + 1) % n}", f"IMPORTS a{(i + 1) % n} FROM M{(i + 1) % n};", f"M{i}") for i in range(n)), 5_000, "`a0` leads to no value"),
    ("components of the type before", lambda n: "A0 ::= SEQUENCE { a0 NULL }\n" + "\n".join(f"A{i} ::= SEQUENCE {{ a{i} NULL, COMPONENTS OF A{i - 1} }}" for i in range(1, n)), 5_000, "is too large for COMPONENTS OF"),
    ("components of the type before, twice", lambda n: "A0 ::= SEQUENCE { a0 NULL }\n" + "\n".join(f"A{i} ::= SEQUENCE {{ COMPONENTS OF A{i - 1}, COMPONENTS OF A{i - 1} }}" for i in range(1, n)), 200, "is too large for COMPONENTS OF"),
    ("components of one type", lambda n: "A ::= SEQUENCE { " + joined("a{i} NULL", n) + " }\n" + joined("B{i} ::= SEQUENCE {{ COMPONENTS OF A }}", 100, "\n"), 5_000, "`A` is too large for COMPONENTS OF"),
    ("items of a component, included again and again", lambda n: "A ::= SEQUENCE { a ENUMERATED { " + joined("b{i}", n) + " } }\n" + included(n), 10_000, "`A` is too large for COMPONENTS OF"),
    ("named numbers by default, included again and again", lambda n: "A ::= SEQUENCE { a INTEGER { " + joined("b{i}({i})", n) + f" }} DEFAULT b{n - 1} }}\n" + included(n), 10_000, "`A` is too large for COMPONENTS OF"),
    ("a long name of a component, included again and again", lambda n: "A ::= SEQUENCE { " + "a" * n + " NULL }\n" + included(n), 10_000, "`A` is too large for COMPONENTS OF"),
    ("a long name of a component's type, again and again", lambda n: "A ::= SEQUENCE { a " + "T" * n + " } " + "T" * n + " ::= NULL\n" + included(n), 10_000, "`A` is too large for COMPONENTS OF"),
    ("a long name behind COMPONENTS OF, again and again", lambda n: "A ::= SEQUENCE { COMPONENTS OF " + "T" * n + " } " + "T" * n + " ::= SEQUENCE { }\n" + included(n), 10_000, "`A` is too large for COMPONENTS OF"),
    ("sizes of a component, included again and again", lambda n: "A ::= SEQUENCE { a BIT STRING " + "(SIZE (5)) " * n + "}\n" + included(n), 10_000, "`A` is too large for COMPONENTS OF"),
    ("digits by default, included again and again", lambda n: "A ::= SEQUENCE { a INTEGER DEFAULT " + "0" * n + "5 }\n" + included(n), 10_000, "`A` is too large for COMPONENTS OF"),
    ("components of an ENUMERATED of as many items", lambda n: "A ::= SEQUENCE { " + joined("a{i} E", n) + " } E ::= ENUMERATED { " + joined("b{i}", n) + " }", 25_000, ""),
    ("items by default of an ENUMERATED of as many", lambda n: "A ::= SEQUENCE { " + joined("a{i} E DEFAULT b{i}", n) + " } E ::= ENUMERATED { " + joined("b{i}", n) + " }", 25_000, ""),
    ("items by default of an ENUMERATED of 200", lambda n: "A ::= SEQUENCE { " + joined("a{i} E DEFAULT b199", n) + " } E ::= ENUMERATED { " + joined("b{i}", 200) + " }", 5_000, ""),
    ("a string of as many characters by default", lambda n: "A ::= SEQUENCE { " + joined("a{i} UTF8String DEFAULT b", n) + ' } b UTF8String ::= "' + "c" * n + '"', 50_000, ""),
    ("a string of 1,000 characters by default", lambda n: "A ::= SEQUENCE { " + joined("a{i} UTF8String DEFAULT b", n) + ' } b UTF8String ::= "' + "c" * 1_000 + '"', 25_000, ""),
    ("actual parameters in one another", lambda n: "A ::= " + nested("T { ", "5", " }")(n), 100_000, "types nested beyond 64 levels aren't read"),
    ("braces in actual parameters", lambda n: "A ::= T { " + nested("{", "", "}")(n) + " }", 500_000, ""),
    ("parameters, and as many actual ones", lambda n: "T { " + joined("P{i}", n) + " } ::= SEQUENCE { a P0 OPTIONAL } A ::= T { " + joined("B", n) + " } B ::= NULL", 50_000, ""),
    ("types with the next in the place of a parameter", lambda n: "T { P } ::= CHOICE { release NULL, setup P }\n" + joined("A{i} ::= T {{ A{next} }}", n, "\n"), 25_000, ""),
    ("types with actual parameters, of one of 80 components", lambda n: "T { P } ::= SEQUENCE { " + joined("a{i} P", 80) + " } B ::= NULL\n" + joined("A{i} ::= T {{ B }}", n, "\n"), 5_000, ""),
    ("types with actual parameters, of one of as many components", lambda n: "T { P } ::= SEQUENCE { " + joined("a{i} P", n) + " } B ::= NULL\n" + joined("A{i} ::= T {{ B }}", n, "\n"), 25_000, ""),
    ("names with empty braces", lambda n: module("", "IMPORTS " + joined("T{i} {{}}", n) + " FROM N;"), 50_000, ""),
    ("fields of a class", lambda n: "A ::= B" + ".&a" * n, 200_000, ""),
    ("braces in a class and its syntax", lambda n: "A ::= CLASS { " + nested("{", "", "}")(n) + " } WITH SYNTAX { " + nested("{", "", "}")(n) + " }", 200_000, ""),
    ("names of the next, of 1,000 characters", lambda n: joined(f"{'A' * 1_000}{{i}} ::= {'A' * 1_000}{{next}}", n, "\n"), 2_000, ""),
    ("sizes by values of the next, of 1,000 characters", lambda n: values(n, "a" * 1_000) + joined(f"A{{i}} ::= BIT STRING (SIZE ({'a' * 1_000}{{i}}))", n, "\n"), 1_000, ""),
]
# Texts that are right or wrong by one level.
LEVELS = [
    ("types of 64 levels", "A ::= " + "SEQUENCE OF " * 64 + "NULL", ""),
    ("types of 65 levels", "A ::= " + "SEQUENCE OF " * 65 + "NULL", "types nested beyond 64 levels aren't read"),
    ("components of 64 levels", "A ::= " + nested("SEQUENCE { a ", "NULL", " }")(64), ""),
    ("components of 65 levels", "A ::= " + nested("SEQUENCE { a ", "NULL", " }")(65), "types nested beyond 64 levels aren't read"),
    ("braces of 64 levels", "a NULL ::= " + nested("{", "", "}")(64), ""),
    ("braces of 65 levels", "a NULL ::= " + nested("{", "", "}")(65), ""),
    ("parentheses of 64 levels", "A ::= INTEGER " + nested("(", "5", ")")(64), ""),
    ("parentheses of 65 levels", "A ::= INTEGER " + nested("(", "5", ")")(65), ""),
    ("a comment closed too often", "/* /* */ */ */ A ::= NULL", "expected an assignment or the end of the text, met `*`"),
]


class Program:
    """Runs the program on texts."""

    def __init__(self, path, is_proved, room):
        self.words, self.is_proved = [path, "check"], is_proved
        self.file, self.said = f"{room}/hostile.asn", f"{room}/said"
        # The most memory of a run, in MB.
        self.memory = 0

    def limit(self):
        """Limits the process: an unproved program reserves more memory than there is."""
        resource.setrlimit(resource.RLIMIT_CPU, (SECONDS, SECONDS))
        if self.is_proved:
            resource.setrlimit(resource.RLIMIT_AS, (MEMORY, MEMORY))

    def run(self, text):
        """Returns the status, what was written on standard error, and the processor time."""
        with open(self.file, "w", encoding="utf-8") as file:
            file.write(text)
        with open(self.said, "wb") as said:
            child = subprocess.Popen(
                self.words + [self.file],
                stdin=subprocess.DEVNULL,
                stdout=subprocess.DEVNULL,
                stderr=said,
                preexec_fn=self.limit,
            )
            _, ended, usage = os.wait4(child.pid, 0)
        child.returncode = os.waitstatus_to_exitcode(ended)
        self.memory = usage.ru_maxrss // 1024
        with open(self.said, encoding="utf-8", errors="replace") as said:
            return child.returncode, said.read(), usage.ru_utime + usage.ru_stime

    def wrong(self, status, said, expected):
        """Returns what isn't as it should be about an answer, or None."""
        if status == 0:
            return f"it is read, and should be refused: {expected}" if expected else None
        if status != 1:
            return f"status {status}, and on standard error {said[:100]!r}"
        refusal = re.fullmatch(re.escape(self.file) + r":[1-9][0-9]*:[1-9][0-9]*: ([^\n]+)\n", said)
        if refusal is None:
            return f"no refusal of one line: {said[:100]!r}"
        if expected == "" or (expected and expected not in refusal[1]):
            return f"refused: {refusal[1][:100]}"
        return None


def cut(program):
    """Runs the program on the sample in pieces, prints how many were read and refused, and returns what is wrong."""
    tokens = [token for token in TOKEN.findall(SAMPLE) if not token.startswith(("--", "/*"))]
    wrong = []
    kinds = [
        ("the sample and its tokens", iter([SAMPLE, " ".join(tokens)]), ""),
        ("the sample, cut at each token", (" ".join(tokens[:at]) for at in range(len(tokens))), None),
        ("a token left out, doubled or moved", damaged(tokens), None),
    ]
    if program.is_proved:
        kinds += [
            ("the sample, cut at each byte", (SAMPLE[:at] for at in range(len(SAMPLE))), None),
            ("the sample, begun at each byte", (SAMPLE[at:] for at in range(len(SAMPLE))), None),
        ]
    for name, texts, expected in kinds:
        read = refused = 0
        for text in texts:
            status, said, _ = program.run(text)
            read, refused = read + (status == 0), refused + (status == 1)
            if fault := program.wrong(status, said, expected):
                wrong.append(f"{name}: {fault}: {text[-60:]!r}")
        print(f"{name}: {read} read, {refused} refused", flush=True)
    for name, text, expected in LEVELS:
        status, said, _ = program.run(text)
        print(f"{name}: {'read' if status == 0 else 'refused'}", flush=True)
        if fault := program.wrong(status, said, expected):
            wrong.append(f"{name}: {fault}")
    return wrong


def measured(program, make, size):
    """Returns the answer to the text of twice the size, the least times at either size, and the larger size in bytes."""
    least = {}
    for turn in range(4):
        for times in (1, 2):
            text = make(size * times)
            status, said, seconds = program.run(text)
            least[times] = min(seconds, least.get(times, seconds))
        if least[2] <= max(FAST, RATIO * least[1]) or status not in (0, 1) or not program.is_proved:
            break
    return status, said, least[1], least[2], len(text.encode())


def main():
    parser = argparse.ArgumentParser(description=__doc__.split("\n", maxsplit=1)[0])
    parser.add_argument("-k", default="", metavar="PART")
    parser.add_argument("-u", action="store_true")
    asked = parser.parse_args()
    path = os.environ.get("ASN") or f"{os.path.dirname(os.path.abspath(__file__))}/../asn"
    wrong = []
    with tempfile.TemporaryDirectory() as room:
        program = Program(os.path.abspath(path), not asked.u, room)
        if not asked.k:
            wrong += cut(program)
        print(f"{'text':58} {'status':>6} {'KB':>7} {'seconds':>8} {'twice':>6} {'MB':>5}")
        for name, make, size, expected in ROWS:
            if asked.k not in name:
                continue
            status, said, half, whole, length = measured(program, make, max(size // 10, 2) if asked.u else size)
            twice = whole / max(half, 0.001)
            print(f"{name:58} {status:6} {length // 1000:7} {whole:8.3f} {twice:6.2f} {program.memory:5}", flush=True)
            if fault := program.wrong(status, said, expected):
                wrong.append(f"{name}: {fault}")
            elif program.is_proved and whole > max(FAST, RATIO * half):
                wrong.append(f"{name}: {whole:.3f} seconds are {whole / half:.2f} times those of half the size")
    for line in wrong:
        print(line)
    print(f"{len(wrong)} aren't as they should be")
    sys.exit(1 if wrong else 0)


main()
