#!/usr/bin/env python3
"""Coded DIBOL units as text, and back.

    dibasm asm FILE.txt -o FILE.unit     make a unit from its text, and FILE.names beside it
    dibasm asm FILES.. -o FOLDER         make a unit from each text, with its names
    dibasm asm --no-names ..             the same without names
    dibasm dis FILE.unit [-o FILE.txt]   write the text of a unit
    dibasm test FILES..                  check that each unit comes back from its text

The page DIBASM.md has the text form. What is wrong with a file is reported as FILE: line N: WORDS; then the exit status is 1.
"""

import difflib
import functools
import itertools
import math
import os
import re
import signal
import stat
import sys
import zlib

KINDS = ["alpha", "decimal", "record"]

# What a strict field has in byte 1 of its entry.
STRICT = 0x80

WORDS = dict(enumerate(["set", "clear", "incr", "decr", "upcase", "locase", "goto", "ifzero",
                        "call", "return", "stop", "computed", "using", "for", "loopend", "exitloop", "nextloop",
                        "onerror", "offerror"], 1))
CODES = {word: code for code, word in WORDS.items()}

# The words that begin the line of a statement: using stands inside that of a set.
FIRST = [word for word in CODES if word != "using"]

# The other words that begin a line.
OTHERS = ["data", "field", "literals", "expr", "statement", "trailer", "patch", "raw"]
REPEATS = ["repeat", "end"]

# The parts of a statement that hold expressions, a target, and anything at all, by its word, and the word before the target. What b
# holds of a for are three expressions in a row.
PLACES = {"set": "ab", "ifzero": "b", "computed": "b", "using": "abc", "for": "ab"} | dict.fromkeys(list(CODES)[1:6], "a")
TARGET = {"goto": "c", "ifzero": "c", "call": "c", "for": "c", "onerror": "c"}
BEFORE_TARGET = {"ifzero": "goto", "for": "end"}
USED = {word: PLACES.get(word, "") + TARGET.get(word, "") for word in CODES} | {"computed": "ab"}

# The words between the three expressions of a for.
ROW = ["to", "by"]

# The operators on two values by binding, loosest first; .NOT. has a level to itself.
LEVELS = [
    {".OR.": 0x1E, ".XOR.": 0x1F},
    {".AND.": 0x1D},
    {},
    {".EQ.": 0x16, ".NE.": 0x17, ".GT.": 0x18, ".LT.": 0x19, ".GE.": 0x1A, ".LE.": 0x1B},
    {"+": 0x10, "-": 0x11},
    {"*": 0x12, "/": 0x13},
    {"#": 0x14},
]
NOT_LEVEL, TIGHTEST = 2, len(LEVELS)
NEGATE, NOT = 0x15, 0x1C
BINARY = {code: (sign, level) for level, signs in enumerate(LEVELS)
          for sign, code in signs.items()}
SIGNS = {NEGATE: "neg", NOT: ".NOT."} | {code: sign for code, (sign, _) in BINARY.items()}
SIGN_CODES = {sign: code for code, sign in SIGNS.items()}
BOUNDS = {2: "", 3: "()", 4: "(,)", 5: "(:)"}
WIDTHS = {1: 3, 6: 4} | dict.fromkeys(BOUNDS, 2) | dict.fromkeys(SIGNS, 0)

# No expression nests deeper. Longer ones are written in postfix order, so that none nests too deep to be read back.
DEPTH_MOST = INFIX_MOST = 64

# No unit that is read, and no bytes that a text writes out, are longer; and no text is, nor what its repeats write out. A text has room
# for the longest unit.
UNIT_MOST = 1 << 18
TEXT_MOST = 1 << 21

# A longer text of a unit's parts is not tried: its statements share long expressions, and each would hold its own.
TRIED_MOST = 1_000_000

# A number has no more figures; of a longer word so many bytes are shown; and among so many names the one is looked for that a wrong
# one may mean.
FIGURES_MOST = 9
SHOWN_MOST = 60
NAMES_MOST = 1000

TOKEN = re.compile(r"""\s*(?:
    (?P<comment>;.*) | (?P<string>"(?:[^"\\]|\\.)*") | (?P<hex><[0-9A-Fa-f\s]*>) |
    (?P<placed>(?:num|alpha)@\d+:\d+) | (?P<word>[A-Za-z_]\w*) | (?P<number>\d+) |
    (?P<sign>\.[A-Z]+\. | \.\.\. | [-+*/\#()\[\],:=@%]))""", re.X | re.A)
BLANKS = " \t\r\f\v"
ESCAPE = re.compile(r"\\(x[0-9A-Fa-f]{2}|.)")
COUNTER = re.compile(r"\{(?:(\d+)\*)?i(?:([+-])(\d+))?\}", re.A)
RUN = re.compile(rb"(.)\1{15,}", re.S)
PIECE = re.compile(rb"[ -~]{1,60}|[^ -~]{1,20}")

# The word for no file of names; how one begins, and how long it is at most; the names that may stand in it, and what may be told of a
# source.
NO_NAMES = "--no-names"
NAMES_HEAD = "boxlever names 1"
NAMES_LONGEST = 1 << 16
NAME = re.compile(r"[A-Za-z][A-Za-z0-9$_]{0,29}")
SOURCE = re.compile(r"[!-~]+")

# How bytes are shown, by Latin-1: 20 to 7E as they are, but a backslash twice; all else in hex.
SHOWN = {code: f"\\x{code:02X}" for code in range(256) if not 32 <= code <= 126} | {92: "\\\\"}


class Fault(Exception):
    """What is wrong with a text."""


class TooLong(Exception):
    """A text of a unit takes more room than it has."""


def escaped(data):
    """Bytes as they are shown."""
    return data.decode("latin-1").translate(SHOWN)


def quoted(data):
    """Bytes as they are shown in quotes."""
    return '"' + escaped(data).replace('"', '\\"') + '"'


def shown(text):
    """A piece of a text in quotes, its bytes as they stand in a file, and cut where it is long."""
    data = text.encode(errors="replace")
    return quoted(data[:SHOWN_MOST]) + ".." * (len(data) > SHOWN_MOST)


def meant(word, names):
    """A question for the nearest of some names, if one is near."""
    few = {name.lower(): name for name in itertools.islice(names, NAMES_MOST) if len(name) <= SHOWN_MOST}
    near = difflib.get_close_matches(word.lower(), few, 1) if len(word) <= SHOWN_MOST else []
    return f"; did you mean {shown(few[near[0]])}?" if near else ""


def number_of(text):
    """The number that some figures are."""
    figures = text.lstrip("0") or "0"
    if len(figures) > FIGURES_MOST:
        raise Fault(f"the number {shown(text)} is too great")
    return int(figures)


def big(number, width=2):
    """The bytes of a number."""
    if number >= 256 ** width:
        raise Fault(f"{number} does not fit in {width} byte{'s' * (width > 1)}")
    return number.to_bytes(width, "big")


def words_of(data):
    """The two-byte numbers of some bytes."""
    return [int.from_bytes(data[at:at + 2], "big") for at in range(0, len(data) - 1, 2)]


def entry(first, zero, *parts):
    """A field entry or a statement."""
    return big(first, 1) + big(zero, 1) + b"".join(map(big, parts))


TOO_MANY = f"the text writes out more than {UNIT_MOST} bytes"

# What is wanted of a line, in words.
SORTS = {"word": "a name", "number": "a number", "string": "a string or hex"}


class Line:
    """The tokens of one line, taken from the left."""

    def __init__(self, text):
        self.tokens, self.at, at, text = [], 0, 0, text.rstrip(BLANKS)
        while at < len(text):
            match = TOKEN.match(text, at)
            if not match:
                raise Fault(f"{shown(text[at:].lstrip(BLANKS))} cannot be read")
            at = match.end()
            if match.lastgroup != "comment":
                self.tokens.append((match.lastgroup, match[match.lastgroup]))

    def peek(self, ahead=0):
        at = self.at + ahead
        return self.tokens[at] if at < len(self.tokens) else ("end", "")

    def is_done(self):
        return self.peek()[0] == "end"

    def here(self):
        """What stands here, in words."""
        return "the line ends" if self.is_done() else f"{shown(self.peek()[1])} stands"

    def take(self, kind):
        """Takes a token of a kind."""
        found, text = self.peek()
        if found != kind:
            raise Fault(f"{SORTS.get(kind, kind)} is wanted where {self.here()}")
        self.at += 1
        return text

    def pass_by(self, text):
        """Passes the very word or sign that is wanted."""
        if not self.accept(text):
            raise Fault(f"{shown(text)} is wanted where {self.here()}")

    def accept(self, text):
        found = self.peek() in (("sign", text), ("word", text))
        self.at += found
        return found

    def number(self):
        return number_of(self.take("number"))

    def name(self):
        return self.take("word")

    def term(self):
        """Some bytes: a string or hex."""
        if self.peek()[0] == "hex":
            text = self.take("hex")
            try:
                return bytes.fromhex(text[1:-1])
            except ValueError:
                raise Fault(f"{shown(text)} is not hex: a byte has two figures") from None
        text = ESCAPE.sub(unescaped, self.take("string")[1:-1])
        try:
            return text.encode("latin-1")
        except UnicodeEncodeError as fault:
            raise Fault(f"the character U+{ord(text[fault.start]):04X} is beyond Latin-1, and has no byte") from None

    def bytes(self):
        """Terms to the end of the line, each with a count before it or not."""
        result = bytearray()
        while not self.is_done():
            count = 1
            if self.peek()[0] == "number":
                count = self.number()
                self.pass_by("*")
            term = self.term()
            if len(result) + count * len(term) > UNIT_MOST:
                raise Fault(TOO_MANY)
            result += count * term
        return bytes(result)

    def changes(self, parts):
        """The parts, changed as NAME=VALUE says up to the end of the line."""
        while not self.is_done():
            name = self.name()
            if name not in parts:
                raise Fault(f"unknown part {shown(name)}{meant(name, parts)}")
            self.pass_by("=")
            parts[name] = self.term() if name == "mark" else self.number()
        return parts


class Assembler:
    """Takes the lines of a text and gives the unit. `at` is the line that is looked at, and a fault is reported with it."""

    def __init__(self):
        self.image, self.fields = bytearray(), bytearray()
        self.expressions, self.literals, self.statements = bytearray(), bytearray(), []
        self.raw, self.trailer, self.patches = None, {}, []
        self.names, self.placed = {"field": {}, "label": {}, "expression": {}}, {}
        self.at = self.written = self.repeated = self.depth = 0

    def lines(self, lines):
        """Takes all lines, repeats written out."""
        number = 0
        while number < len(lines):
            self.at = number + 1
            words = bare(lines[number])
            if words[:1] == ["repeat"]:
                number = self.repeat(lines, number + 1, words[1:])
            else:
                self.line(lines[number])
            number += 1
        self.at = len(lines) - (lines[-1] == "" != lines[0])

    def repeat(self, lines, start, count):
        """Takes the lines from `start` up to the end of a repeat, as often as it says, and gives where that stands."""
        end = next((at for at in range(start, len(lines)) if bare(lines[at]) == ["end"]), 0)
        if not end or len(count) != 1 or not re.fullmatch("[0-9]+", count[0]):
            raise Fault("repeat has a count, and an end below it")
        turns = number_of(count[0])
        self.repeated += turns * sum(len(line) + 1 for line in lines[start:end])
        if self.repeated > TEXT_MOST:
            raise Fault(f"repeats write out more than {TEXT_MOST} characters")
        for i in range(turns if end > start else 0):
            for at in range(start, end):
                self.at = at + 1
                self.line(COUNTER.sub(functools.partial(counted, i), lines[at]))
        return end

    def line(self, text):
        line = Line(text)
        while line.peek()[0] == "word" and line.peek(1) == ("sign", ":"):
            self.add_name("label", line.name(), len(self.statements))
            line.pass_by(":")
        if line.is_done():
            return
        word = line.name()
        if word in FIRST:
            self.statement(word, line)
        elif word in KINDS:
            self.field(word, line)
        elif word in OTHERS:
            getattr(self, "do_" + word)(line)
        elif word in REPEATS:
            raise Fault(f"{shown(word)} stands alone, and no repeat inside another")
        else:
            raise Fault(f"unknown word {shown(word)}{meant(word, [*FIRST, *KINDS, *OTHERS, *REPEATS])}")
        if not line.is_done():
            raise Fault(f"the line should end where {line.here()}")

    def add_name(self, sort, name, value):
        """Gives a name of a sort its value. It stands once."""
        if name in self.names[sort]:
            raise Fault(f"the {sort} {name[:SHOWN_MOST]} stands in line {self.names[sort][name][1]} already")
        self.names[sort][name] = value, self.at

    def value(self, sort, name):
        """What a name of a sort stands for."""
        names = self.names[sort]
        if name not in names:
            raise Fault(f"unknown {sort} {shown(name)}{meant(name, names)}")
        return names[name][0]

    def bytes(self, line):
        """The bytes to the end of a line. All that are so written are counted."""
        data = line.bytes()
        self.written += len(data)
        if self.written > UNIT_MOST:
            raise Fault(TOO_MANY)
        return data

    def do_data(self, line):
        self.image += self.bytes(line)

    def do_literals(self, line):
        self.literals += self.bytes(line)

    def do_raw(self, line):
        self.raw = bytearray() if self.raw is None else self.raw
        self.raw += self.bytes(line)

    def do_patch(self, line):
        self.patches.append((self.at, line.number(), self.bytes(line)))

    def do_trailer(self, line):
        told = line.changes(dict.fromkeys(["D", "F", "E", "P", "N", "mark"]))
        self.trailer |= {name: (self.at, value) for name, value in told.items() if value is not None}

    def do_field(self, line):
        self.add_field(line.name(), self.eight(line))

    def do_statement(self, line):
        self.statements.append((self.at, self.eight(line)))

    def do_expr(self, line):
        name = line.name()
        data = self.expression(line) if line.accept("=") else self.bytes(line)
        self.add_name("expression", name, len(self.expressions))
        self.placed.setdefault(data, len(self.expressions))
        self.expressions += data

    def eight(self, line):
        data = self.bytes(line)
        if len(data) != 8:
            raise Fault(f"an entry is 8 bytes long, and here are {len(data)}")
        return data

    def field(self, word, line):
        name, offset, size, count = line.name(), line.number(), line.number(), 1
        if re.fullmatch("x[0-9]+", line.peek()[1]):
            count = number_of(line.name()[1:])
        parts = {"kind": KINDS.index(word), "zero": STRICT if line.accept("strict") else 0}
        if line.accept("with"):
            line.changes(parts)
        self.add_field(name, entry(parts["kind"], parts["zero"], offset, size, count))

    def add_field(self, name, data):
        self.add_name("field", name, len(self.fields) // 8)
        self.fields += data

    def statement(self, word, line):
        parts, table = {"code": CODES[word], "zero": 0, "a": 0, "b": 0, "c": 0}, []
        for part in PLACES.get(word, ""):
            if word + part in ("setb", "forb"):
                line.pass_by("=")
            parts[part] = self.row(line) if word + part == "forb" else self.place(line)
        if word == "set" and line.accept("using"):
            parts |= {"code": CODES["using"], "b": self.place(line), "c": parts["b"]}
        if word in BEFORE_TARGET:
            line.pass_by(BEFORE_TARGET[word])
        if word in TARGET:
            parts["c"] = self.target(line)
        if word == "computed" and line.accept("of"):
            parts["a"] = line.number()
        elif word == "computed":
            line.pass_by("goto")
            while line.peek()[0] in ("number", "word") and line.peek()[1] != "with":
                table.append(self.target(line))
            parts["a"] = len(table)
        if line.accept("with"):
            line.changes(parts)
        self.statements.append((self.at, parts))
        self.statements += [(self.at, {"code": 7, "zero": 0, "a": 0, "b": 0, "c": c}) for c in table]

    def target(self, line):
        return line.number() if line.peek()[0] == "number" else line.name()

    def place(self, line):
        """The offset of the expression that stands here."""
        return self.offset(line) if line.accept("@") else self.added(self.expression(line))

    def row(self, line):
        """The offset of the three expressions of a for, which stand here or in a row at an offset."""
        if line.accept("@"):
            return self.offset(line)
        data = self.expression(line)
        for word in ROW:
            line.pass_by(word)
            data += self.expression(line)
        return self.added(data)

    def offset(self, line):
        """The offset that is told here."""
        if line.peek()[0] == "number":
            return line.number()
        spot = self.value("expression", line.name())
        return spot + line.number() if line.accept("+") else spot

    def added(self, data):
        """The offset of some expressions, which are added if they were not before. Equal ones are placed once."""
        if data not in self.placed:
            self.placed[data] = len(self.expressions)
            self.expressions += data
        return self.placed[data]

    def expression(self, line):
        self.depth = 0
        if line.peek()[0] == "hex":
            return line.term()
        return bytes(self.postfix(line) if line.accept("[") else self.infix(line) + b"\0")

    def postfix(self, line):
        data, close = bytearray(), b"\0"
        while not line.accept("]"):
            kind, text = line.peek()
            if line.accept("..."):
                close = b""
            elif kind == "hex":
                data += line.term()
            elif kind in ("sign", "word") and text in SIGN_CODES:
                data += big(SIGN_CODES[line.take(kind)], 1)
            elif kind in ("string", "number", "placed"):
                data += self.literal(line)
            else:
                number, form = self.field_number(line), 2
                if line.accept("("):
                    form = 4 if line.accept(",") else 5 if line.accept(":") else 3
                    line.pass_by(")")
                data += big(form, 1) + big(number)
        return data + close

    def deeper(self, read, line, *level):
        """What is read inside of what is being read."""
        self.depth += 1
        if self.depth > DEPTH_MOST:
            raise Fault(f"an expression nests deeper than {DEPTH_MOST}")
        data = read(line, *level)
        self.depth -= 1
        return data

    def infix(self, line, level=0):
        if level == TIGHTEST:
            return self.primary(line)
        if level == NOT_LEVEL and line.accept(".NOT."):
            return self.deeper(self.infix, line, level) + big(NOT, 1)
        data = bytearray(self.infix(line, level + 1))
        while line.peek()[1] in LEVELS[level]:
            code = LEVELS[level][line.take("sign")]
            data += self.infix(line, level + 1) + big(code, 1)
        return data

    def primary(self, line):
        if line.accept("-"):
            return self.deeper(self.primary, line) + big(NEGATE, 1)
        if line.accept("("):
            data = self.deeper(self.infix, line)
            line.pass_by(")")
            return data
        if line.peek()[0] in ("string", "number", "placed"):
            return self.literal(line)
        number, form, bounds = self.field_number(line), 2, b""
        if line.accept("("):
            form, bounds = 3, self.deeper(self.infix, line)
            if line.peek()[1] in (",", ":"):
                form = 4 if line.take("sign") == "," else 5
                bounds += self.deeper(self.infix, line)
            line.pass_by(")")
        return bounds + big(form, 1) + big(number)

    def field_number(self, line):
        return line.number() if line.accept("%") else self.value("field", line.name())

    def literal(self, line):
        """An item 01 or 06. A literal without a place is found among the literals or added."""
        kind, text = line.peek()
        if kind == "placed":
            sort, place, length = re.split("[@:]", line.take(kind))
            return literal_item(sort == "num", number_of(place), number_of(length))
        data = line.take(kind).encode() if kind == "number" else line.term()
        place = self.literals.find(data)
        if place < 0:
            place = len(self.literals)
            self.literals += data
        return literal_item(kind == "number", place, len(data))

    def resolved(self, statement):
        if isinstance(statement, bytes):
            return statement
        code, zero, a, b, c = statement.values()
        return entry(code, zero, a, b, self.value("label", c) if isinstance(c, str) else c)

    def parts(self):
        """The unit of all parts, with its trailer."""
        end, statements = self.at, bytearray()
        for self.at, statement in self.statements:
            statements += self.resolved(statement)
        unit = self.image + self.fields + self.expressions + self.literals + statements
        lengths = dict(zip("DFEPN", self.lengths())) | {"mark": b"DB"}
        for name, length in lengths.items():
            self.at, value = self.trailer.get(name, (end, length))
            if name != "mark" and value > 0xFFFF:
                raise Fault(f"{name} is {value}, and the trailer has 2 bytes for it")
            unit += value if name == "mark" else big(value)
        return unit

    def lengths(self):
        """D, F, E, P and N of the parts."""
        return [len(self.image), len(self.fields) // 8, len(self.expressions), len(self.literals), len(self.statements)]

    def unit(self):
        unit = self.parts() if self.raw is None else self.raw
        for self.at, start, data in self.patches:
            if start + len(data) > len(unit):
                raise Fault(f"the patch at {start} leaves the unit, which has {len(unit)} bytes")
            unit[start:start + len(data)] = data
        return bytes(unit)


def literal_item(is_number, place, length):
    if is_number:
        return b"\1" + big(place) + big(length, 1)
    return b"\6" + big(place) + big(length)


def bare(line):
    """The words of a line without its comment."""
    return line.split(";")[0].split()


def counted(i, counter):
    """What a counter like {8*i+1} comes to in turn i of a repeat."""
    factor, sign, number = counter.groups()
    return str(number_of(factor or "1") * i + number_of(number or "0") * (-1 if sign == "-" else 1))


def unescaped(escape):
    """The character that a backslash stands for with what follows it."""
    text = escape[1]
    if text in ('"', "\\"):
        return text
    if len(text) == 1:
        raise Fault(f'\\{escaped(text.encode())} is no escape: a string has \\", \\\\ and \\xHH alone')
    return chr(int(text[1:], 16))


def assembled(text):
    """The assembler that has taken a text, and the unit that it makes."""
    assembler = Assembler()
    try:
        assembler.lines(text.split("\n"))
        return assembler, assembler.unit()
    except Fault as fault:
        raise Fault(f"line {assembler.at}: {fault}") from None


def asm(text):
    """The unit that a text makes."""
    return assembled(text)[1]


def named_asm(text):
    """The unit that a text makes, and the names that the text has for its fields, by their numbers. Those of a raw unit have none."""
    assembler, unit = assembled(text)
    names = assembler.names["field"] if assembler.raw is None else {}
    return unit, {number: name for name, (number, _) in names.items()}


def asm_with_names(text, source):
    """The unit that a text makes, and the file of names beside it, which tells of this source."""
    assembler, unit = assembled(text)
    rows = [f"{NAMES_HEAD} {len(unit)} {zlib.crc32(unit):08X} {source if SOURCE.fullmatch(source) else '-'}", *name_rows(assembler, unit)]
    return unit, "".join(row + "\n" for row in rows).encode()


def name_rows(assembler, unit):
    """The rows of a file of names: the fields that have one, and the line and the label of every statement. There are none where the
    unit is cut otherwise than into the parts that the text has."""
    if assembler.raw is not None or words_of(unit[-12:])[:5] != assembler.lengths():
        return
    for name, (number, _) in assembler.names["field"].items():
        if NAME.fullmatch(name):
            yield f"F {number} {name}"
    labels = {}
    for name, (number, _) in assembler.names["label"].items():
        if NAME.fullmatch(name):
            labels.setdefault(number, name)
    for number, (line, _) in enumerate(assembler.statements):
        yield f"S {number} {line}" + (f" {labels[number]}" if number in labels else "")


class Disassembler:
    """Writes the text of a unit whose parts fill it.

    With `inline` the expressions stand in the statements, and the assembler is left to place
    them and the literals. Without it each part is written out as it lies. Reading items and
    writing them takes of the `room`, so that no unit is looked at for long.
    """

    def __init__(self, unit, inline, room=math.inf):
        D, F, E, P, N = lengths_of(unit)
        ends = [0, D, D + 8 * F, D + 8 * F + E, D + 8 * F + E + P, len(unit) - 12]
        parts = [unit[start:end] for start, end in zip(ends, ends[1:])]
        self.image, fields, self.expressions, self.literals, statements = parts
        self.fields = [fields[at:at + 8] for at in range(0, 8 * F, 8)]
        self.names = ["ADRF"[min(field[0], 3)] + str(i) for i, field in enumerate(self.fields)]
        self.statements = [statements[at:at + 8] for at in range(0, 8 * N, 8)]
        self.targets = {words_of(data)[3] for data in self.statements
                        if WORDS.get(data[0]) in TARGET}
        self.mark, self.inline, self.room = unit[-2:], inline, room

    def take(self, room):
        self.room -= room
        if self.room < 0:
            raise TooLong

    def lines(self):
        yield from wrap("data", self.image)
        yield from map(self.field, self.names, self.fields)
        if not self.inline:
            yield from wrap("literals", self.literals)
            yield from self.expression_lines()
        i = 0
        while i < len(self.statements):
            text, taken = self.statement(i)
            yield f"L{i}: {text}" if i in self.targets else text
            i += taken
        if self.mark != b"DB":
            yield "trailer mark=" + hexed(self.mark)

    def field(self, name, data):
        if data[0] >= len(KINDS):
            return f"field {name} {hexed(data)}"
        _, offset, size, count = words_of(data)
        times = f" x{count}" if count != 1 else ""
        choice = " strict" if data[1] == STRICT else changed(zero=data[1])
        return f"{KINDS[data[0]]} {name} {offset} {size}{times}{choice}"

    def expression_lines(self):
        """The expressions, cut where the statements say that one starts."""
        starts = {words_of(data)[" abc".index(part)] for data in self.statements
                  for part in PLACES.get(WORDS.get(data[0]), "")}
        starts = sorted(start for start in starts | {0} if start < len(self.expressions))
        for start, end in zip(starts, starts[1:] + [len(self.expressions)]):
            while start < end:
                items, after, closed = self.items(start, end)
                if items:
                    yield f"expr X{start} = {self.expression(items, closed)}"
                    start = after
                else:
                    yield f"expr X{start} {' '.join(terms(self.expressions[start:end]))}"
                    start = end

    def statement(self, i):
        """The text of statement i, and how many statements it stands for."""
        data = self.statements[i]
        if data[0] not in WORDS:
            return "statement " + hexed(data), 1
        word, table = WORDS[data[0]], []
        _, a, b, c = words_of(data)
        parts = {"zero": data[1], "a": a, "b": b, "c": c}
        text = [word, " = ".join(self.place(parts[part]) for part in PLACES.get(word, ""))]
        if word == "using":
            text = ["set", f"{self.place(a)} = {self.place(c)} using {self.place(b)}"]
        if word == "for":
            text = [word, f"{self.place(a)} = {self.row(b)}"]
        if word == "computed":
            table = self.table(i + 1, i + 1 + a)
            text += ["goto", *table] if table else [f"of {a}"]
        if word in TARGET:
            text += [BEFORE_TARGET.get(word), self.target(c)]
        unused = {name: parts[name] for name in parts if name not in USED[word]}
        return " ".join(filter(None, text)) + changed(**unused), 1 + len(table)

    def table(self, start, end):
        """The targets of these GOTOs, if they can be written with their computed GOTO."""
        rows = range(start, end)
        if end > len(self.statements) or not all(self.statements[i][:6] == b"\7\0\0\0\0\0" for i in rows):
            return []
        return [] if self.targets & set(rows) else [self.target(words_of(self.statements[i])[3]) for i in rows]

    def target(self, c):
        return f"L{c}" if c < len(self.statements) else str(c)

    @functools.cache
    def place(self, offset):
        return self.inlined(offset)[0] or self.spot(offset)

    @functools.cache
    def row(self, offset):
        """The three expressions of a for, or where they stand in a row."""
        texts, at = [], offset
        for _ in range(1 + len(ROW)):
            text, at = self.inlined(at)
            texts.append(text)
        if not all(texts):
            return self.spot(offset)
        return texts[0] + "".join(f" {word} {text}" for word, text in zip(ROW, texts[1:]))

    def inlined(self, offset):
        """The text of an expression that stands in its statement, nothing if it does not, and the offset behind it."""
        items, after, closed = self.items(offset, len(self.expressions)) if self.inline else ([], offset, False)
        return self.expression(items, closed) if items and closed else "", after

    def spot(self, offset):
        return f"@X{offset}" if offset < len(self.expressions) else f"@{offset}"

    def items(self, at, end):
        """The items from `at` up to 00 or the end, the offset behind, and whether 00 was met.
        There are none if they cannot be read to such a place."""
        items = []
        while at < end and self.expressions[at] != 0:
            code = self.expressions[at]
            after = at + 1 + WIDTHS.get(code, end)
            if after > end:
                return [], at, False
            items.append((code, self.expressions[at + 1:after]))
            self.take(1)
            at = after
        return items, at + (at < end), at < end

    def expression(self, items, closed):
        text = self.infix(items) if closed and len(items) <= INFIX_MOST else None
        return text or f"[{' '.join(map(self.item, items))}{'' if closed else ' ...'}]"

    def infix(self, items):
        """The items as an infix expression, or nothing if they do not make one."""
        held = []

        def take(level=0):
            text, binding = held.pop()
            return text if binding >= level else f"({text})"

        try:
            for item in items:
                code, text, level = item[0], self.item(item), TIGHTEST
                if code in BINARY:
                    level = BINARY[code][1]
                    right, left = take(level + 1), take(level)
                    text = f"{left} {text} {right}"
                elif code == NOT:
                    text, level = f"{text} {take(NOT_LEVEL)}", NOT_LEVEL
                elif code == NEGATE:
                    text = "-" + take(TIGHTEST)
                elif code in (4, 5):
                    end, start = take(), take()
                    text = f"{text[:-2]}{start}{text[-2]}{end})"
                elif code == 3:
                    text = f"{text[:-1]}{take()})"
                held.append((text, level))
        except IndexError:
            return None
        return held[0][0] if len(held) == 1 else None

    def item(self, item):
        code, operands = item
        if code in SIGNS:
            return SIGNS[code]
        if code in BOUNDS:
            number = words_of(operands)[0]
            name = self.names[number] if number < len(self.names) else f"%{number}"
            return name + BOUNDS[code]
        place, length = (int.from_bytes(half, "big") for half in (operands[:2], operands[2:]))
        data = self.literals[place:place + length]
        self.take(length)
        if len(data) == length > 0 and (self.inline or self.literals.find(data) == place):
            if code == 6:
                return quoted(data)
            if data.isdigit():
                return data.decode()
        return f"{'num' if code == 1 else 'alpha'}@{place}:{length}"


def lengths_of(unit):
    """D, F, E, P and N, or nothing if the parts do not fill the unit."""
    *lengths, _ = words_of(unit[-12:]) or [None]
    if len(unit) < 12 or sum(map(int.__mul__, lengths, [1, 8, 1, 1, 8])) + 12 != len(unit):
        return None
    return lengths


def figures(data):
    """A decimal as a number in figures: spaces in front are zeros, p to y at its end are 0 to 9 with a minus. Nothing where it is no
    number."""
    if not re.fullmatch(rb" *(?:[0-9]*[0-9p-y])?", data):
        return ""
    data = data.lstrip(b" ") or b"0"
    sign, last = ("", data[-1:]) if data[-1] < 58 else ("-", bytes([data[-1] - 64]))
    found = (data[:-1] + last).lstrip(b"0").decode()
    return sign + found if found else "0"


def changed(**parts):
    changes = [f"{name}={value}" for name, value in parts.items() if value]
    return " ".join([" with", *changes]) if changes else ""


def hexed(data):
    return "<" + data.hex(" ").upper() + ">"


def terms(data):
    """Bytes as terms: long runs with a count, text as strings, the rest in hex."""
    at = 0
    for run in [*RUN.finditer(data), None]:
        for piece in PIECE.findall(data[at:run.start() if run else len(data)]):
            yield quoted(piece) if 32 <= piece[0] <= 126 else hexed(piece)
        if run:
            yield f"{len(run[0])}*{hexed(run[1])}"
            at = run.end()


def wrap(word, data):
    """Lines that begin with the word and hold the bytes."""
    line = word
    for text in terms(data):
        if len(line) + len(text) > 90:
            yield line
            line = word
        line += " " + text
    if data:
        yield line


def text_of(unit, inline):
    """The text of a unit's parts, or nothing where it is too long to be tried."""
    lines, left = [], TRIED_MOST
    try:
        for line in Disassembler(unit, inline, TRIED_MOST).lines():
            lines.append(line)
            left -= len(line) + 1
            if left < 0:
                raise TooLong
    except TooLong:
        return ""
    return "\n".join(lines) + "\n"


def dis(unit):
    """The text of a unit, sound or not."""
    for inline in (True, False) if lengths_of(unit) else ():
        text = text_of(unit, inline)
        if text and gives(text, unit):
            return text
    return "\n".join(wrap("raw", unit) if unit else ["raw"]) + "\n"


def gives(text, unit):
    try:
        return asm(text) == unit
    except Fault:
        return False


# ---- the program

def decoded(data):
    """The text that some bytes are in UTF-8."""
    try:
        return data.decode()
    except UnicodeDecodeError as fault:
        line = data.count(b"\n", 0, fault.start) + 1
        raise Fault(f"line {line}: the byte {escaped(data[fault.start:fault.start + 1])} is not UTF-8") from None


def read(file, most):
    with open(file, "rb") as source:
        data = source.read(most + 1)
    if len(data) > most:
        raise Fault(f"the file is longer than {most} bytes")
    return data


def read_text(file):
    """The text of a file."""
    return decoded(read(file, TEXT_MOST))


def write(file, data):
    """Writes a file, which may be the number of an open one."""
    with open(file, "wb", closefd=isinstance(file, str)) as out:
        out.write(data)


def about(name, work, *given):
    """What some work on a file gives. Where it cannot be done, that is told of the file, and the program ends."""
    try:
        return work(*given)
    except OSError as fault:
        words = fault.strerror or type(fault).__name__
    except Fault as fault:
        words = fault
    sys.exit(f"{escaped(os.fsencode(name))}: {words}")


def asm_file(name, out, with_names):
    if os.path.isdir(out):
        out = os.path.join(out, os.path.splitext(os.path.basename(name))[0] + ".unit")
    unit, names = about(name, lambda: asm_with_names(read_text(name), os.path.basename(name)))
    about(out, write, out, unit)
    if is_file(out):
        beside = out.removesuffix(".unit") + ".names"
        about(beside, put_names, beside, names if with_names else b"")


def is_file(path):
    """Whether a path is that of a plain file, and of no device, pipe or link to one: beside these no names are put."""
    return stat.S_ISREG(os.lstat(path).st_mode)


def put_names(file, names):
    """Writes a file of names, or removes an old one where there are none or too many. A file that is something else is left."""
    told, head = escaped(os.fsencode(file)), NAMES_HEAD.encode()
    if os.path.lexists(file) and not head.startswith(read_head(file, len(head))):
        print(f"{told}: this is no file of names, and it is left as it is", file=sys.stderr)
    elif names and len(names) <= NAMES_LONGEST:
        write(file, names)
    else:
        if names:
            print(f"{told}: the names take {len(names)} bytes, and {NAMES_LONGEST} is the most: there is no such file now", file=sys.stderr)
        if os.path.lexists(file):
            os.remove(file)


def read_head(file, length):
    """The first bytes of a file, at most so many."""
    with open(file, "rb") as source:
        return source.read(length)


def dis_file(name):
    return dis(about(name, read, name, UNIT_MOST)).encode()


def put(data):
    about("standard output", write, 1, data)


def comes_back(name):
    unit = about(name, read, name, UNIT_MOST)
    return gives(dis(unit), unit)


def test(names):
    failed = [name for name in names if not comes_back(name)]
    told = [f"{escaped(os.fsencode(name))}: the text gives another unit" for name in failed]
    told.append(f"{len(names)} units: {len(names) - len(failed)} came back, {len(failed)} did not")
    put("".join(line + "\n" for line in told).encode())
    return len(failed) > 0


def is_asked(names, out):
    """Whether some texts can be made into units there: one anywhere, several in a folder."""
    return len(names) == 1 or len(names) > 1 and os.path.isdir(out)


def main(args):
    match args:
        case ["asm", *words, "-o", out] if is_asked(names := [word for word in words if word != NO_NAMES], out):
            for name in names:
                asm_file(name, out, NO_NAMES not in words)
        case ["dis", name]:
            put(dis_file(name))
        case ["dis", name, "-o", out]:
            about(out, write, out, dis_file(name))
        case ["test", *names] if names:
            return test(names)
        case ["-h" | "--help"]:
            put((__doc__.strip() + "\n").encode())
        case _:
            sys.exit(__doc__.strip())
    return 0


if __name__ == "__main__":
    signal.signal(signal.SIGPIPE, signal.SIG_DFL)
    try:
        sys.exit(main(sys.argv[1:]))
    except KeyboardInterrupt:
        sys.exit(128 + signal.SIGINT)
