#!/usr/bin/env python3
"""A second checker for competition sheets, written from docs/LANGUAGE.md alone.

It reads the lines of the `calls` program on standard input and writes what that program has to write. It shares no
code and no table with the crates, and it works in another way where it can: a recursive descent along the grammar
instead of an automaton, Python's own big integers for the decimals, tuples for types.
"""

import sys
import threading
from dataclasses import dataclass

MOST_BYTES = 16384
MOST_NAME_BYTES = 32
MOST_UNITS = 255
MOST_DIGITS = 15
EXPONENTS = range(-300, 290 + 1)
MOST_TOKENS = 4096
MOST_LOAD = 8192


class Refused(Exception):
    """A refusal: its number and its place."""

    def __init__(self, number, place):
        super().__init__(number, place)
        self.number = number
        self.place = place


# ---------------------------------------------------------------- bytes to tokens

BLANKS = b" \t\n\r"
DIGITS = b"0123456789"
NAME_STARTS = b"abcdefghijklmnopqrstuvwxyzABCDEFGHIJKLMNOPQRSTUVWXYZ_$"
NAME_BYTES = NAME_STARTS + DIGITS
HEX_DIGITS = b"0123456789abcdefABCDEF"

RESTRICTED = frozenset(
    """arguments as await break case catch class const continue debugger default delete do else enum eval export extends
    false finally for from function if implements import in instanceof interface let new null package private protected
    public return static super switch this throw true try type typeof var void while with yield""".split()
)

MARKS_BY_LENGTH = (
    ("===", "!=="),
    ("<=", ">=", "&&", "||", "=>"),
    ("{", "}", "(", ")", ",", ";", ":", "=", "?", "|", "+", "-", "*", "/", "%", "<", ">", "!"),
)

ESCAPES = {
    ord("t"): 9,
    ord("v"): 11,
    ord("0"): 0,
    ord("b"): 8,
    ord("f"): 12,
    ord("n"): 10,
    ord("r"): 13,
    ord("'"): 39,
    ord('"'): 34,
    ord("\\"): 92,
}


@dataclass
class Token:
    kind: str  # "number", "string", "name", or the text of a restricted word or mark
    start: int
    end: int
    value: object = None  # (m, e) of a number, code units of a string, text of a name


def run_end(sheet, at, allowed):
    """The end of the run of allowed bytes that begins at `at`."""
    while at < len(sheet) and sheet[at] in allowed:
        at += 1
    return at


def skip_gap(sheet, at):
    """The place after the blanks and comments that begin at `at`."""
    while at < len(sheet):
        if sheet[at] in BLANKS:
            at += 1
        elif sheet.startswith(b"//", at):
            end = sheet.find(b"\n", at)
            at = len(sheet) if end < 0 else end
        elif sheet.startswith(b"/*", at):
            end = sheet.find(b"*/", at + 2)
            if end < 0:
                raise Refused(3, at)
            at = end + 2
        else:
            break
    return at


def decimal(text):
    """The canonical (m, e) of a number's text, or None where it is out of range."""
    mantissa, _, exponent = text.partition("e")
    whole, _, fraction = mantissa.partition(".")
    digits = (whole + fraction).lstrip("0")
    if not digits:
        return (0, 0)
    kept = digits.rstrip("0")
    e = (int(exponent) if exponent else 0) - len(fraction) + (len(digits) - len(kept))
    if len(kept) > MOST_DIGITS or e not in EXPONENTS:
        return None
    return (int(kept), e)


def read_number(sheet, start):
    end = run_end(sheet, start, DIGITS)
    if sheet[end : end + 1] == b".":
        fraction_end = run_end(sheet, end + 1, DIGITS)
        if fraction_end > end + 1:
            end = fraction_end
    if sheet[end : end + 1] == b"e":
        digits_start = end + 1
        if sheet[digits_start : digits_start + 1] in (b"-", b"+"):
            digits_start += 1
        exponent_end = run_end(sheet, digits_start, DIGITS)
        if exponent_end > digits_start:
            end = exponent_end
    if end < len(sheet) and sheet[end] in NAME_BYTES:
        raise Refused(3, start)
    value = decimal(sheet[start:end].decode("ascii"))
    if value is None:
        raise Refused(4, start)
    return Token("number", start, end, value)


def read_string(sheet, start):
    quote = sheet[start]
    units = []
    at = start + 1
    while True:
        if at >= len(sheet):
            raise Refused(3, start)
        byte = sheet[at]
        at += 1
        if byte == quote:
            break
        if byte == ord("\\"):
            letter = sheet[at] if at < len(sheet) else None
            at += 1
            if letter == ord("u"):
                digits = sheet[at : at + 4]
                if len(digits) < 4 or any(digit not in HEX_DIGITS for digit in digits):
                    raise Refused(3, start)
                units.append(int(digits, 16))
                at += 4
            elif letter in ESCAPES:
                units.append(ESCAPES[letter])
            else:
                raise Refused(3, start)
        elif 32 <= byte <= 126 or (quote == ord("`") and byte == 10):
            units.append(byte)
        else:
            raise Refused(3, start)
    if len(units) > MOST_UNITS:
        raise Refused(4, start)
    return Token("string", start, at, tuple(units))


def read_word(sheet, start):
    end = run_end(sheet, start, NAME_BYTES)
    text = sheet[start:end].decode("ascii")
    if text in RESTRICTED:
        return Token(text, start, end)
    if end - start > MOST_NAME_BYTES:
        raise Refused(4, start)
    return Token("name", start, end, text)


def read_mark(sheet, start):
    for marks in MARKS_BY_LENGTH:
        for mark in marks:
            if sheet.startswith(mark.encode("ascii"), start):
                return Token(mark, start, start + len(mark))
    raise Refused(3, start)


def read_tokens(sheet):
    """All tokens of the sheet; refusals 3 and 4."""
    tokens = []
    at = skip_gap(sheet, 0)
    while at < len(sheet):
        byte = sheet[at]
        if byte in DIGITS:
            token = read_number(sheet, at)
        elif byte in b"\"'`":
            token = read_string(sheet, at)
        elif byte in NAME_STARTS:
            token = read_word(sheet, at)
        else:
            token = read_mark(sheet, at)
        tokens.append(token)
        at = skip_gap(sheet, token.end)
    return tokens


def keep_line_rule(sheet, tokens):
    """Refusal 5: no line feed after `return`, none before `=>`."""
    for before, after in zip(tokens, tokens[1:]):
        bound = before.kind == "return" or after.kind == "=>"
        if bound and b"\n" in sheet[before.end : after.start]:
            raise Refused(5, after.start)


# ---------------------------------------------------------------- tokens to expressions

LEVELS = (
    ("||",),
    ("&&",),
    ("===", "!=="),
    ("<", ">", "<=", ">="),
    ("+", "-"),
    ("*", "/", "%"),
)
UNARY = ("!", "-", "typeof")
PRIMARY = ("number", "string", "true", "false", "null", "name")


@dataclass
class Expression:
    form: str  # "number", "name", "unary -", "binary -", "conditional" and so on
    place: int
    parts: tuple = ()  # numbers of the parts, left to right
    value: object = None


class Parser:
    """Recursive descent along the grammar, one method a rule.

    Every token it takes can be gone on from to some program, so the first token that it cannot take is the first
    one that begins no program.
    """

    def __init__(self, tokens, length):
        self.tokens = tokens
        self.next = 0
        self.length = length
        self.expressions = []  # in the order in which they end

    def kind(self):
        return self.tokens[self.next].kind if self.next < len(self.tokens) else None

    def take(self):
        self.next += 1
        return self.tokens[self.next - 1]

    def dead(self):
        raise Refused(7, self.tokens[self.next].start if self.next < len(self.tokens) else self.length)

    def need(self, kind):
        if self.kind() != kind:
            self.dead()
        self.next += 1

    def ended(self, form, place, parts=(), value=None):
        self.expressions.append(Expression(form, place, parts, value))
        return len(self.expressions) - 1

    def place(self, number):
        return self.expressions[number].place

    def program(self):
        while self.next < len(self.tokens):
            self.expression()
            self.need(";")

    def expression(self):
        condition = self.binary(0)
        if self.kind() != "?":
            return condition
        self.take()
        first = self.expression()
        self.need(":")
        second = self.expression()
        return self.ended("conditional", self.place(condition), (condition, first, second))

    def binary(self, level):
        if level == len(LEVELS):
            return self.unary()
        left = self.binary(level + 1)
        while self.kind() in LEVELS[level]:
            operator = self.take()
            right = self.binary(level + 1)
            left = self.ended("binary " + operator.kind, self.place(left), (left, right))
        return left

    def unary(self):
        if self.kind() not in UNARY:
            return self.primary()
        operator = self.take()
        part = self.unary()
        return self.ended("unary " + operator.kind, operator.start, (part,))

    def primary(self):
        if self.kind() == "(":
            self.take()
            inner = self.expression()
            self.need(")")
            return inner
        if self.kind() not in PRIMARY:
            self.dead()
        token = self.take()
        return self.ended(token.kind, token.start, (), token.value)


def read(sheet):
    """The expressions of a sheet by their numbers, or a refusal (2 to 7)."""
    if len(sheet) > MOST_BYTES:
        raise Refused(2, MOST_BYTES)
    tokens = read_tokens(sheet)
    keep_line_rule(sheet, tokens)
    if len(tokens) > MOST_TOKENS:
        raise Refused(6, tokens[MOST_TOKENS].start)
    parser = Parser(tokens, len(sheet))
    parser.program()
    return parser.expressions


# ---------------------------------------------------------------- types

ANY = ("any",)
NUMBER = ("number",)
STRING = ("string",)
BOOLEAN = ("boolean",)
UNDEFINED = ("undefined",)
NULL = ("null",)
TRUE = ("true",)
FALSE = ("false",)


def literal(m, e):
    return ("literal", m, e)


def text(units):
    return ("text", tuple(units))


def function(parameters, result):
    return ("function", tuple(parameters), result)


def pair(head, tail):
    return ("pair", head, tail)


def list_of(element):
    return ("list", element)


RANKED = "number literal string text boolean true false undefined null function pair list".split()


def members(type_):
    return type_[1] if type_[0] == "union" else (type_,)


def union(*arriving):
    """The union of the arriving types, in its normal form."""
    flat = [member for type_ in arriving for member in members(type_)]
    if ANY in flat:
        return ANY
    distinct = dict.fromkeys(flat)  # keeps the first of each, in order of arrival
    ordered = sorted(distinct, key=lambda member: RANKED.index(member[0]))  # stable
    return ordered[0] if len(ordered) == 1 else ("union", tuple(ordered))


NUMBER_OR_STRING = union(NUMBER, STRING)


def weight(type_):
    kind = type_[0]
    if kind == "text":
        return 1 + len(type_[1])
    if kind == "function":
        return 1 + sum(map(weight, type_[1])) + weight(type_[2])
    if kind in ("pair", "list"):
        return 1 + sum(map(weight, type_[1:]))
    if kind == "union":
        return 1 + sum(map(weight, type_[1]))
    return 1


def own_part(type_, which):
    """The head part (which = 0) or tail part (which = 1) of a type, or None."""
    kind = type_[0]
    if kind == "any":
        return ANY
    if kind == "pair":
        return type_[1 + which]
    if kind == "list":
        return type_ if which else type_[1]
    if kind == "union":
        parts = [own_part(member, which) for member in type_[1]]
        parts = [part for part in parts if part is not None]
        return union(*parts) if parts else None
    return None


ALWAYS_MEET = {
    frozenset(kinds)
    for kinds in (
        ("number",),
        ("number", "literal"),
        ("string",),
        ("string", "text"),
        ("boolean",),
        ("boolean", "true"),
        ("boolean", "false"),
        ("true",),
        ("false",),
        ("undefined",),
        ("null",),
        ("list", "null"),
        ("list",),
    )
}


def meet(a, b):
    """Whether some value belongs to both types."""
    if ANY in (a, b):
        return True
    if a[0] == "union":
        return any(meet(member, b) for member in a[1])
    if b[0] == "union":
        return any(meet(a, member) for member in b[1])
    if frozenset((a[0], b[0])) in ALWAYS_MEET:
        return True
    if a[0] == b[0] and a[0] in ("literal", "text"):
        return a == b
    if a[0] == b[0] == "function":
        return len(a[1]) == len(b[1])
    if a[0] == b[0] == "pair":
        return meet(a[1], b[1]) and meet(a[2], b[2])
    if (a[0], b[0]) == ("pair", "list"):
        return meet(a[1], b[1]) and meet(a[2], b)
    if (a[0], b[0]) == ("list", "pair"):
        return meet(b, a)
    return False


def words(type_):
    """A type in prefix form, as a list of words."""
    kind = type_[0]
    if kind == "literal":
        return ["literal", str(type_[1]), str(type_[2])]
    if kind == "text":
        return ["text", str(len(type_[1])), *map(str, type_[1])]
    if kind == "function":
        inner = [word for part in (*type_[1], type_[2]) for word in words(part)]
        return ["function", str(len(type_[1])), *inner]
    if kind == "union":
        inner = [word for member in type_[1] for word in words(member)]
        return ["union", str(len(type_[1])), *inner]
    inner = [word for part in type_[1:] for word in words(part)]
    return [kind, *inner]


# ---------------------------------------------------------------- the library

SCHEME = "scheme"


def make_library():
    bindings = {}

    def bind(binding, names):
        for name in names.split():
            bindings[name] = binding

    bind(ANY, "display error math_max math_min")
    bind(ANY, "draw_data equal length map build_list for_each list_to_string reverse append member")
    bind(ANY, "remove remove_all filter enum_list list_ref accumulate")
    bind(NUMBER, "Infinity NaN math_LOG2E math_LOG10E math_PI math_SQRT1_2 math_SQRT2")
    bind(UNDEFINED, "undefined")
    bind(function([ANY], BOOLEAN), "is_boolean is_function is_number is_string is_undefined is_pair is_null is_list")
    one_number = function([NUMBER], NUMBER)
    bind(one_number, "math_abs math_acos math_acosh math_asin math_asinh math_atan math_atanh math_cbrt math_ceil")
    bind(one_number, "math_clz32 math_cos math_cosh math_exp math_expm1 math_floor math_fround math_LN2 math_LN10")
    bind(one_number, "math_log math_log1p math_log2 math_log10 math_round math_sign math_sin math_sinh math_sqrt")
    bind(one_number, "math_tan math_tanh math_trunc")
    bind(function([NUMBER, NUMBER], NUMBER), "math_atan2 math_imul math_pow")
    bind(function([ANY], NUMBER), "math_hypot")
    bind(function([], NUMBER), "math_random get_time")
    bind(function([STRING, NUMBER], NUMBER), "parse_int")
    bind(function([STRING], STRING), "prompt")
    bind(function([ANY], STRING), "stringify")
    bind(SCHEME, "pair head tail list")
    return bindings


LIBRARY = make_library()


# ---------------------------------------------------------------- typing

CLASH = 1
UNKNOWN_NAME = 2
COMPARISONS = ("===", "!==", "<", ">", "<=", ">=")
ARITHMETIC = ("-", "*", "/", "%")


class Checker:
    """Types the expressions of a sheet in the order of their numbers, and notes the findings."""

    def __init__(self, expressions, register):
        self.expressions = expressions
        self.register = register
        self.types = []
        self.findings = []
        for expression in expressions:
            self.types.append(self.type_of(expression))

    def ask(self, number, asked):
        """Asks the expression of that number for a type."""
        if not meet(self.types[number], asked):
            self.findings.append((CLASH, self.expressions[number].place))

    def type_of(self, expression):
        form = expression.form
        if form == "number":
            return literal(*expression.value)
        if form == "string":
            return text(expression.value)
        if form in ("true", "false", "null"):
            return (form,)
        if form == "name":
            return self.name(expression)
        if form == "conditional":
            condition, first, second = expression.parts
            self.ask(condition, BOOLEAN)
            return union(self.types[first], self.types[second])
        arity, operator = form.split(" ")
        if arity == "unary":
            return self.unary(operator, expression.parts[0])
        return self.binary(operator, *expression.parts)

    def name(self, expression):
        binding = self.register.get(expression.value)
        if binding is None:
            self.findings.append((UNKNOWN_NAME, expression.place))
            return ANY
        return ANY if binding == SCHEME else binding

    def unary(self, operator, part):
        if operator == "!":
            self.ask(part, BOOLEAN)
            return BOOLEAN
        if operator == "-":
            self.ask(part, NUMBER)
            return NUMBER
        return STRING  # typeof

    def binary(self, operator, left, right):
        if operator in ARITHMETIC:
            self.ask(left, NUMBER)
            self.ask(right, NUMBER)
            return NUMBER
        if operator in COMPARISONS:
            a, b = self.types[left], self.types[right]
            if not any(meet(a, t) and meet(b, t) for t in (NUMBER, STRING)):
                self.findings.append((CLASH, self.expressions[right].place))
            return BOOLEAN
        if operator in ("&&", "||"):
            self.ask(left, BOOLEAN)
            return union(BOOLEAN, self.types[right])
        return self.plus(left, right)

    def plus(self, left, right):
        for one, other in ((left, right), (right, left)):
            for basic, kinds in ((NUMBER, ("number", "literal")), (STRING, ("string", "text"))):
                if self.types[one][0] in kinds:
                    self.ask(other, basic)
                    return basic
        self.ask(left, NUMBER_OR_STRING)
        self.ask(right, NUMBER_OR_STRING)
        return NUMBER_OR_STRING


def check(expressions, register):
    """Findings and types of a sheet, or refusal 12."""
    checker = Checker(expressions, register)
    if sum(map(weight, checker.types)) > MOST_LOAD:
        raise Refused(12, 0)
    return checker.findings, checker.types


# ---------------------------------------------------------------- the lines of `calls`


def parse_call(line):
    """(sheet, length of the findings list) of a line, or None where it is no call."""
    fields = line.split(b" ")
    if len(fields) != 3 or fields[0] != b"check":
        return None
    _, digits, length = fields
    if not 1 <= len(length) <= 5 or any(byte not in DIGITS for byte in length):
        return None
    if digits == b"-":
        return b"", int(length)
    if not digits or len(digits) % 2 or any(byte not in HEX_DIGITS for byte in digits):
        return None
    return bytes.fromhex(digits.decode("ascii")), int(length)


def answer_check(sheet, length):
    try:
        expressions = read(sheet)
    except Refused as refusal:
        return [f"read-refused {refusal.number} {refusal.place}"]
    try:
        findings, types = check(expressions, LIBRARY)
    except Refused as refusal:
        return [f"check-refused {refusal.number} {refusal.place}"]
    lines = [f"checked {len(findings)} {len(types)}"]
    lines += [f"finding {kind} {place}" for kind, place in findings[:length]]
    lines += [f"type {number} {' '.join(words(type_))}" for number, type_ in enumerate(types)]
    return lines


def answer(line, number):
    """The answer to one line, as a list of lines; `number` is the line's own."""
    call = parse_call(line)
    return [f"bad line {number}"] if call is None else answer_check(*call)


def answer_all(source, sink):
    lines = source.split(b"\n")
    if not lines[-1]:
        lines.pop()
    for number, line in enumerate(lines, 1):
        for out in answer(line, number):
            sink.write(out.encode("ascii") + b"\n")


def with_deep_stack(work):
    """Runs `work` where the descent may go as deep as 4,096 tokens can ask."""
    sys.setrecursionlimit(200_000)
    if hasattr(sys, "set_int_max_str_digits"):
        sys.set_int_max_str_digits(0)
    threading.stack_size(512 * 1024 * 1024)
    failures = []

    def guarded():
        try:
            work()
        except BaseException as failure:  # handed to the caller's thread
            failures.append(failure)

    thread = threading.Thread(target=guarded)
    thread.start()
    thread.join()
    if failures:
        raise failures[0]


def main():
    with_deep_stack(lambda: answer_all(sys.stdin.buffer.read(), sys.stdout.buffer))
    sys.stdout.buffer.flush()


if __name__ == "__main__":
    main()
