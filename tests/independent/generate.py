#!/usr/bin/env python3
"""Writes lines for the `calls` program: sheets that are valid, damaged or at a limit.

    generate.py                    the committed corpus
    generate.py --seed N           the same families with other random sheets
    generate.py --random COUNT     how many sheets each random family has
    generate.py --large            full-size and hostile sheets instead, too long to be committed

The same arguments give the same lines on every machine: the random numbers come from the few lines of `Dice`.
"""

import argparse
import sys

MARKS = "{ } ( ) , ; : = ? | + - * / % < > ! === !== <= >= && || =>".split()
BINARY = "|| && === !== < > <= >= + - * / %".split()
WORDS = """
    arguments as await break case catch class const continue debugger default delete do else enum eval export
    extends false finally for from function if implements import in instanceof interface let new null package
    private protected public return static super switch this throw true try type typeof var void while with
    yield
""".split()
BOUND_NAMES = """
    display error Infinity is_boolean is_function is_number is_string is_undefined math_abs math_acos math_acosh
    math_asin math_asinh math_atan math_atan2 math_atanh math_cbrt math_ceil math_clz32 math_cos math_cosh
    math_exp math_expm1 math_floor math_fround math_hypot math_imul math_LN2 math_LN10 math_log math_log1p
    math_log2 math_LOG2E math_log10 math_LOG10E math_max math_min math_PI math_pow math_random math_round
    math_sign math_sin math_sinh math_sqrt math_SQRT1_2 math_SQRT2 math_tan math_tanh math_trunc NaN parse_int
    prompt get_time stringify undefined pair head tail list is_pair is_null is_list draw_data equal length map
    build_list for_each list_to_string reverse append member remove remove_all filter enum_list list_ref
    accumulate
""".split()
FREE_NAMES = """
    par x _ $ $$ _45 math_E math_ math_PIx math_p is_ Display NULL True undefine undefinedd number string
    boolean any Pair List lists lis hea heads tails pairs while_ truex nullx typeofx ass fromm types return1
    Infinit nan stableford_points handicap_index abcdefghijklmnopqrstuvwxyz012345
""".split()


class Dice:
    """A small generator of random numbers (splitmix64)."""

    def __init__(self, seed):
        self.state = seed

    def below(self, bound):
        self.state = (self.state + 0x9E3779B97F4A7C15) % 2**64
        z = self.state
        z = (z ^ (z >> 30)) * 0xBF58476D1CE4E5B9 % 2**64
        z = (z ^ (z >> 27)) * 0x94D049BB133111EB % 2**64
        return (z ^ (z >> 31)) % bound

    def choice(self, options):
        return options[self.below(len(options))]

    def percent(self, share):
        return self.below(100) < share


def call(sheet, length):
    if isinstance(sheet, str):
        sheet = sheet.encode("latin-1")
    return f"check {sheet.hex() or '-'} {length}"


# ---------------------------------------------------------------- random sheets


def number(dice):
    form = dice.below(8)
    digits = lambda most: "".join(dice.choice("0123456789") for _ in range(1 + dice.below(most)))
    if form < 3:
        return str(dice.below(4))
    if form == 3:
        return digits(17)
    if form == 4:
        return digits(9) + "." + digits(9)
    if form == 5:
        return digits(4) + "e" + dice.choice(["", "-", "+"]) + digits(3)
    if form == 6:
        return digits(3) + "." + digits(3) + "e" + dice.choice(["", "-", "+"]) + digits(2)
    return dice.choice("0.50 5e-1 0.5 5120346.1 5120346.2 1e0 10e-1 100 0e9 000 1e290 1e-300".split())


def string(dice, most=4):
    quote = dice.choice("\"'`")
    text = ""
    for _ in range(dice.below(most + 1)):
        form = dice.below(10)
        if form < 6:
            text += dice.choice([byte for byte in "ab 19'\"`$&;/*{~" if byte != quote])
        elif form == 6:
            text += "\\" + dice.choice("tv0bfnr'\"\\")
        elif form == 7:
            text += "\\u" + "".join(dice.choice("0123456789abcdefABCDEF") for _ in range(4))
        elif form == 8:
            text += "\n" if quote == "`" else "n"
        else:
            text += chr(32 + dice.below(95)).replace(quote, "q").replace("\\", "\\\\")
    return quote + text + quote


def leaf(dice, want):
    """The tokens of an operand that has, mostly, the wanted type."""
    if dice.percent(6):
        return [dice.choice(FREE_NAMES)]
    if dice.percent(6):
        return [dice.choice(BOUND_NAMES)]
    if dice.percent(6):
        return [dice.choice(["null", "undefined", "display", "pair", "math_pow", "get_time"])]
    if want == "number":
        return [dice.choice(["math_PI", "NaN"])] if dice.percent(15) else [number(dice)]
    if want == "string":
        return [string(dice)]
    return [dice.choice(["true", "false"])]


def expression(dice, want, depth):
    """The tokens of an expression that has, mostly, the wanted type."""
    if dice.percent(8):
        want = dice.choice(["number", "string", "boolean"])
    if depth <= 0 or dice.percent(15):
        return leaf(dice, want)
    part = lambda kind: expression(dice, kind, depth - 1 - dice.below(2))
    form = dice.below(10)
    if form == 0:
        return ["(", *part(want), ")"]
    if form < 3:
        branch = dice.choice([want, dice.choice(["number", "string", "boolean"])])
        return ["(", *part("boolean"), "?", *part(want), ":", *part(branch), ")"]
    if form == 3:
        return [*part("boolean"), dice.choice(["&&", "||"]), *part(want)]
    if want == "number":
        if form == 4:
            return ["-", *part("number")]
        return [*part("number"), dice.choice("+-*/%"), *part("number")]
    if want == "string":
        if form < 6:
            return ["typeof", *part(dice.choice(["number", "string", "boolean"]))]
        return [*part("string"), "+", *part("string")]
    if form == 4:
        return ["!", *part("boolean")]
    side = dice.choice(["number", "string"])
    return [*part(side), dice.choice(["===", "!==", "<", ">", "<=", ">="]), *part(side)]


GAPS = [" ", "  ", "\n", "\t", "\r\n", " /* c */ ", " // c\n", "/**/", "/* \xe9\n* / */", "\r"]


def spell(dice, tokens):
    """The tokens as a text, with gaps between them, needed or not."""
    text = ""
    for token in tokens:
        wordlike = lambda byte: byte.isalnum() or byte in "_$"
        joins = text and (
            (wordlike(text[-1]) and wordlike(token[0])) or (text[-1] in "=!<>&|/*" and token[0] in "=!<>&|/*")
        )
        if joins or dice.percent(25):
            gap = dice.choice(GAPS)
            text += " " if text[-1:] == "/" and gap[0] == "/" else gap
        elif text and dice.percent(50):
            text += " "
        text += token
    return text


def valid(dice):
    tokens = []
    for _ in range(1 + dice.below(3)):
        tokens += expression(dice, dice.choice(["number", "string", "boolean"]), 1 + dice.below(4)) + [";"]
    return spell(dice, tokens)


def damaged(dice):
    """A valid sheet with one to three accidents."""
    sheet = valid(dice)
    for _ in range(1 + dice.below(3)):
        at = dice.below(len(sheet) + 1)
        form = dice.below(7)
        if form == 0:
            sheet = sheet[:at] + sheet[at + 1 :]
        elif form == 1:
            sheet = sheet[:at] + dice.choice("()?:;!-+*/%<>=&|\"'`\\.,{}\n\xff\x00\x7f09eau") + sheet[at:]
        elif form == 2:
            sheet = sheet[:at] + chr(dice.below(256)) + sheet[at + 1 :]
        elif form == 3:
            sheet = sheet[:at]
        elif form == 4:
            end = at + dice.below(6)
            sheet = sheet[:end] + sheet[at:end] + sheet[end:]
        elif form == 5:
            sheet = sheet[:at] + " " + dice.choice(WORDS + MARKS) + " " + sheet[at:]
        else:
            end = at + dice.below(8)
            sheet = sheet[:at] + sheet[end:]
    return sheet


def token_soup(dice):
    """Tokens in any order; now and then with a line feed at a place that matters."""
    tokens = []
    for _ in range(1 + dice.below(9)):
        form = dice.below(7)
        if form < 2:
            tokens.append(dice.choice(MARKS))
        elif form == 2:
            tokens.append(dice.choice(WORDS))
        elif form == 3:
            tokens.append(dice.choice(["return", "=>", "(", ")", "typeof", ";"]))
        elif form == 4:
            tokens.append(number(dice))
        elif form == 5:
            tokens.append(string(dice))
        else:
            tokens.append(dice.choice(FREE_NAMES + BOUND_NAMES))
    return spell(dice, tokens)


def byte_soup(dice):
    alphabet = "0123456789eeee....--++aux_$\"\"''``\\\\\\//**\n\n \t&|=!<>;;;()?:\xc3\x01"
    return "".join(dice.choice(alphabet) for _ in range(1 + dice.below(12)))


# ---------------------------------------------------------------- sheets picked by hand

KNOWN = [
    "",
    '1 + "a";',
    '(true ? 1 : "a") + 2;',
    '"5" < 3;',
    "par;",
    "1 as number + 2;",
    "5120346.1 === 5120346.2;",
    "true ? 0.50 : 5e-1;",
    "true ? 5120346.1 : 5120346.2;",
    "head(5);",
    "(() => 1)(2);",
    "(1 + 2) * 3;",
    "((1)) + ((par));",
    "!(-(typeof (1)));",
    "1 - 2 - 3 * 4 / 5 % 6;",
    "1 < 2 < 3;",
    "true && 1 || 2;",
    "1 === 2 === 3;",
    "true ? 1 : false ? 2 : 3;",
    "true ? false ? 1 : 2 : 3;",
    "1 + 2 ? 3 : 4;",
    "- - 1; - ! - 1; typeof typeof 1;",
    "a\n;\r\n b\t;",
]

GRAMMAR = [
    ";", "1", "1;;", "()", "();", "(1;", "(1);", "1);", "1 2;", "1 +;", "+1;", "1 + + 1;", "1 - - 1;", "* 1;",
    "! ;", "!", "typeof;", "1 typeof 2;", "1 ! 2;", "1 ? 2;", "1 ? 2 : ;", "1 ? : 3;", "? 1 : 2;", "1 : 2;",
    "(1 ? 2) : 3;", "1 ? (2 : 3);", "(1 : 2);", "1 ? 2 : 3 : 4;", "1 ? 2 ? 3 : 4;", "1 ? 2 : 3 ? 4 : 5;",
    "1 ? 2 ? 3 : 4 : 5;", "(1 ? 2 : 3", "(1 ? 2", "((1 + 2) * 3", "1 + (2 * 3;", "f(1);", "f();", "1(2);",
    '"a"(1);', "(f)(1);", "x => x;", "(x) => x;", "() => 1;", "1 + (x) => x;", "const x = 1;",
    "function f() { return 1; }", "return 1;", "if (true) { 1; } else { 2; }", "{ 1; }", "{}", "debugger;",
    'import { a } from "book";', "type t = number;", "1 as number;", "a = 1;", "a == 1;", "a != 1;", "a | b;",
    "a, b;", "a.b;", "a[0];", "1;2", "1; 2; 3 4;", "(((((", ")))))", "null;", "null + null;", "undefined;",
    "- null;", "while;", "let x;", "true", "true false;", "a b", "1 === === 2;", "1 = = = 2;", "1 = == 2;",
    "1 == = 2;", "1 < = 2;", "1 <= 2 >= 3;", "1 & 2;", "1 && && 2;", "1 & & 2;", "1 | | 2;", "1 ||| 2;",
]  # fmt: skip

LINES = [
    "return 1;", "return\n1;", "return \n 1;", "return /* \n */ 1;", "return // c\n1;", "return /* c */ 1;",
    "return\r1;", "return\r\n1;", "return", "return\n", "return // c\n", "\nreturn 1;", "return\nreturn\n1;",
    "return return\n1;", "=>", "\n=>", "/*\n*/=>", "x =>", "x\n=>", "x /*\n*/ =>", "x // c\n =>", "x =>\n1;",
    "(x)\n=> x;", "(x) => y\n=> z;", "return\n=>", "return =>\n1;", "returns\n1;", "'return'\n1;", "x = \n> y;",
    "x =\n=> y;", "1;\n2;\n(a)\n=> a;", "& return\n1;", "return\n&", "1 2 return\n3;", "return\n" + "n" * 33 + ";",
    "`=>\n` => 1;", "`a\n`=>1;", "return`\n`;",
]  # fmt: skip

GAP_SHEETS = [
    "/**/", "/***/", "/*/", "/*/ */", "/* * /*/", "/*", "/* *", "1; /*", "//", "//\n", "// /* \n1;", "/* // */ 1;",
    "//*\n1;*/", "1/**/2;", "1/*c*/+/*c*/2;", "1//\n;", "// \r 1;", "//\xff\x00\n1;", "/*\xff\x00\x80*/ 1;",
    "1 / /*x*/ 2;", "1 //*x*/ 2;\n;", "/* a */ /* b */ // c\n\t\r\n 1 ;  ", " ", "\n", "\t\r\n ", "\x0b1;",
    "\x0c1;", "\xa01;", "\xef\xbb\xbf1;", "1;\x00", "/* a *// 1;", "/**//**/1;", "/* /* */ */ 1;", "///* x\n1;",
    "a/b/c;", "a/ /b;", "'/*' + \"//\";", "`//`; /*`*/ `/*`;",
]  # fmt: skip

NUMBERS = """
    0 00 000.000 0e0 0e99999 0.0e-99999 0e+5 1 01 10 100 1.0 1.50 0.50 5e-1 0.05e1 12.340e2 1e5 1e+5 1e-5 1e05
    1e-05 1e00 123456789012345 1234567890123450 1234567890123456 999999999999999 9999999999999990
    9999999999999999 0.123456789012345 0.000123456789012345 0.1234567890123456 1.23456789012345 12345678.9012345
    123456789012345e290 123456789012345e291 123456789012345e-300 123456789012345e-301 1e290 1e291 10e289 10e290
    100e288 100e289 0.1e291 0.1e292 0.01e292 1e-300 1e-301 10e-301 10e-302 0.1e-299 0.1e-300 100e-302 1.0e-300
    1.5e-299 1.5e-300 0.0000001e297 0.0000001e298 1e999 1e-999 1e00000000000000000290 1e-00000000000000000300
    1e99999999999999999999 1e-99999999999999999999 1e18446744073709551616 1e18446744073709551906
    1e-18446744073709551616 1e4294967296 1e4294967586 1e65536 1e65826 1e-65836 18446744073709551616
    18446744073709551617 18446744073709551616e-18 0.5e0 5. .5 1.e5 1.5. 1..5 1.5.5 1e 1e+ 1e- 1e+x 1ex 1e5e
    1e5.5 1e5x 1.5e 1.5e+ 1.5e+x 1.5x 1x 12ab 0x1f 0b1 1_000 1E5 1e5_ 1$ 1.5$ 1.$ 1e1.e1 1"a" 1'a' 1`a` 1a"b"
    1typeof 1+ 1- 1e5-1 1e-5-1 1e--5 1e+-5 1e5+1
""".split()

STRINGS = [
    '""', "''", "``", '"a', "'a", "`a", '"', "'", "`", '"\\"', "'\\'", "`\\`", '"a\'b`c"', "'a\"b`c'", "`a\"b'c`",
    '"a\nb"', "'a\nb'", "`a\nb`", "`a\r\nb`", '"a\tb"', "`a\tb`", '"\x7f"', '"\x1f"', '"\xe9"', "`\xe9`", '"\x80"',
    '" ~"', '"\\t\\v\\0\\b\\f\\n\\r\\\'\\"\\\\"', "'\\t\\v\\0\\b\\f\\n\\r\\'\\\"\\\\'",
    "`\\t\\v\\0\\b\\f\\n\\r\\'\\\"\\\\`", '"\\`"', "`\\``", '"\\a"', '"\\x41"', '"\\u0041"',
    '"\\u00e9\\uD83D\\uDC04"', '"\\uabcd\\uABCD\\uAbCd"', '"\\uffff\\u0000"', '"\\u004"', '"\\u00g1"', '"\\u"',
    '"\\u0041', '"\\u{41}"', '"\\U0041"', '"\\u00411"', '"\\01"', '"\\00"', '"\\1"', '"\\\n"', "`\\\n`", '"\\',
    "'\\u12", '"\\\\"', '"\\\\\\"', '"a" "b"', '"a""b"', '"a" + \'b\' + `c`', '"${a}"', "`${a}`", '"//"', "'/*'",
]  # fmt: skip


def representatives():
    """One expression for each sort of type that a sheet can make today."""
    basic = ["1", '"a"', "NaN", "(typeof 1)", "!z", "true", "null", "undefined", "prompt", "z"]
    return [*basic, '(z?1:"a")', "(z?1:2)", "(z?null:false)"]


def operator_tables():
    """Each rule with each sort of type on both sides, one sheet for each left side."""
    operands = representatives()
    for operator in ("+", "<"):
        for left in operands:
            yield "".join(f"{left}{operator}{right};" for right in operands)
    for operator in ("===", "!==", ">", "<=", ">=", "-", "*", "/", "%", "&&", "||"):
        yield "".join(f"{operand}{operator}1;" for operand in operands)
        yield "".join(f'"a"{operator}{operand};' for operand in operands)
    for operator in ("!", "-", "typeof "):
        yield "".join(f"{operator}{operand};" for operand in operands)
    for left in operands[1::3]:
        yield "".join(f"{left}?{left}:{right};" for right in operands)


def each_byte():
    for byte in range(256):
        yield chr(byte)
        yield f"a{chr(byte)}b;"
        yield f"1{chr(byte)};"
        yield f'"\\{chr(byte)}";'
        yield f"`{chr(byte)}`;"
    for byte in (*range(0, 40), 47, 92, 96, *range(122, 132), 255):
        yield f'"{chr(byte)}";'
        yield f"'{chr(byte)}';"


def mark_pairs():
    for first in MARKS:
        for second in MARKS:
            yield f"1 {first}{second} 1;"


def orders():
    """Several faults in one sheet: which is answered."""
    long_name, long_string, bad_number = "n" * 33, '"' + "s" * 256 + '"', "1e291"
    yield f"{long_name}; &"
    yield f"& {long_name};"
    yield f"{bad_number}; 12ab;"
    yield f"12ab; {bad_number};"
    yield f"{bad_number}x;"
    yield f"{long_string[:-1]}"
    yield f"{long_string}; {long_name};"
    yield f"return\n{bad_number}"
    yield f"1 1 return\n1 {long_name}"
    yield f"1 1 x\n=> return\n1"
    yield ") return\n1"
    yield "return\n1 &"
    yield "1;" * 2048 + "return\n1"
    yield ")" * 4097 + "&"
    yield "== != >> ||| " * 512 + ";"  # eight tokens each time
    yield '"' + "\\u0041" * 256 + '"'
    yield '"' + "a" * 300 + "\n" + '";'
    yield '"' + "a" * 300 + '\\a";'


def limits():
    for size in (31, 32, 33, 34, 64, 200):
        yield "n" * size + ";"
        yield "$" + "_" * (size - 1) + " + 1;"
    yield "typeof" * 5 + "xx;"
    yield "typeof" * 5 + "xxx;"
    for size in (254, 255, 256, 257):
        yield '"' + "!" * size + '";'
        yield "`" + "\n" * size + "`;"
    for size in (255, 256):
        yield "'" + "\\u0000" * size + "';"
        yield "'" + "\\0" * size + "';"
        yield "'" + "\\\\" * size + "';"
    yield "0." + "0" * 1000 + ";"
    yield "0." + "0" * 299 + "1;"
    yield "0." + "0" * 300 + "1;"
    yield "1" + "0" * 290 + ";"
    yield "1" + "0" * 291 + ";"
    yield "1" + "0" * 400 + "e-400;"
    yield "0." + "0" * 400 + "1e401;"
    yield "0" * 400 + "1;"
    yield "1." + "0" * 400 + ";"
    yield "1e" + "0" * 400 + "5;"
    yield "1e-" + "0" * 400 + "5;"
    yield "1e" + "9" * 400 + ";"
    yield "0e" + "9" * 400 + ";"
    yield "1" * 400 + "e-385;"


def nests():
    for depth in (1, 2, 40, 300):
        yield "(" * depth + "1" + ")" * depth + ";"
        yield "(" * depth + "1" + ")" * (depth - 1) + ";"
        yield "(" * depth + "1" + ")" * (depth + 1) + ";"
        yield "(" * depth
        yield "(" * depth + ")" * depth + ";"
    for depth in (1, 12, 40):
        yield "!" * depth + "true;"
        yield "- " * depth + "1;"
        yield "typeof " * depth + "1;"
        yield "(-" * depth + "1" + ")" * depth + ";"
        yield "(1+" * depth + "1" + ")" * depth + ";"
        yield "1" + "+1" * depth + ";"
        yield "1" + "-1*2" * depth + ";"
        yield "true" + "&&true" * depth + ";"
        yield "true" + "?1:true" * depth + ";"
        yield "true?" * depth + "1" + ":2" * depth + ";"
        yield "1" + "+1" * depth
        yield "1?" * depth + "1" + ":2" * (depth - 1) + ";"
    yield "1||1&&1===1<1+1*-1;"
    yield "-1*1+1<1===1&&1||1?1:1;"
    yield "1*1+1*1<1*1===1<1&&1===1||1&&1?1||1:1&&1?1:1;"


def union_chain(count):
    return "".join(f"z?{k}:" for k in range(count - 1)) + f"{count - 1};"


def unions():
    yield union_chain(2)
    yield union_chain(3)
    yield union_chain(30)
    yield "true?" * 20 + "0" + "".join(f":{k}" for k in range(1, 21)) + ";"
    yield "z?(z?1:2):(z?2:1);"
    yield "z?(z?2:1):(z?1:2);"
    yield "z?(z?'a':1):(z?2:'b');"
    yield "z?1:z?1.0:z?10e-1:0.1e1;"
    yield "z?'a':z?\"a\":z?`a`:'\\u0061';"
    yield "z?math_abs:z?math_sin:z?math_pow:z?math_imul:z?get_time:z?is_null:stringify;"
    yield "z?is_list:z?undefined:z?null:z?false:z?true:z?!z:z?'s':z?typeof z:z?1:math_PI;"
    yield "z?math_PI:z?1:z?typeof z:z?'s':z?!z:z?true:z?false:z?null:z?undefined:is_list;"
    yield "z?1:z?2:z?display:3;"
    yield "(z?1:z?2:display)+1;"
    yield "true||1||true||'a'||null||math_abs;"
    yield "true&&(true||1)&&(false||'b');"
    yield "!(z?1:2);!(z?1:true);-(z?'a':'b');-(z?'a':1);"
    yield "(z?1:2)+(z?3:4);(z?'a':'b')+(z?'c':'d');(z?1:2)+(z?'a':'b');(z?null:true)+(z?1:'a');"
    yield "(z?1:2)<(z?'a':'b');(z?1:'a')<(z?'b':2);(z?null:1)<(z?true:'a');(z?1:'a')===null;null===(z?1:'a');"
    yield "z?" + "'" + "u" * 200 + "':'" + "v" * 200 + "';"


def units(count):
    """A statement whose load is count + 1."""
    return "'" + "!" * count + "';"


def filled(chain, load):
    """A union chain and two functions, filled up with strings to exactly that load."""
    # The functions weigh 4 and 2. The chain has chain - 1 names, chain literals, and a union of each size from 2 on.
    rest = load - 6 - (2 * chain - 1) - sum(size + 1 for size in range(2, chain + 1))
    return "math_pow;get_time;" + union_chain(chain) + units(255) * (rest // 256) + units(rest % 256 - 1)


def loads():
    """A load of exactly 8,192, and of one more."""
    yield filled(50, 8192)
    yield filled(50, 8193)
    yield union_chain(125)


def big():
    """Few full-size sheets for the corpus."""
    yield "1;" + " " * (16384 - 2)
    yield "1;/*" + "\xff" * (16385 - 6) + "*/"
    yield "7" * 4000 + ";"
    yield "(" * 2047 + "1" + ")" * 2047 + ";"
    yield "(" * 2000 + "!" * 95 + "1" + ")" * 2000 + ";"
    yield "(" * 4096
    yield "1?1:" * 1024


def large():
    """Full-size and hostile sheets that are too long to be committed."""
    for byte in "(!\"'`-)?;:/*{.0a\\\n":
        yield byte * 16384
        yield byte * 16383
        yield byte * 4097
        yield byte * 4096
    for text in ("0", "1", "0.", "1e", "1e-", "0e", "1.", "9"):
        yield text + "0" * 16000 + ";"
        yield text + "7" * 16000 + ";"
    yield "1" + "0" * 16000 + "e-16000;"
    yield "0." + "0" * 16000 + "1e16001;"
    yield "(" * 1_000_000
    yield "1;" * 2048
    yield "1;" * 2048 + "1"
    yield "!" * 4094 + "1;"
    yield "!" * 4095 + "1;"
    yield "- " * 4094 + "'a';"
    yield "typeof " * 2300 + "1;"
    yield "1" + "+1" * 2047 + ";"
    yield "1" + "+1" * 2046 + ";1"
    yield "'a'" + "-'a'" * 2047 + ";"
    yield "!1" + "-!1" * 1364 + ";"
    yield "(1+" * 1023 + "1" + ")" * 1023 + ";"
    yield "1" + "?1:1" * 1023 + ";"
    yield "1?" * 1023 + "1" + ":1" * 1023 + ";"
    yield "(1?" * 681 + "1" + ":1)" * 681 + ";"
    yield "1?(" * 681 + "1" + "):1" * 681 + ";"
    yield "(" * 2047 + "1" + ")" * 2047 + ";;"
    yield "(" * 2000 + "!" * 94 + "1" + ")" * 2000 + ";"
    yield ")" * 4097 + "1e291"
    yield ")" * 4096 + " )"
    yield "1?" * 2048
    yield "1+" * 2048
    yield "(!" * 1364 + "1" + ")" * 1364 + ";"
    yield "/*" + "*" * 16378 + "*/1;"
    yield "/**/" * 4095 + "1;"
    yield "//" + "/" * 16380 + "\n"
    yield "1||" * 2047 + "1;"
    yield "1||1&&1===1<1+1*-" * 227 + "1;"
    yield union_chain(123)
    yield union_chain(124)
    yield union_chain(125)
    yield union_chain(900)
    yield "z?" * 122 + "0" + "".join(f":{k}" for k in range(1, 123)) + ";"
    yield "true||" * 1300 + "1;"
    yield units(255) * 32
    yield units(255) * 32 + "1;"
    yield units(255) * 31 + units(254) + "z;"
    yield "z?" + units(255)[:-1] + ":" + units(255)
    for chain in (1, 2, 30, 100, 124):
        for load in (8191, 8192, 8193):
            yield filled(chain, load)
    # A name with this function type weighs 4: the first load is 8,189, the last one is over.
    for names in (1638, 1639):
        yield "math_pow" + "-math_pow" * (names - 1) + ";"
        yield "math_pow" + "-math_pow" * (names - 1) + ";1;1;1;"
        yield "math_pow" + "-math_pow" * (names - 1) + ";1;1;1;1;"
    yield "math_pow;" * 1820
    yield "=" * 16384
    yield "=>" * 8192
    yield "=>\n" * 4000
    yield "return\n" * 2300
    yield "return " * 2300
    yield "\xff" * 16384
    yield "\x00" * 16384
    yield " " * 16384
    yield " " * 16385
    yield "n" * 16384


BAD_LINES = [
    "", "check", "check -", "check - ", "check  - 1", "check - 1 2", "check - x", "check - -1", "check - 123456",
    "check 3 1", "check 3 b 1", "check 313b3 1", "check zz 1", "check 31-b 1", "check -- 1", "Check - 1",
    "checks - 1", "hello", " check - 1", "check - 1 ", "check\t-\t1", "check 313b", "check 1", "check  1",
    "declare 61 62", "withdraw 61", "-", "check - 1.", "check 0x31 1", "check 31 3b 1",
]  # fmt: skip


def corpus(seed, count):
    dice = Dice(seed)
    by_hand = [*KNOWN, *GRAMMAR, *LINES, *GAP_SHEETS]
    by_hand += [f"{text};" for text in NUMBERS]
    by_hand += [f"{text};" for text in STRINGS]
    by_hand += [f"{word};" for word in WORDS]
    by_hand += ["".join(f"{name};" for name in BOUND_NAMES), "".join(f"{name};" for name in FREE_NAMES)]
    for family in (operator_tables, each_byte, mark_pairs, orders, limits, nests, unions, loads, big):
        by_hand += family()
    lines = [call(sheet, 3) for sheet in by_hand]
    for sheet in ("!1;-'a';'a'-'b';par;", "par+1;", ""):
        lines += [call(sheet, length) for length in (0, 1, 2, 4, 5, 6, 99999)]
    lines += [call("1;", 1).replace(" 1", " 00001"), "check 6E3B 1", "check 6e3b 1", "check 273B27 1"]
    for family in (valid, damaged, token_soup, byte_soup):
        lines += [call(family(dice), dice.choice([0, 1, 2, 9, 9, 9])) for _ in range(count)]
    for bad in BAD_LINES:
        lines.insert(dice.below(len(lines)), bad)
    return lines


def main():
    parser = argparse.ArgumentParser(description="Writes lines for the calls program.")
    parser.add_argument("--seed", type=int, default=1)
    parser.add_argument("--random", type=int, default=180, metavar="COUNT")
    parser.add_argument("--large", action="store_true")
    options = parser.parse_args()
    lines = [call(sheet, 20) for sheet in large()] if options.large else corpus(options.seed, options.random)
    sys.stdout.write("".join(line + "\n" for line in lines))


if __name__ == "__main__":
    main()
