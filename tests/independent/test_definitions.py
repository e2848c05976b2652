#!/usr/bin/env python3
"""Holds the checker's short cuts against the definitions they stand for.

Meeting is held against values, the place of refusal 7 against a recogniser that works from the grammar as written,
decimals against exact fractions.
"""

import itertools
import unittest
from fractions import Fraction

import check
from check import ANY, BOOLEAN, FALSE, NULL, NUMBER, STRING, TRUE, UNDEFINED
from generate import Dice

# ---------------------------------------------------------------- values

NUMBERS_AND_TEXTS = [("number", 1, 0), ("number", 2, 0), ("string", ()), ("string", (97,))]
BASIC_VALUES = [*NUMBERS_AND_TEXTS, True, False, "undefined", None, ("function", 0), ("function", 1)]


def pairs_over(values):
    return [("pair", head, tail) for head, tail in itertools.product(values, repeat=2)]


def belongs(value, type_):
    """Whether the value belongs to the type, by the definition."""
    kind = type_[0]
    tag = value[0] if isinstance(value, tuple) else None
    if kind == "any":
        return True
    if kind in ("number", "string"):
        return tag == kind
    if kind == "literal":
        return value == ("number", type_[1], type_[2])
    if kind == "text":
        return value == ("string", type_[1])
    if kind == "boolean":
        return value is True or value is False
    if kind in ("true", "false"):
        return value is (kind == "true")
    if kind == "undefined":
        return value == "undefined"
    if kind == "null":
        return value is None
    if kind == "function":
        return value == ("function", len(type_[1]))
    if kind == "pair":
        return tag == "pair" and belongs(value[1], type_[1]) and belongs(value[2], type_[2])
    if kind == "list":
        return value is None or (tag == "pair" and belongs(value[1], type_[1]) and belongs(value[2], type_))
    return any(belongs(value, member) for member in type_[1])


SIMPLE_TYPES = [
    ANY, NUMBER, STRING, BOOLEAN, UNDEFINED, NULL, TRUE, FALSE,
    check.literal(1, 0), check.literal(2, 0), check.text(()), check.text((97,)),
    check.function([], ANY), check.function([NUMBER], NULL), check.function([STRING], TRUE),
]  # fmt: skip


def random_type(dice, depth, simple):
    if depth == 0 or dice.percent(20):
        return dice.choice(simple)
    part = lambda: random_type(dice, depth - 1, simple)
    form = dice.below(3)
    if form == 0:
        return check.pair(part(), part())
    if form == 1:
        return check.list_of(part())
    return check.union(*(random_type(dice, depth, simple) for _ in range(2)))


class Types(unittest.TestCase):
    def test_simple_types_meet_by_values(self):
        for a, b in itertools.product(SIMPLE_TYPES, repeat=2):
            with self.subTest((a, b)):
                common = any(belongs(v, a) and belongs(v, b) for v in BASIC_VALUES)
                self.assertEqual(check.meet(a, b), common)

    def test_types_meet_by_values(self):
        # Types with pairs and lists at most two deep have, if any, a common value with pairs at most two deep.
        few = [("number", 1, 0), ("string", (97,)), True, None, ("function", 1)]
        values = [*BASIC_VALUES, *pairs_over([*few, *pairs_over(few)])]
        simple = [ANY, NUMBER, NULL, TRUE, check.literal(1, 0), check.text((97,)), check.function([NUMBER], NULL)]
        dice = Dice(7)
        outcomes = set()
        for _ in range(400):
            a, b = random_type(dice, 2, simple), random_type(dice, 2, simple)
            with self.subTest((a, b)):
                common = any(belongs(v, a) and belongs(v, b) for v in values)
                outcomes.add(common)
                self.assertEqual(check.meet(a, b), common)
        self.assertEqual(outcomes, {True, False})

    def test_known_meetings(self):
        numbers = check.list_of(NUMBER)
        self.assertTrue(check.meet(numbers, check.list_of(STRING)))
        self.assertTrue(check.meet(numbers, check.pair(NUMBER, NULL)))
        self.assertFalse(check.meet(numbers, check.pair(NUMBER, STRING)))
        self.assertFalse(check.meet(check.literal(51203461, -1), check.literal(51203462, -1)))
        self.assertTrue(check.meet(check.literal(*check.decimal("0.50")), check.literal(*check.decimal("5e-1"))))

    def test_union_has_the_values_of_its_members(self):
        dice = Dice(8)
        values = [*BASIC_VALUES, *pairs_over(BASIC_VALUES)]
        for _ in range(200):
            a, b = random_type(dice, 1, SIMPLE_TYPES), random_type(dice, 1, SIMPLE_TYPES)
            joined = check.union(a, b)
            with self.subTest((a, b)):
                for value in values:
                    self.assertEqual(belongs(value, joined), belongs(value, a) or belongs(value, b))
                ranks = [check.RANKED.index(member[0]) for member in check.members(joined)] if joined != ANY else []
                self.assertEqual(ranks, sorted(ranks))
                self.assertEqual(len(set(check.members(joined))), len(check.members(joined)))

    def test_weights_and_parts(self):
        one_or_text = check.union(check.text((97, 98)), check.literal(1, 0))
        self.assertEqual(check.words(one_or_text), "union 2 literal 1 0 text 2 97 98".split())
        self.assertEqual(check.weight(one_or_text), 1 + 1 + 3)
        self.assertEqual(check.weight(check.function([NUMBER, ANY], check.list_of(NULL))), 1 + 1 + 1 + 2)
        self.assertEqual(check.weight(check.pair(one_or_text, NUMBER)), 1 + 5 + 1)
        listed = check.list_of(NUMBER)
        mixed = check.union(check.pair(STRING, NULL), listed, TRUE)
        self.assertEqual(check.own_part(mixed, 0), check.union(NUMBER, STRING))
        self.assertEqual(check.own_part(mixed, 1), check.union(NULL, listed))
        self.assertIsNone(check.own_part(check.union(TRUE, NULL), 0))
        self.assertEqual(check.words(mixed), "union 3 true pair string null list number".split())


# ---------------------------------------------------------------- the grammar

GRAMMAR = {
    "program": [[], ["program", "expression", ";"]],
    "expression": [["or"], ["or", "?", "expression", ":", "expression"]],
    "or": [["and"], ["or", "||", "and"]],
    "and": [["equal"], ["and", "&&", "equal"]],
    "equal": [["order"], *(["equal", operator, "order"] for operator in ("===", "!=="))],
    "order": [["sum"], *(["order", operator, "sum"] for operator in ("<", ">", "<=", ">="))],
    "sum": [["product"], *(["sum", operator, "product"] for operator in "+-")],
    "product": [["unary"], *(["product", operator, "unary"] for operator in "*/%")],
    "unary": [["primary"], *([operator, "unary"] for operator in ("!", "-", "typeof"))],
    "primary": [["number"], ["string"], ["true"], ["false"], ["null"], ["name"], ["(", "expression", ")"]],
}


class Earley:
    """The sets of an Earley recogniser; every rule of the grammar is of use, so a set is empty exactly when no
    program begins with the tokens so far."""

    def __init__(self):
        self.sets = [self.closed({("program", tuple(right), 0, 0) for right in GRAMMAR["program"]}, 0, [])]

    def closed(self, items, here, earlier):
        items = set(items)
        while True:
            more = set()
            for left, right, dot, origin in items:
                if dot == len(right):
                    source = items if origin == here else earlier[origin]
                    for l, r, d, o in source:
                        if d < len(r) and r[d] == left:
                            more.add((l, r, d + 1, o))
                elif right[dot] in GRAMMAR:
                    more |= {(right[dot], tuple(rule), 0, here) for rule in GRAMMAR[right[dot]]}
            if more <= items:
                return items
            items |= more

    def push(self, kind):
        moved = {(l, r, d + 1, o) for l, r, d, o in self.sets[-1] if d < len(r) and r[d] == kind}
        self.sets.append(self.closed(moved, len(self.sets), self.sets))
        return bool(moved)

    def pop(self):
        self.sets.pop()

    def whole(self):
        return any(l == "program" and d == len(r) and o == 0 for l, r, d, o in self.sets[-1])


def outcome(kinds):
    """None for a program, else the place of 7, tokens being one byte long and no gaps between them."""
    tokens = [check.Token(kind, at, at + 1, (0, 0)) for at, kind in enumerate(kinds)]
    parser = check.Parser(tokens, len(tokens))
    try:
        parser.program()
    except check.Refused as refusal:
        return refusal.place
    return None


class Grammar(unittest.TestCase):
    ALPHABET = ["number", "(", ")", "-", "!", "*", "<", "&&", "?", ":", ";", "as", "=>", "{"]

    def explore(self, earley, before, depth):
        """All short token lists: each goes on from one that begins a program."""
        self.assertEqual(outcome(before), None if earley.whole() else len(before))
        if depth == 0:
            return
        for kind in self.ALPHABET:
            lives = earley.push(kind)
            after = [*before, kind]
            if lives:
                self.explore(earley, after, depth - 1)
            else:
                self.assertEqual(outcome(after), len(before), after)
                self.assertEqual(outcome([*after, ";"]), len(before), after)
            earley.pop()

    def test_short_lists(self):
        self.explore(Earley(), [], 4)

    def test_long_lists(self):
        dice = Dice(9)
        more = "number number ( ( ) ) ? : typeof + || === string null name /".split()
        kinds_to_try = [*self.ALPHABET, *more]
        for _ in range(60):
            earley, kinds = Earley(), []
            for _ in range(14):
                for kind in [dice.choice(kinds_to_try) for _ in range(6)]:  # until one goes on
                    if earley.push(kind):
                        kinds.append(kind)
                        break
                    earley.pop()
                    self.assertEqual(outcome([*kinds, kind]), len(kinds))
            self.assertEqual(outcome(kinds), None if earley.whole() else len(kinds))

    def test_brackets_change_nothing_else(self):
        """Each expression, spelled with brackets round every part, has the same tree."""

        def spelled(expressions, number):
            expression = expressions[number]
            parts = [spelled(expressions, part) for part in expression.parts]
            if expression.form == "conditional":
                return f"({parts[0]} ? {parts[1]} : {parts[2]})"
            if expression.form.startswith("unary"):
                return f"({expression.form.split()[1]} {parts[0]})"
            if expression.form.startswith("binary"):
                return f"({parts[0]} {expression.form.split()[1]} {parts[1]})"
            return "1"

        tree = lambda expressions: [(e.form, e.parts) for e in expressions]
        dice = Dice(10)
        operators = ["||", "&&", "===", "!==", "<", ">", "<=", ">=", "+", "-", "*", "/", "%", "?", ":"]
        for _ in range(300):
            sheet, open_conditions = "", 0
            for _ in range(dice.below(9)):
                operator = dice.choice(operators)
                if operator == ":" and not open_conditions:
                    operator = "?"
                open_conditions += {"?": 1, ":": -1}.get(operator, 0)
                sheet += dice.choice(["", "", "-", "! ", "typeof "]) + f"1 {operator} "
            sheet += "1" + " : 1" * open_conditions + ";"
            expressions = check.read(sheet.encode())
            again = check.read((spelled(expressions, len(expressions) - 1) + ";").encode())
            self.assertEqual(tree(expressions), tree(again), sheet)


# ---------------------------------------------------------------- decimals


class Decimals(unittest.TestCase):
    def test_values_are_exact(self):
        dice = Dice(11)
        digits = lambda most: "".join(dice.choice("00123456789") for _ in range(1 + dice.below(most)))
        for _ in range(2000):
            written, power = digits(12), 0
            value = Fraction(int(written))
            if dice.percent(50):
                fraction = digits(12)
                value += Fraction(int(fraction), 10 ** len(fraction))
                written += "." + fraction
            if dice.percent(50):
                sign, exponent = dice.choice(["", "+", "-"]), digits(3)
                power = -int(exponent) if sign == "-" else int(exponent)
                written += "e" + sign + exponent
            value *= Fraction(10) ** power
            result = check.decimal(written)
            with self.subTest(written):
                if result is None:
                    self.assertFalse(self.in_range(value))
                else:
                    m, e = result
                    self.assertEqual(m * Fraction(10) ** e, value)
                    self.assertTrue(m % 10 or (m, e) == (0, 0))
                    self.assertTrue(m < 10**15 and -300 <= e <= 290)

    def in_range(self, value):
        mantissas = (value / Fraction(10) ** e for e in range(-300, 291))
        return any(m.denominator == 1 and m < 10**15 and m % 10 for m in mantissas)


if __name__ == "__main__":
    check.with_deep_stack(unittest.main)
