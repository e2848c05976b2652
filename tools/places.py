#!/usr/bin/env python3
"""Lists the places in crates/*/src that the pages on the code's form count, by text alone.

    tools/places.py [FOLDER]      each place, and at the end how many of each sort
    tools/places.py -n [FOLDER]   the counts alone
"""
import collections
import glob
import os
import re
import sys

SORTS = [
    ("1a an enum of its own", r"^\s*(pub )?enum \w+"),
    ("1b a let-else that gives None, false or Ok(None) back", None),
    ("1c a match arm that passes an error on, or drops it", r"Err\((e|_|\(e, _\))\) => "),
    ("1d a bool field", r"^    (pub )?\w+: bool,"),
    ("1e a function that writes and answers a bool", None),
    ("1f a number that stands for `none`", r"^\s*//.*\bor 0\b"),
    ("1g a match whose arms are true and false", r"=> (true|false),?$"),
    ("1h a theorem that answers a number", r"\(\) -> u8$"),
    ("2a a constant declared", r"^\s*(pub )?(const|static) [A-Z_]+:"),
    ("3a a loop over a range", r"^\s*for \w+ in [^{]*\.\."),
    ("3b a while, a loop, or a for with enumerate", r"^\s*(while |loop \{|for .*\.enumerate\(\))"),
    ("3c another for", r"^\s*for "),
    ("4a a conversion, test or text by hand", r"fn (same|is_text|plain_number|words|hex|hex_digit|byte_of|number_of|kind_number|token_of|entry_of|number|is_word_byte|word)\b"),
    ("5b a function of five parameters or more", None),
]


def split(parameters):
    depth, n, last = 0, 0, ""
    for c in parameters:
        depth += (c in "([<") - (c in ")]>" and last != "-")
        if c == "," and depth == 0:
            n += 1
        last = c
    return n + (0 if parameters.rstrip().endswith(",") or not parameters.strip() else 1)


def signatures(text):
    for m in re.finditer(r"\bfn (\w+)(<[^(]*>)?\(", text):
        depth, i = 1, m.end()
        while depth and i < len(text):
            depth += (text[i] == "(") - (text[i] == ")")
            i += 1
        head = text[i:].split("{", 1)[0]
        yield m, text[m.end():i - 1], head


def places(top):
    found = collections.defaultdict(list)
    clauses = collections.Counter()
    for path in sorted(glob.glob(os.path.join(top, "crates/*/src/*.rt"))):
        text = open(path, encoding="utf-8").read()
        name = os.path.relpath(path, top)
        lines = text.split("\n")
        for n, line in enumerate(lines, 1):
            where = f"{name}:{n}: {line.strip()}"
            matched_loop = False
            for sort, pattern in SORTS:
                if not pattern or not re.search(pattern, line):
                    continue
                if sort.startswith("3"):
                    if matched_loop:
                        continue
                    matched_loop = True
                found[sort].append(where)
            if line.rstrip().endswith("else {") and n < len(lines):
                if re.match(r"\s*return (None|false|Ok\(None\));", lines[n]) and "let " in "".join(lines[max(0, n - 5):n]):
                    found[SORTS[1][0]].append(where)
            m = re.match(r"\s*((ensures|requires)\b.*)", line)
            if m:
                clauses[m.group(1)] += 1
        for m, parameters, head in signatures(text):
            n = text.count("\n", 0, m.start()) + 1
            where = f"{name}:{n}: fn {m.group(1)}"
            if split(parameters) >= 5:
                found["5b a function of five parameters or more"].append(where)
            if "-> bool" in head.split("\n")[0] and "&mut" in parameters:
                found["1e a function that writes and answers a bool"].append(where)
    for clause, n in sorted(clauses.items()):
        if n >= 3:
            found["5a a clause that stands three times or more"].append(f"{n} times: {clause}")
    return found


def main():
    arguments = [a for a in sys.argv[1:] if a != "-n"]
    found = places(arguments[0] if arguments else ".")
    if "-n" not in sys.argv:
        for sort in sorted(found):
            print(sort)
            for where in found[sort]:
                print("    " + where)
    for sort in sorted({s for s, _ in SORTS} | set(found)):
        print(f"{len(found[sort]):4d}  {sort}")


main()
