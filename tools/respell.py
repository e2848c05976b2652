#!/usr/bin/env python3
"""Brings the names of this repository's own definitions and lemmas to the spelling of today's Rattle.

Run once, at the top, after port.py of the kit. Types, facts and modules go to upper camel case, everything else to snake case:
`Union-made` becomes `UnionMade`, `form-any` becomes `form_any`, `treeAt` becomes `tree_at`. Only names that a file of
specs/ or proofs/ declares are turned, so the names that Rattle makes (`loop-i-preserved`) stay, and so do the names of
std, functions, strings and words of comments. A name that would fall together with another one in its crate is in TOGETHER.
"""
import glob
import os
import re
import sys

# names that would meet another one, and what they become
TOGETHER = {
    "In-order": "IsInOrder",  # a relation of another crate is InOrder
    "No-room": "HasNoRoom",  # a variant is NoRoom
    "No-token": "HasNoToken",  # a variant is NoToken
    "infix-of": "right_infix",  # beside the next
    "prefix-of": "right_prefix",  # a definition of the grammar is prefix_of
    "examples-hold": "examples_hold_lem",  # functions have these names
    "findings-tell": "findings_tell_lem",
}

EDGE = r"\s(){};.,λ\""
TOKEN = re.compile(r"[^" + EDGE + r"]+")


def is_old(name):
    if not name[:1].isalpha():
        return False
    if "-" in name:
        return True
    if name[0].isupper():
        return "_" in name
    return re.search(r"[A-Z]", name) is not None


def spelled(name):
    if name in TOGETHER:
        return TOGETHER[name]
    base = name.rstrip("'")
    primes = name[len(base):]
    if base[0].isupper():
        return "".join(part[:1].upper() + part[1:] for part in re.split(r"[-_]", base)) + primes
    base = base.replace("-", "_")
    return re.sub(r"([a-z0-9])([A-Z])", lambda m: m.group(1) + "_" + m.group(2).lower(), base) + primes


def code_of(line):
    at = line.find("--")
    return (line, "") if at < 0 else (line[:at], line[at:])


def declared(text):
    names = set()
    code = "\n".join(code_of(line)[0] for line in text.split("\n"))
    for m in re.finditer(r"^[ \t]*(?:(?:pub|abbrev|unfoldable) )*([^\s(){};.,]+)[ \t]*:[ \t]+(\S+)", code, re.M):
        if not m.group(2).startswith("goal."):
            names.add(m.group(1))
    for m in re.finditer(r"\b(?:data|record|module)\s+([^\s(){};.,:]+)", code):
        names.add(m.group(1))
    return names


def turned(text, names):
    return TOKEN.sub(lambda m: names.get(m.group(0), m.group(0)), text)


def turn_antt(text, names):
    lines = []
    for line in text.split("\n"):
        code, note = code_of(line)
        lines.append(turned(code, names) + re.sub(r"`[^`]*`", lambda m: turn_ticks(m, names), note))
    return "\n".join(lines)


def turn_ticks(m, names):
    return "`" + turned(m.group(0)[1:-1], names) + "`"


# outside strings and comments
def turn_rt(text, names):
    parts = re.split(r'("(?:[^"\\]|\\.)*"|//[^\n]*)', text)
    return "".join(part if i % 2 else turned(part, names) for i, part in enumerate(parts))


def main():
    antt = sorted(glob.glob("crates/*/specs/**/*.antt", recursive=True) + glob.glob("crates/*/proofs/**/*.antt", recursive=True))
    texts = {path: open(path, encoding="utf-8").read() for path in antt}
    old = set()
    for path, text in texts.items():
        old |= declared(text)
        stem = os.path.basename(path)[:-5]
        if stem[0].isupper() and "_" in stem:
            old.add(stem)
    names = {name: spelled(name) for name in old if is_old(name)}
    for path, text in texts.items():
        new = turn_antt(text, names)
        if new != text:
            open(path, "w", encoding="utf-8").write(new)
        folder, stem = os.path.split(path)
        if stem[:-5] in names:
            os.rename(path, os.path.join(folder, names[stem[:-5]] + ".antt"))
    for path in sorted(glob.glob("crates/*/src/**/*.rt", recursive=True)):
        text = open(path, encoding="utf-8").read()
        new = turn_rt(text, names)
        if new != text:
            open(path, "w", encoding="utf-8").write(new)
    for path in sorted(glob.glob("docs/*.md")) + ["README.md"]:
        if os.path.basename(path).startswith("PORT"):
            continue
        text = open(path, encoding="utf-8").read()
        new = re.sub(r"`[^`\n]*`", lambda m: turn_ticks(m, names), text)
        if new != text:
            open(path, "w", encoding="utf-8").write(new)
    print(f"respell: {len(names)} names")
    if "--list" in sys.argv:
        for name in sorted(names):
            print(name, names[name])


if __name__ == "__main__":
    main()
