#!/usr/bin/env python3
"""Respells the repository's own definitions, lemmas, fields and constructors, once, after /opt/rattle/port/port.py.

usage: python3 tools/respell.py      at the top of the repository

A name with a dash that a file of specs/ or proofs/ declares turns: a type (it begins with a capital) into upper camel case, as
'Size-stop' into 'SizeStop'; any other into snake case, as 'join-below' into 'join_below'. Goals, which Rattle names, stay. In .antt
files the code turns, in .rt files all but strings and comments. The script stops where two names would fall together.
"""

import os
import re
import sys

WORD = re.compile(r"[^\s(){}.;,@\"«»]+")
HEAD = re.compile(r"^(?:(?:abbrev|unfoldable|pub|data|record)\s+)*([^\s(){}.;,@\"«»:=]+)(?=\s|$)")
QUIET_ANTT = re.compile(r"(?<![^\s(){}.;,@\"«»])--[^\n]*|\"(?:[^\"\\\n]|\\.)*\"")
QUIET_RT = re.compile(r"//[^\n]*|\"(?:\\.|[^\"\\])*\"")


def files(root):
    for folder, dirs, names in os.walk(root):
        dirs[:] = sorted(d for d in dirs if d != "out")
        for name in sorted(names):
            if name.endswith((".rt", ".antt")):
                yield os.path.join(folder, name)


def declared(text):
    """The names that an .antt file declares, but for goals."""
    for line in QUIET_ANTT.sub("", text).split("\n"):
        line = line.strip()
        if line.startswith(("use ", "mod ", "pub mod ")):
            continue
        m = HEAD.match(line)
        if not m:
            continue
        rest = line[m.end() :].strip()
        is_type = re.search(r"\b(?:data|record)\s+" + re.escape(m.group(1)) + r"(?:\s|$)", line)
        if is_type or (rest.startswith(":") and not re.match(r":\s*goals?\.", rest)):
            yield m.group(1)


def respelled(name):
    if name[0].isupper():
        return "".join(part[:1].upper() + part[1:] for part in name.split("-"))
    return name.replace("-", "_")


def turned(text, quiet, table):
    def words(part):
        return WORD.sub(lambda m: table.get(m.group(0), m.group(0)), part)

    out, at = [], 0
    for m in quiet.finditer(text):
        out += [words(text[at : m.start()]), m.group(0)]
        at = m.end()
    return "".join(out + [words(text[at:])])


def main():
    texts = {}
    for path in files("crates"):
        with open(path, encoding="utf-8") as f:
            texts[path] = f.read()
    names = set()
    for path, text in texts.items():
        if path.endswith(".antt"):
            names.update(declared(text))
    table = {n: respelled(n) for n in names if "-" in n.strip("-")}
    olds = {}
    for old, new in table.items():
        if new in names or new in olds:
            sys.exit(f"respell: {old} would fall together with {olds.get(new, new)}")
        olds[new] = old
    for path, text in texts.items():
        new = turned(text, QUIET_ANTT if path.endswith(".antt") else QUIET_RT, table)
        if new != text:
            with open(path, "w", encoding="utf-8") as f:
                f.write(new)
    print(f"respell: {len(table)} names")
    for old in sorted(table):
        print(f"{old}\t{table[old]}")


main()
