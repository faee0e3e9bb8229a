#!/usr/bin/env python3
"""Brings this repository's own definitions and lemmas to the spelling of today's Rattle: words in snake case, types and modules in camel case.

usage: python3 tools/respell.py        at the top, once, after port.py

A name of specs/ or proofs/ that has a dash or a hump gets underscores: sinkBits is sink_bits, run-accepted is run_accepted. A dash stays behind
a capital first part, a type's or a plan's, as in Body-read. Names of src/, strings, inputs and outputs stay. A lemma that would have a definition's
name gets _lem, and is printed. The texts of must-fail edits are turned with the files that they edit. The map is written to
tools/respelled.tsv. Comments get the new names too.
"""

import collections
import glob
import os
import re

TOKEN = r"[^\s(){}.;,@\"«»\[\]\\`]+"
SIG = re.compile(r"^\s*(?:(?:abbrev|unfoldable|pub|opaque)\s+)*([^\s(){}.;,@\"]+)\s*:(?:\s|$)")
DATA = re.compile(r"^\s*(?:pub\s+)?(?:data|record)\s+(\S+)")
WORD = re.compile(r"[A-Za-z][A-Za-z0-9_'\-₀-₉?]*")


def read(path):
    with open(path, encoding="utf-8") as f:
        return f.read()


def texts():
    for part in ("specs", "proofs"):
        yield from sorted(glob.glob(f"crates/*/{part}/**/*.antt", recursive=True))


def snake(name):
    first, dash, rest = name.partition("-")
    keep = dash and first[0].isupper()
    parts = [first, rest] if keep else [name]
    out = []
    for i, it in enumerate(parts):
        it = it.replace("-", "_")
        if not (keep and i == 0) and not it[0].isupper():
            it = re.sub(r"(?<=[a-z0-9'])([A-Z])", lambda m: "_" + m[1].lower(), it)
        out.append(it)
    return "-".join(out)


def main():
    declared = collections.Counter()
    for path in texts():
        for line in read(path).splitlines():
            if line.lstrip().startswith("--") or "tie." in line:
                continue
            for form in (SIG, DATA):
                m = form.match(line)
                if m and WORD.fullmatch(m[1]):
                    declared[m[1]] += 1
    inside = collections.defaultdict(set)
    for path in texts():
        for word in set(re.findall(TOKEN, re.sub(r"--[^\n]*", "", read(path)))):
            inside[word].add(path)
    turned = {}
    wanted = {n: snake(n) for n in declared if snake(n) != n}
    # A definition has a hump and no dash, and goes first; a lemma that would have a definition's name gets _lem.
    for old in sorted(wanted, key=lambda n: ("-" in n, n)):
        new = wanted[old]
        if "-" not in old:
            if new in declared and inside[new] & inside[old]:
                # port.py turned a lemma into this name: not-after beside notAfter.
                print(f"look: {new} gets _lem")
                turned[new] = new + "_lem"
        elif new in declared or new in turned.values():
            print(f"look: {old} gets _lem")
            new += "_lem"
        if new in turned.values():
            raise SystemExit(f"{old}: two names would be {new}")
        turned[old] = new
    token = re.compile(TOKEN)
    paths = list(texts()) + sorted(glob.glob("crates/*/src/**/*.rt", recursive=True)) + sorted(glob.glob("crates/*/must-fail/*.edit"))
    for path in paths:
        text = read(path)
        new = text
        if path.endswith(".rt"):
            # In code only clauses and ghost items: names with a dash or a hump are no names of the source.
            out = []
            for line in text.splitlines(keepends=True):
                code, sep, note = line.partition("//")
                strings = re.split(r'("(?:[^"\\]|\\.)*")', code)
                strings = [it if it.startswith('"') else token.sub(lambda m: turned.get(m[0], m[0]), it) for it in strings]
                note = re.sub(r"`([^`]+)`", lambda m: "`" + token.sub(lambda t: turned.get(t[0], t[0]), m[1]) + "`", note)
                out.append("".join(strings) + sep + note)
            new = "".join(out)
        else:
            new = token.sub(lambda m: turned.get(m[0], m[0]), text)
        if new != text:
            with open(path, "w", encoding="utf-8") as f:
                f.write(new)
    # Comments still name what port.py respelled.
    names = {turned.get(n, n) for n in declared}
    for path in texts():
        text = read(path)

        def now(m):
            return token.sub(lambda w: snake(w[0]) if w[0][0].islower() and w[0] not in names and snake(w[0]) in names else w[0], m[0])

        new = re.sub(r"--[^\n]*", now, text)
        if new != text:
            with open(path, "w", encoding="utf-8") as f:
                f.write(new)
    with open("tools/respelled.tsv", "w", encoding="utf-8") as f:
        f.writelines(f"{a}\t{b}\n" for a, b in sorted(turned.items()))
    print(f"{len(turned)} names")


main()
