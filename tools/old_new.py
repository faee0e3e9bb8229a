#!/usr/bin/env python3
"""Writes what a clause says of a lent value before and after a call as today's Rattle has it: x.old and x.new of a `&mut`, x.now of a `&`.

usage: python3 tools/old_new.py        at the top, once, after tools/respell.py
"""

import glob
import re

FUNCTION = re.compile(r"fn \w+(?:<[^>]*>)?\((?P<args>[^{]*?)\)(?: -> [^\n{]+)?\n(?P<clauses>(?:    (?:requires|ensures)[^\n]*\n(?:        [^\n]*\n)*)+)")

for path in sorted(glob.glob("crates/*/src/**/*.rt", recursive=True)):
    with open(path, encoding="utf-8") as f:
        text = f.read()

    def one(m):
        kinds = dict(re.findall(r"(\w+): (&mut|&)?", m["args"]))

        def word(w):
            kind = kinds[w[2]]
            if kind == "&mut":
                return w[2] + (".old" if w[1] == "before" else ".new")
            if kind == "&":
                return w[2] + ".now"
            raise SystemExit(f"{path}: {w[0]} in {m[0][:60]}")

        clauses = re.sub(r"\((before|after) (\w+)\)", word, m["clauses"])
        clauses = re.sub(r"\b(before|after) (\w+)", word, clauses)
        return m[0][: m.start("clauses") - m.start()] + clauses

    new = FUNCTION.sub(one, text)

    def use(m):
        words = [w for w in m[1].split(", ") if w not in ("before", "after")]
        return f"ghost use Rattle.plan.specs.Contract.{{{', '.join(words)}}};\n" if words else ""

    new = re.sub(r"ghost use Rattle\.plan\.specs\.Contract\.\{([^}]*)\};\n", use, new)
    left = [l for l in new.splitlines() if re.search(r"\b(before|after) \w+", l) and re.match(r"\s+(requires|ensures)", l)]
    for l in left:
        print(f"look: {path}: {l}")
    if new != text:
        with open(path, "w", encoding="utf-8") as f:
            f.write(new)
