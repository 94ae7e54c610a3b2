#!/usr/bin/env python3
"""Respells the repository's own definitions and lemmas in snake case, once, after the kit's own script.

usage: python3 tools/snake_names.py [--dry]      (at the top of the repository)

A name that specs/ or proofs/ defines (a definition, a lemma, a field, a constructor) loses its dashes:
`open-rows` becomes `open_rows`, and a type `Struck-at` becomes `StruckAt`. A dash beside an operator stays
(`*-assoc`), and so do the names that Rattle itself makes (goals, steps, invariants). With --dry nothing is
written: it lists the renamings, and the names that would fall together.
"""
import os
import re
import subprocess
import sys

TOKEN = re.compile(r"(?<![\w'-])[A-Za-z][\w']*(?:-[\w']+)+(?![\w'-])")
DEFINED = re.compile(r"^[ ]*(?:(?:abbrev|unfoldable|pub|record|data) )*([A-Za-z][\w']*(?:-[\w']+)+)(?= )", re.M)
MADE = re.compile(r"^pub ([^\s:]+) : (?:goal|goals|given)\.", re.M)


def tracked():
    out = subprocess.run(["git", "ls-files", "-co", "--exclude-standard"], capture_output=True, text=True, check=True)
    return [f for f in out.stdout.split("\n") if f and os.path.isfile(f)]


def text(path):
    with open(path, encoding="utf-8") as f:
        return f.read()


def signatures(t):
    """Names at the head of a signature, at any depth of indentation: `name : ..` and `name (x : ..) : ..`."""
    for m in DEFINED.finditer(t):
        rest = t[m.end():m.end() + 400].split("\n", 1)[0].strip()
        head = t[m.start():m.end()]
        if rest.startswith(":") or (rest.startswith(("(", "{")) and " : " in rest and ("record " in head or "data " in head)):
            yield m.group(1)


def snake(name):
    if name[0].isupper():
        first, *rest = name.split("-")
        return first + "".join(w[:1].upper() + w[1:] for w in rest)
    return name.replace("leZ", "le_z").replace("ltZ", "lt_z").replace("-", "_")


def main():
    dry = "--dry" in sys.argv
    files = [f for f in tracked() if re.match(r"crates/[^/]+/(specs|proofs|src)/", f) and f.endswith((".antt", ".rt"))]
    texts = {f: text(f) for f in files}
    own, made = set(), set()
    for f, t in texts.items():
        if not f.endswith(".antt"):
            continue
        goals = set(MADE.findall(t))
        made |= goals
        own |= {n for n in signatures(t) if n not in goals and not n.startswith(("invariant-", "decreases-"))}
    mixed = own & made
    if mixed:
        print("also made by Rattle, left:", *sorted(mixed))
    own -= made
    names = {n: snake(n) for n in sorted(own)}
    words = set()
    for t in texts.values():
        words |= set(re.findall(r"(?<![\w'-])[A-Za-z][\w']*(?![\w'-])", t))
    for n, s in names.items():
        if s in words:
            where = [f for f, t in texts.items() if re.search(r"(?<![\w'-])" + re.escape(s) + r"(?![\w'-])", t)]
            both = [f for f in where if n in texts[f]]
            print(f"meets a name that is there: {n} -> {s}; in {len(where)} files; in one file with it: {' '.join(both[:4])}")
    if len(set(names.values())) != len(names):
        print("fall together:", [s for s in set(names.values()) if list(names.values()).count(s) > 1])
    if dry:
        for n, s in names.items():
            print(n, "->", s)
        print(len(names), "names")
        return
    turned = lambda t: TOKEN.sub(lambda m: names.get(m.group(0), m.group(0)), t)
    pages = [f for f in tracked() if f.endswith(".md") and f != "docs/PORT.md" or re.match(r"crates/[^/]+/must-fail/.*\.edit$", f)]
    for f in files + pages:
        t = text(f)
        if f.endswith(".md"):  # names in backticks, also those that the kit's script respelt in crates/ alone
            known = lambda n: snake(n) if snake(n) in words or snake(n) in names.values() else n
            u = re.sub(r"`[^`\n]+`", lambda m: TOKEN.sub(lambda w: known(w.group(0)), m.group(0)), t)
        else:
            u = turned(t)
        if u != t:
            with open(f, "w", encoding="utf-8") as out:
                out.write(u)
    print(len(names), "names respelt")


main()
