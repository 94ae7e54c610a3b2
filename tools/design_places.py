#!/usr/bin/env python3
"""Lists places in src/ whose form may be older than the language allows, by kind: python3 tools/design_places.py [CRATES_FOLDER].

Each kind is found by its text alone, so what is listed is to be read; docs/DESIGN-PASS.md says of each kind what was found and what stays.
"""
import collections
import pathlib
import re
import sys

root = pathlib.Path(sys.argv[1] if len(sys.argv) > 1 else "crates")
files = sorted(root.glob("*/src/**/*.rt"))
text = {f: f.read_text() for f in files}


def where(f, at):
    return f"{f.relative_to(root)}:{text[f].count(chr(10), 0, at) + 1}"


def found(pattern, flags=re.M):
    for f in files:
        for m in re.finditer(pattern, text[f], flags):
            line = text[f][text[f].rfind("\n", 0, m.start()) + 1:].split("\n", 1)[0].strip()
            yield where(f, m.start()), line


def functions():
    """Each function: its place, name, parameters and clauses."""
    for f in files:
        for m in re.finditer(r"^ *(?:pub(?:\(\w+\))? )?fn (\w+)(?:<[^(]*>)?\(([^)]*)\)", text[f], re.M):
            rest = text[f][m.end():]
            body = re.search(r"^ *\{|;\s*$", rest, re.M)
            yield where(f, m.start()), m.group(1), m.group(2), rest[: body.start()] if body else rest


def show(title, lines):
    lines = list(lines)
    print(f"== {title}: {len(lines)}")
    for line in lines:
        print("  ", *line)


show("1 enums", found(r"^ *(pub(\(crate\))? )?enum "))
show("1 a `?`, `ok`, `map` or `matches!` written as a match", found(r"(Err\((\w+)\) => Err\(\2\)|Err\(_\) => (None|false|return)|Ok\((\w+)\) => (Some\(|!?\4,)|Some\((\w+)\) => (Ok|Some)\(|None => (None|Err|false|true)\b|=> \{\s*Ok\(\(\)\))"))
show("1 a flag or a state beside a value", found(r"^ +(pub(\(crate\))? )?\w+: (bool|State),"))
show("1 a number for a refusal", found(r"number: u8\b|-> u8\b"))

names = collections.defaultdict(list)
for place, name, params, clauses in functions():
    names[(re.sub(r"\w+: ", "", re.sub(r"\s+", " ", params)).strip(" ,"))].append((place, name))
show("2 functions with the same types of parameters, to be read for twins", ((", ".join(f"{n} ({p})" for p, n in v), "|", k) for k, v in names.items() if len(v) > 1 and k not in ("", "&self", "&self,", "self", "&mut self", "rt: HostRuntime", "HostRuntime")))
show("2 structs, enums and constants", found(r"^(pub(\(crate\))? )?(struct|const) "))

show("3 loops", found(r"^ *(for|while|loop)\b"))
show("3 an index or a range of indices", found(r"\b\w+\[[a-z]\w*( [-+] 1)?\]|\[[^\]\n]*\.\.[^\]\n]*\.len\(\)\]|\[0\.\."))

show("4 comparisons, conversions and ranges by hand", found(r"fn (from_\w+|number|opened|same|of|to_\w+)\(|<= \w+ && \w+ <=| as (u8|i32|u32)\b|match \w+\.mark"))

facts = collections.defaultdict(list)
for place, name, params, clauses in functions():
    for clause in re.findall(r"requires \w* ?\{ (.*) \}$", clauses, re.M):
        for fact in re.split(r" × ", clause):
            word = re.match(r"[(]*([A-Za-z_]\w*)", fact)
            if word:
                facts[word.group(1)].append(f"{name} ({place})")
show("5 a fact that three or more functions require", ((k, len(v), ", ".join(v)) for k, v in sorted(facts.items()) if len(v) >= 3))
groups = collections.defaultdict(list)
for place, name, params, clauses in functions():
    words = re.findall(r"(\w+):", params)
    for i in range(len(words)):
        for j in range(i + 1, len(words)):
            groups[(words[i], words[j])].append(f"{name} ({place})")
show("5 two parameters that go together in four or more functions", ((" ".join(k), len(v), ", ".join(v)) for k, v in sorted(groups.items()) if len(v) >= 4))

show("6 arrays", found(r"^ +(pub(\(crate\))? )?\w+: (&mut )?\[[^\]]+; [^\]]+\],|: &(mut )?\[\w+; "))
show("6 lengths and places beside them", found(r"^ +(pub(\(crate\))? )?(len|count|used|start|end|next|place): usize,"))

show("7 closures, function types and dyn", found(r"\bF(n|nMut|nOnce)\(|\bdyn\b|: fn\(|\|[\w, &()*]*\| "))
show("7 a choice among calls by a match or by fields", found(r"=> (self\.)?\w+\(|=> run\("))
