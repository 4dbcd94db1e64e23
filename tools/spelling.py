#!/usr/bin/env python3
"""Brings this repository's own names to the spelling of today's Rattle.

    python3 tools/spelling.py        once, at the top, right after the kit's port.py

Words are in snake case (soundGuest becomes sound_guest); types, modules, and what the source declares keep their names. In the name of a
lemma a dash stays where it joins two names (seen-laid_guest), and becomes `_` before or behind a plain word (word_later). A lemma that
would then have its definition's name gets `_lem`. Changed are the files of specs/ and proofs/, the clauses and comments of src/, the
must-fail edits, tests/wrong-rules.txt, and names between backticks in the pages. Generated names and those of libraries stay.
It prints which names fall together with one that is there already."""
import collections
import glob
import re
import sys

PART = re.compile(r"[a-z][a-z0-9]*(?:[A-Z][a-z0-9]*)+[₀-₉'′]*$")
TOKEN = re.compile(r"(?<![\w'′₀-₉\-])[A-Za-z_][\w'′₀-₉]*(?:-[\w'′₀-₉]+)*")
DECLARED = re.compile(r"^\s*(?:(?:abbrev|unfoldable|pub|data|record|ruleset)\s+)*([A-Za-z_][\w'′₀-₉]*(?:-[\w'′₀-₉]+)*)\s*(?:[({][^\n]*?[)}]\s*)*:(?!:)\s*(.*)", re.M)
IMPORT = re.compile(r"^use\s+([\w.+\-·]+)\.\{([^}]*)\}", re.M)
GENERATED = re.compile(r"^(?:tie|goal|goals|given)\.|Need-|\bStatement\b")
# Words of the library, and what a lemma on lists ends in: names, as functions of specs/ are.
NAMES = set("length append map set take drop get_or replicate reverse filter zip sum nil cons true false suc zero ap".split())
# The definition has the name that the lemma would get.
LEMMAS = {"in_order": "in_order_lem", "run_length": "run_length_lem", "every_byte": "every_byte_lem"}


def snake(part):
    return re.sub(r"[A-Z]", lambda m: "_" + m.group(0).lower(), part) if PART.match(part) else part


def text(path):
    with open(path, encoding="utf-8") as f:
        return f.read()


def bare(t):
    return re.sub(r"--.*", "", t)


antt = sorted(glob.glob("crates/*/specs/**/*.antt", recursive=True) + glob.glob("crates/*/proofs/**/*.antt", recursive=True))
rt = sorted(glob.glob("crates/*/src/**/*.rt", recursive=True))
edits = sorted(glob.glob("crates/*/must-fail/*.edit")) + ["tests/wrong-rules.txt"]
pages = sorted(glob.glob("docs/*.md")) + ["README.md"]
crates = {p.split("/")[1] for p in rt}

functions, libraries, words, lemmas, tokens = set(), set(), set(), {}, collections.defaultdict(set)
for path in rt:
    functions |= set(re.findall(r"\bfn (\w+)", text(path)))
for path in antt:
    t = bare(text(path))
    for module, names in IMPORT.findall(t):
        if module.split(".")[0] != "Rattle" or module.split(".")[1] not in crates:
            libraries |= {n.strip().split(" as ")[0] for n in names.split(",")}
    for m in DECLARED.finditer(t):
        name, said = m.group(1), m.group(2)
        if GENERATED.search(said):
            continue
        if "/specs/" in path:
            words.add(name)
        else:
            lemmas[name] = path
    for name in TOKEN.findall(t):
        tokens[name].add(path)

known = NAMES | functions | {snake(w) for w in words if "-" not in w} | {w for w in words if w[0].isupper()}


defined = {snake(w) for w in words}


def joined(name):
    """The name with a dash only between two names."""
    parts = [snake(p) for p in name.split("-")]
    runs, i = [], 0
    while i < len(parts):
        for j in range(len(parts), i, -1):
            if "_".join(parts[i:j]) in known:
                break
        runs.append(("_".join(parts[i:j]), "_".join(parts[i:j]) in known))
        i = j
    out = runs[0][0]
    for (_, before), (run, here) in zip(runs, runs[1:]):
        out += ("-" if before and here else "_") + run
    return out


new = {}
for name in tokens:
    if name in libraries:
        continue
    if name in LEMMAS and name in lemmas:
        new[name] = LEMMAS[name]
    elif "-" in name and (name in lemmas or name in words):
        new[name] = joined(name)
        if name in lemmas and new[name] in defined:
            new[name] += "_lem"
    elif "-" not in name and snake(name) != name:
        new[name] = snake(name)
for path in rt + edits:
    for name in TOKEN.findall(text(path)):
        if "-" not in name and snake(name) != name and name not in libraries:
            new.setdefault(name, snake(name))
new = {a: b for a, b in new.items() if a != b}
targets = collections.defaultdict(set)
for a, b in new.items():
    targets[b].add(a)
for b, olds in sorted(targets.items()):
    if len(olds) > 1 or (b in tokens and b not in functions and b not in new):
        print("together:", sorted(olds), "->", b, "there already" if b in tokens else "")


def turned(t):
    return TOKEN.sub(lambda m: new.get(m.group(0), m.group(0)), t)


changed = 0
for path in antt + rt + edits + pages:
    t = text(path)
    if path.endswith(".rt"):
        # Strings keep their text.
        u = re.sub(r'"(?:[^"\\\n]|\\.)*"|[^"]+|"', lambda m: m.group(0) if m.group(0).startswith('"') and len(m.group(0)) > 1 else turned(m.group(0)), t)
    elif path.endswith(".md"):
        u = re.sub(r"`[^`\n]+`", lambda m: turned(m.group(0)), t)
    else:
        u = turned(t)
    if path.endswith(".edit") or path.endswith("wrong-rules.txt"):
        u = u.replace("′", "'")
    if u != t:
        changed += 1
        with open(path, "w", encoding="utf-8") as f:
            f.write(u)
print(f"spelling: {len(new)} names, {changed} files")
if "--names" in sys.argv:
    for a, b in sorted(new.items()):
        print(a, "->", b)
