#!/usr/bin/env python3
"""Respells this repository's own definitions and lemmas in snake case, after port.py.

usage: tools/respell.py [--check]     at the top of the repository

    fromBe, length-toBe, r.typeId, row-fits  ->  from_be, length_to_be, r.type_id, row_fits

A name is turned if it is declared below crates/*/specs or in a file of lemmas below crates/*/proofs, or is a variable written
in camel case there. What only the libraries declare keeps its spelling, and so do the names that Rattle makes: in a folder of a
function's proof, only what the rest of the repository declares is turned. Types, modules, facts and the constructors that are
spelled as types keep their capitals. In comments and pages, a name is turned inside backquotes.
Names that would fall together are in APART, each with its own new name. --check writes nothing and prints what falls together.
"""

import os
import re
import sys

W = r"[^\s(){}.;,@\"«»\[\]\\`]+"
TOKEN = re.compile(r"--[^\n]*|//[^\n]*|\"(?:[^\"\\]|\\.)*\"|«[^»]*»|" + W)
MODIFIERS = r"(?:(?:abbrev|unfoldable|pub|record|data|ruleset|constructor|field)\s+)*"
CAMEL = re.compile(r"[a-z][a-z0-9]*(?:[A-Z][a-z0-9]*)+[₀-₉']*")
# Two names of one file, or a name and a word of the code, that would be spelled alike.
APART = {"first-height": "first_is", "rest-long": "rest_as_long"}
# The same, in one file alone.
APART_IN = {"crates/keeper_text/proofs/LineLaws.antt": {"in_order": "in_order_lem"}}


# A name with a dash may be a word of a drill or a folder in these pages.
NO_DASHES = ("README.md", "DRILL.md", "JUDGE.md", "KEEPER.md", "SHELL.md", "LAYOUT.md", "RUNS.md", "SPEED.md")


def snake(name):
    if name[:1].isupper():
        return name
    return re.sub(r"(?<=[a-z0-9₀-₉'])([A-Z])", r"_\1", name.replace("-", "_")).lower()


def files(root, *ends):
    for folder, dirs, names in os.walk(root):
        dirs[:] = sorted(d for d in dirs if d not in (".git", "out", "target"))
        for name in sorted(names):
            if name.endswith(ends):
                yield os.path.join(folder, name)


def of_function(path):
    return os.path.basename(path) in ("Proof.antt", "Invariants.antt", "Answers.antt")


def read(path):
    with open(path, encoding="utf-8") as f:
        return f.read()


def declared(text):
    """The names that a file declares: at the margin, in sections, as fields and as constructors."""
    found = set()
    for line in text.split("\n"):
        line = line.split("--")[0]
        m = re.match(rf"^\s*{MODIFIERS}((?:{W}\s+)+?)(?:\{{[^}}]*\}}\s*)*:\s", line)
        if m and not re.match(r"^\s*(let|λ|in|use|module|where|\()", line) and "=" not in m[1] and "↦" not in m[1] and "→" not in m[1]:
            found.update(m[1].split())
        m = re.match(rf"^\s*{MODIFIERS}(?:record|data|ruleset)\s+({W})", line)
        if m:
            found.add(m[1])
        m = re.match(rf"^\s*{MODIFIERS}({W})(?:\s+(?:{W}|\([^()]*\)|\{{[^{{}}]*\}}))*\s+:\s", line)
        if m and re.match(r"^\s*(abbrev|unfoldable|pub)\s", line):
            found.add(m[1])
    return found


def imported(text):
    """The names that a file takes from libraries."""
    found = set()
    for m in re.finditer(r"(?m)^\s*(?:pub )?(?:ghost )?use ([\w.+◌·-]+)\.\{([^}]*)\}", text):
        if not OWN.match(m[1]):
            for it in m[2].split(","):
                found.update(it.replace(" as ", " ").split())
    return found


def declared_shapes(text):
    """The definitions among them: what is marked so, fields and constructors."""
    found = set()
    for block in re.split(r"\n(?=\S)", text):
        if re.match(r"(?:pub |abbrev |unfoldable )*(?:abbrev|unfoldable|record|data|ruleset)\b", block):
            found |= declared(block)
    return found


def turn(text, names):
    def one(m):
        it = m[0]
        if it.startswith(("--", "//")):
            return re.sub(r"`[^`]*`", lambda q: re.sub(W, lambda w: names.get(w[0], w[0]), q[0]), it)
        if it.startswith(('"', "«")):
            return it
        return names.get(it, it)

    return TOKEN.sub(one, text)


check = sys.argv[1:] == ["--check"]
crates = sorted(os.listdir("crates"))
OWN = re.compile(r"Rattle\.(%s)(?![\w])" % "|".join(map(re.escape, crates)))
antt = list(files("crates", ".antt"))
code = list(files("crates", ".rt"))
texts = {p: read(p) for p in antt + code}
words = {p: {t for t in TOKEN.findall(texts[p]) if not t.startswith(("--", "//", '"', "«"))} for p in texts}
taken, terms, lemmas = set(), set(), set()
for p in antt + code:
    taken |= imported(texts[p])
for p in antt:
    if not of_function(p):
        found = declared(texts[p])
        shaped = declared_shapes(texts[p])
        terms |= found if "/specs/" in p else shaped
        terms |= {t for t in words[p] if CAMEL.fullmatch(t)}
        lemmas |= found
lemmas -= terms
taken -= terms | lemmas
names = {}
for name in sorted(terms):
    new = APART.get(name, snake(name))
    if new != name and name not in taken:
        names[name] = new
# What a lemma may not be spelled as: any other word of the repository.
others = set(names.values())
for p in texts:
    if not of_function(p):
        others |= {t for t in words[p] if t not in names and t not in lemmas}
for name in sorted(lemmas - taken):
    new = APART.get(name, snake(name))
    if new in others or (new != name and new in lemmas):
        new += "_lem"
    if new != name:
        names[name] = new
if check:
    for name in sorted((terms | lemmas) & taken):
        if snake(name) != name:
            print("a library's too:", name)
    for name, new in sorted(names.items()):
        if new.endswith("_lem"):
            print("lemma:", name, new)
    for p in antt + code:
        tokens = [t for t in set(TOKEN.findall(texts[p])) if not t.startswith(("--", "//", '"', "«"))]
        seen = {}
        for t in tokens:
            seen.setdefault(names.get(t, t), set()).add(t)
        for new, olds in sorted(seen.items()):
            if len(olds) > 1:
                print("falls together:", p, new, sorted(olds))
    print(len(names), "names")
    sys.exit(0)
# In pages and edits, which port.py leaves, also what it turned itself.
ours = {names.get(name, name) for name in terms | lemmas}


def older(text):
    """The names of a page's or an edit's text that are spelled otherwise today."""
    found = {}
    for t in re.findall(W, text):
        t = t.split(":")[0]
        new = snake(t)
        if t not in names and new != t and new in ours and t not in taken:
            found[t] = new
    return {**names, **found}


changed = 0
for p in antt + code:
    new = turn(texts[p], {**names, **APART_IN.get(p, {})})
    if new != texts[p]:
        changed += 1
        with open(p, "w", encoding="utf-8") as f:
            f.write(new)
for p in files(".", ".edit"):
    old = read(p)
    new = "".join(
        line if not line.startswith(("old:", "new:")) else turn(line, older(line)) for line in old.splitlines(True)
    )
    if new != old:
        changed += 1
        with open(p, "w", encoding="utf-8") as f:
            f.write(new)
for p in files(".", ".md"):
    old = read(p)
    plain = os.path.basename(p) in NO_DASHES or "changes" in p
    known = {a: b for a, b in older(old).items() if not (plain and "-" in a)}
    new = re.sub(r"`[^`\n]*`", lambda q: re.sub(W, lambda w: known.get(w[0], w[0]), q[0]), old)
    if new != old:
        changed += 1
        with open(p, "w", encoding="utf-8") as f:
            f.write(new)
print(f"{len(names)} names, {changed} files")
