#!/usr/bin/env python3
"""Spells the repository's own definitions, lemmas, fields and variables of antt in snake case, and its modules in camel case.

usage: python3 tools/snake.py [--list] [FOLDER]     at the top of the repository, once, right after /opt/rattle/port/port.py

    ownSequence -> own_sequence    pair-opened -> pair_opened    specs/calls -> specs/Calls

It renames what the texts of specs/ and proofs/ declare, there and where clauses, must-fail edits and pages cite it.
A name that a file takes from a library keeps its spelling in that file. A name whose new spelling another name has already is left, and said.
Functions of src/, exported names, strings, inputs and outputs are not touched.
"""

import os
import re
import sys

NAME = r"[^\s(){}\[\].;,@\"«»`:\\]+"
TOKEN = re.compile(NAME)
MADE = re.compile(r"^(Need|After|Before|Inv|Live|Start|Args|Entry|Exit|Lts|Goes|Tie|Has|Enum)-|^(c|w|l)$")
# what antt and Rattle's library call so
OURS = re.compile(r"^use (Rattle\.(?!std|core|std_\w+|libc|io|os)\w+\.[^\s{]+)")
# Where two names would fall together, the lemma gets `_lem`; a definition that a function of src/ is called like gets `_of`.
# These are what no rule tells: a name that port.py has respelled already, and the two that end in `of`.
SPELLED = {
    "in-range": "in_range_lem",
    "is-zero": "is_zero_lem",
    "move-of": "move_of_lem",
    "sum-at": "sum_at_lem",
    "leftIn": "left_in_of",
    "placeRead": "place_read_of",
    "checkOf": "checksum_of",
    "checkOfBytes": "checksum_of_bytes",
}
# lemmas that port.py has spelled like a definition that is still to be respelled
IN_FILE = {
    "crates/loaded/proofs/Gathered.antt": ["is_leaf"],
    "crates/responses/proofs/LeafReadings.antt": ["is_leaf"],
    "crates/payoff/proofs/GameTables.antt": ["leaves_at"],
    "crates/fitting/proofs/GameFits.antt": ["sets_of"],
}
# modules that have a word's spelling
MODULES = {"calls": "Calls"}


def snake(name):
    words = re.sub(r"(?<=[a-z0-9'])([A-Z]+)(?![a-z])", lambda m: "_" + m[0].lower(), name)
    words = re.sub(r"(?<=[a-z0-9'])([A-Z])", lambda m: "_" + m[0].lower(), words)
    return words.replace("-", "_").replace("′", "'")


def is_odd(name):
    return bool(re.match(r"^[a-z_α-ωκ]", name)) and bool(re.search(r"[A-Z]|\w-\w|′", name))


def texts(root, ending):
    for top in ("crates",):
        for folder, dirs, files in os.walk(os.path.join(root, top)):
            dirs[:] = sorted(d for d in dirs if d not in ("out", "target"))
            for f in sorted(files):
                if f.endswith(ending):
                    yield os.path.join(folder, f)


def read(path):
    with open(path, encoding="utf-8") as f:
        return f.read()


def without_comments(text):
    return re.sub(r"(?m)(?:^|(?<=\s))--(?=\s|$).*$", "", text)


# `a b c : T`, at any depth, with or without modifiers, and in binders
TOP = re.compile(r"(?m)^\s*(?:(?:abbrev|unfoldable|opaque|private|instance|pub|data|record|let|where|mod|module|postulate|constructor)\s+)*(%s(?:\s+%s)*)\s+:\s" % (NAME, NAME))
BINDER = re.compile(r"[({]\s*(%s(?:\s+%s)*)\s+:\s" % (NAME, NAME))
LET = re.compile(r"\blet\s+(%s)\s*(?=[:=])" % NAME)
LETS = re.compile(r"\blet\s+\(([^)=]*)\)\s*=")
LAMBDA = re.compile(r"λ\s+([^.]*)\.(?=\s)")
HEAD = re.compile(r"(?m)^(\s*)(%s)((?:\s+[^=\n]*)?)\s=(?:\s|$)" % NAME)
CLAUSE = re.compile(r"(?m)^\s*%s\s+([^=\n:]*)\s=(?:\s|$)" % NAME)


def declared(root):
    names = set()
    for p in texts(root, ".antt"):
        t = without_comments(read(p))
        for rx in (TOP, BINDER, LET, LETS, LAMBDA, CLAUSE):
            for m in rx.finditer(t):
                names.update(TOKEN.findall(m[1]))
        for m in HEAD.finditer(t):
            names.add(m[2])
    return {n for n in names if is_odd(n) and not MADE.match(n)}


def library_imports(text):
    """The names that a file takes from a library, and so spells as the library does."""
    found = set()
    for m in re.finditer(r"(?m)^\s*(?:pub )?(?:ghost )?use ([^\s{;]+?)\.?(?:\{([^}]*)\}|(?:\s+as\s+\S+))?;?\s*$", text):
        path = m[1]
        own = re.match(r"Rattle\.(\w+)\.", path)
        ours = own and own[1] in CRATES
        if not ours and m[2]:
            for part in m[2].split(","):
                found.update(x for x in part.split() if x not in ("as", "pub"))
    return found


def turn_text(text, table):
    keep = library_imports(text)

    def one(m):
        t = m[0]
        if t in table and t not in keep:
            # behind a dot stands a field or a step, never a lemma
            return snake(t) if m.start() and text[m.start() - 1] == "." and table[t].endswith("_lem") else table[t]
        return t

    return TOKEN.sub(one, text)


def functions_met(root):
    """The names that some file of src/ imports and that would be spelled there like an item of its own."""
    met = set()
    for p in texts(root, ".rt"):
        text = read(p)
        code = re.sub(r"//.*|ghost use [^;]*;|(?:requires|ensures)\*?\s*(?:\w+\s*)?\{.*", "", text)
        words = set(re.findall(r"\w+", code))
        for m in re.finditer(r"ghost use [^{;]*\.\{([^}]*)\}", text):
            met.update(n for n in (x.strip() for x in m[1].split(",")) if is_odd(n) and snake(n) in words)
    return met


def turn_modules(text):
    for old, new in MODULES.items():
        text = re.sub(r"(Rattle\.\w+\.(?:specs|proofs)\.)%s(?![\w'-])" % old, r"\g<1>" + new, text)
        text = re.sub(r"(?m)^(\s*(?:pub )?mod )%s$" % old, r"\g<1>" + new, text)
        text = re.sub(r"((?:specs|proofs)/)%s(?=[/.])" % old, r"\g<1>" + new, text)
    return text


def main():
    words = [w for w in sys.argv[1:] if w != "--list"]
    root = words[0] if words else "."
    global CRATES
    CRATES = set(os.listdir(os.path.join(root, "crates")))
    names = declared(root)
    met = functions_met(root)
    table = {}
    for n in sorted(names):
        s = snake(n)
        if s == n:
            continue
        if n in SPELLED:
            table[n] = SPELLED[n]
        elif "-" in n and any(m != n and "-" not in m and snake(m) == s for m in names):
            table[n] = s + "_lem"
        elif n in met:
            table[n] = s + "_of"
        else:
            table[n] = s
    spelled = {}
    for n, s in table.items():
        if s in spelled:
            print(f"met: {n} and {spelled[s]} -> {s}")
        spelled[s] = n
    if "--list" in sys.argv:
        for n, s in table.items():
            print(n, s)
        return
    for p in [*texts(root, ".antt"), *texts(root, ".rt"), *texts(root, ".edit")]:
        old = read(p)
        for n in IN_FILE.get(os.path.relpath(p, root), []):
            old = re.sub(r"(?<![\w.'-])%s(?![\w'-])" % n, n + "_lem", old)
        new = turn_modules(turn_text(old, table))
        if new != read(p):
            with open(p, "w", encoding="utf-8") as f:
                f.write(new)
    for crate in sorted(CRATES):
        for part in ("specs", "proofs"):
            for old, new in MODULES.items():
                for ending in ("", ".antt"):
                    a = os.path.join(root, "crates", crate, part, old + ending)
                    if os.path.exists(a):
                        os.rename(a, os.path.join(root, "crates", crate, part, new + ending))


if __name__ == "__main__":
    main()
