#!/usr/bin/env python3
"""Brings this repository's own definitions and lemmas to the spelling of today's Rattle, after port.py has run. usage: spelling.py [ROOT]

Definitions, fields and constructors in camel case get snake case. In a lemma's name a dash stays where it joins two names of definitions, or a type to
what follows it, and becomes an underscore before or behind a plain word. A name stays where its new spelling is taken. Functions of src/ are not touched.
It is run once; what it prints is each name with its new spelling.
"""

import os
import re
import sys

ROOT = sys.argv[1] if len(sys.argv) > 1 else "."
TOKEN = re.compile(r"[^\s(){}\[\].;,@\"«»`:|]+")
DECLARED = re.compile(r"(?m)^ *((?:abbrev |unfoldable |pub |ruleset |record |data )*)([^\s(){}:;,.=]+(?: [^\s(){}:;,.=]+)*) :(?= |$)")
IMPORTED = re.compile(r"(?m)^(?:ghost )?use (?!Rattle\.(?!std\b))[^\s{]+\.\{([^}]*)\}")
# Words of the library that say how a lemma is used and not what it is about.
PLAIN = {"refl", "sym", "ap", "arith", "inl", "inr", "subst", "true", "false", "lt", "le", "of", "at", "in", "as", "no", "to"}
# Names whose new spelling stands elsewhere, where it was looked at: in a record's field, a goal, or a parameter whose clauses do not cite the name; or in a lemma,
# which makes room.
GIVEN = {
    "addRow": "add_row",
    "conjuncts-at": "conjuncts_at",
    "entry_place": "entry_place_lem",
    "entryPlace": "entry_place",
    "entry_read": "entry_read_lem",
    "entryRead": "entry_read",
    "headAt": "head_at",
    "firstFault": "first_fault",
    "inputs-at": "inputs_at",
    "isBound": "is_bound",
    "leaf-of": "leaf_of_lem",
    "leafOf": "leaf_of",
    "lone-at": "lone_at_lem",
    "markingWords": "marking_words",
    "old-below": "old_below_lem",
    "outlinedParts": "outlined_parts",
    "outputs-at": "outputs_at",
    "placesAt": "places_at",
    "token-in": "token_in_lem",
    "tokenIn": "token_in",
    "valueIn": "value_in",
    "whole_words": "whole_words_lem",
    "wholeWords": "whole_words",
    "width-at": "width_at_lem",
}
# A file of a function's proof, where names behind a dot are Rattle's.
OF_FUNCTION = re.compile(r"/proofs/.*/(Proof|Answers|Invariants)\.antt$")


def files(*ends):
    for folder, dirs, names in os.walk(os.path.join(ROOT, "crates")):
        dirs[:] = sorted(d for d in dirs if d not in ("out", ".git"))
        for n in sorted(names):
            if n.endswith(ends):
                yield os.path.join(folder, n)


def snake(word):
    return re.sub(r"(?<=[a-z0-9])[A-Z]", lambda m: "_" + m[0].lower(), word) if re.match("[a-z]", word) else word


def bare(text):
    return re.sub(r"--.*", "", text)


texts = {p: open(p, encoding="utf-8").read() for p in files(".antt", ".rt")}
declared, words, proofs_own, taken, definitions = set(), set(), set(), set(), set()
for p, t in texts.items():
    if p.endswith(".antt"):
        code = bare(t)
        taken |= {m[0] for m in TOKEN.finditer(code) if code[m.start() - 1 : m.start()] != "."}
    else:
        taken |= {w for m in re.finditer(r"\b(\w+):(?!:)|\blet (?:mut )?(\w+)", re.sub(r"//.*", "", t)) for w in m.groups() if w}
    words |= {w.strip() for m in IMPORTED.finditer(t) for w in m[1].split(",")}
    if not p.endswith(".antt"):
        continue
    names = {n for m in DECLARED.finditer(bare(t)) for n in m[2].split()}
    if OF_FUNCTION.search(p):
        proofs_own |= names
    else:
        declared |= names
        if "/specs/" in p:
            words |= names
            definitions |= names
words = {snake(w) for w in words if "-" not in w and "◌" not in w} - PLAIN


def is_name(part):
    return part in words or not re.search(r"\w", part) or bool(re.match("[A-Z]", part))


def respelled(name):
    parts = [snake(p) for p in name.split("-")]
    out = parts[0]
    for left, right in zip(parts, parts[1:]):
        out += ("-" if is_name(left) and (is_name(right) or re.match("[A-Z]", left)) else "_") + right
    return out


table = {}
for n in sorted(declared):
    new = respelled(n) if "-" not in n or n not in proofs_own else "-".join(snake(p) for p in n.split("-"))
    if new != n and re.search(r"\w", n):
        table[n] = new
heads = {}
for old, new in table.items():
    heads.setdefault(new, []).append(old)
for new, olds in heads.items():
    olds = [o for o in olds if o not in GIVEN]
    first = [o for o in olds if o in definitions and "-" not in o]
    for old in olds:
        if len(olds) == 1 and new not in taken or first == [old] and new not in taken:
            continue
        camel = "-".join(snake(p) for p in old.split("-"))
        if "-" in old and first and new + "_lem" not in taken:
            # A lemma that would have its function's name.
            table[old] = new + "_lem"
        elif camel != old and camel != new and camel not in taken:
            table[old] = camel
        else:
            print(f"taken: {old} {new}")
            del table[old]

table.update(GIVEN)
for p, t in texts.items():
    own = bool(OF_FUNCTION.search(p))

    def turned(m):
        word = m[0]
        if word not in table:
            return word
        if own and "-" in word and m.start() and t[m.start() - 1] == "." and not re.search(r"\b[A-Z]\w*\.$", t[: m.start()]):
            return word
        return table[word]

    new = TOKEN.sub(turned, t)
    if new != t:
        with open(p, "w", encoding="utf-8") as f:
            f.write(new)
for old in sorted(table):
    print(f"{old} {table[old]}")
