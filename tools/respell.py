#!/usr/bin/env python3
"""Brings this repository's own definitions and lemmas to one spelling: values and lemmas in snake case, types and facts in
upper camel case. Run once, at the top, after the toolchain's own port script: python3 tools/respell.py [--say]

It goes by text. A name is taken where specs/ or proofs/ declare it; names that the toolchain makes (goals, invariants, measures)
and names of src/ stay. In src/ it turns clauses and ghost items alone. It says which names would fall together."""

import os
import re
import sys

ROOT = os.getcwd()
TOKEN = re.compile(r"[A-Za-zα-ωΑ-Ωℓ_][A-Za-z0-9α-ωΑ-Ω_'₀-₉≤≢≡-]*")
DECLARED = re.compile(r"\s*(?:let |abbrev |unfoldable |pub )*([A-Za-z_][A-Za-z0-9_'₀-₉-]*)\s*:(?!=)\s*(.*)")
NAMED = re.compile(r"\s*(?:pub )?(?:data|record) ([A-Za-z_][A-Za-z0-9_'-]*)")
LET = re.compile(r"\blet ([a-z][A-Za-z0-9_'-]*)\s*[:=]")
# where the snake spelling is another name already
OTHERWISE = {
    "badByte": "bad_spot",
    "inLine": "word_in_line",
    "after-s": "after_s_spells",
    "after-t": "after_t_spells",
    "is-byte": "is_byte_lem",
    "lines-read": "lines_read_lem",
    "entry_read": "entry_read_lem",
    "bit-or": "bit_of_or",
    "bit-and": "bit_of_and",
    "countRow": "count_in_row",
}


def files():
    for folder, dirs, names in os.walk(os.path.join(ROOT, "crates")):
        dirs[:] = sorted(d for d in dirs if d != "out")
        for name in sorted(names):
            yield os.path.join(folder, name)


def of_function(path):
    """Whether the file is part of a function's proof, in a folder below proofs/."""
    parts = os.path.relpath(path, os.path.join(ROOT, "crates")).split(os.sep)
    return parts[1] == "proofs" and len(parts) > 3


def spelled(name):
    if name in OTHERWISE:
        return OTHERWISE[name]
    if name[0].isupper():
        return "".join(p[0].upper() + p[1:] for p in name.split("-") if p) if "-" in name else name
    name = name.replace("-", "_")
    return re.sub(r"(?<=[a-z0-9])([A-Z])", lambda m: "_" + m.group(1).lower(), name)


def declared():
    own, made = {}, set()
    for path in files():
        if not path.endswith(".antt"):
            continue
        with open(path, encoding="utf-8") as f:
            text = f.read()
        for line in text.split("\n"):
            if line.lstrip().startswith(("use ", "--")):
                continue
            m = DECLARED.match(line)
            if m and m.group(2).startswith("goal."):
                made.add(m.group(1))
                continue
            for name in ([m.group(1)] if m else []) + NAMED.findall(line) + LET.findall(line):
                if spelled(name) != name:
                    own[name] = spelled(name)
    return {a: b for a, b in own.items() if a not in made}


def lib_names(text):
    """Names that the file imports from elsewhere than this repository's crates."""
    crates = set(os.listdir(os.path.join(ROOT, "crates")))
    out = set()
    for path, items in re.findall(r"use ([^\s{]+?)\.?\{([^}]*)\}", text):
        parts = path.split(".")
        if not (parts[0] == "Rattle" and len(parts) > 1 and parts[1] in crates):
            out |= {i.strip().split(" ")[0] for i in items.split(",")}
    return out


def turned(text, table, kept):
    def one(m):
        t = m.group(0)
        if t in table and t not in kept:
            return table[t]
        return t

    return TOKEN.sub(one, text)


def main():
    table = declared()
    together = []
    for path in files():
        if not path.endswith((".antt", ".rt", ".edit")):
            continue
        with open(path, encoding="utf-8") as f:
            old = f.read()
        kept = lib_names(old)
        if path.endswith(".rt"):
            new = clauses(old, table, kept)
        else:
            new = turned(old, table, kept)
        here = set(TOKEN.findall(re.sub(r"--.*", "", old)))
        for a, b in table.items():
            if a in here and a not in kept and b in here:
                together.append((os.path.relpath(path, ROOT), a, b))
        if "--say" not in sys.argv and new != old:
            with open(path, "w", encoding="utf-8") as f:
                f.write(new)
    backwards = {}
    for a, b in table.items():
        backwards.setdefault(b, []).append(a)
    for b, names in sorted(backwards.items()):
        if len(names) > 1:
            print("one spelling for", names, "->", b)
    for t in together:
        print("in one file:", *t)
    print(len(table), "names")


def clauses(text, table, kept):
    out, depth = [], 0
    for line in text.split("\n"):
        starts = re.match(r"\s*(pub )?(ghost |requires|ensures|invariant)", line)
        if (starts or depth > 0) and not line.lstrip().startswith("//"):
            out.append(turned(line, table, kept))
            depth += line.count("{") - line.count("}")
        else:
            out.append(line)
            depth = 0
    return "\n".join(out)


if __name__ == "__main__":
    main()
