#!/usr/bin/env python3
"""Spells the repository's own definitions, fields and laws as today's Rattle spells them.

usage: tools/respell.py --table   writes tools/names.tsv: each name of specs/ and proofs/ that changes, and its new spelling
       tools/respell.py [FOLDER]  renames by that table in crates/ of FOLDER (here, if none is given) and in its pages

Words are in snake case. A dash stays where it joins two names that are both defined, else it becomes '_'. A law that would
have its function's name gets '_lem'. Functions of src/, files, strings and what Rattle names keep their spelling. Run it once:
a name that one run gave may be a name that a second one turns.
"""

import collections
import glob
import os
import re
import sys

NAME = r'[^\s(){}.;,@"«»\[\]\\:`|]+'
DECLARED = re.compile(
    r"(?m)^\s*(?:(?:abbrev|unfoldable|pub|opaque|data|record|mutual)\s+)*(" + NAME + r")\s*(?:\{[^{}\n]*\}\s*)*:(?=\s)"
)
FIELD = re.compile(r"[{;]\s*(" + NAME + r")\s*:\s")
OF_STD = set("not true false length append take drop get_or set map replicate min max ones nil cons all reverse sum".split())
TABLE = os.path.join(os.path.dirname(os.path.realpath(__file__)), "names.tsv")


def plain(text):
    return re.sub(r"(?m)--[^\n]*", "", text)


def files(root, *globs):
    return sorted(p for g in globs for p in glob.glob(os.path.join(root, g), recursive=True) if "/out/" not in p)


def antt(root):
    return files(root, "crates/*/specs/**/*.antt", "crates/*/proofs/**/*.antt")


def snake(word):
    if not re.match("[a-z]", word):
        return word
    return re.sub(r"(?<=[a-z0-9])([A-Z])", lambda m: "_" + m[1].lower(), word)


def table(root):
    specs, laws, fields = set(), set(), set()
    for p in antt(root):
        if p.endswith("/Proof.antt"):
            continue
        text = plain(open(p, encoding="utf-8").read())
        found = {m[1] for m in DECLARED.finditer(text)}
        for m in re.finditer(r"(?m)^\s*(?:pub )?(?:data|record) .*", text):
            fields |= {f[1] for f in FIELD.finditer(m[0])}
        (specs if "/specs/" in p else laws).update(found)
    specs |= fields
    known = {snake(n) for n in specs if "-" not in n} | OF_STD

    def spelled(name):
        parts = [snake(it) for it in name.replace("getD", "get_or").split("-")]
        out = parts[0]
        for a, b in zip(parts, parts[1:]):
            out += ("-" if a in known and b in known else "_") + b
        return out

    new = {n: spelled(n) for n in specs | laws if not n.startswith("◌")}
    met = collections.defaultdict(set)
    for old, name in new.items():
        met[name].add(old)
    for name, olds in met.items():
        if len(olds) > 1:
            # A definition goes before a law, and a name without a dash before one with it.
            first, *others = sorted(olds, key=lambda o: (o not in specs, "-" in o, o))
            if len(others) > 1:
                print("falls together:", name, sorted(olds))
            for o in others:
                new[o] = name + "_lem"
    with open(TABLE, "w", encoding="utf-8") as it:
        for old in sorted(new):
            if new[old] != old:
                it.write(f"{old}\t{new[old]}\t{'field' if old in fields else ''}\n")


def turn(root):
    names, fields = {}, set()
    for line in open(TABLE, encoding="utf-8"):
        old, new, kind = line.rstrip("\n").split("\t")
        names[old] = new
        if kind == "field" or "Sofar" in kind:
            fields.add(old)
    token = re.compile(NAME)

    def all_tokens(text):
        return token.sub(lambda m: names.get(m[0], m[0]), text)

    def proof(text):
        """A proof by its goals: what Rattle names stays, so only what is imported, laws and fields are turned."""
        brought = {w for m in re.finditer(r"(?m)^use [^\n{]*\{([^}]*)\}", text) for w in token.findall(m[1])}

        def one(m):
            start, word = m.start(), m[0]
            if word not in names:
                return word
            if start and text[start - 1] == ".":
                head = re.search(r"([^\s(){},;]+)\.$", text[max(0, start - 300) : start])
                head = head[1].split(".")[0] if head else ""
                if head in ("c", "l", "w", "tie", "reads", "lts", "goal"):
                    return names[word] if word in fields else word
                return names[word]
            return names[word] if word in brought else word

        return token.sub(one, text)

    for p in antt(root):
        text = open(p, encoding="utf-8").read()
        new = proof(text) if p.endswith("/Proof.antt") else all_tokens(text)
        save(p, text, new)
    for p in files(root, "crates/*/must-fail/*.edit", "crates/*/edits/*.edit"):
        text = open(p, encoding="utf-8").read()
        save(p, text, all_tokens(text))
    # In code only what a clause, a ghost item or a comment says is antt; a name of Rust's is never spelled so.
    for p in files(root, "crates/*/src/**/*.rt"):
        text = open(p, encoding="utf-8").read()
        new = re.sub(r'"(?:[^"\\\n]|\\.)*"|' + NAME, lambda m: m[0] if m[0].startswith('"') else names.get(m[0], m[0]), text)
        save(p, text, new)
    for p in files(root, "README.md", "docs/*.md"):
        text = open(p, encoding="utf-8").read()
        save(p, text, re.sub(r"`[^`\n]+`", lambda m: token.sub(lambda w: names.get(w[0], w[0]), m[0]), text))


def save(path, old, new):
    if new != old:
        with open(path, "w", encoding="utf-8") as it:
            it.write(new)


if __name__ == "__main__":
    if sys.argv[1:] == ["--table"]:
        table(".")
    else:
        turn(sys.argv[1] if len(sys.argv) > 1 else ".")
