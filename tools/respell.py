#!/usr/bin/env python3
"""Spells the repository's own definitions, lemmas and record fields as the kit's CONTRACT_STYLE.md says.

usage: tools/respell.py [--list]      at the top of a checkout, once, after the kit's port.py

A definition's camelCase becomes snake_case. In a lemma's name a dash stays where it joins two names, and becomes `_` beside a plain word.
Names of Rust items, strings, inputs and outputs stay. The words that are names are those that the repository's specs/ declare with no dash,
its Rust functions, and the list STD below.
"""

import os
import re
import sys

STD = set("""zero suc length append get_or set take drop cons map reverse bit_and bit_or bit_xor and or not xor min max true false none some inl inr
pow mul add sub div mod eqb ltb le lt concat if shl shr""".split())
NAME = r"[^\s(){}.;,@\"«»]+"
TOKEN = re.compile(r"(\.?)(?<![^\s(){};,@«».\"`])(" + NAME + r")")
DECL = re.compile(r"^( *)(?:(?:unfoldable|abbrev|pub|data|record|ruleset) )*(" + NAME + r")((?: \{[^{}]*\}| \((?:[^()]|\([^()]*\))*\))*) :(?:\s|$)")


def files(top, ends):
    for folder, dirs, names in os.walk(top):
        dirs[:] = sorted(d for d in dirs if d not in ("out", ".git", "target"))
        for f in sorted(names):
            if f.endswith(ends):
                yield os.path.join(folder, f)


def is_walk(path):
    return re.search(r"/proofs/.+/Proof\.antt$", path)


def snake(word):
    return re.sub(r"(?<=[a-z0-9])[A-Z]+", lambda m: "_" + m[0].lower(), word)


def spelled(name, names):
    if re.fullmatch(r"[A-Z0-9'-]+", name):
        return name.replace("-", "_")
    parts = [it if it[:1].isupper() else snake(it) for it in name.split("-")]
    result = parts[0]
    for left, right in zip(parts, parts[1:]):
        joins = (left in names or result in names or left[:1].isupper() or result[:1].isupper()) and (right in names or right[:1].isupper())
        result += ("-" if joins else "_") + right
    return result


# Lemmas that the kit's script gave the name that a definition of ours gets here: they keep their dash.
RESTORED = {
    "crates/accepted/specs/Theorems.antt": ["most_bytes", "numbers_of"],
    "crates/network/specs/TriplesFilled.antt": ["count_at"],
    "crates/ledger/specs/ListLaws.antt": ["number_at"],
    "crates/revising/specs/Over.antt": ["turn_by"],
    "crates/revising/proofs/narrow/turn/Proof.antt": ["turn_by"],
}


def main():
    for p, words in RESTORED.items():
        if os.path.exists(p):
            text = open(p, encoding="utf-8").read()
            for word in words:
                text = re.sub(rf"(?<![\w.'-]){word}(?![\w'-])", word.replace("_", "-"), text)
            open(p, "w", encoding="utf-8").write(text)
    texts = {p: open(p, encoding="utf-8").read() for p in files("crates", (".antt", ".rt"))}
    declared, fields = {}, set()
    rust = set()
    for p, text in texts.items():
        if p.endswith(".rt"):
            rust.update(re.findall(r"\b(?:fn|struct|enum|const|mod) (\w+)", text))
            continue
        if is_walk(p):
            continue
        for line in text.split("\n"):
            m = DECL.match(line)
            if m:
                declared.setdefault(m[2], set()).add(p)
                if m[1]:
                    fields.add(m[2])
    names = {snake(it) for it in declared if "-" not in it} | rust | STD
    turned = {}
    for it in declared:
        if it[:1] in "◌?_(" or "⇒" == it:
            continue
        new = spelled(it, names)
        if new != it:
            turned[it] = new
    taken = {}
    for old, new in turned.items():
        if new in declared and new not in turned or list(turned.values()).count(new) > 1:
            taken[old] = new
    if "--list" in sys.argv:
        for old in sorted(turned):
            print(old, turned[old], "TAKEN" if old in taken else "")
        return
    for old, new in taken.items():
        if "-" in old:
            print(f"left: {old}: {new} is another's name")
            del turned[old]

    def turn(text, walk=False, own=frozenset()):
        def one(m):
            dot, word = m[1], m[2]
            if dot and walk and word not in fields:
                return m[0]
            if word in own and not dot:
                return m[0]
            return dot + turned.get(word, word)
        return TOKEN.sub(one, text)

    for p, text in texts.items():
        if p.endswith(".antt"):
            own = {m[2] for m in map(DECL.match, text.split("\n")) if m} if is_walk(p) else frozenset()
            new = turn(text, is_walk(p), own)
        else:
            new = re.sub(r'("(?:\\.|[^"\\\n])*")|([^"]+)', lambda m: m[1] or turn(m[2]), text)
        if new != text:
            open(p, "w", encoding="utf-8").write(new)
    for p in ["README.md", "CHANGELOG.md", *files("docs", (".md",))]:
        text = open(p, encoding="utf-8").read()
        new = re.sub(r"`[^`\n]*`", lambda m: turn(m[0]), text)
        if new != text:
            open(p, "w", encoding="utf-8").write(new)


main()
