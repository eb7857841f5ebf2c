#!/usr/bin/env python3
"""Spells the repository's own definitions and lemmas as today's Rattle does: words in snake case. Run once, after port.py, at the top.

A name turns if a file of specs/ or a lemma file of proofs/ declares it and it has a dash or a capital inside: `exprAfter-in` becomes
`expr_after_in`. Where two names would fall together, the dashed one, a lemma, gets `_lem` behind it. A name that a file imports from a
library stays there. Types, modules, functions of src/, strings and the names that Rattle makes (behind `tie.` and `goal.`) stay.
The lines 'old:' and 'new:' of edits turn like the file that they are for, and code spans of pages too. With --check nothing is written.
"""
import collections
import glob
import os
import re
import sys

WORD = re.compile(r'[^\s(){}.;,@"«»]+')
DECLARED = re.compile(
    r"(?m)^ *(?:(?:pub|abbrev|unfoldable|private|opaque|instance|record|data|syntax) )*"
    r"((?:[^\s(){}.;,@\"«»:]+ )+)(?:(?:\{[^{}\n]*\}|\([^()\n]*\)) )*:(?= |$)"
)
IMPORT = re.compile(r"(?:ghost )?use ([^\s;{]+)\.\{([^}]*)\}")
LIBRARY = re.compile(r"(?:mathlib|native|borrow|lib|Prim|Rattle\.(?:std|core)\b)")
# Lemmas that would meet a definition of their file in its new spelling.
APART = {
    "crates/fixed_laws/proofs/Evaluating.antt": ("by_zero", "by_zero_lem"),
    "crates/bundle/proofs/OperandLaws.antt": ("operands_end", "operands_end_lem"),
    "crates/field_index/proofs/Structs.antt": ("struct_fields", "struct_fields_lem"),
}
RESPELLED = [
    (re.compile("′"), "'"),
    (re.compile(r"(?<=[\w)]) \.(?=[a-z0-9])"), "."),
    (re.compile(r"\bgetD\b"), "get_or"),
]
LIBRARY_WORDS = {"nonNeg": "non_neg", "List·Memᴰ": "Memᴰ"}


def snake(name):
    return re.sub(r"(?<=[a-z0-9])[A-Z]", lambda m: "_" + m.group(0).lower(), name).replace("-", "_")


def turns(name):
    return name[0].islower() and name.isascii() and ("-" in name or re.search(r"[a-z0-9][A-Z]", name)) and not name.startswith("--")


def code_of(text, lines="--"):
    return re.sub(re.escape(lines) + r"[^\n]*", "", re.sub(r'"(?:[^"\\\n]|\\.)*"', '""', text))


def declared(text):
    out = set()
    for m in DECLARED.finditer(code_of(text)):
        out.update(n for n in m.group(1).split() if n not in ("use", "let", "where", "λ"))
    return out


def imported(text):
    out = set()
    for m in IMPORT.finditer(text):
        if LIBRARY.match(m.group(1)):
            for item in m.group(2).split(","):
                item = item.strip()
                if item:
                    out.add(item.split(" as ")[-1])
    return out


def table():
    names = collections.defaultdict(set)
    for p in glob.glob("crates/*/specs/**/*.antt", recursive=True) + glob.glob("crates/*/proofs/*.antt"):
        for n in declared(open(p, encoding="utf-8").read()):
            names[n].add(p)
    to = {}
    taken = {n for n in names if not turns(n)}
    for n in sorted((n for n in names if turns(n) and "-" not in n)):
        to[n] = snake(n)
        if to[n] in taken:
            print(f"fall together: {n} and {to[n]}: {sorted(names[n])[:2]} {sorted(names[to[n]])[:2]}")
    taken |= set(to.values())
    for n in sorted((n for n in names if turns(n) and "-" in n)):
        s = snake(n)
        to[n] = s + "_lem" if s in taken else s
    back = collections.defaultdict(set)
    for n, s in to.items():
        back[s].add(n)
    for s, ns in back.items():
        if len(ns) > 1:
            print(f"fall together: {ns}")
    return to


def turn(text, to, stay, behind):
    """The text with each whole word turned that is code; behind: whether names behind `tie.` and `goal.` stay."""
    out, at = [], 0
    for m in WORD.finditer(text):
        w = m.group(0)
        if w in to and w not in stay:
            before = text[max(0, m.start() - 5) : m.start()]
            if behind and re.search(r"(?:\btie|\bgoal)\.$", before):
                continue
            out.append(text[at : m.start()] + to[w])
            at = m.end()
    return "".join(out) + text[at:]


PIECES = re.compile(r'"(?:[^"\\\n]|\\.)*"|(?<![^\s(){}.;,@"])(?:--|//)[^\n]*')


def turn_file(text, to, stay, behind):
    code = PIECES.sub("", text)
    used = set(WORD.findall(code))
    mine = {n: s for n, s in to.items() if n in used}
    out, at = [], 0
    for m in PIECES.finditer(text):
        out.append(turn(text[at : m.start()], to, stay, behind))
        piece = m.group(0)
        if not piece.startswith('"'):
            piece = turn(piece, mine, stay, False)
            piece = re.sub(r"`[^`\n]*`", lambda q: turn(q.group(0).replace("`", " ` "), to, stay, False).replace(" ` ", "`"), piece)
        out.append(piece)
        at = m.end()
    return "".join(out) + turn(text[at:], to, stay, behind)


def clashes(path, text, to, stay):
    words = set(WORD.findall(PIECES.sub("", text)))
    for w in sorted(words):
        if w in to and w not in stay and to[w] in words:
            print(f"{path}: {w} would meet {to[w]}")


def fit_edits():
    """Names in edits that port.py itself respelled: those that the file of the edit has in snake case alone; and tight projections."""
    for p in sorted(glob.glob("crates/*/must-fail/**/*.edit", recursive=True)):
        crate, file, out = p.split("/")[1], "", []
        for line in open(p, encoding="utf-8").read().split("\n"):
            if line.startswith("file: "):
                file = f"crates/{crate}/{line[6:]}"
            if line.startswith(("old: ", "new: ")) and file.endswith(".antt"):
                text = open(file, encoding="utf-8").read()
                words = set(WORD.findall(text))
                to = {w: snake(w) for w in WORD.findall(line[5:]) if w not in words and snake(w) != w and snake(w) in words and w[0].islower()}
                to.update({w: s for w, s in LIBRARY_WORDS.items() if w not in words})
                line = line[:5] + re.sub(r"\((\w+\.\w+)\)", r"\1", turn(line[5:], to, set(), False))
            out.append(line)
        open(p, "w", encoding="utf-8").write("\n".join(out))


def main():
    write = "--check" not in sys.argv
    to = table()
    stays = {}
    for p in sorted(glob.glob("crates/*/**/*.antt", recursive=True) + glob.glob("crates/*/src/*.rt")):
        if "/out/" in p:
            continue
        text = first = open(p, encoding="utf-8").read()
        if p in APART:
            text = turn(text, dict([APART[p]]), set(), False)
        own = declared(text) if p.endswith(".antt") else set()
        in_function = p.endswith(".antt") and len(p.split("/")) > 4 and p.split("/")[2] == "proofs"
        stay = imported(text) - own
        stays[p] = stay
        clashes(p, text, to, stay)
        new = turn_file(text, to, stay, in_function)
        if new != first and write:
            open(p, "w", encoding="utf-8").write(new)
    for p in sorted(glob.glob("crates/*/must-fail/**/*.edit", recursive=True)):
        crate, file, out = p.split("/")[1], "", []
        for line in open(p, encoding="utf-8").read().split("\n"):
            if line.startswith("file: "):
                file = line[6:]
            if line.startswith(("old: ", "new: ")):
                if file.endswith(".antt"):
                    for r, s in RESPELLED:
                        line = line[:5] + r.sub(s, line[5:])
                line = line[:5] + turn(line[5:], to, stays.get(f"crates/{crate}/{file}", set()), False)
            out.append(line)
        if write:
            open(p, "w", encoding="utf-8").write("\n".join(out))
    if write:
        fit_edits()
    known = set(to.values())
    for p in glob.glob("crates/*/specs/**/*.antt", recursive=True) + glob.glob("crates/*/proofs/*.antt"):
        known |= declared(open(p, encoding="utf-8").read())
    for p in ["README.md", "CHANGELOG.md"] + sorted(glob.glob("docs/**/*.md", recursive=True)):
        text = open(p, encoding="utf-8").read()
        mine = {w: snake(w) for w in WORD.findall(text.replace("`", " ")) if snake(w) != w and snake(w) in known and w[0].islower() and "-" not in w}
        new = re.sub(r"`([^`\n]*)`", lambda q: "`" + turn(q.group(1), mine, set(), False) + "`", text)
        if new != text and write:
            open(p, "w", encoding="utf-8").write(new)
    print(len(to), "names turned" if write else "names would turn")


if __name__ == "__main__":
    main()
