#!/usr/bin/env python3
"""Brings the names of this repository's own definitions and lemmas to snake case, once, after port.py.

usage: respell.py [--dry]      at the top of the repository

`run-start` and `dataEnds` become `run_start` and `data_ends`; types keep their spelling, and so do the names of src/, of strings,
of the library and those that Rattle makes. It rewrites specs/, proofs/, the clauses of src/ and the must-fail edits in place.
"""

import glob
import re
import sys

TOKEN = re.compile(r"[^\s(){}\[\].,;«»`\"|]+")
ITEM = re.compile(
    r"^\s*(?:(?:abbrev|pub|unfoldable|mutual|record|data|ruleset)\s+)*"
    r"([^\s(){}\[\].,;:]+(?:\s+[^\s(){}\[\].,;:]+)*?)\s*(?:[({][^\n]*?[)}]\s*)*:\s",
    re.M,
)
BOUND = re.compile(r"(?:\blet\s+|[({]\s*|λ\s*)((?:[^\s(){}\[\].,;:]+\s+)*?[^\s(){}\[\].,;:]+)\s*(?::|=|\.)\s")
# What Rattle makes: goals, steps and measures.
MADE = re.compile(
    r"^(returns(-.*)?|loop-.*|invariant-.*|decreases-.*|Need-.*|After-.*|At-.*|In-.*|Then-?.*|Else-?.*|ensures-.*|requires-.*|overflow-.*"
    r"|.*-requires(-\d+)?|in-(default|ok|err)|same-length.*)$"
)
# Told apart by hand: a lemma that port.py gave the name that a definition takes now, and a definition with a field beside it.
APART = {"written_over": "written_over_lem", "none_kept": "none_kept_lem", "inPlace": "is_in_place", "writtenOver": "written_over", "noneKept": "none_kept"}
APART.update({"loop-start": "loop_start", "loop-miss": "loop_miss", "loop-hit": "loop_hit", "loop-end": "loop_end"})
# A name of the library too, where a file declares its own.
HERE = {
    "crates/building/proofs/OneResultLaws.antt": {"add-one": "add_one"},
    "crates/search/proofs/EntryLaws.antt": {"and-true": "and_true"},
}


def snake(name):
    if not re.match(r"[a-z_]", name):
        return name.replace("-", "_") if "-" in name else name
    name = name.replace("-", "_").replace("′", "'")
    return re.sub(r"(?<=[a-z0-9'])([A-Z])", lambda m: "_" + m[1].lower(), name)


def antt():
    return sorted(glob.glob("crates/*/specs/**/*.antt", recursive=True) + glob.glob("crates/*/proofs/**/*.antt", recursive=True))


def read(path):
    with open(path, encoding="utf-8") as f:
        return f.read()


def is_own(path):
    # Of the repository, and not what Rattle makes: below declared and contracts, and beside a function.
    return re.match(r"Rattle\.(?!std\b)\w+\.(specs\.(?!declared|contracts)|proofs\.(?![a-z+]))", path)


def names():
    library, own, every = set(), set(), set()
    for path in antt():
        text = read(path)
        for m in re.finditer(r"^(?:pub )?use ([^\n{]*)(?:\{([^}]*)\})?", text, re.M):
            for n in (m[2] or "").split(","):
                n = n.split(" as ")
                if not is_own(m[1]):
                    library.add(n[0].strip())
                if len(n) > 1:
                    own.add(n[1].strip())
        body = re.sub(r"--.*", "", text)
        body = re.sub(r"^(?:pub )?use .*$", "", body, flags=re.M)
        every.update(TOKEN.findall(body))
        for m in ITEM.finditer(body):
            own.update(m[1].split())
        for m in BOUND.finditer(body):
            own.update(m[1].split())
        # the variables on the left of a clause
        for m in re.finditer(r"^\s*[^\s:=|]+((?: [^:=\n]*?)?) = ", body, re.M):
            own.update(TOKEN.findall(m[1]))
    own = {n for n in own if snake(n) != n and n in every and not MADE.match(n) and re.search(r"\w", n) and "--" not in n and re.match(r"[\w]", n)}
    return own - library - set(APART), own & library, every


def respell(text, to):
    return TOKEN.sub(lambda m: to.get(m[0], m[0]), text)


def rust(text, to):
    out = []
    for line in text.split("\n"):
        if re.match(r"\s*(ghost use|ghost|requires|ensures)\b", line) or re.match(r"\s*//", line):
            line = respell(line, to)
        out.append(line)
    return "\n".join(out)


def main():
    own, shared, every = names()
    to = {n: snake(n) for n in own}
    bare = {path: set(re.findall(r"(?<![^\s(){}\[\],;«»`\"|])[^\s(){}\[\].,;«»`\"|]+", re.sub(r"--.*", "", read(path)))) for path in antt()}
    # A lemma that would fall together with a definition, or with a name in one of its files, is told apart.
    for n in sorted(own, key=lambda n: "-" not in n):
        new = to[n]
        here = [p for p, words in bare.items() if n in words and new in words]
        other = [m for m in own if m != n and to[m] == new]
        if here or other:
            to[n] = new + "_lem"
            print("apart:", n, to[n], other, here[:3])
    to.update(APART)
    print("of a library too:", sorted(shared))
    if "--dry" in sys.argv:
        print(len(to), sorted(to))
        return
    for path in antt():
        old = read(path)
        new = respell(old, {**to, **HERE.get(path, {})})
        if new != old:
            open(path, "w", encoding="utf-8").write(new)
    for path in sorted(glob.glob("crates/*/src/**/*.rt", recursive=True)):
        old = read(path)
        new = rust(old, to)
        if new != old:
            open(path, "w", encoding="utf-8").write(new)
    for path in sorted(glob.glob("crates/*/must-fail/*.edit")):
        old = read(path)
        is_antt = re.search(r"^file: .*\.antt$", old, re.M)
        new = respell(old, to) if is_antt else "\n".join(
            (respell(l, to) if re.match(r"(old|new):\s*(ghost use|requires|ensures)\b", l) or l.startswith("#") else l) for l in old.split("\n")
        )
        if new != old:
            open(path, "w", encoding="utf-8").write(new)


main()
