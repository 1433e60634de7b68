#!/usr/bin/env python3
"""Spells this repository's own definitions, lemmas and record fields in snake case: fitsPlace and fits-place become fits_place.

usage: python3 tools/respell.py [--list]      at the top of the repository, once, after the toolchain's own port script

Types, modules and the words of the library stay as they are, and so do the functions of src/, strings, and the labels that the
toolchain makes in a function's Answers and Invariants. Names that would fall together are listed, and nothing is written.
"""

import os
import re
import sys

NAME = r"[^\s(){}.;,@\"«»:]+"
DECLARED = re.compile(r"^(?:[ \t]*)(?:(?:abbrev|unfoldable|opaque|pub|private|instance)[ \t]+)*(" + NAME + r")[ \t]*(?:\{[^{}\n]*\}[ \t]*)*:(?!:)", re.M)
TYPE = re.compile(r"^(?:[ \t]*)(?:pub[ \t]+)?(?:record|data|module)[ \t]+(" + NAME + r")", re.M)
CHAIN_HEADS = {"c", "l", "w", "g", "goal", "given", "need"}
MADE = re.compile(r"/proofs/(?:.*/)?(?:Answers|Invariants|Choices)\.antt$")
# Names that would meet another one under the rule, each with what it is called instead.
OTHERWISE = {
    n: n.replace("-", "_") + "_is"
    for n in (
        "access-refusal", "any-dirty", "any-wired", "blur-kind", "clean-entry", "dropped-wired", "fits-place", "frame-low", "leaf-word",
        "page-at", "pages-in", "region-fits", "unlinked-word", "vsid-segment", "vsid-space", "wired-at",
    )
}
# These are facts, so types.
OTHERWISE.update({"isEvicted": "IsEvicted", "isHit": "IsHit", "regionFits": "RegionFits"})
# The same for names that the port script has put into snake case already, by the end of the file's path.
BY_FILE = {
    "x86_pmap/proofs/Starts.antt": {"start_word": "start_word_is"},
    "powerpc_pmap/proofs/Translating.antt": {"right_answer": "right_answer_is"},
    "powerpc_pmap/proofs/hashed/Hashed/translate/Answers.antt": {"right_answer": "right_answer_is"},
}


def snake(name):
    words = re.sub(r"(?<=[a-z0-9])[A-Z]", lambda m: "_" + m[0].lower(), name)
    return re.sub(r"(?<=[^-])-(?=[^-])", "_", words)


def odd(name):
    return name[:1].islower() and name != snake(name) and re.fullmatch(r"[A-Za-z0-9_'-]+", name) is not None


def files(root):
    for folder, dirs, names in os.walk(os.path.join(root, "crates")):
        dirs[:] = sorted(d for d in dirs if d not in ("out", "target", "must-fail"))
        for n in sorted(names):
            if n.endswith((".antt", ".rt")):
                yield os.path.join(folder, n)


def read(path):
    with open(path, encoding="utf-8") as f:
        return f.read()


def code_of(text, path):
    """The text without comments and strings."""
    if path.endswith(".rt"):
        return re.sub(r'//[^\n]*|"(?:\\.|[^"\\])*"', " ", text)
    return re.sub(r'--(?=[\s]|$)[^\n]*|"(?:\\.|[^"\\])*"', " ", text, flags=re.M)


def declared(root):
    """The odd names that the antt files declare, with one place of each."""
    found = {}
    for p in files(root):
        if not p.endswith(".antt"):
            continue
        t = code_of(read(p), p)
        made = set(re.findall(r"\bgoal\.(" + NAME + r")", t)) if MADE.search(p) else set()
        for m in DECLARED.finditer(t):
            n = m[1]
            if odd(n) and n not in made:
                found.setdefault(n, os.path.relpath(p, root))
        # names bound by let, lambda and arguments
        for m in re.finditer(r"\blet (" + NAME + r")|λ ((?:" + NAME + r"[ ]+)*" + NAME + r")[.]|[({]((?:" + NAME + r" )+):", t):
            for n in (m[1] or m[2] or m[3] or "").split():
                if odd(n) and n not in made:
                    found.setdefault(n, os.path.relpath(p, root))
        for m in re.finditer(r"\bas (" + NAME + r")", t):
            if odd(m[1]):
                found.setdefault(m[1], os.path.relpath(p, root))
    for p in files(root):
        if p.endswith(".rt"):
            for m in re.finditer(r"\bas ([a-z]+[A-Z]\w*)", code_of(read(p), p)):
                found.setdefault(m[1], os.path.relpath(p, root))
    return found


WORD = re.compile(r"(?P<skip>--(?=\s|$)[^\n]*|\"(?:\\.|[^\"\\])*\")|(?P<chain>" + NAME + r"(?:\." + NAME + r")*)", re.M)
WORD_RT = re.compile(r"(?P<skip>//[^\n]*|\"(?:\\.|[^\"\\])*\")|(?P<chain>[\w'-]+(?:\.[\w'-]+)*)")


def own(path, names):
    for end, more in BY_FILE.items():
        if path.endswith(end):
            return {**names, **more}
    return names


def turned(path, text, names):
    antt = path.endswith(".antt")
    made = bool(MADE.search(path))
    labels = set(re.findall(r"\bgoal\.(" + NAME + r")", text)) if made else set()

    def one(n):
        return names.get(n, n)

    def put(m):
        if m["skip"] is not None:
            s = m["skip"]
            if s.startswith('"'):
                return s
            return re.sub(r"\b[a-z]+[A-Z]\w*", lambda k: one(k[0]), s)
        parts = m["chain"].split(".")
        out = []
        for i, n in enumerate(parts):
            if antt and made and (i == 0 and n in labels or i == 1 and parts[0] in CHAIN_HEADS):
                out.append(n)
            else:
                out.append(one(n))
        return ".".join(out)

    return (WORD if antt else WORD_RT).sub(put, text)


def clauses(text):
    """The texts in braces behind requires, ensures and ghost, and the imports of ghost use."""
    out = []
    for m in re.finditer(r"\b(?:requires|ensures|ghost)\b[^{;()]*\{", text):
        deep, k = 1, m.end()
        while k < len(text) and deep:
            deep += (text[k] == "{") - (text[k] == "}")
            k += 1
        out.append(text[m.end() : k])
    return " ".join(out)


def words(path, text):
    t = code_of(text, path)
    if path.endswith(".antt"):
        # the path of an import names folders and functions, which stay
        t = re.sub(r"\buse [^\s{]+", " ", t)
        return set(re.findall(NAME, t))
    return set(re.findall(r"[\w'-]+", clauses(t)))


def meetings(root, names):
    """Pairs of names of one file that would become one."""
    bad = []
    for p in files(root):
        t = read(p)
        w = words(p, t)
        to, here = {}, own(p, names)
        for n in sorted(w):
            if MADE.search(p) and n in set(re.findall(r"\bgoal\.(" + NAME + r")", t)):
                continue
            to.setdefault(here.get(n, n), []).append(n)
        for k, v in to.items():
            if len(v) > 1:
                bad.append((os.path.relpath(p, root), k, v))
    return bad



def main(argv):
    root = os.getcwd()
    found = declared(root)
    names = {n: OTHERWISE.get(n, snake(n)) for n in found}
    names.update({n: v for n, v in OTHERWISE.items() if n in found})
    if "--list" in argv:
        for n in sorted(names):
            print(n, names[n], found[n])
    bad = meetings(root, names)
    for p, k, v in bad:
        print(f"meet: {p}: {' '.join(v)} would all be {k}")
    if bad and "--force" not in argv:
        print(f"{len(names)} names, {len(bad)} meetings; nothing was written")
        return 1
    if "--list" in argv:
        return 0
    n = 0
    for p in files(root):
        t = read(p)
        new = turned(p, t, own(p, names))
        if new != t:
            with open(p, "w", encoding="utf-8") as f:
                f.write(new)
            n += 1
    print(f"{len(names)} names, {n} files changed")
    return 0


if __name__ == "__main__":
    raise SystemExit(main(sys.argv[1:]))
