#!/usr/bin/env python3
"""Counts the places of the design pass in crates/*/src (and proofs/), as docs/DESIGN-PASS.md lists them.

Usage: python3 tools/places.py [-v] [POINT..]     at the top of the repository
Each line is a kind of place and how many there are; with -v every place is listed. What a count means is read by a person:
the kinds find candidates, and docs/DESIGN-PASS.md says which of them are places.
"""
import collections
import pathlib
import re
import sys

FILES = [p for p in sorted(pathlib.Path("crates").glob("*/src/**/*.rt"))]
KEYWORDS = set("as break const else enum false fn for ghost if impl in let loop match mod mut pub ref return self Self struct super "
               "trait true type use where while Ok Err Some None ensures requires".split())
RULES = {
    1: [("enum", r"^\s*(pub(\([a-z]+\))? )?enum \w+"),
        ("arm that gives a number", r"=> \d[\d_]*,$"),
        ("arm of a number", r"^\s*\d+ =>"),
        ("bool beside another value in an answer", r"-> .*\(\w+, bool\)|-> .*\(bool, \w+\)")],
    3: [("for over a range", r"\bfor \w+ in [^&{]*\.\."),
        ("while", r"\bwhile\b"),
        ("count by hand", r"\+= 1;|= \w+\.saturating_add\(1\)"),
        ("index of len", r"\[\w+\.len\(\)|\.\.\w+\.len\(\)")],
    4: [("impl From or TryFrom", r"^impl.*\b(Try)?From<"),
        ("impl Display", r"^impl.*Display for"),
        ("impl PartialEq, Ord, Clone, Default by hand", r"^impl.*\b(PartialEq|Eq|Ord|Clone|Default) for"),
        ("push_str of a format", r"push_str\(format!|push_str\(line\("),
        ("AllocError by hand", r"Err\(AllocError\)"),
        ("widening cast", r"\bas (usize|u16|u32|u64|u128)\b"),
        ("zero value by hand", r"^\s+\w+: 0,$"),
        ("comparison of parts by hand", r"&& \w+ == \w+ &&")],
    6: [("field of a Vec or an array", r"^\s+(pub(\([a-z]+\))? )?\w+: (Vec<|\[)"),
        ("position or index as a field", r"^\s+(pub(\([a-z]+\))? )?(at|next|number|index): (usize|u32),"),
        ("return out of a search loop", r"^            return (Some|true|Ok\(|\*)"),],
    7: [("parameter of an own enum", r"\w+: (Change|Cut|Machine|Operation|Field|Kind|Cut|Bit)\b")],
}


# the same for what spans lines
SPANS = {
    1: [("let .. else that only returns None or Err", r"let (?:Some|Ok)\([^)]*\) = [^;]*? else \{\s*return (?:None|Err\([^;]*\)|Ok\(None\));\s*\}"),
        ("range test that only returns Err", r"if !fits_\w+\([^)]*\) \{\s*return Err[^;]*;\s*\}"),
        ("match that only hands Some, None, Ok or Err on", r"match [^{;]*\{\s*(?:Some|Ok)\((\w+)\) => (?:Some|Ok)\(\1\),")],
    3: [("search or count loop of an if", r"for [^{]*\{\s*if [^{]*\{\s*(?:return [^;]*;|\w+ \+= 1;)\s*\}\s*\}")],
}


def lines():
    for p in FILES:
        inside_tests = False
        for n, line in enumerate(p.read_text().splitlines(), 1):
            if line.strip().startswith("//"):
                continue
            yield p, n, line


def functions():
    """Each function: file, line, name, parameters, clauses, body."""
    for p in FILES:
        text = re.sub(r"//.*", "", p.read_text())
        for m in re.finditer(r"\bfn (\w+)", text):
            at = m.end()
            depth = 0
            body = None
            open_paren = text.find("(", at)
            k, d = open_paren, 0
            while k < len(text):
                d += {"(": 1, ")": -1}.get(text[k], 0)
                if d == 0:
                    break
                k += 1
            params = text[open_paren + 1:k]
            j = k
            clauses = []
            while j < len(text):
                c = re.compile(r"\s*(requires|ensures)\*?\s*\w*\s*\{").match(text, j)
                if c:
                    e, d = c.end(), 1
                    while d:
                        d += {"{": 1, "}": -1}.get(text[e], 0)
                        e += 1
                    clauses.append((c.group(1), text[c.end():e - 1].strip()))
                    j = e
                    continue
                if text[j] == ";":
                    break
                if text[j] == "{":
                    e, d = j + 1, 1
                    while d:
                        d += {"{": 1, "}": -1}.get(text[e], 0)
                        e += 1
                    body = text[j + 1:e - 1]
                    break
                j += 1
            yield p, text.count("\n", 0, m.start()) + 1, m.group(1), params, clauses, body


def shape(body):
    out = []
    for t in re.findall(r"[A-Za-z_]\w*|\d[\w_.]*|\"[^\"]*\"|[^\s\w]", body):
        if re.match(r"[A-Za-z_]", t):
            out.append(t if t in KEYWORDS else "i")
        elif t[0].isdigit():
            out.append("0")
        elif t[0] == '"':
            out.append('"')
        else:
            out.append(t)
    return " ".join(out)


def conjuncts(clause):
    parts, d, last = [], 0, 0
    for i, ch in enumerate(clause):
        d += {"(": 1, ")": -1}.get(ch, 0)
        if ch == "×" and d == 0:
            parts.append(clause[last:i])
            last = i + 1
    parts.append(clause[last:])
    out = []
    for x in parts:
        x = x.strip()
        while x.startswith("(") and x.endswith(")"):
            d = 0
            for i, ch in enumerate(x):
                d += {"(": 1, ")": -1}.get(ch, 0)
                if d == 0:
                    break
            if i != len(x) - 1:
                break
            x = x[1:-1].strip()
        if "×" in x and len(parts) > 1:
            out += conjuncts(x)
        elif x:
            out.append(x)
    return out


def main():
    verbose = "-v" in sys.argv
    wanted = {int(a) for a in sys.argv[1:] if a.isdigit()} or set(range(1, 9))

    def say(kind, places):
        print(f"    {kind}: {len(places)}")
        if verbose:
            for x in places:
                print("        " + x)

    funs = list(functions())
    for point in sorted(wanted):
        print(f"point {point}")
        for kind, rule in SPANS.get(point, []):
            found = []
            for p in FILES:
                text = p.read_text()
                found += [f"{p}:{text.count(chr(10), 0, m.start()) + 1}" for m in re.finditer(rule, text)]
            say(kind, found)
        for kind, rule in RULES.get(point, []):
            say(kind, [f"{p}:{n}: {l.strip()}" for p, n, l in lines() if re.search(rule, l)])
        if point == 2:
            groups = collections.defaultdict(list)
            for p, n, name, params, clauses, body in funs:
                if body and len(shape(body).split()) >= 24 and "_tests" not in str(p):
                    groups[shape(body)].append(f"{p}:{n} {name}")
            twins = [g for g in groups.values() if len(g) > 1]
            say("functions with a body of the same shape as another's", [" = ".join(g) for g in twins for _ in g])
            names = collections.defaultdict(list)
            for p, n, l in lines():
                m = re.match(r"\s*(?:pub(?:\([a-z]+\))? )?(?:struct|enum) (\w+)", l)
                if m:
                    names[m.group(1)].append(f"{p}:{n}")
            say("types with one name in two crates", [f"{k}: {v}" for k, v in names.items() if len(v) > 1])
            consts = collections.defaultdict(list)
            for p, n, l in lines():
                m = re.match(r"\s*(?:pub )?const (\w+): \w+ = ([\d_]+);", l)
                if m:
                    consts[m.group(2)].append(f"{p}:{n} {m.group(1)}")
            say("constants that say one number twice", [f"{k}: {v}" for k, v in consts.items() if len(v) > 1])
        if point == 5:
            facts = collections.defaultdict(set)
            for p, n, name, params, clauses, body in funs:
                for kind, c in clauses:
                    for x in conjuncts(c):
                        if kind == "requires":
                            facts[x].add(f"{p}:{n} {name}")
            again = {k: v for k, v in facts.items() if len(v) >= 3}
            say("facts that three or more functions require", [f"{k}: {len(v)}" for k, v in sorted(again.items(), key=lambda x: -len(x[1]))])
            say("functions that require one of them", sorted(set().union(*again.values())) if again else [])
            say("contracts that name self.old or self.new eight times or more",
                [f"{p}:{n} {name}" for p, n, name, _, cs, _ in funs if sum(c.count("self.old") + c.count("self.new") for _, c in cs) >= 8])
            for group in (("space: u8", "page: u32"), ("frame: u16", "protection: u8")):
                say("functions that take " + " and ".join(group), [f"{p}:{n} {name}" for p, n, name, ps, _, _ in funs if all(g in " ".join(ps.split()) for g in group)])
        if point == 8:
            answers, lemmas, count = [], [], 0
            for p in sorted(pathlib.Path("crates").glob("*/proofs/**/*.antt")):
                if "/out/" in str(p):
                    continue
                text = p.read_text()
                count += text.count("\n")
                for m in re.finditer(r"^\s*(?:pub )?([\w-]+) : (.*)$", text, re.M):
                    (answers if m.group(2).startswith("goal.") else lemmas).append(f"{p}: {m.group(1)}")
            say("answers", answers)
            say("lemmas", lemmas)
            print(f"    lines of proofs: {count}")


main()
