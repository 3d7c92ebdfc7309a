#!/usr/bin/env python3
"""Respells the repository's own names of specs/ and proofs/: definitions, lemmas, constructors and fields in snake case, what answers a Type in upper camel case.

usage: tools/respell.py [--check]     at the top of the repository, once, after port.py

It turns whole words: in antt code, in the clauses and ghost lines of src/, in must-fail edits, and in code spans of README.md and docs/ and bare words of comments
where the whole word stands. Names that Rattle makes, and names of the library, stay. --check only prints the table.
"""
import collections
import os
import re
import sys

WORD = r'[^\s(){}.;,@"«»]+'
DECL = re.compile(r"^(\s*)((?:(?:pattern|unfoldable|abbrev|pub)\s+)*)(" + WORD + r"(?:\s+" + WORD + r")*?)((?:\s+\{[^{}\n]*\})*)\s*:(?=\s)", re.M)
TYPE = re.compile(r"^\s*(?:abbrev\s+)?(?:pub\s+)?(?:data|record)\s+(" + WORD + r")", re.M)
KEY = {"let", "in", "record", "data", "where", "use", "mod", "module", "open", "infixl", "infixr", "infix", "elim", "unfolding", "λ"}
# lower-case names that answer a Type, and types with a dash
TYPES = {"analysedAs", "Closed-at"}


def files(kinds=(".antt", ".rt", ".edit")):
    for top, dirs, names in os.walk("crates"):
        dirs[:] = sorted(d for d in dirs if d != "out")
        for n in sorted(names):
            if n.endswith(kinds):
                yield os.path.join(top, n)


def read(p):
    with open(p, encoding="utf-8") as f:
        return f.read()


def uncommented(t):
    return re.sub(r'"(?:[^"\\\n]|\\.)*"|(?<![^\s(){}.;,@"«»])--[^\n]*', lambda m: " " * len(m[0]), t)


def snake(n):
    lead = "◌" if n.startswith(("◌", "_")) and re.search(r"[A-Za-z]", n) else ""
    tail = "◌" if n.endswith(("◌", "_")) and lead else ""
    core = n.strip("◌_") if lead else n
    core = re.sub(r"(?<=[a-z0-9])([A-Z])", lambda m: "_" + m[1].lower(), core)
    core = core.replace("-", "_")
    core = re.sub(r"__+", "_", core)
    return lead + core + tail


def camel(n):
    parts = [p for p in re.split(r"[-_]", n) if p]
    return "".join(p[0].upper() + p[1:] for p in parts)


def function_proof(p):
    """A file of one function's proof: its names are those of goals."""
    return re.search(r"/proofs/(?:[^/]+/)*Proof\.antt$", p) is not None


def declared():
    found = collections.defaultdict(set)
    result = {}
    for p in files((".antt",)):
        t = uncommented(read(p))
        for m in TYPE.finditer(t):
            found[m[1]].add(p)
            result.setdefault(m[1], "type")
        for m in DECL.finditer(t):
            names = m[3].split()
            if any(n in KEY for n in names):
                continue
            if function_proof(p) and re.match(r"\s*[A-Za-z_.]*tie\.", t[m.end():m.end() + 60]):
                continue
            # the signature, to its first line that is not deeper
            rest = t[m.end():]
            sig = rest.split("\n", 1)[0]
            for line in rest.split("\n")[1:]:
                if line.strip() and len(line) - len(line.lstrip()) > len(m[1]):
                    sig += " " + line
                else:
                    break
            sig = sig.split(" = ")[0] if not re.search(r"\brecord\b", sig) else sig
            last = re.split(r"→", sig)[-1].strip()
            is_type = re.fullmatch(r"Type \w+|Type \([^)]*\)", last) is not None
            for n in names:
                found[n].add(p)
                if is_type:
                    result[n] = "type"
                else:
                    result.setdefault(n, "value")
    return found, result


def table():
    found, kind = declared()
    goals = set()
    for p in files((".antt",)):
        goals.update(re.findall(r"Need-(" + WORD + ")", read(p)))
    # what a library has keeps its name
    for p in files((".antt", ".rt")):
        for m in re.finditer(r"^\s*(?:pub |ghost )*use (?!Rattle\.)[^{};\n]*\{([^{}]*)\}", read(p), re.M):
            goals.update(w for item in m[1].split(",") for w in item.split(" as ")[:1] for w in [w.strip()])
        for m in re.finditer(r"^\s*(?:pub |ghost )*use Rattle\.(?:std|core|io|os|libc)\b[^{};\n]*\{([^{}]*)\}", read(p), re.M):
            goals.update(w for item in m[1].split(",") for w in item.split(" as ")[:1] for w in [w.strip()])
    rows = {}
    for n in found:
        if not re.search(r"[A-Za-z]", n) or n in goals or n.startswith(("loop-", "Inv-")) or n[0].isdigit():
            continue
        new = n
        if n in TYPES:
            new = camel(n)
        elif not re.match(r"[A-Z]", n):
            new = snake(n)
        elif "-" in n:
            new = snake(n[0].lower() + n[1:]) if n[0] == "L" else snake(n)
        if new != n:
            rows[n] = new
    # names that would fall together: a lemma that would have its function's name ends in _lem
    groups = collections.defaultdict(list)
    for n in found:
        groups[rows.get(n, n)].append(n)
    for new, olds in groups.items():
        if len(olds) < 2:
            continue

        def rank(o):
            return ("-" in o, not any("/specs/" in f for f in found[o]), not re.search(r"[a-z][A-Z]", o), o)

        for k, o in enumerate(sorted(olds, key=rank)):
            if k:
                rows[o] = new + "_lem" * k
                assert rows[o] not in groups, rows[o]
    return rows


SPAN = re.compile(r"`[^`\n]+`")
WORDS = re.compile(WORD)
RUST = re.compile(r"(?<![\w'◌-])[\w◌'-]+(?![\w'◌-])")
COMMENT = {"antt": re.compile(r'"(?:[^"\\\n]|\\.)*"|(?<![^\s(){}.;,@"«»])--[^\n]*'), "rt": re.compile(r'"(?:[^"\\\n]|\\.)*"|//[^\n]*')}


def is_snake(n):
    return "-" not in n and not re.search(r"[a-z0-9][A-Z]", n)


def turned(text, rows, kind):
    def word(m):
        # a lemma in snake case that takes _lem: no Rust name, no step of a goal, no part of a path
        if is_snake(m[0]) and (kind == "rt" or m.string[m.start() - 1:m.start()] == "." or m.string[m.end():m.end() + 1] == "."):
            return m[0]
        return rows.get(m[0], m[0])

    def prose(s):
        s = SPAN.sub(lambda m: re.sub(r"[\w◌'-]+", lambda w: w[0] if is_snake(w[0]) else rows.get(w[0], w[0]), m[0]), s)
        return re.sub(r"(?<![\w'-])[a-z]+(?:\d*[A-Z][a-z0-9']*)+(?![\w'-])", lambda w: rows.get(w[0], w[0]), s)

    if kind == "md":
        return prose(text)
    out, at = [], 0
    code = RUST if kind == "rt" else WORDS
    for m in COMMENT[kind].finditer(text):
        out.append(code.sub(word, text[at:m.start()]))
        out.append(m[0] if m[0].startswith('"') else prose(m[0]))
        at = m.end()
    out.append(code.sub(word, text[at:]))
    return "".join(out)


def same_item(text):
    """`a as a` is `a`."""
    return re.sub(r"([{ ,])([^\s(){}.;,]+) as \2(?=[,}])", r"\1\2", text)


def main():
    rows = table()
    if "--check" in sys.argv:
        for old, new in sorted(rows.items()):
            print(old, new)
        return
    changed = 0
    pages = [os.path.join(top, n) for top, _, names in os.walk("docs") for n in names if n.endswith(".md")] + ["README.md"]
    for p in [*files(), *pages]:
        t = read(p)
        if p.endswith(".edit"):
            kind = "antt" if re.search(r"^file: .*\.antt$", t, re.M) else "rt"
            new = "\n".join(line if line.startswith("file:") else turned(line, rows, kind) for line in t.split("\n"))
        else:
            new = same_item(turned(t, rows, {"t": "antt", "r": "rt", "m": "md"}[p.rsplit(".", 1)[1].replace("antt", "t")[0]]))
        if new != t:
            changed += 1
            with open(p, "w", encoding="utf-8") as f:
                f.write(new)
    print(f"{len(rows)} names, {changed} files")


if __name__ == "__main__":
    main()
