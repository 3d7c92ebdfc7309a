#!/usr/bin/env python3
"""Counts the places of src/ that docs/DESIGN-PASS.md speaks of, point by point.

usage: tools/places.py [-l] [COMMIT]     at the top; of this checkout, or of a commit; -l lists each place
"""
import collections
import re
import subprocess
import sys

WORD = r"[A-Za-z_]\w*"
KEYWORDS = set("as break const continue else enum false fn for if impl in let loop match mut pub return self struct true type use while".split())


def run(*command):
    return subprocess.run(command, capture_output=True, text=True, check=True).stdout


def sources(commit):
    names = run("git", "ls-tree", "-r", "--name-only", commit or "HEAD", "crates").split()
    for name in names:
        if re.fullmatch(r"crates/\w+/src/.*\.rt", name):
            text = run("git", "show", f"{commit}:{name}") if commit else open(name, encoding="utf-8").read()
            yield name[len("crates/"):].replace("/src", ""), re.sub(r"//.*", "", text)


def functions(text):
    for m in re.finditer(r"^( *)(?:pub )?(?:const )?fn (\w+).*?^\1\}", text, re.M | re.S):
        head, _, body = m[0].partition("\n" + m[1] + "{\n")
        yield m[2], head, body


def enums(text):
    for m in re.finditer(r"^(?:pub )?enum (\w+) \{(.*?)^\}", text, re.M | re.S):
        yield m[1], re.findall(rf"^    ({WORD})(\([^)]*\))?,", m[2], re.M)


def of_option_or_result(variants):
    """Two variants of which one holds a value, or a refusal, a break or a fault beside what was wanted."""
    fails = [v for v, _ in variants if re.fullmatch("Refused|Broken|Malformed|Other|Nothing|Outside|Never|Fault", v)]
    return len(variants) == 2 and any(held for _, held in variants) or bool(fails) and len(variants) <= 4


def places(commit):
    found = collections.defaultdict(list)
    shapes, travel, facts = (collections.defaultdict(list) for _ in range(3))
    for file, text in sources(commit):
        for name, variants in enums(text):
            if of_option_or_result(variants):
                found["1 enums of the shape of Option or Result"].append(f"{file} {name}")
        for m in re.finditer(r"^(?:pub )?const (\w+): u(?:8|32|64) = \d+;", text, re.M):
            found["1 numbers for kinds, refusals and codes"].append(f"{file} {m[1]}")
        for m in re.finditer(r"let (?:\w+::)*\w+\((?:mut )?\w+\) = (\w+) else \{\n *return \1;", text):
            found["1 refusals handed on by let-else"].append(f"{file} {m[1]}")
        for name, head, body in functions(text):
            tokens = re.findall(rf"{WORD}|\d+|[^\s\w]", body)
            shape = tuple("0" if t[0].isdigit() else t if t in KEYWORDS or not re.match(WORD, t) else "x" for t in tokens)
            if len(shape) >= 25:
                shapes[shape].append(f"{file} {name}")
            for m in re.finditer(r"^( *)(?:'\w+: )?(while|loop)\b.*?^\1\}", body, re.M | re.S):
                test = re.match(r" *(?:'\w+: )?while (.*) \{", m[0])
                steps = re.findall(r"^ *(\w+(?:\.\w+)?) [+-]= \w+;", m[0], re.M)
                if test and any(re.search(rf"(?<![\w.]){re.escape(s)}(?!\w)", test[1]) for s in steps):
                    found["3 loops that count by hand"].append(f"{file} {name}")
                else:
                    found["3 other while and loop"].append(f"{file} {name}")
            if re.fullmatch(r"\s*(\w+ as \w+|\w+ (?:==|!=|<|<=|>|>=) \w+)\s*\}?\s*", body):
                found["4 functions that are one cast or comparison"].append(f"{file} {name}")
            if name.startswith(("same", "clip", "least", "put_", "store", "fill")) and "while" in body:
                found["4 equality and copying by a loop"].append(f"{file} {name}")
            params = re.findall(rf"({WORD}): ([^,()]+)", head[head.find("("):head.find("ensures") if "ensures" in head else None].split("requires")[0])
            for n in range(3, len(params) + 1):
                for i in range(len(params) - n + 1):
                    travel[tuple(params[i:i + n])].append(f"{file} {name}")
            for fact in re.findall(r"^    requires (?:\w+ )?\{ (?:\()?([A-Z]\w+)", head, re.M):
                facts[fact].append(f"{file} {name}")
            arrays = re.findall(r"(\w+): &(?:mut )?\[(\w+)\]", head)
            kinds = collections.Counter(t for _, t in arrays)
            if {"starts", "ends"} <= {a for a, _ in arrays} or {"low", "high"} <= {a for a, _ in arrays}:
                found["6 parallel arrays, by function"].append(f"{file} {name}")
            if re.search(r"match (?:code|byte) \{", body):
                found["7 switches on which step to run"].append(f"{file} {name}")
    for same in shapes.values():
        if len(same) > 1:
            found["2 functions alike but for names and constants"].append("; ".join(same))
    kept = {}
    for group, names in sorted(travel.items(), key=lambda g: -len(g[0])):
        if len(names) >= 3 and not any(set(group) <= set(k) and len(kept[k]) >= len(names) for k in kept):
            kept[group] = names
            found["5 parameters that travel together"].append(f"{', '.join(p for p, _ in group)} ({len(names)})")
    for fact, names in facts.items():
        if len(names) >= 3:
            found["5 facts in the contracts of three or more"].append(f"{fact} ({len(names)})")
    files = run("git", "ls-tree", "-r", "--name-only", commit or "HEAD", "crates").split()
    found["8 function proofs that walk the code"] = [f for f in files if f.endswith("/Proof.antt")]
    found["8 answers and invariants"] = [f for f in files if f.endswith(("/Answers.antt", "/Invariants.antt"))]
    return found


def main():
    commit = next((a for a in sys.argv[1:] if a != "-l"), None)
    for point, those in sorted(places(commit).items()):
        print(f"{len(those):5} {point}")
        if "-l" in sys.argv and not point.startswith("8"):
            for place in those:
                print(f"        {place}")


main()
