#!/usr/bin/env python3
"""Gives the goals and steps that Proof.antt files name the names that Rattle makes today.

usage: tools/turn_proofs.py NAMES CRATE..     at the top; NAMES: what `rt check --generated FOLDER --old-names` wrote as FOLDER/names.json in a crate

Run it once on a file. It follows each variable that stands for a place of the code: behind it `.before` and a step's old name become the step's new name, which is
found from any place behind the step. What an arm of a match has as one record today is named there. Lines that begin 'left:' are for you.
"""
import json
import os
import re
import sys

WORD = r'[^\s(){}.;,@"«»]+'
START = {"args", "ranges", "requires", "well_formed", "lifetimes"}


def flat(s):
    s = re.sub(r"_lem\d*$", "", s)
    return re.sub(r"-(\d+)$", r"\1", s.replace("_", "-")).lower()


class Function:
    def __init__(self, entry):
        self.e = entry
        self.places = entry["places"]
        self.new = entry["places_by_name"]
        self.index = {}
        for i, p in enumerate(self.places):
            self.index.setdefault(flat(p[0]), i)
        self.parent = [None if p[1] is None else self.index[flat(p[1])] for p in self.places]
        arms = entry["arms"]
        self.arms = arms
        # an arm is one record at its last place
        self.final = [False] * len(arms)
        for i, a in enumerate(arms):
            if a:
                self.final[i] = not any(b and self.parent[j] == i and b[0] == a[0] and b[1] == a[1] + 1 for j, b in enumerate(arms))
        self.goals = {}
        for old, new in entry["needs"]:
            self.goals[flat(old)] = new
        self.at = {}
        for (old, new), (place, _) in zip(entry["needs"], entry["asked_at"]):
            self.at[new] = self.index[flat(place)]
        self.types = {flat(p[0]): n for p, n in zip(self.places, self.new)}
        self.moved = {}
        self.words = {}
        for (old, new), _ in entry["loops"]:
            for word in ("invariant", "decreases"):
                self.words[f"{word}-{flat(old)}"] = f"{word}-{new}"

    def rank(self, text, module):
        """Goals named after a temporary: by order, where the numbers moved."""
        said, asked = {}, {}
        for m in re.finditer(rf"(?<![^\s(){{}};,]){re.escape(module)}\.Need-({WORD})", text):
            k = re.fullmatch(r"(?:overflow-|nonzero-|zero-|bounds-|shift-|slice-bounds-)?(.*-t)(\d+)", flat(m[1]))
            if k:
                said.setdefault(k[1], set()).add(int(k[2]))
        for old in self.goals:
            k = re.fullmatch(r"(.*-t)(\d+)", old)
            if k:
                asked.setdefault(k[1], set()).add(int(k[2]))
        self.moved = {}
        for stem, numbers in said.items():
            if stem in asked and not numbers <= asked[stem] and len(numbers) == len(asked[stem]):
                for a, b in zip(sorted(numbers), sorted(asked[stem])):
                    self.moved[f"{stem}{a}"] = f"{stem}{b}"

    def goal(self, name):
        """The new name of a goal, of an invariant's type or of a place's."""
        n = flat(name)
        if n in self.words:
            return self.words[n]
        if n.startswith("need-"):
            n = n[5:]
            for m in (n, re.sub(r"^(overflow|nonzero|zero|bounds|shape-of|shift|slice-bounds)-", "", n)):
                m = self.moved.get(m, m)
                if m in self.goals:
                    return "Need-" + self.goals[m]
            for new in self.at:
                if flat(new) == n:
                    return "Need-" + new
            return None
        return self.types.get(n)

    def up(self, p):
        """The place before p today, and the places that p's record has."""
        group = [p]
        if self.final[p]:
            for _ in range(self.arms[p][1] - 1):
                group.append(self.parent[group[-1]])
        return self.parent[group[-1]], group

    def befores(self, p, q):
        n = 0
        while p is not None and p != q:
            p, _ = self.up(p)
            n += 1
        return None if p is None else n

    def back(self, p, k):
        while k and self.parent[p] is not None:
            p = self.parent[p]
            k -= 1
        return p

    def step(self, p, q, rest):
        """The path from a variable at p to the fields `rest` of the place q, or None."""
        if rest[0] in START:
            return [rest[0], *(x.replace("-", "_") for x in rest[1:])]
        # a step's old name is one of its own on the way up
        field, q = flat(rest[0]), p
        while q is not None and flat(self.places[q][2][0]) != field:
            q = self.parent[q]
        if q is None:
            return None
        at = p
        while at is not None:
            parent, group = self.up(at)
            if q in group and self.final[at]:
                best = None
                for new, old, path in self.arms[at][2]:
                    if flat(old) == field and [flat(x) for x in path] == [flat(x) for x in rest[1 : 1 + len(path)]] and (best is None or len(path) > len(best[1])):
                        best = (new, path)
                if best is None:
                    return None
                return [self.arms[at][0], best[0], *self.tail(q, rest[1 + len(best[1]) :])]
            if q in group:
                return [self.places[q][2][1], *self.tail(q, rest[1:])]
            at = parent
        return None

    def tail(self, q, rest):
        rest = list(rest)
        if not rest:
            return rest
        for old, new in self.places[q][4]:
            if flat(old) == flat(rest[0]):
                rest[0] = new
        params = self.e["params"].get(self.places[q][3] or "")
        if rest[0] in ("new", "auto") and params:
            k = 1
            while k < len(rest) and rest[k] == "1":
                k += 1
            if k < len(rest) and rest[k] == "0" and k - 1 < len(params):
                rest[1 : k + 1] = [params[k - 1]]
        if rest[0] == "branch":
            rest[0] = "branch-raw"
        return rest


def args_of(text, i):
    """The arguments that follow at i: (start, end) of each, up to a closing bracket or a line that is not deeper."""
    out = []
    n = len(text)
    while i < n:
        while i < n and text[i] in " \n":
            if text[i] == "\n" and i + 1 < n and text[i + 1] not in " \n":
                return out
            i += 1
        if i >= n or text[i] in ")};,":
            return out
        if text[i] == "(":
            d, j = 0, i
            while j < n:
                d += text[j] == "("
                d -= text[j] == ")"
                j += 1
                if d == 0:
                    break
            m = re.compile(rf"(?:\.{WORD})*").match(text, j)
            j = m.end()
        else:
            m = re.compile(r"[^\s(){};,]+").match(text, i)
            if not m:
                return out
            j = m.end()
        out.append((i, j))
        i = j
    return out


def segments(sig):
    """A signature's parts between arrows at depth 0."""
    out, d, last = [], 0, 0
    for i, ch in enumerate(sig):
        d += ch in "({"
        d -= ch in ")}"
        if ch == "→" and d == 0:
            out.append(sig[last:i])
            last = i + 1
    return out + [sig[last:]]


class File:
    def __init__(self, text, modules, path):
        self.text, self.modules, self.path = text, modules, path
        self.left = []
        self.helpers, self.answers = {}, {}
        self.mod = "|".join(sorted(map(re.escape, modules), key=len, reverse=True))
        self.ref = re.compile(rf"(?<![^\s(){{}};,])({self.mod})\.({WORD})")

    def say(self, what):
        self.left.append(f"left: {self.path}: {what}")

    def body(self, text, vars):
        """Turns the paths of the variables `vars`: name -> (function, root, the root's place, place, prefix)."""
        vars = dict(vars)
        out, at = [], 0
        path = re.compile(rf"(?<![^\s(){{}};,\[\]])({WORD})((?:\.{WORD})*)")
        let = re.compile(r"let (\S+) = $")
        quiet = [(m.start(), m.end()) for m in re.finditer(r"--[^\n]*", text)]
        for m in path.finditer(text):
            v = m[1]
            if v not in vars or text[: m.start()].endswith("let ") or any(a <= m.start() < b for a, b in quiet):
                continue
            f, root, start, q, prefix = vars[v]
            fields = [x for x in m[2].split(".") if x]
            k = 0
            if not prefix:
                while k < len(fields) and fields[k] == "before":
                    k += 1
            place = f.back(q, k)
            rest = prefix + fields[k:]
            bound = let.search(text, 0, m.start())
            bound = bound and bound.end() == m.start() and bound[1]
            ends = re.compile(r"\s+in\b").match(text, m.end())
            if not rest:
                wanted = self.wanted(text[: m.start()])
                if wanted is not None and f.befores(start, wanted) is not None:
                    new = root + ".before" * f.befores(start, wanted)
                elif bound and ends:
                    # what is behind the name is found from the root
                    vars[bound] = (f, root, start, place, [])
                    self.inside.add(bound)
                    new = root
                elif not fields and v not in self.inside:
                    continue
                else:
                    n = f.befores(start, place)
                    self.say(f"by count: {m[0]}")
                    if n is None:
                        continue
                    new = root + ".before" * n
            else:
                got = f.step(start, place, rest)
                own = f.step(start, place, prefix) if prefix else None
                if got is None:
                    if bound and ends:
                        vars[bound] = (f, root, start, place, rest)
                        self.inside.add(bound)
                        new = root
                    else:
                        self.say(f"no step {m[0]}")
                        continue
                else:
                    # a prefix that stands under its own name needs no path anew
                    new = ".".join([v, *got[len(own) :]] if own and v not in self.inside and got[: len(own)] == own else [root, *got])
                    if bound and ends:
                        vars[bound] = (f, root, start, place, rest)
            out.append(text[at : m.start()])
            out.append(new)
            at = m.end()
        out.append(text[at:])
        text = "".join(out)
        for v in self.inside:
            # a name that nothing says any more
            if len(re.findall(rf"(?<![^\s(){{}};,.]){re.escape(v)}(?![^\s(){{}};,.])", text)) == 1:
                text = re.sub(rf"let {re.escape(v)} = \S+ in\s*", "", text)
        return text

    def wanted(self, before):
        """The place that the helper asks for whose argument comes next."""
        m = re.search(r"([^\s(){};,]+)((?: [^\s(){};,]+)*) \(?$", before)
        if not m:
            return None
        words = [m[1], *m[2].split()]
        for i in range(len(words) - 1, -1, -1):
            h = self.helpers.get(words[i])
            if h and h[0] == len(words) - 1 - i:
                return h[1]
        return None

    def block(self, lines):
        """Turns one declaration: its signature, clauses and where block."""
        text = "\n".join(lines)
        self.inside = set()
        vars = {}
        m = re.match(rf"(?:abbrev |pub |unfoldable )*({WORD})\s+:\s", lines[0])
        if m:
            name = m[1]
            # the signature reaches to the first clause
            k = 1
            while k < len(lines) and (lines[k].startswith((" ", "\t")) or not lines[k].strip()):
                k += 1
            sig = "\n".join(lines[:k])
            rest = "\n".join(lines[k:])
            position = None
            bind = re.compile(rf"\((\S+) : ({self.mod})\.({WORD})")
            segs = segments(sig[m.end() :])
            n = 0
            at_goal = None
            for s in segs:
                b = bind.search(s)
                if b and re.match(r"\s*\(", s):
                    f = self.modules[b[2]]
                    t = f.types.get(flat(b[3]))
                    if t is not None:
                        p = f.index[flat(b[3])]
                        vars[b[1]] = (f, b[1], p, p, [])
                        position = (n, f, p)
                g = self.ref.match(s.strip())
                if g and g[2].startswith("Need-"):
                    f = self.modules[g[1]]
                    new = f.goal(g[2])
                    if new:
                        at_goal = (n, f, f.at[new[5:]])
                        new_goal = new[5:]
                elif g and flat(g[2]) in self.modules[g[1]].types:
                    f = self.modules[g[1]]
                    position = (n, f, f.index[flat(g[2])])
                n += len(re.findall(r"\S+", re.match(r"\s*\(([^:()]*):", s)[1])) if re.match(r"\s*\([^:()]*:", s) else 1
            sig = self.body(sig, vars)
            new_vars = {}
            if position:
                self.helpers[name] = (position[0], position[2])
            if at_goal:
                self.answers[name] = new_goal

            def clause(c):
                words = c[2].split()
                for spot in (position, at_goal):
                    if spot and spot[0] < len(words):
                        v = words[spot[0]].strip("()")
                        new_vars[v] = (spot[1], v, spot[2], spot[2], [])
                return c[0]

            re.sub(rf"^({re.escape(name)})((?: [^=\n]*?)?) =", clause, rest, flags=re.M)
            rest = self.spec(rest)
            rest = self.body(rest, new_vars)
            text = sig + ("\n" + rest if k < len(lines) else "")
        else:
            text = self.spec(text)
        return self.ref.sub(self.name, text)

    def name(self, m):
        f = self.modules[m[1]]
        if f is None:
            return m[0]
        if m[2] in ("spec", "close", "Claims", "Closed") or m[2].startswith(("Lts", "Pre", "Post")):
            return m[0]
        new = f.goal(m[2])
        if new is None:
            self.say(f"no goal {m[0]}")
            return m[0]
        return f"{m[1]}.{new}"

    def spec(self, text):
        """The answers that are handed to spec in place."""
        for m in reversed(list(re.finditer(rf"(?<![^\s(){{}};,])({self.mod})\.spec\b", text))):
            f = self.modules[m[1]]
            if f is None:
                continue
            spans = args_of(text, m.end())
            needs = [new for _, new in f.e["needs"]]
            pairs = self.aligned([text[a:b] for a, b in spans], needs)
            skip = 2 * len(f.e["loops"])
            if pairs is None and len(spans) == skip + len(needs):
                pairs = [None] * skip + needs
            if pairs is None:
                self.say(f"{len(spans)} arguments for {len(needs)} goals")
                continue
            for (a, b), new in reversed(list(zip(spans, pairs))):
                if new == "":
                    text = text[:a].rstrip(" ") + text[b:]
                    continue
                lam = re.match(r"\(λ (\S+?)([.\s].*)\)$", text[a:b], re.S)
                if new and lam:
                    v = lam[1]
                    p = f.at[new]
                    self.inside = set()
                    inner = self.body(text[a:b], {v: (f, v, p, p, [])})
                    text = text[:a] + inner + text[b:]
        return text

    def aligned(self, args, needs):
        """For each argument its goal, "" for one that is no longer asked for, None for one that is no answer; None where they don't fit."""

        def fits(arg, need):
            word = arg.strip("()").split(" ")[0]
            if word in self.answers:
                return self.answers[word] == need
            lam = re.match(r"\(λ ([^.]*)\.", arg)
            if lam:
                return (len(lam[1].split()) == 2) <= ("requires" in need)
            return not arg.startswith(("invariant", "decreases")) and "λ" not in arg

        first = 0
        best = {}
        n, k = len(args), len(needs)

        def go(i, j):
            """The fewest dropped, from argument i and goal j."""
            if (i, j) in best:
                return best[i, j]
            r = None
            if i == n:
                r = (0, []) if j == k else None
            else:
                if j < k and fits(args[i], needs[j]):
                    s = go(i + 1, j + 1)
                    if s:
                        odd = re.match(r"\(λ \w+\.", args[i]) and "requires" in needs[j]
                        r = (s[0] + 0.4 * bool(odd), [needs[j], *s[1]])
                if j == 0:
                    s = go(i + 1, 0) if not args[i].startswith("(λ") and args[i] not in self.answers else None
                    if s and (r is None or s[0] < r[0]):
                        r = (s[0], [None, *s[1]])
                if re.fullmatch(r"\(λ \w+( κs)?\. (search rules|omega arith)\)", args[i]):
                    s = go(i + 1, j)
                    if s and (r is None or s[0] + 1 < r[0]):
                        r = (s[0] + 1, ["", *s[1]])
            best[i, j] = r
            return r

        sys.setrecursionlimit(10000)
        r = go(0, 0)
        return r and r[1]

    def turned(self):
        out, block = [], []
        lines = self.text.split("\n")

        def flush():
            if block:
                out.append(self.block(block) if re.search(rf"(?<![^\s(){{}};,])({self.mod})\.", "\n".join(block)) else "\n".join(block))
                block.clear()

        names = None
        for line in lines:
            m = re.match(rf"(?:abbrev |pub |unfoldable )*({WORD})\s+:\s", line)
            if m or line.startswith(("use ", "--", "module ", "pub use")):
                flush()
            block.append(line)
        flush()
        return "\n".join(out)


def main():
    with open(sys.argv[1]) as f:
        names = json.load(f)
    for crate in sys.argv[2:]:
        top = f"crates/{crate}/proofs"
        for p in sorted(os.path.join(folder, n) for folder, _, files in os.walk(top) for n in files if n.endswith(".antt")):
            m = re.search(rf"^{top}/(.+?)/Proof(/.*)?\.antt$", p)
            if not m:
                continue
            path = m[1].replace("/", ".")
            with open(p, encoding="utf-8") as f:
                text = f.read()
            modules = {}
            for m in re.finditer(rf"^use (Rattle\.{crate}\.proofs\.{re.escape(path)}\.(Tie|Lts\S*)) as (\S+)$", text, re.M):
                lts = m[2] if m[2] != "Tie" else "Lts"
                entry = names.get(f"Rattle-{crate}-proofs.{path}.{lts}")
                if entry is None:
                    print(f"left: {p}: no names for {m[1]}")
                else:
                    modules[m[3]] = Function(entry)
                    modules[m[3]].rank(text, m[3])
            new = text
            if modules:
                file = File(text, modules, p)
                new = file.turned()
                for it in dict.fromkeys(file.left):
                    print(it)
            # the proof of a function f is f_spec
            m = re.search(r"^pub (\S+) : \{M : Type 1\} → statement M$", new, re.M)
            if m:
                new = re.sub(rf"(?<!\S){re.escape(m[1])}(?!\S)", path.rsplit(".", 1)[-1] + "_spec", new)
            if new != text:
                with open(p, "w", encoding="utf-8") as f:
                    f.write(new)


main()
