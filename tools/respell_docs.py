#!/usr/bin/env python3
"""Respells the code spans of docs/SPEC-MAP.md and docs/ARCHITECTURE.md that .ci/names does not find, by the names that stand at the place.

usage: tools/respell_docs.py     at the top of the repository; it prints what it found no name for

Then the code spans of README.md and the rest of docs/, where a span is no name any more and one name alone is meant.

A name is taken for another where both read the same without `-`, `_` and the case of letters (`_lem`, which respell.py adds to a lemma named as a definition, may stand behind it).
"""
import collections
import glob
import re
import subprocess
import sys


def plain(name):
    return re.sub(r"_lem$", "", name).replace("-", "").replace("_", "").lower()


def index():
    """The names by place, as .ci/names lists them."""
    text = open(".ci/names", encoding="utf-8").read()
    things = text[text.index("things() {"):text.index("index=$(mktemp)")]
    found = collections.defaultdict(set)
    for line in subprocess.run(["bash", "-c", f"set -euo pipefail\n{things}\nthings"], capture_output=True, text=True, check=True).stdout.splitlines():
        place, _, name = line.partition(" ")
        found[place].add(name)
    return found


def places_of(where, names):
    """The places that a cell of files or a place of SPEC-MAP stands for."""
    found, folder = [], ""
    for it in re.split(r",\s*", where.strip()):
        folder = it[:it.rfind("/") + 1] if "/" in it else folder
        path = it if "/" in it else folder + it
        path = re.sub(r"^crates/", "", path).removesuffix(".antt")
        path = re.sub(r"/src/.*", "", path)
        found.append(re.sub(r"/(specs|proofs)/", "/", path))
    return [it for it in found if it in names]


def elsewhere(names):
    """Turns each code span of README.md and docs/ that is no name any more, and whose other spelling is one name alone."""
    known = {it for place in names for it in names[place] if place not in ("crate", "edit", "file")}
    by = collections.defaultdict(set)
    for it in known:
        by[plain(it)].add(it)

    def turned(m):
        fits = by.get(plain(m[1]), set())
        fits = {it for it in fits if not it.endswith("_lem")} or fits
        return f"`{min(fits)}`" if m[1] not in known and len(fits) == 1 else m[0]

    for file in ["README.md", *sorted(glob.glob("docs/*.md") + glob.glob("docs/landings/*.md"))]:
        text = open(file, encoding="utf-8").read()
        new = re.sub(r"`([A-Za-z][A-Za-z0-9_-]*(?:-[A-Za-z0-9_]+|[a-z0-9][A-Z][A-Za-z0-9_]*))`", turned, text)
        if new != text:
            open(file, "w", encoding="utf-8").write(new)


def main():
    names, left = index(), []
    told = subprocess.run([".ci/names"], capture_output=True, text=True).stdout.splitlines()
    files = {}
    for line in told:
        at = re.match(r"(\S+):(\d+): no (\S+)(?: in (.+))?$", line)
        if not at:
            continue
        file, number, name, where = at[1], int(at[2]) - 1, at[3], at[4]
        lines = files.setdefault(file, open(file, encoding="utf-8").read().split("\n"))
        places = places_of(where, names) if where else list(names)
        fits = sorted({it for place in places for it in names[place] if plain(it) == plain(name)})
        fits = [it for it in fits if not it.endswith("_lem")] or fits
        if len(fits) == 1 and f"`{name}`" in lines[number]:
            lines[number] = lines[number].replace(f"`{name}`", f"`{fits[0]}`")
        else:
            left.append(f"{line} {fits or ''}")
    for file, lines in files.items():
        open(file, "w", encoding="utf-8").write("\n".join(lines))
    elsewhere(names)
    print("\n".join(left))
    return bool(left)


if __name__ == "__main__":
    sys.exit(main())
