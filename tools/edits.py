#!/usr/bin/env python3
"""Says which must-fail edits do not fit the text: each `old:` stands once in its file, after the pairs before it.

usage: tools/edits.py [CRATE ..]     at the top of the repository; of these crates, or of all
       tools/edits.py --apply EDIT FOLDER     applies the edit to the crate in FOLDER

Prints each edit that does not fit and why; the exit status is 1 where there is one.
"""
import os
import sys


def edited(edit, crate):
    """The texts that the edit makes of the crate's files, and why it cannot be applied; None where it can."""
    path, old, pairs, texts, was = None, None, 0, {}, {}
    with open(edit, encoding="utf-8") as f:
        lines = f.read().split("\n")
    for line in lines:
        if line.startswith("file: "):
            path = line[len("file: "):].strip()
        elif line.startswith("old: "):
            old = line[len("old: "):]
        elif line.startswith("new:"):
            new = line[len("new:"):].removeprefix(" ")
            if not path or not old:
                return texts, "a new: text with no file: or old: before it"
            if path not in texts:
                try:
                    with open(os.path.join(crate, path), encoding="utf-8") as f:
                        texts[path] = was[path] = f.read()
                except FileNotFoundError:
                    return texts, f"no file {path}"
            found = texts[path].count(old)
            if found != 1:
                return texts, f"{found} times in {path}: {old}"
            texts[path] = texts[path].replace(old, new)
            old, pairs = None, pairs + 1
        elif line.strip() and not line.startswith(("#", "--", "//")):
            return texts, f"a line that is not read: {line}"
    if not pairs:
        return texts, "no old: and new: pair"
    return texts, "it changes nothing" if texts == was else None


def apply(edit, crate):
    texts, why = edited(edit, crate)
    if why:
        print(why)
        sys.exit(1)
    for path, text in texts.items():
        with open(os.path.join(crate, path), "w", encoding="utf-8") as f:
            f.write(text)


def main():
    if sys.argv[1:2] == ["--apply"]:
        return apply(*sys.argv[2:])
    tried = bad = 0
    for name in sys.argv[1:] or sorted(os.listdir("crates")):
        crate = os.path.join("crates", name)
        for folder in ("must-fail", "must-fail-long"):
            at = os.path.join(crate, folder)
            for edit in sorted(os.listdir(at)) if os.path.isdir(at) else []:
                if not edit.endswith(".edit"):
                    continue
                tried += 1
                why = edited(os.path.join(at, edit), crate)[1]
                if why:
                    bad += 1
                    print(f"{at}/{edit}: {why}")
    print(f"{tried} edits, {bad} that do not fit")
    sys.exit(1 if bad else 0)


if __name__ == "__main__":
    main()
