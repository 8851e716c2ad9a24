#!/usr/bin/env python3
"""Spells the repository's own names as today's Rattle does: words in snake case, types in camel case.

usage: python3 tools/respell.py        at the top of the repository, once, after the kit's own script

It goes by text over the .rt and .antt files of crates/, the must-fail edits, and the names between backticks in
README.md and docs/. What a file imports from the kit's library keeps its spelling, and so do the names that Rattle makes
in a function's Answers and Invariants: the names that such a file declares, and what stands right behind `c.`, `l.` or
`goal.`. Names of src/ are in snake case already. It says which names fall together, and then writes nothing.
"""

import collections
import os
import re
import sys

LETTER = r"[A-Za-z0-9_'₀-₉]"
TOKEN = re.compile(rf"(?<![A-Za-z0-9_'\-₀-₉·]){LETTER}+(?:-{LETTER}+)+(?![A-Za-z0-9_'₀-₉])")
GOALS = re.compile(r"/proofs/.+/(Answers|Invariants)\.antt$")
USE = re.compile(r"use ([^\s;{]+)\.\{([^}]*)\}")
# A dash stays between two names: the first is the outer call of the lemma's left side.
JOINED = {
    "getD-by-place": "get_or-by_place",
    "getD-by-place-from": "get_or-by_place_from",
    "getD-changed-other": "get_or-changed_other",
    "getD-changed-same": "get_or-changed_same",
    "length-by-place": "length-by_place",
    "length-by-place-from": "length-by_place_from",
    "length-changed": "length-changed",
    "length-copied": "length-copied",
    "length-loop-until": "length-loop_until",
    "length-step": "length-step",
    "length-until": "length-until",
}


def respelled(name):
    if name in JOINED:
        return JOINED[name]
    if name[0].isupper():
        return "".join(word[0].upper() + word[1:] for word in name.split("-"))
    return name.replace("-", "_")


def files(ends):
    for folder, dirs, names in os.walk("crates"):
        dirs[:] = sorted(d for d in dirs if d != "out")
        for name in sorted(names):
            if name.endswith(ends):
                yield os.path.join(folder, name)


def read(path):
    with open(path, encoding="utf-8") as f:
        return f.read()


def code(path, text):
    """The text without its comments."""
    mark = r"(?m)(^|(?<=\s))--(?=\s|$).*$" if path.endswith(".antt") else r"//.*"
    return re.sub(mark, "", text)


def of_kit(text, own):
    """What a file imports from the kit's library."""
    found = set()
    for path, items in USE.findall(text):
        steps = path.split(".")
        if not (steps[0] == "Rattle" and len(steps) > 1 and steps[1] in own):
            found.update(TOKEN.findall(items))
    return found


def main():
    own = set(os.listdir("crates"))
    texts = {path: read(path) for path in files((".rt", ".antt"))}
    kit = {path: of_kit(code(path, text), own) for path, text in texts.items()}
    names = set()
    for path, text in texts.items():
        if not GOALS.search(path):
            names.update(set(TOKEN.findall(code(path, text))) - kit[path])

    def turned(path, text):
        here = set(names)
        made = set()
        if GOALS.search(path):
            bare = code(path, text)
            here.update(re.findall(rf"\blet ({LETTER}+(?:-{LETTER}+)+) [:=]", bare))
            here.update(re.findall(rf"(?m)^ +({LETTER}+(?:-{LETTER}+)+) = ", bare))
            made.update(re.findall(rf"(?m)^(?:abbrev |pub )*({LETTER}+(?:-{LETTER}+)+)(?= |$)", bare))

        def turn(match):
            name = match.group(0)
            before = text[: match.start()]
            if name not in here or name in kit.get(path, ()) or name in made:
                return name
            if GOALS.search(path) and re.search(r"(?<![\w'.])(c|l|goal)\.$", before):
                return name
            return respelled(name)

        return TOKEN.sub(turn, text)

    together = collections.defaultdict(set)
    for path, text in texts.items():
        old = set(TOKEN.findall(code(path, text))) & names - kit[path]
        words = set(re.findall(rf"(?<!\.){LETTER}+", TOKEN.sub(" ", code(path, text)))) if path.endswith(".antt") and not GOALS.search(path) else set()
        for name in old:
            if respelled(name) in words and not re.search(rf"\.{respelled(name)}\.\{{", text):
                together[path].add(name)
    spelled = collections.defaultdict(set)
    for name in names:
        spelled[respelled(name)].add(name)
    for new, olds in spelled.items():
        if len(olds) > 1:
            together["everywhere"].update(olds)
    if together:
        for path, found in sorted(together.items()):
            print(f"fall together in {path}: {', '.join(sorted(found))}", file=sys.stderr)
        return 1

    for path, text in texts.items():
        new = turned(path, text)
        if new != text:
            with open(path, "w", encoding="utf-8") as f:
                f.write(new)
    for path in files((".edit",)):
        text = read(path)
        new = TOKEN.sub(lambda m: respelled(m.group(0)) if m.group(0) in names else m.group(0), text)
        if new != text:
            with open(path, "w", encoding="utf-8") as f:
                f.write(new)
    pages = ["README.md"] + [os.path.join("docs", page) for page in sorted(os.listdir("docs")) if page.endswith(".md")]
    for path in pages:
        text = read(path)
        one = lambda m: respelled(m.group(0)) if m.group(0) in names else m.group(0)
        new = re.sub(r"`[^`\n]*`", lambda m: TOKEN.sub(one, m.group(0)), text)
        if new != text:
            with open(path, "w", encoding="utf-8") as f:
                f.write(new)
    print(f"{len(names)} names")
    return 0


if __name__ == "__main__":
    sys.exit(main())
