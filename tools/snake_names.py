#!/usr/bin/env python3
"""Spells the repository's own definitions and lemmas in snake case, after port.py: camel case and dashes become underscores.

usage: tools/snake_names.py        at the top of the repository; writes the files in place and says what it renamed

Types and modules keep their camel case, and so do names that Rattle makes (behind `tie.`, `goal.`, `c.`) and names that a file imports from a library.
A lemma that would get its definition's name gets `_lem`. It turns the .antt and .rt files, the must-fail edits and the code spans of the pages.
"""
import collections
import glob
import re
import subprocess

NAME = r"[^\s(){}.;,@\"«»`]+"
WORDS = r"(?:(?:pub|abbrev|unfoldable|data|record)\s+)*"
DECLARED = re.compile(rf"(?m)^ *{WORDS}({NAME})(?: [({{][^\n]*?[)}}])* :(?![:\w])")
USE = re.compile(r"(?m)\buse +([\w.·'-]+)\.\{([^}]*)\}")
TOKEN = re.compile(rf"(?<![\w'-])([a-z](?:[\w']|-(?=[\w']))*)")
MADE = {"tie", "goal", "c", "l", "g"}
OWN = re.compile(r"^Rattle\.(?!std\b|core\b)")


def read(path):
    with open(path, encoding="utf-8") as it:
        return it.read()


def snake(name):
    name = re.sub(r"\bgetD\b|\bget_d(?=_)", "get_or", name)
    words = re.sub(r"(?<=[a-z0-9])([A-Z])", lambda m: "_" + m.group(1).lower(), name)
    return words.replace("-", "_")


def renamed(sources):
    """The table: each own name that changes, and its new spelling."""
    own = set()
    for path in sources:
        if path.endswith(".antt") and not re.search(r"/proofs/.+/", path):
            own |= {m.group(1) for m in DECLARED.finditer(read(path))}
    own = {n for n in own if re.fullmatch(r"[a-z][\w'-]*", n)}
    same = collections.defaultdict(set)
    for n in own:
        same[snake(n)].add(n)
    table = {}
    for new, olds in same.items():
        # the definition first: camel case before snake case before dashes
        order = sorted(olds, key=lambda n: ("-" in n, "_" in n, n))
        for k, old in enumerate(order):
            table[old] = new if k == 0 else new + "_lem"
        if len(order) > 2:
            print("left: three names fall together:", order)
    return {old: new for old, new in table.items() if old != new}


def turn(text, table, lent, in_code=False):
    def word(m):
        old = m.group(1)
        if old not in table or old in lent:
            return old
        plain = not re.search("[-A-Z]", old)
        path = re.search(r"([\w'.-]*)\.$", text[max(0, m.start() - 200) : m.start()])
        head = path.group(1).split(".") if path else [""]
        if plain and (in_code or head[0] in MADE or head[-1] in ("proofs", "specs")) or "-" in old and head[0] in MADE:
            return old
        return table[old]

    return TOKEN.sub(word, text)


def lent_names(text):
    """What a file imports from a library, by the name it has there."""
    names = set()
    for m in USE.finditer(text):
        if not OWN.match(m.group(1)):
            names |= {i.strip().split(" as ")[-1] for i in m.group(2).split(",")}
    return names


def main():
    sources = sorted(p for kind in ("antt", "rt", "edit") for p in glob.glob(f"crates/**/*.{kind}", recursive=True) if "/out/" not in p)
    table = renamed(sources)
    lent = {p: lent_names(read(p)) for p in sources}
    for p in sources:
        text = read(p)
        met = {new for old, new in table.items() if new in lent[p] and re.search(rf"(?<![\w'-]){re.escape(old)}(?![\w'-])", text)}
        if met:
            print("left: a library's names would be met in", p, sorted(met))
        if p.endswith(".edit") and "file: src/" in text:
            continue  # Rust's own names
        new = turn(text, table, lent[p], p.endswith(".rt"))
        if new != text:
            with open(p, "w", encoding="utf-8") as it:
                it.write(new)
    for p in ["README.md", *sorted(glob.glob("docs/**/*.md", recursive=True)), *sorted(glob.glob("tests/**/*.md", recursive=True))]:
        text = read(p)
        new = re.sub(r"`[^`\n]*`", lambda m: turn(m.group(0), table, set()), text)
        if new != text:
            with open(p, "w", encoding="utf-8") as it:
                it.write(new)
    for crate in sorted(glob.glob("crates/*/")):
        subprocess.run(["rt", "fmt"], cwd=crate, check=False, capture_output=True)
    for old in sorted(table):
        print(f"{old} {table[old]}")


main()
