#!/usr/bin/env python3
"""Spells the repository's own definitions, lemmas, fields and constructors in snake case, its types in camel case.

usage: python3 tools/respell.py            at the top of the repository, once, after the kit's port.py

What is declared in crates/*/specs and crates/*/proofs decides: a name of two words, as `largestTo` or `sum-mono`, becomes
`largest_to` and `sum_mono`; a type with a dash, as `Ends-done`, becomes `EndsDone`. Two names that fall together are told
apart by LEMMAS, in which the lemma gets another name. Names that a file takes from a library stay in that file, and so do
names behind a head of HEADS, which the toolchain makes, and what a function's Proof.antt declares for itself. Functions of src/, strings and
outputs are not touched. Must-fail edits and code spans of the pages follow by spelling alone. A second run changes nothing.
"""
import collections
import glob
import os
import re
import sys

WORD = re.compile(r'[^\s(){}.;,@"«»]+')
NAME = r'[^\s(){}.;,@"«»:]+'
DECLARED = re.compile(
    r"(?m)^ *(?:(?:abbrev|unfoldable|pub|data|record|opaque) )*(%s)(?: \{[^{}\n]*\}| \([^()\n]*\))* :(?= |$)" % NAME)
LATER = re.compile(r"(?m)^ *(?:pub )?data (%s)|^ *\| (%s)" % (NAME, NAME))
USE = re.compile(r"\buse ([^\s;{]+)\.\{([^;}]*)\}")
HEADS = {"tie", "goal", "Need", "lts", "the"}
# Lemmas whose plain spelling is that of a definition: each gets the ending of the kit's style for such a lemma.
LEMMAS = {
    name: re.sub("[A-Z]", lambda m: "_" + m[0].lower(), name).replace("-", "_") + "_lem"
    for name in (
        "end-for past-subsystems job-total active-total budget-total budget-at response-with first-largest row-for report-of"
        " row-without row-with judged-own task-read subsystem-read subsystem-bytes length-taskValue refusedFile-words"
        " refusedTable-words verdict-words head-count judged-task row-accepted"
    ).split()
}


def read(path):
    with open(path, encoding="utf-8") as f:
        return f.read()


def write(path, text):
    with open(path, "w", encoding="utf-8") as f:
        f.write(text)


def spelled(name):
    if name in LEMMAS:
        return LEMMAS[name]
    if name[0].isupper():
        return re.sub(r"-(\w)", lambda m: m[1].upper(), name)
    return re.sub(r"(?<=[a-z0-9])[A-Z]", lambda m: "_" + m[0].lower(), name).replace("-", "_")


def of_function(path):
    return re.search(r"/proofs/[^/]+/.*\.antt$", path) is not None


def declared_in(text):
    found = set(DECLARED.findall(text))
    for a, b in LATER.findall(text):
        found.add(a or b)
    return {n for n in found if n not in ("let", "where")}


def table(crates):
    names = set()
    for path in sorted(glob.glob("crates/*/specs/**/*.antt", recursive=True) + glob.glob("crates/*/proofs/*.antt")):
        names |= declared_in(read(path))
    return {n: spelled(n) for n in names if spelled(n) != n}


def foreign(text, crates):
    """The names that a file takes from a library."""
    found = set()
    for module, items in USE.findall(text):
        steps = module.split(".")
        if steps[0] == "Rattle" and len(steps) > 1 and steps[1] in crates:
            continue
        found |= {w for item in items.split(",") for w in item.split()}
    return found


def comments(text, mark):
    """Pieces of the text: (is it a comment or a string, piece)."""
    at = 0
    for m in re.finditer(r'"(?:[^"\\\n]|\\.)*"|(?<![^\s(){}.;,])' + mark + r"[^\n]*", text):
        yield False, text[at : m.start()]
        yield True, m[0]
        at = m.end()
    yield False, text[at:]


def turned(piece, names, quiet):
    def word(m):
        w = m[0]
        if w not in names or quiet and "-" in w:
            return w
        before = re.search(r"([^\s(){}.;,@\"]+)\.$", piece[: m.start()])
        if before and before[1] in HEADS:
            return w
        return names[w]

    return WORD.sub(word, piece)


def turn(path, names, crates, mark):
    text = read(path)
    kept = foreign(text, crates)
    if of_function(path):
        kept |= declared_in(text)
    mine = {k: v for k, v in names.items() if k not in kept}
    new = "".join(turned(piece, mine, quiet) for quiet, piece in comments(text, mark))
    if new != text:
        write(path, new)


def turn_edit(path, known):
    """An edit was written in the older spelling whole: names, paths and projections."""

    def line(text):
        if not text.startswith(("old: ", "new: ")):
            return text
        text = re.sub(r"Rattle·(\w+)·specs\.specs", r"Rattle.\1.specs", text)
        text = re.sub(r"\((\w+) \.([\w-]+)\)", r"\1.\2", text)
        return WORD.sub(lambda m: spelled(m[0]) if spelled(m[0]) in known and spelled(m[0]) != m[0] else m[0], text)

    text = read(path)
    new = "\n".join(line(l) for l in text.split("\n"))
    if new != text:
        write(path, new)


def turn_page(path, known):
    def span(m):
        return "`" + WORD.sub(lambda w: spelled(w[0]) if spelled(w[0]) in known else w[0], m[0][1:-1]) + "`"

    text = read(path)
    new = re.sub(r"`[^`\n]+`", span, text)
    if new != text:
        write(path, new)


def main():
    crates = {os.path.basename(p) for p in glob.glob("crates/*")}
    names = table(crates)
    met = collections.defaultdict(set)
    for path in glob.glob("crates/*/specs/**/*.antt", recursive=True) + glob.glob("crates/*/proofs/*.antt"):
        for n in declared_in(read(path)):
            met[names.get(n, n)].add(n)
    for new, olds in sorted(met.items()):
        if len(olds) > 1:
            print(f"falls together: {new}: {' '.join(sorted(olds))}")
    known = set(met)
    for path in sorted(glob.glob("crates/*/specs/**/*.antt", recursive=True) + glob.glob("crates/*/proofs/**/*.antt", recursive=True)):
        turn(path, names, crates, "--")
    for path in sorted(glob.glob("crates/*/src/**/*.rt", recursive=True)):
        turn(path, names, crates, "//")
    for path in sorted(glob.glob("crates/*/must-fail/*.edit")):
        turn_edit(path, known)
    for path in sorted(glob.glob("docs/*.md")):
        turn_page(path, known)
    print(f"{len(names)} names")


if __name__ == "__main__":
    sys.exit(main())
