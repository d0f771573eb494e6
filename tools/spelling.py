#!/usr/bin/env python3
"""Brings the repository's own antt names to snake case: `rankOfBits` and `rank-of-bits` become `rank_of_bits`.

usage: tools/spelling.py [--check]      at the top of the repository, once, after port.py

Types, records and modules keep upper camel case, and what the library or the checker names keeps its spelling.
It rewrites crates/ (.rt, .antt, .edit), README.md and docs/ (not CHANGES.md, a history) in place, and prints what falls together.
--check writes nothing.
"""
import collections
import os
import re
import sys

WORD = re.compile(r"(?<![\w'₀-₉·-])[A-Za-z_][\w'₀-₉]*(?:[-→·][\w'₀-₉]+)*(?![\w'₀-₉·-])")
DECLARED = re.compile(r"^\s*(?:(?:pub|abbrev|unfoldable|private|opaque|ruleset)\s+)*([A-Za-z_][\w'₀-₉]*(?:[-→·][\w'₀-₉]+)*)\s*:(?!=)", re.M)
USE = re.compile(r"^\s*(?:ghost )?(?:pub )?use ([^\s{;]+?)(?:\.\{([^}]*)\})?(?: as \S+?)?;?$", re.M)
CAMEL = re.compile(r"^[a-z_][\w'₀-₉]*[a-z0-9][A-Z][\w'₀-₉]*$")
# Names that would fall on another: old name to new one.
APART = {"start-of": "the_start", "id-of": "the_id", "length-of": "the_length", "entries-read": "entries_agree", "all-below": "every_one_below"}
# Lemmas that have the name of their function since port.py: file to name.
LEMMAS = {
    "crates/sequences/proofs/Search.antt": "first_below",
    "crates/lattice/proofs/Vertices.antt": "first_below",
    "crates/icosahedron/proofs/Faces.antt": "entries_below",
    "crates/analytic/proofs/FaceMapping.antt": "entries_below",
    "crates/records/proofs/Cases.antt": "nan_pattern",
    "crates/grid/proofs/TrianglePass.antt": "list_length",
}


def files(top, endings):
    for folder, dirs, names in os.walk(top):
        dirs[:] = sorted(d for d in dirs if d not in ("out", ".git", "target"))
        for name in sorted(names):
            if name.endswith(endings):
                yield os.path.join(folder, name)


def read(path):
    with open(path, encoding="utf-8") as f:
        return f.read()


def snake(name):
    if name in APART:
        return APART[name]
    name = name.replace("-", "_")
    name = re.sub(r"(?<=[a-z0-9'₀-₉])([A-Z])", lambda m: "_" + m[1].lower(), name)
    return re.sub(r"_([A-Z]+)(?=_|$)", lambda m: "_" + m[1].lower(), name)


def split_comments(text, mark):
    """The pieces of the text with whether each is a comment."""
    for line in text.splitlines(keepends=True):
        at = line.find(mark)
        if at < 0:
            yield line, False
        else:
            yield line[:at], False
            yield line[at:], True


def collect(root):
    own, foreign = set(), set()
    here = set(os.listdir(os.path.join(root, "crates")))
    bound = set()
    for path in files(os.path.join(root, "crates"), (".antt", ".rt")):
        text = re.sub(r"--.*" if path.endswith(".antt") else r"//.*", "", read(path))
        for path_, names in USE.findall(text):
            parts = path_.split(".")
            if parts[0] != "Rattle" or parts[1] not in here:
                foreign |= {n.strip().split(" as ")[0] for n in names.split(",") if n.strip()}
        if path.endswith(".antt"):
            own |= set(DECLARED.findall(text))
        bound |= {w for w in WORD.findall(text) if CAMEL.match(w)}
    made = {"the-values", "the-variants", "the-ghost"}
    own = {n for n in own if not n[0].isupper() and ("-" in n or CAMEL.match(n)) and "→" not in n and "·" not in n}
    return own - foreign - made, bound - own - foreign


def existing(root):
    """The words that stand in the antt files already, without what a proof file reads of a step."""
    found = set()
    for path in files(os.path.join(root, "crates"), (".antt",)):
        text = re.sub(r"--.*", "", read(path))
        text = re.sub(r"Rattle\.[\w.+'-]+", "", text)
        found |= {w for w in WORD.findall(text) if "-" not in w and not CAMEL.match(w)}
    return found


def main(argv):
    root = os.getcwd()
    own, bound = collect(root)
    names = {n: snake(n) for n in own | bound if snake(n) != n}
    # A lemma that would have its function's name gets `_lem`.
    functions = {new for old, new in names.items() if "-" not in old} | existing(root)
    for old in [n for n in names if "-" in n and n not in APART]:
        if names[old] in functions:
            names[old] += "_lem"
    taken = collections.defaultdict(set)
    for old, new in names.items():
        taken[new].add(old)
    said = []

    def turned(text, dashes=True, camel=True):
        def one(m):
            w = m[0]
            if w in names and (dashes if "-" in w else camel):
                return names[w]
            return w
        return WORD.sub(one, text)

    changed = 0
    for path in files(os.path.join(root, "crates"), (".antt", ".rt", ".edit")):
        text = read(path)
        before = text
        lemma = LEMMAS.get(os.path.relpath(path, root))
        if lemma:
            text = WORD.sub(lambda m: m[0] + "_lem" if m[0] == lemma else m[0], text)
        antt = path.endswith(".antt") or (path.endswith(".edit") and "file: src" not in text)
        out = []
        code_words = set()
        for piece, comment in split_comments(text, "--" if antt else "//"):
            if comment:
                piece = re.sub(r"`[^`\n]+`", lambda m: turned(m[0]), turned(piece, dashes=False))
            elif antt:
                code_words |= set(WORD.findall(piece))
                piece = turned(piece)
            else:
                ghost = piece.lstrip().startswith(("ghost ", "requires", "ensures", "invariant"))
                code_words |= set(WORD.findall(piece))
                piece = turned(piece, dashes=ghost)
            out.append(piece)
        for w in sorted(code_words):
            if w in names:
                n = names[w]
                if n in code_words and n not in names:
                    said.append(f"{os.path.relpath(path, root)}: {w} falls on {n}")
                for o in taken[n]:
                    if o != w and o in code_words and o > w:
                        said.append(f"{os.path.relpath(path, root)}: {w} and {o} fall together")
        new = "".join(out)
        if new != before:
            changed += 1
            if "--check" not in argv:
                with open(path, "w", encoding="utf-8") as f:
                    f.write(new)
    for path in [os.path.join(root, "README.md"), *files(os.path.join(root, "docs"), (".md",))]:
        if os.path.basename(path).startswith(("PORT", "CHANGES")):
            continue
        text = read(path)
        new = re.sub(r"`[^`\n]+`", lambda m: turned(m[0]), text)
        if new != text:
            changed += 1
            if "--check" not in argv:
                with open(path, "w", encoding="utf-8") as f:
                    f.write(new)
    print("\n".join(said))
    print(f"spelling: {len(names)} names, {changed} files")


if __name__ == "__main__":
    main(sys.argv[1:])
