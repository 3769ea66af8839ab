#!/usr/bin/env python3
"""Brings this repository's own names of specs/ and proofs/ to the spelling of today's Rattle, behind /opt/rattle/port/port.py.

usage: python3 tools/respell.py [--check]     at the top of the repository, once

Words are in snake case: varUIntBytes is var_uint_bytes, a constructor writeNull is write_null. A dash stays where it joins two names of definitions, as in
length-drop; a plain word is added with _. Types, modules and what begins with a capital keep their names, and so do names that a library outside crates/
has, the names that Rattle makes for a function's proof (proofs/F/Proof.antt: only names declared elsewhere turn there), and all Rust.
Turned are .antt files, clauses, ghost items and ghost uses of .rt files, the lines of must-fail edits, code spans of comments and of pages.
--check prints the table and names that would fall together, and writes nothing.
"""
import collections
import os
import re
import sys

TOKEN = re.compile(r"(?<![\w'-])[A-Za-z_][\w']*(?:-[\w']+)*")
USE = re.compile(r"^\s*(?:pub )?(?:ghost )?use\s+([\w.'◌+-]+?)(?:\.\{([^}]*)\})?(?:\s+as\s+[\w'-]+)?;?\s*$", re.M)
CLAUSE = re.compile(r"(?:requires|ensures)\s*\*?\s*(?:\w+\s*)?\{|ghost\s*(?:\w+\s*(?::\s*(?:(?:owns|lends)\s*)?|=\s*))?\{")
GHOST_USE = re.compile(r"^\s*(?:pub )?ghost use [^;]*;", re.M)
SPAN = re.compile(r"`[^`\n]*`")
DECLARED = re.compile(r"^\s*(?:(?:pub|abbrev|unfoldable|data|record|infixl|infixr)\s+)*([A-Za-z_][\w']*(?:-[\w']+)*(?:\s+[A-Za-z_][\w']*(?:-[\w']+)*)*)\s*:(?!:)", re.M)
ABBREV = re.compile(r"^\s*(?:pub\s+)?(?:abbrev|unfoldable)\s+(?:pub\s+)?([A-Za-z_][\w']*(?:-[\w']+)*)\s*:", re.M)


# Names that would fall together with another of their file: the definition is_sorted_struct with the constructor is_sorted, and two of examples.
NAMED = {"isSorted": "is_sorted_struct", "inOrder": "pairs_in_order", "oneByte": "of_one_byte"}
# Lemmas that would fall together with a definition or a constructor, in these files.
LEMMAS = {
    "machine/proofs/Counts.antt": {"next_place": "next_place-containers_of"},
    "read_timestamp/proofs/Whole.antt": {"no_fraction": "without_fraction"},
    "read_timestamp/proofs/timestamp/Proof.antt": {"no_fraction": "without_fraction"},
}


def words_of(word):
    """varUIntBytes -> var_uint_bytes: a run of capitals is one word with what follows, as UInt."""
    word = word.replace("UInt", "Uint")
    word = re.sub(r"([a-z0-9'])([A-Z])", r"\1_\2", word)
    return word.lower() if not word[0].isupper() else word


def paths(root, *ends):
    for folder, dirs, names in os.walk(root):
        dirs[:] = sorted(d for d in dirs if d not in ("out", ".git", "target"))
        for n in sorted(names):
            if n.endswith(ends):
                yield os.path.join(folder, n)


def read(path):
    with open(path, encoding="utf-8") as f:
        return f.read()


def code_and_comments(text):
    """Parts of an .antt text: (is comment, part)."""
    at = 0
    for m in re.finditer(r"--[^\n]*", text):
        if m.start() and text[m.start() - 1] not in " \n\t(":
            continue
        yield False, text[at:m.start()]
        yield True, m.group(0)
        at = m.end()
    yield False, text[at:]


def is_proof(path):
    return "/proofs/" in path and os.path.basename(path) in ("Proof.antt", "Answers.antt", "Invariants.antt")


def odd(word):
    return not word[0].isupper() and ("-" in word or re.search(r"[a-z0-9'][A-Z]", word) is not None)


def main(argv):
    root = os.getcwd()
    crates = os.path.join(root, "crates")
    own = set(os.listdir(crates))
    foreign, seen, declared, definitions = set(), set(), set(), set()
    for p in paths(crates, ".antt", ".rt"):
        text = read(p)
        for m in USE.finditer(text):
            parts = m.group(1).split(".")
            ours = parts[0] == "Rattle" and len(parts) > 1 and parts[1] in own
            if not ours and m.group(2):
                foreign |= {it.split(" as ")[0].strip() for it in m.group(2).split(",")}
        if not p.endswith(".antt"):
            continue
        code = "".join(part for comment, part in code_and_comments(text) if not comment)
        for m in ABBREV.finditer(code):
            definitions.add(m.group(1))
        if is_proof(p):
            continue
        for m in DECLARED.finditer(code):
            declared |= set(m.group(1).split())
        for m in re.finditer(r"\.?" + TOKEN.pattern, code):
            if not m.group(0).startswith("."):
                seen.add(m.group(0))
        # constructors, several in a line, and the variables of a telescope
        for m in re.finditer(r"[({]\s*((?:[A-Za-z_][\w'-]*\s+)+):", code):
            declared |= set(m.group(1).split())
    plain = {words_of(d) for d in definitions | foreign if "-" not in d and len(d) > 3}
    table = {}
    for w in sorted(seen | declared):
        if not odd(w) or w in foreign:
            continue
        if w in NAMED:
            table[w] = NAMED[w]
            continue
        parts = [words_of(x) for x in w.split("-")]
        new = parts[0]
        for a, b in zip(parts, parts[1:]):
            new += ("-" if a in plain and b in plain else "_") + b
        if new != w:
            table[w] = new
    # names that would fall together: with a name that stands, or with one another
    stands = collections.Counter()
    for p in paths(crates, ".antt"):
        code = "".join(part for comment, part in code_and_comments(read(p)) if not comment)
        stands.update(set(TOKEN.findall(code)))
    together = {}
    for w in list(table):
        new = table[w]
        rivals = [x for x in table if table[x] == new and x != w]
        if new in stands or new in foreign or rivals:
            other = "-".join(words_of(x) for x in w.split("-"))
            together[w] = (new, rivals, other)
            if "-" in w and other != w and other not in stands:
                table[w] = other
            elif "-" in w:
                del table[w]
            else:
                together[w] = (new, rivals, None)
    if "--check" in argv:
        for w in sorted(table):
            print(w, table[w])
        print("--- in one file")
        for p in paths(crates, ".antt", ".rt"):
            text = "".join(part for comment, part in code_and_comments(read(p)) if not comment)
            here = set(TOKEN.findall(text))
            for w in sorted(here):
                if w in table and table[w] in here and table[w] not in LEMMAS.get(os.path.relpath(p, crates), {}):
                    lines = [l.strip()[:110] for l in text.splitlines() if re.search(r"(?<![\w'-])" + table[w] + r"(?![\w'-])", l)]
                    print(os.path.relpath(p, crates), w, "|", " || ".join(lines[:2]))
        print("--- together")
        for w, t in sorted(together.items()):
            print(w, t, table.get(w))
        return 0

    def turned(text, lemmas={}):
        return TOKEN.sub(lambda m: lemmas.get(m.group(0), table.get(m.group(0), m.group(0))), text)

    def spans(text):
        return SPAN.sub(lambda m: turned(m.group(0)), text)

    for p in paths(crates, ".antt"):
        text = read(p)
        lemmas = LEMMAS.get(os.path.relpath(p, crates), {})
        new = "".join(spans(part) if comment else turned(part, lemmas) for comment, part in code_and_comments(text))
        if new != text:
            open(p, "w", encoding="utf-8").write(new)
    for p in paths(crates, ".rt"):
        text = read(p)
        marks = [(m.start(), m.end()) for m in GHOST_USE.finditer(text)]
        for m in CLAUSE.finditer(text):
            depth, at = 1, m.end()
            while depth and at < len(text):
                depth += {"{": 1, "}": -1}.get(text[at], 0)
                at += 1
            marks.append((m.end(), at))
        marks.sort()
        out, at = [], 0
        for a, b in marks:
            if a < at:
                continue
            out.append(re.sub(r"//[^\n]*", lambda m: spans(m.group(0)), text[at:a]))
            out.append(turned(text[a:b]))
            at = b
        out.append(re.sub(r"//[^\n]*", lambda m: spans(m.group(0)), text[at:]))
        new = "".join(out)
        if new != text:
            open(p, "w", encoding="utf-8").write(new)
    for p in paths(crates, ".edit"):
        text = read(p)
        new = turned(text)
        if new != text:
            open(p, "w", encoding="utf-8").write(new)
    for p in list(paths(os.path.join(root, "docs"), ".md", ".txt")) + [os.path.join(root, "README.md")]:
        text = read(p)
        new = turned(text) if p.endswith("wrong-programs.txt") else spans(text)
        if new != text:
            open(p, "w", encoding="utf-8").write(new)
    return 0


if __name__ == "__main__":
    raise SystemExit(main(sys.argv[1:]))
