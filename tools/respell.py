#!/usr/bin/env python3
"""respell.py: gives the repository's own definitions and lemmas the spelling of today's Rattle.

Run once at the top of the checkout, after the kit's port.py. A word is in snake case; a dash stays only between two names of definitions, as in
`length-put`; a fact or a type keeps its capital. Names of Rust items, strings, inputs and outputs stay. Prints what fell together and was kept apart.
"""
import collections
import glob
import re
import sys

DECL = re.compile(r"^(\s*)((?:(?:abbrev|unfoldable|pub|data|record|ruleset)\s+)*)([^\s:(){},;]+)((?:\s+[({][^:]*:.*?[)}])*)\s*(:|where|=)?\s")
TOKEN = re.compile(r"[^\s(){}\[\],;.:\"`⟨⟩⟦⟧⌜⌝]+")
KEYWORDS = {"use", "pub", "where", "module", "let", "in", "open", "elim", "record", "data", "abbrev", "unfolding", "unfoldable", "mod"}
# names of the libraries that lemmas are named after
NAMES = set("length take drop set get_or append nil cons map reverse replicate le lt eq leb ltb eqb mem filter put stretch padded keep count sum".split())
# where the rule would make two names one, or a word that antt has
APART = {}


def files(*kinds):
    for kind in kinds:
        yield from sorted(glob.glob(kind, recursive=True))


ANTT = list(files("crates/*/specs/**/*.antt", "crates/*/proofs/**/*.antt"))
RUST = list(files("crates/*/src/**/*.rt"))


def code(line):
    return line.split(" --")[0] if not line.lstrip().startswith("--") else ""


def declared():
    found = collections.defaultdict(set)
    for path in ANTT:
        in_record = False
        for line in open(path, encoding="utf-8"):
            in_record = in_record and line[:1] == " "
            m = DECL.match(code(line) + " ")
            if not m:
                continue
            words, name = m.group(2).split(), m.group(3)
            in_record = in_record or "record" in words and not m.group(1)
            if name in KEYWORDS or not re.match(r"^[^\W\d_]", name):
                continue
            if m.group(5) == ":" or "data" in words or "record" in words or "ruleset" in words:
                found[name].add("definition" if {"abbrev", "unfoldable", "data", "record"} & set(words) and not m.group(1) else "lemma")
                if m.group(1):
                    found[name].add("field")
                found[name].add("of a record" if in_record and "record" not in words else "by itself")
    return found


def piece(p):
    p = re.sub(r"getD", "get_or", p)
    p = re.sub(r"^get_d(?=_|$)", "get_or", p)
    if re.match(r"^[A-Z]", p):
        return p
    return re.sub(r"(?<=[a-z0-9])([A-Z]+)", lambda m: "_" + m.group(1).lower(), p)


def spelling(found):
    names = set(NAMES)
    for name, kinds in found.items():
        if "definition" in kinds and "-" not in name and piece(name) != name:
            names.add(piece(name))
    defined = {piece(n) for n, kinds in found.items() if "definition" in kinds}
    out = {}
    for name, kinds in found.items():
        pieces = [piece(p) for p in name.split("-") if p]
        new = pieces[0]
        for i in range(1, len(pieces)):
            left = "_".join(pieces[:i]) in names or pieces[i - 1] in names or pieces[i - 1][:1].isupper()
            right = "_".join(pieces[i:]) in names or pieces[i] in names or pieces[i][:1].isupper()
            new += ("-" if left and right and pieces[-1] != "spec" else "_") + pieces[i]
        # a lemma that would have its function's name; a record's field may have it
        if "-" in name and new in defined and "by itself" in kinds:
            new += "_lem"
        new = APART.get(name, new)
        if new != name:
            out[name] = new
    return out


# a name of a path, or a step that Rattle names
STEP = re.compile(r"[.·][^\s(){}\[\],;.:\"`⟨⟩⟦⟧⌜⌝]+")


def together(names, fields):
    """The places where two names of a file would become one; a Rust item, and a record's field, may be called as a definition is."""
    said = []
    for path in ANTT + RUST:
        seen = collections.defaultdict(set)
        for line in open(path, encoding="utf-8"):
            for m in TOKEN.finditer(STEP.sub(" ", code(line)) if path.endswith(".antt") else code(line)):
                seen[names.get(m.group(0), m.group(0))].add(m.group(0))
        for new, olds in seen.items():
            if len(olds - fields) > 1:
                said.append((new, sorted(olds), path))
    return said


# names that a file takes from a library of the kit
TAKEN = re.compile(r"^[ \t]*(?:ghost |pub )*use (?!Rattle\.(?:%s)[.;])[^{\n]*\{([^}\n]*)\}" % "|".join(sorted(p.split("/")[1] for p in glob.glob("crates/*/"))), re.M)


def taken(text):
    return {t for m in TAKEN.finditer(text) for t in TOKEN.findall(m.group(1))}


def turn(names, fields, line, path):
    def put(m):
        behind = m.start() and m.string[m.start() - 1] == "."
        if behind and "/proofs/" in path and "-" in m.group(0) and m.group(0) not in fields:
            return m.group(0)
        return names.get(m.group(0), m.group(0))

    rust = path.endswith(".rt")
    mark = "//" if rust else "--"
    at = line.find(mark) if line.lstrip().startswith(mark) else line.find(" " + mark)
    body, rest = (line, "") if at < 0 else (line[:at], line[at:])
    rest = re.sub(r"`[^`]*`", lambda m: TOKEN.sub(put, m.group(0)), rest)
    if rust and '"' in body:
        return body + rest
    return TOKEN.sub(put, body) + rest


def main():
    found = declared()
    names = spelling(found)
    fields = {n for n, kinds in found.items() if "field" in kinds}
    said = together(names, {n for n, kinds in found.items() if "of a record" in kinds and "by itself" not in kinds})
    for new, olds, path in said:
        print("together:", new, olds, path)
    if "--list" in sys.argv:
        for old in sorted(names):
            print(old, names[old])
        return
    said = [s for s in said if s[2].endswith(".antt") and set(s[1]) != {"fillOne", "fill_one"}]
    if said:
        raise SystemExit("names fall together: set them apart in APART")
    for path in ANTT + RUST:
        text = open(path, encoding="utf-8").read()
        kept = taken(text)
        here = {old: new for old, new in names.items() if old not in kept}
        new = "\n".join(turn(here, fields, line, path) for line in text.split("\n"))
        if new != text:
            open(path, "w", encoding="utf-8").write(new)
    print(len(names), "names respelled")


main()
