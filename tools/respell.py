#!/usr/bin/env python3
"""Respells the repository's own antt names: words in snake case, types in upper camel case.

usage: respell.py [--check]    at the top of the repository

A name is the repository's own if a file of crates/*/specs or crates/*/proofs declares or binds it, and no file imports it from a library of the toolchain.
`tree-of` becomes `tree_of`, and `Own-place-law` becomes `OwnPlaceLaw`. Names that the prover makes from the code, as `loop-d-preserved`, are no names of the
repository's own and stay. --check only says which names would fall together.
"""
import os
import re
import sys

WORD = re.compile(r'[^\s(){}.;,@"«»\[\]|`:]+')
SIGNATURE = re.compile(r"^[ \t]*(?:(?:pub|abbrev|unfoldable|data|record|module|where|let|mutual)[ \t]+)*((?:[^\s(){}.;,@\"«»:λ]+[ \t]+)+):[ \t]", re.M)
NAMED = re.compile(r"^[ \t]*(?:pub[ \t]+)?(?:data|record|module|where module)[ \t]+([^\s(){}.;,@\"«»:]+)", re.M)
BINDER = re.compile(r"[({]([^(){}.;,@\"«»:→≡=]+?)[ \t]+:[ \t]")
LAMBDA = re.compile(r"λ ([^.λ]*?)\.")
LET = re.compile(r"\blet[ \t]+([^\s(){}.;,@\"«»:=]+)")
HEAD = re.compile(r"^[ \t]*([^\s(){}.;,@\"«»:]+)(?:[ \t][^:\n]*)?[ \t]=(?=[ \t\n])", re.M)
IMPORT = re.compile(r"use[ \t]+(Rattle\.[\w.']+|[\w.']+)\.\{([^}]*)\}")
PROOFS_OF_CODE = ("/Proof.antt",)


def files(top):
    for folder, folders, names in os.walk(top):
        folders[:] = sorted(f for f in folders if f not in ("out", ".git", "target"))
        for name in sorted(names):
            yield os.path.join(folder, name)


def read(path):
    with open(path, encoding="utf-8") as f:
        return f.read()


def without_comments(text):
    return re.sub(r"(?m)(^|\s)--[^\n]*", r"\1", text)


def antt_files():
    for path in files("crates"):
        if path.endswith(".antt") and not path.endswith(PROOFS_OF_CODE):
            yield path


def own_crates():
    return set(os.listdir("crates"))


def libraries_names(crates):
    """Names that some file imports from a library of the toolchain."""
    found = set()
    for path in files("crates"):
        if path.endswith((".antt", ".rt")):
            for module, items in IMPORT.findall(read(path)):
                parts = module.split(".")
                if parts[0] != "Rattle" or parts[1] not in crates:
                    for item in items.split(","):
                        words = item.split()
                        if words:
                            found.add(words[0])
                            found.add(words[-1])
    return found


def declared():
    """The words of the files of definitions and lemmas, and what proofs of functions bind."""
    found = set()
    for path in antt_files():
        text = without_comments(read(path))
        found.update(WORD.findall(text))
        for pattern in (SIGNATURE, BINDER, LAMBDA):
            for names in pattern.findall(text):
                found.update(WORD.findall(names))
        for pattern in (NAMED, LET, HEAD):
            found.update(pattern.findall(text))
    for path in files("crates"):
        if path.endswith(PROOFS_OF_CODE):
            text = without_comments(read(path))
            for pattern in (LAMBDA, LET):
                for names in pattern.findall(text):
                    found.update(WORD.findall(names))
    return found


def respelled(name):
    if "-" not in name:
        return name
    parts = name.split("-")
    if any(not p for p in parts):
        return name
    if parts[0][0].isupper():
        return "".join(p[0].upper() + p[1:] for p in parts)
    return "_".join(parts)


def is_name(word):
    return "-" in word and re.fullmatch(r"[\w'₀-₉′″‴⁗-]+", word) and all(word.split("-")) and not re.fullmatch(r"[\d-]+", word)


def turned(text, table):
    """Each whole word of the table, but not behind `tie.`, where a proof that walks the code names a point of it."""

    def one(m):
        word = m[0]
        if word not in table or text[max(0, m.start() - 4):m.start()] == "tie.":
            return word
        return table[word]

    return WORD.sub(one, text)


def prose_turned(text, table):
    """In English: what stands between backticks, and the names of types and laws; `one-pass` may be a word of English."""
    types = {old: new for old, new in table.items() if old[0].isupper()}
    parts = re.split(r"(`[^`\n]*`)", text)
    return "".join(turned(part, table if k % 2 else types) for k, part in enumerate(parts))


def antt_turned(text, table):
    parts = re.split(r"((?:(?<=\s)|^)--[^\n]*)", text, flags=re.M)
    return "".join(prose_turned(part, table) if k % 2 else turned(part, table) for k, part in enumerate(parts))


def rt_turned(text, table):
    """In a source file: comments, contracts and imports, but no string."""
    parts = re.split(r'(b?"(?:\\.|[^"\\])*"|//[^\n]*)', text)
    return "".join(turned(part, table) if not k % 2 else prose_turned(part, table) if part.startswith("//") else part for k, part in enumerate(parts))


def edit_turned(text, table):
    """An edit: its lines of text as code, the others as English."""
    return "\n".join((turned if re.match(r"(file|old|new):", line) else prose_turned)(line, table) for line in text.split("\n"))


def main():
    check = "--check" in sys.argv
    crates = own_crates()
    library = libraries_names(crates)
    names = {n for n in declared() if is_name(n)}
    table = {n: respelled(n) for n in sorted(names - library)}
    said = []
    seen = {}
    for old, new in table.items():
        seen.setdefault(new, []).append(old)
    for new, olds in seen.items():
        if len(olds) > 1:
            said.append(f"falls together: {new} {olds}")
    for path in files("crates"):
        if path.endswith((".antt", ".rt")):
            words = set(WORD.findall(without_comments(read(path)) if path.endswith(".antt") else re.sub(r"//[^\n]*", "", read(path))))
            both = {new for old, new in table.items() if old in words and new in words}
            for new in sorted(both):
                said.append(f"already there in {path}: {new}")
    for line in said:
        print(line)
    print(f"{len(table)} names")
    if check:
        return
    for path in files("."):
        ending = os.path.splitext(path)[1]
        turner = {".antt": antt_turned, ".rt": rt_turned, ".edit": edit_turned, ".md": prose_turned}.get(ending)
        if turner is None or path in ("./docs/PORT.md", "./CHANGELOG.md"):
            continue
        text = read(path)
        new = turner(text, table)
        if new != text:
            with open(path, "w", encoding="utf-8") as f:
                f.write(new)


main()
