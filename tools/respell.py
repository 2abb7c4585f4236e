#!/usr/bin/env python3
"""Brings the repository's own definitions and lemmas to today's spelling, once, after the kit's port.py.

    python3 tools/respell.py        at the top of the repository

A name that begins with a small letter is put in snake case, one that begins with a capital in camel case; only the
lemmas below get names of their own. Names are those that specs/ and proofs/ declare or bind. Names of the library and
names that the check makes (goals, steps) stay as they are, and so do functions, strings, inputs and outputs. Where two
names would fall together, nothing is written. Run again, it changes nothing.
"""
import pathlib
import re
import sys

# Lemmas about the library's `nth`, which is now `slice_get`, and lemmas that are named by the left side of their
# equation, the outer call first: these have a hyphen between the calls.
LEMMAS = {
    "nth_take": "slice_get-take",
    "nth_append_right": "slice_get-append_right",
    "nth_some": "slice_get_some",
    "nth_none": "slice_get_none",
    "nth_there": "slice_get_there",
    "nth_push": "slice_get_push",
    "nth_set_here": "slice_get-set_here",
    "nth_set_there": "slice_get-set_there",
    "then_append": "then-append",
    "here_append": "here-append",
}

WORD = re.compile(r"[^\s(){}\[\],;.:=λ→×≡∷⟦⟧]+")
IMPORT = re.compile(r"^\s*(?:pub )?(?:ghost )?use\s+(\S+?)\.\{([^}]*)\}", re.M)


def code_of(text):
    """The text without comments and strings."""
    return re.sub(r'"[^"\n]*"', " ", re.sub(r"--(?= ).*|(?<!\S)--$", " ", text))


def imported(text):
    """What a file imports from elsewhere than this repository's specs/ and lemma files."""
    found = set()
    for path, names in IMPORT.findall(text):
        own = re.match(r"Rattle\.(\w+)\.(specs|proofs)\.", path)
        made = path.endswith((".Goals", ".Given")) or ".declared." in path
        if not own or own.group(1) in ("std", "core") or made:
            found |= {n.split(" as ")[0].strip() for n in names.split(",")}
    return found


def respelled(name):
    """The name in today's spelling."""
    if name.replace("-", "_") in LEMMAS:
        return LEMMAS[name.replace("-", "_")]
    if name in LEMMAS.values():
        return name
    if name[0].isupper():
        return "".join(part[0].upper() + part[1:] for part in name.split("-"))
    return name.replace("-", "_")


def main():
    files = sorted(pathlib.Path("crates").rglob("*.antt"))
    files = [f for f in files if "out" not in f.parts]
    lemma_files = [f for f in files if f.parent.name in ("specs", "proofs")]
    words, foreign = set(), set()
    for f in files:
        foreign |= imported(f.read_text())
    for f in lemma_files:
        words |= {w for w in WORD.findall(code_of(f.read_text()))}
    names = {w for w in words if w in LEMMAS or re.fullmatch(r"[A-Za-z]\w*'?(-\w+'?)+", w)} - foreign
    table = {name: respelled(name) for name in sorted(names) if respelled(name) != name}

    taken = {}
    for old, new in table.items():
        taken.setdefault(new, []).append(old)
    clashes = [f"{olds} -> {new}" for new, olds in taken.items() if len(olds) > 1 or new in words]
    if clashes:
        sys.exit("names that fall together:\n  " + "\n  ".join(clashes))

    one = re.compile(r"[A-Za-z]\w*'?(?:-\w+'?)*")
    changed = 0
    sources = [f for f in pathlib.Path("crates").rglob("*") if "out" not in f.parts]
    for f in sorted(sources):
        if f.suffix not in (".antt", ".rt", ".edit"):
            continue
        text = f.read_text()
        parts = re.split(r'("[^"\n]*")', text) if f.suffix == ".rt" else [text]
        for i, part in enumerate(parts):
            if not part.startswith('"'):
                parts[i] = one.sub(lambda m: table.get(m.group(0), m.group(0)), part)
        new = "".join(parts)
        if new != text:
            f.write_text(new)
            changed += 1
    print(f"respell: {len(table)} names, {changed} files")


main()
