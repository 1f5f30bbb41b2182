#!/usr/bin/env python3
"""Spells this repository's own definitions and lemmas in snake case: `head-count-of` becomes `head_count_of`.

usage: tools/respell.py [--check]      at the top of the repository, once, after the port of the library's names

Turned are names that specs/ and proofs/ declare with a dash: definitions, lemmas, fields, constructors and aliases. They are turned in .antt files, in
the clauses and ghost lines of .rt files, in must-fail edits, and between back quotes in pages. A name that a file imports from the toolchain's library
stays there as it is; so do functions of src/, strings and prose. Two names that would fall together are named, and then nothing is written.
"""

import os
import re
import sys

TOKEN = r"[^\s(){}\[\],;:.\"`λ←|↦]+"
WORD = re.compile(r"[\w'₀-₉ᴰ⊎ℕℤ≡≤<◌]+(?:-[\w'₀-₉ᴰ⊎ℕℤ≡≤<◌]+)+")
DECLARED = re.compile(r"^\s*(?:(?:abbrev|unfoldable|pub|record|data|ruleset|mutual)\s+)*((?:[\w'₀-₉-]+\s+)*[\w'₀-₉-]+)\s+:(?:\s|$)")
ALIAS = re.compile(r"\bas\s+([\w'-]+)")
LIBRARY = re.compile(r"^\s*(?:pub )?(?:ghost )?use\s+((?:mathlib|Prim|native|borrow|lib|Rattle\.(?:std|core|io|libc|os|bytes|num_traits))\b[^\s{]*)(?:\.\{([^}]*)\})?", re.M)


def files(root, endings):
    for folder, dirs, names in os.walk(root):
        dirs[:] = sorted(d for d in dirs if d not in ("out", ".git", "target"))
        for name in sorted(names):
            if name.endswith(endings):
                yield os.path.join(folder, name)


def read(path):
    with open(path, encoding="utf-8") as f:
        return f.read()


def code_lines(text):
    """The lines without what stands behind a comment mark."""
    return [re.sub(r"(^|\s)--(\s.*|)$", "", line) for line in text.split("\n")]


def of_function(path):
    """Is it the proof of one function? Its declarations answer goals of the checker's and are not this repository's names."""
    parts = path.split(os.sep)
    return "proofs" in parts and parts.index("proofs") < len(parts) - 2


def library_names(text):
    names = set()
    for m in LIBRARY.finditer(text):
        for name in (m[2] or "").split(","):
            name = name.strip().split(" as ")[0].strip()
            if name:
                names.add(name)
    return names


def declared():
    dashed, plain = {}, {}
    for path in files("crates", ".antt"):
        if of_function(path):
            continue
        text = read(path)
        for line in code_lines(text):
            m = DECLARED.match(line)
            if m and not re.match(r"\s*(let|in|use|module)\b", line):
                for name in m[1].split():
                    (dashed if "-" in name else plain).setdefault(name, set()).add(path)
            for name in ALIAS.findall(line):
                (dashed if "-" in name else plain).setdefault(name, set()).add(path)
    for path in files("crates", ".rt"):
        for name in re.findall(r"ghost use .* as ([\w'-]+);", read(path)):
            (dashed if "-" in name else plain).setdefault(name, set()).add(path)
    return dashed, plain


def turned(text, names, kept=frozenset()):
    return WORD.sub(lambda m: m[0].replace("-", "_") if m[0] in names and m[0] not in kept else m[0], text)


def turned_antt(text, names):
    kept = library_names(text)
    out = []
    for line in text.split("\n"):
        if re.match(r"\s*use\s", line):
            m = LIBRARY.match(line)
            out.append(line if m else turned(line, names))
            continue
        cut = re.search(r"(^|\s)--(\s|$)", line)
        code, note = (line[: cut.start()], line[cut.start():]) if cut else (line, "")
        out.append(turned(code, names, kept) + re.sub(r"`[^`]*`", lambda m: turned(m[0], names), note))
    return "\n".join(out)


def turned_rt(text, names):
    out = []
    for line in text.split("\n"):
        if LIBRARY.match(line):
            out.append(line)
            continue
        cut = re.search(r"(^|\s)//", line)
        code, note = (line[: cut.start()], line[cut.start():]) if cut else (line, "")
        parts = re.split(r'("(?:[^"\\]|\\.)*")', code)
        parts[::2] = [turned(p, names) for p in parts[::2]]
        out.append("".join(parts) + re.sub(r"`[^`]*`", lambda m: turned(m[0], names), note))
    return "\n".join(out)


def turned_edit(text, names):
    return "\n".join(turned(line, names) if re.match(r"(old|new):", line) else line for line in text.split("\n"))


def turned_page(text, names):
    return re.sub(r"`[^`\n]*`", lambda m: turned(m[0], names), text)


def main(argv):
    dashed, plain = declared()
    names = set(dashed)
    together = {}
    for name in names:
        together.setdefault(name.replace("-", "_"), set()).add(name)
    bad = 0
    for new, olds in sorted(together.items()):
        if len(olds) > 1 or new in plain:
            print(f"fall together: {new}: {' '.join(sorted(olds))} {'and ' + new + ' ' + ' '.join(sorted(plain[new])) if new in plain else ''} {' '.join(sorted(set().union(*(dashed[o] for o in olds))))}")
            bad += 1
    for path in files("crates", (".antt", ".rt")):
        library = library_names(read(path))
        for name in sorted(names & library):
            print(f"of the library too: {path}: {name} {' '.join(sorted(dashed[name]))}")
        words = {w.replace("-", "_") for w in WORD.findall(read(path)) if w in names}
        for name in sorted(words & library):
            print(f"falls together with the library's: {path}: {name}")
    print(f"{len(names)} names")
    if "--check" in argv:
        return 0
    if bad:
        return 1
    turns = [(".antt", turned_antt, ["crates"]), (".rt", turned_rt, ["crates"]), (".edit", turned_edit, ["crates"]), (".md", turned_page, ["docs", "README.md", "tests"])]
    for ending, turn, roots in turns:
        for root in roots:
            for path in [root] if os.path.isfile(root) else files(root, ending):
                old = read(path)
                new = turn(old, names)
                if new != old:
                    with open(path, "w", encoding="utf-8") as f:
                        f.write(new)
    return 0


if __name__ == "__main__":
    raise SystemExit(main(sys.argv[1:]))
