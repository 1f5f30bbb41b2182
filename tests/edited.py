#!/usr/bin/env python3
"""Makes a copy of the repository in which a must-fail edit stands, for tests/edits.sh.

usage: tests/edited.py copy ROOT CRATE COPY            what a check reads of every crate, with what earlier checks kept of those that CRATE uses and of it
       tests/edited.py apply EDIT COPY/crates/CRATE    the edit's pairs; COPY/touched names the files that they changed
       tests/edited.py names BEFORE AFTER COPY/crates/CRATE     the names of goals and steps in the proofs of the copy

The last is there because names say which test a goal stands behind: `returns-then-bytes-at-ge4` is gone where a slip makes `4 <` of `4 <=`, and its proof would
be refused for a name, whatever the slip means. `rt names` lists each name beside one that goes by order alone, which such a slip leaves as it was; BEFORE and AFTER
are what it lists of the crate without and with the edit. The proofs of the copy are spelled anew by them, so that each is tried at the goal that stands in its
place. Where a slip changes the order too, the names stay as they are, and a line `new goal: F G` is printed for each goal whose name the function had not.
"""

import json
import os
import re
import shutil
import sys

PARTS = ("src", "specs", "proofs")
TOKEN = re.compile(r"[\w'+-]+")


def read(path):
    with open(path, encoding="utf-8") as file:
        return file.read()


def write(path, text):
    with open(path, "w", encoding="utf-8") as file:
        file.write(text)


def linked(source, target):
    """A check replaces such a file where it makes it anew, and never writes into it."""
    try:
        os.link(source, target)
    except OSError:
        shutil.copy2(source, target)


def checked(source, target):
    (linked if source.endswith(".oantt") else shutil.copy2)(source, target)


def copy(root, crate, to):
    os.makedirs(to)
    for name in ("crates.txt", "HANDLES"):
        if os.path.isfile(f"{root}/{name}"):
            shutil.copy(f"{root}/{name}", to)
    for name in sorted(os.listdir(f"{root}/crates")):
        for part in PARTS:
            if os.path.isdir(f"{root}/crates/{name}/{part}"):
                shutil.copytree(f"{root}/crates/{name}/{part}", f"{to}/crates/{name}/{part}")
        if os.path.isdir(f"{root}/crates/{name}/out/rlib") and name != crate:
            shutil.copytree(f"{root}/crates/{name}/out/rlib", f"{to}/crates/{name}/out/rlib", copy_function=linked)
    if os.path.isdir(f"{root}/crates/{crate}/out/incremental"):
        shutil.copytree(f"{root}/crates/{crate}/out/incremental", f"{to}/crates/{crate}/out/incremental", copy_function=checked)


def apply(edit, folder):
    texts, path, old = {}, None, None
    for line in read(edit).split("\n"):
        if line.startswith("file: "):
            path = line[len("file: ") :].strip()
            texts.setdefault(path, read(f"{folder}/{path}"))
        elif line.startswith("old: "):
            old = line[len("old: ") :]
        elif line.startswith("new:"):
            if texts[path].count(old) != 1:
                sys.exit(f"{edit}: {path} has not exactly once: {old}")
            texts[path] = texts[path].replace(old, re.sub("^ ", "", line[len("new:") :]))
            old = None
    for path, text in texts.items():
        write(f"{folder}/{path}", text)
    write(f"{folder}/../../touched", "".join(f"{path}\n" for path in texts))


def by_order(function):
    """What a proof can name of a function, in order: what it is, its name by order, and the name that proofs write."""
    names = [("goal", old, new) for old, new in function["needs"]]
    for (old, _, (step, written), _, _), place in zip(function["places"], function["places_by_name"]):
        names += [("place", old, place), ("place", old.lower(), place[:1].lower() + place[1:]), ("step", step, written)]
    return names


def respelled(text, turned):
    """The text with other names. One of a place that several ways lead to is made of theirs: `then-a-via-else-a+then-b`."""

    def one(name):
        if name in turned or "-via-" not in name and "+" not in name:
            return turned.get(name, name)
        return "-via-".join("+".join(turned.get(it, it) for it in part.split("+")) for part in name.split("-via-"))

    return TOKEN.sub(lambda it: one(it[0]), text)


def names(before, after, folder):
    before, after = json.loads(read(f"{before}/names.json")), json.loads(read(f"{after}/names.json"))
    for module in sorted(it for it in before.keys() & after.keys() if it.endswith(".Lts")):
        was, now = by_order(before[module]), by_order(after[module])
        function = module[: -len(".Lts")].partition(".")[2]
        if [it[:2] for it in was] != [it[:2] for it in now]:
            for goal in {new for _, new in after[module]["needs"]} - {new for _, new in before[module]["needs"]}:
                print(f"new goal: {function.replace('.', '::')} {goal}")
            continue
        turned = {old: new for (_, _, old), (_, _, new) in zip(was, now) if old != new}
        proofs = f"{folder}/proofs/{function.replace('.', '/')}"
        if turned and os.path.isdir(proofs):
            for name in sorted(it for it in os.listdir(proofs) if it.endswith(".antt")):
                write(f"{proofs}/{name}", respelled(read(f"{proofs}/{name}"), turned))


if __name__ == "__main__":
    {"copy": copy, "apply": apply, "names": names}[sys.argv[1]](*sys.argv[2:])
