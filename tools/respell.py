#!/usr/bin/env python3
"""Brings this repository's own names to today's spelling, after the kit's port.py and before any edit by hand. Run it once, at the top.

usage: tools/respell.py [--list]

- Definitions, constructors, fields and lemmas: snake case in place of camel case (`lastSlot` is `last_slot`). Types and modules keep theirs.
- A dash joins two names of definitions (`length-keep`); a plain word is joined with `_` (`last_reserved`), and so are all words of a field.
- The crate `log` is `daylog`: the kit has a library named log.
It goes by whole words, in .antt and .rt files, in must-fail edits, and in the pages that name definitions in backquotes (README, PROMISES, DECISIONS).
Functions of src/, exported names, strings, inputs and outputs keep theirs. --list prints the names and writes nothing.
"""
import glob
import os
import re
import subprocess
import sys

WORD = re.compile(r"[^\s(){}.;,@\"«»\[\]\\`]+")
OPERATOR = re.compile(r"[^A-Za-z0-9_']+$")
DECLARED = re.compile(r"^( *)((?:unfoldable |abbrev |pub )*)([^\s:]+) :(?: |$)", re.M)
IMPORT = re.compile(r"^(?:pub )?use ([\w.'+-]+)\.\{([^}]*)\}", re.M)
# What the repository's lemmas call by an older name of the library.
OLDER = {"getD": "get_or"}
# Where the rule would make two names one: a lemma that would have its definition's name gets `_lem`.
BY_HAND = {n: n.replace("-", "_") + "_lem" for n in ["same-octets", "where-zero", "no-rebroadcast", "signed-start", "to-come", "counted-all"]}
# The same of names that port.py has turned, each in its one file.
LOCAL = {"crates/sound/proofs/Sound.antt": "numbers_fit", "crates/search/proofs/InMap.antt": "in_map"}


def read(path):
    with open(path, encoding="utf-8") as f:
        return f.read()


def written(path, text):
    with open(path, "w", encoding="utf-8") as f:
        f.write(text)


def below(part, end):
    return sorted(p for p in glob.glob(f"crates/*/{part}/**/*{end}", recursive=True) if "/out/" not in p)


def of_function(path):
    return re.search(r"/proofs/.+/(Proof|Answers|Invariants)\.antt$", path)


def snake(part):
    if part in OLDER:
        return OLDER[part]
    if not part or part[0].isupper() or not re.search(r"[a-z0-9][A-Z]", part):
        return part
    return re.sub(r"(?<=[a-z0-9])([A-Z])", lambda m: "_" + m.group(1).lower(), part)


def names():
    """The older name of each thing that this repository declares, and the newer."""
    own, words, fields, imported = set(), set(), set(), {}
    for path in below("specs", ".antt") + below("proofs", ".antt"):
        text = read(path)
        for m in IMPORT.finditer(text):
            for name in m.group(2).split(","):
                name = name.strip().split(" as ")[0]
                if "Rattle.std" in m.group(1) or not m.group(1).startswith("Rattle."):
                    imported[name] = path
        if of_function(path):
            continue
        for m in DECLARED.finditer(text):
            name = m.group(3)
            own.add(name)
            if m.group(1) and "/specs/" in path:
                fields.add(name)
            elif "abbrev" in m.group(2) or "unfoldable" in m.group(2) or "/specs/" in path:
                words.add(name)
    known = words | {n for n in imported if "-" not in n}
    known |= {snake(n) for n in known}

    def newer(name):
        if name in BY_HAND:
            return BY_HAND[name]
        parts = [snake(p) for p in name.split("-")]
        out = parts[0]
        for left, right in zip(parts, parts[1:]):
            operator = OPERATOR.match(left) or OPERATOR.match(right)
            out += ("-" if name not in fields and (operator or (left in known and right in known)) else "_") + right
        return out

    turned = {n: newer(n) for n in own if newer(n) != n}
    own_now = (own - set(turned)) | set(turned.values())
    stay = (own | set(imported)) - set(turned)
    for old, new in sorted(turned.items()):
        if new in stay:
            print(f"look: {old} would become {new}, which is a name already")
        if old in imported:
            print(f"look: {old} is also imported from elsewhere, in {imported[old]}")
    for new in {n for n in turned.values() if list(turned.values()).count(n) > 1}:
        print(f"look: {[o for o, n in turned.items() if n == new]} would all become {new}")
    return turned, own_now


def main(argv):
    turned, own_now = names()
    if "--list" in argv:
        print("\n".join(f"{o} {n}" for o, n in sorted(turned.items())))
        return
    word = lambda m: turned.get(m.group(0), m.group(0))
    # In pages and edits also what port.py has turned in the files that it reads.
    stale = lambda name: turned.get(name) or (snake(name) if snake(name) in own_now else name)
    stale_word = lambda m: stale(m.group(0))
    for path in below("specs", ".antt") + below("proofs", ".antt") + below("src", ".rt") + below("must-fail", ".edit"):
        text = read(path)
        local = LOCAL.get(path)
        turn = stale_word if path.endswith(".edit") else word
        now = WORD.sub(lambda m: local + "_lem" if m.group(0) == local else turn(m), text)
        now = re.sub(r"\bRattle([.·])log\b", r"Rattle\1daylog", now)
        if path.endswith((".rt", ".edit")):
            now = re.sub(r"(?<![\w.:])log::", "daylog::", now)
        if now != text:
            written(path, now)
    for path in ["README.md", "docs/PROMISES.md", "docs/DECISIONS.md"]:
        text = read(path)
        quoted = lambda m: "`" + WORD.sub(stale_word, m.group(1)) + "`"
        now = re.sub(r"`([^`\n]*)`", quoted, text)
        now = re.sub(r"`log(::\w+)?`", r"`daylog\1`", now)
        if now != text:
            written(path, now)
    subprocess.run(["git", "mv", "crates/log", "crates/daylog"], check=True)
    written("crates.txt", re.sub(r"\blog\b", "daylog", read("crates.txt")))
    for crate in sorted(glob.glob("crates/*/src")):
        subprocess.run(["rt", "fmt"], cwd=os.path.dirname(crate), check=True, stdout=subprocess.DEVNULL)


if __name__ == "__main__":
    main(sys.argv[1:])
