#!/usr/bin/env python3
"""Brings the names of this repository's definitions and lemmas to one spelling, over port.py's work.

usage: python3 tools/respell.py [ROOT] [--dry]

A name that some .antt file of crates/ declares (a definition, a lemma, a field, a constructor) and that has a dash between words
gets an underscore there, and in upper camel case where it begins with a capital: read-bytes is read_bytes, Run-laws is RunLaws.
A dash beside an operator stays (run-++). Names that Rattle makes (goals, steps) and names of other libraries keep theirs.
It reads whole files; names of src/ have no dash, so they stay, as do words in strings that no definition is called by. Run it once, after port.py.
"""
import os
import re
import sys

SPACE = r"\s(){}⟨⟩;,.:«»∥`\"\[\]"
WORD = re.compile(r"[^" + SPACE + r"]+")
DECL = re.compile(r"^(\s*)((?:pub |abbrev |unfoldable |data |record )*)([^" + SPACE + r"]+)((?:\s+[({][^=\n]*?)?)\s+:\s(.*)$", re.M)
USE = re.compile(r"^(?:ghost )?(?:pub )?use ([^\s{;]+)(?:\{([^}]*)\})?", re.M)
MODULE = re.compile(r"^(?:ghost )?(?:pub )?use (Rattle[.·][^\s{;]+?)(?: as (\w+))?;?$", re.M)
BEHIND = re.compile(r"[^" + SPACE + r"]+$")
QUOTED = re.compile(r"`[^`\n]*`")
PLAIN = re.compile(r"[A-Za-z0-9_']+(-[A-Za-z0-9_'+*≤≡<∷]+)+$")


def turned(name):
    parts = name.split("-")
    if name[0].isupper():
        return "".join(p[0].upper() + p[1:] for p in parts)
    out = parts[0]
    for p in parts[1:]:
        out += ("_" if re.match(r"[A-Za-z0-9]", p) and re.search(r"[A-Za-z0-9']$", out) else "-") + p
    return out


def files(root):
    for folder, dirs, names in os.walk(os.path.join(root, "crates")):
        dirs[:] = sorted(d for d in dirs if d not in ("out", ".git"))
        for n in sorted(names):
            if n.endswith((".antt", ".rt", ".edit")):
                yield os.path.join(folder, n)
    yield os.path.join(root, "README.md")
    for n in sorted(os.listdir(os.path.join(root, "docs"))):
        if n.endswith(".md"):
            yield os.path.join(root, "docs", n)


def owner(module):
    m = re.match(r"Rattle[.·](\w+)", module)
    return m.group(1) if m else None


def kept(text, crates):
    """The names that a file has from elsewhere: from other libraries, and the goals that Rattle makes."""
    found = set()
    for m in USE.finditer(text):
        module, names = m.group(1).rstrip("."), m.group(2)
        if names is None:
            continue
        made = re.search(r"\.proofs\..*\.(Goals|Given|Calls|Rows)$|\.(TheVariants|TheConstants)$", module)
        if owner(module) not in crates or made or ".declared." in module:
            for n in names.split(","):
                w = n.strip().split(" as ")[0].strip()
                found.add(w)
    return found


def own_modules(text, crates):
    """The names by which a file calls modules of this repository."""
    return {m.group(2) or m.group(1).split(".")[-1] for m in MODULE.finditer(text) if owner(m.group(1)) in crates}


def main():
    args = [a for a in sys.argv[1:] if a != "--dry"]
    dry = "--dry" in sys.argv
    root = args[0] if args else "."
    crates = set(os.listdir(os.path.join(root, "crates")))
    texts = {p: open(p, encoding="utf-8").read() for p in files(root)}
    declared = {}
    for p, t in texts.items():
        if not p.endswith(".antt"):
            continue
        for m in DECL.finditer(t):
            if m.group(5).startswith("goal."):
                continue
            declared.setdefault(m.group(3), set()).add(m.group(1) != "")
    names = {n for n in declared if PLAIN.match(n) and turned(n) != n}
    steps = {}
    for p, t in texts.items():
        keep = kept(t, crates)
        out = []

        def one(m):
            w = m.group(0)
            if w not in names or w in keep:
                return w
            if t[m.start() - 1:m.start()] == "." and True not in declared[w]:
                before = BEHIND.search(t[:m.start() - 1])
                if not (before and before.group(0) in modules):
                    steps.setdefault(w, []).append(p)
                    return w
            return turned(w)

        modules = own_modules(t, crates)
        if p.endswith(".md"):
            # pages name definitions between backquotes
            new = QUOTED.sub(lambda q: WORD.sub(one, q.group(0)), t)
        else:
            new = WORD.sub(one, t)
        if new != t and not dry:
            with open(p, "w", encoding="utf-8") as f:
                f.write(new)
    # names that fall together
    after = {}
    for n in declared:
        after.setdefault(turned(n) if n in names else n, set()).add(n)
    for n, ns in sorted(after.items()):
        if len(ns) > 1:
            print("falls together:", n, sorted(ns))
    for w, ps in sorted(steps.items()):
        print("behind a dot, and no field:", w, len(ps), ps[:3])
    print("names turned:", len(names))


main()
