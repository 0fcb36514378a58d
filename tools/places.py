#!/usr/bin/env python3
"""Lists the places in crates/*/src that an older form of the language may have left, point by point.

usage: python3 tools/places.py [ROOT] [POINT..]      all points, or those that are named (1 to 8)

Each line is a place to look at, and no verdict: docs/DESIGN-PASS.md says what became of each. The last line of a point is its count.
1  enums of at most three variants of which at most one holds a value; arms that hand Ok, Err, Some or None on as they came; a return of an error or of
   nothing behind `else` or an arm; numbers that stand for a kind (constants of 16 bits, tests of flags, version, format)
2  functions and impls that are the same but for names, numbers and number types
3  while and loop; for over a range or with an index; steps by one
4  functions that convert, compare or print by hand: names in _of, _bytes, _name, same.., number, sector, refusal, number; copy_from_slice into a fresh array
5  facts of a requires that stand in three functions or more; two parameters or more that stand in three functions or more
6  a length or a place beside a slice or a buffer in one list of parameters; tables with a reckoned index; arrays of a fixed length with a count beside them
7  functions and closures in tables, matches that pick a function, flags that pick a step
8  files and lines of proofs of functions, by crate
"""
import glob
import os
import re
import sys
from collections import defaultdict

FN = re.compile(r"^( *)((?:pub(?:\(crate\))? )?(?:unsafe )?fn (\w+)(?:<[^{]*?>)?\()", re.M)


def sources(root):
    for path in sorted(glob.glob(os.path.join(root, "crates/*/src/**/*.rt"), recursive=True)):
        with open(path, encoding="utf-8") as f:
            yield os.path.relpath(path, root), f.read()


def line_of(text, at):
    return text.count("\n", 0, at) + 1


def functions(text):
    """(name, line, head, body) of each function; a trait's function without a body has ''."""
    for m in FN.finditer(text):
        depth, i = 0, m.start()
        while i < len(text):
            if text[i] == "\n" and text.startswith(m.group(1) + "{", i + 1):
                break
            if text.startswith(" {\n", i) and depth == 0 and text[i - 1] not in "=":
                i += 0
                break
            if text[i] == ";" and depth == 0:
                break
            depth += {"(": 1, ")": -1, "[": 1, "]": -1, "{": 1, "}": -1}.get(text[i], 0)
            i += 1
        head = text[m.start():i]
        if text[i:i + 1] == ";":
            yield m.group(3), line_of(text, m.start()), head, ""
            continue
        end = text.find("\n" + m.group(1) + "}", i)
        yield m.group(3), line_of(text, m.start()), head, text[i:end + 1]


def plain(code):
    code = re.sub(r"//.*", "", code)
    code = re.sub(r"\b[ui](8|16|32|64|128|size)\b", "INT", code)
    code = re.sub(r"\b(be|le|put_be|put_le)(_?[iu]?\d+)?(_bytes)?\b|\b(from|to)_(be|le)_bytes\b", "BYTES", code)
    code = re.sub(r"\b0x[0-9a-fA-F_]+|\b\d[\d_]*\b", "#", code)
    return re.sub(r"\s+", " ", code).strip()


def point1(root):
    for path, text in sources(root):
        for m in re.finditer(r"^ *(?:pub(?:\(crate\))? )?enum (\w+)[^{]*\{(.*?)^ *\}", text, re.M | re.S):
            names = [v for v in re.findall(r"^ *(\w+[^\n]*),$", re.sub(r"//.*", "", m.group(2)), re.M)]
            if len(names) <= 3 and sum("(" in v or "{" in v for v in names) <= 1:
                yield path, line_of(text, m.start()), "enum " + m.group(1)
        for m in re.finditer(r"Ok\([a-z_()]*\) => Ok|Err\([a-z_]+\) => Err|None => (?:Err|None)|Some\([a-z_]+\) => (?:Ok|Some)", text):
            yield path, line_of(text, m.start()), m.group(0)
        for m in re.finditer(r"else \{\s*return (?:Err|None)|else \{\s*None\s*\}", text):
            yield path, line_of(text, m.start()), " ".join(m.group(0).split())
        for m in re.finditer(r"const [A-Z_]+: u16 = 0x\w+|\b(?:flags|version|format|number) (?:==|!=) (?:0x)?\d\w*", text):
            yield path, line_of(text, m.start()), m.group(0)


def point2(root):
    same = defaultdict(list)
    for path, text in sources(root):
        for name, line, head, body in functions(text):
            if body:
                code = re.sub(r"\b%s\b" % name, "SELF", plain(head.split("ensures")[0].split("requires")[0] + body))
                same[code].append((path, line, "fn " + name))
        for m in re.finditer(r"^impl[^\n]*\{\n(?:.*?)^\}", text, re.M | re.S):
            code = re.sub(r"^impl(<[^>]*>)? (\w+)(<\w+>)? for \S+", r"impl \2", plain(m.group(0)))
            same[re.sub(r"\b(?:number|id|other)\b", "X", code)].append((path, line_of(text, m.start()), m.group(0).split("\n")[0]))
    for places in same.values():
        if len(places) > 1:
            yield from places


def lines(root, pattern):
    for path, text in sources(root):
        for n, line in enumerate(text.split("\n"), 1):
            if re.search(pattern, line):
                yield path, n, line.strip()


def point3(root):
    return lines(root, r"^\s*(?:while|loop)\b|\bfor [\w&(), ]+ in [^{]*\.\.|\.enumerate\(\)|\b\w+ [+-]= 1;")


def point4(root):
    for path, text in sources(root):
        for name, line, head, body in functions(text):
            if re.fullmatch(r"\w+_of|\w+_bytes|\w+_name|same\w*|number|sector|refusal", name):
                yield path, line, "fn " + name
            if re.search(r"\[0(?:u8)?; \d+\];", body) and "copy_from_slice" in body:
                yield path, line, "fn %s: an array filled by copy_from_slice" % name


def params(head):
    inside = head[head.index("(") + 1:]
    depth, out = 0, ""
    for c in inside:
        depth += {"(": 1, "[": 1, "<": 1, ")": -1, "]": -1, ">": -1}.get(c, 0)
        if depth < 0:
            break
        out += c
    return [" ".join(p.split()) for p in re.findall(r"(\w+: (?:[^,\[(<]|\[[^\]]*\]|<[^>]*>|\([^)]*\))+)", out)]


def point5(root):
    facts, together = defaultdict(list), defaultdict(list)
    for path, text in sources(root):
        for name, line, head, _ in functions(text):
            for clause in re.findall(r"requires(?: \w+)? \{(.*?)\}\n?", head + "\n", re.S):
                for fact in re.split(r" × ", clause):
                    facts[fact.strip(" ()")].append((path, line, name))
            ps = [p for p in params(head) if not p.startswith("rt:")]
            for i, p in enumerate(ps):
                for q in ps[i + 1:]:
                    together[(p, q)].append((path, line, name))
    for fact, places in sorted(facts.items()):
        if len(places) >= 3:
            for place in places:
                yield place[0], place[1], "%s requires %s" % (place[2], fact)
    for pair, places in sorted(together.items()):
        if len(places) >= 3:
            yield places[0][0], places[0][1], "%s, in %d functions: %s" % (", ".join(pair), len(places), " ".join(p[2] for p in places))


def point6(root):
    for path, text in sources(root):
        for name, line, head, body in functions(text):
            ps = params(head)
            if any("[u8]" in p or "[T]" in p or "Vec<" in p for p in ps) and any(re.match(r"(n|len|length|count|size|sectors|room): (usize|u32|u64)", p) for p in ps):
                yield path, line, "fn %s(%s)" % (name, ", ".join(ps))
            for m in re.finditer(r"\b[A-Z_]+\[[^\]]*\*[^\]]*\]", body):
                yield path, line, "fn %s: %s" % (name, m.group(0))
            if re.search(r"&?\w+\[0\.\.\w*(length|len|n)\w*\]", body):
                yield path, line, "fn %s: the front of a buffer by a length" % name


def point7(root):
    return lines(root, r"\bfn\(|\[fn|dyn Fn|Box<dyn|\bstep: u|\bphase\b|\bstage\b|\bmode\b|\bwhich\b: ")


def point8(root):
    for crate in sorted(os.listdir(os.path.join(root, "crates"))):
        files = [f for f in glob.glob(os.path.join(root, "crates", crate, "proofs/**/*.antt"), recursive=True) if not f.endswith("Lib.antt")]
        if files:
            lines = 0
            for name in files:
                with open(name, encoding="utf-8") as f:
                    lines += len(f.read().splitlines())
            yield "crates/" + crate, len(files), "files, %d lines" % lines


POINTS = {"1": point1, "2": point2, "3": point3, "4": point4, "5": point5, "6": point6, "7": point7, "8": point8}


def main():
    args = sys.argv[1:]
    root = args.pop(0) if args and args[0] not in POINTS else "."
    for point in args or POINTS:
        print("point " + point)
        found = list(POINTS[point](root))
        for path, line, what in found:
            print("  %s:%s %s" % (path, line, what))
        print("  %d" % len(found))


main()
