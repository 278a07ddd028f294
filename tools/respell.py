#!/usr/bin/env python3
"""Brings this repository's own definitions, fields and lemmas to today's spelling: words in snake case, and a dash only where it joins two names.

usage: python3 tools/respell.py        at the top, once, right after the kit's port.py (docs/PORT.md)

Names of src/, exported names, strings and files keep their spelling, and so does every name that the kit's library has.
A name in camel case becomes snake case. In a lemma's name a dash stays between two names of definitions, as in `length-drop`; between plain words it
becomes `_`, and in a field's name always. Two names that would fall together are left as they are, and are printed.
"""

import glob
import os
import re
import subprocess
import sys

KIT = "/opt/rattle/rattle"
NAME = r"[A-Za-z_][A-Za-z0-9_'?₀-₉-]*"
TOKEN = re.compile(r"(?<![A-Za-z0-9_'?₀-₉-])" + NAME)
HEAD = re.compile(r"^(\s*)((?:abbrev |unfoldable )*)(pub )?(" + NAME + r")\s*:(?!\S)")
MADE = re.compile(r"^(Need-|After-|invariant-|decreases-|Joined-|Then-|Else-|In-|Start|loop-)")


def antt(root):
    for folder, dirs, files in os.walk(root):
        dirs[:] = sorted(d for d in dirs if d not in ("out", ".git"))
        for f in sorted(files):
            if f.endswith(".antt"):
                yield os.path.join(folder, f)


def heads(path):
    """The names that a file declares, and whether each is a definition, a field or a lemma."""
    inside = None
    with open(path, encoding="utf-8") as f:
        for line in f:
            if re.match(r"^(pub )?(record|data) ", line):
                inside = "field"
                continue
            m = HEAD.match(line)
            if m and "tie." in line[m.end():] or m and "statement" in line[m.end():]:
                yield m.group(4), "goal"
                continue
            if not m:
                if line.strip() and not line.startswith((" ", "-")):
                    inside = None
                continue
            if not m.group(1):
                inside = None
            kind = "field" if inside and m.group(1) else "definition" if m.group(2) else "lemma"
            yield m.group(4), kind


def snake(name):
    """Camel case to snake case, in each part that begins with a small letter."""
    def part(p):
        if not p or not p[0].islower():
            return p
        return re.sub(r"(?<=[a-z0-9])([A-Z])", lambda m: "_" + m.group(1).lower(), re.sub(r"(?<=[A-Z])([A-Z])", lambda m: m.group(1).lower(), p))
    return "-".join(part(p) for p in name.split("-"))


def library():
    """Each name that the kit's library declares."""
    out = subprocess.run(["grep", "-rhoE", r"^\s*(abbrev |unfoldable |instance )*(pub )?[^ :(){}]+ +:( |$)", KIT, "--include=*.antt"], capture_output=True, text=True).stdout
    names = set()
    for line in out.splitlines():
        names.add(re.sub(r"\s*:\s*$", "", line).split()[-1])
    return names


def main():
    own = {}
    for path in antt("crates"):
        if "/proofs/" in path and path.endswith(("/Proof.antt", "/Answers.antt", "/Invariants.antt")):
            local = True
        else:
            local = False
        for name, kind in heads(path):
            own.setdefault(name, set()).add((kind, local))
    kit = library()
    # what counts as a name between dashes: own definitions and the library's words, with no dash
    words = {n for n, kinds in own.items() if "-" not in n and any(k == "definition" for k, _ in kinds)}
    words |= {snake(n) for n in words}
    words |= {"length", "take", "drop", "set", "get_or", "replicate", "map", "append", "sum", "sum_by", "reverse", "bit_xor", "bit_and", "bit_or", "mul", "add", "sub", "mod", "div", "min", "max", "le", "lt", "eq", "zero", "suc", "neg", "pow", "xor", "and", "or"}
    table = {}
    for name, kinds in sorted(own.items()):
        if name in kit or MADE.match(name) or any(k == "goal" for k, _ in kinds):
            continue
        to = snake(name)
        if "-" in to:
            parts = to.split("-")
            field = all(k == "field" for k, _ in kinds)
            made = parts[0]
            for a, b in zip(parts, parts[1:]):
                both = a in words and b in words or a[:1].isupper() or b[:1].isupper()
                made += ("-" if both and not field else "_") + b
            to = made
        if to != name:
            table[name] = to
    # names that fall together: a definition keeps the name, and a lemma of that name gets `_lem`
    used, imported = set(), set()
    for path in [*antt("crates"), *glob.glob("crates/*/src/**/*.rt", recursive=True)]:
        with open(path, encoding="utf-8") as f:
            for line in f:
                code = re.split(r"(?:^|\s)--\s|//", line)[0]
                m = re.match(r"\s*(?:ghost )?use ([\w.]+)\.\{(.*)\}", code)
                if m:
                    if not m.group(1).startswith("Rattle.") or m.group(1).startswith("Rattle.std"):
                        imported |= {x.strip() for x in m.group(2).split(",")}
                    continue
                used |= set(re.findall(r"(?<![A-Za-z0-9_'?₀-₉.-])" + NAME, code))
    def is_definition(n):
        return any(k == "definition" for k, _ in own.get(n, ()))
    by_new = {}
    for a, b in table.items():
        by_new.setdefault(b, []).append(a)
    for b, olds in sorted(by_new.items()):
        firsts = [a for a in olds if is_definition(a)]
        if b in imported:
            for a in olds:
                table[a] = b + "_own"
            if len(olds) > 1:
                print(f"two: {olds} {b}")
            else:
                print(f"library: {olds[0]}: {table[olds[0]]}")
        elif b in own or len(olds) > 1:
            holder = b if b in own and (is_definition(b) or not firsts) else firsts[0] if firsts else olds[0]
            for a in [*olds, *([b] if b in own else [])]:
                if a != holder and not any(k == "goal" for k, _ in own[a]):
                    table[a] = b + "_lem" if not is_definition(a) else b + "_of"
            n = [a for a in [*olds, *([b] if b in own else [])] if a != holder]
            print(f"together: {holder} is {table.get(holder, holder)}; " + ", ".join(f"{a} ({'/'.join(sorted(k for k, _ in own[a]))}) is {table.get(a, a)}" for a in n) + ("  TWO" if len(n) > 1 else ""))
        elif b in used:
            print(f"variable: {', '.join(olds)}: {b} is used as well")
    news = {}
    for a, b in table.items():
        news.setdefault(b, []).append(a)
    for b, olds in sorted(news.items()):
        if len(olds) > 1 or b in own and b not in table and b not in [table.get(o) for o in own if o == b]:
            print(f"CLASH: {olds} {b}")

    def turned(text):
        return TOKEN.sub(lambda m: table.get(m.group(0), m.group(0)), text)

    def source(text):
        out, clause = [], False
        for line in text.splitlines(keepends=True):
            s = line.strip()
            if s.startswith("//"):
                out.append(re.sub(r"`[^`]*`", lambda m: turned(m.group(0)), line))
                continue
            if re.match(r"(ghost|requires|ensures|\}?\s*ghost )", s):
                clause = True
            if clause:
                code = re.split(r'("(?:[^"\\]|\\.)*")', line)
                out.append("".join(c if c.startswith('"') else turned(c) for c in code))
            else:
                out.append(line)
            if clause and re.search(r"[};,]\s*$", line):
                clause = False
        return "".join(out)

    def definitions(text):
        out = []
        for line in text.splitlines(keepends=True):
            code, dash, comment = re.match(r"^(.*?)((?:(?<=\s)|^)--(?=\s|$))?((?(2).*|))$", line, re.S).groups() if "--" in line else (line, None, None)
            if dash:
                comment = TOKEN.sub(lambda m: table.get(m.group(0), m.group(0)) if "-" not in m.group(0) else m.group(0), comment or "")
                comment = re.sub(r"`[^`]*`", lambda m: turned(m.group(0)), comment)
            out.append(turned(code) + (dash or "") + (comment or ""))
        return "".join(out)

    changed = 0
    todo = [(p, definitions) for p in antt("crates")] + [(p, source) for p in sorted(glob.glob("crates/*/src/**/*.rt", recursive=True))]
    for path, how in todo:
        with open(path, encoding="utf-8") as f:
            text = f.read()
        new = how(text)
        if new != text:
            changed += 1
            with open(path, "w", encoding="utf-8") as f:
                f.write(new)
    print(f"respelled {len(table)} names in {changed} files")
    with open("tools/respelled.tsv", "w", encoding="utf-8") as f:
        for a, b in sorted(table.items()):
            f.write(f"{a}\t{b}\n")


if __name__ == "__main__":
    sys.exit(main())
