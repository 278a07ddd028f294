#!/usr/bin/env python3
"""Turns the proofs of a crate from the older form, one Proof.antt a function that answers every goal of `tie.spec`, to Invariants.antt and Answers.antt.

usage: python3 ../../tools/answers.py NAMES.json [FUNCTION..]    in a crate's folder

NAMES.json is what `rt check --generated FOLDER --old-names` writes there. It gives each goal's older and newer name, and each place in the code.
An answer that only ran `search` goes: the check tries that itself. What can't be turned is printed, and stays as it was written.
"""

import json
import os
import re
import sys

WORD = r"[A-Za-z_\u0370-\u03ff\u1f00-\u1fff][A-Za-z0-9_'?₀-₉\u0370-\u03ff-]*"
TOKEN = re.compile(r"(?<![A-Za-z0-9_'?₀-₉.-])" + WORD)
PATH = re.compile(r"(?<![A-Za-z0-9_'?₀-₉.-])(" + WORD + r")((?:\.[A-Za-z0-9_'?₀-₉-]+)+)")


def key(name):
    name = name.replace("_", "-")
    for p in ("overflow-", "nonzero-", "slice-bounds-", "bounds-", "offset-bounds-"):
        name = re.sub("^" + p, "", name)
    return name


def blocks(text):
    """Lines at column 0, each with the indented lines that follow."""
    out = []
    for line in text.splitlines():
        if line and not line[0].isspace():
            out.append([line])
        elif out:
            out[-1].append(line)
    for b in out:
        while b and not b[-1].strip():
            b.pop()
    return ["\n".join(b) for b in out if b]


class Function:
    def __init__(self, crate, folder, entry, text):
        self.crate, self.folder, self.entry, self.text = crate, folder, entry, text
        self.path = folder[len("proofs/"):].replace("/", ".")
        self.said = []
        self.goals = {}
        for old, new in entry["needs"]:
            self.goals.setdefault(key(old), new)
        for old, new in entry["needs"]:
            self.goals.setdefault(key(new), new)
        self.steps, self.places = {}, {}
        for place, by_name in zip(entry["places"], entry["places_by_name"]):
            self.places[key(place[0])] = by_name
            old, new = place[2]
            if old:
                self.steps.setdefault(key(old), new)
        self.loops = {}
        for (names, live), changed in zip(entry["loops"], entry["changed"]):
            self.loops[key(names[0])] = (names[1], live, changed)
        self.order = [new for _, new in entry["needs"]]
        self.asked_at = {new: at[1] for (_, new), at in zip(entry["needs"], entry["asked_at"])}
        self.named_places = set()

    def say(self, text):
        self.said.append(f"{self.folder}: {text}")

    def paths(self, text, heads):
        """Drops `.before` and gives each step its newer name."""
        def turn(m):
            head, rest = m.group(1), m.group(2)[1:].split(".")
            if head not in heads:
                return m.group(0)
            while rest and rest[0] == "before":
                rest.pop(0)
            if rest and key(rest[0]) in self.steps and rest[0] not in ("args", "ranges", "requires"):
                rest[0] = self.steps[key(rest[0])]
            return ".".join([head, *rest])
        return PATH.sub(turn, text)

    def body(self, text):
        heads = {"c"}
        for m in re.finditer(r"[({](" + WORD + r") : tie\.(?:Start|After|In|At|Joined|Then|Else)", text):
            heads.add(m.group(1))
        text = self.paths(text, heads)
        # names bound to an earlier place
        while True:
            found = {m.group(1) for m in re.finditer(r"let (" + WORD + r")(?: : [^=]*)? = (" + WORD + r") in", text) if m.group(2) in heads} - heads
            if not found:
                break
            text = self.paths(text, found)
            heads |= found
        text = re.sub(r"\.taken\b", ".true", text)
        def place(m):
            if key(m.group(1)) in self.places:
                return "PLACE." + self.places[key(m.group(1))]
            self.say(f"no place {m.group(0)}")
            return m.group(0)
        return re.sub(r"tie\.((?:Start|After|In|At|Joined|Then|Else)[A-Za-z0-9_'-]*)((?: (?:invariant|decreases)-[A-Za-z0-9_'-]+)*)", place, text)

    def invariant(self, decl, kind):
        """Positional parameters become fields of l."""
        clause = decl["clauses"][0]
        m = re.match(r"(" + WORD + r")\s+(.*?)\s*=(?=\s)(.*)$", clause, re.S)
        name = key(decl["goal"])
        loop = self.loops.get(name)
        if loop is None:
            self.say(f"no loop {decl['goal']}")
            return None
        new, live, changed = loop
        params = m.group(2).split()
        fields = [("l.initial." if c else "l.") + v for v, c in zip(live, changed)] + ["l." + v for v, c in zip(live, changed) if c]
        if len(params) != len(fields):
            self.say(f"{decl['goal']}: {len(params)} parameters for {len(fields)} variables: {' '.join(params)} | {' '.join(fields)}")
        table = dict(zip(params, fields))
        body = TOKEN.sub(lambda t: table.get(t.group(0), t.group(0)), m.group(3))
        made = f"{kind}-{new}"
        lines = [f"abbrev pub {made} : goal.{made}"]
        if decl["unfolding"]:
            lines.append(decl["unfolding"])
        lines.append(f"{made} l ={body}")
        return "\n".join(lines)

    def places_of(self, helpers):
        """A helper that takes a place takes the place of the goals that it is used in: there `c` has every step in one record."""
        at = {}
        def users(name):
            word = re.compile(r"(?<![A-Za-z0-9_'?₀-₉.-])" + re.escape(name) + r"(?![A-Za-z0-9_'?₀-₉-])")
            return [(n, h) for n, h in helpers if n and n != name and word.search(h)]
        for n, h in reversed(helpers):
            if not n:
                continue
            if n.startswith("answer "):
                at[n] = {self.asked_at[n[7:]]}
            elif "PLACE." in h:
                at[n] = set()
                for u, _ in users(n):
                    at[n] |= at.get(u, set())
        out = []
        for n, h in helpers:
            if "PLACE." in h:
                mine = at.get(n, set())
                named = set(re.findall(r"PLACE\.([A-Za-z0-9_'-]+)", h))
                if n and not n.startswith("answer ") and len(mine) == 1 and len(named) == 1:
                    h = h.replace("PLACE." + named.pop(), "PLACE." + next(iter(mine)))
                elif mine != named:
                    self.say(f"{n} takes {sorted(named)} and is used at {sorted(mine)}")
                self.named_places |= set(re.findall(r"PLACE\.([A-Za-z0-9_'-]+)", h))
                h = h.replace("PLACE.", "")
            out.append((n, h))
        return out

    def turn(self):
        uses, comments, decls, spec = [], [], [], None
        current, pending = None, ""
        for b in blocks(self.text):
            first = b.split("\n")[0]
            if first.startswith("use "):
                if ".Statement." in b or b.endswith(" as tie"):
                    continue
                uses.append(b)
                continue
            if first.startswith("--"):
                if decls or uses:
                    pending = b
                else:
                    comments.append(b)
                current = None
                continue
            m = re.match(r"((?:abbrev |unfoldable )*)(pub )?(" + WORD + r")\s*:\s(.*)$", b, re.S)
            if m:
                current = {"mark": m.group(1), "pub": m.group(2) or "", "name": m.group(3), "type": m.group(4), "unfolding": "", "clauses": [], "raw": None, "comment": pending}
                pending = ""
                decls.append(current)
                continue
            if current and first.startswith("unfolding"):
                current["unfolding"] = b
                continue
            if current and re.match(re.escape(current["name"]) + r"(?![A-Za-z0-9_'?₀-₉-])", b):
                current["clauses"].append(b)
                continue
            decls.append({"raw": (pending + "\n" if pending else "") + b, "name": None})
            current, pending = None, ""
        invariants, helpers = [], []
        spec_args = []
        for d in decls:
            if d["name"] and "statement" in d["type"] and "tie.close" in "".join(d["clauses"]):
                t = re.search(r"tie\.spec\b(.*)", d["clauses"][0], re.S)
                spec_args = re.findall(WORD, t.group(1)) if t else []
        needs = [a for a in spec_args if not any(x["name"] == a and re.match(r"tie\.(invariant|decreases)", x["type"]) for x in decls if x["name"])]
        by_place = dict(zip(needs, self.order)) if len(needs) == len(self.order) else {}
        for d in decls:
            if d["raw"] is not None:
                helpers.append((None, self.body(d["raw"])))
                continue
            if "tie.close" in "".join(d["clauses"]):
                continue
            m = re.match(r"tie\.(invariant|decreases)-([A-Za-z0-9_'-]+)", d["type"])
            if m:
                d["goal"] = m.group(2)
                made = self.invariant(d, m.group(1))
                if made:
                    invariants.append(made)
                continue
            m = re.match(r"tie\.Need-([A-Za-z0-9_'-]+)(.*)$", d["type"], re.S)
            if m:
                new = self.goals.get(key(m.group(1)))
                at = by_place.get(d["name"])
                if at and new != at:
                    if new is None:
                        new = at
                    else:
                        self.say(f"{m.group(1)}: by name {new}, by place {at}; taken by place")
                        new = at
                if new is None:
                    self.say(f"goal {m.group(1)} is asked no more; dropped: " + " ".join(" ".join(d["clauses"]).split())[:160])
                    continue
                bodies = []
                plain = True
                for c in d["clauses"]:
                    c = re.sub("^" + re.escape(d["name"]) + r"(?![A-Za-z0-9_'?₀-₉-])", new, c)
                    c = re.sub(r"^(\S+(?: [^=]*?)?) κs(?= |=)", r"\1", c)
                    if not re.fullmatch(r"\S+ [^=]*= search rules", " ".join(c.split())):
                        plain = False
                    bodies.append(self.body(c))
                if plain:
                    continue
                lines = ([d["comment"]] if d["comment"] else []) + [f"pub {new} : goal.{new}"]
                if d["unfolding"]:
                    lines.append(d["unfolding"])
                helpers.append(("answer " + new, "\n".join(lines + bodies)))
                continue
            lines = ([d["comment"]] if d["comment"] else []) + [f"{d['mark']}{d['pub']}{d['name']} : " + self.body(d["type"])]
            if d["unfolding"]:
                lines.append(d["unfolding"])
            lines += [self.body(c) for c in d["clauses"]]
            helpers.append((d["name"], "\n".join(lines)))
        helpers = self.places_of(helpers)
        # what the invariants name goes with them
        moved = set()
        text = "\n".join(invariants)
        again = True
        while again:
            again = False
            for n, h in helpers:
                if n and not n.startswith("answer ") and n not in moved and re.search(r"(?<![A-Za-z0-9_'?₀-₉.-])" + re.escape(n) + r"(?![A-Za-z0-9_'?₀-₉-])", text):
                    moved.add(n)
                    text += "\n" + h
                    again = True
        def public(h):
            return re.sub(r"^((?:abbrev |unfoldable )*)(?!pub |abbrev |unfoldable |--| )", r"\1pub ", h, count=1, flags=re.M)
        inv_file = None
        if invariants:
            inv_uses = uses + [f"use Rattle.{self.crate}.proofs.{self.path}.Given as goal"]
            parts = ["\n".join(inv_uses)] + [public(h) for n, h in helpers if n in moved] + invariants
            inv_file = "\n\n".join(parts) + "\n"
        ans = [h for n, h in helpers if n not in moved or n is None]
        ans_file = None
        if any((n or "").startswith("answer ") for n, _ in helpers) or [n for n, _ in helpers if n and not n.startswith("answer ") and n not in moved]:
            ans_uses = list(uses)
            if moved:
                ans_uses.append(f"use Rattle.{self.crate}.proofs.{self.path}.Invariants.{{{', '.join(sorted(moved))}}}")
            ans_uses.append(f"use Rattle.{self.crate}.proofs.{self.path}.Goals as goal")
            if self.named_places:
                ans_uses.append(f"use Rattle.{self.crate}.proofs.{self.path}.Goals.{{{', '.join(sorted(self.named_places))}}}")
            ans_file = "\n\n".join(["\n".join(ans_uses)] + ans) + "\n"
        head = "\n".join(comments)
        if not any((n or "").startswith("answer ") for n, _ in helpers):
            ans_file = None
        for what in (inv_file, ans_file):
            if what and "⊎_elim" in what:
                self.say("⊎_elim over a branch: by hand, elim c.if-X.branch [ then-X w ↦ .. | else-X w ↦ .. ]")
        return (head + "\n" + inv_file if inv_file else None), (head + "\n" + ans_file if ans_file else None)


def main(argv):
    with open(argv[0]) as f:
        names = json.load(f)
    crate = os.path.basename(os.getcwd())
    only = set(argv[1:])
    for folder, dirs, files in sorted(os.walk("proofs")):
        if "Proof.antt" not in files:
            continue
        path = folder[len("proofs/"):].replace("/", ".")
        if only and path not in only:
            continue
        entry = next((names[k] for k in (f"Rattle-{crate}-proofs.{path}.Lts", f"Rattle-{crate}.proofs.{path}.Lts") if k in names), None)
        if entry is None:
            print(f"{folder}: no names of it")
            continue
        with open(os.path.join(folder, "Proof.antt"), encoding="utf-8") as f:
            text = f.read()
        if "tie.close" not in text:
            print(f"{folder}: walks the code by hand; left")
            continue
        fn = Function(crate, folder, entry, text)
        inv, ans = fn.turn()
        for name, made in (("Invariants.antt", inv), ("Answers.antt", ans)):
            if made:
                with open(os.path.join(folder, name), "w", encoding="utf-8") as f:
                    f.write(made)
        os.remove(os.path.join(folder, "Proof.antt"))
        if not inv and not ans:
            os.rmdir(folder)
        for s in fn.said:
            print(s)


if __name__ == "__main__":
    main(sys.argv[1:])
