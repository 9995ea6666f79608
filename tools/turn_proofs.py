#!/usr/bin/env python3
"""Turns a Proof.antt of an older Rattle into Invariants.antt and Answers.antt, once, at the port.

usage: python3 tools/turn_proofs.py NAMES.json CRATE [FUNCTION..]     at the top of the repository

NAMES.json is what `rt check --generated DIR --old-names` writes: each goal and step under its old and its new name.
An answer that is only `search rules` or `omega arith` goes: the check tries those itself. What the script cannot turn it says.
"""

import json
import os
import re
import sys

TOKEN = re.compile(r"[^\s(){};,@\"«»\[\]]+")
TRIVIAL = re.compile(r"^(search rules|search \(rules\)|omega arith|omega \(arith\)|refl)$")


def same(w):
    return w.replace("-", "_")


def blocks(text):
    """Each `use` line, and each declaration with its lines."""
    uses, found, lines = [], [], text.split("\n")
    i = 0
    while i < len(lines):
        line = lines[i]
        if line.startswith("use "):
            uses.append(line)
        elif line.strip() and not line.startswith(" "):
            block = [line]
            i += 1
            while i < len(lines) and (lines[i].strip() or (i + 1 < len(lines) and lines[i + 1].startswith(" "))):
                block.append(lines[i])
                i += 1
            while block and not block[-1].strip():
                block.pop()
            found.append(block)
            continue
        i += 1
    return uses, found


def arguments(text):
    """The arguments of a call, each whole."""
    out, depth, at = [], 0, None
    for i, ch in enumerate(text + " "):
        if at is None and not ch.isspace() and ch != ")":
            at = i
        if ch in "({":
            depth += 1
        elif ch in ")}":
            depth -= 1
        if depth < 0:
            if at is not None:
                out.append(text[at:i])
            break
        if at is not None and depth == 0 and (ch.isspace()):
            out.append(text[at:i])
            at = None
    return out


def clause_names():
    """The names of each function's clauses, where it has more than one of a kind."""
    found = {}
    for crate in sorted(os.listdir("crates")):
        src = os.path.join("crates", crate, "src")
        for file in sorted(os.listdir(src)) if os.path.isdir(src) else []:
            with open(os.path.join(src, file), encoding="utf-8") as it:
                text = it.read()
            within = None
            for m in re.finditer(r"^impl (\w+)|^\}|^ *(?:pub )?(?:extern \"C\" )?fn (\w+)((?:.*\n)*?)(?= *(?:\{|//|fn |pub fn ))", text, re.M):
                if m.group(1):
                    within = m.group(1)
                elif m.group(2):
                    key = "::".join([crate, *([within] if within else []), m.group(2)])
                    found[key] = {k: re.findall(r"^ *" + k + r" (\w+) \{", m.group(3), re.M) for k in ("ensures", "requires")}
                else:
                    within = None
    return found


CLAUSES = {}


class Function:
    def __init__(self, entry, name=""):
        self.name = name
        self.params = entry["params"]
        self.callees = {}
        self.needs = {same(old): new for old, new in entry["needs"]}
        self.needs_kind = {}
        self.steps = {}
        self.fields = {}
        for place in entry["places"]:
            old, new = place[2]
            if old:
                self.steps.setdefault(same(old), new)
                if place[3]:
                    self.callees.setdefault(same(old), place[3])
                for a, b in place[4]:
                    self.fields[(same(old), a)] = b
        self.loops = []
        for (names, variables), changed in zip(entry["loops"], entry["changed"]):
            self.loops.append((names[0], names[1], variables, changed))
        for old, new in list(self.needs.items()):
            # Beside 'add-t7' an old file says 'overflow-add-t7'.
            self.needs.setdefault("overflow_" + old, new)
            self.needs.setdefault("slice_" + old, new)
            self.needs.setdefault("nonzero_" + old, new)
            if old.startswith("part_"):
                self.needs.setdefault("slice_bounds_" + old[5:], new)
        self.order = [new for old, new in entry["needs"]]

    def goal(self, old):
        return self.needs.get(same(old))

    def loop(self, name):
        for old, new, variables, changed in self.loops:
            if same(old) == same(name):
                return new, variables, changed
        return None


def turn_path(token, roots, f, said):
    """c.before.before.add.result as c.add.result, under the step's new name."""
    parts = token.split(".")
    if parts[0] not in roots:
        return token
    rest = parts[1:]
    while rest and rest[0] == "before":
        rest.pop(0)
    if not rest:
        return "c"
    step = rest[0]
    callee = f.callees.get(same(step))
    if callee and len(rest) > 2 and rest[1] in ("new", "auto") and rest[2].isdigit():
        given = f.params.get(callee, [])
        if int(rest[2]) < len(given):
            rest[2:4 if len(rest) > 3 and rest[3] == "0" else 3] = [given[int(rest[2])]]
    whose, kind = (callee, 1) if callee else (f.name, 0)
    if len(rest) > kind + 1 and rest[kind] in ("ensures", "requires") and rest[kind + 1].isdigit():
        known = CLAUSES.get(whose, {}).get(rest[kind], [])
        if int(rest[kind + 1]) < len(known):
            rest[kind + 1] = known[int(rest[kind + 1])]
    if same(step) in f.steps:
        new = f.steps[same(step)]
        if len(rest) > 1 and (same(step), rest[1]) in f.fields:
            rest[1] = f.fields[(same(step), rest[1])]
        rest[0] = new
    return ".".join(["c", *rest])


def turn_body(body, f, names, said):
    text = "\n".join(body)
    roots = {"c"}
    # let start = turn.before.before in
    while True:
        m = None
        for m in re.finditer(r"let ([\w'-]+) = ([^\s(){};,]+) in\s*", text):
            parts = m.group(2).split(".")
            if parts[0] in roots and all(p == "before" for p in parts[1:]):
                break
        else:
            break
        roots.add(m.group(1))
        text = text[: m.start()] + text[m.end() :]
    text = TOKEN.sub(lambda m: turn_path(m.group(0), roots, f, said), text)
    return TOKEN.sub(lambda m: names.get(m.group(0), m.group(0)), text)


def turn(path, where, entry):
    text = open(path, encoding="utf-8").read()
    said = []
    f = Function(entry, where.replace("Rattle.", "").replace(".proofs.", ".").replace(".", "::"))
    uses, found = blocks(text)
    uses = [u for u in uses if not re.search(r"\.Statement\.\{statement\}|\.Tie as tie|\.Tie\.\{", u)]
    invariants, answers, names, pending, loops = [], [], {}, [], set()
    notes = {}
    for block in found:
        above = []
        while block and block[0].startswith("--"):
            above.append(block.pop(0))
        if not block:
            answers.append("\n".join(above))
            continue
        head = block[0]
        notes[id(block)] = above
        m = re.match(r"^(?:abbrev |unfoldable )?(\S+) : tie\.(invariant|decreases)[-_](\S+)", head)
        if m:
            name, kind, loop = m.groups()
            there = f.loop(loop)
            if not there:
                said.append(f"no loop {loop} (has {[l[0] for l in f.loops]})")
                continue
            new, variables, changed = there
            clause = "\n".join(block[1:])
            mm = re.match(re.escape(name) + r"\s+(.*?)\s*=(?=\s)(.*)$", clause, re.S)
            if not mm:
                said.append(f"{name}: no clause")
                continue
            params = mm.group(1).split()
            want = [v for v, c in zip(variables, changed)] + [v for v, c in zip(variables, changed) if c]
            to = {}
            if len(params) == len(want):
                k = len(variables)
                for p, v, c in zip(params[:k], variables, changed):
                    to[p] = f"l.initial.{v}" if c else f"l.{v}"
                for p, v in zip(params[k:], want[k:]):
                    to[p] = f"l.{v}"
            else:
                said.append(f"{name}: {len(params)} parameters, and not {len(want)}: {params} / {want}")
                for p in params:
                    b = p.rstrip("₀")
                    to[p] = f"l.initial.{b}" if p.endswith("₀") else f"l.{b}"
            def one(m):
                t = m.group(0)
                first, dot, rest = t.partition(".")
                return to[first] + dot + rest if first in to and first != "_" else t
            body = TOKEN.sub(one, mm.group(2))
            goal = f"{kind}-{new}"
            invariants.append("\n".join([*above, f"abbrev pub {goal} : goal.{goal}\n{goal} l ={body}"]))
            names[name] = goal
            loops.add(name)
            continue
        m = re.match(r"^(?:pub )?(\S+) : tie\.Need-(\S+)", head)
        if m:
            name, old = m.groups()
            new = f.goal(old)
            if not new:
                said.append(f"no goal {old} of {sorted(f.needs)}")
                new = "UNKNOWN-" + old
            names[name] = new
            pending.append((name, new, block))
            continue
        if re.match(r"^(?:pub )?\S+_spec :", head):
            tail = "\n".join(block)
            parts = arguments(tail.split("tie.spec", 1)[1]) if "tie.spec" in tail else []
            parts = [x for x in parts if x not in loops]
            if len(parts) == len(f.order):
                for x, new in zip(parts, f.order):
                    m = re.match(r"^\(λ (?:c|_)(?: \S+)?\. (.*)\)$", x, re.S)
                    if m and not TRIVIAL.match(m.group(1).strip()):
                        pending.append(("c_" + new, new, ["", f"c_{new} c = {m.group(1)}"]))
            else:
                for x in parts:
                    if x.startswith("(") and not TRIVIAL.match(re.sub(r"^\(λ [^.]*\. |\)$", "", x)):
                        said.append(f"in spec ({len(parts)} for {len(f.order)}): {x[:120]}")
            continue
        pending.append((None, None, block))
    for name, new, block in pending:
        if name is None:
            answers.append("\n".join([*notes.get(id(block), []), turn_body(block, f, names, said)]))
            continue
        rest = block[1:]
        extra = []
        while rest and not rest[0].startswith(name):
            extra.append(rest.pop(0))
        clause = "\n".join(rest)
        m = re.match(re.escape(name) + r"\s+([^=]*?)\s*=(?=\s)(.*)$", clause, re.S)
        if not m:
            said.append(f"{name}: no clause")
            continue
        params, body = m.group(1).split(), m.group(2)
        if params[:1] != ["c"]:
            said.append(f"{name}: parameters {params}")
        body = turn_body([body], f, {k: v for k, v in names.items()}, said)
        if TRIVIAL.match(body.strip()) and not extra:
            continue
        answers.append("\n".join([*notes.get(id(block), []), f"pub {new} : goal.{new}", *extra, f"{new} c ={body}"]))
    folder = os.path.dirname(path)
    use = "\n".join(uses)
    if invariants:
        with open(os.path.join(folder, "Invariants.antt"), "w", encoding="utf-8") as o:
            o.write(use + f"\nuse {where}.Given as goal\n\n" + "\n\n".join(invariants) + "\n")
    if any(a for a in answers):
        with open(os.path.join(folder, "Answers.antt"), "w", encoding="utf-8") as o:
            o.write(use + f"\nuse {where}.Goals as goal\n\n" + "\n\n".join(answers) + "\n")
    os.remove(path)
    return said


def main(names, crate, *only):
    with open(names, encoding="utf-8") as it:
        entries = json.load(it)
    CLAUSES.update(clause_names())
    entries = {k: v for k, v in entries.items() if "needs" in v}
    top = os.path.join("crates", crate, "proofs")
    for folder, dirs, files in os.walk(top):
        if "Proof.antt" not in files:
            continue
        path = os.path.join(folder, "Proof.antt")
        inner = os.path.relpath(folder, top).replace("/", ".")
        if only and inner not in only:
            continue
        entry = entries.get(f"Rattle-{crate}-proofs.{inner}.Lts")
        with open(path, encoding="utf-8") as it:
            if entry is None or "Tie as tie" not in it.read():
                print(f"{inner}: not turned")
                continue
        for s in turn(path, f"Rattle.{crate}.proofs.{inner}", entry):
            print(f"{inner}: {s}")


main(*sys.argv[1:])
