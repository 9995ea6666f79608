#!/usr/bin/env python3
"""Brings the repository's own definitions and lemmas to the spelling of today's Rattle, once, after port.py.

usage: python3 tools/port_names.py        at the top of the repository

Words are in snake case: takeEligible and take-eligible become take_eligible. Renamed is what a file of specs/ or proofs/
declares, wherever it is used: in specs/, proofs/, clauses, edits and documents. What a file imports from the library keeps
its name there. Two names that would fall together are told apart by OWN. In edits, projections are written tight too.
"""

import collections
import os
import re

ID = re.compile(r"[^\s(){};.,@\"«»|\[\]]+")
HEAD = re.compile(r"^ {0,4}(?:(?:unfoldable|abbrev|pub|private|data|record|instance)\s+)*«?([^\s(){};.,@:«»]+)»?(?: \(.*| \{.*|)? ?:(?: |$)")
# Deeper, in modules within modules, what is public.
DEEP = re.compile(r"^ {5,}pub (?:abbrev )?«?([^\s(){};.,@:«»]+)»?(?: \(.*| \{.*|)? ?:(?: |$)")
USE = re.compile(r"use ([\w.+]+)\.\{([^}]*)\}")

# Names that would fall together with another, and the ones they get.
OWN = {
    "nullMessages": "null_message_count",
    "workerCount": "worker_count_of",
    "fastAndSlow": "fast_and_slow_plan",
    "lookIn": "look_in_table",
    "lastRows": "last_queue_rows",
    "restLists": "lists_of_rest",
    "contentsOf": "contents_of_file",
    "oneIf": "one_if",
    "byTick": "by_tick",
    "fallFrom": "fall_from",
}
LEMMA = {  # a lemma or a field of the name of a definition
    "printed-of", "by-tick", "entity-at", "turned-away", "in-hand", "last-number", "as-given", "own-rows", "step-at",
    "first-tick", "one-if", "refusal-number", "long-payload", "wrong-record", "least-into", "hand-back", "add-initial",
    "read-gvt", "read-counters", "read-pending", "read-earliest", "event-line", "build-numbers", "end-numbers",
    "fall-from", "without-batch", "has-row", "with-run", "bit-or",
}
SNAKE = {"edge_to": "edge_to_holds", "step_run": "step_run_holds", "end_line": "end_line_holds", "too_long": "too_long_holds", "given_back": "given_back_holds"}
# Where a snake name that is a function's too may be renamed: the files of these declarations and their uses.
SNAKE_FILES = {
    "edge_to": ("crates/frontiers/proofs/RaisingBounds.antt",),
    "step_run": ("crates/rules/proofs/Cases.antt",),
    "end_line": ("crates/plan_text/proofs/Lines.antt", "crates/plan_text/proofs/put_end/Proof.antt"),
    "given_back": ("crates/host_hand_back/proofs/Closing.antt",),
    "too_long": ("crates/plan_rules/proofs/Program.antt",),
}
# Of proofs that walk code by hand, which cite what Rattle made.
KEPT = {"Given-back", "Nearer-wf"}


def files(root, ends):
    for folder, dirs, names in os.walk(root):
        dirs[:] = sorted(d for d in dirs if d not in ("out", ".git", "target", "unfinished"))
        for f in sorted(names):
            if f.endswith(ends):
                yield os.path.join(folder, f)


def read(p):
    with open(p, encoding="utf-8") as f:
        return f.read()


def snake(w):
    return re.sub(r"([a-z0-9'])([A-Z])", r"\1_\2", w.replace("-", "_")).lower()


def wants(w):
    return w not in KEPT and (re.search(r"[A-Za-z0-9'_]-[A-Za-z0-9]", w) or re.match(r"^[a-z][a-z0-9_']*[A-Z]", w))


def names():
    made = {}
    for p in files("crates", (".antt",)):
        for line in read(p).split("\n"):
            m = HEAD.match(line) or DEEP.match(line)
            if m and wants(m.group(1)):
                w = m.group(1)
                made[w] = OWN.get(w) or (snake(w) + "_holds" if w in LEMMA else snake(w))
    return made


def foreign(text):
    """What a file imports from outside the repository."""
    found = set()
    for m in USE.finditer(text):
        root = m.group(1).split(".")
        if root[0] == "Rattle" and os.path.isdir(os.path.join("crates", root[1])):
            continue
        found |= {w.strip().split(" as ")[0] for w in m.group(2).split(",")}
    return found


def split(line, mark):
    """The code of a line, and its comment."""
    m = re.search(r"(^|\s)" + mark + r"(\s|$)", line)
    return (line[: m.start()], line[m.start() :]) if m else (line, "")


def other_words(text):
    """The library has an operator if◌then◌else◌, and no other thing may have its name: ours reads `if a then b otherwise c`."""
    text = text.replace("if◌then◌else◌", "if◌then◌otherwise◌")
    return re.sub(r"(?<![\w.'◌-])else(?![\w.'◌-])", "otherwise", text)


def turn_code(text, new):
    text = re.sub(r"«([^»]+)»", lambda m: new.get(m.group(1), m.group(0)), text)
    return ID.sub(lambda m: new.get(m.group(0), m.group(0)), text)


def turn_prose(text, new):
    """camelCase anywhere; names with hyphens in backquotes and in paths (a place of a file) alone."""
    text = re.sub(r"[A-Za-z0-9_']+", lambda m: new.get(m.group(0), m.group(0)) if re.search("[a-z][A-Z]", m.group(0)) else m.group(0), text)
    return re.sub(r"`[^`\n]*`", lambda m: turn_code(m.group(0)[1:-1], new).join("``"), text)


def turn_lines(text, new, mark):
    out = []
    for line in text.split("\n"):
        code, prose = split(line, mark)
        code = other_words(code) if mark == "--" else code.replace("if◌then◌else◌", "if◌then◌otherwise◌")
        out.append(turn_code(code, new) + turn_prose(prose, new))
    return "\n".join(out)


def turn_edit(text, new):
    out, file = [], ""
    for line in text.split("\n"):
        file = line[6:] if line.startswith("file: ") else file
        m = re.match(r"(old|new): ?(.*)$", line)
        if m:
            body = re.sub(r"\((\w+'?) \.([\w-]+)\)", r"\1.\2", m.group(2))
            body = re.sub(r"⌜ | ⌝", "", body)
            body = other_words(body) if file.endswith(".antt") else body
            out.append(m.group(1) + ": " + turn_code(body, new))
        else:
            out.append(turn_prose(line, new))
    return "\n".join(out)


def main():
    new = names()
    fell = collections.Counter(new.values())
    for w, n in sorted(new.items()):
        if fell[n] > 1:
            print("falls together:", w, n)
    for p in files(".", (".antt", ".rt", ".edit", ".md", ".h", "/where", "/slips", "/mixups")):
        text = read(p)
        if p.endswith(".antt"):
            theirs = foreign(text)
            here = {w: n for w, n in new.items() if w not in theirs}
            for w, n in SNAKE.items():
                if p[2:] in SNAKE_FILES[w]:
                    here[w] = n
            after = turn_lines(text, here, "--")
        elif p.endswith(".rt"):
            camel = {w: n for w, n in new.items() if "-" not in w}
            after = turn_lines(text, camel, "//")
        elif p.endswith(".edit"):
            after = turn_edit(text, new)
        else:
            after = turn_prose(text, new)
        if after != text:
            with open(p, "w", encoding="utf-8") as f:
                f.write(after)


main()
