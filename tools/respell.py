#!/usr/bin/env python3
"""Brings the repository's own definitions and lemmas to today's spelling.

usage: python3 tools/respell.py [--list]     at the top of the repository, once, right after the kit's port.py

Words are in snake case, types and facts in camel case. Names that the kit makes (goals, steps of a proof, `goal.x`, `c.x`) stay, and so do
functions, strings and the kit's own words. With --list it only prints what it would rename, and what would fall together.
"""

import os
import re
import sys

# what a word of antt is made of
WORD = re.compile(r"[^\s(){}\[\],.;:=→×λ|∷\"`⟨⟩⌜⌝∥!]+")
DECLARED = re.compile(r"^\s*(?:(?:abbrev|unfoldable|pub|private) )*([^\s:(){},.;=λ]+) :(?= |$)(.*)$")
HEAD = re.compile(r"^\s*(?:pub )?(?:record|data) ([^\s:(){},.;=]+)")
# ghost fields of src/
GHOST_FIELDS = {"usedWithin": "used_within", "nodesAre": "nodes_are", "entriesAre": "entries_are", "lawfulIs": "lawful_is"}
# names that would fall together with another, and what they are called instead
INSTEAD = {
    "new-name": "new_name_lem",
    "nodes-in": "nodes_in_lem",
    "entries-in": "entries_in_lem",
    "node_in": "node_in_lem",
    "orMore": "more_or",
    "andMore": "more_and",
    "by_parts": "by_parts_lem",
    "goes_on": "goes_on_lem",
    "bit-or": "bit_or_lem",
    "depth-of": "depth_of_lem",
}


def files(kinds):
    for folder, dirs, names in os.walk("crates"):
        dirs[:] = sorted(d for d in dirs if d != "out")
        for name in sorted(names):
            if name.endswith(kinds):
                yield os.path.join(folder, name)


def read(path):
    with open(path, encoding="utf-8") as f:
        return f.read()


def declared():
    """Each own name with the first type that it is declared at; and the names that are goals."""
    own, goals = {}, set()
    for path in files((".antt",)):
        for line in read(path).splitlines():
            m = HEAD.match(line)
            if m:
                own.setdefault(m[1], "Type 0")
                continue
            m = DECLARED.match(line)
            if not m:
                continue
            if m[2].strip().startswith("goal."):
                goals.add(m[1])
            else:
                own.setdefault(m[1], m[2])
    return own, goals


def spelled(name):
    parts = []
    for part in name.split("-"):
        if not part:
            return name
        parts += re.sub(r"(?<=[a-z0-9])(?=[A-Z])", "_", part).split("_") if part[0].islower() else [part]
    if name[0].isupper() and len(parts[0]) > 1:
        return "".join(p[0].upper() + p[1:] for p in parts)
    return "_".join(p if p == "T" else p.lower() for p in parts)


def renamings():
    own, goals = declared()
    new = {}
    for name in own:
        if name in goals:
            continue
        if name in INSTEAD or "-" in name or re.match(r"[a-z0-9_]*[a-z0-9][A-Z]", name):
            to = INSTEAD.get(name, spelled(name))
            if to != name:
                new[name] = to
    return own, goals, new


def turned(text, new):
    """The text with its own names respelled: not behind a dot, unless a module or a type stands before it or it is a field of ours."""
    out, at = [], 0
    for m in WORD.finditer(text):
        w = m[0]
        lead = re.match(r"^[¬]*", w)[0]
        core = w[len(lead):]
        if core not in new:
            continue
        if m.start() and text[m.start() - 1] == ".":
            before = re.search(r"([^\s(){},;]*)\.$", text[: m.start()])[1].split(".")[-1]
            if before == "goal" or not (before[:1].isupper() or core in FIELDS):
                continue
        out += [text[at : m.start() + len(lead)], new[core]]
        at = m.end()
    return "".join(out) + text[at:]


FIELDS = set()


def fields():
    for path in files((".antt",)):
        inside = None
        for line in read(path).splitlines():
            if re.match(r"\s*(?:pub )?record .* where", line):
                inside = len(line) - len(line.lstrip())
                continue
            if inside is not None and line.strip() and not line.strip().startswith("--"):
                if len(line) - len(line.lstrip()) <= inside:
                    inside = None
                    continue
                m = DECLARED.match(line)
                if m:
                    FIELDS.add(m[1])


def apart(new):
    """What would fall together: in one file two names that become one, or a name that becomes one which the file has."""
    said = []
    for path in files((".antt", ".rt")):
        words = set(WORD.findall(read(path)))
        seen = {}
        for w in sorted(words):
            to = new.get(w, w)
            if to in seen and (w in new or seen[to] in new):
                said.append(f"{path}: {w} and {seen[to]} become {to}")
            seen[to] = w
    return said


def page(text, known):
    """A page with the names in back quotes respelled, those too that the kit's script has turned."""

    def word(m):
        to = known.get(m[0]) or spelled(m[0])
        return to if m[0] in known or to in known.values() else m[0]

    return re.sub(r"`[^`\n]+`", lambda m: re.sub(r"\b[a-z][a-z0-9]*[A-Z]\w*\b", word, m[0]), text)


def main(argv):
    own, goals, new = renamings()
    fields()
    if "--list" in argv:
        for a, b in sorted(new.items()):
            print(f"{a} -> {b}")
        print("\n".join(apart(new)))
        return 0
    for path in files((".antt", ".rt", ".edit")):
        was = text = read(path)
        for field, snake in GHOST_FIELDS.items():
            text = re.sub(rf"(?<![\w-]){field}(?![\w-])", snake, text)
        if path.endswith(".antt"):
            to = turned(text, new)
        else:
            to = re.sub(r"(?<![\w.-])[a-z][\w-]*\w(?![\w-])", lambda m: new.get(m[0], m[0]) if re.search(r"[A-Z]", m[0]) or "-" in m[0] else m[0], text)
        if to != was:
            with open(path, "w", encoding="utf-8") as f:
                f.write(to)
    known = {name: name for name in own} | new
    for path in ["README.md"] + sorted(os.path.join("docs", f) for f in os.listdir("docs")):
        if path.endswith(".md"):
            text = read(path)
            with open(path, "w", encoding="utf-8") as f:
                f.write(page(text, known))
    return 0


if __name__ == "__main__":
    raise SystemExit(main(sys.argv[1:]))
