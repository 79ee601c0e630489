#!/usr/bin/env python3
"""Brings the repository's own names to the spelling of today's Rattle.

usage: python3 tools/respell.py        at the top of the repository, once, right after port.py

Functions, lemmas and fields become words joined by `_` (`rowBytes` and `row-bytes` are `row_bytes`); a type and a fact
keep their capitals. Names of functions of src/, exported names, strings, inputs and outputs stay. A name that Rattle
makes of a function or a variable of src/ is spelled as it is there. Docs follow in backquotes, edits in their lines.
It prints names that fall together, and changes nothing where there are any.
"""
import collections
import glob
import os
import re
import sys

TOKEN = re.compile(r"[^\s()\[\]{};,.:\"`|]+")
HEAD = re.compile(r"(?m)^(?:abbrev |unfoldable |pub |private |record |data |ruleset )*([^\s:({\[]+)(?: [({].*)? :(?!:)")
LOCAL = re.compile(r"[a-z][a-z0-9]+[A-Z][A-Za-z]*$")
FIELD = re.compile(r"(?m)^ +(?:abbrev |pub )*([^\s:({\[]+)(?: [({][^:\n]*:.*)? :(?!:)")
USE = re.compile(r"(?m)^(?:ghost )?use ([^\s{]+)(?:\{([^}]*)\})?")
# A function that is no type and a type that is no function, by the rule; and what would be a variable's name.
OTHER = {"in_tree": "InTreeAt", "X": "worst_of", "X-zero": "worst_of_zero", "X-one": "worst_of_one",
         "X-above": "worst_of_above", "X-attained": "worst_of_attained", "Nearer-wf": "nearer_wf",
         # A lemma that would have its function's name, and a field that would have its function's.
         "cost-for": "cost_for_lem", "parts-cost": "parts_cost_lem", "row-bytes": "row_bytes_lem", "shop-line": "line_of_shop"}


def snake(name):
    """`rowBytes-append` as `row_bytes_append`."""
    if name in OTHER:
        return OTHER[name]
    head = name.lstrip("+μ-")
    if not head or not head[0].islower():
        return name
    return re.sub(r"([a-z0-9])([A-Z])", lambda m: m.group(1) + "_" + m.group(2).lower(), name).replace("-", "_")


def read(path):
    with open(path, encoding="utf-8") as f:
        return f.read()


def files(pattern):
    return sorted(p for p in glob.glob(pattern, recursive=True) if os.path.isfile(p))


def own_names(specs, lemmas):
    """Every name that specs/ and the lemma files declare, and every field."""
    names = set()
    for path in specs + lemmas:
        text = read(path)
        names.update(HEAD.findall(text))
        names.update(FIELD.findall(text))
    return names


def source_names(sources):
    """Names of src/ as an older Rattle spelled them in proofs, with dashes."""
    names = set()
    for path in sources:
        text = re.sub(r"//.*", "", read(path))
        names.update(w for w in re.findall(r"\b[a-z][a-z0-9]*(?:_[a-z0-9]+)+\b", text))
    return {w.replace("_", "-"): w for w in names}


def imported(text):
    """What a file takes from modules that are not the repository's."""
    names = set()
    for path, items in USE.findall(text):
        crate = path.split(".")[1] if path.startswith("Rattle.") else ""
        if not (path.startswith("Rattle.") and os.path.isdir("crates/" + crate)):
            names.update(w.strip().split(" as ")[0] for w in items.split(",") if w.strip())
    return names


def glossary(before, after):
    """Keeps the second column of a head comment's list where it stood."""
    out = []
    for old, new in zip(before, after):
        m = re.match(r"(--   .*?\S)(\s{2,})(\S.*)$", new)
        n = re.match(r"(--   .*?\S)(\s{2,})(\S.*)$", old)
        if m and n and old != new:
            column = len(n.group(1)) + len(n.group(2))
            new = m.group(1) + " " * max(2, column - len(m.group(1))) + m.group(3)
        out.append(new)
    return out


def main():
    os.chdir(os.path.join(os.path.dirname(os.path.abspath(__file__)), ".."))
    specs = files("crates/*/specs/**/*.antt")
    lemmas = files("crates/*/proofs/*.antt")
    walks = [p for p in files("crates/*/proofs/**/*.antt") if p not in lemmas]
    sources = files("crates/*/src/**/*.rt")
    own = own_names(specs, lemmas)
    table = {n: snake(n) for n in own if snake(n) != n}
    met = collections.defaultdict(set)
    for n in own:
        met[table.get(n, n)].add(n)
    clash = {k: v for k, v in met.items() if len(v) > 1}
    # Two spellings of one word may stand in two files that never meet.
    bad = []
    for new, olds in sorted(clash.items()):
        for path in specs + lemmas + walks + sources:
            here = olds & set(TOKEN.findall(read(path)))
            if len(here) > 1:
                bad.append(f"{path}: {', '.join(sorted(here))} all become {new}")
    if bad:
        print("\n".join(bad))
        return 1
    made = source_names(sources)

    def respell(text, names, skip=frozenset()):
        def one(m):
            name = m.group()
            # X is the paper's word for a worst count in comments, and a collision in quoted texts.
            line = text[text.rfind("\n", 0, m.start()) + 1:m.start()]
            told = line.startswith(("--", "//")) and not text.startswith(" m n k", m.end())
            if name in skip or (name == "X" and (told or line.count('"') % 2)):
                return name
            return names.get(name, snake(name) if LOCAL.match(name) else name)

        return TOKEN.sub(one, text)

    for path in specs + lemmas + walks + sources:
        text = read(path)
        skip = imported(text)
        names = dict(table)
        if path in walks:
            # A proof's own labels keep the dashes of the goals that they answer; the name of the proof is the function's.
            names.update(made)
            for n in HEAD.findall(text):
                names.pop(n, None)
                if n.endswith("-spec"):
                    names[n] = n.replace("-", "_")
                elif snake(n).count("_") and "-" not in n:
                    names[n] = snake(n)
        elif path not in sources:
            names.update({k: v for k, v in made.items() if k not in names})
        new = respell(text, names, skip)
        lines = glossary(text.split("\n"), new.split("\n"))
        new = "\n".join(lines)
        if new != text:
            with open(path, "w", encoding="utf-8") as f:
                f.write(new)
    # Edits and pages still have every name in the old spelling, those too that port.py turned.
    now = {table.get(n, n) for n in own}
    for path in files("crates/*/must-fail/*.edit") + ["README.md"] + files("docs/*.md"):
        for n in TOKEN.findall(read(path)):
            if n not in table and n not in now and snake(n) in now:
                table[n] = snake(n)
    for path in files("crates/*/must-fail/*.edit"):
        text = read(path)
        new = "\n".join(respell(l, table) if l.startswith(("old:", "new:")) else l for l in text.split("\n"))
        if new != text:
            with open(path, "w", encoding="utf-8") as f:
                f.write(new)
    for path in ["README.md"] + files("docs/*.md"):
        text = read(path)
        new = re.sub(r"`[^`\n]+`", lambda m: respell(m.group(), table, {"X"}), text)
        if new != text:
            with open(path, "w", encoding="utf-8") as f:
                f.write(new)
    return 0


if __name__ == "__main__":
    sys.exit(main())
