#!/usr/bin/env python3
"""Lists the lemmas of crates/*/proofs/*.antt that no proof, definition or clause cites: `tools/uncited.py [FOLDER]`.

What counts as a lemma is each name that such a file declares by `name : ..`, public or private, at any indent, so in
modules within modules too; a name that a file declares twice counts once. Fields of records don't count, nor do the
helpers behind a clause's own `where`, which nothing else can cite.

A name counts as cited where it stands anywhere but in its own signature and clauses. A name that README.md or docs/ gives
is marked with `named`: it is there to be read.
"""
import pathlib
import re
import sys

WORD = r"[^\s(){}\[\],.;:]+"
HEAD = r"(?:(?:pub|abbrev|unfoldable|unfold) )*"
DECLARED = re.compile(r" *" + HEAD + "(" + WORD + r") :(?:\s|$)")
SCOPE = re.compile(r" *" + HEAD + r"(module|record)\b(?! \{)")
OTHER = re.compile(r" *" + HEAD + r"(?:use|ruleset)\b")


def whole(name):
    return re.compile(r"(?<![\w'-])" + re.escape(name) + r"(?![\w'-])")


def texts(top):
    crates = top / "crates"
    found = [*crates.glob("*/proofs/**/*.antt"), *crates.glob("*/specs/*.antt"), *crates.glob("*/src/*.rt")]
    return {path: path.read_text(encoding="utf8") for path in sorted(found)}


def indent(line):
    return len(line) - len(line.lstrip())


def lemmas(lines):
    """The blocks of each lemma, by its name: from its signature up to the next signature that lies no deeper."""
    starts, scopes, opening = [], [], None
    for number, line in enumerate(lines):
        if not line.strip() or line.lstrip().startswith("--"):
            continue
        depth = indent(line)
        while scopes and depth <= scopes[-1][1]:
            scopes.pop()
        if opening and depth <= opening[1]:
            opening = None
        scope, declared = SCOPE.match(line), DECLARED.match(line)
        if scope:
            opening = (scope.group(1), depth)
            starts.append((number, depth, None))
        elif OTHER.match(line):
            starts.append((number, depth, None))
        elif declared and not opening:
            inner = scopes and scopes[-1][0] == "record" or any(kind == "clause" for kind, _ in scopes)
            starts.append((number, depth, None if inner else declared.group(1)))
        if line.strip() == "where" or line.endswith(" where"):
            scopes.append(opening or ("clause", depth))
            opening = None
    blocks = {}
    for place, (number, depth, name) in enumerate(starts):
        if name:
            further = [n for n, d, _ in starts[place + 1 :] if d <= depth]
            blocks.setdefault(name, []).append((number, further[0] if further else len(lines)))
    return blocks


def cited(name, path, blocks, files):
    """Whether the name stands anywhere but in its own blocks."""
    word = whole(name)
    for other, text in files.items():
        if name not in text:
            continue
        if other == path:
            lines = text.split("\n")
            for first, end in blocks:
                lines[first:end] = [""] * (end - first)
            text = "\n".join(lines)
        if word.search(text):
            return True
    return False


def main():
    top = pathlib.Path(sys.argv[1] if len(sys.argv) > 1 else ".")
    files = texts(top)
    pages = [top / "README.md", *(p for p in (top / "docs").glob("*.md") if p.name not in ("PORT.md", "DESIGN-PASS.md"))]
    said = "\n".join(page.read_text(encoding="utf8") for page in pages)
    count, lines = 0, []
    for path, text in files.items():
        if path.parent.name != "proofs" or path.name == "Lib.antt":
            continue
        for name, blocks in sorted(lemmas(text.split("\n")).items()):
            count += 1
            if not cited(name, path, blocks, files):
                lines.append(f"{path.relative_to(top / 'crates')}: {name}" + (" (named)" if whole(name).search(said) else ""))
    print(*lines, sep="\n")
    print(f"{count} lemmas, {len(lines)} cited by nothing")


main()
