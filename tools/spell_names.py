#!/usr/bin/env python3
"""Spells this repository's own definitions and lemmas as today's Rattle does: words in snake case, types in camel case.

usage: tools/spell_names.py FOLDER     (the top of a checkout)

It turns each hyphenated name that a file of specs/ or proofs/ declares or gives, wherever it stands in specs/, proofs/, the clauses of src/ and the
planted bugs. The names that the prover makes of code, and the library's, keep their hyphens; so do comments, strings and character literals.
It was run once, right after the library's older names had been turned.
"""
import re
import sys
from pathlib import Path

NAME = r"[A-Za-z][\w']*(?:-[\w']+)+"
USED = re.compile(r"(?<![\w'\u25cc-])" + NAME)
DECLARED = re.compile(r"\s*(?:abbrev |unfoldable )?(?:pub )?((?:[\w'-]+ )*[\w'-]+) :(?=\s|$)(?!\s*(?:goal|given)\.)")
TYPE = re.compile(r"\s*(?:pub )?(?:record|data) (" + NAME + ")")
ALIAS = re.compile(r"(?<= as )" + NAME)
TEXTS = re.compile(r'b?"(?:[^"\\]|\\.)*"|b?\'(?:[^\'\\]|\\.)\'')
COMMENTS = {".antt": r"(?:^|(?<=\s))--(?=\s|$)", ".rt": r"//", ".edit": r"//"}
# would fall together with a function of the same file
OTHERWISE = {"with-sign": "under_sign"}


def spelled(name):
    if name in OTHERWISE:
        return OTHERWISE[name]
    parts = name.split("-")
    if name[0].isupper():
        return "".join(part[0].upper() + part[1:] for part in parts)
    return "_".join(parts)


def code_of(line, comment):
    cut = re.search(comment, line)
    return line[: cut.start()] if cut else line


def declared(files):
    names = set()
    for path in files:
        if path.suffix != ".antt":
            continue
        for line in path.read_text(encoding="utf-8").splitlines():
            code = code_of(line, COMMENTS[".antt"])
            found = DECLARED.match(code)
            if found and not found.group(1).startswith("let "):
                names |= {name for name in found.group(1).split() if re.fullmatch(NAME, name)}
            if found := TYPE.match(code):
                names.add(found.group(1))
            names |= set(ALIAS.findall(code))
    return names


def turned(line, comment, names):
    """The line with the names turned, outside of strings, character literals and what follows a comment's mark."""
    code = code_of(line, comment)

    def spell(part):
        return USED.sub(lambda m: spelled(m.group()) if m.group() in names else m.group(), part)

    out, at = [], 0
    for text in TEXTS.finditer(code):
        out += [spell(code[at : text.start()]), text.group()]
        at = text.end()
    return "".join(out) + spell(code[at:]) + line[len(code) :]


def main():
    if len(sys.argv) != 2:
        print(__doc__, file=sys.stderr)
        return 2
    files = [path for path in sorted(Path(sys.argv[1], "crates").rglob("*")) if path.suffix in COMMENTS and "out" not in path.parts]
    names = declared(files)
    for path in files:
        old = path.read_text(encoding="utf-8")
        new = "".join(turned(line, COMMENTS[path.suffix], names) for line in old.splitlines(keepends=True))
        if new != old:
            path.write_text(new, encoding="utf-8")
    return 0


if __name__ == "__main__":
    sys.exit(main())
