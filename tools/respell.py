#!/usr/bin/env python3
"""Brings the repository's own names to the spelling of today's Rattle: a definition or lemma in snake case.

usage: tools/respell.py [--check] [FOLDER]

    firstIllFormed, asComment-bounded, lowerA  ->  first_ill_formed, as_comment-bounded, lower_a

The grammar's ordered choice, ◌/◌, becomes ◌//◌, since the kit keeps the name for division.

It runs once, right after the kit's port.py, at the top of the repository (or of FOLDER): in the .antt and .rt files and the edits below
crates/, outside strings, and in the words of README.md and docs/ that stand in back quotes. It lists the names that fall together with
another name of the same file; --check lists them and writes nothing. Names of src/ are in snake case already, and stay.
"""
import os
import re
import sys

CAMEL = re.compile(r"(?<![A-Za-z0-9_'])[a-z][a-z0-9]*(?:[A-Z][a-z0-9]*)+(?![A-Za-z0-9_'])")
WORD = re.compile(r"(?<![A-Za-z0-9_'])[a-z][a-z0-9_]*(?![A-Za-z0-9_'])")
STRING = re.compile(r'b?"(?:[^"\\\n]|\\.)*"')
# Names that a respelled one would fall together with in their file: these are renamed first.
FIRST = {
    "crates/standard/specs/Arguments.antt": {"same_bytes": "same-flip", "named_value": "literal-named"},
}


# Where an operator of the repository's own has the name of one of the kit's.
CHOICE = "crates/standard/"


def choice(text):
    """Ordered choice under its new name, outside comments."""
    out = []
    for line in text.split("\n"):
        at = line.find("--")
        code, comment = (line, "") if at < 0 else (line[:at], line[at:])
        out.append(re.sub(r"(?<!\S)/(?!\S)", "//", code).replace("◌/◌", "◌//◌") + comment)
    return "\n".join(out)


def snake(name):
    return re.sub(r"[A-Z]", lambda m: "_" + m.group().lower(), name)


def outside_strings(text, turn):
    out, end = [], 0
    for m in STRING.finditer(text):
        out += [turn(text[end : m.start()]), m.group()]
        end = m.end()
    return "".join(out + [turn(text[end:])])


def files(top):
    for folder, dirs, names in os.walk(os.path.join(top, "crates")):
        dirs[:] = sorted(d for d in dirs if d != "out")
        for name in sorted(names):
            if name.endswith((".antt", ".rt", ".edit")):
                yield os.path.join(folder, name)


def main(argv):
    check = "--check" in argv
    top = next((a for a in argv if not a.startswith("--")), ".")
    own, together = set(), []
    for path in files(top):
        text = first = open(path, encoding="utf-8").read()
        for old, new in FIRST.get(os.path.relpath(path, top), {}).items():
            if old in {snake(m.group()) for m in CAMEL.finditer(text)}:
                first = re.sub(rf"(?<![A-Za-z0-9_'-]){old}(?![A-Za-z0-9_'-])", new, first)
        bare = outside_strings(first, lambda t: t)
        found = {m.group() for m in CAMEL.finditer(STRING.sub("", bare))}
        own |= found
        words = {m.group() for m in WORD.finditer(STRING.sub("", bare))}
        together += [f"{path}: {n} and {snake(n)}" for n in sorted(found) if snake(n) in words]
        turned = outside_strings(first, lambda t: CAMEL.sub(lambda m: snake(m.group()), t))
        if os.path.relpath(path, top).startswith(CHOICE) and path.endswith(".antt"):
            turned = choice(turned)
        if not check and turned != text:
            open(path, "w", encoding="utf-8").write(turned)
    by_name = {}
    for n in own:
        by_name.setdefault(snake(n), []).append(n)
    together += [f"two names: {v}" for v in by_name.values() if len(v) > 1]
    pages = [os.path.join(top, "README.md")]
    for folder, _, names in os.walk(os.path.join(top, "docs")):
        pages += [os.path.join(folder, n) for n in sorted(names) if n.endswith(".md")]
    for path in pages:
        text = open(path, encoding="utf-8").read()
        inside = lambda m: CAMEL.sub(lambda n: snake(n.group()) if n.group() in own else n.group(), m.group())
        turned = re.sub(r"`[^`\n]+`", inside, text)
        if not check and turned != text:
            open(path, "w", encoding="utf-8").write(turned)
    print("\n".join(together))
    print(f"{len(own)} names")


if __name__ == "__main__":
    main(sys.argv[1:])
