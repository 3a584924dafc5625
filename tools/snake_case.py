#!/usr/bin/env python3
"""Respells this repository's own definitions and lemmas in snake case: `cursorAt` becomes `cursor_at`, `decided-fits` becomes
`decided_fits`.

usage: tools/snake_case.py [FOLDER]     at the top of the repository, or of a copy of it, once, behind the kit's port.py

It renames what specs/ and proofs/ define, and each mention of it: in specs/, proofs/, the clauses and `ghost use` lines of src/, the
must-fail edits, and the backquoted names of comments and pages. Functions of src/, strings and what a proof answers (the goals'
names) stay. Where a lemma would fall together with a definition or another lemma, it gets `_lem` behind its name. It prints each
name with its new one.
"""

import collections
import glob
import os
import re
import sys

STRING = re.compile(r'"(?:[^"\\]|\\.)*"')
TOKEN = re.compile(r"((?:[^\s(){}\[\];,.:\"«»`|]+\.)?)([^\s(){}\[\];,.:\"«»`|]+)")
DEFINED = re.compile(r"^ *(?:(?:pub|abbrev|unfoldable|data|ruleset)\s+)*([a-z][A-Za-z0-9_'+-]*)\s*:\s*(.*)")
FIELD = re.compile(r"^  +(?:pub )?([a-z][A-Za-z0-9_'-]*) :")
GOAL = re.compile(r"^(tie\.|statement\b|goal\.)")


def snake(name):
    name = re.sub(r"([a-z0-9])([A-Z])", lambda m: m.group(1) + "_" + m.group(2).lower(), name)
    return name.replace("-", "_")


def read(path):
    with open(path, encoding="utf-8") as f:
        return f.read()


def files(root):
    antt = []
    for part in ("specs", "proofs"):
        antt += glob.glob(os.path.join(root, "crates", "*", part, "**", "*.antt"), recursive=True)
    rt = glob.glob(os.path.join(root, "crates", "*", "src", "**", "*.rt"), recursive=True)
    edits = glob.glob(os.path.join(root, "crates", "*", "must-fail", "*.edit"))
    pages = glob.glob(os.path.join(root, "*.md")) + glob.glob(os.path.join(root, "docs", "**", "*.md"), recursive=True)
    return sorted(antt), sorted(rt), sorted(edits), sorted(pages)


def foreign(paths):
    """The names that some file imports from a library: they stay, also where this repository has a name of that spelling."""
    own = {re.search(r"crates.(\w+).(?:specs|proofs)", path).group(1) for path in paths}
    names = set()
    for path in paths:
        for found in re.finditer(r"(?m)^\s*(?:pub )?use ([^\s{]+)\.\{([^}]*)\}", read(path)):
            parts = found.group(1).split(".")
            if parts[0] != "Rattle" or parts[1] not in own:
                names |= {name.strip().split(" as ")[0] for name in found.group(2).split(",")}
    return names


def defined(paths):
    """The names to be respelled, the fields among them, the names that proofs answer by, and the lemmas in snake case already."""
    old, answers, fields, lemmas = collections.OrderedDict(), set(), set(), set()
    for path in paths:
        proof = os.path.basename(path) in ("Proof.antt", "Answers.antt", "Invariants.antt")
        for line in read(path).split("\n"):
            found = DEFINED.match(line)
            if found and proof and line.startswith(" "):
                continue
            if found and proof and GOAL.match(found.group(2)):
                answers.add(found.group(1))
                continue
            if found and not proof and line.startswith(" "):
                fields.add(found.group(1))
            if found and snake(found.group(1)) != found.group(1):
                old.setdefault(found.group(1), path)
            elif found and "/proofs/" in path:
                lemmas.add(found.group(1))
    return [name for name in old if name not in answers], fields, lemmas


def spoken(text):
    """The names that stand alone in a file: no part of a path, no field, no comment, no string."""
    text = re.sub(r"(?m)^\s*--.*$", "", STRING.sub("", text))
    return {m.group(2) for m in TOKEN.finditer(text) if not m.group(1) and text[m.start() - 1 : m.start()] != "."}


def renaming(names, lemmas, tokens):
    taken, new = set(), {}
    # Definitions first, so that it is the lemma that gives way.
    for name in sorted(names, key=lambda n: ("-" in n, n)):
        to = snake(name)
        if to in lemmas and "-" not in name:
            new[to] = to + "_lem"
        while to in taken or (to in tokens and to not in new):
            to += "_lem"
        taken.add(to)
        new[name] = to
    return new


def turned(text, new, fields):
    """The text with its names respelled, outside strings. Behind a dot only a field is ours, or what a module has."""

    def one(found):
        before, name = found.groups()
        if before and not before[0].isupper():
            return before + (snake(name) if name in fields else name)
        return before + new.get(name, name)

    parts, at = [], 0
    for string in STRING.finditer(text):
        parts += [TOKEN.sub(one, text[at : string.start()]), string.group()]
        at = string.end()
    parts.append(TOKEN.sub(one, text[at:]))
    return "".join(parts)


def in_backquotes(text, new, fields):
    return re.sub(r"`[^`\n]+`", lambda m: turned(m.group(), new, fields), text)


def antt(text, new, fields, in_specs=True):
    lines = []
    for line in text.split("\n"):
        if line.lstrip().startswith("--"):
            lines.append(in_backquotes(line, new, fields))
        else:
            field = FIELD.match(line)
            if field and in_specs and field.group(1) in fields:
                line = line.replace(field.group(1), snake(field.group(1)), 1)
            lines.append(turned(line, new, fields))
    return "\n".join(lines)


def proof(text, new, fields):
    return antt(text, new, fields, False)


def rust(text, new, fields):
    """Only what stands in `ghost use` lines and in clauses is antt's."""
    lines, depth = [], 0
    for line in text.split("\n"):
        bare = STRING.sub('""', line.split("//")[0] if line.lstrip().startswith("//") else line)
        if line.lstrip().startswith("//"):
            lines.append(in_backquotes(line, new, fields))
        elif depth or re.match(r"\s*(ghost|requires|ensures)\b", line):
            lines.append(turned(line, new, fields))
            depth += bare.count("{") - bare.count("}")
        else:
            lines.append(line)
    return "\n".join(lines)


def edit(text, new, fields):
    return "\n".join(turned(line, new, fields) if re.match(r"(old|new):", line) else in_backquotes(line, new, fields) for line in text.split("\n"))


def main(argv):
    root = argv[0] if argv else "."
    specs_and_proofs, sources, edits, pages = files(root)
    names, fields, lemmas = defined(specs_and_proofs)
    names = [name for name in names if name not in foreign(specs_and_proofs)]
    tokens = set()
    for path in specs_and_proofs:
        tokens |= spoken(read(path))
    new = renaming(names, lemmas, tokens - fields)
    specs = [path for path in specs_and_proofs if "/specs/" in path]
    proofs = [path for path in specs_and_proofs if "/specs/" not in path]
    for turn, paths in ((antt, specs), (proof, proofs), (rust, sources), (edit, edits), (in_backquotes, pages)):
        for path in paths:
            before = read(path)
            after = turn(before, new, fields)
            if after != before:
                with open(path, "w", encoding="utf-8") as f:
                    f.write(after)
    for name in sorted(new):
        print(name, new[name])


if __name__ == "__main__":
    main(sys.argv[1:])
