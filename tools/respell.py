#!/usr/bin/env python3
"""Brings the repository's own definitions and lemmas to the spelling of today's Rattle: words in snake case.

usage: tools/respell.py        at the top of the repository, once, after the kit's port.py

A name of our own that is written camelCase becomes snake_case. A dash stays where it joins the names of two definitions, as in
`sum-set`; elsewhere a plain word is added with `_`, as in `round_trip`. Names of Rattle source, of the library and of what Rattle makes
for proofs keep theirs. It goes over .antt files, over clauses, ghost lines and comments of .rt files, over the edits, and over names
that the pages quote. It stops, and writes nothing, where two names of one file would fall together.
"""

import collections
import glob
import re
import sys

WORD = r"[A-Za-zα-ωΑ-Ω_][\w'₀-₉-]*"
TOKEN = re.compile(rf"(?<![\w'₀-₉◌·-]){WORD}")
OPENING = r"(?:(?:pub|abbrev|unfoldable|irreducible) )*"
DEFINED = re.compile(rf"^{OPENING}({WORD}) :", re.M)
KINDS = re.compile(rf"^ *(?:pub )?(?:data|record) ({WORD})", re.M)
INNER = re.compile(rf"^ +{OPENING}({WORD}) :", re.M)
CAMEL = re.compile(r"(?<=[a-z0-9])([A-Z])")


def read(path):
    with open(path, encoding="utf-8", newline="") as file:
        return file.read()


def files(*patterns):
    return sorted(path for pattern in patterns for path in glob.glob(pattern, recursive=True))


ANTT = files("crates/*/specs/**/*.antt", "crates/*/proofs/**/*.antt")
CODE = files("crates/*/src/**/*.rt")
EDITS = files("crates/*/must-fail/*.edit", "crates/*/tried/*.edit")
PAGES = files("README.md", "docs/**/*.md")


def is_goal(line):
    return ": tie." in line


# Fields that would take the name of a definition that their own record cites.
FIELDS = {
    "data-bounds": "bounds_of_data",
    "data-part": "part_of_data",
    "meta-bounds": "bounds_of_meta",
    "meta-part": "part_of_meta",
}


OWN = set()


def own_names():
    """The repository's definitions, its lemmas, and all of its names: fields, constructors and local names too."""
    definitions, lemmas, names = set(), set(), set()
    for path in ANTT:
        lines = [line for line in read(path).split("\n") if not is_goal(line) and not line.startswith("--")]
        text = "\n".join(lines)
        here = set(DEFINED.findall(text)) | set(KINDS.findall(text))
        names |= here | set(INNER.findall(text))
        if "/specs/" in path:
            definitions |= here
        else:
            lemmas |= here | set(INNER.findall(text))
    return definitions, lemmas - definitions, names


def kit_names():
    """What the files bring in from libraries that are not the repository's."""
    out = set()
    crates = {path.split("/")[1] for path in files("crates/*/src")}
    for path in ANTT + CODE:
        for module, group in re.findall(r"use ([\w.+'-]+)\.\{([^}]*)\}", read(path)):
            part = module.split(".")
            if part[0] != "Rattle" or part[1] not in crates:
                out |= {name.strip().split(" as ")[0] for name in group.split(",")}
    return out


def snake(name):
    if re.search(r"[a-z0-9][A-Z]", name) and not name[0].isupper():
        name = CAMEL.sub(lambda it: "_" + it[1].lower(), name)
    return name


def spelled(name, definitions):
    parts = name.split("-")
    joint = "-" if all(part in definitions for part in parts) else "_"
    return joint.join(snake(part) for part in parts)


def table(kit, owners):
    """The new name of each. A lemma that would have a definition's name gets `_lem`."""
    definitions, lemmas, names = own_names()
    OWN.update(names)
    out = {}
    for name in sorted(names - kit):
        new = FIELDS.get(name) or spelled(name, definitions)
        if name in owners:
            new += "_lem"
        if new != name:
            out[name] = new
    return out, definitions, lemmas


def turned(token, names, kit, local):
    if token in names:
        return names[token]
    plain = snake(token).replace("-", "_")
    if not local and plain in OWN:
        return plain
    if local and token not in kit and not token[0].isupper() and re.search(r"[a-z0-9][A-Z]", token) and "-" not in token:
        return snake(token)
    return token


def antt_line(line, names, kit):
    """A comment keeps its English: there only what is quoted or in camel case is a name."""
    code, dashes, comment = line.partition("--") if line.lstrip().startswith("--") else (line, "", "")
    code = TOKEN.sub(lambda it: turned(it[0], names, kit, True), code)
    return code + dashes + prose(comment, names, kit)


def prose(text, names, kit):
    def quoted(it):
        return "`" + TOKEN.sub(lambda word: turned(word[0], names, kit, False), it[1]) + "`"

    text = re.sub(r"`([^`\n]*)`", quoted, text)
    return re.sub(rf"(?<![\w`/.'-])[a-z][a-z0-9]*[A-Z]\w*", lambda it: turned(it[0], names, kit, False), text)


def code_text(text, names, kit):
    out, inside = [], False
    for line in text.split("\n"):
        bare = line.lstrip()
        opens = re.match(r"(requires|ensures|ghost)\b", bare)
        if bare.startswith("//"):
            line = prose(line, names, kit)
        elif opens or inside:
            line = TOKEN.sub(lambda it: turned(it[0], names, kit, True), line)
            closed = line.rstrip().endswith(("}", ";"))
            inside = not closed
        out.append(line)
    return "\n".join(out)


def edit_text(text, names, kit):
    """Clauses, ghost lines and lines of specs/ or proofs/ in an edit."""
    out, antt = [], False
    for line in text.split("\n"):
        if line.startswith("file: "):
            antt = line.endswith(".antt")
        label, colon, rest = line.partition(": ")
        bare = rest.lstrip()
        if label in ("old", "new") and (antt or re.match(r"(requires|ensures|ghost)\b", bare)):
            rest = TOKEN.sub(lambda it: turned(it[0], names, kit, True), rest)
        out.append(label + colon + rest)
    return "\n".join(out)


def clashes(path, old, new):
    """Names of one file that were two and are one; what follows a dot belongs to a record or a module."""
    bare = re.compile(rf"(?<![\w'₀-₉◌·.-]){WORD}")

    def tokens(text):
        lines = [line for line in text.split("\n") if not line.lstrip().startswith(("--", "//")) and not is_goal(line)]
        if path.endswith(".rt"):
            lines = [line for line in lines if re.match(r" *(requires|ensures|ghost|(pub(\(crate\))? )?fn|\w+: )\b", line)]
            lines = [re.sub(r"\bfn \w+", "", line) for line in lines]
        return [it[0] for it in bare.finditer("\n".join(lines))]

    one_of = collections.defaultdict(set)
    for before, after in zip(tokens(old), tokens(new)):
        one_of[after].add(before)
    return [(path, name, olds) for name, olds in one_of.items() if len(olds) > 1]


def respelled(names, kit):
    new, together = {}, []
    for path in ANTT + CODE:
        old = read(path)
        if path.endswith(".rt"):
            new[path] = code_text(old, names, kit)
        else:
            new[path] = "\n".join(antt_line(line, names, kit) for line in old.split("\n"))
        together += clashes(path, old, new[path])
    return new, together


def main():
    kit = kit_names()
    names, definitions, lemmas = table(kit, set())
    _, together = respelled(names, kit)
    owners = {old for _, _, olds in together for old in olds if old in lemmas and old not in kit}
    names, definitions, lemmas = table(kit, owners)
    new, together = respelled(names, kit)
    left = [it for it in together if len(it[2] & (definitions | lemmas)) > 1]
    for path, name, olds in together:
        print(f"{'left' if (path, name, olds) in left else 'look'}: {path}: {sorted(olds)} fall together in {name}")
    if left:
        return 1
    for path in EDITS:
        new[path] = edit_text(read(path), names, kit)
    for path in PAGES:
        new[path] = prose(read(path), names, kit)
    for path, text in new.items():
        if text != read(path):
            with open(path, "w", encoding="utf-8", newline="") as file:
                file.write(text)
    print(f"{len(names)} names; with `_lem`: {', '.join(sorted(names[it] for it in owners))}")
    return 0


if __name__ == "__main__":
    raise SystemExit(main())
