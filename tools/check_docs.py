"""Says where docs/PROMISES.md and docs/TRACE.md do not fit the crates; exit status 1 if anywhere.

To be run from the repository's root. Every public function has its row among the promises, which names an edit; every edit is named there
under its crate, as kept where the gate tries it (must-fail/) and as tried where tools/try_edits does (tried/); every crate has an edit that
the gate tries; and what the two documents name exists, an edit that the trace cites with a crate in that crate.
"""

import re
import sys
from pathlib import Path

CRATES = Path("crates")
PROMISES = Path("docs/PROMISES.md")
TRACE = Path("docs/TRACE.md")

# The folder of an edit, by what the promises call it.
FOLDERS = {"kept": "must-fail", "tried": "tried"}

PUBLIC_FUNCTION = re.compile(r'^\s*pub (?:extern "C" )?fn (\w+)', re.MULTILINE)
PUBLIC_MODULE = re.compile(r"^pub mod (\w+);", re.MULTILINE)
NAME = re.compile(r"`([^`]+)`")
EDITS = re.compile(r"\(((?:`\w+`, )+)(kept|tried)\b")


def public_functions(crate):
    """The functions of a library that other crates can call."""
    root = crate / "src" / "lib.rt"
    if not root.exists():
        return set()
    text = root.read_text()
    modules = [crate / "src" / (name + ".rt") for name in PUBLIC_MODULE.findall(text)]
    texts = [text] + [module.read_text() for module in modules]
    return {name for text in texts for name in PUBLIC_FUNCTION.findall(text)}


def edits(crate):
    """The edits of a crate, each with what the promises are to call it."""
    return {(path.stem, how) for how, folder in FOLDERS.items() for path in (crate / folder).glob("*.edit")}


def sections(text):
    """The rows under each heading of the second level, by crate; where a heading has several crates, those that begin with its name."""
    parts = re.split(r"^## (.+)$", text, flags=re.MULTILINE)
    found = {}
    for heading, section in zip(parts[1::2], parts[2::2]):
        rows = [line for line in section.splitlines() if line.startswith("| `")]
        crates = heading.split(", ")
        for crate in crates:
            found[crate] = [row for row in rows if len(crates) == 1 or row.startswith("| `%s` |" % crate)]
    return found


def promised(row):
    """The names in a row's first column."""
    return {name.split("::")[-1] for name in NAME.findall(row.split("|")[1])}


def named(row):
    """The edits that a row names, each with what it is called."""
    return {(name, how) for names, how in EDITS.findall(row) for name in NAME.findall(names)}


def judge_promises():
    promises = sections(PROMISES.read_text())
    for crate in sorted(path for path in CRATES.iterdir() if path.is_dir()):
        rows = promises.get(crate.name, [])
        for name in sorted(public_functions(crate)):
            if not any(named(row) for row in rows if name in promised(row)):
                yield "%s: no row with an edit for the function %s of %s" % (PROMISES, name, crate.name)
        told = {edit for row in rows for edit in named(row)}
        for name, how in sorted(edits(crate) - told):
            yield "%s: the edit %s of %s is not named as %s" % (PROMISES, name, crate.name, how)
        for name, how in sorted(told - edits(crate)):
            yield "%s: %s has no edit %s in %s/" % (PROMISES, crate.name, name, FOLDERS[how])
        if not any(how == "kept" for _, how in edits(crate)):
            yield "%s has no edit that the gate tries" % crate


def words_of(paths):
    """All names that files use, and the names of the files."""
    words = set()
    for path in paths:
        words.update(re.findall(r"[\w′·-]+", path.read_text()), [path.name, path.stem])
    return words


def judge_trace():
    """A name of the trace is a word of some crate's source, definitions or proofs, an edit, or a file."""
    sources = [path for path in CRATES.rglob("*") if path.suffix in (".rt", ".antt")]
    known = words_of(sources)
    known.update(path.name for path in CRATES.iterdir())
    known.update(name for path in CRATES.iterdir() for name, _ in edits(path))
    files = [path.name for path in CRATES.glob("*/data/*")]
    for name in NAME.findall(TRACE.read_text()):
        if name in known or name.split("::")[-1] in known or "/" in name or name.startswith(".."):
            continue
        pattern = re.compile(re.escape(name).replace(r"\*", ".*") + r"(\.\w+)?")
        if not any(pattern.fullmatch(file) for file in files):
            yield "%s: nothing is called %s" % (TRACE, name)


def judge_citations():
    """In the last column of the trace, edits stand after the name of their crate."""
    names = {crate.name: {name for name, _ in edits(crate)} for crate in CRATES.iterdir()}
    rows = [line for line in TRACE.read_text().splitlines() if line.startswith("| ")]
    for part in (part for row in rows for part in row.rstrip(" |").split(" | ")[-1].split("; ")):
        crate, *cited = NAME.findall(part) or [""]
        if part.startswith("`%s`" % crate) and crate in names:
            for name in cited:
                if name not in names[crate]:
                    yield "%s: %s has no edit %s" % (TRACE, crate, name)


def main():
    faults = [*judge_promises(), *judge_trace(), *judge_citations()]
    for fault in faults:
        print(fault, file=sys.stderr)
    sys.exit(1 if faults else 0)


main()
