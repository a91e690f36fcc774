#!/usr/bin/env python3
"""Respells the repository's own definitions and lemmas in snake case, once, after the kit's port.py: too-short becomes too_short.

usage: python3 tools/respell.py            at the top of the repository
       python3 tools/respell.py --list     the names alone, old and new, and those that fall together

A name is turned if a file of specs/ or a lemma file of proofs/ declares it: by a signature, as a field or a constructor, or as a bound
variable. What a file takes from the kit's libraries keeps its name there, and so do the names that the check makes, in the folders
proofs/F/. In .rt files only clauses and ghost items are turned, in pages only what stands between backticks.
"""

import glob
import os
import re
import sys

WORD = r"[\w'±≼⊕⊗ℤ*+#μ]+(?:-[\w'±≼⊕⊗ℤ*+#μ]+)+"
TOKEN = re.compile(r"(?<![\w'±≼⊕⊗ℤ*+#μ◌-])" + WORD + r"(?![\w'±≼⊕⊗ℤ*+#μ◌-])")
CRATES = sorted(os.path.basename(os.path.dirname(p)) for p in glob.glob("crates/*/src"))


def read(path):
    with open(path, encoding="utf-8") as f:
        return f.read()


def imports(text):
    """The pairs of a module and a name that the use lines of a text take."""
    for module, names in re.findall(r"^\s*(?:ghost |unfoldable |pub )*use ([\w.'+#±-]+)\.\{([^}]*)\}", text, re.M):
        for name in names.split(","):
            yield module, name.split(" as ")[-1].strip()


def own(module):
    parts = module.split(".")
    return parts[0] == "Rattle" and parts[1] in CRATES


def code(text):
    """The text without what stands behind '--' on its lines."""
    return re.sub(r"(^|\s)--(?=\s|$)[^\n]*", r"\1", text)


def declared(text):
    found = set()
    text = code(text)
    for line in text.splitlines():
        m = re.match(r"\s*(?:(?:pub|abbrev|unfoldable|pattern|data|record|hit) )*(" + WORD + r")(?: \{[^}]*\})* :(?:\s|$)", line)
        if m:
            found.add(m.group(1))
    for binder in re.findall(r"[({]([^(){}:]*) : ", text):
        found.update(TOKEN.findall(binder))
    for binder in re.findall(r"λ ([^.(]*)\. ", text):
        found.update(TOKEN.findall(binder))
    found.update(re.findall(r"\blet (" + WORD + r")(?= )", text))
    found.update(re.findall(r" as (" + WORD + r")", text))
    # several constructors or fields of one line
    for several in re.findall(r"(?m)^\s*((?:[\w'±-]+ )+): ", text):
        found.update(TOKEN.findall(several))
    # a field that a record type of one line declares
    found.update(re.findall(r"[{;] (" + WORD + r") : ", text))
    return found


def lemma_files():
    return sorted(glob.glob("crates/*/specs/*.antt") + glob.glob("crates/*/proofs/*.antt"))


def names():
    found = set()
    for path in lemma_files():
        found |= declared(read(path))
    # a name that a ghost item of a source gives to an import
    for path in glob.glob("crates/*/src/**/*.rt", recursive=True):
        found.update(re.findall(r" as (" + WORD + r")[,}]", read(path)))
    return found


def snake(name):
    return name.replace("-", "_")


def turned(text, old, kept=frozenset()):
    return TOKEN.sub(lambda m: snake(m.group(0)) if m.group(0) in old and m.group(0) not in kept else m.group(0), text)


def taken(text):
    """What the text takes from libraries that are not of this repository."""
    return {name for module, name in imports(text) if not own(module)}


def turned_source(text, old):
    """A .rt file: its clauses and ghost items."""
    out = []
    kept = taken(text)
    clause = 0
    for line in text.splitlines(keepends=True):
        starts = re.match(r"\s*(requires|ensures|ghost|pub ghost|invariant)\b", line)
        if starts or clause:
            line = turned(line, old, kept)
            clause += line.count("{") - line.count("}")
            clause = max(clause, 0)
        elif "//" in line:
            line = turned_page(line, old)
        out.append(line)
    return "".join(out)


def turned_page(text, old):
    return re.sub(r"`[^`\n]+`", lambda m: turned(m.group(0), old), text)


def main(argv):
    old = names()
    if argv == ["--list"]:
        spelled = {}
        for path in lemma_files():
            for name in re.findall(r"[\w'±]+", code(read(path))):
                spelled.setdefault(name, path)
        for name in sorted(old):
            print(name, snake(name), "FALLS TOGETHER " + spelled[snake(name)] if snake(name) in spelled else "")
        return 0
    for path in sorted(glob.glob("crates/**/*.antt", recursive=True)):
        text = read(path)
        new = turned(text, old, taken(text))
        if new != text:
            with open(path, "w", encoding="utf-8") as f:
                f.write(new)
    for path in sorted(glob.glob("crates/*/src/**/*.rt", recursive=True)):
        text = read(path)
        new = turned_source(text, old)
        if new != text:
            with open(path, "w", encoding="utf-8") as f:
                f.write(new)
    for path in sorted(glob.glob("*.md") + glob.glob("docs/**/*.md", recursive=True)):
        text = read(path)
        new = turned_page(text, old)
        if new != text:
            with open(path, "w", encoding="utf-8") as f:
                f.write(new)
    return 0


if __name__ == "__main__":
    raise SystemExit(main(sys.argv[1:]))
