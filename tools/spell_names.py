#!/usr/bin/env python3
"""Spells the names of this repository's own definitions and lemmas in snake case: usage, at the top, after the kit's port.py: tools/spell_names.py

names.tsv beside this file has the names, old and new. A name that a file imports from the kit stays there. `specs/contracts` becomes `specs/Inner`, since
the kit makes a module of the first name. Must-fail edits are turned too, and in the pages what stands between backticks.
"""

import os
import pathlib
import re

HERE = pathlib.Path(__file__).resolve().parent
TOP = pathlib.Path.cwd()
NAMES = dict(line.split("\t") for line in (HERE / "names.tsv").read_text(encoding="utf-8").splitlines())
TOKEN = re.compile(r'[^\s(){}.;,@"«»\[\]\\|`]+')
IMPORT = re.compile(r"use ([^\s{]+)\.\{([^}]*)\}")


def kept(text):
    """The names that a file has from the kit's libraries."""
    out = set()
    for module, items in IMPORT.findall(text):
        steps = module.split(".")
        own = steps[0] == "Rattle" and len(steps) > 1 and (TOP / "crates" / steps[1]).is_dir()
        if not own:
            out |= set(re.split(r"[,\s]+", items))
    return out


def turned(text):
    keep = kept(text)
    text = re.sub(r"specs([./])contracts(?=[./\s])", r"specs\1Inner", text)
    return TOKEN.sub(lambda m: m[0] if m[0] in keep else NAMES.get(m[0], m[0]), text)


def quoted(text):
    text = text.replace("specs/contracts", "specs/Inner")
    return re.sub(r"`[^`\n]+`", lambda m: TOKEN.sub(lambda n: NAMES.get(n[0], n[0]), m[0]), text)


def rewrite(path, how):
    text = path.read_text(encoding="utf-8")
    new = how(text)
    if new != text:
        path.write_text(new, encoding="utf-8")


def main():
    for crate in sorted((TOP / "crates").iterdir()):
        specs = crate / "specs"
        if (specs / "contracts.antt").exists():
            os.rename(specs / "contracts.antt", specs / "Inner.antt")
            if (specs / "contracts").exists():
                os.rename(specs / "contracts", specs / "Inner")
            rewrite(specs / "Lib.antt", lambda t: t.replace("mod contracts", "mod Inner"))
    for path in sorted((TOP / "crates").rglob("*")):
        if "out" not in path.relative_to(TOP).parts and path.suffix in (".rt", ".antt", ".edit"):
            rewrite(path, turned)
    for path in [TOP / "README.md", *sorted((TOP / "docs").rglob("*.md"))]:
        rewrite(path, quoted)


main()
