#!/usr/bin/env python3
"""Brings the names of this repository's definitions, lemmas and fields to today's spelling.

usage: python3 tools/snake_names.py [--names]      at the top of the repository, once, right after port.py

Words are in snake case, types and modules in camel case. A name that begins with a small letter and has a capital
inside gets underscores, also as a part of a longer name with dashes; a record's field whose words are joined by dashes
gets underscores too. Names that a `.rt` file declares keep their spelling. `--names` only prints old and new.
"""

import glob
import re
import sys

IDENT = r"[^\s(){};,.\"]+"
DECLARED = re.compile(r"^(\s*)(?:(?:abbrev|pub|unfoldable)\s+)*(" + IDENT + r")\s*(?:\([^=]*|\{[^=]*)?:(?:\s|$)")
CAMEL = re.compile(r"^[a-z][A-Za-z0-9]*[A-Z][A-Za-z0-9]*$")
TOKEN = re.compile(r"[^\s(){};,.\"@|⟨⟩!?:«»…]+")

# The names that stand apart in the file at hand.
apart = {}

# Names that would fall together with another of the same file. The lemma or variable gets another name; `read_tables`
# is a crate.
APART = {
    "crates/spec_machine/proofs": {
        "after_list": "after_list_lem",
        "last_entry": "last_entry_lem",
        "same_flag": "same_flag_lem",
        "same_version": "same_version_lem",
    },
    "crates/spec_format/proofs": {"laid_out": "laid_out_lem", "step_lines": "step_lines_lem"},
    "crates/spec_plan_text/proofs": {
        "block_words": "block_words_lem",
        "laid_out": "is_laid_out",
        "same_bytes": "same_bytes_lem",
    },
    "crates/text_plan_lines/proofs/TableLines.antt": {"block_words": "block_words_lem"},
}
OTHER = {"readTables": "tables_read"}


def sources(kinds):
    return sorted(p for k in kinds for p in glob.glob("crates/*/**/*" + k, recursive=True) if "/out/" not in p)


def snake(word):
    word = re.sub(r"([a-z0-9])([A-Z])", r"\1_\2", word)
    return re.sub(r"([A-Z])([A-Z][a-z])", r"\1_\2", word).lower()


def parts(name):
    """The parts that dashes join, each with its marks behind it."""
    for part in name.split("-"):
        m = re.match(r"^([A-Za-z0-9]*)(.*)$", part)
        yield m.group(1), m.group(2)


def respelled(name):
    return "-".join((snake(w) if CAMEL.match(w) else w) + rest for w, rest in parts(name))


def declared():
    names, fields = set(), set()
    for p in sources([".antt"]):
        within = None
        for line in open(p, encoding="utf-8"):
            if line.strip().startswith("--") or not line.strip():
                continue
            indent = len(line) - len(line.lstrip())
            if within is not None and indent <= within:
                within = None
            m = DECLARED.match(line)
            if m:
                names.add(m.group(2))
                if within is not None and "/specs/" in p:
                    fields.add(m.group(2))
            if re.match(r"^\s*(?:pub\s+)?record\s", line):
                within = indent
    return names, fields


def renaming():
    names, fields = declared()
    code = set()
    for p in sources([".rt"]):
        code |= set(re.findall(r"\b(?:fn|struct|enum|const|static|mod|type|trait)\s+(\w+)", open(p, encoding="utf-8").read()))
    to = {}
    for n in names | fields:
        new = respelled(n)
        if n in fields and re.match(r"^[a-z0-9_]+(-[a-z0-9_]+)+$", new):
            new = new.replace("-", "_")
        if new != n and n not in code:
            to[n] = OTHER.get(n, new)
    return to


def main():
    global apart
    to = renaming()
    if "--names" in sys.argv:
        for n in sorted(to):
            print(n, to[n])
        return 0
    camel = {n for n in to if "-" not in n}

    def turn(m):
        t = m.group(0)
        if t in apart:
            return apart[t]
        if t in to:
            return to[t]
        # a part of a longer name, as of a lemma of another file's, made names among them
        return "-".join((to[w] if w in camel and CAMEL.match(w) else w) + rest for w, rest in parts(t))

    for p in sources([".antt", ".rt"]):
        apart = next((names for folder, names in APART.items() if p.startswith(folder)), {})
        text = open(p, encoding="utf-8").read()
        new = TOKEN.sub(turn, text)
        if new != text:
            open(p, "w", encoding="utf-8").write(new)
    return 0


if __name__ == "__main__":
    raise SystemExit(main())
