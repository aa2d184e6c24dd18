#!/usr/bin/env python3
"""Spells in snake case the constructors that share a signature, which respell.py does not see.

usage: respell_constructors.py [ROOT]    turns crates/ below ROOT, with the must-fail edits and the pages' code spans, in place

A lemma or another constructor that has the new spelling already gets dashes, so that the two stay apart.
"""

import pathlib
import re
import sys

sys.dont_write_bytecode = True

from respell import SPAN, UNDOTTED, WORD, files, pages

SEVERAL = re.compile(r"^ *((?:[^\s(){}.;,@\"«»:]+ )+): ")


def snake(name):
    return re.sub(r"(?<=[a-z0-9])[A-Z]", lambda m: "_" + m[0].lower(), name)


def main(argv):
    root = argv[1] if len(argv) > 1 else "."
    texts = {path: pathlib.Path(path).read_text(encoding="utf-8") for path in (*files(root), *pages(root))}
    table = {}
    for path, text in texts.items():
        if path.endswith(".antt"):
            for line in text.split("\n"):
                m = SEVERAL.match(line)
                if m and not line.lstrip().startswith("--"):
                    for name in m[1].split():
                        if re.match(r"[a-z][a-z0-9]*[A-Z]", name):
                            table[name] = snake(name)
    taken = set()
    for path, text in texts.items():
        if path.endswith(".antt"):
            taken |= set(UNDOTTED.findall(re.sub(r"--[^\n]*", "", text)))
    again = {new: new.replace("_", "-") for new in table.values() if new in taken}

    def turned(path, text):
        # A Rust function, and a step that goes by its name, may have the name of a lemma: that stays.
        if not path.endswith(".rt") and "file: src/" not in text:
            text = UNDOTTED.sub(lambda m: again.get(m[0], m[0]), text)
        return WORD.sub(lambda m: table.get(m[0], m[0]), text)

    for path, text in texts.items():
        if path.endswith(".md"):
            new = SPAN.sub(lambda s: "`" + turned(path, s[0][1:-1]) + "`", text)
        else:
            new = turned(path, text)
        if new != text:
            pathlib.Path(path).write_text(new, encoding="utf-8")
    for old in sorted(table):
        print(f"renamed: {old} {table[old]}")
    for old in sorted(again):
        print(f"again: {old} {again[old]}")
    return 0


if __name__ == "__main__":
    raise SystemExit(main(sys.argv))
