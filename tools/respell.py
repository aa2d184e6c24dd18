#!/usr/bin/env python3
"""Spells the repository's own definitions and lemmas as today's Rattle does: words in snake case.

usage: respell.py [ROOT]    turns crates/ below ROOT, with the must-fail edits and the pages' code spans, in place, and prints what it renamed
                            and what it left

A name turns if a file of specs/ or proofs/ declares it, if it has a dash or a capital inside, and if it is no type, no module and no goal that
Rattle names. It keeps its spelling in a file that imports it from a library, and everywhere if two names would fall together.
"""

import collections
import os
import re
import sys

WORD = re.compile(r'[^\s(){}.;,@"«»]+')
SIGNATURE = re.compile(r"^ *(?:(?:pattern|unfoldable|abbrev|pub) )*([^\s(){}.;,@\"«»:]+)(?: \{[^{}\n]*\})* :(?: |$)(.*)")
UNDOTTED = re.compile(r'(?<![^\s(){},;@"«»])[^\s(){}.;,@"«»]+')
USE = re.compile(r"\b(?:pub )?use ([^\s;{]+?)\.?\{([^}]*)\}")
LIBRARIES = re.compile(r"Rattle\.(?:std|core|std_\w+|io|os|libc)\b|(?:lib|mathlib|Prim|native|borrow|encoding|iris)\b")
COMMENT = re.compile(r"--[^\n]*|//[^\n]*")
SPAN = re.compile(r"\x60[^\x60\n]*\x60")
# Lemmas and constructors whose dashes went before: they get them back, or the ending of a lemma, so that the definition can have the name.
AGAIN = {
    "all_hold": "all_hold_lem",
    "in_entry": "in-entry",
    "in_group": "in-group",
    "in_head": "in-head",
    "left_one": "left-one",
    "level_in": "level_in_lem",
    "no_program": "no-program",
    "word_row": "word-row",
}
# Words that stand only beside a proof of the older form.
OLDER = {"placeAfter", "turnAt"}
MADE = re.compile(r"^[μ+]|-Inv-|→")


def files(root):
    for folder, folders, names in os.walk(os.path.join(root, "crates")):
        folders[:] = sorted(f for f in folders if f != "out")
        for name in sorted(names):
            if name.endswith((".antt", ".rt")):
                yield os.path.join(folder, name)


def pages(root):
    for folder, folders, names in os.walk(root):
        folders[:] = sorted(f for f in folders if f not in ("out", "target", ".git"))
        for name in sorted(names):
            if name.endswith((".edit", ".md")):
                yield os.path.join(folder, name)


def turned(name):
    words = re.sub(r"(?<=[a-z0-9])[A-Z]", lambda m: "_" + m[0].lower(), name)
    words = re.sub(r"(?<=[-_])[A-Z]|^[A-Z](?=[a-z]*-)", lambda m: m[0].lower(), words)
    return words.replace("-", "_").replace("′", "'")


def declared(texts):
    names = set()
    for path, text in texts.items():
        if not path.endswith(".antt"):
            continue
        for line in text.split("\n"):
            m = SIGNATURE.match(line)
            if not m or line.lstrip().startswith("--"):
                continue
            name, kind = m.groups()
            by_goal = os.path.basename(path) == "Proof.antt" and re.match(r"(?:tie|goal|i)\.|\{M : Type 1\} → statement", kind)
            own = "-" in name or "′" in name or (name[0].islower() and re.search(r"[a-z0-9][A-Z]", name))
            if own and not by_goal and not MADE.search(name):
                names.add(name)
    return names


def imported(text):
    found = set()
    for m in USE.finditer(text):
        if LIBRARIES.match(m[1]):
            for item in m[2].split(","):
                found.add(item.split(" as ")[0].strip())
    return found


def words_of(path, text):
    """The words that a new name would meet: in Rust the parameters and fields alone, since no clause can name a function."""
    code = COMMENT.sub("", text)
    if path.endswith(".rt"):
        return set(re.findall(r"\b(\w+)\s*:(?!:)", code)) | set(re.findall(r"\bghost use [^;]*;", code) and WORD.findall(" ".join(re.findall(r"\bghost use [^;]*;", code)))) | set(
            w for clause in re.findall(r"(?:requires|ensures)\*? *\w* *(\{[^\n]*)", code) for w in UNDOTTED.findall(clause)
        )
    return set(UNDOTTED.findall(code))


def main(argv):
    root = argv[1] if len(argv) > 1 else "."
    texts = {}
    for path in files(root):
        with open(path, encoding="utf-8") as f:
            texts[path] = f.read()
    table = {name: turned(name) for name in declared(texts)}
    table.update(AGAIN)
    known = {path: words_of(path, text) for path, text in texts.items()}
    lent = {path: imported(text) for path, text in texts.items()}
    # Names that would fall together, with one another or with what stands in a file beside them.
    by_new = collections.defaultdict(set)
    for old, new in table.items():
        by_new[new].add(old)
    left = {}
    for new, olds in by_new.items():
        if len(olds) > 1:
            # A definition turns; a lemma or a constructor beside it keeps its dash, which joins names.
            for old in olds:
                if "-" in old and new not in AGAIN or len([o for o in olds if "-" not in o]) > 1:
                    left[old] = f"falls together with {', '.join(sorted(olds - {old}))}"
    for path, words in known.items():
        for word in words:
            if word in table and word not in left and table[word] in words and word not in OLDER and table[word] not in AGAIN:
                left.setdefault(word, f"{table[word]} stands in {os.path.relpath(path, root)}")
    for old in left:
        table.pop(old, None)

    def word(path):
        def one(m):
            name = m[0]
            if name in table and name not in lent[path]:
                return table[name]
            return name

        return one

    changed = 0
    for path in pages(root):
        with open(path, encoding="utf-8") as f:
            text = f.read()
        lent[path] = set()
        new = WORD.sub(word(path), text) if path.endswith(".edit") else SPAN.sub(lambda s: "`" + WORD.sub(word(path), s[0][1:-1]) + "`", text)
        if new != text:
            changed += 1
            with open(path, "w", encoding="utf-8") as f:
                f.write(new)
    for path, text in texts.items():
        parts, at = [], 0
        for m in COMMENT.finditer(text):
            if path.endswith(".antt") and m.start() and not text[m.start() - 1].isspace():
                continue
            parts.append(WORD.sub(word(path), text[at : m.start()]))
            parts.append(SPAN.sub(lambda s: "`" + WORD.sub(word(path), s[0][1:-1]) + "`", m[0]))
            at = m.end()
        parts.append(WORD.sub(word(path), text[at:]))
        new = "".join(parts)
        if new != text:
            changed += 1
            with open(path, "w", encoding="utf-8") as f:
                f.write(new)
    for old in sorted(table):
        print(f"renamed: {old} {table[old]}")
    for old in sorted(left):
        print(f"left: {old}: {left[old]}")
    print(f"respell: {len(table)} names, {changed} files", file=sys.stderr)
    return 0


if __name__ == "__main__":
    raise SystemExit(main(sys.argv))
