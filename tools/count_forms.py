#!/usr/bin/env python3
"""Counts, in the sources of a commit or of the work tree, the places that docs/DESIGN-PASS.md speaks of.

    python3 tools/count_forms.py [COMMIT] [--list]

Each count is of lines, functions or pairs that one rule below finds; --list prints each place."""
import collections
import re
import subprocess
import sys
import tarfile
import io
import pathlib


def sources(commit):
    """The sources by path, of a commit or of the work tree."""
    if commit is None:
        root = pathlib.Path(__file__).resolve().parent.parent
        return {str(p.relative_to(root)): p.read_text() for p in sorted(root.glob("crates/*/src/**/*.rt"))}
    data = subprocess.run(["git", "archive", commit, "crates"], check=True, capture_output=True).stdout
    files = {}
    with tarfile.open(fileobj=io.BytesIO(data)) as tar:
        for member in tar:
            if re.fullmatch(r"crates/[^/]+/src/.*\.rt", member.name):
                files[member.name] = tar.extractfile(member).read().decode()
    return dict(sorted(files.items()))


def lines_with(pattern):
    """The lines that a pattern finds."""
    rule = re.compile(pattern)
    return lambda files: [f"{name}:{number}: {line.strip()}" for name, text in files.items() for number, line in enumerate(text.split("\n"), 1) if rule.search(line)]


FUNCTION = re.compile(r"^(?P<indent> *)(?:pub )?(?:const )?(?:extern \"C\" )?fn (?P<name>\w+)(?P<rest>.*?)^(?P=indent)\}", re.M | re.S)


def functions(files):
    """Each function: its path, its name, its parameters, its contract and its body."""
    for path, text in files.items():
        for match in FUNCTION.finditer(text):
            rest = match["rest"]
            head, brace, body = rest.partition(f"\n{match['indent']}{{")
            if not brace:
                head, _, body = rest.partition("{")
            depth, start, parts, part = 0, head.find("("), [], ""
            for char in head[start + 1:]:
                if char in "([<":
                    depth += 1
                elif char in ")]>":
                    if depth == 0:
                        break
                    depth -= 1
                if char == "," and depth == 0:
                    parts.append(part)
                    part = ""
                else:
                    part += char
            parts = [p.strip() for p in parts + [part] if p.strip()]
            yield path, match["name"], parts, head, body


def many_parameters(files):
    """Functions with six parameters or more."""
    return [f"{path}: {name} ({len(parts)})" for path, name, parts, head, body in functions(files) if len(parts) >= 6]


def repeated_facts(files):
    """Facts that three or more contracts ask for in the same words."""
    facts = collections.defaultdict(list)
    for path, name, parts, head, body in functions(files):
        for clause in re.findall(r"requires(?: \w+)? \{(.*?)\}\n?", head, re.S):
            for fact in re.split(r" × ", clause):
                facts[fact.strip().strip("()")].append(f"{path}: {name}")
    return [f"{fact} ({len(where)})" for fact, where in facts.items() if len(where) >= 3 for _ in where]


def twins(files):
    """Functions that differ only in names, types and constants."""
    groups = collections.defaultdict(list)
    for path, name, parts, head, body in functions(files):
        text = re.sub(r"//.*", "", body)
        if len(text.split()) < 8:
            continue
        text = re.sub(r"\b[a-z_]+::", "", text)
        text = re.sub(r"\b(u8|u16|u32|u64|usize|[A-Z][A-Za-z_0-9]*|\d\w*)\b", "K", text)
        text = re.sub(r"b?\"[^\"]*\"|b?'[^']*'", "K", text)
        order = {}
        text = re.sub(r"\b[a-z_][a-z_0-9]*\b", lambda m: order.setdefault(m[0], f"v{len(order)}"), text)
        groups[" ".join(text.split())].append(f"{path}: {name}")
    return [" = ".join(group) for group in groups.values() if len(group) > 1]


RULES = [
    ("1", "enums of the repository's own", lines_with(r"^(pub )?enum ")),
    ("1", "functions, fields and tables that say none, or what is past the end, by a number", lines_with(r"^ *//.*([^0-9`](0|16) (for|where|if|past)|, else 0|or 0[:.]|; 0 )")),
    ("1", "constants that number kinds, classes, places or refusals", lines_with(r"^ *(pub )?const [A-Z0-9_]+: u32 = ")),
    ("2", "groups of functions that differ only in names, types and constants", twins),
    ("3", "loops that are no `for`", lines_with(r"^\s*(while|loop)\b")),
    ("4", "fields that are given their own name", lines_with(r"^\s*([a-z_]+): \1,$")),
    ("4", "casts by `as`", lines_with(r"^(?!\s*//).* as (u8|u16|u32|u64|usize)\b")),
    ("4", "early returns of true or false", lines_with(r"^\s*return (true|false);")),
    ("5", "contracts that ask for a fact that two others ask for too", repeated_facts),
    ("5", "functions of six parameters or more", many_parameters),
    ("6", "constant arrays", lines_with(r"^(pub )?(const|static) [A-Z_]+: \[")),
    ("6", "parameters that are an array by reference", lines_with(r"&(mut )?\[u(8|16|32); [A-Za-z_:]+\]")),
    ("7", "matches on what to do", lines_with(r"match (self\.)?(effect|closing|place|nest|letter|step|advanced|taken|run|case)\b")),
]


def main():
    listed = "--list" in sys.argv
    commits = [word for word in sys.argv[1:] if not word.startswith("--")]
    files = sources(commits[0] if commits else None)
    for point, what, rule in RULES:
        found = rule(files)
        print(f"{point}: {what}: {len(found)}")
        if listed:
            for place in found:
                print(f"    {place}")


if __name__ == "__main__":
    main()
