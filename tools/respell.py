#!/usr/bin/env python3
"""Respells the names that this repository's own specs/ and proofs/ declare: functions, lemmas and fields in snake case, types in upper camel case.

usage: python3 tools/respell.py      at the top of the repository, after its files were turned to this Rattle's spelling

Names that Rattle makes (goals, and the steps of a function in its own proof files) and names of libraries stay as they are, and so do functions of src/,
strings and comments, but for names of ours in a comment of a proof or a definition between backticks. What changed is printed; names that would fall together
stop it before anything is written.
"""

import os
import re
import sys

NAME = r"[^\W\d][\w'₀-₉≤≡]*(?:-[\w'₀-₉≤≡]+)+"
# Words of clauses and proofs that are bound where they stand, and not declared.
BOUND = ["fit-s", "lag-low", "no-fit", "no-level", "same-due", "same-job", "the-window", "word-ends"]


def files(root):
    for folder, dirs, names in os.walk(os.path.join(root, "crates")):
        dirs[:] = sorted(d for d in dirs if d != "out")
        for name in sorted(names):
            if name.endswith((".antt", ".rt")):
                yield os.path.join(folder, name)


def halves(path, line):
    """A line's code and its comment."""
    m = re.search(r"(^|\s)--(\s|$)" if path.endswith(".antt") else r"//", line)
    return (line, "") if m is None else (line[: m.start()], line[m.start() :])


def pieces(code):
    """The code cut at its strings: every second piece is a string."""
    return re.split(r'("(?:\\.|[^"\\])*")', code)


def code_of(path, text):
    return "\n".join("".join(p if i % 2 == 0 else '""' for i, p in enumerate(pieces(halves(path, line)[0]))) for line in text.split("\n"))


def imports(code, own):
    """The names that a file takes from libraries."""
    taken = set()
    for path, names in re.findall(r"use\s+([\w.+'-]+)\.\{([^}]*)\}", code):
        parts = path.split(".")
        if parts[0] == "Rattle" and len(parts) > 1 and parts[1] in own and parts[-1] not in ("Goals", "Given"):
            continue
        for name in names.split(","):
            taken.add(re.split(r"\s+as\s+", name.strip())[0])
    return taken


def declared(texts):
    names, goals = set(BOUND), set()
    for path, code in texts.items():
        if not path.endswith(".antt"):
            continue
        goals |= set(re.findall(rf"goal\.({NAME})", code))
        goals |= set(re.findall(rf"(?m)^(?:abbrev |unfoldable |pub )*({NAME})\s*:\s*goal\b", code))
        names |= set(re.findall(rf"(?m)^\s*(?:abbrev |unfoldable |pub )*(?:record |data )?({NAME})\s*(?:\(|\{{|:)", code))
    return names - goals


def respelled(name):
    if name[0].isupper():
        return "".join(part[0].upper() + part[1:] for part in name.split("-"))
    return name.replace("-", "_")


def main():
    root = os.getcwd()
    own = set(os.listdir(os.path.join(root, "crates")))
    texts = {}
    for path in files(root):
        with open(path, encoding="utf-8") as f:
            texts[path] = f.read()
    codes = {path: code_of(path, text) for path, text in texts.items()}
    names = declared(codes)
    new = {name: respelled(name) for name in sorted(names)}

    there = set()
    for code in codes.values():
        there |= set(re.findall(r"[^\W\d][\w'₀-₉≤≡-]*", code))
    met = {}
    for name, to in new.items():
        met.setdefault(to, []).append(name)
    for to, olds in sorted(met.items()):
        if len(olds) > 1:
            sys.exit(f"respell: {', '.join(olds)} fall together in {to}")
        if to in there:
            print(f"look: {to} stood before {olds[0]} became it")

    changed = 0
    for path, text in texts.items():
        taken = imports(codes[path], own)

        def put(m):
            name = m.group(0)
            return new[name] if name in new and name not in taken else name

        out = []
        for line in text.split("\n"):
            code, comment = halves(path, line)
            code = "".join(re.sub(NAME, put, p) if i % 2 == 0 else p for i, p in enumerate(pieces(code)))
            if path.endswith(".antt"):
                comment = re.sub(r"`[^`]*`", lambda m: re.sub(NAME, put, m.group(0)), comment)
            out.append(code + comment)
        after = "\n".join(out)
        if after != text:
            changed += 1
            with open(path, "w", encoding="utf-8") as f:
                f.write(after)
    for name, to in new.items():
        print(f"{name} -> {to}")
    print(f"respell: {len(new)} names, {changed} files")


if __name__ == "__main__":
    main()
