#!/usr/bin/env python3
"""Brings the names of this repository's own definitions and lemmas to snake case.

usage: tools/rename_spelling.py [--list]

It goes over crates/*/specs and crates/*/proofs for the names that are declared there, and writes each that has a
hump or a dash anew wherever it stands, in .antt files and in the ghost text of .rt files. Run once, right after the
toolchain's own port.py; what is written since has the new spelling. --list prints the names and changes nothing.
"""
import glob
import re
import sys

# a declared name: at the head of a signature, at the margin or in a module, a record or a data type
HEAD = re.compile(r"^\s*(?:(?:pub|abbrev|unfoldable|data|record) )*([^\s(){}\[\],;:.λ\"|]+)(?: \{[^}]*\}| \([^)]*\))* :(?: (.*))?$")
TOKEN = re.compile(r"[^\s(){}\[\],;:.\"|]+")

# names that would fall together with that of a crate, and types
APART = {
    "flowText": "flow_as_text",
    "not-held": "missing_not_held",
    "Has-or-not": "HasOrNot",
    "Long-chain": "LongChain",
}


def snake(name):
    name = name.replace("′", "'").replace("-", "_")
    return re.sub(r"(?<=[a-z0-9])([A-Z])", lambda m: "_" + m.group(1).lower(), name)


def files(*patterns):
    return sorted(f for p in patterns for f in glob.glob(p, recursive=True))


def declared(paths):
    names = set()
    for path in paths:
        with open(path, encoding="utf-8") as f:
            for line in f:
                m = HEAD.match(line.rstrip("\n"))
                if not m:
                    continue
                name, kind = m.group(1), m.group(2) or ""
                # an answer, an invariant or a measure has the name that the toolchain asks for
                if kind.startswith(("goal.", "given.")) or name.startswith("--"):
                    continue
                names.add(name)
    return names


def main():
    antt = files("crates/*/specs/**/*.antt", "crates/*/proofs/**/*.antt")
    code = files("crates/*/src/**/*.rt")
    names = declared(antt)
    functions = set()
    for path in code:
        with open(path, encoding="utf-8") as f:
            functions |= set(re.findall(r"\bfn (\w+)", f.read()))
    turned = {}
    for n in sorted(names):
        if n in APART:
            turned[n] = APART[n]
        elif not n[0].isupper() and re.search(r"-|′|[a-z0-9][A-Z]", n):
            # what would have the name of a function gets an ending
            turned[n] = snake(n) + ("_lem" if snake(n) in functions else "")
    if "--list" in sys.argv:
        tokens = {}
        for path in antt + code:
            with open(path, encoding="utf-8") as f:
                for t in TOKEN.findall(f.read()):
                    tokens.setdefault(t, set()).add(path)
        back = {}
        for old, new in turned.items():
            back.setdefault(new, []).append(old)
            if new in tokens:
                print("stands already:", old, new, len(tokens[new]), sorted(tokens[new])[:4])
        for new, olds in back.items():
            if len(olds) > 1:
                print("fall together:", olds, new)
        print(len(turned), "names")
        return
    for path in antt + code:
        with open(path, encoding="utf-8") as f:
            text = f.read()
        new = TOKEN.sub(lambda m: turned.get(m.group(0), m.group(0)), text)
        if new != text:
            with open(path, "w", encoding="utf-8") as f:
                f.write(new)


main()
