#!/usr/bin/env python3
"""Respells the definitions and lemmas of this repository: words in snake case, types and facts in upper camel case.

usage: python3 tools/respell_names.py [--list]     at the top of the repository, once, after the toolchain's own script

A name that a .antt file of this repository defines and that has a dash is respelled wherever it stands in code: `by-rules`
becomes `by_rules`, and the fact `One-row` becomes `OneRow`. Names that the toolchain makes (the goals of a function) and
names of the library keep their spelling, as do comments, and the text of a program beside its clauses.
It stops before it writes anything if two names would fall together.
"""

import collections
import os
import re
import sys

WORD = re.compile(r"[\w◌'′-]*[\w◌'′]", re.U)
HEAD = re.compile(r"^\s*(?:(?:abbrev|unfoldable|pub|data|record)\s+)*([^\s:(){}|,=;.⌜]+)(?:\s+[({].*?)?\s*:\s+(.*)$")
USE = re.compile(r"use\s+([\w.◌'·]+)\.\{([^}]*)\}")


def files():
    for folder, dirs, names in os.walk("crates"):
        dirs[:] = sorted(d for d in dirs if d != "out")
        for name in sorted(names):
            if name.endswith((".antt", ".rt", ".edit")):
                yield os.path.join(folder, name)


def split_comment(line, path):
    mark = re.search(r"(^|\s)--(\s|$)" if path.endswith(".antt") else r"(^|\s)//", line)
    return (line[: mark.start()], line[mark.start() :]) if mark else (line, "")


def own_names(crates):
    """Each own name with a dash, with its new spelling; and every name that a file defines."""
    turned, all_defined, foreign = {}, set(), set()
    for path in files():
        if not path.endswith(".antt"):
            continue
        with open(path, encoding="utf-8") as f:
            lines = [split_comment(line, path)[0] for line in f.read().split("\n")]
        for module, names in USE.findall("\n".join(lines)):
            parts = module.split(".")
            if parts[0] == "Rattle" and parts[1] in crates:
                continue
            foreign |= {n.strip().split(" as ")[0] for n in names.split(",")}
        for line in lines:
            head = HEAD.match(line)
            if not head or head.group(1) in ("use", "open", "let", "λ"):
                continue
            name, kind = head.groups()
            all_defined.add(name)
            if "-" not in name.strip("-") or re.match(r"goal\.", kind):
                continue
            if not re.fullmatch(r"[A-Za-z][\w'-]*", name):
                continue
            if name[0].isupper():
                if re.search(r"Type 0(\s+where)?\s*$", kind):
                    turned[name] = "".join(part[0].upper() + part[1:] for part in name.split("-"))
            else:
                turned[name] = name.replace("-", "_")
    return turned, all_defined, foreign


def main():
    crates = set(os.listdir("crates"))
    turned, defined, foreign = own_names(crates)
    both = sorted(set(turned) & foreign)
    new = collections.Counter(turned.values())
    together = sorted(n for n in turned if turned[n] in defined or turned[n] in foreign or new[turned[n]] > 1)
    if "--list" in sys.argv:
        for name in sorted(turned):
            print(name, turned[name])
    if both or together:
        sys.exit(f"names of the library too: {both}; names that fall together: {together}")
    if "--list" in sys.argv:
        return
    count = 0
    for path in files():
        with open(path, encoding="utf-8") as f:
            text = f.read()
        out = []
        for line in text.split("\n"):
            code, comment = split_comment(line, path)
            out.append(WORD.sub(lambda m: turned.get(m.group(0), m.group(0)), code) + comment)
        fresh = "\n".join(out)
        if fresh != text:
            count += 1
            with open(path, "w", encoding="utf-8") as f:
                f.write(fresh)
    print(f"{len(turned)} names respelled in {count} files")


main()
