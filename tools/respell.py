#!/usr/bin/env python3
"""Spells the repository's own antt names as today's Rattle does: definitions, lemmas, fields and constructors in snake case.

usage: tools/respell.py            at the top of a checkout, once, behind the kit's port.py

A name in camel case gets underscores. A dash stays only in a lemma, between two names of functions; else it becomes an underscore.
Types, modules, names that a library declares and names of Rust stay. Turns .antt and .rt files, edits, and the code spans of papers.
Writes tools/respelled.tsv: old, new, where it is declared.
"""
import collections
import glob
import os
import re

NAME = r'[^\s(){}.;,@"«»\x60]+'
TOKEN = re.compile(NAME)
DECLARED = re.compile(
    r"(?m)^ *(?:(?:pub|abbrev|unfoldable|record|data|let|in|where|mutual) )*(%s)"
    r"(?: *\{[^{}\n]*\}| *\([^()\n]*(?:\([^()]*\)[^()\n]*)*\))* :(?=\s)" % NAME
)
USE = re.compile(r"\buse ([^\s;{]+)\.\{([^}]*)\}")
# names that would fall together with another, or that a library reads better so
BY_HAND = {"inOrder": "in_list_order", "byRows": "by_all_rows", "rowsIn": "rows_told"}


def files(*kinds):
    return sorted(f for k in kinds for f in glob.glob(f"crates/*/**/*.{k}", recursive=True) if "/out/" not in f)


def of_a_function(path):
    return os.path.basename(path) in ("Proof.antt", "Answers.antt", "Invariants.antt")


def declared():
    """Each name that a file of specs/ or of lemmas declares, with these files; the names of record fields among them."""
    found, fields = collections.defaultdict(list), set()
    for path in files("antt"):
        if of_a_function(path):
            continue
        with open(path, encoding="utf-8") as f:
            text = f.read()
        for m in DECLARED.finditer(text):
            if path not in found[m[1]]:
                found[m[1]].append(path)
        inside = False
        for line in text.split("\n"):
            if re.match(r"\s*(abbrev )?(pub )?record ", line):
                inside = True
            elif inside and re.match(r"[^\s-]", line):
                inside = False
            elif inside:
                m = re.match(r"\s+(?:pub )?(%s) :" % NAME, line)
                if m:
                    fields.add(m[1])
    return found, fields


def of_libraries():
    """The names that are imported from elsewhere."""
    names = set()
    for path in files("antt", "rt"):
        with open(path, encoding="utf-8") as f:
            for where, items in USE.findall(f.read()):
                steps = where.split(".")
                if not (steps[0] == "Rattle" and os.path.isdir("crates/" + steps[1])) or "declared" in steps:
                    names |= {it.split(" as ")[0].strip() for it in items.split(",")}
    return names


def snake(word):
    return re.sub(r"(?<=[a-z0-9])([A-Z])", lambda m: "_" + m[1].lower(), word)


def table(found, fields, library):
    turned = {}
    functions = {n for n, where in found.items() if n not in fields and any("/specs/" in p for p in where)} | library
    for name, where in found.items():
        if name in library or not re.match(r"[a-z]", name):
            continue
        lemma = name not in fields and all("/proofs/" in p for p in where)
        parts = ["get_or" if p == "getD" else p for p in name.split("-")]
        new = ""
        for i, part in enumerate(parts):
            dash = i and lemma and parts[i - 1] in functions and part in functions
            new += ("-" if dash else "_" if i else "") + snake(part)
        if "" in parts:
            new = "-".join(snake(p) for p in parts)
        new = BY_HAND.get(name, new)
        if new != name:
            turned[name] = new
    for new, olds in meet(turned, found, library):
        kept = [n for n in olds if n in library or re.search("[a-z][A-Z]", n) or any("/specs/" in p for p in found[n])]
        for name in [n for n in olds if n not in kept[:1] and n not in library] if kept else olds[1:]:
            turned[name] = new + "_lem"
    return turned


def meet(turned, found, library):
    """Pairs that would be one name."""
    by_new = collections.defaultdict(list)
    for old, new in turned.items():
        by_new[new].append(old)
    for new, olds in sorted(by_new.items()):
        if new in found and new not in turned or new in library:
            olds = olds + [new]
        if len(olds) > 1:
            yield new, olds


def turn(text, turned, fields, only_in_spans):
    def word(m):
        new = turned.get(m[0], m[0])
        behind_a_dot = m.start() and m.string[m.start() - 1] == "."
        # a field that Rattle makes of a function of the same name, whose spelling it keeps
        return m[0].replace("-", "_") if new != m[0] and behind_a_dot and m[0] not in fields else new

    if only_in_spans:
        return re.sub(r"`[^`\n]+`", lambda m: TOKEN.sub(word, m[0]), text)
    return TOKEN.sub(word, text)


def main():
    found, fields = declared()
    library = of_libraries()
    turned = table(found, fields, library)
    for new, olds in meet(turned, found, library):
        print("together:", new, "from", *olds, *[p for o in olds for p in found.get(o, ["a library"])])
    if os.environ.get("DRY"):
        return
    for path in files("antt", "rt", "edit", "md") + sorted(glob.glob("docs/**/*.md", recursive=True)) + ["README.md", "CONTRIBUTING.md"]:
        with open(path, encoding="utf-8") as f:
            old = f.read()
        new = turn(old, turned, fields, path.endswith(".md"))
        if new != old:
            with open(path, "w", encoding="utf-8") as f:
                f.write(new)
    with open("tools/respelled.tsv", "w", encoding="utf-8") as f:
        for old, new in sorted(turned.items()):
            f.write(f"{old}\t{new}\t{' '.join(found[old])}\n")
    print(len(turned), "names")


if __name__ == "__main__":
    main()
