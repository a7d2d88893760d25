#!/usr/bin/env python3
"""Compares the words of an older tree with today's: clauses of functions, and files of specs/, without imports, comments and brackets.

usage: tools/same_words.py OLD NEW     two checkouts; OLD as the older Rattle wrote it

Prints how many there are, each word that is replaced by one that is not its other spelling, each word with two replacements or two words with
one, and each place where the words differ in number.
"""
import collections
import difflib
import glob
import os
import re
import sys

MOVED = {("packs", "judging.rt"): "checking.rt", ("writer", "judging.rt"): "verdicts.rt"}


def clauses(root):
    """(crate, file, function) -> its clauses, in order."""
    out = {}
    for path in sorted(glob.glob(root + "/crates/*/src/**/*.rt", recursive=True)):
        with open(path, encoding="utf-8") as f:
            text = re.sub(r"//[^\n]*", "", f.read())
        crate, file = path.split("/crates/")[1].split("/")[0], os.path.basename(path)
        for m in re.finditer(r"\bfn (\w+)", text):
            after = re.compile(r"(?m)^\s*(?:pub(?:\(\w+\))? )?(?:extern \"C\" )?fn ").search(text, m.end())
            head = text[m.end() : after.start() if after else len(text)]
            found = []
            for c in re.finditer(r"(?m)^\s*(requires|ensures)\*?(?: \w+)? \{", head):
                depth, k = 1, c.end()
                while depth:
                    depth += {"{": 1, "}": -1}.get(head[k], 0)
                    k += 1
                found.append((c[1], head[c.end() : k - 1].strip()))
            out[crate, MOVED.get((crate, file), file), m[1]] = found
    return out


def words(text):
    text = re.sub(r"\s+\.(?=\S)", ".", re.sub(r"[(){}⌜⌝]", " ", text))
    return [w for w in re.split(r"([.,;])|\s+", text) if w]


def old_clause(kind, text):
    text = text.replace("⌜", "").replace("⌝", "").strip().replace("′", "'")
    m = re.match(r"λ (\S+)\. ", text)
    if kind == "ensures" and m:
        text = text[m.end() :]
        if m[1] != "_":
            text = re.sub(r"(?<![\w.'-])%s(?![\w'-])" % re.escape(m[1]), "result", text)
    text = re.sub(r"\(?now \(([\w']+) \.exit\)\)?", r"\1.new", text)
    text = re.sub(r"\(?now \(([\w']+) \.entry\)\)?", r"\1.found", text)
    return words(re.sub(r"\(now ([\w']+)\)|now ([\w']+)", lambda k: (k[1] or k[2]) + ".found", text))


def new_clause(text):
    return words(re.sub(r"\.(old|now)(?![\w'-])", ".found", text))


def definitions(path):
    with open(path, encoding="utf-8") as f:
        text = f.read()
    text = re.sub(r"(?m)^\s*use .*$", "", text)
    return words(re.sub(r"(?m)--.*$", "", text))


class Words:
    def __init__(self):
        self.pairs, self.places = collections.Counter(), []

    def lay(self, name, old, new):
        for op, i, j, k, l in difflib.SequenceMatcher(None, old, new, autojunk=False).get_opcodes():
            if op == "replace" and j - i == l - k:
                self.pairs.update(zip(old[i:j], new[k:l]))
            elif op != "equal":
                self.places.append((name, " ".join(old[max(0, i - 4) : j + 3]), " ".join(new[max(0, k - 4) : l + 3])))

    def say(self):
        bare = lambda w: re.sub(r"[-_′']", "", w).lower()
        print("other words:", [p for p in self.pairs if bare(p[0]) != bare(p[1])])
        for side in 0, 1:
            met = collections.defaultdict(set)
            for pair in self.pairs:
                met[pair[side]].add(pair[1 - side])
            print("two for one:", {w: v for w, v in met.items() if len(v) > 1})
        for place in self.places:
            print("differs:", *place, sep="\n  ")


def main(old, new):
    a, b, said, n = clauses(old), clauses(new), Words(), 0
    for name, each in a.items():
        if name not in b or [k for k, _ in each] != [k for k, _ in b[name]]:
            print("not found again:", name)
            continue
        for (kind, x), (_, y) in zip(each, b[name]):
            n += 1
            said.lay(name, old_clause(kind, x), new_clause(y))
    print(n, "clauses of", len(a), "functions")
    said.say()
    said, files = Words(), sorted(glob.glob(old + "/crates/*/specs/**/*.antt", recursive=True))
    for path in files:
        said.lay(path[len(old) + 1 :], definitions(path), definitions(path.replace(old, new, 1)))
    print(len(files), "files of specs/")
    said.say()


main(*sys.argv[1:])
