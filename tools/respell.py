#!/usr/bin/env python3
"""Brings the repository's own definitions and lemmas to today's spelling; run once, at the top, after port.py.

A name in camel case gets snake case. In a lemma's name a dash stays before a part that is itself a name (of a definition of this
repository, or one of WORDS), and becomes `_` before any other word. A lemma that would get the name of a definition ends in `_lem`.
Types, modules, generated names, names of libraries and names of Rust code stay. It turns crates/*/specs, crates/*/proofs, the ghost
lines, clauses and comments of crates/*/src, the texts of crates/*/must-fail, and names in code marks in the pages. With --show it writes nothing, and prints
the table and the names that would fall together.
"""

import collections
import glob
import re
import sys

TOKEN = re.compile(r"[^\W\d][\w']*(?:-[\w']+)*")
DECLARED = re.compile(r"^\s*(?:(?:abbrev|unfoldable|pub|private)\s+)*([^\W\d][\w'-]*)\s*:\s")
LET = re.compile(r"\blet ([^\W\d][\w'-]*)\s*[:=]")
USE = re.compile(r"^\s*(?:ghost )?(?:pub )?use ([\w.'+«»-]+?)\.\{([^}]*)\}", re.M)
# names that would fall together with another in one file
APART = {
    "exactStep-as": "exact_step_as_lem",
    "exactStep-by": "exact_step_by_lem",
    "unlabelledTurn": "unlabelled_turn_left",
    "digits_of": "digits_of_lem",
    "low_bit": "low_bit_lem",
    "low_part": "low_part_lem",
    "plain_step": "plain_step_lem",
}
# words of the library that stand in names of lemmas as names
WORDS = set(
    "length take drop set sets map reverse append replicate sum tabulate get_or get mod div add mul sub pow suc zero min max not and or xor "
    "eqb ltb leb cond cons snoc nil".split()
)


def read(path):
    with open(path, encoding="utf-8") as f:
        return f.read()


def snake(word):
    return re.sub(r"(?<=[a-z0-9'])([A-Z])", lambda m: "_" + m.group(1).lower(), word)


def files(*patterns):
    return sorted(p for x in patterns for p in glob.glob(x, recursive=True) if "/out/" not in p)


def table():
    crates = {p.split("/")[1] for p in glob.glob("crates/*/src")}
    specs = files("crates/*/specs/**/*.antt")
    laws = files("crates/*/proofs/*.antt")
    defined, functions, lemmas, foreign = set(), set(), set(), set()
    for p in specs:
        for line in read(p).splitlines():
            if m := DECLARED.match(line):
                defined.add(m.group(1))
                if not line.startswith(" "):
                    functions.add(m.group(1))
            # constructors and fields that stand within a line
            for m in re.finditer(r"\b([a-z]\w*[A-Z]\w*)\b(?=[^()]*:)", line.split("--")[0]):
                defined.add(m.group(1))
    for p in laws:
        for line in read(p).splitlines():
            if m := DECLARED.match(line):
                lemmas.add(m.group(1))
            lemmas.update(LET.findall(line))
            # locals of a lemma that are bound by a pattern, a λ or a signature
            lemmas.update(t for t in TOKEN.findall(line.split("--")[0]) if re.match(r"[a-z]\w*[A-Z]", t) and "-" not in t)
    for p in files("crates/**/*.antt", "crates/*/src/*.rt"):
        for module, names in USE.findall(read(p)):
            part = module.split(".")
            if part[0] != "Rattle" or part[1] not in crates:
                foreign.update(n.strip() for n in names.split(","))
    small = lambda n: n[0].islower()
    defined = {n for n in defined if small(n)} - foreign
    lemmas = {n for n in lemmas if small(n)} - foreign - defined
    known = WORDS | {snake(n) for n in functions & defined if "-" not in n}

    def respelled(name):
        parts = [snake(part) for part in name.split("-")]
        out = parts[0]
        for part in parts[1:]:
            out += ("-" if part in known else "_") + part
        return out

    new = {n: respelled(n) for n in defined | lemmas}
    taken = {new[n] for n in functions & defined}
    for n in lemmas:
        if new[n] in taken and n != new[n]:
            new[n] += "_lem"
    new.update(APART)
    return {a: b for a, b in new.items() if a != b}, defined, lemmas


def main():
    new, defined, lemmas = table()
    show = "--show" in sys.argv
    together = collections.defaultdict(set)
    for a, b in new.items():
        together[b].add(a)
    if show:
        for a, b in sorted(new.items()):
            print(f"{a} {b}")
        for b, names in sorted(together.items()):
            if len(names) > 1 or b in defined or b in lemmas:
                print("together:", b, sorted(names), "as it stands" if b in defined | lemmas else "")

    def turned(text):
        def word(m):
            name = m.group(0)
            bare = name.rstrip("'")
            return new[name] if name in new else new.get(bare, bare) + name[len(bare):]

        return TOKEN.sub(word, text)

    def page(text):
        return re.sub(r"`[^`\n]+`", lambda m: turned(m.group(0)), text)

    for p in files("crates/**/*.antt", "crates/*/src/*.rt", "crates/*/must-fail/*.edit"):
        was = read(p)
        words = set(TOKEN.findall(was))
        if show:
            for w in sorted(words & set(new)):
                if new[w] in words and new[w] not in new:
                    print("falls:", p, w, new[w])
        elif (now := turned(was)) != was:
            with open(p, "w", encoding="utf-8") as f:
                f.write(now)
    for p in files("*.md", "docs/**/*.md", "*/README.md", "crates/*/*.md"):
        was = read(p)
        if not show and (now := page(was)) != was:
            with open(p, "w", encoding="utf-8") as f:
                f.write(now)


main()
