#!/usr/bin/env python3
"""Spells the names that this repository's specs/ and lemma files declare as today's Rattle does: words in snake case.

usage: tools/port/respell.py [--check]      at the top of the repository, once, after port.py

A name is turned if a file of specs/, or a lemma file right in proofs/, declares it: a definition, a lemma, a field, a case, a local function.
It is turned wherever it stands in .antt and .rt files and in must-fail edits; a name that a file imports from the kit stays in that file.
In a function's proof a name with a dash is turned only if the file imports it from this repository: the others are Rattle's own.
--check writes nothing and says which names would fall together.
"""
import collections
import glob
import re
import sys

NAME = re.compile(r"(?<![\w'\-])[A-Za-z_](?:[\w']|-(?=[\w']))*")
DECLARED = re.compile(
    r"(?m)^[ ]*(?:\| )?(?:(?:pub|abbrev|unfoldable) )*([a-z][\w'\-]*(?: [a-z][\w'\-]*)*)(?: \{[^{}\n]*\})* :(?=[ \n])"
)
IMPORT = re.compile(r"\buse ([\w.'\-]+)\.\{([^}]*)\}")
# Names that would fall together with another: a lemma beside the definition of its name is that definition's law.
LAWS = """bad-pages bad-scratch bytes-tag bytes-there check-call check-root count-on datoms-bytes frames-of full-right grows-on heap-full held-call held-of
initialise-call initialise-counted inline-content insert-call insert-counted insert-within is-met is-over is-str lost-at named-words names-int names-no-str
names-str no-heap no-int no-page no-str of-datom order-known parts-of record-after record-grown same-below span-from start-call word-there"""
OTHER = {it: it.replace("-", "_") + "_law" for it in LAWS.split()}
OTHER |= {f"{end}-{what}": f"{end}_{what}_fit" for end in ("begin", "end") for what in ("indices", "pages")}
OTHER |= {"bytes-of": "bytes_of_are_bytes", "step_call": "step_call_law", "at_level": "at_its_level", "inOrder": "in_good_order", "goesOn": "going_on", "anySame": "has_same"}


def snake(name):
    words = re.sub(r"(?<=[a-z0-9])[A-Z]", lambda m: "_" + m[0].lower(), name)
    return words.replace("-", "_")


def crates():
    return {p.split("/")[1] for p in glob.glob("crates/*/src")}


def is_own(path, own):
    steps = path.split(".")
    return steps[0] == "Rattle" and len(steps) > 1 and steps[1] in own


def declaring():
    return sorted(set(glob.glob("crates/*/specs/**/*.antt", recursive=True)) | set(glob.glob("crates/*/proofs/*.antt")))


def table():
    names = collections.defaultdict(set)
    for f in declaring():
        for m in DECLARED.finditer(open(f, encoding="utf-8").read()):
            for n in m[1].split():
                if snake(n) != n:
                    names[n].add(f)
    return names


def imported(text, own):
    out = set()
    for path, items in IMPORT.findall(text):
        if not is_own(path, own):
            for it in items.split(","):
                out.update(it.split(" as "))
    return {it.strip() for it in out}


def from_here(text, own):
    out = set()
    for path, items in IMPORT.findall(text):
        if is_own(path, own):
            for it in items.split(","):
                out.update(it.split(" as "))
    return {it.strip() for it in out}


def files():
    out = glob.glob("crates/*/specs/**/*.antt", recursive=True) + glob.glob("crates/*/proofs/**/*.antt", recursive=True)
    out += glob.glob("crates/*/src/**/*.rt", recursive=True) + glob.glob("crates/*/must-fail/*.edit")
    return sorted(out)


def main(argv):
    check = "--check" in argv
    own, names = crates(), table()
    turned = {n: snake(n) for n in names} | OTHER
    back = collections.defaultdict(set)
    for old, new in turned.items():
        back[new].add(old)
    for new, olds in sorted(back.items()):
        if len(olds) > 1:
            print("together:", new, sorted((o, sorted(names[o])) for o in olds))
    for f in files():
        text = open(f, encoding="utf-8").read()
        kit = imported(text, own)
        tokens = set(NAME.findall(text))
        a_proof = "/proofs/" in f and f.count("/") > 3
        brought = from_here(text, own)
        stays = lambda it: it in kit or a_proof and "-" in it and it not in brought
        for old in sorted(tokens & set(turned)):
            if not stays(old) and turned[old] in tokens - set(OTHER):
                print("meets:", f, old, turned[old])

        def one(m):
            if m[0] not in turned or stays(m[0]):
                return m[0]
            if a_proof and "-" in m[0] and text[m.start() - 1 : m.start()] == ".":
                return m[0]
            return turned[m[0]]

        new = NAME.sub(one, text)
        if new != text and not check:
            with open(f, "w", encoding="utf-8") as out:
                out.write(new)
    print(len(turned), "names")


main(sys.argv[1:])
