#!/usr/bin/env python3
"""Brings the names in the pages to those of the crates: run after respell.py, once, at the top. Only names in back quotes are turned.

usage: tools/port/respell_docs.py [--check] LANDED        LANDED is the commit before the port

A name that specs/ declared there gets the name that specs/ or proofs/ declare now; a path CRATE/specs/MODULE gets proofs/ where the module moved.
Names that are found nowhere now are listed.
"""
import glob
import os
import re
import subprocess
import sys

sys.path.insert(0, os.path.dirname(os.path.abspath(__file__)))
sys.argv, args = [sys.argv[0], "--check"], sys.argv[1:]
import respell

sys.stdout.flush()
landed = [a for a in args if a != "--check"][0]
check = "--check" in args
NAME = respell.NAME


def declared(texts):
    out = set()
    for t in texts:
        for m in respell.DECLARED.finditer(t):
            out.update(m[1].split())
    return out


def old_texts():
    names = subprocess.run(["git", "ls-tree", "-r", "--name-only", landed, "crates"], capture_output=True, text=True, check=True).stdout.split()
    for n in names:
        if n.endswith(".antt") and ("/specs/" in n):
            yield subprocess.run(["git", "show", f"{landed}:{n}"], capture_output=True, text=True, check=True).stdout


new_files = glob.glob("crates/*/specs/**/*.antt", recursive=True) + glob.glob("crates/*/proofs/*.antt")
before, now = declared(old_texts()), declared(open(f, encoding="utf-8").read() for f in new_files)
turned = {}
for n in before:
    to = respell.OTHER.get(n, respell.snake(n))
    if to != n and to in now:
        turned[n] = to
modules = {}
for f in glob.glob("crates/*/proofs/*.antt"):
    parts = f.split("/")
    modules[(parts[1], parts[3][:-5])] = "proofs"
pages = ["README.md"] + sorted(glob.glob("docs/**/*.md", recursive=True)) + sorted(glob.glob("tests/**/*.md", recursive=True)) + sorted(glob.glob("tests/**/*.txt", recursive=True))
lost = set()
for p in pages:
    if os.path.basename(p).startswith("PORT"):
        continue
    text = open(p, encoding="utf-8", errors="surrogateescape").read()

    def span(m):
        s = NAME.sub(lambda x: turned.get(x[0], x[0]), m[0])
        return s

    new = re.sub(r"`[^`\n]+`", span, text)
    for (crate, module), _ in modules.items():
        if os.path.exists(f"crates/{crate}/specs/{module}.antt"):
            continue
        new = re.sub(rf"\b{crate}/specs/{module}(?![\w'])", f"{crate}/proofs/{module}", new)
    new = new.replace("rules/specs/Reads", "rules/proofs/ReadLaws")
    for m in re.finditer(r"`(?:crates/)?(\w+)/(specs|proofs)/(\w+)(?:\.antt)?(?:\.([a-z][\w'\-]*))?`", new):
        f = f"crates/{m[1]}/{m[2]}/{m[3]}.antt"
        if not os.path.exists(f):
            lost.add(f"{p}: {m[0]}: no file")
        elif m[4] and m[4] != "antt" and not re.search(rf"(?<![\w'\-]){re.escape(m[4])}(?![\w'\-])", open(f, encoding="utf-8").read()):
            lost.add(f"{p}: {m[0]}: no such name there")
    if new != text and not check:
        open(p, "w", encoding="utf-8", errors="surrogateescape").write(new)
print(len(turned), "names")
print("\n".join(sorted(lost)))
