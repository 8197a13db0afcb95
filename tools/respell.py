#!/usr/bin/env python3
"""Brings the repository's own names to snake case, after /opt/rattle/port/port.py and once.

Definitions and lemmas in camel case become snake case (`rowAddress` is `row_address`), in crates/ and in the documents; types and
modules keep their capitals, functions of src/ and exported names have none in camel case. The lines of must-fail edits get today's
spelling too: paths, operators with places, tight projections, clauses without brackets. It prints every file in which a new name
stood already, for a look by hand.

usage: tools/respell.py      at the top, on a tree that port.py has turned
"""
import os
import re
import subprocess
import sys

CAMEL = re.compile(r"(?<![\w'])([a-z][a-z0-9]*[A-Z][A-Za-z0-9]*)(?![\w'])")
KEEP = {"kHz"}
SNAKE = lambda name: re.sub(r"[A-Z]", lambda m: "_" + m.group(0).lower(), name)


def tracked(*where):
    said = subprocess.run(["git", "ls-files", "-co", "--exclude-standard", "--", *where], capture_output=True, text=True, check=True)
    return [f for f in said.stdout.splitlines() if os.path.isfile(f)]


def read(path):
    with open(path, encoding="utf-8") as f:
        return f.read()


def write(path, text):
    with open(path, "w", encoding="utf-8") as f:
        f.write(text)


# the words of PORTING.md, part 3, in the lines of an edit
def edit_line(line):
    if not line.startswith(("old:", "new:")):
        return line
    line = re.sub(r"Rattle·(\w+)·(specs|proofs)\.\2\.", r"Rattle.\1.\2.", line)
    line = re.sub(r"Rattle·(\w+)", r"Rattle.\1", line)
    line = re.sub(r"(?<=[{ ,])_([^\w\s]+|when)_(?=[}, ])", r"◌\1◌", line)
    line = re.sub(r"\(?\bnow \((\w+) \.entry\)\)?", lambda m: m.group(1) + ".now" if m.group(0).endswith("))") else m.group(0), line)
    line = re.sub(r"(?<=[\w)]) \.(?=[a-z0-9])", ".", line)
    line = re.sub(r"(?<= )\(((?!self\b)[a-z]\w*(?:\.[a-z]\w*)+)\)", r"\1", line)
    line = line.replace("getD", "get_or")
    return re.sub(r"[⌜⌝] ?", "", line).replace("′", "'")


def main():
    crates = [f for f in tracked("crates") if f.endswith((".rt", ".antt", ".edit"))]
    names = {n for f in crates if not f.endswith(".edit") for n in CAMEL.findall(read(f))} - KEEP
    new = {n: SNAKE(n) for n in names}
    if len(set(new.values())) != len(new):
        sys.exit("two names fall together")
    ours = set().union(*(re.findall(r"[\w']+", read(f)) for f in crates if f.endswith(".antt")))
    for f in crates + [f for f in tracked("docs", "README.md", "host") if f.endswith(".md") or f == "host/first-change"]:
        was = text = read(f)
        here = {n for n in CAMEL.findall(text) if n in new}
        for n in sorted(here):
            if re.search(r"(?<![\w'-])" + re.escape(new[n]) + r"(?![\w'-])", text) and f.endswith(".antt"):
                print(f"look: {f}: {new[n]} stood there beside {n}")
        # in edits and documents also what port.py has respelled
        known = lambda n: new[n] if n in new else SNAKE(n) if not f.endswith((".rt", ".antt")) and n not in KEEP and SNAKE(n) in ours else n
        text = CAMEL.sub(lambda m: known(m.group(1)), text)
        if f.endswith(".edit"):
            text = "\n".join(edit_line(l) for l in text.split("\n"))
        if text != was:
            write(f, text)
    print(f"{len(new)} names")


main()
