#!/usr/bin/env python3
"""Brings the names of this repository's own definitions and lemmas to today's spelling: words in snake case, types and modules as they are.

usage: python3 tools/respell.py          at the top, once, behind port/port.py of the kit (docs/PORT.md)
       python3 tools/respell.py list     the table alone, a name and its spelling a line

A name is a word of specs/ or proofs/ that some file there declares. What the libraries declare keeps its name in a file that imports it
from them; in the proof of a function only what the file imports from this repository, and what is in camel case, is turned, since the other
names there are made by the toolchain. Where a law and a definition would have one spelling, the law ends in `_lem`.
"""
import os
import re
import sys

os.chdir(os.path.dirname(os.path.dirname(os.path.abspath(__file__))))

NAME = r"[^\s(){}.;,@\"«»\[\]:`]+"
USE = re.compile(r"^(?:pub |ghost )*use ([^\s;{]+?)\.?(?:\{([^}]*)\})?(?: as ([^\s;]+))?;?$", re.M)
TURNED = re.compile(r"^[a-z_].*[A-Z]|^[A-Za-z_].*[-′]")
# a law that the port had spelled already as a definition would now be: the files whose law it is
LAWS = {
    "block_owed": ("crates/who_are_you/proofs/",),
    "by_name": ("crates/reasons/proofs/",),
    "goes_on": ("crates/circuit/proofs/", "crates/known/proofs/"),
    "no_call": ("crates/circuit/proofs/ReplyLaws.antt",),
    "told_at": ("crates/known/proofs/",),
}


def read(path):
    with open(path, encoding="utf-8") as f:
        return f.read()


def files():
    for folder, dirs, names in os.walk("crates"):
        dirs[:] = sorted(d for d in dirs if d != "out")
        for name in sorted(names):
            if name.endswith((".rt", ".antt", ".edit")):
                yield os.path.join(folder, name)


def own():
    return {line.split(":")[0].split()[0] for line in read("crates.txt").split("\n") if ":" in line and not line.startswith("#")}


def bare(text, mark):
    return re.sub(r"(?m)(^|(?<=\s))%s.*$" % re.escape(mark), "", text)


def imported(text, mine):
    """What a file imports from elsewhere, and what it imports from this repository."""
    theirs, ours = set(), set()
    for told in USE.finditer(text):
        steps = told.group(1).split(".")
        names = set(re.findall(r"[^\s{},]+", told.group(2) or ""))
        if steps[0] == "Rattle" and steps[1] in mine:
            ours |= names
        else:
            theirs |= names
    return theirs, ours


def is_walk(path):
    return path.endswith("Proof.antt")


def in_snake(name):
    words = re.sub(r"(?<=[a-z0-9])([A-Z])", lambda m: "_" + m.group(1).lower(), name)
    return words.replace("-", "_").replace("′", "'")


def table():
    mine, seen, laws = own(), set(), set()
    for path in files():
        if not path.endswith(".antt") or is_walk(path):
            continue
        text = bare(read(path), "--")
        theirs, _ = imported(text, mine)
        for name in re.findall(NAME, text):
            if TURNED.search(name) and name not in theirs and not name.startswith("Rattle"):
                seen.add(name)
    known = {in_snake(n) for n in seen if "-" not in n} | {"first_of", "is_last", "is_placed"}
    return {n: in_snake(n) + ("_lem" if "-" in n and in_snake(n) in known else "") for n in seen if n[0].islower() or n[0] == "_" or "-" in n}


def turned(text, names, which):
    return re.sub(NAME, lambda m: names[m.group()] if m.group() in names and which(m.group()) else m.group(), text)


def fields():
    """The fields of the records that specs/ and proofs/ declare: what may stand behind a dot in the proof of a function."""
    found = set()
    for path in files():
        if path.endswith(".antt") and not is_walk(path):
            for body in re.findall(r"(?m)^(?:pub )?record .*\n((?:  .*\n|\n)*)", bare(read(path), "--")):
                found |= {n for names in re.findall(r"(?m)^  (?:pub )?(\S+(?: \S+)*?) :", body) for n in names.split()}
    return found


def turn(path, names, mine, parts):
    text = read(path)
    if path.endswith(".antt"):
        theirs, ours = imported(bare(text, "--"), mine)
        if is_walk(path):
            new = turned(text, names, lambda n: n in ours or ("-" not in n and n not in theirs))
            new = re.sub(r"(?<=[\w)]\.)%s" % NAME, lambda m: names.get(m.group(), m.group()) if m.group() in parts else m.group(), new)
        else:
            new = turned(text, names, lambda n: n not in theirs)
    else:
        # of a text in Rattle: the lines of `ghost use`, the clauses, and what comments quote
        new = turned(text, names, lambda n: "-" not in n)
        new = re.sub(r"`[^`\n]*`", lambda m: turned(m.group(), names, lambda n: True), new)
    if new != text:
        with open(path, "w", encoding="utf-8") as f:
            f.write(new)
        return 1
    return 0


def main(argv):
    names = table()
    if argv == ["list"]:
        for n in sorted(names):
            print("%s\t%s" % (n, names[n]))
        return 0
    mine = own()
    # a law that is spelled already as the definition will be is turned first
    for law, places in LAWS.items():
        for path in files():
            if path.startswith(places) and path.endswith(".antt"):
                text = read(path)
                new = re.sub(r"(?<![\w.'-])%s(?![\w'-])" % law, law + "_lem", text)
                if new != text:
                    with open(path, "w", encoding="utf-8") as f:
                        f.write(new)
    parts = fields()
    print("%d files" % sum(turn(path, names, mine, parts) for path in list(files())))
    return 0


if __name__ == "__main__":
    sys.exit(main(sys.argv[1:]))
