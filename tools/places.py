#!/usr/bin/env python3
"""Where the code may be written in a plainer form: a line for each place, and a count for each point of docs/DESIGN-PASS.md.

    python3 tools/places.py [-q] [POINT ..] [--in FOLDER]

It reads the text of crates/*/src alone and proves nothing. What it lists is a place to look at; docs/DESIGN-PASS.md says of each what was
done."""
import re
import sys
from difflib import SequenceMatcher
from pathlib import Path

LEAST = 18          # a body of fewer tokens is too short to be a twin
ALIKE = 0.92        # how much of two bodies' shapes has to be the same


def sources(top):
    for path in sorted(top.glob("crates/*/src/*.rt")):
        yield path, path.read_text()


def bare(text):
    """Comments and strings emptied; as long as before, so that places stay."""
    text = re.sub(r"//[^\n]*", lambda m: " " * len(m[0]), text)
    return re.sub(r'b?"[^"\n]*"', lambda m: '"' + " " * (len(m[0]) - 2) + '"', text)


def closing(text, at):
    depth = 0
    for i in range(at, len(text)):
        if text[i] == "{":
            depth += 1
        elif text[i] == "}":
            depth -= 1
            if depth == 0:
                return i
    raise ValueError("no end")


class Fn:
    """A function: its place, name, parameters, clauses and body."""

    def __init__(self, path, text, clean, m):
        self.path, self.line, self.name = path, text.count("\n", 0, m.start()) + 1, m[1]
        at = clean.index("(", m.end() - 1)
        depth, i = 0, at
        while True:
            depth += {"(": 1, ")": -1}.get(clean[i], 0)
            if depth == 0:
                break
            i += 1
        self.params = [" ".join(p.split()) for p in clean[at + 1:i].split(",") if p.strip()]
        # the body is the first brace that stands at the beginning of a line, or ends the line of `fn`
        clauses, j = [], i
        while True:
            k = clean.index("{", j)
            head = clean[j:k].split("\n")[-1].strip()
            if re.match(r"(requires|ensures)\b", head):
                end = closing(clean, k)
                clauses.append((head.split()[0], " ".join(text[k + 1:end].split())))
                j = end + 1
                continue
            break
        self.clauses = clauses
        end = closing(clean, k)
        self.body = clean[k + 1:end]
        self.raw = text[k + 1:end]

    def where(self):
        return f"{self.path.parts[-3]}:{self.line} {self.name}"


def functions(top):
    for path, text in sources(top):
        clean = bare(text)
        for m in re.finditer(r"\bfn (\w+)(?:<[^(]*>)?\s*\(", clean):
            before = clean[clean.rfind("\n", 0, m.start()) + 1:m.start()]
            if "ghost" in before:
                continue
            try:
                yield Fn(path, text, clean, m)
            except ValueError:
                continue


def shape(body):
    out = []
    for t in re.findall(r"[A-Za-z_]\w*|\d\w*|\"|[^\s\w]", body):
        if re.match(r"\d", t) or t in ("true", "false"):
            out.append("1")
        elif t in ("if", "else", "match", "return", "let", "mut", "while", "for", "loop", "in", "self", "as"):
            out.append(t)
        elif re.match(r"[A-Za-z_]", t):
            out.append("x")
        else:
            out.append(t)
    return out


def enums(top):
    for path, text in sources(top):
        for m in re.finditer(r"^(?:pub )?enum (\w+)[^{]*\{(.*?)^\}", text, re.M | re.S):
            yield path, text.count("\n", 0, m.start()) + 1, m[1], m[2]


def point1(top):
    """Own enums of the shape of Option or Result, a flag with a value beside it, numbers for kinds or refusals."""
    for path, line, name, body in enums(top):
        why = []
        if re.search(r"^\s*(None|Nothing|Without|Nobody)\b", body, re.M):
            why.append("a variant for nothing")
        if re.search(r"^\s*// (?:\w+ )*\d+: |^\s*// [^\n]*\. \d+: ", body, re.M) and re.search(
                r"^\s*(Done|With|By|Written|Word|Printed|Because|Entry)\b", body, re.M):
            why.append("an answer beside refusals")
        if why:
            yield f"{path.parts[-3]}:{line} enum {name}: {', '.join(why)}"
    for path, text in sources(top):
        for m in re.finditer(r"^(?:pub )?struct (\w+)[^{;]*\{(.*?)^\}", text, re.M | re.S):
            for f in re.findall(r"^\s*(?:pub )?(well|more|begun|last|figures): bool", m[2], re.M):
                yield f"{path.parts[-3]}:{text.count(chr(10), 0, m.start()) + 1} struct {m[1]}: the flag {f}"
            if re.search(r"^\s*(?:pub )?state: u8", m[2], re.M):
                yield f"{path.parts[-3]}:{text.count(chr(10), 0, m.start()) + 1} struct {m[1]}: a number for its state"
        consts = [(int(m[2]), m) for m in re.finditer(r"^(?:pub )?const (\w+): u8 = (\d+);", text, re.M)]
        run = []
        for value, m in consts + [(-1, None)]:
            if run and value == run[-1][0] + 1:
                run.append((value, m))
                continue
            if len(run) > 2:
                line = text.count("\n", 0, run[0][1].start()) + 1
                yield f"{path.parts[-3]}:{line} numbers for kinds: {', '.join(r[1][1] for r in run)}"
            run = [(value, m)] if value == 0 else []
    for f in functions(top):
        if "number: u8" in f.params and "refusal" in f.name:
            yield f"{f.where()}: a refusal by its number"


def point2(top):
    """Functions of the same shape: they differ in names and numbers only."""
    fs = [(f, shape(f.body)) for f in functions(top)]
    fs = [(f, s) for f, s in fs if len(s) >= LEAST]
    parent = {id(f): f for f, _ in fs}

    def root(f):
        while parent[id(f)] is not f:
            f = parent[id(f)]
        return f

    for i, (f, s) in enumerate(fs):
        for g, t in fs[i + 1:]:
            if abs(len(s) - len(t)) > 0.08 * max(len(s), len(t)):
                continue
            if len({x for x in f.body.split()} & {x for x in g.body.split()}) < 3:
                continue
            m = SequenceMatcher(None, s, t, autojunk=False)
            if m.quick_ratio() >= ALIKE and m.ratio() >= ALIKE:
                words_f = set(re.findall(r"[A-Za-z_]\w+", f.body))
                words_g = set(re.findall(r"[A-Za-z_]\w+", g.body))
                if len(words_f & words_g) >= 0.6 * max(len(words_f), len(words_g)):
                    parent[id(root(g))] = root(f)
    groups = {}
    for f, _ in fs:
        groups.setdefault(id(root(f)), []).append(f)
    for group in groups.values():
        if len(group) > 1:
            yield " = ".join(f.where() for f in group)


def point3(top):
    """Loops that are no `for`."""
    for path, text in sources(top):
        for n, line in enumerate(bare(text).split("\n"), 1):
            if re.match(r"\s*(while|loop)\b", line):
                yield f"{path.parts[-3]}:{n} {line.strip()}"


def point4(top):
    """Equality, conversion and printing written by hand, and copies field by field."""
    for f in functions(top):
        body = f.body.strip()
        if re.match(r"(same|is_same|same_\w+|is_words)$", f.name):
            yield f"{f.where()}: equality"
        elif f.params and re.match(r"byte: u8$", f.params[-1]) and re.search(r"_of$", f.name):
            yield f"{f.where()}: from a byte"
        elif re.match(r"match [\w.]+ \{", body) and body.endswith("}"):
            arms = re.findall(r"=>\s*([^\n]*)", f.raw)
            if arms and all(re.match(r"\d+,$|[\w:]+,$|numbers::put_all\(line, at, b\"[^\"]*\"\),$|line\.put_all\(b\"[^\"]*\"\),$", a.strip()) for a in arms):
                kind = "printing" if "put_all" in f.raw else "conversion"
                yield f"{f.where()}: {kind}"
        else:
            for m in re.finditer(r"\b([A-Z]\w+) \{([^{}]*)\}", body):
                copied = re.findall(r"\b(\w+): (?:\w+\.)?\1,", m[2])
                if len(copied) >= 3:
                    yield f"{f.where()}: {m[1]} copied field by field"
                    break


def point5(top):
    """A fact in the requires of three functions or more; two parameters that travel together through four or more."""
    facts, pairs = {}, {}
    for f in functions(top):
        crate = f.path.parts[-3]
        for kind, text in f.clauses:
            if kind == "requires":
                for part in text.split(" × "):
                    facts.setdefault((crate, part.strip("() ")), []).append(f)
        ps = [p for p in f.params if ":" in p]
        for i in range(len(ps)):
            for j in range(i + 1, len(ps)):
                pairs.setdefault((crate, ps[i], ps[j]), []).append(f)
    for (crate, part), fs in sorted(facts.items()):
        if len(fs) >= 3:
            yield f"{crate}: {part}: {', '.join(f.name for f in fs)}"
    for (crate, p, q), fs in sorted(pairs.items()):
        if len(fs) >= 4:
            yield f"{crate}: ({p}, {q}): {len(fs)} functions"


def point6(top):
    """A buffer or a slice with a length or a place beside it."""
    for path, text in sources(top):
        for m in re.finditer(r"^(?:pub )?struct (\w+)[^{;]*\{(.*?)^\}", text, re.M | re.S):
            if re.search(r"\b(length|len|count)\b: (u8|usize)", m[2]) and re.search(r"\[u8|Words", m[2]):
                yield f"{path.parts[-3]}:{text.count(chr(10), 0, m.start()) + 1} struct {m[1]}"
    for f in functions(top):
        ps = " ".join(f.params)
        if re.search(r"\w+: &(mut )?\[u8\]", ps) and re.search(r"\b(count|length|end|waiting|most): usize", ps):
            yield f.where()


def point7(top):
    """A switch on which step to run: a flag or a kind handed down that says which of two things is done."""
    for f in functions(top):
        for p in f.params:
            if re.match(r"(write|kind|which): (bool|u8)$", p):
                yield f"{f.where()} ({p})"


POINTS = [point1, point2, point3, point4, point5, point6, point7]


def main(args):
    quiet = "-q" in args
    top = Path(args[args.index("--in") + 1]) if "--in" in args else Path(__file__).resolve().parent.parent
    wanted = [int(a) for a in args if a.isdigit()] or range(1, len(POINTS) + 1)
    for n in wanted:
        found = list(POINTS[n - 1](top))
        print(f"point {n}: {len(found)} places. {POINTS[n - 1].__doc__}")
        if not quiet:
            for line in found:
                print("   ", line)


if __name__ == "__main__":
    main(sys.argv[1:])
