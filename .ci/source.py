"""What stands in crates/, for the scripts of this folder: the top-level items of the .antt and .rt files.

Comments are taken out first, so a name that stands only in a comment is no item; nor is a helper of a `where` or a `let`. An item of a
module with parameters (`module _ (..) where`) is one, and its statement begins with the module's line. What rt keeps in a crate's out/ is
none of its files.
"""
import glob
import os
import re
import textwrap

HEADS = re.compile(r"(?:(?:abbrev|unfoldable|opaque|pub)\s+)*")
OTHERS = ("use ", "pub use ", "pub mod ", "mod ", "infix", "unfolding ", "open ")


def read(path):
    with open(path, encoding="utf-8") as f:
        return f.read()


def plain(text):
    """A text with every run of white space as one space: what two quotations are compared by."""
    return " ".join(text.split())


def files(*patterns):
    """The files of these patterns, in order, without what rt keeps of them in out/."""
    return sorted({p for pattern in patterns for p in glob.glob(pattern, recursive=True) if not re.match(r"crates/[^/]+/out/", p)})


def without_comments(text, mark):
    return re.sub(r"(?m)(^|(?<=\s))%s.*$" % re.escape(mark), "", text)


class Item:
    """A top-level item: what kind it is, its statement (of a definition the whole of it), and whether it is `pub`."""

    def __init__(self, name, path, kind, statement, public):
        self.name, self.path, self.kind, self.statement, self.public = name, path, kind, statement, public
        self.clauses = ""

    @property
    def whole(self):
        return plain(self.statement + "\n" + self.clauses)


def chunks(text):
    """The parts of a file that begin in its first column, each with the indented lines behind it."""
    part = []
    for line in text.split("\n"):
        if line[:1].strip() and line[0] not in ")}]" and part:
            yield "\n".join(part)
            part = []
        if line.strip():
            part.append(line)
    if part:
        yield "\n".join(part)


unread = []     # what the reading below does not know: (file, text); .ci/docs fails where there is any


def antt_items(path, text=None, head=""):
    """The items of a file of definitions or proofs, fields and constructors with them, in order."""
    items, last = [], None
    if text is None and "{-" in read(path):
        unread.append((path, "a block comment"))
    for part in chunks(without_comments(read(path), "--") if text is None else text):
        if part.startswith(OTHERS):
            if part.startswith("unfolding ") and last is not None:
                last.clauses += "\n" + part
            continue
        body = part[HEADS.match(part).end():]
        public = "pub " in part[:len(part) - len(body)]
        if body.startswith("module "):
            # an inner module's statements stand under all the lines above them
            line, _, inner = part.partition(" where\n")
            line += " where"
            items += antt_items(path, textwrap.dedent(inner), head + line + "\n")
            last = None
            continue
        told = re.match(r"(record|data)\s+(\S+)", body)
        if told:
            last = Item(told.group(2), path, told.group(1), head + part, public)
            items.append(last)
            for line in part.split("\n")[1:]:
                of = re.match(r"  (?:pub )?(\S+(?: \S+)*?) : ", line + " ")
                if of:
                    items += [Item(n, path, "part", plain(line), public) for n in of.group(1).split()]
            continue
        told = re.match(r"([^\s(){}]+(?:\s+[^\s(){}:]+)*)(?:\s+\{[^}]*\})?\s+:\s", body + " ")
        if told and "=" not in told.group(1).split():
            for name in told.group(1).split():
                stated = head + "\n".join("  " + x for x in part.split("\n")) if head else part
                defines = "/specs/" in path or re.match(r"(?:pub )?(?:abbrev|unfoldable)\b", part) or part.rstrip().endswith("Type 0")
                last = Item(name, path, "definition" if defines else "law", stated, public)
                items.append(last)
            continue
        # a clause of what was stated last; of a name with places for its arguments any clause
        if last is None or not (body.split()[0] == last.name or "◌" in last.name):
            unread.append((path, part.split("\n")[0]))
        else:
            last.clauses += "\n" + part
    return items


class Function:
    """A function of a .rt file: who has it, its contract, its body, and the cycle of functions that it is proved with, if any."""

    cycle = None

    def __init__(self, name, owner, crate, path, public, head, body):
        self.name, self.owner, self.crate, self.path, self.public, self.head, self.body = name, owner, crate, path, public, head, body
        self.requires, self.ensures = clauses(head, "requires"), clauses(head, "ensures")

    @property
    def full(self):
        return "%s::%s" % (self.owner or self.crate, self.name)


def clauses(head, word):
    """The contents of each `requires { .. }` or `ensures NAME { .. }` of a function's head."""
    found = []
    for told in re.finditer(r"\b%s\b[^{]*\{" % word, head):
        depth, at = 1, told.end()
        while depth and at < len(head):
            depth += {"{": 1, "}": -1}.get(head[at], 0)
            at += 1
        found.append(plain(head[told.end():at - 1]))
    return found


def owner_of(head):
    """The type or the trait that a line behind `impl` or `trait` is of: its last name, without what stands in angle brackets."""
    while re.search(r"<[^<>]*>", head):
        head = re.sub(r"<[^<>]*>", "", head)
    told = re.match(r"\s*(?:[\w:&']+ for )?(?:\w+::)*(\w+)", head)
    return told.group(1) if told else None


def opens_body(line):
    """Whether a line of a function's head is its last: the bracket of the body, and not of a clause."""
    line = line.rstrip()
    return line.endswith("{") and (line.strip() == "{" or not re.search(r"\b(requires|ensures|decreases)\b", line))


def functions_of(path):
    crate = path.split("/")[1]
    owner, found = None, []
    text = without_comments(read(path), "//")
    lines = text.split("\n")
    if "/*" in text:
        unread.append((path, "a block comment"))
    i = 0
    while i < len(lines):
        line = lines[i]
        told = re.match(r"(?:pub )?(?:unsafe )?(impl|trait)\b(.*)", line)
        if told:
            owner = owner_of(told.group(2))
        elif line == "}":
            owner = None
        told = re.match(r"(\s*)(pub )?(?:pub\([^)]*\) )?(?:(?:const|unsafe|extern \"C\") )*fn (\w+)", line)
        if told:
            head, begin = [], i
            while i < len(lines) - 1 and not opens_body(lines[i]) and not lines[i].endswith(";"):
                head.append(lines[i])
                i += 1
            if lines[i].strip() != "{":
                head.append(lines[i].rstrip()[:-1])
            # a function that a trait only names has no body
            end = i if lines[i].endswith(";") else i + 1
            while not lines[i].endswith(";") and end < len(lines) and lines[end].rstrip() != told.group(1) + "}":
                end += 1
            made = Function(told.group(3), owner, crate, path, bool(told.group(2)), "\n".join(head), "\n".join(lines[i + 1:end]))
            while begin and re.match(r"\s*#\[", lines[begin - 1]):
                begin -= 1
                told = re.match(r"\s*#\[cycle\((\w+)\)\]", lines[begin])
                made.cycle = told.group(1) if told else made.cycle
            # with its attributes, as the prover counts
            made.lines = (begin, end)
            found.append(made)
            i = end
        i += 1
    if len(re.findall(r"\bfn\s+\w", text)) != len(found):
        unread.append((path, "a function that is not laid out as rt fmt does"))
    return found


def imports(path):
    """What a file brings in from elsewhere, and how its operators bind."""
    text = without_comments(read(path), "--" if path.endswith(".antt") else "//")
    return plain(" ".join(re.findall(r"^\s*(?:(?:pub|ghost)\s+)*(?:use|open|infix\w*)\s[^\n;{]*(?:\{[^}]*\}[^\n]*)?[^\n]*", text, re.M)))


def crates_listed():
    """The crates of crates.txt and what each stands on, in order."""
    listed = {}
    for line in read("crates.txt").split("\n"):
        line = line.split("#")[0]
        if ":" in line:
            listed[line.split(":")[0].strip()] = line.split(":")[1].split()
    return listed


class Tree:
    """All of crates/ of the folder that one stands in."""

    def __init__(self):
        self.listed = crates_listed()
        self.items = []
        for path in files("crates/**/*.antt"):
            self.items += antt_items(path)
        self.by_name = {}
        for x in self.items:
            if x.kind != "part":
                self.by_name.setdefault(x.name, []).append(x)
        self.functions = []
        self.type_heads = {}
        self.types, self.type_texts, self.consts, self.const_lines, self.parts = {}, [], {}, {}, set()
        for path in files("crates/*/src/**/*.rt"):
            self.functions += functions_of(path)
            text = without_comments(read(path), "//")
            crate = path.split("/")[1]
            for derived, kind, name, body in re.findall(r"((?:^#\[[^\n]*\n)*)^(?:pub )?(struct|enum|trait) (\w+)(.*?)^(?:\}|(?=\S))", text + "\n;", re.M | re.S):
                self.types.setdefault(name, set()).add(crate)
                self.type_texts.append((path, name, plain("%s %s %s" % (derived, kind, body))))
                self.type_heads[path, name] = "pub %s %s%s" % (kind, name, body.rstrip()) + ("\n}" if body.lstrip().startswith("{") else "")
                self.parts |= set(re.findall(r"\b(\w+)\b(?=\s*[:(,{])", body))
            for line, name in re.findall(r"^(\s*(?:pub )?const (\w+).*)", text, re.M):
                self.consts.setdefault(name, set()).add(crate)
                self.const_lines.setdefault(name, []).append(line)
        self.edits = sorted(p for p in glob.glob("crates/*/must-fail/*.edit"))
        self.programs = [c for c in self.listed if os.path.isfile("crates/%s/src/main.rt" % c)]

    def top(self, name):
        """The top-level items of a name, but for fields and constructors."""
        return self.by_name.get(name, [])
