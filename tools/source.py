#!/usr/bin/env python3
"""Reads a tree's source by its tokens: functions with their clauses and bodies, types with their members, constants, and the definitions of specs/.

`shapes.py` and `contracts.py` count and compare by it. It checks nothing: the file is taken to be one that `rt fmt` has laid out.
"""
import re
import subprocess

TOKEN = re.compile(
    r"(?P<comment>//[^\n]*)"
    r"|(?P<string>b?r#*\"|b?\"(?:\\.|[^\"\\])*\"|b?'(?:\\(?:u\{[^}]*\}|x[\da-fA-F]{2}|.)|[^'\\\n])')"
    r"|(?P<life>'[A-Za-z_]\w*)"
    r"|(?P<number>\d[\w_]*(?:\.\d+)?)"
    r"|(?P<word>[^\W\d][\w']*)"
    r"|(?P<sign>::|->|=>|<=|>=|==|!=|&&|\|\||\.\.=|\.\.|<<|\+=|-=|\*=|/=|%=|\|=|&=|\^=|\S)"
)
CLOSES = {"(": ")", "[": "]", "{": "}"}


class Tree:
    """A commit of this repository, or the files as they stand."""

    def __init__(self, commit=None):
        self.commit = commit
        words = ["git", "ls-tree", "-r", "--name-only", commit] if commit else ["git", "ls-files", "--cached", "--others", "--exclude-standard"]
        out = subprocess.run(words, capture_output=True, text=True, check=True).stdout
        self.files = sorted(set(f for f in out.split("\n") if f))
        self.texts = {}

    def text(self, path):
        if path not in self.texts:
            if self.commit:
                self.texts[path] = subprocess.run(["git", "show", f"{self.commit}:{path}"], capture_output=True, check=True).stdout.decode()
            else:
                self.texts[path] = open(path, encoding="utf-8").read()
        return self.texts[path]

    def of(self, pattern):
        return [f for f in self.files if re.fullmatch(pattern, f)]

    def crates(self):
        return sorted({f.split("/")[1] for f in self.of(r"crates/[^/]+/src/.*")})


class Token:
    __slots__ = ("kind", "text", "at", "end")

    def __init__(self, kind, text, at, end):
        self.kind, self.text, self.at, self.end = kind, text, at, end

    def __repr__(self):
        return self.text


def tokens(text):
    """All but comments and white space."""
    found, i = [], 0
    while m := TOKEN.search(text, i):
        i = m.end()
        if m.lastgroup != "comment":
            found.append(Token(m.lastgroup, m.group(), m.start(), m.end()))
    return found


def squeeze(s):
    return re.sub(r"\s+", " ", s).strip()


class Item:
    """A function, type, trait, constant or ghost member; `owner` is the type of the impl around it, `of` the trait of that impl."""

    def __init__(self, **fields):
        self.__dict__.update(fields)

    def where(self):
        return f"{self.path}:{self.line}"

    def name_in(self):
        return f"{self.owner}::{self.name}" if self.owner else self.name


class Reader:
    def __init__(self, path, text):
        self.path, self.text, self.ts, self.items = path, text, tokens(text), []
        self.read(0, len(self.ts), None, None, False)

    def span(self, i, j):
        return self.text[self.ts[i].at : self.ts[j - 1].end] if i < j else ""

    def line(self, i):
        return self.text.count("\n", 0, self.ts[i].at) + 1

    def close(self, i):
        """Past the bracket that closes the one at i."""
        deep = 0
        for j in range(i, len(self.ts)):
            t = self.ts[j].text
            deep += (t in CLOSES) - (t in CLOSES.values())
            if deep == 0:
                return j + 1
        return len(self.ts)

    def angle(self, i):
        """Past the `>` that closes the `<` at i."""
        deep = 0
        while i < len(self.ts):
            t = self.ts[i].text
            if t in CLOSES:
                i = self.close(i)
                continue
            deep += (t == "<") - (t == ">")
            i += 1
            if deep == 0:
                return i
        return i

    def comma(self, i, j):
        """The parts between commas at the top, of the tokens from i to j."""
        parts, start = [], i
        while i < j:
            t = self.ts[i].text
            if t in CLOSES:
                i = self.close(i)
            elif t == "<" and self.ts[i - 1].kind == "word" or t == "<" and self.ts[i - 1].text == "::":
                i = self.angle(i)
            elif t == ",":
                parts.append((start, i))
                i += 1
                start = i
            else:
                i += 1
        return parts + [(start, j)] if start < j else parts

    def read(self, i, end, owner, of, exported):
        attributes, public = [], False
        ts = self.ts
        while i < end:
            t = ts[i].text
            if t == "#":
                j = i + 1 + (ts[i + 1].text == "!")
                k = self.close(j)
                if ts[i + 1].text != "!":
                    attributes.append(self.span(j + 1, k - 1))
                i = k
                continue
            if t == "pub":
                public = True
                i += 1
                if i < end and ts[i].text == "(":
                    public = False
                    i = self.close(i)
                continue
            if t in ("extern", "unsafe", "final", "async") or ts[i].kind == "string":
                i += 1
                continue
            if t == "ghost":
                i = self.ghost(i, owner, of)
            elif t == "fn" or t == "const" and ts[i + 1].text == "fn":
                i = self.function(i + (t == "const") + 1, owner, of, attributes, public or exported)
            elif t in ("impl", "trait", "mod"):
                i = self.block(t, i + 1, attributes, public)
            elif t in ("struct", "enum"):
                i = self.type(t, i + 1, attributes, public)
            elif t in ("const", "static"):
                j = i + 1 + (ts[i + 1].text == "mut")
                k = j
                while ts[k].text != ";":
                    k = self.close(k) if ts[k].text in CLOSES else k + 1
                text = self.span(j + 2, k)
                kind, _, value = text.partition("=")
                self.add(kind=t, name=ts[j].text, i=j, owner=owner, of=of, public=public, type=squeeze(kind), value=squeeze(value))
                i = k + 1
            elif t == "macro_rules":
                j = i
                while ts[j].text != "{":
                    j += 1
                self.add(kind="macro", name=ts[i + 2].text, i=i + 2, owner=owner, of=of, public=public)
                i = self.close(j)
            else:
                j = i
                while j < end and ts[j].text not in (";", "{"):
                    j = self.close(j) if ts[j].text in ("(", "[") else j + 1
                if j < end and ts[j].text == "{":
                    j = self.close(j) - 1
                    if j + 1 < end and ts[j + 1].text == ";":
                        j += 1
                i = j + 1
            attributes, public = [], False

    def add(self, i, **fields):
        self.items.append(Item(path=self.path, line=self.line(i), **fields))

    def ghost(self, i, owner, of):
        ts = self.ts
        if ts[i + 1].text == "use":
            j = i
            while ts[j].text != ";":
                j = self.close(j) if ts[j].text in CLOSES else j + 1
            return j + 1
        j = i + 2
        while ts[j].text != "{":
            j += 1
        k = self.close(j)
        self.add(kind="ghost", name=ts[i + 1].text, i=i, owner=owner, of=of, public=True, text=squeeze(self.span(j + 1, k - 1)))
        return k + (k < len(ts) and ts[k].text in (";", ","))

    def function(self, i, owner, of, attributes, public):
        ts = self.ts
        name, at = ts[i].text, i
        i += 1
        generics = ""
        if ts[i].text == "<":
            j = self.angle(i)
            generics, i = self.span(i, j), j
        j = self.close(i)
        parameters = [squeeze(self.span(a, b)) for a, b in self.comma(i + 1, j - 1)]
        k, clauses, result = j, [], None
        first = None
        while k < len(ts):
            t = ts[k].text
            if t in ("requires", "ensures"):
                first = first if first is not None else k
                label = ts[k + 1].text if ts[k + 1].text != "{" else ""
                b = k + 1 + bool(label)
                e = self.close(b)
                clauses.append((t, label, squeeze(self.span(b + 1, e - 1))))
                k = e
            elif t in ("{", ";"):
                break
            elif t in CLOSES:
                k = self.close(k)
            else:
                k += 1
        stop = first if first is not None else k
        result = squeeze(self.span(j, stop)).removeprefix("->").strip()
        body, body_tokens = "", []
        if k < len(ts) and ts[k].text == "{":
            e = self.close(k)
            body, body_tokens = self.span(k, e), ts[k + 1 : e - 1]
        else:
            e = k + 1
        self.add(
            kind="fn", name=name, i=at, owner=owner, of=of, public=public, attributes=attributes, generics=squeeze(generics),
            parameters=parameters, result=result, clauses=clauses, body=body, tokens=body_tokens,
        )
        return e

    def block(self, kind, i, attributes, public):
        ts, j = self.ts, i
        while ts[j].text not in ("{", ";"):
            j = self.close(j) if ts[j].text in ("(", "[") else j + 1
        if ts[j].text == ";":
            return j + 1
        head = squeeze(self.span(i, j))
        e = self.close(j)
        if kind == "impl":
            if ts[i].text == "<":
                head = squeeze(self.span(self.angle(i), j))
            of, _, owner = head.rpartition(" for ")
            owner = re.sub(r"<.*", "", owner).strip()
            if of:
                self.add(kind="impl", name=of, i=i, owner=owner, of=of, public=True)
            self.read(j + 1, e - 1, owner, of or None, False)
        elif kind == "trait":
            name = ts[i].text
            self.add(kind="trait", name=name, i=i, owner=None, of=None, public=public, text=head)
            trait, before = self.items[-1], len(self.items)
            self.read(j + 1, e - 1, name, name, public)
            trait.members = [f"{x.kind} {x.name}" for x in self.items[before:] if x.kind in ("fn", "const")]
        else:
            self.read(j + 1, e - 1, None, None, False)
        return e

    def type(self, kind, i, attributes, public):
        ts, j = self.ts, i + 1
        if ts[j].text == "<":
            j = self.angle(j)
        generics = squeeze(self.span(i + 1, j))
        members, ghosts, e = [], [], j + 1
        if ts[j].text in ("{", "("):
            e = self.close(j)
            for a, b in self.comma(j + 1, e - 1):
                while ts[a].text == "#":
                    a = self.close(a + 1)
                text = squeeze(self.span(a, b))
                if ts[a].text == "ghost":
                    if ts[a + 1].text != "use":
                        ghosts.append(text)
                elif text:
                    members.append(text)
        derives = [d.strip() for a in attributes for d in re.findall(r"derive\(([^)]*)\)", a) for d in d.split(",")]
        self.add(kind=kind, name=ts[i].text, i=i, owner=None, of=None, public=public, generics=generics, members=members, ghosts=ghosts, derives=derives)
        return e + (e < len(ts) and ts[e].text == ";")


def items(tree):
    """All items of src/, by crate."""
    found = {}
    for path in tree.of(r"crates/[^/]+/src/.*\.rt"):
        found.setdefault(path.split("/")[1], []).extend(Reader(path, tree.text(path)).items)
    return found


HEAD = re.compile(r"(?P<how>(?:(?:abbrev|opaque|unfoldable|instance)\s+)*)(?P<pub>pub\s+)?(?P<kind>record\s+|data\s+)?(?P<name>[^\s:(){},.=|]+)(?:\s+[^=]*?)?\s*:(?:\s|$)")


def definitions(text):
    """Each definition of a file of specs/ with its text, without comments: from the line that states it to the next at the same margin. Of one in a
    module with parameters the text has these too."""
    found, name, lines, margin, inside = {}, None, [], "", ""
    for line in re.sub(r"[ \t]*--.*", "", text).split("\n"):
        if line and not line[0].isspace():
            margin, inside = "", ""
        words = line.split()
        if not words or not line.startswith(margin) or line[len(margin)].isspace():
            lines.append(line)
            continue
        if words[0] == "module" and words[-1] == "where":
            margin, inside, name, lines = margin + "  ", inside + " " + line.strip(), None, []
            continue
        if words[0] in ("use", "mod", "open", "module", "infixl", "infixr", "infix") or words[:2] in (["pub", "use"], ["pub", "mod"], ["unfoldable", "pub"]) and "use" in words[:3]:
            name, lines = None, []
            continue
        m = HEAD.match(line.strip())
        if m and not (name and words[0] == name):
            name, lines = m["name"], [inside, line]
            found[name] = lines
        else:
            lines.append(line)
    return {n: squeeze(" ".join(ls)) for n, ls in found.items()}


def specs(tree):
    """(crate, module, name) of each definition of specs/, with its text."""
    found = {}
    for path in tree.of(r"crates/[^/]+/specs/.*\.antt"):
        _, crate, _, *module = path.split("/")
        for name, text in definitions(tree.text(path)).items():
            found[crate, ".".join(module).removesuffix(".antt"), name] = text
    return found
