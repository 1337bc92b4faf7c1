#!/usr/bin/env python3
"""Counts by structure what `places.py` counts by text: lists to be read, of whatever has the shape, whether it is a place or not.

  shapes.py [--quiet] [COMMIT]      at the top of the repository; with COMMIT the tree of that commit

It reads the source by its tokens (source.py). The lists: functions with more than five parameters; functions that take three and more slices or
numbers of one type; all loop, while and while let; for over a range; all enums; structs with a number that is compared with constants; integer constants
compared or matched; numbers answered where a kind or a refusal is meant; pairs of functions of one file or crate with like token sequences (four fifths of at
least 24 tokens); pairs of types with like fields; impls of traits that a derive could give; functions from one value to another with no self; struct
fields that count another field; all values of function type; all requires of public functions; public items without ///.
"""
import collections
import difflib
import re
import sys

from source import Tree, items

DERIVED = {"Clone", "Copy", "PartialEq", "Eq", "PartialOrd", "Ord", "Hash", "Default", "Debug"}
words = [a for a in sys.argv[1:] if not a.startswith("--")]
tree = Tree(words[0] if words else None)
lists = collections.OrderedDict()


def put(name, item, what):
    lists.setdefault(name, []).append(f"{item.where()}: {what}")


def shape(tokens):
    kinds = {"word": "x", "number": "1", "string": "s", "life": "l"}
    keep = {"if", "else", "return", "let", "mut", "while", "match", "for", "loop", "as", "in", "self", "break", "continue"}
    return [t.text if t.kind == "sign" or t.text in keep else kinds[t.kind] for t in tokens]


found = items(tree)
for crate, its in found.items():
    bodies = []
    for x in its:
        if x.kind == "fn":
            own = [p for p in x.parameters if not re.search(r"\bself$", p)]
            exported = any("no_mangle" in a for a in x.attributes)
            if len(x.parameters) > 5:
                put("functions with more than five parameters", x, f"{x.name_in()} ({len(x.parameters)})" + (", exported" if exported else ""))
            alike = collections.Counter(p.partition(":")[2].strip() for p in own)
            if alike and max(alike.values()) > 2:
                put("functions that take three and more of one type", x, f"{x.name_in()}: {alike.most_common(1)[0][1]} of {alike.most_common(1)[0][0]}" + (", exported" if exported else ""))
            ts = x.tokens
            for i, t in enumerate(ts):
                if t.text in ("loop", "while") and t.kind == "word":
                    head = x.body[0:0] + " ".join(u.text for u in ts[i : i + 12])
                    put("loop, while, while let", x, f"{x.name_in()}: {head.split('{')[0].strip()[:60]}")
                if t.text == "for" and any(u.text == ".." for u in ts[i : i + 12]):
                    put("for over a range", x, f"{x.name_in()}: {' '.join(u.text for u in ts[i : i + 12]).split('{')[0].strip()}")
                if t.text in ("==", "!=", "<", "<=") and (ts[i + 1].kind == "number" or ts[i - 1].kind == "number") and ts[i - 2].text not in ("len", ")"):
                    a, b = ts[i - 1].text, ts[i + 1].text
                    if {a, b} - {"0", "1", "2"} == {a, b}:
                        put("numbers compared", x, f"{x.name_in()}: {a} {t.text} {b}")
                if t.text == "=>" and ts[i - 1].kind == "number":
                    put("numbers matched", x, f"{x.name_in()}: {ts[i - 1].text} =>")
                if t.kind == "number" and re.fullmatch(r"(2[1-9]|3[01])", t.text) and i and ts[i - 1].text in ("(", "[", ":", "=>", ","):
                    put("refusals by number", x, f"{x.name_in()}: {ts[i - 1].text} {t.text}")
            if len(ts) > 23:
                bodies.append((x, shape(ts)))
            if len(own) == 1 and len(x.parameters) == 1 and "&" not in own[0] and "[" not in own[0] and x.result and not x.of:
                put("from one value to another", x, f"{x.name_in()} ({own[0]}) -> {x.result}")
            if x.parameters == ["self"] and x.result in ("u8", "u16", "u32", "u64", "usize", "bool") and not x.of:
                put("from one value to another", x, f"{x.name_in()} (self) -> {x.result}")
            if any(re.search(r"\b(dyn|fn) ?[\w(]|Box<", p) for p in [*x.parameters, x.result]):
                put("function values", x, x.name_in())
            asks = [c[2] for c in x.clauses if c[0] == "requires"]
            if x.public and asks:
                put("requires of public functions", x, f"{x.name_in()}: {'; '.join(asks)[:110]}")
        elif x.kind == "enum":
            put("enums", x, f"{x.name} ({', '.join(x.members)[:90]}); derives {', '.join(x.derives) or 'nothing'}")
        elif x.kind == "struct":
            fields = [(m.removeprefix("pub ").removeprefix("pub(crate) ").partition(":")[0].strip(), m.partition(":")[2].strip()) for m in x.members]
            numbers = [f for f, t in fields if t in ("usize", "u32")]
            slices = [f for f, t in fields if "[" in t]
            if numbers and slices:
                put("structs of slices and numbers", x, f"{x.name}: {', '.join(slices)} | {', '.join(numbers)}")
            if len(fields) > 1:
                bodies.append((x, [t for f, t in sorted(fields)]))
            if not set(x.derives) & {"Clone", "Copy", "Drop"}:
                put("structs without derives", x, x.name)
        elif x.kind == "impl" and re.sub(r"<.*", "", x.name) in DERIVED:
            put("impls that a derive could give", x, f"{x.name} for {x.owner}")
        elif x.kind == "impl":
            put("impls of traits", x, f"{x.name} for {x.owner}")
        elif x.kind == "const":
            put("constants", x, f"{x.name}: {x.type} = {x.value[:50]}")
        if x.kind in ("fn", "struct", "enum", "trait") and x.public and x.of in (None, x.owner):
            above = tree.text(x.path).split("\n")[: x.line - 1]
            while above and re.match(r"\s*(#\[|//(?!/)|(pub )?(unsafe )?extern)", above[-1]):
                above.pop()
            if not (above and above[-1].strip().startswith("///")):
                put("public items without ///", x, x.name_in())
    for i, (x, a) in enumerate(bodies):
        for y, b in bodies[:i]:
            if x.kind == "fn" == y.kind:
                m = difflib.SequenceMatcher(None, a, b, autojunk=False)
                if min(len(a), len(b)) * 2 / (len(a) + len(b)) > 0.8 and m.ratio() >= 0.8:
                    put("functions of like tokens", x, f"{x.name_in()} and {y.name_in()} ({y.where()}), {m.ratio():.0%} of {len(a)} and {len(b)}")
            elif x.kind != "fn" and y.kind != "fn" and a == b:
                put("types of like fields", x, f"{x.name} and {y.name}")
for name, rows in lists.items():
    print(f"{name}: {len(rows)}")
    if "--quiet" not in sys.argv:
        for row in rows:
            print(f"  {row}")
