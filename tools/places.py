#!/usr/bin/env python3
"""Counts, for each point of the redesign, the places that a text search finds: a first count, to be read, and counted by `shapes.py` too.

  places.py [POINT..]      at the top of a tree; with points, each place of these, else the counts

It goes by lines and patterns. Comments are blanked first. What each point counts:

1  enums of two cases of which one has data, or with a case of a name that Option and Result have (None, Missing, Ok, Accepted, ..); structs with a field
   number, effect or op beside a value or a depth, and signatures that answer so; numbers that stand for a kind, an effect, a refusal or a place among
   words, compared with one of these names or given to it, or passed first to answer(..) and refused(..), or first in an array that is a whole answer;
   constants that name such numbers; a match with arms by number; an answer that a comment says to stand for none
2  functions whose bodies, and structs whose fields, are the same up to names and numbers, if the body has more than a line
3  loop, and while or while let with a body that moves an index
4  functions of their own for equality or order (same, less, at_most, ..), for printing (they take what prints, and print numbers or bytes), for a
   conversion by value (..._of, number, value, from_..., to_..., wide, decoded); three and more == joined by hand
5  each function with more than five parameters, or with three and more that stand together in three and more functions, or with a requires that stands,
   of the same words, in three and more functions
6  a slice with a length, a count or a depth beside it, in parameters or fields; searches that compare with bare numbers of four digits and more in
   hexadecimal; functions with arrays of a size of their own, which are buffers
7  if on a place, an op or a kind by number; a match with four or more arms by number; a function pointer or dyn; a function whose body is such a switch
8  answers in proofs/ whose whole right side is `search rules`, `omega arith` or `refl`; right sides that, up to names, stand in three and more files;
   lemmas of our own that the library has: those in OF_STD, by name; a proof that walks the code by hand (Proof.antt)
"""
import collections, os, re, subprocess, sys

# Own lemmas, and the library's of the same statement (found by comparing statements up to the names of what they bind).
OF_STD = {
    "neither": "std lemmas/Bool or_parts", "le_or": "std lemmas/Nat le_or_l", "cond_either": "core fmt/Padding cond_same", "drop-take": "core iter/runs/Cuts drop-take",
    "both": "and-eq-true_iff, its first half", "absurd_bool": "true≢false", "zero_one": "omega", "one_more": "omega",
}
NONE = r"None|Missing|Nothing|Absent|Ok|Err|Done|Accepted|Refused|Found|End"
NUMBERED = r"effect|number|op|kind|place|code|answer"

files = [f for f in subprocess.run(["git", "ls-files", "crates"], capture_output=True, text=True).stdout.split() if os.path.exists(f)]
raw = {f: open(f, encoding="utf-8").read() for f in files if f.endswith(".rt")}
places = collections.defaultdict(list)
FN = re.compile(r"^[ \t]*(?:pub(?:\(crate\))? )?(?:final |const |unsafe |extern \"C\" )*fn (\w+)(<[^(]*>)?\(", re.M)


def blanked(t):
    return re.sub(r"//[^\n]*", lambda m: " " * len(m[0]), t)


source = {f: blanked(t) for f, t in raw.items()}


def line(t, i):
    return t.count("\n", 0, i) + 1


def closed(t, i, a="{", b="}"):
    """Past the bracket that closes the one at i."""
    deep = 0
    for j in range(i, len(t)):
        deep += (t[j] == a) - (t[j] == b)
        if deep == 0:
            return j + 1
    return len(t)


def functions(t):
    """Where each stands, its name, its parameters, its clauses and its body, past the clauses."""
    for m in FN.finditer(t):
        e = closed(t, m.end() - 1, "(", ")")
        clauses, i = [], e
        while c := re.compile(r"[^{};]*?\b(requires|ensures)(?: \w+)? \{").match(t, i):
            i = closed(t, c.end() - 1)
            clauses.append((c[1], " ".join(t[c.end() : i - 1].split())))
        b = re.compile(r"[^{;]*([{;])").match(t, i)
        if b and b[1] == "{":
            yield m.start(), m[1], [" ".join(p.split()) for p in re.split(r",(?![^<(\[]*[>)\]])", t[m.end() : e - 1]) if p.strip()], clauses, t[b.end() : closed(t, b.end() - 1) - 1], t[e : b.start(1)]


def found(point, f, at, what):
    places[point].append(f"{f}:{line(raw[f], at)}: {what}")


def arms(t):
    for m in re.finditer(r"\bmatch ([^{};]*)\{", t):
        b = t[m.end() : closed(t, m.end() - 1)]
        yield m, len(re.findall(r"^\s*(?:\d+|0x[\da-fA-F_]+)(?: \| \d+)* =>", b, re.M))


twins, types, together, facts, many = (collections.defaultdict(list) for _ in range(5))
names = collections.Counter()
for f, t in source.items():
    for m in re.finditer(r"enum (\w+)[^{]*\{(.*?)\n\s*\}", t, re.S):
        vs = [v.strip() for v in re.sub(r"\{[^}]*\}|\([^)]*\)", "()", m[2]).split(",") if v.strip()]
        if len(vs) == 2 and any(v.endswith("()") for v in vs) or any(re.match(rf"({NONE})\b", v) for v in vs):
            found(1, f, m.start(), f"enum {m[1]} ({', '.join(vs)[:70]})")
    for m in re.finditer(r"struct (\w+)[^{;(]*\{(.*?)\n\s*\}", t, re.S):
        fields = dict(re.findall(r"(\w+): ([^,\n]+)", re.sub(r"ghost [^\n]*", "", m[2])))
        if {"number", "effect", "op"} & set(k for k, v in fields.items() if v.strip() in ("u32", "usize")) and len(fields) > 1:
            found(1, f, m.start(), f"struct {m[1]} ({', '.join(fields)})")
        if len(fields) > 1:
            types[tuple(fields.items())].append((f, m.start(), f"struct {m[1]}"))
        for a, v in fields.items():
            for b, w in fields.items():
                if re.match(r"&.*\[", v) and w.strip() in ("usize", "u32") and re.search(r"(^|_)(len|length|count|depth|n)$", b):
                    found(6, f, m.start(), f"struct {m[1]}: {a} with {b}")
    for m in re.finditer(rf"\b({NUMBERED})\s*(?::|==|!=|<|<=)\s*(\d+)\b|\b(\d+) <=? ({NUMBERED})\b", t):
        found(1, f, m.start(), m[0])
    for m in re.finditer(r"\b(?:answer|refused)\((?:rt, )?(\d+),|\[(2[1-9]|3[01]), ", t):
        found(1, f, m.start(), m[0])
    for m in re.finditer(r"const (\w+): u(?:32|size) = \d+;", t):
        if any(re.search(rf"(?:\b(?:{NUMBERED}): |== )(?:\w+::)*{m[1]}\b|\b{m[1]} =>", u) for u in source.values()):
            found(1, f, m.start(), m[0])
    for m in re.finditer(r"^[ \t]*//[^\n]*\b(?:0|30|2 \^ 32|a code of 0)[^\n]*\b(?:past the end|where there (?:is|are) (?:none|fewer)|where they spell none|says no more)\b", raw[f], re.M):
        found(1, f, m.start(), m[0].strip()[:80])
    for m, n in arms(t):
        if n > 1:
            found(1, f, m.start(), f"match {m[1].strip()} with {n} arms by number")
        if n > 3:
            found(7, f, m.start(), f"match {m[1].strip()} with {n} arms by number")
    for m in re.finditer(r"\bwhile [^{]*\{|\bloop \{", t):
        b = t[m.end() : closed(t, m.end() - 1)]
        if m[0].startswith("loop") or re.search(r"\b\w+ [+-]= |\b\w+ = past\b", b):
            found(3, f, m.start(), m[0].strip())
    for m in re.finditer(r"if (?:place|op|index|kind) (?:<|==|<=) \d+|if \d+ <=? (?:place|op|index|kind)", t):
        found(7, f, m.start(), m[0])
    for m in re.finditer(r"\bdyn \w|: fn\(|&\[fn\(", t):
        found(7, f, m.start(), m[0])
    for m in re.finditer(r"(?:<|<=) 0x[\da-fA-F_]{4,} \{", t):
        found(6, f, m.start(), f"a search by numbers: {m[0]}")
    for at, name, parameters, clauses, body, result in functions(t):
        what = f"fn {name}"
        exported = "no_mangle" in t[max(0, at - 60) : at]
        own = [p for p in parameters if not re.search(r"\bself$", p)]
        if len(parameters) > 5:
            many[f, at, what].append(f"{len(parameters)} parameters" + (" at the C boundary" if exported else ""))
        together[f, at, what] = {re.sub(r"'\w+ |mut ", "", p) for p in own}
        for kind, text in clauses:
            if kind == "requires":
                facts[text].append((f, at, what))
        slices = [p.split(":")[0] for p in own if re.match(r"(?:mut )?\w+: &.*\[[^;]*\]$", p)]
        for b in own:
            if m := re.match(r"(?:(\w*)_)?(len|length|count|depth|n): (?:usize|u32)$", b):
                for a in slices:
                    if not m[1] or a.startswith(m[1]):
                        found(6, f, at, f"{what}: {a} with {b.split(':')[0]}")
                        break
        if n := len(re.findall(r"let mut \w+(?:: [^=;]*)? = \[[^;\]\n]+; [^\]]+\];", body)):
            found(6, f, at, f"{what}: {n} buffers of its own")
        if re.fullmatch(r"same\w*|equal\w*|is_same\w*|less|at_most|greater|at_least|compare\w*|below|biased|truth|min|max|least|shorter|zero|fill", name):
            found(4, f, at, what)
        elif re.search(r"impl (?:Files \+ )?Print|&\(impl Files \+ Print\)", " ".join(parameters)) and re.search(r"\bprint::|\bwrite_all|print!\(rt; \"(?: ?\{n\}|\\\\x)", body):
            found(4, f, at, f"{what} prints")
        elif len(parameters) == 1 and not re.search(r"&\[|&str|&mut", parameters[0]) and re.fullmatch(r"\w+_of|number|value|from_number|to_\w+|into_\w+|wide|decoded|base|\w+_word", name):
            found(4, f, at, f"{what} ({parameters[0]}) {result.split('ensures')[0].split('requires')[0].strip()}")
        if len(re.findall(r" == ", body)) > 2 and len(re.findall(r"\n\s*(?:& |&& )", body)) > 1:
            found(4, f, at, f"{what}: {len(re.findall(' == ', body))} comparisons joined")
        shape = re.sub(r"\b(?:0x[\da-fA-F_]+|\d[\d_]*)\b", "N", body)
        shape = re.sub(r"\b(?!if|else|return|let|mut|while|match|for|loop|as|in|self\b)[a-z_]\w*\b", "x", re.sub(r"b?\"[^\"]*\"", "S", shape))
        shape = re.sub(r"\b[A-Z]\w*\b", "T", re.sub(r"\s+", " ", shape)).strip()
        if len(shape) > 40:
            twins[shape].append((f, at, what))
for alike in [*twins.values(), *types.values()]:
    if len(alike) > 1:
        for f, at, what in alike:
            found(2, f, at, f"{what}  ~ {len(alike) - 1} more of its shape")
sets = [set(p) for p in together.values()]
groups = {frozenset(a & b) for i, a in enumerate(sets) for b in sets[:i] if len(a & b) > 2}
groups = {g: [w for w, p in together.items() if g <= p] for g in groups}
groups = {g: ws for g, ws in groups.items() if len(ws) > 2}
largest = {}
for g, ws in sorted(groups.items(), key=lambda x: (-len(x[0]) * len(x[1]), sorted(x[0]))):
    for w in ws:
        largest.setdefault(w, g)
for (f, at, what), g in largest.items():
    many[f, at, what].append(f"with {len(groups[g]) - 1} more takes {', '.join(sorted(p.split(':')[0] for p in g))}")
for text, ws in facts.items():
    if len(ws) > 2:
        for f, at, what in ws:
            many[f, at, what].append(f"with {len(ws) - 1} more requires {text[:60]}")
for (f, at, what), whys in many.items():
    found(5, f, at, f"{what}: {'; '.join(whys)}")
rights, where = collections.defaultdict(set), collections.defaultdict(list)
for f in files:
    if f.endswith(".antt") and "/proofs/" in f:
        t = open(f, encoding="utf-8").read()
        raw[f] = t
        if f.endswith("Answers.antt"):
            for m in re.finditer(r"^([\w-]+)(?: [gc]| κs)* =\s*(.*?)(?=\n\S|\n\n|\Z)", t, re.M | re.S):
                right = " ".join(m[2].split())
                if re.fullmatch(r"\(?(search rules|omega arith|omega \(arith\)|refl)\)?", right):
                    found(8, f, m.start(), f"{m[1]} = {right}")
                shape = re.sub(r"[\w'-]+", "x", right)
                if len(right) > 30:
                    rights[shape].add(f)
                    where[shape].append((f, m.start(), m[1]))
        for m in re.finditer(r"^(?:pub )?([\w-]+) :", t, re.M):
            if m[1] in OF_STD and not re.search(r"Answers|Invariants", f):
                found(8, f, m.start(), f"lemma {m[1]}: {OF_STD[m[1]]}")
        if f.endswith("Proof.antt"):
            found(8, f, 0, "a whole proof by hand")
for shape, fs in rights.items():
    if len(fs) > 2:
        for f, at, name in where[shape]:
            found(8, f, at, f"{name}: its right side stands in {len(fs)} files up to names")
asked = [int(a) for a in sys.argv[1:]]
for p in asked or range(1, 9):
    if asked:
        for w in sorted(places[p]):
            print(f"{p} {w}")
    print(f"point {p}: {len(places[p])} places")
