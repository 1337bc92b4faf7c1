#!/usr/bin/env python3
"""Spell the repository's own definitions and lemmas as today's Rattle does: words in snake case, types in camel case.

  respell.py [FOLDER]        rewrites FOLDER (default: here) in place, after port.py; prints each renaming and each clash

What it renames, and only where the repository itself declares the name in a crate's specs/ or proofs/:
- lowerCamelCase words (definitions, fields, constructors, parameters) become snake_case everywhere in .antt files, and in the
  clauses, ghost lines and comments of .rt files;
- lemmas of proofs/*.antt and specs/*.antt with a dash between plain words: the dash stays where both sides are names
  (length-drop), else it becomes an underscore (first_at). They are renamed where they are declared, imported or reached by path.
It leaves alone: Rust code, strings, generated names (goals, steps, `-spec`, invariants and measures), std's names,
must-fail edits (translate.py makes those from the two trees).
"""
import collections, os, re, subprocess, sys

top = sys.argv[1] if len(sys.argv) > 1 else "."
os.chdir(top)
crates = sorted(os.listdir("crates"))
antt, rust = [], []
for c in crates:
    for root, dirs, names in os.walk(os.path.join("crates", c)):
        dirs[:] = [d for d in dirs if d not in ("out", "must-fail")]
        for n in names:
            p = os.path.join(root, n)
            if n.endswith(".antt"):
                antt.append(p)
            elif n.endswith(".rt"):
                rust.append(p)
text = {p: open(p, encoding="utf-8").read() for p in antt + rust}

WORD = r"[A-Za-z_][\w'₀-₉]*"
NAME = r"[A-Za-z_][\w'₀-₉-]*"
camel = re.compile(r"^[a-z][a-z0-9]*(?:[A-Z0-9][a-z0-9]*)*[A-Z][\w'₀-₉]*$")


def snake(word):
    word = re.sub(r"([a-z0-9])([A-Z])", r"\1_\2", word)
    word = re.sub(r"([A-Z]+)([A-Z][a-z])", r"\1_\2", word)
    word = re.sub(r"With0x", "With_0x", word)
    return word.lower()


# lowerCamelCase words: all that the .antt files use and std does not declare are the repository's own
declared = set()
for p in antt:
    for line in text[p].split("\n"):
        if line.lstrip().startswith(("use ", "pub use ", "--", "mod ", "pub mod ")):
            continue
        declared.update(re.findall(r"(?<![\w'])" + WORD, line))  # not what follows the 0 of 0x1F
words = {w: snake(w) for w in declared if camel.match(w)}
# where the plain spelling would fall together with another name in one file: the identifiers of the same words, std's counts
words.update({w: n for w, n in {
    "countOnes": "count_of_ones", "countLeadingZeros": "count_of_leading_zeros", "countTrailingZeros": "count_of_trailing_zeros",
    "rotateLeft": "rotated_left", "rotateRight": "rotated_right", "shiftLeft": "shifted_left", "shiftRight": "shifted_right",
}.items() if w in words})

# a lemma that the plain spelling of a definition would fall together with, in one crate
for crate, lemma, other in (("words", "tail_of", "short_tail"),):
    for p in antt:
        if p.startswith(os.path.join("crates", crate, "proofs")):
            text[p] = re.sub(r"(?<![\w'.-])" + lemma + r"(?![\w'-])", other, text[p])

# names that stand already, in .antt files
present = collections.Counter()
for p in antt:
    for w in set(re.findall(WORD, text[p])):
        present[w] += 1
clash = sorted((w, n) for w, n in words.items() if present[n])

pattern = re.compile(r"(?<![\w'₀-₉·])(" + "|".join(sorted(map(re.escape, words), key=len, reverse=True)) + r")(?![\w'₀-₉])") if words else None


def respell(s):
    return pattern.sub(lambda m: words[m.group(1)], s) if pattern else s


for p in antt:
    text[p] = respell(text[p])
for p in rust:
    out, inside = [], 0
    for line in text[p].split("\n"):
        code, mark, note = line.partition("//")
        if line.lstrip().startswith("ghost use") or re.match(r"\s*(requires|ensures|ghost)\b", line) or inside:
            inside += line.count("{") - line.count("}") if not line.lstrip().startswith("ghost use") else 0
            inside = max(inside, 0)
            out.append(respell(line))
        elif mark:
            out.append(code + mark + respell(note))
        else:
            out.append(line)
    text[p] = "\n".join(out)

# lemmas with a dash
top_level = re.compile(r"^(?:unfoldable |abbrev )?(?:pub )?(?:unfoldable |abbrev )?(" + NAME + r")\s*:", re.M)
generated = re.compile(r"^(invariant|decreases|ghost|returns|bounds|overflow|nonzero|slice_bounds|loop|then|else|in)-|-spec$|-requires(-\d+)?$")
names = set()
for p in antt:
    names.update(re.findall(r"^(?:unfoldable |abbrev )?(?:pub )?(?:record |data )?(" + NAME + r")", text[p], re.M))
    names.update(re.findall(r"^  (?:pub )?(" + NAME + r")\s*:", text[p], re.M))
names |= {"length", "take", "drop", "get_or", "set", "sets", "append", "map", "replicate", "cond", "ltb", "eqb", "leb", "sum", "zero", "suc"}
lemmas = {}
for p in antt:
    if os.path.basename(p) in ("Proof.antt", "Answers.antt", "Invariants.antt"):
        continue
    for n in re.findall(r"^\s*(?:unfoldable |abbrev )?(?:pub )?(" + NAME + r")\s*:(?!=)", text[p], re.M):
        if "-" in n and not generated.search(n):
            parts = n.split("-")
            if "/specs/" in p and re.search(r"^ +(?:pub )?" + re.escape(n) + r"\s*:", text[p], re.M):
                # a field or a constructor, which is a plain word
                lemmas[n] = n.replace("-", "_")
                continue
            new = parts[0]
            for i in range(1, len(parts)):
                left, right = "-".join(parts[:i]), "-".join(parts[i:])
                new += ("-" if left in names and right in names else "_") + parts[i]
            if new != n:
                lemmas[n] = new
for n, new in list(lemmas.items()):
    if new in names:
        print(f"clash: {n} -> {new} stands already; kept")
        del lemmas[n]

# several constructors on one line of a data type
for p in antt:
    if "/specs/" in p:
        for many in re.findall(r"^ +((?:" + NAME + r" )+" + NAME + r") : ", text[p], re.M):
            for n in many.split():
                if "-" in n and n.replace("-", "_") not in names:
                    lemmas[n] = n.replace("-", "_")

dashed = re.compile(r"(?<![\w'₀-₉.-])(" + "|".join(sorted(map(re.escape, lemmas), key=len, reverse=True)) + r")(?![\w'₀-₉-])")
path = re.compile(r"(?<=[}\w]\.)(" + "|".join(sorted(map(re.escape, lemmas), key=len, reverse=True)) + r")(?![\w'₀-₉-])")
count = 0
for p in antt:
    s = text[p]
    own = set(re.findall(r"^\s*(?:unfoldable |abbrev )?(?:pub )?(" + NAME + r")\s*:(?!=)", s, re.M)) if os.path.basename(p) not in ("Proof.antt",) else set()
    for many in re.findall(r"^ +((?:" + NAME + r" )+" + NAME + r") : ", s, re.M):
        own.update(many.split())
    imported = set()
    for line in s.split("\n"):
        m = re.match(r"\s*(?:pub )?use (Rattle\.\S+?)(?:\.\{(.*)\}|\s+as\s.*)?$", line)
        if m and m.group(2) and not m.group(1).startswith("Rattle.std."):
            for part in m.group(2).split(","):
                imported.update(part.strip().split(" as ")[:1])
    here = {n for n in lemmas if n in own or n in imported}
    if here:
        s2 = dashed.sub(lambda m: lemmas[m.group(1)] if m.group(1) in here else m.group(1), s)
        count += s2 != s
        text[p] = s2
# the fields of a record of specs/, where it is built or read: `name =` in a literal, `.name`
fields = {}
for p in antt:
    if os.path.basename(p) not in ("Proof.antt", "Answers.antt", "Invariants.antt"):
        for n in re.findall(r"^ +(?:pub )?(" + NAME + r")\s*:", text[p], re.M):
            old_names = [o for o, new in lemmas.items() if new == n]
            for o in old_names:
                fields[o] = n
if fields:
    some = "|".join(sorted(map(re.escape, fields), key=len, reverse=True))
    built = re.compile(r"(^\s*|[{;]\s*)(" + some + r")(?=\s*=)", re.M)
    read = re.compile(r"(?<=[\w)]\.)(" + some + r")(?![\w'₀-₉-])")
    for p in antt:
        text[p] = read.sub(lambda m: fields[m.group(1)], built.sub(lambda m: m.group(1) + fields[m.group(2)], text[p]))

for p in rust:
    out = []
    for line in text[p].split("\n"):
        clause = re.match(r"\s*(requires|ensures)\b", line)
        if clause or (line.lstrip().startswith("ghost use Rattle.") and not line.lstrip().startswith("ghost use Rattle.std.")):
            line = dashed.sub(lambda m: lemmas[m.group(1)], line)
        out.append(line)
    text[p] = "\n".join(out)

for p, s in text.items():
    open(p, "w", encoding="utf-8").write(s)
for w, n in sorted(words.items()):
    print(f"word: {w} -> {n}")
for w, n in sorted(lemmas.items()):
    print(f"lemma: {w} -> {n}")
for w, n in clash:
    print(f"look: {w} became {n}, which stood already in {present[n]} files")
