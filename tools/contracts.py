#!/usr/bin/env python3
"""Lists, old beside new, what a redesign changed: public functions with their clauses, public types with their invariants, definitions, theorems, lemmas, edits.

  contracts.py COMMIT            at the top of the repository: writes the lists, in Markdown, against that commit
  contracts.py COMMIT --edits    each must-fail edit of that commit, where it stands now, and what is missing
  contracts.py COMMIT --check    only what no line below accounts for; status 1 where there is any

What carries a promise on is written by hand below: MOVED for a function that has another name or crate, WENT for one that has none. For definitions STATED,
for lemmas LEMMAS.
The script matches nothing by guess: a name that no line names, and that is not found at its place, is listed as not accounted for.
"""
import os
import re
import subprocess
import sys

from source import Tree, items, specs

COMMIT = sys.argv[1]

# Old public function: where the same is promised now, by the same words or with the types that the lists show.
MOVED = {
    "eval::step": "eval::Eval::step", "eval::run": "eval::Eval::run",
    "host::push": "eval::Eval::push", "host::pop": "eval::Eval::pop", "host::read": "eval::Eval::read", "host::write": "eval::Eval::write",
    "host::clear_effect": "eval::Eval::clear_effect", "host::call_stack": "eval::call_stack",
    "state::new": "eval::State::new",
    "script::compile": "compile::compile",
    "fetch::fetch": "script::Script::fetch", "recall::fetched": "script::Memo::fetch",
    "words::find": "words::Word::from_name",
    "utf8::first_char": "reader::first_char", "utf8::is_ascii": "reader::is_ascii", "utf8::is_white_space": "reader::is_white_space",
    "names::first_bytes": "reader::first_bytes", "names::first_eight": "reader::first_eight",
    "tokens::Reader::new": "reader::Reader::new", "tokens::Reader::next": "reader::Reader::next", "tokens::read_token": "reader::read_token",
    "lists::number": "fields::number", "lists::first": "fields::first", "lists::after": "fields::after",
}
# Old public function that has no successor of its own: what promises the same now.
WENT = {
    "bits::bitwise_and": "`&`: its meaning in std is `bit_and`, which is what `bitwise_and` of word says; `Word::And` in `Machine::evaluate`, whose clause is `Comes (outcome .. (fetched ..) ..)`, and `outcome` of a word is `evaluated` of it",
    "bits::bitwise_or": "`\\|`, as for `bitwise_and`; `Word::Or`",
    "bits::bitwise_xor": "`^`, as for `bitwise_and`; `Word::Xor`",
    "bits::leading_zeros": "std's `u32::leading_zeros`, whose clause is `count_leading_zeros 32`, as word defines it; `Word::LeadingZeros`",
    "bits::trailing_zeros": "std's `u32::trailing_zeros`; `Word::TrailingZeros`",
    "bits::shift_left": "std's `u32::wrapping_shl`; `Word::ShiftLeft`",
    "bits::shift_right": "std's `i32::wrapping_shr` on `cast_signed`; `Word::ShiftRight`",
    "word::wrapping_add": "std's `u32::wrapping_add`; `Word::Add`, and the next operator in `Machine::advance` and `stand`",
    "word::wrapping_sub": "std's `u32::wrapping_sub`; `Word::Sub`",
    "order::less": "`<` on `cast_signed`; `Word::Lt`: `evaluated` of the definition unfolds to word's `less`",
    "order::at_most": "`<=` on `cast_signed`; `Word::Le`",
    "order::equal": "`==`; `Word::Eq`",
    "order::greater": "`>` on `cast_signed`; `Word::Gt`",
    "order::at_least": "`>=` on `cast_signed`; `Word::Ge`",
    "names::same_prefix": "`==` of slices (std: the lists are equal); in `words` `same`, by both ends; that `same_bytes` is equality: names, proofs/Same",
    "fetch::integer": "`Script::fetch`, which promises the operator itself",
    "operators::assert": "`Machine::assert`, of the crate machine alone; public: `Machine::step`, by `Stepped`",
    "operators::stack": "a method a word in `Machine` (`copy`, `drop`, `div`, `unary`); public: `Machine::step`",
    "operators::binary": "`Machine::binary` with a closure a word; public: `Machine::step`",
    "transfers::memory": "`Machine::read` and `Machine::write`, over `Memory::read` and `Memory::write` of store, which are public",
    "transfers::jump": "`Machine::jump` and `Machine::jump_if`; public: `Machine::step`",
    "transfers::enter": "`Machine::call` and `Machine::call_either`; public: `Machine::step`",
    "steps::run": "`Machine::run_ahead` and `Machine::run_on` of the crate machine, by `Runs` and `RunsAhead`; a depth over the capacity, which it answered by 25, cannot be put into a `Stack`, and `Eval::run` answers it",
    "state::is_forged": "each call of `Eval`: `Called` has 25 first; its own test is `Eval::is_forged`, with the same clause, of the crate eval alone",
    "state::answer": "`Answer::from`, one for each result, by case",
    "input::fill": "std's `io::copy` from `Read::take` into a slice; that its count is at most the buffer's length, `min` says where it is used",
    "lists::same": "`==` of slices",
    "listing::operators": "`Display` of `Listing`; nothing was promised of what it prints",
    "listing::labels": "`Display` of `Listing`; nothing was promised of what it prints",
    "print::bytes": "`print!`; nothing was promised", "print::decimal": "`print!`; nothing was promised", "print::number": "`print!`; nothing was promised",
    "print::signed": "`cast_signed` and `print!`; nothing was promised; in tally now `Display` promises the text",
    "print::words": "`Display` of listing's `Words`; nothing was promised", "print::quoted": "`Display` of listing's `Quoted`; nothing was promised",
    "print::least": "std's `usize::min`",
}
# Old public type: what has its place.
TYPES = {
    "fetch::Code": "words `Fetched`: its enum by case, in place of two numbers", "host::Entry": "`Result<u32, Refusal>`",
    "kinds::Number": "`Option<u32>`", "operators::Stack": "`Result<(), Stop>`, and the depth in store's `OperandStack`",
    "script::Compiled": "`Result<Counts, CompileError>`", "script::Script": "records `Counts`, passed on as compile gives it; the name `Script` is now of a text with its tables",
    "sources::SourceRange": "`Result<Range<usize>, SourceError>`", "state::Answered": "eval `Answer`, and the state within `Eval`", "state::Eval": "eval `State`; the name `Eval` is now of all that a call is lent",
    "steps::Ran": "machine `Ran`", "steps::Store": "machine `Machine`", "tokens::Next": "`Option<Token>`; the ill-formed text is refused before, by `IllFormed`",
    "tokens::Reader": "tokens `Tokens`", "transfers::Jump": "`Result<(), Stop>`, and `next` in `Machine`", "utf8::Char": "`char` of std", "word::Division": "`Result<(u32, u32), DivisionError>`",
}
# Old module of specs/ (or one definition of it): what states it now.
STATED = {
    "eval.Private": "machine.Steps `Stepped` and machine.Runs; eval.Lends `state_left`",
    "fetch.Codes": "words `Fetched`, which the definition's `fetched` gives, so no code stands between; `lent` is script.Held `lent`, with its text",
    "fetch.Private": "script.Held `labels_held`; the rest is no longer needed: `resolve` and `look_up` promise `resolved` and `fetched` of the definition",
    "host.Private": "eval.Lends `Taken`, `PutBack`; machine.Outcomes `Cleared`",
    "kinds.Answers": "kinds.Answers `answer_of`",
    "kinds.Private": "clauses of `magnitude`, `split_sign`, `split_radix`: `below`, `drop`, `spelled`",
    "lists.Tells": "std's `==`",
    "names.Packed": "`first_chunk::<8>` of std; `packed` stands",
    "names.Private": "std's `from_le_bytes`",
    "operators.Outcomes": "machine.Outcomes `Comes`, over `evaluated` of the definition; effects by case: store.Effects `effect_of`; words by case: the definition's `Word` is the enum",
    "operators.Private": "closures in `Machine::evaluate`, held to `evaluated`",
    "recall.Known": "script.Memory `Remembers`, the invariant of `Memo`",
    "recall.Recalled": "script.Memory `remembered`, by which `Memo::fetch` says what is remembered; entries are an enum, nothing is packed",
    "recorded.Private": "recorded: `Case::read` refuses what is too large; `Tally` has the invariant `ordered`",
    "script.Answers": "compile.Answers `compiled_answer`, by the same numbers",
    "script.Private": "compile.Private; an ill-formed text comes to no pass, so `counted_of` went, and of `Accepts` there is left that both tables have room, `HasRoom`; `Accepts` of evaluation.Begun is another, of the whole answer",
    "sources.Answers": "sources.Answers `located` over Result, `refusal`",
    "stack_assembly.Step": "words `Fetched`, the enum of the code, case by case the same; Step passes its names on",
    "stack_assembly.Words": "words: `Word` is the enum of the code, `Row`, `row` and `words` are words.Words, with the same text, and `lookup`, which has `Some` and `None` of the one Option that code has; Words passes their names on",
    "state.Lends": "eval.Lends `state_of`, `lent_of`, `answer_of`",
    "steps.Private": "machine.Outcomes `Comes`, `Kept`, machine.Runs `Going`, `LeftAs`",
    "steps.Runs": "machine.Runs `Runs`, machine.Outcomes `store_of`, `room_of`, machine.Steps `machine_of`; what `Fits` asked is the invariant of `Stack`",
    "tally.Private": "tally.Tally `printed_by`",
    "tally.Tally": "std's `&operand_stack[..depth]`; `Tallies` now speaks of the very text",
    "tokens.Answers": "tokens.Answers `First`, `token_of`",
    "tokens.Private": "tokens.Private `Ends`, `Between`; white space and characters by std",
    "tokens.Reading": "tokens.Reading `tokens_left`",
    "transfers.Outcomes": "machine.Outcomes `Comes`",
    "utf8.Answers": "the clause of `text_of`; `char_of` is std's `char`",
    "utf8.Private": "simdutf8 of the kit, and std's `chars`",
    "word.Answers": "std's division of `i32`; `division_of` stands, over Result",
    "words.Places": "words.Places `number`: a word's number by case; that each word is found at its own: words, proofs/Rows",
    "words.Private": "words.Places `own_name`, `spelled`, `placed`: one table, no trees",
}
# Theorems: those of specs/, and those that README or docs/ named at the commit; and where each stands.
THEOREMS = [
    ("stack_assembly", "Cards", "Cards"), ("stack_assembly", "Cards", "CarriesOver"), ("stack_assembly", "Edges", "Edges"), ("stack_assembly", "Refusals", "Condition1"),
    ("stack_assembly", "Sizes", "Condition3"), ("stack_assembly", "Table", "Table"), ("utf8", "Examples", "Examples"), ("tokens", "Examples", "Examples"),
    ("kinds", "Examples", "Examples"), ("word", "Examples", "Examples"),
]
NAMED = [("stack_assembly", "condition1"), ("stack_assembly", "condition3"), ("stack_assembly", "cards"), ("stack_assembly", "edges"), ("stack_assembly", "carries_over"), ("stack_assembly", "table"),
         ("stack_assembly", "step-made"), ("words", "test"), ("utf8", "examples"), ("tokens", "examples"), ("kinds", "examples"), ("word", "examples")]

# Old file of proofs/: what states now what its lemmas served.
LEMMAS = {
    "base/Parts": "std's `get_or-drop`, of which it was the case 0",
    "base/Tests": "`cond_by` of base, and `and_parts` of std's lemmas of Bool; `neither` was of two tests joined, which are two branches now",
    "bits/Digits": "the clauses of `rotate_left`, `rotate_right` and `count_ones` of bits, by std's of the same names",
    "eval/Runs": "the clauses of `Eval::step` and `Eval::run`; eval, proofs/Calls and TurnedBack",
    "fetch/Fetched": "the clause of `Script::fetch`: `fetched`; script, proofs/Fetched",
    "fetch/Records": "the clauses of `OperatorRecord::raw`, `OperatorRecord::read` and `LabelRecord::read` of records; script, proofs/Tables",
    "fetch/Resolved": "the clause of `resolve` of script: `resolved`; script, proofs/Resolved",
    "host/Hosts": "the clauses of `Eval::push`, `pop`, `read`, `write` and `clear_effect`; eval, proofs/Singles",
    "kinds/Digits": "the clauses of `kind_of`, `read_number` and `magnitude`; kinds, proofs/Digits",
    "names/Eight": "std's `first_chunk` and `u64::from_le_bytes`; names, proofs/Packed",
    "names/Same": "`==` of slices, whose clause in std is that the lists are equal; names, proofs/Same; two ends of a name: `same_ends` of words",
    "operators/Places": "the clauses of the words' methods in `Machine`: `Comes`, by the word itself and no place",
    "operators/Pops": "the clauses of `OperandStack::pop`, `place` and `push` of store: `Popped`, `Pushed`",
    "operators/Stacks": "the clauses of `Stack`: `Popped`, `Pushed`, `Removed`; store, proofs/Stacks",
    "order/Orders": "std's comparisons of i32, and `less` and `at_most` of word, in the clause of `Machine::evaluate`",
    "recall/Remembering": "the invariant of `Memo`, `Remembers`, and the clause of `Operators::get_operator`; script, proofs/Remembered",
    "script/Compiling": "the clause of `compile`: `Compiles`; `text_of` refuses an ill-formed text before any pass",
    "script/Pass": "the clause of `pass`: `Passes`; `text_of` refuses an ill-formed text before any pass",
    "script/Tables": "the clauses of `put` and `copy_words` of compile; compile, proofs/Tables, and records, proofs/Tables",
    "sources/Ranges": "the clause of `source`; `OperatorRecord::read` says that a range is in the text",
    "state/Passed": "the clause of `Eval::take`: `Taken` has `unforged`; stack_assembly, proofs/Chains `false_unforged`",
    "steps/Comes": "the clauses of the words' methods in `Machine` and of `Machine::evaluate`: `Comes`",
    "steps/Groups": "the clause of `Machine::evaluate`: a word is a case of an enum, and has no place to compute",
    "steps/Running": "the invariant of `Machine::make_steps`, `Going`; machine, proofs/FirstStep and Going",
    "steps/Stretches": "the clauses of `Machine::run_ahead` and `Machine::run_on`: `RunsAhead`, `Runs`; machine, proofs/Going",
    "tokens/Later": "the clauses of `first_token` and `Tokens::next`: `First`, `tokens_left`",
    "tokens/Scans": "the clauses of `blank_end`, `comment_end` and `token_end`: `Between`, `Ends`; tokens, proofs/Scans",
    "tokens/Spans": "the clauses of `comment_end` and `token_end`, character by character of a `&str`; tokens, proofs/Scans",
    "transfers/Places": "the clauses of `Machine::call` and `Machine::call_either`: `Comes`, by the word itself and no place",
    "transfers/Pops": "the clauses of the words' methods in `Machine`: `Comes`",
    "utf8/Ascii": "the clause of `text_of`; no function asks whether a text is ASCII",
    "utf8/Fronts": "the clause of `text_of`, by simdutf8's; utf8, proofs/Encoded and Fronts",
    "utf8/Offsets": "std's `chars` of a `&str`; tokens, proofs/Scans `char_at` and `some-char`",
    "word/Signs": "the clause of `divide`, by std's division of i32; word, proofs/Casts",
    "words/Words": "the clauses of `Word::from_name` and `Word::short`; words, proofs/Rows, Short and Ends",
}

old, new = Tree(COMMIT), Tree()
was, now = items(old), items(new)
missing = []


def public(its):
    return {f"{c}::{x.name_in()}": x for c, xs in its.items() for x in xs if x.kind == "fn" and x.public}


def signature(x):
    return f"{x.generics}({', '.join(x.parameters)})" + (f" -> {x.result}" if x.result else "")


def contract(x):
    return [f"{k} {n + ' ' if n else ''}{{ {t} }}" for k, n, t in x.clauses]


def cell(*lines):
    return "<br>".join("`" + l.replace("|", "\\|") + "`" for l in lines if l) or "–"


def both(name, x, y, to):
    return f"| {name.replace('::', ' ', 1)} {'→ ' + to.replace('::', ' ', 1) if to != name else ''} | {cell(signature(x), *contract(x))} | {cell(signature(y), *contract(y))} |"


def functions():
    f, g = public(was), public(now)
    same, changed, gone = [], [], []
    for name, x in sorted(f.items()):
        to = MOVED.get(name, name)
        if name in WENT:
            gone.append(f"| {name.replace('::', ' ', 1)} | {cell(signature(x), *contract(x))} | {WENT[name]} |")
        elif to in g:
            y = g[to]
            (same if to == name and signature(x) == signature(y) and contract(x) == contract(y) else changed).append(name if to == name and signature(x) == signature(y) and contract(x) == contract(y) else both(name, x, y, to))
        else:
            missing.append(f"public function {name}")
    taken = {MOVED.get(n, n) for n in f}
    fresh = [f"| {n.replace('::', ' ', 1)} | {cell(signature(y), *contract(y))} |" for n, y in sorted(g.items()) if n not in taken]
    print("## Public functions\n")
    print(f"{len(f)} before, {len(g)} now. The same in every word: {', '.join(n.replace('::', ' ', 1) for n in same)}.\n")
    print("### Changed or moved\n\n| function | before | now |\n|---|---|---|")
    print("\n".join(changed))
    print("\n### Gone, and what promises the same\n\n| function | before | now |\n|---|---|---|")
    print("\n".join(gone))
    print("\n### New\n\n| function | signature and clauses |\n|---|---|")
    print("\n".join(fresh))


def types():
    of = lambda its: {f"{c}::{x.name}": x for c, xs in its.items() for x in xs if x.kind in ("struct", "enum", "trait") and x.public}  # noqa: E731
    text = lambda x: f"{x.kind} {x.name}{getattr(x, 'generics', '')} {{ {', '.join(getattr(x, 'members', []))} }}"  # noqa: E731
    t, u = of(was), of(now)
    print("\n## Public types\n\nWith their invariants, the `ghost` fields. There were none before.\n\n### Before\n\n| type | was | now |\n|---|---|---|")
    for n, x in sorted(t.items()):
        if n in u and text(x) == text(u[n]):
            continue
        if n not in TYPES and n not in u:
            missing.append(f"public type {n}")
        there = TYPES.get(n) or cell(text(u[n]))
        print(f"| {n.replace('::', ' ')} | {cell(text(x))} | {there} |")
    print("\n### New\n\n| type | members | invariants |\n|---|---|---|")
    for n, x in sorted(u.items()):
        if n not in t or text(t[n]) != text(x):
            print(f"| {n.replace('::', ' ')} | {cell(text(x))} | {cell(*getattr(x, 'ghosts', []))} |")
    print("\nGhost members of traits and impls:\n\n| of | member | text |\n|---|---|---|")
    for c, xs in sorted(now.items()):
        for x in xs:
            if x.kind == "ghost":
                print(f"| {c} {(x.of + ' for ') if x.of and x.of != x.owner else ''}{x.owner} | {x.name} | {cell(x.text)} |")
    value = lambda its: {f"{c}::{x.name_in()}": f"{x.type} = {x.value}" for c, xs in its.items() for x in xs if x.kind == "const" and x.public}  # noqa: E731
    v, w = value(was), value(now)
    print("\n### Public constants\n\n| constant | before | now |\n|---|---|---|")
    for n in sorted({**v, **w}):
        if v.get(n) != w.get(n):
            print(f"| {n.replace('::', ' ')} | {cell(v.get(n, ''))} | {cell(w.get(n, ''))} |")


def definitions():
    s, t = specs(old), specs(new)
    same = sum(t.get(k) == v for k, v in s.items())
    print(f"\n## Definitions of specs/\n\n{len(s)} before, {len(t)} now; {same} have the same text at the same place. Comments are left out.\n\n### Changed\n\n| definition | before | now |\n|---|---|---|")
    for (c, m, n), v in sorted(s.items()):
        if (c, m, n) in t and t[c, m, n] != v:
            print(f"| {c}.{m} {n} | {cell(v)} | {cell(t[c, m, n])} |")
    print("\n### Gone from their place\n\nWhat has its text elsewhere, up to the names of types that moved, is shown with the place.\n\n| module | definitions | what states them now |\n|---|---|---|")
    modules = {}
    for c, m, n in sorted(s):
        if (c, m, n) not in t:
            at = [f"{d}.{k}" for d, k, o in t if o == n and (t[d, k, o] == s[c, m, n])]
            modules.setdefault(f"{c}.{m}", []).append(f"`{n}`" + (f" (the same text: {', '.join(at)})" if at else ""))
    for m, ns in modules.items():
        if m not in STATED:
            missing.append(f"definitions of {m}: {', '.join(ns)}")
        print(f"| {m} | {', '.join(ns)} | {STATED.get(m, '**to do**')} |")
    print("\n### New\n\n| module | definition | text |\n|---|---|---|")
    for (c, m, n), v in sorted(t.items()):
        if (c, m, n) not in s:
            print(f"| {c}.{m} | {n} | {cell(v)} |")


def theorems():
    s, t = specs(old), specs(new)
    print("\n## Theorems\n\nThe statements of specs/, and the clause that states each of them now:\n\n| statement | its text | public function that ensures it |\n|---|---|---|")
    for c, m, n in THEOREMS:
        a, b = s.get((c, m, n)), t.get((c, m, n))
        if b is None:
            missing.append(f"theorem {c}.{m} {n}")
        text = "the same" if a == b else "**differs**" if b else "**gone**"
        if b and a != b:
            missing.append(f"theorem {c}.{m} {n} has another text")
        by = [x.name for x in now.get(c, []) if x.kind == "fn" and any(t == n for _, _, t in x.clauses)]
        print(f"| {c}.{m} `{n}` | {text} | {', '.join(by) or '–'} |")
    print("\nThose that README or docs/ named, in proofs/:\n\n| lemma | before | now |\n|---|---|---|")
    find = lambda tree, c, n: [f for f in tree.of(rf"crates/{c}/proofs/.*\.antt") if re.search(rf"^(pub )?{re.escape(n)} :", tree.text(f), re.M)]  # noqa: E731
    statement = lambda tree, f, n: " ".join(re.search(rf"^(?:pub )?{re.escape(n)} :(.*(?:\n[ \t]+.*)*)", tree.text(f), re.M)[1].split())  # noqa: E731
    for c, n in NAMED:
        a, b = find(old, c, n), find(new, c, n)
        was_said = statement(old, a[0], n) if a else ""
        is_said = statement(new, b[0], n) if b else ""
        if a and not b:
            missing.append(f"lemma {n} of {c}")
        print(f"| {c} `{n}` | {a[0].split('/', 2)[2] if a else '–'}: {cell(was_said)} | {(b[0].split('/', 2)[2] + ': ' + ('the same' if is_said == was_said else cell(is_said))) if b else '**gone**'} |")


def lemmas():
    """The public names of the files of proofs/ that belong to no one function, and those that stand in no such file now."""
    at = re.compile(r"crates/([^/]+)/proofs/([A-Z][A-Za-z]*)\.antt")

    def names(tree, kind):
        found = {}
        for f in tree.of(at.pattern):
            inner = None  # the fields of a record and the cases of a data type are no lemmas
            for line in tree.text(f).split("\n"):
                deep = len(line) - len(line.lstrip())
                if line.strip() and inner is not None and deep <= inner:
                    inner = None
                m = re.match(r"[ ]*" + kind + r"(?:abbrev |unfoldable )*(?:pub )?(record |data )?([^\s:({-][^\s:({]*) .*:", line)
                if m and inner is None and m[2] not in ("use", "module", "where", "open"):
                    found.setdefault("/".join(at.fullmatch(f).groups()), []).append(m[2])
                if m and m[1]:
                    inner = deep
        return found

    before = {f: list(dict.fromkeys(ns)) for f, ns in names(old, r"(?=(?:abbrev |unfoldable )*pub )").items()}
    after = {n for ns in names(new, "").values() for n in ns}
    count = sum(map(len, before.values()))
    gone = {f: [n for n in ns if n not in after] for f, ns in before.items()}
    print(f"\nLemmas of proofs/ that several proofs may cite: {count} before, of which {count - sum(map(len, gone.values()))} stand by name. Those that went, by their file:\n")
    print("| file | lemmas | what states now what they served |\n|---|---|---|")
    for f, ns in sorted(gone.items()):
        if ns:
            if f not in LEMMAS:
                missing.append(f"lemmas of {f}: {', '.join(ns)}")
            print(f"| {f} | {', '.join(f'`{n}`' for n in ns)} | {LEMMAS.get(f, '**to do**')} |")


def edits(whole):
    path = re.compile(r"crates/([^/]+)/must-fail/(.+)\.edit")
    a = sorted(m.groups() for f in old.files if (m := path.fullmatch(f)))
    b = sorted(m.groups() for f in new.files if (m := path.fullmatch(f)) and os.path.exists(f))
    left, at = list(b), {}
    for c, n in a:  # at its place first
        if (c, n) in left:
            left.remove((c, n)); at[c, n] = c
    for c, n in a:
        if (c, n) not in at:
            d = next((d for d, o in left if o == n), None)
            if d:
                left.remove((d, n)); at[c, n] = d
    gone = [f"{c}/{n}" for c, n in a if (c, n) not in at]
    missing.extend(f"edit {g}" for g in gone)
    said = lambda t: [l for l in t.split("\n") if l.startswith("#")]  # noqa: E731
    other = []
    for (c, n), d in sorted(at.items()):
        x, y = said(old.text(f"crates/{c}/must-fail/{n}.edit")), said(new.text(f"crates/{d}/must-fail/{n}.edit"))
        if x != y:
            other.append(f"| {d}/{n} | {' '.join(x)} | {' '.join(y)} |")
    moved = [(c, n, d) for (c, n), d in sorted(at.items()) if c != d]
    print(f"\n## Must-fail edits\n\n{len(a)} before, {len(b)} now. All but {len(gone)} stand: {len(at) - len(moved)} in their crate, {len(moved)} moved; {len(left)} are new.\n")
    print("### Moved\n\n| from | to | edits |\n|---|---|---|")
    groups = {}
    for c, n, d in moved:
        groups.setdefault((c, d), []).append(n)
    for (c, d), ns in sorted(groups.items()):
        print(f"| {c} | {d} | {', '.join(ns)} |")
    print("\n### New\n\n| crate | edits |\n|---|---|")
    groups = {}
    for c, n in left:
        groups.setdefault(c, []).append(n)
    for c, ns in sorted(groups.items()):
        print(f"| {c} | {', '.join(ns)} |")
    print("\n### With another first line\n\n| edit | before | now |\n|---|---|---|")
    print("\n".join(other))
    if whole:
        print("\n### Each\n\n| edit | was in | is in |\n|---|---|---|")
        for (c, n), d in sorted(at.items(), key=lambda x: x[0][1]):
            print(f"| {n} | {c} | {d} |")
        for g in gone:
            print(f"| {g} | | **missing** |")
        by_function(b)


def by_function(b):
    """Each public function with the edits of its own text, and of the private functions of its crate that it comes to by their names."""
    print("\n### Public functions with fewer than two\n\nOwn: edits of the function's own text. Below: of the functions of its crate that it comes to, by name.\n\n| function | own | below |\n|---|---|---|")
    for c, xs in sorted(now.items()):
        fs = [x for x in xs if x.kind == "fn"]
        hits = {id(x): set() for x in fs}
        for d, n in b:
            if d != c:
                continue
            path = None
            for l in new.text(f"crates/{c}/must-fail/{n}.edit").split("\n"):
                if l.startswith("file:"):
                    path = f"crates/{c}/{l[5:].strip()}"
                if l.startswith("old:") and path.endswith(".rt") and (at := new.text(path).find(l[4:].removeprefix(" "))) >= 0:
                    line = new.text(path).count("\n", 0, at) + 1
                    above = [x for x in fs if x.path == path and x.line <= line]
                    if above:
                        hits[id(max(above, key=lambda x: x.line))].add(n)
        for x in fs:
            if x.public and x.body or x.of and x.of != x.owner and any(y.kind in ("struct", "enum") and y.public and y.name == x.owner for y in xs):
                seen, todo = {id(x)}, [x]
                while todo:
                    names = {w.text for w in todo.pop().tokens}
                    for y in fs:
                        if y.name in names and id(y) not in seen:
                            seen.add(id(y))
                            todo.append(y)
                below = set().union(*(hits[i] for i in seen)) - hits[id(x)]
                if len(hits[id(x)]) + len(below) < 2:
                    print(f"| {c} {x.name_in()}{' (' + x.of + ')' if x.of else ''} | {', '.join(sorted(hits[id(x)])) or '–'} | {', '.join(sorted(below)) or '–'} |")


if "--edits" in sys.argv:
    edits(True)
else:
    quiet = "--check" in sys.argv
    out = sys.stdout
    if quiet:
        sys.stdout = open(os.devnull, "w", encoding="utf-8")
    print(f"# The design pass: old beside new\n\nAgainst commit {COMMIT}, by `python3 tools/contracts.py {COMMIT}`, which also says what it could not account for. A cell shows a signature, then its clauses.\n")
    functions()
    types()
    definitions()
    theorems()
    lemmas()
    edits(False)
    print("\n## Not accounted for\n\n" + ("\n".join(f"- {m}" for m in missing) or "Nothing."))
    sys.stdout = out
    if quiet:
        print("\n".join(missing) or "nothing is left over")
        sys.exit(bool(missing))
