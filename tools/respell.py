#!/usr/bin/env python3
"""Brings this repository's own definitions and lemmas to today's spelling: words in snake case, types and modules in camel case.

usage: python3 tools/respell.py [--dry]     at the top of a checkout, once, after the kit's port script

It goes by whole words. A word is respelled where it is declared in a specs/ file or in a shared lemma file of proofs/ (a theorem, a definition, a field,
a constructor or a helper), or where a file imports it under another name; a word that a file imports from the kit stays. In the proof of a function
only what the file imports from specs/ and the fields of records are respelled, since the other names there are the check's own. Functions of src/,
exported names, strings, inputs and outputs stay. Must-fail edits are brought over by another script.
"""
import collections
import os
import re
import sys

DRY = "--dry" in sys.argv
# Letters that stood for a function: the parts of an integer, the size of an expression, the rounded logarithm.
LETTERS = {("integers", "P"): "pos_part", ("integers", "N"): "neg_part", ("integers", "M"): "size_of", ("integers", "B"): "log_up"}
LETTER_MODULES = {"Parts": ("P", "N"), "Magnitude": ("M",), "Log": ("B",)}
# Words that would fall together, or that a rule would spell badly.
WORDS = {"T?": "decide_true", "member?": "decide_member", "valid?": "decide_valid", "Ordered·nil": "ordered_nil", "Ordered·cons": "ordered_cons"}
# In one file alone.
THERE = {("crates/marks/specs/QuotientLaws.antt", "roomy"): "IsRoomy", ("crates/answers/specs/PlainNumbers.antt", "found_number"): "found_number_lem",
         ("crates/meeting/specs/Bridging.antt", "step_by"): "step_by_lem", ("crates/search/specs/SearchSteps.antt", "step_by"): "step_by_lem"}
TOKEN = re.compile(r"[^\s(){};,.\"@λ]+")
DECL = re.compile(r"^(\s*)((?:unfoldable |abbrev |pub )*)(data |record )?((?:[^\s(){};,:=λ]+ )+):(?: |$)")
HEAD = re.compile(r"^(\s*)((?:unfoldable |abbrev |pub )*)(data |record )([^\s(){};,:=λ]+)")
IMPORT = re.compile(r"^\s*(?:pub )?(?:ghost )?use ([^{;]*)\.\{([^}]*)\}")


def snake(word):
    if word in WORDS:
        return WORDS[word]
    if re.match(r"[PNMB]-", word):
        word = {k[1]: v for k, v in LETTERS.items()}[word[0]] + word[1:]
    body = word.rstrip("'")
    tail = word[len(body):]
    if not re.fullmatch(r"[+]?[\w₀-₉'-]+", body):
        parts = re.split(r"(-)", body)
        return "".join("_" if p == "-" and i not in (0, len(parts) - 1) else (snake(p) if p and p != "-" else p) for i, p in enumerate(parts)) + tail if "-" in body else word
    if "-" not in body and not re.search(r"[a-z0-9₀-₉][A-Z]", body):
        return word
    if body[0].isupper() and "-" not in body:
        return word  # a type
    out = []
    for i, part in enumerate(body.split("-")):
        if part[:1].isupper() and (len(part) > 1 or i):
            out.append(part if re.search(r"[a-z]", part) and i == 0 else part.lower() if len(part) == 1 else part)
        else:
            out.append(re.sub(r"(?<=[a-z0-9])([A-Z]+)", lambda m: "_" + m.group(1).lower(), part))
    return "_".join(out) + tail


def files():
    for top, dirs, names in os.walk("crates"):
        dirs[:] = sorted(d for d in dirs if d != "out")
        for n in sorted(names):
            if n.endswith((".antt", ".rt")):
                yield os.path.join(top, n)


def crate_of(path):
    return path.split(os.sep)[1]


def is_lemma_file(path):
    p = path.split(os.sep)
    return path.endswith(".antt") and (p[2] == "specs" or (p[2] == "proofs" and len(p) == 4))


own = set(os.listdir("crates"))
text = {p: open(p, encoding="utf-8").read() for p in files()}


def is_own(module):
    m = re.match(r"Rattle\.(\w+)\.", module)
    return bool(m) and m.group(1) in own


declared = collections.defaultdict(set)  # a word: the files that declare it
fields = set()
terms = collections.defaultdict(set)  # a word that is no field: the files that declare it
aliases = set()
for p, t in text.items():
    if not is_lemma_file(p):
        continue
    inside = None
    for line in t.split("\n"):
        if line.lstrip().startswith("--"):
            continue
        i = IMPORT.match(line)
        if i:
            for it in i.group(2).split(","):
                a = it.split(" as ")
                if len(a) == 2 and is_own(i.group(1)):
                    aliases.add(a[1].strip())
            continue
        h = HEAD.match(line)
        if h:
            declared[h.group(4)].add(p)
            inside = h.group(3).strip()
            continue
        d = DECL.match(line)
        if d and d.group(3) is None:
            for w in d.group(4).split():
                declared[w].add(p)
                if inside == "record" and d.group(1):
                    fields.add(w)
                else:
                    terms[w].add(p)
            if not d.group(1):
                inside = None
declared["intRules"] = set()  # a ruleset
names = {w: snake(w) for w in list(declared) + sorted(aliases)}
names = {w: n for w, n in names.items() if n != w}
# A lemma that would fall together with the definition that it is about ends in `_lem`.
by_new = collections.defaultdict(set)
for w, n in names.items():
    by_new[n].add(w)
LEM = set()
for n, olds in by_new.items():
    if len(olds | ({n} if n in declared else set())) > 1:
        LEM |= {w for w in olds if "-" in w}
# names of the code, with dashes as proof files of the older kit spelled them
code = set()
for p, t in text.items():
    if p.endswith(".rt"):
        for f in re.findall(r"\bfn (\w+)", t):
            code.add(f.replace("_", "-"))


def imports(t):
    kit, mine = set(), set()
    for line in t.split("\n"):
        i = IMPORT.match(line)
        if i:
            for it in i.group(2).split(","):
                (mine if is_own(i.group(1)) else kit).add(it.split(" as ")[-1].strip())
    return kit, mine


def turned(p, t):
    kit, mine = imports(t)
    in_proof = p.endswith(".antt") and not is_lemma_file(p)
    letters = {}
    for line in t.split("\n"):
        m = re.match(r"\s*(?:pub )?(?:ghost )?use Rattle\.integers\.specs\.(\w+)\.\{([^}]*)\}", line)
        if m and m.group(1) in LETTER_MODULES:
            for w in LETTER_MODULES[m.group(1)]:
                if w in [x.strip() for x in m.group(2).split(",")]:
                    letters[w] = LETTERS[("integers", w)]
    if crate_of(p) == "integers" and is_lemma_file(p):
        for w in LETTER_MODULES.get(os.path.basename(p)[:-5], ()):
            letters[w] = LETTERS[("integers", w)]

    declares = {w for w in LEM if p in terms[w]}

    def word(m):
        w = m.group(0)
        if w in letters:
            return letters[w]
        if (p, w) in THERE:
            return THERE[p, w]
        if w not in names or w in kit:
            return w
        dotted = m.start() > 0 and m.string[m.start() - 1] == "."
        if w in LEM and not dotted and not (w in fields and re.match(r" = |;| *\}", m.string[m.end():]) and not (w in declares and m.start() == 0)):
            if w in mine or w in declares or w not in fields:
                return names[w] + "_lem"
        if in_proof:
            if dotted:
                return names[w] if w in fields and w not in code else w
            return names[w] if w in mine else w
        return names[w]

    out = []
    for line in t.split("\n"):
        # a module's path is no word of ours: only what stands in its braces
        i = re.match(r"^(\s*(?:pub )?(?:ghost )?use )([^{;]*)(\.\{)(.*)$", line)
        if i:
            out.append(i.group(1) + i.group(2) + i.group(3) + (TOKEN.sub(word, i.group(4)) if is_own(i.group(2)) else i.group(4)))
        elif re.match(r"^\s*(pub )?use ", line):
            out.append(line)
        else:
            out.append(TOKEN.sub(word, line))
    return "\n".join(out)


def report():
    for n in sorted(by_new):
        olds = set(by_new[n]) | ({n} if n in declared else set())
        if len(olds - LEM) > 1:
            print("fall together:", n, "from", sorted(olds), sorted({f for o in olds for f in declared[o]})[:6])
    for p, t in text.items():
        if not is_lemma_file(p):
            continue
        kit, mine = imports(t)
        there = set(TOKEN.findall("\n".join(l for l in t.split("\n") if not l.lstrip().startswith("--"))))
        for w in there:
            if w in names and w not in LEM and w not in kit and names[w] in there:
                print("meets a word:", p, w, names[w])


if DRY:
    print(len(names), "names")
    report()
    raise SystemExit
changed = 0
for p, t in text.items():
    n = turned(p, t)
    if n != t:
        changed += 1
        with open(p, "w", encoding="utf-8") as f:
            f.write(n)
print(len(names), "names,", changed, "files")
