#!/usr/bin/env python3
"""own_names.py [--write]: the repository's own definitions and lemmas in today's spelling. Run once, at the top, after the kit's port.py.

Types and facts in upper camel case, everything else in snake case. Renamed is only what an .antt file of crates/ declares (at its top level, in
a module, as a record's field, as a constructor) or imports under another name, and only in .antt files and in the ghost lines and clauses of .rt
files. Functions of src/, labels of clauses and names that Rattle makes stay. Without --write it lists what it would rename. It stops where two
names fall together, or where a new name stands already in a crate that uses the old one.
"""
import glob
import re
import sys

NAME = r"[^\s(){}.;,@\"«»\[\]\\:]+"
TOKEN = re.compile(r"--[^\n]*|\"(?:[^\"\\]|\\.)*\"|" + NAME)
GHOST = re.compile(r"(?m)^\s*(?:pub )?ghost [^\n]*$|(?:requires|ensures)\*?(?: \w+)? \{[^\n]*\}")
DECLARED = re.compile(r"(?m)^ *(?:(?:abbrev|unfoldable|pattern|pub) )*(?P<kw>record |data )?(?P<n>%s)(?: [({][^\n]*?[)}])* : (?P<ty>.*)$" % NAME)
ALIAS = re.compile(r"[{ ](?:%s) as (%s)" % (NAME, NAME))
MADE = re.compile(r"(returns|loop-|invariant|overflow_|decreases|bounds|nonzero)")
WORDS = {"let", "use", "module", "where", "mod"}
# Where the plain respelling says too little, or is the name of something else.
CHOSEN = {
    "At": "touches_at",
    "Before": "touches_before",
    "bit-and": "bit_and_one",
    "RC": "round_constants",
    "IC": "row_constants",
    "small-RC": "small_round_constants",
    "small-IC": "small_row_constants",
    "tooLong": "is_too_long",
    "first_of": "first_pair",
    "getD-columnsOf": "get_or_columns_of",
    "getD-rotated": "get_or_rotated",
    "getD-xored": "get_or_xored",
}


def is_answer(path):
    return "/proofs/" in path and path.endswith(("Answers.antt", "Invariants.antt"))


def snake(name):
    s = re.sub(r"(?<=[a-z0-9])([A-Z])", r"_\1", name)
    s = re.sub(r"([A-Z])([A-Z][a-z])", r"\1_\2", s)
    return s.replace("-", "_").lower()


def camel(name):
    return "".join(p[:1].upper() + p[1:] for p in re.split(r"[-_]", name))


def declared(files, texts):
    """The names that the files declare, and those of them that are types."""
    own, types = {}, set()
    for f in files:
        crate = f.split("/")[1]
        for m in DECLARED.finditer(texts[f]):
            n = m["n"]
            if n in WORDS or (is_answer(f) and (MADE.match(n) or m["ty"].startswith("goal."))):
                continue
            own.setdefault(n, set()).add(crate)
            if m["kw"] or re.search(r"(^|→ )Type 0\s*(where)?$", m["ty"].strip()):
                types.add(n)
    for f, t in texts.items():
        for m in ALIAS.finditer(t):
            if re.match(r"[a-z]+-", m[1]):
                own.setdefault(m[1], set()).add(f.split("/")[1])
    return own, types


def words_of(path, text):
    """The names that a file uses, but for paths of modules and, in a .rt file, code."""
    text = re.sub(r"(?m)^((?:pub |ghost )?use )[^\s{]+", r"\1", text)
    text = re.sub(r"Rattle\.[\w.'-]+", "", text)
    if path.endswith(".rt"):
        text = "\n".join(m[0] for m in GHOST.finditer(text))
    return {m[0] for m in TOKEN.finditer(re.sub(r"(?<=\S)\.%s" % NAME, "", text))}


def respelled(path, text, renames):
    spans = [m.span() for m in GHOST.finditer(text)] if path.endswith(".rt") else [(0, len(text))]
    out, at = [], 0
    for m in TOKEN.finditer(text):
        if m[0] in renames and any(a <= m.start() < b for a, b in spans):
            out += [text[at : m.start()], renames[m[0]]]
            at = m.end()
    return "".join(out) + text[at:]


def main():
    files = sorted(f for f in glob.glob("crates/*/specs/**/*.antt", recursive=True) + glob.glob("crates/*/proofs/**/*.antt", recursive=True) if "/out/" not in f)
    texts = {f: open(f).read() for f in files + sorted(glob.glob("crates/*/src/**/*.rt", recursive=True))}
    own, types = declared(files, texts)
    renames = {n: CHOSEN.get(n) or (camel(n) if n in types else snake(n)) for n in own if re.match(r"[A-Za-z]", n) and not re.search(r"[◌≡≤→←∷]", n)}
    renames = {a: b for a, b in renames.items() if a != b}

    used = {}
    for f, t in texts.items():
        for w in words_of(f, t):
            used.setdefault(w, set()).add(f.split("/")[1])
    wrong = []
    for a, b in renames.items():
        if sum(c == b for c in renames.values()) > 1:
            wrong.append(f"falls together: {a} -> {b}")
        elif used.get(b, set()) & used.get(a, set()):
            wrong.append(f"stands already: {a} -> {b} in {', '.join(sorted(used[b] & used[a]))}")
    if wrong:
        sys.exit("\n".join(sorted(wrong)))
    if "--write" not in sys.argv:
        for a, b in sorted(renames.items()):
            print(f"{a} -> {b} ({', '.join(sorted(own[a]))})")
        print(len(own), "own names;", len(renames), "to rename")
        return
    changed = 0
    for f, t in texts.items():
        s = respelled(f, t, renames)
        if s != t:
            open(f, "w").write(s)
            changed += 1
    print(len(renames), "renamed in", changed, "files")


main()
