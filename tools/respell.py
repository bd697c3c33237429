#!/usr/bin/env python3
"""Respells the repository's own definitions and lemmas as the language now spells names, by going over every crate once:
a word of specs/ and proofs/ that is joined by dashes becomes snake case (join-answer: join_answer), a type, a proposition
or a module camel case (Legal-build: LegalBuild), and a prime an apostrophe. Names that Rattle makes (goals, loops, steps)
and names of the library keep their dashes. Documents follow in their code spans. Functions of src/, strings, inputs and
outputs are not touched. Run it once, at the top of a checkout that port.py has turned. `--list` only prints the table."""
import collections
import glob
import os
import re
import sys

WORD = re.compile(r"[^\s(){}.;,@\"«»`]+")
DECLARED = re.compile(
    r"^(\s*)(?:where\s+)?((?:(?:abbrev|pub|unfoldable|opaque|data|record|module|mod)\s+)*)"
    r"([^\s(){}.;,@\"]+)\s*(:(?!=)|where\b|\(|\{|$)"
)
USED = re.compile(r"use\s+([^\s;{]+)\.\{([^}]*)\}")
# names that two spellings would make one, or that a function of src/ has
BY_HAND = {
    "graph-text": "text_of_graph",
    "Bad-form": "IsBadForm",
    "Too-few": "IsTooFew",
    "cuts-off": "cuts_off_by",
    "of-first": "from_first",
    "of-second": "from_second",
    "marks-due": "due_marks",
    "rows-due": "due_rows",
}


def files(kind):
    return sorted(glob.glob("crates/*/%s" % kind, recursive=True))


def is_lemma_file(f):
    return "/specs/" in f or (f.split("/")[2] == "proofs" and len(f.split("/")) == 4)


def spell(name):
    name = name.replace("′", "'")
    if name in BY_HAND:
        return BY_HAND[name]
    if not re.search(r"[^\W_]['’]*-", name):
        return name
    if name[0].isupper() and re.match(r"^[A-Za-z0-9'-]+$", name):
        return "".join(p[:1].upper() + p[1:] for p in name.split("-"))
    return re.sub(r"(?<=[\w'])-(?=\w)", "_", name)


def table():
    own = collections.defaultdict(set)
    for f in files("specs/**/*.antt") + files("proofs/**/*.antt"):
        for line in open(f, encoding="utf-8"):
            if line.lstrip().startswith("--"):
                continue
            m = DECLARED.match(line)
            if m and is_lemma_file(f) and re.search(r"\w'*-\w|′", m.group(3)):
                own[m.group(3)].add(f)
    std = collections.defaultdict(set)
    for f in files("**/*.antt") + files("**/*.rt"):
        for n in re.findall(r"[{, ]\S+ as ([^\s,}]+)[,}]", open(f, encoding="utf-8").read()):
            if re.search(r"\w'*-\w", n):
                own[n].add(f)
        for m in USED.finditer(open(f, encoding="utf-8").read()):
            path = m.group(1).split(".") + [""]
            if path[0] == "Rattle" and os.path.isdir("crates/" + path[1]):
                continue
            for n in m.group(2).split(","):
                std[n.strip().split(" as ")[0]].add(f)
    return own, std


def turn(text, names, made=()):
    # in a function's own proof files a word behind a dot may be a call of a function of src/, spelled as it is there
    def one(m):
        w = m.group(0)
        call = re.sub(r"-(?!\d+$)", "_", w)
        if call != w and re.sub(r"-\d+$", "", call) in made and m.start() > 0 and text[m.start() - 1] == ".":
            return call
        return names.get(w, w)

    return WORD.sub(one, text)


def turn_code(text, names, made):
    # quoted text stays
    return "".join(p if i % 2 else turn(p, names, made) for i, p in enumerate(re.split(r'("(?:[^"\\\n]|\\.)*")', text)))


def turn_page(text, names):
    def span(m):
        return turn(m.group(0), names)
    return re.sub(r"```.*?```|`[^`\n]*`", span, text, flags=re.S)


def main():
    own, std = table()
    rows = {n: spell(n) for n in own if spell(n) != n}
    if "--list" in sys.argv:
        for n in sorted(rows):
            print(n, rows[n], ",".join(sorted({f.split("/")[1] for f in own[n]})), sep="\t")
        return
    calls = set()
    for f in files("**/*.rt"):
        calls |= set(re.findall(r"\bfn (\w+_\w+)", open(f, encoding="utf-8").read()))
    for f in files("**/*.antt") + files("**/*.rt") + files("must-fail/*.edit"):
        text = open(f, encoding="utf-8").read()
        names = {n: s for n, s in rows.items() if f not in std.get(n, ())}
        new = turn_code(text, names, calls if f.endswith(".antt") and not is_lemma_file(f) else ()).replace("′", "'")
        if new != text:
            open(f, "w", encoding="utf-8").write(new)
    for f in ["README.md", "CHANGELOG.md"] + sorted(glob.glob("docs/*.md")):
        if os.path.exists(f):
            text = open(f, encoding="utf-8").read()
            new = turn_page(text, rows)
            if new != text:
                open(f, "w", encoding="utf-8").write(new)
    # a module's file has its module's name
    for f in sorted(files("specs/**/*.antt") + files("proofs/*.antt")):
        d, b = os.path.split(f)
        stem = b[:-5]
        if spell(stem) != stem:
            os.rename(f, os.path.join(d, spell(stem) + ".antt"))


main()
