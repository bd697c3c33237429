#!/usr/bin/env python3
"""Counts the places in src/ that read like an older language, point by point (docs/DESIGN-PASS.md says what each point is).

    python3 tools/places.py            the counts
    python3 tools/places.py list       the places, too
    python3 tools/places.py list 3     the places of point 3

Tests count as well. A place that stays has a comment line `stays: ..`, which says why, on it or within the seven lines above it; in the
head of a file it serves for all of the file. Such places are counted apart.
"""
import collections
import glob
import os
import re
import sys

ROOT = os.path.join(os.path.dirname(os.path.abspath(__file__)), "..")


def files():
    return sorted(glob.glob(os.path.join(ROOT, "crates/*/src/**/*.rt"), recursive=True))


def code_of(text):
    """The text with comments blanked, lines kept."""
    return re.sub(r"//[^\n]*", lambda m: " " * len(m.group()), text)


class Function:
    def __init__(self, file, line, head, clauses, body, text):
        self.file, self.line, self.head, self.clauses, self.body, self.text = file, line, head, clauses, body, text
        self.name = re.search(r"fn (\w+)", head).group(1)


def matching(code, at, left="{", right="}"):
    depth = 0
    for i in range(at, len(code)):
        if code[i] == left:
            depth += 1
        elif code[i] == right:
            depth -= 1
            if depth == 0:
                return i
    return len(code) - 1


def functions(file):
    text = open(file).read()
    code = code_of(text)
    found = []
    for m in re.finditer(r"(?<![\w{])(?:pub(?:\([^)]*\))? )?fn \w+", code):
        at = m.start()
        # the head goes on to the first clause, body or semicolon; a semicolon in brackets is an array's
        i = matching(code, code.index("(", m.end()), "(", ")")
        clauses = []
        while True:
            n = re.compile(r"\[[^\]]*\]|\b(requires|ensures)\b[^{;]*\{|[{;]").search(code, i)
            if n and n.group()[0] == "[":
                i = n.end()
                continue
            if not n or n.group() == ";":
                head, body = code[at : (n.start() if n else len(code))], ""
                break
            if n.group() == "{":
                head = code[at:n.start()]
                body = code[n.start():matching(code, n.start()) + 1]
                break
            end = matching(code, n.end() - 1)
            clauses.append((n.group()[:-1].strip(), code[n.end():end].strip()))
            i = end + 1
        head = re.split(r"\b(?:requires|ensures)\b", head)[0]
        found.append(Function(file, code.count("\n", 0, at) + 1, head, clauses, body, text))
    return found


def place(file, line, what):
    return (os.path.relpath(file, ROOT), line, what)


def lines(pattern, what, keep=lambda m: True):
    found = []
    for f in files():
        text = code_of(open(f).read())
        for m in re.finditer(pattern, text):
            if keep(m):
                found.append(place(f, text.count("\n", 0, m.start()) + 1, what + ": " + " ".join(m.group().split())[:90]))
    return found


def all_functions():
    return [g for f in files() for g in functions(f)]


def enums():
    for f in files():
        text = code_of(open(f).read())
        for m in re.finditer(r"enum (\w+)[^{;]*\{", text):
            inner = text[m.end():matching(text, m.end() - 1)]
            cases, depth, now = [], 0, ""
            for c in inner:
                depth += (c in "({<") - (c in ")}>")
                if c == "," and depth == 0:
                    cases.append(now.strip())
                    now = ""
                else:
                    now += c
            if now.strip():
                cases.append(now.strip())
            yield f, text.count("\n", 0, m.start()) + 1, m.group(1), cases


# 1. own Option or Result, a flag with a value beside it, numbers for kinds or refusals
def point1():
    found = []
    for f, line, name, cases in enums():
        payloads = sorted("(" in c or "{" in c for c in cases)
        if payloads in ([False, True], [True, True]) and len(cases) == 2 and all(c.count(",") == 0 for c in cases):
            found.append(place(f, line, f"enum of two cases with one value or none: {name}"))
    found += lines(r"\(bool, \w+\)", "a flag with a value beside it")
    for g in all_functions():
        result = re.search(r"->\s*(.*)", " ".join(g.head.split()))
        result = result.group(1).strip() if result else ""
        if re.match(r"Result<.*, (usize|u\d+|i\d+)>$", result):
            found.append(place(g.file, g.line, f"a number for a refusal: {g.name}"))
        if result == "bool" and re.search(r"&mut self", g.head) and not g.name.startswith("is_"):
            found.append(place(g.file, g.line, f"a flag for a refusal: {g.name}"))
        if re.fullmatch(r"u\d+|usize|i\d+", result) and len(re.findall(r"=>\s*\d+\s*[,}]", g.body)) > 1:
            found.append(place(g.file, g.line, f"a number for a case: {g.name}"))
    return found


# 2. twins
def point2():
    groups = collections.defaultdict(list)
    for g in all_functions():
        if not g.body or "rt: HostRuntime" in g.head:
            continue
        whole = re.sub(r'b?"(?:\\.|[^"\\])*"|b?\'(?:\\.|[^\'\\])+\'|\b\d\w*\b', "LIT", g.head + g.body)
        tokens = re.findall(r"\w+|[^\w\s]", whole)
        keep = {"fn", "let", "mut", "if", "else", "match", "for", "in", "while", "return", "as", "self", "Ok", "Err", "Some", "None", "LIT",
                "Result", "Option", "pub", "len", "u32", "usize", "bool", "u64", "u8"}
        key = " ".join(t if t in keep or not re.match(r"\w", t) else "ID" for t in tokens if t != "pub")
        if len(tokens) >= 20:
            groups[key].append(g)
    found = []
    for k, gs in groups.items():
        if len(gs) > 1:
            for g in gs:
                found.append(place(g.file, g.line, "alike but for names and constants: " + " = ".join(x.name for x in gs)))
    names = collections.defaultdict(set)
    for g in all_functions():
        if g.body and not re.search(r"self", g.head.split(")")[0]) and g.name not in ("main", "new", "from"):
            types = tuple(re.sub(r"; \w+", "", t) for _, t in parameters(g))
            if types != ("HostRuntime",):
                names[(g.name, types)].add((g.file, g.line))
    for (name, _), at in sorted(names.items()):
        if len(at) > 1:
            for f, line in sorted(at):
                found.append(place(f, line, f"free functions of one name and like parameters: {name}"))
    types = collections.defaultdict(set)
    for f in files():
        text = code_of(open(f).read())
        for m in re.finditer(r"struct (\w+)[^{;]*\{([^}]*)\}", text):
            fields = tuple(re.findall(r"(\w+):", re.sub(r"ghost \w+: \{.*?\}", "", m.group(2))))
            types[(fields if len(fields) > 1 else (m.group(1),))].add((f, text.count("\n", 0, m.start()) + 1, m.group(1)))
    for fields, at in sorted(types.items()):
        if len(at) > 1:
            for f, line, name in sorted(at):
                found.append(place(f, line, f"structs with the same fields: {name} ({', '.join(fields)})"))
    return found


# 3. loops that count by hand
def point3():
    found = lines(r"while [^{]*\{", "while")
    for f in files():
        text = code_of(open(f).read())
        for m in re.finditer(r"for (\w+) in ([^{]*?)\.\.([^{]*)\{", text):
            if m.group(2).rstrip().endswith("["):
                continue
            body = text[m.end():matching(text, m.end() - 1)]
            v = m.group(1)
            indexed = re.search(r"\[[^\]]*\b%s\b[^\]]*\]" % re.escape(v), body)
            unused = v.startswith("_")
            stepped = re.search(r"\b\d+ \* %s\b|\b%s \* \d+" % (re.escape(v), re.escape(v)), body)
            kind = "an index" if indexed else "turns" if unused else "steps of an index" if stepped else "numbers"
            if kind != "numbers":
                found.append(place(f, text.count("\n", 0, m.start()) + 1, f"for over {kind}: {' '.join(m.group().split())}"))
            elif "return" in body or "+=" in body:
                found.append(place(f, text.count("\n", 0, m.start()) + 1, f"for over numbers that finds or sums: {' '.join(m.group().split())}"))
    return found


# 4. equality, order, copying, conversion, printing by hand
def point4():
    found = lines(r"Ok\((\w+)\) => Ok\(\1\)", "a result handed on by hand")
    found += lines(r"fn same_\w+", "equality by hand", lambda m: m.group() not in ("fn same_key",))
    found += lines(r"(\w+)\.(\w+) == (\w+)\.\2\b", "equality by hand", lambda m: m.group(1) != m.group(3))
    for g in all_functions():
        h = " ".join(g.head.split())
        if re.search(r"\((letter: char|minus: bool)|stored: i64\)", h) and "Result" not in h and re.search(r"as \w+\b|=> ", g.body):
            found.append(place(g.file, g.line, f"conversion by hand: {g.name}"))
        if re.search(r"48 \+|- 48", g.body):
            found.append(place(g.file, g.line, f"digits by hand: {g.name}"))
    return found


# 5. facts in three contracts or more, parameters that always travel together
def facts():
    of = collections.defaultdict(set)
    for g in all_functions():
        for kind, clause in g.clauses:
            parts = [clause]
            if kind.startswith("requires"):
                parts = re.split(r"\s×\s", clause)
            for p in parts:
                p = " ".join(p.split())
                while p.count("(") > p.count(")") and p.startswith("("):
                    p = p[1:]
                while p.count(")") > p.count("(") and p.endswith(")"):
                    p = p[:-1]
                if len(p) > 3 and (kind.startswith("requires") or not re.match(r"result ≡|.*\.new ≡ .*\(", p)):
                    of[(kind.split()[0], p)].add((g.file, g.line, g.name))
    return {k: v for k, v in of.items() if len(v) >= 3}


def parameters(g):
    start = g.head.index("(")
    params, depth, now = [], 0, ""
    for c in g.head[start + 1 : matching(g.head, start, "(", ")")] + ",":
        depth += (c in "([<") - (c in ")]>")
        if c == "," and depth == 0:
            params.append(" ".join(now.split()))
            now = ""
        else:
            now += c
    return [tuple(p.split(": ", 1)) for p in params if ": " in p]


def groups():
    of = collections.defaultdict(set)
    for g in all_functions():
        named = [p for p in parameters(g) if p[0] != "rt"]
        for i in range(len(named)):
            for j in range(i + 1, len(named)):
                of[(named[i], named[j])].add((g.file, g.line, g.name))
    return {k: v for k, v in of.items() if len(v) >= 3}


def point5():
    found = []
    for (kind, fact), at in sorted(facts().items()):
        f, line, _ = sorted(at)[0]
        found.append(place(f, line, f"{kind} of {len(at)} functions: {fact[:100]}"))
    for (p, q), at in sorted(groups().items()):
        f, line, _ = sorted(at)[0]
        found.append(place(f, line, f"parameters of {len(at)} functions: {p[0]}: {p[1]}, {q[0]}: {q[1]}"))
    return found


# 6. buffers with a length beside them, parallel arrays
def point6():
    found = []
    for f in files():
        text = code_of(open(f).read())
        for m in re.finditer(r"struct (\w+)[^{;]*\{([^}]*(?:\{[^}]*\}[^}]*)*)\}", text):
            line = text.count("\n", 0, m.start()) + 1
            body = re.sub(r"ghost \w+: \{[^}]*\}", "", m.group(2))
            arrays = re.findall(r"(\w+): \[[^;\]]+; (\w+)\]", body)
            slots = re.findall(r"(\w+): &'?\w* ?(?:mut )?\[", body)
            counts = re.findall(r"\b(len|count|steps|marks|joins|end): (?:usize|u32)", body)
            if len(arrays) > 1:
                found.append(place(f, line, f"parallel arrays: {m.group(1)} ({', '.join(a for a, _ in arrays)})"))
            if (arrays or slots) and counts:
                found.append(place(f, line, f"an array with a number beside it: {m.group(1)} ({', '.join(counts)})"))
    for g in all_functions():
        h = " ".join(g.head.split())
        if re.search(r"\w+: &(?:mut )?\[[^\]]+\], (?:len|count): usize", h):
            found.append(place(g.file, g.line, f"a slice with a length beside it: {g.name}"))
    return found


# 7. a switch on which step to run
def point7():
    found = []
    for g in all_functions():
        m = re.fullmatch(r"\{\s*match [^{]*\{(.*)\}\s*\}", g.body, re.S)
        if m:
            arms = re.findall(r"=>\s*([a-z_]\w*)\(", m.group(1))
            if len(arms) >= 2:
                found.append(place(g.file, g.line, f"a match whose cases call {', '.join(arms)}: {g.name}"))
    found += lines(r"\bfn\([^)]*\) ->", "a function pointer", lambda m: True)
    return found


# 8. proofs
def point8():
    found = []
    for d in sorted(glob.glob(os.path.join(ROOT, "crates/*/proofs"))):
        answers = lemmas = 0
        for f in glob.glob(os.path.join(d, "**/*.antt"), recursive=True):
            text = open(f).read()
            n = len(re.findall(r"^(?:abbrev )?pub [\w-]+ :", text, re.M))
            if re.search(r"^use \S+\.(Goals|Given) as goal", text, re.M):
                answers += len(re.findall(r"^(?:abbrev )?pub \S+ : goal\.", text, re.M))
            else:
                lemmas += len(re.findall(r"^(?:abbrev |unfoldable |pub )*[\w≤≡<-]+ : ", text, re.M))
        found.append(place(d, 0, f"{answers} answers, {lemmas} lemmas"))
    return found


def stays(p):
    file, line, _ = p
    if line == 0:
        return False
    text = open(os.path.join(ROOT, file)).read().split("\n")
    head = [t for t in text[:40] if t.startswith("//!")]
    return any("stays:" in t for t in head + text[max(0, line - 8):line + 1])


def main():
    points = [point1, point2, point3, point4, point5, point6, point7, point8]
    listed = len(sys.argv) > 1 and sys.argv[1] == "list"
    only = int(sys.argv[2]) if len(sys.argv) > 2 else 0
    for k, point in enumerate(points, 1):
        if only and only != k:
            continue
        found = sorted(set(point()))
        kept = [p for p in found if stays(p)]
        print(f"point {k}: {len(found)} places, {len(kept)} of them with a reason beside")
        if listed:
            for file, line, what in found:
                mark = " (stays)" if stays((file, line, what)) else ""
                print(f"    {file}:{line}: {what}{mark}")


main()
