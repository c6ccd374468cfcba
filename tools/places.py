#!/usr/bin/env python3
# Lists the places in crates/*/src that an older form of the language may have left: python3 tools/places.py [DIR]
import collections
import glob
import os
import re
import sys

WORDS = [a for a in sys.argv[1:] if a != "--count"]
top = WORDS[0] if WORDS else "."
FILES = sorted(glob.glob(os.path.join(top, "crates/*/src/**/*.rt"), recursive=True))


def short(path):
    return os.path.relpath(path, os.path.join(top, "crates")).replace("/src/", "/")


def code_of(text):
    return re.sub(r"//[^\n]*", lambda m: " " * len(m.group()), text)


def line_at(text, at):
    return text.count("\n", 0, at) + 1


def block(text, at):
    """The text from the brace at `at` to the one that closes it."""
    depth = 0
    for i in range(at, len(text)):
        if text[i] == "{":
            depth += 1
        elif text[i] == "}":
            depth -= 1
            if depth == 0:
                return text[at : i + 1]
    return text[at:]


def pieces(text):
    """The parts of a text between commas that stand in no bracket."""
    parts, depth, last = [], 0, 0
    for i, c in enumerate(text):
        if c in "([{<":
            depth += 1
        elif c in ")]}" or (c == ">" and text[i - 1] not in "-="):
            depth -= 1
        elif c == "," and depth == 0:
            parts.append(text[last:i])
            last = i + 1
    parts.append(text[last:])
    return [p.strip() for p in parts if p.strip()]


class Function:
    """A function with a body: its head, clauses and body apart."""

    def __init__(self, path, text, m):
        self.name = m.group(1)
        self.where = f"{short(path)}:{line_at(text, m.start())} {self.name}"
        at = m.end() - 1
        depth = 0
        for i in range(at, len(text)):
            depth += {"(": 1, ")": -1}.get(text[i], 0)
            if depth == 0:
                break
        self.params = pieces(text[at + 1 : i])
        rest = text[i + 1 :]
        self.requires, self.ensures, pos = [], [], 0
        self.result = re.match(r"[^\n{;]*", rest).group().strip()
        while True:
            c = re.compile(r"\s*(requires|ensures)\*?( \w+)? \{").search(rest, pos)
            stop = re.compile(r"\n\s*\{|\{\}|\{\n|\{[^\n]*\}\n|;").search(rest, pos)
            if c and (not stop or c.start() <= stop.start()):
                clause = block(rest, c.end() - 1)
                (self.requires if c.group(1) == "requires" else self.ensures).append(clause[1:-1].strip())
                pos = c.end() - 1 + len(clause)
            else:
                break
        brace = rest.find("{", pos)
        semi = rest.find(";", pos)
        self.body = "" if brace < 0 or 0 <= semi < brace else block(rest, brace)


def functions():
    found = []
    for path in FILES:
        text = code_of(open(path).read())
        for m in re.finditer(r"\bfn (\w+)(?:<[^()]*?>)?\(", text):
            found.append(Function(path, text, m))
    return found


def shape(body):
    words = re.findall(r"\d[\w_.]*|b?\"[^\"]*\"|b?'[^']*'|\w+|[^\w\s]", body)
    keep = {"let", "else", "return", "match", "if", "for", "in", "while", "loop", "Some", "None", "Ok", "Err", "self", "mut", "true", "false"}
    return [w if not re.match(r"\w|b?[\"']", w) or w in keep else ("N" if w[0].isdigit() else "I") for w in words]


def enums():
    for path in FILES:
        text = code_of(open(path).read())
        for m in re.finditer(r"\benum (\w+)(<[^{]*>)? \{", text):
            cases = pieces(block(text, m.end() - 1)[1:-1])
            full = [c for c in cases if re.search(r"[({]", c)]
            if len(cases) <= 3 and full:
                yield f"{short(path)}:{line_at(text, m.start())} {m.group(1)}"


def grep(*patterns, comments=False):
    for path in FILES:
        raw = open(path).read()
        text = raw if comments else code_of(raw)
        for pattern in patterns:
            for m in re.finditer(pattern, text, re.S):
                yield f"{short(path)}:{line_at(text, m.start())} {' '.join(m.group().split())[:90]}"


def twins(all_functions):
    groups = collections.defaultdict(list)
    for f in all_functions:
        words = shape(f.body)
        if len(words) >= 14:
            groups[tuple(words)].append(f.where)
    for places in groups.values():
        if len(places) > 1:
            yield " ~ ".join(places)


def twin_types():
    groups = collections.defaultdict(list)
    for path in FILES:
        text = code_of(open(path).read())
        for m in re.finditer(r"\b(struct|enum) (\w+)(<[^{;(]*>)? \{", text):
            names = [re.sub(r"^ghost |^pub(\(crate\))? ", "", p).split(":")[0].strip() for p in pieces(block(text, m.end() - 1)[1:-1]) if not p.startswith("ghost")]
            groups[frozenset(names)].append((len(names), f"{short(path)} {m.group(2)}", frozenset(names)))
    every = [x for g in groups.values() for x in g]
    for i, (_, a, x) in enumerate(every):
        for _, b, y in every[i + 1 :]:
            if len(x & y) >= 2:
                yield f"{a} ~ {b}: {', '.join(sorted(x & y))}"


def by_hand(all_functions):
    for f in all_functions:
        types = [p.split(":", 1)[1].strip().replace("&", "") for p in f.params if ":" in p]
        if len(types) == 2 and types[0] == types[1] and re.match(r"-> (bool|Ordering|%s)$" % re.escape(types[0]), f.result):
            yield f.where + " (equality or order)"
        arms = re.findall(r"\w+::\w+(?:\(_\))? => (?:\d+|b?\"[^\"]*\"|\{\s*b?\")", f.body)
        back = re.findall(r"(?:\d+|b?\"[^\"]*\") => (?:Some\()?\w+::\w+|return Some\(\w+::\w+\);", f.body)
        if len(arms) > 2 or len(back) > 2:
            yield f.where + " (conversion or printing)"


def together(all_functions):
    pairs = collections.defaultdict(list)
    for f in all_functions:
        ps = sorted({re.sub(r"'\w+ |&|mut ", "", p) for p in f.params if ":" in p and not p.startswith("self")})
        for i, a in enumerate(ps):
            for b in ps[i + 1 :]:
                pairs[(a, b)].append(f.where)
    for (a, b), places in sorted(pairs.items(), key=lambda x: -len(x[1])):
        if len(places) > 2:
            yield f"{len(places)} functions: {a}, {b}"


def facts(all_functions):
    seen = collections.defaultdict(set)
    for f in all_functions:
        for clause in f.requires:
            for atom in re.split(r" × ", clause):
                seen[re.sub(r"^\(+|\)+$", "", atom.strip())].add(f.where)
    for atom, places in sorted(seen.items(), key=lambda x: -len(x[1])):
        if len(places) > 2:
            yield f"{len(places)} functions: {atom}"


def buffers():
    for path in FILES:
        text = code_of(open(path).read())
        for m in re.finditer(r"\bstruct (\w+)(<[^{;(]*>)? \{", text):
            body = block(text, m.end() - 1)
            if re.search(r"\[[^\]]*; ?\w+\]|Vec<|\[u8\]", body) and re.search(r"\b(len|limit|places|count): (usize|u8|u32|&)", body):
                yield f"{short(path)}:{line_at(text, m.start())} {m.group(1)}"


def switches(all_functions):
    for f in all_functions:
        for m in re.finditer(r"match [^{;]* \{", f.body):
            arms = re.findall(r"\w+::\w+(?:\([^)]*\))? => (\w+)\(([^()]*)\)", block(f.body, m.end() - 1))
            if len({a for a, _ in arms}) > 1:
                yield f.where


CHOICES = r"\{\s*Some\([^{}]*(?:\{[^{}]*\})?[^{}]*\)\s*\} else \{\s*None\s*\}"
LEAVES = r"let (?:Some|Ok)\([^;{]*\) = [^;]*? else \{\s*return [^;]*;"
RESPELT = r"(?:Err\(\w+\)|None) => (?:None|return None|Err\(|return Err\()|Some\(_\) => (?:true|1)|Ok\((\w+)\) => (?:Some\(\1\)|Ok\(\1\)|\1,)|if let Some\((\w+)\) = [^{]*\{\s*return Err\(\2\)"


def main():
    fs = functions()
    index = list(grep(r"\bfor \w+ in [^{;]*\.\.[^{;]*\{", r"\b(?:while|loop)\b[^{;]*\{"))
    rows = [
        ("options: own enums of two or three cases, one of them with a value", list(enums())),
        ("options: what a method of Option or Result says, spelt out", list(grep(RESPELT))),
        ("options: an Option chosen by an if", list(grep(CHOICES))),
        ("options: let-else that leaves with a value", list(grep(LEAVES))),
        ("options: flags in a struct", list(grep(r"\n\s*(?:pub(?:\(crate\))? )?\w+: bool,\n(?!\s*\w+: )"))),
        ("options: numbers for absence, by their comments", list(grep(r"//[^\n]*(?:, or `end`|or 0\b|or some day|end` too)", comments=True))),
        ("twins: functions alike but for names and numbers", list(twins(fs))),
        ("twins: types with two or more fields or cases of the same names", list(twin_types())),
        ("loops: over an index, while and loop", index),
        ("loops: other for loops", [x for x in grep(r"\bfor [^{;]* in [^{;]*\{") if x not in index]),
        ("by hand: equality, order, conversion and printing by hand", list(by_hand(fs))),
        ("together: parameters together in three or more functions", list(together(fs))),
        ("together: facts required by three or more functions", list(facts(fs))),
        ("buffers: a buffer with a number beside it", list(buffers())),
        ("switches: a match that only picks a function", list(switches(fs))),
    ]
    for name, places in rows:
        print(f"{len(places):4} {name}")
        if "--count" not in sys.argv:
            for place in places:
                print(f"       {place}")


main()
