#!/usr/bin/env python3
"""Spells this repository's own definitions and lemmas in snake case, in every .antt file and in the clauses of every .rt file below crates/.

usage: tools/snake_names.py [--list] [FOLDER]      once, right after the kit's port.py; FOLDER is the repository

What turns: a name that begins with a small letter and has a capital or a hyphen in it, if a file of specs/, a lemma file of proofs/ or a
helper of an answer file declares it. What stays: types and modules, names that Rattle makes for goals and steps, and a name in a file that
imports it from a library. Two names that would fall together are printed and stop the run; --list prints the names, and those that meet
another word of their file.
"""

import os
import re
import sys

WORD = re.compile(r"[^\s(){}.;,:@\"«»λ→×≡≤<]+")
DECLARED = re.compile(r"(?m)^ *(?:(?:pub|abbrev|unfoldable|private|opaque|let|in) )*([^\s(){}.;,@\"«»:]+)(?: *\{[^{}\n]*\}| *\([^()\n]*\))* :(?= |$)")
USE = re.compile(r"\buse ([^\s;{]+?)\.\{([^}]*)\}")
LIBRARY = re.compile(r"Rattle\.(std|core|io|os|libc)\w*\.|mathlib|lib\.|Prim|native")
MADE = re.compile(r"(invariant|decreases|returns|loop|overflow)-")
# Joined by an operator: what stands for it in a word.
SPELLED = {
    "mem-++": "mem_append",
    "mem-++ʳ": "mem_append_right",
    "mem-++ˡ": "mem_append_left",
}
# Lemmas that would have the name of a definition, and so get another.
OTHER = {
    "all_digits": "digits_are_all",
    "clock-named": "clock_is_named",
    "date-number": "date_is_number",
    "every-at": "every_is_at",
    "first-from": "first_is_from",
    "in-month": "is_in_month",
    "in-range": "is_in_range",
    "in_bounds": "is_in_bounds",
    "in_window": "is_in_window",
    "interval-named": "interval_is_named",
    "is-date": "is_a_date",
    "live-by": "lives_by",
    "mark-at": "mark_is_at",
    "moment-named": "moment_is_named",
    "one_end": "is_one_end",
    "period-named": "period_is_named",
    "place-from": "place_is_from",
    "start-by": "starts_by",
    "uid-by": "uid_is_by",
}
# Those of them that the kit's script has turned already, each with the one crate that declares it.
CRATES = {"all_digits": "notation", "in_bounds": "rule_lines", "in_window": "event", "one_end": "rule"}


def snake(name):
    if name in SPELLED:
        return SPELLED[name]
    if name in OTHER:
        return OTHER[name]
    words = re.sub(r"(?<=[a-z0-9])[A-Z]", lambda m: "_" + m[0].lower(), name)
    return words.replace("-", "_").replace("′", "'")


def texts(root):
    for folder, dirs, files in os.walk(os.path.join(root, "crates")):
        dirs[:] = sorted(d for d in dirs if d not in ("out", "must-fail"))
        for f in sorted(files):
            if f.endswith((".antt", ".rt")):
                path = os.path.join(folder, f)
                with open(path, encoding="utf-8") as it:
                    yield path, it.read()


def bare(text):
    return re.sub(r"--[^\n]*", "", text)


def is_answer(path):
    return re.search(r"/proofs/.+/", path) is not None


def turns(name):
    if not re.match(r"[a-z]", name):
        return False
    return name in SPELLED or name in OTHER or re.fullmatch(r"[A-Za-z0-9_'′-]+", name) is not None and snake(name) != name


def declared(files):
    names = {}
    for path, text in files:
        if not path.endswith(".antt"):
            continue
        for m in DECLARED.finditer(bare(text)):
            name = m[1]
            if is_answer(path):
                rest = bare(text)[m.end() :].lstrip()
                if re.match(r"(goal|need)\.", rest) or MADE.match(name) or m[0].startswith("  "):
                    continue
            if name in CRATES and f"/crates/{CRATES[name]}/" not in os.path.abspath(path):
                continue
            if turns(name):
                names.setdefault(name, set()).add(path)
    return names


def imported(text):
    """The names that a file takes from a library, as it writes them."""
    names = set()
    for m in USE.finditer(text):
        if LIBRARY.match(m[1]):
            for part in m[2].split(","):
                names.update(part.split(" as ")[:1] if " as " not in part else [part.split(" as ")[0].strip()])
    return {n.strip() for n in names}


def turned(path, text, names, fields):
    kept = imported(text)

    def word(m):
        name = m[0]
        if name not in names or name in kept:
            return name
        if name in CRATES and f"/crates/{CRATES[name]}/" not in os.path.abspath(path):
            return name
        if is_answer(path) and m.start() and text[m.start() - 1] == "." and name not in fields:
            before = text[max(0, m.start() - 80) : m.start()]
            if not re.search(r"(Rattle|specs|proofs)[\w.]*\.$", before):
                return name
        return snake(name)

    return WORD.sub(word, text)


def main(argv):
    only_list = "--list" in argv
    argv = [a for a in argv if a != "--list"]
    root = argv[0] if argv else "."
    files = list(texts(root))
    names = declared(files)
    fields = set()
    for path, text in files:
        if path.endswith(".antt") and not is_answer(path):
            fields.update(m[1] for m in re.finditer(r"(?m)^  +pub (\S+) :", bare(text)))
    bad, met = [], []
    seen = {}
    for name in names:
        seen.setdefault(snake(name), set()).add(name)
    for new, olds in sorted(seen.items()):
        if len(olds) > 1:
            bad.append(f"{' and '.join(sorted(olds))} would both be {new}")
    for path, text in files:
        words = {m[0] for m in WORD.finditer(bare(text))}
        if path.endswith(".antt"):
            for name in words & set(names):
                if name in CRATES and CRATES[name] + "/" not in path:
                    continue
                if snake(name) in words and name not in imported(text):
                    met.append(f"{os.path.relpath(path, root)}: {name} would meet {snake(name)}")
    if only_list:
        print("\n".join(f"{n} {snake(n)}" for n in sorted(names)))
    if only_list:
        print("\n".join(bad + met))
        return 0
    if bad:
        print("\n".join(bad))
        return 1
    n = 0
    for path, text in files:
        new = turned(path, text, names, fields)
        if new != text:
            with open(path, "w", encoding="utf-8") as f:
                f.write(new)
            n += 1
    print(f"{len(names)} names turned, {n} files written")
    return 0


if __name__ == "__main__":
    raise SystemExit(main(sys.argv[1:]))
