#!/usr/bin/env python3
"""Counts the forms of the sources that docs/DESIGN-PASS.md speaks of.

    python3 tools/forms.py [COMMIT] [-v]

Without a commit the files of this tree are read. It goes by text, as a reader with a ruler would: what it counts is a first list, and the page
says which of it is a place to change.
"""
import re
import subprocess
import sys
from collections import defaultdict
from pathlib import Path

TOP = Path(__file__).resolve().parent.parent


def files(commit, part):
    if commit:
        names = subprocess.run(["git", "ls-tree", "-r", "--name-only", commit, "crates"], cwd=TOP, capture_output=True, text=True, check=True).stdout.split("\n")
    else:
        names = [str(p.relative_to(TOP)) for p in TOP.glob("crates/**/*") if p.is_file() and "/out/" not in str(p)]
    for name in sorted(names):
        if re.fullmatch(part, name):
            if commit:
                yield name, subprocess.run(["git", "show", f"{commit}:{name}"], cwd=TOP, capture_output=True, text=True, check=True).stdout
            else:
                yield name, (TOP / name).read_text()


def bare(text):
    return re.sub(r"//.*", "", text)


def braced(text, start):
    """The text in the braces that open at or after start."""
    i = text.index("{", start)
    depth = 0
    for j in range(i, len(text)):
        depth += {"{": 1, "}": -1}.get(text[j], 0)
        if depth == 0:
            return text[i + 1:j]
    return text[i + 1:]


CLAUSE = re.compile(r"\n\s*(?:requires|ensures)\b[^\n]*")


def functions(text):
    """Name, parameters, clauses and body of each function."""
    for m in re.finditer(r"^[ \t]*(?:pub )?(?:extern \"C\" )?fn (\w+)", text, re.M):
        head_end = text.find("\n{", m.start()) if text[m.start():].find("\n{") >= 0 else -1
        own = re.compile(r"\n[ \t]*\{").search(text, m.end())
        inline = re.compile(r"\)[^\n{;]*\{").search(text, m.end())
        at = min([x.start() for x in (own, inline) if x] or [-1])
        if at < 0:
            continue
        head = text[m.start():at]
        if inline and at == inline.start():
            head = text[m.start():inline.end() - 1]
            at = inline.end() - 1
        parameters = re.search(r"\((.*?)\)\s*(?:->|\n|$|\{)", head, re.S)
        yield m.group(1), parameters.group(1) if parameters else "", CLAUSE.findall(head), braced(text, at)


def enums(commit):
    found = []
    for name, text in files(commit, r"crates/\w+/src/\w+\.rt"):
        for m in re.finditer(r"enum (\w+)", bare(text)):
            body = braced(bare(text), m.end())
            variants = re.findall(r"^\s{4}(\w+)(\(.*?\)|\s*\{.*?\})?,", body, re.M | re.S)
            if len(variants) == 2 and any(not v[1] or v[0] in ("Stopped", "Refused") for v in variants):
                found.append(f"{name.split('/')[1]}::{m.group(1)}")
    return found


def passed_on(commit):
    arm = re.compile(r"\w+::(?:Stopped|Refused|Full|Over|Bad)(?:\(([^()]*)\))? =>\s*\{?\s*(?:return )?\w+::(?:Stopped|Refused|Full|Over|Bad)(?:\(\1\))?\b")
    handed = re.compile(r"let \w+::\w+\(.*?\) = \w+ else \{\s*return \w+::\w+;\s*\}", re.S)
    return sum(len(arm.findall(bare(t))) + len(handed.findall(bare(t))) for _, t in files(commit, r"crates/\w+/src/\w+\.rt"))


def zeros(commit):
    return [f"{n}: {l.strip()}" for n, t in files(commit, r"crates/\w+/src/\w+\.rt") for l in t.split("\n") if re.search(r"//.*(\bor 0\b|\b0 for\b|\b0 where\b|\b0 stands\b|as many as there are, where)", l)]


def twins(commit):
    groups = defaultdict(list)
    for name, text in files(commit, r"crates/\w+/src/\w+\.rt"):
        for fn, _, _, body in functions(bare(text)):
            tokens = re.findall(r"\w+|[^\s\w]", body)
            if len(tokens) < 8:
                continue
            ids, out = {}, []
            for t in tokens:
                if re.fullmatch(r"\d\w*", t):
                    out.append("0")
                elif re.fullmatch(r"\w+", t) and t not in ("let", "mut", "while", "for", "in", "if", "else", "match", "return", "as", "Some", "None", "Ok", "Err"):
                    out.append(f"v{ids.setdefault(t, len(ids))}")
                elif t != ",":
                    out.append(t)
            groups[" ".join(out)].append(f"{name.split('/')[1]}::{fn}")
    return [g for g in groups.values() if len(g) > 1]


def loops(commit):
    counting, other = [], []
    for name, text in files(commit, r"crates/\w+/src/\w+\.rt"):
        for m in re.finditer(r"while (.*?) \{", bare(text)):
            body = braced(bare(text), m.end() - 1)
            condition = re.findall(r"[a-z_]\w*", m.group(1))
            counts = any(re.search(rf"\b{v} [+-]= 1;", body) for v in condition)
            (counting if counts else other).append(f"{name}: while {m.group(1)}")
    return counting, other


def by_hand(commit):
    return [f"{n.split('/')[1]}::{fn}" for n, t in files(commit, r"crates/\w+/src/\w+\.rt") for fn, _, _, _ in functions(bare(t)) if re.fullmatch(r"number|numbered|wide\w*|packed_byte|same_\w+|initial|copy|clear_\w+", fn)]


def facts(commit):
    where = defaultdict(set)
    groups = defaultdict(set)
    for name, text in files(commit, r"crates/\w+/src/\w+\.rt"):
        for fn, parameters, clauses, _ in functions(bare(text)):
            me = f"{name.split('/')[1]}::{fn}"
            for c in clauses:
                if c.strip().startswith("requires"):
                    for p in re.findall(r"(?<![\w.])([A-Z]\w+) ", c):
                        where[p].add(me)
            ps = [re.sub(r"\s+", " ", p).strip() for p in parameters.split(",") if ":" in p]
            for i in range(len(ps) - 2):
                groups[" ".join(p.split(":")[0] for p in ps[i:i + 3])].add(me)
    return {p: len(w) for p, w in where.items() if len(w) >= 3}, {g: len(w) for g, w in groups.items() if len(w) >= 3}


def beside(commit):
    found = []
    for name, text in files(commit, r"crates/\w+/src/\w+\.rt"):
        for m in re.finditer(r"struct (\w+)[^;{(]*\{", bare(text)):
            body = braced(bare(text), m.end() - 1)
            if re.search(r": \[", body) and re.search(r"(count|length|len): ", body) or re.search(r"\ba: .*\n.*\bb: ", body):
                found.append(f"{name.split('/')[1]}::{m.group(1)}")
    return found


def proofs(commit):
    lines = answers = 0
    for _, text in files(commit, r"crates/\w+/proofs/.*/(?:Answers|Invariants)\.antt"):
        lines += text.count("\n")
        answers += len(re.findall(r"^pub \S+ :", text, re.M))
    lemmas = sum(t.count("\n") for _, t in files(commit, r"crates/\w+/proofs/\w+\.antt"))
    return answers, lines, lemmas


def main():
    verbose = "-v" in sys.argv
    commit = next((a for a in sys.argv[1:] if a != "-v"), None)
    counting, other = loops(commit)
    where, groups = facts(commit)
    rows = [
        ("1 enums of the shape of Option or Result", enums(commit)),
        ("1 arms that only pass on what stopped", passed_on(commit)),
        ("1 numbers that say none", zeros(commit)),
        ("2 groups of functions that differ in names and numbers", twins(commit)),
        ("3 loops that count by hand", counting),
        ("3 loops over links, queues and places", other),
        ("4 conversions, comparisons and copies by hand", by_hand(commit)),
        ("5 facts in the requires of three functions and more", where),
        ("5 three parameters that travel together in three functions and more", groups),
        ("6 structs with a count beside an array, or numbered fields", beside(commit)),
        ("8 answers, their lines, lines of lemmas", proofs(commit)),
    ]
    for name, what in rows:
        size = what if isinstance(what, (int, tuple)) else len(what)
        print(f"{name}: {size}")
        if verbose and not isinstance(what, (int, tuple)):
            for w in what.items() if isinstance(what, dict) else what:
                print("   ", w)


if __name__ == "__main__":
    main()
