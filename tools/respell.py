#!/usr/bin/env python3
"""Spells the repository's own definitions and lemmas in snake case, as today's library spells its own.

usage: tools/respell.py [--check] FOLDER

FOLDER is a checkout in which the toolchain's port.py has run. In specs/ and proofs/, in the clauses and 'ghost use' lines of
src/, in must-fail edits, and in code spans of pages:
  - a capital inside a word that begins with a small letter becomes an underscore and a small letter: wordAt, word_at;
  - a dash becomes an underscore, unless it joins two names: names that the lemma's own statement speaks of (length-paste), a name and
    an operator (count-≤), or a type and a name (Filed-more).
A lemma that would then have the name of a definition or a function gets _lem behind it.
Names that are imported from a library, labels that the prover makes (what a Proof.antt declares, and what stands behind a dot), functions and
types of src/, strings and paths stay. Names that would fall together in a file are shown (two of them are words of comments or fields of other records); --check writes nothing.
"""
import os
import re
import sys

WORD = re.compile(r"[^\s(){}.;,@\"«»`]+")
DECLARED = re.compile(r"^(\s*)(?:abbrev\s+|unfoldable\s+)*(?:pub\s+)?(?:abbrev\s+|unfoldable\s+)*([^\s(){}.;,@\"«»:]+)\s*(?:\{[^}]*\}\s*)?:\s", re.M)
USE = re.compile(r"^(?:ghost )?(?:pub )?use ([^\s{;]+)(?:\{([^}]*)\})?;?", re.M)
CAMEL = re.compile(r"^[a-z][a-z0-9]*(?:[A-Z][A-Za-z0-9]*)+[?'0-9]*$")
LETTERS = re.compile(r"^[A-Za-z]")
FIELDS = set()  # fields of the repository's own records
# names that port.py brought to the spelling that a definition gets here, and what they become
FIRST = {
    "trie_filing/proofs/Once.antt": {"word_at": "word_at_lem"},
    "judge/proofs/Examining.antt": {"word_at": "word_stands_at"},
    "soundness_apart/proofs/Rows.antt": {"pair_found": "pair_found_lem"},
    "soundness_apart/proofs/unseparated/Proof.antt": {"pair_found": "pair_found_lem"},
    "line/proofs/Verdicts.antt": {"passes_line": "passes_line_lem"},
    "line/proofs/ran/write_verdict/Proof.antt": {"passes_line": "passes_line_lem"},
    "bureau_lines/proofs/Told.antt": {"passes_line": "passes_line_lem"},
    "importer_says/specs/Said.antt": {"is_name": "is_a_name", "is-cube": "is_a_cube", "is-output": "is_an_output"},
    "importer_says/proofs/Saying.antt": {"is_name": "is_a_name", "is-cube": "is_a_cube", "is-output": "is_an_output"},
    "importer_reading/proofs/OneTerm.antt": {"is_name": "is_a_name"},
}
TAKEN = set()  # plain words of the repository, as they will be spelt


def texts(folder):
    for base, folders, files in os.walk(os.path.join(folder, "crates")):
        folders[:] = [f for f in folders if f not in ("out", "target")]
        for name in sorted(files):
            if name.endswith((".antt", ".rt", ".edit")):
                yield os.path.join(base, name)


def pages(folder):
    yield os.path.join(folder, "README.md")
    for part in ("docs", "docs/landings", "tests"):
        for name in sorted(os.listdir(os.path.join(folder, part))):
            path = os.path.join(folder, part, name)
            if os.path.isfile(path):
                yield path


def is_proof(path):
    return os.path.basename(path) == "Proof.antt"


def imported(text, own):
    """The names that a file takes from a library, and those that it takes from this repository."""
    library, ours = set(), set()
    for use in USE.finditer(text):
        parts = use.group(1).split(".")
        names = use.group(2)
        names = [n.strip().split(" as ")[-1].strip() for n in names.split(",")] if names else [parts[-1]]
        mine = parts[0] == "Rattle" and len(parts) > 1 and parts[1] in own
        made = mine and any(p in ("Statement", "Tie", "Goals", "Given") for p in parts)
        (ours if mine and not made else library).update(names)
    return library, ours


def snake(part):
    if not CAMEL.match(part):
        return part
    return re.sub(r"([A-Z])", lambda m: "_" + m.group(1).lower(), part)


def spoken(text, start, indent):
    """The words of a declaration's statement: up to the next line that stands no deeper."""
    end = start
    while True:
        line = text.find("\n", end)
        if line < 0:
            return text[start:]
        rest = text[line + 1:]
        deeper = re.match(r"( *)\S", rest)
        if not deeper or len(deeper.group(1)) <= indent:
            return text[start:line]
        end = line + 1


def joined(folder):
    """For each dashed name that is declared outside a Proof.antt: the dashes that join two names."""
    keep = {}
    for path in texts(folder):
        if not path.endswith(".antt") or is_proof(path):
            continue
        text = open(path).read()
        for made in DECLARED.finditer(text):
            name = made.group(2)
            if "-" not in name or not LETTERS.match(name):
                continue
            words = set(WORD.findall(spoken(text, made.end(), len(made.group(1)))))
            parts = name.split("-")
            keep.setdefault(name, set()).update(
                i for i in range(len(parts) - 1) if parts[i] in words and parts[i + 1] in words
            )
    return keep


def fields(folder):
    """The names of the fields of the repository's own records."""
    found = set()
    for path in texts(folder):
        if not path.endswith(".antt") or is_proof(path):
            continue
        text = open(path).read()
        for made in re.finditer(r"^( *)(?:(?:pub|abbrev) )*record [^\n]*where *$", text, re.M):
            body = text[made.end() + 1:]
            for line in body.split("\n"):
                if not re.match(r" {%d,}\S" % (len(made.group(1)) + 1), line):
                    break
                name = DECLARED.match(re.sub(r"^(\s*)(?:field|constructor)\s", r"\1", line))
                if name and "-" in name.group(2) and LETTERS.match(name.group(2)):
                    found.add(name.group(2))
    return found


def plain_words(folder):
    """The words without a dash that a file of the repository has, spelt in snake case."""
    words = set()
    for path in texts(folder):
        if path.endswith(".antt") and not is_proof(path):
            for token in WORD.findall(re.sub(r"(?m)(^|\s)--.*$", "", open(path).read())):
                if LETTERS.match(token) and "-" not in token:
                    words.add(snake(token))
    return words


def respelt(name, keep):
    parts = name.split("-")
    kept = keep.get(name, set())
    out = snake(parts[0])
    for i, part in enumerate(parts[1:]):
        before = parts[i]
        joins = i in kept or not LETTERS.match(part) or not LETTERS.match(before) or part[0].isupper() or before[0].isupper()
        out += ("-" if joins else "_") + snake(part)
    return out + "_lem" if "-" in name and out in TAKEN and name not in FIELDS else out


def turned(token, keep):
    if not LETTERS.match(token) or "--" in token or "->" in token:
        return token
    if "-" not in token and not CAMEL.match(token):
        return token
    return respelt(token, keep)


def turn_code(path, text, keep, own):
    for old, new in next((f for end, f in FIRST.items() if path.endswith(end)), {}).items():
        text = re.sub(rf"(?<![\w'-]){old}(?![\w'-])", new, text)
    text = text.replace(".requires.is-cube", ".requires.is_a_cube").replace(".requires.is-output", ".requires.is_an_output")
    library, ours = imported(text, own)
    library_modules = {n for n in library if n[0].isupper()}
    proof = is_proof(path)
    declared = set(n for _, n in DECLARED.findall(text))
    before, after = set(), {}

    def one(m):
        token, start = m.group(0), m.start()
        dotted = start > 0 and text[start - 1] == "."
        head = re.search(r"([^\s(){};,@\"«»`.]+)\.$", text[max(0, start - 80):start]) if dotted else None
        module = bool(head and head.group(1)[0].isupper() and head.group(1) not in library_modules)
        before.add(token) if not dotted else None
        if token in library:
            return token
        if dotted and not module and token not in FIELDS and not CAMEL.match(token):
            return token
        if proof and not dotted and "-" in token and token not in ours:
            return token
        new = turned(token, keep)
        if new != token:
            after.setdefault(new, set()).add(token)
        return new

    # strings stay
    pieces = re.split(r'("(?:[^"\\\n]|\\.)*")', text)
    out, at = [], 0
    for piece in pieces:
        if piece.startswith('"') and piece.endswith('"') and len(piece) > 1:
            out.append(piece)
        else:
            out.append(WORD.sub(lambda m, at=at: one(Shift(m, at)), piece))
        at += len(piece)
    fallen = [
        f"{path}: {sorted(olds)} and {new}" for new, olds in after.items() if len(olds) > 1 or (new in before and new not in olds)
    ]
    return "".join(out), fallen


class Shift:
    """A match of a piece, with its place in the whole text."""

    def __init__(self, m, at):
        self.m, self.at = m, at

    def group(self, n):
        return self.m.group(n)

    def start(self):
        return self.m.start() + self.at


RT_PART = re.compile(r"//[^\n]*|ghost use [^;]*;|(?:requires|ensures|ghost)\s*\w*\s*:?\s*\{", re.S)


def turn_rt(path, text, keep, own):
    """Clauses, ghost items and comments of a source; the code itself has no such names."""
    library, _ = imported(text, own)
    fallen = []
    out, at = [], 0
    for m in RT_PART.finditer(text):
        if m.start() < at:
            continue
        end = m.end()
        if text[m.start()] == "r" or text[m.start()] == "e" or (text.startswith("ghost", m.start()) and not text.startswith("ghost use", m.start())):
            depth = 1
            while depth:
                depth += {"{": 1, "}": -1}.get(text[end], 0)
                end += 1
        part = text[m.start():end]
        comment = part.startswith("//")

        def one(t, part=part, comment=comment):
            token = t.group(0)
            dotted = t.start() > 0 and part[t.start() - 1] == "."
            if token in library or dotted and token not in FIELDS and not CAMEL.match(token):
                head = re.search(r"([^\s(){};,@\"«»`.]+)\.$", part[:t.start()])
                if token in library or not (head and head.group(1)[0].isupper()):
                    return token
            if comment and "-" in token:
                return respelt(token, keep) if token in keep else token
            return turned(token, keep)

        out += [text[at:m.start()], WORD.sub(one, part)]
        at = end
    out.append(text[at:])
    return "".join(out), fallen


def turn_page(text, keep):
    def span(m):
        return WORD.sub(lambda t: turned(t.group(0), keep) if t.group(0) in keep or CAMEL.match(t.group(0)) else t.group(0), m.group(0))
    return re.sub(r"`[^`\n]+`", span, text)


def turn_edit(text, keep):
    def line(m):
        return WORD.sub(lambda t: turned(t.group(0), keep) if t.group(0) in keep or CAMEL.match(t.group(0)) else t.group(0), m.group(0))
    return re.sub(r"^(?:old|new): .*$", line, text, flags=re.M)


def main():
    check = "--check" in sys.argv
    folder = [a for a in sys.argv[1:] if not a.startswith("--")][0]
    own = set(os.listdir(os.path.join(folder, "crates")))
    keep = joined(folder)
    FIELDS.update(fields(folder))
    TAKEN.update(plain_words(folder))
    bad, changed = [], 0
    work = [(p, "code") for p in texts(folder)] + [(p, "page") for p in pages(folder)]
    for path, kind in work:
        text = open(path).read()
        fallen = []
        if path.endswith(".antt"):
            new, fallen = turn_code(path, text, keep, own)
        elif path.endswith(".rt"):
            new, fallen = turn_rt(path, text, keep, own)
        elif path.endswith(".edit"):
            new = turn_edit(text, keep)
        else:
            new = turn_page(text, keep)
        bad += fallen
        if new != text:
            changed += 1
            if not check:
                open(path, "w").write(new)
    for line in bad:
        print("together:", line)
    print(f"{changed} files")
    return 0


if __name__ == "__main__":
    sys.exit(main())
