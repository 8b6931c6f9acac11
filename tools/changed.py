#!/usr/bin/env python3
"""What changed in contracts, definitions and named theorems since a commit, old and new one under the other, as Markdown.

    python3 tools/changed.py COMMIT
"""
import re
import subprocess
import sys
from pathlib import Path

sys.path.insert(0, str(Path(__file__).resolve().parent))
from forms import CLAUSE, TOP, bare, braced, files, functions  # noqa: E402


def heads(commit):
    """The head of each function and each struct, enum and trait with its derives, by crate and name."""
    found = {}
    for name, text in files(commit, r"crates/\w+/src/.*\.rt"):
        crate = name.split("/")[1]
        text = bare(text)
        for m in re.finditer(r"^[ \t]*(?:pub )?(?:extern \"C\" )?fn (\w+)", text, re.M):
            own = re.compile(r"\n[ \t]*\{").search(text, m.end())
            inline = re.compile(r"[^\n]*\{").match(text, m.start())
            semicolon = re.compile(r";\s*\n").search(text, m.end())
            ends = [x for x in ((own.start() if own else None), (inline.end() - 1 if inline else None), (semicolon.start() if semicolon else None)) if x is not None and x > m.end()]
            head = text[m.start():min(ends)] if ends else text[m.start():m.end()]
            found.setdefault(("fn", crate, m.group(1)), []).append(" ".join(head.split()))
        for m in re.finditer(r"^(?:#\[.*\]\s*\n)*(?:pub )?(struct|enum|trait) (\w+)", text, re.M):
            end = text.find("\n\n", m.start())
            found.setdefault((m.group(1), crate, m.group(2)), []).append(" ".join(text[m.start():end if end > 0 else len(text)].split()))
    return {k: " // ".join(sorted(v)) for k, v in found.items()}


def statements(commit, part):
    """What each name of an .antt file says: a definition of specs/ with its clauses, a record with its fields, all else its signature alone."""
    found = {}
    for name, text in files(commit, part):
        crate, where = name.split("/")[1], name.split("/")[-1][:-5]
        text = re.sub(r"--.*", "", text)
        # only a record's or a data's name may have its parameters behind it: any other `name (..` begins an equation
        starts = [(m.start(), m) for m in re.finditer(r"^([ \t]*)((?:abbrev|unfoldable) )?(?:pub )?(?:(record|data) (?=\S+ [:({])|(?=\S+ :))([^\s:(){};,|]+) .*", text, re.M)]
        for i, (at, m) in enumerate(starts):
            indent, defined, fields, word = m.groups()
            if word in ("module", "use", "let", "record", "where", "rw", "elim", "ap", "omega", "go", "×"):
                continue
            said = text[at:starts[i + 1][0] if i + 1 < len(starts) else len(text)]
            if fields:
                said = re.split(r"\n[ \t]{0,%d}(?=\S)" % len(indent), text[at:], maxsplit=1)[0]
            elif "/proofs/" in name or not defined:
                said = re.split(r"\n[ \t]*(?:unfolding |" + re.escape(word) + r"(?=[\s=]))", said)[0]
            found[(crate, where, word)] = " ".join(said.split())
    return found


def apart(head):
    """A head's signature and its clauses, one by one."""
    return [part.strip() for part in re.split(r"(?=\b(?:requires|ensures)\b)", head)]


def compare(title, old, new, show=lambda k: "`" + "` `".join(k) + "`"):
    changed = [k for k in sorted(old) if k in new and old[k] != new[k]]
    gone = [k for k in sorted(old) if k not in new]
    more = [k for k in sorted(new) if k not in old]
    print(f"### {title}: {len(changed)} changed, {len(gone)} gone, {len(more)} new\n")
    for k in changed:
        was, now = apart(old[k]), apart(new[k])
        lines = [f"    - {x}" for x in was if x not in now] + [f"    + {x}" for x in now if x not in was]
        kept = len([x for x in now if x in was and x.split()[0] in ("requires", "ensures")])
        print(f"{show(k)}" + (f"; {kept} of its clauses stand as they were" if kept else "") + "\n")
        print("\n".join(lines) + "\n")
    for k in gone:
        print(f"{show(k)}, gone\n\n    - {old[k]}\n")
    for k in more:
        print(f"{show(k)}, new\n\n    + {new[k]}\n")


def main():
    commit = sys.argv[1]
    compare("Functions and types", heads(commit), heads(None))
    compare("Definitions and theorems of specs/", statements(commit, r"crates/\w+/specs/\w+\.antt"), statements(None, r"crates/\w+/specs/\w+\.antt"))
    docs = " ".join(p.read_text() for p in [TOP / "README.md", *(TOP / "docs").glob("*.md")] if p.name not in ("PORT.md", "DESIGN-PASS.md"))
    named = set(re.findall(r"`([^`\s]+)`", docs))
    old, new = (statements(c, r"crates/\w+/proofs/\w+\.antt") for c in (commit, None))
    compare("Theorems of proofs/ that README or docs/ name", {k: v for k, v in old.items() if k[2] in named}, {k: v for k, v in new.items() if k[2] in named})


if __name__ == "__main__":
    main()
