#!/usr/bin/env python3
"""Turns proofs that walk a function's code (Proof.antt over Tie) into the files that today's Rattle reads: Invariants.antt and Answers.antt.

usage: tools/answers.py NAMES FOLDER..

FOLDER is a crate's folder. NAMES is the names.json that, in that folder, 'rt check --generated DIR --old-names' writes: for each function the old
and the new name of each goal and step, and the order of steps. A path as c.before.before.word_length.ensures becomes c.word_length.ensures; an
invariant over a list of variables becomes one over l. Answers that say only 'search rules' go, since the check tries that by itself.
What it cannot turn is shown on a line 'left:'.
"""
import glob
import json
import os
import re
import sys

NAME = r"[^\s(){}.;,@\"«»:]+"
IDENT = re.compile(r"(?<![\w.'\-])([A-Za-zα-ωμκλ][\w'₀-₉κ\-]*(?:\.«?[\w'₀-₉\-]+»?)*)")
plain = lambda s: s.replace("_", "-").strip("«»")


def clauses(crates):
    """For each function of each crate: the names of its requires and ensures clauses, in order."""
    found = {}
    for path in glob.glob(os.path.join(crates, "*", "src", "**", "*.rt"), recursive=True):
        text = open(path).read()
        for m in re.finditer(r"\bfn (\w+)\s*(?:<[^>]*>)?\(", text):
            head = text[m.end():m.end() + 6000]
            stop = re.search(r"\n\s*\{\n|\n\}\n", head)
            head = head[:stop.start()] if stop else head
            req = re.findall(r"\n\s*requires(?: (\w+))? \{", head)
            ens = re.findall(r"\n\s*ensures(?: (\w+))? \{", head)
            found.setdefault(m.group(1), []).append((req, ens, os.path.relpath(path, crates).split("/")[0]))
    return found


def below(crates, crate):
    """The crates that a crate stands on, and itself, by crates.txt."""
    for line in open(os.path.join(crates, "..", "crates.txt")):
        name, colon, rest = line.split("#")[0].partition(":")
        if colon and name.split()[:1] == [crate]:
            return [crate] + rest.split()
    return [crate]


class Function:
    def __init__(self, made):
        self.places = {p[0]: p for p in made["places"]}
        self.arms = dict(zip([p[0] for p in made["places"]], made["arms"]))
        self.told = dict(zip([p[0] for p in made["places"]], made["clauses"]))
        self.goals = {plain(a): b for a, b in made["needs"]}
        self.asked = dict(zip([b for _, b in made["needs"]], [a for a, _ in made["asked_at"]]))
        self.loops = {plain(l[0][0]): (l[0][1], l[1], c) for l, c in zip(made["loops"], made["changed"])}
        self.pre = (made.get("pre") or {}).get("fields") or []
        self.params = made["params"]

    def before(self, place):
        p = self.places.get(place)
        return p[1] if p else None

    def own_params(self, crate):
        for callee, names in self.params.items():
            if callee.split("::")[-1] == self.source:
                return names
        return self.known or []


def alike(step):
    return re.sub(r"_lem$|[-_]|Is", "", step).lower()


def numbered(rest, names):
    """The place that a chain as 1.1.0 names, as its name, and the fields behind it."""
    i = 0
    while i < len(rest) and rest[i] == "1":
        i += 1
    if i < len(names):
        if i < len(rest) and rest[i] == "0":
            return [names[i]] + rest[i + 1:]
        if i == len(names) - 1 and i > 0:
            return [names[i]] + rest[i:]
    return None


def clause(rest, names):
    """The clause that a chain as 1.0 names, of clauses that were pairs of pairs, and the fields behind it."""
    i = 0
    while i < len(names) - 1 and i < len(rest) and rest[i] == "1":
        i += 1
    if i == len(names) - 1:
        return [names[i]] + rest[i:]
    if i < len(rest) and rest[i] == "0":
        return [names[i]] + rest[i + 1:]
    return None


def behind_a_call(fn, at, rest):
    """Numbers of clauses and of parameters behind a call become names."""
    if not rest:
        return rest
    if rest[0] == "ensures" and len(rest) > 1 and rest[1].isdigit():
        fields = (fn.told.get(at) or {}).get("fields") or []
        named = clause(rest[1:], fields) if len(fields) > 1 else None
        if named:
            return ["ensures"] + named
    if rest[0] in ("new", "auto") and len(rest) > 1 and rest[1] in ("0", "1"):
        callee = fn.places[at][3]
        named = numbered(rest[1:], fn.params.get(callee, []))
        if named:
            return [rest[0]] + named
    return rest


def walk(fn, place, fields, root):
    """('place', P) or ('path', text) of the fields behind a place."""
    i = 0
    asked = place
    while i < len(fields) and fields[i] == "before":
        place = fn.before(place) or place
        i += 1
    if i == len(fields):
        return ("place", place)
    field, rest = fields[i], fields[i + 1:]
    if field in ("requires", "pre") and rest and rest[0].isdigit() and len(fn.pre) > 1 and not fn.recursive:
        rest = clause(rest, fn.pre) or rest
    if field in ("requires", "pre") and fn.recursive and rest and rest[0] in ("0", "1"):
        if rest[0] == "0":
            field, rest = "decreases", rest[1:]
        else:
            rest = (clause(rest[1:], fn.pre) or rest[1:]) if len(fn.pre) > 1 else rest[1:]
    if field in ("args", "decreases", "requires", "ranges", "pre", "well_formed", "type_inv", "utf8"):
        return ("path", ".".join([root, {"pre": "requires"}.get(field, field)] + rest))
    at, tries = place, 0
    while at is not None:
        if fn.before(at) is None and tries < 2:
            at, tries = asked, tries + 1  # a step that today stands elsewhere on the way, or is spelt otherwise
        old = fn.places[at]
        if plain(old[2][0]) == plain(field) or tries and alike(old[2][0]) == alike(field):
            arm = fn.arms.get(at)
            if arm:
                for name, step, path in arm[2]:
                    if plain(step) == plain(field) and path and rest[:len(path)] == path:
                        return ("path", ".".join([root, arm[0], name] + rest[len(path):]))
            new = ".".join([root, old[2][1]] + behind_a_call(fn, at, rest))
            # a test of `!b` now says what b is
            call = old[2][1].partition("-not-")[2]
            negated = call and rest and rest[0] in ("true", "false") and any(p[3] and p[2][1] == call for p in fn.places.values())
            return ("path", f"(ap not {new})" if negated else new)
        at = fn.before(at)
    return ("path?", ".".join([root, field] + rest))


def split_items(text):
    """Top-level items of a file: a signature with the clauses below it, or a use line, or a comment."""
    items, cur = [], []
    for line in text.split("\n"):
        if line and not line[0].isspace() and line[0] not in ")]}":
            if cur:
                items.append("\n".join(cur).rstrip())
            cur = [line]
        else:
            cur.append(line)
    if cur:
        items.append("\n".join(cur).rstrip())
    return [i for i in items if i.strip()]


def is_goal(kind):
    return kind.startswith("tie.") or bool(re.match(r"^(?:\(t : ℕ\) → )?\S+-lts\.(?:Need|invariant|decreases)", kind))


SIG = re.compile(r"^((?:abbrev |pub |unfoldable )*)(" + NAME + r")\s*:\s*(.*)$", re.S)


def follows_rw(text, at):
    """Whether a word `at` belongs to a `rw` or a `simp` before it, and is no variable."""
    depth, i = 0, at - 1
    while i >= 0:
        if text[i] in ")]}":
            depth += 1
        elif text[i] in "([{":
            if depth == 0:
                break
            depth -= 1
        elif depth == 0 and text[i] in ",=":
            break
        i -= 1
    return bool(re.search(r"(?<![\w'-])(rw|simp)(?![\w'-])", text[i + 1:at]))


def turn_term(fn, place, term, root, left):
    """A term in which paths from a place become paths from the record of steps. A let that names such a path goes."""
    env = {root: []}
    path = r"[A-Za-z][\w'₀-₉\-]*(?:\.[\w'₀-₉\-]+)*"

    def full(token):
        parts = token.split(".")
        return env[parts[0]] + parts[1:] if parts[0] in env else None

    out = term
    while True:
        for m in re.finditer(r"\blet (" + NAME + r") = (" + path + r")\s+in\b\s*", out):
            fields = full(m.group(2))
            if fields is not None and m.group(1) not in env:
                env[m.group(1)] = fields
                out = out[:m.start()] + out[m.end():]
                break
        else:
            break

    def one(m):
        fields = full(m.group(1))
        if fields is None or m.group(1) == "at" and follows_rw(out, m.start()):
            return m.group(0)
        if not fields:
            return root
        kind, what = walk(fn, place, fields, root)
        if kind == "place":
            left.append(f"a place by itself: {m.group(1)}")
            return m.group(0)
        if kind == "left":
            left.append(what + ": " + m.group(1))
            return m.group(0)
        if kind == "path?":
            left.append(f"no step for {m.group(1)}")
        return what

    return IDENT.sub(one, out)


def nested(term):
    """The parts of a term that is a tuple in brackets, as (a, b, c) or (a, (b, c)), flattened on the right; else None."""
    t = term.strip()
    if not (t.startswith("(") and t.endswith(")")):
        return None
    depth, parts, start = 0, [], 1
    for i, ch in enumerate(t):
        if ch in "([{":
            depth += 1
        elif ch in ")]}":
            depth -= 1
            if depth == 0 and i != len(t) - 1:
                return None
        elif ch == "," and depth == 1:
            parts.append(t[start:i])
            start = i + 1
    parts.append(t[start:-1])
    if parts and not parts[-1].strip():
        parts.pop()
    if len(parts) < 2:
        return None
    return [p.strip() for p in parts]


def flattened(term, n, fn=None):
    parts = nested(term)
    while parts and len(parts) < n:
        more = nested(parts[-1])
        if not more:
            # the rest of the function's own clauses handed on
            own = re.match(r"^(\w+)\.requires((?:\.1)+)$", parts[-1])
            rest = fn.pre[own.group(2).count("1"):] if own and fn else []
            if rest and len(rest) == n - len(parts) + 1:
                return parts[:-1] + [f"{own.group(1)}.requires.{r}" for r in rest]
            # a lemma that gives the rest as pairs of pairs
            left = n - len(parts) + 1
            whole = parts[-1] if re.match(r"^[\w.'-]+$", parts[-1]) else f"({parts[-1]})"
            return parts[:-1] + [whole + ".1" * i + (".0" if i < left - 1 else "") for i in range(left)]
        parts = parts[:-1] + more
    return parts if parts and len(parts) == n else None


def leading_lets(term):
    """The lets before the last value of a term, and the value."""
    t = term.strip()
    lets = ""
    while t.startswith("let "):
        depth, i = 0, 0
        nest = 0
        for m in re.finditer(r"[(\[{]|[)\]}]|(?<![\w'.-])let(?![\w'-])|(?<![\w'.-])in(?![\w'-])", t):
            w = m.group(0)
            if w in "([{":
                depth += 1
            elif w in ")]}":
                depth -= 1
            elif depth == 0 and w == "let":
                nest += 1
            elif depth == 0 and w == "in":
                nest -= 1
                if nest == 0:
                    i = m.end()
                    break
        else:
            return "", term
        lets += t[:i] + " "
        t = t[i:].strip()
    return lets, t


def binders_of(term):
    """Where the names that a lambda or a product binds hold: from there to the end of the bracket around it."""
    found = []
    for m in re.finditer(r"λ ([^.λ]*?)\. ?|\((" + NAME + r"(?: " + NAME + r")*) : ", term):
        names = set(re.findall(r"[^\s(){}:,;→]+", m.group(1) or m.group(2)))
        depth, i = (0 if m.group(1) else 1), m.end()
        opened = depth
        while i < len(term):
            if term[i] in "([{":
                depth += 1
            elif term[i] in ")]}":
                depth -= 1
                if depth < 0:
                    break
            i += 1
        found.append((m.start(), i, names))
    return found


def invariant(fn, item_name, body_args, body, loop, left):
    new, names, changed = loop
    order = [(n, c) for n, c in zip(names, changed)]
    binders = body_args.split()
    want = len(order) + sum(1 for _, c in order if c)
    if len(binders) != want:
        left.append(f"{item_name}: {len(binders)} variables where {want} are known")
        return None
    value = {}
    for b, (n, c) in zip(binders, order):
        value[b] = f"l.initial.{n}" if c else f"l.{n}"
    for b, n in zip(binders[len(order):], [n for n, c in order if c]):
        value[b] = f"l.{n}"
    value.pop("_", None)
    bound = binders_of(body)

    def one(m):
        parts = m.group(1).split(".")
        if parts[0] not in value or any(a <= m.start() < b and parts[0] in names for a, b, names in bound):
            return m.group(0)
        return ".".join([value[parts[0]]] + parts[1:])

    return IDENT.sub(one, body)


def turn(path, parts_made, crate, rel, contracts):
    """parts_made: the functions of the file, each with the beginning of its names there ('' for one that does not call itself)."""
    fns = []
    for prefix, made in parts_made:
        fn = Function(made)
        fn.recursive, fn.prefix, fn.source = bool(prefix), prefix, prefix
        fn.known = Function.known_params.get(prefix)
        fn.stem = made.get("stem") or ""
        fns.append(fn)
    text = open(path).read()
    items = split_items(text)
    uses, invariants, answers, left = [], [], [], []
    signature, unfolding = None, None
    for item in items:
        if item.startswith("use "):
            if re.search(r"\.(Tie|Statement|Lts|Reads|Kinds)(\.|\b)|borrow\.Fn\.|proofs\.\+\S+\.\{statement\}", item) and ("proofs" in item or "borrow.Fn" in item):
                continue
            uses.append(item)
            continue
        if item.startswith("--"):
            answers.append(item)
            continue
        if item.startswith("unfolding "):
            unfolding = item
            continue
        m = SIG.match(item)
        is_sig = m and not re.match(r"^(?:abbrev |pub |unfoldable )*" + NAME + r"(?:\s+" + NAME + r")*\s+=", item.split(" : ")[0] + " ") and re.search(r" :\s", item.split("=")[0])
        if is_sig:
            signature = (m.group(1), m.group(2), m.group(3))
            unfolding = None
            if signature[1].endswith("spec") and "statement" in signature[2]:
                continue
            if not is_goal(signature[2]):
                if not (fns[0].recursive and re.search(r"\bIn \d|Claims|Measures", signature[2])):
                    answers.append(item)
            continue
        # a clause
        if signature is None:
            answers.append(item)
            continue
        mods, name, kind = signature
        if name.endswith("spec") and "statement" in kind:
            continue
        measure = re.match(r"^(?:μ)-(\S+)$", name)
        if measure and "Measures" in kind:
            fn = next((f for f in fns if plain(f.prefix) == measure.group(1)), None)
            mm = re.match(r"^\S+\s+(\S+)\s+(\S+)\s+=\s*(.*)$", item, re.S)
            names = fn.own_params(crate)
            def arg(m):
                fields = m.group(1).split(".")
                if fields[0] != mm.group(2):
                    return m.group(0)
                named = numbered(fields[1:], names)
                return ".".join(["l"] + (named or fields[1:]))
            invariants.append(f"abbrev pub decreases-{fn.source} : goal.decreases-{fn.source}\ndecreases-{fn.source} l = {IDENT.sub(arg, mm.group(3))}")
            continue
        if fns[0].recursive and re.search(r"\bIn \d|Claims", kind):
            continue
        if not is_goal(kind):
            if unfolding:
                answers.append(unfolding)
                unfolding = None
            answers.append(item)
            continue
        head, _, body = item.partition("=")
        # the '=' of the clause is the first that stands alone
        mm = re.match(r"^(" + re.escape(name) + r")((?:\s+[^\s=]+)*)\s+=\s*(.*)$", item, re.S)
        if not mm:
            left.append(f"a clause that is not read: {item[:60]}")
            continue
        args, body = mm.group(2), mm.group(3)
        kind_name = re.search(r"(?:tie|\S+-lts)\.(\S+)", kind).group(1)
        fn = fns[0]
        if fn.recursive:
            head = re.search(r"(\S+)-lts\.", kind).group(1)
            fn = next(f for f in fns if plain(f.prefix) == plain(head))
        inv = re.match(r"^(invariant|decreases)-(.*)$", kind_name)
        if inv:
            loop = fn.loops.get(plain(inv.group(2)))
            if loop is None:
                left.append(f"no loop {inv.group(2)}")
                continue
            new = invariant(fn, name, args, body, loop, left)
            if new is not None:
                label = f"{inv.group(1)}-{fn.stem}{loop[0]}"
                invariants.append(f"abbrev pub {label} : goal.{label}\n{label} l = {new}")
            continue
        need = re.match(r"^Need-(.*)$", kind_name)
        if not need:
            left.append(f"a kind that is not known: {kind_name}")
            continue
        old = plain(need.group(1))
        goal = fn.goals.get(old)
        if goal is None:
            short = re.sub(r"^(overflow|nonzero)-", "", old)
            goal = fn.goals.get(short) or fn.goals.get(re.sub(r"^(shared-slice|slice)", r"\1", short))
        if goal is None:
            goal = fn.goals.get(plain(name))
        if body.strip() in ("search rules", "search needs"):
            continue
        if goal is None:
            left.append(f"no goal for {name} ({old})")
            continue
        bare, goal = goal, fn.stem + goal
        given = args.split()
        before = given.pop(0) + " " if fn.recursive and len(given) > 1 else ""
        root = given[0] if given else "c"
        where = fn.asked.get(bare)
        troubles = []
        body = re.sub(r", [\w'.-]+\.well-formed[\d.]*", "", body)  # arithmetic reads what types say of a length
        term = turn_term(fn, where, body, root, troubles)
        left += [f"{goal}: {t}" for t in troubles]
        names = None
        if "-requires" in bare:
            step = bare[: bare.index("-requires")] + bare[bare.index("-requires") + len("-requires"):]
            callee = next((p[3] for p in fn.places.values() if p[3] and p[2][1] in (step, bare.split("-requires")[0])), None)
            key = (callee.split("::")[0], callee.split("::")[-1]) if callee else bare.split("-requires")[0].split("-")[0]
            req = contracts.get(key, ([], []))[0]
            if len(req) >= 2 and all(req):
                names = req
        if bare.startswith("returns"):
            ens = contracts.get((crate, fn.source if fn.recursive else rel.split("/")[-1]), ([], []))[1]
            if len(ens) >= 2 and all(ens):
                names = ens
        parts = None
        if names:
            lets, value = leading_lets(term)
            inner = any(f.source == bare.split("-")[0] for f in fns) and fn.recursive and "-requires" in bare
            if inner:
                both = nested(value)
                rest = both and (both[1] if len(both) == 2 else "(" + ", ".join(both[1:]) + ")")
                clauses_of = rest and flattened(rest, len(names))
                if clauses_of:
                    fields = clauses_of[-1]
                    for p in reversed(clauses_of[:-1]):
                        fields = f"({p}, {fields})"
                    answers.append(f"pub {goal} : goal.{goal}\n{goal} {before}{root} = {lets.strip() + ' ' if lets else ''}({both[0]}, {fields})")
                    continue
            parts = flattened(value, len(names), fn)
            if not parts and not re.match(r"^\w+\.requires$", value.strip()):
                # a lemma that gives the clauses as pairs of pairs
                whole = value.strip() if re.match(r"^[\w.'-]+$", value.strip()) else f"({value.strip()})"
                parts = [whole + ".1" * i + (".0" if i < len(names) - 1 else "") for i in range(len(names))]
            if parts:
                for label, part in zip(names, parts):
                    if part == "search rules":
                        continue
                    answers.append(f"pub {goal}-clause-{label} : goal.{goal}-clause-{label}\n" + (unfolding + "\n" if unfolding else "") + f"{goal}-clause-{label} {before}{root} = {lets.strip() + ' ' if lets else ''}{part}")
                unfolding = None
                continue
            left.append(f"{goal}: {len(names)} clauses {names}, and no tuple")
        answers.append(f"pub {goal} : goal.{goal}\n" + (unfolding + "\n" if unfolding else "") + f"{goal} {before}{root} = {term}")
        unfolding = None
    folder = os.path.dirname(path)
    module = f"Rattle.{crate}.proofs.{rel.replace('/', '.')}"
    use = "\n".join(uses)
    answers = [re.sub(r"([{;]\s*)([a-z][\w']*(?:-[\w']+)+)(?= = )", lambda m: m.group(1) + m.group(2).replace("-", "_"), a) for a in answers]
    real = [a for a in answers if not a.startswith("--")]
    if any("(ap not " in a for a in real):
        for word, line in (("ap", "use Rattle.std.proofs.Common.{ap}"), ("not", "use Rattle.std.specs.Prelude.{not}")):
            if not re.search(rf"[{{ ,]{word}[,}}]", use):
                use += "\n" + line
    if invariants:
        open(os.path.join(folder, "Invariants.antt"), "w").write(f"{use}\nuse {module}.Given as goal\n\n" + "\n\n".join(invariants) + "\n")
    if real:
        open(os.path.join(folder, "Answers.antt"), "w").write(f"{use}\nuse {module}.Goals as goal\n\n" + grouped(answers) + "\n")
    os.remove(path)
    for line in left:
        print(f"left: {crate}/{rel}: {line}")


def grouped(items):
    """Items with a blank line between, but none between a signature and its clauses."""
    out = []
    last = None
    for item in items:
        m = re.match(r"^(?:abbrev |pub |unfoldable )*(" + NAME + r")", item)
        name = m.group(1) if m else None
        if out and not (name == last and name) and not item.startswith("unfolding") and not out[-1].startswith("--") and not out[-1].startswith("unfolding"):
            out.append("")
        out.append(item)
        if name not in ("unfolding",):
            last = name
    return "\n".join(out)


def main():
    made = json.load(open(sys.argv[1]))
    for folder in sys.argv[2:]:
        folder = os.path.abspath(folder)
        crate = os.path.basename(folder)
        near = below(os.path.dirname(folder), crate)
        contracts = {}
        for k, vs in clauses(os.path.dirname(folder)).items():
            for req, ens, c in vs:
                contracts.setdefault((c, k), (req, ens))
            for c in reversed(near):
                for req, ens, d in vs:
                    if d == c:
                        contracts[k] = (req, ens)
        every = {}
        for made_names in made.values():
            if isinstance(made_names, dict) and "params" in made_names:
                every.update({k.split("::")[-1]: v for k, v in made_names["params"].items()})
        for path in sorted(glob.glob(os.path.join(folder, "proofs", "**", "Proof.antt"), recursive=True)):
            rel = os.path.relpath(os.path.dirname(path), os.path.join(folder, "proofs"))
            start = f"Rattle-{crate}-proofs.{rel.replace('/', '.')}.Lts"
            if "/+" in "/" + rel:
                keys = [k for k in made if k.startswith(start + "-")]
                parts = [(k[len(start) + 1:], made[k]) for k in keys]
            else:
                key = start if start in made else next((k for k in made if plain(k) == plain(start)), None)
                parts = [("", made[key])] if key else []
            if not parts:
                print(f"left: {crate}/{rel}: no names")
                continue
            Function.known_params = every
            turn(path, parts, crate, rel, contracts)


if __name__ == "__main__":
    main()
