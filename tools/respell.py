#!/usr/bin/env python3
"""Respells this repository's own definitions and lemmas as today's Rattle spells names; run once, after port.py.

usage: tools/respell.py [--check] ROOT

Words are in snake case, types, modules and constructors keep their capitals; a dash stays where it joins two names (a type or
a definition on the left, a definition on the right) and is an underscore elsewhere. A word is turned in a file only where the
file declares it, imports it from a crate of this repository, or has it behind a dot as a field. The code of src/ is left alone:
only clauses and ghost items there are turned. --check writes nothing and prints the table and names that would fall together.
"""
import os
import re
import sys

WORD = re.compile(r"[^\s(){}.;,@\"«»]+")
DECLARED = re.compile(r"^( *)((?:(?:abbrev|pub|unfoldable|data|record)\s+)*)([^\s(){}.;,@\"«»]+)((?: \{[^{}\n]*\}| \([^()\n]*\))*) :(?= |$)")
USE = re.compile(r"^(?:ghost )?(?:pub )?use (Rattle\.([a-z_0-9]+)\.[^\s{;]*?)\.\{([^}]*)\}", re.M)
OTHER = re.compile(r"^(?:ghost )?(?:pub )?use ((?!Rattle\.)[^\s{;]+|Rattle\.[a-z_0-9]+\.[^\s{;]*?)\.\{([^}]*)\}", re.M)
NOT_NAMES = {"where", "let", "in", "use", "unfolding", "module", "infix", "infixl", "infixr"}
STD = set("length take drop set get_or map reverse append and or not suc zero true false min max leb ltb eqb".split())
# Names that would fall together with another, and what they are called.
CHOSEN = {
    "at_last": "at_last_lem",
    "empty-root": "empty_root_lem",
    "end_fits": "end_fits_lem",
    "first-pair": "first_pair_lem",
    "in_pairs": "in_pairs_lem",
    "in-range": "in_range_lem",
    "last-in": "last_in_lem",
    "last_row": "last_row_lem",
    "limit-of": "limit_of_lem",
    "no-entries": "no_entries_lem",
    "no-leaf": "no_leaf_lem",
    "walk_from": "walk_from_lem",
}


def texts(root, ends=(".antt", ".rt")):
    for folder, dirs, files in os.walk(os.path.join(root, "crates")):
        dirs[:] = sorted(d for d in dirs if d != "out")
        for f in sorted(files):
            if f.endswith(ends):
                yield os.path.join(folder, f)


def read(path):
    with open(path, encoding="utf-8") as f:
        return f.read()


def is_walk(path):
    return os.path.basename(path) == "Proof.antt"


def declared_in(text):
    """The names that a file declares; a field or a nested declaration is one too."""
    names = set()
    for line in text.splitlines():
        m = DECLARED.match(line)
        if m and m[3] not in NOT_NAMES and not m[3].startswith("--"):
            names.add(m[3])
    return names


def in_snake(word):
    return re.sub(r"(?<=[a-z0-9])([A-Z])", lambda m: "_" + m[1].lower(), word)


def table(root):
    names, fields, by_file = set(), set(), {}
    for path in texts(root, (".antt",)):
        if is_walk(path):
            continue
        t = read(path)
        own = declared_in(t)
        by_file[path] = own
        names |= own
        inside = 0
        for line in t.splitlines():
            m = re.match(r"^( *)(?:abbrev )?(?:pub )?record ", line)
            if m:
                inside = len(m[1]) + 2
                continue
            d = DECLARED.match(line)
            if inside and d and len(d[1]) == inside:
                fields.add(d[3])
            elif line.strip() and not line.startswith(" " * inside if inside else "\0"):
                inside = 0
    known = {in_snake(n) for n in names if "-" not in n and re.match(r"[a-z]", n)} | STD
    types = {n for n in names if re.match(r"[A-Z]", n)}
    rows = {}
    for n in sorted(names):
        if n in CHOSEN:
            rows[n] = CHOSEN[n]
            continue
        if re.match(r"[A-Z]", n) or not re.match(r"[a-z]", n):
            continue
        parts = [in_snake(p) for p in n.split("-")]
        new = parts[0]
        for p in parts[1:]:
            last = re.split(r"-", new)[-1]
            joins = last in known and (p in known or p in types)
            new += ("-" if joins else "_") + p
        if new != n:
            rows[n] = new
    return rows, fields, by_file


def imported(text):
    ours, others = set(), set()
    for m in USE.finditer(text):
        names = [x.strip().split(" as ")[0] for x in m[3].split(",")]
        (ours if m[2] in CRATES else others).update(names)
    for m in OTHER.finditer(text):
        if not (m[1].startswith("Rattle.") and m[1].split(".")[1] in CRATES):
            others.update(x.strip().split(" as ")[0] for x in m[2].split(","))
    return ours, others


CLAUSE = re.compile(r"(?:requires|ensures|ghost)\s*\*?\s*(?:[\w]+\s*)?(?::\s*|=\s*)?\{")


def clause_spans(text):
    """Where the clauses and the ghost use items of a source file lie."""
    spans = [m.span() for m in re.finditer(r"^ghost use [^;]*;", text, re.M)]
    for m in CLAUSE.finditer(text):
        line = text.rfind("\n", 0, m.start()) + 1
        if "//" in text[line : m.start()]:
            continue
        i, depth = m.end(), 1
        while depth:
            depth += {"{": 1, "}": -1}.get(text[i], 0)
            i += 1
        spans.append((m.end(), i - 1))
    return sorted(spans)


def turned(text, rows, here, fields):
    def word(m):
        w = m[0]
        if w not in rows:
            return w
        behind = m.start() > 0 and text[m.start() - 1] == "."
        if behind:
            return rows[w] if w in fields or w in here or qualified(text, m.start()) else w
        return rows[w] if w in here else w

    return WORD.sub(word, text)


def qualified(text, at):
    """Whether the dot before this place follows a module or an alias: a word in upper camel case."""
    m = re.search(r"([^\s(){},;@\"]+)\.$", text[:at])
    return bool(m) and re.match(r"[A-Z]", m[1].split(".")[-1]) is not None


def main(argv):
    global CRATES
    check = "--check" in argv
    root = [a for a in argv if not a.startswith("--")][0]
    CRATES = set(os.listdir(os.path.join(root, "crates")))
    rows, fields, by_file = table(root)
    met = {}
    for old, new in rows.items():
        met.setdefault(new, []).append(old)
    if check:
        every = {n for own in by_file.values() for n in own}
        for new, olds in sorted(met.items()):
            if len(olds) > 1 or new in every:
                print("meets:", new, "<-", *olds, "(declared already)" if new in every else "")
    for path in texts(root):
        t = read(path)
        ours, others = imported(t)
        here = (by_file.get(path, set()) | ours) - others
        if path.endswith(".antt"):
            new = turned(t, rows, here, fields)
        else:
            new, at = "", 0
            for a, b in clause_spans(t):
                new += t[at:a] + turned(t[a:b], rows, here, fields)
                at = b
            new += t[at:]
        if check:
            words = set(WORD.findall(t if path.endswith(".antt") else " ".join(t[a:b] for a, b in clause_spans(t))))
            for old in sorted(words & here & set(rows)):
                if rows[old] in words:
                    print(f"falls together in {path[len(root) + 1 :]}: {old} -> {rows[old]}")
        elif new != t:
            with open(path, "w", encoding="utf-8") as f:
                f.write(new)
    if "--table" in argv:
        for old in sorted(rows):
            print(f"{old}\t{rows[old]}")
    return 0


if __name__ == "__main__":
    raise SystemExit(main(sys.argv[1:]))
