#!/usr/bin/env python3
"""Spells the repository's own definitions and lemmas in snake case.

usage: tools/snake_names.py [--list] [FOLDER]

FOLDER (default: the current one) has crates/. It is run once, after the kit's port.py and before any edit by hand.
A name turns if a file of specs/, or a lemma file of proofs/, declares it with a capital inside it or with a dash:
`bitsBelow` becomes `bits_below`, `mem-filter` becomes `mem_filter`. Types, modules, what Rattle makes of the source
(`loop-t-init`, `returns-2`), names imported from the kit, functions and fields of src/, strings and must-fail edits stay.
A lemma whose new name is another word's already gets `_lem`, a definition `_of`. --list prints the table and writes nothing.
"""
import os
import re
import sys

WORD = re.compile(r'[^\s(){}.;,@"«»⌜⌝⟨⟩]+')
DECLARED = re.compile(r"^ *(?:(?:pub|abbrev|unfoldable|opaque|private|inline) +)*([^\s(){}.;,@\"«»:]+(?: +[^\s(){}.;,@\"«»:=]+)*?) *:(?=\s)")
USE = re.compile(r"^(?:ghost )?use +([^\s;{]+?)\.?\{([^}]*)\}", re.M)
BARE = re.compile(r'(?<![^\s(){};,@"«»⌜⌝⟨⟩])[^\s(){}.;,@"«»⌜⌝⟨⟩]+')
PARAMETER = re.compile(r"(?:[(,|]|\blet(?: mut)?) *(\w+) *:(?!:)")
LOCAL = {"let", "use", "mod", "where", "record", "data", "elim", "in", "λ"}


def files(root):
    for folder, dirs, names in os.walk(os.path.join(root, "crates")):
        dirs[:] = sorted(d for d in dirs if d != "out")
        for n in sorted(names):
            if n.endswith((".antt", ".rt")):
                yield os.path.join(folder, n)


def is_lemma_file(path):
    steps = path.split(os.sep)
    return path.endswith(".antt") and ("specs" in steps or steps[-2] == "proofs" or steps[-1] not in ("Proof.antt", "Answers.antt", "Invariants.antt"))


def turns(name):
    return re.match(r"[a-z]", name) and (re.search(r"[A-Z]", name) or "-" in name.strip("-")) and re.fullmatch(r"[a-zA-Z0-9_'\-]+", name)


def snake(name):
    words = re.sub(r"(?<=[a-z0-9])[A-Z]", lambda m: "_" + m[0].lower(), name)
    return re.sub(r"[A-Z]", lambda m: m[0].lower(), words).replace("-", "_")


def split_comment(line):
    m = re.search(r"(?:(?<=\s)|^)(--|//)(?=\s|$)", line)
    return (line[: m.start()], line[m.start() :]) if m else (line, "")


def main(argv):
    listing = "--list" in argv
    argv = [a for a in argv if a != "--list"]
    root = argv[0] if argv else "."
    text = {p: open(p, encoding="utf-8").read() for p in files(root)}
    declared, in_specs, lemma = set(), set(), set()
    kit, imported = set(), {}
    words = set()
    for p, t in text.items():
        imported[p] = set()
        for m in USE.finditer(t):
            if p.endswith(".rt") and not m[0].startswith("ghost"):
                continue
            own = m[1].startswith("Rattle.") and os.path.isdir(os.path.join(root, "crates", m[1].split(".")[1]))
            if not own:
                for n in m[2].split(","):
                    n = n.strip().split(" as ")[0].strip()
                    if n:
                        imported[p].add(n)
                        kit.add(n)
        for line in t.split("\n"):
            code, _ = split_comment(line)
            if p.endswith(".antt") and not re.match(r" *(?:use|pub mod|mod) ", code):
                words.update(BARE.findall(code))
            elif p.endswith(".rt"):
                words.update(PARAMETER.findall(code))
            if is_lemma_file(p):
                m = DECLARED.match(code)
                if m:
                    for n in m[1].split():
                        if n in LOCAL:
                            break
                        declared.add(n)
                        if "/specs/" in p:
                            in_specs.add(n)
    table, met = {}, []
    taken = set(words)
    for n in sorted(declared, key=lambda n: (n not in in_specs, n)):
        if not turns(n):
            continue
        new = snake(n)
        if new in taken or new in kit:
            other = new + ("_of" if n in in_specs else "_lem")
            met.append((n, new, other))
            new = other
            if new in taken or new in kit:
                print("falls together:", n, new, file=sys.stderr)
                return 1
        taken.add(new)
        table[n] = new
    if listing:
        for n, new in sorted(table.items()):
            print(n, new)
        print(len(table), "names;", len(met), "fell together:", file=sys.stderr)
        for m in met:
            print("  ", *m, "kit" if m[1] in kit else "", file=sys.stderr)
        print("both own and kit:", sorted(n for n in table if n in kit), file=sys.stderr)
        return 0
    for p, t in text.items():
        def one(m):
            n = m[0]
            return table[n] if n in table and n not in imported[p] else n
        out = []
        for line in t.split("\n"):
            code, comment = split_comment(line)
            if p.endswith(".rt"):
                code = "".join(part if i % 2 else WORD.sub(one, part) for i, part in enumerate(re.split(r'(b?"(?:[^"\\]|\\.)*")', code)))
            else:
                code = WORD.sub(one, code)
            comment = re.sub(r"`[^`]*`", lambda m: WORD.sub(lambda w: one(w), m[0][1:-1]).join("``"), comment)
            comment = WORD.sub(lambda m: table[m[0]] if m[0] in table and "-" not in m[0] else m[0], comment)
            out.append(code + comment)
        new = "\n".join(out)
        if new != t:
            with open(p, "w", encoding="utf-8") as f:
                f.write(new)
    return 0


if __name__ == "__main__":
    raise SystemExit(main(sys.argv[1:]))
