#!/usr/bin/env python3
"""Turns the proofs of an older Rattle that walk the code into invariants and answers.

usage: tools/to_answers.py CRATE NAMES.json        at the top of the repository

For each crates/CRATE/proofs/F/Proof.antt whose function stands in NAMES.json (`rt check --generated OUT --old-names` writes OUT/names.json)
it writes Answers.antt and Invariants.antt beside it and takes Proof.antt away. Needs that the check tries by itself
(`search rules`, `omega arith`, `tt`) are left out. It goes by text; the check decides.
"""
import json
import os
import re
import sys

TRIVIAL = re.compile(r"^(?:λ [^.]*\. *)?(search rules|omega arith|tt)$")
WORD = re.compile(r'[^\s(){}.;,@"«»⌜⌝]+')
BARE = re.compile(r'(?<![^\s(){};,@"«»\[\]])[^\s(){}.;,@"«»\[\]]+')


def blocks(text):
    """The declarations of a file: lists of lines, a comment and a signature with what follows them."""
    out, cur = [], []
    for line in text.split("\n"):
        if line.strip() == "":
            if cur:
                out.append(cur)
            cur = []
        else:
            cur.append(line)
    if cur:
        out.append(cur)
    return out


def joined(b):
    """A block whose signature stands on one line."""
    k = next((i for i, l in enumerate(b) if not l.startswith("--")), None)
    if k is not None and b[k].rstrip().endswith(" :") and k + 1 < len(b) and b[k + 1].startswith(" "):
        return b[:k] + [b[k].rstrip() + " " + b[k + 1].strip()] + b[k + 2 :]
    return b


def spec_args(body):
    """The arguments of tie.spec, each with the comment behind it."""
    text = body[body.index("tie.spec") + len("tie.spec") :]
    args, depth, cur = [], 0, ""
    i = 0
    while i < len(text):
        c = text[i]
        m = re.match(r"--( [^\n]*)?(?=\n|$)", text[i:])
        if m and (i == 0 or text[i - 1] in " \n\t") and depth == 0:
            if cur.strip():
                args.append([cur.strip(), ""])
                cur = ""
            if args:
                args[-1][1] = (m[1] or "").strip()
            i += m.end()
            continue
        if c in "([{":
            depth += 1
        if c in ")]}":
            depth -= 1
            if depth < 0:
                break
        if c in " \n\t" and depth == 0:
            if cur.strip():
                args.append([cur.strip(), ""])
            cur = ""
        else:
            cur += c
        i += 1
    if cur.strip():
        args.append([cur.strip(), ""])
    return args


def lam(term):
    """The parameters and the body of an inline need."""
    m = re.match(r"^\(λ ([^.]*)\.\s*(.*)\)$", term, re.S)
    if not m:
        return None, term
    return m[1].split(), m[2]


def by_place(known, order, trivial):
    """The names of all needs in the list, from those that are known, by their places between these."""
    out = list(known)
    spots = [(-1, -1)] + [(i, order.index(n)) for i, n in enumerate(known) if n in order] + [(len(known), len(order))]
    for (i, a), (j, b) in zip(spots, spots[1:]):
        between = list(range(i + 1, j))
        names = order[a + 1 : b]
        if len(between) != len(names):
            between = [k for k in between if not trivial[k]]
        if len(between) == len(names):
            for k, n in zip(between, names):
                out[k] = n
    return out


class Turn:
    def __init__(self, crate, path, entry):
        self.crate, self.path, self.entry = crate, path, entry
        self.needs = {o: n for o, n in entry["needs"]}
        self.same = {o.replace("_", "-"): n for o, n in entry["needs"]}
        self.settled = set(entry["settled"])
        self.order = [n for _, n in entry["needs"]]
        self.places = {p[0]: new for p, new in zip(entry["places"], entry["places_by_name"])}
        self.chains = self.chain_maps()
        self.all = {}
        for fields, _ in self.chains.values():
            self.all.update(fields)
        self.pairs = [q for _, pairs in self.chains.values() for q in pairs]
        self.renamed_args = {}
        for old, new in entry["args"]:
            a, b = old.split(" ."), new.split(" .")
            if len(a) == 2 and len(b) == 2:
                self.renamed_args[a[1]] = b[1]

    def chain_maps(self):
        """For each place, by its new name: the fields behind a dot that turn there, and the pairs of fields."""
        places = {p[0]: (k, p) for k, p in enumerate(self.entry["places"])}
        out = {}
        for name, (k, p) in places.items():
            fields, pairs = {}, []
            at = name
            while at is not None and at in places:
                i, q = places[at]
                step = q[2]
                # what Rattle counts by itself, `items-1`, is not cited, and may be named as a field of a struct
                if step and step[0] and step[0] not in fields and not (q[3] is None and step[1] == step[0] + "-1" and "known" not in step[0]):
                    fields[step[0]] = step[1]
                arm = self.entry["arms"][i] if i < len(self.entry["arms"]) else None
                if arm and step:
                    for new, old_step, old_fields in arm[2]:
                        pairs.append((old_step, old_fields, arm[0], new))
                at = q[1]
            out[self.entry["places_by_name"][k]] = (fields, pairs)
        return out

    def need(self, old):
        for o in (old, old.replace("overflow-", "", 1)):
            if o in self.needs:
                return self.needs[o]
            if o.replace("_", "-") in self.same:
                return self.same[o.replace("_", "-")]
        if old.startswith("nonzero-div-"):
            return old.replace("nonzero-div-", "nonzero_div-", 1)
        return None

    def turn_type(self, t):
        def place(m):
            old = m[1]
            if old.startswith("Need-"):
                new = self.need(old[5:])
                return "goal." + (new or "GONE-" + old)
            return "goal." + self.places.get(old, old)

        return re.sub(r"tie\.([^\s(){}.;,]+)((?: +(?:invariant-loop|decreases-loop)[-\w]*)*)", place, t)

    def flat(self, t):
        """A field is read where it stands: `c.before.before.args` is `c.args`."""
        t = re.sub(r"(?:\.before)+\.(?!before\b)(?=[a-zA-Z_])", ".", t)

        def let(m):
            name, rest = m[1], t[m.end() :]
            uses = re.findall(rf"(?<![\w.'-]){re.escape(name)}(?![\w'-])(\.[a-zA-Z_])?", rest)
            return f"let {name} = {m[2]} in" if uses and all(uses) else m[0]

        return re.sub(r"let (\S+) = (\w+)(?:\.before)+ in", let, t)

    def turn_fields(self, t, need=None):
        t = self.flat(t)
        at = None
        if need in self.order and self.order.index(need) < len(self.entry["asked_at"]):
            at = self.entry["asked_at"][self.order.index(need)][1]
        fields, pairs = self.chains.get(at, (self.all, self.pairs))
        new_steps = {p[2][1] for p in self.entry["places"] if p[2]}
        for old_step, old_fields, new_step, new in pairs:
            path = re.escape("." + ".".join([old_step] + old_fields))
            t = re.sub(path + (r"(?![\w'-])" if old_fields else r"(?=\.[a-z])"), f".{new_step}.{new}", t)

        def f(m):
            old = m[1]
            if old == "inv":
                return ".invariant"
            if old in ("well-formed", "type-inv"):
                return "." + old.replace("-", "_")
            if old in ("pre", "good"):
                return {"pre": ".requires", "good": ".well_formed"}[old]
            if old in self.renamed_args:
                return "." + self.renamed_args[old]
            if old.endswith("_lem") and old not in self.all and old not in new_steps:
                # the name of a step that a lemma has too
                for o in (old[:-4], old[:-4].replace("_", "-")):
                    if o in fields or o in new_steps:
                        old = o
                        break
            new = fields.get(old, old)
            if new == old and "-" in old and old not in new_steps:
                # a function's name has kept its underscores
                same = {o.replace("_", "-"): n for o, n in (*self.all.items(), *fields.items())}
                new = same.get(old, old)
                if new == old and old.replace("-", "_") in new_steps:
                    new = old.replace("-", "_")
            return "." + new

        return re.sub(r"(?<=[\w'\)-])\.([a-zA-Z][^\s(){}.;,@\"«»\]\[]*)", f, t)


def loop_text(t, name, body, comment):
    """An invariant or a measure over the record of the loop's variables."""
    kind, _, old = name.partition("-")
    for (names, variables), changed in zip(t.entry["loops"], t.entry["changed"]):
        if names[0] == old:
            break
    else:
        print("left: no loop", old, "in", t.path)
        return ""
    new = f"{kind}-{names[1]}"
    m = re.match(r"(?s)^((?:unfolding [^\n]*\n)*)\S+((?: +[^\s=]+)*) =(.*)$", body)
    params = m[2].split()
    table = {}
    moved = [v for v, c in zip(variables, changed) if c]
    for p, v, c in zip(params, variables, changed):
        table[p] = f"l.initial.{v}" if c else f"l.{v}"
    for p, v in zip(params[len(variables) :], moved):
        table[p] = f"l.{v}"
    if len(params) != len(variables) + len(moved):
        print("look:", t.path, name, "has", len(params), "parameters for", variables, changed)
    text = BARE.sub(lambda w: table.get(w[0], w[0]), m[3])
    return "\n".join(comment + [f"abbrev pub {new} : goal.{new}", f"{m[1]}{new} l ={text}"])


def run(root, crate, names):
    made = 0
    source = os.path.join(root, "crates", crate, "src")
    code = "".join(open(os.path.join(d, f), encoding="utf-8").read() for d, _, fs in os.walk(source) for f in fs)
    measured = re.search(r"\b(?:while|loop)\b", re.sub(r"//[^\n]*", "", code)) is not None
    for key, entry in sorted(names.items()):
        m = re.match(r"Rattle-(\w+)-proofs\.(.*)\.Lts$", key)
        if not m or m[1] != crate:
            continue
        folder = os.path.join(root, "crates", crate, "proofs", *m[2].split("."))
        p = os.path.join(folder, "Proof.antt")
        if not os.path.exists(p):
            continue
        text = open(p, encoding="utf-8").read()
        t = Turn(crate, m[2], entry)
        uses, decls, spec = [], [], None
        for b in blocks(text):
            if all(l.startswith(("use ", "--")) for l in b) and any(l.startswith("use ") for l in b):
                uses += b
                continue
            k = next((i for i, l in enumerate(b) if re.match(r"pub \S+[-_]spec :", l)), None)
            if k is not None:
                if b[:k]:
                    decls.append(b[:k])
                spec = "\n".join(b[k:])
                continue
            decls.append(b)
        if spec is None or "tie.spec" not in spec:
            print("left:", p, "has no tie.spec")
            continue
        args = [a for a in spec_args(spec) if not a[0].startswith(("invariant-", "decreases-"))]
        answers, invs, out = [], [], []
        renamed = {}
        for b in map(joined, decls):
            sig = next((l for l in b if not l.startswith("--")), "")
            if re.match(r"^(?:abbrev |unfoldable |pub )*(?:invariant|decreases)-[^\s:]+ *:", sig):
                invs.append(b)
                continue
            m2 = re.match(r"^(?:pub )?(\S+) : tie\.Need-([^\s(){}.;,]+)", sig)
            new = None
            if m2:
                new = t.need(m2[2])
                if new is None:
                    print("gone:", p, m2[2], "(settled)" if m2[2] in t.settled else "")
                    new = "GONE-" + m2[2]
                renamed[m2[1]] = new
            answers.append((b, m2[1] if m2 else None, new))
        # a place that a place goes back to: its fields are read where they stand
        gone = set()
        for b, name, new in answers:
            code = [l for l in b if not l.startswith("--")]
            m3 = re.match(r"^(?:abbrev |pub )*(\S+) : tie\.[^\s()]+(?: invariant-\S+| decreases-\S+)* → tie\.[^\s()]+(?: invariant-\S+| decreases-\S+)*$", code[0]) if code else None
            if m3:
                gone.add(m3[1])
        answers = [a for a in answers if not any(re.match(rf"^(?:abbrev |pub )*{re.escape(g)} :", l) for g in gone for l in a[0])]
        for b, name, new in answers:
            body = "\n".join(b)
            for g in gone:
                body = re.sub(rf"\({re.escape(g)} ([\w.]+)\)", r"\1", body)
                body = re.sub(rf"(?<![\w.'-]){re.escape(g)} (?=[a-z(])", "", body)
            if name is not None:
                rest = "\n".join([l for l in b if not l.startswith("--")][1:])
                eq = re.match(r"(?s)^\S+((?: +[^\s=]+)*) =\s*(.*)$", rest)
                cited = any(re.search(rf"(?<![\w.'-]){re.escape(name)}(?![\w'-])", "\n".join(d[0])) for d in answers if d[0] is not b)
                if eq and not cited and not rest.startswith("unfolding") and TRIVIAL.match(eq[2].strip()):
                    continue
                # the parameter of lifetimes is gone
                body = re.sub(rf"(?m)^{re.escape(name)}((?: +\S+)*?) κs\b", rf"{name}\1", body)
                body = re.sub(rf"(?m)^(?:pub )?{re.escape(name)} :", f"pub {name} :", body)
            out.append(t.turn_fields(t.turn_type(body), new))
        known = [renamed.get(a) if not a.startswith("(") else (t.need(note.split()[0]) if note else None) for a, note in args]
        place = by_place(known, t.order, [bool(TRIVIAL.match((lam(a)[1] if a.startswith("(λ") else a).strip())) for a, _ in args])
        for (a, note), new in zip(args, place):
            for g in gone:
                a = re.sub(rf"\({re.escape(g)} ([\w.]+)\)", r"\1", a)
                a = re.sub(rf"(?<![\w.'-]){re.escape(g)} (?=[a-z(])", "", a)
            if a.startswith("(λ"):
                params, term = lam(a)
                if params is None:
                    print("left:", p, "argument", a[:60])
                    continue
                if TRIVIAL.match(term.strip()):
                    continue
                if new is None:
                    print("left:", p, "no name for the need", note, a[:60])
                    continue
                params = [q for q in params if q != "κs"]
                out.append(t.turn_fields(t.turn_type(f"pub {new} : goal.{new}\n{new} {' '.join(params)} = {term}"), new))
            elif a not in renamed:
                if new is None:
                    print("look:", p, "argument", a, note)
                else:
                    out.append(t.turn_fields(t.turn_type(f"pub {new} : goal.{new}\n{new} = {a}"), new))
        final = "\n\n".join(out)
        final = re.sub(r"(\.(?:if|loop)[\w-]*)\.taken(?![\w'-])", r"\1.true", final)
        final = re.sub(r"(\.(?:if|loop)[\w-]*)\.left(?![\w'-])", r"\1.false", final)
        # the test of a negation says what the negated test says
        final = re.sub(r"not-(?:true|false) (?:_|[\w.'-]+|\([^()]*\)) (?=\w+\.if-not-)", "", final)
        for old, new in renamed.items():
            if old != new:
                final = WORD.sub(lambda m: new if m[0] == old and final[max(0, m.start() - 1)] != "." else m[0], final)
        own = f"Rattle.{crate}.proofs.{m[2]}"
        head = [u for u in uses if ".Statement.{" not in u and not re.search(r"\.Tie as tie", u)]
        if final.strip():
            with open(os.path.join(folder, "Answers.antt"), "w", encoding="utf-8") as f:
                f.write("\n".join(head + [f"use {own}.Goals as goal", "", final, ""]))
        texts = []
        for b in invs:
            comment = [l for l in b if l.startswith("--")]
            rest = [l for l in b if not l.startswith("--")]
            name = re.match(r"^(?:abbrev |unfoldable |pub )*((?:invariant|decreases)-[^\s:]+) *:", rest[0])[1]
            if name.startswith("invariant") or measured:
                texts.append(loop_text(t, name, "\n".join(rest[1:]), comment))
        if texts:
            with open(os.path.join(folder, "Invariants.antt"), "w", encoding="utf-8") as f:
                f.write("\n".join(head + [f"use {own}.Given as goal", "", "\n\n".join(texts), ""]))
        os.remove(p)
        made += 1
    print(crate, made, "turned")


if __name__ == "__main__":
    run(".", sys.argv[1], json.load(open(sys.argv[2], encoding="utf-8")))
