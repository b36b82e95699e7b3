#!/usr/bin/env python3
"""Turns the older proofs of functions, proofs/F/Proof.antt with one list of facts, into Invariants.antt and Answers.antt.

usage: tools/to_answers.py CRATE..     at the top of the repository; the crates below CRATE prove

`rt check --generated .. --old-names` tells the name that a goal and a step had and the one that it has. An answer by `search rules` or `omega arith` alone is left out, since the check tries these itself. What could not be told is printed.
"""
import glob
import json
import os
import re
import shutil
import subprocess
import sys
import tempfile

START = re.compile(r"^((?:pub |abbrev |unfoldable )*)([^\s(){}:]+)((?:\s*\{[^}]*\}|\s*\([^()]*\))*)\s*:\s*(.*)$")
TRIVIAL = {"search rules", "omega arith", "search (rules, arith)", "omega (arith)", "search arith"}


def norm(name):
    name = name.replace("-", "_").lower()
    name = re.sub(r"^(loop\d*)_holds$", r"\1_init", name)
    name = re.sub(r"^(loop\d*)_less$", r"\1_smaller", name)
    name = re.sub(r"^(loop\d*)_again$", r"\1_preserved", name)
    name = re.sub(r"^overflow_(add|sub|mul|neg|shl|shr)_", r"\1_", name)
    return name


def depth_split(text):
    """The parts of a list of arguments, each with the comment after it."""
    parts, i, n = [], 0, len(text)
    while i < n:
        c = text[i]
        if c.isspace():
            i += 1
            continue
        if text.startswith("--", i):
            j = text.find("\n", i)
            j = n if j < 0 else j
            if parts:
                parts[-1][1] = text[i + 2 : j].strip()
            i = j
            continue
        j, depth = i, 0
        while j < n:
            if text.startswith("--", j) and depth == 0 and j > i and text[j - 1].isspace():
                break
            if text[j] in "([{":
                depth += 1
            elif text[j] in ")]}":
                depth -= 1
                if depth == 0:
                    j += 1
                    break
            elif text[j].isspace() and depth == 0:
                break
            j += 1
        parts.append([text[i:j], None])
        i = j
    return parts


def comma_split(text):
    parts, depth, at = [], 0, 0
    for i, c in enumerate(text):
        if c in "([{":
            depth += 1
        elif c in ")]}":
            depth -= 1
        elif c == "," and depth == 0:
            parts.append(text[at:i])
            at = i + 1
    parts.append(text[at:])
    return [p.strip() for p in parts]


def tuple_parts(body):
    body = body.strip()
    if not (body.startswith("(") and body.endswith(")")):
        return None
    depth = 0
    for i, c in enumerate(body):
        if c in "([{":
            depth += 1
        elif c in ")]}":
            depth -= 1
            if depth == 0 and i != len(body) - 1:
                return None
    parts = [p for p in comma_split(body[1:-1]) if p]
    return parts if len(parts) > 1 else None


def decls(text):
    """The `use` lines and comments at the head, and the declarations: (marks, name, type, unfolding lines, clauses)."""
    head, out, current = [], [], None
    for line in text.split("\n"):
        if line.startswith("use ") or line.startswith("pub use ") or (line.startswith("--") and current is None):
            head.append(line)
            continue
        if line and not line[0].isspace() and not line.startswith("--"):
            m = START.match(line)
            starts = m and m.group(2) not in ("unfolding",) and "=" not in line.split(":")[0]
            if starts and not (current and m.group(2) == current[1] and "=" in line and line.index("=") < line.index(":")):
                current = [m.group(1), m.group(2), m.group(3), m.group(4), [], []]
                out.append(current)
                continue
            if line.startswith("unfolding"):
                current[4].append(line)
                continue
            if line.startswith("module ") or line.startswith("data ") or line.startswith("record ") or line.startswith("ruleset ") or line.startswith("pub data") or line.startswith("pub record") or line.startswith("abbrev record"):
                current = ["", None, "", "", [], [line]]
                out.append(current)
                continue
        if current is not None:
            if current[5] or (line and not line[0].isspace()):
                current[5].append(line)
            else:
                current[3] += "\n" + line if line.strip() else ""
    return head, out


def clause_names(crates):
    """Of each function, by crate and path, the names of its requires and ensures, in order."""
    found = {}
    for path in glob.glob("crates/*/src/**/*.rt", recursive=True):
        crate = path.split("/")[1]
        module = os.path.relpath(path, f"crates/{crate}/src")[:-3].replace("/", "::")
        module = "" if module in ("lib", "main") else module + "::"
        text = re.sub(r"//[^\n]*", "", open(path, encoding="utf-8").read())
        impl = []
        for m in re.finditer(r"(?m)^(impl(?:<[^>]*>)?\s+(?:\w+\s+for\s+)?(\w+)[^{]*\{)|^\}|(?:^|\s)fn\s+(\w+)", text):
            if m.group(1):
                impl = [m.group(2)]
            elif m.group(0) == "}":
                impl = []
            else:
                name = m.group(3)
                # the clauses stand between the signature and the body
                rest = text[m.end():]
                req, ens = [], []
                i = rest.find("(")
                depth = 0
                j = i
                while j < len(rest):
                    if rest[j] == "(":
                        depth += 1
                    elif rest[j] == ")":
                        depth -= 1
                        if depth == 0:
                            break
                    j += 1
                j += 1
                while True:
                    k = re.compile(r"\s*(?:->\s*[^{]*?)?(?=\s*(?:requires|ensures|ghost|where|\{))").match(rest, j)
                    if not k:
                        break
                    j = k.end()
                    w = re.compile(r"\s*(requires|ensures)\*?\s*(\w+)?\s*\{").match(rest, j)
                    if not w:
                        break
                    (req if w.group(1) == "requires" else ens).append(w.group(2))
                    j = w.end() - 1
                    depth = 0
                    while j < len(rest):
                        if rest[j] == "{":
                            depth += 1
                        elif rest[j] == "}":
                            depth -= 1
                            if depth == 0:
                                break
                        j += 1
                    j += 1
                signature = rest[i : rest.find("{", i)]
                signature = re.split(r"\brequires\b|\bensures\b", signature)[0]
                params = re.findall(r"(?:^|[(,])\s*(?:&\s*(?:mut\s+)?)?(?:mut\s+)?(self|\w+(?=\s*:))", signature)
                LENT[f"{crate}::{module}{impl[0] + '::' if impl else ''}{name}"] = params
                found[f"{crate}::{module}{impl[0] + '::' if impl else ''}{name}"] = (req, ens)
    return found


def through(names, fields):
    """The path of a fact in nested pairs, by the names of the clauses."""
    if len(names) < 2:
        return fields
    k = 0
    while k < len(names) - 1:
        if not fields:
            return None
        if fields[0] == "0":
            return [names[k]] + fields[1:]
        if fields[0] != "1":
            return None
        fields = fields[1:]
        k += 1
    return [names[-1]] + fields


def bare(body):
    """The term without brackets round the whole of it."""
    body = body.strip()
    while body.startswith("(") and body.endswith(")"):
        depth = 0
        for i, c in enumerate(body):
            depth += (c in "([{") - (c in ")]}")
            if depth == 0 and i != len(body) - 1:
                return body
        if len(comma_split(body[1:-1])) > 1:
            return body
        body = body[1:-1].strip()
    return body


def after_lets(body):
    """What the term binds first, and what follows."""
    depth, last = 0, None
    for m in re.finditer(r"[(\[{]|[)\]}]|(?<![\w.'-])in(?![\w'-])", body):
        g = m.group(0)
        if g == "in":
            if depth == 0:
                last = m.end()
        else:
            depth += 1 if g in "([{" else -1
    if body.startswith("let ") and last:
        return body[:last], body[last:].strip()
    return "", body


def record_of(names, body):
    if len(names) < 2:
        return body
    lets, rest = after_lets(bare(body))
    lets = lets + " " if lets else ""
    parts = []
    for k in range(len(names) - 1):
        t = tuple_parts(rest)
        if t is None or (len(t) != 2 and len(t) != len(names) - k):
            break
        if len(t) == len(names) - k and (len(t) > 2 or k == len(names) - 2):
            parts += t
            rest = None
            break
        parts.append(t[0])
        rest = t[1]
    if rest is not None:
        left = names[len(parts) :]
        if len(left) == 1:
            parts.append(rest)
        elif re.match(r"search |omega|grind|cc\b", rest):
            parts += [rest] * len(left)
        else:
            lets += f"let h = {rest} in "
            for k in range(len(left)):
                parts.append("h" + ".1" * k + (".0" if k < len(left) - 1 else ""))
    return lets + "record { " + "; ".join(f"{n} = {p}" for n, p in zip(names, parts)) + " }"


NEGATED = set()
LENT = {}


def negated_laws():
    """The laws that take the equation of a test turned round."""
    for path in glob.glob("crates/*/proofs/*.antt"):
        for d in decls(open(path, encoding="utf-8").read())[1]:
            if d[1] and re.search(r"(?<![\w.-])not [\w'.-]+ ≡ (true|false)", d[3]):
                NEGATED.add(d[1])
        for m in re.finditer(r"(?m)^\s+(?:pub )?([\w'-]+) : .*(?<![\w.-])not [\w'.-]+ ≡ (?:true|false)", open(path, encoding="utf-8").read()):
            NEGATED.add(m.group(1))


def head_of(text, at):
    """The function to which the term that begins at `at` is an argument."""
    depth, i = 0, at - 1
    while i >= 0:
        if text[i] in ")]}":
            depth += 1
        elif text[i] in "([{":
            if depth == 0:
                break
            depth -= 1
        elif depth == 0 and text[i] in ",=∙":
            break
        i -= 1
    m = re.match(r"\s*(?:sym |search |simp )?([^\s()]+)", text[i + 1 : at])
    return m.group(1) if m else ""


PATH = re.compile(r"(?<![\w.])c((?:\.[^\s().,;\]\[{}]+)+)")


class Function:
    def __init__(self, crate, where, made, clauses, said):
        self.lent = LENT
        self.crate, self.where, self.made, self.clauses, self.said = crate, where, made, clauses, said
        self.negated = set()
        self.places = {p[0]: p for p in made["places"]}
        self.arms = {p[0]: a for p, a in zip(made["places"], made["arms"])}
        self.key = crate + "::" + os.path.relpath(where, f"crates/{crate}/proofs").replace("/", "::")

    def chain(self, place):
        out = []
        while place is not None and place in self.places:
            out.append(self.places[place])
            place = self.places[place][1]
        return out

    def body(self, text, need, asked):
        chain = self.chain(asked)
        # names for an earlier `c`: every step is a field of `c` now
        alias = {"c"}
        while True:
            m = next((m for m in re.finditer(r"let ([\w']+) = ([\w']+)(?:\.before)* in[ \n]*", text) if m.group(2) in alias), None)
            if m is None:
                break
            alias.add(m.group(1))
            text = text[: m.start()] + text[m.end() :]
        alias.discard("c")
        for name in alias:
            text = re.sub(r"(?<![\w.'-])" + name + r"\.", "c.", text)
            if re.search(r"(?<![\w.'-])" + name + r"(?![\w'-])", text):
                self.said.append(f"{self.key}: {need}: {name} stands alone")
        everywhere = list(self.places.values())

        def turn(m):
            fields = m.group(1)[1:].split(".")
            while fields and fields[0] == "before":
                fields = fields[1:]
            if not fields:
                return m.group(0)
            if fields[0] == "args":
                fields[1:2] = [fields[1].replace("-", "_")] if len(fields) > 1 else []
                if len(fields) > 1 and re.fullmatch(r"t\d+", fields[1]):
                    # the copy that an older Rattle passed on
                    fields[1] = {"t2": "looks"}.get(fields[1], "inputs")
                return "c." + ".".join(fields)
            if fields[0] in ("requires",):
                req = self.clauses.get(self.key, ([], []))[0]
                rest = through(req, fields[1:])
                if rest is None:
                    self.said.append(f"{self.key}: {need}: {m.group(0)}")
                    rest = fields[1:]
                return "c." + ".".join(["requires"] + rest)
            if fields[0] == "well-formed":
                return "c." + ".".join(["well_formed"] + fields[1:])
            step = norm(fields[0])
            if step.endswith("_law") and not any(norm(p[2][0]) == step for p in everywhere):
                step = step[: -len("_law")]
            for group in (chain, everywhere):
                for p in group:
                    arm = self.arms.get(p[0])
                    for field, own, path in arm[2] if arm else []:
                        if norm(own) == step and path and fields[1 : 1 + len(path)] == path:
                            return "c." + ".".join([arm[0], field] + fields[1 + len(path) :])
            for group in (chain, everywhere):
                for p in group:
                    if norm(p[2][0]) == step:
                        rest = fields[1:]
                        if len(rest) > 1 and rest[0] in ("new", "auto") and p[3] and rest[1] in ("0", "1"):
                            lent = self.lent.get(p[3], [])
                            k = 0
                            while rest[1 + k : 2 + k] == ["1"]:
                                k += 1
                            if rest[1 + k : 2 + k] == ["0"] and k < len(lent):
                                rest = [rest[0], lent[k]] + rest[2 + k :]
                            else:
                                self.said.append(f"{self.key}: {need}: {m.group(0)} of {lent}")
                        if rest and rest[0] == "ensures" and p[3]:
                            ens = self.clauses.get(p[3], ([], []))[1]
                            r = through(ens, rest[1:])
                            if r is None:
                                self.said.append(f"{self.key}: {need}: {m.group(0)}")
                                r = rest[1:]
                            rest = ["ensures"] + r
                        new = "c." + ".".join([p[2][1]] + rest)
                        if re.match(r"(if-|loop-\S*)not-", p[2][1]) and rest in (["true"], ["false"]) and head_of(text, m.start()) in NEGATED:
                            wrap = "not_from_false" if rest == ["true"] else "not_from_true"
                            self.negated.add(wrap)
                            return f"({wrap} _ {new})"
                        return new
            self.said.append(f"{self.key}: {need}: no step {m.group(0)}")
            return "c." + ".".join(fields)

        text = PATH.sub(turn, text)
        text = re.sub(r"(?<![\w.'-])args\.t\d+(?!\w)", "args.inputs", text)
        # a call's test that is turned round tells what it turns round
        facts = {p[2][1] for p in everywhere if ["fact", "true"] in p[4] or ["fact", "false"] in p[4]}
        return re.sub(
            r"not-(?:true|false) \S+ c\.([^\s.]*)\.(true|false)(?![\w.-])",
            lambda m: f"c.{m.group(1)}.{m.group(2)}" if m.group(1) in facts else m.group(0),
            text,
        )

    def run(self):
        path = os.path.join(self.where, "Proof.antt")
        text = open(path, encoding="utf-8").read()
        head, all_of = decls(text)
        name = os.path.basename(self.where)
        loops, measures, needs, helpers, spec = [], [], {}, [], None
        for d in all_of:
            marks, dname, params, typ, unfolding, body = d
            t = typ.strip()
            if dname and re.match(r"tie\.invariant-loop", t):
                loops.append(d)
            elif dname and re.match(r"tie\.decreases", t):
                measures.append(d)
            elif dname and re.match(r"tie\.Need-", t):
                needs[dname] = d
            elif dname and "tie.close" in "\n".join(body):
                spec = d
            else:
                helpers.append(d)
        if spec is None:
            self.said.append(f"{self.key}: no tie.close: by hand")
            return
        body = "\n".join(spec[5])
        m = re.search(r"tie\.spec\b", body)
        i = m.end()
        depth, j = 0, i
        while j < len(body):
            if body[j] in "([{":
                depth += 1
            elif body[j] in ")]}":
                if depth == 0:
                    break
                depth -= 1
            j += 1
        tail = body[j:]
        # a comment behind the last part stands before the closing bracket or behind it
        args = depth_split(body[i:j])
        c = re.search(r"--\s*(\S+)", tail)
        if args and args[-1][1] is None and c:
            args[-1][1] = c.group(1)
        own = {d[1] for d in loops + measures}
        rest = [a for a in args if a[0] not in own]
        answers = []
        for term, comment in rest:
            unf = []
            if term in needs:
                d = needs[term]
                lines = d[5]
                first = lines[0]
                mm = re.match(re.escape(term) + r"\s+([^=]*?)\s*=(.*)$", first, re.S)
                if not mm:
                    mm2 = re.match(re.escape(term) + r"\s*=(.*)$", first, re.S)
                    if not mm2:
                        self.said.append(f"{self.key}: {term}: not read")
                        continue
                    pars, first_body = "", mm2.group(1)
                else:
                    pars, first_body = mm.group(1), mm.group(2)
                text_of = "\n".join([first_body] + lines[1:]).rstrip()
                label = re.match(r"\s*tie\.Need-(\S+)", d[3]).group(1)
                unf = d[4]
            else:
                mm = re.match(r"^\(λ ([^.]*)\. (.*)\)$", term, re.S)
                unf = spec[4]
                if mm:
                    pars, text_of, label = mm.group(1), " " + mm.group(2), comment or "?"
                else:
                    pars, text_of, label = None, term, comment or "?"
            answers.append((label, pars, text_of, unf))
        new = self.made["needs"]
        asked = [a[0] for a in self.made["asked_at"]]
        olds = [norm(n[0]) for n in new]
        labels = [norm(a[0]) for a in answers]
        picked = {}
        if len(answers) == len(new):
            order = list(range(len(new)))
            if sorted(labels) == sorted(olds) and len(set(olds)) == len(olds):
                order = [olds.index(l) for l in labels]
            for a, k in zip(answers, order):
                picked[k] = a
        else:
            for a, l in zip(answers, labels):
                if l in olds and olds.index(l) not in picked:
                    picked[olds.index(l)] = a
                elif a[2].strip() not in TRIVIAL:
                    self.said.append(f"{self.key}: {a[0]} has no goal now: {a[2].strip()[:100]}")
        out = []
        for k in sorted(picked):
            label, pars, text_of, unf = picked[k]
            goal = new[k][1]
            if text_of.strip() in TRIVIAL and not (unf and re.search(r"^returns|requires|^loop", goal)):
                continue
            if pars is None:
                out.append(f"pub {goal} : goal.{goal}\n{goal} = {text_of}\n")
                self.said.append(f"{self.key}: {goal}: no λ")
                continue
            pars = pars.split()
            pars = [p for p in pars if p != "κs"]
            b = self.body(text_of, goal, asked[k])
            if goal == "returns" or goal.startswith("returns-"):
                ens = self.clauses.get(self.key, ([], []))[1]
                r = record_of(ens, b.strip())
                if r is None:
                    pass
                else:
                    b = " " + r if len(ens) > 1 else b
            m2 = re.match(r"(.*)-requires(-.*)?$", goal)
            if m2:
                callee = next((p[3] for p in self.places.values() if p[3] and p[2][1] == m2.group(1)), None)
                if callee is None:
                    f = [p[3] for p in self.places.values() if p[3] and p[3].split("::")[-1] == m2.group(1).split("-")[0]]
                    callee = f[0] if f else None
                if callee:
                    req = self.clauses.get(callee, ([], []))[0]
                    if len(req) > 1:
                        r = record_of(req, b.strip())
                        if r is not None:
                            b = " " + r
            u = "".join(x + "\n" for x in unf)
            out.append(f"pub {goal} : goal.{goal}\n{u}{goal} {' '.join(pars)} ={b}\n")
        inv = []
        names = self.made["loops"]
        for group, word in ((loops, "invariant"), (measures, "decreases")):
            for d in group:
                old = re.match(r"\s*tie\." + word + r"-(\S+)", d[3]).group(1)
                at = [x for x in names if x[0][0] == old]
                if not at:
                    self.said.append(f"{self.key}: no loop {old}")
                    continue
                new_name = at[0][0][1]
                first = d[5][0]
                mm = re.match(re.escape(d[1]) + r"\s+([^=]*?)\s*=(.*)$", first, re.S)
                pars, b = mm.group(1).split(), "\n".join([mm.group(2)] + d[5][1:]).rstrip()
                live = at[0][1]
                changed = self.made["changed"][names.index(at[0])]
                again = [v for v, c in zip(live, changed) if c]
                if len(pars) == len(live) + len(again):
                    values = ["l.initial." + v if c else "l." + v for v, c in zip(live, changed)] + ["l." + v for v in again]
                else:
                    self.said.append(f"{self.key}: {old}: other variables: {pars} {live} {changed}")
                    values = ["l.initial." + p[:-1] if p.endswith("₀") else "l." + p for p in pars]
                b = put(b, dict(zip(pars, values)))
                if word == "decreases" and re.fullmatch(r"\s*\S+ - l\.\w+", b):
                    pass
                inv.append(f"abbrev pub {word}-{new_name} : goal.{word}-{new_name}\n{word}-{new_name} l ={b}\n")
        module = f"Rattle.{self.crate}.proofs." + os.path.relpath(self.where, f"crates/{self.crate}/proofs").replace("/", ".")
        comments = [h for h in head if h.startswith("--")]
        uses = [h for h in head if h.startswith("use ") and f"{module}.Statement" not in h and f"{module}.Tie" not in h]
        extra = "\n".join(
            "\n".join(([f"{d[0]}{d[1]}{d[2]} : {d[3]}"] if d[1] else []) + d[4] + d[5]).rstrip() + "\n" for d in helpers
        )

        def write(file, blocks, which):
            target = os.path.join(self.where, file)
            if not blocks:
                return
            content = "\n".join(blocks)
            kept = []
            negated = [f"use Rattle.std.proofs.lemmas.Bool.{{{', '.join(sorted(n for n in self.negated if used(n, content)))}}}"] if any(used(n, content) for n in self.negated) else []
            for u in uses:
                mm = re.match(r"use ([^{]+)\.\{(.*)\}\s*$", u)
                if mm:
                    items = [x.strip() for x in mm.group(2).split(",")]
                    keep = [x for x in items if used(x.split(" as ")[-1], content)]
                    if keep:
                        kept.append(f"use {mm.group(1)}.{{{', '.join(keep)}}}")
                else:
                    kept.append(u)
            open(target, "w", encoding="utf-8").write(
                "\n".join(comments + kept + negated + [f"use {module}.{which} as goal", "", content]).rstrip() + "\n"
            )

        write("Invariants.antt", inv, "Given")
        write("Answers.antt", ([extra] if extra.strip() and any(used(d[1], "\n".join(out)) for d in helpers if d[1]) else []) + out, "Goals")
        os.remove(path)


def put(text, values):
    """The term with values for names, but for names that a λ binds."""
    bound = []
    for m in re.finditer(r"λ ([^.]*)\.", text):
        depth, i = 0, m.end()
        while i < len(text):
            depth += (text[i] in "([{") - (text[i] in ")]}")
            if depth < 0:
                break
            i += 1
        for n in re.findall(r"[^\s():]+", re.sub(r":[^)]*", "", m.group(1))):
            bound.append((m.start(), i, n))

    def turn(m):
        n = m.group(0)
        if n not in values or any(a <= m.start() < b and n == x for a, b, x in bound):
            return n
        return values[n]

    return re.sub(r"(?<![^\s(){}\[\],;λ])[^\s(){}\[\],;.]+", turn, text)


def used(name, content):
    if name.startswith("◌") or "◌" in name:
        sign = name.replace("◌", " ").split()
        return all(s in content for s in sign)
    return re.search(r"(?<![\w'.-])" + re.escape(name) + r"(?![\w'-])", content) is not None


def main(crates):
    clauses = clause_names(crates)
    negated_laws()
    for crate in crates:
        top = tempfile.mkdtemp()
        made = os.path.join(top, "names")
        r = subprocess.run(["rt", "check", "--generated", made, "--old-names"], cwd=f"crates/{crate}", capture_output=True, text=True)
        file = os.path.join(made, "names.json")
        if not os.path.exists(file):
            print(crate, "no names:", [l for l in (r.stdout + r.stderr).split("\n") if "error" in l][:3])
            continue
        names = json.load(open(file))
        shutil.rmtree(top)
        said = []
        for path in sorted(glob.glob(f"crates/{crate}/proofs/**/Proof.antt", recursive=True)):
            where = os.path.dirname(path)
            key = f"Rattle-{crate}-proofs." + os.path.relpath(where, f"crates/{crate}/proofs").replace("/", ".")
            match = [k for k in names if k.startswith(key + ".") and k.count(".") == key.count(".") + 1]
            if not match:
                said.append(f"{where}: no names for {key}")
                continue
            Function(crate, where, names[match[0]], clauses, said).run()
        for s in said:
            print("left:", s)
    return 0


if __name__ == "__main__":
    raise SystemExit(main(sys.argv[1:]))
