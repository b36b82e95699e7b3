#!/usr/bin/env python3
"""Gives the repository's own definitions, lemmas and record fields the spelling of today's Rattle: words in snake case, types and modules in camel case.

usage: tools/respell.py [--dry]      at the top of the repository, once, after port.py

A name is one that a file of crates/*/specs or a lemma file of crates/*/proofs declares.
Names of functions, types, constants and fields of src/ stay. In a .rt file only ghost lines and clauses are read; in an .antt file every word but those behind the record of a generated proof.
"""
import collections
import glob
import os
import re
import sys

# Characters that no name has.
WORD = re.compile(r"[^\s(){}\[\],;.:\"`\\|@]+")
DECL = re.compile(r"^([ \t]*)((?:(?:pub|abbrev|unfoldable|record|data|ruleset|irreducible)\s+)*)([^\s(){}\[\],;:=.]+)((?:\s*\{[^}]*\}|\s*\([^()]*(?:\([^()]*\)[^()]*)*\))*)\s*:(?!:)(.*)$")
GREEK = {"λ", "→", "×", "≡", "◌", "∷"}

# Names whose spelling by rule falls on another name, or on a name of src/, with the one taken instead.
INSTEAD = {
    "lagMs": "lag_in_ms",
    "lastLag": "last_lag_of",
    "lateEvents": "late_events_of",
    "smallOf": "small_of_number",
    "late_slot": "late_slot_law",
    "no_key": "no_key_law",
    "same_key": "same_key_law",
    "same_flow": "same_flow_law",
    "getD-greatest": "get_or_greatest",
    "getD-padded": "get_or_padded",
    "getD-set-rule": "get_or_set_rule",
    "L-long": "l_long",
    "P-at": "p_at",
    "T-long": "t_long",
}


def snake(name):
    prime = ""
    while name.endswith("'"):
        name, prime = name[:-1], prime + "'"
    parts = []
    for part in re.split(r"[-_]", name):
        part = re.sub(r"(?<=[a-z0-9])(?=[A-Z])", "_", part)
        part = re.sub(r"(?<=[A-Z])(?=[A-Z][a-z])", "_", part)
        parts.append(part.lower() if re.search(r"[a-z]", part) or "_" in part or len(parts) else part)
    return "_".join(parts) + prime


def camel(name):
    return "".join(p[:1].upper() + p[1:] for p in re.split(r"[-_]", name))


def declared(paths):
    """Each declared name, whether some declaration of it gives a type, and where."""
    found = collections.defaultdict(list)
    for path in paths:
        text = open(path, encoding="utf-8").read()
        lines = text.split("\n")
        for i, line in enumerate(lines):
            code = line.split("--")[0] if "--" in line else line
            m = DECL.match(code)
            if not m:
                continue
            name = m.group(3)
            if name in ("module", "use", "where", "unfolding", "elim", "let", "record", "λ", "open", "mod"):
                continue
            rest = m.group(5)
            j = i + 1
            while j < len(lines) and lines[j].startswith(m.group(1) + "    ") and not lines[j].strip().startswith("--"):
                rest += " " + lines[j].strip()
                j += 1
            result = rest.split("→")[-1].strip() if "→" in rest else rest.strip()
            gives_type = bool(re.match(r"^Type( \d+| ℓ)?( where)?$", result)) and "record" not in m.group(2) and "data" not in m.group(2)
            found[name].append((path, gives_type))
    return found


def renames(rust):
    paths = sorted(glob.glob("crates/*/specs/**/*.antt", recursive=True)) + sorted(glob.glob("crates/*/proofs/*.antt"))
    found = declared(paths)
    to = {}
    for name, places in found.items():
        if name.startswith("◌") or not re.match(r"^[A-Za-z]", name):
            continue
        if all(t for _, t in places):
            new = camel(name) if not re.match(r"^[A-Z][A-Za-z0-9]*'*$", name) else name
        elif any(t for _, t in places):
            print("both a type and not:", name, places)
            new = name
        elif re.match(r"^[A-Z][A-Za-z0-9]*'*$", name):
            new = name
        else:
            new = snake(name)
        new = INSTEAD.get(name, new)
        if new != name:
            to[name] = new
    # A law that is spelled as the definition of which it speaks, or as a name of src/, says that it is the law.
    taken = collections.defaultdict(set)
    for name in found:
        taken[to.get(name, name)].add(name)
    for name in list(to):
        new = to[name]
        if "-" in name and (new in rust or len(taken[new]) > 1):
            to[name] = new + "_law"
    return to, found


def turn_antt(text, to, proof):
    out = []
    for line in text.split("\n"):
        if line.startswith("use ") or line.startswith("pub use "):
            head, brace, rest = line.partition("{")
            # a path of modules is left, its last word may be an item
            out.append(head + brace + WORD.sub(lambda m: to.get(m.group(0), m.group(0)), rest))
            continue
        out.append(turn_words(line, to, proof))
    return "\n".join(out)


def turn_words(line, to, proof):
    done, at = [], 0
    root = None
    for m in WORD.finditer(line):
        done.append(line[at:m.start()])
        word = m.group(0)
        dotted = m.start() > 0 and line[m.start() - 1] == "." and m.start() > 1 and not line[m.start() - 2].isspace()
        if not dotted:
            root = word
        new = to.get(word, word)
        if dotted and proof and root in ("c", "l", "w", "tie", "goal") and word not in FIELDS:
            new = word
        done.append(new)
        at = m.end()
    done.append(line[at:])
    return "".join(done)


FIELDS = set()


def fields(paths):
    """Names that stand as fields of a record of specs/ or proofs/."""
    for path in paths:
        inside = None
        for line in open(path, encoding="utf-8").read().split("\n"):
            m = re.match(r"^(\s*)(?:pub\s+)?record\s+\S+.*where\s*$", line)
            if m:
                inside = len(m.group(1))
                continue
            if inside is not None:
                if line.strip() and len(line) - len(line.lstrip()) <= inside:
                    inside = None
                else:
                    f = re.match(r"^\s*(?:pub\s+)?([^\s:]+)\s*:", line)
                    if f:
                        FIELDS.add(f.group(1))


def clauses(text):
    """The spans of a .rt file that are ghost: `ghost use` items, clauses, ghost fields."""
    spans = []
    for m in re.finditer(r"ghost use [^;]*;", text):
        spans.append((m.start(), m.end()))
    for m in re.finditer(r"(?<![\w/])(requires|ensures|ghost)\*?(?:\s+\w+\s*:?)?\s*\{", text):
        depth, i = 0, m.end() - 1
        while i < len(text):
            if text[i] == "{":
                depth += 1
            elif text[i] == "}":
                depth -= 1
                if depth == 0:
                    break
            i += 1
        spans.append((m.end(), i))
    return sorted(spans)


def turn_rt(text, to):
    out, at = [], 0
    for a, b in clauses(text):
        if a < at:
            continue
        out.append(text[at:a])
        out.append(turn_antt(text[a:b], to, False) if text.startswith("ghost use", a) is False else turn_use(text[a:b], to))
        at = b
    out.append(text[at:])
    return "".join(out)


def turn_use(item, to):
    head, brace, rest = item.partition("{")
    return head + brace + WORD.sub(lambda m: to.get(m.group(0), m.group(0)), rest)


def of_src():
    """The names that src/ gives to parameters, fields and variables with a type."""
    rust = set()
    for path in glob.glob("crates/*/src/*.rt"):
        text = open(path, encoding="utf-8").read()
        ghost = clauses(text)
        plain, at = [], 0
        for a, b in ghost:
            if a >= at:
                plain.append(text[at:a])
                at = b
        plain.append(text[at:])
        plain = re.sub(r"//.*", "", "".join(plain))
        rust |= set(re.findall(r"(?:\blet (?:mut )?|[(,]\s*(?:mut )?|^\s*(?:pub )?)([a-z_][a-z0-9_]*)\s*:", plain, re.M))
    return rust


def main(dry):
    rust = of_src()
    to, found = renames(rust)
    every = sorted(glob.glob("crates/*/specs/**/*.antt", recursive=True)) + sorted(glob.glob("crates/*/proofs/**/*.antt", recursive=True))
    fields([p for p in every])
    fell = collections.defaultdict(set)
    for path in every + sorted(glob.glob("crates/*/src/*.rt")):
        text = open(path, encoding="utf-8").read()
        if path.endswith(".rt"):
            text = "\n".join(text[a:b] for a, b in clauses(text))
        text = re.sub(r"--.*", "", text)
        text = re.sub(r"(?m)^((?:pub |ghost )?use )[^{;\n]*", "use ", text)
        seen = collections.defaultdict(set)
        for w in set(WORD.findall(text)):
            seen[to.get(w, w)].add(w)
        for new, olds in seen.items():
            if len(olds) > 1:
                fell[(new, tuple(sorted(olds)))].add(path)
    for (new, olds), where in sorted(fell.items()):
        print("fall together:", new, olds, len(where), sorted(where)[:3])
    for old, new in sorted(to.items()):
        if new in rust and new != old:
            print("a name of src/:", old, new)
    if dry:
        for old, new in sorted(to.items()):
            if not (re.match(r"^[a-z0-9-]+$", old) and new == old.replace("-", "_")):
                print("   ", old, new)
        print(len(to))
        return 0
    for path in every:
        text = open(path, encoding="utf-8").read()
        new = turn_antt(text, to, "/proofs/" in path and path.count("/") > 3)
        if new != text:
            open(path, "w", encoding="utf-8").write(new)
    for path in glob.glob("crates/*/src/*.rt"):
        text = open(path, encoding="utf-8").read()
        new = turn_rt(text, to)
        if new != text:
            open(path, "w", encoding="utf-8").write(new)
    inner()
    return 0


def inner():
    """A module may not be called core any more, the name of a library: the functions that ask something of their caller stand in `inner`. What core's Prelude gave, std's gives."""
    for path in glob.glob("crates/*/src/core.rt"):
        os.rename(path, path[: -len("core.rt")] + "inner.rt")
    for path in glob.glob("crates/*/proofs/core"):
        os.rename(path, path[: -len("core")] + "inner")
    for path in glob.glob("crates/*/src/*.rt") + glob.glob("crates/*/specs/**/*.antt", recursive=True) + glob.glob("crates/*/proofs/**/*.antt", recursive=True):
        text = open(path, encoding="utf-8").read()
        new = text.replace("Rattle.core.specs.Prelude.", "Rattle.std.specs.Prelude.")
        new = re.sub(r"(Rattle\.\w+\.(?:proofs|specs(?:\.declared)?))\.core\.", r"\1.inner.", new)
        if path.endswith(".rt"):
            new = re.sub(r"\bmod core;", "mod inner;", new)
            new = re.sub(r"\bcore::", "inner::", new)
        else:
            new = re.sub(r"`(\w+)::core::", r"`\1::inner::", new)
        if new != text:
            open(path, "w", encoding="utf-8").write(new)


if __name__ == "__main__":
    raise SystemExit(main("--dry" in sys.argv))
