#!/usr/bin/env python3
"""Brings the repository's own definitions and lemmas to the spelling of today's Rattle, after its port script has run.

usage: python3 tools/port/respell.py [--list]      at the top of the repository; --list prints old and new names and writes nothing

A name that a file of specs/ or proofs/ declares is put in snake case: `allOnes` becomes `all_ones`, and `ten-pos` becomes `ten_pos`.
Names that begin with a capital (types, facts, modules) stay, and so do the one-letter symbols that docs/RULES.md uses. A dash stays
where every part that it joins is the name of a function, as in `length-zeros`. Functions of src/, strings and comments are not read;
of a .rt file only its `ghost use` lines and clauses are, of an edit its lines `old:` and `new:` where they give such text.
Stops where two names would fall together, or where a new one already stands in a file that has the old one.
"""

import os
import re
import subprocess
import sys

WORD = r"[^\s(){}\[\],;:.=\"`«»⌜⌝]+"
DECLARED = re.compile(
    r"^\s*(?:(?:abbrev|unfoldable|pub|data|record|ruleset|module)\s+)*(" + WORD + r")\s*((?:[({][^=]*[)}]\s*)*):\s"
)
HEADED = re.compile(r"^\s*(?:abbrev\s+)?(?:pub\s+)?(?:data|record)\s+(" + WORD + r")")
FUNCTION = re.compile(r"^(?:abbrev\s+|unfoldable\s+)?pub\s+([a-z]" + WORD + r"|[a-z])\s*(?:[({][^=]*[)}]\s*)*:\s")
TOKEN = re.compile(r"[^\s(){}\[\],;:.=\"`«»⌜⌝]+")
# Functions of the library that the names of lemmas are made of.
LIBRARY = {"length", "take", "drop", "map", "append", "set", "replicate", "suc"}
# Names that the rule would spell wrongly, and lemmas that would fall together with the function that they are of.
CHOSEN = {
    "quietNaN": "quiet_nan",
    "by-rule": "by_rule_lem",
    "decimals-first": "decimals_first_lem",
    "upper-half": "upper_half_lem",
    "value-from": "value_from_lem",
}
# Names in one file that would fall together with another's new name there.
FIRST = {
    "crates/theorems/proofs/Decoding.antt": {"all_ones": "all_ones_is"},
    "crates/theorems/proofs/Ieee.antt": {"all_ones": "all_ones_is"},
    "crates/hexline/proofs/parse/Proof.antt": {"all_digits": "all_digits_here"},
}


def files(root):
    for folder, dirs, names in os.walk(os.path.join(root, "crates")):
        dirs[:] = sorted(d for d in dirs if d != "out")
        for n in sorted(names):
            if n.endswith((".antt", ".rt", ".edit")):
                yield os.path.join(folder, n)


def of_function(path):
    """Whether a file is the proof of one function, whose own names the check gives."""
    return os.path.basename(path) in ("Proof.antt", "Answers.antt", "Invariants.antt")


def code(line):
    """A line of antt in two: what is no comment, and the comment."""
    k = re.search(r"(^|\s)-- |(^|\s)--$", line)
    return (line[: k.start()], line[k.start() :]) if k else (line, "")


def snake(name):
    name = re.sub(r"(?<=[a-z0-9])([A-Z])(?=[a-z]|$)", lambda m: "_" + m[1].lower(), name)
    name = re.sub(r"(?<=_[a-z])([A-Z])(?=[a-z])", lambda m: "_" + m[1].lower(), name)
    return name


def new_name(name, functions):
    if name in CHOSEN:
        return CHOSEN[name]
    if not re.match(r"[a-zD]", name) or "◌" in name:
        return name
    parts = [snake(p) for p in name.split("-")]
    kept = all(p in functions or p in LIBRARY for p in name.split("-"))
    return ("-" if kept else "_").join(parts)


def own_names(root):
    """Declared names, those of functions in specs/, and those that come in from elsewhere."""
    declared, functions, foreign = set(), set(), set()
    crates = set(os.listdir(os.path.join(root, "crates")))
    for p in files(root):
        if not p.endswith(".antt"):
            continue
        with open(p, encoding="utf-8") as f:
            lines = f.read().splitlines()
        for line in lines:
            text = code(line)[0]
            use = re.match(r"\s*use\s+(\S+?)\.\{(.*)\}", text)
            if use:
                ours = re.match(r"Rattle\.(\w+)\.", use[1])
                if not ours or ours[1] not in crates or ".declared." in use[1]:
                    foreign |= {w.strip().split(" ")[0] for w in use[2].split(",")}
            elif not of_function(p):
                for pattern in (HEADED, DECLARED):
                    m = pattern.match(text)
                    if m and not re.match(r"\s*(use|let|module|open)\b", text):
                        declared.add(m[1])
                if "/specs/" in p:
                    m = FUNCTION.match(text)
                    if m:
                        functions.add(m[1])
    return declared, functions, foreign


def turned(line, table):
    return TOKEN.sub(lambda m: table.get(m[0], m[0]), line)


def turn_rt(text, table):
    """Turns `ghost use` items and clauses; a clause goes from its word to the brace that closes it."""
    out, at = [], 0
    for m in re.finditer(r"(?m)^\s*(?:ghost use [^;]*;|(?:requires|ensures)\b[^{\n]*\{|(?:pub )?ghost \w+: \{)", text):
        if m.start() < at:
            continue
        end = m.end()
        if text[end - 1] == "{":
            depth = 1
            while depth:
                depth += {"{": 1, "}": -1}.get(text[end], 0)
                end += 1
        out += [text[at : m.start()], turned(text[m.start() : end], table)]
        at = end
    return "".join(out) + text[at:]


def turn(path, text, table):
    if path.endswith(".rt"):
        return turn_rt(text, table)
    lines = text.split("\n")
    if path.endswith(".edit"):
        named = next((l[5:].strip() for l in lines if l.startswith("file:")), "")
        for i, line in enumerate(lines):
            if re.match(r"(old|new):", line) and (named.endswith(".antt") or re.match(r"(old|new):\s*(requires|ensures|ghost use)\b", line)):
                lines[i] = line[:4] + turned(line[4:], table)
        return "\n".join(lines)
    for i, line in enumerate(lines):
        before, comment = code(line)
        lines[i] = turned(before, table) + re.sub(r"`[^`\n]*`", lambda m: turned(m[0], table), comment)
    return "\n".join(lines)


def main(argv):
    root = subprocess.run(["git", "rev-parse", "--show-toplevel"], capture_output=True, text=True, check=True).stdout.strip()
    declared, functions, foreign = own_names(root)
    table = {}
    for name in sorted(declared):
        to = new_name(name, functions)
        if to != name:
            table[name] = to
    bad = [f"{n} comes in from elsewhere too" for n in table if n in foreign]
    reached = {}
    for n, to in table.items():
        reached.setdefault(to, []).append(n)
    bad += [f"{' and '.join(ns)} fall together as {to}" for to, ns in reached.items() if len(ns) > 1]
    texts, kept = {}, {}
    for p in files(root):
        with open(p, encoding="utf-8", newline="") as f:
            texts[p] = f.read()
        kept[p] = texts[p]
        if os.path.relpath(p, root) in FIRST:
            texts[p] = turn(p, texts[p], FIRST[os.path.relpath(p, root)])
        if not p.endswith(".antt"):
            continue
        words = set()
        for line in texts[p].splitlines():
            text = code(line)[0]
            words |= set(TOKEN.findall(text.partition("{")[2] if text.startswith("use ") else text))
        bad += [f"{os.path.relpath(p, root)} has both {n} and {to}" for n, to in table.items() if n in words and to in words]
    if "--list" in argv:
        print("\n".join(f"{n} {to}" for n, to in table.items()))
        print("\n".join(bad), file=sys.stderr)
        return 0
    if bad:
        print("\n".join(bad), file=sys.stderr)
        return 1
    changed = 0
    for p, text in texts.items():
        to = turn(p, text, table)
        if to != kept[p]:
            changed += 1
            with open(p, "w", encoding="utf-8", newline="") as f:
                f.write(to)
    print(f"{len(table)} names respelled in {changed} files")
    return 0


if __name__ == "__main__":
    raise SystemExit(main(sys.argv[1:]))
