#!/usr/bin/env python3
"""Spells the repository's own definitions and lemmas in snake case, after port.py, before any edit by hand.

usage: python3 tools/snake_names.py      at the top of the repository; --dry only reports

port.py respells the names that the library has too; this script does the rest: every name that a file of specs/ or proofs/ declares
and that is neither a type nor a constructor. The words of 001's notation become t_exp, t_com and t_prog. A lemma that would fall together with the definition it is
about gets `_lem`. Functions of src/, strings, inputs and outputs keep their names. Names in backticks in comments and pages follow.
"""
import os
import re
import subprocess
import sys

NAME = r"[^\s(){}.;,@\"«»\[\]|`]+"
DECLARED = re.compile(r"^\s*(?:(?:pub|abbrev|unfoldable|data|record|axiom)\s+)*(" + NAME + r")(?: \{[^{}\n]*\}| \([^()\n]*\))* :(?!:)", re.M)
# Constructors that share a line.
SHARED = re.compile(r"^  ((?:[a-z]\S* )+[a-z]\S*) : ", re.M)
USE = re.compile(r"^(?:pub )?(?:ghost )?use ([^\s;{]+?)\.?(\{[^}]*\})?(?: as [^\s;]+)?;?$", re.M)
FIXED = {"Texp": "t_exp", "Tcom": "t_com", "Tprog": "t_prog", "as_step": "as_step_lem"}
# What follows these heads in a proof of a function is a name that Rattle makes.
MADE_HEADS = ("goal", "tie", "c", "w", "l", "g")


def snake(name):
    if name in FIXED:
        return FIXED[name]
    name = re.sub(r"(?<=[a-z0-9])[A-Z]", lambda m: "_" + m[0].lower(), name)
    return name.replace("-", "_") if re.search(r"[a-z0-9]", name) else name


def texts(root):
    for folder, dirs, files in os.walk(os.path.join(root, "crates")):
        dirs[:] = sorted(d for d in dirs if d != "out")
        for f in sorted(files):
            if f.endswith((".rt", ".antt", ".edit")):
                yield os.path.join(folder, f)


def read(path):
    with open(path, encoding="utf-8") as f:
        return f.read()


def is_own_module(path):
    steps = path.split(".")
    return steps[0] == "Rattle" and len(steps) > 1 and steps[1] in CRATES


def is_walk(path):
    """Whether a file is a function's own proof; a file of lemmas beside the functions' folders may be called so too."""
    return re.search(r"/proofs/.+/(Proof|Answers|Invariants)\.antt$", path) is not None


def turnable(name):
    if name in FIXED:
        return True
    first = next((ch for ch in name if ch.isalpha()), "")
    return first.islower() and snake(name) != name


CRATES = set(os.listdir("crates"))


def main(dry):
    files = list(texts("."))
    declared = {}
    for p in files:
        if p.endswith(".antt") and not is_walk(p):
            text = read(p)
            for n in DECLARED.findall(text) + " ".join(SHARED.findall(text)).split():
                declared.setdefault(n, set()).add(p)
    turned = {}
    for n in sorted(declared):
        if turnable(n) and (n != "as_step" or "asStep" in declared):
            turned[n] = snake(n)
    # Names that fall together: the lemma, whose name has a dash, gives way.
    by_new = {}
    for n in declared:
        by_new.setdefault(turned.get(n, n), []).append(n)
    for new, olds in sorted(by_new.items()):
        if len(olds) > 1:
            if new == "goes_on":  # two crates of which neither reads the other's
                continue
            lemmas = [o for o in olds if "-" in o]
            others = [o for o in olds if "-" not in o]
            if len(lemmas) == 1 and others:
                turned[lemmas[0]] = new + "_lem"
                print("meets:", new, olds, "->", turned[lemmas[0]])
            else:
                print("MEETS:", new, olds, [sorted(declared[o]) for o in olds])
    aliases = set()
    for p in files:
        t = read(p)
        for line in re.findall(r"^(?:ghost )?use .*$", t, re.M):
            for a in re.findall(r" as ([^\s,;}]+)", line):
                if a[0].islower() and snake(a) != a and a not in turned:
                    aliases.add(a)
    for a in sorted(aliases):
        turned[a] = snake(a)
        print("alias:", a, turned[a])
    changed = 0
    for p in files:
        t = read(p)
        new = turn_text(t, p, turned)
        if new != t:
            changed += 1
            if not dry:
                with open(p, "w", encoding="utf-8") as f:
                    f.write(new)
    pages = subprocess.run(["git", "ls-files", "*.md", ".ci/run", "host/mutants", "include/*", "host/*", "rust/src/*"], capture_output=True, text=True).stdout.split()
    every = {new: new for new in turned.values()} | {n: n for n in declared}
    for p in pages:
        t = read(p)
        new = re.sub(r"`[^`\n]+`", lambda m: turn_ticks(m[0], every, turned), t)
        if new != t:
            changed += 1
            if not dry:
                with open(p, "w", encoding="utf-8") as f:
                    f.write(new)
    print(len(turned), "names,", changed, "files")


def turn_ticks(text, every, turned):
    """A name in backticks, spelled as before port.py or as after it."""

    def one(m):
        n = m[0]
        if n in turned:
            return turned[n]
        if turnable(n) and snake(n) in every:
            return snake(n)
        return n

    return re.sub(r"(?<![^\s(){}.;,@\"«»\[\]|`/])" + NAME + r"(?![^\s(){}.;,@\"«»\[\]|`:])", one, text)


def turn_text(t, path, turned):
    lent = set()
    for module, items in USE.findall(t):
        if not is_own_module(module):
            lent.update(re.findall(NAME, items))
            if not items:
                lent.add(module.split(".")[-1])
    table = {o: n for o, n in turned.items() if o not in lent}

    def word(m):
        parts = m[0].split(".")
        for i, part in enumerate(parts):
            if part in table and not (i > 0 and parts[0] in MADE_HEADS):
                parts[i] = table[part]
            elif re.search("[a-z]", part) and "◌" in part and part in table:
                parts[i] = table[part]
        return ".".join(parts)

    mark = "//" if path.endswith(".rt") else "--" if path.endswith(".antt") else "#"
    out = []
    for line in t.split("\n"):
        code, note = line, ""
        if path.endswith(".edit"):
            if line.startswith("#"):
                code, note = "", line
        else:
            at = re.search(r"(?:^|\s)" + mark, line)
            if at and line.count('"', 0, at.start()) % 2 == 0:
                code, note = line[: at.start()], line[at.start():]
        code = re.sub(r'"(?:\\.|[^"\\])*"|' + r"[^\s(){};,@\"«»\[\]|`]+", lambda m: m[0] if m[0][0] == '"' else word(m), code)
        note = re.sub(r"`[^`\n]+`", lambda m: turn_ticks(m[0], {v: v for v in turned.values()}, turned), note)
        out.append(code + note)
    return "\n".join(out)


if __name__ == "__main__":
    main("--dry" in sys.argv)
