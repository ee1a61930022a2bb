#!/usr/bin/env python3
"""Brings the names of definitions, lemmas and fields of this repository's specs/ and proofs/ to snake case.

usage: respell.py FOLDER                  turns the repository in FOLDER by the rows of respelled.tsv, beside this script
       respell.py --table FOLDER..        writes respelled.tsv anew, from the names that these folders declare, and says what stood in the way

It was run once, behind the kit's port.py (docs/PORT.md). Only names that a file of specs/ or a law module of proofs/ declares change: lowerCamel and
dashed names become snake_case. Where two names would fall together, the lemma (the dashed one) gets _lem. Functions of src/, exported C
names, enum variants, strings, inputs and outputs keep their names, and so do the names that Rattle makes.
"""

import collections
import glob
import os
import re
import sys

TOKEN = re.compile(r'[^\s(){}.;,@"«»\[\]\\]+')
MODULE = re.compile(r"crates/\w+/(specs/.*|proofs/[A-Z][^/]*|proofs/[A-Z].*/[A-Z][^/]*)\.antt$")
DECLARED = re.compile(r"(?:(?:abbrev|unfoldable|pub|data|record|ruleset) )*([^\s(){}.;,:|]+)(?: \{[^}]*\})*(?: \([^)]*\))* :(?:\s|$)")
FIELD = re.compile(r"\s+(?:pub )?([a-z][^\s(){}.;,:|]*)(?: \{[^}]*\})* :(?:\s|$)")
# The kit keeps if◌then◌else◌ for its own choice: that of bytecode's specs/Test, which stays shut, begins with another word.
CHOICE = ("if◌then◌else◌", "when◌then◌else◌")
# Names that Rattle makes below these heads keep their spelling.
MADE = re.compile(r"(?:^|[^\w'.-])(?:tie|goal)\.$")


def snake(name):
    return re.sub(r"(?<=[a-z0-9])[A-Z]", lambda m: "_" + m[0].lower(), name).replace("-", "_")


def plain(path):
    with open(path, encoding="utf-8") as f:
        return f.read()


def paths(top, pattern):
    found = glob.glob(os.path.join(top, pattern), recursive=True)
    return sorted(p for p in found if "/out/" not in p and "/target/" not in p)


def no_comments(text):
    return re.sub(r"--[^\n]*", "", text)


def names(tops):
    declared, fields = collections.defaultdict(set), collections.defaultdict(set)
    for p in (p for top in tops for p in paths(top, "crates/*/**/*.antt")):
        if not MODULE.search(p) or p.endswith(("/Proof.antt", "/Answers.antt", "/Invariants.antt")):
            continue
        for line in no_comments(plain(p)).split("\n"):
            m = DECLARED.match(line)
            if m and not line.startswith("module"):
                declared[m[1]].add(p)
            m = FIELD.match(line)
            if m:
                fields[m[1]].add(p)
    return declared, fields


def table(tops):
    declared, fields = names(tops)
    # What else a file that cites the old name has under the new one: an import, a parameter, a variable.
    beside = collections.defaultdict(set)
    for p in (p for top in tops for kind in ("crates/*/**/*.antt", "crates/*/src/**/*.rt") for p in paths(top, kind)):
        text = plain(p)
        if p.endswith(".antt"):
            # Behind a dot stands a field or the name of a module.
            bare = no_comments(text)
            words = {m[0] for m in TOKEN.finditer(bare) if bare[m.start() - 1 : m.start()] != "."}
        else:
            # Of src/ what a clause sees: parameters and fields; and what clauses cite.
            bare = re.sub(r"//[^\n]*", "", text)
            words = set(re.findall(r"\b(\w+)\s*:(?!:)", bare)) | set(re.findall(r"[\w'-]*[a-z0-9][A-Z][\w'-]*|[\w']+-[\w'-]+", bare))
        for w in words:
            beside[w].add(p)
    rows, said = {}, []
    met = {n: set(beside[n]) for n in beside}
    every = sorted(set(declared) | set(fields), key=lambda n: ("-" in n, n))
    for name in every:
        if not name[0].islower() or snake(name) == name or re.search(r"[^\w'-]", name):
            continue
        new = snake(name)
        if met.get(new, set()) & beside[name]:
            said.append(f"together: {name} ({sorted(met[new] & beside[name])[0]})")
            new += "_lem" if "-" in name else "_of"
        if met.get(new, set()) & beside[name]:
            said.append(f"LEFT: {name} cannot be {new}")
            continue
        rows[name] = new
        met.setdefault(new, set()).update(beside[name])
    return rows, said


def own_answers(path, text):
    """Names that a function's proof file declares for itself and does not import."""
    if MODULE.search(path) and not path.endswith(("/Proof.antt", "/Answers.antt", "/Invariants.antt")):
        return set()
    imported = set()
    for m in re.finditer(r"\buse [^\s{]+\{([^}]*)\}", text):
        imported |= {it.split(" as ")[0].strip() for it in m[1].split(",")}
    return {m[1] for line in text.split("\n") if (m := DECLARED.match(line))} - imported


def turn_antt(path, text, rows):
    mine = own_answers(path, text)

    def turn(part):
        def one(m):
            w = m[0]
            if w == "if" or w == CHOICE[0]:
                return "when" if w == "if" else CHOICE[1]
            if w not in rows or w in mine or MADE.search(part[: m.start()][-12:]):
                return w
            return rows[w]

        return TOKEN.sub(one, part)

    out = []
    for piece in re.split(r"(--[^\n]*)", text):
        out.append(turn_prose(piece, rows) if piece.startswith("--") else turn(piece))
    return "".join(out)


def turn_prose(text, rows):
    def words(s, dashed):
        return re.sub(r"(?<![\w'-])[a-z][\w'-]*", lambda m: rows[m[0]] if m[0] in rows and (dashed or "-" not in m[0]) else m[0], s)

    return "".join(words(it, k % 2 == 1) for k, it in enumerate(re.split(r"(`[^`\n]*`)", text)))


def turn_rt(text, rows):
    def words(s):
        # Behind a dot only a name with a capital turns: a clause's, under its module; the code has none.
        return re.sub(r"(?<![\w'-])[a-z][\w'-]*", lambda m: rows.get(m[0], m[0]) if s[m.start() - 1 : m.start()] != "." or re.search("[A-Z]", m[0]) else m[0], s)

    out = []
    for piece in re.split(r"(//[^\n]*|\"(?:[^\"\\]|\\.)*\")", text):
        if piece.startswith("//"):
            out.append(turn_prose(piece, rows))
        else:
            out.append(piece if piece.startswith('"') else words(piece))
    return "".join(out)


def main(argv):
    rows_at = os.path.join(os.path.dirname(os.path.realpath(__file__)), "respelled.tsv")
    if argv[:1] == ["--table"] and argv[1:]:
        rows, said = table(argv[1:])
        with open(rows_at, "w", encoding="utf-8") as f:
            f.writelines(f"{old}\t{new}\n" for old, new in rows.items())
        print("\n".join(said))
        print(f"respell: {len(rows)} names")
        return 0
    if len(argv) != 1 or argv[0].startswith("-"):
        print(__doc__)
        return 2
    top = argv[0]
    rows = dict(line.split("\t") for line in plain(rows_at).splitlines())
    turned = 0
    for p in paths(top, "crates/*/**/*.antt") + paths(top, "crates/*/src/**/*.rt") + paths(top, "crates/*/must-fail/*.edit") + paths(top, "*.md") + paths(top, "docs/*.md"):
        old = plain(p)
        if p.endswith(".antt"):
            new = turn_antt(p, old, rows)
        elif p.endswith(".edit") and re.search(r"(?m)^file: .*\.antt$", old):
            new = "\n".join(turn_antt(p, line, rows) if line.startswith(("old:", "new:")) else turn_rt(line, rows) for line in old.split("\n"))
        elif p.endswith((".rt", ".edit")):
            new = turn_rt(old, rows)
        else:
            new = turn_prose(old, rows)
        if new != old:
            turned += 1
            with open(p, "w", encoding="utf-8") as f:
                f.write(new)
    print(f"respell: {turned} files")
    return 0


if __name__ == "__main__":
    raise SystemExit(main(sys.argv[1:]))
