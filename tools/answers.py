#!/usr/bin/env python3
"""Turns a crate's proofs that walk the code by hand (Proof.antt) into Invariants.antt and Answers.antt.

usage: in the crate's folder   rt check --generated OUT --old-names
       then                    answers.py CRATE OUT/names.json [FUNCTION..]      FUNCTION as its folder below proofs/; default: all

It was written for the port (docs/PORT.md) and serves the work that docs/unfinished.patch keeps, whose proofs are still walks. names.json has, for each
function, the old and the new name of each goal and of each step. A path c.before.before.f.ensures loses its .before: a goal's steps have names of their own
today. What it cannot turn it prints, a line each: a goal that is not found, a step that is not found, a place that is passed whole. It goes by text; rt check decides.
"""

import difflib
import glob
import json
import os
import re
import subprocess
import sys

WORD = r"[^\s(){}.;,@\"«»\[\]\\]+"
# Fields of a goal that belong to no step.
OF_THE_CALL = {"args", "requires", "ranges", "well_formed", "utf8", "type_inv", "captures"}


def alike(name):
    return name.replace("_", "-").lower()


def plain(path):
    with open(path, encoding="utf-8") as f:
        return f.read()


def goal_of(walked):
    """The old name of the goal that an answer's type tie.Need-NAME names; port.py puts the kind of an overflow before it."""
    return alike(re.sub(r"^(?:overflow|nonzero)[-_]", "", walked))


class Contracts:
    """The names of the clauses of each function of the repository, as its sources have them."""

    def __init__(self, root, kit):
        sys.path.insert(0, os.path.join(kit, "port"))
        import contracts

        self.of = {}
        for path in glob.glob(os.path.join(root, "crates", "*", "src", "**", "*.rt"), recursive=True):
            crate = os.path.relpath(path, os.path.join(root, "crates")).split(os.sep)[0]
            text = contracts.blank(plain(path))
            for m in re.finditer(r"\bfn\s+(\w+)(?:<[^>]*>)?\s*\(", text):
                at = contracts.closing(text, m.end() - 1, "(", ")")
                clauses = {"requires": [], "ensures": []}
                while c := re.match(r"\s*(?:->\s*[^{]*?(?=\s+(?:requires|ensures|ghost)\b|\s*[{;]))?\s*(requires|ensures)\s*(\w+)?\s*\{", text[at:]):
                    clauses[c[1]].append(c[2])
                    at = contracts.closing(text, at + c.end() - 1)
                self.of.setdefault((crate, m[1]), clauses)

    def names(self, crate, function, kind):
        return self.of.get((crate, function), {}).get(kind, [])


def nested(names, steps):
    """A clause by its label: several clauses were pairs in pairs, the k-th behind k times .1."""
    steps, at = list(steps), 0
    while steps and at < len(names) - 1:
        step = steps.pop(0)
        if step != "1":
            return [names[at if step == "0" else min(int(step), len(names) - 1)]] + steps
        at += 1
    return [names[at]] + steps


class Function:
    def __init__(self, crate, folder, of, contracts, say):
        self.crate, self.folder, self.of, self.contracts, self.say = crate, folder, of, contracts, say
        self.places = {}
        for place, arms, typed in zip(of["places"], of["arms"], of["typed"]):
            self.places.setdefault(place[0], (place, arms, typed))

    def chain(self, place):
        while place in self.places:
            yield self.places[place]
            place = self.places[place][0][1]

    def path(self, place, before, steps):
        """Today's path of a fact at a goal that is asked at that place; None where the step is not found."""
        first, rest = steps[0], steps[1:]
        own = self.contracts.names(self.crate, os.path.basename(self.folder), "requires")
        if first == "requires" and rest and rest[0].isdigit() and len(own) > 1:
            rest = nested(own, rest)
        if alike(first) == "well-formed":
            first = "well_formed"
        if first in OF_THE_CALL:
            return ".".join(["c", first, *rest])
        chain = list(self.chain(place))
        # respell.py may have taken a step's name for a lemma's.
        for name in (first, re.sub(r"[-_](lem|of)$", "", first), re.sub(r"^Is(?=[A-Z])", "", first)):
            found = [(k, it) for k, it in enumerate(chain) if alike(it[0][2][0]) == alike(name)]
            if found:
                break
        else:
            return None
        place, arms, _ = min(found, key=lambda it: abs(it[0] - before))[1]
        callee = place[3]
        if callee and len(rest) > 1 and rest[1].isdigit():
            if rest[0] in ("auto", "new"):
                # The k-th parameter stood behind k times .1 .
                more, k = rest[1:], 0
                while more and more[0] == "1":
                    more, k = more[1:], k + 1
                parameters = self.of["params"].get(callee, [])
                if k < len(parameters):
                    rest = [rest[0], parameters[k], *more[more[:1] == ["0"] :]]
            elif rest[0] in ("requires", "ensures"):
                labels = self.contracts.names(callee.split("::")[0], callee.split("::")[-1], rest[0])
                if len(labels) > 1:
                    rest = [rest[0], *nested(labels, rest[1:])]
        if rest[:1] == ["given"]:
            for _, _, typed in chain:
                for variable, step in typed:
                    if alike(step) == alike(first):
                        return ".".join(["c", "type_inv", variable, *rest[1:]])
        if arms:
            fits = [(field, old) for field, step, old in arms[2] if alike(step) == alike(first) and [alike(it) for it in rest[: len(old)]] == [alike(it) for it in old]]
            if fits:
                field, old = max(fits, key=lambda it: len(it[1]))
                return ".".join(["c", arms[0], field, *rest[len(old) :]])
        return ".".join(["c", place[2][1], *rest])

    def turned(self, place, text, goal):
        """An answer's text with today's paths."""
        short = re.compile(rf"let ({WORD}) = (c(?:\.before)*) in\s*")
        while m := short.search(text):
            name, value = m[1], m[2]
            text = text[: m.start()] + text[m.end() :]
            text = re.sub(rf"(?<![^\s(){{}};,]){re.escape(name)}(?=\.|(?![^\s(){{}};,]))", lambda _: value, text)

        def one(m):
            steps = m[0].split(".")[1:]
            before = len(steps)
            while steps and steps[0] == "before":
                steps = steps[1:]
            before -= len(steps)
            path = steps and self.path(place, before, steps)
            if not path:
                self.say(f"{self.folder}: {goal}: {'no step for' if steps else 'a place is passed whole:'} {m[0]}")
                return m[0]
            return path

        text = re.sub(rf"(?<![^\s(){{}};,])c(?:\.{WORD})+", one, text)
        # A test of `!x` said `not x ≡ true`, and says `x ≡ false`.
        test = r"(c\.if-not-[^\s().,;]+\.(?:true|false))(?=[\s),;]|$)"
        text = re.sub(r"not-(?:true|false) _ " + test, r"«bare»\1", text)
        text = re.sub(r"(?<!«bare»)" + test, r"(ap not \1)", text)
        return text.replace("«bare»", "")

    def invariant(self, kind, loop, name, text):
        """`name a b .. = body` over the loop's variables as `name l = body`; a variable that the loop changes stood with ₀ first, and without at the end."""
        m = re.search(rf"(?ms)^{re.escape(name)}((?: \S+)+?) =(\s.*)$", text)
        words, body = m[1].split(), m[2]
        names = next(((today, live) for (old, today), live in self.of["loops"] if alike(old) == alike(loop)), None)
        if names is None:
            self.say(f"{self.folder}: no loop {loop}")
            return text
        today, live = names
        record = "it" if re.search(r"[(λ ]l[ :.]", body) else "l"
        said, changed = {}, []
        for word, variable in zip(words, live):
            if word.endswith("₀"):
                said[word] = f"{record}.initial.{variable}"
                changed.append(variable)
            elif word != "_":
                said[word] = f"{record}.{variable}"
        said.update({word: f"{record}.{variable}" for word, variable in zip(words[len(live) :], changed) if word != "_"})
        if said:
            either = "|".join(sorted(map(re.escape, said), key=len, reverse=True))
            body = re.sub(rf"(?<![^\s(){{}};,])({either})(?=\.|(?![^\s(){{}};,]))", lambda m: said[m[1]], body)
        return f"abbrev pub {kind}-{today} : goal.{kind}-{today}\n{kind}-{today} {record} ={body}"


def declarations(text):
    """The comment at the head, the use lines, and each declaration with its name."""
    head, uses, parts, waiting = [], [], [], []
    for line in text.split("\n"):
        if line.startswith("--") and not uses and not parts:
            head.append(line)
        elif line.startswith("use "):
            uses.append(line)
        elif line.startswith("--"):
            waiting.append(line)
        elif re.match(r"(?:pub )?(?:record|data|module|ruleset|mutual)\b", line):
            parts.append((re.sub(r"^pub ", "", line).split()[1] if " " in line else line, [*waiting, line]))
            waiting = []
        elif m := re.match(r"(?:(?:abbrev|unfoldable|pub) )*(\S+)(?: \{[^}]*\})* :(?:\s|$)", line):
            parts.append((m[1], [*waiting, line]))
            waiting = []
        elif parts:
            parts[-1][1].extend([*waiting, line])
            waiting = []
    return head, uses, [(name, "\n".join(lines).rstrip()) for name, lines in parts]


def cites(text, name):
    if "◌" in name:
        return name in text or all(re.search(rf"(?<![^\s(){{}};,]){re.escape(it)}(?![^\s(){{}};,])", text) for it in name.split("◌") if it)
    return re.search(rf"(?<![^\s(){{}}.;,]){re.escape(name)}(?![^\s(){{}}.;,])", text) is not None


def imports(uses, text):
    out = []
    for line in uses:
        m = re.match(r"use (\S+?)\.\{(.*)\}$", line)
        if m:
            kept = [it.strip() for it in m[2].split(",") if cites(text, it.split(" as ")[-1].strip())]
            if kept:
                out.append(f"use {m[1]}.{{{', '.join(kept)}}}")
        elif not re.search(r"\.(Statement|Tie)\b", line):
            out.append(line)
    if "(ap not " in text:
        for module, name in (("mathlib.Core.Path", "ap"), ("mathlib.Core.Bool", "not")):
            if not any(re.search(rf"[{{ ]{name}[,}}]", it) for it in out):
                out.append(f"use {module}.{{{name}}}")
    return out


def labelled(text, labels, say):
    """A pair in pairs for a callee's clauses, at the end of an answer, as a record of them."""
    text = text.rstrip()
    deep, start = 0, len(text)
    for start in range(len(text) - 1, -1, -1):
        deep += (text[start] == ")") - (text[start] == "(")
        if not deep:
            break

    def parts(inner):
        out, deep = [""], 0
        for ch in inner:
            deep += (ch in "([{") - (ch in ")]}")
            if ch == "," and not deep:
                out.append("")
            else:
                out[-1] += ch
        return [it.strip() for it in out if it.strip()]

    each = parts(text[start + 1 : -1]) if text.endswith(")") else []
    while 1 < len(each) < len(labels) and each[-1].startswith("(") and each[-1].endswith(")"):
        each[-1:] = parts(each[-1][1:-1])
    if len(each) != len(labels):
        say(f"clauses {labels} wanted at the end of: {text[-80:]}")
        return text
    return text[:start] + "record { " + "; ".join(f"{label} = {it}" for label, it in zip(labels, each)) + " }"


def turn(folder, proof, function, crate):
    head, uses, parts = declarations(plain(proof))
    needs = {}
    for k, (old, _) in enumerate(function.of["needs"]):
        needs.setdefault(alike(old), k)
    # Where a goal's old name is not known: by its place in the order of the goals.
    walked = [goal_of(m[1]) for _, text in parts if (m := re.search(r"tie\.Need-(\S+)", text))]
    matched = difflib.SequenceMatcher(None, walked, [alike(old) for old, _ in function.of["needs"]], autojunk=False)
    by_order = {a + k: b + k for tag, a, a_end, b, b_end in matched.get_opcodes() if a_end - a == b_end - b for k in range(a_end - a)}
    answers, invariants, lemmas, k = {}, [], [], -1
    for name, text in parts:
        if m := re.search(r"tie\.Need-(\S+)", text):
            k += 1
            found = needs.get(goal_of(m[1]), by_order.get(k))
            lines = text.split("\n")
            signature = next(i for i, line in enumerate(lines) if "tie.Need-" in line)
            opened = [line for line in lines[signature + 1 :] if line.startswith("unfolding")]
            body = re.match(rf"{re.escape(name)}((?: \S+)*?) =(?=\s)(.*)", "\n".join(line for line in lines[signature + 1 :] if not line.startswith("unfolding")), re.S)
            if body and body[2].strip() == "search rules" and not opened:
                continue
            if found is None or body is None:
                function.say(f"{folder}: no goal today for {m[1]}")
                continue
            goal, place = function.of["needs"][found][1], function.of["asked_at"][found][0]
            told = function.turned(place, body[2], goal)
            if "-requires" in goal:
                called = alike(re.sub(r"-requires.*", "", m[1]))
                labels = next((it["requires"] for (_, f), it in function.contracts.of.items() if alike(f) == called and len(it["requires"]) > 1), None)
                told = labelled(told, labels, function.say) if labels else told
            arguments = " ".join(it for it in body[1].split() if it != "κs")
            answers.setdefault(goal, "\n".join([*lines[:signature], f"pub {goal} : goal.{goal}", *opened, f"{goal} {arguments} ={told}"]))
        elif m := re.search(r"tie\.(invariant|decreases)-(\S+)", text):
            invariants.append(function.invariant(m[1], m[2], name, text))
        elif "tie.close" not in text:
            if "tie." in text:
                function.say(f"{folder}: {name} speaks of the walk's own places")
            lemmas.append((name, text))
    # What an invariant cites stands beside it.
    beside = [it for it in lemmas if cites("\n".join(invariants), it[0])]
    module = f"Rattle.{crate}.proofs.{folder.replace('/', '.')}"
    here = os.path.dirname(proof)
    if invariants:
        first = [re.sub(r"(?m)^(\s+)(?!pub )([a-z]\S* :)", r"\1pub \2", re.sub(r"(?m)^((?:abbrev |unfoldable )?)(?!pub )(record |data |\S)", r"\1pub \2", text, count=1)) for _, text in beside]
        text = "\n\n".join([*first, *invariants])
        write(os.path.join(here, "Invariants.antt"), head, [*imports(uses, text), f"use {module}.Given as goal"], text)
    if answers:
        text = "\n\n".join([*[text for it, text in lemmas if (it, text) not in beside], *answers.values()])
        shared = [it for it, _ in beside if cites(text, it)]
        lines = [*imports(uses, text), *([f"use {module}.Invariants.{{{', '.join(shared)}}}"] if shared else []), f"use {module}.Goals as goal"]
        write(os.path.join(here, "Answers.antt"), [] if invariants else head, lines, text)
    os.remove(proof)
    if not os.listdir(here):
        os.rmdir(here)


def write(path, head, uses, text):
    with open(path, "w", encoding="utf-8") as f:
        f.write("\n".join([*head, *uses, "", text, ""]))


def main(argv):
    if len(argv) < 2 or argv[0].startswith("-"):
        print(__doc__)
        return 2
    folder, names, only = os.path.abspath(argv[0]), json.loads(plain(argv[1])), set(argv[2:])
    crate, kit = os.path.basename(folder), os.path.dirname(subprocess.run(["rt", "doc"], capture_output=True, text=True, check=True).stdout.strip())
    contracts = Contracts(os.path.dirname(os.path.dirname(folder)), kit)
    for proof in sorted(glob.glob(os.path.join(folder, "proofs", "**", "Proof.antt"), recursive=True)):
        function = os.path.relpath(os.path.dirname(proof), os.path.join(folder, "proofs"))
        of = names.get(f"Rattle-{crate}-proofs.{function.replace('/', '.')}.Lts")
        if only and function not in only:
            continue
        if of is None:
            print(f"{function}: no names: a cycle, or not checked")
            continue
        turn(function, proof, Function(crate, function, of, contracts, print), crate)
    return 0


if __name__ == "__main__":
    raise SystemExit(main(sys.argv[1:]))
