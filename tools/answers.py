#!/usr/bin/env python3
"""Turns proofs that walk a function's code by hand into invariants and answers.

usage: python3 tools/answers.py CRATE NAMES [FUNCTION ..]

CRATE is a folder, as crates/text, whose sources and lemmas check and whose proofs/F/Proof.antt are of the older kit, as port.py and
respell.py left them. NAMES is the names.json that `rt check --generated DIR --old-names` writes into DIR for the crate: the goals and the
steps of each function, old name and new. FUNCTION is a folder below CRATE/proofs; without one all are turned.

Each Proof.antt becomes Invariants.antt (invariants of loops, measures) and Answers.antt, and stays beside them as Proof.antt.old. What a
place in the code knew of the places before it, `c.before.before.step`, is `c.STEP` now; helpers that took a place are written out where they were
called. Answers that were a bare tactic are left out, since the check tries those. What it cannot place it prints; the rest is by hand.
"""

import json
import os
import re
import sys

ID = r"[A-Za-z0-9_'₀-₉μκ·+-]+"
PLACE = r"tie\.\S+(?: invariant-\S+ decreases-\S+)?"


def alike(name):
    return re.sub("[-_]", "", name).lower()


def word(name):
    """The name where it stands alone, and not as a field."""
    return r"(?<![\w'.-])" + re.escape(name) + r"(?![\w'-])"


def items(text):
    """The items of a file, each with the comments above it."""
    out, comments, current = [], [], None
    for line in text.split("\n"):
        if current is not None and line.startswith(" ") and line.strip():
            current.append(line)
            continue
        if line.strip() and not line.startswith("--") and current is not None:
            current.append(line)
            continue
        if current is not None:
            out.append((comments, current))
            comments, current = [], None
        if line.startswith("--"):
            comments.append(line)
        elif line.strip():
            current = [line]
    if current is not None or comments:
        out.append((comments, current or []))
    return out


class Item:
    """A signature with its name and type, and the clauses below it."""

    def __init__(self, comments, lines):
        self.comments, self.lines = comments, lines
        it = re.match(r"(?:(?:abbrev|pub|unfoldable) )*(" + ID + r")\s*:\s*(.*)", lines[0])
        self.name = it.group(1) if it else None
        if not it:
            return
        k, parts = 1, [it.group(2)]
        while k < len(lines) and lines[k].startswith(" "):
            parts.append(lines[k].strip())
            k += 1
        self.type = " ".join(parts).strip()
        self.unfolding = None
        if k < len(lines) and lines[k].startswith("unfolding"):
            self.unfolding = lines[k]
            k += 1
        self.clauses = []
        for line in lines[k:]:
            if line.startswith(" "):
                self.clauses[-1] += "\n" + line
            else:
                self.clauses.append(line)

    def clause(self):
        """The arguments and the body of a clause that stands alone."""
        if len(self.clauses) != 1:
            return None
        it = re.match(re.escape(self.name) + r"((?:\s+(?:" + ID + r"|\([^)]*\)))*)\s*=\s*(.*)", self.clauses[0], re.S)
        return (it.group(1).split(), it.group(2)) if it else None


def end_of_atom(text, at):
    """Where the name or the bracket at a place ends, with its fields."""
    if text[at] == "(":
        depth, end = 0, at
        while True:
            depth += (text[end] in "([{") - (text[end] in ")]}")
            end += 1
            if depth == 0:
                break
    else:
        it = re.compile(ID).match(text, at)
        if not it:
            return None
        end = it.end()
    it = re.compile(r"(\.[A-Za-z0-9_'-]+)+").match(text, end)
    return it.end() if it else end


def without_known(text):
    """`omega` reads every field of `c`, so a list need not name one; nor do a path and what has brackets want brackets."""
    text = re.sub(r"\((c\.[\w'.-]+)\)", r"\1", text)
    at = text.find("((")
    while at >= 0:
        end = end_of_atom(text, at + 1)
        if text[end - 1 : end + 1] == "))":
            text = text[:at] + text[at + 1 : end] + text[end + 1 :]
        else:
            at += 1
        at = text.find("((", at)
    known = re.compile(r"(omega \([^()]*?),\s*c\.[\w'.-]+(?=\s*[,)])")
    while known.search(text):
        text = known.sub(r"\1", text)
    return re.sub(r"omega \(\s*arith,?\s*\)", "omega arith", text)


def without_places(text):
    """Every way to a place before this one is `c`, and so is each name for one."""
    before = None
    while before != text:
        before = text
        text = re.sub(r"\(c\)", "c", text)
        text = re.sub(r"(?<![\w'.-])c(?:\.before)+(?![\w'-])", "c", text)
        it = re.search(r"let (" + ID + r")\s*=\s*c\s+in\s", text)
        if it:
            # A field of a record may have the name too.
            rest = re.sub(word(it.group(1)) + r"(?!\s*=\s)", "c", text[it.end():])
            text = text[: it.start()] + rest.lstrip()
    return text


def in_place_of(text, name, term):
    """The term for each call of the name with one argument."""
    call, at = re.compile(r"(?<![\w'.-])" + re.escape(name) + r"\s+(?=[\w(])"), 0
    while True:
        it = call.search(text, at)
        if not it:
            return text
        end = end_of_atom(text, it.end())
        if end is None:
            at = it.end()
            continue
        text = text[: it.start()] + term + text[end:]
        at = it.start() + len(term)


class Function:
    def __init__(self, crate, folder, inside, text, names):
        self.folder, self.inside = folder, inside
        self.module = f"Rattle.{crate}.proofs.{inside.replace('/', '.')}"
        uses = re.findall(r"(?m)^use [^\n{]*(?:\{[^}]*\})?(?: as " + ID + r")?", text)
        uses = [re.sub(r"\s+", " ", use).strip() for use in uses]
        self.uses = [use for use in uses if ".Tie as tie" not in use and ".Statement.{statement}" not in use]
        self.goals = {}
        for (old, new), at in zip(names["needs"], names["asked_at"]):
            self.goals[alike(old)] = self.goals["=" + alike(new)] = (new, at[0])
        self.parent = {it[0]: it[1] for it in names["places"]}
        self.step = {it[0]: it[2] for it in names["places"]}
        self.arm = {it[0]: arm for it, arm in zip(names["places"], names["arms"])}
        self.arms = {}
        for place, arm in self.arm.items():
            if arm and arm[1] == 1:
                self.arms.setdefault(self.parent[place], []).append(arm[0])
        self.loops = {alike(it[0][0]): it[0][1] for it in names["loops"]}
        self.head, self.ways, self.values, self.facts, self.lemmas, self.invariants, self.answers = [], set(), {}, {}, [], [], []
        for comments, lines in items(text):
            lines = [line for line in lines if not line.startswith(("use ", "}"))] if lines and lines[0].startswith("use ") else lines
            if not lines or (lines[0].startswith(" ")):
                self.head += comments
            else:
                self.sort(Item(comments, lines))

    def say(self, *words):
        print(self.inside, *words)

    def sort(self, item):
        if item.name is None:
            self.lemmas.append(item)
            return
        kind = item.type
        if item.name.endswith("spec") and "statement" in kind:
            return
        for pattern, into in (
            (r"tie\.(invariant|decreases)-?(\S*)", self.invariants),
            (r"tie\.Need-(\S+)", self.answers),
        ):
            it = re.match(pattern, kind)
            if it:
                into.append((item, it.groups()))
                return
        it = re.match(PLACE + r"\s*→\s*(.*)$", kind)
        if it and re.match(PLACE + "$", it.group(1)):
            self.ways.add(item.name)
        elif it:
            self.values[item.name] = (item, it.group(1))
        elif re.match(r"\(\S+ : tie\.[^)]*\)\s*→", kind):
            self.facts[item.name] = item
        else:
            self.lemmas.append(item)

    def written_out(self, text, depth=0):
        before = None
        while before != text:
            before, text = text, without_places(text)
            for way in self.ways:
                text = in_place_of(text, way, "c")
        if depth == 8:
            return text
        for name, (item, kind) in self.values.items():
            clause = item.clause()
            if clause is None or not re.search(word(name), text):
                continue
            args, body = clause
            term = self.written_out(re.sub(word(args[0]), "c", body), depth + 1).strip()
            if len(args) > 1:
                kinds = [self.written_out(one, depth + 1).strip() for one in re.split(r"\s*→\s*", kind)]
                bound = [(arg, re.match(r"\(\S+ : (.*)\)$", one)) for arg, one in zip(args[1:], kinds)]
                term = "λ " + " ".join(f"({arg} : {it.group(1) if it else one})" for (arg, it), one in zip(bound, kinds)) + ". " + term
            text = in_place_of(text, name, term if re.fullmatch(r"[\w'.-]+", term) else f"({term})")
        for name, item in self.facts.items():
            clause = item.clause()
            if clause is None or not re.search(word(name), text):
                continue
            args, body = clause
            term = self.written_out(re.sub(word(args[0]), "c", body), depth + 1).strip()
            if len(args) > 1:
                term = "λ " + " ".join(args[1:]) + ". " + term
            text = in_place_of(text, name, f"({term})")
        return text

    def steps(self, place):
        """The steps before a place by their old names, and the fields of the arms on the way."""
        steps, fields = {}, []
        while place:
            old, new = self.step[place]
            if old:
                steps.setdefault(alike(old), new)
            arm = self.arm[place]
            if arm:
                fields += [(alike(of), path, f"{arm[0]}.{field}") for field, of, path in arm[2] if not field.endswith("-own")]
                others = [it for it in self.arms.get(self.parent[place], []) if it != arm[0]]
                if arm[1] == 1 and len(others) == 1:
                    fields.append((alike(old), "keys", f"{arm[0]}.not-" + re.sub("^in-", "", others[0])))
            place = self.parent.get(place)
        return steps, fields

    def renamed(self, text, place):
        steps, fields = self.steps(place)

        def turned(it):
            step, path = it.group(1), [part for part in it.group(2).split(".") if part]
            if step in ("args", "requires", "ranges", "type_inv", "auto"):
                return it.group(0)
            best = None
            for old, at, new in fields:
                if old != alike(step):
                    continue
                if at == "keys":
                    if path and re.match(r"keys\d*$", path[0]):
                        return ".".join(["c", new, *path[1:]])
                elif path[: len(at)] == at and (best is None or len(at) > len(best[0])):
                    best = (at, new)
            if best:
                return ".".join(["c", best[1], *path[len(best[0]):]])
            new = steps.get(alike(step))
            if new is None:
                return it.group(0)
            if path:
                path[0] = {"left": "false", "taken": "true", "inv": "invariant"}.get(path[0], path[0])
            return ".".join(["c", new, *path])

        text = re.sub(r"(?<![\w'.-])c\.([A-Za-z0-9_'-]+)((?:\.[A-Za-z0-9_'-]+)*)", turned, text)
        # A test of a negation says what the value is.
        return re.sub(r"not-(?:true|false) _ (c\.if-not-[\w'.-]*)", r"\1", text)

    def write(self):
        invariants, answers = [], []
        for item, (kind, of) in self.invariants:
            clause = item.clause()
            loop = self.loops.get(alike(of)) or (list(self.loops.values())[0] if len(self.loops) == 1 else None)
            if clause is None or loop is None:
                self.say("no loop for", item.name)
                continue
            fields = {arg: "l.initial." + arg[:-1] if arg.endswith("₀") else "l." + arg for arg in clause[0]}
            body = re.sub(r"(?<![\w'.₀-₉-])(" + ID + r")", lambda it: fields.get(it.group(1), it.group(1)), clause[1])
            invariants.append("\n".join([*item.comments, f"abbrev pub {kind}-{loop} : goal.{kind}-{loop}", f"{kind}-{loop} l = {body}"]))
        for item, (old,) in self.answers:
            clause = item.clause()
            if clause is None:
                self.say("by clauses:", item.name)
                continue
            args, body = clause
            if re.fullmatch(r"search (rules|\(rules\))|omega arith|search", body.strip()):
                continue
            goal = self.goals.get(alike(old)) or self.goals.get("=" + alike(old)) or self.goals.get(alike(re.sub("^(overflow|nonzero)-", "", old)))
            if goal is None:
                if not re.match(r"omega|search", body.strip()) and "same" not in old:
                    self.say("no goal", old)
                continue
            body = without_known(self.renamed(self.written_out(re.sub(word(args[0]), "c", body)), goal[1])).rstrip()
            if body.strip() == "omega arith":
                continue
            between = "\n    " if "\n" in body and not body.startswith("\n") else " "
            lines = [*item.comments, f"pub {goal[0]} : goal.{goal[0]}", *([item.unfolding] if item.unfolding else []), f"{goal[0]} c ={between}{body}"]
            answers.append("\n".join(lines))
        lemmas = ["\n".join(item.comments + item.lines) for item in self.lemmas]
        for name, made, goals in (("Invariants", invariants, "Given"), ("Answers", lemmas + answers, "Goals")):
            if made and (name == "Invariants" or answers or lemmas):
                with open(os.path.join(self.folder, name + ".antt"), "w", encoding="utf-8") as it:
                    it.write("\n".join([*self.head, *self.uses, f"use {self.module}.{goals} as goal", ""]) + "\n" + "\n\n".join(made) + "\n")
        os.rename(os.path.join(self.folder, "Proof.antt"), os.path.join(self.folder, "Proof.antt.old"))


def main(argv):
    if len(argv) < 2:
        sys.exit(__doc__)
    proofs = os.path.join(argv[0], "proofs")
    crate = os.path.basename(os.path.realpath(argv[0]))
    with open(argv[1], encoding="utf-8") as it:
        names = json.load(it)
    for folder, _, files in os.walk(proofs):
        inside = os.path.relpath(folder, proofs)
        if "Proof.antt" not in files or (argv[2:] and inside not in argv[2:]):
            continue
        with open(os.path.join(folder, "Proof.antt"), encoding="utf-8") as it:
            text = it.read()
        of = names.get(f"Rattle-{crate}-proofs.{inside.replace('/', '.')}.Lts", {})
        if "tie.spec" not in text or "needs" not in of:
            print(inside, "is by hand: it calls itself, or has no names")
            continue
        Function(crate, folder, inside, text, of).write()


if __name__ == "__main__":
    main(sys.argv[1:])
