#!/usr/bin/env python3
"""Turns each proofs/F/Proof.antt of an older Rattle into Invariants.antt and Answers.antt.

    python3 tools/convert_proofs.py [--given] CRATE..

Run at the repository's top, after port.py, with the crates below CRATE proved. --given: each /tmp/conv-names-CRATE/names.json was made
before, by a check of the crate over the sources of those below (`rattle check --lib .. --generated DIR --old-names`), proved or not.
Prints a line for each thing that it leaves, and ends with counts.
"""
import json
import os
import re
import subprocess
import sys

# What every context has beside its steps.
HEAD = {"args", "requires", "ranges", "well_formed", "lifetimes", "type_inv", "utf8", "told"}
# The module of an old file's goals; in a recursion it is called after the function.
TIE = r"(?:tie|[^\s.()]+[-_]lts)"
# Words that port.py respelled in paths where they were a function's name.
RESPELLED = {"type-size": "size-of"}
WORD = r"[^\s(){}\[\],;.:=λ→←↦|]+"
TOKEN = re.compile(r"--[^\n]*|\s+|" + WORD + r"(?:\.[^\s(){}\[\],;.:=λ→←↦|]+)*|.", re.S)


def norm(name):
    return name.replace("_", "-").lower()


def goal_norm(name):
    """An old goal's name, as both the files and names.json may spell it."""
    n = norm(name)
    n = re.sub(r"^(need-)", "", n)
    n = re.sub(r"^overflow-", "", n)
    n = re.sub(r"^slice-bounds-", "part-", n)
    n = re.sub(r"^loop(\d*)-holds", r"loop\1-init", n)
    n = re.sub(r"^loop(\d*)-less", r"loop\1-smaller", n)
    n = re.sub(r"^loop(\d*)-again", r"loop\1-preserved", n)
    return n


def tokens(text):
    return TOKEN.findall(text)


# ---------------------------------------------------------------- reading a file

class Decl:
    """A declaration: its comment, what stands before its name, its name, its type, its other lines."""

    def __init__(self, comment, lines):
        self.comment = comment
        self.lines = lines
        m = re.match(r"((?:abbrev |pub |unfoldable )*)(\S+) :(?:\s|$)", lines[0])
        self.name = m.group(2) if m else None
        self.marks = m.group(1) if m else ""
        rest = lines[1:]
        sign = [lines[0][m.end():]] if m else [lines[0]]
        while rest and rest[0].startswith(" ") and m:
            sign.append(rest.pop(0))
        self.type = "\n".join(sign).strip()
        self.rest = rest

    def text(self):
        return "\n".join(self.comment + self.lines)

    def equations(self):
        """The lines before the equations (unfolding ..), and each equation as (patterns, body)."""
        before, out = [], []
        for line in self.rest:
            if line.startswith("unfolding"):
                before.append(line)
            elif line.startswith((" ", ")", "}", "]")) or not line.strip():
                if out:
                    out[-1].append(line)
                elif before:
                    before[-1] += "\n" + line
            else:
                out.append([line])
        found = []
        for lines in out:
            text = "\n".join(lines).rstrip()
            m = re.match(r"(\S+)((?:\s+[^=\s]\S*)*)\s+=(?=\s)", text)
            if not m:
                return before, None
            found.append((m.group(2).split(), text[m.end():]))
        return before, found


def read(path):
    """The file's head comment, its use lines, its declarations."""
    return read_lines(open(path, encoding="utf-8").read().rstrip("\n").split("\n"))


def read_lines(lines):
    head, uses, decls, comment = [], [], [], []
    i = 0
    while i < len(lines):
        line = lines[i]
        if not line.strip():
            if comment and not uses and not decls:
                head += comment
                comment = []
            i += 1
            continue
        if line.startswith("--"):
            comment.append(line)
            i += 1
            continue
        if line.startswith("use "):
            if not uses:
                head += comment
                comment = []
            uses.append(line)
            i += 1
            continue
        # a declaration: up to the next line at the margin that begins another
        block = [line]
        i += 1
        m = re.match(r"(?:abbrev |pub |unfoldable )*(\S+) :(?:\s|$)", line)
        name = m.group(1) if m else None
        while i < len(lines):
            l = lines[i]
            if l.startswith((" ", ")", "}", "]")) or not l.strip():
                block.append(l)
            elif name and (l.startswith("unfolding") or l.split(" ")[0] == name and not re.match(r"\S+ :(\s|$)", l)):
                block.append(l)
            else:
                break
            i += 1
        while block and not block[-1].strip():
            block.pop()
        decls.append(Decl(comment, block))
        comment = []
    return head, uses, decls


def split_use(line):
    m = re.match(r"use (\S+?)\.\{(.*)\}\s*$", line)
    if not m:
        return None, None
    return m.group(1), [x.strip() for x in m.group(2).split(",") if x.strip()]


def words_of(text):
    found = set()
    for t in tokens(re.sub(r"--[^\n]*", "", text)):
        found.add(t)
        for p in t.split("."):
            found.add(p)
    for c in "=[]∷":
        if c in text:
            found.add(c)
    return found


def used_uses(uses, text):
    """The use lines, with the names that the text has."""
    have = words_of(text)
    out, seen = [], set()
    for line in uses:
        module, names = split_use(line)
        if module is None:
            m = re.match(r"use \S+ as (\S+)$", line)
            if m and m.group(1) not in have:
                continue
            if line not in seen:
                out.append(line)
                seen.add(line)
            continue
        keep = []
        for n in names:
            if "◌" in n:
                parts = [p for p in n.split("◌") if p]
                ok = all(p in have for p in parts)
            elif n == "[]":
                ok = "[]" in text
            else:
                ok = n in have
            if ok and (module, n) not in seen:
                keep.append(n)
                seen.add((module, n))
        if keep:
            out.append(f"use {module}.{{{', '.join(keep)}}}")
    return out


def spec_list(body):
    """The arguments of `tie.spec`, or None."""
    m = re.search(TIE + r"\.spec\b", body)
    if not m:
        return None
    i = m.end()
    out, depth, now = [], 0, ""
    while i < len(body):
        ch = body[i]
        if ch in "([{":
            depth += 1
        if ch in ")]}":
            if depth == 0:
                break
            depth -= 1
        if ch.isspace() and depth == 0:
            if now:
                out.append(now)
            now = ""
        else:
            now += ch
        i += 1
    if now:
        out.append(now)
    return out


# ---------------------------------------------------------------- a function's names

class Names:
    def __init__(self, data):
        self.needs = data["needs"]
        self.asked = data["asked_at"]
        self.loops = data["loops"]
        self.changed = data["changed"]
        self.settled = {goal_norm(x) for x in data["settled"]}
        self.places = data["places"]
        self.typed = data["typed"]
        self.arms = data["arms"]
        self.clauses = data["clauses"]
        self.params = data["params"]
        self.goal_clauses = {goal_norm(k): v for k, v in (data.get("asked") or {}).items()}
        self.pre = data.get("pre")
        self.cycle = False
        self.at = {p[0]: i for i, p in enumerate(self.places)}
        self.place_names = data.get("places_by_name") or []

    def chain(self, place):
        """The places from this one up to the start."""
        out = []
        while place is not None and place in self.at:
            i = self.at[place]
            out.append(i)
            place = self.places[i][1]
        return out


# ---------------------------------------------------------------- invariants

def turn_invariant(decl, names, say):
    """The lines of an invariant or a measure in today's form, or None."""
    m = re.match(TIE + r"\.(invariant|decreases)-(\S+)", decl.type)
    kind, loop = m.group(1), m.group(2)
    index = None
    for i, (pair, _) in enumerate(names.loops):
        if norm(pair[0]) == norm(loop):
            index = i
    if index is None:
        say(f"{decl.name}: no loop {loop} today")
        return None
    pair, variables = names.loops[index]
    changed = names.changed[index]
    before, eqs = decl.equations()
    if not eqs or len(eqs) != 1:
        say(f"{decl.name}: not one equation")
        return None
    params, body = eqs[0]
    new = {}
    want = [(v, c, True) for v, c in zip(variables, changed)] + [(v, c, False) for v, c in zip(variables, changed) if c]
    if len(params) != len(want):
        say(f"{decl.name}: {len(params)} parameters, {len(want)} known: {' '.join(v + ('*' if c else '') for v, c in zip(variables, changed))}")
        by_name = True
    else:
        by_name = False
    if by_name:
        for p in params:
            bare = p.rstrip("₀")
            new[p] = ("l.initial." if p.endswith("₀") else "l.") + bare
    else:
        for p, (v, c, first) in zip(params, want):
            new[p] = ("l.initial." if c and first else "l.") + v
    out = []
    toks = tokens(body)
    prev = ""
    for k, t in enumerate(toks):
        base, _, fields = t.partition(".")
        if base in new and prev != ".":
            rest = "".join(toks[k + 1:k + 3]).lstrip()
            if prev == "λ" or (rest.startswith(":") and prev in "({"):
                say(f"{decl.name}: a binder is called as the variable {base}")
                out.append(t)
            elif re.match(r"=(\s|$)", rest) and "record" in "".join(out):
                out.append(t)
            else:
                out.append(new[base] + ("." + fields if fields else ""))
        else:
            out.append(t)
        if t.strip():
            prev = t
    body = "".join(out)
    name = f"{kind}-{pair[1]}"
    lines = list(decl.comment)
    lines += [f"abbrev pub {name} : goal.{name}"] + before + [f"{name} l ={body}"]
    return "\n".join(lines)


# ---------------------------------------------------------------- answers

def field_names(x, say):
    """The names of the clauses that names.json gives in one of its forms."""
    if isinstance(x, dict):
        x = x["fields"]
    return [f if isinstance(f, str) else f[0] for f in x]


class Paths:
    """What an old path of a context is today, seen from one goal."""

    def __init__(self, names, place, say):
        self.names, self.say = names, say
        self.chain = names.chain(place)
        self.steps, self.typed = {}, {}
        # the places that are not on the way come first, so that those on the way win, the nearest last
        order = [i for i in range(len(names.places)) if i not in self.chain] + list(reversed(self.chain))
        for i in order:
            step = names.places[i][2]
            if step and step[0]:
                self.steps[norm(step[0])] = i
            for variable, known in names.typed[i] or []:
                self.typed[norm(known)] = variable
        for new, old in RESPELLED.items():
            if new not in self.steps and old in self.steps:
                self.steps[new] = self.steps[old]
        self.mine = {norm(names.places[i][2][0]) for i in self.chain if names.places[i][2] and names.places[i][2][0]}
        self.arms = {}
        for i in order:
            arm = names.arms[i]
            for field, step, prefix in (arm[2] if arm else []):
                self.arms.setdefault(norm(step), {})[tuple(norm(x) for x in prefix)] = (arm[0], field, i)

    def resolve(self, path):
        """The new path, as a list, of an old one without its `before`s; None if it names nothing."""
        names = self.names
        if not path:
            return []
        f, rest = norm(path[0]), path[1:]
        if f not in self.steps and f.replace("-", "_") not in HEAD:
            f = self.nearly(f)
        if f in self.typed and rest[:1] == ["given"] and "slice" in f:
            return ["type_inv", self.typed[f]] + rest[1:]
        if f in self.arms:
            best = None
            for prefix, (step, field, i) in self.arms[f].items():
                k = len(prefix)
                if tuple(norm(x) for x in rest[:k]) == prefix and (best is None or k > len(best[0])):
                    best = (prefix, step, field)
            if best and (best[0] or rest):
                rest = rest[len(best[0]):]
                if not best[0] and rest[0].startswith("keys"):
                    taken = self.variants_before(f, best[1])
                    self.say(f"{'.'.join(path)}: was of the type Among or OneOf, is (x : _) -> value = V x -> false of {', '.join(taken) or 'each variant before'}: turn the lemma that it goes to")
                    if len(taken) == 1:
                        return [best[1], "not-" + taken[0]] + rest[1:]
                return [best[1], best[2]] + rest
        if f in self.steps:
            i = self.steps[f]
            place = names.places[i]
            if f not in self.mine and RESPELLED.get(f) not in self.mine:
                self.say(f"the step {path[0]} is not on the way to the goal")
            if rest:
                for old, new in place[4] or []:
                    if rest[0] == old:
                        rest = [new] + rest[1:]
                        break
            fields = names.clauses[i]
            if fields and rest[:1] == ["ensures"]:
                rest = self.clause(rest, fields)
            if rest[:1] and rest[0] == "given":
                self.say(f"{'.'.join(path)}: a fact that was given")
            return [place[2][1]] + rest
        head = f.replace("-", "_")
        if head in HEAD:
            if head == "requires" and names.cycle:
                # in a recursion the first part was the measure's
                if rest[:1] == ["0"]:
                    return ["decreases"] + rest[1:]
                if rest[:1] == ["1"]:
                    rest = rest[1:]
                elif rest:
                    self.say(f"{'.'.join(path)}: in a recursion")
                else:
                    self.say("requires stands whole, in a recursion")
            if head == "requires" and names.pre:
                return self.clause([head] + rest, names.pre)
            return [head] + rest
        return None

    def nearly(self, f):
        """The step that a respelling of a function's name hides, as `IsStore-byte` for `store_byte`."""
        def bare(x):
            return re.sub("-lem$", "", x).replace("-", "").replace("is", "")

        for group in (self.mine, set(self.steps)):
            found = [x for x in group if bare(x) == bare(f)]
            if len(found) == 1:
                return found[0]
        return f

    def variants_before(self, step, arm):
        """The variants that the arms before the last one of a match took."""
        found = []
        for p, a in zip(self.names.places, self.names.arms):
            if p[2] and norm(p[2][0]) == step and a and a[0] != arm:
                m = re.match(r"in-([A-Z]\w*)$", a[0])
                if m and m.group(1) not in found:
                    found.append(m.group(1))
        return found

    def clause(self, path, fields):
        """Clauses were a pair whose second part was the pair of the others."""
        fields = field_names(fields, self.say)
        k, rest = 0, path[1:]
        while k < len(fields) - 1 and rest[:1] == ["1"]:
            k, rest = k + 1, rest[1:]
        if k == len(fields) - 1:
            return [path[0], fields[k]] + rest
        if rest[:1] == ["0"]:
            return [path[0], fields[k]] + rest[1:]
        if k or rest:
            self.say(f"{'.'.join(path)}: the clauses {', '.join(fields[k:])} stand as one")
        return path

    def parts(self, path):
        """The fields of a path that was a tuple and is a record today."""
        f = norm(path[0])
        if f == "requires" and len(path) == (2 if self.names.cycle else 1) and self.names.pre:
            return field_names(self.names.pre, self.say)
        if len(path) == 2 and path[1] == "ensures" and f in self.steps and self.names.clauses[self.steps[f]]:
            return field_names(self.names.clauses[self.steps[f]], self.say)
        return None


def context_lemma(decl, names, cycle, say):
    """A local lemma over an old context: over the record of that place today. Returns its text and the place's name."""
    text = "\n".join(decl.lines)
    m = re.search(r"\((\S+) : (?:lts|[^\s.()]+[-_]lts)\.(\S+?)(\s(?:[^()]|\([^()]*\))*)?\)", text)
    before, eqs = decl.equations()
    if not m or m.group(2) not in names.at or not eqs:
        say(f"the local lemma {decl.name} takes a context")
        return None, None
    var, old = m.group(1), m.group(2)
    new = names.place_names[names.at[old]]
    kept = names.cycle
    t = " t" if cycle else ""
    at = decl.type.index(m.group(0)) if m.group(0) in decl.type else None
    if at is None:
        say(f"the local lemma {decl.name} takes a context")
        return None, None
    rest = decl.type[at + len(m.group(0)):]
    front = decl.type[:at] + ("{t : ℕ} " if cycle else "")
    one = lambda body, v: flat(body, v, names, old, say, name=v)
    lines = list(decl.comment) + [f"{decl.marks}{decl.name} : {front}({var} : {new}{t}){one(rest, var)}"] + before
    place = len([x for x in re.findall(r"\([^:()]+ :", decl.type[:at])])
    for params, body in eqs:
        v = params[place] if place < len(params) else var
        lines.append(" ".join([decl.name] + params) + " =" + one(body, v))
    names.cycle = kept
    return "\n".join(lines), new


def flat(body, var, names, place, say, goal=None, name="c", whole=None):
    """An answer's body over the flat context `c`."""
    paths = Paths(names, place, say)
    alias = {var: []}
    depth_of = {var: 0}
    hidden = []
    out, depth = [], 0
    toks = tokens(body)
    i = 0
    while i < len(toks):
        t = toks[i]
        if t in "([{" and len(t) == 1:
            depth += 1
        elif t in ")]}" and len(t) == 1:
            depth -= 1
            while hidden and hidden[-1][0] > depth:
                _, b, was = hidden.pop()
                alias[b] = was
        elif t == "λ":
            k = i + 1
            binder = []
            while k < len(toks) and toks[k] != ".":
                if re.match(WORD + "$", toks[k]) and toks[k - 1] != ":" and toks[k] in alias:
                    binder.append(toks[k])
                k += 1
            for b in binder:
                if b in alias:
                    hidden.append((depth, b, alias.pop(b)))
        elif t == "let":
            m = re.match(r"let\s+([^\s:=]+)\s+=\s+(\S+)\s+in(?=\s)", "".join(toks[i:i + 12]))
            if m:
                head, *fields = m.group(2).split(".")
                if head in alias:
                    path = old_path(alias[head], fields)
                    bound = m.group(1)
                    count, seen = 0, ""
                    while seen != m.group(0):
                        seen += toks[i + count]
                        count += 1
                    if not path:  # an ancestor context: the let goes
                        alias[bound] = []
                        depth_of[bound] = depth_of[head] + fields.count("before")
                        i += count
                        if i < len(toks) and toks[i].isspace():
                            if out and out[-1].isspace() and "\n" in out[-1]:
                                i += 1
                            elif "\n" not in toks[i]:
                                i += 1
                        continue
                    new = paths.resolve(path)
                    if new is None:
                        say(f"{m.group(2)}: no step {path[0]} today")
                        new = path
                    out.append(f"let {bound} = {name}.{'.'.join(new)} in")
                    alias[bound] = path
                    i += count
                    continue
            m = re.match(r"let\s+([^\s:=]+)\s", "".join(toks[i:i + 5]))
            if m and m.group(1) in alias:
                alias.pop(m.group(1))
        head, *fields = t.split(".")
        if head in alias and (not out or out[-1] != "."):
            path = old_path(alias[head], fields)
            if not path:
                up = depth_of.get(head, 0) + fields.count("before")
                if goal and up < len(paths.chain) and names.place_names:
                    here = names.place_names[paths.chain[up]]
                    out.append(f"(goal.at.{goal} {'t ' if names.cycle else ''}c).{here}")
                else:
                    say(f"the context {t} stands whole")
                    out.append(t)
            else:
                new = paths.resolve(path)
                if new is None:
                    say(f"{t}: no step {path[0]} today")
                    new = path
                fields_of = paths.parts(path)
                if fields_of:
                    whole = ".".join([name] + new) if not alias[head] else t
                    out.append(nested([f"{whole}.{x}" for x in fields_of]))
                elif alias[head]:
                    base = paths.resolve(alias[head]) or alias[head]
                    if new[:len(base)] == base:
                        out.append(".".join([head] + new[len(base):]))
                    else:
                        out.append(".".join([name] + new))
                else:
                    out.append(".".join([name] + new))
        else:
            if t == "κs":
                say("κs is used")
            out.append(t)
        i += 1
    body = "".join(out)
    # of `!x`, today's `.true` is that x is false
    for _ in range(2):
        body = re.sub(r"\(not-(true|false) _ (c\.[^\s()]+\.\1)-raw\)", r"\2", body)
        body = re.sub(r"\bnot-(true|false) _ (c\.[^\s()]+\.\1)-raw(?=[\s)]|$)", r"\2", body)
    body = re.sub(r"=\s*\n\s*\n", "=\n", body)
    m = re.search(r"let (\S+) = c\.decreases in\s*", body)
    if m and not re.search(r"(?<![\w.-])" + re.escape(m.group(1)) + r"(?![\w-])", body[m.end():]):
        body = body[:m.start()] + body[m.end():]
    return body


def old_path(start, fields):
    """A path in the old context: `before` steps over contexts only."""
    path = list(start)
    for f in fields:
        if f == "before" and not path:
            continue
        path.append(f)
    return path


def nested(parts):
    """Parts as a pair of the first and the pair of the others."""
    return parts[0] if len(parts) == 1 else f"({parts[0]}, {nested(parts[1:])})"


def split_lets(body):
    """The `let .. in` in front, and the rest."""
    toks = tokens(body)
    i, cut = 0, 0
    while True:
        while i < len(toks) and toks[i].isspace():
            i += 1
        if i >= len(toks) or toks[i] != "let":
            break
        depth, nest = 0, 0
        while i < len(toks):
            t = toks[i]
            if len(t) == 1 and t in "([{":
                depth += 1
            elif len(t) == 1 and t in ")]}":
                depth -= 1
            elif t == "let" and depth == 0:
                nest += 1
            elif t == "in" and depth == 0:
                nest -= 1
                if nest == 0:
                    i += 1
                    break
            i += 1
        cut = i
    return "".join(toks[:cut]), "".join(toks[cut:])


def parts_of_tuple(text):
    """The entries of a tuple, or None."""
    text = text.strip()
    if not text.startswith("("):
        return None
    depth, now, out = 0, "", []
    for k, ch in enumerate(text):
        if ch in "([{":
            depth += 1
            if depth == 1:
                continue
        elif ch in ")]}":
            depth -= 1
            if depth == 0:
                if k != len(text) - 1:
                    return None
                break
        if ch == "," and depth == 1:
            out.append(now.strip())
            now = ""
        else:
            now += ch
    if now.strip():
        out.append(now.strip())
    return out if len(out) > 1 else None


def as_record(body, fields, say):
    """An answer that was a tuple, as the record that its goal is today."""
    fields = field_names(fields, say)
    if len(fields) < 2:
        return body
    lets, last = split_lets(body)
    entries = []
    rest = last
    while len(entries) < len(fields) - 1:
        found = parts_of_tuple(rest)
        if not found:
            break
        need = len(fields) - len(entries)
        if len(found) >= need:
            entries += found[:need - 1]
            tail = found[need - 1:]
            entries.append(tail[0] if len(tail) == 1 else "(" + ", ".join(tail) + ")")
            break
        entries += found[:-1]
        rest = found[-1]
    if len(entries) == len(fields):
        return lets + ("\n    " if "\n" in body else " ") + "record { " + "; ".join(f"{f} = {e}" for f, e in zip(fields, entries)) + " }"
    if last.strip().startswith("record"):
        return body
    if re.match(r"\s*(omega|search|grind|cc)\b", last) and not entries:
        return lets + " record { " + "; ".join(f"{f} = {last.strip()}" for f in fields) + " }"
    if re.match(r"\s*(rw|simp|elim|by-test|subst)\b", last):
        say(f"a record of {', '.join(fields)} is asked: {' '.join(last.split())[:80]}")
    joined = (lets.rstrip() + "\n    " if lets.strip() else "\n    ")
    return joined + f"let all = {last.strip()} in\n    record {{ " + "; ".join(f"{f} = all{'.1' * k}{'.0' if k < len(fields) - 1 else ''}" for k, f in enumerate(fields)) + " }"


def tidy_body(body):
    """A body that was spread only for its lets goes on one line where it fits."""
    lines = body.split("\n")
    if len(lines) == 2 and lines[0].strip() == "" and len(lines[1].strip()) < 100:
        return " " + lines[1].strip()
    return body


def is_search(body):
    return re.fullmatch(r"\(?\s*(search \S+|tt)\s*\)?", body.strip()) is not None


def uses_steps(body, var):
    found = set()
    for t in tokens(body):
        parts = t.split(".")
        if parts[0] == var:
            i = 1
            while i < len(parts) and parts[i] == "before":
                i += 1
            if i < len(parts):
                found.add(norm(parts[i]))
    return found


def align(old, names, say):
    """For each old answer, the index of its goal in names.needs, or None."""
    need = [goal_norm(n[0]) for n in names.needs]
    n, m = len(old), len(need)
    if n == m:
        clash = [(o["goal"], names.needs[i][0]) for i, o in enumerate(old) if o["goal"] and goal_norm(o["goal"]) != need[i]]
        if not clash:
            return list(range(n))
    # the best alignment in order
    def score(i, j):
        o = old[i]
        if o["goal"]:
            if goal_norm(o["goal"]) == need[j]:
                return 10
            return -5
        place = names.asked[j][0]
        mine = {norm(names.places[k][2][0]) for k in names.chain(place) if names.places[k][2]}
        want = {s for s in o["steps"] if s.replace("-", "_") not in HEAD}
        if not want <= mine:
            return -5
        s = 2
        if o["direct"] and o["direct"] in {norm(names.places[k][2][0]) for k in names.chain(place)[:1] if names.places[k][2]}:
            s += 1
        if o["kappa"] != need[j].endswith("requires") and not re.search(r"requires-\d+$", need[j]):
            s -= 4
        return s
    best = [[0] * (m + 1) for _ in range(n + 1)]
    for i in range(n - 1, -1, -1):
        for j in range(m - 1, -1, -1):
            best[i][j] = max(best[i + 1][j], best[i][j + 1], best[i + 1][j + 1] + score(i, j))
    out, i, j = [None] * n, 0, 0
    while i < n and j < m:
        if best[i][j] == best[i + 1][j + 1] + score(i, j) and score(i, j) > 0:
            out[i] = j
            i += 1
            j += 1
        elif best[i][j] == best[i][j + 1]:
            j += 1
        else:
            i += 1
    for i, o in enumerate(old):
        if out[i] is None and not is_search(o["body"]):
            g = o["goal"] or f"the inline answer {i + 1}"
            if goal_norm(o["goal"] or "") in names.settled:
                continue
            say(f"{g}: no goal for it today: {' '.join(o['body'].split())[:100]}")
    return out


def open_module(decls, names, key, say):
    """The declarations of a recursion's file, those of its module too, and its measure in today's form."""
    out, measure = [], None
    own = key.rsplit(".Lts-", 1)[-1]
    for d in decls:
        if re.match(r"module _ \(t : ", d.lines[0]):
            lines = [l[2:] if l.startswith("  ") else l for l in d.lines[1:]]
            _, _, inner = read_lines(lines)
            out += inner
        elif d.name and d.name.startswith("μ-"):
            _, eqs = d.equations()
            params = next((v for k, v in names.params.items() if norm(k.rsplit("::", 1)[-1]) == norm(own)), None)
            if not eqs or params is None:
                say(f"the measure {d.name} is yours to write")
                continue
            (_, a), body = eqs[0][0], eqs[0][1]

            def argument(m):
                k = m.group(1).count(".1")
                return "l." + params[k]

            body = re.sub(r"(?<![\w.])" + re.escape(a) + r"((?:\.1)*)\.0\b", argument, body)
            if re.search(r"(?<![\w.])" + re.escape(a) + r"\.", body):
                say(f"the measure {d.name}: an argument that was not found")
            measure = "\n".join(d.comment + [f"abbrev pub decreases-{own} : goal.decreases-{own}", f"decreases-{own} l ={body}"])
        elif d.name and re.search(r"In \d+ \S+\.ps|[-_]lts\.Claims|\.Lts[-_]\S+", d.type):
            continue
        else:
            out.append(d)
    return out, measure


def convert(path, key, names, said):
    folder = os.path.dirname(path)
    here = folder.split("/", 1)[1] if folder.startswith("crates/") else folder

    def say(text):
        said.append(f"{here}: {text}")

    head, uses, decls = read(path)
    cycle = names.cycle = any(".Lts-" in u for u in uses)
    measure = None
    if cycle:
        decls, measure = open_module(decls, names, key, say)
    spec = None
    for d in decls:
        if d.name and re.search(TIE + r"\.spec\b", "\n".join(d.rest)):
            spec = d
    if spec is None:
        say("no tie.spec, left as it is")
        return False
    spec_args = spec_list("\n".join(spec.rest))
    measures = {d.name: d for d in decls if d.name and re.match(TIE + r"\.(invariant|decreases)-", d.type)}
    answers = {d.name: d for d in decls if d.name and re.match(TIE + r"\.Need-", d.type)}
    locals_ = [d for d in decls if d is not spec and d.name not in measures and d.name not in answers]
    places_used = []
    for d in locals_:
        if re.search(r"(?:\blts|[-_]lts|tie)\.[A-Z]", d.text()):
            text, place_name = context_lemma(d, names, cycle, say)
            if text:
                again = read_lines(text.split("\n"))[2][0]
                d.lines, d.type, d.rest = again.lines, again.type, again.rest
                places_used.append(place_name)
    # the spec's own `unfolding` holds for the answers that stand in it
    unfolds = [l for l in spec.rest if l.startswith("unfolding")]
    old = []
    for a in spec_args:
        if cycle:
            a = re.sub(r"^\((\S+) t\)$", r"\1", a)
            if a not in measures and a not in answers and not a.startswith("(λ"):
                continue
        if a in measures:
            continue
        if a in answers:
            d = answers[a]
            before, eqs = d.equations()
            if not eqs or len(eqs) != 1 or not eqs[0][0]:
                say(f"{a}: not one equation over c")
                continue
            params, body = eqs[0]
            goal = re.match(TIE + r"\.Need-(\S+)", d.type).group(1)
            comment = d.comment
        elif a.startswith("("):
            m = re.match(r"\(\s*λ\s+([^.]*)\.(?=\s)(.*)\)$", a, re.S)
            if not m:
                say(f"an answer that is no λ: {a[:60]}")
                continue
            params, body, goal, before, comment = m.group(1).split(), m.group(2), None, unfolds, []
        else:
            say(f"unknown argument {a}")
            continue
        kappa = "κs" in params
        more = [x for x in params[1:] if x != "κs"]
        if more:
            body = f" λ {' '.join(more)}. {body.strip()}"
        steps = uses_steps(body, params[0])
        d = None
        m = re.search(re.escape(params[0]) + r"\.([^\s.)]+)", body)
        if m and m.group(1) != "before":
            d = norm(m.group(1))
        old.append(dict(goal=goal, params=params, body=body, before=before, comment=comment, steps=steps, direct=d,
                        kappa=kappa))
    place = align(old, names, say)
    out_inv = []
    for d in decls:
        if d.name in measures:
            t = turn_invariant(d, names, say)
            if t:
                out_inv.append(t)
    out_ans = []
    for o, j in zip(old, place):
        if j is None or is_search(o["body"]) and not o["before"]:
            continue
        new = names.needs[j][1]
        g = new

        def say_here(text, g=g):
            say(f"{g}: {text}")

        body = flat(o["body"], o["params"][0], names, names.asked[j][0], say_here, goal=new)
        if names.goal_clauses.get(goal_norm(names.needs[j][0])):
            body = as_record(body, names.goal_clauses[goal_norm(names.needs[j][0])], say_here)
        body = tidy_body(body)
        out_ans.append("\n".join(o["comment"] + [f"pub {new} : goal.{new}"] + o["before"] + [f"{new} {'t ' if cycle else ''}c ={body}"]))
    if measure:
        out_inv.append(measure)
    module = here.replace("/", ".")
    # local lemmas go where they are used
    inv_text, ans_text = "\n\n".join(out_inv), "\n\n".join(out_ans)

    def names_in(d):
        found = {d.name} if d.name else set()
        for line in d.lines:
            m = re.match(r"\s+(?:abbrev |pub )*(\S+) :(?:\s|$)", line)
            if m:
                found.add(m.group(1))
        return found

    in_inv, need_inv = [], words_of(inv_text)
    for d in reversed(locals_):
        if names_in(d) & need_inv:
            in_inv.insert(0, d)
            need_inv |= words_of(d.text())
    in_ans = [d for d in locals_ if d not in in_inv]
    shared = [n for d in in_inv for n in names_in(d) if n in words_of(ans_text + "\n".join(d.text() for d in in_ans))]

    def write(name, decls_text, alias, more):
        text = "\n\n".join(decls_text)
        keep = used_uses([u for u in uses if not u.endswith(" as tie") and not u.endswith(".Statement.{statement}")], text)
        lines = head + keep + more + [f"use Rattle.{module}.{alias} as goal", "", text, ""]
        open(os.path.join(folder, name), "w", encoding="utf-8").write("\n".join(lines))

    if out_inv:
        for d in in_inv:
            d.lines = [re.sub(r"^(\s*(?:abbrev |unfoldable )*)(\S+) :(?=\s|$)", lambda m: m.group(1) + "pub " + m.group(0)[len(m.group(1)):] if m.group(2) in shared else m.group(0), l) for l in d.lines]
        write("Invariants.antt", [d.text() for d in in_inv] + out_inv, "Given", [])
    if out_ans:
        if places_used:
            more_places = [f"use Rattle.{module}.Goals.{{{', '.join(sorted(set(places_used)))}}}"]
        else:
            more_places = []
        more = more_places + [f"use Rattle.{module}.Invariants.{{{', '.join(sorted(set(shared)))}}}"] if shared else more_places
        write("Answers.antt", [d.text() for d in in_ans] + out_ans, "Goals", more)
    os.remove(path)
    try:
        os.removedirs(folder) if not os.listdir(folder) else None
    except OSError:
        pass
    return True


IS_GIVEN = False


def crate(name):
    said = []
    where = f"crates/{name}"
    proofs = [os.path.join(d, "Proof.antt") for d, _, fs in os.walk(f"{where}/proofs") if "Proof.antt" in fs]
    if not proofs:
        print(f"{name}: nothing to convert")
        return
    out = f"/tmp/conv-names-{name}"
    for lib in ("lib.rt", "main.rt"):
        p = f"{where}/src/{lib}"
        if os.path.exists(p):
            s = open(p, encoding="utf-8").read()
            if "#![tactic(" not in s:
                lines, i = s.split("\n"), 0
                while lines[i].startswith("//"):
                    i += 1
                lines.insert(i, "#![tactic(auto)]")
                open(p, "w", encoding="utf-8").write("\n".join(lines))
    names_file = os.path.join(out, "names.json")
    if not IS_GIVEN:
        if os.path.exists(names_file):
            os.remove(names_file)
        run = subprocess.run(["rt", "check", "--generated", out, "--old-names"], cwd=where, capture_output=True, text=True)
    if not os.path.exists(names_file):
        print(f"{name}: no names.json from `rt check --generated {out} --old-names`:")
        print((run.stdout + run.stderr)[-1500:])
        return
    data = json.load(open(names_file, encoding="utf-8"))
    done = 0
    for path in sorted(proofs):
        f = os.path.dirname(path)[len(f"{where}/proofs/"):].replace("/", ".")
        key = f"Rattle-{name}-proofs.{f}.Lts"
        if key not in data and f.split(".")[-1].startswith("+"):
            found = [k for k in data if k.startswith(f"Rattle-{name}-proofs.{f}.Lts-")]
            if len(found) == 1:
                key = found[0]
            else:
                said.append(f"{name}/proofs/{f}: a cycle of {len(found)} functions, left as it is")
                continue
        if key not in data:
            said.append(f"{name}/proofs/{f}: no names for it (key {key})")
            continue
        done += convert(path, key, Names(data[key]), said)
    for line in said:
        print(line)
    print(f"{name}: {done} of {len(proofs)} files converted, {len(said)} things said")


def main():
    global IS_GIVEN
    IS_GIVEN = "--given" in sys.argv
    sys.argv = [it for it in sys.argv if it != "--given"]
    if len(sys.argv) < 2:
        print(__doc__)
        return 2
    for name in sys.argv[1:]:
        crate(name)
    return 0


if __name__ == "__main__":
    sys.exit(main())
