#!/usr/bin/env python3
"""Turns proofs that walk a function's code by hand (proofs/F/Proof.antt) into today's Invariants.antt and Answers.antt.

usage: python3 tools/to_answers.py CRATE [FUNCTION..]      at the top of the repository; the crates below must be proved

Goals are matched by their order; places and steps by their old names, which `rt check --generated DIR --old-names` lists. A goal that was
answered by a search alone is left to the check. What stays to be done by hand the check says.
"""

import difflib
import json
import os
import re
import shutil
import subprocess
import sys
import tempfile

W = r"[^\s(){}.;,@\"«»\[\]]+"
VAR = r"[A-Za-z_][\w'₀-₉-]*"
FIELDS = r"(?:\.(?:«[^»]*»|[^\s(){}.;,@\"«»\[\]]+))+"
plain = lambda s: s.replace("_", "-")


def step(s):
    """A step's old name, whatever the scripts that respell names by their text made of it."""
    s = re.sub(r"-lem$", "", plain(s))
    return re.sub(r"Is(?=[A-Z])", "", s).lower()


DIRECT = {"args": "args", "pre": "requires", "requires": "requires", "lifetimes": "lifetimes", "ranges": "ranges", "well_formed": "well_formed", "well-formed": "well_formed", "type_inv": "type_inv"}
TEST = {"taken": "true", "left": "false"}


def contracts():
    """The names of the clauses of each function, by crate and name, for each kind of which it has several."""
    found = {}
    for crate in os.listdir("crates"):
        for folder, _, files in os.walk(os.path.join("crates", crate, "src")):
            for f in files:
                text = re.sub(r"//[^\n]*", "", open(os.path.join(folder, f), encoding="utf-8").read()) if f.endswith(".rt") else ""
                for m in re.finditer(r"\bfn (\w+)[^\n]*?(?:\n|\{)((?:.*\n)*?)(?=\{|\}|\s*(?:pub|fn)\b)", text):
                    head = text[m.start() : text.find("\n{", m.start()) + 1 or len(text)]
                    for kind in ("requires", "ensures"):
                        some = re.findall(rf"(?m)^\s+{kind} (\w+) \{{", head)
                        if len(some) > 1:
                            found.setdefault((crate, m[1], kind), some)
    return found


CLAUSES = {}


def clauses(path, kind):
    parts = path.split("::")
    return CLAUSES.get((parts[0], parts[-1], kind))


def as_record(text, labels):
    """Facts that were a tuple are a record by the clauses' names today."""
    end = text.rstrip()
    if not labels or not end.endswith(")"):
        return text
    deep, k = 0, len(end) - 1
    while k >= 0:
        deep += (end[k] in ")]}") - (end[k] in "([{")
        if not deep:
            break
        k -= 1
    parts, deep, part = [], 0, ""
    for ch in end[k + 1 : -1]:
        deep += (ch in "([{") - (ch in ")]}")
        if ch == "," and not deep:
            parts.append(part)
            part = ""
        else:
            part += ch
    if part.strip():
        parts.append(part)
    if len(parts) != len(labels):
        return text
    return end[:k] + "(record { " + "; ".join(f"{n} = {p.strip()}" for n, p in zip(labels, parts)) + " })\n"


def name_of(first):
    m = re.match(rf"(?:(?:abbrev|pub|unfoldable) )*({W}) :", first)
    return m[1] if m else None


def continues(lines, start, at):
    """Whether the line begins another clause of the declaration that begins at start, or its 'unfolding' line."""
    name = name_of(lines[start])
    l = lines[at]
    if name is None:
        return False
    return l.startswith("unfolding ") or re.match(rf"{re.escape(name)}(?=\s|$)(?! :)", l) is not None


def parse(text):
    """Comment lines above the imports, imports, and declarations with the comment lines above each."""
    uses, decls, head, pending = [], [], [], []
    lines, i = text.split("\n"), 0
    while i < len(lines):
        l = lines[i]
        if l.startswith("use "):
            j = i
            while j + 1 < len(lines) and lines[j + 1][:1].isspace() and lines[j + 1].strip():
                j += 1
            uses.append("\n".join(lines[i : j + 1]))
            i = j + 1
        elif l.startswith("--") or not l.strip():
            if not uses and not decls and l.strip():
                head.append(l)
            else:
                pending.append(l)
            i += 1
        else:
            j = i
            while j + 1 < len(lines) and (not lines[j + 1].strip() or lines[j + 1][:1].isspace() or continues(lines, i, j + 1)):
                j += 1
            while not lines[j].strip():
                j -= 1
            decls.append([pending, lines[i : j + 1]])
            pending = []
            i = j + 1
    return head, uses, decls


class Places:
    """What the check makes of a function's places: the record of each, what it stands above, and what an answer is given there."""

    def __init__(self, names, folder):
        self.names = names
        self.parent, self.step, self.callee, self.field = {}, {}, {}, {}
        for p in names["places"]:
            self.parent[p[0]], self.step[p[0]], self.callee[p[0]] = p[1], p[2][0], p[3]
        lts = open(os.path.join(folder, "Lts.antt"), encoding="utf-8").read()
        for m in re.finditer(r"pub record (\S+) : Type 0 where\n\s+pub before : (\S+)\n\s+pub open before use \*\n(?:\s+pub (\S+) :)?", lts):
            self.field[m[1]] = m[3] or ""
        self.records = set(re.findall(r"pub record (\S+)", lts))
        self.given, self.wrapped, self.args = {}, {}, []
        goals = open(os.path.join(folder, "Goals.antt"), encoding="utf-8").read()
        for m in re.finditer(r"abbrev pub (\S+) : Type 0\n\1 =\s+((?:Lts|View)\.\S+)((?:\s+(?:Tie|Reads|the-)\S*)*)\n", goals):
            self.given[m[1]] = m[2]
            if len(m[3].split()) > len(self.args):
                self.args = m[3].split()
        self.new = dict(zip([p[0] for p in names["places"]], names["places_by_name"]))
        self.arms = {p[0]: a for p, a in zip(names["places"], names["arms"]) if a}
        # A place that a helper speaks of: inside an arm of several steps it is the last of them, and so many steps above it.
        self.by_plain = {}
        for p in names["places"]:
            self.by_plain.setdefault(plain(p[0]), self.last(p[0]))

    def last(self, raw):
        low, n = raw, 0
        while low in self.arms:
            below = [q for q, up in self.parent.items() if up == low and q in self.arms and self.arms[q][0] == self.arms[low][0] and self.arms[q][1] > self.arms[low][1]]
            if len(below) != 1:
                break
            low, n = below[0], n + 1
        return low, n

    def wraps(self, raw):
        return self.given.get(self.new[raw], "Lts.").startswith("View.")

    def up(self, raw, n):
        while n and raw:
            raw, n = self.parent.get(raw), n - 1
        return raw

    def chain(self, raw, n):
        found = []
        while n and raw:
            found.append(raw)
            raw, n = self.parent.get(raw), n - 1
        return found

    def climb(self, raw, d):
        """How many records further up the place d steps above stands, since an arm has its steps in one; and what is left where it stands inside one."""
        n = 0
        while d:
            size = self.arms[raw][1] if raw in self.arms else 1
            if size > d:
                break
            raw, d, n = self.up(raw, size), d - size, n + 1
        return n, raw, d

    def owner(self, raw, name):
        """The place at or above raw whose own step has this old name."""
        while raw:
            if step(self.step.get(raw) or "") == step(name):
                return raw
            raw = self.parent.get(raw)
        return None


class Function:
    def __init__(self, names, folder, text, own, path):
        self.names, self.own, self.path_of = names, own, path
        self.places = Places(names, folder)
        self.head, self.uses, self.decls = parse(text)
        self.loops = {plain(l[0][0]): (l, c) for l, c in zip(names["loops"], names["changed"])}
        self.renamed = {}
        for old, new in names["args"]:
            m = re.match(r"\.args \.(\S+)", old)
            if m:
                self.renamed[m[1]] = new.split(".")[-1]
        self.cited = {}
        self.dropped, self.partly = set(), False
        self.returning = {}  # helpers that lead from a place to a place
        self.taking = {}  # helpers: the places of their arguments, by position

    # ---- fields

    def fields_after(self, place, parts):
        """What stands behind a step."""
        out, i = [], 0
        while i < len(parts):
            p = parts[i]
            if i == 0:
                if re.search(r"(^if-|-test$)", self.places.field.get(place) or ""):
                    p = TEST.get(p, p)
                p = {"inv": "invariant", "last": "new"}.get(p, p)
                if p == "ensures" and self.places.callee.get(place) and len(parts) > 1 and parts[1].isdigit():
                    some = clauses(self.places.callee[place], "ensures")
                    if some:
                        # The facts were pairs within pairs.
                        n = 0
                        while n < len(some) - 1 and 1 + n < len(parts) and parts[1 + n] == "1":
                            n += 1
                        out += ["ensures", some[n]]
                        i = 1 + n + (n < len(some) - 1)
                        continue
                if p == "new" and self.places.callee.get(place):
                    params = self.names["params"].get(self.places.callee[place])
                    k, n = i + 1, 0
                    while k < len(parts) and parts[k] == "1":
                        k, n = k + 1, n + 1
                    if params and k < len(parts) and parts[k] == "0" and n < len(params):
                        out += ["new", params[n]]
                        i = k + 1
                        continue
            out.append(p)
            i += 1
        return "".join("." + o for o in out)

    def path(self, base, at, parts):
        """The path from a place, behind the text base. at: the place of the record that base is, how many steps further up its old counterpart
        stood, and whether base is what an answer is given, which may wrap the record."""
        P = self.places
        place, above, view = at
        d = above
        while parts and parts[0] == "before":
            d, parts = d + 1, parts[1:]
        wrap = 1 if view and P.wraps(place) else 0
        if not parts:
            n, to, left = P.climb(place, d)
            return base + ".before" * (n + (wrap if n or view else 0)), (to, left, False)
        if parts[0] in ("pre", "requires") and len(parts) > 1 and parts[1].isdigit():
            some = clauses(self.path_of, "requires")
            if some and int(parts[1]) < len(some):
                parts = ["requires", some[int(parts[1])]] + parts[2:]
        if parts[0] in DIRECT:
            if parts[0] in ("args", "ranges") and len(parts) > 1 and parts[1] in self.renamed:
                parts = [parts[0], self.renamed[parts[1]]] + parts[2:]
            return base + "." + ".".join([DIRECT[parts[0]]] + parts[1:]), None
        owner = P.owner(P.up(place, d), parts[0]) or P.owner(place, parts[0])
        if owner is None:
            return base + ".before" * d + "." + ".".join(parts), None
        low = place
        while low and low != owner:
            arm = P.arms.get(low)
            if arm and owner in P.chain(low, arm[1]):
                break
            low = P.parent.get(low)
        arm = P.arms.get(low) if low else None
        if arm:
            best, self.partly = None, False
            for own, old, sub in arm[2]:
                self.partly |= step(old) == step(parts[0]) and len(parts) > 1 and len(sub) > len(parts) - 1 and sub[: len(parts) - 1] == parts[1:]
            for own, old, sub in arm[2]:
                if step(old) == step(parts[0]) and parts[1 : 1 + len(sub)] == sub and (best is None or len(sub) > len(best[1])):
                    best = (own, sub)
            if best:
                return f"{base}.{arm[0]}.{best[0]}" + self.fields_after(owner, parts[1 + len(best[1]) :]), None
        return f"{base}.{P.field.get(owner) or parts[0]}" + self.fields_after(owner, parts[1:]), None

    def place_of(self, text, env):
        """The place that a whole expression leads to, if it leads to one."""
        text = text.strip()
        m = re.fullmatch(rf"({VAR})((?:\.before)*)", text)
        if m and m[1] in env and len(env[m[1]]) == 3:
            return self.path(m[1], env[m[1]], ["before"] * m[2].count(".before"))[1]
        m = re.match(rf"({VAR})\s", text)
        if m and m[1] in self.returning:
            return (*self.returning[m[1]], False)
        m = re.fullmatch(r"\((.*)\)((?:\.before)*)", text, re.S)
        if m:
            inner = self.place_of(m[1], env)
            return self.path("", inner, ["before"] * m[2].count(".before"))[1] if inner else None
        return None

    def turn(self, text, env):
        env = dict(env)
        # A pattern for several clauses, part by part.
        text = re.sub(
            rf"\blet \(([^()=]*)\) = ((?:{VAR}|\([^()]*\))(?:{FIELDS})?\.(?:ensures|requires|pre)) in\b",
            lambda m: " ".join(f"let {n.strip()} = {m[2]}.{k} in" for k, n in enumerate(m[1].split(",")) if n.strip() != "_"),
            text,
        )
        for m in re.finditer(rf"\(((?:{VAR} )+): tie\.({W})\)", text):
            raw = self.places.by_plain.get(plain(m[2]))
            env.update({n: (*raw, False) for n in m[1].split() if raw and n not in env})
        for m in re.finditer(rf"(?m)^ +(?:abbrev )?({VAR}) : tie\.({W})$", text):
            raw = self.places.by_plain.get(plain(m[2]))
            if raw:
                env.setdefault(m[1], (*raw, False))
        alone = set()
        token = re.compile(
            rf"(?P<let>\blet ({VAR})(?P<type> : [^=\n]*)? = )|(?P<tie>\btie\.({W}))|(?<![\w.'₀-₉-])(?P<head>{VAR})(?P<fields>{FIELDS})?|(?P<close>\))(?P<after>{FIELDS})"
        )

        def one(m):
            if m["let"]:
                end = re.compile(r"\s+in\b").search(text, m.end())
                got = self.place_of(text[m.end() : end.start()], env) if end else None
                name = m[2]
                env.pop(name, None)
                if got:
                    env[name] = got
                rhs = re.fullmatch(rf"({VAR})({FIELDS})", text[m.end() : end.start()].strip()) if end else None
                if not got and rhs and rhs[1] in env and len(env[rhs[1]]) == 3:
                    self.partly = False
                    self.path(rhs[1], env[rhs[1]], rhs[2][1:].split("."))
                    if self.partly:
                        # The parts of what an arm is given have names of their own today.
                        env[name] = (rhs[1], env[rhs[1]], rhs[2][1:].split("."), None)
                        alone.add(m.end())
                return f"let {name}{self.turn(m['type'], env) if m['type'] else ''} = "
            if m["tie"]:
                raw = self.places.by_plain.get(plain(m[5]))
                if raw is None:
                    return "goal." + m[5]
                raw = raw[0]
                self.cited[self.places.new[raw]] = ("Past-" if f"Past-{raw}" in self.places.records else "") + raw
                return self.places.new[raw]
            if m["close"]:
                deep, k = 0, m.start()
                while k >= 0:
                    deep += (text[k] == ")") - (text[k] == "(")
                    if not deep:
                        break
                    k -= 1
                got = self.place_of(text[k + 1 : m.start()], env)
                if not got:
                    return m[0]
                return self.path(")", got, m["after"][1:].split("."))[0]
            head, fields = m["head"], m["fields"]
            if m.start() in alone:
                return head
            if head not in env:
                return m[0]
            if len(env[head]) == 4:
                base, at, parts, _ = env[head]
                return self.path(base, at, parts + (fields[1:].split(".") if fields else []))[0]
            return self.path(head, env[head], fields[1:].split(".") if fields else [])[0]

        return token.sub(one, text)

    # ---- declarations

    def strip(self, text, args):
        """Places had the invariants and measures for arguments."""
        if not args:
            return text
        some = "|".join(sorted(map(re.escape, args), key=len, reverse=True))
        return re.sub(rf"(tie\.{W})((?:(?: +|\n +)(?:{some})(?![\w'-]))+)", r"\1", text)

    def callee_of(self, label, place):
        """The function whose call a goal is about."""
        name = step(re.sub(r"-requires.*$", "", label))
        for raw, callee in self.places.callee.items():
            if callee and self.places.parent.get(raw) == place and step(callee.split("::")[-1]) == re.sub(r"\d+$", "", name):
                return callee
        return None

    def binders(self, signature):
        """The places of the arguments of a helper, by position, with their names if they have some."""
        found = []
        t = signature.partition(" : ")[2]
        depth, part, parts = 0, "", []
        for k, ch in enumerate(t):
            depth += (ch in "({") - (ch in ")}")
            if ch == "→" and depth == 0:
                parts.append(part)
                part = ""
            else:
                part += ch
        for p in parts:
            p = p.strip()
            groups = re.findall(r"\(([^():]+) : (tie\.\S+|[^()]*(?:\([^()]*\)[^()]*)*)\)", p) if p.startswith("(") else []
            if groups:
                for names, kind in groups:
                    m = re.fullmatch(r"tie\.(\S+)", kind.strip())
                    for n in names.split():
                        found.append((n, self.places.by_plain.get(plain(m[1])) if m else None))
            else:
                m = re.fullmatch(r"tie\.(\S+)", p)
                found.append((None, self.places.by_plain.get(plain(m[1])) if m else None))
        m = re.fullmatch(r"\s*tie\.(\S+)\s*", part)
        return found, (self.places.by_plain.get(plain(m[1])) if m else None)

    def helper(self, lines):
        name = name_of(lines[0])
        found, to = self.binders(lines[0])
        m = re.fullmatch(rf"{re.escape(name)} ({VAR}) = \1((?:\.before)+)", " ".join(l.strip() for l in lines[1:]))
        if m and to and len(found) == 1 and found[0][1]:
            d, (low, above) = 0, found[0][1]
            goal = self.places.up(*to)
            while d < 99 and self.places.up(low, above + d) not in (goal, None):
                d += 1
            if self.places.up(low, above + d) == goal:
                n, place, left = self.places.climb(low, above + d)
                if (place, left) == to:
                    return self.turn(lines[0], {}) + f"\n{name} {m[1]} = {m[1]}" + ".before" * n
        k = 1
        while k < len(lines) and not re.match(rf"{re.escape(name)}(?=\s|$)", lines[k]) and not lines[k].startswith("unfolding "):
            k += 1
        signature = "\n".join(lines[:k])
        found, _ = self.binders(signature)
        out = self.turn(signature, {n: (*p, False) for n, p in found if n and p})
        body = []
        block = []
        for l in lines[k:]:
            if l.startswith("unfolding "):
                body.append(l)
                continue
            if re.match(rf"{re.escape(name)}(?=\s|$)", l) and block:
                body.append(self.clause(name, block, found))
                block = []
            block.append(l)
        if block:
            body.append(self.clause(name, block, found))
        return "\n".join([out] + body)

    def clause(self, name, lines, found):
        text = "\n".join(lines)
        head, eq, rest = text.partition(" =")
        env = {}
        for w, (_, p) in zip(head.split()[1:], found):
            if p and re.fullmatch(VAR, w):
                env[w] = (*p, False)
        return head + eq + self.turn(rest, env)

    def invariant(self, lines, kind, label):
        loop, changed = self.loops[plain(label)]
        name = name_of(lines[0])
        body = "\n".join(lines[1:])
        m = re.match(rf"{re.escape(name)}((?: [^=\s]+)*) =", body)
        params = m[1].split() if m else []
        targets = [f"l.initial.{v}" if c else f"l.{v}" for v, c in zip(loop[1], changed)] + [f"l.{v}" for v, c in zip(loop[1], changed) if c]
        rest, note = body[m.end() :] if m else body, ""
        if len(params) == len(targets):
            table = dict(zip(params, targets))
            rest = re.sub(rf"(?<![\w.'«-])({'|'.join(sorted(map(re.escape, params), key=len, reverse=True))})(?![\w'₀-₉»-])", lambda k: table[k[1]], rest)
        else:
            note = f"-- BY HAND: {params} for {targets}\n"
        new = f"{kind}-{loop[0][1]}"
        return f"{note}abbrev pub {new} : goal.{new}\n{new} l ={rest}"

    def turned(self):
        spec = next((d for _, d in self.decls if d[0].startswith("pub ") and "statement" in d[0]), None)
        order = re.search(r"tie\.spec\s+(.*)\)\s*$", "\n".join(spec), re.S) if spec else None
        if not order:
            return "no tie.spec"
        kinds = {}
        for _, lines in self.decls:
            m = re.match(rf"(?:abbrev )?({W}) : tie\.(Need-|invariant-|decreases-)(\S+)", lines[0])
            if m:
                kinds[m[1]] = (m[2], m[3])
        inner = [n for n, k in kinds.items() if k[0] != "Need-"]
        given = [w for w in re.sub(r"[()]", " ", order[1]).split() if kinds.get(w, ("", ""))[0] == "Need-"]
        needs = self.names["needs"]
        pairs = list(zip(given, range(len(needs))))
        if len(given) != len(needs):
            # Goals that are asked no more, or anew, stand between others that keep their old names.
            label = lambda s: re.sub(r"-\d+$", "", re.sub(r"^overflow-", "", step(s)))
            a, b = [label(kinds[g][1]) for g in given], [label(n[0]) for n in needs]
            pairs = [(given[x + k], y + k) for x, y, n in difflib.SequenceMatcher(None, a, b, False).get_matching_blocks() for k in range(n)]
            self.dropped = {g for g in given if g not in dict(pairs)}
        goal = {g: needs[k][1] for g, k in pairs}
        place = {g: self.names["asked_at"][k][0] for g, k in pairs}
        old = re.compile(rf"(?<![\w.'-])({'|'.join(sorted(map(re.escape, goal), key=len, reverse=True))})(?![\w'-])") if goal else None
        named = lambda s: old.sub(lambda m: goal[m[1]], s) if old else s
        for d in self.decls:
            d[1] = self.strip("\n".join(d[1]), inner).split("\n")
            name = name_of(d[1][0])
            if name and name not in kinds:
                k = 1
                while k < len(d[1]) and not re.match(rf"{re.escape(name)}(?=\s|$)", d[1][k]):
                    k += 1
                found, to = self.binders("\n".join(d[1][:k]))
                if to:
                    self.returning[name] = to
            for m in re.finditer(rf"(?m)^ +(?:abbrev )?({VAR}) : (?:tie\.{W} → )*tie\.({W})$", "\n".join(d[1])):
                raw = self.places.by_plain.get(plain(m[2]))
                if raw:
                    self.returning[m[1]] = raw
        # What invariants cite goes with them.
        bodies = {name_of(l[0]): "\n".join(l) for _, l in self.decls if name_of(l[0])}
        below, todo = set(), [n for n in inner]
        while todo:
            for w in set(re.findall(W, bodies[todo.pop()])):
                if w in bodies and w not in kinds and w not in below and "tie." not in bodies[w]:
                    below.add(w)
                    todo.append(w)
        invariants, answers = [], []
        for notes, lines in self.decls:
            if lines[0].startswith("pub ") and "statement" in lines[0]:
                continue
            name = name_of(lines[0])
            kind = kinds.get(name, ("", ""))
            note = "\n".join(notes).strip("\n")
            note = note + "\n" if note else ""
            text = "\n".join(lines)
            if name in self.dropped:
                continue
            if name in below:
                invariants.append(note + re.sub(r"^(abbrev )?(?!pub )", lambda m: (m[1] or "") + "pub ", text, count=1))
            elif kind[0] in ("invariant-", "decreases-"):
                invariants.append(note + self.invariant(lines, kind[0][:-1], kind[1]))
            elif kind[0] == "Need-":
                body = "\n".join(lines[1:])
                if re.fullmatch(rf"{re.escape(name)}(?: {W})* =\s*search (?:rules|needs)\s*", body):
                    continue
                body = re.sub(rf"(?m)^{re.escape(name)}((?: {W})*?)(?: κs)? =", rf"{name}\1 =", body)
                turned = []
                for part in re.split(rf"(?m)^(?={re.escape(name)}(?:\s|$))", body):
                    head, eq, rest = part.partition(" =")
                    words = head.split()
                    env = {words[1]: (place[name], 0, True)} if len(words) > 1 and re.fullmatch(VAR, words[1]) else {}
                    rest = self.turn(named(rest), env)
                    new, callee = goal[name], self.callee_of(kinds[name][1], place[name])
                    if new.startswith("returns"):
                        rest = as_record(rest, clauses(self.path_of, "ensures"))
                    elif "-requires" in new and callee:
                        rest = as_record(rest, clauses(callee, "requires"))
                    turned.append(named(head) + eq + rest)
                answers.append(note + f"pub {goal[name]} : goal.{goal[name]}\n" + "".join(turned).rstrip())
            elif name:
                answers.append(note + self.helper(named(text).split("\n")))
            else:
                m = re.findall(r"\((\S+) : tie\.([^\s)]+)", lines[0])
                env = {n: (*self.places.by_plain[plain(p)], False) for n, p in m if plain(p) in self.places.by_plain}
                answers.append(note + self.turn(named(text), env))
        path = rf"{VAR}{FIELDS}"
        text = "\n\n".join(answers)
        # A test of !x says today what is known of x.
        of = rf"(?:_|{VAR}(?:{FIELDS})?|\([^()]*\))"
        text = re.sub(rf"not-(?:true|false) {of} \(({path}-not-[^\s()]*\.(?:true|false))\)", r"\1", text)
        text = re.sub(rf"not-(?:true|false) {of} ((?:\([^()]*\)|{VAR})(?:\.[^\s()]*)?-not-[^\s().]*\.(?:true|false))", r"\1", text)
        return invariants, text, sorted(below)


def run(*words, where):
    return subprocess.run(words, cwd=where, stdout=subprocess.PIPE, stderr=subprocess.STDOUT, text=True).stdout


def main(argv):
    crate, only = argv[0].rstrip("/").split("/")[-1], argv[1:]
    where = os.path.join("crates", crate)
    proofs = os.path.join(where, "proofs")
    CLAUSES.update(contracts())
    top = tempfile.mkdtemp()
    old = os.path.join(top, "old")
    said = run("rt", "check", "--generated", old, "--old-names", where=where)
    if not os.path.exists(os.path.join(old, "names.json")):
        print(said[-1500:])
        return 1
    found = []
    for folder, _, files in os.walk(proofs):
        if "Proof.antt" in files:
            found.append(os.path.relpath(folder, proofs))
    if only:
        found = [f for f in found if f.split("/")[-1] in only]
    for f in found:
        os.rename(os.path.join(proofs, f, "Proof.antt"), os.path.join(proofs, f, "Proof.old"))
    new = os.path.join(top, "new")
    starts = [w for f in found if "+" not in f for w in ("--start", f"{crate}::" + f.replace("/", "::"))]
    said = run("rt", "check", "--generated", new, *starts, where=where)
    names = json.load(open(os.path.join(old, "names.json"), encoding="utf-8"))
    for f in found:
        kept, path = os.path.join(proofs, f, "Proof.old"), os.path.join(proofs, f, "Proof.antt")
        key = f"Rattle-{crate}-proofs.{f.replace('/', '.')}.Lts"
        folder = os.path.join(new, f"Rattle-{crate}-proofs", f)
        if key not in names or not os.path.exists(os.path.join(folder, "Goals.antt")):
            print(f"by hand: {path}: no names or goals; {said.strip()[-200:]}")
            os.rename(kept, path)
            continue
        own = f"Rattle.{crate}.proofs.{f.replace('/', '.')}"
        function = Function(names[key], folder, open(kept, encoding="utf-8").read(), own, f"{crate}::" + f.replace("/", "::"))
        got = function.turned()
        if isinstance(got, str):
            print(f"by hand: {path}: {got}")
            os.rename(kept, path)
            continue
        invariants, answers, below = got
        uses = "\n".join(u for u in function.uses if ".Statement." not in u and ".Tie as " not in u)
        head = "\n".join(function.head) + "\n" if function.head else ""
        if invariants:
            with open(os.path.join(proofs, f, "Invariants.antt"), "w", encoding="utf-8") as out:
                out.write(f"{head}{uses}\nuse {own}.Given as goal\n\n" + "\n\n".join(invariants) + "\n")
        if answers.strip():
            with open(os.path.join(proofs, f, "Answers.antt"), "w", encoding="utf-8") as out:
                out.write(f"{head}{uses}\n")
                if below:
                    out.write(f"use {own}.Invariants.{{{', '.join(below)}}}\n")
                out.write(f"use {own}.Goals as goal\n")
                if function.cited:
                    spelled = {"Tie": "tie", "Reads": "reads"}
                    args = " ".join("goal." + a if a.startswith("the-") else re.sub(r"^\w+", lambda m: spelled[m[0]], a) for a in function.places.args)
                    out.write(f"use {own}.Lts as lts\nuse {own}.Reads as reads\n" + (f"use {own}.Tie as tie\n" if "tie." in args else "") + "\n-- ---- places in the code\n")
                    for n, raw in sorted(function.cited.items()):
                        out.write(f"\nabbrev {n} : Type 0\n{n} = lts.{raw} {args}\n")
                out.write("\n" + answers + "\n")
        os.remove(kept)
    shutil.rmtree(top, ignore_errors=True)
    run("rt", "fmt", where=where)
    return 0


if __name__ == "__main__":
    raise SystemExit(main(sys.argv[1:]))
