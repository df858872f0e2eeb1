#!/usr/bin/env python3
"""Brings the repository's own definitions and lemmas to today's spelling: words in snake case. Ran once, behind port.py.

usage: python3 tools/own_names.py [--check] [FILE..]     at the top of the repository; FILE: further files to turn by the same table (must-fail edits, pages)

A name is the repository's own where an .antt file of crates/*/specs or crates/*/proofs declares it, as a definition, a lemma, a field, a
constructor or a name below `where`. A dash in it becomes `_`, and a hump becomes `_` and a small letter: `known-number` is `known_number`,
`hasValue?` is `has_value?`. Types keep their capitals. In a file a name stays that the file imports from the kit, and behind a dot a name
turns only if it is a field or stands behind the path of a module. Names of src/, strings and names that Rattle makes stay.
"""

import collections
import os
import re
import subprocess
import sys

NAME = r"[^\s(){}.;,@\"«»:`|]+"
WORD = re.compile(r"[^\s(){}.;,@\"«»:`|\[\]]+")
MARKS = r"(?:pattern |unfoldable |abbrev |pub |data |record |infix[lr]? \d+ )*"
DECLARES = re.compile(rf"\s*({MARKS})({NAME}(?: {NAME})*)(?: *[({{].*?[)}}])* :(?: |$)")
QUIET = re.compile(r'"(?:[^"\\\n]|\\.)*"')
CLAUSE = re.compile(r"(?:requires|ensures)\s*\*?\s*(?:\w+\s*)?\{|ghost\s*(?:\w+\s*(?::\s*(?:(?:owns|lends)\s*)?|=\s*))?\{")
# Where two own names of one file would fall together and neither is a plain lemma's: old name, new name.
APART = {
    "notList": "not_list_shapes",
    "lostBlock": "lost_block_shapes",
    "badStep": "bad_step_shapes",
    "badSteps": "bad_steps_shapes",
    "leastA": "least_a_of",
    "leastB": "least_b_of",
    "mostB": "most_b_of",
    "factsAt": "facts_place",
}


def own_files():
    said = subprocess.run(["git", "ls-files", "--cached", "--others", "--exclude-standard", "crates"], capture_output=True, text=True, check=True).stdout.split("\n")
    return [f for f in said if f.endswith((".antt", ".rt")) and os.path.exists(f)]


def snake(name):
    name = name.replace("getD", "get_or")
    if name[:1].islower():
        name = re.sub(r"(?<=[a-z0-9₀-₉?])([A-Z])", lambda m: "_" + m[1].lower(), name)
    else:
        name = "-".join(p if not p[:1].islower() else re.sub(r"(?<=[a-z0-9])([A-Z])", lambda m: "_" + m[1].lower(), p) for p in name.split("-"))
    return name.replace("-", "_")


def declared(files):
    names, fields = collections.defaultdict(set), set()
    for f in files:
        if not f.endswith(".antt"):
            continue
        inside = None
        for line in open(f, encoding="utf-8"):
            if line.strip().startswith("--"):
                continue
            m = DECLARES.match(line)
            indent = len(line) - len(line.lstrip())
            if line.strip() and inside is not None and indent <= inside:
                inside = None
            if m:
                for n in m[2].split():
                    names[n].add(f)
                    if inside is not None:
                        fields.add(n)
            if re.match(rf"\s*{MARKS}.*\brecord\b.* where\s*$", line):
                inside = indent
    return names, fields


def turned(names):
    table = {}
    for n in names:
        if not re.search(r"[A-Za-z]", n) or n.startswith("◌"):
            continue
        new = APART.get(n, snake(n))
        if new != n:
            table[n] = new
    return table


def apart(files, names, fields, table):
    """Of own names that fall together in some file, the one that no specs/ declares takes the ending `_lem`, as the kit's lemmas do."""
    words = {f: set(WORD.findall(open(f, encoding="utf-8").read().replace(".", " "))) for f in files}
    by_new = collections.defaultdict(set)
    for n in names:
        by_new[table.get(n, n)].add(n)
    for new, olds in sorted(by_new.items()):
        if len(olds) < 2 or not any(len(olds & w) > 1 for w in words.values()):
            continue
        rank = sorted(olds, key=lambda o: (not any("/specs/" in f for f in names[o]), "-" in o, o))
        for o in rank[1:]:
            table[o] = new + "_lem"
        print("apart:", new, "keeps", rank[0], "and", {o: table[o] for o in rank[1:]})


def code(text, kept, table, fields):
    def one(m):
        w, i = m[0], m.start()
        if w not in table or w in kept or any(a <= i < b for a, b in quoted):
            return w
        if i and text[i - 1] == "." and w not in fields and not re.search(r"Rattle(?:\.[\w+-]+)*\.$", text[max(0, i - 160) : i]):
            return w
        return table[w]

    quoted = [q.span() for q in QUIET.finditer(text)]
    return WORD.sub(one, text)


def spans(text, table):
    return re.sub(r"`[^`\n]+`", lambda m: WORD.sub(lambda w: table.get(w[0], w[0]), m[0]), text)


def lines_of(text, kept, table, fields):
    out = []
    for line in text.split("\n"):
        m = re.search(r"(?:^|\s)--(?:\s|$)", QUIET.sub(lambda q: " " * len(q[0]), line))
        if m:
            at = m.start()
            out.append(code(line[:at], kept, table, fields) + spans(line[at:], table))
        else:
            out.append(code(line, kept, table, fields))
    return "\n".join(out)


def imported(text, crates):
    kept = set()
    for m in re.finditer(r"use (\S+?)\.\{([^}]*)\}", text):
        head = m[1].split(".")
        if not (head[0] == "Rattle" and len(head) > 1 and head[1] in crates):
            kept |= {w.strip().split(" as ")[-1].strip() for w in m[2].split(",")} | {w.strip().split(" as ")[0].strip() for w in m[2].split(",")}
    return kept


def closing(t, i):
    deep = 0
    for k in range(i, len(t)):
        deep += (t[k] == "{") - (t[k] == "}")
        if not deep:
            return k + 1
    return len(t)


def rust(text, kept, table, fields):
    """The clauses and 'ghost use' items of a .rt file, and code spans of its comments."""
    out, at = [], 0
    for m in re.finditer(r"//[^\n]*|ghost use [^;]*;|" + CLAUSE.pattern, text):
        if m.start() < at:
            continue
        end = closing(text, m.end() - 1) if m[0].endswith("{") else m.end()
        part = text[m.start() : end]
        out += [text[at : m.start()], spans(part, table) if part.startswith("//") else code(part, kept, table, fields)]
        at = end
    out.append(text[at:])
    return "".join(out)


def main(argv):
    check = "--check" in argv
    more = [a for a in argv if not a.startswith("--")]
    files = own_files()
    names, fields = declared(files)
    table = turned(names)
    crates = set(os.listdir("crates"))
    apart(files, names, fields, table)
    by_new = collections.defaultdict(set)
    for n in names:
        by_new[table.get(n, n)].add(n)
    for f in files + more:
        text = open(f, encoding="utf-8").read()
        kept = imported(text, crates)
        for k in sorted(kept):
            if k in by_new and by_new[k] - {k}:
                print("kit's too:", f, k, by_new[k])
        new = rust(text, kept, table, fields) if f.endswith(".rt") else lines_of(text, kept, table, fields)
        if new != text and not check:
            open(f, "w", encoding="utf-8").write(new)
    print(f"own_names: {len(table)} names in {len(files)} files")


if __name__ == "__main__":
    main(sys.argv[1:])
