#!/usr/bin/env python3
"""Adds or drops `.before` where the check says that another place is wanted: behind to_answers.py, for functions whose places are others today.

usage: python3 tools/mend_places.py CRATE [ROUNDS]      at the top of the repository
"""

import collections
import json
import os
import re
import subprocess
import sys
import tempfile

PLACES = os.path.join(tempfile.gettempdir(), "places-")


def parents(crate, function):
    """The place above each place, by the names of their records."""
    names = json.load(open(os.path.join(PLACES + crate, "names.json"), encoding="utf-8"))
    value = names.get(f"Rattle-{crate}-proofs.{function.replace('/', '.')}.Lts") or {"places": []}
    return {p[0]: p[1] for p in value["places"]}


def distance(parent, low, high):
    n = 0
    while low and low != high:
        low, n = parent.get(low), n + 1
    return n if low == high else None


def main(argv):
    crate, rounds = argv[0], int(argv[1]) if len(argv) > 1 else 6
    where = os.path.join("crates", crate)
    subprocess.run(["rt", "check", "--generated", PLACES + crate, "--old-names"], cwd=where, stdout=subprocess.DEVNULL, stderr=subprocess.DEVNULL)
    for _ in range(rounds):
        said = subprocess.run(["rt", "check"], cwd=where, stdout=subprocess.PIPE, stderr=subprocess.STDOUT, text=True).stdout
        if re.search(r"(?m)^logic=proved", said.split("crate " + crate)[-1]):
            print(f"{crate} is proved")
            return 0
        said = re.sub(r"\n\s+\((expected|found)\)", r" (\1)", said)
        changes = collections.defaultdict(dict)
        for m in re.finditer(r"(?m)^(?:so far: )?\./(proofs/(\S+?)/Answers\.antt):(\d+):(\d+): error: (.*(?:\n  .*)*)", said):
            path, function, line, col, text = os.path.join(where, m[1]), m[2], int(m[3]), int(m[4]), m[5]
            w = re.search(r"one has `lts\.([^`]*)` \((expected|found)\) and the other has `lts\.([^`]*)`", text)
            if w:
                a, b = (w[1], w[3]) if w[2] == "expected" else (w[3], w[1])
                parent = parents(crate, function)
                up, down = distance(parent, b.replace("Past-", ""), a.replace("Past-", "")), distance(parent, a.replace("Past-", ""), b.replace("Past-", ""))
                if up:
                    changes[path][(line, col)] = up
                elif down:
                    changes[path][(line, col)] = -down
            elif "leave out the `.before` in front of" in text:
                changes[path][(line, col)] = -1
        if not changes:
            break
        for path, all_of in changes.items():
            lines = open(path, encoding="utf-8").read().split("\n")
            for (line, col), n in sorted(all_of.items(), reverse=True):
                t = lines[line - 1]
                # The path that begins or ends about the column.
                found = [p for p in re.finditer(r"(?:[A-Za-z_][\w'₀-₉-]*|\))((?:\.before)*)", t) if p.start() <= col - 1 < p.end() or p.start() == col - 1]
                if not found:
                    continue
                p = found[0]
                if n > 0:
                    t = t[: p.end(1)] + ".before" * n + t[p.end(1) :]
                else:
                    k = min(-n, p[1].count(".before"))
                    t = t[: p.start(1)] + p[1][len(".before") * k :] + t[p.end(1) :]
                lines[line - 1] = t
            open(path, "w", encoding="utf-8").write("\n".join(lines))
    for l in said.split("\n"):
        if "error:" in l or re.match(r"fn .*: not proved", l):
            print(l[:260])
    return 1


if __name__ == "__main__":
    raise SystemExit(main(sys.argv[1:]))
