#!/usr/bin/env python3
"""Brings must-fail edits to today's spelling. Ran once, behind port.py and own_names.py.

usage: python3 tools/turn_edits.py prepare PORT OLD ROOM     at the top of the repository; PORT: the kit's port.py; OLD: the commit before the port;
                                                             ROOM: a new folder outside the repository
       python3 tools/turn_edits.py write OLD ROOM [WORD..]   writes each edit of OLD (with a WORD in its path) for the text as it stands
       python3 tools/turn_edits.py check LANDED OLD          each edit applies, each of the commit LANDED is here, and each here is of LANDED or OLD

Edits are not turned themselves. prepare makes copies of OLD, one as it was and others with edits made in them, far enough apart to be told one from
another, and turns each copy whole by port.py and by own_names.py's table of the unedited one. write compares the two, word for word, finds the
changed words in the text as it stands, and writes the lines that hold them before and after.
"""

import collections
import difflib
import importlib.util
import os
import re
import subprocess
import sys

sys.dont_write_bytecode = True

APART = 4  # lines between two edits that are made in one copy
TOKEN = re.compile(r"\"(?:[^\"\\\n]|\\.)*\"|[\w'′]+|[^\s\w]")


def git(*words, at="."):
    return subprocess.run(["git", *words], cwd=at, capture_output=True, text=True, check=True).stdout


def module(name, path):
    spec = importlib.util.spec_from_file_location(name, path)
    it = importlib.util.module_from_spec(spec)
    spec.loader.exec_module(it)
    return it


def edits_of(commit):
    return sorted(f for f in git("ls-tree", "-r", "--name-only", commit, "crates").split("\n") if "/must-fail/" in f and f.endswith(".edit"))


def parse(text):
    """The comment lines, and triples of the file in the crate, the old and the new text."""
    notes, pairs, path, old = [], [], None, None
    for line in text.split("\n"):
        if line.startswith("file: "):
            path = line[6:].strip()
        elif line.startswith("old: "):
            old = line[5:]
        elif line.startswith("new:"):
            pairs.append((path, old, line[4:].removeprefix(" ")))
        elif line.strip():
            notes.append(line)
    return notes, pairs


def crate_of(edit):
    return edit.split("/must-fail/")[0]


def changed(text, pairs):
    for _, a, b in pairs:
        if text.count(a) != 1:
            return None
        text = text.replace(a, b)
    return text


def groups(old):
    """The edits of OLD in copies: a list of lists of (file, first line, edit, lines where a place of its own begins), by file and place."""
    by_file, spots = collections.defaultdict(list), {}
    for e in edits_of(old):
        pairs = parse(git("show", f"{old}:{e}"))[1]
        files = {p for p, _, _ in pairs}
        assert len(files) == 1, e
        path = f"{crate_of(e)}/{files.pop()}"
        text = git("show", f"{old}:{path}")
        places = []
        for _, a, b in pairs:
            assert text.count(a) == 1, e
            places.append(text[: text.index(a)].count("\n"))
            text = text.replace(a, b)
        by_file[path].append((min(places), max(places), e))
        spots[e] = [n for n in sorted(set(places)) if not any(n - APART < m < n for m in places)]
    copies = []
    for path, edits in by_file.items():
        ends, made = {}, {}
        for low, high, e in sorted(edits):
            for k in range(len(edits)):
                text = changed(made.get(k, git("show", f"{old}:{path}")), parse(git("show", f"{old}:{e}"))[1])
                if text and ends.get(k, -APART) + APART <= low:
                    break
            ends[k], made[k] = high, text
            while len(copies) <= k:
                copies.append([])
            copies[k].append((path, low, e, spots[e]))
    return copies


def turn(port_path, at, said):
    port = module("port", port_path)
    port.SAID = said
    port.rt = lambda *words, where=None: ""  # no layout: only words are compared
    here = os.getcwd()
    os.chdir(at)
    code = port.turn(os.getcwd())
    os.chdir(here)
    return code


def prepare(port_path, old, room):
    own = module("own_names", os.path.join(os.path.dirname(os.path.abspath(__file__)), "own_names.py"))
    copies = [[]] + groups(old)
    children = []
    for k, made in enumerate(copies):
        at = os.path.join(room, f"copy{k}")
        git("clone", "-q", ".", at)
        git("checkout", "-q", old, at=at)
        for path, _, e, _ in made:
            text = open(os.path.join(at, path), encoding="utf-8").read()
            text = changed(text, parse(git("show", f"{old}:{e}"))[1])
            open(os.path.join(at, path), "w", encoding="utf-8").write(text)
        git("-c", "user.name=turn", "-c", "user.email=turn", "commit", "-q", "--allow-empty", "-am", "edited", at=at)
        if len(children) == 2:
            os.waitpid(children.pop(0), 0)
        child = os.fork()
        if not child:
            os.dup2(os.open(os.path.join(room, f"said{k}.txt"), os.O_WRONLY | os.O_CREAT), 1)
            code = turn(port_path, at, os.path.join(room, f"said{k}"))
            sys.stdout.flush()
            os._exit(0 if code == 0 else 1)
        children.append(child)
    for child in children:
        os.waitpid(child, 0)
    here = os.getcwd()
    os.chdir(os.path.join(room, "copy0"))
    files = own.own_files()
    names, fields = own.declared(files)
    table = own.turned(names)
    crates = set(os.listdir("crates"))
    own.apart(files, names, fields, table)
    for k in range(len(copies)):
        os.chdir(os.path.join(room, f"copy{k}"))
        for f in own.own_files():
            text = open(f, encoding="utf-8").read()
            kept = own.imported(text, crates)
            new = own.rust(text, kept, table, fields) if f.endswith(".rt") else own.lines_of(text, kept, table, fields)
            open(f, "w", encoding="utf-8").write(new.replace("Dec·", "Dec."))
    os.chdir(here)


def tokens(text):
    found = list(TOKEN.finditer(text))
    return [m[0] for m in found], [m.span() for m in found]


def changes(a, b):
    """The places of a and b that differ, as (from, to, from, to), trimmed first."""
    n = 0
    while n < min(len(a), len(b)) and a[n] == b[n]:
        n += 1
    m = 0
    while m < min(len(a), len(b)) - n and a[-1 - m] == b[-1 - m]:
        m += 1
    s = difflib.SequenceMatcher(None, a[n : len(a) - m], b[n : len(b) - m], autojunk=False)
    return [(i + n, j + n, k + n, l + n) for tag, i, j, k, l in s.get_opcodes() if tag != "equal"]


def line_map(a, b):
    """For each place of a the place in b where the same word stands, or None."""
    to = [None] * len(a)
    n = 0
    while n < min(len(a), len(b)) and a[n] == b[n]:
        to[n] = n
        n += 1
    m = 0
    while m < min(len(a), len(b)) - n and a[-1 - m] == b[-1 - m]:
        to[len(a) - 1 - m] = len(b) - 1 - m
        m += 1
    s = difflib.SequenceMatcher(None, a[n : len(a) - m], b[n : len(b) - m], autojunk=False)
    for i, k, size in s.get_matching_blocks():
        for d in range(size):
            to[n + i + d] = n + k + d
    return to


class Left(Exception):
    pass


def place_of(room, k, path):
    """Where a file of the old tree stands in a turned copy."""
    return os.path.join(room, f"copy{k}", path)


def turned_pairs(room, k, path, wanted, today):
    """For each of the wanted edits (all that copy k has in this file, by place, some twice) the pairs of old and new lines in today's text."""
    base = open(place_of(room, 0, path), encoding="utf-8").read()
    variant = open(place_of(room, k, path), encoding="utf-8").read()
    a, at_a = tokens(base)
    b, at_b = tokens(variant)
    c, at_c = tokens(today)
    ops = changes(a, b)
    if not ops:
        raise Left("the turned copies do not differ")
    clusters = [[ops[0]]]
    for op in ops[1:]:
        lines = base[at_a[clusters[-1][-1][1] - 1][1] : at_a[op[0]][0]].count("\n") if op[0] < len(at_a) else 0
        if lines >= APART - 1:
            clusters.append([op])
        else:
            clusters[-1].append(op)
    if len(clusters) != len(wanted):
        # port.py brings in a word that the edit names
        clusters = [cl for cl in clusters if not all(base[: at_a[op[0]][0]].rpartition("\n")[2].startswith("use ") for op in cl)]
    if len(clusters) != len(wanted):
        raise Left(f"{len(clusters)} places differ, not {len(wanted)}")
    whole = collections.OrderedDict()
    for edit, cluster in zip(wanted, clusters):
        whole.setdefault(edit, []).extend(cluster)
    to = line_map(a, c)
    answer = {}
    for edit, cluster in whole.items():
        try:
            answer[edit] = lines_for(cluster, to, a, b, at_b, variant, c, at_c, today)
        except Left as why:
            answer[edit] = why
    return answer


def lines_for(cluster, to, a, b, at_b, variant, c, at_c, today):
    """The pairs of whole lines of today's text: the words that change between two words that stay, with the spaces of the edited copy."""

    def line_at(i):
        return today.rfind("\n", 0, i) + 1

    def put(i, j, k, l):
        """Where the words i to j of the unedited copy stand today, and what is put there: from the end of the word before to the word behind."""
        span = [to[x] for x in range(i, j)]
        if None in span or any(y - x != 1 for x, y in zip(span, span[1:])):
            raise Left("the words that change do not stand so today: " + " ".join(a[i:j]))
        if not i or j == len(a) or to[i - 1] is None or to[j] is None or to[j] - to[i - 1] != j - i + 1:
            raise Left("beside the words that change others stand today: " + " ".join(a[i:j]))
        first, last = at_c[to[i - 1]][1], at_c[to[j]][0]
        text = variant[at_b[k - 1][1] : at_b[l][0]]
        if "\n" in today[first : at_c[to[i]][0]]:
            first, text = at_c[to[i]][0], text.lstrip()
        if "\n" in today[at_c[to[j] - 1][1] : last]:
            last, text = at_c[to[j] - 1][1], text.rstrip()
        return first, last, re.sub(r"\s*\n\s*", " ", text)

    i, k, j, l = cluster[0][0], cluster[0][2], cluster[-1][1], cluster[-1][3]
    todo = []
    try:
        todo = [put(i, j, k, l)]
    except Left:
        pass
    if not todo or "\n" in today[todo[0][0] : todo[0][1]]:
        todo = [put(*op) for op in cluster]
    by_line = collections.OrderedDict()
    for first, last, text in todo:
        if "\n" in today[first:last]:
            raise Left("the words that change stand in more than one line: " + today[first:last])
        by_line.setdefault(line_at(first), []).append((first, last, text))
    pairs = []
    for start, parts in by_line.items():
        end = today.find("\n", start)
        old = new = today[start:end]
        for first, last, text in sorted(parts, reverse=True):
            new = new[: first - start] + text + new[last - start :]
        pairs.append((old, new.rstrip()))
    text = today
    for old, new in pairs:
        if text.count(old) != 1:
            raise Left(f"stands {text.count(old)} times: {old.strip()}")
        text = text.replace(old, new)
    return pairs


def applied(edit, text=None):
    """The texts that the edit makes, by file, or why it does not apply."""
    texts = {}
    pairs = parse(text if text is not None else open(edit, encoding="utf-8").read())[1]
    if not pairs:
        return None, "no pair"
    for path, old, new in pairs:
        f = f"{crate_of(edit)}/{path}"
        if f not in texts:
            if not os.path.exists(f):
                return None, f"no file {f}"
            texts[f] = open(f, encoding="utf-8").read()
        if texts[f].count(old) != 1:
            return None, f"stands {texts[f].count(old)} times: {old.strip()}"
        if old == new:
            return None, "changes nothing"
        texts[f] = texts[f].replace(old, new)
    return texts, None


def write(old, room, only):
    counts, left = collections.Counter(), []
    for k, made in enumerate(groups(old), 1):
        by_file = collections.defaultdict(list)
        for path, _, e, spots in made:
            by_file[path] += [(n, e) for n in spots]
        for path, places in by_file.items():
            wanted = sorted({e for _, e in places})
            if only and not any(w in e for w in only for e in wanted):
                continue
            try:
                if not os.path.exists(path):
                    raise Left(f"no file {path}")
                found = turned_pairs(room, k, path, [e for _, e in sorted(places)], open(path, encoding="utf-8").read())
            except Left as why:
                found = {e: why for e in wanted}
            for e in wanted:
                was = git("show", f"{old}:{e}")
                notes, pairs = parse(was)
                now = open(e, encoding="utf-8").read() if os.path.exists(e) else was
                stands = applied(e, now)[0]
                if isinstance(found[e], Left):
                    left.append((e, str(found[e]) + (" (but it applies)" if stands else "")))
                    continue
                lines = [*notes, f"file: {pairs[0][0]}"]
                for a, b in found[e]:
                    lines += [f"old: {a}", f"new: {b}".rstrip()]
                new = "\n".join(lines) + "\n"
                if stands and {f: tokens(t)[0] for f, t in stands.items()} == {f: tokens(t)[0] for f, t in applied(e, new)[0].items()}:
                    counts["as it was" if now == was else "turned already"] += 1
                elif now != was and stands:
                    left.append((e, "written by hand, makes other words than the turned copy"))
                else:
                    open(e, "w", encoding="utf-8").write(new)
                    counts["written"] += 1
    for e, why in left:
        print(f"left: {e}: {why}")
    print(dict(counts), len(left), "left")


def check(landed, old):
    here = sorted(f for f in git("ls-files", "--cached", "--others", "--exclude-standard", "crates").split("\n") if "/must-fail/" in f and os.path.exists(f))
    first, later = set(edits_of(landed)), set(edits_of(old))
    bad = [f"missing: {e}" for e in sorted(first) if e not in here] + [f"more: {e}" for e in here if e not in first | later]
    bad += [f"{e}: {why}" for e in here for why in [applied(e)[1]] if why]
    for e in sorted(later - first):
        if e not in here:
            print("not here, and never landed:", e)
    print("".join(it + "\n" for it in bad) + f"{len(here)} edits, {len(first)} of them landed, {len(bad)} bad")
    return 1 if bad else 0


def main(argv):
    if argv[:1] == ["prepare"] and len(argv) == 4:
        return prepare(os.path.abspath(argv[1]), argv[2], os.path.abspath(argv[3]))
    if argv[:1] == ["write"] and len(argv) >= 3:
        return write(argv[1], argv[2], argv[3:])
    if argv[:1] == ["check"] and len(argv) == 3:
        return check(argv[1], argv[2])
    print(__doc__)
    return 2


if __name__ == "__main__":
    sys.exit(main(sys.argv[1:]))
