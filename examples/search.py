#!/usr/bin/env python3
"""A small search tool, written after docs/FORMAT.md.

    search.py JOB CERT    reads a job and writes a certificate for it
    search.py FOLDER      writes FOLDER/job.bin, a routine that reverses a list, and FOLDER/cert.bin

It goes backward from the forbidden shapes: a shape that no member covers becomes a member, and its
predecessors are looked at in turn. Where one is met that the heap at the start satisfies, it finds no
certificate and says by which transitions that shape leads to a forbidden one; the exit status is 1.
"""
import heapq
import sys
from collections import namedtuple
from itertools import chain, count, product
from pathlib import Path

NOWHERE, NULL, DANGLING, CELL = 0, 1, 2, 3  # cell i is CELL + i
EQUAL, DIFFERENT, ASSIGN, LOAD, STORE, NEW, DELETE = range(1, 8)
SAME_VALUE, LESS_VALUE, COPY, LARGER, SMALLER, READ = range(8, 14)
BELOW, SAME = 0, 1  # kinds of facts

Job = namedtuple("Job", "version variables states start transitions forbidden")
Shape = namedtuple("Shape", "places links facts")  # codes of places; closed facts

# ---- Files ----

def to_bytes(numbers):
    out = bytearray()
    for number in numbers:
        while number > 127:
            out.append(number % 128 + 128)
            number //= 128
        out.append(number)
    return bytes(out)

def from_bytes(data):
    number, weight = 0, 1
    for byte in data:
        number, weight = number + byte % 128 * weight, weight * 128
        if byte < 128:
            yield number
            number, weight = 0, 1

def read_job(data):
    numbers = list(from_bytes(data))
    take = lambda some: tuple(numbers.pop(0) for _ in range(some))
    version, variables, states, start, transitions = take(5)
    transitions = [take(5) for _ in range(transitions)]
    forbidden = []
    for _ in range(*take(1)):
        state, cells = take(2)
        places, links = take(variables), take(cells)
        facts = [take(3) for _ in range(*take(1))] if version == 2 else []
        forbidden.append((state, Shape(places, links, closed(facts))))
    return Job(version, variables, states, start, transitions, forbidden)

def shapes_at_states(version, located):
    yield len(located)
    for state, shape in located:
        yield from (state, len(shape.links), *shape.places, *shape.links)
        yield from (len(shape.facts), *chain(*sorted(shape.facts))) if version == 2 else ()

def write_job(job):
    return to_bytes([job.version, job.variables, job.states, job.start, len(job.transitions),
                     *chain(*job.transitions), *shapes_at_states(job.version, job.forbidden)])

# ---- Facts ----

def closed(facts):
    facts, more = set(), set(facts)
    while not more <= facts:
        facts |= more
        more = {(SAME, cell, cell) for _, i, j in facts for cell in (i, j)}
        more |= {(SAME, j, i) for kind, i, j in facts if kind == SAME}
        more |= {(one & two, i, k) for one, i, j in facts for two, also, k in facts if also == j}
    return frozenset(facts)

def possible(shape):
    return not any(kind == BELOW and i == j for kind, i, j in shape.facts)

def learn(shape, *fact):
    shape = shape._replace(facts=closed(shape.facts | {fact}))
    return shape if possible(shape) else None

def forget(shape, cell):
    return shape._replace(facts=frozenset(fact for fact in shape.facts if cell not in fact[1:]))

# ---- Predecessors ----

def place_of(shape, operand):
    return shape.places[operand - 1] if operand else NULL

def put(codes, index, code):
    return codes[:index] + (code,) + codes[index + 1:]

def stand(shape, variable, code):
    return shape._replace(places=put(shape.places, variable - 1, code))

def linked(shape, cell, code):
    return shape._replace(links=put(shape.links, cell, code))

def placings(shape, operand):
    if place_of(shape, operand) != NOWHERE:
        return [shape] if place_of(shape, operand) != DANGLING else []
    cells, fresh = range(len(shape.links)), CELL + len(shape.links)
    grown = lambda code: stand(shape._replace(links=shape.links + (code,)), operand, fresh)
    placed = [stand(shape, operand, CELL + cell) for cell in cells]
    placed += [stand(shape, operand, NULL), grown(NOWHERE)]
    return placed + [linked(grown(shape.links[cell]), cell, fresh) for cell in cells if shape.links[cell]]

def without(shape, cell):
    down = lambda number, limit: number - (number > limit)
    links = shape.links[:cell] + shape.links[cell + 1:]
    return Shape(tuple(down(code, CELL + cell) for code in shape.places),
                 tuple(down(code, CELL + cell) for code in links),
                 frozenset((kind, down(i, cell), down(j, cell)) for kind, i, j in shape.facts))

def before_delete(shape, a):
    if place_of(shape, a) not in (NOWHERE, DANGLING):
        return []
    fresh = CELL + len(shape.links)
    links = tuple(NOWHERE if code == DANGLING else code for code in shape.links) + (NOWHERE,)
    cases = [(fresh,) if variable == a else (DANGLING, fresh) if code == DANGLING else (code,)
             for variable, code in enumerate(shape.places, 1)]
    return [Shape(places, links, shape.facts) for places in product(*cases)]

def undone(shape, kind, a, b):
    """The shape before, from one in which a and b are placed; None or False where there is none."""
    at, to = place_of(shape, a), place_of(shape, b)
    cell, other = at - CELL, to - CELL
    if kind in (EQUAL, DIFFERENT):
        return (at == to) == (kind == EQUAL) and shape
    if kind == ASSIGN:
        return at == to and (shape if a == b else stand(shape, a, NOWHERE))
    if kind == LOAD:
        fits = other >= 0 and shape.links[other] in (NOWHERE, at)
        return fits and stand(linked(shape, other, at), a, NOWHERE)
    if cell < 0 or kind in range(SAME_VALUE, READ) and other < 0:
        return None
    if kind == STORE:
        return shape.links[cell] in (NOWHERE, to) and linked(shape, cell, NOWHERE)
    if kind == NEW:
        shape = stand(shape, a, NOWHERE)
        known = at in shape.places + shape.links or any(cell in fact[1:] for fact in shape.facts)
        return not known and shape.links[cell] in (NOWHERE, DANGLING) and without(shape, cell)
    if kind == READ:
        return forget(shape, cell)
    if kind in (LARGER, SMALLER) and cell == other:
        return learn(forget(shape, cell), SAME, cell, cell)
    fact = (BELOW, other, cell) if kind == LARGER else (int(kind in (SAME_VALUE, COPY)), cell, other)
    shape = learn(shape, *fact)
    return forget(shape, cell) if shape and kind >= COPY and cell != other else shape

def predecessors(shape, kind, a, b):
    if not possible(shape):
        return []
    if kind == DELETE:
        return before_delete(shape, a)
    if kind == LOAD and a == b:
        helper = len(shape.places) + 1
        helped = predecessors(shape._replace(places=shape.places + (NOWHERE,)), LOAD, a, helper)
        return [one._replace(places=put(one.places, a - 1, one.places[-1])[:-1]) for one in helped]
    placed = (two for one in placings(shape, a) for two in placings(one, b))
    return [before for before in (undone(two, kind, a, b) for two in placed) if before]

# ---- Covers ----

def embeds(member, shape, images):
    """Rules 4, 5 and 6; the images were chosen by 2 and 3."""
    passed = set()
    for cell, code in enumerate(member.links):
        met = code and shape.links[images[cell]]
        while met >= CELL and met - CELL not in images and met not in passed:
            passed.add(met)
            met = shape.links[met - CELL]
        if met != (code if code < CELL else CELL + images[code - CELL]):
            return False
    return all((kind, images[i], images[j]) in shape.facts for kind, i, j in member.facts)

def images_of(member, shape):
    """Images by which a member embeds in a shape, or None."""
    fixed = {}
    for code, there in zip(member.places, shape.places):
        if code and (min(code, CELL) != min(there, CELL) or fixed.setdefault(code, there) != there):
            return None
    choices = [(fixed[code] - CELL,) if code in fixed else range(len(shape.links))
               for code in range(CELL, CELL + len(member.links))]
    fitting = (images for images in product(*choices) if len(set(images)) == len(images))
    return next((images for images in fitting if embeds(member, shape, images)), None)

def cover(members, state, shape):
    """The first cover of a shape, its numbers, or None."""
    for number, (at, member) in enumerate(members):
        images = images_of(member, shape) if at == state else None
        if images is not None:
            return [number, *images]
    return None

def before(job, state, shape):
    """What is owed for a member, with the number of the transition."""
    for number, (source, kind, a, b, target) in enumerate(job.transitions):
        if target == state:
            for one in predecessors(shape, kind, a, b):
                yield source, one, number

# ---- Search ----

def search(job):
    """Members that are closed under predecessors, smaller shapes looked at first."""
    members, order = [], count()
    queued = lambda state, shape, then: (len(shape.links), next(order), state, shape, then)
    todo = [queued(state, shape, []) for state, shape in job.forbidden]
    while todo:
        _, _, state, shape, then = heapq.heappop(todo)
        if cover(members, state, shape):
            continue
        if state == job.start and not shape.links and NULL not in shape.places:
            sys.exit(f"no certificate found: from the start, transitions {then} may lead to a forbidden shape")
        # What an old member covers that the new one covers, the new one covers too.
        members = [old for old in members if not cover([(state, shape)], *old)] + [(state, shape)]
        if len(members) > 512 or len(shape.links) > 12:
            sys.exit("no certificate found: it would be beyond the limits of the format")
        for source, one, number in before(job, state, shape):
            heapq.heappush(todo, queued(source, one, [number] + then))
    return members

def certificate(job, members):
    owed = chain(job.forbidden, ((source, one) for member in members for source, one, _ in before(job, *member)))
    covers = (cover(members, *shape) for shape in owed)
    return to_bytes([job.version, *shapes_at_states(job.version, members), *chain(*covers)])

# ---- The reversal of a list ----

def reversal():
    x, y, t, end = 1, 2, 3, 9
    transitions = [
        (0, ASSIGN, x, 0, 1),     # x := null
        (1, NEW, t, 0, 2),        # new(t), any number of times
        (2, STORE, t, x, 3),      # t.next := x
        (3, ASSIGN, x, t, 1),     # x := t
        (1, ASSIGN, y, 0, 4),     # y := null
        (4, DIFFERENT, x, 0, 5),  # while x != null
        (5, ASSIGN, t, y, 6),     # t := y
        (6, ASSIGN, y, x, 7),     # y := x
        (7, LOAD, x, x, 8),       # x := x.next
        (8, STORE, y, t, 4),      # y.next := t
        (4, EQUAL, x, 0, end),    # the list is y now
    ]
    def bad(state, variable, code, *links):
        return state, Shape(put((NOWHERE,) * 3, variable - 1, code), links, frozenset())
    no_list = [(DANGLING,), (CELL, DANGLING), (CELL, CELL), (CELL, CELL + 1, CELL + 1)]
    a_list = [(NULL,), (CELL, NULL)]
    forbidden = [bad(end, y, *codes) for codes in no_list]
    forbidden += [bad(end, y, *codes, NOWHERE) for codes in no_list + a_list]  # a cell beside it is lost
    steps = ((2, t), (7, x), (8, y))  # where a link is set or followed, and of which variable
    forbidden += [bad(*step, code) for step in steps for code in (NULL, DANGLING)]
    return Job(2, 3, 10, 0, transitions, forbidden)

def main(names):
    if len(names) not in (1, 2):
        sys.exit("usage: search.py JOB CERT, or search.py FOLDER")
    if len(names) == 2:
        job, target = read_job(Path(names[0]).read_bytes()), Path(names[1])
    else:
        job, target = reversal(), Path(names[0], "cert.bin")
        Path(names[0], "job.bin").write_bytes(write_job(job))
    members = search(job)
    target.write_bytes(certificate(job, members))
    print(f"{len(members)} members")

if __name__ == "__main__":
    main(sys.argv[1:])
