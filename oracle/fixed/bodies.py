"""Rule bodies for the groundedness check: chosen by hand, at the limits, in the worst orders, random and damaged."""

from lent_calls import GLOBAL, LITERAL, VARIABLE
from problems import HUGE

FUNCTION_ATOM, PRIMITIVE_ATOM, EQUALITY = range(3)
MOST_RECORDS = 512


class Body:
    """Counts as claimed, lists cell by cell, sizes of the buffers. Any of them may be changed afterwards."""

    def __init__(self, atoms, kinds, place=77, unused=lambda: 9):
        self.atom_list, self.argument_list = [], []
        for kind, *terms in atoms:
            start = len(self.argument_list)
            self.atom_list += [kind, unused(), start, len(terms), *[unused() for _ in range(4)]]
            self.argument_list += terms
        self.term_list = [cell for kind in kinds for cell in (kind, 0)]
        self.atoms = len(atoms)
        self.arguments = len(self.argument_list)
        self.terms = len(kinds)
        self.place = place
        self.work_cells = 18 * (self.terms + MOST_RECORDS)
        self.sort_cells = self.terms
        self.error_cells = 8 * MOST_RECORDS

    def keep_literals(self):
        """Literals have sort 0 throughout."""
        for at in range(0, len(self.term_list), 2):
            if self.term_list[at] == LITERAL:
                self.term_list[at + 1] = 0

    def line(self):
        numbers = [self.atoms, self.arguments, self.terms, self.place, self.work_cells, self.sort_cells, self.error_cells]
        for cells in (self.atom_list, self.argument_list, self.term_list):
            numbers.append(len(cells))
            numbers += cells
        return " ".join(map(str, numbers))


A, B, C, D, G, L = range(6)
KINDS = [VARIABLE, VARIABLE, VARIABLE, VARIABLE, GLOBAL, LITERAL]


def body(*atoms, kinds=KINDS, place=77):
    return Body([list(atom) for atom in atoms], kinds, place)


def fun(*terms):
    return (FUNCTION_ATOM, *terms)


def prim(*terms):
    return (PRIMITIVE_ATOM, *terms)


def eq(x, y):
    return (EQUALITY, x, y)


CHOSEN = [
    [], [fun(A)], [fun(A, B, A)], [fun(G, L)], [prim(A)], [prim(A), prim(A, B)], [prim(A, B)], [prim(A, B), fun(A)],
    [fun(A), prim(A, B)], [prim(A, B, C), fun(A)], [prim(A, B, C), fun(A, B)], [prim(A, B, C), fun(B), fun(A)],
    [prim(A, B), prim(B, A)], [prim(A, A)], [prim(A, A), fun(A)], [eq(A, B)], [eq(A, A)], [eq(A, B), fun(B)],
    [eq(A, B), fun(A)], [eq(A, B), eq(B, C), fun(C)], [eq(C, B), eq(B, A), fun(C)], [eq(A, G)], [eq(L, A)], [eq(G, L)],
    [eq(G, G)], [prim(G, A)], [prim(L, A)], [prim(L, G)], [prim(A, G)], [prim(A, L), fun(A)], [prim(G, A, B)],
    [prim(G, L, G, A)], [prim(G)], [prim(L)], [prim(A, G), prim(G, A)], [prim(A, G), eq(G, B)],
    [eq(A, B), prim(A, C), prim(C, B)], [prim(B, C), prim(A, B), prim(G, A)], [prim(B, C), prim(A, B), eq(A, L)],
    [fun(A), eq(B, C), prim(A, D)], [fun(D), prim(D, C), eq(C, B), prim(B, A)], [prim(B, A), eq(C, B), prim(D, C), fun(D)],
    [prim(A, B), prim(A, C), prim(B, D), eq(C, D)], [prim(A, B, C, D), eq(A, B), eq(B, C), eq(C, L)],
    [prim(A, A, A, B), fun(A, A)], [fun(L), prim(L, L, A)], [eq(B, A), eq(A, B), eq(B, A)],
]


def worst_orders():
    """A pass for each link: primitives, equalities, and both by turns; grounded at the far end, or not at all."""
    for count in (3, 10, 60, 255):
        kinds = [VARIABLE] * (count + 1)
        for links in ([prim(n, n + 1) for n in range(count)], [eq(n + 1, n) for n in range(count)],
                      [(prim if n % 2 else eq)(n, n + 1) for n in range(count)],
                      [prim(n, 0, n + 1) for n in range(count)]):
            for last in ([fun(0)], [eq(0, 0)]):
                yield body(*reversed(links), *last, kinds=kinds)
    kinds = [VARIABLE] * 100 + [LITERAL]
    yield body(*[prim(n, n + 1) for n in reversed(range(99))], prim(100, 0), kinds=kinds)
    yield body(*[prim(*range(n), n) for n in reversed(range(1, 40))], fun(0), kinds=kinds)


def refused():
    """7 and 10, and which of them comes first."""
    bad = {7: [fun(), prim(), (EQUALITY,), (EQUALITY, A), (EQUALITY, A, B, C)], 10: [fun(*[A] * 513)]}
    for number, atoms in bad.items():
        for atom in atoms:
            yield number, body(atom)
            yield number, body(fun(A), atom)
            yield number, body(atom, fun())
            yield number, body(atom, fun(*[A] * 513))


def sizes():
    """Each largest size reached, and passed by one."""
    for more in (0, 1):
        yield body(fun(*[A] * (512 + more)))
        yield body(*[fun(A, B)] * 256, *[eq(A, B)] * more)
        yield body(*[eq(A, B)] * (512 + more))
        yield body(*[prim(A)] * 256, *[fun(A)] * more)
        yield body(prim(*[L] * (510 + more)))
        yield body(*[eq(L, G)] * 170, fun(A), *[fun(A)] * (1 + more))
        yield body(prim(*[A] * (2047 + more), B))
        yield shared_part(body(fun(A), prim(*[A] * (1024 + more), B)))
        yield body(fun(*range(255 + more)), prim(0, 255 + more), kinds=[VARIABLE] * (256 + more))


def shared_part(made):
    """The last atom once more, with the same part of the argument list: the watched terms count twice."""
    made.atom_list += made.atom_list[-8:]
    made.atoms += 1
    return made


def base():
    return body(prim(A, L, B), fun(A), eq(B, C), prim(C, D))


def rooms():
    """Buffers exact, one cell short and larger; lists longer than their counts."""
    for name in ("work_cells", "sort_cells", "error_cells"):
        for more in (-1, 0, 1, 8, 100):
            for atoms in ([prim(A, B)], [fun(A)]):
                made = body(*atoms)
                setattr(made, name, getattr(made, name) + more)
                yield made
    for cells in (8 * 512 - 8, 8 * 512 + 7, 0):
        made = base()
        made.error_cells = cells
        yield made
    for name in ("atom_list", "argument_list", "term_list"):
        for more in (1, 8):
            made = base()
            getattr(made, name).extend([HUGE] * more)
            yield made


def changed(name, value, position=None):
    made = base()
    if position is None:
        setattr(made, name, value)
    else:
        getattr(made, name)[position] = value
    return made


def causes():
    """1, 2, 5 and 6, alone and with causes of later ones."""
    for count in ("atoms", "arguments", "terms"):
        yield 1, changed(count, getattr(base(), count) + 1)
        yield 1, changed(count, HUGE)
    for name in ("atom_list", "argument_list", "term_list"):
        made = base()
        getattr(made, name).pop()
        yield 1, made
    for position, value in ((0, 3), (0, HUGE), (2, 8), (2, HUGE), (3, HUGE), (11, 7), (26, 8)):
        yield 2, changed("atom_list", value, position)
    for position, value in ((0, 6), (7, HUGE)):
        yield 2, changed("argument_list", value, position)
    for position, value in ((0, 3), (10, HUGE)):
        yield 2, changed("term_list", value, position)
    yield 5, changed("work_cells", 0)
    yield 5, changed("work_cells", 18 * (6 + 512) - 1)
    yield 6, changed("sort_cells", 5)
    yield 6, changed("error_cells", 8 * 512 - 1)
    for number, made in list(refused()):
        made.sort_cells = 0
        yield 6, made
    for number, names in ((5, ["work_cells", "sort_cells", "error_cells"]), (6, ["sort_cells", "error_cells"])):
        made = body(fun())
        for name in names:
            setattr(made, name, 0)
        yield number, made
    made = body((3, A))
    made.work_cells = 0
    yield 2, made
    made = body((3, A))
    made.term_list.pop()
    yield 1, made


def huge_numbers():
    """2^64 - 1 in each place, but for a literal's sort: no table of sorts is lent."""
    yield changed("place", HUGE)
    made = body(prim(A, B), place=HUGE)
    yield made
    for name in ("atom_list", "argument_list", "term_list"):
        for position in range(len(getattr(base(), name))):
            made = changed(name, HUGE, position)
            made.keep_literals()
            yield made


def random_body(random, most_terms, most_atoms):
    kinds = [random.pick([VARIABLE] * 8 + [GLOBAL, LITERAL]) for _ in range(random.between(1, most_terms))]
    terms = list(range(len(kinds)))

    def some(fewest, most):
        return [random.pick(terms) for _ in range(random.between(fewest, most))]
    atoms = []
    for _ in range(random.between(1, most_atoms)):
        kind = random.pick([FUNCTION_ATOM, PRIMITIVE_ATOM, PRIMITIVE_ATOM, PRIMITIVE_ATOM, EQUALITY, EQUALITY])
        atoms.append([kind, *(some(2, 2) if kind == EQUALITY else some(1, 2 if kind == FUNCTION_ATOM else 4))])
    garbage = [0, 1, 9, 9, 9, 9, 9, 9, 9, HUGE]
    return Body(atoms, kinds, random.below(100), lambda: random.pick(garbage))


def random_chain(random):
    """Links along a random order of the terms, in a random or the worst order, and a start or none."""
    count = random.between(4, 30)
    order = list(range(count))
    random.shuffle(order)
    links = []
    for n in range(1, count):
        before, term = order[random.below(n)], order[n]
        links.append(random.pick([prim(before, term), prim(order[n - 1], before, term), eq(before, term), eq(term, before)]))
    links.reverse()
    if random.chance(40):
        random.shuffle(links)
    start = [fun(order[0])] if random.chance(80) else []
    kinds = [VARIABLE] * count
    if random.chance(30):
        kinds[order[random.below(count)]] = random.pick([GLOBAL, LITERAL])
    return body(*links, *start, kinds=kinds, place=random.below(100))


def damaged(random):
    made = random_body(random, 6, 5)
    number = random.pick([HUGE, 2**63, 257]) if random.chance(25) else random.below(9)
    if random.chance(30):
        name = random.pick(["atoms", "arguments", "terms", "work_cells", "sort_cells", "error_cells"])
        setattr(made, name, max(0, getattr(made, name) + random.pick([-1, 1])))
        return made
    cells = getattr(made, random.pick(["atom_list", "argument_list", "term_list"]))
    cells[random.below(len(cells))] = number
    made.keep_literals()
    return made


def by_number(title, pairs):
    groups = {}
    for number, made in pairs:
        groups.setdefault(number, []).append(made)
    for number, bodies in groups.items():
        yield f"refusal {number}: {title}", bodies


def groups():
    yield "chosen by hand", [body(*atoms) for atoms in CHOSEN]
    yield "no terms", [Body([], []), Body([], [VARIABLE]), Body([[FUNCTION_ATOM]], [])]
    yield "the worst orders", list(worst_orders())
    yield "the largest sizes and one more", list(sizes())
    yield "rooms exact, short and larger", list(rooms())
    yield from by_number("atom by atom", refused())
    yield from by_number("its causes", causes())
    yield "2^64 - 1 in each place in turn", list(huge_numbers())
