"""Problems with many passes, and large ones of a plain shape."""

from problems import *


def eq_chain(terms, last):
    """The worst order: each pass moves the sort by one term."""
    links = [eq(term, term + 1) for term in reversed(range(terms - 1))]
    return problem(links + last, [terms - 1], terms, 2, ShortLayout())


def implies_chain(terms, last, child=assign):
    links = [implies([term], child(term + 1, term % 2)) for term in reversed(range(terms - 1))]
    return problem(links + last, [terms - 1], terms, 2, ShortLayout())


def xor_chain(terms, last):
    """Each Xor is settled by the one before it."""
    links = [xor(assign(term, 1), assign(term + 1, 0)) for term in reversed(range(terms - 1))]
    return problem(links + last, [0], terms, 2, ShortLayout())


def firing_chain(terms):
    """Each link sorts one term, and an Implies over it fires alone a pass later."""
    tops = []
    for term in reversed(range(terms)):
        tops.append(implies([term], all_of()))
        tops.append(assign(0, 0) if term == 0 else eq(term - 1, term))
    return problem(tops, [], terms, 1, ShortLayout())


def wide_none(children):
    """None with many children, mismatches and arities by turns."""
    tries = [impossible(number, 1 + number) if number % 3 == 0 else assign(0, 1 + number % 2)
             for number in range(children)]
    return problem([assign(0, 0), xor(*tries)], [], 1, 3, ShortLayout())


def tower(width):
    """Depth 8: settled Xors and Ands by turns."""
    tree = all_of(*[eq(term, term + 1) for term in range(width)])
    for level in range(6):
        failing = [assign(0, 1) for _ in range(width)]
        tree = xor(*failing, tree) if level % 2 == 0 else all_of(assign(0, 0), tree)
    return problem([tree, assign(0, 0)], [0], width + 1, 2, ShortLayout())


def endings(last, conflicting):
    """What may stand after a chain that ends at the term `last`: its start alone, with a sort for its end that doesn't
    fit, with conflicts that wait for its end, or nothing."""
    start = assign(0, 0)
    yield [start]
    yield [start, assign(last, conflicting)]
    yield [start, implies([last], impossible())]
    yield [start, implies([last], assign(0, 1))]
    yield [start, xor(implies([last], xor()), implies([last, 0], assign(0, 1)))]
    yield []


def groups():
    lengths = (2, 3, 5, 17)
    start = [assign(0, 0)]
    yield "chains of Eq in the worst order", [
        eq_chain(n, last) for n in lengths for last in endings(n - 1, 1)
    ]
    yield "chains of Implies in the worst order", [
        implies_chain(n, last) for n in lengths for last in endings(n - 1, (n + 1) % 2)
    ] + [implies_chain(9, start, lambda x, s: implies([x - 1, 0], assign(x, s)))]
    yield "chains of Xor, each settled by the next", [
        xor_chain(n, last) for n in lengths for last in endings(n - 1, 1)
    ]
    yield "an Implies that fires alone after each term", [firing_chain(n) for n in (1, 2, 4, 16)]
    yield "none with many children, and a tower of settled Xors", [
        wide_none(n) for n in (1, 2, 9, 50)
    ] + [tower(n) for n in (0, 1, 4)]
    yield "large ones of these shapes", [
        eq_chain(256, start), eq_chain(256, [assign(0, 0), implies([255], xor())]), implies_chain(256, start),
        xor_chain(171, start), firing_chain(128), wide_none(510), tower(125),
    ]
