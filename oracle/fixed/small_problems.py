"""C1 to C13 of document 01, the traps of Xor, and other problems chosen by hand."""

from problems import *

A, B, C = 0, 1, 2
S, T = 0, 1

SCOPE = [
    ("C1", problem([])),
    ("C2", problem([], [A])),
    ("C3", problem([assign(A, S)])),
    ("C4", problem([assign(A, S), assign(A, T)])),
    ("C5", problem([assign(A, S), assign(B, T), eq(A, B)])),
    ("C6", problem([eq(A, B), assign(A, S)])),
    ("C7", problem([xor(assign(A, S), assign(A, T))], [A])),
    ("C8", problem([xor(assign(A, S), assign(A, T)), assign(A, T)], [A])),
    ("C9", problem([assign(C, S), xor(assign(C, T), impossible())])),
    ("C10", problem([xor(all_of(eq(A, B), assign(A, S), assign(B, T)), assign(A, S))], [A])),
    ("C11", problem([xor()])),
    ("C12", problem([implies([], all_of())])),
    ("C13", problem([implies([A], assign(B, S)), assign(A, T)])),
]

# Settles an Xor whose other child is `assign(C, S)` in the second pass.
NOT_C = assign(C, T)

FIRING = all_of(assign(A, S), implies([A], all_of()))
INNER = xor(assign(A, T), assign(B, S))

TRAPS = [
    ("a trial's firing is undone: it is a change once more when the Xor is settled", [
        [xor(FIRING, assign(C, S)), assign(A, S), NOT_C],
        [xor(assign(C, S), FIRING), assign(A, S), NOT_C],
        [xor(implies([], all_of()), assign(C, S)), NOT_C],
        [xor(implies([], assign(A, S)), assign(C, S)), NOT_C, assign(A, S)],
        [xor(xor(implies([], all_of()), impossible()), assign(C, S)), NOT_C],
        [xor(implies([], implies([], all_of())), assign(C, S)), NOT_C],
        [xor(implies([], all_of()), implies([], all_of()))],
    ]),
    ("an inner Xor narrowed in a trial has all its children again", [
        [xor(all_of(assign(A, S), INNER), assign(C, S)), assign(B, T), NOT_C],
        [xor(assign(C, S), all_of(assign(A, S), INNER)), assign(B, T), NOT_C],
        [xor(all_of(assign(A, S), INNER), assign(C, S)), NOT_C],
        [xor(all_of(assign(A, S), xor(INNER, impossible())), assign(C, S)), assign(B, T), NOT_C],
        [xor(implies([], all_of(assign(A, S), INNER)), assign(C, S)), assign(B, T), NOT_C],
    ]),
    ("a narrowed Xor that fails later has one child", [
        [assign(A, S), xor(assign(A, T), eq(B, C)), assign(B, S), assign(C, T)],
        [assign(A, S), xor(eq(B, C), assign(A, T)), assign(B, S), assign(C, T)],
        [assign(A, S), xor(assign(A, T), impossible(), eq(B, C)), assign(B, S), assign(C, T)],
        [assign(A, S), xor(assign(A, T), xor(impossible(), eq(B, C))), assign(B, S), assign(C, T)],
        [assign(A, S), xor(assign(A, T), implies([B], assign(C, S))), assign(C, T), assign(B, S)],
    ]),
    ("one success that changed nothing narrows and is no change", [
        [assign(A, S), xor(assign(A, T), all_of()), xor(assign(A, T), assign(A, S))],
        [xor(impossible(), all_of())],
        [xor(impossible(), eq(A, B)), assign(A, S), assign(B, T)],
        [xor(impossible(), xor(assign(A, S), assign(A, T))), assign(A, S)],
        [xor(all_of())],
    ]),
    ("one success by firing alone is a change", [
        [xor(impossible(), implies([], all_of()))],
        [xor(implies([], all_of()))],
        [assign(A, S), xor(assign(A, T), implies([A], all_of()))],
        [xor(impossible(), all_of(implies([], all_of())))],
    ]),
    ("the second success ends the trying: a child after it is not looked at", [
        [xor(assign(A, S), assign(B, S), impossible())],
        [xor(impossible(), assign(A, S), assign(B, S), impossible()), assign(A, T), assign(B, T)],
        [xor(assign(A, S), impossible(), assign(A, S))],
    ]),
    ("a trial starts from the assignment at entry, also after a failed And and after a success", [
        [assign(C, S), xor(all_of(assign(A, S), assign(C, T)), assign(A, T))],
        [assign(C, S), xor(assign(A, T), all_of(assign(A, S), assign(C, T)))],
        [xor(assign(A, S), all_of(assign(A, T), eq(A, B)))],
        [xor(assign(A, S), assign(A, T), eq(A, B)), eq(A, B), assign(B, T)],
    ]),
    ("And's error inside an Xor, at its first, second and last child, and a nested one", [
        [assign(A, S), xor(all_of(assign(A, T), assign(B, S)), impossible())],
        [assign(A, S), xor(all_of(assign(B, S), assign(A, T)), impossible())],
        [assign(A, S), xor(all_of(assign(B, S), all_of(eq(B, C), assign(C, T))), impossible(71, 1))],
        [assign(A, S), xor(all_of(xor(), assign(A, T)), all_of(xor(impossible()), all_of()))],
        [all_of(assign(A, S), assign(A, T))],
        [all_of(impossible(72, 9999), impossible(73, 1))],
    ]),
    ("the error of an Implies is its child's, and it fires before it fails", [
        [implies([], impossible())],
        [implies([A], impossible())],
        [implies([A], impossible()), assign(A, S)],
        [implies([A], assign(A, T)), assign(A, S)],
        [assign(A, S), xor(implies([A], assign(A, T)), implies([], xor()))],
    ]),
    ("none inside none", [
        [xor(xor(), xor(xor(), xor(impossible())), impossible())],
        [assign(A, S), assign(B, T), xor(xor(eq(A, B), assign(A, T)), all_of(eq(B, A)), xor(xor(xor())))],
    ]),
    ("watched terms and range terms named twice", [
        [implies([A, A], assign(B, S)), assign(A, T)],
        [implies([A, B, A, B], assign(C, S)), assign(A, T), assign(B, T)],
        [implies([A, A], implies([A, A], all_of())), assign(A, T)],
    ]),
    ("Eq of a term and itself", [
        [eq(A, A)],
        [eq(A, A), assign(A, S)],
        [xor(eq(A, A), impossible()), assign(A, T)],
    ]),
    ("Eq from either side, a mismatch at its first term", [
        [assign(B, T), eq(A, B)],
        [assign(A, S), assign(B, T), eq(B, A)],
        [eq(A, B), eq(B, C), assign(C, T)],
        [eq(C, B), eq(B, A), assign(C, T), assign(A, S)],
    ]),
    ("an error in a later pass, and errors that hide later ones", [
        [eq(A, B), assign(A, S), eq(B, C), assign(C, T)],
        [implies([B], assign(A, T)), eq(A, B), assign(A, S)],
        [assign(A, S), assign(A, T), impossible()],
        [xor(assign(A, T), assign(B, T)), eq(A, B), assign(B, S)],
    ]),
]


def nested(kinds, innermost):
    """A tree whose records have these kinds, outermost first."""
    tree = innermost
    for kind in reversed(kinds):
        if kind == IMPLIES:
            tree = implies([A], tree)
        elif kind == XOR:
            tree = xor(assign(A, T), tree)
        else:
            tree = all_of(assign(A, S), tree)
    return tree


def deep_trees():
    """Each compound kind under each other down to depth 8, with an innermost record of each kind."""
    leaves = [eq(B, C), assign(B, T), impossible(), all_of(), xor()]
    kinds = (AND, XOR, IMPLIES)
    for turn in range(9):
        chain = [kinds[(turn // 3 * level + turn + level // 2) % 3] for level in range(7)]
        for leaf in leaves:
            for first in (assign(A, S), assign(C, S)):
                yield problem([nested(chain, leaf), first], [B], layout=ShortLayout())
    yield problem([nested([IMPLIES] * 7, implies([], all_of())[2]), assign(A, S)])
    yield problem([nested([XOR] * 6 + [IMPLIES], all_of()), assign(A, S)])


OPEN_RANGES = [
    ("the first range entry without a sort, with its first place", [
        problem([assign(A, S)], [A, C, B, C]),
        problem([assign(A, S)], [A, A, B, B]),
        problem([], [C, C, C]),
        problem([assign(C, S), eq(C, A)], [C, A, C, A]),
        problem([implies([B], assign(A, S))], [A, B]),
        problem([assign(A, S)], [A, A]),
    ]),
]


def groups():
    for name, made in SCOPE:
        yield name, [made]
    for title, trees in TRAPS:
        yield title, [problem(tops) for tops in trees]
    yield from OPEN_RANGES
    yield "every kind nested to depth 8", list(deep_trees())
