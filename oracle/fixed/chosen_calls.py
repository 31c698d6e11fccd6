"""Calls chosen by hand: shapes of signatures, heads, actions, and every refusal at its first cause among several."""

from lent_calls import *

# Terms of the calls below.
A, B, C, D, G_SORTED, G_UNSORTED, G_PAST, LIT_0, LIT_2, G_AGAIN = range(10)
TERMS = [variable(), variable(HUGE), variable(), variable(), a_global(0), a_global(1), a_global(HUGE), literal(0),
         literal(2), a_global(0)]

# Heads of the calls below.
FUN, CTOR, PRIM, SAME, OVER, NO_SORTS, CTOR_NO_SORTS, ZERO, UNKNOWN, MASKED, TWICE, ALONE = range(50, 62)


def tables(unused=lambda: 9):
    made = Tables(3, unused).globals(1, None, 2)
    made.function(FUN, 0, 1).constructor(CTOR, 0, 2).simple(PRIM, 1, 1, 1).all_equal(SAME, 1)
    made.function(OVER, 0, 1).simple(OVER, 1, 2, 1).all_equal(OVER, 1, output=0).simple(OVER, 2, 0)
    made.function(NO_SORTS).constructor(CTOR_NO_SORTS).all_equal(ZERO, 1, length=0)
    made.simple(MASKED, 2, 0).all_equal(MASKED, 4)
    made.function(TWICE, 0).constructor(TWICE).constructor(TWICE, 1, 1)
    return made.all_equal(ALONE, 255)


def tables_with(*heads):
    """The signatures of those heads, and one before and after them."""
    made = tables()
    signatures = [made.signature_list[at:at + 10] for at in range(0, len(made.signature_list), 10)]
    made.signature_list = [cell for one in signatures if one[1] in (FUN, *heads, ALONE) for cell in one]
    return made


def query(*atoms, context=0, made=None):
    items = Items()
    for name, *values in atoms:
        getattr(items, name)(*values)
    return Call(QUERY, made or tables_with(*items.item_list[1::8]), TERMS, items, context)


def actions(*steps, context=0, made=None):
    call = query(*steps, context=context, made=made)
    call.which = ACTIONS
    return call


def local(term, sort, place=21):
    return local_call(tables_with(), TERMS, term, sort, place)


def heads():
    """Function, constructor and simple signatures with the right number of arguments, and with others."""
    for head in (FUN, CTOR, PRIM, TWICE, ALONE):
        for count in (1, 2, 3, 4):
            yield query(("head", head, [A, B, C, D][:count]))
        yield query(("head", head, [A, A]), ("head", head, [LIT_0, G_SORTED]))
    yield query(("head", FUN, [A, B]), ("head", FUN, [B, A]), ("equality", [A, C]), ("head", PRIM, [C, D]))
    yield query()
    yield query(context=7)


def all_equal_shapes():
    for common in (None, 1):
        for output in (None, 2):
            for length in (None, 1, 2, 3, 9999):
                made = Tables(3).globals(1).all_equal(70, 1, common, length, output)
                for count in (1, 2, 3, 4):
                    yield query(("head", 70, [A, B, C, A][:count]), made=made)
                yield query(("head", 70, [LIT_0, A, G_SORTED]), made=made)
                yield actions(("let", A, 70, [B, LIT_2]), ("set", 70, [A], G_AGAIN), ("change", 70, []), made=made)


def overloaded():
    """A function with primitives, each context by itself; the function first wherever it stands in the table."""
    for context in range(8):
        made = Tables(3).simple(70, 1 << context, 0, 1).function(70, 1, 1).simple(70, 255 - (1 << context), 2)
        made.all_equal(70, 0b10101010).all_equal(70, 2**63 + 0b1100, common=2, length=2)
        for other in range(8):
            yield query(("head", 70, [A, B]), context=other, made=made)
    made = Tables(3).all_equal(70, 1).all_equal(70, 1)
    yield query(("head", 70, [A]), made=made)
    yield query(("head", 70, [A]), ("head", 70, [LIT_0]), made=made)
    made = Tables(3).all_equal(70, 1).function(70, 0).all_equal(70, 1, length=3)
    for count in (1, 2, 3):
        yield query(("head", 70, [A, B, C][:count]), made=made)
        yield actions(("let", D, 70, [A, B, C][:count]), ("change", 70, [B, C][:count]), made=made)
    for count in (1, 2, 3):
        yield query(("head", OVER, [A, B, C][:count]))
        yield query(("head", OVER, [LIT_0, G_SORTED, A][:count]), context=1)
    made = Tables(3)
    for sort in range(3):
        made.simple(70, 1, sort).function(70, sort).constructor(70)
    yield query(("head", 70, [A]), made=made)
    yield actions(("set", 70, [], A), made=made)
    yield query(("head", 70, [A, B]), made=made)


def literals_and_globals():
    yield query(("head", FUN, [LIT_0, LIT_0]), ("head", FUN, [LIT_0, G_SORTED]))
    yield query(("head", SAME, [LIT_0, G_SORTED, LIT_0, G_SORTED, LIT_2, G_AGAIN]))
    yield query(("equality", [G_SORTED, G_AGAIN]))
    yield query(("equality", [LIT_2, LIT_2]), ("equality", [A, A]), ("equality", [A, LIT_0]))
    yield actions(("union", LIT_2, G_SORTED), ("union", G_SORTED, A), ("union", A, A), ("union", B, LIT_0))
    yield actions(("let_atom_term", A, LIT_0), ("let_atom_term", A, G_SORTED), ("let_atom_term", B, A))
    yield actions(("set", FUN, [LIT_0], LIT_2), ("let", A, FUN, [G_SORTED]), ("change", FUN, [LIT_0]))


def each_action():
    for head in (FUN, PRIM, SAME, OVER, ALONE):
        for terms in ([], [A], [A, B], [LIT_0, A, G_SORTED]):
            yield actions(("let", C, head, terms))
            yield actions(("set", head, terms, C))
            yield actions(("set", head, terms, G_SORTED))
            yield actions(("change", head, terms))
    yield actions(("let", A, CTOR, [B]), ("change", CTOR, [A]))
    yield actions(("let", A, CTOR, [A]), ("let", A, CTOR, [A]))
    yield actions(("union", A, B), ("union", B, A))
    yield actions(("panic",))
    yield actions(("panic",), ("panic",), ("let_atom_term", A, B), ("panic",))
    yield actions()
    yield actions(("change", FUN, [A]), ("change", FUN, [A]), ("change", PRIM, [A]), ("change", FUN, []))
    yield actions(("let", A, FUN, [B], 31), ("let", A, FUN, [C], 32), ("let_atom_term", A, D, 33),
                  ("let_atom_term", B, A, 34))


def locals_():
    for term in (A, B, C, D):
        for sort in (0, 1, 2):
            yield local(term, sort, HUGE if sort == 2 else 5)


def ranges():
    """A term enters the range once, with its first place, also where it is there at entry."""
    base = query(("head", SAME, [B, A, B], 31), ("head", SAME, [C, B, LIT_0], 32), ("equality", [LIT_0, C], 33))
    for entries in ([], [A, 3], [B, HUGE, B, 4], [C, 1, A, 2, C, 3], [LIT_0, 8], [D, 1, D, 1]):
        call = base.copy()
        call.range_list = list(entries)
        call.range = len(entries) // 2
        yield call
    let = actions(("let", A, FUN, [B], 31), ("let_atom_term", B, A, 32), ("let_atom_term", A, B, 33))
    for entries in ([], [A, 3], [B, HUGE], [C, 3, B, 1, A, 2]):
        call = let.copy()
        call.range_list = list(entries)
        call.range = len(entries) // 2
        yield call
        call = local(A, 1)
        call.range_list = list(entries)
        call.range = len(entries) // 2
        yield call


# One atom or action for each refusal that is given atom by atom, in the order of the tests.
ATOM_CAUSES = {
    7: ("head", FUN, []),
    20: ("head", UNKNOWN, [A]),
    8: ("head", NO_SORTS, [A]),
    9: ("equality", [A, G_UNSORTED]),
}
ACTION_CAUSES = {
    21: ("set", CTOR, [A], B),
    20: ("change", UNKNOWN, [A]),
    8: ("let", A, ZERO, [B]),
    9: ("union", G_PAST, A),
}


def causes_alone():
    """7, 20, 21, 8 and 9 with nothing else wrong."""
    yield 7, query(("head", FUN, []))
    yield 7, query(("head", ALONE, []), context=3)
    for count in (0, 1, 3, 4):
        yield 7, query(("equality", [A, B, C, D][:count]))
    yield 20, query(("head", UNKNOWN, [A]))
    yield 20, query(("head", MASKED, [A, B]))
    yield 20, query(("head", MASKED, [A]), context=7)
    yield 20, actions(("let", A, UNKNOWN, []))
    yield 20, actions(("set", UNKNOWN, [], A, HUGE))
    yield 20, actions(("change", MASKED, [A]))
    yield 20, query(("head", HUGE, [A]))
    yield 21, actions(("set", CTOR, [A], B))
    yield 21, actions(("set", CTOR, [], LIT_0, HUGE))
    made = tables().simple(CTOR, 1, 0, 2)
    yield 21, actions(("set", CTOR, [A], B), made=made)
    made = Tables(3).simple(70, 1, 0, 0).constructor(70, 0).function(70, 0)
    yield 21, actions(("set", 70, [A], B), made=made)
    for head in (NO_SORTS, CTOR_NO_SORTS, ZERO):
        yield 8, query(("head", head, [A, B]))
        yield 8, actions(("let", A, head, []))
        yield 8, actions(("change", head, [A]))
    yield 8, actions(("set", NO_SORTS, [], A))
    for made in (Tables(3).function(70, 0, 0).simple(70, 1), Tables(3).function(70).simple(70, 1, 0, 0),
                 Tables(3).all_equal(70, 1, length=2).all_equal(70, 1, 0, 0, 0)):
        yield 8, query(("head", 70, [A, B]), made=made)
    for term in (G_UNSORTED, G_PAST):
        yield 9, query(("head", FUN, [A, term]))
        yield 9, query(("head", FUN, [A, B, term]))
        yield 9, query(("equality", [term, LIT_0]))
        yield 9, actions(("let", A, FUN, [term]))
        yield 9, actions(("set", FUN, [term], A))
        yield 9, actions(("set", FUN, [A], term))
        yield 9, actions(("change", FUN, [term]))
        yield 9, actions(("union", A, term))
        yield 9, actions(("union", term, A))
        yield 9, actions(("let_atom_term", A, term))


def causes_not_met():
    """What looks like a cause and is none: a bad alternative that is masked off, a second function, a bad global that no
    argument names, an appended argument."""
    yield query(("head", 70, [A, B]), made=Tables(3).function(70, 0, 0).simple(70, 2).all_equal(70, 4, length=0))
    yield query(("head", 70, [A, B]), made=Tables(3).function(70, 0, 0).function(70).constructor(70))
    yield actions(("set", TWICE, [], A))
    yield actions(("set", OVER, [A], B), ("set", SAME, [], A))
    yield query(("head", FUN, [A, B]), ("head", FUN, [A, G_SORTED]))
    yield actions(("let", A, SAME, []), ("set", SAME, [], B), ("change", SAME, []))
    yield actions(("let_atom_term", A, A), ("union", LIT_0, LIT_0))


def two_in_one_atom():
    """An atom with two causes is refused with the earlier one; 10 is tried by taking all room away."""
    yield 21, actions(("set", CTOR_NO_SORTS, [], A))
    yield 21, actions(("set", CTOR, [G_UNSORTED], G_PAST))
    yield 21, actions(("set", CTOR_NO_SORTS, [G_UNSORTED], A))
    yield 7, query(("head", UNKNOWN, []))
    yield 7, query(("head", NO_SORTS, []))
    yield 7, query(("head", ZERO, []))
    yield 7, query(("equality", [A, B, G_UNSORTED]))
    yield 7, query(("equality", [G_PAST]))
    yield 20, query(("head", UNKNOWN, [G_UNSORTED]))
    yield 20, actions(("change", MASKED, [G_PAST, A]))
    yield 8, query(("head", NO_SORTS, [G_UNSORTED]))
    yield 8, query(("head", ZERO, [G_PAST, A]))
    yield 8, actions(("set", NO_SORTS, [A], G_PAST))
    yield 9, actions(("set", FUN, [G_PAST], A))


def two_atoms():
    """Each cause at the first atom and another at the second: the first atom decides."""
    good = ("head", FUN, [A, B])
    for first, one in ATOM_CAUSES.items():
        yield first, query(good, one)
        for other in ATOM_CAUSES.values():
            yield first, query(one, other)
    good = ("let", A, FUN, [B])
    for first, one in ACTION_CAUSES.items():
        yield first, actions(good, one)
        yield first, actions(("change", FUN, [A]), good, one)
        for other in ACTION_CAUSES.values():
            yield first, actions(one, other)


def hidden_by_10():
    """The first atom takes what room there is, and one more; the second has another cause."""
    for cause in ATOM_CAUSES.values():
        yield query(("head", FUN, [A, B]), cause)
    for cause in ACTION_CAUSES.values():
        yield actions(("change", FUN, [A]), cause)


def groups():
    """Titles and calls; a title `refusal N: ...` is held to."""
    yield "function, constructor and simple signatures", list(heads())
    yield "every all-equal shape", list(all_equal_shapes())
    yield "overloaded heads, masks and contexts", list(overloaded())
    yield "literals and globals, repeated", list(literals_and_globals())
    yield "every action", list(each_action())
    yield "typed locals", list(locals_())
    yield "the range", list(ranges())
    yield "what looks like a cause and is none", list(causes_not_met())
    for title, calls in (("its causes alone", causes_alone()), ("first of two in one atom", two_in_one_atom()),
                         ("at the first atom of two", two_atoms())):
        by_number = {}
        for number, call in calls:
            by_number.setdefault(number, []).append(call)
        for number, made in by_number.items():
            yield f"refusal {number}: {title}", made
