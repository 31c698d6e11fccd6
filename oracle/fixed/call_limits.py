"""Refusals 1 and 2 at each cause, the largest sizes and one more, rooms exact and one entry short, and 2^64 - 1 in each
place."""

import chosen_calls as chosen
from chosen_calls import A, B, C, D, FUN, G_SORTED, LIT_0, OVER, SAME, actions, local, query
from lent_calls import *


def base_query():
    call = query(("head", OVER, [A, LIT_0], 31), ("equality", [G_SORTED, B], 32), made=chosen.tables())
    return with_problem(call)


def base_actions():
    call = actions(("let", A, FUN, [B], 31), ("set", FUN, [LIT_0], C, 32), ("change", SAME, [A], 33), ("union", A, D, 34),
                   ("let_atom_term", C, G_SORTED, 35), ("panic", 36), made=chosen.tables())
    return with_problem(call)


def base_local():
    return with_problem(local(A, 1))


def with_problem(call):
    """A small problem at entry: every kind of record, one range entry."""
    records = [[1, 0, 0, 9], [5, 0, 2, 0], [0, 1, 2, 9], [2, 2, 2, 9], [4, 70, 3, 9], [3, 4, 1, 9]]
    call.record_list = [cell for record in records for cell in [*record, 9, 9, 5, 9]]
    call.side_list = [0, 2, 1, 2, 4]
    call.top_list = [3, 5]
    call.range_list = [B, 3]
    call.records, call.side, call.tops, call.range = 6, 5, 2, 1
    return call


BASES = [base_query, base_actions, base_local]
PROBLEM_COUNTS = ["records", "side", "tops", "range", "terms"]
TABLE_COUNTS = ["signatures", "signature_sorts", "globals", "items", "arguments"]
LIST_OF = {"signatures": "signature_list", "signature_sorts": "signature_sort_list", "globals": "global_list",
           "items": "item_list", "arguments": "argument_list", "records": "record_list", "side": "side_list",
           "tops": "top_list", "range": "range_list", "terms": "term_list"}
MOST = {"signatures": 256, "signature_sorts": 2048, "globals": 256, "arguments": 2048, "records": 512, "side": 2048,
        "tops": 512, "range": 256, "terms": 256}


def counts_of(call):
    """The counts that a call is held to: a typed local is lent no tables."""
    return PROBLEM_COUNTS + ([] if call.which == LOCAL else TABLE_COUNTS)


def counts_past_their_lists():
    for base in BASES:
        for count in counts_of(base()):
            call = base()
            setattr(call, count, getattr(call, count) + 1)
            yield call
            call = base()
            getattr(call, LIST_OF[count]).pop()
            yield call
        for count in counts_of(base()) + ["sorts"]:
            call = base()
            setattr(call, count, HUGE)
            yield call
        call = base()
        call.sorts = 257
        yield call


# Entries that are fine wherever they stand; a single 0 in the other lists.
FILLERS = {"signatures": [3, 99, 0, 0, 0, 0, 0, 0, 0, 0], "records": [2, 0, 0, 0, 0, 0, 0, 0], "terms": [0, 0],
           "range": [0, 0]}


def grown(call, count, size):
    """The call with a list of so many entries."""
    cells = getattr(call, LIST_OF[count])
    missing = size - getattr(call, count)
    cells += FILLERS.get(count, [0]) * missing
    setattr(call, count, size)
    return call


def sizes_at_entry():
    """Each count at its largest size, and one more, with nothing to add."""
    for count, most in MOST.items():
        for size in (most, most + 1):
            yield grown(actions(("panic",)), count, size)
    for sorts in (256, 257):
        call = actions(("union", A, LIT_0))
        call.sorts = sorts
        yield call


def set_cell(name, position, number):
    def change(call):
        getattr(call, name)[position] = number
    return change


def signature(entry, cell, number):
    return set_cell("signature_list", 10 * entry + cell, number)


def item(entry, cell, number):
    return set_cell("item_list", 8 * entry + cell, number)


# Signatures of chosen.tables: 0 a function of two sorts, 3 and 6 all-equal.
TABLE_CAUSES = [
    lambda call: setattr(call, "context", 8), lambda call: setattr(call, "context", HUGE),
    signature(0, 0, 4), signature(13, 0, HUGE), signature(0, 4, HUGE), signature(0, 3, HUGE), signature(0, 3, 2**63),
    signature(2, 3, 99), signature(3, 5, 4), signature(3, 5, HUGE), signature(6, 7, 4), signature(6, 7, HUGE),
    signature(3, 6, 10001), signature(3, 6, HUGE), set_cell("signature_sort_list", 0, 3),
    set_cell("signature_sort_list", 5, HUGE), set_cell("global_list", 0, 4), set_cell("global_list", 2, HUGE),
    set_cell("argument_list", 0, 10), set_cell("argument_list", 1, HUGE),
]
PROBLEM_CAUSES = [
    set_cell("term_list", 0, 3), set_cell("term_list", 18, HUGE), set_cell("term_list", 15, 3),
    set_cell("term_list", 17, HUGE), set_cell("range_list", 0, 10), set_cell("range_list", 0, HUGE),
    set_cell("record_list", 0, 6), set_cell("record_list", 1, 10), set_cell("record_list", 2, 3),
    set_cell("record_list", 9, HUGE), set_cell("side_list", 0, 10), set_cell("record_list", 17, 10),
    set_cell("record_list", 18, HUGE), set_cell("record_list", 26, 4), set_cell("record_list", 34, 0),
    set_cell("record_list", 34, 10000), set_cell("record_list", 42, 2),
]
QUERY_CAUSES = [item(0, 0, 2), item(1, 0, HUGE), item(0, 2, 3), item(0, 2, HUGE), item(0, 3, HUGE), item(1, 3, 3)]
ACTION_CAUSES = [
    item(0, 0, 6), item(5, 0, HUGE), item(0, 2, 3), item(1, 3, 3), item(2, 2, HUGE), item(2, 3, HUGE),
    item(0, 4, 10), item(0, 4, HUGE), item(0, 4, LIT_0), item(0, 4, G_SORTED), item(1, 4, 10), item(1, 4, HUGE),
    item(3, 4, 10), item(3, 5, 10), item(3, 4, HUGE), item(4, 4, 10), item(4, 5, 10), item(4, 4, G_SORTED),
    item(4, 4, LIT_0), item(4, 5, HUGE),
]
LOCAL_CAUSES = [
    set_cell("item_list", 0, 10), set_cell("item_list", 0, HUGE), set_cell("item_list", 0, LIT_0),
    set_cell("item_list", 0, G_SORTED), set_cell("item_list", 1, 3), set_cell("item_list", 1, HUGE),
]


def causes_of_2():
    pairs = [(base_query, TABLE_CAUSES + PROBLEM_CAUSES + QUERY_CAUSES), (base_actions, TABLE_CAUSES + ACTION_CAUSES),
             (base_local, PROBLEM_CAUSES + LOCAL_CAUSES)]
    for base, causes in pairs:
        for cause in causes:
            call = base()
            cause(call)
            yield call


def first_of(number):
    """A cause of 1 or of 2 with causes of later refusals in the same call."""
    for call in (query(*chosen.ATOM_CAUSES.values()), actions(*chosen.ACTION_CAUSES.values())):
        call.context = 8
        if number == 1:
            call.term_list.pop()
        yield call
    call = actions(*chosen.ACTION_CAUSES.values())
    call.item_list[8 * 3] = 6
    if number == 1:
        call.item_list.pop()
    yield call


def edges_of_2():
    """Values at the edge of what is allowed, and anything where nothing is tested."""
    call = base_query()
    call.context = 7
    yield call
    for cause in (signature(0, 4, 1), signature(0, 4, 0), signature(12, 3, 13), signature(3, 5, 3), signature(3, 7, 3),
                  signature(3, 6, 10000), signature(0, 1, HUGE), signature(2, 2, HUGE), set_cell("global_list", 1, 3),
                  set_cell("term_list", 9, HUGE), item(0, 2, 1), item(1, 2, 2), item(0, 6, HUGE), item(0, 1, HUGE)):
        call = base_query()
        cause(call)
        yield call
    # An Implies's child and top-level entries belong to solve's 3, which no generator tests.
    for cause in (set_cell("record_list", 11, HUGE), set_cell("top_list", 0, HUGE), set_cell("side_list", 4, HUGE)):
        for base in BASES:
            call = base()
            cause(call)
            yield call


def huge_numbers():
    """2^64 - 1 in each count and in each cell of each list in turn, as far as the call is lent it."""
    for which in (QUERY, ACTIONS, LOCAL):
        lists = [LIST_OF[count] for count in PROBLEM_COUNTS] + ["item_list"]
        if which != LOCAL:
            lists += ["signature_list", "signature_sort_list", "global_list", "argument_list"]
            call = tiny(which)
            call.context = HUGE
            yield call
        for name in lists:
            for position in range(len(getattr(tiny(which), name))):
                call = tiny(which)
                getattr(call, name)[position] = HUGE
                yield call


def tiny(which):
    """A call that reads every kind of cell and is short."""
    made = Tables(2).function(70, 0, 1).all_equal(70, 1, 0, 2, 1).simple(71, 1, 1).globals(1)
    items = Items()
    if which == QUERY:
        items.head(70, [0, 2]).equality([1, 3])
    else:
        items.let(0, 70, [2]).set(71, [], 3).change(70, [1]).union(0, 1).let_atom_term(1, 3).panic()
    call = Call(which, made, [variable(), variable(), a_global(0), literal(1)], items)
    if which == LOCAL:
        call = local_call(made, [variable(), variable(), a_global(0), literal(1)], 1, 0, 5)
    records = [[1, 0, 0, 9], [5, 0, 1, 0], [4, 70, 3, 9], [3, 1, 1, 9], [0, 0, 1, 9]]
    call.record_list = [cell for record in records for cell in [*record, 9, 9, 5, 9]]
    call.side_list, call.top_list, call.range_list = [1, 2], [1, 3, 4], [1, 3]
    call.records, call.side, call.tops, call.range = 5, 2, 3, 1
    return call


def sizes_of_what_is_added(asker):
    """Each largest size just reached, and passed by one; the lists have an entry more than that."""
    plain = query(("equality", [A, B]))
    for size in (511, 512):
        yield grown(plain.copy(), "records", size).lend(room(records=2, tops=1, range=2))
        yield grown(plain.copy(), "tops", size).lend(room(records=1, tops=2, range=2))
    for size in (254, 255, 256):
        yield grown(plain.copy(), "range", size).lend(room(records=1, tops=1, range=3))
    over = query(("head", OVER, [A, B]))
    cells = asker.growth(over)["side"]
    for size in (2048 - cells, 2049 - cells):
        yield grown(over.copy(), "side", size).lend(room(records=9, side=cells + 1, tops=1, range=2))
    change = ("change", FUN, [A])
    for changes, sizes in (([change], (255, 256)), ([change, change], (254, 255))):
        for size in sizes:
            yield grown(actions(*changes), "terms", size).lend(room(records=4, tops=4, terms=2))
    yield from one_call_that_fills_all()


def one_call_that_fills_all():
    """512 records from many atoms, from one wide atom, and from one Xor whose Ands fill them."""
    for number in (256, 257):
        yield query(*[("head", FUN, [A, B])] * number).lend(room(records=513, tops=513, range=2))
    for number in (513, 514):
        yield query(("head", SAME, [A] * number)).lend(room(records=513, tops=513, range=1))
    made = Tables(3).all_equal(70, 1).all_equal(70, 1, common=1)
    for number in (255, 256):
        yield query(("head", 70, [A] * number), made=made).lend(room(records=513, side=513, tops=1, range=1))


def room(records=0, side=0, tops=0, range=0, terms=0):
    return {"records": records, "side": side, "tops": tops, "range": range, "terms": terms}


def argument_sizes():
    """2,048 arguments, and one more: appended ones don't count."""
    for number in (2048, 2049):
        arguments = [A] * number
        wrong = Tables(3).function(70, 0)
        for call in (query(("head", 70, arguments), made=wrong), actions(("let", B, 70, arguments), made=wrong)):
            yield call.lend(room(records=1, tops=1, range=1))


def rooms(asker):
    """Each list just large enough, one entry short, one cell short, and larger."""
    for make in (base_query, base_actions, base_local, lambda: query(("head", OVER, [A, B]))):
        exact = asker.fitted(make())
        yield exact
        growth = asker.growth(make())
        for name, count in WRITTEN.items():
            if growth[count] > 0:
                yield asker.fitted(make(), **{count: -1})
                cut = exact.copy()
                getattr(cut, name).pop()
                yield cut
            yield asker.fitted(make(), **{count: 1})
            longer = exact.copy()
            getattr(longer, name).append(HUGE)
            yield longer


def hidden(asker):
    """Room for all but the last entry of the first atom: 10, whatever the second has."""
    for call in chosen.hidden_by_10():
        count = "terms" if call.which == ACTIONS else "range"
        for short in (count, "records", "tops"):
            first = call.copy()
            first.items = 1
            growth = asker.growth(first)
            yield call.copy().lend({name: growth[name] - (name == short) for name in growth})
