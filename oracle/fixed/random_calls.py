"""Random calls from a seed: alone, in chains on one problem, and damaged copies."""

from lent_calls import *

HEADS = [0, 1, 2]
GARBAGE = [0, 1, 2, 3, 5, 9, 9, 9, 9, 9, 9, 9, 9, 9, 9, 9, 9, 9, 9, HUGE]


class Maker:
    """Tables, terms and calls over them."""

    def __init__(self, random):
        self.random = random
        self.sorts = random.between(1, 4)
        self.context = random.pick([0, 0, 1, 7, random.below(8)])
        self.tables = self.make_tables()
        self.terms = [self.new_term() for _ in range(random.between(2, 6))]
        if all(term[0] != VARIABLE for term in self.terms):
            self.terms.append(variable())

    def unused(self):
        return self.random.pick(GARBAGE)

    def sort(self):
        return self.random.below(self.sorts)

    def mask(self):
        permitted = 1 << self.context
        return self.random.pick([permitted, 255, permitted | self.random.below(256), 255 - permitted, 0,
                                 2**63 + permitted])

    def arity(self):
        return self.random.pick([1, 1, 2, 2, 2, 3, 3, 4, 0 if self.random.chance(15) else 2])

    def make_tables(self):
        tables = Tables(self.sorts, self.unused)
        for _ in range(self.random.between(2, 6)):
            head = self.random.pick(HEADS)
            kind = self.random.pick([FUNCTION, FUNCTION, CONSTRUCTOR, SIMPLE, SIMPLE, ALL_EQUAL, ALL_EQUAL])
            if kind == ALL_EQUAL:
                tables.all_equal(head, self.mask(), *self.all_equal_values())
            else:
                mask = self.mask() if kind == SIMPLE else self.unused()
                tables.with_sorts(kind, head, mask, [self.sort() for _ in range(self.arity())])
        return tables.globals(*[None if self.random.chance(10) else self.sort()
                                for _ in range(self.random.below(4))])

    def all_equal_values(self):
        def maybe(value):
            return value if self.random.chance(40) else None
        length = 0 if self.random.chance(4) else self.random.pick([1, 2, 2, 3, 3, 9999])
        return maybe(self.sort()), maybe(length), maybe(self.sort())

    def new_term(self):
        kind = self.random.pick([VARIABLE] * 6 + [GLOBAL] * 2 + [LITERAL] * 2)
        if kind == GLOBAL:
            known = len(self.tables.global_list)
            return a_global(self.random.below(known + (1 if self.random.chance(15) or known == 0 else 0)))
        return literal(self.sort()) if kind == LITERAL else variable(self.unused())

    def arguments(self, head, appended):
        """As many as some signature of the head takes, mostly."""
        signatures = [self.tables.signature_list[at:at + 10] for at in range(0, len(self.tables.signature_list), 10)]
        counts = [one[4] if one[0] != ALL_EQUAL else one[6] - 1 for one in signatures if one[1] == head]
        counts = [count for count in counts if 0 < count < 9]
        count = self.random.pick(counts) if counts and self.random.chance(85) else self.random.between(1, 4)
        return [self.term() for _ in range(max(0, count - appended))]

    def term(self):
        return self.random.below(len(self.terms))

    def variable(self):
        return self.random.pick([n for n, term in enumerate(self.terms) if term[0] == VARIABLE])

    def head(self):
        """One that the table has, mostly."""
        if self.random.chance(5):
            return self.random.below(4)
        return self.random.pick(self.tables.signature_list[1::10])

    def place(self):
        return self.random.pick([HUGE, 2**32]) if self.random.chance(3) else self.random.below(100)

    def atoms(self):
        items = Items(self.unused)
        for _ in range(self.random.pick([0, 1, 1, 1, 2, 2, 2, 3, 4])):
            if self.random.chance(25):
                count = self.random.pick([0, 1, 3]) if self.random.chance(6) else 2
                items.equality([self.term() for _ in range(count)], self.place())
            else:
                head = self.head()
                arguments = [] if self.random.chance(2) else self.arguments(head, 0)
                items.head(head, arguments, self.place())
        return items

    def actions(self):
        items = Items(self.unused)
        for _ in range(self.random.pick([0, 1, 1, 1, 2, 2, 2, 3, 4])):
            kind, head, place = self.random.below(6), self.head(), self.place()
            if kind == LET:
                items.let(self.variable(), head, self.arguments(head, 1), place)
            elif kind == SET:
                items.set(head, self.arguments(head, 1), self.term(), place)
            elif kind == CHANGE:
                items.change(head, self.arguments(head, 1), place)
            elif kind == UNION:
                items.union(self.term(), self.term(), place)
            elif kind == LET_ATOM_TERM:
                items.let_atom_term(self.variable(), self.term(), place)
            else:
                items.panic(place)
        return items

    def call(self):
        which = self.random.pick([QUERY] * 5 + [ACTIONS] * 4 + [LOCAL])
        if which == LOCAL:
            call = Call(LOCAL, self.tables, self.terms, Items(), self.context)
            call.item_list = [self.variable(), self.sort(), self.place()]
            return call
        items = self.atoms() if which == QUERY else self.actions()
        return Call(which, self.tables, self.terms, items, self.context)

    def call_on(self, left):
        """A call on the problem that another has left, terms perhaps added."""
        known = len(self.terms)
        for number in range(known, left.terms):
            self.terms.append(left.term_list[2 * number:2 * number + 2])
        if self.random.chance(30) and len(self.terms) < 12:
            self.terms.append(self.new_term())
        call = self.call()
        for name in ("record_list", "side_list", "top_list", "range_list", "records", "side", "tops", "range"):
            value = getattr(left, name)
            setattr(call, name, list(value) if isinstance(value, list) else value)
        return call


def fitted(random, asker, call):
    """Just the room that it needs, mostly."""
    if random.chance(75):
        return asker.fitted(call)
    count = random.pick(list(WRITTEN.values()))
    return asker.fitted(call, **{count: random.pick([-1, -1, 1, 3])})


def alone(random, asker):
    return fitted(random, asker, Maker(random).call())


def chain(random, asker):
    """Calls of which each is lent what the one before it left, or what it was lent, if it was refused."""
    maker = Maker(random)
    left = Call(QUERY, maker.tables, maker.terms, Items())
    for _ in range(random.between(3, 6)):
        call = fitted(random, asker, maker.call_on(left))
        yield call
        answer = asker.answer(call)
        if answer.startswith("0 "):
            left = call.after(answer)


def damaged(random, asker):
    """A call with one number changed. A typed local's tables are left alone: it is lent none."""
    call = alone(random, asker)
    number = random.pick([HUGE, 2**63, 257, 256]) if random.chance(25) else random.below(11)
    counts = ["records", "side", "tops", "range", "terms", "sorts"]
    lists = ["term_list", "record_list", "side_list", "top_list", "range_list", "item_list"]
    if call.which != LOCAL:
        counts += ["context", "signatures", "signature_sorts", "globals", "items", "arguments"]
        lists += ["signature_list", "signature_sort_list", "global_list", "argument_list", "signature_list", "item_list"]
    if random.chance(25):
        name = random.pick(counts)
        near = max(0, getattr(call, name) + random.pick([-1, 1, -1, 1, 2]))
        setattr(call, name, near if random.chance(70) else number)
        return call
    cells = getattr(call, random.pick([name for name in lists if getattr(call, name)]))
    cells[random.below(len(cells))] = number
    return call
