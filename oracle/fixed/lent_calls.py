"""Generator calls as they are lent, and how tables, terms, atoms and actions are laid out."""

from problems import HUGE

QUERY, ACTIONS, LOCAL = range(3)
FUNCTION, CONSTRUCTOR, SIMPLE, ALL_EQUAL = range(4)
VARIABLE, GLOBAL, LITERAL = range(3)
HEAD, EQUALITY = range(2)
LET, SET, CHANGE, UNION, LET_ATOM_TERM, PANIC = range(6)

# In the order in which a line has them.
COUNTS = ["signatures", "signature_sorts", "globals", "items", "arguments",
          "records", "side", "tops", "range", "terms", "sorts"]
LISTS = ["signature_list", "signature_sort_list", "global_list", "term_list", "record_list", "side_list", "top_list",
         "range_list", "item_list", "argument_list"]
ENTRY_CELLS = {"signature_list": 10, "term_list": 2, "record_list": 8, "range_list": 2, "item_list": 8}

# The lists that a call may write to, with the count of each.
WRITTEN = {"record_list": "records", "side_list": "side", "top_list": "tops", "range_list": "range",
           "term_list": "terms"}

# What stands in a list past its count.
FILL = 7


class Tables:
    """`unused` gives what stands in cells that are never to be read."""

    def __init__(self, sorts=3, unused=lambda: 9):
        self.sorts = sorts
        self.unused = unused
        self.signature_list = []
        self.signature_sort_list = []
        self.global_list = []

    def with_sorts(self, kind, head, mask, sorts):
        spare = [self.unused() for _ in range(5)]
        self.signature_list += [kind, head, mask, len(self.signature_sort_list), len(sorts), *spare]
        self.signature_sort_list += sorts
        return self

    def function(self, head, *sorts):
        return self.with_sorts(FUNCTION, head, self.unused(), sorts)

    def constructor(self, head, *sorts):
        return self.with_sorts(CONSTRUCTOR, head, self.unused(), sorts)

    def simple(self, head, mask, *sorts):
        return self.with_sorts(SIMPLE, head, mask, sorts)

    def all_equal(self, head, mask, common=None, length=None, output=None):
        optional = [0 if value is None else value + 1 for value in (common, length, output)]
        self.signature_list += [ALL_EQUAL, head, mask, self.unused(), self.unused(), *optional, self.unused(),
                                self.unused()]
        return self

    def globals(self, *sorts):
        self.global_list += [0 if sort is None else sort + 1 for sort in sorts]
        return self


class Items:
    """Atoms or actions with their arguments."""

    def __init__(self, unused=lambda: 9):
        self.unused = unused
        self.item_list = []
        self.argument_list = []

    def add(self, kind, head=None, part=None, x=None, y=None, place=0):
        start, count = self.unused(), self.unused()
        if part is not None:
            start, count = len(self.argument_list), len(part)
            self.argument_list += part
        cells = [head, start, count, x, y, place, self.unused()]
        self.item_list += [kind] + [self.unused() if cell is None else cell for cell in cells]
        return self

    def head(self, head, terms, place=11):
        return self.add(HEAD, head, terms, place=place)

    def equality(self, terms, place=12):
        return self.add(EQUALITY, None, terms, place=place)

    def let(self, x, head, terms, place=13):
        return self.add(LET, head, terms, x, place=place)

    def set(self, head, terms, x, place=14):
        return self.add(SET, head, terms, x, place=place)

    def change(self, head, terms, place=15):
        return self.add(CHANGE, head, terms, place=place)

    def union(self, x, y, place=16):
        return self.add(UNION, x=x, y=y, place=place)

    def let_atom_term(self, x, y, place=17):
        return self.add(LET_ATOM_TERM, x=x, y=y, place=place)

    def panic(self, place=18):
        return self.add(PANIC, place=place)


def variable(unused=9):
    return [VARIABLE, unused]


def a_global(number):
    return [GLOBAL, number]


def literal(sort):
    return [LITERAL, sort]


class Call:
    """Counts as claimed and lists cell by cell. Any of them may be changed afterwards."""

    def __init__(self, which, tables, terms, items, context=0):
        self.which = which
        self.context = context
        self.signature_list = list(tables.signature_list)
        self.signature_sort_list = list(tables.signature_sort_list)
        self.global_list = list(tables.global_list)
        self.term_list = [cell for term in terms for cell in term]
        self.record_list, self.side_list, self.top_list, self.range_list = [], [], [], []
        self.item_list = list(items.item_list)
        self.argument_list = list(items.argument_list)
        self.signatures = len(self.signature_list) // 10
        self.signature_sorts = len(self.signature_sort_list)
        self.globals = len(self.global_list)
        self.items = len(self.item_list) // 8
        self.arguments = len(self.argument_list)
        self.records = self.side = self.tops = self.range = 0
        self.terms = len(terms)
        self.sorts = tables.sorts

    def copy(self):
        other = Call.__new__(Call)
        for name, value in vars(self).items():
            setattr(other, name, list(value) if isinstance(value, list) else value)
        return other

    def line(self):
        numbers = [self.which, self.context] + [getattr(self, name) for name in COUNTS]
        for name in LISTS:
            cells = getattr(self, name)
            numbers.append(len(cells))
            numbers += cells
        return " ".join(map(str, numbers))

    def lend(self, rooms):
        """Lists that have room for so many entries beyond what is in use; what stands there is never read."""
        for name, count in WRITTEN.items():
            cells = ENTRY_CELLS.get(name, 1) * (getattr(self, count) + rooms[count])
            used = getattr(self, name)[:cells]
            setattr(self, name, used + [FILL] * (cells - len(used)))
        return self

    def after(self, answer):
        """The problem that the call left, with nothing more to add."""
        head, *lists = answer.split(" |")
        counts = list(map(int, head.split(" ")))[3:]
        other = self.copy()
        for name, count in zip(["records", "side", "tops", "range", "terms", "sorts"], counts):
            setattr(other, name, count)
        for name, runs in zip(["term_list", "record_list", "side_list", "top_list", "range_list"], lists):
            cells = []
            for run in runs.split(" ")[2:]:
                value, times = run.split("x")
                cells += [int(value)] * int(times)
            setattr(other, name, cells)
        return other


def local_call(tables, terms, term, sort, place):
    """A typed local: its three numbers stand for the atoms."""
    call = Call(LOCAL, tables, terms, Items())
    call.item_list = [term, sort, place]
    return call
