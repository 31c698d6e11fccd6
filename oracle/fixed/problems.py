"""Problems as they are lent, and how trees of constraints are laid out as records."""

HUGE = 2**64 - 1

EQ, ASSIGN, AND, XOR, IMPOSSIBLE, IMPLIES = range(6)


# Constraints as trees: a kind and its parts.
def eq(x, y):
    return (EQ, x, y)


def assign(x, s):
    return (ASSIGN, x, s)


def all_of(*children):
    return (AND, list(children))


def xor(*children):
    return (XOR, list(children))


def impossible(head=70, expected=3):
    return (IMPOSSIBLE, head, expected)


def implies(watched, child):
    return (IMPLIES, list(watched), child)


def children_of(tree):
    if tree[0] in (AND, XOR):
        return tree[1]
    return [tree[2]] if tree[0] == IMPLIES else []


def size(tree):
    return 1 + sum(map(size, children_of(tree)))


class Problem:
    """Counts as claimed, lists cell by cell, sizes of the buffers. Any of them may be changed afterwards."""

    def __init__(self, record_list, side_list, top_list, range_list, terms, sorts):
        self.records = len(record_list) // 8
        self.side = len(side_list)
        self.tops = len(top_list)
        self.range = len(range_list) // 2
        self.terms = terms
        self.sorts = sorts
        self.record_list = record_list
        self.side_list = side_list
        self.top_list = top_list
        self.range_list = range_list
        self.work_cells = 18 * (terms + self.records)
        self.sort_cells = terms
        self.error_cells = 8 * self.records

    def copy(self):
        other = Problem.__new__(Problem)
        for name, value in vars(self).items():
            setattr(other, name, list(value) if isinstance(value, list) else value)
        return other

    def line(self):
        numbers = [self.records, self.side, self.tops, self.range, self.terms, self.sorts]
        numbers += [self.work_cells, self.sort_cells, self.error_cells]
        for cells in (self.record_list, self.side_list, self.top_list, self.range_list):
            numbers.append(len(cells))
            numbers += cells
        return " ".join(map(str, numbers))


class PlainLayout:
    """Children before their parents, parts of the side list in the same order, places that tell records apart, and
    the largest number in every cell that is never to be read."""

    def order(self, nodes):
        return nodes

    def unused(self):
        return HUGE

    def record_place(self, number):
        return 100 + number

    def range_place(self, number):
        return 1000 + number

    def side(self, parts):
        """Where each part of the side list starts, and the list."""
        starts, cells = [], []
        for part in parts:
            starts.append(len(cells))
            cells += part
        return starts, cells


class ShortLayout(PlainLayout):
    """The same with a short number there, where many or long problems are made."""

    def unused(self):
        return 9


class Node:
    def __init__(self, tree):
        self.kind = tree[0]
        self.values = tree[1:]
        self.children = [Node(child) for child in children_of(tree)]
        self.number = None

    def children_first(self):
        return [node for child in self.children for node in child.children_first()] + [self]

    def part(self):
        """What this node keeps in the side list, or None."""
        if self.kind in (AND, XOR):
            return [child.number for child in self.children]
        return self.values[0] if self.kind == IMPLIES else None


def problem(tops, range_terms=(), terms=3, sorts=2, layout=None):
    layout = layout or PlainLayout()
    roots = [Node(tree) for tree in tops]
    nodes = layout.order([node for root in roots for node in root.children_first()])
    for number, node in enumerate(nodes):
        node.number = number
    with_part = [node for node in nodes if node.part() is not None]
    starts, side_list = layout.side([node.part() for node in with_part])
    start_of = {node.number: start for node, start in zip(with_part, starts)}
    record_list = []
    for node in nodes:
        record_list += record_cells(node, start_of.get(node.number), layout)
    range_list = []
    for number, term in enumerate(range_terms):
        range_list += [term, layout.range_place(number)]
    return Problem(record_list, side_list, [root.number for root in roots], range_list, terms, sorts)


def record_cells(node, start, layout):
    values = list(node.values)
    if start is not None:
        values = [start, len(node.part())]
    if node.kind == IMPLIES:
        values.append(node.children[0].number)
    values += [layout.unused() for _ in range(5 - len(values))]
    return [node.kind, *values, layout.record_place(node.number), layout.unused()]
