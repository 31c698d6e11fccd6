"""Random problems from a seed: well-formed trees, and damaged copies of them."""

from problems import *


class Random:
    """splitmix64, so that the list doesn't depend on a library's version."""

    def __init__(self, seed):
        self.state = seed

    def next(self):
        self.state = (self.state + 0x9E3779B97F4A7C15) % 2**64
        z = self.state
        z = (z ^ (z >> 30)) * 0xBF58476D1CE4E5B9 % 2**64
        z = (z ^ (z >> 27)) * 0x94D049BB133111EB % 2**64
        return z ^ (z >> 31)

    def below(self, n):
        return self.next() % n

    def between(self, low, high):
        return low + self.below(high - low + 1)

    def chance(self, percent):
        return self.below(100) < percent

    def pick(self, items):
        return items[self.below(len(items))]

    def shuffle(self, items):
        for i in range(len(items) - 1, 0, -1):
            j = self.below(i + 1)
            items[i], items[j] = items[j], items[i]


class RandomLayout(PlainLayout):
    """Any order that keeps children below parents, parts of the side list in any order with cells between them that no
    part covers, equal parts shared at times, and arbitrary numbers where nothing is read or compared."""

    def __init__(self, random, garbage):
        self.random = random
        self.garbage = garbage

    def order(self, nodes):
        if self.random.chance(40):
            return nodes
        waiting = {id(node): len(node.children) for node in nodes}
        parent = {id(child): node for node in nodes for child in node.children}
        ready = [node for node in nodes if not node.children]
        ordered = []
        while ready:
            node = ready.pop(self.random.below(len(ready)))
            ordered.append(node)
            above = parent.get(id(node))
            if above is not None:
                waiting[id(above)] -= 1
                if waiting[id(above)] == 0:
                    ready.append(above)
        return ordered

    def unused(self):
        return self.random.pick(self.garbage)

    def record_place(self, number):
        return self.unused() if self.random.chance(20) else self.random.below(100)

    def range_place(self, number):
        return self.record_place(number)

    def side(self, parts):
        turns = list(range(len(parts)))
        if self.random.chance(60):
            self.random.shuffle(turns)
        starts, cells, seen = [0] * len(parts), [], {}
        for turn in turns:
            key = tuple(parts[turn])
            if key in seen and self.random.chance(50):
                starts[turn] = seen[key]
                continue
            if self.random.chance(10):
                cells += [self.unused()]
            starts[turn] = seen[key] = len(cells)
            cells += parts[turn]
        return starts, cells


# Of the cells that are never read one in six is huge in small problems; large ones keep the file small.
GARBAGE = [0, 1, 2, 3, 7, 255, 999, 4096, 0, 1, HUGE, 2**63]
SMALL_GARBAGE = [0, 1, 2, 3, 5, 9]


class Grower:
    """Grows trees around a hidden assignment: a tree that should hold under it, or one that should not. Whether it
    does in solving depends on what is sorted by then. `left` is the number of records that nobody has claimed yet."""

    def __init__(self, random, terms, sorts, records):
        self.random = random
        self.terms = terms
        self.sorts = sorts
        self.left = records
        self.sort_of = [random.below(sorts) for _ in range(terms)]

    def term(self):
        return self.random.below(self.terms)

    def alike(self, x):
        return self.random.pick([y for y in range(self.terms) if self.sort_of[y] == self.sort_of[x]])

    def leaf(self, truth):
        return self.true_leaf() if truth else self.false_leaf()

    def true_leaf(self):
        x = self.term()
        if self.random.chance(55):
            return eq(x, self.alike(x))
        return assign(x, self.sort_of[x])

    def false_leaf(self):
        x, y = self.term(), self.term()
        if self.random.chance(20):
            return impossible(self.random.below(1000), self.random.pick([1, 2, 3, 9999]))
        if self.random.chance(30) and self.sort_of[x] != self.sort_of[y]:
            return eq(x, y)
        return self.false_assign(x)

    def false_assign(self, x):
        if self.sorts == 1:
            return impossible(self.random.below(1000), 1)
        return assign(x, (self.sort_of[x] + 1 + self.random.below(self.sorts - 1)) % self.sorts)

    def claim(self, count):
        count = min(count, self.left)
        self.left -= count
        return count

    def tree(self, truth, depth, nesting):
        """Its own record is claimed already."""
        if depth == 8 or self.left == 0 or not self.random.chance(nesting):
            return self.leaf(truth)
        kind = self.random.pick([AND, XOR, XOR, IMPLIES])
        if kind == IMPLIES:
            self.claim(1)
            watched = [self.term() for _ in range(self.random.pick([0, 1, 1, 1, 2, 2, 3]))]
            return implies(watched, self.tree(truth, depth + 1, nesting))
        count = self.claim(self.random.pick([0, 1, 2, 2, 2, 3, 3, 4]))
        truths = self.truths_of_and(truth, count) if kind == AND else self.truths_of_xor(truth, count)
        return (kind, [self.tree(truth, depth + 1, nesting) for truth in truths])

    def truths_of_and(self, truth, count):
        truths = [True] * count
        if not truth and count > 0:
            truths[self.random.below(count)] = False
        return truths

    def truths_of_xor(self, truth, count):
        truths = [False] * count
        if truth and count > 0:
            truths[self.random.below(count)] = True
            if self.random.chance(20):
                truths[self.random.below(count)] = True
        return truths

    def failing_xor(self, nesting):
        count = self.claim(self.random.between(1, 3))
        return xor(*[self.tree(False, 2, nesting) for _ in range(count)])

    def deep_chain(self, truth):
        """One tree that reaches depth 8, seven records besides its own at least."""
        self.claim(7)
        tree = self.leaf(truth)
        for _ in range(7):
            kind = self.random.pick([AND, XOR, IMPLIES])
            if kind == IMPLIES:
                tree = implies([self.term()] if self.random.chance(70) else [], tree)
                continue
            children = [tree]
            for _ in range(self.claim(self.random.below(3))):
                children.insert(self.random.below(len(children) + 1), self.leaf(kind == AND))
            tree = (kind, children)
        return tree

    def spine(self):
        """Links from term to term, in the worst order, that pass sorts on one at a time: an Eq, an Implies, or an Xor
        that the term before settles."""
        chain = list(range(self.terms))
        self.random.shuffle(chain)
        tops = [assign(chain[0], self.sort_of[chain[0]])]
        self.claim(1)
        room = self.left * self.random.between(30, 90) // 100
        for before, after in zip(chain, chain[1:]):
            link = self.link(before, after)
            room -= size(link)
            if room < 0:
                break
            self.claim(size(link))
            tops.insert(0, link)
        return tops

    def link(self, before, after):
        right, wrong = assign(after, self.sort_of[after]), self.false_assign(before)
        links = [implies([before], right), xor(wrong, right), xor(right, wrong), xor(wrong, implies([before], right))]
        if self.sort_of[before] == self.sort_of[after]:
            links += [eq(before, after), eq(after, before), xor(wrong, eq(after, before))]
        return self.random.pick(links)

    def seeds(self):
        """Some terms are sorted outright; the rest may follow from them, or stay open."""
        most = max(1, min(self.terms // 2, self.left // 4))
        terms = [self.term() for _ in range(self.claim(self.random.between(1, most)))]
        return [assign(x, self.sort_of[x]) for x in terms]


def well_formed(random, terms, sorts, records, garbage, deep=False):
    grower = Grower(random, terms, sorts, records)
    first = grower.spine() if random.chance(65) else grower.seeds()
    trees = []
    wrong = random.pick([0, 1, 2, 4])
    while grower.claim(1):
        truth = not (wrong > 0 and random.chance(30))
        wrong -= 0 if truth else 1
        if deep and grower.left >= 7 and random.chance(50):
            trees.append(grower.deep_chain(truth))
        elif not truth and random.chance(60):
            trees.append(grower.failing_xor(60))
        else:
            trees.append(grower.tree(truth, 1, 62))
    # The worst order, mostly: what is sorted outright comes last.
    tops = trees + first
    if random.chance(30):
        random.shuffle(tops)
    return problem(tops, range_of(random, terms), terms, sorts, RandomLayout(random, garbage))


def range_of(random, terms):
    if random.chance(70):
        return []
    return [random.below(terms) for _ in range(random.between(1, min(2 * terms, 40)))]


def loosened(random, made, garbage):
    """Lists that go on past their counts, buffers larger than asked for."""
    for cells in (made.record_list, made.side_list, made.top_list, made.range_list):
        if random.chance(15):
            cells += [random.pick(garbage) for _ in range(random.between(1, 9))]
    made.work_cells += random.pick([0, 0, 1, 17, 64])
    made.sort_cells += random.pick([0, 0, 1, 5])
    made.error_cells += random.pick([0, 0, 1, 7, 8, 20])
    return made


def small(random):
    terms, sorts = random.between(2, 4), random.pick([1, 2, 2, 3])
    made = well_formed(random, terms, sorts, random.between(2, 10), GARBAGE)
    return loosened(random, made, GARBAGE)


def middle(random):
    terms, sorts = random.between(4, 16), random.between(2, 5)
    made = well_formed(random, terms, sorts, random.between(11, 40), SMALL_GARBAGE, deep=random.chance(50))
    return loosened(random, made, GARBAGE)


def large(random, records=None):
    terms, sorts = random.between(100, 256), random.pick([2, 3, 10, 256])
    return well_formed(random, terms, sorts, records or random.between(300, 512), SMALL_GARBAGE, deep=True)


def damaged(random):
    """A well-formed problem with one number changed."""
    made = small(random) if random.chance(80) else middle(random)
    number = random.pick([HUGE, 2**63, 2**32, 513, 257, 256]) if random.chance(25) else random.below(13)
    lists = [cells for cells in (made.record_list, made.side_list, made.top_list, made.range_list) if cells]
    counts = ["records", "side", "tops", "range", "terms", "sorts"]
    if random.chance(25):
        name = random.pick(counts)
        near = max(0, getattr(made, name) + random.pick([-1, 1, -1, 1, 2]))
        setattr(made, name, near if random.chance(70) else number)
        return made
    cells = random.pick(lists) if random.chance(60) else made.record_list
    cells[random.below(len(cells))] = number
    return made
