"""The limits, and every cause of the refusals 1 to 6, alone and two at a time."""

from problems import *


def base():
    """A small problem that has every kind of record, a shared use of the side list and a range."""
    first = all_of(implies([0, 2], assign(1, 0)), eq(0, 1))
    second = xor(impossible(70, 3), assign(2, 1))
    return problem([first, second, assign(0, 0)], [0, 2], layout=ShortLayout())


# Records of `base` in the order of PlainLayout.
ASSIGN_B, IMPLIES_AC, EQ_AB, AND_FIRST, IMPOSSIBLE_70, ASSIGN_C, XOR_SECOND, ASSIGN_A = range(8)
KIND, V1, V2, V3 = range(4)


def set_cell(record, cell, number):
    def change(made):
        made.record_list[8 * record + cell] = number
    return change


def set_part(record, start, count):
    def change(made):
        made.record_list[8 * record + V1] = start
        made.record_list[8 * record + V2] = count
    return change


def set_in(name, position, number):
    def change(made):
        getattr(made, name)[position] = number
    return change


def add_to(name, number):
    def change(made):
        setattr(made, name, getattr(made, name) + number)
    return change


def set_to(name, number):
    def change(made):
        setattr(made, name, number)
    return change


def shorten(name):
    def change(made):
        getattr(made, name).pop()
    return change


def drop_last_top(made):
    made.top_list.pop()
    made.tops -= 1


def add_top(number):
    def change(made):
        made.top_list.append(number)
        made.tops += 1
    return change


def add_nested(depth):
    """One more top-level tree of that depth, without a side list; work room and error list grow to match."""
    def change(made):
        tree = all_of()
        for _ in range(depth - 1):
            tree = implies([], tree)
        first = made.records
        cells = problem([tree], layout=ShortLayout()).record_list
        for child in range(depth - 1):
            cells[8 * (child + 1) + V3] = first + child
        made.record_list += cells
        made.records += depth
        made.work_cells += 18 * depth
        made.error_cells += 8 * depth
        add_top(made.records - 1)(made)
    return change


CAUSES = {
    1: [
        add_to("records", 1), add_to("side", 1), add_to("tops", 1), add_to("range", 1),
        set_to("terms", 257), set_to("sorts", 257),
        shorten("record_list"), shorten("side_list"), shorten("top_list"), shorten("range_list"),
    ],
    2: [
        set_cell(ASSIGN_A, KIND, 6), set_cell(ASSIGN_B, KIND, HUGE),
        set_cell(EQ_AB, V1, 3), set_cell(EQ_AB, V2, 3), set_cell(ASSIGN_C, V1, 3), set_cell(ASSIGN_C, V2, 2),
        set_cell(IMPOSSIBLE_70, V2, 0), set_cell(IMPOSSIBLE_70, V2, 10000),
        set_part(AND_FIRST, 7, 0), set_part(AND_FIRST, 5, 2), set_part(XOR_SECOND, 4, 3),
        set_part(XOR_SECOND, HUGE, 1), set_part(AND_FIRST, HUGE, 3), set_part(AND_FIRST, 1, HUGE),
        set_part(AND_FIRST, 2**63, 2**63), set_part(IMPLIES_AC, 6, 1), set_part(IMPLIES_AC, HUGE, 2),
        set_part(IMPLIES_AC, 3, HUGE), set_in("side_list", 0, 3), set_in("side_list", 1, HUGE),
        set_in("range_list", 0, 3), set_in("range_list", 2, HUGE),
    ],
    3: [
        set_in("side_list", 2, AND_FIRST), set_in("side_list", 2, XOR_SECOND), set_in("side_list", 3, HUGE),
        set_in("side_list", 2, 8), set_cell(IMPLIES_AC, V3, IMPLIES_AC), set_cell(IMPLIES_AC, V3, EQ_AB),
        set_cell(IMPLIES_AC, V3, HUGE), set_in("side_list", 2, EQ_AB), set_in("side_list", 4, EQ_AB),
        set_in("side_list", 4, ASSIGN_B), set_in("top_list", 0, ASSIGN_A), set_in("top_list", 0, ASSIGN_B),
        set_in("top_list", 1, 8), set_in("top_list", 2, HUGE), drop_last_top, add_top(AND_FIRST), add_top(8),
        add_top(HUGE), set_part(XOR_SECOND, 4, 1), set_part(AND_FIRST, 4, 2),
    ],
    4: [add_nested(9), add_nested(12)],
    5: [add_to("work_cells", -1), set_to("work_cells", 0)],
    6: [
        add_to("sort_cells", -1), set_to("sort_cells", 0), add_to("error_cells", -1), add_to("error_cells", -8),
        set_to("error_cells", 0),
    ],
}


def raw(records, side_list, top_list):
    """Records given by kind and three values, in any order."""
    record_list = [cell for record in records for cell in [*record, 9, 9, 5, 9]]
    return Problem(record_list, side_list, top_list, [], 3, 2)


def upside_down():
    """Each record is named once, but a child isn't below its parent: loops, and trees numbered from the top."""
    leaf = [ASSIGN, 0, 0, 9]
    for kind in (AND, XOR):
        yield raw([[kind, 0, 1, 9]], [0], [])
        yield raw([[kind, 0, 1, 9], [kind, 1, 1, 9]], [1, 0], [])
        yield raw([[kind, 0, 1, 9], leaf], [1], [0])
        yield raw([leaf, [kind, 0, 2, 9], leaf], [0, 2], [1])
        yield raw([leaf, [kind, 0, 1, 9]], [1], [0])
    yield raw([[IMPLIES, 0, 0, 0]], [], [])
    yield raw([[IMPLIES, 0, 0, 1], [IMPLIES, 0, 0, 0]], [], [])
    yield raw([[IMPLIES, 0, 0, 1], leaf], [], [0])
    yield raw([leaf, [IMPLIES, 0, 0, 2], leaf], [], [0, 1])
    yield raw([leaf, [IMPLIES, 0, 0, 1]], [], [0])


def changed(*changes):
    made = base()
    for change in changes:
        change(made)
    return made


def with_a_later_cause(number):
    """Each cause of a refusal with every third cause of the later ones. The later one is put in first, since an
    earlier one may cut a list short."""
    later = [cause for other in range(number + 1, 7) for cause in CAUSES[other]]
    both = [changed(other, one) for one in CAUSES[number] for other in later]
    return both[::3]


def huge_numbers():
    """The small problem with 2^64 - 1 in each count and in each cell of each list in turn."""
    for name in ("records", "side", "tops", "range", "terms", "sorts"):
        yield changed(set_to(name, HUGE))
    for name in ("record_list", "side_list", "top_list", "range_list"):
        for position in range(len(getattr(base(), name))):
            yield changed(set_in(name, position, HUGE))


def near_limits():
    """Values at the edge of what 2 and 3 allow."""
    yield changed(set_cell(IMPOSSIBLE_70, V2, 1))
    yield changed(set_cell(IMPOSSIBLE_70, V2, 9999))
    yield changed(set_cell(IMPOSSIBLE_70, V1, HUGE))
    yield changed(set_cell(EQ_AB, V2, 2))
    yield changed(set_cell(ASSIGN_C, V2, 0))
    yield changed(set_part(IMPLIES_AC, 6, 0))
    yield changed(set_part(IMPLIES_AC, 4, 0))
    yield changed(set_part(IMPLIES_AC, 0, 1))


def rooms():
    """Work room, sort list and error list exact, one short, one over; the lists full, and longer than their counts."""
    for name in ("work_cells", "sort_cells", "error_cells"):
        for more in (-1, 0, 1, 8):
            yield changed(add_to(name, more))
    for more in (-8, -7, 7, 9):
        yield changed(add_to("error_cells", more))
    for name in ("record_list", "side_list", "top_list", "range_list"):
        for more in (1, 2, 8, 30):
            made = base()
            getattr(made, name).extend([HUGE] * more)
            yield made
        yield changed(shorten(name))


def emptiness():
    """Nothing at all, and nothing but buffers, terms, sorts or a range."""
    for terms, sorts in ((0, 0), (1, 0), (0, 1), (256, 256), (257, 0), (0, 257), (256, 257)):
        made = problem([], [], terms, sorts)
        yield made
        for name, cells in (("work_cells", 5), ("sort_cells", 3), ("error_cells", 11)):
            roomy = made.copy()
            setattr(roomy, name, getattr(roomy, name) + cells)
            yield roomy
    yield problem([], [0], 0, 0)
    yield problem([], [0], 1, 0)
    yield problem([], [0] * 256, 1, 0)
    yield problem([assign(0, 0)], [], 1, 0)
    yield problem([assign(0, 0)], [], 0, 1)
    yield problem([assign(0, 0)], [0], 1, 1)
    yield problem([eq(0, 0)], [], 1, 0)
    yield problem([eq(0, 0)], [], 0, 0)
    yield problem([xor()], [], 0, 0)
    yield problem([all_of()], [], 0, 0)
    yield problem([impossible()], [], 0, 0)
    yield problem([implies([], all_of())], [], 0, 0)


def flat(count):
    return problem([all_of() for _ in range(count)], [], 1, 1, ShortLayout())


def sizes():
    """Each largest size and one more."""
    for count in (511, 512, 513):
        yield flat(count)
    yield problem([all_of() for _ in range(511)] + [all_of(all_of())], [], 1, 1, ShortLayout())
    more_tops = flat(512)
    add_top(0)(more_tops)
    yield more_tops
    more_tops = flat(512)
    more_tops.top_list.append(0)
    yield more_tops
    for terms in (256, 257):
        yield problem([assign(255, 0), eq(255, 0)], [0, 255], terms, 1)
    for sorts in (256, 257):
        yield problem([assign(0, 255), assign(1, 254), eq(0, 1)], [], 2, sorts)
    for count in (256, 257):
        yield problem([], [255] * count, 256, 1, ShortLayout())
        yield problem([assign(term, 0) for term in range(2)], [1, 0] * (count // 2) + [0] * (count % 2), 2, 1,
                      ShortLayout())
    for count in (2048, 2049):
        yield problem([implies([0] * count, assign(1, 0)), assign(0, 0)], [], 2, 1, ShortLayout())
    # 2,048 entries, of which the last watched term is one short of the terms, or not.
    for last in (255, 256):
        yield problem([implies([1] * 2047 + [last], assign(1, 0)), assign(1, 0)], [], 256, 1, ShortLayout())
    yield problem([xor(*[assign(0, s) for s in range(2)] * 255), assign(0, 2)], [0], 1, 3, ShortLayout())


def depths():
    """Depth 8 and depth 9 of each compound kind."""
    for depth in (8, 9):
        for kind in (AND, XOR, IMPLIES):
            tree = assign(0, 0)
            for _ in range(depth - 1):
                tree = implies([], tree) if kind == IMPLIES else (kind, [tree])
            yield problem([tree], [0])
            yield problem([assign(1, 0), tree], [0])
            yield problem([assign(0, 1), tree], [0])
    for depth in (7, 8, 9, 12):
        yield changed(add_nested(depth))


def groups():
    yield "nothing at all, and next to nothing", list(emptiness())
    yield "the largest sizes and one more", list(sizes())
    yield "depth 8 and depth 9", list(depths())
    yield "values at the edge of what is allowed", list(near_limits())
    yield "rooms exact, one cell short and larger; lists full, one cell short and longer", list(rooms())
    yield "2^64 - 1 in each place in turn", list(huge_numbers())
    for number, causes in CAUSES.items():
        yield f"refusal {number}: each of its causes", [changed(cause) for cause in causes]
    yield "refusal 3: a child that isn't below its parent", list(upside_down())
    for number in range(1, 6):
        yield f"refusal {number}: with a cause of a later one", with_a_later_cause(number)
