"""Random texts from a seed: well formed, mostly, and damaged copies."""

SORTS = ["S", "T", "Reading", "Metre"]
HEADS = ["f", "g", "dist", "f1"]
VARIABLES = ["a", "b", "c", "d", "x-1"]


class Writer:
    """Writes lines that fit what was declared."""

    def __init__(self, random):
        self.random = random
        self.lines = []
        self.sort_names, self.global_names, self.function_names = [], [], []
        self.arities = {}

    def say(self, *words):
        self.lines.append(" ".join(map(str, words)))

    def sort(self):
        return self.random.pick(self.sort_names)

    def sorts_of(self, fewest):
        return [self.sort() for _ in range(self.random.between(fewest, 3))]

    def declare(self):
        """One more declaration of any kind."""
        kind = self.random.pick(["fun", "fun", "ctor", "simple", "simple", "equal", "equal", "global"])
        head = self.random.pick(HEADS)
        if kind == "global":
            self.declare_global()
        elif kind == "simple":
            sorts = self.sorts_of(0 if self.random.chance(5) else 1)
            self.say("prim", head, self.mask(), "simple", *sorts)
            self.arities.setdefault(head, []).append(len(sorts))
        elif kind == "equal":
            self.declare_equal(head)
        elif head not in self.function_names:
            sorts = self.sorts_of(1)
            self.say(kind, head, *sorts)
            self.function_names.append(head)
            self.arities.setdefault(head, []).append(len(sorts))

    def mask(self):
        return self.random.pick([1, 1, 255, 255, 255, 3, 131, self.random.below(256)])

    def declare_equal(self, head):
        def maybe(value):
            return value if self.random.chance(40) else "-"
        length = self.random.pick([1, 2, 2, 3, 3, "0002", 0 if self.random.chance(20) else 2])
        self.say("prim", head, self.mask(), "equal", maybe(self.sort()), maybe(length), maybe(self.sort()))
        self.arities.setdefault(head, []).append(int(length))

    def declare_global(self):
        name = self.random.pick(["g", "k", "S"])
        if name not in self.global_names:
            self.say("global", name, self.sort())
            self.global_names.append(name)

    def variable(self):
        return self.random.pick(VARIABLES)

    def term(self):
        if self.global_names and self.random.chance(12):
            return "@" + self.random.pick(self.global_names)
        if self.random.chance(12):
            return f"={self.sort()}:{self.random.pick(['l', '0', 'm'])}"
        return self.variable()

    def call(self, appended):
        """A head and arguments that some signature of it takes, mostly."""
        head = self.random.pick(list(self.arities) or HEADS) if self.random.chance(97) else self.random.pick(HEADS)
        count = self.random.pick(self.arities.get(head, [2]))
        if self.random.chance(12):
            count = self.random.between(1, 4)
        return [head] + [self.term() for _ in range(max(0, count - appended))]

    def rule(self):
        kind = self.random.pick(["atom"] * 6 + ["eq", "eq", "union", "let", "let", "set", "change", "bind", "local", "local",
                                                 "panic", "ctx"])
        if kind == "atom":
            self.say("atom", *self.call(0))
        elif kind == "set":
            self.say("set", *self.call(1), self.term())
        elif kind == "change":
            self.say("change", *self.call(1))
        elif kind == "let":
            self.say("let", self.variable(), *self.call(1))
        elif kind in ("eq", "union"):
            self.say(kind, self.term(), self.term())
        elif kind == "bind":
            self.say("bind", self.variable(), self.term())
        elif kind == "local":
            self.say("local", self.variable(), self.sort())
        elif kind == "panic":
            self.say("panic")
        elif self.random.chance(30):
            self.say("ctx", self.random.pick([0, 0, 1, 7, self.random.below(8)]))


def well_formed(random):
    writer = Writer(random)
    for name in SORTS[:random.between(1, 4)]:
        writer.say("sort", name)
        writer.sort_names.append(name)
    for _ in range(random.between(2, 7)):
        writer.declare()
    for _ in range(random.between(1, 9)):
        if random.chance(8):
            writer.declare()
        if random.chance(4):
            writer.lines.append("")
        writer.rule()
    text = "\n".join(writer.lines)
    return text if random.chance(20) else text + "\n"


ODD = [b" ", b"  ", b"\n", b"\t", b"\r", b"\x00", b"\x80", b"\xff", b"-", b"@", b"=", b":", b"#", b"0", b"a", b"S", b"9999",
       b"sort ", b"atom f ", b"\xc3\xa9"]


def damaged(random):
    """One or two bytes or lines put in, taken out, doubled or exchanged."""
    data = bytearray(well_formed(random).encode())
    for _ in range(random.between(1, 2)):
        at = random.below(len(data) + 1)
        lines = bytes(data).split(b"\n")
        kind = random.below(6)
        if kind == 0:
            data[at:at] = random.pick(ODD)
        elif kind == 1:
            data[at:at + 1] = random.pick(ODD)
        elif kind == 2:
            del data[at:at + random.between(1, 3)]
        elif kind == 3:
            del data[at:]
        else:
            one, other = random.below(len(lines)), random.below(len(lines))
            if kind == 4:
                lines[one], lines[other] = lines[other], lines[one]
            else:
                lines.insert(one, lines[other])
            data = bytearray(b"\n".join(lines))
    return bytes(data)
