"""Texts chosen by hand: examples, every form of a line and what is malformed about it, every refusal, every limit and one
past it."""

EXAMPLE = "sort Reading\nsort Metre\nfun dist Reading Metre\natom dist t d\n"

# The certificate's head takes either form; what follows decides, clashes, or leaves it open.
BRAKE = """sort Reading
sort Setpoint
sort Certificate
fun measured Certificate Reading
fun ordered Certificate Setpoint
ctor certificate Reading Certificate
prim shows 1 simple Certificate Reading Reading
prim shows 1 simple Certificate Setpoint Setpoint

"""
EXAMPLES = [
    EXAMPLE,
    BRAKE + "local c Certificate\natom shows c a d\n",
    BRAKE + "local c Certificate\natom shows c a d\natom measured c a\n",
    BRAKE + "local c Certificate\natom shows c a d\natom measured c a\natom ordered c d\n",
    BRAKE + "atom measured c a\natom ordered c b\neq a b\n",
    BRAKE + "atom measured c a a\n",
    BRAKE + "atom shows c\n",
    BRAKE + "atom measured c a\nset certificate a c\n",
    BRAKE + "atom measured c a\nlet n certificate a\nchange measured c\nunion n c\nset measured n a\n",
    BRAKE + "atom measured c a\nlet n certificate a\nunion n a\n",
]

DECLARED = """sort S
sort T
fun f S T
ctor c S S
prim p 1 simple S S
prim p 2 equal - - T
prim e 255 equal S 2 T
global g T
"""

# One good line of each form, after DECLARED.
FORMS = [
    "sort U", "fun h S", "fun h S T S", "ctor k T", "prim q 3 simple", "prim q 3 simple S T", "prim q 3 equal - - -",
    "prim q 3 equal S 12 T", "global k S", "ctx 1", "atom f x y", "atom f @g =S:l", "set f x y", "set f @g", "change f x",
    "change e", "eq x @g", "union x =T:l", "let v f x", "let v p", "bind v @g", "panic", "local v T",
]

NAMES = ["a", "Z9", "_", "--", "-a", "a-", "7", "0007", "sort", "atom", "simple", "x" * 300, "-", "", "a.b", "a:b", "@a",
         "=a", "a@", "a b", "é", "\x7f", "A\x00", "a\t", "a\r", "#1", "/", ":", "[", "`", "{"]
NUMBERS = ["0", "7", "8", "00", "0007", "0008", "255", "256", "0255", "00255", "9999", "10000", "99999", "", "+1", "-1", "1a",
           "a", "-", "1 ", "18446744073709551616", "0x1"]
TERMS = ["x", "@g", "=S:x", "=T:x", "@", "@-", "@@g", "=", "=S", "=S:", "=:x", "=S:x:y", "=S::x", "==S:x", "=-:x", "=S:-",
         "=@S:x", "=S:@x", "x@", "x=", "@h", "=U:x", "@f", "=f:x", "=S:--", "=S:7", "@x", "-", "--"]


def with_lines(*lines):
    return DECLARED + "".join(line + "\n" for line in lines)


def forms():
    """Each form good, with a word missing, a word too many, and with what parts words changed."""
    for form in FORMS:
        yield with_lines(form)
        words = form.split(" ")
        for count in range(1, len(words)):
            yield with_lines(" ".join(words[:count]))
        yield with_lines(form + " S")
        for changed in (" " + form, form + " ", form.replace(" ", "  ", 1) + " ", form + "\r", form + "\t", form + "\x00",
                        form.replace(" ", "\t", 1) + "\t", form.upper(), form + "\x80"):
            yield with_lines(changed)
    for keyword in ("sorts", "Sort", "atoms", "x", "", " ", "#", "# note", "-", "prim q 3 sample S", "prim q 3 Simple S",
                    "prim q 3 equal - - - -", "prim q 3 equal - -", "prim q simple S", "eq x", "eq x y z", "panic x"):
        yield with_lines(keyword)


def words():
    for name in NAMES:
        yield with_lines(f"sort {name}", f"local v {name}")
        yield with_lines(f"fun {name} S", f"atom {name} {name}")
        yield with_lines(f"global {name} T", f"eq x @{name}", f"eq y =S:{name}")
        yield with_lines(f"let {name} f x", f"bind {name} x")
        yield with_lines(f"local {name} S")
    for number in NUMBERS:
        yield with_lines(f"prim q {number} simple S", "atom q x")
        yield with_lines(f"prim q 1 equal - {number} -", "atom q x y")
        yield with_lines(f"ctx {number}", "atom p x y")
    for term in TERMS:
        yield with_lines(f"atom f {term} y")
        yield with_lines(f"set f x {term}", f"bind v {term}")
        yield with_lines(f"let {term} f x")
        yield with_lines(f"atom {term} x")
        yield with_lines(f"union {term} {term}")


def names_known():
    """51: unknown, twice, too early; and names that may be shared."""
    yield "atom f x\nfun f S\nsort S\n"
    yield "sort S\natom f x\nfun f S\n"
    yield "fun f S\nsort S\n"
    yield "sort S\nfun f S\nsort S\n"
    yield "sort S\nfun f S\nfun f S\n"
    yield "sort S\nfun f S\nctor f S\n"
    yield "sort S\nctor f S\nfun f S\n"
    yield "sort S\nctor f S\nctor f S\n"
    yield "sort S\nglobal g S\nglobal g S\n"
    yield "sort S\nprim f 1 simple S\nfun f S S\nprim f 1 simple S\natom f x\n"
    yield "sort S\nfun S S\nglobal S S\natom S S\neq S @S\neq S =S:S\n"
    yield "sort S\natom g @g\n"
    yield "sort S\nfun g S\natom g @g\n"
    yield "sort S\nglobal g S\nfun g S\natom g @g\neq g @g\n"
    for line in ("fun h U", "fun h S U", "fun h U S", "prim h 1 simple U", "prim h 1 simple S U", "prim h 1 equal U - -",
                 "prim h 1 equal - - U", "prim h 1 equal S 3 U", "global h U", "local v U", "atom f =U:x", "set f @f x",
                 "set f x @v", "change f @x", "eq @f x", "eq x @f", "union =f:x x", "union x @x", "let v f @v", "bind v @v"):
        yield with_lines(line)


def refusals():
    """Each refusal, alone and before or after others on the line and on the next."""
    yield with_lines("atom f")
    yield with_lines("atom none")
    yield with_lines("atom none x")
    yield with_lines("set none x")
    yield with_lines("let x none")
    yield with_lines("change none")
    yield with_lines("ctx 5", "atom p x y")
    yield with_lines("ctx 5", "atom p")
    yield with_lines("set c x y")
    yield with_lines("set c x")
    yield with_lines("prim c 1 simple S S", "set c x y")
    yield with_lines("prim z 1 simple", "atom z x")
    yield with_lines("prim z 1 simple", "atom z")
    yield with_lines("prim z 1 simple", "let x z")
    yield with_lines("prim z 1 equal - 0 -", "atom z x")
    yield with_lines("prim z 1 equal - 0000 -", "change z")
    yield with_lines("prim z 2 simple", "atom z x")
    yield with_lines("prim z 2 simple", "ctx 1", "atom z x")
    yield with_lines("prim f 1 simple", "atom f x y")
    yield with_lines("prim f 2 simple", "atom f x y")
    yield with_lines("atom f", "sort S S")
    yield with_lines("sort S S", "atom f")
    yield with_lines("set c @none x")
    yield with_lines("set c @none x ")
    yield with_lines("atom none @none")
    yield with_lines("atom none", "atom f @none")
    yield with_lines("sort S ")
    yield with_lines("sort S", "panic x")


def rules():
    """Answers, conflicts and open terms."""
    for lines in (
        ["atom f x y"], ["atom f x x"], ["atom f x y", "eq y x"], ["eq x y"], ["eq x y", "local y T"],
        ["eq x y", "eq y z", "eq z w", "local w S"], ["local w S", "eq z w", "eq y z", "eq x y"],
        ["atom p x y"], ["ctx 1", "atom p x y"], ["ctx 1", "prim p 3 simple T T", "atom p x y", "atom p x x"],
        ["fun p S T", "atom p x y"], ["fun p T T", "atom p x y", "local x S"], ["fun p T T", "atom p x y", "local y T"],
        ["fun p T T T", "atom p x y z w", "local x S"], ["fun p T T T", "local x T", "atom p x y"],
        ["fun p T T T", "local x T", "atom p x"], ["atom e x y"], ["atom e x"], ["atom e x y z"], ["atom e @g x"],
        ["change f x", "change f x", "change f @g"], ["change e", "change e x", "change e =S:x"],
        ["change p x", "union x @g"], ["let v f x", "let v c x"], ["let v c x", "let v c v"],
        ["bind v @g", "bind v =S:x"], ["bind v @g", "bind w v", "atom f w v"], ["union x y", "eq z z"],
        ["set f x y", "set p x y"], ["set f =S:a @g", "set f @g =S:a"], ["eq =S:a =S:a"], ["eq =S:a =T:a"],
        ["eq =S:a @g"], ["eq x =S:a", "eq x =T:a"], ["panic", "panic"], ["local v S", "local v S"],
        ["local v S", "local v T"], ["eq x y", "", "", "eq z x"], ["ctx 1", "atom p x y", "ctx 0", "atom p x y"],
        ["fun q S", "prim q 1 equal - - -", "prim q 1 simple T", "atom q x"],
        ["fun q S", "prim q 1 equal - - -", "prim q 1 simple T", "atom q x", "local x T"],
        ["prim q 1 equal - - -", "prim q 1 equal - - -", "atom q x"], ["prim q 1 equal - - -", "atom q x"],
        ["prim q 1 equal - - -", "atom q x y z", "local z T"], ["prim q 1 equal - - -", "atom q x y x @g"],
        ["prim q 1 equal - 3 S", "atom q x y z"], ["prim q 1 equal T 3 S", "atom q x y z"],
        ["prim q 1 equal T 3 S", "atom q x y"], ["prim q 1 equal T - -", "atom q x"],
        ["prim f 1 simple T S", "atom f x y", "atom f y z", "local z T"],
        ["prim f 1 simple T S", "atom f x y", "atom f y z", "local x S"],
        ["fun ff S", "change ff", "change ff", "fun ff1 T", "change ff1"],
        ["fun f1 T", "change f x", "change f x", "change f1"], ["let x f x"], ["let x f y", "let z f y"],
    ):
        yield with_lines(*lines)
        yield with_lines(*lines).rstrip("\n")


def ends_of_lines():
    for text in ("", "\n", "\n\n\n", " ", "\n \n", "panic", "panic\n", "\npanic\n\n", "panic\r\npanic\r\n", "panic\n\r\n",
                 "\x00", "\n\x00", "sort é\n", "\ufeffpanic\n", "sort S\n\n\nsort S\n", "sort S\n\n\natom x\n",
                 "panic\n" * 40 + "panik\n"):
        yield text


def many(form, count, start=0):
    return "".join(form.format(n) + "\n" for n in range(start, start + count))


def limits():
    """Each largest size, and one more."""
    for more in (0, 1):
        yield many("sort s{}", 256 + more)
        yield "sort S\n" + many("fun f{} S", 256 + more)
        yield "sort S\n" + many("ctor f{} S", 100) + many("prim f{} 1 equal S - -", 156 + more)
        yield "sort S\n" + many("prim p 1 simple S", 256 + more)
        yield "sort S\n" + many("global g{} S", 256 + more)
        yield "sort S\n" + ("prim p 1 simple" + " S" * 512 + "\n") * 4 + ("prim q 1 simple S\n" if more else "")
        yield "sort S\n" + "prim p 1 simple" + " S" * (2048 + more) + "\n"
        yield "sort S\nprim p 1 simple" + " S" * 2047 + "\nfun f" + " S" * (1 + more) + "\n"
        yield "sort S\n" + many("local v{} S", 256 + more)
        yield "sort S\nfun f S S\n" + many("change f =S:{}", 128) + ("eq y y\n" if more else "")
        yield "sort S\nfun f S S\n" + many("union x{} x0", 255) + "change f x0\n" * (1 + more)
        yield many("union x{} x0", 256 + more)
        yield "sort S\nfun f S\natom f" + " x" * (2048 + more) + "\n"
        yield "sort S\nctor f S\nset f" + " x" * (2048 + more) + "\n"
        yield "sort S\nfun f S\nset f" + " x" * (2048 + more) + "\n"
        yield "sort S\nfun f S\nlet v f" + " x" * (2048 + more) + "\n"
        yield "sort S\nfun f S\nchange f" + " x" * (2048 + more) + "\n"
        yield "sort S\nchange f" + " x" * (2048 + more) + "\n"
        yield "sort S\nprim f 1 simple\nchange f" + " x" * (2048 + more) + "\n"
        yield "sort S\n" + "local v S\n" * (512 + more)
        yield "sort S\nfun f" + " S" * 64 + "\n" + ("atom f" + " x" * 64 + "\n") * 8 + ("local x S\n" if more else "")
        yield "sort S\nprim f 1 equal S - -\natom f" + " x" * (512 + more) + "\n"
        yield "sort S\nprim f 1 equal - - -\natom f" + " x" * (513 + more) + "\n"
        yield "sort S\nprim f 1 equal S - -\nprim f 1 equal - - S\natom f" + " x" * 255 + "\n" + "local x S\n" * more
        yield "sort S\nprim f 1 equal S - -\nfun f S\natom f" + " x" * (508 + more) + "\n"
        yield "eq x y\n" * (512 + more)
        yield many("eq x{} x0", 256 + more)
        yield "sort S\nsort T\n" + many("bind x{} y", 255) + ("bind z y\n" if more else "local y S\n")
        # Past a size, but something else is wrong on the line as well.
        yield many("sort s{}", 256) + "sort s0" + " " * more + "\n"
        yield "sort S\n" + many("fun f{} S", 256) + f"fun f{255 + more} S{more}\n"
        yield "sort S\n" + many("local v{} S", 256) + f"atom f w{' w' * more}\n"
        yield "sort S\n" + many("local v{} S", 256) + f"eq w @w{' ' * more}\n"


def empty_ands():
    """Alternatives that ask for nothing are records all the same."""
    heads = "sort S\n" + "prim f 1 equal - - -\n" * 40
    for count in (12, 13):
        yield heads + many("atom f x{}", count)


def worst_orders():
    """Answers with many passes."""
    for count in (5, 60, 255):
        yield "sort S\n" + "".join(f"eq x{n} x{n + 1}\n" for n in reversed(range(count))) + "local x0 S\n"
    yield "sort S\nsort T\nprim p 1 simple S T\nprim p 1 simple T S\n" + "".join(
        f"atom p x{n} x{n + 1}\n" for n in reversed(range(70))) + "local x0 S\n"


def bytes_limit():
    """32,768 bytes, and one more: of good lines, of one line, of nothing."""
    for count in (32_768, 32_769):
        lines = "sort S\n" + "panic\n" * 6000
        yield lines[:count - 1 - (count - 8) % 6] + "\n" * ((count - 8) % 6 + 1)
        yield "x" * count


def groups():
    yield "examples", EXAMPLES
    yield "forms of a line", list(forms())
    yield "names, numbers, terms", list(words())
    yield "names known or not", list(names_known())
    yield "refusals", list(refusals())
    yield "rules", list(rules())
    yield "ends of lines", list(ends_of_lines())
    yield "limits", list(limits()) + list(empty_ands())
    yield "worst orders", list(worst_orders())
    yield "32,768 bytes", list(bytes_limit())
