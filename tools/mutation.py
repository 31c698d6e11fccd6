"""Small edits of a crate's text, for tools/mutants: of the code in src/*.rt, and of what is stated there and in specs/*.antt.

Every function here reads text and lists edits; nothing is run. An edit replaces one span of one file.
"""
import re
from dataclasses import dataclass


@dataclass(frozen=True)
class Edit:
    crate: str
    file: str
    start: int
    end: int
    new: str
    operator: str
    # what is edited stands in this span of the file: if the prover refuses something there, the text is ill-formed
    home: tuple = (0, 0)

    def apply(self, text):
        return text[: self.start] + self.new + text[self.end :]

    def lines(self, text):
        """The numbers of the first and the last line that it touches."""
        return text.count("\n", 0, self.start) + 1, text.count("\n", 0, max(self.start, self.end - 1)) + 1

    def shown(self, text):
        """The lines before and after, as one line each."""
        first = text.rfind("\n", 0, self.start) + 1
        last = text.find("\n", self.end)
        last = len(text) if last < 0 else last
        after = text[first : self.start] + self.new + text[self.end : last]
        return " ".join(text[first:last].split()), " ".join(after.split())


# ---- brackets

OPEN, CLOSE = "([{", ")]}"


def closing(text, start):
    """The place of the bracket that closes the one at start; -1 if none does."""
    depth = 0
    for at in range(start, len(text)):
        if text[at] in OPEN:
            depth += 1
        elif text[at] in CLOSE:
            depth -= 1
            if depth == 0:
                return at
    return -1


def blanked(text, pattern):
    """The text with what matches turned into blanks, so that places stay."""
    return re.sub(pattern, lambda m: re.sub(r"[^\n]", " ", m.group()), text)


def operands(text, start, end, sign, stops):
    """For each `sign` in the span: the places where its left operand starts, the sign stands, and its right operand ends."""
    for m in re.finditer(re.escape(sign), text[start:end]):
        at, behind = start + m.start(), start + m.end()
        left = text[reach(text, at, start, -1, (sign, *stops)) : at].lstrip()
        right = text[behind : reach(text, behind, end, 1, (sign, *stops))].rstrip()
        if left and right.strip():
            yield at - len(left), at, behind + len(right)


def reach(text, at, limit, way, stops):
    """As far as an operand goes from `at`: to a bracket that was open before it, to one of the stops, or to the limit."""
    depth = 0
    opens, closes = (OPEN, CLOSE) if way > 0 else (CLOSE, OPEN)
    while at != limit:
        here = text[at] if way > 0 else text[at - 1]
        if here in opens:
            depth += 1
        elif here in closes:
            if depth == 0:
                return at
            depth -= 1
        elif depth == 0 and any(text.startswith(s, at) if way > 0 else text.endswith(s, 0, at) for s in stops):
            return at
        at += way
    return at


# ---- Rattle text


@dataclass(frozen=True)
class Function:
    start: int
    params: str
    clauses: tuple
    body: tuple


def plain(text):
    """Rattle text without comments, byte strings and attributes."""
    return blanked(text, r'//[^\n]*|b"[^"\n]*"|b\'(?:\\.|[^\'])\'|#\[[^\]]*\]')


def functions(text):
    """The functions of a file: parameters, spans of the clauses' insides, span of the body's inside."""
    found = []
    for m in re.finditer(r"\bfn \w+(?:<[^>(]*>)?\(", text):
        at = closing(text, m.end() - 1)
        params = text[m.end() : at]
        clauses = []
        while True:
            brace = text.find("{", at)
            if brace < 0:
                break
            # where a function has several clauses of a kind, each has a name
            word = re.search(r"\b(requires|ensures|ghost)\b(?: \w+)?\s*$", text[at + 1 : brace])
            end = closing(text, brace)
            if word:
                clauses.append((word.group(1), brace + 1, end))
                at = end
                continue
            found.append(Function(m.start(), params, tuple(clauses), (brace + 1, end)))
            break
    return found


def constants(text):
    """The spans of the values of constants."""
    return [m.span(1) for m in re.finditer(r"\bconst \w+: [^=;]+ = ([^;]+);", text)]


# ---- edits of code

COMPARE = {"<": "<=", "<=": "<", ">": ">=", ">=": ">", "==": "!=", "!=": "=="}
ARITHMETIC = {"+": "-", "-": "+", "*": "+", "+=": "-=", "-=": "+="}
LOGIC = {"&&": "||", "||": "&&", "|": "&", "&": "|"}
WORD = r"[A-Za-z_]\w*"


def signs(text, spans, table, operator):
    for start, end in spans:
        for m in re.finditer(r"(?<= )([-+*<>=!|&]+)(?= )", text[start:end]):
            if m.group(1) in table:
                yield start + m.start(), start + m.end(), table[m.group(1)], operator


def numbers(text, spans, operator="constant"):
    for start, end in spans:
        for m in re.finditer(r"(?<![\w.«])(\d+)(?=usize\b|u8\b|u64\b|\b)(?!\w*»)", text[start:end]):
            n = int(m.group(1))
            if n < 10**12:
                yield start + m.start(1), start + m.end(1), str(n + 1), operator
                if n > 0:
                    yield start + m.start(1), start + m.end(1), str(n - 1), operator
        for m in re.finditer(r"\b(true|false)\b", text[start:end]):
            yield start + m.start(), start + m.end(), "false" if m.group() == "true" else "true", operator


def negations(text, spans):
    for start, end in spans:
        for m in re.finditer(rf"!(?={WORD}[\w:.]*\()", text[start:end]):
            yield start + m.start(), start + m.end(), "", "logic"


def names(text, function):
    """A local or parameter read in place of another that is declared before it."""
    start, end = function.body
    declared = [(m.group(1), -1) for m in re.finditer(rf"\b({WORD}): usize", function.params)]
    declared += [(m.group(1), m.end()) for m in re.finditer(rf"\blet (?:mut )?({WORD}) =", text[start:end])]
    known = {name for name, _ in declared}
    for m in re.finditer(rf"(?<![\w.:'])({WORD})(?![\w(:{{!])(?! [-+]?= )", text[start:end]):
        if m.group(1) not in known or re.search(r"\b(let|mut)\s+$", text[start : start + m.start()]):
            continue
        others = sorted({name for name, place in declared if name != m.group(1) and place < m.start()})
        for other in others:
            yield start + m.start(), start + m.end(), other, "another name"


def fields(text, spans, groups):
    """A field in place of another of the same record and type, which the file reads of something of that name."""
    seen = {(m.group(1), m.group(2)) for m in re.finditer(rf"({WORD}|\))\.(«?{WORD}»?)", text)}
    for start, end in spans:
        for m in re.finditer(rf"({WORD}|\))\.(«?{WORD}»?)(?![\w(])", text[start:end]):
            base, name = m.groups()
            for other in sorted(o for b, o in seen if b == base and o != name):
                if any(name.strip("«»") in group and other.strip("«»") in group for group in groups):
                    yield start + m.start(2), start + m.end(2), other, "another field"


def arguments(text, spans):
    """Two arguments of a call, beside each other, exchanged."""
    for start, end in spans:
        for m in re.finditer(rf"{WORD}\(", text[start:end]):
            open_at = start + m.end() - 1
            parts = split(text, open_at + 1, closing(text, open_at))
            for (a, b), (c, d) in zip(parts, parts[1:]):
                if text[a:b] != text[c:d]:
                    yield a, d, text[c:d] + text[b:c] + text[a:b], "order of arguments"


def split(text, start, end):
    """The spans of what the commas of a bracket part, without the blanks around them."""
    parts, depth, at = [], 0, start
    for i in range(start, end + 1):
        if i == end or (text[i] == "," and depth == 0):
            inner = text[at:i]
            if inner.strip():
                parts.append((at + len(inner) - len(inner.lstrip()), at + len(inner.rstrip())))
            at = i + 1
        elif text[i] in OPEN:
            depth += 1
        elif text[i] in CLOSE:
            depth -= 1
    return parts


STATEMENT = re.compile(r"^( +)((?!let |use |const )[A-Za-z_*][^{}\n]*;)$", re.M)


def statements(text, spans):
    """A statement of one line dropped; two of them beside each other exchanged."""
    for start, end in spans:
        lines = [(start + m.start(2), start + m.end(2), len(m.group(1))) for m in STATEMENT.finditer(text[start:end])]
        for a, b, _ in lines:
            if not re.match(r"(return|break|continue)\b", text[a:b]):
                yield a, b, "", "dropped statement"
        for (a, b, deep), (c, d, also) in zip(lines, lines[1:]):
            if deep == also and text[b:c].strip() == "" and text[a:b] != text[c:d]:
                yield a, d, text[c:d] + text[b:c] + text[a:b], "order of statements"


EXIT = r"if [^{}]*\{\s*return [^;{}]*;\s*\}"


def exits(text, spans):
    """An early return dropped; what two of them beside each other return, exchanged."""
    for start, end in spans:
        found = [(start + m.start(), start + m.end()) for m in re.finditer(EXIT, text[start:end])]
        for a, b in found:
            yield a, b, "", "early exit"
        for (a, b), (c, d) in zip(found, found[1:]):
            one, two = (re.search(r"return ([^;]*);", text[x:y]) for x, y in ((a, b), (c, d)))
            if text[b:c].strip() == "" and one.group(1) != two.group(1):
                swapped = text[a : a + one.start(1)] + two.group(1) + text[a + one.end(1) : b]
                swapped += text[b:c] + text[c : c + two.start(1)] + one.group(1) + text[c + two.end(1) : d]
                yield a, d, swapped, "order of refusals"


def arms(text, spans):
    """The answers of two arms of one line, beside each other, exchanged."""
    for start, end in spans:
        found = list(re.finditer(r"=> ([^{}\n]+),\n", text[start:end]))
        for one, two in zip(found, found[1:]):
            between = text[start + one.end() : start + two.start()]
            if "\n" not in between and one.group(1) != two.group(1):
                a, b, c, d = (start + x for x in (one.start(1), one.end(1), two.start(1), two.end(1)))
                yield a, d, text[c:d] + text[b:c] + text[a:b], "order of answers"


def of_code(crate, file, raw, groups):
    text = plain(raw)
    found = functions(text)
    bodies = [f.body for f in found]
    values = constants(text)
    edits = [
        *signs(text, bodies, COMPARE, "comparison"),
        *signs(text, bodies, ARITHMETIC, "arithmetic"),
        *signs(text, bodies, LOGIC, "logic"),
        *negations(text, bodies),
        *numbers(text, bodies + values),
        *(edit for f in found for edit in names(text, f)),
        *fields(text, bodies, groups),
        *arguments(text, bodies),
        *statements(text, bodies),
        *exits(text, bodies),
        *arms(text, bodies),
    ]
    # an edit that would move a comment or a byte string is left out
    return [Edit(crate, file, a, b, new, kind) for a, b, new, kind in edits if raw[a:b] == text[a:b]]


# ---- edits of statements

LEVEL = (" → ", " ⊎ ", " ≡ ", " ∷ ", " = ", "λ", ". ", ";")


def conjuncts(text, spans):
    """One side of an `and` dropped."""
    for start, end in spans:
        for sign in (" && ", " × "):
            for a, at, b in operands(text, start, end, sign, LEVEL):
                yield at, b, "", "conjunct dropped"
                yield a, at + len(sign), "", "conjunct dropped"


def tests(text, spans, source):
    """A comparison that takes, or no longer takes, the equal case; a sum for a product."""
    table = {"leb": "ltb", "ltb": "leb", "≤": "<", "<": "≤", "+": "*", "*": "+", "&&": "||", "cond": "cond"}
    for start, end in spans:
        for m in re.finditer(r"(?<=[ (])(leb|ltb|≤|<|\+|\*|&&)(?= )", text[start:end]):
            other = table[m.group(1)]
            if re.search(rf"^(?:ghost )?use .*[{{ ◌]{re.escape(other)}[}},◌]", source, re.M):
                yield start + m.start(), start + m.end(), other, "comparison"


ATOM = re.compile(r"[^\s(){};,.]+(?:\.[^\s(){};,.]+)*|\(")
PROJECTIONS = re.compile(r"(?:\.[^\s(){};,.]+)*")


def atoms(text, start, end):
    """Words and brackets that stand beside each other, as spans."""
    at, run = start, []
    while at < end:
        m = ATOM.match(text, at)
        if m is None:
            if text[at] != " ":
                run = []
            at += 1
            continue
        close = closing(text, at) + 1 if m.group() == "(" else m.end()
        stop = PROJECTIONS.match(text, close).end()
        if stop <= at or stop > end:
            at += 1
            continue
        run = run + [(at, stop)] if re.match(r"[\w(«]", text[at]) else []
        if len(run) > 2 and text[run[-2][1] : at] == " " and text[run[-2][0] : run[-2][1]] != text[at:stop]:
            yield run[-2], (at, stop)
        if m.group() == "(":
            yield from atoms(text, at + 1, close - 1)
        at = stop


def swaps(text, spans):
    """Two arguments, or two elements of a list, exchanged."""
    for start, end in spans:
        for (a, b), (c, d) in atoms(text, start, end):
            yield a, d, text[c:d] + text[b:c] + text[a:b], "order of arguments"
        for sign in (" ∷ ", " ++ "):
            for a, at, b in operands(text, start, end, sign, (" = ", " ≡ ", " → ", " && ", " × ", ";")):
                left, right = text[a:at], text[at + len(sign) : b]
                if right not in (left, "[]"):
                    yield a, b, right + sign + left, "order of elements"


def successors(text, spans):
    for start, end in spans:
        for m in re.finditer(r"\(suc (\w+)\)", text[start:end]):
            yield start + m.start(), start + m.end(), m.group(1), "constant"


@dataclass(frozen=True)
class Declaration:
    kind: str
    home: tuple
    clauses: tuple


HEAD = re.compile(r"^(?P<how>abbrev |unfoldable )?(?P<pub>pub )?(?P<what>record |data )?(?P<name>\S+) ?(?P<rest>.*)$")


def blocks(text):
    """The declarations of an antt file by name, each clause by itself."""
    tops = [m.start() for m in re.finditer(r"^(?=[^\s\-])", text, re.M)] + [len(text)]
    for a, b in zip(tops, tops[1:]):
        head = HEAD.match(text[a:b].split("\n", 1)[0])
        if head and not re.match(r"(pub )?(use|mod) ", text[a:b]):
            yield head["name"], a, b


def declarations(text):
    """The declarations of an antt file: a definition with the spans of its clauses' right sides, a record or a data type
    with that of its fields, a theorem with that of its type."""
    found, name = [], None
    for _, a, b in blocks(text):
        head = HEAD.match(text[a:b].split("\n", 1)[0])
        if head["what"]:
            where = text.find("where", a, b)
            found.append(Declaration("type", (a, b), ((where + 5 if where > 0 else b, b),)))
            name = None
        elif re.match(r"(abbrev |unfoldable )?(pub )?\S+ :(\s|$)", text[a:b]):
            name = head["name"] if head["how"] else None
            if name:
                found.append(Declaration("definition", (a, b), ()))
            elif head["pub"]:
                found.append(Declaration("theorem", (a, b), ((text.find(" :", a) + 2, b),)))
        elif name and text[a:b].split()[0] == name and text.find(" =", a, b) > 0:
            last = found[-1]
            found[-1] = Declaration("definition", (last.home[0], b), last.clauses + ((text.find(" =", a, b) + 2, b),))
    return [d for d in found if d.clauses]


def clauses(text, declaration):
    """The right sides of two clauses of a definition, one after the other, exchanged."""
    if declaration.kind == "definition":
        for (a, b), (c, d) in zip(declaration.clauses, declaration.clauses[1:]):
            one, two = text[a:b].rstrip(), text[c:d].rstrip()
            if one != two:
                yield a, c + len(two), two + text[a + len(one) : c] + one, "order of clauses"


def stated(text, spans, groups, source):
    return [
        *conjuncts(text, spans),
        *tests(text, spans, source),
        *numbers(text, spans),
        *successors(text, spans),
        *fields(text, spans, groups),
        *swaps(text, spans),
    ]


def of_specs(crate, file, raw, groups):
    text = blanked(raw, r"--[^\n]*")
    edits = []
    for d in declarations(text):
        found = stated(text, d.clauses, groups, raw) + list(clauses(text, d))
        edits += [Edit(crate, file, a, b, new, kind, d.home) for a, b, new, kind in found if raw[a:b] == text[a:b]]
    return edits


def of_contracts(crate, file, raw, groups):
    """What a function ensures may be stated otherwise in any way; what it asks, only weaker: a step may ask another bound."""
    text = plain(raw)
    edits = []
    for word, a, b in (clause for f in functions(text) for clause in f.clauses):
        if word == "requires":
            found = [*conjuncts(text, [(a, b)]), (text.rfind("requires", 0, a), b + 1, "", "requires dropped")]
        else:
            found = stated(text, [(a, b)], groups, raw)
        edits += [Edit(crate, file, x, y, new, kind, (a, b)) for x, y, new, kind in found]
    return edits


# ---- a crate's edits

# laws and tables of computed cases follow from the definitions; the roots only list files
NOT_STATED = re.compile(r"/(Laws|Proofs)(/|\.antt$)|/(Lib|Table|Examples|Cases)\.antt$")
# what is promised of the definitions, and stands in proofs/ so that an edit of one is refused by a proof
PROMISED = ("Demand", "Shut", "Promise")


def statements_of(folder):
    """The files of a crate that hold definitions and what is promised of them."""
    specs = [path for path in folder.glob("specs/**/*.antt") if not NOT_STATED.search(str(path))]
    return sorted(specs + [path for name in PROMISED for path in folder.glob(f"proofs/{name}.antt")])


def record_groups(root):
    """Fields of one record and of one type, for all records of all crates."""
    groups = set()
    for path in sorted(root.glob("crates/*/src/**/*.rt")) + sorted(root.glob("crates/*/specs/**/*.antt")):
        text = path.read_text()
        blocks = re.findall(r"\bstruct \w+ \{([^}]*)\}", text) + re.findall(r"^pub record [^\n]*\n((?:  [^\n]*\n)+)", text, re.M)
        for block in blocks:
            by_type = {}
            for name, kind in re.findall(rf"(?:pub )?«?({WORD})»? ?: ([^,\n]+)", block):
                by_type.setdefault(kind, []).append(name)
            groups.update(tuple(group) for group in by_type.values() if len(group) > 1)
    return sorted(groups)


def touched(folder, edit, before):
    """The names of what a statement's edit changes in its crate: the declaration or function that it stands in, and each
    declaration and each function whose contract names one of them."""
    named = []
    for path in {*folder.glob("specs/**/*.antt"), *statements_of(folder)}:
        text = blanked(path.read_text(), r"--[^\n]*")
        named += [(name, text[a:b], path, (a, b)) for name, a, b in blocks(text)]
    for path in sorted(folder.glob("src/**/*.rt")):
        text = plain(path.read_text())
        named += [(re.match(r"fn (\w+)", text[f.start :])[1], text[f.start : f.body[0]], path, (f.start, f.body[0])) for f in functions(text)]
    own = folder / edit.file
    found = {name for name, _, path, (a, b) in named if path == own and a <= edit.start < b}
    while True:
        words = re.compile(r"(?<![\w-])(" + "|".join(map(re.escape, sorted(found))) + r")(?![\w-])")
        more = {name for name, text, _, _ in named if words.search(text)} | found
        if more == found or not found:
            return found
        found = more


def code_edits(root, crate, groups):
    folder = root / "crates" / crate
    return [e for p in sorted(folder.glob("src/**/*.rt")) for e in of_code(crate, str(p.relative_to(folder)), p.read_text(), groups)]


def statement_edits(root, crate, groups):
    folder = root / "crates" / crate
    edits = []
    for path in statements_of(folder):
        edits += of_specs(crate, str(path.relative_to(folder)), path.read_text(), groups)
    for path in sorted(folder.glob("src/**/*.rt")):
        edits += of_contracts(crate, str(path.relative_to(folder)), path.read_text(), groups)
    return edits
