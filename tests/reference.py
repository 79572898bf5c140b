"""docs/SHEETS.md, the reference, for tests/documents: what its tables and sentences say of types, values, texts, guards and refusals."""
import functools
import itertools
import re
import struct

from named import fields_of
from shown import EXAMPLES, NODES, REFUSALS, lines_of, printed, problem, rows_of, section, sheet_of, spans

# classes 0 to 4, of which 3 and 4 are below 1; an object of each
CLASSES = ["C 0 -", "C 1 -", "C 2 -", "C 3 1", "C 4 1"]
OBJECTS = [f"O {n} {n}" for n in range(5)]
# what an operand may be: a text, and its nodes with their numbers left open
OPERANDS = [
    ("7", ["int 7"]), ("true", ["true"]), ("undef", ["undef"]), ("Sequence{2, 1}", ["int 2", "int 1", "coll Q {0} {1}"]), ("v1", ["var 1"]),
    ("#1.allInstances()", ["all 1"]), ("r3ff8000000000000", ["real r3ff8000000000000"]), ("self", ["self"]), ("Set{}", ["coll S"]),
]
# a letter that stands for an operand
LETTER = re.compile(r"(?<![\w#.])[abcest](?!\w)")
TYPES = ["Void", "Bool", "Int", "Real", "Any", "#0", "#1", "#2", "#3", "#4", "S(Int)", "Q(Int)", "C(Int)", "S(#1)", "S(#3)", "S(Any)", "S(S(Int))", "B(Real)"]


# ---- section 2: the common type of two


@functools.cache
def common(program, one, other):
    """The number that a definition gets for each type, if its body is one of two rows of these types."""
    given = {}
    for type_ in TYPES:
        body = ["N 0 true", "N 1 self", "N 2 attr 1 0", "N 3 self", "N 4 attr 3 1", "N 5 if 0 2 4"]
        lines = printed(program, sheet_of([*CLASSES, f"A 0 0 0 {one}", f"A 1 0 1 {other}", f"D 0 0 {type_}", *body]))
        given[type_] = lines[0].split(" ")[1] if lines else "0"
    return given


def check_common(program, page):
    """The type of the row is the lowest that both are below: it is taken, and it stands in the place of a row's own type with each other one."""
    for one, other, said in rows_of(section(page, 2), "| One | Other | Common type |"):
        ones = spans(one) or TYPES
        others = spans(other.split("with one ancestor")[0].split(", above it")[0]) + ["#2"] * ("without a shared ancestor" in other)
        for a, b in itertools.product(ones, others):
            type_ = a if said == "T" else (spans(said) or [None])[0]
            given = common(program, a, b)
            if type_ is None and set(given.values()) != {"10"}:
                problem(page, f"{a} and {b} have a common type")
            if type_ is not None and (given[type_] != "0" or given != common(program, type_, type_)):
                problem(page, f"{type_} is not the common type of {a} and {b}")


# ---- section 3: values


def accepted(program, value):
    """The types of which a row can have this value."""
    answers = {type_: printed(program, sheet_of([*CLASSES, f"A 0 0 0 {type_}", *OBJECTS, f"V 0 0 {value}"])) for type_ in [*TYPES, "Q(C(Int))", "S(C(Int))", "B(Int)", "S(Real)"]}
    return [type_ for type_, lines in answers.items() if not lines], {line for lines in answers.values() for line in lines}


def check_values(program, page):
    """All that the table spells can stand on a sheet but `u`, and so can what the section calls in order."""
    text = section(page, 3)
    table = [span for row in rows_of(text, "| Spelled | What |") for span in spans(row[0])]
    for value in [*table, *spans(re.search(r"So (`S\(f.*?) are in order", text, re.S)[1])]:
        taken, refused = accepted(program, value)
        if (value == "u") != (not taken) or value == "u" and refused != {"! 3 12"}:
            problem(page, f"`{value}` can stand in rows of {taken}, and else gets {refused}")
    for value, size in re.findall(r"`([^`]+)` has size (\d+)", text):
        if len(re.findall(r"[SQB]\(|[^SQB(),]+", value)) != int(size):
            problem(page, f"`{value}` does not have size {size}")
    for value, number in re.findall(r"`([^`]+)`, which is refused \((\d+)\)", " ".join(text.split())):
        if accepted(program, value) != ([], {f"! {number} 12"}):
            problem(page, f"`{value}` is not refused with {number}")


def check_spelling(page):
    """The Python that is shown spells a Real and reads it back."""
    spell, read = re.search(r"In Python, `([^`]+)` spells the Real x, and `([^`]+)` is\s+the number of a spelling s", section(page, 3)).groups()
    for number in (1.5, -0.5, 2147483648.0):
        spelled = eval(spell, {"struct": struct, "x": number})
        if not re.fullmatch(r"r[0-9a-f]{16}", spelled) or eval(read, {"struct": struct, "s": spelled}) != number:
            problem(page, f"`{spell}` and `{read}` do not go together")


# ---- section 4: texts and the forms underneath


def pairs_of(row):
    """Each text of a row with its form; where the forms end in `..`, the word of the text is that of its form."""
    texts, forms = spans(row[0]), spans(row[2])
    if row[2].endswith("..") or row[2] == "the same words":
        forms += [" ".join(re.findall(r"->(\w+)\(", text) + LETTER.findall(text)) or text for text in texts[len(forms) :]]
    return list(zip(texts, forms))


def both(text, form, operands):
    """The text with operands for its letters, and the form as node lines; both within a `let` that binds variable 1."""
    filled = LETTER.sub(lambda found: f"({operands[found[0]][0]})", text.replace(" T ", " Int "))
    nodes, fields = ["self"], []
    for field in form.replace(" T ", " Int ").split(" "):
        if field in operands:
            first = len(nodes)
            nodes += [node.format(*range(first, first + 4)) for node in operands[field][1]]
            field = str(len(nodes) - 1)
        fields.append(field)
    nodes += [" ".join(fields), f"let 1 0 {len(nodes)}"]
    return f"let v1 = self in {filled}", nodes


def check_forms(program, page):
    """A text and its form answer the same, whatever its operands are, and are taken for some."""
    start = [*CLASSES, "A 0 1 5 Int", *OBJECTS, "V 1 0 9", "D 0 1 Int", "N 0 int 3", "R 0 1"]
    for row in rows_of(section(page, 4), "| Text | Means | Form underneath |"):
        pairs = pairs_of(row)
        if len(pairs) != len(spans(row[0])) and row[0] != "`(e)`":
            problem(page, f"{row[0]}: not every text has its form")
        for text, form in pairs:
            letters = [letter for letter in "abcest" if letter in form.split(" ")]
            taken = 0
            for chosen in itertools.product(OPERANDS[: (9, 9, 6, 5)[len(letters)]], repeat=len(letters)):
                rule, nodes = both(text, form, dict(zip(letters, chosen)))
                in_text = printed(program, sheet_of([*start, f"X {rule}"]))
                in_nodes = printed(program, sheet_of([*start, *(f"N {n} {node}" for n, node in enumerate(nodes))]))
                refused = [lines[0].split(" ")[1] for lines in (in_text, in_nodes) if lines[0].startswith("!")]
                taken += not refused
                if in_text != in_nodes and (len(refused) < 2 or len(set(refused)) > 1):
                    problem(page, f"`{rule}` is not {nodes}: {in_text}, {in_nodes}")
            if taken == 0:
                problem(page, f"`{text}` is never taken")


# ---- section 6: guards


def check_guards(program, page):
    """The guards of section 6 come to what is said where the value is missing, and where it is there."""
    guards = re.findall(r"(?m)^    (\S.*?)  +(\S.*)$", section(page, 6))
    meant = {"false where it is missing": ["f", "t"], "true where it is missing": ["t", "t"], "a value in its place": ["1", "5"]}
    if [said for _, said in guards] != list(meant):
        problem(page, f"shows other guards: {guards}")
    for text, said in guards:
        lines = printed(program, sheet_of(["C 0 -", "A 0 0 1 Int", "O 0 0", "O 1 0", "V 1 0 5", "R 0 0", f"X {text}"]))
        if [line.split(" ")[2:3] for line in lines] != [[value] for value in meant.get(said, [])]:
            problem(page, f"`{text}` is not {said}: {lines}")


# ---- section 4 and 5: the least Integer, and chains of calls


def check_least(program, page):
    """The least Integer in text, and what a minus costs."""
    text = " ".join(section(page, 4).split())
    least, minus = re.search(r"The least Integer is `([^`]+)`", text)[1], re.search(r"write `([^`]+)`, which is three nodes and three steps", text)[1]
    came = [printed(program, sheet_of(["C 0 -", "O 0 0", "R 0 0", f"X {rule}"])) for rule in (least, minus)]
    if came != [["0 0 -2147483648 5"], ["0 0 -5 3"]]:
        problem(page, f"`{least}` and `{minus}` come to {came}")


def check_chain(program, page):
    """As many calls one below the other as the page says, and not one more."""
    most = int(re.search(r"a chain of calls has at most (\d+) of\s+them", section(page, 5))[1])
    for calls in (most, most + 1):
        bodies = [["N 0 int 1"], *(["N 0 self", f"N 1 call 0 {n}"] for n in range(calls - 1))]
        lines = ["C 0 -", *(line for n, body in enumerate(bodies) for line in [f"D {n} 0 Int", *body]), "R 0 0", "N 0 self", f"N 1 call 0 {calls - 1}"]
        refused = [f"! 8 {len(lines)}"] if calls > most else []
        if printed(program, sheet_of(lines)) != refused:
            problem(page, f"a chain of {calls} calls gets {printed(program, sheet_of(lines))}")


# ---- section 8 and 9: lines of the cap


def check_cap(page):
    """Lines of reports that are shown outside blocks are the cap's, or those of a refusal."""
    cap = {ending: lines_of(EXAMPLES / f"cap.{ending}") for ending in ("report", "undefined", "edits", "sheet")}
    text = section(page, 8) + section(page, 9)
    stops = [line for number in (16, 17, 19) for line in lines_of(EXAMPLES / "refusals" / f"{number}.report")]
    for line in re.findall(r"(?m)^    (\d+ \d+ (?:[tfu]|!\d+|\w\(.*?\)) \d+)$", text) + re.findall(r"`(\d+ \d+ [tfu] \d+)`", text):
        if line not in cap["report"] + stops:
            problem(page, f"shows the line {line}, which neither the cap nor a refusal has")
    for line in re.findall(r"(?m)^    (V .*)$", text):
        if line not in cap["edits"]:
            problem(page, f"shows the edit {line}, which the cap's do not have")
    said = re.search(r"For rule (\d+) and object (\d+), .*? a node that began at step (\d+) on line (\d+)\s+(\d+ \d+ \d+ \d+)\n", text, re.S)
    if said is None or said[5] not in cap["undefined"] or said[5] != f"{said[1]} {said[2]} {said[4]} {said[3]}":
        problem(page, "shows another line of ocl_undefined than the cap has")
    here = re.search(r"Here: `([^`]+)`", text)[1]
    for name, number in (("Block", "#1"), ("b", "v1"), ("order", "a3")):
        here = re.sub(rf"\b{name}\b", number, here)
    if f"X {here}" not in cap["sheet"]:
        problem(page, f"`{here}` is no rule of the cap")


# ---- sections 9 and 10: a rule as a tree, its depth, its reach and its steps


def nodes_of(sheet, rule):
    """The nodes of a rule, with their fields, and the last one's number."""
    lines = [line.split(" ") for line in lines_of(sheet)]
    start = next(at for at, line in enumerate(lines) if line[:2] == ["R", rule])
    nodes = {line[1]: (line[2:], "") for line in itertools.takewhile(lambda line: line[0] == "N", lines[start + 1 :])}
    return nodes, list(nodes)[-1]


def drawn(nodes, number, level=0):
    """The tree, a line for each node from the root down: how deep it is, its form, and its fields but for operands."""
    form, fields = fields_of(nodes, number)
    yield level, " ".join([form, *(field for kind, field in fields if kind != "o")])
    for kind, field in fields:
        if kind == "o":
            yield from drawn(nodes, field, level + 1)


def reach(nodes, number):
    """1 and the reach of the operands, a loop's body 127 times."""
    form, fields = fields_of(nodes, number)
    operands = [reach(nodes, field) for kind, field in fields if kind == "o"]
    return 1 + sum(operands[:-1]) + sum(operands[-1:]) * (127 if form in ("forAll", "exists", "iter") else 1)


def check_tree(page):
    """The tree of section 9 is rule 2 of the cap, and so are its depth and its reach."""
    text, (nodes, root) = section(page, 9), nodes_of(NODES / "cap.sheet", "2")
    tree = re.search(r"What is applied last is the root:\n\n((?:    .*\n)+)", text)[1]
    shown = [re.match(r"    ([ │├└─]*)(\w+(?: +\d+)?)", line) for line in tree.splitlines()]
    lines = [(len(line[1]) // 4, " ".join(line[2].split())) for line in shown]
    if lines != list(drawn(nodes, root)):
        problem(page, f"draws another tree than rule 2 of the cap: {lines}")
    depth = 1 + max(level for level, _ in lines)
    body = reach(nodes, fields_of(nodes, root)[1][-1][1])
    for said in (f"{depth} of 19", f"The body has {body} nodes and no loop: {body}", f"= {reach(nodes, root):,}."):
        if said not in " ".join(text.split()):
            problem(page, f"does not say of rule 2 of the cap: {said}")


def check_stops(program, page):
    """The reach of the sheet for 16, and the value of the one for 18."""
    if f"a reach of {reach(*nodes_of(REFUSALS / '16.sheet', '0')):,}." not in section(page, 10):
        problem(page, "says another reach of refusals/16.sheet")
    lines = lines_of(REFUSALS / "18.sheet")
    objects = [line for line in lines if line.startswith("O ")]
    value = printed(program, sheet_of([line for line in lines if line not in objects[1:]]))[0].split(" ")[2]
    if f"a rule whose value has {len(value):,} bytes, for each of {len(objects)} objects" not in section(page, 10):
        problem(page, f"the rule of refusals/18.sheet has a value of {len(value):,} bytes for {len(objects)} objects")


def check_reference(program, page):
    check_common(program, page)
    check_values(program, page)
    check_spelling(page)
    check_least(program, page)
    check_chain(program, page)
    check_forms(program, page)
    check_guards(program, page)
    check_cap(page)
    check_tree(page)
    check_stops(program, page)
