"""docs/SHEETS.md, section 5, for tests/documents: its tables of forms. Every form is run with operands of several types, each with its value
and undefined. What is undefined, the steps, the numbers of refusals and a type that is `Bool`, `Int` or `Real` must be what the row says."""
import itertools
import re

from shown import printed, problem, rows_of, section, sheet_of, spans

# what an operand is: its type, its value on the sheet, and the value here. Each is an attribute of `self`, so that it takes two steps.
OPERANDS = [
    ("Int", "2", 2), ("Bool", "t", True), ("Bool", "f", False), ("S(Int)", "S(1,2)", "S"), ("Q(Int)", "Q(1,2)", "Q"), ("#1", "@1", "@1"),
    ("Real", "r3ff8000000000000", 1.5), ("S(#1)", "S(@1,@2)", "S"), ("Q(#1)", "Q(@1,@2)", "Q"), ("C(Int)", "B(1,2)", "B"), ("Any", "@1", "@1"),
]
# how many of them, by the number of operands
TRIED = (0, 11, 8, 5, 5)
VALUE, MISSING = 50, 51
# the forms with other fields than operands: how they are run here; `var` needs something that binds it
RUN_AS = {
    "attr e name": [f"attr e {VALUE}"], "collect s name": [f"collect s {VALUE}"], "as e c": ["as e 1"], "call e n": ["call e 0"], "all c": ["all 1"], "int n": ["int 5"],
    "real r..": ["real r3ff8000000000000"], "var i": [], "let i e b": ["let 1 e b"], "forAll s i b": ["forAll s 1 b"], "exists s i b": ["exists s 1 b"],
    "iter s i j T e b": ["iter s 1 2 Int e b"], "coll k e..": ["coll S", "coll Q a", "coll B a b", "coll S a b c"],
}
# undefined though all operands have values: by the row's words
ARISES = {
    "the object has no V line in the row": f"attr e {MISSING}", "one of the objects has no V line in the row": f"collect s {MISSING}",
    "it is no object of class c or below": "as e 2", "or the body is": "call e 1",
}
# and more that the rows say, of numbers: by their words, texts and what each comes to
COMES_TO = {
    "or b is 0": {"1 div 0": "u", "1 mod 0": "u", "1 / 0": "u"},
    "a result of Integers that leaves their range": {"2147483647 + 1": "!19", "0 - 2147483647 - 2": "!19", "65536 * 65536": "!19"},
    "and an infinite one, stop with 19": {"r7fefffffffffffff + r7fefffffffffffff": "!19", "r7fefffffffffffff * 2": "!19"},
    "an infinite result stops with 19": {"r7fefffffffffffff / r3fe0000000000000": "!19"},
    "the least Integer by -1 leaves the range: 19": {"(0 - 2147483647 - 1) div (0 - 1)": "!19", "(0 - 2147483647 - 1) mod (0 - 1)": "0"},
    "-7 by 2 is -3": {"(0 - 7) div 2": "-3"},
    "-7 by 2 leaves -1": {"(0 - 7) mod 2": "-1"},
}


def is_strict(values):
    return None in values


def strict_steps(values):
    """Operands run up to the first that is undefined."""
    return 1 + 2 * (values.index(None) + 1 if None in values else len(values))


# ---- by the words of the columns: is it undefined, and how many steps are counted, for the operands' values

UNDEFINED = {
    "never": lambda values: False,
    "never: bound values are defined": lambda values: False,
    "always": lambda values: True,
    **dict.fromkeys(("e is", "s is", "a or b is", "s or e is", "s or t is", "a member is; those after it don't run"), is_strict),
    "e is, or the object has no V line in the row": is_strict,
    "s is, or one of the objects has no V line in the row": is_strict,
    "e is, or it is no object of class c or below": is_strict,
    "e is (the body doesn't run), or the body is": is_strict,
    "none is false and one is undefined": lambda values: False not in values and None in values,
    "none is true and one is undefined": lambda values: True not in values and None in values,
    "a or b is; a result of Integers that leaves their range, and an infinite one, stop with 19": is_strict,
    "a or b is, or b is 0; the least Integer by -1 leaves the range: 19": is_strict,
    "a or b is, or b is 0; an infinite result stops with 19": is_strict,
    "a or b is, or b is 0": is_strict,
    "c is, or the branch that runs is": lambda values: values[0] is None or values[1 if values[0] else 2] is None,
    "e is (b doesn't run), or b is": is_strict,
    "s is, or no body is false and one is undefined": is_strict,
    "s is, or no body is true and one is undefined": is_strict,
    "s is (e doesn't run), e is, or the first undefined b: the members after it don't run": is_strict,
}
STEPS = {
    **dict.fromkeys(("1", "1 + e", "1 + s", "1 + a + b", "1 + s + e", "1 + s + t", "1 + each member", "1 + e + b"), strict_steps),
    # the body that is called has one node
    "1 + e + the body": lambda values: 3 + (values[0] is not None),
    "1 + a, + b unless a is false": lambda values: 3 if values[0] is False else 5,
    "1 + a, + b unless a is true": lambda values: 3 if values[0] is True else 5,
    "1 + c + the branch that runs": lambda values: 3 if values[0] is None else 5,
    # each collection has two members
    "1 + s + b for each member up to the one that decides": lambda values: 3 if values[0] is None else 5 if values[1] is False else 7,
    "the same": lambda values: 3 if values[0] is None else 5 if values[1] is True else 7,
    "1 + s + e + b for each member": lambda values: strict_steps(values) if None in values else 9,
}
# how a value of these types is spelled, where the row has the type alone
SPELLED = {"`Bool`": r"[tf]", "`Int`": r"-?\d+", "`Real`": r"-?\d+|r[0-9a-f]{16}"}


# ---- sheets


def rules_of(form, kinds):
    """A rule for each choice of operands that are undefined; and those values."""
    lines = ["C 0 -", "C 1 -", "C 2 1"]
    lines += [f"A {2 * at + missing} 0 {2 * at + missing} {type_}" for at, (type_, _, _) in enumerate(OPERANDS) for missing in (0, 1)]
    rows = 2 * len(OPERANDS)
    lines += [f"A {rows} 1 {VALUE} Int", f"A {rows + 1} 1 {MISSING} Int", "O 0 0", "O 1 1", "O 2 1"]
    lines += [f"V 0 {2 * at} {value}" for at, (_, value, _) in enumerate(OPERANDS)] + [f"V 1 {rows} 7", f"V 2 {rows} 8", f"V 2 {rows + 1} 9"]
    lines += ["D 0 1 Int", "N 0 int 3", "D 1 1 Int", "N 0 undef"]
    choices = list(itertools.product((0, 1), repeat=len(kinds)))
    for rule, missing in enumerate(choices):
        nodes, fields, given = [], [], iter(zip(kinds, missing))
        for field in form.split(" "):
            if re.fullmatch("[abcest]", field):
                kind, is_missing = next(given)
                nodes += ["self", f"attr {len(nodes)} {2 * kind + is_missing}"]
                field = str(len(nodes) - 1)
            fields.append(field)
        lines += [f"R {rule} 0", *(f"N {n} {node}" for n, node in enumerate([*nodes, " ".join(fields)]))]
    return lines, [[None if is_missing else OPERANDS[kind][2] for kind, is_missing in zip(kinds, missing)] for missing in choices]


def check_form(program, page, form, row):
    """All choices of operands: refused with a number of the row, or undefined and counted as the row says. Returns how many are taken."""
    _, _, type_, undefined, steps = row
    letters, taken = re.findall(r"(?<= )[abcest](?= |$)", form), 0
    for kinds in itertools.product(range(TRIED[len(letters)]), repeat=len(letters)):
        lines, choices = rules_of(form, kinds)
        answers = [answer.split(" ") for answer in printed(program, sheet_of(lines))]
        if answers[0][0] == "!":
            if answers[0][1] not in re.findall(r"\d+", " ".join(re.findall(r"\(([^()]*)\)", re.sub(r"`[^`]*`", "", type_)))):
                problem(page, f"`{form}` of {[OPERANDS[kind][0] for kind in kinds]} gets {answers[0][1]}, and its row says {type_}")
            continue
        taken += 1
        for values, (_, _, value, counted) in zip(choices, answers):
            is_typed = value == "u" or re.fullmatch(SPELLED.get(type_.split(";")[0], ".*"), value)
            if (value == "u") != UNDEFINED[undefined](values) or int(counted) != STEPS[steps](values) or not is_typed:
                problem(page, f"`{form}` of {values}: {value} after {counted} steps; the row says {type_}, {undefined}, {steps}")
    return taken


def check_table(program, page):
    for heading in ("Forms without operands:", "Forms with one operand:", "Forms with two operands.", "Forms with more:"):
        text = section(page, 5)
        for row in rows_of(text[text.index(heading) :], "| Form | Meaning | Type | Undefined | Steps |"):
            if row[3] not in UNDEFINED or row[4] not in STEPS:
                problem(page, f"{row[0]}: nothing says what {row[3]!r} or {row[4]!r} means")
                continue
            for form in spans(row[0]):
                for run_as in RUN_AS.get(form, [form]):
                    if check_form(program, page, run_as, row) == 0:
                        problem(page, f"`{run_as}` is never taken")
    for words, texts in COMES_TO.items():
        came = {text: printed(program, sheet_of(["C 0 -", "O 0 0", "R 0 0", f"X {text}"]))[0].split(" ")[2] for text in texts}
        if words not in section(page, 5) or came != texts:
            problem(page, f"{words}: {came}")
    for words, form in ARISES.items():
        operands = {"e": [5], "s": [7]}[form.split(" ")[1]]
        if words not in section(page, 5) or printed(program, sheet_of(rules_of(form, operands)[0]))[0].split(" ")[2] != "u":
            problem(page, f"{words}: `{form}` is not undefined")
