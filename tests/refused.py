"""docs/SHEETS.md, section 10, for tests/documents: what each number is said to be given for besides its example. By number, each phrase of
the page with sheets that it speaks of, and the line that is to blame. Lines have a space for each tab, and ` / ` between them."""
import re

from shown import printed, problem, sheet_of

ROW = "C 0 - / A 0 0 0 {} / O 0 0"
RULE = "C 0 - / R 0 0"
FAR = " / ".join(f"N {n} true" if n == 0 else f"N {n} not {n - 1}" for n in range(20))
MANY_VALUES = " / ".join(["C 0 -", *(f"A {a} 0 {a} Int" for a in range(11)), *(f"O {o} 0" for o in range(96)), *(f"V {o} {a} 1" for o in range(96) for a in range(11))])
LARGE_VALUES = " / ".join(["C 0 -", "A 0 0 0 Q(Int)", *(f"O {o} 0" for o in range(17)), *(f"V {o} 0 Q({','.join('1' * 127)})" for o in range(17))])
MANY_NODES = " / ".join(["C 0 -", *(f"R {r} 0" if n < 0 else f"N {n} {'true' if n == 0 else f'not {n - 1}'}" for r in range(52) for n in range(-1, 15))])
SAID = {
    3: {
        "an extra field": [("C 0 - -", 1), (f"{RULE} / N 0 self 0", 3)],
        "an unknown letter or form": [("Z 0 -", 1), ("c 0 -", 1), (f"{RULE} / N 0 equal 0", 3)],
        "a type that is not spelled as in section 2 (`Integer`)": [("C 0 - / A 0 0 0 Integer", 2), ("C 0 - / A 0 0 0 S(Int", 2)],
        "a number with a leading zero or a point": [("C 00 -", 1), (f"{ROW.format('Real')} / V 0 0 1.5", 4)],
        "a space instead of a tab": [("C 0~-", 1)],
        "an empty line": [("C 0 - / ", 2)],
        "a carriage return": [("C 0 -\r", 1)],
        "`u` as a value": [(f"{ROW.format('Int')} / V 0 0 u", 4)],
        "five members of `coll`": [(f"{RULE} / N 0 coll S 0 1 2 3 4", 3)],
        "a last line without its line feed": [("C 0 - / C 1 0 / ^", 2)],
        "a Real with a capital digit, with more or fewer than 16, or with the bits of an Integer": [
            (f"{ROW.format('Real')} / V 0 0 {real}", 4) for real in ("r3FF8000000000000", "r3ff80000000000000", "r3ff800000000000", "r4008000000000000")
        ],
    },
    4: {
        "a number is out of its range": [("A 64 0 0 Int", 1), ("A 0 0 256 Int", 1), ("O 96 0", 1), ("R 64 0", 1), (f"{RULE} / N 0 var 16", 3), (f"{RULE} / N 0 int 2147483648", 3)],
        "1,025th V line, 769th node, 33rd definition": [(MANY_VALUES, 1 + 11 + 96 + 1025), (MANY_NODES, 1 + 52 + 769), ("C 0 - / D 32 0 Int", 2)],
        "a value is over size 128": [(f"{ROW.format('Q(Int)')} / V 0 0 Q({','.join('1' * 128)})", 4)],
        "the values together over 2,048": [(LARGE_VALUES, 36)],
        "a type or value over three letters deep": [("C 0 - / A 0 0 0 S(S(S(S(Int))))", 2), (f"{ROW.format('S(S(S(Int)))')} / V 0 0 S(S(S(S())))", 4)],
        "the bits of a Real are those of an infinity or a NaN": [(f"{ROW.format('Real')} / V 0 0 {real}", 4) for real in ("r7ff0000000000000", "r7ff8000000000000")],
        "over 64 brackets and `if`s of a text are open together": [(f"{RULE} / X {'(' * 65}", 3), (f"{RULE} / X {'if ' * 65}", 3)],
    },
    5: {
        "a block in the wrong place": [("C 0 - / O 0 0 / A 0 0 0 Int", 3), (f"{RULE} / N 0 true / C 1 -", 4)],
        "an N line outside a rule or definition": [("C 0 - / N 0 true", 2)],
        "V lines or the members of a Set or Bag that don't ascend": [
            (f"{ROW.format('Int')} / V 0 0 1 / V 0 0 1", 5), (f"{ROW.format('S(Int)')} / V 0 0 S(1,1)", 4), (f"{ROW.format('B(Int)')} / V 0 0 B(2,1)", 4),
        ],
        "a name twice in a class": [("C 0 - / A 0 0 7 Int / A 1 0 7 Bool", 3)],
        "`iter` with one variable twice": [(f"{RULE} / N 0 all 0 / N 1 int 0 / N 2 int 0 / N 3 iter 0 1 1 Int 1 2", 6)],
        "a D line after an R line": [(f"{RULE} / N 0 true / D 0 0 Int", 4)],
        "an X line outside a rule or in a definition": [("C 0 - / X true", 2), ("C 0 - / D 0 0 Bool / X true", 3)],
        "a second one in a rule": [(f"{RULE} / X true / X true", 4)],
        "N lines beside one": [(f"{RULE} / X true / N 0 true", 4), (f"{RULE} / N 0 true / X true", 4)],
    },
    6: {
        "a class, row or object that the sheet doesn't have": [("O 0 0", 1), (f"{ROW.format('Int')} / V 0 1 1", 4), (f"{ROW.format('Int')} / V 1 0 1", 4)],
        "also inside a type or a value, after `all` and after `as`": [
            ("C 0 - / A 0 0 0 S(#1)", 2), (f"{ROW.format('#0')} / V 0 0 @1", 4), (f"{RULE} / N 0 all 1", 3), (f"{RULE} / N 0 self / N 1 as 0 1", 4),
        ],
    },
    7: {
        "a Real in a row of type `Int`": [(f"{ROW.format('Int')} / V 0 0 r3ff8000000000000", 4)],
        "a row of a class that the object is not of": [("C 0 - / C 1 - / A 0 0 0 Int / O 0 1 / V 0 0 1", 5)],
    },
    8: {
        "an operand is not smaller, or is used already": [(f"{RULE} / N 0 not 0", 3), (f"{RULE} / N 0 true / N 1 and 0 0", 4)],
        "a node is not used as an operand": [(f"{RULE} / N 0 true / N 1 true", 4)],
        "the tree is over 19 deep, called bodies counted in": [(f"{RULE} / {FAR}", 22), (f"C 0 - / D 0 0 Bool / {FAR[: FAR.rindex(' / ')]} / R 0 0 / N 0 self / N 1 call 0 0", 24)],
    },
    9: {
        "not in the source of its `forAll`, not in the e of its own `let`, and not after them": [
            (f"{RULE} / X v1->forAll(v1 | true)", 3), (f"{RULE} / X let v1 = v1 in v1", 3), (f"{RULE} / X (let v1 = 1 in v1) + v1", 3),
        ],
    },
    10: {
        "from `eq`, `if`, `coll`, `includes`, `including`, `union`": [
            (f"{RULE} / X {text}", 3)
            for text in ("1 = Set{}", "if true then 1 else Set{} endif", "Set{1, Set{}}", *(f"Set{{1}}->{form}" for form in ("includes(Set{})", "including(Set{})", "union(Set{Set{}})")))
        ],
        "From `as` it says that the two classes are unrelated": [("C 0 - / C 1 - / R 0 0 / X self.oclAsType(#1)", 4)],
    },
    11: {"that the body is not below the definition's type": [("C 0 - / D 0 0 Int / N 0 true", 3)]},
    13: {
        "From `coll`, `collect` and `including` only": [
            (f"{RULE} / X Set{{Set{{Set{{Set{{}}}}}}}}", 3), (f"{RULE} / X Set{{}}->including(Set{{Set{{Set{{}}}}}})", 3),
            ("C 0 - / A 0 0 0 S(S(S(Int))) / R 0 0 / X #0.allInstances()->collect(a0)", 4),
        ],
    },
    20: {
        phrase: [(f"{RULE} / X {text}", 3) for text in texts]
        for phrase, texts in {
            "a bracket that is not closed": ["(1", "Set{1"], "a minus in front": ["-1", "1 + -1"], "a leading zero": ["01", "self.a05"], "a fifth member": ["Set{1, 2, 3, 4, 5}"],
            "a `let` after a sign": ["1 + let v1 = 1 in v1"], "an unknown word (`self.needle`)": ["self.needle"], "a byte that belongs to no word and no sign": ["1 ? 2", "é"],
            "or no text at all": ["", "~"], "OCL's `<=`, `>`, `<>`, `implies` and `1.5`": ["1 <= 2", "1 > 2", "1 <> 2", "true implies true", "1.5"],
        }.items()
    },
    23: {"a larger one is refused too, whether the sheet has it or not": [("C 0 - / D 0 0 Int / N 0 self / N 1 call 0 7", 4), ("C 0 - / D 0 0 Int / N 0 self / N 1 call 0 1 / D 1 0 Int / N 0 int 1", 4)]},
}
# said to be taken: a comparison that is false for all values
TAKEN = {10: {"An object and a number do have a common type, and so have a Set and a Sequence": ["self = 1", "Set{1} = Sequence{1}"]}}


def answer(program, sheet):
    """What is printed. `~` is a space, as is one in the text of an X line; `^` takes back the last line feed."""
    return printed(program, sheet_of(sheet.split(" / ")).replace(b"~", b" ").replace(b"\n^\n", b""))


def check_said(page, number, text, phrases):
    """Nothing more is listed on the page than the phrases here."""
    for phrase in sorted(phrases, key=len, reverse=True):
        text = text.replace(phrase, "#")
    for listed in re.findall(r"(?:The same goes for|for example) (#[^.]*)\.", text):
        if left := re.sub(r"\([^()]*\)|[#,;]|\b(?:and|or|for)\b", "", listed).strip():
            problem(page, f"says of {number} what nothing here runs: {left}")


def check_refused(program, page):
    parts = {part.split(" ")[0]: " ".join(part.split()) for part in page.read_text().split("\n### ")}
    for number, phrases in SAID.items():
        check_said(page, number, parts[str(number)], phrases)
        for phrase, sheets in phrases.items():
            if phrase not in parts[str(number)]:
                problem(page, f"does not say of {number}: {phrase}")
            for sheet, place in sheets:
                if answer(program, sheet) != [f"! {number} {place}"]:
                    problem(page, f"{phrase}: {answer(program, sheet)} is printed and not {number}, at line {place}, for {sheet[:200]}")
    for number, phrases in TAKEN.items():
        for phrase, texts in phrases.items():
            if phrase not in parts[str(number)] or any(answer(program, f"C 0 - / O 0 0 / R 0 0 / X {text}")[0][:6] != "0 0 f " for text in texts):
                problem(page, f"is wrong, or does not say of {number}: {phrase}")
