"""What docs/UNDEFINED.md, docs/EXPLAIN.md, docs/ROWS.md and docs/LOAD.md say in tables and sentences about the examples, for
tests/documents."""
import re
import subprocess

from shown import EXAMPLES, NODES, lines_of, printed, problem, rows_of, sheet_of, spans

# how docs/UNDEFINED.md says a value of the needles
WORDS = {"true": "t", "false": "f", "undefined": "u", "the four needles": "S(@1,@2,@3,@4)"}


# ---- where undefined came from


def trace_of(lines):
    """The steps of a verdict that is explained: the part that began, what it came to, and the member in a body."""
    found = re.findall(r"^    step (\d+) +line \d+ +`(.*?)` is (\S+?)(?:, v1 being @(\d+))?(?:, by .*)?$", "\n".join(lines), re.M)
    return {int(step): (part, value, member) for step, part, value, member in found}


def check_steps(page, trace):
    """The table of steps: each part that is named began at its step and came to what is said, with the needle that is said."""
    rows, last = rows_of(page.read_text().replace("**", ""), "| Step | Node | Comes to |"), 0
    for steps, node, value in rows:
        numbers = [int(number) for number in re.findall(r"\d+", steps)]
        numbers = list(range(numbers[0], numbers[1] + 1)) if " to " in steps else numbers
        values = [WORDS.get(word, re.sub(r"^needle ", "@", word)) for word in value.split(", ")]
        shown = [trace[number] for number in numbers]
        if needles := re.search(r"the bodies for needles ([\d and]+)", node):
            wanted = list(zip(re.findall(r"\d", needles[1]), values))
            is_right = [(member, value) for _, value, member in shown if member] == wanted
        else:
            member = re.search(r"for needle (\d)", node)
            parts = [part.replace("->forAll", trace[1][0]) for part in spans(node)]
            is_right = [(part, value) for part, value, _ in shown] == list(zip(parts, values)) and (not member or shown[0][2] == member[1])
        if not is_right or numbers[0] != last + 1:
            problem(page, f"says of step {steps} what is not so: {shown}")
        last = numbers[-1]
    if last != len(trace):
        problem(page, f"its table ends at step {last} of {len(trace)}")


# One object: row 0, name 1, and row 2, name 3, have no value; row 1, name 2, has one. Definition 0 reads row 0, at line 12.
ORIGINS = ["C 0 -", "C 1 0", "A 0 0 1 Int", "A 1 0 2 Int", "A 2 0 3 #0", "A 3 0 4 S(Int)", "O 0 0", "V 0 1 5", "D 0 0 Int", "N 0 int 1", "N 1 self", "N 2 attr 1 1", "N 3 plus 0 2"]
# by the first cell of a row, texts and the step at which undefined arises in them; where it is in the definition, its line too
ARISES = {
    "`undef`": [("undef", 1)],
    "`e.a5`, `attr`": [("self.a1", 1)],
    "`s->collect(a5)`, `collect`": [("#0.allInstances()->collect(a1)", 1)],
    "`e.oclAsType(#1)`, `as`": [("self.oclAsType(#1)", 1)],
    "`a div b`, `a mod b`, `a / b`": [("1 div 0", 1), ("1 mod 0", 1), ("1 / 0", 1)],
    "most forms": [("self.a1 + self.a1", 2), ("self.a2 + self.a1", 4), ("not (1 < self.a1)", 4)],
    "`if`": [("if self.a1 = 1 then 1 else 2 endif", 3), ("if true then self.a1 else 2 endif", 3), ("if false then 1 else self.a1 endif", 3)],
    "`and`, `or`": [("self.a1 = 1 and self.a1 = 2", 3), ("true and self.a1 = 1", 4), ("self.a1 = 1 or false", 3), ("false or self.a1 = 1", 4)],
    "`let`": [("let v1 = self.a1 in 1", 2), ("let v1 = 1 in v1 + self.a1", 5)],
    "`iter`": [
        ("self.a4->iter(v1; v2 : Int = self.a1 | v2)", 2), ("Set{1}->iter(v1; v2 : Int = self.a1 | 1 div 0)", 4), ("Set{0, 1}->iter(v1; v2 : Int = 0 | 1 div (1 - v1))", 11),
    ],
    "`forAll`, `exists`": [("self.a4->forAll(v1 | true)", 2), ("Set{0, 1}->forAll(v1 | 1 div v1 < 9)", 6), ("Sequence{1, 0, 0}->exists(v1 | 9 < 9 div v1)", 13)],
    "a call": [("self.a3.d0()", 2), ("self.d0()", 5, 12)],
}


def check_arises(program, page):
    """Both tables of section 2: where undefined arises, and how it is followed, in texts for each row."""
    text = page.read_text()
    rows = rows_of(text, "| Node | Why |") + rows_of(text, "| Form | Followed |")
    if [row[0] for row in rows] != list(ARISES):
        problem(page, f"has the rows {[row[0] for row in rows]}, and the test {list(ARISES)}")
    for row, texts in ARISES.items():
        for rule, step, *line in texts:
            came = printed(program, sheet_of([*ORIGINS, "R 0 0", f"X {rule}"]))
            if came != [f"0 0 {(line or [len(ORIGINS) + 2])[0]} {step}"]:
                problem(page, f"{row}: {came} is printed of `{rule}`, and not step {step}")


def check_lines(page):
    """Lines of sheets and reports that are named in sentences."""
    text = " ".join(page.read_text().split())
    said = re.search(r"The report says `([^`]+)`", text)
    if said is None or said[1] not in lines_of(EXAMPLES / "needles.report"):
        problem(page, "shows another line of the needles' report")
    line = re.search(r"where line (\d+) is `([^`]+)`", text)
    if lines_of(NODES / "needles.sheet")[int(line[1]) - 1] != line[2]:
        problem(page, f"line {line[1]} of the needles in nodes is not {line[2]}")
    areas = lines_of(EXAMPLES / "areas.sheet")
    line, named = re.search(r"Line (\d+) stands in definition (\d+):", text), re.search(r"The node named is `([^`]+)`", text)
    before = [other for other in areas[: int(line[1])] if other.startswith("D ")]
    if areas[int(line[1]) - 1] != named[1] or before[-1].split(" ")[1] != line[2]:
        problem(page, f"line {line[1]} of the areas is not {named[1]} in definition {line[2]}")


def check_never(page, explain):
    """What is said of a comparison that is never true is printed, with the lines that the page puts behind a sheet."""
    said = re.search(r"With (`[^`]+` and `[^`]+`) at the end of `examples/([^`]+)`:\s+(.*)", page.read_text())
    if said[3] not in explain((EXAMPLES / said[2]).read_bytes() + sheet_of(spans(said[1])), []):
        problem(page, f"what is printed of {said[1]} is not: {said[3]}")


# ---- the rows that a rule sees


def check_learned(page):
    """Which rules could learn a row, which rules tell the two sheets apart, and the command that finds the rules of a row."""
    text, sees = page.read_text(), {line.split(" ")[0]: line.split(" ")[1:] for line in lines_of(EXAMPLES / "recipes.rows")}
    for row, rules in rows_of(text, "| Row | Rules that could learn it |"):
        number = row.split(",")[0]
        if re.findall(r"^rule (\d+)", rules) != [rule for rule, rows in sees.items() if number in rows]:
            problem(page, f"row {number} is not learned by {rules}")
    reports = [lines_of(EXAMPLES / name) for name in ("recipes.report", "unseen/recipes.report")]
    differ = sorted({a.split(" ")[0] for a, b in zip(*reports) if a != b})
    if len(differ) != 1 or f"Only rule {differ[0]} tells the two sheets apart" not in text:
        problem(page, f"the two sheets are told apart by {differ}")
    command, row = re.search(r"\./rows examples/recipes\.sheet \| (awk .*)", text)[1], re.search(r"prints the rules that see row (\d+)", text)[1]
    ran = subprocess.run(command, shell=True, stdin=(EXAMPLES / "recipes.rows").open(), stdout=subprocess.PIPE, timeout=60)
    if ran.stdout.decode().split() != [rule for rule, rows in sees.items() if row in rows]:
        problem(page, f"`{command}` prints {ran.stdout}")


# ---- thread load

# what each number is said to be given for, as a run, and the line
REFUSED = {
    3: {
        "an empty line": ("2\n\n", 2), "a sign": ("2\n+1\n", 2), "a space": ("2\n1 \n", 2), "a letter": ("2\nx\n", 2),
        "a last line without its line feed": ("1\n5", 2), "an input with no line at all": ("", 1),
    },
    4: {"a window of 0": ("0\n", 1), "a length over 1,000": ("1\n1001\n", 2), "the 1,000,001st length": ("1\n" + "0\n" * 1000001, 1000002)},
}


def check_run_sentences(page, run):
    """What the page of a run says of its load after some stitches, of the sum, and of where it comes again."""
    text, (width, *lengths) = " ".join(page.read_text().split()), run
    sums = [sum(lengths[at : at + width]) for at in range(len(lengths) - width + 1)]
    for stitch, load in re.findall(r"after stitch (\d+) it is (\d+)", text):
        if max(sums[: int(stitch) - width + 1]) != int(load):
            problem(page, f"after stitch {stitch} the load is {max(sums[: int(stitch) - width + 1])}")
    parts, whole = re.search(r"((?:\d+ \+ )+\d+) = (\d+)", text).groups()
    first, again = re.search(r"They begin at stitch (\d+)", text)[1], re.search(r"the same sum again from stitch (\d+) on", text)[1]
    if [int(part) for part in parts.split(" + ")] != lengths[int(first) - 1 :][:width] or int(whole) != max(sums):
        problem(page, f"{parts} are not the stitches from {first} on, or their sum is not the load")
    if [at + 1 for at, load in enumerate(sums) if load == max(sums)] != [int(first), int(again)]:
        problem(page, f"the largest sum is not that of {first} and {again}")


def check_loads(program, page):
    text = page.read_text()
    shown = re.search(r"(?m)^    \./load examples/(\w+)\.run\n    (.*)$", text)
    if lines_of(EXAMPLES / f"{shown[1]}.load") != [shown[2]]:
        problem(page, f"shows another load of {shown[1]}.run")
    parts = {part.split(" ")[0]: " ".join(part.split()) for part in text.split("\n### ")}
    for number, phrases in REFUSED.items():
        for phrase, (run, line) in phrases.items():
            came = printed(program, run.encode())
            if phrase not in parts[str(number)] or came != [f"! {number} {line}"]:
                problem(page, f"{phrase}: {came} is printed, or the page does not say it")
