"""docs/SHEETS.md, for tests/documents: its sheets and refusals, its tutorial step by step, what it says of texts, and its command."""
import re
import subprocess

from shown import EXAMPLES, REFUSALS, TUTORIAL, blocks, check_report, lines_of, printed, problem, sheet_of

# 1, 14, 15 and 21 are given to callers only
OF_SHEETS = list(range(2, 14)) + [16, 17, 18, 19, 20, 22, 23, 24]
NUMBERS = list(range(1, 25))


def check_guide(page):
    """Each block that names a sheet is a part of it, that of a refusal all of it; and what is said to be printed is."""
    for words, lines in blocks(page):
        if words[:1] == ["sheet"] and not words[1].startswith("tutorial/"):
            sheet = lines_of(EXAMPLES / f"{words[1]}.sheet")
            starts = [0] if words[1].startswith("refusals/") else range(len(sheet))
            ends = {len(sheet)} if words[1].startswith("refusals/") else set(range(len(sheet) + 1))
            if not any(sheet[i : i + len(lines)] == lines and i + len(lines) in ends for i in starts):
                problem(page, f"shows lines that {words[1]}.sheet does not have so, from {lines[:1]}")
    sections = re.split(r"^### ", page.read_text().split("\n## 10. Refusals\n")[1], flags=re.M)[1:]
    if [section.split(" ")[0] for section in sections] != [str(n) for n in NUMBERS]:
        problem(page, f"does not have the refusals {NUMBERS} in order")
    for section in sections:
        number = int(section.split(" ")[0])
        said = re.findall(r"Prints\s`([^`]+)`", section)
        printed = lines_of(REFUSALS / f"{number:02}.report") if number in OF_SHEETS else []
        if said != printed:
            problem(page, f"says of {number} that {said} is printed, not {printed}")


def check_sed(page, sheets):
    """The command that turns shown lines into a sheet does."""
    command = re.search(r"`(sed '[^`]+')`", page.read_text())[1]
    for sheet in sheets:
        shown = "".join(f"{line}\n" for line in lines_of(sheet))
        if subprocess.run(command, shell=True, input=shown.encode(), stdout=subprocess.PIPE, timeout=60).stdout != sheet.read_bytes():
            problem(page, f"`{command}` does not give {sheet.name}")


# ---- the tutorial, step by step


def check_tutorial(program, page):
    """Each step shows the lines that its sheet has and the one before has not, and its report, whole or likewise. 3-refused stands in
    the place of 3. The last step has nothing left to correct."""
    sheets = sorted(TUTORIAL.glob("*.sheet"))
    steps = [sheet.stem for sheet in sheets if sheet.stem.isdigit()]
    if re.findall(r"^### Step (\d+): ", page.read_text(), re.M) != steps or steps != [str(n + 1) for n in range(len(steps))]:
        problem(page, f"does not have the steps {steps} in order")
    before = {"sheet": [], "report": []}
    for sheet in sheets:
        now = {"sheet": lines_of(sheet), "report": check_report(program, sheet)}
        for what, lines in now.items():
            shown = [line for words, block in blocks(page) if words == [what, f"tutorial/{sheet.stem}"] for line in block]
            fresh = [line for line in lines if line not in before[what]]
            if shown != fresh and (what, shown) != ("report", lines) and (what, sheet.stem) != ("report", steps[-1]):
                problem(page, f"shows another {what} than {sheet.name} has")
        before = now if sheet.stem.isdigit() else before
    if any(re.search(r" [fu] |!", line) for line in before["report"]):
        problem(page, "ends with something left to correct")
    return len(sheets)


# ---- what is said of texts


def answer_to(program, text):
    """What is printed for a sheet whose one rule is this text, for one object."""
    return "\n".join(printed(program, sheet_of(["C 0 -", "O 0 0", "R 0 0", f"X {text}"])))


def check_sentences(program, page):
    """Section 4: what is said to be no sentence gets 20, and what is said to be one does not; signs lean and numbers come out as said."""
    section = " ".join(re.search(r"(?s)^## 4\. .*?(?=^## 5\. )", page.read_text(), re.M)[0].split())
    spans = r"(`[^`]+`(?:(?:,| and|, and) `[^`]+`)*)"
    bad = [text for found in re.findall(rf"{spans} (?:is|are) no sentences?", section) for text in re.findall(r"`([^`]+)`", found)]
    good = re.findall(r"`([^`]+)` is one, and so is", section) + re.findall(r"so is `([^`]+)`", section)
    good += [text for found in re.findall(rf"you need none: {spans}", section) for text in re.findall(r"`([^`]+)`", found)]
    for text in bad + good:
        if ".." not in text and (answer_to(program, text) == "! 20 4") != (text in bad):
            problem(page, f"is wrong about the sentence `{text}`")
    same = re.findall(r"`([^`]+)` is `([^`]+)`", section)
    for text, meant in same:
        if answer_to(program, text) != answer_to(program, meant):
            problem(page, f"`{text}` is not `{meant}`")
    values = re.findall(r"`([^`]+)` is (\d+)\b", section)
    for text, value in values:
        if answer_to(program, text).split(" ")[2:3] != [value]:
            problem(page, f"`{text}` is not {value}")
    if min(len(bad), len(good), len(same), len(values)) == 0:
        problem(page, "section 4 does not say what is a sentence and what is none")
