"""What the pages show and the programs print, for tests/documents, tests/from_ocl and their parts."""
import pathlib
import re
import subprocess

ROOT = pathlib.Path(__file__).resolve().parent.parent
EXAMPLES = ROOT / "examples"
REFUSALS = EXAMPLES / "refusals"
NODES = EXAMPLES / "nodes"
TUTORIAL = EXAMPLES / "tutorial"
problems = []


def problem(path, text):
    problems.append(f"{path.relative_to(ROOT)}: {text}")


def lines_of(path):
    """A file's lines, with a space for each tab, as the pages show them."""
    return path.read_text().replace("\t", " ").splitlines()


def sheet_of(lines):
    """The bytes of lines with a space for each tab; only the text of an X line has spaces of its own."""
    return "".join(line.replace(" ", "\t", 1 if line.startswith("X ") else -1) + "\n" for line in lines).encode("latin-1")


def printed(program, given):
    """The lines that a program prints for bytes on standard input."""
    return subprocess.run([program], input=given, stdout=subprocess.PIPE, timeout=60).stdout.decode("latin-1").splitlines()


def section(page, number):
    return re.search(rf"(?ms)^## {number}\. .*?(?=^## |\Z)", page.read_text())[0]


def spans(text):
    """What stands in backquotes."""
    return re.findall(r"`([^`]+)`", text)


def rows_of(text, heading):
    """The rows below the heading of a table, as cells."""
    found = re.search(rf"(?m)^{re.escape(heading)}\n\|[-|]+\|\n((?:\|.*\n)+)", text)
    return [[cell.strip().replace("\\|", "|") for cell in re.split(r"(?<!\\)\|", row)[1:-1]] for row in found[1].splitlines()]


# the kinds of blocks that each page shows; without one of them nothing would be compared
KINDS = {
    "EXPLAIN.md": {"explain"},
    "LOAD.md": {"run"},
    "ROWS.md": {"report", "rows", "sheet"},
    "SHEETS.md": {"report", "sheet"},
    "UNDEFINED.md": {"explained", "sheet", "undefined"},
}


def check_kinds():
    for name, kinds in KINDS.items():
        page = ROOT / "docs" / name
        if missing := kinds - {words[0] for words, _ in blocks(page) if words}:
            problem(page, f"shows nothing of {', '.join(sorted(missing))}")


def check_report(program, sheet, report=None):
    """The report beside the sheet, or another one, is printed; rows likewise."""
    ran = subprocess.run([program], stdin=sheet.open("rb"), stdout=subprocess.PIPE, timeout=60)
    if ran.returncode < 0:
        problem(sheet, f"the program was ended by signal {-ran.returncode}")
    expected = report or sheet.with_suffix(".report")
    if not expected.exists():
        problem(sheet, "has no report")
    elif ran.stdout != expected.read_bytes():
        printed, wanted = ran.stdout.split(b"\n"), expected.read_bytes().split(b"\n")
        at = next((i for i, (p, w) in enumerate(zip(printed, wanted)) if p != w), min(len(printed), len(wanted)))
        problem(sheet, f"line {at + 1} is printed as {printed[at:][:1]}, the report has {wanted[at:][:1]}")
    return ran.stdout.decode("latin-1").splitlines()


def blocks(page):
    """The fenced blocks of a page: the words after the fence, and the lines without their remarks."""
    found, inside = [], None
    for line in page.read_text().splitlines():
        if line.startswith("```"):
            if inside is None:
                inside = (line[3:].split(), [])
            else:
                found.append(inside)
                inside = None
        elif inside is not None:
            inside[1].append(line if inside[0][:1] in (["ocl"], ["explain"], ["explained"]) else re.split(r"  +", line.rstrip())[0])
    return found
