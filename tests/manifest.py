"""What a release's manifest says besides the sums of its files: for ./release."""
import re

from sources import CRATES, ROOT, called, checked, definitions, exported, function, library, programs, proofs_of, read_for

PROGRAMS = """\
Each program is proved to be safe and to end. What it prints is what the contracts of our functions that it calls say: for the bytes
that it has read, which bytes it hands over to be written. That these are all of standard input, and that standard output gets them, is not
proved: it depends on the toolchain's libraries, and on the functions of C's below them, whose contracts are assumed and say of no byte
which one is read or written. The few lines of its source that stand between are to be read (docs/TRUST.md, sections 3 and 4)."""


def header_lines():
    """Where the headers declare each call."""
    found = {}
    for path in sorted((ROOT / "include").glob("*.h")):
        for at, line in enumerate(path.read_text().splitlines(), 1):
            if declared := re.match(r"\w+ (\w+)\(", line):
                found[declared[1]] = f"{path.relative_to(ROOT)}:{at}"
    return found


def contract(call, indent):
    """Where a function's contract, what that cites and its proof stand; the toolchain may find the proof alone."""
    yield f"{indent}contract    crates/{call.source}:{call.line}"
    for file, line, name in definitions(call):
        yield f"{indent}definition  crates/{file}:{line} {name}"
    proofs = list(proofs_of(call))
    yield from (f"{indent}proof       crates/{path}" for path in proofs)
    if not proofs:
        yield f"{indent}found       by the toolchain alone"


def about_calls():
    """The manifest's lines about each call: its library, where it is declared, and its contract."""
    declared = header_lines()
    for call in exported():
        yield f"call {call.name}"
        yield f"  library     lib/lib{library(call)}.a"
        yield f"  declared    {declared.pop(call.name, 'nowhere')}"
        yield from contract(call, "  ")
        yield ""
    if declared:
        yield from (f"declared, and in no library: {', '.join(declared)}", "")


def about_programs():
    """The manifest's lines about each program: its source and proof, the contracts of what it calls, and what is assumed."""
    for program in programs():
        yield f"program {program}"
        yield f"  file        bin/{program}"
        yield from (f"  source      {path.relative_to(ROOT)}" for path in read_for(program))
        yield from (f"  proof       {path.relative_to(ROOT)}" for path in sorted((CRATES / program / "proofs").rglob("*.antt")))
        for path in called(program):
            ours = function(path)
            yield f"  calls       {path}{'' if ours else ' of the toolchain'}"
            yield from contract(ours, "    ") if ours else ()
        yield from (f"  assumed     {name}" for name in checked(program)[1])
        yield ""


def facts(about):
    """All lines but the sums."""
    yield f"ocl-checker {about['version']} for x86-64 Linux: from what each file was built, and where its proof stands (docs/RELEASE.md)."
    yield "`sha256sum --check --strict MANIFEST` holds every file to its sum below."
    yield ""
    yield from (f"{word:<10}  {about[word]}" for word in ("build", "commit", "tree", "toolchain", "kit", "gate"))
    yield from (f"changed     {line}" for line in about["changed"])
    yield ""
    yield "What the check of each library and program says of its proof (docs/TRUST.md, section 3):"
    yield from (f"  {crate:<13} {said}" for crate, said in about["verdicts"].items())
    yield ""
    yield "Paths with a line are those of the commit."
    yield ""
    yield from about_calls()
    yield from PROGRAMS.split("\n")
    yield ""
    yield from about_programs()
