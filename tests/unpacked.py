"""An unpacked release, its manifest, and what is installed from it: for tests/release."""
import os
import pathlib
import re
import shlex
import subprocess
import sys

from sources import ROOT, checked, programs

VERSION = (ROOT / "VERSION").read_text().strip()
GATE = "12 passed, 0 failed"
KIT = "the toolchain of a test"
# each example in C: what it is given, what is typed, and how what it prints must end
EXAMPLES = {
    "check": ("cap.sheet", None, "cap.report"), "setter": ("cap.sheet", "cap.edits", "cap.corrected"), "load": ("leaves.run", None, "leaves.load"),
}
# each program: what it prints, as its manifest must name it
PRINTED = {
    "ocl_report": "sheet/specs/Report.antt program", "ocl_rows": "sheet/specs/Rows.antt rows_program",
    "ocl_undefined": "sheet/specs/Origin.antt origin_program", "thread_load": "load/specs/Reading.antt program",
}
# and what writes that: the handle itself, or a function of ours that says what the output has got, and what it is lent for that
SHARED = {"printing::programs::print_input", "std::io::writer of the toolchain"}
WRITES = {
    "ocl_report": SHARED, "ocl_rows": SHARED, "ocl_undefined": SHARED, "thread_load": {"HostRuntime::write_all of the toolchain"},
}
# a program in C++ over both libraries: it prints the report of a sheet, and ends with 0 if the load of three stitches is right
IN_CPP = """
#include "ocl_checker.h"
#include "thread_load.h"
#include <cstdio>

int main() {
    static uint8_t text[49152], output[OCL_REPORT_OUTPUT];
    static uint64_t words[3][OCL_LEAST_WORDS];
    std::size_t length = std::fread(text, 1, sizeof text, stdin);
    ocl_answer answer = ocl_report(text, length, words[0], OCL_LEAST_WORDS, words[1], OCL_LEAST_WORDS, words[2], OCL_LEAST_WORDS,
        output, sizeof output);
    std::fwrite(output, 1, answer.length, stdout);
    load_window window = {}; window.width = 2;
    bool taken = load_push(&window, 3) && load_push(&window, 5) && load_push(&window, 7) && !load_push(&window, LOAD_LONGEST + 1);
    return answer.number == OCL_ANSWERED && taken && window.largest == 12 && window.first == 2 ? 0 : 1;
}
"""
# what a later compiler may warn of
MORE_WARNINGS = {"RUSTFLAGS": "--warn missing-debug-implementations"}
problems = []
cases = []


def run(*words, within=ROOT, **how):
    return subprocess.run(words, cwd=within, capture_output=True, timeout=300, **how)


def must(*words, **how):
    """What a command prints; it has to succeed."""
    ran = run(*words, **how)
    if ran.returncode != 0:
        sys.exit(f"{shlex.join(map(str, words))}:\n{(ran.stdout + ran.stderr).decode(errors='replace')[-3000:]}")
    return ran.stdout.decode()


def by_kit(made, **more):
    """An environment with the stand-in for the toolchain in front of all programs."""
    return {**os.environ, "PATH": f"{made / 'kit/bin'}:{os.environ['PATH']}", **more}


def kit_sum(made):
    return must(made / "first/tests/toolchain", env=by_kit(made)).strip()


def check(what, right, why=""):
    cases.append(what)
    if not right:
        problems.append(f"{what}{why and ': '}{why}")


# ---- the manifest


def check_manifest(folder, commit_name):
    text = (folder / "MANIFEST").read_text()
    ran = run("sha256sum", "--check", "--strict", "--quiet", "MANIFEST", within=folder)
    check("manifest: sums", ran.returncode == 0, (ran.stdout + ran.stderr).decode())
    summed = set(re.findall(r"^[0-9a-f]{64}  (.*)$", text, re.M))
    there = {str(path.relative_to(folder)) for path in folder.rglob("*") if path.is_file()}
    check("manifest: every file", summed == there - {"MANIFEST"}, str(summed ^ (there - {"MANIFEST"})))
    facts = {"build": f"{VERSION}+{commit_name}", "commit": commit_name, "toolchain": KIT, "gate": GATE, "kit": kit_sum(folder.parent.parent)}
    check("manifest: facts", facts.items() <= dict(re.findall(r"^# (\w+)  +(.*)$", text, re.M)).items(), text[:600])
    check("manifest: no path of this machine", not re.search(r"(?<![\w`.])/\w", text) and str(ROOT) not in text)
    shipped = {f"include/{path.name}" for path in (ROOT / "include").iterdir()} | {f"bin/{program}" for program in programs()}
    check("manifest: headers, programs and pages", shipped | {"README.md", "CHANGELOG.md", "docs/RELEASE.md"} <= summed)
    check_calls(folder, text)
    check_programs(text)


def check_places(what, said):
    """Each place that a block names is there: a file, with a line that has what is looked for."""
    for word, place in said:
        file, _, line = place.split(" ")[0].partition(":")
        holds = {"contract": "ensures", "declared": f" {what}(", "definition": place.split(" ")[-1]}.get(word)
        lines = (ROOT / file).read_text().splitlines() if word in ("source", "proof", "contract", "declared", "definition") else None
        if lines is not None:
            check(f"manifest: {what}: {word}", lines if holds is None else holds in lines[int(line) - 1], place)


def check_calls(folder, text):
    """Each exported call has its contract in the manifest, at a line that has one."""
    told = {}
    for name, lines in re.findall(r"^# call (\w+)\n((?:#   .*\n)+)", text, re.M):
        said = re.findall(r"^#   (\w+)  +(.*)$", lines, re.M)
        told.setdefault(dict(said)["library"], set()).add(name)
        there = dict(said).keys()
        leads = {"declared", "contract", "definition"} <= there and {"proof", "found"} & there
        check(f"manifest: {name}: all that leads to its proof", leads, lines)
        check_places(name, said)
    for library in sorted(folder.glob("lib/*.a")):
        symbols = {line.split()[-1] for line in must("nm", "--defined-only", "--extern-only", library).splitlines() if " T " in line}
        check(f"manifest: calls of {library.name}", told.get(f"lib/{library.name}") == symbols, str(symbols))


def check_programs(text):
    """Each program leads to what is proved of what it prints, and says what is assumed."""
    told = dict(re.findall(r"^# program (\w+)\n((?:#   .*\n)+)", text, re.M))
    check("manifest: the programs", told.keys() == set(programs()) == PRINTED.keys(), str(told.keys()))
    for name, lines in told.items():
        said = re.findall(r"^# +(\w+)  +(.*)$", lines, re.M)
        check_places(name, said)
        defined = [re.sub(r"^crates/|:\d+", "", place) for word, place in said if word == "definition"]
        check(f"manifest: {name}: what it prints", PRINTED[name] in defined, lines)
        names = [place for word, place in said if word == "assumed"]
        check(f"manifest: {name}: what is assumed", "libc::write" in names and names == checked(name)[1], lines)
        check(f"manifest: {name}: what writes", {("calls", path) for path in WRITES[name]} <= set(said), lines)
        blocks = re.findall(r"^#   calls  +(\S+)\n((?:#     .*\n)+)", lines, re.M)
        check(f"manifest: {name}: its calls of ours", blocks and all(re.search(r" contract (.|\n)* (proof|found) ", block) for _, block in blocks), lines)


# ---- installed


def flags(prefix, *words):
    path = {**os.environ, "PKG_CONFIG_PATH": str(prefix / "lib/pkgconfig")}
    return shlex.split(must("pkg-config", *words, env=path))


def check_examples(prefix):
    """Every example in C, by pkg-config alone."""
    pages = prefix / "share/doc/ocl-checker/examples"
    check("examples in C: what each must print is known here", {path.stem for path in (pages / "c").glob("*.c")} == set(EXAMPLES))
    for name, (given, typed, wanted) in EXAMPLES.items():
        source = pages / "c" / f"{name}.c"
        header = re.search(r'^#include "(\w+)\.h"$', source.read_text(), re.M)[1]
        package = header.replace("_", "-")
        program = prefix.parent / name
        must("cc", "-std=c11", "-Wall", "-Wextra", "-Werror", source, "-o", program, *flags(prefix, "--cflags", "--libs", package))
        ran = run(program, pages / given, input=(pages / typed).read_bytes() if typed else b"")
        check(f"examples/c/{name}.c", ran.returncode == 0 and ran.stdout.endswith((pages / wanted).read_bytes()), ran.stdout[-300:].decode())


def check_cpp(prefix):
    program, pages = prefix.parent / "in C++", prefix / "share/doc/ocl-checker/examples"
    linked = flags(prefix, "--cflags", "--libs", "ocl-checker", "thread-load")
    must("c++", "-std=c++11", "-Wall", "-Wextra", "-Werror", "-x", "c++", "-", "-x", "none", "-o", program, *linked, input=IN_CPP.encode())
    ran = run(program, input=(pages / "cap.sheet").read_bytes())
    check("in C++", ran.returncode == 0 and ran.stdout == (pages / "cap.report").read_bytes(), f"status {ran.returncode}")


def check_needs(prefix):
    """The programs run where docs/RELEASE.md says that they do."""
    said = re.search(r"glibc (\d+)\.(\d+) or later", (ROOT / "docs/RELEASE.md").read_text()).groups()
    for program in programs():
        needs = re.findall(r"GLIBC_(\d+)\.(\d+)", must("readelf", "--version-info", "--wide", prefix / "bin" / program))
        check(f"bin/{program}: glibc", max(tuple(map(int, pair)) for pair in needs) <= tuple(map(int, said)), str(needs))


def check_installed(prefix):
    check_examples(prefix)
    check_cpp(prefix)
    check_needs(prefix)
    for package in ("ocl-checker", "thread-load"):
        check(f"pkg-config: {package}", flags(prefix, "--modversion", package) == [VERSION])
        build = f"# build       {flags(prefix, '--variable=build', package)[0]}\n"
        check(f"pkg-config: {package}'s build", build in (prefix / "share/doc/ocl-checker/MANIFEST").read_text())
    for program, given, wanted in (("ocl_report", "cap.sheet", "cap.report"), ("thread_load", "leaves.run", "leaves.load")):
        ran = run(prefix / "bin" / program, input=(ROOT / "examples" / given).read_bytes())
        check(f"bin/{program}", ran.stdout == (ROOT / "examples" / wanted).read_bytes())
    there = {str(path.relative_to(prefix)) for path in prefix.rglob("*") if path.is_file()}
    listed = (prefix / "share/doc/ocl-checker/FILES").read_text().splitlines()
    check("install: the list has every file once", sorted(listed) == sorted(there))


def check_install(folder):
    prefix, into = folder.parent / "a prefix", folder.parent / "packages"
    must("sh", "-c", 'umask 077 && exec "$@"', "install", folder / "install", prefix)
    check_installed(prefix)
    modes = {path.stat().st_mode & 0o777 for path in [prefix, *prefix.rglob("*")]}
    check("install: everybody may read it, whatever the umask is", modes == {0o755, 0o644}, str([oct(mode) for mode in modes]))
    (prefix / "share/doc/ocl-checker/old").touch()
    with (prefix / "share/doc/ocl-checker/FILES").open("a") as listed:
        listed.write("share/doc/ocl-checker/old\n")
    (prefix / "lib/other").touch()
    (folder.parent / "a link").symlink_to(folder / "install")
    must(folder.parent / "a link", "a prefix", within=folder.parent)
    check("install: over an older one", not (prefix / "share/doc/ocl-checker/old").exists())
    check_installed_elsewhere(folder, into)
    must(folder / "install", "--remove", prefix)
    check("install: removed", [path.name for path in prefix.rglob("*")] == ["lib", "other"])
    check("install: nothing to remove", run(folder / "install", "--remove", prefix).returncode == 1)
    for what, *words in ("no prefix",), ("a word too late", prefix, "--remove"), ("a word for ./release", "--dirty", prefix), ("no file", "--gate"):
        ran = run(folder / "install", *words, within=folder.parent)
        check(f"install: {what}", ran.returncode == 2 and not (folder.parent / "--remove").exists(), ran.stderr.decode())
    check("install: the usage", must(folder / "install", "--help").startswith("usage: install "))
    (folder / "include/ocl_checker.h").write_text("")
    check("install: a changed file", run(folder / "install", prefix).returncode == 1 and not (prefix / "include").exists())


def check_installed_elsewhere(folder, into):
    """With DESTDIR, and in the repository."""
    must(folder / "install", "/usr/local", into)
    check("install: DESTDIR", flags(into / "usr/local", "--modversion", "ocl-checker") == [VERSION])
    first = folder.parent.parent / "first"
    prefix = folder.parent / "from the repository"
    must(first / "install", prefix, env=by_kit(first.parent))
    check("install: in the repository", (prefix / "lib/libchecker.a").is_file())
    pages = prefix / "share/doc/ocl-checker"
    ran = build_rust(pages, "load", folder.parent, CHECKER_LIB_DIR=str(prefix))
    check("rust/load: how to find the library", b"name the folder of libload.a by CHECKER_LIB_DIR" in ran.stderr, ran.stderr.decode()[-600:])
    ran = build_rust(pages, "load", folder.parent)
    check("rust/load, installed", ran.returncode == 0, ran.stderr.decode()[-600:])


# ---- for Rust, and what the pages show


def without_folder(into, **more):
    """Where cargo runs as a user has it: no network, what is built below `into`, and no folder named."""
    plain = {name: value for name, value in os.environ.items() if name != "CHECKER_LIB_DIR"}
    return {**plain, "CARGO_NET_OFFLINE": "true", "CARGO_TARGET_DIR": str(into / "rust"), **more}


def build_rust(folder, crate, into, **more):
    return run("cargo", "build", "--quiet", "--manifest-path", folder / "rust" / crate / "Cargo.toml", env=without_folder(into, **more))


def check_rust(folder):
    for crate, more in (("checker", {}), ("load", {}), ("checker", MORE_WARNINGS), ("load", MORE_WARNINGS)):
        ran = build_rust(folder, crate, folder.parent, **more)
        check(f"rust/{crate} of the archive, with {more}", ran.returncode == 0, ran.stderr.decode()[-600:])


def check_shown(folder):
    """The commands of the pages for an unpacked release, each block as it is printed. Each ends with the report of the cap."""
    home = folder.parent.parent / "home"
    home.mkdir()
    for page, start, more in (
        ("USING", "export PKG_CONFIG_PATH=lib/", {}), ("USING", "cargo run ", {}), ("RELEASE", './install "$HOME/', {"HOME": str(home)}),
    ):
        block = re.search(rf"^    {re.escape(start)}.*\n(?:    .*\n)*", (folder / f"docs/{page}.md").read_text(), re.M)
        ran = run("sh", "-e", "-c", block[0] if block else "false", within=folder, env=without_folder(folder.parent, **more))
        right = ran.returncode == 0 and ran.stdout.endswith((folder / "examples/cap.report").read_bytes())
        check(f"docs/{page}.md: {start}", right, ran.stderr.decode()[-600:])
