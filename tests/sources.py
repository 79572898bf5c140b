"""How the sources are laid out, import one another and what of them is shipped: for the tests beside this file, and for ./release."""
import collections
import pathlib
import re

ROOT = pathlib.Path(__file__).resolve().parent.parent
CRATES = ROOT / "crates"
IMPORT = r"^((?:(?:unfoldable|pub|ghost) )*)use ([^\s{]+)\.\{([^}]*)\};?$"
WHOLE = r"^(?:(?:unfoldable|pub|ghost) )*use ([^\s{;]+) as ([^\s;]+);?$"


def files(*endings, below=CRATES):
    """The files of crates/ with these endings, but for what the toolchain keeps in each crate's out/."""
    found = (path for ending in endings for path in below.rglob(f"*{ending}"))
    return sorted(path for path in found if path.relative_to(CRATES).parts[1:2] != ("out",))


def listed():
    """What crates.txt lists: each crate with its dependencies."""
    lines = (line.partition("#")[0] for line in (ROOT / "crates.txt").read_text().splitlines())
    # behind the name may stand what kind of crate it is
    return {head.split()[0]: names.split() for head, colon, names in (line.partition(":") for line in lines) if colon}


def names_in(braces):
    """Each name that is imported, as it stands where it is declared and as the importing file knows it."""
    for name in braces.replace("«", "").replace("»", "").split(","):
        there, _, here = name.partition(" as ")
        yield there.strip(), (here or there).strip()


def imports(text):
    """Each module that a file imports names from, with these names, and whether it hands them on."""
    for marks, module, braces in re.findall(IMPORT, text, re.M):
        yield module, list(names_in(braces)), "pub" in marks


def uses(text):
    """What a file of code takes in by `use`: each name as the file knows it, with its path."""
    found = {}
    for path, braces in re.findall(r"^(?:pub )?use ([\w:]+?)(?:::\{([^}]*)\})?;$", text, re.M):
        found |= {name: f"{path}::{name}" for name in re.findall(r"\w+", braces)} if braces else {path.split("::")[-1]: path}
    return found


def whole_imports(text):
    """Each module that a file imports whole, with the name that its names stand behind."""
    return re.findall(WHOLE, text, re.M)


def file_of(module):
    """The file of specs/ or proofs/ that a module is, below crates/; None for what the toolchain has or makes."""
    ours = re.fullmatch(r"Rattle\.(\w+)\.(specs|proofs)\.(.+)", module)
    path = f"{ours[1]}/{ours[2]}/{ours[3].replace('.', '/')}.antt" if ours else None
    return path if ours and (CRATES / path).is_file() else None


# ---- what is shipped

# a public function: its crate and name, its source below crates/, the line of its contract there, and what the contract says
Call = collections.namedtuple("Call", "crate name source line clause")
# what a file of definitions declares; a record or a kind may stand within a module or a mutual block
DECLARED = r"^(?:(?:(?:unfoldable|abbrev) )?pub |(?: *pub )(?=record |data ))(?:record |data )?(\w+) "
EXPORTED = r'^#\[unsafe\(no_mangle\)\]\npub extern "C" fn (\w+)\(.*?^(?=\{)'


def functions(crate, path, head):
    """The functions of a file that a pattern finds, from their heads to their bodies."""
    text = path.read_text()
    for found in re.finditer(head, text, re.M | re.S):
        at = text.index(" ensures ", found.start(), found.end())
        yield Call(crate, found[1], path.relative_to(CRATES), text.count("\n", 0, at) + 1, text[at : found.end()])


def exported():
    """The calls that the listed crates export, in the order of crates.txt."""
    for crate in listed():
        for path in sorted((CRATES / crate / "src").rglob("*.rt")):
            yield from functions(crate, path, EXPORTED)


def library(call):
    """The library that an exported call is in: a static library is a crate of its own, with `_c` behind the name of the one it is of."""
    return call.crate.removesuffix("_c")


def programs():
    """The programs that are shipped. Those with a folder data/ run vectors, and are the gate's own."""
    return [crate for crate in listed() if (CRATES / crate / "src/main.rt").exists() and not (CRATES / crate / "data").exists()]


def line_of(file, name):
    """The line on which a file of definitions, below crates/, declares a name; None where it does not."""
    head = re.compile(rf"\s*(?:(?:unfoldable|abbrev|pub) )*(?:record |data )?{re.escape(name)} (?:[({{].*)?:")
    return next((at for at, line in enumerate((CRATES / file).read_text().splitlines(), 1) if head.match(line)), None)


def code_of(path):
    """A file of code without its comments."""
    return re.sub(r"//.*", "", path.read_text())


def read_for(program):
    """The sources that stand between a program's input and its output: its own, and the modules `programs` of ours that it calls."""
    own = sorted((CRATES / program / "src").rglob("*.rt"))
    shared = {path.split("::")[0] for file in own for path in uses(code_of(file)).values() if "::programs::" in path}
    return own + [CRATES / crate / "src/programs.rt" for crate in sorted(shared)]


def calls_in(text):
    """The functions of other crates that code calls, by their paths: ours, and those of the toolchain's libraries and its handle."""
    used = uses(text)
    names = dict.fromkeys(re.findall(r"(?<![\w:.])(?<!fn )([a-z]\w*(?:::\w+)*)\(", text))
    handle = dict.fromkeys(re.findall(r"\brt\.(\w+)\(", text))
    return [used.get(name, name) for name in names if name in used or "::" in name] + [f"HostRuntime::{name}" for name in handle]


def called(program):
    """The functions of other crates that the sources of a program call."""
    return list(dict.fromkeys(path for file in read_for(program) for path in calls_in(code_of(file))))


def function(path):
    """The function of ours that a path names; None where it is one of the toolchain's."""
    crate, *module, name = path.split("::")
    if crate in listed():
        return next(functions(crate, CRATES / crate / "src" / f"{'/'.join(module) or 'lib'}.rt", rf"^pub fn ({name})\b.*?^(?=\{{)"))


def stated(file, line):
    """What a definition says whose own name says next to nothing: a fact or a record. Of any other, nothing."""
    head, *below = (CRATES / file).read_text().splitlines()[line - 1 :]
    if not re.search(r"Type 0(?: where)?$", head):
        return ""
    end = below.index("") if "" in below else len(below)
    return re.sub(r"--.*|^ *(?:pub )?[\w-]+ :", "", "\n".join(below[:end]), flags=re.M)


def definitions(call):
    """What a call's contract cites of our definitions, and what the facts and records among these cite: file below crates/, line and name."""
    todo, told = [(str(call.source), call.clause)], set()
    while todo:
        source, said = todo.pop(0)
        cited, text = set(re.findall(r"[\w≡≤×]+", said)), (CRATES / source).read_text()
        named = [(file_of(module), there) for module, names, _ in imports(text) for there, here in names if here in cited]
        named += [(source, name) for name in re.findall(DECLARED, text, re.M) if name in cited]
        for file, name in named:
            if file and (file, name) not in told and (line := line_of(file, name)):
                told.add((file, name))
                todo.append((file, stated(file, line)))
                yield file, line, name


def proofs_of(call):
    """The files of a function's own proof, below crates/, and of the one of its name that it calls. There are none where the toolchain
    finds the proof alone."""
    for crate in dict.fromkeys([call.crate, library(call)]):
        folders = [path for path in (CRATES / crate / "proofs").rglob(call.name) if path.is_dir()]
        for folder in sorted(folders):
            yield from (path.relative_to(CRATES) for path in sorted(folder.rglob("*.antt")))


# ---- what the last checks said


def checked(crate):
    """The last word of a crate's check, empty where there is none; and the functions of C's whose contracts it assumes."""
    log = ROOT / "target/log" / f"{crate}.say"
    said = log.read_text().splitlines() if log.is_file() else []
    last = [line for line in said if line.startswith("logic=")][-1:]
    assumed = re.findall(r"\b\w+(?:::\w+)+", " ".join(line for line in said if line.startswith("axioms ")))
    return "".join(last), assumed
