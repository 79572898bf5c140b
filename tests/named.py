"""OCL with names on the pages of the examples, for tests/documents: each rule and definition, and the part beside each of its nodes, is what
its nodes say, with the names that the page gives to classes, attributes, definitions and variables."""
import re
import struct

from shown import EXAMPLES, lines_of, problem

# the fields of each form: operand, variable that is bound in the last operand, or anything else
FIELDS = {
    "true": "", "false": "", "undef": "", "self": "", "int": "-", "real": "-", "var": "n", "all": "-", "let": "voo", "if": "ooo", "iter": "ovv-oo",
    **dict.fromkeys(("not", "isUndef", "size", "asSet", "asBag", "asSequence"), "o"),
    **dict.fromkeys(("attr", "collect", "as", "call"), "o-"),
    **dict.fromkeys(("and", "or", "eq", "less", "plus", "minus", "times", "over", "div", "mod", "includes", "including", "union"), "oo"),
    **dict.fromkeys(("forAll", "exists"), "ovo"),
}
SIGNS = [
    {"or": "or"}, {"and": "and"}, {"=": "eq", "<": "less", "<=": "<=", ">=": ">=", ">": ">", "<>": "<>"},
    {"+": "plus", "-": "minus"}, {"*": "times", "/": "over", "div": "div", "mod": "mod"},
]
COMPARISON = 2
KINDS = {"Set": "S", "Sequence": "Q", "Bag": "B"}
SIMPLE = {"Integer": "Int", "Boolean": "Bool", "Real": "Real"}


def compared(sign, a, b):
    """Other comparisons in the forms there are, as docs/SHEETS.md, section 9, writes them."""
    ways = {"<=": ("not", ("less", b, a)), ">=": ("not", ("less", a, b)), ">": ("less", b, a), "<>": ("not", ("eq", a, b))}
    return ways.get(sign, (sign, a, b))


class Reader:
    """Reads OCL with names into forms. `[3]` is node 3; a variable keeps its name."""

    def __init__(self, text, names):
        self.tokens = re.findall(r"->|<=|>=|<>|\[\d+\]|\w+|\S", text) + [""]
        self.names = names

    def take(self, *wanted):
        if wanted and self.tokens[0] not in wanted:
            raise ValueError(f"{self.tokens[0]!r} stands where one of {wanted} is due")
        return self.tokens.pop(0)

    def whole(self):
        if self.tokens[0] != "let":
            return self.level(0)
        self.take("let")
        name, _, e = self.take(), self.take("="), self.whole()
        self.take("in")
        return ("let", name, e, self.whole())

    def level(self, at):
        if at == len(SIGNS):
            return self.prefix()
        a = self.level(at + 1)
        while self.tokens[0] in SIGNS[at]:
            a = compared(SIGNS[at][self.take()], a, self.level(at + 1))
            if at == COMPARISON:
                break
        return a

    def prefix(self):
        if self.tokens[0] == "not":
            self.take()
            return ("not", self.prefix())
        e = self.primary()
        while self.tokens[0] in (".", "->"):
            e = self.dot(e) if self.take() == "." else self.arrow(e)
        return e

    def primary(self):
        word = self.take()
        if word == "(":
            e = self.whole()
            self.take(")")
            return e
        if word == "if":
            return ("if", *(part for end in ("then", "else", "endif") for part in [self.whole()] if self.take(end)))
        if word.startswith("["):
            return ("node", word[1:-1])
        if word in KINDS:
            self.take("{")
            return ("coll", KINDS[word], *self.members())
        if word in self.names["classes"]:
            for part in (".", "allInstances", "(", ")"):
                self.take(part)
            return ("all", self.names["classes"][word])
        return ("int", word) if word.isdigit() else (word,) if word in ("true", "false", "undef", "self") else ("var", word)

    def members(self):
        found = []
        while self.tokens[0] != "}":
            found.append(self.whole())
            if self.tokens[0] == ",":
                self.take()
        self.take("}")
        return found

    def dot(self, e):
        word = self.take()
        if self.tokens[0] != "(":
            return ("attr", e, self.names["attributes"][word])
        self.take("(")
        given = self.take() if self.tokens[0] != ")" else None
        self.take(")")
        if word == "oclAsType":
            return ("as", e, self.names["classes"][given])
        return ("isUndef", e) if word == "isUndef" else ("call", e, self.names["definitions"][word])

    def arrow(self, s):
        word = self.take()
        self.take("(")
        if word in ("forAll", "exists"):
            parts = (self.take(), *(self.whole() for _ in self.take("|")))
        elif word == "iterate":
            word, parts = "iter", self.accumulator()
        elif word == "collect":
            parts = (self.names["attributes"][self.take()],)
        else:
            parts = () if self.tokens[0] == ")" else (self.whole(),)
        self.take(")")
        return (word, s, *parts)

    def accumulator(self):
        member, _, name, _, type_, _ = self.take(), self.take(";"), self.take(), self.take(":"), self.type(), self.take("=")
        start = self.whole()
        self.take("|")
        return (member, name, type_, start, self.whole())

    def type(self):
        word = self.take()
        if word in KINDS:
            self.take("(")
            inner = self.type()
            self.take(")")
            return f"{KINDS[word]}({inner})"
        return SIMPLE.get(word) or f"#{self.names['classes'][word]}"


def read(text, names):
    reader = Reader(text, names)
    tree = reader.whole()
    reader.take("")
    return tree


# ---- the nodes of a rule or definition


def fields_of(nodes, number):
    """The form of a node, and its fields with what each is."""
    form, *fields = nodes[number][0]
    return form, list(zip("-oooo" if form == "coll" else FIELDS[form], fields))


def is_meant(shown, nodes, number, bound):
    """Do the forms of a text with names stand at the node? `bound` has the number of each variable's name."""
    form, fields = fields_of(nodes, number)
    if shown[0] == "node":
        return shown[1] == number
    if (shown[0], len(shown) - 1) != (form, len(fields)):
        return False
    inner = bound | {name: field for name, (kind, field) in zip(shown[1:], fields) if kind == "v"}
    for at, (part, (kind, field)) in enumerate(zip(shown[1:], fields)):
        if kind == "o" and not is_meant(part, nodes, field, inner if at == len(fields) - 1 else bound):
            return False
        if kind == "n" and bound.get(part) != field or kind == "-" and field not in (part if isinstance(part, list) else [part]):
            return False
    return True


def check_nodes(page, nodes, number, bound, names):
    """The part beside each node is what the node says, from the root down."""
    form, fields = fields_of(nodes, number)
    shown = read(nodes[number][1], names)
    if not is_meant(shown, nodes, number, bound):
        problem(page, f"N {number} {' '.join(nodes[number][0])} is no `{nodes[number][1]}`")
    inner = bound | {name: field for name, (kind, field) in zip(shown[1:], fields) if kind == "v"}
    for at, (kind, field) in enumerate(fields):
        if kind == "o":
            check_nodes(page, nodes, field, inner if at == len(fields) - 1 else bound, names)


# ---- a page


def remarked(page):
    """The blocks of a page: the word after the fence, and the lines, each with its remark."""
    for word, text in re.findall(r"(?ms)^```(\w+)\n(.*?)^```$", page.read_text()):
        yield word, [(re.split(r"  +", line.strip(), maxsplit=1) + [""])[:2] for line in text.splitlines()]


def names_on(page):
    """The numbers of classes and attributes by their names, from the remarks; and of definitions, from OCL."""
    lines = [pair for word, lines in remarked(page) if word == "sheet" for pair in lines]
    attributes = [(remark.split(":")[0].split("."), line.split(" ")) for line, remark in lines if line.startswith("A ")]
    names = {"classes": {remark.split(",")[0]: line.split(" ")[1] for line, remark in lines if line.startswith("C ")}, "definitions": {}}
    names["attributes"] = {word: fields[3] for (_, word), fields in attributes}
    for (owner, word), fields in attributes:
        if names["classes"].get(owner) != fields[2] or names["attributes"][word] != fields[3]:
            problem(page, f"A {fields[1]} is called {owner}.{word}")
    called = re.findall(r"(?m)^context \w+ def:\s+(\w+)\(\) : \w+ =", page.read_text())
    for number, word in enumerate(called):
        names["definitions"].setdefault(word, []).append(str(number))
    return names


def check_block(page, ocl, lines, names):
    """A rule or definition with its nodes: the OCL says the same, for the same class and with the same type."""
    heading, *rest = " ".join(" ".join(line).strip() for line in ocl).split(":", 1)
    body = re.sub(r"^\w+\(\) : (\w+) =", "", rest[0].strip())
    (line, _), *below = lines
    context, fields = heading.split(" ")[1], line.split(" ")
    typed = re.match(r"\w+\(\) : (\w+) =", rest[0].strip())
    if names["classes"].get(context) != fields[2]:
        problem(page, f"`{line}` is not for {context}")
    if (fields[3:] or None) != (typed and [SIMPLE[typed[1]]]):
        problem(page, f"`{line}` has another type than its OCL")
    values = {said.split(" ")[2] for said in lines_of(page.with_suffix(".report")) if said.split(" ")[0] == fields[1]}
    if line.startswith("R ") and (values - {"t", "f", "u"} if heading.endswith(" inv") else values & {"t", "f"}):
        problem(page, f"`{line}` is no {heading.split(' ')[2]}: its values are {sorted(values)}")
    nodes = {node.split(" ")[1]: (node.split(" ")[2:], part) for node, part in below}
    root = str(len(nodes) - 1)
    if not is_meant(read(body, names), nodes, root, {}):
        problem(page, f"`{line}`: the OCL is not what the nodes say")
    check_nodes(page, nodes, root, {}, names)


def check_reals(page):
    """The number beside a line whose value is a Real is that Real, to as many places."""
    for value, said in re.findall(r"(?m)^\d+ \d+ r([0-9a-f]{16}) \d+ +(\d+(?:\.\d+)?)", page.read_text()):
        if f"{struct.unpack('>d', bytes.fromhex(value))[0]:.{len(said.partition('.')[2])}f}" != said:
            problem(page, f"r{value} is not {said}")


def check_remarks(page):
    """In a report FAULT stands beside what is false, and `undefined` beside every verdict that is."""
    for line, remark in [pair for word, lines in remarked(page) if word == "report" for pair in lines]:
        value = line.split(" ")[2]
        if remark.startswith("FAULT") and value != "f" or remark.startswith("undefined") != (value == "u"):
            problem(page, f"says of the line {line}: {remark}")


def check_named(page):
    """Every rule and definition of the page; and the list of names has the page's attributes."""
    check_reals(page)
    check_remarks(page)
    names, ocl, checked = names_on(page), None, 0
    for word, lines in remarked(page):
        for line, remark in lines if word in ("sheet", "nodes") else []:
            found = re.match(r"for (?:each|an?) (\w+)\b", remark)
            if line[0] in "RD" and (found is None or names["classes"].get(found[1]) != line.split(" ")[2]):
                problem(page, f"`{line}` is not {remark}")
        if word == "ocl":
            ocl = lines
        elif word == "nodes" or word == "sheet" and lines[0][0].startswith("D "):
            check_block(page, ocl, lines, names)
            checked += 1
    if checked != len(re.findall(r"(?m)^### (?:Rule|Definition) \d+", page.read_text())):
        problem(page, "not every rule and definition has its OCL and its nodes")
    listed = {word: number for number, word in re.findall(r"\| (\d+) \| `(\w+)` (?=\|)", (EXAMPLES / "README.md").read_text())}
    for word, number in names["attributes"].items():
        if listed.get(word) != number:
            problem(page, f"{word} has the name {number}, and in the list of names {listed.get(word)}")
    return checked
