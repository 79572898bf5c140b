"""What OCL gives for what docs/SHEETS.md, section 9, writes in other words, for tests/from_ocl.

None is undefined, and so is a whole with an undefined part, unless it says otherwise. A collection is its letter and its members."""
import struct

# ---- values


def S(*members):
    return ("S", sorted(set(members)))


def Q(*members):
    return ("Q", list(members))


def B(*members):
    return ("B", sorted(members))


def spelled(value):
    if value is None:
        return "u"
    if isinstance(value, bool):
        return "t" if value else "f"
    if isinstance(value, tuple):
        return f"{value[0]}({','.join(map(spelled, value[1]))})"
    if isinstance(value, float) and not value.is_integer():
        return "r" + struct.pack(">d", value).hex()
    return str(int(value) if isinstance(value, float) else value)


# ---- the sheet around the cases: classes 1 to 4, where 3 and 4 are below 2 and 2 is below 1; things with and without a value

FIXTURE = {
    "classes": ["C 0 -", "C 1 -", "C 2 1", "C 3 2", "C 4 2"],
    "rows": ["A 0 1 9 Int"],
    "objects": ["O 0 1", "O 1 2", "O 2 3", "O 3 4"],
    "values": ["V 0 0 5", "V 1 0 7", "V 2 0 5"],
    "below": ["#3", "#4"],
}
CLASS_OF = {"@0": 1, "@1": 2, "@2": 3, "@3": 4}
VALUE_OF = {"@0": 5, "@1": 7, "@2": 5, "@3": None}
VARIABLES = {"x": "v1", "y": "v2", "m": "v3", "n": "v3", "r": "v3"}

# ---- what a name stands for: a row's type and its values, undefined first; or other words

INT = ("Int", [None, -2, 0, 3])
REAL = ("Real", [None, -2, 0, 1.5, 3])
BOOL = ("Bool", [None, False, True])
ANY = ("Any", [None, False, 1, 1.5, "@1"])
SOME = ("C(Int)", [None, S(), Q(), S(1), B(1), Q(1, 2), Q(2, 1)])
THING = ("#1", [None, *CLASS_OF])
NUMBER = ("Int", [1, 2, 3])
GIVEN = ("Int", [None, -2, 3])
# members with which p is undefined (0), false (1) and true (2, 3)
GROUPS = [(), (0,), (1,), (2,), (1, 2), (2, 3), (0, 1), (0, 2), (1, 2, 3)]
SETS = ("S(Int)", [None, *(S(*group) for group in GROUPS)])
ROWS = ("Q(Int)", [None, *(Q(*group) for group in GROUPS), Q(2, 1), Q(3, 2, 3), Q(1, 1, 0)])
BAGS = ("B(Int)", [None, *(B(*group) for group in GROUPS), B(2, 2), B(1, 2, 2)])
THINGS = [(), ("@0",), ("@3",), ("@0", "@1"), ("@0", "@2"), ("@0", "@1", "@3")]
SETS_OF_THINGS = ("S(#1)", [None, *(S(*group) for group in THINGS)])
ROWS_OF_THINGS = ("Q(#1)", [None, *(Q(*group) for group in THINGS), Q("@1", "@0"), Q("@1", "@1")])
SETS_OF_SETS = ("S(S(Int))", [None, ("S", []), ("S", [S()]), ("S", [S(1), S(2, 3)]), ("S", [S(1, 2), S(2, 3)])])
P = "6 div x < 4"
PAIR = "x = y or 6 div (x * y) < 3"


def p(x):
    return None if x == 0 else 6 // x < 4


def pair(x, y):
    return True if x == y else None if x * y == 0 else 6 // (x * y) < 3


# ---- what OCL gives


def strict(f):
    return lambda *parts: None if None in parts else f(*parts)


def every(bodies):
    """As `forAll`: one false body decides, else one undefined."""
    return False if False in bodies else None if None in bodies else True


def whole(bodies, f):
    """Of all bodies, if none is undefined."""
    return None if None in bodies else f(bodies)


def same(a, b):
    return spelled(a) == spelled(b)


def kept(s, test, wanted=True):
    """The members with which the test comes to what is wanted, in a collection of the same kind."""
    bodies = [test(x) for x in s[1]]
    return whole(bodies, lambda _: (s[0], [x for x, body in zip(s[1], bodies) if body == wanted]))


def chosen(s, e):
    """`any`: the last one, or e where there is none."""
    found = kept(s, p)
    return found and (found[1] or [e])[-1]


def extreme(choose, within):
    """`max` or `min`, where e is past no member; nothing is said of another e."""
    return strict(lambda s, e: choose([e, *s[1]]) if all(within(e, x) for x in s[1]) else ...)


def at(s, n, e):
    """Member n, from 1; the last one of a shorter Sequence, and e of an empty one."""
    return (s[1][:n] or [e])[-1]


def values(s):
    return [VALUE_OF[x] for x in s[1]]


def implies(a, b):
    return True if a is False or b is True else None if None in (a, b) else False


def is_kind(e, *classes):
    return ... if e is None else CLASS_OF[e] in classes


def unique(s):
    return whole(values(s), lambda v: len(set(v)) == len(v))


# By what OCL writes, with the row's remark: what its names stand for, and what OCL gives for the values of those that are rows. `...` is a
# case of which the page says nothing. A row of several texts has as many of these.
MEANT = {
    "a <= b": [({"a": REAL, "b": REAL}, strict(lambda a, b: a <= b))],
    "a >= b": [({"a": REAL, "b": REAL}, strict(lambda a, b: a >= b))],
    "a > b": [({"a": REAL, "b": REAL}, strict(lambda a, b: a > b))],
    "a <> b": [({"a": of, "b": of}, strict(lambda a, b: not same(a, b))) for of in (ANY, SOME, THING)],
    "a implies b": [({"a": BOOL, "b": BOOL}, implies)],
    "a xor b": [({"a": BOOL, "b": BOOL}, strict(lambda a, b: a != b))],
    "-a": [({"a": of}, strict(lambda a: -a)) for of in (INT, REAL)],
    "1.5": [({}, lambda: 1.5)],
    "x = null": [({"x": of}, lambda x: x is None) for of in (INT, THING, SETS)],
    "x <> null": [({"x": of}, lambda x: x is not None) for of in (INT, THING, SETS)],
    "x = undef": [({"x": of}, lambda x: None) for of in (INT, THING, SETS)],
    "a.abs()": [({"a": of}, strict(abs)) for of in (INT, REAL)],
    "a.max(b)": [({"a": REAL, "b": REAL}, strict(max))],
    "a.min(b)": [({"a": REAL, "b": REAL}, strict(min))],
    "s->isEmpty()": [({"s": of}, strict(lambda s: not s[1])) for of in (SETS, SOME)],
    "s->notEmpty()": [({"s": of}, strict(lambda s: bool(s[1]))) for of in (SETS, SOME)],
    "s->excludes(e)": [({"s": of, "e": INT}, strict(lambda s, e: e not in s[1])) for of in (SETS, ROWS)],
    "s->includesAll(t)": [({"s": of, "t": SETS}, strict(lambda s, t: set(t[1]) <= set(s[1]))) for of in (SETS, ROWS)],
    "s->excludesAll(t)": [({"s": of, "t": SETS}, strict(lambda s, t: not set(t[1]) & set(s[1]))) for of in (SETS, ROWS)],
    "s->forAll(x, y | p)": [({"s": of, "p": PAIR}, strict(lambda s: every([pair(x, y) for x in s[1] for y in s[1]]))) for of in (SETS, ROWS)],
    "s->isUnique(x | x.a)": [({"s": of, "a": "a9"}, strict(unique)) for of in (SETS_OF_THINGS, ROWS_OF_THINGS)],
    "s->sum()": [({"s": of}, strict(lambda s: sum(s[1]))) for of in (SETS, ROWS, BAGS)],
    "s->count(e)": [({"s": of, "e": INT}, strict(lambda s, e: s[1].count(e))) for of in (SETS, ROWS, BAGS)],
    "s->one(x | p)": [({"s": of, "p": P}, strict(lambda s: whole([p(x) for x in s[1]], lambda v: sum(v) == 1))) for of in (SETS, ROWS, BAGS)],
    "s->max()": [({"s": of, "e": GIVEN}, extreme(max, lambda e, x: e <= x)) for of in (SETS, ROWS, BAGS)],
    "s->min()": [({"s": of, "e": GIVEN}, extreme(min, lambda e, x: e >= x)) for of in (SETS, ROWS, BAGS)],
    "s->select(x | p), s a Set": [({"s": SETS, "p": P, "T": "Int"}, strict(lambda s: kept(s, p)))],
    "s->select(x | p), s a Sequence": [({"s": ROWS, "p": P, "T": "Int"}, strict(lambda s: kept(s, p)))],
    "s->reject(x | p)": [({"s": of, "p": P, "T": "Int"}, strict(lambda s: kept(s, p, False))) for of in (SETS, ROWS)],
    "s->intersection(t), Sets": [({"s": SETS, "t": SETS, "T": "Int"}, strict(lambda s, t: kept(s, lambda x: x in t[1])))],
    "s - t, Sets": [({"s": SETS, "t": SETS, "T": "Int"}, strict(lambda s, t: kept(s, lambda x: x in t[1], False)))],
    "s->excluding(e)": [({"s": of, "e": INT, "T": "Int"}, strict(lambda s, e: kept(s, lambda x: x == e, False))) for of in (SETS, ROWS)],
    "s->flatten(), a Set of Sets": [({"s": SETS_OF_SETS, "T": "Int"}, strict(lambda s: S(*(x for members in s[1] for x in members[1]))))],
    "s->any(x | p)": [({"s": of, "e": GIVEN, "p": P, "T": "Int"}, strict(chosen)) for of in (SETS, ROWS, BAGS)],
    "s->append(e)": [({"s": ROWS, "e": INT}, strict(lambda s, e: Q(*s[1], e)))],
    "s->prepend(e)": [({"s": ROWS, "e": INT}, strict(lambda s, e: Q(e, *s[1])))],
    "s->last()": [({"s": ROWS, "e": GIVEN, "T": "Int"}, strict(lambda s, e: (s[1] or [e])[-1]))],
    "s->at(n)": [({"s": ROWS, "n": NUMBER, "e": GIVEN, "T": "Int"}, strict(at))],
    "s->first()": [({"s": ROWS, "e": GIVEN, "T": "Int"}, strict(lambda s, e: at(s, 1, e)))],
    "s->indexOf(e), e in s": [({"s": ROWS, "e": NUMBER, "T": "Int"}, strict(lambda s, e: s[1].index(e) + 1 if e in s[1] else ...))],
    "s->collect(x | x.a), x of a class": [
        ({"s": SETS_OF_THINGS, "a": "a9"}, strict(lambda s: whole(values(s), lambda v: B(*v)))),
        ({"s": ROWS_OF_THINGS, "a": "a9"}, strict(lambda s: whole(values(s), lambda v: Q(*v)))),
    ],
    "s->collect(x | e), s a Set or Bag": [
        ({"s": of, "e": "6 div x", "T": "Int"}, strict(lambda s: None if 0 in s[1] else B(*(6 // x for x in s[1])))) for of in (SETS, BAGS)
    ],
    "e.oclIsKindOf(K)": [({"e": of, "K": "#2"}, lambda e: is_kind(e, 2, 3, 4)) for of in (THING, ("Any", THING[1]))],
    "e.oclIsTypeOf(K)": [({"e": of, "K": "#2"}, lambda e: is_kind(e, 2)) for of in (THING, ("Any", THING[1]))],
    # in sentences below the table
    "a = b implies c": [({"a": INT, "b": INT, "c": BOOL}, lambda a, b, c: implies(None if None in (a, b) else a == b, c))],
    "o->notEmpty()": [({"o": THING}, lambda o: o is not None)],
}

# what has `Real` for `Int` where the members are Reals
REALS = ("S(Real)", [None, S(), S(1.5), S(-2, 1.5), S(1.5, 2.5)])
OF_REALS = {
    "s->sum()": ({"s": REALS, "Int": "Real"}, strict(lambda s: sum(s[1]))),
    "s->max()": ({"s": REALS, "e": ("Real", [-2.5]), "Int": "Real"}, extreme(max, lambda e, x: e <= x)),
    "s->min()": ({"s": REALS, "e": ("Real", [2.5]), "Int": "Real"}, extreme(min, lambda e, x: e >= x)),
}
for key, meaning in OF_REALS.items():
    MEANT[key].append(meaning)

# A loop without members does not run its body: by OCL's words, the name that stands in the body, the one that the loop goes through, and
# what is given where the first is undefined and the second empty.
UNSEEN = {
    "s->includesAll(t)": ("s", "t", lambda t: True),
    "s->excludesAll(t)": ("s", "t", lambda t: True),
    "s->count(e)": ("e", "s", lambda s: 0),
    "s->intersection(t), Sets": ("t", "s", lambda s: s),
    "s - t, Sets": ("t", "s", lambda s: s),
    "s->excluding(e)": ("e", "s", lambda s: s),
}


def unseen(key, names, gives):
    """What is given where an undefined part may go unseen."""
    hidden, looped, empty = UNSEEN[key]

    def given(*case):
        values = dict(zip(names, case))
        is_unseen = values[hidden] is None and values[looped] is not None and not values[looped][1]
        return empty(values[looped]) if is_unseen else gives(*case)

    return given


# always undefined, as the page says
NEVER_DEFINED = ["x = undef"]
# OCL's own words get 20, but for these: a minus between Sets is a sentence
NUMBERS = {"s - t, Sets": 11}

# ---- what is not there: where the page says so, a text with it and the number that it gets; s is a Set of things

LEFT_OUT = {
    "sortedBy": "s->sortedBy(x | x.a)",
    "closure": "s->closure(x | x.a)",
    "floor": "r3ff8000000000000.floor()",
    "round": "r3ff8000000000000.round()",
    "Tuple": "Tuple{n = 1}",
    "OrderedSet": "OrderedSet{1}",
    "1..5": "Sequence{1..5}",
    "@pre": "self.a1@pre",
}
SENTENCES = {
    "Strings and enumerations": [("'red'", 20), ("Colour::red", 20)],
    "What OCL writes as `iterate` is `iter` here": [("s->iterate(x; n : Int = 0 | n)", 20)],
    "`oclIsUndefined()` is `isUndef()`": [("self.oclIsUndefined()", 20)],
    "types are spelled as in section 2": [("s->iter(x; r : Set(Integer) = Set{} | r)", 20), ("s->iter(x; r : Integer = 0 | r)", 20)],
    "A `let` and a loop bind one variable each": [("let v1 = 1, v2 = 2 in v1", 20), ("s->exists(x, y | x = y)", 20)],
    "only an accumulator has a type": [("let v1 : Int = 1 in v1", 20), ("s->forAll(x : #1 | true)", 20), ("s->iter(x : #1; n : Int = 0 | n)", 20)],
    "`self` is never left out": [("a1->size()", 20)],
    "an attribute of all members is asked for by `collect`": [("s.a", 11)],
    "an object is no collection": [("self->size()", 11)],
}
