//! The refusals of documents 01 and 02 in words: what each says, and what to look at.

pub struct Advice {
    /// The trade's word.
    pub word: &'static str,
    pub meaning: &'static str,
    pub look: &'static str,
}

/// The numbers that documents 01 and 02 give.
pub const NUMBERS: std::ops::RangeInclusive<u64> = 1..=25;

/// What a number says. None for one that neither document gives.
pub fn advice(number: u64) -> Option<Advice> {
    let said = REFUSALS.iter().find(|refusal| refusal.0 == number);
    said.map(|(_, word, meaning, look)| Advice {
        word,
        meaning,
        look,
    })
}

/// Each number with its word, its meaning and what to look at.
const REFUSALS: [(u64, &str, &str, &str); 25] = [
    (
        1,
        "short bench",
        "a caller lent a slice below its minimum",
        "the caller: a sheet never gets this. Lend 8,192 words in each slice and 2,560 bytes of output",
    ),
    (
        2,
        "long sheet",
        "the sheet has over 49,152 bytes",
        "the V lines and the rules, which fill a sheet: split the job",
    ),
    (
        3,
        "bad line",
        "the line is misspelled: its fields, its letter or form, a number, or its line feed",
        "tabs and invisible bytes first, then numbers with a leading zero, then the table of lines",
    ),
    (
        4,
        "over measure",
        "the line is well spelled, but a number, a count, a size or a nesting is outside its limits",
        "the largest number on the line, and how many lines of its kind there are",
    ),
    (
        5,
        "out of row",
        "lines, numbers or members are out of order, or a name or a variable is there twice",
        "the line before it: blocks come as C, A, O, V, D, R, each kind counts from 0 without a gap, and V lines and \
        members of Sets and Bags ascend",
    ),
    (
        6,
        "unknown part",
        "a class, a row or an object that the sheet does not have by then; or a parent that is not smaller",
        "each number on the line that names another line",
    ),
    (
        7,
        "wrong thread",
        "the value does not suit its row, or the row its object",
        "the row's number first, which is not its name; then the row's type",
    ),
    (
        8,
        "broken tree",
        "the nodes make no tree: an operand is not smaller or used already, a node is not used, there is \
        none, or the tree is over 19 deep, called bodies counted in",
        "whether the X line or the N lines are there; the operands' numbers; each node but the last is used once",
    ),
    (
        9,
        "loose end",
        "nothing binds the variable here",
        "which body the variable stands in: it is bound in the body alone, not in the source, not in the e of its `let`",
    ),
    (
        10,
        "no match",
        "two types have no common one, or a cast is between unrelated classes",
        "whether a collection stands where a member is meant, or a member where a collection is; of a cast, both classes",
    ),
    (
        11,
        "wrong piece",
        "a form does not take an operand of this type",
        "the operands from the leaves up; at the root of a definition, the type of its D line",
    ),
    (
        12,
        "no such mark",
        "neither the class nor one above it has an attribute of this name",
        "the names of the A lines, and whether a class below declares it: then cast first",
    ),
    (
        13,
        "too many layers",
        "a type would be over three letters deep",
        "collections inside collections: keep one layer in attributes of objects",
    ),
    (
        14,
        "not listed",
        "the rule or the object that was asked for is not there",
        "the caller: a sheet never gets this. Ask for numbers that the sheet has",
    ),
    (
        15,
        "other class",
        "the object is not of the rule's class or below",
        "the caller: a sheet never gets this. Ask for objects of the rule's class",
    ),
    (
        16,
        "step stop",
        "a 1,000,001st step was due",
        "loops inside loops: take the inner one over fewer members, put the test that fails most often first, \
        or bind by `let` what does not change",
    ),
    (
        17,
        "size stop",
        "a value of a size over 128 would have been formed",
        "the collection that grows: count in place of collecting, or take a Set where repeats do not matter",
    ),
    (
        18,
        "slip too long",
        "what is to be printed is longer than the output",
        "the rules with long values: give such a rule a class with one object",
    ),
    (
        19,
        "over the range",
        "a result of Integers leaves their range, or one of Reals is infinite",
        "a value that is wrong, as a total of real stitches is far below; of Reals, a divisor next to zero",
    ),
    (
        20,
        "not a sentence",
        "the text of the rule is no sentence",
        "brackets, words that run together, a second comparison, a minus in front; what OCL writes otherwise \
        stands in `docs/SHEETS.md`, section 9",
    ),
    (
        21,
        "board full",
        "after the edit the values would be over 1,024 lines or over a total size of 2,048",
        "values that can be cleared first; a sheet never gets this",
    ),
    (
        22,
        "outside the profile",
        "a rule of the free-numbering profile has `iter`, `asSequence`, or `union`, `including` or `collect` on a Sequence",
        "a quantifier, a Set or a Bag in its place; only the call that holds a sheet to the profile gives this",
    ),
    (
        23,
        "call upward",
        "a definition calls itself or a larger one",
        "the order of the definitions: one that is called stands before those that call it",
    ),
    (
        24,
        "unknown definition",
        "a rule calls a definition that the sheet does not have",
        "the numbers of the D lines, which count apart from the rules",
    ),
    (
        25,
        "run too short",
        "the run has fewer lengths than its window",
        "the first line of the run, which is the window; a sheet never gets this (docs/LOAD.md)",
    ),
];
