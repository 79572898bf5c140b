//! What is seen of a refused line: each mistake, and what ./explain says of it.

#[path = "common/told.rs"]
mod told;

use second_evaluator::calls::program;
use second_evaluator::explain::refused;
use second_evaluator::generate;
use second_evaluator::generate::random::Random;
use std::fs;
use std::path::Path;
use told::{explanation, says, sheet};

const CLASSES: &str = "C 0 -|C 1 -|C 2 -|A 0 0 1 Int|A 1 0 8 #1|A 2 0 3 S(#1)|O 0 0|R 0 0|X ";

/// Texts that are refused, and behind two signs each what is said of it.
const TEXTS: &str = r"
self.a1 <= 3 ## `a <= b` is written `not (b < a)`
self.a1 >= 3 ## `a >= b` is written `not (a < b)`
self.a1 > 3 ## `a > b` is written `b < a`
self.a1 <> 3 ## `a <> b` is written `not (a = b)`
self.a1 != 3 ## `a <> b` is written `not (a = b)`
self.a1 == 3 ## equal is written with one `=`
self.a1 ≤ 3 ## where `≤`, \xe2\x89\xa4, stands ## `a <= b` is written
self.a1 − 3 ## the minus of a text is `-`
self.a1 < 3 ## where `\xc2\xa0` stands ## a no-break space
true implies true ## `a implies b` is written `not (a) or b`
true xor true ## `a xor b` is written `not (a = b)`
self.a1 = null ## undefined is asked for by `isUndef()`
-150 < 3 ## a minus has two sides: `-5` is written `0 - 5`
true -- so ## a minus has two sides, as in `0 - 5`, and a text has no comments
4.5 < 3 ## the nearest to 4.5 is r4012000000000000
3.0 < 3 ## write 3.
r4008000000000000 < 3 ## its bits are those of 3: write 3
r3FF8000000000000 < 3 ## its digits are in lower case, r3ff8000000000000
007 < 3 ## a number has no zero in front
Set{1..5}->size() ## there are no ranges
Set{1, 2, 3, 4, 5} ## four members at most stand in braces
1 < 2 < 3 ## one comparison at a time
1 + let v1 = 2 in v1 ## a `let` behind a sign or `not` stands in brackets
let x = 3 in x ## variables are v1 to v15, as in `let v1 = e in ..`
let v1 : Int = 3 in v1 ## only the accumulator of an `iter` has a type
let v1 = 3, v2 = 4 in v1 ## a `let` binds one variable
Set{1}->forAll(b ¦ b = 1) ## variables are v1 to v15, as in `forAll(v1 | ..)`
Set{1}->exists(b ¦ b = 1) ## as in `exists(v1 | ..)`
Set{1}->iter(b; v2 : Int = 0 ¦ v2) ## as in `iter(v1; v2 : T = e | ..)`
Set{1}->forAll(v1, v2 ¦ v1 = v2) ## a loop has one variable
Set{1}->collect(v1 ¦ v1) ## `collect` takes an attribute alone
Set{1}->iter(v1; v2 : Integer = 0 ¦ v2) ## the type is spelled Int.
Set{1}->iter(v1; v2 : S(Integer) = Set{} ¦ v2) ## the type is spelled S(Int).
Set{1}->isEmpty() ## `s->isEmpty()` is written `s->size() = 0`
Set{1}->notEmpty() ## `s->notEmpty()` is written `0 < s->size()`
Set{1}->excludes(1) ## `s->excludes(e)` is written `not s->includes(e)`
Set{1}->iterate(v1) ## `iterate` is written `iter`
Set{1}->select(v1 ¦ true) ## section 9, has `select` in other words
Set{1}->first() ## section 9, has `first` in other words
Set{1}->closure(v1 ¦ v1) ## behind an arrow stand size, asSet
Set{1}.size() ## an arrow comes before `size`: `->size(..)`
Set{1}->size = 1 ## a bracket comes after `size`
#0.allInstances->size() ## a bracket comes after `allInstances`
self.allInstances() ## `allInstances` is asked of a class
self->a1 < 3 ## behind `self->`, where `a1` stands ## a full stop comes before an attribute
self.a1.oclIsUndefined() ## it is written `isUndef()`
self.oclIsKindOf(#1) ## `not e.oclAsType(K).isUndef()`
self.oclIsTypeOf(#1) ## section 9, has it in other words
self.needle < 3 ## behind a full stop stand an attribute
Block.allInstances() ## no text has the word `Block`
self.a1 = 'red' ## where `'` stands ## there are no Strings
v0 = 3 ## `v0` is out of range: variables go from 1 to 15
self.a300 < 3 ## `a300` is too much: names go to 255
#64.allInstances() ## `#64` is too much: classes go to 63
self.d32() ## `d32` is too much: definitions go to 31
3000000000 ## 3000000000 is out of range: Integers go from -2147483648
r7ff0000000000000 ## the bits of an infinity or a NaN
Set{1}->iter(v1; v2 : S(S(S(S(Int)))) = Set{} ¦ v2) ## over 3 of the letters
Set{1}->iter(v1; v1 : Int = 0 ¦ v1) ## `iter` has the variable v1 twice
#9.allInstances() ## there is no class 9 yet; by then the sheet has 3 classes
self.d3() ## there is no definition 3 yet
self.a8.oclAsType(#2) ## #1 and #2 are unrelated: neither is above the other
not self.a1 = 3 ## `self.a1` is of type Int. ## `not` takes Bool.
Set{1}->iter(v1; v2 : Int = 0 ¦ v1 = v2) ## a start and a body of its type, Int, or below
self.a8->includes(self) ## `->` takes a collection
self.a3.a1 ## `.a1` takes an object; for a collection of objects write `->collect(a1)`
#0.a1 < 3 ## behind a class stands `.allInstances()`
(1 + 2 ## it ends too early, behind `(1 + 2` ## `)` is missing
Set{1, 2 ## `}` is missing
if true then 1 ## `else` is missing
if true then 1 else 2 ## `endif` is missing
let v1 = 3 ## `in` is missing
true && true ## both is written `and`
true ¦¦ true ## one of both is written `or`
!true ## the other truth value is written `not`
@0 = self ## no text names an object by its number
self.oclAsType(Block) ## `oclAsType` takes a class, as `oclAsType(#1)`
a1 < 3 ## an attribute is asked of an object: `self.a1`
true AND true ## it is written `and`
#0 = 3 ## behind a class stands `.allInstances()`
#0->size() ## behind a class stands `.allInstances()`
if self.a1 then 1 else 2 endif ## `if` takes a Bool as its condition
Set{1}->forAll(v1 ¦ v1) ## `->forAll` takes a collection, and a body of type Bool
";

/// Sheets that are refused, in the same way. A wave stands for a space.
const SHEETS: &str = r"
C 0 -|R 0 0|X~self.a4 < 3 ## line 3 begins with X and a space: one tab comes after the X
C 0 -|D 0 0 Int|N~0 self ## line 3 begins with N and a space
C 0 -|R 0 0|N 0 self|X~true ## line 4 begins with X and a space
C 0 -|A 0 0 1 Integer ## field 5, `Integer`, is no type: write Int
C 0 -|A 0 0 1 Set(Integer) ## is no type: write S(Int)
C 0 -|A 0 0 1 S(Int ## field 5, `S(Int`, is no type: types are Void, Bool
C 0 -|A 0 0 needle Int ## field 4, `needle`, is no name: names are numbers from 0 to 255
C 0 -|A 0 0 a1 Int ## is no name: write 1
C 0 Block ## field 3, `Block`, is no class: classes are numbers from 0 to 63, and `-` says
C Block - ## field 2, `Block`, is no class
C 0 -|O 0 #0 ## field 3, `#0`, is no class: write 0
V 0 0 3.5 ## the nearest to 3.5 is r400c000000000000
V 0 0 3.0 ## is no value: write 3
V 0 0 +3 ## is no value: write 3
V 0 0 r4008000000000000 ## its bits are those of 3: write 3
V 0 0 r3FF8000000000000 ## its digits are in lower case, r3ff8000000000000
V 0 0 true ## is no value: write t
V 0 0 {1,3,5} ## a Set is written S(1,3,5)
V 0 0 Sequence{1,3} ## is no value: write Q(1,3)
V 0 0 'red' ## there are no Strings
V 0 0 24OO ## field 4, `24OO`, is no value: values are t, f, an Integer
V 0 0 u ## field 4, `u`, is no value: leave the line out
V 0 0  ## field 4 is empty
V 0 0 -0 ## zero is `0`, without a minus
V 0 0 −150 ## field 4, `\xe2\x88\x92150`, is no value: it has bytes outside ASCII
V 0 0 S(1,~3) ## there is a space inside brackets: members have a comma and no space
V 0 0 3~ ## the line ends in a space
C~0~- ## there is a space: fields are parted by one tab
-- so ## no line begins so, and a sheet has no comments
C 0 -|R 0 0|N 0 int 3.5 ## is no Integer: an Integer has digits alone
C 0 -|R 0 0|N 0 real 3.5 ## is no Real: a Real is spelled by its bits
C 0 -|R 0 0|N 0 coll Set ## is no kind of collection: S, Q and B are
C 0 -|R 0 0|N 0 var 16 ## 16 is out of range: variables go from 1 to 15
C 0 -|A 0 0 5 S(#64) ## `#64` is too much: classes go to 63
C 0 -|A 0 0 5 S(S(S(S(Int)))) ## over 3 of the letters S, Q, B and C stand inside one another
V 0 0 S(@96) ## `@96` is too much: objects go to 95
V 0 0 Q(3000000000) ## 3000000000 is out of range: Integers go from
V 0 0 rfff8000000000000 ## the bits of an infinity or a NaN
V 0 0 S(Q(B(S(1)))) ## over 3 of the letters
C 0 -|R 0 0|N 0 self|N 1 attr 0 6|N 2 attr 0 4 ## node 0, line 3: N 0 self, is used already by line 4: N 1 attr 0 6: write it again
C 0 -|R 0 0|N 0 self|N 1 eq 0 0 ## is used already by line 4
C 0 -|R 0 0|N 0 self|N 1 eq 0 1 ## node 1 is not smaller than 1, as an operand is
C 0 -|R 0 0|N 0 self|N 1 self|N 2 not 1 ## node 0 is used by no other, line 3: N 0 self
C 0 -|R 0 0|N 0 all 0|N 1 int 0|N 2 var 1|N 3 iter 0 1 1 Int 1 2 ## `iter` has the variable v1 twice
C 0 -|R 0 0|X true|N 0 self ## a rule has one X line or N lines, not both
C 0 -|D 0 0 Bool|X true ## and a definition N lines
C 0 -|A 0 0 5 #0|O 0 0|V 0 0 1 ## `1` is an Integer
C 0 -|C 1 -|A 0 0 5 #0|O 0 0|O 1 1|V 0 0 @1 ## `@1` is an object of class #1
C 0 -|C 1 -|A 0 0 5 #0|O 0 1|V 0 0 @0 ## #1 has no such row, as it is not #0 or below
C 0 -|A 0 0 5 #0|O 0 0|V 0 0 @44 ## there is no object 44 yet
C 0 -|C 1 1 ## 1 is not smaller than 1, as a parent is
C 0 -|D 0 0 Bool|N 0 int 1 ## the definition is of type Bool, and its body is not below it
";

/// Each line, cut at the signs.
fn cases(all: &str) -> impl Iterator<Item = (&str, Vec<&str>)> {
    all.trim().lines().map(|line| {
        let mut parts = line.split(" ## ");
        (parts.next().unwrap(), parts.collect())
    })
}

#[test]
fn a_text_says_how_it_is_written() {
    for (text, expected) in cases(TEXTS) {
        says(&format!("{CLASSES}{text}"), &expected);
    }
}

#[test]
fn a_line_says_what_is_wrong_with_it() {
    for (lines, expected) in cases(SHEETS) {
        let text = String::from_utf8(sheet(lines)).unwrap().replace('~', " ");
        let words = explanation(text.as_bytes());
        for part in expected {
            assert!(words.contains(part), "{part} is not in\n{words}");
        }
    }
}

#[test]
fn a_text_that_ends_too_early_has_no_word_to_name() {
    for text in [
        "self.a1 < 3 and",
        "self.",
        "Set{1}->",
        "not",
        "Set{1}->iter(v1; v2 : S(",
    ] {
        let words = explanation(&sheet(&format!("{CLASSES}{text}")));
        assert_eq!(words.matches("  here ").count(), 1, "{words}");
    }
}

/// OCL's steps for which ./explain sends to the page.
const ON_THE_PAGE: &str = "->select ->reject ->sum ->count ->one ->max ->min ->includesAll \
    ->excludesAll ->isUnique ->intersection ->flatten ->last ->at ->first ->any ->append ->prepend \
    ->excluding ->indexOf .oclIsTypeOf .abs .max .min";

#[test]
fn the_page_has_what_it_is_said_to_have() {
    let path = Path::new(env!("CARGO_MANIFEST_DIR")).join("../docs/SHEETS.md");
    let page = fs::read_to_string(path).unwrap();
    let (_, section) = page.split_once("\n## 9. ").unwrap();
    let (section, _) = section.split_once("\n## 10. ").unwrap();
    for step in ON_THE_PAGE.split_whitespace() {
        says(
            &format!("{CLASSES}self{step}(1)"),
            &["`docs/SHEETS.md`, section 9, has "],
        );
        assert!(section.contains(&format!("{step}(")), "{step}");
    }
}

/// What a slip of the hand puts in the place of a byte.
const SLIPS: [&str; 24] = [
    "", " ", "\t", "\n", "0", "9", "99", "-", ">", "<=", "(", ")", "{", ",", ".", "'", "#", "@",
    "v0", "a300", "X", "≤", "Set{", "->",
];

/// A sheet with a few slips.
fn slipped(seed: u64) -> Vec<u8> {
    let mut random = Random::new(seed);
    let mut text = match seed % 2 {
        0 => generate::sheet(seed),
        _ => generate::sheet_of_texts(seed),
    };
    for _ in 0..random.between(1, 2) {
        let at = random.below(text.len() + 1);
        let end = (at + random.below(3)).min(text.len());
        let slip = random.pick(&SLIPS).bytes();
        text.splice(at..end, slip);
    }
    text
}

/// The refusal of a sheet, if it gets one at a line.
fn refusal(text: &[u8]) -> Option<(u64, usize)> {
    let printed = String::from_utf8(program(text)).unwrap();
    let (number, place) = printed.strip_prefix("! ")?.trim_end().split_once(' ')?;
    Some((number.parse().unwrap(), place.parse().unwrap()))
}

#[test]
fn every_slip_has_its_words() {
    let mut said = 0;
    for seed in 0..6_000 {
        let text = slipped(seed);
        let Some((number, place)) = refusal(&text).filter(|(_, place)| *place > 0) else {
            continue;
        };
        let words = refused(&text, number, place);
        assert!(words.contains("  here "), "{seed}: {words}");
        assert!(!words.contains("``"), "{seed}: {words}");
        said += 1;
    }
    assert!(said > 1_000, "{said}");
}
