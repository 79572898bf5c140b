//! Named definitions: calls in what is grown, and sheets about them.

use super::draft::Draft;
use super::random::Random;
use super::rules::{Grown, Growth};
use super::world::spelt_type;
use crate::model::Sheet;
use crate::read::read;
use crate::types::Type;
use crate::typing::type_rules;

/// The definitions of a sheet, 0 to 31.
pub const MOST_DEFINITIONS: usize = 32;

/// What a caller needs to know of a definition.
pub struct Callable {
    pub class: u8,
    pub ty: Type,
    /// How deep its body is at most.
    pub depth: usize,
}

impl Growth<'_> {
    /// A call that gives the type, where a definition does.
    pub fn call(&mut self, ty: &Type, depth: usize) -> Option<Grown> {
        if self.faulty && self.random.one_in(60) {
            return Some((self.bad_call(), ty.clone()));
        }
        let careless = self.faulty && self.random.one_in(8);
        let suits = |called: &Callable| {
            called.ty.is_below(ty, &self.model.classes) && (called.depth < depth || careless)
        };
        let numbers: Vec<usize> = (0..self.callable.len())
            .filter(|number| suits(&self.callable[*number]))
            .collect();
        if numbers.is_empty() {
            return None;
        }
        let number = *self.random.pick(&numbers);
        let Callable { class, ty, .. } = &self.callable[number];
        let (class, ty) = (Type::Class(*class), ty.clone());
        let mark = self.draft.lines.len();
        let operand = self.callers(&class, depth - 1, careless);
        let Some(operand) = operand else {
            self.draft.lines.truncate(mark);
            return None;
        };
        let node = self.draft.line(&format!("call % {number}"), &[operand]);
        Some((node, ty))
    }

    /// What a definition of the class is called for; a careless one may be of a
    /// class above, of Any, or undefined.
    fn callers(&mut self, class: &Type, depth: usize, careless: bool) -> Option<usize> {
        if careless {
            let others = [Type::Any, Type::Void, class.clone()];
            let any = self.random.pick(&others).clone();
            return Some(self.grow(&any, depth).0);
        }
        let (operand, found) = self.solid(class, depth)?;
        let good = self.faulty || matches!(found, Type::Class(_));
        good.then_some(operand)
    }

    /// A call of itself, of a later definition, or of one that is not there.
    fn bad_call(&mut self) -> usize {
        let number = self.callable.len() + self.random.below(3);
        if self.random.one_in(2) {
            // With an operand that is not there either.
            return self.draft.line(&format!("call 700 {number}"), &[]);
        }
        let operand = self.draft.line("self", &[]);
        self.draft.line(&format!("call % {number}"), &[operand])
    }
}

/// A sheet that is read, its rules as definitions behind those it has, some of another
/// type than their body's, and rules that call them; none where something does not type.
pub fn defined(random: &mut Random, text: &[u8]) -> Option<Vec<u8>> {
    let mut sheet = read(text).ok()?;
    let types = type_rules(&mut sheet).ok()?;
    let first = sheet.definitions.len();
    let text = String::from_utf8_lossy(text);
    let mut bodies = text.split("R\t");
    let mut defined = bodies.next()?.to_string();
    let mut rules = String::new();
    let several = bodies.zip(&types).zip(&sheet.rules);
    for (number, ((body, ty), rule)) in several.enumerate() {
        let called = first + number;
        let (_, nodes) = body.split_once('\n')?;
        let simple = matches!(ty, Type::Bool | Type::Int | Type::Class(_));
        let given = if simple && random.one_in(3) {
            &Type::Any
        } else if random.one_in(16) {
            if *ty == Type::Bool {
                &Type::Int
            } else {
                &Type::Bool
            }
        } else {
            ty
        };
        let class = rule.context;
        defined += &format!("D\t{called}\t{class}\t{}\n{nodes}", spelt_type(given));
        let context = caller(random, &sheet, class);
        let truth = *given == Type::Bool;
        rules += &format!(
            "R\t{number}\t{context}\n{}",
            calling(random, class, called, truth)
        );
    }
    Some((defined + &rules).into_bytes())
}

/// The class, or one below it.
fn caller(random: &mut Random, sheet: &Sheet, class: u8) -> u8 {
    let classes = &sheet.model.classes;
    let below: Vec<u8> = (0..classes.0.len() as u8)
        .filter(|low| classes.is_below(*low, class))
        .collect();
    *random.pick(&below)
}

/// N lines that call a definition, some for every object of its class, and some
/// that look at `self` or a variable afterwards.
fn calling(random: &mut Random, class: u8, called: usize, truth: bool) -> String {
    match random.below(5) {
        0 if truth => {
            let form = random.pick(&["forAll", "exists"]);
            format!("N\t0\tall\t{class}\nN\t1\tvar\t1\nN\t2\tcall\t1\t{called}\nN\t3\t{form}\t0\t1\t2\n")
        }
        1 => format!(
            "N\t0\tself\nN\t1\tvar\t1\nN\t2\tcall\t1\t{called}\nN\t3\tisUndef\t2\n\
            N\t4\tvar\t1\nN\t5\tcoll\tQ\t3\t4\nN\t6\tlet\t1\t0\t5\n"
        ),
        2 => format!(
            "N\t0\tall\t{class}\nN\t1\tvar\t1\nN\t2\tcall\t1\t{called}\nN\t3\tisUndef\t2\n\
            N\t4\tself\nN\t5\tvar\t1\nN\t6\teq\t4\t5\nN\t7\teq\t3\t6\nN\t8\texists\t0\t1\t7\n"
        ),
        _ => format!("N\t0\tself\nN\t1\tcall\t0\t{called}\n"),
    }
}

/// So many definitions, most of which call the one before or one of the first.
pub fn many(random: &mut Random, count: usize) -> String {
    let mut text = "C\t0\t-\nC\t1\t0\nA\t0\t0\t0\tInt\nO\t0\t0\nO\t1\t1\nV\t1\t0\t7\n".to_string();
    for number in 0..count {
        text += &format!("D\t{number}\t0\tInt\nN\t0\tself\n");
        text += &match random.below(3) {
            1 if number > 0 => format!("N\t1\tcall\t0\t{}\n", random.below(number.min(4))),
            2 if number % 12 > 0 => format!("N\t1\tcall\t0\t{}\n", number - 1),
            _ => "N\t1\tattr\t0\t0\n".to_string(),
        };
    }
    let last = count - 1;
    text + &format!("R\t0\t1\nN\t0\tself\nN\t1\tcall\t0\t{last}\n")
}

/// A chain of calls so deep, its last call in a rule or in a definition.
pub fn deep(random: &mut Random, depth: usize) -> String {
    let mut text = "C\t0\t-\nO\t0\t0\n".to_string();
    let mut left = depth;
    let mut definitions = 0;
    // A call stands one level above the body that it calls.
    while left > 0 {
        let more = random.between(1, left);
        let last = more == left;
        let in_rule = last && random.one_in(2);
        let head = if in_rule {
            "R\t0\t0\n".to_string()
        } else {
            format!("D\t{definitions}\t0\tBool\n")
        };
        text += &head;
        let mut draft = Draft::default();
        let mut top = match definitions {
            0 => draft.line("true", &[]),
            called => {
                let own = draft.line("self", &[]);
                draft.line(&format!("call % {}", called - 1), &[own])
            }
        };
        for _ in 1..more {
            top = draft.line("not %", &[top]);
        }
        text += &draft.spell(random);
        if last && !in_rule {
            text += "R\t0\t0\nN\t0\ttrue\n";
        }
        definitions += 1;
        left -= more;
    }
    text
}

/// Definitions and rules, 32 each, of 768 nodes together.
pub fn shared_nodes() -> String {
    let nodes: String = (1..12)
        .map(|n| format!("N\t{n}\tnot\t{}\n", n - 1))
        .collect();
    let chain = format!("N\t0\ttrue\n{nodes}");
    let definitions = (0..32).map(|n| format!("D\t{n}\t0\tBool\n{chain}"));
    let rules = (0..32).map(|n| format!("R\t{n}\t0\n{chain}"));
    format!(
        "C\t0\t-\nO\t0\t0\n{}",
        definitions.chain(rules).collect::<String>()
    )
}

/// A name that a subclass declares again with a type of its own, read by a body
/// for the class above and by a rule that calls it.
pub fn redeclared(random: &mut Random) -> String {
    const VALUES: [(&str, &str); 4] = [
        ("Int", "7"),
        ("Bool", "t"),
        ("#0", "@0"),
        ("S(Int)", "S(1,2)"),
    ];
    let (above, value) = *random.pick(&VALUES);
    let (below, other) = *random.pick(&VALUES);
    let mut text = "C\t0\t-\nC\t1\t0\n".to_string();
    text += &format!("A\t0\t0\t5\t{above}\nA\t1\t1\t5\t{below}\nO\t0\t0\nO\t1\t1\n");
    if random.one_in(2) {
        text += &format!("V\t1\t0\t{value}\n");
    }
    if random.one_in(2) {
        text += &format!("V\t1\t1\t{other}\n");
    }
    let read = "N\t0\tself\nN\t1\tattr\t0\t5\n";
    text += &format!("D\t0\t0\t{above}\n{read}D\t1\t1\t{below}\n{read}");
    text + &format!("R\t0\t1\n{}R\t1\t1\n{read}", calling(random, 0, 0, false))
}
