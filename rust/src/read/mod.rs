//! Reading a sheet, line by line.

pub mod edits;
mod fields;
pub mod kinds;
pub mod nodes;
mod primaries;
pub mod sentences;
pub mod spelling;
mod steps;
mod texts;
pub mod tokens;

use crate::model::{Definition, Model, Row, Rule, Sheet};
use crate::refusal::{Refusal, Refused};
use crate::tree::{Node, DEEPEST_RULE};
use crate::types::Type;
use crate::values::Value;
use fields::Fields;

pub const MOST_VALUES: usize = 1_024;
pub const MOST_VALUE_SIZES: usize = 2_048;

/// The blocks in their order.
#[derive(Clone, Copy, Default, PartialEq, Eq, PartialOrd, Ord)]
enum Block {
    #[default]
    Classes,
    Attributes,
    Objects,
    Values,
    Definitions,
    Rules,
}

/// A rule or a definition whose end has not come yet.
struct OpenTree {
    class: u8,
    /// What a definition gives; a rule says nothing of it.
    declared: Option<Type>,
    last_line: usize,
    /// Whether its nodes come from a text.
    is_text: bool,
    /// The nodes so far; a node that became an operand has moved into its user.
    nodes: Vec<Option<Node>>,
}

#[derive(Default)]
struct Reader {
    sheet: Sheet,
    block: Block,
    /// The sizes of the V lines together.
    value_sizes: usize,
    /// The nodes of all definitions and rules together.
    nodes: usize,
    open: Option<OpenTree>,
}

pub fn read(text: &[u8]) -> Result<Sheet, Refused> {
    let mut reader = Reader::default();
    for (index, line) in text.split_inclusive(|byte| *byte == b'\n').enumerate() {
        let place = index + 1;
        let whole = line.strip_suffix(b"\n");
        let mut fields = Fields::of(whole.unwrap_or(line));
        let letter = fields.next();
        if letter != b"N" && letter != b"X" {
            reader.end_tree()?;
        }
        if whole.is_none() {
            return Err(Refusal::BadLine.at(place));
        }
        reader
            .line(letter, fields, place)
            .map_err(|refusal| refusal.at(place))?;
    }
    reader.end_tree()?;
    Ok(reader.sheet)
}

impl Reader {
    fn line(&mut self, letter: &[u8], fields: Fields, place: usize) -> Result<(), Refusal> {
        match letter {
            b"C" => self.class(fields),
            b"A" => self.attribute(fields),
            b"O" => self.object(fields),
            b"V" => self.value(fields),
            b"D" => self.definition(fields, place),
            b"R" => self.rule(fields, place),
            b"N" => self.node(fields, place),
            b"X" => self.text(fields, place),
            _ => Err(Refusal::BadLine),
        }
    }

    /// A line of a block must not come after a later block began, and its
    /// number must be the next.
    fn in_row(&mut self, block: Block, number: u8, count: usize) -> Result<(), Refusal> {
        self.in_block(block)?;
        require(usize::from(number) == count, Refusal::OutOfOrder)
    }

    fn in_block(&mut self, block: Block) -> Result<(), Refusal> {
        require(self.block <= block, Refusal::OutOfOrder)?;
        self.block = block;
        Ok(())
    }

    fn known_class(&self, class: Option<u8>) -> Result<(), Refusal> {
        let known = class.is_none_or(|class| self.sheet.model.classes.holds(class));
        require(known, Refusal::UnknownReference)
    }

    fn class(&mut self, mut fields: Fields) -> Result<(), Refusal> {
        let number = fields.class();
        let parent = fields.parent();
        fields.end()?;
        self.in_row(Block::Classes, number, self.sheet.model.classes.0.len())?;
        let smaller = parent.is_none_or(|parent| parent < number);
        require(smaller, Refusal::UnknownReference)?;
        self.sheet.model.classes.0.push(parent);
        Ok(())
    }

    fn attribute(&mut self, mut fields: Fields) -> Result<(), Refusal> {
        let number = fields.row();
        let class = fields.class();
        let name = fields.name();
        let ty = fields.ty();
        fields.end()?;
        self.in_row(Block::Attributes, number, self.sheet.model.rows.len())?;
        let same = |row: &Row| row.class == class && row.name == name;
        let declared = self.sheet.model.rows.iter().any(same);
        require(!declared, Refusal::OutOfOrder)?;
        self.known_class(Some(class))?;
        self.known_class(ty.class())?;
        self.sheet.model.rows.push(Row { class, name, ty });
        Ok(())
    }

    fn object(&mut self, mut fields: Fields) -> Result<(), Refusal> {
        let number = fields.object();
        let class = fields.class();
        fields.end()?;
        self.in_row(Block::Objects, number, self.sheet.model.objects.len())?;
        self.known_class(Some(class))?;
        self.sheet.model.objects.push(class);
        Ok(())
    }

    fn value(&mut self, mut fields: Fields) -> Result<(), Refusal> {
        let object = fields.object();
        let row = fields.row();
        let value = fields.value();
        if self.sheet.model.values.len() == MOST_VALUES
            || self.value_sizes + value.size() > MOST_VALUE_SIZES
        {
            fields.note(Refusal::OutOfLimits);
        }
        fields.end()?;
        self.in_block(Block::Values)?;
        let model = &mut self.sheet.model;
        let last = model.values.last();
        let ascends = last.is_none_or(|(last, _)| *last < (object, row));
        require(ascends && value.is_ordered(), Refusal::OutOfOrder)?;
        suits(model, object, row, Some(&value))?;
        self.value_sizes += value.size();
        model.values.push(((object, row), value));
        Ok(())
    }

    fn definition(&mut self, mut fields: Fields, place: usize) -> Result<(), Refusal> {
        let number = fields.definition();
        let class = fields.class();
        let ty = fields.ty();
        fields.end()?;
        self.in_row(Block::Definitions, number, self.sheet.definitions.len())?;
        self.known_class(Some(class))?;
        self.known_class(ty.class())?;
        self.open = Some(OpenTree {
            class,
            declared: Some(ty),
            last_line: place,
            is_text: false,
            nodes: Vec::new(),
        });
        Ok(())
    }

    fn rule(&mut self, mut fields: Fields, place: usize) -> Result<(), Refusal> {
        let number = fields.number(0, spelling::LAST_RULE) as u8;
        let class = fields.class();
        fields.end()?;
        self.in_row(Block::Rules, number, self.sheet.rules.len())?;
        self.known_class(Some(class))?;
        self.open = Some(OpenTree {
            class,
            declared: None,
            last_line: place,
            is_text: false,
            nodes: Vec::new(),
        });
        Ok(())
    }

    /// At a rule's or a definition's end there is a root, every other node is an
    /// operand, and the tree is not too deep.
    fn end_tree(&mut self) -> Result<(), Refused> {
        let Some(mut tree) = self.open.take() else {
            return Ok(());
        };
        let malformed = Refusal::MalformedTree.at(tree.last_line);
        let root = tree.nodes.pop().flatten().ok_or(malformed)?;
        let all_used = tree.nodes.iter().all(Option::is_none);
        let depth = root.depth(&self.sheet.definitions);
        if !all_used || depth > DEEPEST_RULE {
            return Err(malformed);
        }
        let class = tree.class;
        match tree.declared {
            Some(ty) => self.sheet.definitions.push(Definition {
                class,
                ty,
                root,
                depth,
            }),
            None => self.sheet.rules.push(Rule {
                context: class,
                root,
            }),
        }
        Ok(())
    }
}

/// Object, row and the objects in a value are on the sheet, the object has such a row,
/// and the value, if there is one, belongs to its type.
fn suits(model: &Model, object: u8, row: u8, value: Option<&Value>) -> Result<(), Refusal> {
    let objects = model.objects.len();
    let known = usize::from(object) < objects
        && usize::from(row) < model.rows.len()
        && value.is_none_or(|value| value.objects_below(objects));
    require(known, Refusal::UnknownReference)?;
    let declared = &model.rows[usize::from(row)];
    let suits = model.is_of(object, declared.class)
        && value.is_none_or(|value| model.belongs(value, &declared.ty));
    require(suits, Refusal::ValueMismatch)
}

fn require(holds: bool, refusal: Refusal) -> Result<(), Refusal> {
    if holds {
        Ok(())
    } else {
        Err(refusal)
    }
}
