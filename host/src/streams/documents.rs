//! Documents: ES and EE records of random trees, and FI.

use crate::model::bytes::Text;
use crate::model::counts::DEPTH_MAX;
use crate::model::records::{
    ATTRIBUTES_MAX, Attribute, Ee, Es, KEY_MAX, NUMBERS_MAX, Record, TEXT_MAX,
};
use crate::random::Random;

/// What a document has much of.
#[derive(Debug, Clone, Copy, PartialEq, Eq)]
pub enum Shape {
    Plain,
    /// Elements inside elements, up to 65.
    Deep,
    /// Constraints at each element, so that 17 scopes would be open.
    Scopes,
    /// A few constraints at the root and elements inside elements, so that 33 selections would be open.
    Selections,
    /// No element.
    Empty,
}

/// Mostly plain.
pub fn shape(random: &mut Random) -> Shape {
    match random.below(16) {
        0 => Shape::Deep,
        1 | 2 => Shape::Scopes,
        3 | 4 => Shape::Selections,
        5 if random.once_in(4) => Shape::Empty,
        _ => Shape::Plain,
    }
}

/// A document whose elements list constraints of the template. Its end may be missing, a second root may
/// follow the first, and records may follow FI.
pub fn document(random: &mut Random, template: &[Record], shape: Shape) -> Vec<Record> {
    let is_id = |record: &&Record| matches!(record, Record::Id(_));
    let mut writer = Writer {
        constraints: template.iter().filter(is_id).count(),
        shape,
        depth: 0,
        records: Vec::new(),
    };
    if shape != Shape::Empty {
        for _ in 0..random.pick(&[1, 1, 1, 2]) {
            writer.root(random);
        }
    }
    if !random.once_in(8) {
        writer.records.push(Record::Fi);
    }
    writer.records
}

/// Most of the elements with a simple value are declared nillable: few are key fields beside others that are
/// set.
pub fn nillable(random: &mut Random, document: &mut [Record]) {
    for record in document {
        if let Record::Ee(ee) = record
            && ee.simple == 1
            && !random.once_in(4)
        {
            ee.simple = 2;
        }
    }
}

struct Writer {
    constraints: usize,
    shape: Shape,
    depth: usize,
    records: Vec<Record>,
}

impl Writer {
    /// A root element and what is in it. Now and then it does not end.
    fn root(&mut self, random: &mut Random) {
        let (steps, deepest) = match self.shape {
            Shape::Deep => (DEPTH_MAX + 6, DEPTH_MAX + 1),
            Shape::Selections => (20 + random.below(60), 20),
            Shape::Scopes => (10 + random.below(20), 9),
            Shape::Plain | Shape::Empty => (random.pick(&[2, 8, 20, 40, 70]), 6),
        };
        self.start(random);
        for _ in 0..steps {
            let ends_in = match self.shape {
                Shape::Plain | Shape::Empty => 3,
                Shape::Scopes | Shape::Selections => 7,
                Shape::Deep => 100,
            };
            let goes_down = self.depth < deepest && !random.once_in(ends_in);
            match self.depth == 1 || goes_down {
                true => self.start(random),
                false => self.end(random),
            }
        }
        if random.once_in(12) {
            return;
        }
        while self.depth > 0 {
            self.end(random);
        }
    }

    fn start(&mut self, random: &mut Random) {
        let count = match random.below(200) {
            0 => ATTRIBUTES_MAX,
            _ => random.pick(&[0, 1, 1, 1, 2, 3]),
        };
        let es = Es {
            space: random.pick(&["", "", "u", "u", "v", "\u{3B1}"]).into(),
            name: name(random),
            numbers: self.numbers(random),
            attributes: (0..count).map(|_| attribute(random)).collect(),
        };
        self.records.push(Record::Es(es));
        self.depth += 1;
    }

    /// Constraints of the template: the root lists some, other elements seldom do. A number may be
    /// listed twice.
    fn numbers(&self, random: &mut Random) -> Vec<u8> {
        let count = match (self.shape, self.depth) {
            (Shape::Scopes, _) => random.pick(&[1, 2, 4, NUMBERS_MAX]),
            // So that scopes and selections do not run out before.
            (Shape::Deep, depth) => usize::from(depth == 0 && random.once_in(2)),
            (_, 0) => random.pick(&[1, 2, 3, 3, 5]),
            _ => random.pick(&[0, 0, 0, 0, 0, 0, 1, 2]),
        };
        match self.constraints {
            0 => Vec::new(),
            constraints => (0..count)
                .map(|_| random.below(constraints.min(32)) as u8)
                .collect(),
        }
    }

    fn end(&mut self, random: &mut Random) {
        self.records.push(Record::Ee(Ee {
            simple: !random.once_in(5) as u8,
            key: key(random),
        }));
        self.depth -= 1;
    }
}

/// The names that paths ask for, and a few others.
fn name(random: &mut Random) -> Text {
    if random.once_in(300) {
        return vec![b'r'; TEXT_MAX];
    }
    let names = [
        "r", "r", "r", "x:r", "x:y:r", "a", "a", "p:a", "b", "xyz", ":", "", "\u{E9}", "x:\u{E9}",
    ];
    random.pick(&names).into()
}

fn attribute(random: &mut Random) -> Attribute {
    Attribute {
        name: random
            .pick(&[
                "id", "id", "id", "x:id", "x:y:id", "x", "q:x", "lang", "id:", "\u{E9}", "x:\u{E9}",
            ])
            .into(),
        key: key(random),
    }
}

/// Few keys, so that they repeat; the empty one too.
fn key(random: &mut Random) -> Text {
    match random.below(40) {
        0 => vec![b'k'; KEY_MAX],
        1 => "\u{E9}\u{10000}".into(),
        2 => "TU".into(),
        _ => random
            .pick(&["1", "2", "3", "12", "", "a", "\u{E9}"])
            .into(),
    }
}
