//! Paths that the checker is asked about: those that the documents list, with the reasons that they
//! list, and random ones.

use crate::random::Random;
use crate::spaces;

/// Which of the two expressions of a constraint a path is.
#[derive(Debug, Clone, Copy, PartialEq, Eq, PartialOrd, Ord)]
pub enum Kind {
    Selector,
    Field,
}

impl Kind {
    pub const BOTH: [Self; 2] = [Self::Selector, Self::Field];

    /// The kind byte of document 01.
    pub fn number(self) -> u8 {
        match self {
            Self::Selector => 0,
            Self::Field => 1,
        }
    }
}

/// What the checker is handed: a kind, a path and the declared prefixes with spaces between.
#[derive(Debug, Clone, PartialEq, Eq, PartialOrd, Ord)]
pub struct Question {
    pub kind: Kind,
    pub path: String,
    pub prefixes: String,
}

/// A path, the declared prefixes, and the k of its reason Xk, or 0 where it passes.
type Row = (&'static str, &'static str, u8);

/// Rows that hold for a selector and for a field.
const EITHER: &[Row] = &[
    // Document 01: what passes, and its conditions of acceptance.
    (".//.", "", 0),
    (".", "", 0),
    ("a", "", 0),
    ("a|a", "", 0),
    ("child::a", "", 0),
    (".//a/*/p:*|child::p:b", "p", 0),
    ("xml:a", "", 0),
    (":a", "", 2),
    ("a b", "", 14),
    ("*:a", "", 2),
    ("p:a", "", 11),
    (".//", "", 7),
    ("a|", "", 6),
    ("a//b", "", 14),
    ("a/", "", 13),
    ("/a", "", 12),
    ("parent::a", "", 10),
    ("*::a", "", 9),
    ("a:", "", 4),
    ("-a", "", 5),
    // `xml`, `child` and `attribute` are these letters, and no more of them.
    ("xml:*", "", 0),
    ("XML:a", "", 11),
    ("xmlns:a", "", 11),
    ("xm:a", "", 11),
    ("Child::a", "", 10),
    ("children::a", "", 10),
    ("chil::a", "", 10),
    ("Attribute::a", "", 10),
    ("attributes::a", "", 10),
    // Nothing, and nothing but white space.
    ("", "", 1),
    (" \t\r\n", "", 1),
    // Other white space is no white space: U+1680 is a name, what is in no name X3, and in ASCII X5.
    ("\u{A0}", "", 3),
    ("\u{A0}\u{3000}", "", 3),
    ("\u{85}", "", 3),
    ("\u{2028}", "", 3),
    ("\u{1680}", "", 0),
    ("\u{B}", "", 5),
    ("\u{C}", "", 5),
    (" \u{B}", "", 5),
    // The prefixes are split at each space, and a piece is a prefix as it stands.
    ("p:a|q:b", "p q", 0),
    ("p:a|q:b", "q  p", 0),
    ("p:a|q:b", " p q ", 0),
    ("p:a|q:b", "p", 11),
    ("p:a", "pp", 11),
    ("p:*", "q", 11),
    ("p:a", "p\tq", 11),
    // All tokens of an alternative before its path rules, alternative by alternative.
    ("a/:b", "", 2),
    ("/a|:b", "", 12),
    (":b|/a", "", 2),
    ("q:a|:b", "", 11),
    ("/a:", "", 4),
    // Tokens.
    ("a\u{A0}b", "", 3),
    ("p:\u{A0}a", "p", 3),
    ("p: a", "p", 4),
    ("p:", "p", 4),
    ("a:b:c", "a", 2),
    ("a::b", "", 10),
    ("p:a::b", "p", 9),
    ("a:::b", "", 2),
    ("..", "", 14),
    (".a", "", 14),
    ("child::", "", 14),
    ("@", "", 12),
    ("@id/a", "", 12),
    ("@@a", "", 12),
    ("child::.", "", 14),
    ("|", "", 6),
    ("a||b", "", 6),
    (". / / a", "", 12),
    (".//.//a", "", 14),
    ("q:a ::", "", 11),
    ("q:a ::", "q", 14),
    // U+1680 is a character of names; U+A0, U+2028 and U+85 are in no name, whatever stands beside them.
    ("a\u{1680}b", "", 0),
    ("p:\u{1680}", "p", 0),
    ("p:\u{1680}", "", 11),
    ("\u{1680}a", "", 0),
    ("a\u{A0}", "", 3),
    ("\u{A0}a", "", 3),
    ("a/\u{2028}b", "", 3),
    ("a \u{A0}/\u{85}b", "", 3),
    ("\u{1680}:a", "", 11),
    ("\u{1680}:a", "\u{1680}", 0),
    ("a\u{B}b", "", 5),
    ("a\u{C}/b", "", 5),
    ("\u{B}a", "", 5),
    ("a\u{B}", "", 5),
    // White space between tokens, and not inside one.
    (". // a", "", 0),
    (" child  ::\na ", "", 0),
    ("child: :a", "child", 4),
    ("a / / b", "", 12),
    // Paths with the words of another reason's message.
    ("invalid step :x", "", 2),
    ("/trailing", "", 12),
    ("invalid step separator", "", 14),
    ("trailing::a", "", 10),
    ("empty path alternative/", "", 14),
    ("axis::a in", "", 10),
    ("x' is not a valid NCName", "", 5),
];

/// Rows of a selector, where an attribute is no step.
const SELECTOR: &[Row] = &[
    ("@id", "", 8),
    (".//@id", "", 8),
    ("a/@p:b", "", 8),
    ("attribute::a", "", 10),
    ("attribute::a/b", "", 10),
    ("a|@id", "", 8),
];

/// Rows of a field, whose last step may be an attribute.
const FIELD: &[Row] = &[
    ("@id", "", 0),
    (".//@id", "", 0),
    ("a/@p:b", "", 11),
    ("a/@p:b", "p", 0),
    ("attribute::a", "", 0),
    ("attribute::a/b", "", 10),
    ("a|@id", "", 0),
    ("@ *", "", 0),
    ("attribute::p:*", "", 11),
];

/// Every row of the tables as a question with its reason.
pub fn listed() -> Vec<(Question, u8)> {
    let of = |kind: Kind, rows: &[Row]| -> Vec<(Question, u8)> {
        let question = |path: &str, prefixes: &str| Question {
            kind,
            path: path.into(),
            prefixes: prefixes.into(),
        };
        rows.iter()
            .map(|&(path, prefixes, reason)| (question(path, prefixes), reason))
            .collect()
    };
    [
        of(Kind::Selector, EITHER),
        of(Kind::Selector, SELECTOR),
        of(Kind::Field, EITHER),
        of(Kind::Field, FIELD),
    ]
    .concat()
}

/// Pieces of which random paths are put together.
#[rustfmt::skip]
const PIECES: [&str; 37] = [
    "a", "b", "p", "q", "p:a", "q:*", "xml:b", "child", "attribute", "parent", "*", ".", "/", "//",
    ".//", ":", "::", "child::", "attribute::", "@", "|", "-", "1", "_", "(", "'", " ", "\t", "\n",
    "\r", "\u{1}", "\u{1681}", "\u{2069}", "\u{E9}", "\u{B7}", "\u{D7}", "\u{10000}",
];

const PREFIXES: [&str; 7] = ["", "p", "q", "p q", "q  p", " p", "xml"];

/// A random question. A third of the paths are made by the grammar, a third by the grammar and then
/// with one piece put in or one character taken out, and a third of random pieces; a few are white space.
pub fn question(random: &mut Random) -> Question {
    let kind = random.pick(&Kind::BOTH);
    let path = match random.below(61) {
        0 => (0..random.below(12))
            .map(|_| random.pick(&spaces::XML))
            .collect(),
        1..=20 => grammatical(random, kind),
        21..=40 => {
            let path = grammatical(random, kind);
            edited(random, &path)
        }
        _ => {
            let count = random.below(7);
            (0..=count).map(|_| random.pick(&PIECES)).collect()
        }
    };
    Question {
        kind,
        path,
        prefixes: random.pick(&PREFIXES).into(),
    }
}

/// A path of the grammar, as far as its prefixes are declared.
pub fn grammatical(random: &mut Random, kind: Kind) -> String {
    let alternatives: Vec<String> = (0..=random.below(3))
        .map(|_| alternative(random, kind))
        .collect();
    alternatives.join("|")
}

fn alternative(random: &mut Random, kind: Kind) -> String {
    let mut tokens: Vec<&str> = Vec::new();
    if random.once_in(3) {
        tokens.extend([".", "//"]);
    }
    for _ in 0..random.below(3) {
        step(random, &mut tokens);
        tokens.push("/");
    }
    if kind == Kind::Field && random.once_in(2) {
        tokens.extend(random.pick(&[&["@"][..], &["attribute", "::"]]));
        tokens.push(name_test(random));
    } else {
        step(random, &mut tokens);
    }
    let space = |random: &mut Random| match random.below(8) {
        0 => random.pick(&[" ", "\t", "\n", "\r"]),
        _ => "",
    };
    tokens
        .into_iter()
        .flat_map(|token| [space(random), token])
        .collect()
}

fn step(random: &mut Random, tokens: &mut Vec<&str>) {
    match random.below(4) {
        0 => tokens.push("."),
        1 => tokens.extend(["child", "::", name_test(random)]),
        _ => tokens.push(name_test(random)),
    }
}

fn name_test(random: &mut Random) -> &'static str {
    random.pick(&[
        "a",
        "b-1",
        "*",
        "p:a",
        "p:*",
        "q:b.c",
        "xml:lang",
        "child",
        "attribute",
        "\u{E9}t\u{E9}",
    ])
}

/// A path with a piece put in or a character taken out.
pub fn edited(random: &mut Random, path: &str) -> String {
    let mut characters: Vec<String> = path.chars().map(String::from).collect();
    let at = random.below(characters.len() + 1);
    if at < characters.len() && random.once_in(2) {
        characters.remove(at);
    } else {
        characters.insert(at, random.pick(&PIECES).into());
    }
    characters.concat()
}

/// A path that is read, whatever the checker says of it: its prefixes need be no names, its names
/// need begin with no letter, and white space stands anywhere.
pub fn readable(random: &mut Random, kind: Kind) -> String {
    let alternatives: Vec<String> = (0..=random.below(4))
        .map(|_| readable_alternative(random, kind))
        .collect();
    spaced(random, &alternatives.join("|"))
}

fn readable_alternative(random: &mut Random, kind: Kind) -> String {
    let mut parts: Vec<String> = (0..random.below(4)).map(|_| part(random)).collect();
    if kind == Kind::Field && random.once_in(2) {
        let axis = random.pick(&["@", "attribute::"]);
        parts.push(axis.to_string() + &readable_test(random));
    } else {
        parts.push(part(random));
    }
    let descent = random.pick(&["", "", ".//"]);
    descent.to_string() + &parts.join("/")
}

fn part(random: &mut Random) -> String {
    match random.below(5) {
        0 => ".".into(),
        1 => "child::".to_string() + &readable_test(random),
        _ => readable_test(random),
    }
}

fn readable_test(random: &mut Random) -> String {
    let prefixes = [
        "", "*", "a*", "**", "p", "q", "xml", "child", "_.-1", "\u{B7}", "\u{E9}",
    ];
    let locals = [
        "*",
        "a",
        "b",
        "ab",
        "_1",
        "a.b-c",
        "Z",
        "child",
        "attribute",
        "\u{B7}",
        "\u{E9}",
        "\u{300}a",
        "\u{200B}",
        "\u{10400}",
    ];
    let local = random.pick(&locals);
    match random.below(3) {
        0 => format!("{}:{local}", random.pick(&prefixes)),
        _ => local.into(),
    }
}

/// A text with white space put in at some places.
fn spaced(random: &mut Random, text: &str) -> String {
    let often = random.pick(&[4, 40, 400]);
    let space = |random: &mut Random| random.once_in(often).then(|| random.pick(&spaces::XML));
    let with_space = |c| [space(random), Some(c)].into_iter().flatten();
    text.chars().flat_map(with_space).collect()
}

/// A path with white space that is not XML's put in at one place or more.
pub fn with_other_space(random: &mut Random, path: &str) -> String {
    let mut characters: Vec<char> = path.chars().collect();
    for _ in 0..=random.below(3) {
        let at = random.below(characters.len() + 1);
        characters.insert(at, random.pick(&spaces::OTHER));
    }
    characters.into_iter().collect()
}
