//! White space of paths: XML's four characters and no other. The other characters with Unicode's property White_Space are
//! ordinary: in the checker, in the reader, in the writer and in a whole run.

use host::doors;
use host::entries::Alternative;
use host::identity::{Checked, Reply, Session, Spelled, check_path, spell_path};
use host::made::{ee, es, id, leaf};
use host::model::records::Record;
use host::paths::Kind;
use host::reader::{AREA_MIN, Due, fault};
use host::{spaces, texts};

#[test]
fn is_white_space_holds_for_four_numbers_and_no_other() {
    let white: Vec<u32> = (0..=0x120000)
        .filter(|&code| doors::is_white_space(code))
        .collect();
    assert_eq!(white, [0x9, 0xA, 0xD, 0x20]);
    // A space with a bit set that a narrower number would lose.
    let widened = (21..32).map(|bit| (1 << bit) | u32::from(' '));
    for code in widened.chain([0x7FFF_FFFF, u32::MAX]) {
        assert!(!doors::is_white_space(code), "{code:X}");
    }
}

/// Unicode's white space without XML's four.
fn others() -> Vec<char> {
    let others: Vec<char> = texts::scalars().filter(|&c| spaces::is_other(c)).collect();
    assert_eq!(others.len(), 21);
    assert!(spaces::OTHER.iter().all(|c| others.contains(c)));
    others
}

/// What the checker says of a name that holds this character: in ASCII it stands in no token, and elsewhere in a name or
/// in none.
fn due(c: char) -> Checked {
    match c {
        '\u{1680}' => Checked::Pass,
        c if c.is_ascii() => Checked::Reason(5),
        _ => Checked::Reason(3),
    }
}

/// Before, inside and behind a name, behind a prefix, and alone.
#[test]
fn other_white_space_is_an_ordinary_character_to_the_checker() {
    for c in others() {
        for path in [
            format!("{c}a"),
            format!("a{c}b"),
            format!("a{c}"),
            format!("p:{c}"),
            c.into(),
        ] {
            for kind in Kind::BOTH {
                let given = check_path(kind.number(), path.as_bytes(), b"p");
                // Behind `p:` nothing in ASCII begins a local name.
                let dangling = path.starts_with("p:") && c.is_ascii();
                let due = if dangling { Checked::Reason(4) } else { due(c) };
                assert_eq!(given, due, "{kind:?} {path:?}");
            }
        }
    }
}

#[test]
fn other_white_space_is_an_ordinary_character_to_reader_and_writer() {
    for c in others() {
        for path in [format!("{c}a"), format!("a{c}b"), format!("a{c}"), c.into()] {
            for kind in Kind::BOTH {
                let (read, text) = match c.is_ascii() {
                    true => (Due::Unread, Spelled::Refused(23)),
                    false => (
                        Due::Read(vec![Alternative::new(false, &[&path], None)]),
                        Spelled::Text(path.len()),
                    ),
                };
                assert_eq!(
                    fault(kind, path.as_bytes(), AREA_MIN, &read),
                    None,
                    "{path:?}"
                );
                let mut out = [0; 255];
                let spelled = spell_path(kind.number(), path.as_bytes(), &mut out);
                assert_eq!(spelled, text, "{path:?}");
                if let Spelled::Text(size) = spelled {
                    assert_eq!(&out[..size], path.as_bytes());
                }
            }
        }
    }
}

/// A text of white space alone: of XML's it is empty, of any other it is what the character is.
#[test]
fn a_text_of_white_space_alone() {
    for text in [" ", "\t", "\r", "\n", " \t\r\n"] {
        for kind in Kind::BOTH {
            assert_eq!(
                check_path(kind.number(), text.as_bytes(), b""),
                Checked::Reason(1)
            );
            assert_eq!(fault(kind, text.as_bytes(), AREA_MIN, &Due::Unread), None);
        }
    }
    for c in others() {
        let text: String = [c, c].iter().collect();
        assert_eq!(check_path(0, text.as_bytes(), b""), due(c), "{text:?}");
    }
}

/// The reports, as kind and scope, and the tuples of a document with a `ab` and an element whose name has the character
/// inside, where a key selects the path.
fn run(path: &str, name: &str) -> (Vec<(u8, u32)>, Vec<Vec<u8>>) {
    let mut session = Session::new(4_096, 4_096, 4_096);
    let mut records = vec![id(1, "k", None, path, &["@id"]), es("t", &[0], &[])];
    records.extend(leaf("ab", &[("id", "plain")]));
    records.extend(leaf(name, &[("id", "other")]));
    records.extend([ee(0, ""), Record::Fi]);
    for record in &records {
        assert_eq!(session.record(&record.bytes()), Reply::Taken);
    }
    let reports = session.reports().map(|it| (it.kind, it.scope)).collect();
    let fields = (1..).map(|number| session.tuple_field(number, 0).to_vec());
    (
        reports,
        fields.take_while(|field| !field.is_empty()).collect(),
    )
}

/// The template of the office that pasted a no-break space, before, inside or behind a name: it selects the element that
/// it names, and not `ab`.
#[test]
fn a_run_selects_the_element_that_is_written() {
    let places = |c: char| [format!("{c}ab"), format!("a{c}b"), format!("ab{c}")];
    for (c, path) in others()
        .into_iter()
        .flat_map(|c| places(c).map(|path| (c, path)))
    {
        let due = match c.is_ascii() {
            true => (vec![(6, 0)], vec![]),
            false => (vec![], vec![b"other".to_vec()]),
        };
        assert_eq!(run(&path, &path), due, "{path:?}");
    }
    for path in spaces::XML.into_iter().flat_map(places) {
        assert_eq!(
            run(&path, &path),
            (vec![], vec![b"plain".to_vec()]),
            "{path:?}"
        );
    }
}
