//! The unchanged original against what the documents list: the reasons of `validate_identity_xpath`,
//! and what its session reports.

use host::definitions::{Constraint, Record};
use host::names::Name;
use host::oracle::session::Session;
use host::oracle::{answer, reason, reason_of};
use host::paths;
use host::random::Random;
use host::spaces;
use host::tally::Reasons;

#[test]
#[cfg_attr(
    not(oracle),
    ignore = "not compared: the original Rust is not there (FASTXML_SRC, ../shared/docs/src)"
)]
fn the_original_gives_the_reasons_that_the_documents_list() {
    let mut reasons = Reasons::default();
    for (question, listed) in paths::listed() {
        let (path, prefixes) = spaces::stood_in(&question.path, &question.prefixes);
        let given = reason(question.kind, &path, &prefixes);
        assert_eq!(given.unwrap_or(0), listed, "{question:?}");
        reasons.take(question.kind, given);
    }
    reasons.assert_each_at_least(1);
}

#[test]
#[cfg_attr(
    not(oracle),
    ignore = "not compared: the original Rust is not there (FASTXML_SRC, ../shared/docs/src)"
)]
fn the_original_gives_random_paths_every_reason() {
    let mut random = Random::new(0x0AC1E);
    let mut reasons = Reasons::default();
    for _ in 0..100_000 {
        let question = paths::question(&mut random);
        reasons.take(question.kind, answer(&question));
    }
    reasons.assert_each_at_least(50);
}

#[test]
fn each_message_has_its_reason_whatever_words_it_quotes() {
    let messages = [
        (1, "xpath must not be empty"),
        (2, "unexpected ':' in 'trailing '/' in ':x'"),
        (3, "'a\u{A0}b' is not a valid NCName"),
        (4, "dangling ':' after 'invalid'"),
        (5, "unexpected character '''"),
        (6, "empty path alternative in ''"),
        (7, "'.//' must be followed by a step in './/'"),
        (
            8,
            "attribute test is not allowed in a selector in '@invalid'",
        ),
        (9, "invalid axis in '*::step'"),
        (10, "axis 'step::' is not allowed in 'step::separator'"),
        (11, "undeclared namespace prefix 'axis' in 'axis:a'"),
        (12, "invalid step in '/invalid step separator in'"),
        (13, "trailing '/' in 'xpath must not be empty/'"),
        (14, "invalid step separator in 'invalid step in'"),
    ];
    for (reason, message) in messages {
        assert_eq!(reason_of(message), reason, "{message}");
    }
}

#[test]
fn a_message_of_no_reason_is_refused() {
    let messages = [
        "",
        "a new message",
        "xpath must not be empty in ''",
        "empty path alternative",
        "invalid step separators in 'a b'",
        "axis 'a' is not allowed in 'a'",
        "a is not a valid NCName",
    ];
    for message in messages {
        let answer = std::panic::catch_unwind(|| reason_of(message));
        assert!(answer.is_err(), "{message:?} was taken");
    }
}

fn id(kind: u8, name: &str, refer: Option<&str>, selector: &str, field: &str) -> Record {
    Record::Id(Constraint {
        kind,
        name: name.into(),
        refer: refer.map(Into::into),
        selector: selector.into(),
        fields: vec![field.into()],
    })
}

fn start(session: &mut Session, name: &str, numbers: &[usize], attributes: &[(&str, &str)]) {
    let name = Name {
        space: String::new(),
        qualified: name.into(),
    };
    session.start(&name, numbers, attributes);
}

/// Document 01, 'One run, whole': kind 4 at event 6 and kind 3 at event 8. Event 1 is the ID.
#[test]
#[cfg_attr(
    not(oracle),
    ignore = "not compared: the original Rust is not there (FASTXML_SRC, ../shared/docs/src)"
)]
fn the_original_reports_what_the_run_of_document_01_does() {
    let mut session = Session::new(&[id(1, "k", None, "r", "@id")]);
    let mut reports: Vec<(u32, String)> = Vec::new();
    let mut event = 1;
    let mut took = |session: &mut Session| {
        event += 1;
        let messages = session.messages().into_iter();
        reports.extend(messages.map(|message| (event, message)));
    };
    start(&mut session, "t", &[0], &[]);
    took(&mut session);
    for attributes in [&[("id", "a")][..], &[("id", "a")], &[]] {
        start(&mut session, "r", &[], attributes);
        took(&mut session);
        session.end(false, "");
        took(&mut session);
    }
    session.end(false, "");
    took(&mut session);
    let due = [
        (6, r#"duplicate value ["'a'"] in constraint 'k'"#),
        (8, "null value in key field 0 of constraint 'k'"),
    ];
    assert_eq!(reports, due.map(|(event, message)| (event, message.into())));
    assert!(session.keyref_messages().is_empty());
}

/// Kinds 6, 1, 2 and 5: a path that is unread, once for a name; two hits on one child; a child
/// without a simple value; and a reference to a key that is not there. A key with white space around
/// it is another one.
#[test]
#[cfg_attr(
    not(oracle),
    ignore = "not compared: the original Rust is not there (FASTXML_SRC, ../shared/docs/src)"
)]
fn the_original_reports_the_other_kinds() {
    let mut session = Session::new(&[
        id(1, "unread", None, "a//b", "@id"),
        id(0, "twice", None, "r", "a|a"),
        id(0, "complex", None, "r", "n"),
        id(1, "k", None, "r", "@id"),
        id(2, "f", Some("k"), "r", "a"),
    ]);
    start(&mut session, "t", &[0, 0, 1, 2, 3, 4], &[]);
    let unread = session.messages();
    assert_eq!(unread.len(), 1);
    assert!(unread[0].starts_with("identity constraint 'unread' is not checked"));
    for (key, reference) in [("1", "2"), (" 2", "1")] {
        start(&mut session, "r", &[], &[("id", key)]);
        start(&mut session, "a", &[], &[]);
        session.end(true, reference);
        start(&mut session, "n", &[], &[]);
        session.end(false, "");
        session.end(false, "");
        let due = [
            "unique 'twice': a field matches more than one node",
            "unique 'complex': a field selects an element without a simple value",
        ];
        assert_eq!(session.messages(), due);
    }
    session.end(false, "");
    assert_eq!(session.messages(), [""; 0]);
    let due = [r#"keyref 'f' value ["'2'"] not found in key 'k'"#];
    assert_eq!(session.keyref_messages(), due);
}
