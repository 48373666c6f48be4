//! Shows what runs today, called through the proved archives: the leaves and the path checker on sample
//! texts or on those that are given as arguments, and a session on the run of document 01.

use std::ffi::OsString;
use std::os::unix::ffi::OsStringExt;

use host::doors;
use host::identity::{Reply, Report, Session, check_path};
use host::made::one_run;

/// Names, near names, paths, white space and damaged texts.
const SAMPLES: [&[u8]; 17] = [
    b"voucher",
    b"voucher-header_1.2",
    b"1st",
    b"-a",
    b"p:a",
    b".//ledger/voucher",
    b"voucher/@id",
    b"child::voucher|xml:*",
    b"ledger//voucher",
    b"parent::ledger",
    b"a b\tc",
    b"",
    "\u{E9}t\u{E9}".as_bytes(),
    "a\u{A0}b".as_bytes(),
    "a\u{1680}b".as_bytes(),
    b"\xED\xA0\x80",
    b"\xC0\xAF",
];

fn main() {
    let given: Vec<Vec<u8>> = std::env::args_os()
        .skip(1)
        .map(OsString::into_vec)
        .collect();
    println!("UTF-8, NCName and white space; and the text as a path, with no prefix declared");
    println!(
        "{:<28} {:<6} {:<7} {:<12} {:<10} field",
        "text", "UTF-8", "NCName", "white space", "selector"
    );
    if given.is_empty() {
        SAMPLES.iter().for_each(|text| show(text));
        println!("\nthe run of document 01, record by record, and its reports");
        show_run();
    } else {
        given.iter().for_each(|text| show(text));
    }
}

/// One line of the table.
fn show(text: &[u8]) {
    let yes_no = |answer| if answer { "yes" } else { "no" };
    println!(
        "{:<28} {:<6} {:<7} {:<12} {:<10} {}",
        format!("'{}'", text.escape_ascii()),
        yes_no(doors::is_utf8(text)),
        yes_no(doors::is_ncname(text)),
        white_space(text).map_or("-".into(), |count| count.to_string()),
        check_path(0, text, b""),
        check_path(1, text, b""),
    );
}

/// How many characters of a text are white space. A text that is not UTF-8 has no characters.
fn white_space(text: &[u8]) -> Option<usize> {
    if !doors::is_utf8(text) {
        return None;
    }
    let (mut count, mut at) = (0, 0);
    while at < text.len() {
        let (code, size) = doors::char_at(text, at);
        count += usize::from(doors::is_white_space(code));
        at += size;
    }
    Some(count)
}

/// Document 01's 'One run, whole': each record with its reply, then the reports and the counts.
fn show_run() {
    let mut session = Session::new(65_536, 65_536, 65_536);
    for record in one_run() {
        let bytes = record.bytes();
        let reply = session.record(&bytes);
        println!("{reply:<10} {}", bytes.escape_ascii());
        assert_eq!(reply, Reply::Taken);
    }
    println!("event kind constraint field scope tuple");
    for report in session.reports() {
        println!("{}", line(&report));
    }
    let tuples = (1..)
        .take_while(|&number| !session.tuple_field(number, 0).is_empty())
        .count();
    let reports = session.reports().count();
    println!("end {} {tuples} {reports}", session.numbers.events);
}

/// A report as document 01 prints it.
fn line(report: &Report) -> String {
    let Report {
        event,
        kind,
        constraint,
        field,
        scope,
        tuple,
    } = report;
    format!("{event} {kind} {constraint} {field} {scope} {tuple}")
}
