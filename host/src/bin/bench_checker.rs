//! Measures the path checker beside the original on the same paths by the same driver, and prints
//! the mean time of a path. docs/PERFORMANCE.md says what is measured.

use std::hint::black_box;
use std::process::ExitCode;
use std::time::{Duration, Instant};

use host::identity::{Checked, check_path};
use host::oracle;
use host::paths::{self, Kind, Question};
use host::random::Random;
use host::spaces;
use host::times::Times;

/// Selectors and fields as the templates of a month-end report have them.
const REPORT: [(Kind, &str); 40] = [
    (Kind::Selector, ".//ledger/voucher"),
    (Kind::Selector, "ledger/voucher/line"),
    (Kind::Selector, "fin:ledger/fin:voucher"),
    (Kind::Selector, ".//fin:voucher|.//fin:reversal"),
    (Kind::Selector, "child::period/child::entry"),
    (Kind::Selector, "section/table/*"),
    (Kind::Selector, ".//cost-centre/account"),
    (Kind::Selector, "fin:batch/*/fin:line"),
    (Kind::Selector, "rep:page/rep:*"),
    (Kind::Selector, "."),
    (Kind::Field, "@id"),
    (Kind::Field, "voucher-number"),
    (Kind::Field, "@fin:number"),
    (Kind::Field, "header/@period"),
    (Kind::Field, "account/@code|account/code"),
    (Kind::Field, "attribute::currency"),
    (Kind::Field, "child::amount/attribute::cur:code"),
    (Kind::Field, ".//fin:reference"),
    (Kind::Field, "fin:header/fin:posting-date"),
    (Kind::Field, "."),
    // Slips of the pen.
    (Kind::Selector, "//ledger/voucher"),
    (Kind::Selector, "ledger/voucher/"),
    (Kind::Selector, "ledger//voucher"),
    (Kind::Selector, "ledger/voucher[@id]"),
    (Kind::Selector, "voucher/@id"),
    (Kind::Selector, "../voucher"),
    (Kind::Selector, "descendant::voucher"),
    (Kind::Selector, "fin:ledger/led:voucher"),
    (Kind::Selector, "ledger/voucher|"),
    (Kind::Selector, ".//"),
    (Kind::Field, "voucher number"),
    (Kind::Field, "fin:"),
    (Kind::Field, "2025-report/@id"),
    (Kind::Field, "@id/text()"),
    (Kind::Field, "id()"),
    (Kind::Field, "@led:number"),
    (Kind::Field, "header/@period/value"),
    (Kind::Field, "parent::batch/@id"),
    (Kind::Field, ""),
    (Kind::Field, "*:amount"),
];

/// The prefixes that they are checked with.
const REPORT_PREFIXES: &str = "xs xsi fin rep cur";

/// How many random paths there are, made as the tests make theirs.
const GENERATED: usize = 400;

/// How often each side is measured, and for how long at least.
const ROUNDS: usize = 21;
const ROUND: Duration = Duration::from_millis(100);

fn main() -> ExitCode {
    if !cfg!(oracle) {
        eprintln!("the original Rust is not there (FASTXML_SRC, ../shared/docs/src)");
        return ExitCode::FAILURE;
    }
    let all = questions();
    let (valid, invalid): (Vec<_>, Vec<_>) = all.iter().cloned().partition(original);
    assert!(
        all.iter()
            .all(|question| door(question) == original(question))
    );
    println!("mean ns for a path, with the lowest and the highest of {ROUNDS} rounds");
    println!(
        "{:<8} {:>6} {:>7}  {:>24}  {:>24}  {:>9}",
        "paths", "number", "bytes", "Rust", "door", "door/Rust"
    );
    for (name, questions) in [("valid", &valid), ("invalid", &invalid), ("all", &all)] {
        compare(name, questions);
    }
    ExitCode::SUCCESS
}

/// The listed paths of the tests (document 01's among them), those of the report, random ones.
fn questions() -> Vec<Question> {
    let listed = paths::listed().into_iter().map(|(question, _)| question);
    let report = REPORT.map(|(kind, path)| Question {
        kind,
        path: path.into(),
        prefixes: REPORT_PREFIXES.into(),
    });
    let mut random = Random::new(0xBE9C);
    let generated = (0..GENERATED).map(|_| paths::question(&mut random));
    // the original takes other white space than XML's otherwise
    let is_comparable = |question: &Question| !spaces::holds_other(&question.path);
    let all = listed.chain(report).chain(generated);
    all.filter(is_comparable).collect()
}

fn original(question: &Question) -> bool {
    let Question {
        kind,
        path,
        prefixes,
    } = question;
    oracle::passes(*kind, path.as_bytes(), prefixes.as_bytes())
}

fn door(question: &Question) -> bool {
    let Question {
        kind,
        path,
        prefixes,
    } = question;
    check_path(kind.number(), path.as_bytes(), prefixes.as_bytes()) == Checked::Pass
}

/// Measures both sides in turns, so that what slows the machine slows both, and prints a row.
fn compare(name: &str, questions: &[Question]) {
    let (mut rust, mut doors) = (Times::default(), Times::default());
    for _ in 0..ROUNDS {
        rust.add(round(questions, original));
        doors.add(round(questions, door));
    }
    let bytes: usize = questions.iter().map(|question| question.path.len()).sum();
    println!(
        "{name:<8} {:>6} {:>7.1}  {:>24}  {:>24}  {:>9.2}",
        questions.len(),
        bytes as f64 / questions.len() as f64,
        text(&rust),
        text(&doors),
        doors.mean() / rust.mean(),
    );
}

/// Asks every question again and again until the round's time is over: ns for one.
fn round(questions: &[Question], ask: impl Fn(&Question) -> bool) -> f64 {
    let mut asked = 0;
    let began = Instant::now();
    while began.elapsed() < ROUND {
        for question in questions {
            black_box(ask(black_box(question)));
        }
        asked += questions.len();
    }
    began.elapsed().as_nanos() as f64 / asked as f64
}

/// The mean, with the lowest and the highest round.
fn text(times: &Times) -> String {
    let (low, high) = (times.lowest(), times.highest());
    format!("{:.1} ({low:.1} to {high:.1})", times.mean())
}
