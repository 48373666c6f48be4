//! Measures the record call and the run over a buffer beside the original, on the same events by the same
//! driver, and prints the time of a record. docs/PERFORMANCE.md says what is measured.

use std::hint::black_box;
use std::process::ExitCode;
use std::time::{Duration, Instant};

use host::beside::{Told, tell};
use host::definitions::Record as Definition;
use host::identity::{Numbers, Reply, Session};
use host::made::{ee, es, id, ns};
use host::model::records::Record;
use host::oracle::session;
use host::runs::through_all;
use host::store_doors;
use host::streams::{AMPLE, Stream};
use host::tally::Met;
use host::times::Times;

/// One that selects nothing, and one that selects each voucher.
const SELECTORS: [&str; 2] = [".//fin:none", ".//fin:voucher"];
/// How many constraints the template has, and so how many scopes are open in a document.
const SCOPES: [usize; 3] = [1, 4, 16];
/// How many vouchers such a document has. More would fill the tuple store where 16 scopes select them.
const VOUCHERS: [usize; 2] = [10, 100];

/// How many vouchers a month-end report has.
const MONTH_END: [usize; 4] = [1_000, 3_000, 10_000, 30_000];
/// Up to so many, door, model and original are held against each other record by record. The model's time
/// grows with the square.
const COMPARED: usize = 300;

/// What a program reads at a time.
const PIECE: usize = 65_536;

fn main() -> ExitCode {
    if !cfg!(oracle) {
        eprintln!("the original Rust is not there (FASTXML_SRC, ../shared/docs/src)");
        return ExitCode::FAILURE;
    }
    println!(
        "µs for a record, the lowest round; `run` and `record` as parts of the original's time"
    );
    println!(
        "\nopen scopes; of the record call's time the test whether the session is well formed"
    );
    println!(
        "{:<16} {:>6} {:>8} {:>7}  {HEAD}  {:>6}",
        "selector", "scopes", "vouchers", "records", "test"
    );
    for selector in SELECTORS {
        for scopes in SCOPES {
            for vouchers in VOUCHERS {
                open_scopes(selector, scopes, vouchers);
            }
        }
    }
    println!("\na month-end report: a key and a keyref, depth 4");
    println!("{:>8} {:>7} {:>7}  {HEAD}", "vouchers", "records", "KB");
    Events::month_end(COMPARED).assert_agreed();
    MONTH_END.into_iter().for_each(month_end);
    ExitCode::SUCCESS
}

// ---- the two tables

fn open_scopes(selector: &str, scopes: usize, vouchers: usize) {
    let events = Events::open_scopes(selector, scopes, vouchers);
    events.assert_agreed();
    let mut door = Door::new(&events);
    let measured = measure(&mut Rust::new(&events), &mut door);
    let records = events.document.len();
    let test = lowest(ROUNDS, records, || door.tests());
    println!("{selector:<16} {scopes:>6} {vouchers:>8} {records:>7}  {measured}  {test:>6.2}");
}

fn month_end(vouchers: usize) {
    let events = Events::month_end(vouchers);
    let (mut rust, mut door) = (Rust::new(&events), Door::new(&events));
    assert_same_end(&mut rust, &mut door);
    let measured = measure(&mut rust, &mut door);
    let (records, size) = (events.document.len(), door.session.numbers.tuples / 1024);
    println!("{vouchers:>8} {records:>7} {size:>7}  {measured}");
}

// ---- the events

/// The namespace of a report's elements, which `fin` is bound to.
const SPACE: &str = "urn:example:finance";

/// A template and a document.
struct Events {
    template: Vec<Record>,
    document: Vec<Record>,
}

impl Events {
    /// Each constraint is a key or a unique of the vouchers' numbers and amounts. All scopes are open from
    /// the ledger on.
    fn open_scopes(selector: &str, scopes: usize, vouchers: usize) -> Self {
        let fields = &["@number", "fin:amount"];
        let constraint = |number: usize| {
            let name = format!("constraint-{number}");
            id((number % 2) as u8, &name, None, selector, fields)
        };
        let numbers: Vec<u8> = (0..scopes as u8).collect();
        // An ES lists eight at most.
        let (outer, inner) = numbers.split_at(scopes / 2);
        let mut document = vec![start("report", outer, &[]), start("ledger", inner, &[])];
        for voucher in 0..vouchers {
            let number = number(voucher);
            document.push(start("voucher", &[], &[("number", &number)]));
            document.push(start("amount", &[], &[("currency", "EUR")]));
            document.push(ee(1, "100.00"));
            document.push(ee(0, ""));
        }
        document.extend([ee(0, ""), ee(0, ""), Record::Fi]);
        let mut template = vec![ns(0, "fin", SPACE)];
        template.extend((0..scopes).map(constraint));
        Self { template, document }
    }

    /// A key of the vouchers' numbers; and a keyref: each amount names the voucher that it settles, each
    /// voucher once.
    fn month_end(vouchers: usize) -> Self {
        let template = vec![
            ns(0, "fin", SPACE),
            id(1, "vouchers", None, "fin:ledger/fin:voucher", &["@number"]),
            id(
                2,
                "settled",
                Some("vouchers"),
                ".//fin:amount",
                &["@settles"],
            ),
        ];
        let mut document = vec![start("report", &[0, 1], &[]), start("ledger", &[], &[])];
        for voucher in 0..vouchers {
            // A prime that divides no number of vouchers.
            let settled = number(voucher * 7_919 % vouchers);
            document.push(start("voucher", &[], &[("number", &number(voucher))]));
            document.push(start("amount", &[], &[("settles", &settled)]));
            document.push(ee(1, "100.00"));
            document.push(ee(0, ""));
        }
        document.extend([ee(0, ""), ee(0, ""), Record::Fi]);
        Self { template, document }
    }

    /// Door, model and original must agree on each record.
    fn assert_agreed(&self) {
        let records = self.template.iter().chain(&self.document);
        let stream = Stream {
            lengths: AMPLE,
            tail: 0,
            fill: 0,
            records: records.map(Record::bytes).collect(),
        };
        let mut met = Met::default();
        through_all(&stream, &mut met).expect("no difference");
        met.replies.assert_each_at_least([0], stream.records.len());
    }
}

fn number(voucher: usize) -> String {
    format!("2025-{voucher:06}")
}

/// The start of an element of the report's namespace.
fn start(name: &str, numbers: &[u8], attributes: &[(&str, &str)]) -> Record {
    let mut start = es(name, numbers, attributes);
    if let Record::Es(es) = &mut start {
        es.space = SPACE.into();
    }
    start
}

// ---- the sides

/// The door's: a session that has taken the template, its numbers then, and the document's records as bytes,
/// one by one and as one buffer.
struct Door {
    session: Session,
    template: Numbers,
    records: Vec<Vec<u8>>,
    buffer: Vec<u8>,
}

impl Door {
    /// Stores as a program has them, and longer ones for a long document: then four records bring two tuples
    /// of 23 bytes. The report store has room for a report on each tuple.
    fn new(events: &Events) -> Self {
        let long = 16 * events.document.len();
        let (tuples, reports) = (AMPLE.tuples.max(long), AMPLE.reports.max(long));
        let mut session = Session::new(AMPLE.definitions, tuples, reports);
        for record in &events.template {
            assert_eq!(session.record(&record.bytes()), Reply::Taken);
        }
        let records: Vec<Vec<u8>> = events.document.iter().map(Record::bytes).collect();
        Self {
            template: session.numbers,
            buffer: records.concat(),
            session,
            records,
        }
    }

    /// The time of the document, record by record.
    fn by_records(&mut self) -> Duration {
        self.session.numbers = self.template;
        let began = Instant::now();
        for record in &self.records {
            black_box(self.session.record(black_box(record)));
        }
        began.elapsed()
    }

    /// The time of the document as a buffer that is handed in a piece at a time.
    fn by_runs(&mut self) -> Duration {
        self.session.numbers = self.template;
        let mut rest = &self.buffer[..];
        let began = Instant::now();
        while !rest.is_empty() {
            let piece = &rest[..PIECE.min(rest.len())];
            let (reply, taken) = self.session.run(black_box(piece));
            assert_eq!(reply, Reply::Taken);
            rest = &rest[taken..];
        }
        began.elapsed()
    }

    /// The time that the test takes whether the session is well formed, before each record of the document.
    fn tests(&mut self) -> Duration {
        self.session.numbers = self.template;
        let mut time = Duration::ZERO;
        for record in &self.records {
            let stores = &self.session.stores;
            let tested = store_doors::Lent {
                numbers: self.session.numbers,
                scopes: &stores.scopes,
                paths: stores.paths.len(),
                definitions: &stores.definitions,
                tuples: &stores.tuples,
                reports: &stores.reports,
                names: &stores.names,
                cells: &stores.cells,
            };
            let began = Instant::now();
            black_box(store_doors::well_formed(black_box(tested)));
            time += began.elapsed();
            self.session.record(record);
        }
        time
    }
}

/// The original's: constraints and events, made before anything is timed.
struct Rust {
    template: Vec<Definition>,
    document: Vec<Told>,
}

impl Rust {
    fn new(events: &Events) -> Self {
        let definition = |record: &Record| match Told::of(record) {
            Told::Definition(definition) => definition,
            _ => panic!("an event in a template"),
        };
        Self {
            template: events.template.iter().map(definition).collect(),
            document: events.document.iter().map(Told::of).collect(),
        }
    }

    /// The time of the document. The original looks keyrefs up at the end.
    fn run(&mut self) -> Duration {
        let mut session = session::Session::new(&self.template);
        let began = Instant::now();
        for told in &self.document {
            tell(&mut session, black_box(told));
        }
        black_box(session.keyref_messages());
        began.elapsed()
    }

    /// How many reports it has, and how many vouchers.
    fn ends_with(&self) -> (usize, usize) {
        let mut session = session::Session::new(&self.template);
        self.document
            .iter()
            .for_each(|told| tell(&mut session, told));
        let reports = session.messages().len() + session.keyref_messages().len();
        (reports, session.tuples("vouchers").len())
    }
}

/// Where a document is too long for the model: records and buffer leave the same bytes, and the original has
/// as many vouchers and reports.
fn assert_same_end(rust: &mut Rust, door: &mut Door) {
    door.by_records();
    let by_records = door.session.clone();
    door.by_runs();
    let (given, due) = (&door.session, &by_records);
    assert_eq!(given.numbers, due.numbers);
    assert!(given.stores.tuples == due.stores.tuples && given.stores.reports == due.stores.reports);
    assert_eq!(due.numbers.events as usize, 3 + door.records.len());
    let vouchers = (1..).take_while(|&number| !due.tuple_field(number, 0).is_empty());
    let ended = (due.reports().count(), vouchers.count() / 2);
    assert_eq!(ended, rust.ends_with());
}

// ---- the driver

/// How often each side is measured, and for how long at least; a document that takes a second record by
/// record is measured less often.
const ROUNDS: usize = 21;
const LONG_ROUNDS: usize = 3;
const ROUND: Duration = Duration::from_millis(20);
const LONG: Duration = Duration::from_secs(1);

/// The columns of all sides.
const HEAD: &str = "    Rust     run  record  run/Rust  record/Rust";

/// Measures the sides in turns, so that what slows the machine slows each, and gives their columns.
fn measure(rust: &mut Rust, door: &mut Door) -> String {
    let records = door.records.len();
    let rounds = match door.by_records() {
        time if time < LONG => ROUNDS,
        _ => LONG_ROUNDS,
    };
    let (mut rusts, mut runs, mut singly) = (Times::default(), Times::default(), Times::default());
    for _ in 0..rounds {
        rusts.add(round(records, || rust.run()));
        runs.add(round(records, || door.by_runs()));
        singly.add(round(records, || door.by_records()));
    }
    let (rust, run, record) = (rusts.lowest(), runs.lowest(), singly.lowest());
    format!(
        "{rust:>8.2} {run:>7.2} {record:>7.2}  {:>8.2}  {:>11.2}",
        run / rust,
        record / rust
    )
}

fn lowest(rounds: usize, records: usize, mut run: impl FnMut() -> Duration) -> f64 {
    let mut times = Times::default();
    for _ in 0..rounds {
        times.add(round(records, &mut run));
    }
    times.lowest()
}

/// Runs whole documents until the round's time is over: µs for a record.
fn round(records: usize, mut run: impl FnMut() -> Duration) -> f64 {
    let (mut runs, mut time) = (0, Duration::ZERO);
    while time < ROUND {
        time += run();
        runs += 1;
    }
    time.as_nanos() as f64 / 1000.0 / (runs * records) as f64
}
