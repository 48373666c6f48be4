//! A session through the doors: each call against the plain reading of document 01, byte for byte; random
//! streams, also beside the original and counted by the tree; listed runs; each limit and one past it; areas
//! and stores damaged between calls; and the tuple views.

use std::thread;

use host::beside::{self, LeftOut, Told};
use host::identity::{Reply, Report, STACK_MAX, Session, Stores};
use host::made::{ee, es, id, leaf, ns, one_run};
use host::model::counts::{EVENTS_MAX, Lengths};
use host::model::records::{Attribute, Es, Record, framed};
use host::model::reports::{self, Rp};
use host::model::tuples::Tu;
use host::oracle::session::Session as Original;
use host::random::Random;
use host::runs::{Run, Through, compare_damaged, compare_view, shown, through_all, through_door};
use host::streams::{self, AMPLE, Stream};
use host::tally::{Met, Seen};

// ---- runs of listed records

/// A session just set up, with ample stores and areas of the least lengths.
fn set_up() -> Run {
    with(AMPLE)
}

fn with(lengths: Lengths) -> Run {
    Run::set_up(&Stream {
        lengths,
        tail: 0,
        fill: 0xEE,
        records: Vec::new(),
    })
}

/// Hands in a record, which must be answered so.
#[track_caller]
fn answers(run: &mut Run, record: &Record, due: u32) {
    answers_bytes(run, &record.bytes(), due);
}

#[track_caller]
fn answers_bytes(run: &mut Run, record: &[u8], due: u32) {
    let line = streams::line(record);
    assert_eq!(run.take(record), Ok(due), "{line}");
}

/// Hands in records, which must all be taken.
#[track_caller]
fn takes<'a>(run: &mut Run, records: impl IntoIterator<Item = &'a Record>) {
    for record in records {
        answers(run, record, 0);
    }
}

/// The reports so far: event, kind, constraint, field, scope, tuple.
fn reports_of(run: &Run) -> Vec<(u32, u8, u8, u8, u32, u32)> {
    let used = run.world.numbers.reports as usize;
    let reports = reports::read(&run.world.report_store[..used], 32).expect("reports that read");
    let row = |it: &Rp| {
        (
            it.event,
            it.kind,
            it.constraint,
            it.field,
            it.scope,
            it.tuple,
        )
    };
    reports.iter().map(row).collect()
}

fn tuples_of(run: &Run) -> Vec<Tu> {
    run.world.decode().expect("a session of a run").tuples
}

/// Document 01, 'One run, whole'.
#[test]
fn the_run_of_document_01_gives_its_reports() {
    let mut run = set_up();
    takes(&mut run, &one_run());
    assert_eq!(reports_of(&run), [(6, 4, 0, 0, 1, 1), (8, 3, 0, 0, 1, 0)]);
    let ended = (run.world.numbers.events, tuples_of(&run).len());
    assert_eq!(ended, (10, 1));
    assert_eq!(run.view(), Ok(1));
    for record in &one_run() {
        answers(&mut run, record, 11);
    }
}

/// The same run by the library's calls for Rust, over stores that are as long as it needs, to the byte: its
/// own, and borrowed.
#[test]
fn a_session_is_driven_by_the_librarys_calls() {
    let mut own = Session::new(18, 13, 36);
    let mut stores = Stores::new(18, 13, 36);
    let mut borrowed = Session::set_up(Stores::<&mut [u8]> {
        definitions: &mut stores.definitions,
        tuples: &mut stores.tuples,
        reports: &mut stores.reports,
        paths: &mut stores.paths,
        scopes: &mut stores.scopes,
        names: &mut stores.names,
        cells: &mut stores.cells,
    });
    for record in &one_run() {
        let bytes = record.bytes();
        assert_eq!(own.record(&bytes), Reply::Taken);
        assert_eq!(borrowed.record(&bytes), Reply::Taken);
    }
    let report = |event, kind, tuple| Report {
        event,
        kind,
        constraint: 0,
        field: 0,
        scope: 1,
        tuple,
    };
    let due = [report(6, 4, 1), report(8, 3, 0)];
    assert_eq!(own.reports().collect::<Vec<_>>(), due);
    assert_eq!(borrowed.reports().collect::<Vec<_>>(), due);
    for field in [own.tuple_field(1, 0), borrowed.tuple_field(1, 0)] {
        assert_eq!(field, b"a");
    }
    assert_eq!(own.record(b"FI\0\0"), Reply::Refused(11));
    assert_eq!((own.numbers, 10), (borrowed.numbers, own.numbers.events));
}

/// Kinds 1 to 6 in one run, and which is asked first: Multiple before NotSimple before Unset.
#[test]
fn each_kind_of_report_is_given() {
    let mut run = set_up();
    takes(
        &mut run,
        &[
            id(1, "k", None, "r", &["@id", "a", "b"]),
            id(0, "u", None, "r", &["@id"]),
            id(2, "f", Some("u"), "v", &["@id"]),
            id(1, "x", None, "a//b", &["@id"]),
            es("t", &[0, 1, 2, 3], &[]),
        ],
    );
    // Both a's, no b; then one a that is not simple, no b; then no a and no b.
    for (attributes, children) in [
        (&[("id", "1")][..], &["a", "a"][..]),
        (&[("id", "1")], &["a"]),
        (&[("id", "2")], &[]),
        (&[], &[]),
    ] {
        takes(&mut run, &[es("r", &[], attributes)]);
        for child in children {
            takes(&mut run, &leaf(child, &[]));
        }
        takes(&mut run, &[ee(0, "")]);
    }
    takes(&mut run, &leaf("v", &[("id", "2")]));
    takes(&mut run, &leaf("v", &[("id", "3")]));
    takes(&mut run, &[ee(0, ""), Record::Fi]);
    let due = [
        (5, 6, 3, 0, 0, 0),
        (11, 1, 0, 0, 1, 0),
        (15, 2, 0, 0, 1, 0),
        (15, 4, 1, 0, 2, 1),
        (17, 3, 0, 1, 1, 0),
        (19, 3, 0, 0, 1, 0),
        (25, 5, 2, 0, 3, 4),
    ];
    assert_eq!(reports_of(&run), due);
}

/// Tuples of one constraint in two scopes, one inside the other and one behind the other: kind 4 asks its
/// own scope alone.
#[test]
fn scopes_of_one_constraint_do_not_share_their_tuples() {
    let mut run = set_up();
    takes(
        &mut run,
        &[id(1, "k", None, ".//r", &["@id"]), es("t", &[], &[])],
    );
    for _ in 0..2 {
        takes(&mut run, &[es("s", &[0], &[]), es("s", &[0], &[])]);
        takes(&mut run, &leaf("r", &[("id", "1")]));
        takes(&mut run, &[ee(0, "")]);
        takes(&mut run, &leaf("r", &[("id", "1")]));
        takes(&mut run, &[ee(0, "")]);
    }
    let scopes: Vec<u32> = tuples_of(&run).iter().map(|tuple| tuple.scope).collect();
    assert_eq!(scopes, [1, 2, 3, 4]);
    assert_eq!(reports_of(&run), [(9, 4, 0, 0, 1, 1), (17, 4, 0, 0, 3, 3)]);
}

#[test]
fn a_second_root_goes_on_counting() {
    let mut run = set_up();
    takes(&mut run, &[id(1, "k", None, ".", &["@id"])]);
    for root in 1..=3 {
        takes(&mut run, &[es("t", &[0], &[("id", "1")]), ee(0, "")]);
        assert_eq!(tuples_of(&run).len(), root);
    }
    takes(&mut run, &[Record::Fi]);
    assert_eq!(reports_of(&run), []);
}

#[test]
fn a_document_without_elements_is_finished() {
    for template in [&[][..], &[id(0, "u", None, ".", &["."])]] {
        let mut run = set_up();
        takes(&mut run, template);
        answers(&mut run, &ee(0, ""), 13);
        answers(&mut run, &Record::Fi, 0);
        answers(&mut run, &Record::Fi, 11);
        answers(&mut run, &es("t", &[], &[]), 11);
        assert_eq!(reports_of(&run), []);
    }
}

/// A refer means every unique and key of its name and no keyref; kind 6 is told once for a name.
#[test]
fn constraints_may_bear_one_name() {
    let mut run = set_up();
    takes(
        &mut run,
        &[
            id(0, "k", None, "a", &["@id"]),
            id(1, "k", None, "b", &["@id"]),
            id(2, "k", Some("k"), "v", &["@id"]),
            id(2, "k", None, "v", &["@id"]),
            id(0, "k", None, "", &["@id"]),
            id(0, "k", None, ".", &[".//"]),
            id(0, "l", None, "", &["@id"]),
            es("t", &[0, 1, 2, 3, 4, 5, 6, 4], &[]),
        ],
    );
    for (name, key) in [("a", "1"), ("b", "2"), ("v", "1"), ("v", "2"), ("v", "3")] {
        takes(&mut run, &leaf(name, &[("id", key)]));
    }
    takes(&mut run, &[ee(0, ""), Record::Fi]);
    let due = [(8, 6, 4, 0, 0, 0), (8, 6, 6, 0, 0, 0), (20, 5, 2, 0, 3, 5)];
    assert_eq!(reports_of(&run), due);
}

/// A keyref is answered or not, whether the tuple store is short, or long enough for a table of places (D76),
/// or for the larger one. Every third refers to what is not there.
#[test]
fn keyrefs_are_answered_in_stores_of_any_size() {
    let key = |number: usize| format!("2025-{number:06}");
    for (keys, least) in [(20, 0), (60, 2_048), (3_000, 131_072)] {
        let mut records = vec![
            id(1, "k", None, "r", &["@id"]),
            id(2, "f", Some("k"), "v", &["@id"]),
            es("t", &[0, 1], &[]),
        ];
        for number in 0..keys {
            let past = if number % 3 == 0 { keys } else { 0 };
            let refer = key(past + number * 7_919 % keys);
            records.extend(leaf("v", &[("id", &refer)]));
            records.extend(leaf("r", &[("id", &key(number))]));
        }
        records.extend([ee(0, ""), Record::Fi]);
        let bytes: Vec<u8> = records.iter().flat_map(Record::bytes).collect();
        // Exactly enough for the reports, so that they are counted first.
        let mut session = Session::new(65_536, 200_000, 18 * keys.div_ceil(3));
        assert_eq!(session.run(&bytes), (Reply::Taken, bytes.len()));
        assert!(session.numbers.tuples >= least);
        let report = |number| Report {
            event: records.len() as u32,
            kind: 5,
            constraint: 1,
            field: 0,
            scope: 2,
            tuple: 2 * number + 1,
        };
        let due = (0..keys as u32).step_by(3).map(report);
        assert!(session.reports().eq(due), "{keys} keys");
    }
}

/// Of vouchers that come again the second is reported with the first one's number, however the run is cut into
/// pieces, long ones, whose marks (D77) begin with the tuples of earlier ones, and short ones, which have none;
/// and the same numbers in another scope are kept there.
#[test]
fn repeats_are_found_wherever_a_run_is_cut() {
    const VOUCHERS: usize = 700;
    let number = |voucher: usize| format!("2025-{:06}", voucher * 311 % 500);
    let mut records = vec![id(0, "k", None, "r", &["@id"])];
    for _ in 0..2 {
        records.push(es("t", &[0], &[]));
        for voucher in 0..VOUCHERS {
            records.extend(leaf("r", &[("id", &number(voucher))]));
        }
        records.push(ee(0, ""));
    }
    records.push(Record::Fi);
    let bytes: Vec<u8> = records.iter().flat_map(Record::bytes).collect();
    let report = |ledger: u32, voucher: u32| Report {
        event: 1 + ledger * (2 * VOUCHERS as u32 + 2) + 1 + 2 * (voucher + 1),
        kind: 4,
        constraint: 0,
        field: 0,
        scope: ledger + 1,
        tuple: ledger * 500 + (voucher - 500) + 1,
    };
    let due: Vec<Report> = (0..2)
        .flat_map(|ledger| (500..VOUCHERS as u32).map(move |voucher| report(ledger, voucher)))
        .collect();
    for piece in [bytes.len(), 10_007, 1_000] {
        let mut session = Session::new(65_536, 65_536, 65_536);
        let mut rest = &bytes[..];
        while !rest.is_empty() {
            let (reply, taken) = session.run(&rest[..piece.min(rest.len())]);
            assert_eq!(reply, Reply::Taken);
            rest = &rest[taken..];
        }
        assert!(
            session.reports().eq(due.iter().copied()),
            "{piece} bytes at a time"
        );
    }
}

#[test]
fn a_number_that_is_listed_twice_opens_two_scopes() {
    let mut run = set_up();
    takes(
        &mut run,
        &[id(1, "k", None, "r", &["@id"]), es("t", &[0, 0], &[])],
    );
    takes(&mut run, &leaf("r", &[("id", "1")]));
    takes(&mut run, &leaf("r", &[("id", "1")]));
    assert_eq!(reports_of(&run), [(6, 4, 0, 0, 1, 1), (6, 4, 0, 0, 2, 2)]);
}

/// An empty key is a key; a unique drops what a key reports.
#[test]
fn an_empty_key_is_set() {
    let mut run = set_up();
    takes(
        &mut run,
        &[
            id(1, "k", None, "r", &["@id"]),
            id(0, "u", None, "r", &["@id"]),
            es("t", &[0, 1], &[]),
        ],
    );
    for attributes in [&[("id", "")][..], &[("id", "")], &[]] {
        takes(&mut run, &leaf("r", attributes));
    }
    let due = [(7, 4, 0, 0, 1, 1), (7, 4, 1, 0, 2, 2), (9, 3, 0, 0, 1, 0)];
    assert_eq!(reports_of(&run), due);
}

/// A node is one hit, an attribute or an element, however many alternatives of a field reach it; an element is
/// selected once, however many alternatives of the selector match it.
#[test]
fn a_node_that_several_alternatives_reach_is_one_hit() {
    let fields = [
        ("@id", 4),
        ("@id|@id", 4),
        ("@x:id|.//@*", 4),
        ("a", 4),
        ("a|a", 4),
        ("a|.//a", 4),
        ("a|*", 4),
        (".//a|@x", 4),
        ("a|@id", 1),
        (".|.//.", 1),
    ];
    for (field, kind) in fields {
        let mut run = set_up();
        takes(
            &mut run,
            &[id(1, "k", None, "r|.//r|*", &[field]), es("t", &[0], &[])],
        );
        for _ in 0..2 {
            takes(&mut run, &[es("r", &[], &[("id", "1")]), es("a", &[], &[])]);
            takes(&mut run, &[ee(1, "1"), ee(0, "")]);
        }
        let kinds: Vec<u8> = reports_of(&run).iter().map(|report| report.1).collect();
        // The first tuple is taken, and the second is its duplicate.
        let due = if kind == 4 { vec![4] } else { vec![1, 1] };
        assert_eq!(kinds, due, "{field}");
    }
}

/// Two nodes are two hits, whatever reaches them: children side by side, one of them deeper, attributes of one name,
/// an element and an attribute. The last two rows are one node each, reached by one alternative and by both.
#[test]
fn two_nodes_are_two_hits_however_they_are_reached() {
    let child = || [es("a", &[], &[]), ee(1, "1")].to_vec();
    let deeper = || [vec![es("b", &[], &[])], child(), vec![ee(0, "")]].concat();
    let none = Vec::new;
    let rows = [
        ("a|.//a", vec![], [child(), child()], 1),
        ("a|.//a", vec![], [child(), deeper()], 1),
        (
            "@id|@*",
            vec![("id", "1"), ("x:id", "1")],
            [none(), none()],
            1,
        ),
        (
            "@id|@id",
            vec![("id", "1"), ("id", "1")],
            [none(), none()],
            1,
        ),
        ("a|@a", vec![("a", "1")], [child(), none()], 1),
        ("a|.//a", vec![], [deeper(), none()], 4),
        ("a|.//a", vec![], [child(), none()], 4),
    ];
    for (field, attributes, inside, kind) in rows {
        let mut run = set_up();
        takes(
            &mut run,
            &[id(1, "k", None, "r", &[field]), es("t", &[0], &[])],
        );
        for _ in 0..2 {
            takes(&mut run, &[es("r", &[], &attributes)]);
            takes(&mut run, &inside.concat());
            takes(&mut run, &[ee(0, "")]);
        }
        let kinds: Vec<u8> = reports_of(&run).iter().map(|report| report.1).collect();
        let due = if kind == 4 { vec![4] } else { vec![1, 1] };
        assert_eq!(kinds, due, "{field} on {attributes:?} and {inside:?}");
    }
}

/// One voucher found by two routes: the original has two hits and reports kind 1, here its field is Set.
#[test]
#[cfg_attr(
    not(oracle),
    ignore = "not compared: the original Rust is not there (FASTXML_SRC, ../shared/docs/src)"
)]
fn one_voucher_found_by_two_routes_is_set_and_several_values_for_the_original() {
    for (field, child) in [("a|a", "a"), ("number|.//number", "number")] {
        let template = [id(1, "k", None, "v", &[field])];
        let document = [
            es("t", &[0], &[]),
            es("v", &[], &[]),
            es(child, &[], &[]),
            ee(1, "7"),
            ee(0, ""),
            ee(0, ""),
            Record::Fi,
        ];
        let mut run = set_up();
        takes(&mut run, template.iter().chain(&document));
        assert_eq!(reports_of(&run), [], "{field}");
        let keys: Vec<_> = tuples_of(&run).into_iter().map(|it| it.keys).collect();
        assert_eq!(keys, [[b"7"]], "{field}");
        assert_eq!(LeftOut::of(&run.world), Some(LeftOut::SeveralRoutes));
        let definitions = template.iter().map(|record| match Told::of(record) {
            Told::Definition(definition) => definition,
            _ => panic!("no definition"),
        });
        let mut original = Original::new(&definitions.collect::<Vec<_>>());
        for record in &document {
            beside::tell(&mut original, &Told::of(record));
        }
        let due = ["key 'k': a field matches more than one node"];
        assert_eq!(original.messages(), due, "{field}");
    }
}

/// What an element of a field's name is, where there is one.
#[derive(Debug, Clone, Copy, PartialEq, Eq)]
enum Child {
    Missing,
    Simple,
    Nillable,
    Complex,
    Two,
}

impl Child {
    const ALL: [Self; 5] = [
        Self::Missing,
        Self::Simple,
        Self::Nillable,
        Self::Complex,
        Self::Two,
    ];

    /// The simple bytes of the elements.
    fn ends(self) -> &'static [u8] {
        match self {
            Self::Missing => &[],
            Self::Simple => &[1],
            Self::Nillable => &[2],
            Self::Complex => &[0],
            Self::Two => &[1, 2],
        }
    }
}

/// An element r with children a, b and c of these.
fn with_children(children: [Child; 3]) -> Vec<Record> {
    let mut records = vec![es("r", &[], &[])];
    for (name, child) in ["a", "b", "c"].into_iter().zip(children) {
        for &simple in child.ends() {
            records.extend([es(name, &[], &[]), ee(simple, name)]);
        }
    }
    records.push(ee(0, ""));
    records
}

/// The report due on a selection of a constraint of this kind, by kind and field, where its texts are there
/// already as tuple 1; none where it is dropped, or of a keyref kept.
fn due_on(kind: u8, children: [Child; 3]) -> Option<(u8, u8)> {
    let lowest = |child| children.iter().position(|it| *it == child);
    let key_only = |report: u8, field: usize| (kind == 1).then_some((report, field as u8));
    if lowest(Child::Two).is_some() {
        return Some((1, 0));
    }
    if lowest(Child::Complex).is_some() {
        return Some((2, 0));
    }
    if let Some(field) = lowest(Child::Missing) {
        return key_only(3, field);
    }
    match lowest(Child::Nillable) {
        Some(field) if kind == 1 => key_only(7, field),
        _ => (kind < 2).then_some((4, 0)),
    }
}

/// Document 02, U9. Three fields, each without an element, or with a simple, a nillable, one without a simple
/// value, or two: 125 selections, of each kind of constraint, behind one whose three texts are stored.
#[test]
fn a_nillable_key_field_is_asked_for_last() {
    let mut seen = Seen::default();
    for kind in 0..3 {
        for number in 0..125 {
            let children = [number % 5, number / 5 % 5, number / 25].map(|it| Child::ALL[it]);
            let mut run = set_up();
            let constraint = id(kind, "k", Some("k"), "r", &["a", "b", "c"]);
            takes(&mut run, &[constraint, es("t", &[0], &[])]);
            takes(&mut run, &with_children([Child::Simple; 3]));
            takes(&mut run, &with_children(children));
            let reports = reports_of(&run);
            let given = reports.last().map(|it| (it.1, it.3));
            assert_eq!(given, due_on(kind, children), "kind {kind}, {children:?}");
            let tuple = if given == Some((4, 0)) { 1 } else { 0 };
            assert!(reports.iter().all(|it| (it.4, it.5) == (1, tuple)));
            // Only a keyref keeps equal tuples, and none of them is kept beside a report.
            let is_whole = children
                .iter()
                .all(|it| [Child::Simple, Child::Nillable].contains(it));
            let kept = 1 + usize::from(kind == 2 && is_whole);
            assert_eq!(tuples_of(&run).len(), kept, "kind {kind}, {children:?}");
            let has_two = children.iter().any(|it| it.ends().contains(&2));
            let left_out = has_two.then_some(LeftOut::Nillable);
            assert_eq!(LeftOut::of(&run.world), left_out);
            seen.take(given);
        }
    }
    assert_eq!(seen.all(), 375);
    seen.assert_each_at_least([0, 1, 2].map(|field| Some((7, field))), 1);
    seen.assert_each_at_least([Some((1, 0)), Some((2, 0)), Some((4, 0)), None], 1);
}

/// Nothing is kept of a key's tuple on a nillable element: it is no duplicate, and makes none. An attribute is
/// never so marked.
#[test]
fn a_nillable_key_field_keeps_no_tuple() {
    let number = |simple: u8| {
        [
            es("r", &[], &[]),
            es("n", &[], &[]),
            ee(simple, "7"),
            ee(0, ""),
        ]
    };
    for (kind, due) in [(1, vec![7, 7, 4]), (0, vec![4, 4, 4]), (2, vec![])] {
        let mut run = set_up();
        let constraint = id(kind, "k", Some("k"), "r", &["n"]);
        takes(&mut run, &[constraint, es("t", &[0], &[])]);
        for simple in [2, 1, 2, 1] {
            takes(&mut run, &number(simple));
        }
        let kinds: Vec<u8> = reports_of(&run).iter().map(|it| it.1).collect();
        assert_eq!(kinds, due, "kind {kind}");
        let kept = if kind == 2 { 4 } else { 1 };
        assert_eq!(tuples_of(&run).len(), kept, "kind {kind}");
    }
    let mut run = set_up();
    takes(
        &mut run,
        &[
            id(1, "k", None, ".", &["@id", "a/@id"]),
            es("t", &[0], &[("id", "1")]),
            es("a", &[], &[("id", "2")]),
            ee(2, "3"),
            ee(2, "4"),
        ],
    );
    assert_eq!((reports_of(&run), tuples_of(&run).len()), (vec![], 1));
}

/// Prefixes are looked up in the path's own bindings, then schema-wide; one bound to an empty URI matches
/// nothing, one that is not bound anything.
#[test]
fn prefixes_are_looked_up_path_by_path() {
    let selectors = [(".//p:r", 1), (".//q:r", 0), (".//e:r", 0), (".//o:r", 3)];
    for (selector, selected) in selectors {
        let mut run = set_up();
        takes(
            &mut run,
            &[
                ns(0, "p", "w"),
                ns(0, "q", "w"),
                ns(0, "e", ""),
                id(1, "k", None, selector, &["@id"]),
                ns(1, "p", "u"),
                ns(1, "p", "v"),
                ns(2, "q", "u"),
                es("t", &[0], &[]),
            ],
        );
        for space in ["", "u", "v"] {
            let start = Record::Es(Es {
                space: space.into(),
                name: b"x:r".into(),
                numbers: Vec::new(),
                attributes: Vec::new(),
            });
            takes(&mut run, &[start, ee(0, "")]);
        }
        assert_eq!(reports_of(&run).len(), selected, "{selector}");
    }
}

// ---- the limits of the input, each and one past it

/// Makes a record of which something has a length or a count.
type Made = fn(usize) -> Record;

fn long(length: usize) -> String {
    "l".repeat(length)
}

fn attributes(count: usize) -> Record {
    es("t", &[], &vec![("n", "k"); count])
}

#[test]
fn each_limit_of_the_input_is_taken_and_not_one_more() {
    let texts: [Made; 8] = [
        |n| id(1, &long(n), None, ".", &["."]),
        |n| id(2, "f", Some(&long(n)), ".", &["."]),
        |n| id(1, "k", None, &long(n), &["."]),
        |n| id(1, "k", None, ".", &[".", ".", ".", &long(n)]),
        |n| ns(0, &long(n), ""),
        |n| ns(0, "p", &long(n)),
        |n| es(&long(n), &[], &[]),
        |n| es("t", &[], &[(&long(n), "")]),
    ];
    for made in texts {
        compare_limit(255, made);
    }
    compare_limit(255, |n| {
        Record::Es(Es {
            space: long(n).into(),
            name: Vec::new(),
            numbers: Vec::new(),
            attributes: Vec::<Attribute>::new(),
        })
    });
    compare_limit(126, |n| es("t", &[], &[("id", &long(n))]));
    compare_limit(4, |n| id(1, "k", None, ".", &vec!["."; n]));
    compare_limit(32, attributes);
    compare_limit(7, |n| id(1, "k", None, &"|".repeat(n), &["."]));
    compare_limit(7, |n| id(1, "k", None, ".", &[&"|".repeat(n)]));
    compare_limit(16, |n| id(1, "k", None, &"/".repeat(n), &["."]));
    compare_limit(16, |n| id(1, "k", None, ".", &[".", &"/".repeat(n)]));
    let mut run = set_up();
    answers(&mut run, &id(1, "k", None, ".", &[]), 5);
}

/// Set up anew, the limit is taken; one more is refused with 5, and then the limit is taken all the same.
#[track_caller]
fn compare_limit(limit: usize, made: Made) {
    let mut run = set_up();
    answers(&mut run, &made(limit + 1), 5);
    answers(&mut run, &made(limit), 0);
}

#[test]
fn an_ee_and_an_es_have_limits_inside_a_document_too() {
    let mut run = set_up();
    takes(
        &mut run,
        &[id(0, "u", None, ".//.", &["."]), es("t", &[], &[])],
    );
    answers(&mut run, &es("t", &[0; 9], &[]), 5);
    answers(&mut run, &es("t", &[0; 8], &[]), 0);
    answers(&mut run, &ee(1, &long(127)), 5);
    answers(&mut run, &ee(1, &long(126)), 0);
    assert_eq!(tuples_of(&run).len(), 8);
    assert_eq!(run.view(), Ok(8));
}

/// 1 to 5 by their bytes, in a session that is set up and in one where an element is open.
#[test]
fn what_is_no_record_is_refused_with_its_number() {
    let body = vec![0; 16_385];
    let too_long = framed(b"ES", &body);
    let rows: [(&[u8], u32); 16] = [
        (b"", 1),
        (b"E", 1),
        (b"TU\0\0", 1),
        (b"RP\0\0", 1),
        (b"es\0\0", 1),
        (b"ES", 2),
        (b"FI\0", 2),
        (b"FI\0\0\0", 2),
        (b"FI\x01\0\0", 2),
        (b"EE\x03\0\0\0", 2),
        (b"EE\x01\x40", 5),
        (&too_long, 5),
        (&too_long[..100], 5),
        (b"EE\x04\0\0\x01\0\xFF", 3),
        (b"EE\x03\0\x03\0\0", 4),
        (b"NS\x05\0\x06\0\0\0\0", 4),
    ];
    for opened in [&[][..], &[es("t", &[], &[])]] {
        let mut run = set_up();
        takes(&mut run, opened);
        for (record, due) in rows {
            answers_bytes(&mut run, record, due);
        }
    }
}

// ---- the limits of a session

#[test]
fn elements_are_opened_to_a_depth_of_64() {
    let mut run = set_up();
    for _ in 0..64 {
        answers(&mut run, &es("e", &[], &[]), 0);
    }
    answers(&mut run, &es("e", &[], &[]), 14);
    answers(&mut run, &ee(0, ""), 0);
    answers(&mut run, &es("e", &[], &[]), 0);
    answers(&mut run, &es("e", &[], &[]), 14);
}

#[test]
fn sixteen_scopes_are_opened() {
    let mut run = set_up();
    takes(&mut run, &[id(0, "u", None, "x", &["@id"])]);
    takes(&mut run, &[es("e", &[0; 8], &[]), es("e", &[0; 8], &[])]);
    answers(&mut run, &es("e", &[0], &[]), 20);
    takes(&mut run, &[es("e", &[], &[]), ee(0, ""), ee(0, "")]);
    takes(&mut run, &[es("e", &[0; 7], &[]), es("e", &[0], &[])]);
    answers(&mut run, &es("e", &[0], &[]), 20);
    let mut run = set_up();
    takes(&mut run, &[id(0, "u", None, "x", &["@id"])]);
    takes(&mut run, &[es("e", &[0; 8], &[]), es("e", &[0; 7], &[])]);
    answers(&mut run, &es("e", &[0, 0], &[]), 20);
    answers(&mut run, &es("e", &[0], &[]), 0);
}

/// A constraint that does not read opens none, however often it is listed.
#[test]
fn a_constraint_that_does_not_read_takes_no_scope() {
    let mut run = set_up();
    takes(&mut run, &[id(0, "u", None, "x/", &["@id"])]);
    for _ in 0..10 {
        answers(&mut run, &es("e", &[0; 8], &[]), 0);
    }
    assert_eq!(reports_of(&run), [(2, 6, 0, 0, 0, 0)]);
}

#[test]
fn selections_are_opened_up_to_32() {
    for scopes in [1, 2, 4, 8] {
        let mut run = set_up();
        takes(&mut run, &[id(0, "u", None, ".//.", &["@id"])]);
        let mut numbers = vec![0; scopes];
        for _ in 0..32 / scopes {
            answers(&mut run, &es("e", &numbers, &[]), 0);
            numbers.clear();
        }
        answers(&mut run, &es("e", &[], &[]), 21);
        answers(&mut run, &ee(0, ""), 0);
        answers(&mut run, &es("e", &[], &[("id", "1")]), 0);
        answers(&mut run, &es("e", &[], &[]), 21);
    }
}

/// Where one ES is past several limits the order is 12, 14, 20, 21.
#[test]
fn of_several_limits_depth_comes_first_then_scopes_then_selections() {
    let all = id(0, "u", None, ".//.", &["@id"]);
    let far = id(0, "v", None, "x", &["@id"]);
    // 64 elements are open, and sixteen scopes: one more of each.
    let mut run = set_up();
    takes(&mut run, std::slice::from_ref(&far));
    takes(&mut run, &[es("e", &[0; 8], &[]), es("e", &[0; 8], &[])]);
    for _ in 2..64 {
        takes(&mut run, &[es("e", &[], &[])]);
    }
    answers(&mut run, &es("e", &[1], &[]), 12);
    answers(&mut run, &es("e", &[0], &[]), 14);
    takes(&mut run, &[ee(0, "")]);
    answers(&mut run, &es("e", &[0], &[]), 20);
    answers(&mut run, &es("e", &[], &[]), 0);
    // Sixteen scopes; eight of them take every element, and three elements are open in these: 24 selections. One more
    // element that opens a seventeenth scope, which takes it too, makes 33.
    let mut run = set_up();
    takes(&mut run, &[all, far]);
    takes(&mut run, &[es("e", &[0; 8], &[]), es("e", &[0; 8], &[])]);
    takes(
        &mut run,
        &[ee(0, ""), es("e", &[1; 8], &[]), es("e", &[], &[])],
    );
    answers(&mut run, &es("e", &[2], &[]), 12);
    answers(&mut run, &es("e", &[0], &[]), 20);
    answers(&mut run, &es("e", &[], &[]), 0);
    answers(&mut run, &es("e", &[], &[]), 21);
}

#[test]
fn constraints_are_defined_up_to_32_and_bindings_up_to_64() {
    let mut run = set_up();
    for number in 0..32 {
        takes(
            &mut run,
            &[
                id(1, "k", None, ".", &["@id"]),
                ns(1, "p", "u"),
                ns(0, &format!("q{number}"), "u"),
            ],
        );
    }
    answers(&mut run, &id(1, "k", None, ".", &["@id"]), 18);
    answers(&mut run, &ns(0, "q", "u"), 18);
    answers(&mut run, &ns(2, "q", "u"), 18);
    answers(&mut run, &ns(0, "q7", "u"), 17);
    answers(&mut run, &ns(3, "q", "u"), 12);
    answers(&mut run, &es("t", &[32], &[]), 12);
    answers(&mut run, &es("t", &[31, 0], &[]), 0);
}

#[test]
fn records_out_of_place_are_refused_in_the_order_of_the_list() {
    let mut run = set_up();
    answers(&mut run, &ns(1, "p", "u"), 12);
    answers(&mut run, &ee(0, ""), 13);
    answers(&mut run, &es("t", &[0], &[]), 12);
    takes(&mut run, &[id(1, "k", None, ".", &["@id", "a"])]);
    takes(
        &mut run,
        &[ns(3, "p", "u"), ns(3, "p", "v"), ns(0, "p", "u")],
    );
    answers(&mut run, &ns(4, "p", "u"), 12);
    answers(&mut run, &ns(0, "p", "v"), 17);
    takes(&mut run, &[es("t", &[], &[])]);
    answers(&mut run, &Record::Fi, 13);
    answers(&mut run, &ns(5, "p", "u"), 11);
    answers(&mut run, &id(1, "k", None, ".", &["@id"]), 11);
    takes(&mut run, &[ee(0, "")]);
    answers(&mut run, &ee(0, ""), 13);
    answers(&mut run, &id(1, "k", None, ".", &["@id"]), 11);
    takes(&mut run, &[Record::Fi]);
    answers(&mut run, &ee(0, ""), 11);
    answers(&mut run, &es("t", &[9], &[]), 11);
}

/// Records that fill a store, the last of them to the byte: with one byte less that one is refused, and the
/// next that needs no room is taken.
#[test]
fn a_store_takes_what_fills_it_to_the_byte() {
    let definitions = [id(1, "k", None, ".//.", &["@id"]), ns(0, "p", "u")];
    let mut tuples = vec![id(0, "u", None, ".//.", &["@id"])];
    tuples.extend([es("t", &[0], &[("id", "")]), es("a", &[], &[("id", "12")])]);
    tuples.extend([ee(0, ""), ee(0, "")]);
    let mut reports = vec![id(1, "k", None, ".", &["@id"])];
    reports.extend([es("t", &[0, 0], &[]), ee(0, "")]);
    let unread = [id(1, "k", None, "/", &["@id"]), es("t", &[0], &[])];
    let mut unanswered = vec![id(2, "f", Some("k"), ".", &["@id"])];
    unanswered.extend([es("t", &[0], &[("id", "1")]), ee(0, ""), Record::Fi]);
    type Length = fn(&mut Lengths) -> &mut usize;
    let rows: [(&[Record], Length, u32); 5] = [
        (&definitions, |it| &mut it.definitions, 18),
        (&tuples, |it| &mut it.tuples, 15),
        (&reports, |it| &mut it.reports, 16),
        (&unread, |it| &mut it.reports, 16),
        (&unanswered, |it| &mut it.reports, 16),
    ];
    for (records, length, refusal) in rows {
        let mut run = set_up();
        takes(&mut run, records);
        let used = run.world.numbers;
        let mut full = Lengths {
            definitions: used.definitions as usize,
            tuples: used.tuples as usize,
            reports: used.reports as usize,
            ..AMPLE
        };
        takes(&mut with(full), records);
        *length(&mut full) -= 1;
        let mut run = with(full);
        let (last, before) = records.split_last().expect("a record");
        takes(&mut run, before);
        answers(&mut run, last, refusal);
        answers(&mut run, last, refusal);
    }
}

/// The TUs of one event are all written, or none of them.
#[test]
fn an_event_whose_last_tuple_has_no_room_writes_none() {
    let records = [
        id(0, "u", None, ".", &["@id"]),
        es("t", &[0; 8], &[("id", "12345")]),
    ];
    let one = Tu {
        constraint: 0,
        scope: 1,
        keys: vec![b"12345".into()],
    };
    let all = 8 * one.bytes().len();
    for (tuples, due) in [(all, 0), (all - 1, 15), (0, 15)] {
        let mut run = with(Lengths { tuples, ..AMPLE });
        takes(&mut run, &records);
        answers(&mut run, &ee(0, ""), due);
        assert_eq!(
            run.world.numbers.tuples,
            if due == 0 { all as u64 } else { 0 }
        );
    }
}

/// Empty stores are enough for a document that needs none.
#[test]
fn stores_may_have_no_byte() {
    let mut run = with(Lengths {
        definitions: 0,
        tuples: 0,
        reports: 0,
        ..AMPLE
    });
    answers(&mut run, &id(0, "u", None, ".", &["@id"]), 18);
    takes(&mut run, &[es("t", &[], &[]), ee(1, "1"), Record::Fi]);
}

/// Each area at its least length, and one byte shorter: then every call answers 10, whatever is handed in.
#[test]
fn an_area_that_is_one_byte_too_short_is_refused() {
    let short: [fn(&mut Stream); 5] = [
        |it| it.lengths.paths -= 1,
        |it| it.lengths.names -= 1,
        |it| it.lengths.cells -= 1,
        |it| (it.lengths.scopes, it.tail) = (15, 11),
        |it| (it.lengths.scopes, it.tail) = (0, 0),
    ];
    let least = Stream {
        lengths: AMPLE,
        tail: 0,
        fill: 0,
        records: Vec::new(),
    };
    takes(&mut Run::set_up(&least), &one_run());
    for shorten in short {
        let mut stream = least.clone();
        shorten(&mut stream);
        let mut run = Run::set_up(&stream);
        for record in &one_run() {
            answers(&mut run, record, 10);
        }
        answers_bytes(&mut run, b"", 10);
    }
}

/// Request U11: of the path area 1,024 bytes are enough, through both calls, and none below.
#[test]
fn a_path_area_of_1024_bytes_is_enough() {
    let buffer: Vec<u8> = one_run().iter().flat_map(Record::bytes).collect();
    for (paths, due) in [
        (0, 10),
        (1_023, 10),
        (1_024, 0),
        (1_025, 0),
        (16_383, 0),
        (16_384, 0),
    ] {
        let lengths = Lengths { paths, ..AMPLE };
        let mut run = with(lengths);
        for record in &one_run() {
            answers(&mut run, record, due);
        }
        let taken = if due == 0 { buffer.len() } else { 0 };
        assert_eq!(with(lengths).take_buffer(&buffer), Ok((due, taken)));
    }
}

/// The longest paths that the limits allow are read in 1,024 bytes, and reach what they name: one name of 255
/// bytes, and of seven `|` and sixteen `/` 24 names in 255 bytes. What is behind 1,024 bytes stays (`take`).
#[test]
fn the_longest_paths_are_read_in_a_path_area_of_1024_bytes() {
    let name = "n".repeat(255);
    let parts = |letter: u8| {
        let part = |size| String::from_utf8(vec![letter; size]).expect("a name");
        [part(10), part(10), part(9)]
    };
    let alternatives = (b'a'..=b'h').map(|letter| parts(letter).join("/"));
    let most_parts = alternatives.collect::<Vec<_>>().join("|");
    assert_eq!(most_parts.len(), 255);
    for paths in [1_024, 1_025, 16_384] {
        let mut run = with(Lengths { paths, ..AMPLE });
        takes(&mut run, &[id(1, "k", None, &name, &[&most_parts])]);
        takes(&mut run, &[id(0, "u", None, &most_parts, &["."])]);
        takes(&mut run, &[es("t", &[0], &[]), es(&name, &[1], &[])]);
        let [outer, middle, inner] = parts(b'h');
        takes(&mut run, &[es(&outer, &[], &[]), es(&middle, &[], &[])]);
        takes(&mut run, &[es(&inner, &[], &[]), ee(1, "1")]);
        takes(&mut run, &[ee(0, ""), ee(0, ""), ee(0, ""), ee(0, "")]);
        takes(&mut run, &[Record::Fi]);
        let tuple = |constraint, scope| Tu {
            constraint,
            scope,
            keys: vec![b"1".into()],
        };
        assert_eq!(tuples_of(&run), [tuple(1, 2), tuple(0, 1)]);
        assert_eq!(reports_of(&run), []);
    }
}

/// What stands behind the first sixteen scopes is nobody's.
#[test]
fn an_area_may_be_longer() {
    for (tail, more) in [(1, 0), (11, 0), (0, 1), (7, 40)] {
        let mut run = Run::set_up(&Stream {
            lengths: Lengths {
                scopes: 16 + more,
                names: AMPLE.names + 513,
                cells: AMPLE.cells + 512,
                paths: AMPLE.paths + 1,
                ..AMPLE
            },
            tail,
            fill: 0xFF,
            records: Vec::new(),
        });
        takes(&mut run, &one_run());
    }
}

/// 19: the 1,000,001st record. The stores stay empty, so that each call is short.
#[test]
fn a_million_events_are_taken_and_not_one_more() {
    let mut run = with(Lengths {
        definitions: 0,
        tuples: 0,
        reports: 0,
        ..AMPLE
    });
    let pair = [es("t", &[], &[]).bytes(), ee(0, "").bytes()];
    for record in pair.iter().cycle().take(EVENTS_MAX as usize) {
        let reply = run.take_quickly(record);
        assert_eq!(reply, (0, 0));
    }
    answers_bytes(&mut run, &pair[0], 19);
    answers(&mut run, &Record::Fi, 19);
    answers(&mut run, &ee(0, ""), 19);
    answers(&mut run, &es("t", &[7], &[]), 19);
    answers(&mut run, &id(0, "u", None, ".", &["."]), 11);
    answers_bytes(&mut run, b"FI\0", 2);
}

// ---- tuple views

/// Stores that do not read, or of which more is used than there is, show nothing; nor do numbers that no TU
/// or field has.
#[test]
fn a_store_that_does_not_read_shows_nothing() {
    let tuple = |keys: &[&[u8]]| Tu {
        constraint: 3,
        scope: 9,
        keys: keys.iter().map(|&key| key.into()).collect(),
    };
    let tuples = [
        tuple(&[b"a", b"", b"ccc", b"d"]),
        tuple(&[]),
        tuple(&[b"\xFF"]),
    ];
    let bytes: Vec<u8> = tuples.iter().flat_map(Tu::bytes).collect();
    let mut shown = Seen::default();
    let numbers = [0, 1, 2, 3, 4, 5, u32::MAX];
    let mut show = |used: u64, store: &[u8]| {
        for number in numbers {
            for field in numbers {
                let place = compare_view(used, store, number, field).expect("the model's part");
                shown.take(place.start > 0);
            }
        }
    };
    let used = bytes.len() as u64;
    for used in [0, 1, 9, 10, used - 1, used, used + 1, 1 << 32, u64::MAX] {
        show(used, &bytes);
    }
    for at in 0..bytes.len() {
        let mut store = bytes.clone();
        store[at] ^= 1;
        show(used, &store);
        store[at] = 0xFF;
        show(used, &store);
        show(used, &bytes[..at]);
        show(at as u64, &bytes[..at]);
    }
    shown.assert_each_at_least([true, false], 50);
}

// ---- random streams

#[track_caller]
fn compare_streams(seed: u64, most: u64, through: Through) -> Met {
    let mut met = Met::default();
    let count = streams::count(most);
    for number in 0..count {
        let stream = streams::numbered(seed, number);
        if let Err(fault) = through(&stream, &mut met) {
            panic!("{}", shown(&stream, through, fault));
        }
    }
    if count == most {
        met.assert_each_at_least(10);
        assert!(met.fields > 1_000, "{} fields", met.fields);
    }
    met
}

#[test]
fn streams_are_answered_as_by_the_model() {
    compare_streams(0x5E55, 1_500, through_door);
}

#[test]
#[cfg_attr(
    not(oracle),
    ignore = "not compared: the original Rust is not there (FASTXML_SRC, ../shared/docs/src)"
)]
fn streams_are_reported_as_by_the_original() {
    let most = 3_000;
    let met = compare_streams(0x0517, most, through_all);
    let left_out = met.left_out.list();
    println!(
        "{} streams beside the original to their end; left out: {left_out}",
        met.beside
    );
    if met.streams == most as usize {
        met.assert_beside_at_least(2_000);
    }
}

/// No call needs more of the stack than the header says: a report long enough for the marks of a run and for the
/// table of an FI.
#[test]
fn a_small_stack_is_enough() {
    let buffer = streams::ledgers(&mut Random::new(0x57AC)).records.concat();
    let run = move || {
        let mut session = Session::new(65_536, 65_536, 65_536);
        assert_eq!(session.run(&buffer), (Reply::Taken, buffer.len()));
        session.numbers.tuples
    };
    let thread = thread::Builder::new().stack_size(STACK_MAX).spawn(run);
    let tuples = thread.expect("a thread").join().expect("a run");
    assert!(tuples >= 2_048, "{tuples} bytes of tuples");
}

#[track_caller]
fn compare_ledgers(seed: u64, through: Through) {
    let mut met = Met::default();
    for number in 0..streams::count(LEDGERS) {
        let stream = streams::ledgers(&mut Random::new(seed + number));
        if let Err(fault) = through(&stream, &mut met) {
            panic!("{}", shown(&stream, through, fault));
        }
    }
    met.kinds.assert_each_at_least([4, 5], 3 * met.streams);
}

/// How many reports with many vouchers a test takes. The model's time grows with the square of the vouchers.
const LEDGERS: u64 = 6;

#[test]
fn reports_with_many_vouchers_are_answered_as_by_the_model() {
    compare_ledgers(0x1ED6, through_door);
}

#[test]
#[cfg_attr(
    not(oracle),
    ignore = "not compared: the original Rust is not there (FASTXML_SRC, ../shared/docs/src)"
)]
fn reports_with_many_vouchers_are_reported_as_by_the_original() {
    compare_ledgers(0x0ACC, through_all);
}

// ---- damage between calls

/// How many records the damaged session is handed.
const BEHIND: usize = 6;

fn hand_in_records(run: &mut Run, behind: &[Vec<u8>], seen: &mut Seen<u32>) -> Result<(), String> {
    for record in behind.iter().take(BEHIND) {
        seen.take(run.take(record)?);
    }
    Ok(())
}

#[test]
fn damaged_sessions_are_answered_as_by_the_model() {
    let (most, count) = (3_000, streams::count(3_000));
    let seen = compare_damaged(0xDA3A, count, hand_in_records);
    if count == most {
        seen.assert_each_at_least([0, 10], 1_000);
        seen.assert_each_at_least([2, 11, 12, 13, 15, 16, 20, 21], 10);
        // Depth runs out less often: few damaged sessions have 64 elements open.
        seen.assert_each_at_least([14], 1);
    }
}
