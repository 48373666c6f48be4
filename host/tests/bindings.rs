//! The look-up of prefixes: against the bindings themselves, against the unchanged original where a
//! path can ask for the prefix, and on any bytes against a plain reading of the definitions.

use host::bindings::{LookUp, bound, bound_by_original, compared, compared_in, find, uri_of};
use host::cases::{PREFIXES, URIS, records};
use host::definitions::{Binding, Constraint, Record, constraints, own_part, store};
use host::doors::{self, Found};
use host::model::matching::{XML_NAMESPACE, space_fits};
use host::random::Random;
use host::tally::Compared;
use host::texts;

fn ns(target: u8, prefix: &str, uri: &str) -> Record {
    Record::Ns(Binding {
        target,
        prefix: prefix.into(),
        uri: uri.into(),
    })
}

fn id(selector: &str, fields: &[&str]) -> Record {
    Record::Id(Constraint {
        kind: 2,
        name: "n".into(),
        refer: Some("k1".into()),
        selector: selector.into(),
        fields: fields.iter().map(|&field| field.into()).collect(),
    })
}

/// What `crates/records/specs/Examples.antt` computes.
#[test]
fn the_bytes_of_id_and_ns_are_those_of_their_definition() {
    let id_bytes = [
        73, 68, 22, 0, 2, 1, 0, 110, 1, 2, 0, 107, 49, 1, 0, 114, 2, 3, 0, 64, 105, 100, 2, 0, 97,
        98,
    ];
    let ns_bytes = [78, 83, 8, 0, 3, 1, 0, 112, 2, 0, 117, 118];
    assert_eq!(id("r", &["@id", "ab"]).bytes(), id_bytes);
    assert_eq!(ns(3, "p", "uv").bytes(), ns_bytes);
}

/// Bindings of which each rule says something: repeated, empty, `xml` and of other paths.
#[test]
fn listed_prefixes_are_found_by_the_rules() {
    let records = vec![
        ns(0, "s", "schema"),
        ns(0, "", "default"),
        ns(0, "xml", "not this one"),
        id(".", &["a", "b"]),
        ns(1, "p", "other constraint"),
        id("NS\u{8}\0\u{1}\u{1}\0q\u{1}\0u", &["a", "b"]),
        ns(2, "p", "field 0"),
        ns(1, "p", "first"),
        ns(0, "late", "schema, behind"),
        ns(1, "p", "second"),
        ns(1, "s", "own before schema"),
        ns(1, "e", ""),
        ns(3, "f", "field 1"),
        ns(0, "p", "schema-wide p"),
        id(".", &["a", "b"]),
        ns(1, "e", "other constraint"),
        ns(0, "e", "behind"),
    ];
    let rows = [
        (1, 1, "p", Some("first")),
        (1, 2, "p", Some("field 0")),
        (1, 3, "p", Some("schema-wide p")),
        (0, 1, "p", Some("other constraint")),
        (2, 1, "p", Some("schema-wide p")),
        (1, 1, "s", Some("own before schema")),
        (1, 2, "s", Some("schema")),
        (1, 1, "e", Some("")),
        (1, 2, "e", Some("behind")),
        (2, 1, "e", Some("other constraint")),
        (1, 3, "f", Some("field 1")),
        (1, 1, "f", None),
        (1, 1, "", Some("default")),
        (1, 1, "late", Some("schema, behind")),
        (1, 1, "xml", Some(XML_NAMESPACE)),
        (1, 1, "q", None),
        (1, 1, "P", None),
        (1, 1, "pp", None),
    ];
    for (number, target, prefix, uri) in rows {
        let look_up = LookUp {
            records: records.clone(),
            number,
            target,
            prefix: prefix.into(),
        };
        assert_eq!(bound(&look_up), uri, "{number} {target} {prefix}");
        compared(&look_up);
    }
}

/// How often a prefix was found nowhere, as `xml`, in the own and in the schema-wide bindings, and
/// with an empty URI.
#[derive(Debug, Default)]
struct Places([usize; 5]);

impl Places {
    fn take(&mut self, found: &Found) {
        let (place, uri) = match found {
            Found::Nowhere => (0, None),
            Found::Xml => (1, None),
            Found::Own(uri) => (2, Some(uri)),
            Found::Schema(uri) => (3, Some(uri)),
        };
        self.0[place] += 1;
        self.0[4] += usize::from(uri.is_some_and(|uri| uri.is_empty()));
    }

    #[track_caller]
    fn assert_each_at_least(&self, least: usize) {
        assert!(self.0.iter().all(|&count| count >= least), "{self:?}");
    }
}

/// Every prefix for every path of a random store's constraints.
fn look_ups(random: &mut Random) -> Vec<LookUp> {
    let records = records(random);
    let mut list = Vec::new();
    for (number, constraint) in constraints(&records).enumerate() {
        for target in 1..=1 + constraint.fields.len() as u8 {
            for prefix in PREFIXES.into_iter().chain(["unbound"]) {
                list.push(LookUp {
                    records: records.clone(),
                    number,
                    target,
                    prefix: prefix.into(),
                });
            }
        }
    }
    list
}

#[test]
fn prefixes_are_found_where_their_bindings_stand() {
    let mut random = Random::new(0xB14D);
    let mut places = Places::default();
    for _ in 0..200 {
        for look_up in look_ups(&mut random) {
            places.take(&compared(&look_up));
        }
    }
    places.assert_each_at_least(1_000);
}

#[test]
#[cfg_attr(
    not(oracle),
    ignore = "not compared: the original Rust is not there (FASTXML_SRC, ../shared/docs/src)"
)]
fn prefixes_are_bound_to_what_the_original_looks_them_up_as() {
    let mut random = Random::new(0x0B14);
    let (mut asked, mut never) = (0, 0);
    for _ in 0..100 {
        for look_up in look_ups(&mut random) {
            let schema = store(&look_up.records);
            let own = &schema[own_part(&look_up.records, look_up.number)];
            let found = doors::find(own, &schema, look_up.target, look_up.prefix.as_bytes());
            let uri = uri_of(&found, own, &schema).map(<[u8]>::escape_ascii);
            match bound_by_original(&look_up) {
                Some(due) => {
                    let due = due.as_ref().map(|due| due.as_bytes().escape_ascii());
                    let text =
                        |uri: Option<_>| uri.map(|uri: std::slice::EscapeAscii| uri.to_string());
                    assert_eq!(text(uri), text(due), "{look_up:#?}");
                    asked += 1;
                }
                None => never += 1,
            }
        }
    }
    // `p ` and `x:y` stand in no path as prefixes.
    assert!(asked > 8_000 && never > 1_000, "{asked} and {never}");
}

#[test]
fn a_prefix_fits_the_namespace_that_it_is_bound_to() {
    let mut random = Random::new(0xF175);
    let mut fits = Compared::default();
    for _ in 0..100 {
        for look_up in look_ups(&mut random) {
            let schema = store(&look_up.records);
            let own = &schema[own_part(&look_up.records, look_up.number)];
            let (target, prefix) = (look_up.target, look_up.prefix.as_bytes());
            for space in URIS.into_iter().chain(["uu", "urn:"]) {
                let due = space_fits(bound(&look_up).map(str::as_bytes), space.as_bytes());
                let given = doors::prefix_fits(own, &schema, target, prefix, space.as_bytes());
                fits.take(given, due, (space, &look_up));
            }
        }
    }
    fits.assert_each_at_least(10_000);
}

/// Of a store that is cut off the records that are whole count, whatever is behind them.
#[test]
fn a_store_that_is_cut_off_binds_as_far_as_its_records_are_whole() {
    let mut random = Random::new(0xC07);
    let mut places = Places::default();
    for _ in 0..20 {
        let records = records(&mut random);
        let bytes = store(&records);
        let mut whole = 0;
        let mut ends = records.iter().scan(0, |end, record| {
            *end += record.bytes().len();
            Some(*end)
        });
        let mut next = ends.next();
        for cut in 0..=bytes.len() {
            if next == Some(cut) {
                whole = cut;
                next = ends.next();
            }
            let target = random.below(4) as u8;
            let prefix = random.pick(&PREFIXES[..6]).as_bytes();
            let own = compared_in(&bytes[..cut], b"", target, prefix);
            assert_eq!(own, find(&bytes[..whole], b"", target, prefix));
            let schema = compared_in(b"", &bytes[..cut], target, prefix);
            assert_eq!(schema, find(b"", &bytes[..whole], target, prefix));
            places.take(&own);
            places.take(&schema);
        }
        assert_eq!(whole, bytes.len());
    }
    places.assert_each_at_least(500);
}

#[test]
fn prefixes_are_found_in_any_bytes_as_a_plain_reading_finds_them() {
    let mut random = Random::new(0xDA3A);
    let mut places = Places::default();
    let mut fits = Compared::default();
    for _ in 0..30_000 {
        let schema = damaged_store(&mut random);
        let own = damaged_store(&mut random);
        let target = random.pick(&[0, 1, 2, 3, 4, 5, 255]);
        let prefix = random.pick(&PREFIXES).as_bytes();
        let found = compared_in(&own, &schema, target, prefix);
        let space = random.pick(&URIS).as_bytes();
        let due = space_fits(uri_of(&found, &own, &schema), space);
        let given = doors::prefix_fits(&own, &schema, target, prefix, space);
        fits.take(given, due, (space, prefix, target, &own, &schema));
        places.take(&found);
    }
    places.assert_each_at_least(800);
    fits.assert_each_at_least(3_000);
}

/// A store with some of its bytes changed, or bytes with no plan.
fn damaged_store(random: &mut Random) -> Vec<u8> {
    if random.once_in(10) {
        return texts::raw(random, 40);
    }
    let mut bytes = store(&records(random));
    for _ in 0..random.below(4) {
        bytes = texts::damaged(random, &bytes);
    }
    bytes
}
