//! The definition store: whether any bytes are definitions and what they come to, what stands against
//! one more, and what is looked up in them, against a plain reading of document 01.

use std::ops::Range;

use host::model::bytes::{Text, standing, take_frame, take_text};
use host::model::definitions::{
    Definitions, Tally, constraint_count, id_at, is_bound_in, mask, own_stretch, store,
};
use host::model::records::{Ee, Es, Id, Ns, Record, Refusal};
use host::random::Random;
use host::shrink::{shorter, shown, shrunk};
use host::store_cases::{assert_left, cut_or_grown, damaged, definition_records, lent, record};
use host::store_doors::{self, Parts, judge_id, judge_ns, read_definitions};
use host::tally::{Compared, Seen};

// ---- whether bytes are definitions

fn due(used: &[u8]) -> Option<Tally> {
    Definitions::read(used).map(|definitions| definitions.tally())
}

fn smaller(used: &Vec<u8>) -> Box<dyn Iterator<Item = Vec<u8>> + '_> {
    Box::new(shorter(used))
}

/// What is read of a store, by the door and by a plain reading alike.
#[track_caller]
fn compared(used: &[u8]) -> Option<Tally> {
    if read_definitions(used) != due(used) {
        let differs = |used: &Vec<u8>| read_definitions(used) != due(used);
        let small = shrunk(used.to_vec(), smaller, differs);
        panic!(
            "given {:?}, due {:?}: {}",
            read_definitions(&small),
            due(&small),
            shown(&small)
        );
    }
    due(used)
}

fn id(name: &str, kind: u8, fields: usize) -> Record {
    Record::Id(Id {
        kind,
        name: name.into(),
        flag: 0,
        refer: None,
        selector: b".".into(),
        fields: vec![b"@id".into(); fields],
    })
}

fn ns(target: u8, prefix: &str) -> Record {
    Record::Ns(binding(target, prefix.into()))
}

fn binding(target: u8, prefix: Text) -> Ns {
    Ns {
        target,
        prefix,
        uri: b"u".into(),
    }
}

/// Each of 12, 17 and 18, and what is no definition.
#[test]
fn listed_stores_read_where_nothing_stands_against_their_records() {
    let many = |count: usize, record: Record| vec![record; count];
    let with = |first: Record, behind: Vec<Record>| [vec![first], behind].concat();
    let distinct: Vec<Record> = (0..65).map(|number| ns(0, &format!("p{number}"))).collect();
    let start = Record::Es(Es {
        space: b"".into(),
        name: b"a".into(),
        numbers: vec![],
        attributes: vec![],
    });
    let end = Record::Ee(Ee {
        simple: 0,
        key: b"".into(),
    });
    let rows = [
        (vec![], Some((0, 0, 0))),
        (vec![id("k", 0, 1)], Some((1, 1, 0))),
        (vec![ns(0, "p"), id("k", 2, 4)], Some((1, 4, 1))),
        (vec![id("k", 1, 4), id("k", 1, 2)], Some((2, 2, 0))),
        (many(32, id("", 0, 1)), Some((32, 1, 0))),
        (many(33, id("", 0, 1)), None),
        (with(id("", 0, 1), many(64, ns(1, "p"))), Some((1, 1, 64))),
        (with(id("", 0, 1), many(65, ns(1, "p"))), None),
        (distinct[..64].to_vec(), Some((0, 0, 64))),
        (distinct.clone(), None),
        (vec![ns(0, "p"), ns(0, "p")], None),
        (vec![ns(0, "p"), ns(0, "P"), ns(0, "")], Some((0, 0, 3))),
        (vec![ns(0, "xml"), ns(0, "")], Some((0, 0, 2))),
        (vec![ns(1, "p")], None),
        (vec![id("", 0, 2), ns(1, "p"), ns(1, "p")], Some((1, 2, 2))),
        (vec![id("", 0, 2), ns(3, "p")], Some((1, 2, 1))),
        (vec![id("", 0, 2), ns(4, "p")], None),
        (vec![id("", 0, 4), id("", 0, 1), ns(3, "p")], None),
        (vec![id("", 0, 4), ns(5, "p")], Some((1, 4, 1))),
        (vec![id("", 0, 5)], None),
        (vec![id("", 3, 1)], None),
        (vec![start], None),
        (vec![end], None),
        (vec![Record::Fi], None),
    ];
    for (records, due) in rows {
        let due = due.map(|(constraints, fields, bindings)| Tally {
            constraints,
            fields,
            bindings,
        });
        assert_eq!(compared(&store(&records)), due, "{records:?}");
    }
}

/// Records of which some stand against each other: they are not chosen so that a session takes them.
fn any_records(random: &mut Random) -> Vec<Record> {
    if random.once_in(2) {
        return definition_records(random);
    }
    let count = random.below(8);
    let mut records: Vec<Record> = (0..count).map(|_| record(random)).collect();
    if !random.once_in(4) {
        records.retain(|record| matches!(record, Record::Id(_) | Record::Ns(_)));
    }
    records
}

fn used(random: &mut Random) -> Vec<u8> {
    let bytes = store(&any_records(random));
    match random.below(4) {
        0 => cut_or_grown(random, &bytes),
        1 => damaged(random, &bytes),
        _ => bytes,
    }
}

#[test]
fn any_bytes_are_definitions_as_by_a_plain_reading() {
    let mut random = Random::new(0xDEF5);
    let (mut read, mut not) = (0, 0);
    let mut full = Seen::default();
    for _ in 0..20_000 {
        match compared(&used(&mut random)) {
            Some(tally) => {
                read += 1;
                full.take((tally.constraints == 32, tally.bindings == 64));
            }
            None => not += 1,
        }
    }
    assert!(read > 4_000 && not > 4_000, "{read} and {not}");
    full.assert_each_at_least([(false, false), (true, true)], 300);
}

// ---- one more

/// A tally that may be that of a store or not, at the limits more often than by chance.
fn tally(random: &mut Random) -> Tally {
    Tally {
        constraints: random.pick(&[0, 1, 2, 31, 32, 33, u32::MAX as usize]),
        fields: random.pick(&[0, 1, 2, 3, 4, 5, 255, u32::MAX as usize]),
        bindings: random.pick(&[0, 1, 63, 64, 65, u32::MAX as usize]),
    }
}

fn number(fault: Option<Refusal>) -> u8 {
    fault.map_or(0, Refusal::number)
}

#[test]
fn a_definition_more_is_refused_by_the_numbers_of_document_01() {
    let mut random = Random::new(0x12_17_18);
    let mut seen = Seen::default();
    for _ in 0..30_000 {
        let used = used(&mut random);
        let definitions = Definitions::read(&used);
        let tally = match &definitions {
            Some(definitions) if random.once_in(2) => definitions.tally(),
            _ => tally(&mut random),
        };
        assert_eq!(judge_id(tally), number(tally.fault_of_id()), "{tally:?}");
        let ns = any_binding(&mut random, &used);
        let is_bound = is_bound_in(&used, 0, &ns.prefix);
        let due = tally.fault_of_ns(ns.target, is_bound);
        let given = judge_ns(&used, tally, ns.target, &ns.prefix);
        assert_eq!(given, number(due), "{tally:?} {ns:?} {}", shown(&used));
        // Of a store that reads, the same is said by its definitions.
        if let Some(definitions) = definitions
            && definitions.tally() == tally
        {
            assert_eq!(due, definitions.fault(&Record::Ns(ns)));
        }
        seen.take(given);
    }
    seen.assert_each_at_least([0, 12, 17, 18], 500);
}

/// A binding, often of a prefix that the store binds.
fn any_binding(random: &mut Random, used: &[u8]) -> Ns {
    let target = random.pick(&[0, 0, 1, 2, 3, 5, 6, 255]);
    let records = standing(used, take_frame);
    if records.is_empty() || random.once_in(2) {
        return binding(target, random.pick(&["p", "q", "", "xml", "zz"]).into());
    }
    let record = records[random.below(records.len())];
    let prefix = record.get(5..).and_then(|mut rest| take_text(&mut rest));
    binding(target, prefix.unwrap_or_default())
}

// ---- constraints

/// The records of a constraint by the door, which copies them out.
#[track_caller]
fn own_of(used: &[u8], number: u32) -> Range<usize> {
    let due = own_stretch(used, number as usize);
    let own = &used[due.clone()];
    let mut size = 0;
    let room = vec![0xEE; own.len() + 3];
    let given = lent(&room, |out| size = store_doors::own_of(used, number, out));
    let of = || format!("constraint {number} of {}", shown(used));
    assert_eq!(size, own.len(), "{}", of());
    assert_left(&given, &[own, &[0xEE; 3]].concat(), of);
    due
}

#[test]
fn the_records_of_a_constraint_go_up_to_the_next_one() {
    let mut random = Random::new(0x0E4);
    let (mut some, mut none) = (0, 0);
    for _ in 0..10_000 {
        let used = used(&mut random);
        let count = constraint_count(&used) as u32;
        assert_eq!(
            store_doors::constraint_count(&used),
            count,
            "{}",
            shown(&used)
        );
        for number in [0, 1, count.saturating_sub(1), count, u32::MAX] {
            match own_of(&used, number).is_empty() {
                true => none += 1,
                false => some += 1,
            }
        }
    }
    assert!(some > 5_000 && none > 5_000, "{some} and {none}");
}

/// The ID that parts say, with what is behind its places; `flag` is the refer byte.
fn id_by(own: &[u8], parts: &Parts) -> Id {
    let text = |place: &Range<usize>| own[place.clone()].to_vec();
    Id {
        kind: parts.kind,
        name: text(&parts.name),
        flag: parts.refer.is_some().into(),
        refer: parts.refer.as_ref().map(text),
        selector: text(&parts.selector),
        fields: (0..parts.count)
            .map(|field| field_of(own, parts, field))
            .collect(),
    }
}

/// A field by the door, which copies it out.
#[track_caller]
fn field_of(own: &[u8], parts: &Parts, field: usize) -> Text {
    let mut size = 0;
    let room = vec![0xEE; own.len() + 3];
    let out = lent(&room, |out| {
        size = store_doors::field_of(own, parts.first, parts.count, field, out);
    });
    let (text, rest) = out.split_at(size);
    assert!(
        rest.iter().all(|&byte| byte == 0xEE),
        "written past the field"
    );
    text.into()
}

/// The parts are those of the ID at the front where there is one, and in any case places within.
#[test]
fn the_parts_of_a_constraint_are_those_of_its_id() {
    let mut random = Random::new(0x9A47);
    let (mut read, mut not) = (0, 0);
    for _ in 0..20_000 {
        let used = used(&mut random);
        let number = random.below(constraint_count(&used) + 1);
        let own = match random.once_in(8) {
            true => &used[random.below(used.len() + 1)..],
            false => &used[own_stretch(&used, number)],
        };
        let parts = store_doors::parts_of(own);
        let places = [
            Some(&parts.name),
            parts.refer.as_ref(),
            Some(&parts.selector),
        ];
        let within = |place: &Range<usize>| place.end <= own.len();
        assert!(places.into_iter().flatten().all(within), "{}", shown(own));
        assert!(parts.first <= own.len(), "{}", shown(own));
        match id_at(own) {
            Some(due) => {
                assert_eq!(id_by(own, &parts), due, "{}", shown(own));
                for past in [parts.count, parts.count + 1, usize::MAX] {
                    assert_eq!(field_of(own, &parts, past), b"", "{}", shown(own));
                }
                read += 1;
            }
            None => not += 1,
        }
    }
    assert!(read > 4_000 && not > 1_000, "{read} and {not}");
}

/// Which constraints bear a name, and which of them a refer means.
#[test]
fn names_are_looked_up_among_the_constraints_of_a_store() {
    let mut random = Random::new(0x4A3E5);
    let mut found = Compared::default();
    for _ in 0..10_000 {
        let records = definition_records(&mut random);
        let used = store(&records);
        let definitions = Definitions::read(&used).expect("definitions that read");
        let names = definitions.ids.iter().map(|it| &it.id.name[..]);
        let mut names: Vec<&[u8]> = names.collect();
        names.extend([&b"k"[..], b"kk", b"", b"none"]);
        let name = names[random.below(names.len())];
        let due = mask(&definitions.named(name));
        let given = store_doors::named(&used, name);
        assert_eq!(given, due, "{} in {}", shown(name), shown(&used));
        let due = mask(&definitions.answering(name));
        let given = store_doors::answering(&used, name);
        assert_eq!(given, due, "{} in {}", shown(name), shown(&used));
        found.take(given > 0, due > 0, name);
    }
    found.assert_each_at_least(2_000);
}

/// The 32nd constraint has the highest bit.
#[test]
fn the_set_of_all_constraints_has_all_bits() {
    let mut records = vec![id("k", 0, 1); 32];
    assert_eq!(store_doors::named(&store(&records), b"k"), u32::MAX);
    records[31] = id("k", 2, 1);
    assert_eq!(
        store_doors::answering(&store(&records), b"k"),
        u32::MAX >> 1
    );
    assert_eq!(store_doors::named(&store(&records), b"k"), u32::MAX);
    records[0] = id("K", 1, 1);
    assert_eq!(store_doors::named(&store(&records), b"k"), u32::MAX - 1);
    assert_eq!(store_doors::named(&store(&records), b"K"), 1);
    assert_eq!(store_doors::named(&store(&records), b""), 0);
}
