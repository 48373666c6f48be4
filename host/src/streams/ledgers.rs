//! Reports with many vouchers: long enough that a search among their tuples goes by marks and by a table of
//! places (docs/DECISIONS.md, D76 and D77), with vouchers that come again and payments for none.

use super::{AMPLE, Stream};
use crate::made::{ee, es, id, leaf};
use crate::model::records::Record;
use crate::random::Random;

/// Three ledgers, in each of which a voucher's number stands once, and once with its year; payments beside
/// the vouchers name one of any ledger.
pub fn ledgers(random: &mut Random) -> Stream {
    let mut records = vec![
        id(random.pick(&[0, 1]), "vouchers", None, "v", &["@n"]),
        id(random.pick(&[0, 1]), "years", None, ".//v", &["@n", "@y"]),
        id(2, "paid", Some("vouchers"), "ledger/p", &["@n"]),
        id(2, "in", Some("years"), ".//p", &["@n", "@y"]),
        es("report", &[2, 3], &[]),
    ];
    let vouchers = random.pick(&[40, 90, 200]);
    for _ in 0..3 {
        records.push(es("ledger", &[0, 1], &[]));
        for _ in 0..30 + random.below(60) {
            records.extend(entry(random, "v", vouchers));
            records.extend(entry(random, "p", vouchers + vouchers / 8));
        }
        records.push(ee(0, ""));
    }
    records.extend([ee(0, ""), Record::Fi]);
    Stream {
        lengths: AMPLE,
        tail: 0,
        fill: 0,
        records: records.iter().map(Record::bytes).collect(),
    }
}

/// An entry with one of so many numbers. A few lack it.
fn entry(random: &mut Random, name: &str, numbers: usize) -> [Record; 2] {
    let number = format!("2025-{:06}", random.below(numbers));
    let year = random.pick(&["2024", "2025", "2025"]);
    match random.once_in(40) {
        true => leaf(name, &[("y", year)]),
        false => leaf(name, &[("n", &number), ("y", year)]),
    }
}
