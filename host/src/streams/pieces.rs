//! A stream as a buffer: its records one behind the other, cut anywhere.

use super::Stream;
use crate::model::records::BODY_MAX;
use crate::random::Random;
use crate::store_cases::damaged;

/// The stream whose records are pieces of this one's, some of them empty. Now and then a header is put in
/// that states more than a body may have, or a record is damaged, lengths too.
pub fn in_pieces(random: &mut Random, stream: &Stream) -> Stream {
    let mut records = stream.records.clone();
    if random.once_in(4) {
        let at = random.below(records.len() + 1);
        records.insert(at, header_over(random));
    }
    if !records.is_empty() && random.once_in(4) {
        let at = random.below(records.len());
        records[at] = damaged(random, &records[at]);
    }
    let buffer = records.concat();
    let mut cuts = cuts(random, &records);
    cuts.extend([0, buffer.len()]);
    cuts.sort();
    Stream {
        records: cuts
            .windows(2)
            .map(|cut| buffer[cut[0]..cut[1]].into())
            .collect(),
        ..stream.clone()
    }
}

/// A header that states one byte more than a body may have, or many more; with no body, or with some of it.
fn header_over(random: &mut Random) -> Vec<u8> {
    let stated = random.pick(&[BODY_MAX + 1, BODY_MAX + 1, 40_000, 65_535]);
    let mark = random.pick(&[b"ES", b"ES", b"EE", b"ID", b"XX"]);
    let body = random.pick(&[0, 0, 0, 1, 3, 40]);
    let length = (stated as u16).to_le_bytes();
    [mark, &length[..], &vec![0; body]].concat()
}

/// Places to cut at: between records, a few bytes behind such a place, or anywhere. Some come twice.
fn cuts(random: &mut Random, records: &[Vec<u8>]) -> Vec<usize> {
    let ends: Vec<usize> = records
        .iter()
        .scan(0, |end, record| {
            *end += record.len();
            Some(*end)
        })
        .collect();
    let Some(&all) = ends.last() else {
        return vec![0; random.below(2)];
    };
    let count = random.pick(&[0, 1, 2, 6, 30]);
    let mut cuts: Vec<usize> = (0..count)
        .map(|_| match random.below(3) {
            0 => random.pick(&ends),
            1 => (random.pick(&ends) + random.below(6)).min(all),
            _ => random.below(all + 1),
        })
        .collect();
    if random.once_in(3) {
        cuts.extend(cuts.first().copied());
    }
    cuts
}
