//! Measures the comparison of two names beside Rust's own, and beside a loop from the front, by the same driver.
//! docs/PERFORMANCE.md says what is measured.

use std::hint::black_box;
use std::time::{Duration, Instant};

use host::identity::compare_names;
use host::times::Times;

/// What two names have in common, and the two.
const NAMES: [(&str, &str, &str); 7] = [
    ("other lengths", "voucher-header", "voucher-header-total"),
    ("a long beginning", "voucher-number", "voucher-amount"),
    (
        "a longer beginning",
        "voucher-header-amount",
        "voucher-header-number",
    ),
    ("all but the last byte", "cost-centre-01", "cost-centre-02"),
    ("a long end", "number-of-voucher", "amount-of-voucher"),
    ("all but the first byte", "a-cost-centre", "b-cost-centre"),
    ("all", "voucher-header-total", "voucher-header-total"),
];

/// How often each side is measured, for how long at least, and how many calls stand between two looks at the clock.
const ROUNDS: usize = 21;
const ROUND: Duration = Duration::from_millis(20);
const CALLS: usize = 1_000;

fn main() {
    println!("ns for a comparison, the lowest of {ROUNDS} rounds");
    println!(
        "{:<24} {:>5}  {:>6} {:>6} {:>6}  {:>9}",
        "what two names share", "pairs", "Rust", "front", "door", "door/Rust"
    );
    for (shared, a, b) in NAMES {
        compare(shared, a.as_bytes(), b.as_bytes());
    }
    let key = [b'7'; 126];
    compare("126 equal bytes", &key, &key.clone());
}

/// Measures the sides in turns, so that what slows the machine slows all, and prints a row.
fn compare(shared: &str, a: &[u8], b: &[u8]) {
    let (mut rust, mut front, mut door) = (Times::default(), Times::default(), Times::default());
    for _ in 0..ROUNDS {
        rust.add(round(a, b, |a, b| a == b));
        front.add(round(a, b, from_front));
        door.add(round(a, b, |a, b| compare_names(a, b).same));
    }
    println!(
        "{shared:<24} {:>5}  {:>6.1} {:>6.1} {:>6.1}  {:>9.2}",
        compare_names(a, b).pairs,
        rust.lowest(),
        front.lowest(),
        door.lowest(),
        door.lowest() / rust.lowest(),
    );
}

/// The lengths, then the bytes from the first one on: how the library compared two texts before document 02, U4.
fn from_front(a: &[u8], b: &[u8]) -> bool {
    if a.len() != b.len() {
        return false;
    }
    let mut i = 0;
    while i < a.len() {
        if a[i] != b[i] {
            return false;
        }
        i += 1;
    }
    true
}

/// Compares again and again until the round's time is over: ns for one comparison.
fn round(a: &[u8], b: &[u8], same: impl Fn(&[u8], &[u8]) -> bool) -> f64 {
    let mut asked = 0;
    let began = Instant::now();
    while began.elapsed() < ROUND {
        for _ in 0..CALLS {
            black_box(same(black_box(a), black_box(b)));
        }
        asked += CALLS;
    }
    began.elapsed().as_nanos() as f64 / asked as f64
}
