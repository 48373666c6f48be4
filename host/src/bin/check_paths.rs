//! Compares the path checker with the original on every path of up to six letters, or of up to as
//! many as the argument says: `check_paths 5`. The tests do this with five. It stops at the first
//! difference, and shows it.

use std::ops::Range;
use std::panic::resume_unwind;
use std::process::ExitCode;
use std::thread;

use host::calls::{PATH_LETTERS, count};
use host::checker::compare_short_paths;
use host::tally::Answers;

fn main() -> ExitCode {
    if !cfg!(oracle) {
        eprintln!("the original Rust is not there (FASTXML_SRC, ../shared/docs/src)");
        return ExitCode::FAILURE;
    }
    let Some(longest) = std::env::args()
        .nth(1)
        .map_or(Some(6), |word| word.parse().ok())
    else {
        eprintln!("check_paths [LETTERS]");
        return ExitCode::FAILURE;
    };
    for length in 0..=longest {
        let paths = count(&PATH_LETTERS, length);
        let answers = compare_side_by_side(length, paths);
        println!(
            "{length} letters: {paths} paths, {} answers, 0 differ",
            answers.all()
        );
    }
    ExitCode::SUCCESS
}

/// As many threads as there are processors, each with a stretch of the paths' numbers.
fn compare_side_by_side(length: u32, paths: usize) -> Answers {
    let threads = thread::available_parallelism().map_or(1, usize::from);
    let part = |n: usize| -> Range<usize> { paths * n / threads..paths * (n + 1) / threads };
    let mut answers = Answers::default();
    thread::scope(|scope| {
        let parts: Vec<_> = (0..threads)
            .map(|n| scope.spawn(move || compare_short_paths(length, part(n))))
            .collect();
        for part in parts {
            answers.add(part.join().unwrap_or_else(|panic| resume_unwind(panic)));
        }
    });
    answers
}
