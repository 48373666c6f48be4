//! Takes random streams of records through the record call and holds each call against the model, and beside
//! the original what it can say; one stream in four also as a buffer in pieces. `run_streams [COUNT] [SEED]`,
//! of 300,000 streams where nothing is said. It stops at the first difference and shows it, made small; and
//! it fails where something was never met that streams are made to meet.

use std::process::ExitCode;
use std::sync::atomic::{AtomicBool, Ordering};
use std::thread;

use host::random::Random;
use host::runs::{Through, shown, through_all, through_buffers, through_door};
use host::streams;
use host::tally::Met;

/// So many streams meet everything.
const ENOUGH: u64 = 6_000;

fn main() -> ExitCode {
    let words: Vec<String> = std::env::args().skip(1).collect();
    let number = |at: usize, default| words.get(at).map_or(Some(default), |it| it.parse().ok());
    let (Some(count), Some(seed), true) = (number(0, 300_000), number(1, 1), words.len() <= 2)
    else {
        eprintln!("run_streams [COUNT] [SEED]");
        return ExitCode::FAILURE;
    };
    let through: Through = match cfg!(oracle) {
        true => through_all,
        false => through_door,
    };
    if !cfg!(oracle) {
        println!("the original Rust is not there (FASTXML_SRC, ../shared/docs/src): not compared");
    }
    match side_by_side(count, seed, through) {
        Ok(met) => {
            print(&met);
            if count >= ENOUGH {
                met.assert_each_at_least(10);
                met.assert_runs_at_least(10);
                if cfg!(oracle) {
                    met.assert_beside_at_least(count as usize / 2);
                }
            }
            ExitCode::SUCCESS
        }
        Err(fault) => {
            println!("{fault}");
            ExitCode::FAILURE
        }
    }
}

/// As many threads as there are processors, each with every so-manieth stream.
fn side_by_side(count: u64, seed: u64, through: Through) -> Result<Met, String> {
    let threads = thread::available_parallelism().map_or(1, usize::from) as u64;
    let stop = AtomicBool::new(false);
    let part = |first: u64| -> Result<Met, String> {
        let mut met = Met::default();
        for number in (first..count).step_by(threads as usize) {
            if stop.load(Ordering::Relaxed) {
                break;
            }
            if let Err(fault) = take(seed, number, through, &mut met) {
                stop.store(true, Ordering::Relaxed);
                return Err(format!("stream {number} of seed {seed} differs: {fault}"));
            }
        }
        Ok(met)
    };
    thread::scope(|scope| {
        let parts: Vec<_> = (0..threads)
            .map(|first| scope.spawn(move || part(first)))
            .collect();
        let mut all = Met::default();
        for part in parts {
            all.add(part.join().expect("a thread that ends")?);
        }
        Ok(all)
    })
}

/// One stream; one in four also as a buffer in pieces.
fn take(seed: u64, number: u64, through: Through, met: &mut Met) -> Result<(), String> {
    let stream = streams::numbered(seed, number);
    through(&stream, met).map_err(|fault| shown(&stream, through, fault))?;
    let mut random = Random::new(number + 1);
    if random.once_in(4) {
        let pieces = streams::in_pieces(&mut random, &stream);
        let fault_of = |fault| shown(&pieces, through_buffers, fault);
        through_buffers(&pieces, met).map_err(fault_of)?;
    }
    Ok(())
}

fn print(met: &Met) {
    let records = met.replies.all();
    println!(
        "{} streams, {records} calls on a record, 0 differ",
        met.streams
    );
    println!("replies: {}", met.replies.list());
    println!("reports by kind: {}", met.kinds.list());
    println!("limits met exactly: {}", met.edges.list());
    println!("met besides: {}", met.features.list());
    println!("replies to {} buffers: {}", met.runs.all(), met.runs.list());
    println!("how they ended: {}", met.over.list());
    println!(
        "{} streams beside the original to their end; left out: {}",
        met.beside,
        met.left_out.list()
    );
    println!(
        "{} closed unique and key scopes counted by the tree, {} fields of tuples shown",
        met.scopes, met.fields
    );
}
