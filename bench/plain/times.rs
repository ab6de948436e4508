//! Times of the runs, this program and a linked library by turns.

use crate::cases::{read, Asked, Case};
#[cfg(library)]
use crate::library;
use crate::{machine, Found};
use std::time::Instant;

pub fn plain(case: &Case, heap: &mut [u64], room: &mut [u64]) -> Found {
    let a = machine::run(&case.image, heap, &case.inputs, room, case.steps, case.depth);
    (a.number, a.place, a.count, a.value)
}

/// How often a case runs within one measurement: some milliseconds' worth.
fn repeats(count: u64) -> u64 {
    (1_000_000 / (count + 1000)).max(1)
}

/// Nanoseconds of one run, the heap being put back before each.
fn time(run: fn(&Case, &mut [u64], &mut [u64]) -> Found, case: &Case, heap: &mut [u64], room: &mut [u64], repeats: u64) -> f64 {
    let mut spent = 0;
    for _ in 0..repeats {
        heap.copy_from_slice(&case.heap);
        let began = Instant::now();
        std::hint::black_box(run(std::hint::black_box(case), heap, room));
        spent += began.elapsed().as_nanos();
    }
    spent as f64 / repeats as f64
}

fn shown(ns: f64, count: u64) -> String {
    if count == 0 {
        return format!("{ns:8.1} ns a run");
    }
    format!("{:8.2} ns a step", ns / count as f64)
}

/// A case that is measured: its steps, and the best time so far of each program.
struct Measured {
    case: Case,
    heap: Vec<u64>,
    room: Vec<u64>,
    count: u64,
    plain: f64,
    #[cfg(library)]
    library: f64,
}

/// Runs a case once. With a library, none where the two answer differently, which is told.
fn first(case: Case) -> Option<Measured> {
    let mut heap = case.heap.clone();
    let mut room = vec![0; case.room];
    let found = plain(&case, &mut heap, &mut room);
    #[cfg(library)]
    {
        let after = heap.clone();
        heap.copy_from_slice(&case.heap);
        let theirs = library::run(&case, &mut heap, &mut room);
        if theirs != found || heap != after || room.iter().any(|&w| w != 0) {
            println!("{:30} the answers differ: {found:?} here, {theirs:?} there", case.name);
            return None;
        }
    }
    Some(Measured {
        case,
        heap,
        room,
        count: found.2,
        plain: f64::INFINITY,
        #[cfg(library)]
        library: f64::INFINITY,
    })
}

/// Each round measures every case once: a busy moment of the machine then spoils no case alone.
pub fn print(path: &str, rounds: u32) {
    let text = std::fs::read_to_string(path).unwrap_or_else(|wrong| {
        eprintln!("{path}: {wrong}");
        std::process::exit(2)
    });
    let mut cases = read(&text);
    cases.retain(|case| case.asked == Asked::Run);
    let count = cases.len();
    let mut all: Vec<Measured> = cases.into_iter().filter_map(first).collect();
    for _ in 0..rounds {
        for m in &mut all {
            let often = repeats(m.count);
            m.plain = m.plain.min(time(plain, &m.case, &mut m.heap, &mut m.room, often));
            #[cfg(library)]
            {
                m.library = m.library.min(time(library::run, &m.case, &mut m.heap, &mut m.room, often));
            }
        }
    }
    for m in &all {
        let ours = shown(m.plain, m.count);
        #[cfg(not(library))]
        println!("{:30} {:>8} steps   plain {ours}", m.case.name, m.count);
        #[cfg(library)]
        println!("{:30} {:>8} steps   plain {ours}   proved {}   ratio {:.2}", m.case.name, m.count, shown(m.library, m.count), m.library / m.plain);
    }
    if all.len() != count {
        std::process::exit(1);
    }
}
