//! The machine without proofs, to compare the proved library with.
//!
//!     plain answers <CASES       answer every run of a file of cases; with a library linked in, every case, by the library
//!     plain times CASES ROUNDS   time every run; with a library linked in, both by turns

mod cases;
mod layout;
#[cfg(library)]
mod library;
mod machine;
mod times;

use cases::{Asked, Case};
use std::io::{Read, Write};

/// Number, place, count and value.
type Found = (u64, u64, u64, u64);

#[cfg(not(library))]
fn answer(case: &Case, heap: &mut [u64], room: &mut [u64]) -> Option<Found> {
    (case.asked == Asked::Run).then(|| times::plain(case, heap, room))
}

#[cfg(library)]
fn answer(case: &Case, heap: &mut [u64], room: &mut [u64]) -> Option<Found> {
    Some(match case.asked {
        Asked::Check => library::check(case),
        Asked::Conform => library::conform(case, heap),
        Asked::Run => library::run(case, heap, room),
    })
}

/// The room is lent with words in it: an end clears them, and a refusal leaves them.
const LENT: u64 = 0x0123_4567_89AB_CDEF;

fn answers() {
    let mut text = String::new();
    std::io::stdin().read_to_string(&mut text).expect("cases on standard input");
    let mut out = std::io::BufWriter::new(std::io::stdout());
    for case in cases::read(&text) {
        let mut heap = case.heap.clone();
        let mut room = vec![LENT; case.room];
        let Some((number, place, count, value)) = answer(&case, &mut heap, &mut room) else { continue };
        let left = if number >= 30 { 0 } else { LENT };
        assert!(room.iter().all(|&w| w == left), "{}: the room is not as it should be", case.name);
        let mut line = format!("{} {number} {place}", case.name);
        if number >= 30 {
            let value = if number <= 31 { value.to_string() } else { "-".to_string() };
            let heap: Vec<String> = heap.iter().map(u64::to_string).collect();
            line += &format!(" {count} {value} | {}", heap.join(" "));
        } else {
            assert!(heap == case.heap, "{}: a refusal changed the heap", case.name);
            assert!(count == 0 && value == 0, "{}: a refusal has a count or a value", case.name);
        }
        writeln!(out, "{line}").expect("an answer is written");
    }
}

fn main() {
    let args: Vec<String> = std::env::args().skip(1).collect();
    match args.iter().map(String::as_str).collect::<Vec<_>>()[..] {
        ["answers"] => answers(),
        ["times", path, rounds] => times::print(path, rounds.parse().expect("a number of rounds")),
        _ => {
            eprintln!("usage: plain answers <CASES | plain times CASES ROUNDS");
            std::process::exit(2);
        }
    }
}
