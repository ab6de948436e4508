//! The proved library against the paper, case by case: number, place, count, value, every word of the heap, and the room.

mod generator;
mod paper;

use generator::Case;
use muthaveri::numbers;
use paper::Told;
use std::collections::BTreeMap;

const CASES: u64 = 60_000;

fn words(a: muthaveri::MuthaveriAnswer) -> Told {
    (a.number, a.place, a.count, a.value)
}

// Words that the library was not lent, before and after those that it was.
const GUARD: usize = 4;
const GUARD_WORD: u64 = 0x5a5a_5a5a_0000_0001;

fn guarded(inside: &[u64]) -> Vec<u64> {
    [&[GUARD_WORD; GUARD], inside, &[GUARD_WORD; GUARD]].concat()
}

fn inside(words: &mut [u64]) -> &mut [u64] {
    let end = words.len() - GUARD;
    &mut words[GUARD..end]
}

fn same<T: PartialEq + std::fmt::Debug>(name: &str, what: &str, library: T, paper: T) {
    assert!(library == paper, "{name}: {what}: the library has {library:?}, the paper {paper:?}");
}

// The library's answer to the run, and the heap afterwards. The room is looked at here: all 0 after an end, untouched at a refusal.
fn ask_run(name: &str, case: &Case) -> (Told, Vec<u64>) {
    let lent: Vec<u64> = (0..case.room as u64).map(|i| i.wrapping_mul(0x9e37_79b9_7f4a_7c15) | 1).collect();
    let (mut heap, mut room) = (guarded(&case.heap), guarded(&lent));
    let told = words(numbers::run(&case.image, inside(&mut heap), &case.inputs, inside(&mut room), case.steps, case.depth));
    let left = if told.0 >= 30 { vec![0; case.room] } else { lent };
    assert!(room == guarded(&left), "{name}: the room after the run is wrong");
    let after = inside(&mut heap).to_vec();
    assert!(heap == guarded(&after), "{name}: words beside the heap were written");
    (told, after)
}

fn compare_run(name: &str, case: &Case) -> Told {
    let (told, after) = paper::run(&case.image, &case.heap, &case.inputs, case.room, case.steps, case.depth);
    let (library, left) = ask_run(name, case);
    same(name, "run", library, told);
    assert!(left == after, "{name}: the heap after the run differs");
    told
}

fn compare_check(name: &str, case: &Case) -> Told {
    let told = paper::check(&case.image);
    same(name, "check", words(numbers::check(&case.image)), told);
    told
}

fn compare_conform(name: &str, case: &Case) -> Told {
    let told = paper::conform(&case.image, &case.heap, &case.inputs);
    same(name, "conform", words(numbers::conform(&case.image, &case.heap, &case.inputs)), told);
    told
}

type Counts = BTreeMap<u64, [u64; 3]>;

fn count(counts: &mut Counts, question: usize, told: Told) {
    counts.entry(told.0).or_default()[question] += 1;
}

fn print(counts: &Counts) {
    println!("number    check  conform      run");
    for (number, [check, conform, run]) in counts {
        println!("{number:>6} {check:>8} {conform:>8} {run:>8}");
    }
}

// A tree may be 4,096 deep, on both sides.
fn with_stack(test: fn()) {
    std::thread::Builder::new().stack_size(256 << 20).spawn(test).unwrap().join().unwrap();
}

#[test]
fn the_library_agrees_with_the_paper() {
    with_stack(|| {
        let (mut counts, mut steps, mut longest, mut safe, mut stuck) = (Counts::new(), 0, 0, 0, 0);
        for number in 0..CASES {
            let (name, case) = (format!("case {number}"), generator::case(number));
            let check = compare_check(&name, &case);
            let conform = compare_conform(&name, &case);
            let run = compare_run(&name, &case);
            [check, conform, run].into_iter().enumerate().for_each(|(q, told)| count(&mut counts, q, told));
            steps += run.2;
            longest = longest.max(run.2);
            let accepted = check.0 == 0 && conform.0 == 0 && run.0 >= 30;
            safe += accepted as u64;
            stuck += (accepted && run.0 == 34) as u64;
        }
        print(&counts);
        println!("steps of all runs: {steps}, of the longest: {longest}; runs of what check and conform accepted: {safe}");
        assert_eq!(stuck, 0, "a run of what check and conform accepted was stuck");
        for number in (0..=20).chain(30..=34) {
            assert!(counts.contains_key(&number), "no case gave {number}");
        }
    });
}

fn numbers_of(text: &str) -> Vec<u64> {
    text.split_whitespace().map(|w| w.parse().unwrap()).collect()
}

// A line of a file of cases: its question, its name, and the case.
fn given(line: &str) -> (String, String, Case) {
    let parts: Vec<&str> = line.split('|').collect();
    let (question, name) = parts[0].trim().split_once(' ').unwrap();
    let list = |i: usize| parts.get(i).map_or(vec![], |p| numbers_of(p));
    let one = |i: usize| list(i).first().copied().unwrap_or(0);
    let image = list(1).into_iter().map(|w| w as u32).collect();
    let case = Case { image, heap: list(2), inputs: list(3), room: one(4) as usize, steps: one(5), depth: one(6) };
    (question.to_string(), name.to_string(), case)
}

// The run's answer as the line of the file of answers has it.
fn run_line(name: &str, (number, place, count, value): Told, heap: &[u64]) -> String {
    if number < 30 {
        return format!("{name} {number} {place}");
    }
    let value = if number <= 31 { value.to_string() } else { "-".to_string() };
    let heap: Vec<String> = heap.iter().map(|w| w.to_string()).collect();
    format!("{name} {number} {place} {count} {value} | {}", heap.join(" "))
}

// The longest run that the paper is asked for too: it rewrites the whole way from the root at every step.
const LONG: u64 = 20_000;

fn compare_given(question: &str, name: &str, case: &Case) -> String {
    let line = |(number, place, ..): Told| format!("{name} {number} {place}");
    match question {
        "check" => line(compare_check(name, case)),
        "conform" => line(compare_conform(name, case)),
        _ => {
            let (told, heap) = ask_run(name, case);
            if told.2 <= LONG {
                compare_run(name, case);
            }
            run_line(name, told, &heap)
        }
    }
}

fn compare_file(cases: &str, answers: &str) -> usize {
    let asked = cases.lines().filter(|l| !l.trim().is_empty());
    let given_answers: Vec<&str> = answers.lines().filter(|l| !l.trim().is_empty()).collect();
    let mut count = 0;
    for line in asked {
        let (question, name, case) = given(line);
        same(&name, "given answer", compare_given(&question, &name, &case).as_str(), given_answers[count].trim());
        count += 1;
    }
    assert_eq!(count, given_answers.len(), "an answer for each case");
    count
}

#[test]
fn the_given_vectors_have_their_answers() {
    with_stack(|| {
        let Ok(folder) = std::env::var("MUTHAVERI_VECTORS") else { return println!("MUTHAVERI_VECTORS is not set: no vectors") };
        let mut files: Vec<_> = std::fs::read_dir(folder).unwrap().map(|f| f.unwrap().path()).collect();
        files.retain(|f| f.extension().is_some_and(|e| e == "cases"));
        files.sort();
        for file in files {
            let answers = std::fs::read_to_string(file.with_extension("answers")).unwrap();
            let asked = compare_file(&std::fs::read_to_string(&file).unwrap(), &answers);
            println!("{}: {asked} cases", file.file_name().unwrap().to_string_lossy());
        }
    });
}
