//! The lines of a file of cases.

#[derive(PartialEq)]
pub enum Asked {
    Check,
    Conform,
    Run,
}

/// A case. What its question does not ask for is empty or 0.
pub struct Case {
    pub asked: Asked,
    pub name: String,
    pub image: Vec<u32>,
    pub heap: Vec<u64>,
    pub inputs: Vec<u64>,
    pub room: usize,
    pub steps: u64,
    pub depth: u64,
}

pub fn read(text: &str) -> Vec<Case> {
    text.lines().filter_map(case).collect()
}

fn case(line: &str) -> Option<Case> {
    let (word, rest) = line.split_once(' ')?;
    let (asked, count) = match word {
        "check" => (Asked::Check, 2),
        "conform" => (Asked::Conform, 4),
        "run" => (Asked::Run, 7),
        _ => return None,
    };
    let parts: Vec<&str> = rest.split('|').map(str::trim).collect();
    assert!(parts.len() == count, "a line `{word}` has {count} parts: {}", parts[0]);
    let words = |i: usize| -> Vec<u64> {
        let part = parts.get(i).copied().unwrap_or("");
        part.split_whitespace().map(|w| w.parse().expect("a number")).collect()
    };
    let number = |i: usize| words(i).first().copied().unwrap_or(0);
    Some(Case {
        asked,
        name: parts[0].to_string(),
        image: words(1).iter().map(|&w| u32::try_from(w).expect("a word of 32 bits")).collect(),
        heap: words(2),
        inputs: words(3),
        room: number(4) as usize,
        steps: number(5),
        depth: number(6),
    })
}
