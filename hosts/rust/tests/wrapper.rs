//! The decoded answers: the paper's examples, and slices without words.

use muthaveri::{check, conform, meaning, room_words, run, Answer, End, Run, Value};

type Node = [u32; 4];

const VAR: Node = [3, 1, 1, 0];
const NEW: Node = [0, 1, 4, 0];
const NULL: Node = [2, 1, 1, 0];

fn int(i: u32) -> Node {
    [2, 1, 3, i]
}

// Class 4 with the Integer field 7 and the method 9 that returns it, then main.
fn image(main: &[Node], inputs: u32) -> Vec<u32> {
    let method = [[3, 1, 0, 0], [7, 2, 7, 4]];
    let nodes = [&method, main].concat();
    let types = nodes.len() as u32 * 4 + 8;
    let mut words = vec![0, 0, 0, 0, 0, 4, 7, 2, 4, 9, 2, 0, 0, 1];
    words.extend(vec![2; inputs as usize]);
    words.extend(nodes.concat());
    let from = types + inputs;
    words.extend([from + 14, from + 9, from + 6, from, types, nodes.len() as u32 - 1, inputs, 1]);
    words
}

fn heap(free: usize) -> Vec<u64> {
    let mut words = vec![0; 16 * (3 + free)];
    (0..3).for_each(|s| words[16 * s] = s as u64 + 2);
    words
}

fn ends(main: &[Node], free: usize, inputs: &[u64], steps: u64, depth: u64) -> (End, u64) {
    let mut room = vec![9; room_words(depth)];
    match run(&image(main, inputs.len() as u32), &mut heap(free), inputs, &mut room, steps, depth) {
        Run::Ended { end, count } => (end, count),
        refused => panic!("{refused:?}"),
    }
}

fn integer(i: i32) -> End {
    End::Value(Value::Integer(i))
}

#[test]
fn values() {
    let add = [int(0x7fff_ffff), int(1), [4, 3, 0, 0]];
    let twice = [int(2), [6, 2, 1, 0], VAR, VAR, [4, 3, 0, 0], [11, 6, 0, 0], [10, 7, 1, 2]];
    let sum = [int(1), int(1), [4, 3, 0, 0], [6, 4, 1, 0], VAR, VAR, [4, 3, 0, 0], [11, 8, 0, 0], [10, 9, 1, 2]];
    let input = [int(2), [6, 2, 1, 0], VAR, [11, 4, 0, 0]];
    let idle = [[2, 1, 2, 0], [2, 1, 0, 0], [13, 3, 0, 0]];
    assert_eq!(ends(&[int(5)], 1, &[], 0, 8), (integer(5), 0));
    assert_eq!(ends(&add, 1, &[], 100, 8), (integer(-2147483648), 1));
    assert_eq!(ends(&twice, 1, &[], 100, 8), (integer(4), 4));
    assert_eq!(ends(&sum, 1, &[], 100, 8), (integer(4), 5));
    assert_eq!(ends(&sum, 1, &[], 4, 8), (End::OutOfSteps, 4));
    assert_eq!(ends(&input, 1, &[Value::Integer(7).word()], 100, 8), (integer(2), 3));
    assert_eq!(ends(&idle, 1, &[], 100, 8), (End::Value(Value::Unit), 2));
    assert_eq!(ends(&[NEW, [9, 2, 9, 0]], 1, &[], 100, 8), (integer(0), 5));
}

#[test]
fn exceptions_and_limits() {
    let caught = [NEW, [14, 2, 8, 0], VAR, [15, 4, 4, 1]];
    let null_field = [NULL, [6, 2, 1, 0], VAR, [7, 2, 7, 4], [11, 5, 0, 0], [10, 6, 1, 8]];
    let deep = [int(1), int(1), [4, 3, 0, 0], int(1), [4, 5, 0, 0], int(1), [4, 7, 0, 0]];
    assert_eq!(ends(&caught, 1, &[], 100, 8), (End::Value(Value::Address(3)), 4));
    assert_eq!(ends(&caught, 0, &[], 100, 8), (End::Thrown(2), 3));
    assert_eq!(ends(&null_field, 1, &[], 100, 8), (End::Thrown(0), 3));
    assert_eq!(ends(&[NULL, [14, 2, 2, 0]], 1, &[], 100, 8), (End::Thrown(0), 1));
    assert_eq!(ends(&deep, 1, &[], 100, 1), (End::TooDeep, 0));
    assert_eq!(ends(&deep, 1, &[], 100, 2), (integer(4), 3));
    assert_eq!(ends(&[VAR, [10, 2, 1, 2]], 1, &[], 100, 8), (End::Stuck { place: 2 }, 0));
}

#[test]
fn checks() {
    assert_eq!(check(&image(&[int(5)], 0)), Answer::Accepted);
    assert_eq!(check(&image(&[VAR, [10, 2, 1, 2]], 0)), Answer::Refused { number: 13, place: 2 });
    assert_eq!(check(&image(&[[2, 1, 2, 1], NULL, NEW, [12, 4, 0, 0]], 0)), Answer::Refused { number: 12, place: 5 });
    assert_eq!(check(&image(&[NULL, [14, 2, 2, 0]], 0)), Answer::Refused { number: 12, place: 3 });
    assert_eq!(check(&[0, 0, 0, 0, 2, 1, 3, 5, 16, 12, 12, 12, 12, 0, 0, 1]), Answer::Accepted);
}

#[test]
fn nothing_at_all() {
    let image = image(&[int(5)], 0);
    assert_eq!(check(&[]), Answer::Refused { number: 1, place: 0 });
    assert_eq!(conform(&[], &[], &[]), Answer::Refused { number: 1, place: 0 });
    assert_eq!(conform(&image, &[], &[]), Answer::Refused { number: 14, place: 0 });
    assert_eq!(conform(&image, &heap(0), &[]), Answer::Accepted);
    assert_eq!(run(&image, &mut [], &[], &mut [], 0, 0), Run::Refused { number: 14, place: 0 });
    assert_eq!(run(&image, &mut heap(0), &[], &mut [], 0, 8), Run::Refused { number: 20, place: 0 });
    assert_eq!(run(&image, &mut heap(0), &[], &mut vec![0; room_words(8)], 0, 1025), Run::Refused { number: 19, place: 0 });
}

#[test]
fn every_number_has_a_meaning() {
    for number in 0..100 {
        let is_given = number <= 20 || (30..=34).contains(&number);
        assert_eq!(meaning(number).is_some(), is_given, "{number}");
    }
}
