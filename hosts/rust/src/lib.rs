//! The three questions of the proved library `muthaveri`, for a host in Rust.
//!
//! [`check`] asks whether an image may be let in, [`conform`] whether a heap and inputs fit it, and [`run`] runs it. Any words may be
//! asked about: no image, heap, input or limit is wrong to pass, and none makes the library fail.
//!
//! What the host owes:
//! - Stack. The check goes down an image's trees by calls, about 500 bytes a level and 2 MiB for the deepest tree there can be. A thread of
//!   Rust's has 2 MiB unless told otherwise: give one that checks images of strangers 4 MiB (`std::thread::Builder::stack_size`).
//! - Only after `check` and `conform` accepted is a run kept from ending stuck, and only with the very image, heap and inputs that they
//!   saw. `run` asks neither for types nor for initialized variables.
//! - After such a run the heap conforms again. Before the next one, a host asks `conform` about the new inputs, and about what it wrote
//!   into the heap itself.
//! - The room is the host's to lend, [`room_words`] of it. It may hold any words; an end leaves every word of it 0.

/// What `check` and `conform` answer.
#[derive(Clone, Copy, Debug, PartialEq, Eq)]
pub enum Answer {
    Accepted,
    /// The lowest number that is broken, from 1 to 18, and the lowest place where it is.
    Refused { number: u64, place: u64 },
}

/// A value that a run ends with.
#[derive(Clone, Copy, Debug, PartialEq, Eq)]
pub enum Value {
    Unit,
    Null,
    Bool(bool),
    Integer(i32),
    /// The number of a slot of the heap.
    Address(u32),
}

/// How a run ended.
#[derive(Clone, Copy, Debug, PartialEq, Eq)]
pub enum End {
    /// 30: main returned a value.
    Value(Value),
    /// 31: main threw an object. This is its address.
    Thrown(u32),
    /// 32: the limit of steps was reached.
    OutOfSteps,
    /// 33: the next step lies deeper than the depth limit allows.
    TooDeep,
    /// 34: no step can be taken. It does not happen where `check` and `conform` accepted.
    Stuck { place: u64 },
}

/// What `run` answers.
#[derive(Clone, Copy, Debug, PartialEq, Eq)]
pub enum Run {
    /// Nothing was run, and no word of heap or room was changed.
    Refused { number: u64, place: u64 },
    /// The end, after `count` steps. The heap is as these steps left it, and the room is all 0.
    Ended { end: End, count: u64 },
}

impl Value {
    /// The value's word: its tag, from the 33rd bit on, and its payload.
    pub fn word(self) -> u64 {
        let (tag, payload) = match self {
            Value::Unit => (0, 0),
            Value::Null => (1, 0),
            Value::Bool(b) => (2, b as u32),
            Value::Integer(i) => (3, i as u32),
            Value::Address(a) => (4, a),
        };
        tag << 32 | payload as u64
    }

    /// The value of a word, if it is the word of one.
    pub fn of_word(word: u64) -> Option<Value> {
        let payload = word as u32;
        match (word >> 32, payload) {
            (0, 0) => Some(Value::Unit),
            (1, 0) => Some(Value::Null),
            (2, 0 | 1) => Some(Value::Bool(payload == 1)),
            (3, _) => Some(Value::Integer(payload as i32)),
            (4, 0..=4095) => Some(Value::Address(payload)),
            _ => None,
        }
    }
}

/// How many words of room a run with this depth limit needs. Limits above 1,024 are refused whatever the room.
pub fn room_words(depth: u64) -> usize {
    16 * depth.min(1024) as usize + 160
}

/// What a number means, for a person: the words of docs/NUMBERS.md. There is no other number that an answer has.
pub fn meaning(number: u64) -> Option<&'static str> {
    Some(match number {
        0 => "nothing is broken",
        1 => "fewer than 8 words, or another format",
        2 => "a trailer word that does not fit the image",
        3 => "a section, or main's inputs, over the ceiling",
        4 => "a class record that is broken or missing",
        5 => "a broken field record",
        6 => "a broken method record",
        7 => "a broken type word",
        8 => "a broken node record",
        9 => "bodies that do not fill the node table",
        10 => "a class with more than 15 fields, those above it counted",
        11 => "a method that overrides badly",
        12 => "a node without a type, or a body whose type does not fit the result",
        13 => "a variable that is read where it is not surely set",
        14 => "a heap of the wrong length",
        15 => "a heap word that no heap of this image has there",
        16 => "a wrong number of inputs, or an input that is no value",
        17 => "a heap word that does not fit its type",
        18 => "an input that does not fit its type",
        19 => "a depth limit outside 1 to 1024",
        20 => "too little room for the depth limit",
        30 => "main returned a value",
        31 => "main threw an object",
        32 => "the limit of steps was reached",
        33 => "the next step lies deeper than the depth limit allows",
        34 => "no step can be taken",
        _ => return None,
    })
}

/// May this image be let in? Numbers 1 to 13.
pub fn check(image: &[u32]) -> Answer {
    answer(numbers::check(image))
}

/// Do this heap and these inputs fit the image? Numbers 1 to 10 and 14 to 18; that `check` accepts the image is not asked.
pub fn conform(image: &[u32], heap: &[u64], inputs: &[u64]) -> Answer {
    answer(numbers::conform(image, heap, inputs))
}

/// Runs the image's main on the heap with these inputs, for at most `steps` steps and at most `depth` deep.
///
/// Numbers 1 to 10, 14 to 16, 19 and 20 refuse it. `room` is [`room_words`] of `depth` or more.
pub fn run(image: &[u32], heap: &mut [u64], inputs: &[u64], room: &mut [u64], steps: u64, depth: u64) -> Run {
    ending(numbers::run(image, heap, inputs, room, steps, depth))
}

fn answer(a: MuthaveriAnswer) -> Answer {
    match a.number {
        0 => Answer::Accepted,
        number => Answer::Refused { number, place: a.place },
    }
}

fn ending(a: MuthaveriAnswer) -> Run {
    let end = match (a.number, Value::of_word(a.value)) {
        (30, Some(value)) => End::Value(value),
        (31, Some(Value::Address(at))) => End::Thrown(at),
        (32, _) => End::OutOfSteps,
        (33, _) => End::TooDeep,
        (34, _) => End::Stuck { place: a.place },
        (number @ 1..=20, _) => return Run::Refused { number, place: a.place },
        _ => unreachable!("the library's promise has no such answer: {a:?}"),
    };
    Run::Ended { end, count: a.count }
}

/// The four words of an answer, as the library gives them.
#[repr(C)]
#[derive(Clone, Copy, Debug, Default, PartialEq, Eq)]
pub struct MuthaveriAnswer {
    pub number: u64,
    pub place: u64,
    /// The steps of a run that was not refused, or 0.
    pub count: u64,
    /// The word of the value or address that an end carries, or 0.
    pub value: u64,
}

/// The same three questions, with answers that are not decoded.
pub mod numbers {
    use super::{c, MuthaveriAnswer};

    pub fn check(image: &[u32]) -> MuthaveriAnswer {
        unsafe { c::check(start(image, &NO_WORD), image.len()) }
    }

    pub fn conform(image: &[u32], heap: &[u64], inputs: &[u64]) -> MuthaveriAnswer {
        let (image_len, heap_len, inputs_len) = (image.len(), heap.len(), inputs.len());
        let (image, heap, inputs) = (start(image, &NO_WORD), start(heap, &NO_LONG), start(inputs, &NO_LONG));
        unsafe { c::conform(image, image_len, heap, heap_len, inputs, inputs_len) }
    }

    pub fn run(image: &[u32], heap: &mut [u64], inputs: &[u64], room: &mut [u64], steps: u64, depth: u64) -> MuthaveriAnswer {
        let (mut no_heap, mut no_room) = (0, 0);
        let (image_len, heap_len, inputs_len, room_len) = (image.len(), heap.len(), inputs.len(), room.len());
        let (image, inputs) = (start(image, &NO_WORD), start(inputs, &NO_LONG));
        let (heap, room) = (start_mut(heap, &mut no_heap), start_mut(room, &mut no_room));
        unsafe { c::run(image, image_len, heap, heap_len, inputs, inputs_len, room, room_len, steps, depth) }
    }

    // What stands where an empty slice begins: the library then gets the pointer of a word, and not a dangling one.
    static NO_WORD: u32 = 0;
    static NO_LONG: u64 = 0;

    fn start<T>(slice: &[T], none: &'static T) -> *const T {
        if slice.is_empty() { none } else { slice.as_ptr() }
    }

    fn start_mut<T>(slice: &mut [T], none: &mut T) -> *mut T {
        if slice.is_empty() { none } else { slice.as_mut_ptr() }
    }
}

// The C functions.
mod c {
    use super::MuthaveriAnswer;

    macro_rules! questions {
        ($($short:ident is $name:ident($($arg:ident: $type:ty),*);)*) => {
            extern "C" {
                $(fn $name($($arg: $type),*) -> MuthaveriAnswer;)*
            }
            $(
                // Safety: each pointer is that of the first of so many words, and no word that is written is lent a second time.
                pub unsafe fn $short($($arg: $type),*) -> MuthaveriAnswer {
                    $name($($arg),*)
                }
            )*
        };
    }

    questions! {
        check is muthaveri_check(image: *const u32, image_len: usize);
        conform is muthaveri_conform(
            image: *const u32, image_len: usize, heap: *const u64, heap_len: usize, inputs: *const u64, inputs_len: usize
        );
        run is muthaveri_run(
            image: *const u32, image_len: usize, heap: *mut u64, heap_len: usize, inputs: *const u64, inputs_len: usize,
            room: *mut u64, room_len: usize, steps: u64, depth: u64
        );
    }
}
