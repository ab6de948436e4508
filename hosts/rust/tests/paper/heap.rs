//! Values, objects, and numbers 14 to 18.

use super::image::{Image, Type, BOOL, INTEGER, NULL, VOID};

#[derive(Clone, Copy, Debug, PartialEq, Eq)]
pub enum Value {
    Unit,
    Null,
    Bool(bool),
    Integer(u32),
    Address(usize),
}

impl Value {
    pub fn of(word: u64) -> Option<Value> {
        let payload = word % (1 << 32);
        match word / (1 << 32) {
            0 if payload == 0 => Some(Value::Unit),
            1 if payload == 0 => Some(Value::Null),
            2 if payload <= 1 => Some(Value::Bool(payload == 1)),
            3 => Some(Value::Integer(payload as u32)),
            4 if payload <= 4095 => Some(Value::Address(payload as usize)),
            _ => None,
        }
    }

    pub fn word(self) -> u64 {
        let tagged = |tag: u64, payload: u64| tag * (1 << 32) + payload;
        match self {
            Value::Unit => tagged(0, 0),
            Value::Null => tagged(1, 0),
            Value::Bool(b) => tagged(2, b.into()),
            Value::Integer(i) => tagged(3, i.into()),
            Value::Address(a) => tagged(4, a as u64),
        }
    }

    pub fn default_of(t: Type) -> Value {
        match t {
            VOID => Value::Unit,
            BOOL => Value::Bool(false),
            INTEGER => Value::Integer(0),
            _ => Value::Null,
        }
    }
}

#[derive(Clone)]
pub struct Object {
    pub class: usize,
    // in the order of the slot
    pub fields: Vec<Value>,
}

#[derive(Clone)]
pub struct Heap {
    pub slots: Vec<Option<Object>>,
}

impl Heap {
    /// The objects of words that 14 and 15 let pass.
    pub fn read(image: &Image, words: &[u64]) -> Heap {
        let object = |slot: &[u64]| {
            let class = slot[0].checked_sub(1)? as usize;
            let count = image.all_fields(class).len();
            let fields = slot[1..=count].iter().map(|&w| Value::of(w).unwrap()).collect();
            Some(Object { class, fields })
        };
        Heap { slots: words.chunks(16).map(object).collect() }
    }

    pub fn words(&self) -> Vec<u64> {
        let slot = |object: &Option<Object>| {
            let mut words = [0; 16];
            if let Some(o) = object {
                words[0] = o.class as u64 + 1;
                for (i, v) in o.fields.iter().enumerate() {
                    words[i + 1] = v.word();
                }
            }
            words
        };
        self.slots.iter().flat_map(slot).collect()
    }

    pub fn object(&self, address: usize) -> Option<&Object> {
        self.slots.get(address)?.as_ref()
    }
}

/// 14
pub fn no_length(words: &[u64]) -> Option<usize> {
    let fits = words.len() % 16 == 0 && (3..=4096).contains(&(words.len() / 16));
    (!fits).then_some(0)
}

/// 15
pub fn broken_word(image: &Image, words: &[u64]) -> Option<usize> {
    for (s, slot) in words.chunks(16).enumerate() {
        if slot[0] > image.classes.len() as u64 {
            return Some(16 * s);
        }
        let count = if slot[0] == 0 { 0 } else { image.all_fields(slot[0] as usize - 1).len() };
        let good = |i: usize| if i <= count { Value::of(slot[i]).is_some() } else { slot[i] == 0 };
        if let Some(i) = (1..16).find(|&i| !good(i)) {
            return Some(16 * s + i);
        }
    }
    None
}

/// 16
pub fn broken_input(image: &Image, inputs: &[u64]) -> Option<usize> {
    let counted = (inputs.len() != image.inputs).then_some(image.inputs);
    let no_value = inputs.iter().position(|&w| Value::of(w).is_none());
    counted.into_iter().chain(no_value).min()
}

fn conforms(image: &Image, heap: &Heap, value: Value, t: Type) -> bool {
    match value {
        Value::Unit => t == VOID,
        Value::Bool(_) => t == BOOL,
        Value::Integer(_) => t == INTEGER,
        Value::Null => t >= NULL,
        Value::Address(a) => match (heap.object(a), super::image::class_of(t)) {
            (Some(o), Some(class)) => image.subclass(o.class, class),
            _ => false,
        },
    }
}

/// 17
pub fn unfit_word(image: &Image, heap: &Heap) -> Option<usize> {
    for (s, slot) in heap.slots.iter().enumerate() {
        if s < 3 && slot.as_ref().map(|o| o.class) != Some(s + 1) {
            return Some(16 * s);
        }
        let Some(o) = slot else { continue };
        let declared = image.all_fields(o.class);
        let unfit = (0..declared.len()).find(|&i| !conforms(image, heap, o.fields[i], declared[i].of_type));
        if let Some(i) = unfit {
            return Some(16 * s + 1 + i);
        }
    }
    None
}

/// 18
pub fn unfit_input(image: &Image, heap: &Heap, inputs: &[u64]) -> Option<usize> {
    let types = image.main_types();
    (0..inputs.len()).find(|&i| !conforms(image, heap, Value::of(inputs[i]).unwrap(), types[i]))
}
