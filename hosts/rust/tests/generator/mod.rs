//! Cases from a fixed seed: programs that are mostly well typed, programs that only have the layout, tables at their ceilings, and damage.

mod ceilings;
mod program;

use program::Program;

pub struct Case {
    pub image: Vec<u32>,
    pub heap: Vec<u64>,
    pub inputs: Vec<u64>,
    pub room: usize,
    pub steps: u64,
    pub depth: u64,
}

/// Numbers by a multiplication and two shifts.
pub struct Dice(pub u64);

impl Dice {
    pub fn word(&mut self) -> u64 {
        self.0 = self.0.wrapping_add(0x9e37_79b9_7f4a_7c15);
        let mut z = self.0;
        z = (z ^ (z >> 30)).wrapping_mul(0xbf58_476d_1ce4_e5b9);
        z = (z ^ (z >> 27)).wrapping_mul(0x94d0_49bb_1331_11eb);
        z ^ (z >> 31)
    }

    pub fn below(&mut self, n: usize) -> usize {
        (self.word() % n as u64) as usize
    }

    pub fn one_in(&mut self, n: usize) -> bool {
        self.below(n) == 0
    }

    pub fn of<T: Copy>(&mut self, list: &[T]) -> T {
        list[self.below(list.len())]
    }
}

fn value(dice: &mut Dice, heap: &[Option<usize>], program: &Program, t: u32) -> u64 {
    let tagged = |tag: u64, payload: u64| tag << 32 | payload;
    match t {
        0 => 0,
        1 => tagged(2, dice.below(2) as u64),
        2 => tagged(3, dice.of(&[0, 1, 2, 3, 7, 0x7fff_ffff, 0xffff_ffff])),
        _ => {
            let fits = |&a: &usize| heap[a].is_some_and(|c| program.below(c, t as usize - 4));
            let found: Vec<usize> = (0..heap.len()).filter(fits).collect();
            if found.is_empty() || dice.one_in(4) { tagged(1, 0) } else { tagged(4, dice.of(&found) as u64) }
        }
    }
}

// A heap that conforms: the three system objects, then objects of any class and free slots.
fn heap(dice: &mut Dice, program: &Program) -> (Vec<Option<usize>>, Vec<u64>) {
    let more = dice.of(&[0, 1, 2, 3, 5, 9, 20, 40]);
    let slots: Vec<Option<usize>> = (0..3 + more)
        .map(|s| if s < 3 { Some(s + 1) } else if dice.one_in(2) { Some(dice.below(program.classes.len())) } else { None })
        .collect();
    let mut words = Vec::new();
    for slot in &slots {
        let mut own = vec![slot.map_or(0, |c| c as u64 + 1)];
        if let Some(class) = *slot {
            for t in program.field_types(class) {
                own.push(value(dice, &slots, program, t));
            }
        }
        own.resize(16, 0);
        words.extend(own);
    }
    (slots, words)
}

fn sound(dice: &mut Dice, program: &Program) -> Case {
    let (slots, heap) = heap(dice, program);
    let inputs = program.inputs.iter().map(|&t| value(dice, &slots, program, t)).collect();
    let depth = dice.of(&[1, 2, 3, 4, 6, 8, 12, 20, 40, 100, 100, 300, 300, 1024, 1024]);
    let steps = dice.of(&[0, 1, 2, 3, 5, 8, 13, 30, 100, 400, 400, 1500, 1500, 1500, 6000]);
    let spare = dice.of(&[0, 0, 1, 17, 300]);
    Case { image: program.words(), heap, inputs, room: 16 * depth as usize + 160 + spare, steps, depth }
}

fn changed(dice: &mut Dice, word: u64, bits: u32) -> u64 {
    match dice.below(8) {
        0 | 1 => word.wrapping_add(1),
        2 | 3 => word.wrapping_sub(1),
        4 => word ^ 1 << dice.below(bits as usize),
        5 => dice.below(20) as u64,
        6 => dice.word() >> dice.below(64),
        _ => dice.of(&[0, 3, 4, 8, 9, 63, 64, 255, 256, 4095, 4096, 65535, 65536, 1 << 31, (1 << 32) - 1]),
    }
}

fn damage_list<T: Copy + TryFrom<u64> + Into<u64>>(dice: &mut Dice, list: &mut Vec<T>, bits: u32) {
    let cut = |w: u64| T::try_from(if bits == 32 { w % (1 << 32) } else { w }).ok().unwrap();
    let grow = list.is_empty() || dice.one_in(30);
    if grow {
        let at = dice.below(list.len() + 1);
        let word = cut(changed(dice, 0, bits));
        list.insert(at, word);
    } else if dice.one_in(30) {
        let at = dice.below(list.len());
        list.remove(at);
    } else {
        let at = dice.below(list.len());
        list[at] = cut(changed(dice, list[at].into(), bits));
    }
}

// A value under a wrong type, an object where it does not belong, or an address of nothing: words that are good one by one.
fn loosen(dice: &mut Dice, case: &mut Case) {
    let word = dice.of(&[0, 1 << 32, 2 << 32, (2 << 32) + 1, (3 << 32) + 5, 4 << 32, (4 << 32) + 3, (4 << 32) + 5, (4 << 32) + 4095]);
    if !case.inputs.is_empty() && dice.one_in(3) {
        let at = dice.below(case.inputs.len());
        case.inputs[at] = word;
        return;
    }
    let slot = 16 * dice.below(case.heap.len() / 16);
    let at = slot + 1 + dice.below(3);
    if dice.one_in(4) {
        case.heap[slot..slot + 16].fill(0);
        case.heap[slot] = if dice.one_in(2) { 0 } else { dice.below(6) as u64 };
    } else if case.heap[at] != 0 || dice.one_in(8) {
        case.heap[at] = word;
    }
}

fn damage_limits(dice: &mut Dice, case: &mut Case) {
    match dice.below(6) {
        0 => case.depth = dice.of(&[0, 1025, (1 << 32) + 8, u64::MAX]),
        1 => case.room = (16 * case.depth.min(1024) as usize + 160) - dice.of(&[1, 2, 16, 160]),
        2 => case.room = dice.of(&[0, 1, 159, 160, 176]),
        3 => case.steps = changed(dice, case.steps, 13) % 5000,
        4 => case.depth = changed(dice, case.depth, 64),
        _ => case.heap = vec![0; dice.of(&[0, 1, 16, 32, 47, 49, 63, 65])],
    }
}

fn damage(dice: &mut Dice, case: &mut Case) {
    match dice.below(16) {
        0..=7 => damage_list(dice, &mut case.image, 32),
        8 | 9 => damage_list(dice, &mut case.heap, 64),
        10 | 11 => damage_list(dice, &mut case.inputs, 64),
        12 | 13 => loosen(dice, case),
        _ => damage_limits(dice, case),
    }
}

/// The case of this number, always the same.
pub fn case(number: u64) -> Case {
    let mut dice = Dice(number.wrapping_mul(0x2545_f491_4f6c_dd1d) ^ 0x006d_7574_6861_7665);
    if number % 100 == 99 {
        return ceilings::case(&mut dice);
    }
    let program = match number % 6 {
        0 | 1 => Program::typed(&mut dice),
        2 => Program::looped(&mut dice),
        3 => Program::loose(&mut dice),
        4 => Program::settled(&mut dice),
        _ => Program::shaped(&mut dice),
    };
    let mut case = sound(&mut dice, &program);
    if dice.one_in(3) {
        loosen(&mut dice, &mut case);
    }
    if dice.one_in(2) {
        for _ in 0..dice.of(&[1, 1, 1, 2, 4]) {
            if case.heap.len() >= 48 {
                damage(&mut dice, &mut case);
            }
        }
    }
    case
}
