//! The machine: frames of 16 words in the lent room, after a store of 64 variables.
//!
//! A frame stands for one constructor above the focus, so the number of frames is the depth. The store is bound
//! shallowly: a block's frame keeps what its variable held outside. An operand that is a value or a set variable is
//! taken where it stands. Where that fails (an unset variable, a limit, a wrong value) the same node is worked out
//! with frames, one step at a time, and the exact end is found there.

use crate::layout::{accept, Classes, Image, MOST_NODES};
use std::mem::MaybeUninit;

pub struct Answer {
    pub number: u64,
    pub place: u64,
    pub count: u64,
    pub value: u64,
}

/// What a variable holds that is not set: no value.
const UNSET: u64 = u64::MAX;
const NULL: u64 = 1 << 32;
const FALSE: u64 = 2 << 32;
const ZERO: u64 = 3 << 32;
const ADDRESS: u64 = 4 << 32;
const STORE: usize = 64;
const FRAME: usize = 16;

/// What a node does, its operands' form included. `S`: the operand is a value or a variable.
#[derive(Clone, Copy, PartialEq)]
#[repr(u8)]
enum Op {
    New,
    Cast,
    Value,
    Var,
    AddSS,
    AddS,
    Add,
    EqSS,
    EqS,
    Eq,
    AssignS,
    Assign,
    GetS,
    Get,
    SetSS,
    SetS,
    Set,
    CallS,
    Call,
    Block,
    /// A block that is written `{V; V := value; e}`.
    BlockSet,
    Seq,
    /// `V := value; e`: a block of V may remember it.
    SeqSet,
    If,
    While,
    /// The body is `V := value`.
    WhileSet,
    Throw,
    Try,
}

/// What a frame waits for.
#[derive(Clone, Copy)]
#[repr(u8)]
enum Wait {
    Cast,
    Add1,
    Add2,
    Eq1,
    Eq2,
    Assign,
    Get,
    Set1,
    Set2,
    Call,
    Block,
    Seq,
    If,
    /// The If that a While becomes, and its Seq.
    WhileIf,
    WhileSeq,
    Throw,
    Try,
}

/// A node, made ready: operands found, fields and constants looked up.
#[derive(Clone, Copy)]
struct Node {
    op: Op,
    /// Variable, or the number of a call's arguments.
    x: u8,
    /// Steps when all operands are taken where they stand.
    cost: u16,
    /// First and second operand; a call's operands in the list of operands, from a on.
    a: u16,
    b: u16,
    /// A value's word; class, field and name where they are needed.
    w: u64,
    /// Where the value of the first and second operand stands, if it is a value or a variable.
    first: *const u64,
    second: *const u64,
}

/// The index, on the stack.
struct Index {
    nodes: [MaybeUninit<Node>; MOST_NODES],
    operands: [MaybeUninit<u16>; MOST_NODES],
}

/// Methods that were found, by class and name: the key and the record.
type Found = [(u32, u16); 64];

fn field_offset(image: &Image, classes: &Classes, name: u32, class: u32) -> u64 {
    let c = class as usize;
    let own = classes.first_field[c] as usize..classes.first_field[c + 1] as usize;
    let above = classes.field_count[c] as usize - own.len();
    for (rank, i) in own.enumerate() {
        if image.fields[3 * i + 1] == name {
            return (1 + above + rank) as u64;
        }
    }
    0
}

impl Index {
    unsafe fn node(&self, n: usize) -> *const Node {
        self.nodes.as_ptr().add(n) as *const Node
    }

    /// Where a node's value stands, if it is a value or a variable, and the steps it takes to have it.
    unsafe fn simple(&self, n: usize, store: *const u64) -> (*const u64, u16) {
        let node = self.node(n);
        match (*node).op {
            Op::Value => (&raw const (*node).w, 0),
            Op::Var => (store.add((*node).x as usize), 1),
            _ => (std::ptr::null(), 0),
        }
    }

    unsafe fn is_set(&self, n: usize) -> bool {
        (*self.node(n)).op == Op::AssignS && (*self.node((*self.node(n)).a as usize)).op == Op::Value
    }

    unsafe fn build(&mut self, image: &Image, classes: &Classes, store: *const u64) {
        let mut listed = 0;
        for (n, r) in image.nodes.chunks_exact(4).enumerate() {
            let (kind, x, y) = (r[0], r[2], r[3]);
            let last = n.wrapping_sub(1);
            let before = |m: usize| m - image.nodes[4 * m + 1] as usize;
            let none = std::ptr::null();
            let mut node = Node { op: Op::Value, x: x as u8, cost: 1, a: last as u16, b: last as u16, w: 0, first: none, second: none };
            if kind != 0 && kind != 2 && kind != 3 {
                match kind {
                    4 | 5 | 8 | 11 | 13 | 15 => node.a = before(last) as u16,
                    _ => (),
                }
                let (first, steps) = self.simple(node.a as usize, store);
                let (second, more) = self.simple(node.b as usize, store);
                node.first = first;
                node.second = second;
                node.cost = 1 + steps;
                if matches!(kind, 4 | 5 | 8) {
                    node.cost += more;
                }
            }
            let (one, two) = (!node.first.is_null(), !node.second.is_null());
            let pick = |both: Op, left: Op, neither: Op| if one && two { both } else if one { left } else { neither };
            node.op = match kind {
                0 => {
                    node.w = x as u64;
                    Op::New
                }
                1 => {
                    node.w = x as u64;
                    Op::Cast
                }
                2 => {
                    node.w = (x as u64) << 32 | y as u64;
                    Op::Value
                }
                3 => Op::Var,
                4 => pick(Op::AddSS, Op::AddS, Op::Add),
                5 => pick(Op::EqSS, Op::EqS, Op::Eq),
                6 => if one { Op::AssignS } else { Op::Assign },
                7 => {
                    node.w = field_offset(image, classes, x, y) << 32 | y as u64;
                    if one { Op::GetS } else { Op::Get }
                }
                8 => {
                    node.w = field_offset(image, classes, x, y) << 32 | y as u64;
                    pick(Op::SetSS, Op::SetS, Op::Set)
                }
                9 => {
                    node.x = y as u8;
                    node.w = x as u64;
                    node.a = listed as u16;
                    node.cost = 1;
                    let count = y as usize + 1;
                    let mut m = last;
                    let mut all = true;
                    for j in (0..count).rev() {
                        self.operands[listed + j].write(m as u16);
                        let (at, steps) = self.simple(m, store);
                        all &= !at.is_null();
                        node.cost += steps;
                        m = m.wrapping_sub(image.nodes[4 * m + 1] as usize);
                    }
                    listed += count;
                    if all { Op::CallS } else { Op::Call }
                }
                10 => {
                    let body = self.node(last);
                    if (*body).op == Op::SeqSet && (*self.node((*body).a as usize)).x == node.x {
                        node.a = (*body).b;
                        node.first = (*self.node((*body).a as usize)).first;
                        Op::BlockSet
                    } else {
                        Op::Block
                    }
                }
                11 => if self.is_set(node.a as usize) { Op::SeqSet } else { Op::Seq },
                12 => {
                    let (yes, no) = (before(last), last);
                    node.a = before(yes) as u16;
                    node.b = yes as u16;
                    node.w = no as u64;
                    Op::If
                }
                13 => if self.is_set(last) { Op::WhileSet } else { Op::While },
                14 => Op::Throw,
                _ => {
                    node.w = x as u64;
                    node.x = y as u8;
                    Op::Try
                }
            };
            self.nodes[n].write(node);
        }
    }
}

/// The method record that a class sees, or none.
fn method_of(image: &Image, classes: &Classes, class: usize, name: u32) -> Option<usize> {
    let mut c = class;
    loop {
        let (mut low, mut high) = (classes.first_method[c] as usize, classes.first_method[c + 1] as usize);
        while low < high {
            let middle = (low + high) / 2;
            if image.methods[6 * middle + 1] < name {
                low = middle + 1;
            } else {
                high = middle;
            }
        }
        if low < classes.first_method[c + 1] as usize && image.methods[6 * low + 1] == name {
            return Some(low);
        }
        if c == 0 {
            return None;
        }
        c = image.classes[c] as usize;
    }
}

fn fill_defaults(image: &Image, classes: &Classes, class: usize, slot: &mut [u64]) {
    slot[0] = class as u64 + 1;
    let mut c = class;
    while classes.field_count[c] != 0 {
        let own = classes.first_field[c] as usize..classes.first_field[c + 1] as usize;
        let above = classes.field_count[c] as usize - own.len();
        for (rank, i) in own.enumerate() {
            slot[1 + above + rank] = match image.fields[3 * i + 2] {
                0 => 0,
                1 => FALSE,
                2 => ZERO,
                _ => NULL,
            };
        }
        c = image.classes[c] as usize;
    }
}

struct End {
    number: u64,
    place: u64,
    left: u64,
    value: u64,
}

unsafe fn reduce(image: &Image, classes: &Classes, heap: &mut [u64], index: &Index, found: &mut Found, room: *mut u64, steps: u64, depth: u64) -> End {
    let slots = heap.len() / 16;
    let nodes = index.nodes.as_ptr() as *const Node;
    let store = room;
    let bottom = room.add(STORE);
    // A focus above this frame lies too deep.
    let deepest = bottom.add(FRAME * depth as usize);
    let mut top = bottom;
    let mut left = steps;
    let mut n = nodes.add(image.main as usize);
    let mut lowest = 0;

    macro_rules! ended {
        ($number:expr, $place:expr, $value:expr) => {
            return End { number: $number, place: $place, left, value: $value }
        };
    }
    macro_rules! stuck {
        ($n:expr) => {
            ended!(34, ($n).offset_from(nodes) as u64, 0)
        };
    }
    // One step, after the rule is found.
    macro_rules! step {
        () => {
            if left == 0 {
                ended!(32, 0, 0)
            }
            left -= 1;
        };
    }
    macro_rules! push {
        ($wait:expr, $n:expr) => {
            *top = $wait as u64 | (($n).offset_from(nodes) as u64) << 8;
            top = top.add(FRAME);
        };
    }
    // The operands may be taken where they stand.
    macro_rules! near {
        ($node:expr) => {
            top < deepest && left >= $node.cost as u64
        };
    }
    // The class word of an object, or 0.
    macro_rules! class_word {
        ($v:expr) => {{
            let v: u64 = $v;
            let a = (v & 0xffff_ffff) as usize;
            if v >> 32 == 4 && a < slots { *heap.get_unchecked(16 * a) } else { 0 }
        }};
    }
    macro_rules! is_below {
        ($class_word:expr, $d:expr) => {{
            let (c, d) = ($class_word as usize - 1, $d as usize);
            c == d || classes.below.get_unchecked(c).get_unchecked(d / 64) >> (d % 64) & 1 == 1
        }};
    }
    // The heap word of a field, or 0.
    macro_rules! field_word {
        ($v:expr, $w:expr) => {{
            let (v, w): (u64, u64) = ($v, $w);
            let c = class_word!(v);
            if c != 0 && w >> 32 != 0 && is_below!(c, w & 0xffff_ffff) { 16 * (v & 0xffff_ffff) as usize + (w >> 32) as usize } else { 0 }
        }};
    }

    'eval: loop {
        let thrown: u64 = 'throwing: {
            let node = &*n;
            if top > deepest && node.op != Op::Value {
                ended!(33, 0, 0)
            }
            let mut v = match node.op {
                Op::Value => node.w,
                Op::Var => {
                    let v = *store.add(node.x as usize);
                    if v == UNSET {
                        stuck!(n)
                    }
                    step!();
                    v
                }
                Op::AddSS => {
                    let (a, b) = (*node.first, *node.second);
                    if near!(node) && a >> 32 == 3 && b >> 32 == 3 {
                        left -= node.cost as u64;
                        ZERO | (a as u32).wrapping_add(b as u32) as u64
                    } else {
                        push!(Wait::Add1, n);
                        n = nodes.add(node.a as usize);
                        continue 'eval;
                    }
                }
                Op::EqSS => {
                    let (a, b) = (*node.first, *node.second);
                    if near!(node) && a != UNSET && b != UNSET {
                        left -= node.cost as u64;
                        FALSE | (a == b) as u64
                    } else {
                        push!(Wait::Eq1, n);
                        n = nodes.add(node.a as usize);
                        continue 'eval;
                    }
                }
                Op::AddS | Op::EqS | Op::SetS => {
                    let a = *node.first;
                    let (one, two) = match node.op {
                        Op::AddS => (Wait::Add1, Wait::Add2),
                        Op::EqS => (Wait::Eq1, Wait::Eq2),
                        _ => (Wait::Set1, Wait::Set2),
                    };
                    if near!(node) && a != UNSET {
                        left -= node.cost as u64 - 1;
                        *top.add(1) = a;
                        push!(two, n);
                        n = nodes.add(node.b as usize);
                    } else {
                        push!(one, n);
                        n = nodes.add(node.a as usize);
                    }
                    continue 'eval;
                }
                Op::AssignS => {
                    let a = *node.first;
                    let variable = store.add(node.x as usize);
                    if near!(node) && a != UNSET && *variable != UNSET {
                        left -= node.cost as u64;
                        *variable = a;
                        a
                    } else {
                        push!(Wait::Assign, n);
                        n = nodes.add(node.a as usize);
                        continue 'eval;
                    }
                }
                Op::GetS => {
                    let a = *node.first;
                    let at = field_word!(a, node.w);
                    if at != 0 && near!(node) {
                        left -= node.cost as u64;
                        *heap.get_unchecked(at)
                    } else {
                        push!(Wait::Get, n);
                        n = nodes.add(node.a as usize);
                        continue 'eval;
                    }
                }
                Op::SetSS => {
                    let (a, b) = (*node.first, *node.second);
                    let at = field_word!(a, node.w);
                    if at != 0 && b != UNSET && near!(node) {
                        left -= node.cost as u64;
                        *heap.get_unchecked_mut(at) = b;
                        b
                    } else {
                        push!(Wait::Set1, n);
                        n = nodes.add(node.a as usize);
                        continue 'eval;
                    }
                }
                Op::Add => {
                    push!(Wait::Add1, n);
                    n = nodes.add(node.a as usize);
                    continue 'eval;
                }
                Op::Eq => {
                    push!(Wait::Eq1, n);
                    n = nodes.add(node.a as usize);
                    continue 'eval;
                }
                Op::Set => {
                    push!(Wait::Set1, n);
                    n = nodes.add(node.a as usize);
                    continue 'eval;
                }
                Op::Cast => {
                    push!(Wait::Cast, n);
                    n = nodes.add(node.a as usize);
                    continue 'eval;
                }
                Op::Assign => {
                    push!(Wait::Assign, n);
                    n = nodes.add(node.a as usize);
                    continue 'eval;
                }
                Op::Get => {
                    push!(Wait::Get, n);
                    n = nodes.add(node.a as usize);
                    continue 'eval;
                }
                Op::If => {
                    push!(Wait::If, n);
                    n = nodes.add(node.a as usize);
                    continue 'eval;
                }
                Op::Throw => {
                    push!(Wait::Throw, n);
                    n = nodes.add(node.a as usize);
                    continue 'eval;
                }
                Op::Try => {
                    push!(Wait::Try, n);
                    n = nodes.add(node.a as usize);
                    continue 'eval;
                }
                Op::Seq => {
                    push!(Wait::Seq, n);
                    n = nodes.add(node.a as usize);
                    continue 'eval;
                }
                Op::SeqSet => {
                    let first = &*nodes.add(node.a as usize);
                    if remembers(top, bottom, store, first.x) {
                        *store.add(first.x as usize) = *first.first;
                        n = nodes.add(node.b as usize);
                    } else {
                        push!(Wait::Seq, n);
                        n = nodes.add(node.a as usize);
                    }
                    continue 'eval;
                }
                Op::While | Op::WhileSet => {
                    step!();
                    push!(Wait::WhileIf, n);
                    n = nodes.add(node.a as usize);
                    continue 'eval;
                }
                Op::Block | Op::BlockSet => {
                    let variable = store.add(node.x as usize);
                    *top.add(1) = *variable;
                    *top.add(2) = node.x as u64;
                    *variable = if node.op == Op::Block { UNSET } else { *node.first };
                    push!(Wait::Block, n);
                    n = nodes.add(node.a as usize);
                    continue 'eval;
                }
                Op::New => {
                    step!();
                    while lowest < slots && *heap.get_unchecked(16 * lowest) != 0 {
                        lowest += 1;
                    }
                    if lowest == slots {
                        break 'throwing 2;
                    }
                    fill_defaults(image, classes, node.w as usize, &mut heap[16 * lowest..16 * lowest + 16]);
                    ADDRESS | lowest as u64
                }
                Op::Call => {
                    *top.add(1) = 0;
                    push!(Wait::Call, n);
                    n = nodes.add(index.operands[node.a as usize].assume_init() as usize);
                    continue 'eval;
                }
                Op::CallS => {
                    let count = node.x as usize;
                    let mut values = [0u64; 9];
                    let mut whole = near!(node);
                    for j in 0..=count {
                        let m = &*nodes.add(index.operands.get_unchecked(node.a as usize + j).assume_init() as usize);
                        let w = if m.op == Op::Value { m.w } else { *store.add(m.x as usize) };
                        *values.get_unchecked_mut(j) = w;
                        whole &= w != UNSET;
                    }
                    let c = class_word!(values[0]);
                    if whole && c != 0 {
                        if let Some((body, takes)) = find_method(image, classes, found, c as usize - 1, node.w as u32) {
                            if takes == count && top.add(FRAME * count) <= deepest {
                                left -= node.cost as u64;
                                let mut j = 0;
                                while j <= count {
                                    enter_block(top, store, j, *values.get_unchecked(j));
                                    top = top.add(FRAME);
                                    j += 1;
                                }
                                n = nodes.add(body);
                                continue 'eval;
                            }
                        }
                    }
                    *top.add(1) = 0;
                    push!(Wait::Call, n);
                    n = nodes.add(index.operands[node.a as usize].assume_init() as usize);
                    continue 'eval;
                }
            };

            // The focus is the value v.
            'back: loop {
                if top == bottom {
                    ended!(30, 0, v)
                }
                let frame = top.sub(FRAME);
                let head = *frame;
                let above = nodes.add((head >> 8) as usize);
                let node = &*above;
                match std::mem::transmute::<u8, Wait>(head as u8) {
                    Wait::Block => {
                        step!();
                        *store.add(*frame.add(2) as usize) = *frame.add(1);
                        top = frame;
                    }
                    Wait::Seq => {
                        step!();
                        top = frame;
                        n = nodes.add(node.b as usize);
                        continue 'eval;
                    }
                    Wait::WhileSeq => {
                        step!();
                        top = frame;
                        n = above;
                        continue 'eval;
                    }
                    Wait::WhileIf => {
                        if v >> 32 != 2 {
                            stuck!(above)
                        }
                        step!();
                        if v == FALSE {
                            top = frame;
                            v = 0;
                            continue 'back;
                        }
                        if node.op == Op::WhileSet {
                            let body = &*nodes.add(node.b as usize);
                            if remembers(frame, bottom, store, body.x) {
                                *store.add(body.x as usize) = *body.first;
                                top = frame;
                                n = above;
                                continue 'eval;
                            }
                        }
                        *frame = Wait::WhileSeq as u64 | head & !0xff;
                        n = nodes.add(node.b as usize);
                        continue 'eval;
                    }
                    Wait::If => {
                        if v >> 32 != 2 {
                            stuck!(above)
                        }
                        step!();
                        top = frame;
                        n = nodes.add(if v != FALSE { node.b as usize } else { node.w as usize });
                        continue 'eval;
                    }
                    Wait::Add1 => {
                        if !node.second.is_null() && top <= deepest && left >= 2 {
                            let b = *node.second;
                            if v >> 32 == 3 && b >> 32 == 3 {
                                left -= 1 + ((*nodes.add(node.b as usize)).op == Op::Var) as u64;
                                v = ZERO | (v as u32).wrapping_add(b as u32) as u64;
                                top = frame;
                                continue 'back;
                            }
                        }
                        *frame = Wait::Add2 as u64 | head & !0xff;
                        *frame.add(1) = v;
                        n = nodes.add(node.b as usize);
                        continue 'eval;
                    }
                    Wait::Eq1 => {
                        if !node.second.is_null() && top <= deepest && left >= 2 {
                            let b = *node.second;
                            if b != UNSET {
                                left -= 1 + ((*nodes.add(node.b as usize)).op == Op::Var) as u64;
                                v = FALSE | (v == b) as u64;
                                top = frame;
                                continue 'back;
                            }
                        }
                        *frame = Wait::Eq2 as u64 | head & !0xff;
                        *frame.add(1) = v;
                        n = nodes.add(node.b as usize);
                        continue 'eval;
                    }
                    Wait::Set1 => {
                        *frame = Wait::Set2 as u64 | head & !0xff;
                        *frame.add(1) = v;
                        n = nodes.add(node.b as usize);
                        continue 'eval;
                    }
                    Wait::Add2 => {
                        let a = *frame.add(1);
                        if a >> 32 != 3 || v >> 32 != 3 {
                            stuck!(above)
                        }
                        step!();
                        v = ZERO | (a as u32).wrapping_add(v as u32) as u64;
                        top = frame;
                    }
                    Wait::Eq2 => {
                        step!();
                        v = FALSE | (*frame.add(1) == v) as u64;
                        top = frame;
                    }
                    Wait::Assign => {
                        let variable = store.add(node.x as usize);
                        if *variable == UNSET && frame != bottom {
                            // `{V; V := value; e}` has come about.
                            let around = frame.sub(FRAME);
                            let wait = *around as u8;
                            if (wait == Wait::Seq as u8 || wait == Wait::WhileSeq as u8) && remembers(around, bottom, store, node.x) {
                                *variable = v;
                                let outer = nodes.add((*around >> 8) as usize);
                                top = around;
                                n = if wait == Wait::Seq as u8 { nodes.add((*outer).b as usize) } else { outer };
                                continue 'eval;
                            }
                        }
                        step!();
                        *variable = v;
                        top = frame;
                    }
                    Wait::Get => {
                        if v == NULL {
                            step!();
                            top = frame;
                            break 'throwing 0;
                        }
                        let at = field_word!(v, node.w);
                        if at == 0 {
                            stuck!(above)
                        }
                        step!();
                        v = *heap.get_unchecked(at);
                        top = frame;
                    }
                    Wait::Set2 => {
                        let a = *frame.add(1);
                        if a == NULL {
                            step!();
                            top = frame;
                            break 'throwing 0;
                        }
                        let at = field_word!(a, node.w);
                        if at == 0 {
                            stuck!(above)
                        }
                        step!();
                        *heap.get_unchecked_mut(at) = v;
                        top = frame;
                    }
                    Wait::Cast => {
                        if v != NULL {
                            let c = class_word!(v);
                            if c == 0 {
                                stuck!(above)
                            }
                            if !is_below!(c, node.w) {
                                step!();
                                top = frame;
                                break 'throwing 1;
                            }
                        }
                        step!();
                        top = frame;
                    }
                    Wait::Throw => {
                        if v >> 32 == 4 {
                            top = frame;
                            break 'throwing v & 0xffff_ffff;
                        }
                        if v != NULL {
                            stuck!(above)
                        }
                        step!();
                        top = frame;
                        break 'throwing 0;
                    }
                    Wait::Try => {
                        step!();
                        top = frame;
                    }
                    Wait::Call => {
                        let count = node.x as usize;
                        let mut j = *frame.add(1) as usize;
                        *frame.add(2 + j) = v;
                        // The operands that follow, as long as they are values or set variables.
                        while j < count {
                            j += 1;
                            let m = nodes.add(index.operands.get_unchecked(node.a as usize + j).assume_init() as usize);
                            if (*m).op == Op::Value {
                                *frame.add(2 + j) = (*m).w;
                                continue;
                            }
                            if (*m).op == Op::Var && top <= deepest && left > 0 {
                                let w = *store.add((*m).x as usize);
                                if w != UNSET {
                                    left -= 1;
                                    *frame.add(2 + j) = w;
                                    continue;
                                }
                            }
                            *frame.add(1) = j as u64;
                            n = m;
                            continue 'eval;
                        }
                        let receiver = *frame.add(2);
                        if receiver == NULL {
                            step!();
                            top = frame;
                            break 'throwing 0;
                        }
                        let c = class_word!(receiver);
                        if c == 0 {
                            stuck!(above)
                        }
                        let Some((body, takes)) = find_method(image, classes, found, c as usize - 1, node.w as u32) else { stuck!(above) };
                        if takes != count {
                            stuck!(above)
                        }
                        step!();
                        if frame.add(FRAME * count) > deepest {
                            ended!(33, 0, 0)
                        }
                        let mut values = [0u64; 9];
                        std::ptr::copy_nonoverlapping(frame.add(2), values.as_mut_ptr(), 9);
                        top = frame;
                        for j in 0..=count {
                            enter_block(top, store, j, values[j]);
                            top = top.add(FRAME);
                        }
                        n = nodes.add(body);
                        continue 'eval;
                    }
                }
            }
        };

        // The focus is Throw of an address: it moves outward to a Try that takes it.
        loop {
            if top == bottom {
                ended!(31, 0, ADDRESS | thrown)
            }
            let frame = top.sub(FRAME);
            let head = *frame;
            if head as u8 == Wait::Try as u8 {
                let above = nodes.add((head >> 8) as usize);
                let node = &*above;
                let c = class_word!(ADDRESS | thrown);
                if c == 0 {
                    stuck!(above)
                }
                step!();
                top = frame;
                if is_below!(c, node.w) {
                    enter_block(top, store, node.x as usize, ADDRESS | thrown);
                    top = top.add(FRAME);
                    n = nodes.add(node.b as usize);
                    continue 'eval;
                }
            } else {
                step!();
                if head as u8 == Wait::Block as u8 {
                    *store.add(*frame.add(2) as usize) = *frame.add(1);
                }
                top = frame;
            }
        }
    }
}

/// Whether the frame below `top` is a block of this variable that does not remember a value yet.
#[inline(always)]
unsafe fn remembers(top: *mut u64, bottom: *mut u64, store: *const u64, x: u8) -> bool {
    *store.add(x as usize) == UNSET && top != bottom && {
        let frame = top.sub(FRAME);
        *frame as u8 == Wait::Block as u8 && *frame.add(2) == x as u64
    }
}

/// A block of variable x that remembers a value; no node is needed to leave it.
#[inline(always)]
unsafe fn enter_block(frame: *mut u64, store: *mut u64, x: usize, value: u64) {
    let variable = store.add(x);
    *frame = Wait::Block as u64;
    *frame.add(1) = *variable;
    *frame.add(2) = x as u64;
    *variable = value;
}

/// Body and argument count of the method that a class sees.
#[inline(always)]
unsafe fn find_method(image: &Image, classes: &Classes, found: &mut Found, class: usize, name: u32) -> Option<(usize, usize)> {
    let key = (class as u32) << 16 | name;
    let entry = found.get_unchecked_mut((class ^ name as usize) & 63);
    if entry.0 != key {
        *entry = (key, method_of(image, classes, class, name)? as u16);
    }
    let record = image.methods.get_unchecked(6 * entry.1 as usize..6 * entry.1 as usize + 6);
    Some((record[5] as usize, record[4] as usize))
}

pub fn run(words: &[u32], heap: &mut [u64], inputs: &[u64], room: &mut [u64], steps: u64, depth: u64) -> Answer {
    let mut classes = MaybeUninit::<Classes>::uninit();
    let classes = unsafe { &mut *classes.as_mut_ptr() };
    let image = match accept(words, heap, inputs, classes) {
        Ok(image) => image,
        Err((number, place)) => return Answer { number, place, count: 0, value: 0 },
    };
    if !(1..=1024).contains(&depth) {
        return Answer { number: 19, place: 0, count: 0, value: 0 };
    }
    if (room.len() as u64) < 16 * depth + 160 {
        return Answer { number: 20, place: 0, count: 0, value: 0 };
    }
    room[..STORE].fill(UNSET);
    room[1..1 + inputs.len()].copy_from_slice(inputs);
    let end = unsafe {
        let mut index = MaybeUninit::<Index>::uninit();
        let index = &mut *index.as_mut_ptr();
        let room = room.as_mut_ptr();
        index.build(&image, classes, room);
        reduce(&image, classes, heap, index, &mut [(u32::MAX, 0); 64], room, steps, depth)
    };
    room.fill(0);
    Answer { number: end.number, place: end.place, count: steps - end.left, value: end.value }
}
