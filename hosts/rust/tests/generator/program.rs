//! Random programs: classes with fields, methods that override, and bodies.

use super::Dice;

const VOID: u32 = 0;
const BOOL: u32 = 1;
const INTEGER: u32 = 2;
const NULL: u32 = 3;

pub struct Method {
    class: u32,
    name: u32,
    result: u32,
    arguments: Vec<u32>,
    body: usize,
}

pub struct Program {
    pub classes: Vec<usize>,
    fields: Vec<[u32; 3]>,
    methods: Vec<Method>,
    nodes: Vec<[u32; 4]>,
    pub inputs: Vec<u32>,
    // one in so many variables is read without a look whether it is set
    care: usize,
}

// A variable in sight: its number, its type, and whether it is set for sure.
#[derive(Clone, Copy)]
struct Local(u32, u32, bool);

impl Program {
    pub fn below(&self, mut class: usize, above: usize) -> bool {
        while class != above && class != 0 {
            class = self.classes[class];
        }
        class == above
    }

    /// The types of an object's fields, those of the highest class first.
    pub fn field_types(&self, class: usize) -> Vec<u32> {
        let mut types = if class == 0 { vec![] } else { self.field_types(self.classes[class]) };
        types.extend(self.fields.iter().filter(|f| f[0] as usize == class).map(|f| f[2]));
        types
    }

    fn seen_method(&self, mut class: usize, name: u32) -> Option<usize> {
        loop {
            if let Some(m) = self.methods.iter().position(|m| m.class as usize == class && m.name == name) {
                return Some(m);
            }
            if class == 0 {
                return None;
            }
            class = self.classes[class];
        }
    }

    fn seen_field(&self, mut class: usize, name: u32) -> Option<[u32; 3]> {
        loop {
            if let Some(f) = self.fields.iter().find(|f| f[0] as usize == class && f[1] == name) {
                return Some(*f);
            }
            if class == 0 {
                return None;
            }
            class = self.classes[class];
        }
    }

    fn any_type(&self, dice: &mut Dice) -> u32 {
        dice.of(&[VOID, BOOL, INTEGER, INTEGER, 4, 4 + 1]).max(if dice.one_in(3) { 4 + dice.below(self.classes.len()) as u32 } else { 0 })
    }

    // A type at or below this one.
    fn narrower(&self, dice: &mut Dice, t: u32) -> u32 {
        let fits: Vec<u32> = (0..self.classes.len()).filter(|&c| t >= 4 && self.below(c, t as usize - 4)).map(|c| c as u32 + 4).collect();
        if fits.is_empty() { t } else { dice.of(&fits) }
    }

    fn wider(&self, dice: &mut Dice, t: u32) -> u32 {
        let fits: Vec<u32> =
            (0..self.classes.len()).filter(|&c| t >= 4 && self.below(t as usize - 4, c)).map(|c| c as u32 + 4).collect();
        if fits.is_empty() { t } else { dice.of(&fits) }
    }

    fn tables(dice: &mut Dice) -> Program {
        let mut p = Program { classes: vec![0; 4], fields: vec![], methods: vec![], nodes: vec![], inputs: vec![], care: 60 };
        if dice.one_in(4) {
            p.care = 2;
        }
        for c in 4..4 + dice.of(&[0, 1, 1, 2, 3, 4, 5]) {
            let above = if dice.one_in(2) { c - 1 } else { dice.below(c) };
            p.classes.push(above);
        }
        for c in 4..p.classes.len() {
            for name in 7..10 {
                if dice.one_in(2) {
                    let t = p.any_type(dice);
                    p.fields.push([c as u32, name, t]);
                }
            }
            for name in 9..12 {
                if dice.one_in(2) {
                    p.declare(dice, c, name);
                }
            }
        }
        if dice.one_in(40) && p.classes.len() > 4 {
            let last = p.classes.len() as u32 - 1;
            p.fields.extend((20..20 + 9 + dice.below(8) as u32).map(|name| [last, name, INTEGER]));
        }
        for _ in 0..dice.of(&[0, 0, 1, 2, 3]) {
            let t = p.any_type(dice);
            p.inputs.push(t);
        }
        p
    }

    // A method: where one is overridden it fits that one, but for a few.
    fn declare(&mut self, dice: &mut Dice, class: usize, name: u32) {
        let over = self.seen_method(self.classes[class], name).filter(|_| !dice.one_in(25));
        let (result, arguments) = match over {
            Some(m) => {
                let (result, arguments) = (self.methods[m].result, self.methods[m].arguments.clone());
                let arguments = arguments.into_iter().map(|t| self.wider(dice, t)).collect();
                (self.narrower(dice, result), arguments)
            }
            None => {
                let count = dice.of(&[0, 0, 1, 2, 3]);
                (self.any_type(dice), (0..count).map(|_| self.any_type(dice)).collect())
            }
        };
        self.methods.push(Method { class: class as u32, name, result, arguments, body: 0 });
    }

    fn node(&mut self, start: usize, kind: u32, x: u32, y: u32) {
        let size = (self.nodes.len() - start + 1) as u32;
        self.nodes.push([kind, size, x, y]);
    }

    // Every body, then main, each made by the same maker of expressions.
    fn filled(mut self, dice: &mut Dice, make: fn(&mut Program, &mut Dice, &mut Vec<Local>, u32, usize)) -> Program {
        for m in 0..self.methods.len() {
            let mut locals = vec![Local(0, self.methods[m].class + 4, true)];
            let arguments = self.methods[m].arguments.clone();
            locals.extend(arguments.iter().enumerate().map(|(i, &t)| Local(i as u32 + 1, t, true)));
            let result = self.narrower(dice, self.methods[m].result);
            let fuel = dice.of(&[1, 3, 6, 12]);
            make(&mut self, dice, &mut locals, result, fuel);
            self.methods[m].body = self.nodes.len() - 1;
        }
        let mut locals: Vec<Local> = self.inputs.iter().enumerate().map(|(i, &t)| Local(i as u32 + 1, t, true)).collect();
        let t = self.any_type(dice);
        let fuel = dice.of(&[2, 6, 12, 25, 40]);
        make(&mut self, dice, &mut locals, t, fuel);
        self
    }

    pub fn typed(dice: &mut Dice) -> Program {
        Program::tables(dice).filled(dice, Program::expression)
    }

    pub fn loose(dice: &mut Dice) -> Program {
        Program::tables(dice).filled(dice, |p, dice, _, _, fuel| p.anything(dice, fuel))
    }

    pub fn shaped(dice: &mut Dice) -> Program {
        Program::tables(dice).filled(dice, |p, dice, _, _, fuel| p.shape(dice, fuel))
    }

    pub fn settled(dice: &mut Dice) -> Program {
        let mut program = Program::tables(dice);
        program.methods.clear();
        program.filled(dice, |p, dice, _, _, fuel| {
            let start = p.nodes.len();
            p.settle(dice, 0, fuel);
            (1..4).for_each(|v| p.node(start, 10, v, INTEGER));
        })
    }

    // An Integer over the Integer variables 1 to 3, seldom read: typed, and a question of what is set. In a Try's second part its variable
    // is hidden, being none then.
    fn settle(&mut self, dice: &mut Dice, hidden: u32, fuel: usize) {
        let start = self.nodes.len();
        let v = 1 + dice.below(3) as u32;
        let shown = hidden >> v & 1 == 0;
        let choice = if fuel == 0 { dice.below(2) } else { 2 + dice.below(8) };
        match choice {
            0 if shown => return self.node(start, 3, v, 0),
            2 | 3 if shown => {
                self.settle(dice, hidden, fuel / 3);
                return self.node(start, 6, v, 0);
            }
            4 => {
                self.node(start, 2, 2, dice.below(2) as u32);
                self.settle(dice, hidden, fuel / 2);
                self.settle(dice, hidden, fuel / 2);
                return self.node(start, 12, 0, 0);
            }
            5 => {
                self.settle(dice, hidden, fuel / 2);
                return self.node(start, 10, v, INTEGER);
            }
            6 => {
                self.settle(dice, hidden, fuel / 2);
                self.settle(dice, hidden | 1 << v, fuel / 2);
                return self.node(start, 15, 0, v);
            }
            7 if dice.one_in(3) => {
                self.node(start, 0, 0, 0);
                return self.node(start, 14, INTEGER, 0);
            }
            0..=3 => return self.node(start, 2, 3, v),
            8 => {
                self.node(start, 2, 2, 0);
                self.settle(dice, hidden, fuel / 2);
                self.node(start, 13, 0, 0);
            }
            _ => self.settle(dice, hidden, fuel / 2),
        }
        self.settle(dice, hidden, fuel / 2);
        self.node(start, 11, 0, 0);
    }

    pub fn looped(dice: &mut Dice) -> Program {
        Program::tables(dice).filled(dice, Program::repeated)
    }

    // A loop that counts, then an expression of this type: long runs.
    fn repeated(&mut self, dice: &mut Dice, locals: &mut Vec<Local>, want: u32, fuel: usize) {
        let start = self.nodes.len();
        locals.push(Local(40, INTEGER, false));
        self.count_up(dice, locals, 40, 2 * fuel);
        self.expression(dice, locals, want, fuel / 2);
        self.node(start, 11, 0, 0);
        locals.pop();
        self.node(start, 10, 40, INTEGER);
    }

    // An expression of exactly this type, but for a slip now and then.
    fn expression(&mut self, dice: &mut Dice, locals: &mut Vec<Local>, want: u32, fuel: usize) {
        let want = if dice.one_in(300) { self.any_type(dice) } else { want };
        let start = self.nodes.len();
        if fuel == 0 {
            return self.leaf(dice, locals, want);
        }
        let part = fuel / 2;
        match dice.below(16) {
            0 | 1 => self.leaf(dice, locals, want),
            2 | 3 => self.block(dice, locals, want, fuel - 1),
            4 => {
                let t = self.any_type(dice);
                self.expression(dice, locals, t, part);
                self.expression(dice, locals, want, part);
                self.node(start, 11, 0, 0);
            }
            5 => self.condition(dice, locals, want, fuel - 1),
            6 => self.attempt(dice, locals, want, fuel - 1),
            7 => self.assign(dice, locals, want, fuel - 1),
            8 | 9 => self.field(dice, locals, want, fuel - 1),
            10 | 11 | 12 => self.call(dice, locals, want, fuel - 1),
            13 if dice.one_in(2) => {
                let class = dice.below(self.classes.len()) as u32 + 4;
                self.expression(dice, locals, class, fuel - 1);
                self.node(start, 14, want, 0);
            }
            _ => self.own(dice, locals, want, fuel - 1),
        }
    }

    fn leaf(&mut self, dice: &mut Dice, locals: &mut [Local], want: u32) {
        let start = self.nodes.len();
        let slip = dice.one_in(self.care);
        let fits: Vec<u32> = locals
            .iter()
            .enumerate()
            .filter(|(i, l)| l.1 == want && (l.2 || slip) && !locals[i + 1..].iter().any(|o| o.0 == l.0))
            .map(|(_, l)| l.0)
            .collect();
        if !fits.is_empty() && !dice.one_in(3) {
            let v = dice.of(&fits);
            return self.node(start, 3, v, 0);
        }
        match want {
            VOID => self.node(start, 2, 0, 0),
            BOOL => self.node(start, 2, 2, dice.below(2) as u32),
            INTEGER => self.node(start, 2, 3, dice.of(&[0, 1, 2, 0x7fff_ffff, u32::MAX])),
            NULL => self.node(start, 2, 1, 0),
            _ => self.node(start, 0, want - 4, 0),
        }
    }

    // A block, most often with its variable set at once.
    fn block(&mut self, dice: &mut Dice, locals: &mut Vec<Local>, want: u32, fuel: usize) {
        let start = self.nodes.len();
        let t = self.any_type(dice);
        let v = 1 + dice.of(&[0, 1, 2, 3, 4, 62]);
        locals.push(Local(v, t, false));
        if t == INTEGER && dice.one_in(4) {
            self.count_up(dice, locals, v, fuel / 2);
            self.expression(dice, locals, want, fuel / 2);
            self.node(start, 11, 0, 0);
        } else if dice.one_in(5) {
            self.expression(dice, locals, want, fuel);
        } else {
            let narrow = self.narrower(dice, t);
            let null = t >= 4 && dice.one_in(3);
            self.expression(dice, locals, if null { NULL } else { narrow }, fuel / 3);
            self.node(start, 6, v, 0);
            locals.last_mut().unwrap().2 = true;
            self.expression(dice, locals, want, fuel / 2);
            self.node(start, 11, 0, 0);
        }
        locals.pop();
        self.node(start, 10, v, t);
    }

    // v := 0; While ((v = n) = false) (something; v := v + 1)
    fn count_up(&mut self, dice: &mut Dice, locals: &mut Vec<Local>, v: u32, fuel: usize) {
        let start = self.nodes.len();
        self.node(start, 2, 3, 0);
        self.node(start, 6, v, 0);
        locals.last_mut().unwrap().2 = true;
        let test = self.nodes.len();
        self.node(test, 3, v, 0);
        let n = dice.of(&[0, 1, 2, 3, 5, 20, 60]);
        self.node(test + 1, 2, 3, n);
        self.node(test, 5, 0, 0);
        self.node(test + 3, 2, 2, 0);
        self.node(test, 5, 0, 0);
        let body = self.nodes.len();
        let t = self.any_type(dice);
        if dice.one_in(2) { self.attempt(dice, locals, t, fuel) } else { self.expression(dice, locals, t, fuel) }
        let next = self.nodes.len();
        self.node(next, 3, v, 0);
        self.node(next + 1, 2, 3, 1);
        self.node(next, 4, 0, 0);
        self.node(next, 6, v, 0);
        self.node(body, 11, 0, 0);
        self.node(test, 13, 0, 0);
        self.node(start, 11, 0, 0);
    }

    fn condition(&mut self, dice: &mut Dice, locals: &mut Vec<Local>, want: u32, fuel: usize) {
        let start = self.nodes.len();
        self.expression(dice, locals, BOOL, fuel / 3);
        self.expression(dice, locals, want, fuel / 3);
        self.expression(dice, locals, want, fuel / 3);
        self.node(start, 12, 0, 0);
    }

    fn attempt(&mut self, dice: &mut Dice, locals: &mut Vec<Local>, want: u32, fuel: usize) {
        let start = self.nodes.len();
        let class = dice.of(&[0, 0, 1, 2, 3, self.classes.len() as u32 - 1]);
        let v = 1 + dice.below(5) as u32;
        self.expression(dice, locals, want, fuel / 2);
        locals.push(Local(v, class + 4, true));
        self.expression(dice, locals, want, fuel / 2);
        locals.pop();
        self.node(start, 15, class, v);
    }

    fn assign(&mut self, dice: &mut Dice, locals: &mut Vec<Local>, want: u32, fuel: usize) {
        let start = self.nodes.len();
        let seen = |i: usize, l: &Local| !locals[i + 1..].iter().any(|o| o.0 == l.0);
        let fits: Vec<u32> =
            locals.iter().enumerate().filter(|(i, l)| l.0 != 0 && l.1 == want && seen(*i, l)).map(|(_, l)| l.0).collect();
        self.expression(dice, locals, want, fuel);
        if !fits.is_empty() {
            let v = dice.of(&fits);
            self.node(start, 6, v, 0);
        }
    }

    // A field of this type, read or set, of any class that sees one.
    fn field(&mut self, dice: &mut Dice, locals: &mut Vec<Local>, want: u32, fuel: usize) {
        let start = self.nodes.len();
        let seen: Vec<(usize, [u32; 3])> = (4..self.classes.len())
            .flat_map(|c| (7..10).filter_map(move |n| Some((c, n))))
            .filter_map(|(c, n)| self.seen_field(c, n).map(|f| (c, f)))
            .filter(|(_, f)| f[2] == want)
            .collect();
        if seen.is_empty() {
            return self.own(dice, locals, want, fuel);
        }
        let (class, f) = dice.of(&seen);
        self.expression(dice, locals, class as u32 + 4, fuel / 2);
        if dice.one_in(2) {
            return self.node(start, 7, f[1], f[0]);
        }
        self.expression(dice, locals, want, fuel / 2);
        self.node(start, 8, f[1], f[0]);
    }

    fn call(&mut self, dice: &mut Dice, locals: &mut Vec<Local>, want: u32, fuel: usize) {
        let start = self.nodes.len();
        let seen: Vec<(usize, usize)> = (4..self.classes.len())
            .flat_map(|c| (9..12).map(move |n| (c, n)))
            .filter_map(|(c, n)| self.seen_method(c, n).map(|m| (c, m)))
            .filter(|&(_, m)| self.methods[m].result == want)
            .collect();
        if seen.is_empty() {
            return self.own(dice, locals, want, fuel);
        }
        let (class, m) = dice.of(&seen);
        let (name, arguments) = (self.methods[m].name, self.methods[m].arguments.clone());
        self.expression(dice, locals, class as u32 + 4, fuel / 2);
        for &t in &arguments {
            let t = if t >= 4 && dice.one_in(4) { NULL } else { self.narrower(dice, t) };
            self.expression(dice, locals, t, fuel / 4);
        }
        self.node(start, 9, name, arguments.len() as u32);
    }

    // A form that has this type by itself.
    fn own(&mut self, dice: &mut Dice, locals: &mut Vec<Local>, want: u32, fuel: usize) {
        let start = self.nodes.len();
        match want {
            VOID => {
                self.expression(dice, locals, BOOL, fuel / 2);
                let t = self.any_type(dice);
                self.expression(dice, locals, t, fuel / 2);
                self.node(start, 13, 0, 0);
            }
            BOOL => {
                let t = self.any_type(dice);
                let other = if t >= 4 && dice.one_in(2) { NULL } else { self.narrower(dice, t) };
                self.expression(dice, locals, t, fuel / 2);
                self.expression(dice, locals, other, fuel / 2);
                self.node(start, 5, 0, 0);
            }
            INTEGER => {
                self.expression(dice, locals, INTEGER, fuel / 2);
                self.expression(dice, locals, INTEGER, fuel / 2);
                self.node(start, 4, 0, 0);
            }
            NULL => self.leaf(dice, locals, NULL),
            _ => {
                let t = if dice.one_in(2) { self.wider(dice, want) } else { self.narrower(dice, want) };
                self.expression(dice, locals, t, fuel);
                self.node(start, 1, want - 4, 0);
            }
        }
    }

    // Any node over any operands: only the layout is kept.
    fn anything(&mut self, dice: &mut Dice, fuel: usize) {
        let start = self.nodes.len();
        let kinds = [1, 4, 5, 6, 6, 7, 8, 9, 9, 10, 10, 11, 11, 12, 13, 14, 15, 2, 3];
        let kind = if fuel == 0 { dice.of(&[0, 2, 2, 3, 3]) } else { dice.of(&kinds) };
        let class = if dice.one_in(2) { self.classes.len() - 1 } else { dice.below(self.classes.len()) } as u32;
        let (v, name, t) = (dice.below(4) as u32, 7 + dice.below(5) as u32, self.any_type(dice));
        let (x, y, parts) = match kind {
            0 => (class, 0, 0),
            1 => (class, 0, 1),
            2 => dice.of(&[(0, 0, 0), (1, 0, 0), (2, 0, 0), (2, 1, 0), (2, 1, 0), (3, 1, 0), (3, 2, 0), (3, u32::MAX, 0)]),
            3 => (v, 0, 0),
            6 => (v, 0, 1),
            7 => (name, class, 1),
            8 => (name, class, 2),
            9 => (name, dice.of(&[0, 0, 1, 2, 3, 8]), 0),
            10 => (v.max(1), t, 1),
            12 => (0, 0, 3),
            14 => (dice.of(&[t, NULL]), 0, 1),
            15 => (class, v.max(1), 2),
            _ => (0, 0, 2),
        };
        let parts = if kind == 9 { 1 + y } else { parts };
        for _ in 0..parts {
            self.anything(dice, fuel / 2);
        }
        self.node(start, kind, x, y);
    }

    // Blocks, assignments, sequences, loops and conditions over two variables: what is remembered, and what is not.
    fn shape(&mut self, dice: &mut Dice, fuel: usize) {
        let start = self.nodes.len();
        let v = 1 + dice.below(2) as u32;
        if fuel == 0 {
            return if dice.one_in(3) { self.node(start, 3, v, 0) } else { self.anything(dice, 0) };
        }
        let (kind, x, y, parts) = match dice.below(9) {
            0 | 1 => (10, v, dice.of(&[0, 2, 4]), 1),
            2 => (6, v, 0, 1),
            3 | 4 => {
                self.shape(dice, dice_fuel(fuel));
                self.node(start, 6, v, 0);
                self.shape(dice, fuel - 1);
                self.node(start, 11, 0, 0);
                return self.node(start, 10, v, 2);
            }
            5 => (11, 0, 0, 2),
            6 => {
                self.node(start, 2, 2, dice.below(2) as u32);
                self.shape(dice, fuel / 2);
                self.shape(dice, fuel / 2);
                return self.node(start, 12, 0, 0);
            }
            7 => (13, 0, 0, 2),
            _ => dice.of(&[(5, 0, 0, 2), (15, 0, v, 2), (4, 0, 0, 2), (14, 0, 0, 1)]),
        };
        for _ in 0..parts {
            self.shape(dice, fuel / 2);
        }
        self.node(start, kind, x, y);
    }

    pub fn words(&self) -> Vec<u32> {
        let mut types: Vec<u32> = Vec::new();
        let mut methods = Vec::new();
        for m in &self.methods {
            methods.extend([m.class, m.name, m.result, types.len() as u32, m.arguments.len() as u32, m.body as u32]);
            types.extend(&m.arguments);
        }
        types.extend(&self.inputs);
        let classes: Vec<u32> = self.classes.iter().map(|&c| c as u32).collect();
        let sections = [classes, self.fields.concat(), methods, types, self.nodes.concat()];
        let mut words = sections.concat();
        let mut from = words.len() as u32 + 8;
        for section in &sections {
            words.push(from);
            from -= section.len() as u32;
        }
        words.extend([self.nodes.len() as u32 - 1, self.inputs.len() as u32, 1]);
        words
    }
}

fn dice_fuel(fuel: usize) -> usize {
    if fuel % 3 == 0 { 0 } else { fuel / 3 }
}
