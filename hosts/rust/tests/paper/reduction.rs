//! Section 5 of the report with the paper's choices: the run by rewriting the tree, one step at a time.

use super::heap::{Heap, Object, Value};
use super::image::{class_type, Image, VOID};
use super::tree::{at, tree, Expr, Form, Tree};
use super::Told;

const NULL_POINTER: usize = 0;
const CLASS_CAST: usize = 1;
const OUT_OF_MEMORY: usize = 2;

type Store = [Option<Value>; 64];

struct State<'a> {
    image: &'a Image,
    heap: Heap,
    store: Store,
}

fn value_of(e: &Expr) -> Option<Value> {
    match e.form {
        Form::Value(v) => Some(v),
        _ => None,
    }
}

// The address, where the expression is Throw of one.
fn thrown(e: &Expr) -> Option<usize> {
    match &e.form {
        Form::Throw(_, operand) => match value_of(operand) {
            Some(Value::Address(a)) => Some(a),
            _ => None,
        },
        _ => None,
    }
}

fn finished(e: &Expr) -> bool {
    value_of(e).is_some() || thrown(e).is_some()
}

// What a block remembers and what reduces, where its body is `V := value; e` for its own V.
fn remembered(variable: usize, body: &Expr) -> Option<(Value, &Tree)> {
    let Form::Seq(first, rest) = &body.form else { return None };
    match &first.form {
        Form::Assign(v, operand) if *v == variable => value_of(operand).map(|value| (value, rest)),
        _ => None,
    }
}

fn remembering(place: usize, variable: usize, t: u32, value: Value, rest: Tree) -> Tree {
    let assign = at(place, Form::Assign(variable, at(place, Form::Value(value))));
    at(place, Form::Block(variable, t, at(place, Form::Seq(assign, rest))))
}

// The operands that the rules let step, in their order. The next one steps only when those before are values.
fn in_turn(form: &Form) -> Vec<&Tree> {
    match form {
        Form::New(_) | Form::Value(_) | Form::Var(_) | Form::While(..) => vec![],
        Form::Cast(_, e) | Form::Assign(_, e) | Form::Get(_, _, e) | Form::Throw(_, e) => vec![e],
        Form::Seq(e, _) | Form::If(e, _, _) | Form::Try(e, ..) => vec![e],
        Form::Add(a, b) | Form::Eq(a, b) | Form::Set(_, _, a, b) => vec![a, b],
        Form::Call(_, parts) => parts.iter().collect(),
        Form::Block(v, _, body) => vec![remembered(*v, body).map_or(body, |(_, rest)| rest)],
    }
}

// The operand to go into: the first that is no value, if it is unfinished. Throw of an address stops the search: it moves outward.
fn unfinished(e: &Expr) -> Option<(usize, &Tree)> {
    let operands = in_turn(&e.form);
    let (i, next) = operands.into_iter().enumerate().find(|(_, o)| value_of(o).is_none())?;
    (!finished(next)).then_some((i, next))
}

// The active expression, and the number of constructors above it.
fn active(root: &Expr) -> (usize, &Expr) {
    let (mut depth, mut e) = (0, root);
    while let Some((_, operand)) = unfinished(e) {
        (depth, e) = (depth + 1, operand);
    }
    (depth, e)
}

// The same constructor with another operand in this turn.
fn replaced(e: &Expr, turn: usize, new: Tree) -> Tree {
    let mut form = e.form.clone();
    match &mut form {
        Form::Cast(_, o) | Form::Assign(_, o) | Form::Get(_, _, o) | Form::Throw(_, o) => *o = new,
        Form::Seq(o, _) | Form::If(o, _, _) | Form::Try(o, ..) => *o = new,
        Form::Add(a, b) | Form::Eq(a, b) | Form::Set(_, _, a, b) => *(if turn == 0 { a } else { b }) = new,
        Form::Call(_, parts) => parts[turn] = new,
        _ => unreachable!(),
    }
    at(e.place, form)
}

impl State<'_> {
    // One step; where no rule applies, the place of the active expression. Nothing is changed then.
    fn step(&mut self, e: &Expr) -> Result<Tree, usize> {
        match (unfinished(e), &e.form) {
            (None, _) => self.rewrite(e).ok_or(e.place),
            (Some((_, inner)), Form::Block(v, t, body)) => self.step_in_block(e.place, *v, *t, body, inner),
            (Some((turn, inner)), _) => Ok(replaced(e, turn, self.step(inner)?)),
        }
    }

    // The three rules of a block: the variable is unset, or has the remembered value, while the inside steps. What it holds then is
    // remembered, and what it held outside comes back.
    fn step_in_block(&mut self, place: usize, variable: usize, t: u32, body: &Expr, inner: &Expr) -> Result<Tree, usize> {
        let outside = self.store[variable];
        self.store[variable] = remembered(variable, body).map(|(value, _)| value);
        let stepped = self.step(inner);
        let inside = self.store[variable];
        self.store[variable] = outside;
        let new = stepped?;
        Ok(match inside {
            Some(value) => remembering(place, variable, t, value, new),
            None => at(place, Form::Block(variable, t, new)),
        })
    }

    // The rule for an expression whose operands are finished.
    fn rewrite(&mut self, e: &Expr) -> Option<Tree> {
        let operands = in_turn(&e.form);
        if !matches!(e.form, Form::Try(..)) {
            if let Some(exception) = operands.iter().find(|o| thrown(o).is_some()) {
                return Some((*exception).clone());
            }
        }
        let value = |i: usize| value_of(operands[i]);
        match &e.form {
            Form::New(class) => Some(self.new_object(e, *class)),
            Form::Cast(class, _) => self.cast(e, *class, value(0)?),
            Form::Value(_) => None,
            Form::Var(v) => self.store[*v].map(|v| at(e.place, Form::Value(v))),
            Form::Add(..) => add(e, value(0)?, value(1)?),
            Form::Eq(..) => Some(at(e.place, Form::Value(Value::Bool(value(0)? == value(1)?)))),
            Form::Assign(v, operand) => {
                self.store[*v] = Some(value(0)?);
                Some(operand.clone())
            }
            Form::Get(name, class, _) => self.get(e, *name, *class, value(0)?),
            Form::Set(name, class, _, new) => self.set(e, *name, *class, value(0)?, new),
            Form::Call(name, parts) => self.call(e, *name, parts),
            Form::Block(..) => Some(operands[0].clone()),
            Form::Seq(_, second) => Some(second.clone()),
            Form::If(_, yes, no) => choose(value(0)?, yes, no),
            Form::While(test, body) => Some(unrolled(e, test, body)),
            Form::Throw(..) => (value(0)? == Value::Null).then(|| throw(e, NULL_POINTER)),
            Form::Try(first, class, v, handler) => self.catch(e, first, *class, *v, handler),
        }
    }

    fn new_object(&mut self, e: &Expr, class: usize) -> Tree {
        let Some(free) = self.heap.slots.iter().position(|s| s.is_none()) else { return throw(e, OUT_OF_MEMORY) };
        let fields = self.image.all_fields(class).iter().map(|f| Value::default_of(f.of_type)).collect();
        self.heap.slots[free] = Some(Object { class, fields });
        at(e.place, Form::Value(Value::Address(free)))
    }

    fn cast(&self, e: &Expr, class: usize, value: Value) -> Option<Tree> {
        match value {
            Value::Null => Some(at(e.place, Form::Value(value))),
            Value::Address(a) => {
                let fits = self.image.subclass(self.heap.object(a)?.class, class);
                Some(if fits { at(e.place, Form::Value(value)) } else { throw(e, CLASS_CAST) })
            }
            _ => None,
        }
    }

    // Where the object has the field of this name that this very class declares.
    fn spot(&self, address: usize, name: u32, class: usize) -> Option<usize> {
        let fields = self.image.all_fields(self.heap.object(address)?.class);
        fields.iter().position(|f| f.name == name && f.class as usize == class)
    }

    fn get(&self, e: &Expr, name: u32, class: usize, object: Value) -> Option<Tree> {
        match object {
            Value::Null => Some(throw(e, NULL_POINTER)),
            Value::Address(a) => {
                let spot = self.spot(a, name, class)?;
                Some(at(e.place, Form::Value(self.heap.object(a)?.fields[spot])))
            }
            _ => None,
        }
    }

    fn set(&mut self, e: &Expr, name: u32, class: usize, object: Value, new: &Tree) -> Option<Tree> {
        match object {
            Value::Null => Some(throw(e, NULL_POINTER)),
            Value::Address(a) => {
                let spot = self.spot(a, name, class)?;
                self.heap.slots[a].as_mut()?.fields[spot] = value_of(new)?;
                Some(new.clone())
            }
            _ => None,
        }
    }

    fn call(&self, e: &Expr, name: u32, parts: &[Tree]) -> Option<Tree> {
        let values: Vec<Value> = parts.iter().filter_map(|p| value_of(p)).collect();
        match values[0] {
            Value::Null => Some(throw(e, NULL_POINTER)),
            Value::Address(a) => {
                let method = self.image.sees_method(self.heap.object(a)?.class, name)?;
                if method.count as usize != values.len() - 1 {
                    return None;
                }
                let mut types = vec![class_type(method.class as usize)];
                types.extend(self.image.arguments(method));
                let body = tree(self.image, method.body as usize);
                let block = |inner, v: usize| remembering(e.place, v, types[v], values[v], inner);
                Some((0..values.len()).rev().fold(body, block))
            }
            _ => None,
        }
    }

    fn catch(&self, e: &Expr, first: &Tree, class: usize, variable: usize, handler: &Tree) -> Option<Tree> {
        let Some(a) = thrown(first) else { return Some(first.clone()) };
        let caught = self.image.subclass(self.heap.object(a)?.class, class);
        Some(match caught {
            true => remembering(e.place, variable, class_type(class), Value::Address(a), handler.clone()),
            false => first.clone(),
        })
    }
}

fn throw(e: &Expr, address: usize) -> Tree {
    at(e.place, Form::Throw(VOID, at(e.place, Form::Value(Value::Address(address)))))
}

fn add(e: &Expr, a: Value, b: Value) -> Option<Tree> {
    match (a, b) {
        (Value::Integer(a), Value::Integer(b)) => Some(at(e.place, Form::Value(Value::Integer(a.wrapping_add(b))))),
        _ => None,
    }
}

fn choose(test: Value, yes: &Tree, no: &Tree) -> Option<Tree> {
    match test {
        Value::Bool(true) => Some(yes.clone()),
        Value::Bool(false) => Some(no.clone()),
        _ => None,
    }
}

fn unrolled(e: &Expr, test: &Tree, body: &Tree) -> Tree {
    let again = at(e.place, Form::While(test.clone(), body.clone()));
    let once = at(e.place, Form::Seq(body.clone(), again));
    at(e.place, Form::If(test.clone(), once, at(e.place, Form::Value(Value::Unit))))
}

/// Final expression, then depth above the limit, then no rule, then limit reached; otherwise one step.
pub fn run(image: &Image, heap: Heap, inputs: &[u64], steps: u64, depth: u64) -> (Told, Vec<u64>) {
    let mut store = [None; 64];
    for (i, &word) in inputs.iter().enumerate() {
        store[i + 1] = Value::of(word);
    }
    let mut state = State { image, heap, store };
    let mut e = tree(image, image.main as usize);
    let mut count = 0;
    loop {
        if let Some(v) = value_of(&e) {
            return ((30, 0, count, v.word()), state.heap.words());
        }
        if let Some(a) = thrown(&e) {
            return ((31, 0, count, Value::Address(a).word()), state.heap.words());
        }
        if active(&e).0 as u64 > depth {
            return ((33, 0, count, 0), state.heap.words());
        }
        let before = (count == steps).then(|| state.heap.clone());
        match (state.step(&e), before) {
            (Err(place), _) => return ((34, place as u64, count, 0), state.heap.words()),
            (Ok(_), Some(before)) => return ((32, 0, count, 0), before.words()),
            (Ok(next), None) => e = next,
        }
        count += 1;
    }
}
