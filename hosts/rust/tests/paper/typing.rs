//! Figure 1 and figure 2 of the report: numbers 12 and 13.

use super::heap::Value;
use super::image::{class_of, class_type, Image, Type, BOOL, INTEGER, NULL, VOID};
use super::tree::{tree, Expr, Form, Tree};

type Environment = [Option<Type>; 64];

// A type, or the lowest place that has none. Operands are asked in order, and before their node: the first place found is the lowest.
type Typed = Result<Type, usize>;

fn with(environment: &Environment, variable: usize, t: Type) -> Environment {
    let mut inner = *environment;
    inner[variable] = Some(t);
    inner
}

fn start(types: &[Type], this: Option<usize>) -> Environment {
    let mut environment = [None; 64];
    environment[0] = this.map(class_type);
    for (i, &t) in types.iter().enumerate() {
        environment[i + 1] = Some(t);
    }
    environment
}

fn literal(value: Value) -> Type {
    match value {
        Value::Unit => VOID,
        Value::Null | Value::Address(_) => NULL,
        Value::Bool(_) => BOOL,
        Value::Integer(_) => INTEGER,
    }
}

// The types of the operands, in order. Those of a Block, and of a Try's second part, have an environment of their own.
fn operand_types(image: &Image, env: &Environment, form: &Form) -> Result<Vec<Type>, usize> {
    let list = |parts: &[&Tree]| parts.iter().map(|p| type_of(image, env, p)).collect();
    match form {
        Form::New(_) | Form::Value(_) | Form::Var(_) => Ok(vec![]),
        Form::Cast(_, e) | Form::Assign(_, e) | Form::Get(_, _, e) | Form::Throw(_, e) => list(&[e]),
        Form::Add(a, b) | Form::Eq(a, b) | Form::Set(_, _, a, b) | Form::Seq(a, b) | Form::While(a, b) => list(&[a, b]),
        Form::If(a, b, c) => list(&[a, b, c]),
        Form::Call(_, parts) => list(&parts.iter().collect::<Vec<_>>()),
        Form::Block(v, t, e) => Ok(vec![type_of(image, &with(env, *v, *t), e)?]),
        Form::Try(e, class, v, handler) => {
            let first = type_of(image, env, e)?;
            Ok(vec![first, type_of(image, &with(env, *v, class_type(*class)), handler)?])
        }
    }
}

fn field_type(image: &Image, object: Type, name: u32, class: usize) -> Option<Type> {
    let field = image.sees_field(class_of(object)?, name)?;
    (field.class as usize == class).then_some(field.of_type)
}

fn call_type(image: &Image, types: &[Type], name: u32) -> Option<Type> {
    let method = image.sees_method(class_of(types[0])?, name)?;
    let declared = image.arguments(method);
    let fits = declared.len() == types.len() - 1 && declared.iter().zip(&types[1..]).all(|(&d, &t)| image.subtype(t, d));
    fits.then_some(method.result)
}

fn cast_type(image: &Image, operand: Type, class: usize) -> Option<Type> {
    let from = class_of(operand)?;
    (image.subclass(from, class) || image.subclass(class, from)).then_some(class_type(class))
}

fn assign_type(image: &Image, env: &Environment, variable: usize, operand: Type) -> Option<Type> {
    let declared = env[variable]?;
    (variable != 0 && image.subtype(operand, declared)).then_some(operand)
}

fn set_type(image: &Image, object: Type, value: Type, name: u32, class: usize) -> Option<Type> {
    let declared = field_type(image, object, name, class)?;
    image.subtype(value, declared).then_some(value)
}

// The node's own premise, given its operands' types.
fn own_type(image: &Image, env: &Environment, form: &Form, types: &[Type]) -> Option<Type> {
    match form {
        Form::New(class) => Some(class_type(*class)),
        Form::Value(v) => Some(literal(*v)),
        Form::Var(v) => env[*v],
        Form::Cast(class, _) => cast_type(image, types[0], *class),
        Form::Add(..) => (types == [INTEGER, INTEGER]).then_some(INTEGER),
        Form::Eq(..) => (image.subtype(types[0], types[1]) || image.subtype(types[1], types[0])).then_some(BOOL),
        Form::Assign(v, _) => assign_type(image, env, *v, types[0]),
        Form::Get(name, class, _) => field_type(image, types[0], *name, *class),
        Form::Set(name, class, ..) => set_type(image, types[0], types[1], *name, *class),
        Form::Call(name, _) => call_type(image, types, *name),
        Form::Block(..) => Some(types[0]),
        Form::Seq(..) => Some(types[1]),
        Form::If(..) => (types[0] == BOOL && types[1] == types[2]).then_some(types[1]),
        Form::While(..) => (types[0] == BOOL).then_some(VOID),
        Form::Throw(t, _) => class_of(types[0]).map(|_| *t),
        Form::Try(..) => (types[0] == types[1]).then_some(types[0]),
    }
}

fn type_of(image: &Image, env: &Environment, e: &Expr) -> Typed {
    let types = operand_types(image, env, &e.form)?;
    own_type(image, env, &e.form, &types).ok_or(e.place)
}

/// 12
pub fn untyped(image: &Image) -> Option<usize> {
    for m in &image.methods {
        let env = start(image.arguments(m), Some(m.class as usize));
        match type_of(image, &env, &tree(image, m.body as usize)) {
            Err(place) => return Some(place),
            Ok(t) if !image.subtype(t, m.result) => return Some(m.body as usize),
            Ok(_) => (),
        }
    }
    type_of(image, &start(image.main_types(), None), &tree(image, image.main as usize)).err()
}

/// A set of variables, a truth for each.
type Set = [bool; 64];

fn adding(mut set: Set, variable: usize) -> Set {
    set[variable] = true;
    set
}

fn removing(mut set: Set, variable: usize) -> Set {
    set[variable] = false;
    set
}

fn both(a: Set, b: Set) -> Set {
    std::array::from_fn(|i| a[i] && b[i])
}

// The set after the expression, or the first place where a variable is read that is not in it.
fn initialized(set: Set, e: &Expr) -> Result<Set, usize> {
    let in_turn = |parts: &[&Tree]| parts.iter().try_fold(set, |s, p| initialized(s, p));
    match &e.form {
        Form::New(_) | Form::Value(_) => Ok(set),
        Form::Var(v) => if set[*v] { Ok(set) } else { Err(e.place) },
        Form::Cast(_, a) | Form::Get(_, _, a) => initialized(set, a),
        Form::Assign(v, a) => Ok(adding(initialized(set, a)?, *v)),
        Form::Add(a, b) | Form::Eq(a, b) | Form::Set(_, _, a, b) | Form::Seq(a, b) => in_turn(&[a, b]),
        Form::Call(_, parts) => in_turn(&parts.iter().collect::<Vec<_>>()),
        Form::Block(v, _, a) => {
            let after = initialized(removing(set, *v), a)?;
            Ok(if set[*v] { adding(after, *v) } else { removing(after, *v) })
        }
        Form::If(a, b, c) => {
            let tested = initialized(set, a)?;
            Ok(both(initialized(tested, b)?, initialized(tested, c)?))
        }
        Form::While(a, b) => {
            let tested = initialized(set, a)?;
            initialized(tested, b)?;
            Ok(tested)
        }
        Form::Throw(_, a) => initialized(set, a).map(|_| [true; 64]),
        Form::Try(a, _, v, b) => {
            let tried = initialized(set, a)?;
            let caught = initialized(adding(set, *v), b)?;
            Ok(both(tried, if set[*v] { caught } else { removing(caught, *v) }))
        }
    }
}

/// 13
pub fn unset(image: &Image) -> Option<usize> {
    let from = |low: usize, high: usize| std::array::from_fn(|v| low <= v && v <= high);
    for m in &image.methods {
        let body = tree(image, m.body as usize);
        if let Err(place) = initialized(from(0, m.count as usize), &body) {
            return Some(place);
        }
    }
    initialized(from(1, image.inputs), &tree(image, image.main as usize)).err()
}
