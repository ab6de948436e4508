//! Expressions as trees. Each constructor has the place of the node that it stands for.

use super::heap::Value;
use super::image::{Image, Type};
use std::rc::Rc;

pub type Tree = Rc<Expr>;

pub struct Expr {
    pub place: usize,
    pub form: Form,
}

#[derive(Clone)]
pub enum Form {
    New(usize),
    Cast(usize, Tree),
    Value(Value),
    Var(usize),
    Add(Tree, Tree),
    Eq(Tree, Tree),
    Assign(usize, Tree),
    Get(u32, usize, Tree),
    Set(u32, usize, Tree, Tree),
    // the receiver, then the arguments
    Call(u32, Vec<Tree>),
    Block(usize, Type, Tree),
    Seq(Tree, Tree),
    If(Tree, Tree, Tree),
    While(Tree, Tree),
    Throw(Type, Tree),
    Try(Tree, usize, usize, Tree),
}

pub fn at(place: usize, form: Form) -> Tree {
    Rc::new(Expr { place, form })
}

/// The tree that ends at this node.
pub fn tree(image: &Image, n: usize) -> Tree {
    let node = &image.nodes[n];
    let (x, y) = (node.x, node.y);
    let (class, variable) = (x as usize, x as usize);
    let parts: Vec<Tree> = image.operands(n).into_iter().map(|o| tree(image, o)).collect();
    let part = |i: usize| parts[i].clone();
    let form = match node.kind {
        0 => Form::New(class),
        1 => Form::Cast(class, part(0)),
        2 => Form::Value(Value::of((x as u64) << 32 | y as u64).unwrap()),
        3 => Form::Var(variable),
        4 => Form::Add(part(0), part(1)),
        5 => Form::Eq(part(0), part(1)),
        6 => Form::Assign(variable, part(0)),
        7 => Form::Get(x, y as usize, part(0)),
        8 => Form::Set(x, y as usize, part(0), part(1)),
        9 => Form::Call(x, parts.clone()),
        10 => Form::Block(variable, y, part(0)),
        11 => Form::Seq(part(0), part(1)),
        12 => Form::If(part(0), part(1), part(2)),
        13 => Form::While(part(0), part(1)),
        14 => Form::Throw(x, part(0)),
        _ => Form::Try(part(0), class, y as usize, part(1)),
    };
    at(n, form)
}
