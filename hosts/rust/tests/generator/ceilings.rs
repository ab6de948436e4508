//! Tables at their ceilings, and one record over.

use super::{Case, Dice};

// A chain of classes, fields spread over it, methods that are all Unit, type words, and a main of so many nodes.
struct Sizes {
    classes: usize,
    fields: usize,
    methods: usize,
    types: usize,
    nodes: usize,
    inputs: usize,
}

fn nodes_of(sizes: &Sizes, dice: &mut Dice) -> Vec<[u32; 4]> {
    let mut nodes = vec![[2, 1, 0, 0]; sizes.methods];
    let main = sizes.nodes.saturating_sub(sizes.methods).max(1);
    let cast = dice.one_in(2);
    nodes.push(if cast { [0, 1, 4, 0] } else { [2, 1, 3, 1] });
    let mut size = 1;
    while size < main {
        if cast || size + 1 == main {
            size += 1;
            nodes.push(if cast { [1, size as u32, dice.of(&[0, 4]), 0] } else { [6, size as u32, 1, 0] });
        } else {
            size += 2;
            nodes.push([2, 1, 3, 1]);
            nodes.push([4, size as u32, 0, 0]);
        }
    }
    nodes
}

fn image(sizes: &Sizes, dice: &mut Dice) -> Vec<u32> {
    let mut words: Vec<u32> = vec![0; sizes.classes.min(4)];
    let flat = dice.one_in(2);
    words.extend((4..sizes.classes).map(|c| if flat || c == 4 { 0 } else { c as u32 - 1 }));
    let users = sizes.classes.saturating_sub(4).max(1);
    let spread = |i: usize, count: usize| {
        let each = count.div_ceil(users).max(1);
        [4 + (i / each) as u32, (i % each) as u32]
    };
    let fields: Vec<u32> = (0..sizes.fields).flat_map(|i| [spread(i, sizes.fields)[0], spread(i, sizes.fields)[1], 2]).collect();
    let methods: Vec<u32> = (0..sizes.methods)
        .flat_map(|i| [spread(i, sizes.methods)[0], spread(i, sizes.methods)[1], 0, 0, 0, i as u32])
        .collect();
    let nodes = nodes_of(sizes, dice);
    let node_words = 4 * nodes.len() + 8;
    let types = node_words + sizes.types;
    let from_methods = types + methods.len();
    let from_fields = from_methods + fields.len();
    let whole = from_fields + words.len();
    let main = nodes.len() - 1;
    words.extend(fields);
    words.extend(methods);
    words.extend(vec![2; sizes.types]);
    words.extend(nodes.concat());
    words.extend([whole, from_fields, from_methods, types, node_words, main, sizes.inputs, 1].map(|w| w as u32));
    words
}

pub fn case(dice: &mut Dice) -> Case {
    let mut sizes = Sizes { classes: 6, fields: 2, methods: 2, types: 9, nodes: 12, inputs: 1 };
    match dice.below(7) {
        0 => sizes.classes = dice.of(&[255, 256, 257, 0, 3, 4]),
        1 => (sizes.classes, sizes.fields) = dice.of(&[(256, 1023), (256, 1024), (256, 1025), (5, 15), (5, 16), (6, 30), (7, 32)]),
        2 => sizes.methods = dice.of(&[1023, 1024, 1025]),
        3 => sizes.types = dice.of(&[2047, 2048, 2049, 0, 7]),
        4 => sizes.inputs = dice.of(&[7, 8, 9, 10]),
        _ => sizes.nodes = dice.of(&[1000, 1022, 1023, 1024, 1025, 2000, 4094, 4095, 4096, 4097]),
    }
    let slots = dice.of(&[2, 3, 4, 4, 4, 4, 64, 4096, 4097]);
    let mut heap = vec![0; 16 * slots];
    for s in 0..3.min(slots) {
        heap[16 * s] = s as u64 + 1 + 1;
    }
    let inputs = vec![3 << 32; sizes.inputs];
    let depth = dice.of(&[8, 1023, 1024, 1024]);
    Case { image: image(&sizes, dice), heap, inputs, room: 16 * depth as usize + 160, steps: 10_000, depth }
}
