//! The image: its sections, its records, and numbers 1 to 11.

/// 0 Void, 1 Bool, 2 Integer, 3 the null type, 4 + c class c.
pub type Type = u32;

pub const VOID: Type = 0;
pub const BOOL: Type = 1;
pub const INTEGER: Type = 2;
pub const NULL: Type = 3;

pub fn class_type(class: usize) -> Type {
    class as u32 + 4
}

pub fn class_of(t: Type) -> Option<usize> {
    t.checked_sub(4).map(|c| c as usize)
}

pub struct Field {
    pub class: u32,
    pub name: u32,
    pub of_type: Type,
}

pub struct Method {
    pub class: u32,
    pub name: u32,
    pub result: Type,
    pub first: u32,
    pub count: u32,
    pub body: u32,
}

pub struct Node {
    pub kind: u32,
    pub size: u32,
    pub x: u32,
    pub y: u32,
}

pub struct Image {
    pub classes: Vec<u32>,
    pub fields: Vec<Field>,
    pub methods: Vec<Method>,
    pub types: Vec<Type>,
    pub nodes: Vec<Node>,
    pub main: u32,
    pub inputs: usize,
}

fn trailer(words: &[u32]) -> &[u32] {
    &words[words.len() - 8..]
}

/// 1
pub fn no_format(words: &[u32]) -> Option<usize> {
    (words.len() < 8 || trailer(words)[7] != 1).then_some(0)
}

/// 2. Word i ends the section that word i - 1 begins; the nodes end where the trailer begins.
pub fn broken_trailer(words: &[u32]) -> Option<usize> {
    let t = trailer(words);
    if t[0] as usize != words.len() {
        return Some(0);
    }
    for i in 1..=4 {
        let record = [1, 3, 6, 1][i - 1];
        if t[i] > t[i - 1] || t[i] < 8 || (t[i - 1] - t[i]) % record != 0 {
            return Some(i);
        }
    }
    if (t[4] - 8) % 4 != 0 {
        return Some(4);
    }
    (t[6] > t[3] - t[4]).then_some(6)
}

/// 3
pub fn over_ceiling(words: &[u32]) -> Option<usize> {
    let t = trailer(words);
    let lengths = [t[0] - t[1], (t[1] - t[2]) / 3, (t[2] - t[3]) / 6, t[3] - t[4], (t[4] - 8) / 4];
    let ceilings = [256, 1024, 1024, 2048, 4096];
    (0..5).find(|&i| lengths[i] > ceilings[i]).or((t[6] > 8).then_some(6))
}

pub fn read(words: &[u32]) -> Image {
    let t = trailer(words);
    let from = |i: usize| words.len() - t[i] as usize;
    let nodes_end = words.len() - 8;
    Image {
        classes: words[from(0)..from(1)].to_vec(),
        fields: words[from(1)..from(2)].chunks(3).map(|r| Field { class: r[0], name: r[1], of_type: r[2] }).collect(),
        methods: words[from(2)..from(3)]
            .chunks(6)
            .map(|r| Method { class: r[0], name: r[1], result: r[2], first: r[3], count: r[4], body: r[5] })
            .collect(),
        types: words[from(3)..from(4)].to_vec(),
        nodes: words[from(4)..nodes_end].chunks(4).map(|r| Node { kind: r[0], size: r[1], x: r[2], y: r[3] }).collect(),
        main: t[5],
        inputs: t[6] as usize,
    }
}

// How many operands a node has, if its kind is one.
fn operand_count(node: &Node) -> Option<usize> {
    match node.kind {
        0 | 2 | 3 => Some(0),
        1 | 6 | 7 | 10 | 14 => Some(1),
        4 | 5 | 8 | 11 | 13 | 15 => Some(2),
        9 => Some(1 + node.y as usize),
        12 => Some(3),
        _ => None,
    }
}

impl Image {
    fn is_class(&self, word: u32) -> bool {
        (word as usize) < self.classes.len()
    }

    fn is_declared(&self, word: u32) -> bool {
        word <= 2 || (word >= 4 && self.is_class(word - 4))
    }

    fn is_owner(&self, word: u32) -> bool {
        word >= 4 && self.is_class(word)
    }

    /// 4
    pub fn broken_class(&self) -> Option<usize> {
        let good = |c: usize| if c < 4 { self.classes[c] == 0 } else { (self.classes[c] as usize) < c };
        let count = self.classes.len();
        (0..count).find(|&c| !good(c)).or((count < 4).then_some(count))
    }

    /// 5
    pub fn broken_field(&self) -> Option<usize> {
        let good = |i: usize| {
            let f = &self.fields[i];
            let rises = i == 0 || (self.fields[i - 1].class, self.fields[i - 1].name) < (f.class, f.name);
            rises && self.is_owner(f.class) && f.name <= 65535 && self.is_declared(f.of_type)
        };
        (0..self.fields.len()).find(|&i| !good(i))
    }

    /// 6
    pub fn broken_method(&self) -> Option<usize> {
        let good = |i: usize| {
            let m = &self.methods[i];
            let rises = i == 0 || (self.methods[i - 1].class, self.methods[i - 1].name) < (m.class, m.name);
            let named = self.is_owner(m.class) && m.name <= 65535 && self.is_declared(m.result);
            rises && named && m.count <= 8 && m.first as usize + m.count as usize <= self.types.len()
        };
        (0..self.methods.len()).find(|&i| !good(i))
    }

    /// 7
    pub fn broken_type(&self) -> Option<usize> {
        self.types.iter().position(|&t| !self.is_declared(t))
    }

    /// 8
    pub fn broken_node(&self) -> Option<usize> {
        (0..self.nodes.len()).find(|&n| !self.words_fit(&self.nodes[n]) || !self.size_fits(n))
    }

    fn words_fit(&self, node: &Node) -> bool {
        let Node { kind, x, y, .. } = *node;
        let local = |word: u32| (1..=63).contains(&word);
        match kind {
            0 | 1 => self.is_class(x) && y == 0,
            2 => match x {
                0 | 1 => y == 0,
                2 => y <= 1,
                3 => true,
                _ => false,
            },
            3 | 6 => x <= 63 && y == 0,
            4 | 5 | 11 | 12 | 13 => x == 0 && y == 0,
            7 | 8 => x <= 65535 && self.is_class(y),
            9 => x <= 65535 && y <= 8,
            10 => local(x) && self.is_declared(y),
            14 => (x == 3 || self.is_declared(x)) && y == 0,
            15 => self.is_class(x) && local(y),
            _ => false,
        }
    }

    // The nodes before this one are good.
    fn size_fits(&self, n: usize) -> bool {
        let Some(count) = operand_count(&self.nodes[n]) else { return false };
        let mut begin = n;
        for _ in 0..count {
            if begin == 0 {
                return false;
            }
            begin -= self.nodes[begin - 1].size as usize;
        }
        self.nodes[n].size as usize == n - begin + 1
    }

    /// The last nodes of a node's operands, from the first operand on.
    pub fn operands(&self, n: usize) -> Vec<usize> {
        let mut found = Vec::new();
        let mut begin = n;
        for _ in 0..operand_count(&self.nodes[n]).unwrap() {
            found.insert(0, begin - 1);
            begin -= self.nodes[begin - 1].size as usize;
        }
        found
    }

    /// 9
    pub fn broken_body(&self) -> Option<usize> {
        let mut begin = 0;
        let bodies = self.methods.iter().map(|m| m.body).chain([self.main]);
        for (i, body) in bodies.enumerate() {
            let body = body as usize;
            if body >= self.nodes.len() || body + 1 != begin + self.nodes[body].size as usize {
                return Some(i);
            }
            begin = body + 1;
        }
        (begin != self.nodes.len()).then_some(self.methods.len())
    }

    /// The class and those above it, up to Object.
    pub fn line(&self, class: usize) -> Vec<usize> {
        let mut line = vec![class];
        let mut at = class;
        while at != 0 {
            at = self.classes[at] as usize;
            line.push(at);
        }
        line
    }

    pub fn subclass(&self, below: usize, above: usize) -> bool {
        self.line(below).contains(&above)
    }

    pub fn subtype(&self, below: Type, above: Type) -> bool {
        match (class_of(below), class_of(above)) {
            (Some(b), Some(a)) => self.subclass(b, a),
            (None, Some(_)) => below == NULL,
            _ => below == above,
        }
    }

    /// The fields of an object of this class, in the order of its slot.
    pub fn all_fields(&self, class: usize) -> Vec<&Field> {
        let mut line = self.line(class);
        line.reverse();
        line.into_iter().flat_map(|c| self.fields.iter().filter(move |f| f.class as usize == c)).collect()
    }

    /// 10
    pub fn too_many_fields(&self) -> Option<usize> {
        (0..self.classes.len()).find(|&c| self.all_fields(c).len() > 15)
    }

    pub fn sees_field(&self, class: usize, name: u32) -> Option<&Field> {
        self.line(class).into_iter().find_map(|c| self.fields.iter().find(|f| f.class as usize == c && f.name == name))
    }

    pub fn sees_method(&self, class: usize, name: u32) -> Option<&Method> {
        self.line(class).into_iter().find_map(|c| self.methods.iter().find(|m| m.class as usize == c && m.name == name))
    }

    pub fn arguments(&self, m: &Method) -> &[Type] {
        &self.types[m.first as usize..][..m.count as usize]
    }

    pub fn main_types(&self) -> &[Type] {
        &self.types[self.types.len() - self.inputs..]
    }

    /// 11
    pub fn broken_override(&self) -> Option<usize> {
        self.methods.iter().position(|m| {
            let above = self.classes[m.class as usize] as usize;
            self.sees_method(above, m.name).is_some_and(|over| !self.may_override(m, over))
        })
    }

    fn may_override(&self, own: &Method, over: &Method) -> bool {
        let pairs = self.arguments(own).iter().zip(self.arguments(over));
        own.count == over.count && pairs.clone().all(|(&o, &a)| self.subtype(a, o)) && self.subtype(own.result, over.result)
    }
}
