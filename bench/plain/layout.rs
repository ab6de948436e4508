//! What the run asks of image, heap and inputs before it starts: numbers 1 to 10 and 14 to 16.

pub const MOST_CLASSES: usize = 256;
pub const MOST_NODES: usize = 4096;

/// The image's sections and counts, once its trailer is in order.
pub struct Image<'a> {
    pub classes: &'a [u32],
    pub fields: &'a [u32],
    pub methods: &'a [u32],
    pub types: &'a [u32],
    pub nodes: &'a [u32],
    pub main: u32,
    pub inputs: usize,
}

/// What is kept of the class table: each class's own records, and how many fields it has in all. Only the lines of the
/// image's classes are written, and only they are read.
pub struct Classes {
    pub first_field: [u16; MOST_CLASSES + 1],
    pub first_method: [u16; MOST_CLASSES + 1],
    pub field_count: [u16; MOST_CLASSES],
    /// Bit d of line c: class c is d or below it.
    pub below: [[u64; 4]; MOST_CLASSES],
}

type Refused = (u64, u64);

fn trailer(words: &[u32]) -> Result<Image<'_>, Refused> {
    let n = words.len();
    if n < 8 || words[n - 1] != 1 {
        return Err((1, 0));
    }
    let word = |i: usize| words[n - 8 + i] as usize;
    if word(0) != n {
        return Err((2, 0));
    }
    const RECORD: [usize; 5] = [1, 3, 6, 1, 4];
    for i in 1..5 {
        let (above, here) = (word(i - 1), word(i));
        if here > above || here < 8 || (above - here) % RECORD[i - 1] != 0 {
            return Err((2, i as u64));
        }
        if i == 4 && (here - 8) % RECORD[4] != 0 {
            return Err((2, 4));
        }
    }
    if word(6) > word(3) - word(4) {
        return Err((2, 6));
    }
    let part = |from: usize, to: usize| &words[n - from..n - to];
    let image = Image {
        classes: part(word(0), word(1)),
        fields: part(word(1), word(2)),
        methods: part(word(2), word(3)),
        types: part(word(3), word(4)),
        nodes: part(word(4), 8),
        main: words[n - 3],
        inputs: word(6),
    };
    let sizes = [image.classes.len(), image.fields.len() / 3, image.methods.len() / 6, image.types.len(), image.nodes.len() / 4];
    let ceilings = [MOST_CLASSES, 1024, 1024, 2048, MOST_NODES];
    for i in 0..5 {
        if sizes[i] > ceilings[i] {
            return Err((3, i as u64));
        }
    }
    if image.inputs > 8 {
        return Err((3, 6));
    }
    Ok(image)
}

impl Image<'_> {
    fn is_class(&self, c: u32) -> bool {
        (c as usize) < self.classes.len()
    }

    fn is_type(&self, t: u32) -> bool {
        (t as usize) < self.classes.len() + 4
    }

    fn is_declared(&self, t: u32) -> bool {
        self.is_type(t) && t != 3
    }

    fn is_member(&self, r: &[u32]) -> bool {
        r[0] >= 4 && self.is_class(r[0]) && r[1] <= 65535 && self.is_declared(r[2])
    }

    fn tables(&self) -> Result<(), Refused> {
        for (c, &above) in self.classes.iter().enumerate() {
            if above as usize >= if c < 4 { 1 } else { c } {
                return Err((4, c as u64));
            }
        }
        if self.classes.len() < 4 {
            return Err((4, self.classes.len() as u64));
        }
        let mut before = None;
        for (i, r) in self.fields.chunks_exact(3).enumerate() {
            if !self.is_member(r) || before >= Some((r[0], r[1])) {
                return Err((5, i as u64));
            }
            before = Some((r[0], r[1]));
        }
        before = None;
        for (i, r) in self.methods.chunks_exact(6).enumerate() {
            let fits = r[4] <= 8 && r[3] as usize + r[4] as usize <= self.types.len();
            if !self.is_member(r) || before >= Some((r[0], r[1])) || !fits {
                return Err((6, i as u64));
            }
            before = Some((r[0], r[1]));
        }
        match self.types.iter().position(|&t| !self.is_declared(t)) {
            Some(i) => Err((7, i as u64)),
            None => Ok(()),
        }
    }

    /// How many operands a node has, if its kind, x and y are in order.
    fn operands(&self, kind: u32, x: u32, y: u32) -> Option<u32> {
        let (right, count) = match kind {
            0 => (self.is_class(x) && y == 0, 0),
            1 => (self.is_class(x) && y == 0, 1),
            2 => (x == 3 || x < 2 && y == 0 || x == 2 && y < 2, 0),
            3 => (x < 64 && y == 0, 0),
            4 | 5 | 11 | 13 => (x == 0 && y == 0, 2),
            6 => (x < 64 && y == 0, 1),
            7 => (x <= 65535 && self.is_class(y), 1),
            8 => (x <= 65535 && self.is_class(y), 2),
            9 => (x <= 65535 && y <= 8, 1 + y.min(8)),
            10 => (x >= 1 && x < 64 && self.is_declared(y), 1),
            12 => (x == 0 && y == 0, 3),
            14 => (self.is_type(x) && y == 0, 1),
            15 => (self.is_class(x) && y >= 1 && y < 64, 2),
            _ => (false, 0),
        };
        if right { Some(count) } else { None }
    }

    fn trees(&self) -> Result<(), Refused> {
        for (i, r) in self.nodes.chunks_exact(4).enumerate() {
            let Some(count) = self.operands(r[0], r[2], r[3]) else { return Err((8, i as u64)) };
            // Where the operands found so far begin.
            let mut begin = i;
            for _ in 0..count {
                if begin == 0 {
                    return Err((8, i as u64));
                }
                begin -= self.nodes[4 * (begin - 1) + 1] as usize;
            }
            if r[1] as usize != i - begin + 1 {
                return Err((8, i as u64));
            }
        }
        let mut begin = 0;
        let count = self.nodes.len() / 4;
        let bodies = self.methods.chunks_exact(6).map(|r| r[5]).chain([self.main]);
        for (i, body) in bodies.enumerate() {
            let body = body as usize;
            if body >= count || body + 1 - self.nodes[4 * body + 1] as usize != begin {
                return Err((9, i as u64));
            }
            begin = body + 1;
        }
        if begin != count {
            return Err((9, (self.methods.len() / 6) as u64));
        }
        Ok(())
    }
}

fn fill_classes(image: &Image, found: &mut Classes) -> Result<(), Refused> {
    let (fields, methods) = (image.fields.len() / 3, image.methods.len() / 6);
    let (mut f, mut m) = (0, 0);
    let mut over = None;
    for c in 0..image.classes.len() {
        found.first_field[c] = f as u16;
        found.first_method[c] = m as u16;
        let own = f;
        while f < fields && image.fields[3 * f] as usize == c {
            f += 1;
        }
        while m < methods && image.methods[6 * m] as usize == c {
            m += 1;
        }
        let above = image.classes[c] as usize;
        (found.field_count[c], found.below[c]) = if c == 0 { (0, [0; 4]) } else { (found.field_count[above], found.below[above]) };
        found.field_count[c] += (f - own) as u16;
        found.below[c][c / 64] |= 1 << (c % 64);
        if found.field_count[c] > 15 && over.is_none() {
            over = Some(c);
        }
    }
    found.first_field[image.classes.len()] = f as u16;
    found.first_method[image.classes.len()] = m as u16;
    match over {
        Some(c) => Err((10, c as u64)),
        None => Ok(()),
    }
}

fn is_value(word: u64) -> bool {
    let payload = word & 0xffff_ffff;
    match word >> 32 {
        0 | 1 => payload == 0,
        2 => payload < 2,
        3 => true,
        4 => payload < 4096,
        _ => false,
    }
}

fn heap_words(image: &Image, classes: &Classes, heap: &[u64]) -> Result<(), Refused> {
    if heap.len() % 16 != 0 || heap.len() < 48 || heap.len() > 65536 {
        return Err((14, 0));
    }
    for (a, slot) in heap.chunks_exact(16).enumerate() {
        if slot[0] == 0 && slot.iter().fold(0, |all, w| all | w) == 0 {
            continue;
        }
        if slot[0] > image.classes.len() as u64 {
            return Err((15, 16 * a as u64));
        }
        let count = if slot[0] == 0 { 0 } else { classes.field_count[slot[0] as usize - 1] as usize };
        for k in 1..16 {
            if !(if k <= count { is_value(slot[k]) } else { slot[k] == 0 }) {
                return Err((15, (16 * a + k) as u64));
            }
        }
    }
    Ok(())
}

fn input_words(image: &Image, inputs: &[u64]) -> Result<(), Refused> {
    let wrong = inputs.iter().position(|&w| !is_value(w));
    let count = if inputs.len() != image.inputs { Some(image.inputs) } else { None };
    match (wrong, count) {
        (None, None) => Ok(()),
        (Some(i), None) | (None, Some(i)) => Err((16, i as u64)),
        (Some(i), Some(k)) => Err((16, i.min(k) as u64)),
    }
}

/// All that is asked of image, heap and inputs.
pub fn accept<'a>(words: &'a [u32], heap: &[u64], inputs: &[u64], classes: &mut Classes) -> Result<Image<'a>, Refused> {
    let image = trailer(words)?;
    image.tables()?;
    image.trees()?;
    fill_classes(&image, classes)?;
    heap_words(&image, classes, heap)?;
    input_words(&image, inputs)?;
    Ok(image)
}
