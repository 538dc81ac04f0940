//! A plain rope in Rust, with the works of `tree_bench rope` of `crates/tree_bench`: usage: rope BYTES COUNT
//!
//! It is a copy-on-write B-tree of at most 12 entries a node behind `Arc`, over chunks of at most 128 bytes. A node that
//! loses entries is dropped when it is empty and not merged before, and it reports no failed allocation.
use std::hint::black_box;
use std::sync::Arc;
use std::time::Instant;

const MAX: usize = 12;
const CHUNK: usize = 128;
#[derive(Clone, Copy, Default)]
struct Sum {
    bytes: u64,
    utf16: u64,
    lines: u64,
    column: u64,
}
impl Sum {
    fn of(b: &[u8]) -> Sum {
        let lines = b.iter().filter(|&&c| c == b'\n').count() as u64;
        let column = b.len() as u64
            - b.iter()
                .rposition(|&c| c == b'\n')
                .map_or(0, |i| i as u64 + 1);
        let utf16 = b
            .iter()
            .map(|&c| (c & 0xc0 != 0x80) as u64 + (c >= 0xf0) as u64)
            .sum();
        Sum {
            bytes: b.len() as u64,
            utf16,
            lines,
            column,
        }
    }
    fn add(self, o: Sum) -> Sum {
        Sum {
            bytes: self.bytes + o.bytes,
            utf16: self.utf16 + o.utf16,
            lines: self.lines + o.lines,
            column: if o.lines == 0 {
                self.column + o.column
            } else {
                o.column
            },
        }
    }
}
#[derive(Clone, Copy)]
struct Chunk {
    n: u8,
    b: [u8; CHUNK],
}
impl Chunk {
    fn new(t: &[u8]) -> Chunk {
        let mut b = [0; CHUNK];
        b[..t.len()].copy_from_slice(t);
        Chunk {
            n: t.len() as u8,
            b,
        }
    }
    fn bytes(&self) -> &[u8] {
        &self.b[..self.n as usize]
    }
}
fn boundary(b: &[u8], mut i: usize) -> usize {
    while i > 0 && i < b.len() && b[i] & 0xc0 == 0x80 {
        i -= 1
    }
    i
}
const NO: Chunk = Chunk {
    n: 0,
    b: [0; CHUNK],
};
#[derive(Clone)]
enum Node {
    Leaf {
        n: usize,
        sums: [Sum; MAX],
        items: [Chunk; MAX],
    },
    Inner {
        n: usize,
        sums: [Sum; MAX],
        kids: [Option<Arc<Node>>; MAX],
    },
}
use Node::*;
impl Node {
    fn leaf() -> Node {
        Leaf {
            n: 0,
            sums: [Sum::default(); MAX],
            items: [NO; MAX],
        }
    }
    fn inner() -> Node {
        Inner {
            n: 0,
            sums: [Sum::default(); MAX],
            kids: Default::default(),
        }
    }
    fn parts(&self) -> (usize, &[Sum; MAX]) {
        match self {
            Leaf { n, sums, .. } => (*n, sums),
            Inner { n, sums, .. } => (*n, sums),
        }
    }
    fn sum(&self) -> Sum {
        let (n, s) = self.parts();
        s[..n].iter().fold(Sum::default(), |a, &b| a.add(b))
    }
    /// Inserts at most CHUNK/2 bytes; gives the new right sibling of a node that was split.
    fn insert(&mut self, mut at: u64, t: &[u8]) -> Option<Arc<Node>> {
        match self {
            Leaf { n, sums, items } => {
                if *n == 0 {
                    items[0] = Chunk::new(t);
                    sums[0] = Sum::of(t);
                    *n = 1;
                    return None;
                }
                let mut i = 0;
                while i + 1 < *n && at > sums[i].bytes {
                    at -= sums[i].bytes;
                    i += 1
                }
                let (c, at) = (&mut items[i], at as usize);
                let len = c.n as usize;
                if len + t.len() <= CHUNK {
                    c.b.copy_within(at..len, at + t.len());
                    c.b[at..at + t.len()].copy_from_slice(t);
                    c.n += t.len() as u8;
                    sums[i] = Sum::of(c.bytes());
                    return None;
                }
                let mut whole = [0u8; 2 * CHUNK];
                let m = len + t.len();
                whole[..at].copy_from_slice(&c.b[..at]);
                whole[at..at + t.len()].copy_from_slice(t);
                whole[at + t.len()..m].copy_from_slice(&c.b[at..len]);
                let cut = boundary(
                    &whole[..m],
                    if i + 1 == *n && at == len { len } else { m / 2 },
                );
                *c = Chunk::new(&whole[..cut]);
                sums[i] = Sum::of(&whole[..cut]);
                let (c2, s2) = (Chunk::new(&whole[cut..m]), Sum::of(&whole[cut..m]));
                if *n < MAX {
                    items.copy_within(i + 1..*n, i + 2);
                    sums.copy_within(i + 1..*n, i + 2);
                    items[i + 1] = c2;
                    sums[i + 1] = s2;
                    *n += 1;
                    return None;
                }
                let mut right = Node::leaf();
                if let Leaf {
                    n: rn,
                    sums: rs,
                    items: ri,
                } = &mut right
                {
                    let h = MAX / 2;
                    ri[..h].copy_from_slice(&items[h..]);
                    rs[..h].copy_from_slice(&sums[h..]);
                    *n = h;
                    *rn = h;
                    let (n, sums, items, i) = if i + 1 <= h {
                        (n, sums, items, i + 1)
                    } else {
                        (rn, rs, ri, i + 1 - h)
                    };
                    items.copy_within(i..*n, i + 1);
                    sums.copy_within(i..*n, i + 1);
                    items[i] = c2;
                    sums[i] = s2;
                    *n += 1;
                }
                Some(Arc::new(right))
            }
            Inner { n, sums, kids } => {
                let mut i = 0;
                while i + 1 < *n && at > sums[i].bytes {
                    at -= sums[i].bytes;
                    i += 1
                }
                let kid = Arc::make_mut(kids[i].as_mut().unwrap());
                let more = kid.insert(at, t);
                sums[i] = kid.sum();
                let new = more?;
                let s = new.sum();
                if *n < MAX {
                    kids[i + 1..=*n].rotate_right(1);
                    kids[i + 1] = Some(new);
                    sums.copy_within(i + 1..*n, i + 2);
                    sums[i + 1] = s;
                    *n += 1;
                    return None;
                }
                let mut right = Node::inner();
                if let Inner {
                    n: rn,
                    sums: rs,
                    kids: rk,
                } = &mut right
                {
                    let h = MAX / 2;
                    for j in 0..h {
                        rk[j] = kids[h + j].take();
                        rs[j] = sums[h + j];
                    }
                    *n = h;
                    *rn = h;
                    let (n, sums, kids, i) = if i + 1 <= h {
                        (n, sums, kids, i + 1)
                    } else {
                        (rn, rs, rk, i + 1 - h)
                    };
                    kids[i..=*n].rotate_right(1);
                    kids[i] = Some(new);
                    sums.copy_within(i..*n, i + 1);
                    sums[i] = s;
                    *n += 1;
                }
                Some(Arc::new(right))
            }
        }
    }
    fn delete(&mut self, s: u64, e: u64) {
        let mut at = 0;
        let mut k = 0;
        match self {
            Leaf { n, sums, items } => {
                for i in 0..*n {
                    let len = sums[i].bytes;
                    let (a, b) = (s.clamp(at, at + len) - at, e.clamp(at, at + len) - at);
                    at += len;
                    if a < b {
                        let c = &mut items[i];
                        c.b.copy_within(b as usize..len as usize, a as usize);
                        c.n -= (b - a) as u8;
                        sums[i] = Sum::of(items[i].bytes());
                    }
                    if sums[i].bytes > 0 {
                        if k < i {
                            items[k] = items[i];
                            sums[k] = sums[i];
                        }
                        k += 1;
                    }
                }
                *n = k;
            }
            Inner { n, sums, kids } => {
                for i in 0..*n {
                    let len = sums[i].bytes;
                    let (a, b) = (s.clamp(at, at + len) - at, e.clamp(at, at + len) - at);
                    at += len;
                    if a < b {
                        if b - a == len {
                            sums[i].bytes = 0
                        } else {
                            let kid = Arc::make_mut(kids[i].as_mut().unwrap());
                            kid.delete(a, b);
                            sums[i] = kid.sum();
                        }
                    }
                    if sums[i].bytes > 0 {
                        if k < i {
                            kids.swap(k, i);
                            sums[k] = sums[i];
                        }
                        k += 1;
                    } else {
                        kids[i] = None
                    }
                }
                *n = k;
            }
        }
    }
    fn each(&self, f: &mut impl FnMut(&[u8])) {
        match self {
            Leaf { n, items, .. } => items[..*n].iter().for_each(|c| f(c.bytes())),
            Inner { n, kids, .. } => kids[..*n].iter().for_each(|k| k.as_ref().unwrap().each(f)),
        }
    }
}
#[derive(Clone)]
struct Rope {
    root: Arc<Node>,
}
impl Rope {
    fn build(t: &[u8]) -> Rope {
        let mut level = Vec::new();
        let (mut leaf, mut p) = (Node::leaf(), 0);
        while p < t.len() {
            let e = boundary(t, (p + CHUNK).min(t.len()));
            let c = &t[p..e];
            p = e;
            if leaf.parts().0 == MAX {
                level.push(Arc::new(std::mem::replace(&mut leaf, Node::leaf())))
            }
            if let Leaf { n, sums, items } = &mut leaf {
                items[*n] = Chunk::new(c);
                sums[*n] = Sum::of(c);
                *n += 1
            }
        }
        level.push(Arc::new(leaf));
        while level.len() > 1 {
            level = level
                .chunks(MAX)
                .map(|ks| {
                    let mut x = Node::inner();
                    if let Inner { n, sums, kids } = &mut x {
                        for k in ks {
                            sums[*n] = k.sum();
                            kids[*n] = Some(k.clone());
                            *n += 1
                        }
                    }
                    Arc::new(x)
                })
                .collect()
        }
        Rope {
            root: level.pop().unwrap(),
        }
    }
    fn len(&self) -> u64 {
        self.root.sum().bytes
    }
    fn rows(&self) -> u64 {
        self.root.sum().lines + 1
    }
    fn insert(&mut self, at: u64, t: &[u8]) {
        let root = Arc::make_mut(&mut self.root);
        if let Some(right) = root.insert(at, t) {
            let left = self.root.clone();
            let mut x = Node::inner();
            if let Inner { n, sums, kids } = &mut x {
                sums[0] = left.sum();
                sums[1] = right.sum();
                kids[0] = Some(left);
                kids[1] = Some(right);
                *n = 2
            }
            self.root = Arc::new(x);
        }
    }
    fn delete(&mut self, s: u64, e: u64) {
        Arc::make_mut(&mut self.root).delete(s, e);
        if self.root.parts().0 == 0 {
            self.root = Arc::new(Node::leaf())
        }
    }
    fn point(&self, mut at: u64) -> (u64, u64) {
        let (mut node, mut acc) = (&*self.root, Sum::default());
        loop {
            let (n, sums) = node.parts();
            let mut i = 0;
            while i + 1 < n && at >= sums[i].bytes {
                at -= sums[i].bytes;
                acc = acc.add(sums[i]);
                i += 1
            }
            match node {
                Inner { kids, .. } => node = kids[i].as_ref().unwrap(),
                Leaf { items, .. } => {
                    let s = Sum::of(&items[i].bytes()[..at as usize]);
                    let a = acc.add(s);
                    return (a.lines, a.column);
                }
            }
        }
    }
    fn offset(&self, row: u64, column: u64) -> u64 {
        if row == 0 {
            return column;
        }
        let (mut node, mut left, mut off) = (&*self.root, row, 0);
        loop {
            let (n, sums) = node.parts();
            let mut i = 0;
            while i + 1 < n && left > sums[i].lines {
                left -= sums[i].lines;
                off += sums[i].bytes;
                i += 1
            }
            match node {
                Inner { kids, .. } => node = kids[i].as_ref().unwrap(),
                Leaf { items, .. } => {
                    let b = items[i].bytes();
                    let mut p = 0;
                    for _ in 0..left {
                        p += b[p..].iter().position(|&c| c == b'\n').unwrap() + 1
                    }
                    return off + p as u64 + column;
                }
            }
        }
    }
    fn each(&self, f: &mut impl FnMut(&[u8])) {
        self.root.each(f)
    }
}

fn step(x: u64) -> u64 {
    x.wrapping_mul(6364136223846793005)
        .wrapping_add(1442695040888963407)
}

const SHORT: [&str; 8] = [
    "a", "bc", "d\ne", "fghi", "jklmn", "opqrst", "uvw\nxyz", "abcdefgh",
];

fn long(bytes: u64) -> Vec<u8> {
    let mut x = 1;
    let mut text = Vec::new();
    for _ in 0..bytes {
        x = step(x);
        text.push(if (x >> 20) % 60 == 0 {
            b'\n'
        } else {
            b'a' + ((x >> 40) % 26) as u8
        });
    }
    text
}

fn report(name: &str, start: Instant, answer: u64) {
    println!("{name} {answer} {}", start.elapsed().as_micros());
}

fn range(rope: &Rope, x: u64, most: u64) -> (u64, u64) {
    let len = rope.len();
    let start = (x >> 20) % (len + 1);
    (start, len.min(start + (x >> 8) % most))
}

fn replace(rope: &mut Rope, x: u64) {
    let (start, end) = range(rope, x, 9);
    if start < end {
        rope.delete(start, end);
    }
    rope.insert(start, SHORT[((x >> 32) % 8) as usize].as_bytes());
}

fn chunks(rope: &Rope) -> u64 {
    let mut count = 0;
    rope.each(&mut |_| count += 1);
    count
}

fn main() {
    let words: Vec<u64> = std::env::args()
        .skip(1)
        .map(|w| w.parse().expect("a number"))
        .collect();
    let (text, n) = (long(words[0]), words[1]);
    let start = Instant::now();
    let mut rope = Rope::build(&text);
    report("Build", start, rope.len());
    println!("ChunksBuilt {}", chunks(&rope));
    let start = Instant::now();
    let (mut sum, mut x) = (0u64, 1);
    for _ in 0..n / 2 {
        x = step(x);
        let point = rope.point((x >> 20) % (rope.len() + 1));
        sum = sum.wrapping_add(point.0).wrapping_add(point.1);
    }
    report("Points", start, sum);
    let start = Instant::now();
    let (mut sum, mut x) = (0u64, 1);
    for _ in 0..n / 2 {
        x = step(x);
        sum = sum.wrapping_add(rope.offset((x >> 20) % rope.rows(), 0));
    }
    report("Offsets", start, sum);
    let start = Instant::now();
    let mut sum = 0;
    for _ in 0..n / 2 {
        sum += black_box(rope.clone()).len();
    }
    report("Shares", start, sum);
    let start = Instant::now();
    let mut x = 1;
    for _ in 0..n {
        x = step(x);
        replace(&mut rope, x);
    }
    report("Replaces", start, rope.len());
    println!("Chunks {}", chunks(&rope));
    let start = Instant::now();
    let (mut sum, mut x) = (0, 5);
    for _ in 0..n {
        x = step(x);
        let old = rope.clone();
        replace(&mut rope, x);
        sum += old.len();
    }
    report("ShareReplaces", start, sum);
}
