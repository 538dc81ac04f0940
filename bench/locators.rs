// Pairs of locators between which further ones are put, and the same work on plain lists of digits.
// usage: locators pairs PATTERN COUNT [TRACE]   writes lines of two indexes: 0 is the least locator, 1 the greatest, and
//                                               the n-th line makes number n + 1
//        locators vec                           reads such lines, and works on a `Vec<u64>` a locator
use std::io::{BufWriter, Read, Write};
use std::time::Instant;

type Digits = Vec<u64>;

fn between(a: &[u64], b: &[u64]) -> Digits {
    let mut digits = Vec::new();
    for place in 0.. {
        let low = a.get(place).copied().unwrap_or(0);
        let high = b.get(place).copied().unwrap_or(u64::MAX);
        let digit = low + (high.saturating_sub(low) >> 48);
        digits.push(digit);
        if digit > low {
            break;
        }
    }
    digits
}

// The pieces of a text in order: how long each is, whether it is shown, and the index of its locator.
struct Piece {
    len: usize,
    shown: bool,
    id: usize,
}

// A text whose pieces lie in blocks, each with the length of what it shows.
struct Text<W: Write> {
    blocks: Vec<Vec<Piece>>,
    lens: Vec<usize>,
    made: usize,
    pairs: W,
}

impl<W: Write> Text<W> {
    fn new(len: usize, pairs: W) -> Text<W> {
        let mut text = Text { blocks: vec![vec![]], lens: vec![0], made: 2, pairs };
        if len > 0 {
            let id = text.between(0, 1);
            text.blocks[0].push(Piece { len, shown: true, id });
            text.lens[0] = len;
        }
        text
    }

    fn between(&mut self, a: usize, b: usize) -> usize {
        writeln!(self.pairs, "{a} {b}").unwrap();
        self.made += 1;
        self.made - 1
    }

    fn before(&self, block: usize, at: usize) -> usize {
        if at > 0 {
            return self.blocks[block][at - 1].id;
        }
        self.blocks[..block].iter().rev().find_map(|b| b.last()).map_or(0, |p| p.id)
    }

    fn from(&self, block: usize, at: usize) -> usize {
        let later = self.blocks[block + 1..].iter().find_map(|b| b.first());
        self.blocks[block].get(at).or(later).map_or(1, |p| p.id)
    }

    // Past the hidden pieces.
    fn past_hidden(&self, mut block: usize, mut at: usize) -> (usize, usize) {
        loop {
            match self.blocks[block].get(at) {
                Some(piece) if piece.shown => return (block, at),
                Some(_) => at += 1,
                None if block + 1 == self.blocks.len() => return (block, at),
                None => (block, at) = (block + 1, 0),
            }
        }
    }

    // Where a shown offset lies: between two pieces, one of which may be cut for it. The front takes the new locator.
    fn cut(&mut self, offset: usize) -> (usize, usize) {
        let mut rest = offset;
        let mut block = 0;
        while rest > self.lens[block] {
            rest -= self.lens[block];
            block += 1;
        }
        let mut at = 0;
        while rest > 0 {
            let piece = &self.blocks[block][at];
            if piece.shown && piece.len > rest {
                let id = self.between(self.before(block, at), self.blocks[block][at].id);
                self.blocks[block][at].len -= rest;
                self.blocks[block].insert(at, Piece { len: rest, shown: true, id });
                return (block, at + 1);
            }
            rest -= if piece.shown { piece.len } else { 0 };
            at += 1;
        }
        self.past_hidden(block, at)
    }

    fn insert(&mut self, offset: usize, len: usize) {
        let (block, at) = self.cut(offset);
        let id = self.between(self.before(block, at), self.from(block, at));
        self.blocks[block].insert(at, Piece { len, shown: true, id });
        self.lens[block] += len;
        if self.blocks[block].len() > 800 {
            let half = self.blocks[block].split_off(400);
            let shown = half.iter().filter(|p| p.shown).map(|p| p.len).sum();
            self.blocks.insert(block + 1, half);
            self.lens.insert(block + 1, shown);
            self.lens[block] -= shown;
        }
    }

    fn delete(&mut self, offset: usize, len: usize) {
        self.cut(offset + len);
        let (mut block, mut at) = self.cut(offset);
        let mut rest = len;
        while rest > 0 {
            if at == self.blocks[block].len() {
                (block, at) = (block + 1, 0);
                continue;
            }
            let piece = &mut self.blocks[block][at];
            if piece.shown {
                piece.shown = false;
                rest -= piece.len;
                self.lens[block] -= piece.len;
            }
            at += 1;
        }
    }
}

fn chance(seed: &mut u64, below: usize) -> usize {
    *seed = seed.wrapping_mul(6364136223846793005).wrapping_add(1442695040888963407);
    (*seed >> 33) as usize % below
}

// A trace has a line for each edit: offset, bytes deleted, text, with tabs between and \n, \t, \\ for LF, tab, backslash.
fn typed(trace: &str, count: usize, pairs: impl Write) {
    let mut text = Text::new(0, pairs);
    for line in trace.lines().take(count) {
        let mut parts = line.split('\t');
        let mut number = || parts.next().unwrap().parse().unwrap();
        let (offset, deleted): (usize, usize) = (number(), number());
        let mut escaped = false;
        let len = parts.next().unwrap().chars().filter(|c| {
            escaped = *c == '\\' && !escaped;
            !escaped
        }).count();
        if deleted > 0 {
            text.delete(offset, deleted);
        }
        if len > 0 {
            text.insert(offset, len);
        }
    }
}

fn random(count: usize, pairs: impl Write) {
    let (mut seed, mut len) = (12345, 1 << 20);
    let mut text = Text::new(len, pairs);
    for _ in 0..count {
        let offset = chance(&mut seed, len + 1);
        let more = 1 + chance(&mut seed, 8);
        text.insert(offset, more);
        len += more;
    }
}

// Again and again into one gap, whose ends move to the last one put.
fn gap(count: usize, mut low: usize, mut high: usize, moves_high: impl Fn(usize) -> bool, mut pairs: impl Write) {
    if low > 1 {
        writeln!(pairs, "0 1\n2 1").unwrap();
    }
    let first = if low > 1 { 4 } else { 2 };
    for turn in 0..count {
        writeln!(pairs, "{low} {high}").unwrap();
        *(if moves_high(turn) { &mut high } else { &mut low }) = first + turn;
    }
}

fn pairs(words: &[String]) {
    let count = words[1].parse().unwrap();
    let out = BufWriter::new(std::io::stdout());
    match words[0].as_str() {
        "typing" => typed(&std::fs::read_to_string(&words[2]).unwrap(), count, out),
        "random" => random(count, out),
        "front" => gap(count, 0, 1, |_| true, out),
        "before" => gap(count, 2, 3, |_| true, out),
        "after" => gap(count, 2, 3, |_| false, out),
        "turns" => gap(count, 0, 1, |turn| turn % 2 == 0, out),
        "twice" => gap(count, 0, 1, |turn| turn % 3 != 2, out),
        _ => panic!("no such pattern"),
    }
}

fn vec() {
    let mut text = String::new();
    std::io::stdin().read_to_string(&mut text).unwrap();
    let mut numbers = text.split_ascii_whitespace().map(|n| n.parse::<usize>().unwrap());
    let mut pairs = Vec::new();
    while let (Some(low), Some(high)) = (numbers.next(), numbers.next()) {
        pairs.push((low, high));
    }
    let mut all: Vec<Digits> = Vec::with_capacity(pairs.len() + 2);
    all.extend([vec![0], vec![u64::MAX]]);
    let start = Instant::now();
    for &(low, high) in &pairs {
        let digits = between(&all[low], &all[high]);
        all.push(digits);
    }
    println!("Between {} {}", all.len(), start.elapsed().as_micros());
    let start = Instant::now();
    let copies: Vec<Digits> = all.to_vec();
    println!("Copy {} {}", copies.len(), start.elapsed().as_micros());
    let start = Instant::now();
    let mut less = 0;
    for (digits, &(low, high)) in all[2..].iter().zip(&pairs) {
        less += usize::from(all[low] < *digits) + usize::from(*digits < all[high]);
    }
    println!("Compare {} {}", less, start.elapsed().as_micros());
}

fn main() {
    let words: Vec<String> = std::env::args().skip(1).collect();
    match words.first().map(String::as_str) {
        Some("pairs") => pairs(&words[1..]),
        _ => vec(),
    }
}
