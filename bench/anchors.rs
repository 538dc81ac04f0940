// Anchors among fragments, found by looking at one fragment after the other.
// usage: anchors FRAGMENTS
//
// The fragments and the anchors are those of `bench anchors FRAGMENTS`.
use std::env::args;
use std::time::Instant;

const ANCHORS: u64 = 10_000;

// How often each is asked for.
const ROUNDS: u32 = 10;
const FEW: usize = 100;
const FEW_ROUNDS: u32 = 1_000;

// `len` bytes of an edit's text, from byte `offset` on.
#[derive(Clone, Copy)]
struct Fragment {
    edit: u64,
    offset: u64,
    len: u64,
}

#[derive(Clone, Copy, PartialEq, Eq, PartialOrd, Ord)]
enum Bias {
    Left,
    Right,
}

#[derive(Clone, Copy)]
enum Anchor {
    Least,
    At { edit: u64, byte: u64, bias: Bias },
}

fn step(x: u64) -> u64 {
    x.wrapping_mul(6364136223846793005).wrapping_add(1442695040888963407)
}

// The index of the fragment of a byte of the text, and how many of its bytes stand before it.
fn found(fragments: &[Fragment], byte: u64) -> (usize, u64) {
    let mut left = byte;
    for (at, fragment) in fragments.iter().enumerate() {
        if left < fragment.len {
            return (at, left);
        }
        left -= fragment.len;
    }
    (fragments.len(), 0)
}

fn put(fragments: &mut Vec<Fragment>, place: u64, edit: u64) {
    let (at, before) = found(fragments, place);
    let new = Fragment { edit, offset: 0, len: 1 };
    if before == 0 {
        fragments.insert(at, new);
        return;
    }
    let whole = fragments[at];
    let back = Fragment { edit: whole.edit, offset: whole.offset + before, len: whole.len - before };
    fragments[at].len = before;
    fragments.splice(at + 1..at + 1, [new, back]);
}

fn anchor(fragments: &[Fragment], place: u64, bias: Bias) -> Anchor {
    if place == 0 && bias == Bias::Left {
        return Anchor::Least;
    }
    let byte = if bias == Bias::Left { place - 1 } else { place };
    let (at, before) = found(fragments, byte);
    Anchor::At { edit: fragments[at].edit, byte: fragments[at].offset + before, bias }
}

fn place(fragments: &[Fragment], anchor: &Anchor) -> (u64, Bias) {
    let &Anchor::At { edit, byte, bias } = anchor else {
        return (0, Bias::Left);
    };
    let mut sum = 0;
    for fragment in fragments {
        if fragment.edit == edit && byte >= fragment.offset && byte - fragment.offset < fragment.len {
            return (sum + (byte - fragment.offset) + (bias == Bias::Left) as u64, bias);
        }
        sum += fragment.len;
    }
    unreachable!("each anchor was made here")
}

fn tell(name: &str, start: Instant, answer: u64) {
    println!("{name} {answer} {}", start.elapsed().as_micros());
}

fn resolved(fragments: &[Fragment], anchors: &[Anchor], rounds: u32) -> u64 {
    (0..rounds).flat_map(|_| anchors).map(|anchor| place(fragments, anchor).0).sum()
}

fn compared(fragments: &[Fragment], anchors: &[Anchor], rounds: u32) -> u64 {
    let is_before = |pair: &[Anchor]| place(fragments, &pair[0]) < place(fragments, &pair[1]);
    (0..rounds).map(|_| anchors.windows(2).filter(|pair| is_before(pair)).count() as u64).sum()
}

fn bias(number: u64) -> Bias {
    if number % 2 == 0 { Bias::Left } else { Bias::Right }
}

fn main() {
    let count: u64 = args().nth(1).unwrap().parse().unwrap();
    let mut len = count * 8;
    let mut fragments = vec![Fragment { edit: 0, offset: 0, len }];
    let mut x = 1;
    for number in 0..count / 2 {
        x = step(x);
        put(&mut fragments, (x >> 20) % len, number + 1);
        len += 1;
    }
    eprintln!("{} fragments", fragments.len());
    let start = Instant::now();
    let mut x = 1;
    let drawn: Vec<Anchor> = (0..ANCHORS)
        .map(|_| {
            x = step(x);
            anchor(&fragments, (x >> 20) % len, bias(x >> 10))
        })
        .collect();
    tell("Anchors", start, drawn.len() as u64);
    let start = Instant::now();
    let answer = resolved(&fragments, &drawn, ROUNDS);
    tell("Resolve", start, answer);
    let start = Instant::now();
    let answer = compared(&fragments, &drawn, ROUNDS);
    tell("Compare", start, answer);
    let few = &drawn[..FEW];
    let start = Instant::now();
    let answer = resolved(&fragments, few, FEW_ROUNDS);
    tell("ResolveFew", start, answer);
    let start = Instant::now();
    let answer = compared(&fragments, few, FEW_ROUNDS);
    tell("CompareFew", start, answer);
    let row: Vec<Anchor> = (0..ANCHORS).map(|number| anchor(&fragments, number * len / ANCHORS, bias(number))).collect();
    let start = Instant::now();
    let answer = resolved(&fragments, &row, ROUNDS);
    tell("ResolveRow", start, answer);
}
