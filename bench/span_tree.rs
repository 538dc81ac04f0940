//! A tree of spans of folds in plain Rust: an `Arc` B-tree whose nodes hold 6 to 12 entries and the sum of what lies below them, an entry being a span
//! with its sum behind an `Arc`, as in the proved tree. Nodes that nobody shares are changed in place, and failed allocations are not reported.
use std::sync::Arc;
use std::time::Instant;

const MOST: usize = 12;

// The length of a ⋯, in bytes.
const ELLIPSIS: u64 = 3;

// Spans keep something of each of their folds.
pub enum Span<F> {
    Open(u64),
    Fold(u64, Vec<F>),
    Waiting(Vec<F>),
}

#[allow(dead_code)]
impl<F> Span<F> {
    pub fn folds(&self) -> &[F] {
        match self {
            Span::Open(_) => &[],
            Span::Fold(_, folds) | Span::Waiting(folds) => folds,
        }
    }
}

#[derive(Clone, Copy, Default)]
pub struct Sum {
    pub spans: u64,
    pub text: u64,
    pub shown: u64,
}

impl Sum {
    pub fn of<F>(span: &Span<F>) -> Sum {
        let (text, shown) = match span {
            Span::Open(len) => (*len, *len),
            Span::Fold(len, _) => (*len, ELLIPSIS),
            Span::Waiting(_) => (0, 0),
        };
        Sum { spans: 1, text, shown }
    }
    fn plus(self, other: Sum) -> Sum {
        Sum { spans: self.spans + other.spans, text: self.text + other.text, shown: self.shown + other.shown }
    }
}

type Entry<F> = Arc<(Span<F>, Sum)>;

fn entry<F>(span: Span<F>) -> Entry<F> {
    let sum = Sum::of(&span);
    Arc::new((span, sum))
}

enum Content<F> {
    Leaf(Vec<Entry<F>>),
    Inner(Vec<Arc<Node<F>>>),
}

impl<F> Clone for Content<F> {
    fn clone(&self) -> Self {
        match self {
            Content::Leaf(entries) => Content::Leaf(entries.clone()),
            Content::Inner(children) => Content::Inner(children.clone()),
        }
    }
}

pub struct Node<F> {
    pub sum: Sum,
    content: Content<F>,
}

impl<F> Clone for Node<F> {
    fn clone(&self) -> Self {
        Node { sum: self.sum, content: self.content.clone() }
    }
}

fn node<F>(content: Content<F>) -> Arc<Node<F>> {
    let mut node = Node { sum: Sum::default(), content };
    node.renew();
    Arc::new(node)
}

impl<F> Node<F> {
    fn renew(&mut self) {
        self.sum = match &self.content {
            Content::Leaf(entries) => entries.iter().fold(Sum::default(), |sum, entry| sum.plus(entry.1)),
            Content::Inner(children) => children.iter().fold(Sum::default(), |sum, child| sum.plus(child.sum)),
        };
    }
    fn width(&self) -> usize {
        match &self.content {
            Content::Leaf(entries) => entries.len(),
            Content::Inner(children) => children.len(),
        }
    }
    // Splits off the upper half where there are too many entries.
    fn split(&mut self) -> Option<Arc<Node<F>>> {
        if self.width() <= MOST {
            self.renew();
            return None;
        }
        let half = self.width() / 2;
        let back = match &mut self.content {
            Content::Leaf(entries) => Content::Leaf(entries.split_off(half)),
            Content::Inner(children) => Content::Inner(children.split_off(half)),
        };
        self.renew();
        Some(node(back))
    }
    // Whether the `count` spans from `at` on lie in one leaf.
    fn in_one_leaf(&self, at: u64, count: u64) -> bool {
        match &self.content {
            Content::Leaf(entries) => at + count <= entries.len() as u64,
            Content::Inner(children) => {
                let (k, rest) = child_at(children, at);
                children[k].in_one_leaf(rest, count)
            }
        }
    }
    // Puts spans in the place of `count` from `at` on, which lie in one leaf.
    fn splice(&mut self, at: u64, count: u64, spans: Vec<Span<F>>) -> Option<Arc<Node<F>>> {
        match &mut self.content {
            Content::Leaf(entries) => {
                entries.splice(at as usize..(at + count) as usize, spans.into_iter().map(entry));
            }
            Content::Inner(children) => {
                let (k, rest) = child_at(children, at);
                if let Some(back) = Arc::make_mut(&mut children[k]).splice(rest, count, spans) {
                    children.insert(k + 1, back);
                } else if children[k].width() < MOST / 2 {
                    join(children, if k > 0 { k - 1 } else { 0 });
                }
            }
        }
        self.split()
    }
}

// The child that holds a span, and the span's index there; at the end of all the last child.
fn child_at<F>(children: &[Arc<Node<F>>], mut at: u64) -> (usize, u64) {
    let mut k = 0;
    while at >= children[k].sum.spans && k + 1 < children.len() {
        at -= children[k].sum.spans;
        k += 1;
    }
    (k, at)
}

fn join<F>(children: &mut Vec<Arc<Node<F>>>, k: usize) {
    let back = children.remove(k + 1);
    let front = Arc::make_mut(&mut children[k]);
    match (&mut front.content, &back.content) {
        (Content::Leaf(front), Content::Leaf(back)) => front.extend_from_slice(back),
        (Content::Inner(front), Content::Inner(back)) => front.extend_from_slice(back),
        _ => unreachable!(),
    }
    if let Some(back) = front.split() {
        children.insert(k + 1, back);
    }
}

// A level of nodes, each with as many parts as the sizes allow, and all about as full.
fn level<P, F>(parts: Vec<P>, content: impl Fn(Vec<P>) -> Content<F>) -> Vec<Arc<Node<F>>> {
    let count = parts.len().div_ceil(MOST).max(1);
    let (least, more) = (parts.len() / count, parts.len() % count);
    let mut parts = parts.into_iter();
    (0..count)
        .map(|k| node(content(parts.by_ref().take(least + (k < more) as usize).collect())))
        .collect()
}

// A run of spans, the indexes `from..to`, and the bytes `start..end` of the text.
#[derive(Clone, Copy)]
pub struct Run {
    pub from: u64,
    pub to: u64,
    pub start: u64,
    pub end: u64,
}

pub struct Spans<F> {
    pub root: Arc<Node<F>>,
}

impl<F> Spans<F> {
    pub fn of(spans: Vec<Span<F>>) -> Spans<F> {
        let mut nodes = level(spans.into_iter().map(entry).collect(), Content::Leaf);
        while nodes.len() > 1 {
            nodes = level(nodes, Content::Inner);
        }
        Spans { root: nodes.remove(0) }
    }
    // The first span after which a place is past what is looked for, and what lies before it.
    pub fn look_up(&self, is_past: impl Fn(Sum) -> bool) -> (Option<&Span<F>>, Sum) {
        let mut before = Sum::default();
        let mut node = &self.root;
        'down: loop {
            match &node.content {
                Content::Leaf(entries) => {
                    for entry in entries {
                        let after = before.plus(entry.1);
                        if is_past(after) {
                            return (Some(&entry.0), before);
                        }
                        before = after;
                    }
                }
                Content::Inner(children) => {
                    for child in children {
                        let after = before.plus(child.sum);
                        if is_past(after) {
                            node = child;
                            continue 'down;
                        }
                        before = after;
                    }
                }
            }
            return (None, before);
        }
    }
    pub fn touching(&self, start: u64, end: u64) -> Run {
        let (_, first) = self.look_up(|place| start <= place.text);
        let (last, before) = self.look_up(|place| end < place.text);
        let (spans, len) = last.map_or((0, 0), |span| (1, Sum::of(span).text));
        Run { from: first.spans, to: before.spans + spans, start: first.text, end: before.text + len }
    }
    // Where the spans replaced do not lie in one leaf, all but the first are taken out one by one before.
    pub fn splice(&mut self, at: u64, mut count: u64, spans: Vec<Span<F>>) {
        if count == self.root.sum.spans {
            *self = Spans::of(spans);
            return;
        }
        while count > 1 && !self.root.in_one_leaf(at, count) {
            count -= 1;
            self.splice(at + count, 1, Vec::new());
        }
        if let Some(back) = Arc::make_mut(&mut self.root).splice(at, count, spans) {
            self.root = node(Content::Inner(vec![self.root.clone(), back]));
        }
        if let Content::Inner(children) = &self.root.content {
            if children.len() == 1 {
                self.root = children[0].clone();
            }
        }
    }
}

// The ranges of one span under way.
struct Under<F> {
    start: u64,
    end: u64,
    folds: Vec<F>,
}

fn close<F>(spans: &mut Vec<Span<F>>, under: Under<F>) {
    spans.push(if under.start < under.end {
        Span::Fold(under.end - under.start, under.folds)
    } else {
        Span::Waiting(under.folds)
    });
}

// A fold's range, and its number.
pub type Range = (u64, u64, u64);

// The spans of the bytes `start..end`, of which these ranges are folded. `kept` is what a span that begins at a place keeps of a fold.
pub fn spans_of<F>(mut ranges: Vec<Range>, start: u64, end: u64, kept: impl Fn(u64, Range) -> F) -> Vec<Span<F>> {
    ranges.sort_unstable();
    let mut spans = Vec::new();
    let mut at = start;
    let mut under: Option<Under<F>> = None;
    for range in ranges {
        let (from, to, _) = range;
        if let Some(run) = &mut under {
            if if run.start < run.end { from < run.end } else { to == run.end } {
                run.folds.push(kept(run.start, range));
                run.end = run.end.max(to);
                continue;
            }
        }
        if let Some(run) = under.take() {
            at = run.end;
            close(&mut spans, run);
        }
        if at < from {
            spans.push(Span::Open(from - at));
        }
        under = Some(Under { start: from, end: to, folds: vec![kept(from, range)] });
    }
    if let Some(run) = under {
        at = run.end;
        close(&mut spans, run);
    }
    if at < end {
        spans.push(Span::Open(end - at));
    }
    spans
}

pub fn step(x: u64) -> u64 {
    x.wrapping_mul(6364136223846793005).wrapping_add(1442695040888963407)
}

// The sum of what is answered to n numbers that look as if drawn by chance.
pub fn sum_of(n: u64, mut answer: impl FnMut(u64) -> u64) -> u64 {
    let (mut sum, mut x) = (0u64, 1);
    for _ in 0..n {
        x = step(x);
        sum = sum.wrapping_add(answer(x));
    }
    sum
}

// Does a work and writes what came of it and the microseconds that it took.
pub fn timed(name: &str, work: impl FnOnce() -> u64) {
    let start = Instant::now();
    let answer = work();
    println!("{name} {answer} {}", start.elapsed().as_micros());
}
