//! Fold maps in plain Rust, the same as `bench folds` of `crates/bench` works on: usage `fold_maps BYTES COUNT`. Each span keeps its folds' ranges from
//! its own start on, so that an edit changes the spans that it touches alone. There are no anchors, and no undo brings a fold back; edits are lengths.
mod span_tree;

use span_tree::{Range, Run, Spans, Span, spans_of, step, sum_of, timed};

const ELLIPSIS: u64 = 3;
const EDITS: u64 = 1_000;

struct Map {
    spans: Spans<Range>,
    next: u64,
}

// Bytes of the text, and how many stand in their place.
#[derive(Clone, Copy)]
struct Edit {
    start: u64,
    end: u64,
    len: u64,
}

impl Edit {
    // Both ends of a fold go along with the byte outside.
    fn start_after(&self, place: u64) -> u64 {
        if place < self.start { place } else { place.max(self.end) - self.end + self.start + self.len }
    }
    fn end_after(&self, place: u64) -> u64 {
        if place <= self.start { place } else { place.max(self.end) - self.end + self.start + self.len }
    }
}

impl Map {
    fn new(len: u64) -> Map {
        Map { spans: Spans::of(vec![Span::Open(len)]), next: 0 }
    }
    fn len(&self) -> u64 {
        self.spans.root.sum.text
    }
    fn shown(&self) -> u64 {
        self.spans.root.sum.shown
    }
    fn ranges_in(&self, run: Run) -> Vec<Range> {
        let mut ranges = Vec::new();
        for index in run.from..run.to {
            if let (Some(span), before) = self.spans.look_up(|place| index < place.spans) {
                let here = |fold: &Range| (before.text + fold.0, before.text + fold.1, fold.2);
                ranges.extend(span.folds().iter().map(here));
            }
        }
        ranges
    }
    fn make_again(&mut self, run: Run, ranges: Vec<Range>, end: u64) {
        let made = spans_of(ranges, run.start, end, |at, range| (range.0 - at, range.1 - at, range.2));
        self.spans.splice(run.from, run.to - run.from, made);
    }
    fn fold(&mut self, start: u64, end: u64) -> bool {
        if start == end {
            return false;
        }
        let run = self.spans.touching(start, end);
        let mut ranges = self.ranges_in(run);
        ranges.push((start, end, self.next));
        self.next += 1;
        self.make_again(run, ranges, run.end);
        true
    }
    fn unfold(&mut self, start: u64, end: u64) -> u64 {
        if start == end {
            return 0;
        }
        let near = self.spans.touching(start, end);
        let run = self.spans.touching(near.start, near.end);
        let mut ranges = self.ranges_in(run);
        let count = ranges.len();
        ranges.retain(|range| range.0.max(start) >= range.1.min(end));
        let gone = count - ranges.len();
        self.make_again(run, ranges, run.end);
        gone as u64
    }
    fn follow(&mut self, edit: Edit) {
        let run = self.spans.touching(edit.start, edit.end);
        let moved = |range: Range| (edit.start_after(range.0), edit.end_after(range.1), range.2);
        let ranges = self.ranges_in(run).into_iter().map(moved).collect();
        self.make_again(run, ranges, run.end - edit.end + edit.start + edit.len);
    }
    fn to_shown(&self, place: u64) -> u64 {
        match self.spans.look_up(|at| place < at.text) {
            (Some(Span::Open(_)), before) => before.shown + place - before.text,
            (_, before) => before.shown,
        }
    }
    fn to_text(&self, place: u64) -> u64 {
        match self.spans.look_up(|at| place < at.shown) {
            (Some(Span::Open(_)), before) => before.text + place - before.shown,
            (_, before) => before.text,
        }
    }
    fn text(&self, text: &str) -> String {
        let mut shown = String::new();
        let (mut from, mut at) = (0, 0);
        for index in 0..self.spans.root.sum.spans {
            if let (Some(span), _) = self.spans.look_up(|place| index < place.spans) {
                let len = span_tree::Sum::of(span).text;
                if let Span::Fold(..) = span {
                    shown.push_str(&text[from..at]);
                    shown.push('⋯');
                    from = at + len as usize;
                }
                at += len as usize;
            }
        }
        shown.push_str(&text[from..at]);
        shown
    }
}

fn range(x: u64, len: u64) -> (u64, u64) {
    let start = (x >> 20) % len;
    (start, (start + (x >> 50) % 64).min(len))
}

fn edit(x: u64, len: u64) -> Edit {
    let start = (x >> 20) % len;
    Edit { start, end: (start + (x >> 50) % 3).min(len), len: [1, 2, 3, 4, 5, 6, 7, 8][(x >> 56) as usize % 8] }
}

fn follow_all(map: &mut Map, mut x: u64) -> u64 {
    for _ in 0..EDITS {
        x = step(x);
        let edit = edit(x, map.len());
        map.follow(edit);
    }
    map.shown()
}

fn main() {
    assert_eq!(ELLIPSIS as usize, "⋯".len());
    let words: Vec<String> = std::env::args().collect();
    let len: u64 = words[1].parse().expect("bytes");
    let n: u64 = words[2].parse().expect("a count");
    let text = "a".repeat(len as usize);
    let mut map = Map::new(len);
    timed("Fold", || {
        let (mut x, mut folded) = (1, 0);
        for _ in 0..n {
            x = step(x);
            let (start, end) = range(x, len);
            folded += map.fold(start, end) as u64;
        }
        folded
    });
    let shown = map.shown();
    timed("ToShown", || sum_of(n, |x| map.to_shown((x >> 20) % len)));
    timed("ToText", || sum_of(n, |x| map.to_text((x >> 20) % shown)));
    timed("Text", || map.text(&text).len() as u64);
    timed("Copy", || text.clone().len() as u64);
    timed("SyncScattered", || follow_all(&mut map, 5));
    timed("EditsSynced", || follow_all(&mut map, 7));
    timed("Unfold", || {
        let (mut x, mut unfolded) = (3, 0);
        for _ in 0..n / 2 {
            x = step(x);
            let (start, end) = range(x, len);
            unfolded += map.unfold(start, end);
        }
        unfolded
    });
}
