//! Spans of folds in plain Rust, the same as `tree_bench folds` of `crates/tree_bench` works on: usage `folds COUNT`.
mod span_tree;

use span_tree::{Run, Span, Spans, spans_of, step, sum_of, timed};

// The length of the text, in bytes.
const LEN: u64 = 1 << 26;

// Ranges of up to 255 bytes of a run, drawn by chance from x on.
fn draw(run: Run, n: u64, mut x: u64) -> Vec<(u64, u64, u64)> {
    let mut ranges = Vec::new();
    for _ in 0..n {
        x = step(x);
        let start = run.start + (x >> 20) % (run.end - run.start).max(1);
        ranges.push((start, (start + (x >> 8) % 256).min(run.end), x));
    }
    ranges
}

fn change(spans: &mut Spans<u64>, run: Run, n: u64, x: u64) {
    let made = spans_of(draw(run, n, x), run.start, run.end, |_, range| range.2);
    spans.splice(run.from, run.to - run.from, made);
}

fn main() {
    let words: Vec<String> = std::env::args().collect();
    let n: u64 = words[1].parse().expect("a count");
    let mut spans = Spans::of(vec![Span::Open(LEN)]);
    timed("Folds", || {
        let run = spans.touching(0, LEN);
        change(&mut spans, run, n, 1);
        spans.root.sum.spans
    });
    let (len, shown) = (spans.root.sum.text, spans.root.sum.shown);
    timed("AtText", || sum_of(n, |x| spans.look_up(|place| (x >> 20) % len < place.text).1.spans));
    timed("AtShown", || sum_of(n, |x| spans.look_up(|place| (x >> 20) % shown < place.shown).1.spans));
    timed("TouchReplace", || {
        sum_of(n, |x| {
            let at = (x >> 20) % LEN;
            let run = spans.touching(at, at);
            change(&mut spans, run, x >> 63, x);
            0
        });
        spans.root.sum.shown
    });
}
