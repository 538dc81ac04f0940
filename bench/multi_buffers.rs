//! Excerpts of several buffers in plain Rust, the same as `crates/excerpt_bench` works on: usage `multi_buffers BYTES COUNT`. Texts are strings, excerpts
//! have offsets that an edit moves, each buffer has a list of its excerpts, and a Fenwick tree has the widths of all. There are no anchors and no undo.
use std::time::Instant;

const BUFFERS: usize = 10;
const EDITS: u64 = 1_000;
const TIMES: u64 = 10;
const WHOLES: usize = 64;

struct Excerpt {
    buffer: usize,
    start: usize,
    end: usize,
}

// Sums of the widths of excerpts: each has the LF after it.
#[derive(Default)]
struct Widths {
    sums: Vec<usize>,
}

impl Widths {
    fn before(&self, mut count: usize) -> usize {
        let mut sum = 0;
        while count > 0 {
            sum += self.sums[count - 1];
            count &= count - 1;
        }
        sum
    }
    fn push(&mut self, width: usize) {
        let n = self.sums.len();
        let low = (n + 1) & (n + 1).wrapping_neg();
        let sum = width + self.before(n) - self.before(n + 1 - low);
        self.sums.push(sum);
    }
    fn add(&mut self, index: usize, more: usize) {
        let mut at = index + 1;
        while at <= self.sums.len() {
            self.sums[at - 1] += more;
            at += at & at.wrapping_neg();
        }
    }
    // The excerpt whose width reaches past an offset, and what lies before it.
    fn find(&self, offset: usize) -> (usize, usize) {
        let (mut index, mut before) = (0, 0);
        let mut bit = self.sums.len().next_power_of_two();
        while bit > 0 {
            if index + bit <= self.sums.len() && before + self.sums[index + bit - 1] <= offset {
                index += bit;
                before += self.sums[index - 1];
            }
            bit /= 2;
        }
        (index, before)
    }
}

#[derive(Default)]
struct Multi {
    texts: Vec<String>,
    excerpts: Vec<Excerpt>,
    members: Vec<Vec<usize>>,
    widths: Widths,
}

impl Multi {
    fn new(text: &str) -> Multi {
        Multi { texts: vec![text.to_string(); BUFFERS], members: vec![Vec::new(); BUFFERS], ..Multi::default() }
    }
    fn len(&self) -> usize {
        self.widths.before(self.excerpts.len()).max(1) - 1
    }
    fn push(&mut self, buffer: usize, start: usize, end: usize) -> bool {
        let text = &self.texts[buffer];
        if end < start || !text.is_char_boundary(start) || !text.is_char_boundary(end) {
            return false;
        }
        self.members[buffer].push(self.excerpts.len());
        self.excerpts.push(Excerpt { buffer, start, end });
        self.widths.push(end - start + 1);
        true
    }
    // Text comes into a buffer; at an end of an excerpt it is in it.
    fn sync(&mut self, buffer: usize, offset: usize, len: usize) {
        for &index in &self.members[buffer] {
            let excerpt = &mut self.excerpts[index];
            let size = excerpt.end - excerpt.start;
            if offset < excerpt.start {
                excerpt.start += len;
            }
            if offset <= excerpt.end {
                excerpt.end += len;
            }
            let more = excerpt.end - excerpt.start - size;
            if more > 0 {
                self.widths.add(index, more);
            }
        }
    }
    fn to_source(&self, offset: usize) -> Option<(usize, usize, usize)> {
        let (index, before) = self.widths.find(offset);
        let excerpt = self.excerpts.get(index)?;
        let place = excerpt.start + offset - before;
        self.texts[excerpt.buffer].is_char_boundary(place).then_some((index, excerpt.buffer, place))
    }
    fn to_multi(&self, index: usize, offset: usize) -> Option<usize> {
        let excerpt = self.excerpts.get(index)?;
        let within = excerpt.start <= offset && offset <= excerpt.end;
        (within && self.texts[excerpt.buffer].is_char_boundary(offset)).then(|| self.widths.before(index) + offset - excerpt.start)
    }
    // Carets as places of their buffers, where no other excerpt shares them.
    fn split(&self, carets: &[usize]) -> Option<Vec<Vec<(usize, String)>>> {
        let mut groups = vec![Vec::new(); BUFFERS];
        for &caret in carets {
            let (index, buffer, place) = self.to_source(caret)?;
            let meets = |&other: &usize| other != index && self.excerpts[other].start <= place && place <= self.excerpts[other].end;
            if self.members[buffer].iter().any(meets) {
                return None;
            }
            groups[buffer].push((place, "x".to_string()));
        }
        groups.iter_mut().for_each(|group: &mut Vec<(usize, String)>| group.sort_by_key(|piece| piece.0));
        groups.retain(|group| !group.is_empty());
        Some(groups)
    }
    fn text(&self) -> String {
        let mut shown = String::with_capacity(self.len());
        for (index, excerpt) in self.excerpts.iter().enumerate() {
            if index > 0 {
                shown.push('\n');
            }
            shown.push_str(&self.texts[excerpt.buffer][excerpt.start..excerpt.end]);
        }
        shown
    }
}

fn step(x: u64) -> u64 {
    x.wrapping_mul(6364136223846793005).wrapping_add(1442695040888963407)
}

fn sum_of(n: u64, answer: impl Fn(u64) -> u64) -> u64 {
    let (mut sum, mut x) = (0u64, 1u64);
    for _ in 0..n {
        x = step(x);
        sum = sum.wrapping_add(answer(x >> 20));
    }
    sum
}

fn short_text(x: u64) -> &'static str {
    ["a", "bc", "d\ne", "fghi", "jklmn", "opqrst", "uvw\nxyz", "abcdefgh"][(x % 8) as usize]
}

fn long_text(bytes: usize) -> String {
    let (mut text, mut x) = (String::new(), 1u64);
    for _ in 0..bytes {
        x = step(x);
        let letter = (b'a' + ((x >> 40) % 26) as u8) as char;
        text.push(if (x >> 20) % 60 == 0 { '\n' } else { letter });
    }
    text
}

fn insertion(x: u64, len: usize) -> (usize, &'static str) {
    (((x >> 20) % len as u64) as usize, short_text(x >> 56))
}

fn push_all(multi: &mut Multi, count: usize, stride: usize, len: usize) -> u64 {
    (0..count).filter(|i| multi.push(i % BUFFERS, i / BUFFERS * stride, i / BUFFERS * stride + len)).count() as u64
}

fn timed(name: &str, work: impl FnOnce() -> u64) {
    let start = Instant::now();
    let answer = work();
    println!("{name} {answer} {}", start.elapsed().as_micros());
}

fn edits(len: usize, mut edit: impl FnMut(usize, usize, &str)) -> u64 {
    let mut x = 1u64;
    for i in 0..EDITS {
        x = step(x);
        let (offset, new) = insertion(x, len);
        edit(i as usize % BUFFERS, offset, new);
    }
    EDITS
}

fn main() {
    let words: Vec<usize> = std::env::args().skip(1).map(|word| word.parse().unwrap()).collect();
    let (text, count) = (long_text(words[0]), words[1]);
    let stride = text.len() / (count / BUFFERS).max(1);
    let width = stride / 2;
    let mut multi = Multi::new(&text);
    timed("Push", || push_all(&mut multi, count, stride, width));
    let (n, len) = (count as u64 * 100, multi.len() as u64);
    timed("ToSource", || sum_of(n, |x| multi.to_source((x % len) as usize).map_or(0, |place| place.2 as u64)));
    timed("ToMulti", || {
        sum_of(n, |x| {
            let excerpt = (x % n) as usize % count;
            let offset = excerpt / BUFFERS * stride + ((x >> 30) % width as u64) as usize;
            multi.to_multi(excerpt, offset).unwrap_or(0) as u64
        })
    });
    let carets: Vec<usize> = (0..count).map(|i| i * (width + 1) + 1).collect();
    timed("Split", || (0..TIMES).map(|_| multi.split(&carets).map_or(0, |groups| groups.len() as u64)).sum());
    let mut texts = multi.texts.clone();
    timed("Edits", || edits(text.len(), |buffer, offset, new| texts[buffer].insert_str(offset, new)));
    timed("EditsSynced", || {
        edits(text.len(), |buffer, offset, new| {
            multi.texts[buffer].insert_str(offset, new);
            multi.sync(buffer, offset, new.len());
        })
    });
    println!("Len {} 0", multi.len());
    let mut whole = Multi::new(&text);
    push_all(&mut whole, WHOLES, 0, text.len());
    let start = Instant::now();
    let shown = whole.text();
    println!("Text {} {}", shown.len(), start.elapsed().as_micros());
    timed("Copy", || shown.clone().len() as u64);
    let (mut few, mut many) = (Multi::new(&text), Multi::new(&text));
    timed("PushFew", || push_all(&mut few, count, 1, 8));
    timed("PushMany", || push_all(&mut many, count * 100, 1, 8));
}
