// A snapshot behind an Arc, swapped under a Mutex: what the times of publishing are compared with.
// usage: publish BYTES TIMES
use std::env::args;
use std::hint::black_box;
use std::sync::{Arc, Mutex};
use std::thread;
use std::time::Instant;

// How often each of two threads works beside the other.
const BESIDE: u64 = 100_000;

struct Snapshot {
    text: String,
}

fn publishes(shown: &Mutex<Arc<Snapshot>>, snapshot: &Arc<Snapshot>, n: u64) -> u64 {
    for _ in 0..n {
        let next = Arc::clone(snapshot);
        let old = std::mem::replace(&mut *shown.lock().unwrap(), next);
        drop(black_box(old));
    }
    n
}

fn looks(shown: &Mutex<Arc<Snapshot>>, n: u64) -> u64 {
    let mut bytes = 0u64;
    for _ in 0..n {
        let snapshot = Arc::clone(&shown.lock().unwrap());
        bytes = bytes.wrapping_add(black_box(&snapshot).text.len() as u64);
    }
    bytes
}

fn tell(name: &str, start: Instant, answer: u64) {
    println!("{name} {answer} {}", start.elapsed().as_micros());
}

fn main() {
    let numbers: Vec<u64> = args().skip(1).map(|word| word.parse().unwrap()).collect();
    let (bytes, n) = (numbers[0], numbers[1]);
    let snapshot = Arc::new(Snapshot { text: "a".repeat(bytes as usize) });
    let shown = Mutex::new(Arc::clone(&snapshot));
    let start = Instant::now();
    let answer = publishes(&shown, &snapshot, n);
    tell("Publish", start, answer);
    let start = Instant::now();
    let answer = looks(&shown, n);
    tell("Latest", start, answer);
    let start = Instant::now();
    let answer = thread::scope(|scope| {
        let publisher = scope.spawn(|| publishes(&shown, &snapshot, BESIDE));
        let bytes = looks(&shown, BESIDE);
        bytes.wrapping_add(publisher.join().unwrap())
    });
    tell("Both", start, answer);
}
