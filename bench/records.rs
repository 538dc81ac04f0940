//! Records of operations in plain Rust, for `bench/records.sh`.
//!
//! `records make KIND COUNT` writes a stream of COUNT records. KIND is `small` (insertions of a letter, 42 bytes), `texts` (insertions of 4,096
//! letters), `pieces`, `entries` or `counts` (records of 65,536 of them). `records read BYTES` reads a stream from the standard input in feeds of
//! BYTES bytes, as `wire_bench times` of `crates/wire_bench` does. What has come of an unfinished record is read again from its front at each feed, and
//! failed allocations are not reported.
use std::io::{Read, Write};
use std::time::Instant;

const LIMIT: u32 = 65_536;

#[derive(Clone, Copy, PartialEq)]
struct Stamp {
    value: u32,
    replica: u16,
}

#[derive(Clone)]
struct Piece {
    start: u64,
    end: u64,
    text: String,
}

#[derive(Clone)]
enum Parts {
    Pieces(Vec<Piece>),
    Counts(Vec<(Stamp, u32)>),
}

#[derive(Clone)]
struct Operation {
    stamp: Stamp,
    version: Vec<(u16, u32)>,
    parts: Parts,
}

enum Stop {
    Short,
    Bad,
}

// ---- reading

struct Bytes<'a>(&'a [u8]);

impl<'a> Bytes<'a> {
    fn take(&mut self, len: usize) -> Result<&'a [u8], Stop> {
        if self.0.len() < len {
            return Err(Stop::Short);
        }
        let (front, rest) = self.0.split_at(len);
        self.0 = rest;
        Ok(front)
    }
    fn u16(&mut self) -> Result<u16, Stop> {
        Ok(u16::from_be_bytes(self.take(2)?.try_into().unwrap()))
    }
    fn u32(&mut self) -> Result<u32, Stop> {
        Ok(u32::from_be_bytes(self.take(4)?.try_into().unwrap()))
    }
    fn u64(&mut self) -> Result<u64, Stop> {
        Ok(u64::from_be_bytes(self.take(8)?.try_into().unwrap()))
    }
    fn amount(&mut self) -> Result<u32, Stop> {
        let amount = self.u32()?;
        if amount > LIMIT { Err(Stop::Bad) } else { Ok(amount) }
    }
    fn stamp(&mut self) -> Result<Stamp, Stop> {
        Ok(Stamp { value: self.u32()?, replica: self.u16()? })
    }
    fn version(&mut self) -> Result<Vec<(u16, u32)>, Stop> {
        let mut entries = Vec::new();
        let mut least = 0;
        for _ in 0..self.amount()? {
            let (replica, value) = (self.u16()?, self.u32()?);
            if u32::from(replica) < least || value == 0 {
                return Err(Stop::Bad);
            }
            least = u32::from(replica) + 1;
            entries.push((replica, value));
        }
        Ok(entries)
    }
    fn pieces(&mut self) -> Result<Vec<Piece>, Stop> {
        let mut pieces = Vec::new();
        let mut so_far = 0;
        for _ in 0..self.amount()? {
            let (start, end, len) = (self.u64()?, self.u64()?, self.u32()?);
            if len > LIMIT - so_far {
                return Err(Stop::Bad);
            }
            so_far += len;
            let text = std::str::from_utf8(self.take(len as usize)?).map_err(|_| Stop::Bad)?;
            pieces.push(Piece { start, end, text: text.to_owned() });
        }
        Ok(pieces)
    }
    fn counts(&mut self) -> Result<Vec<(Stamp, u32)>, Stop> {
        let mut counts = Vec::new();
        for _ in 0..self.amount()? {
            counts.push((self.stamp()?, self.u32()?));
        }
        Ok(counts)
    }
    fn operation(&mut self) -> Result<Operation, Stop> {
        let kind = self.take(1)?[0];
        if kind != 1 && kind != 2 {
            return Err(Stop::Bad);
        }
        let (stamp, version) = (self.stamp()?, self.version()?);
        let parts = if kind == 1 { Parts::Pieces(self.pieces()?) } else { Parts::Counts(self.counts()?) };
        Ok(Operation { stamp, version, parts })
    }
}

#[derive(Default)]
struct Reader {
    rest: Vec<u8>,
}

impl Reader {
    // Whether the piece has no faulty field.
    #[inline(never)]
    fn feed(&mut self, piece: &[u8], ops: &mut Vec<Operation>) -> bool {
        self.rest.extend_from_slice(piece);
        let mut rest = Bytes(&self.rest);
        loop {
            let mut ahead = Bytes(rest.0);
            match ahead.operation() {
                Ok(op) => ops.push(op),
                Err(Stop::Short) => break,
                Err(Stop::Bad) => return false,
            }
            rest = ahead;
        }
        let read = self.rest.len() - rest.0.len();
        self.rest.drain(..read);
        true
    }
}

fn read(stream: &[u8], size: usize) -> Vec<Operation> {
    let (mut reader, mut ops) = (Reader::default(), Vec::new());
    for piece in stream.chunks(size) {
        if !reader.feed(piece, &mut ops) {
            break;
        }
    }
    ops
}

// ---- writing

fn put_stamp(out: &mut Vec<u8>, stamp: Stamp) {
    out.extend_from_slice(&stamp.value.to_be_bytes());
    out.extend_from_slice(&stamp.replica.to_be_bytes());
}

fn len(op: &Operation) -> usize {
    let parts = match &op.parts {
        Parts::Pieces(pieces) => pieces.iter().map(|piece| 20 + piece.text.len()).sum(),
        Parts::Counts(counts) => 10 * counts.len(),
    };
    15 + 6 * op.version.len() + parts
}

// Not inlined, so that its instructions can be counted.
#[inline(never)]
fn encode(op: &Operation) -> Vec<u8> {
    let mut out = Vec::with_capacity(len(op));
    out.push(if let Parts::Pieces(_) = op.parts { 1 } else { 2 });
    put_stamp(&mut out, op.stamp);
    out.extend_from_slice(&(op.version.len() as u32).to_be_bytes());
    for (replica, value) in &op.version {
        out.extend_from_slice(&replica.to_be_bytes());
        out.extend_from_slice(&value.to_be_bytes());
    }
    match &op.parts {
        Parts::Pieces(pieces) => {
            out.extend_from_slice(&(pieces.len() as u32).to_be_bytes());
            for piece in pieces {
                out.extend_from_slice(&piece.start.to_be_bytes());
                out.extend_from_slice(&piece.end.to_be_bytes());
                out.extend_from_slice(&(piece.text.len() as u32).to_be_bytes());
                out.extend_from_slice(piece.text.as_bytes());
            }
        }
        Parts::Counts(counts) => {
            out.extend_from_slice(&(counts.len() as u32).to_be_bytes());
            for (stamp, count) in counts {
                put_stamp(&mut out, *stamp);
                out.extend_from_slice(&count.to_be_bytes());
            }
        }
    }
    out
}

// ---- streams

fn insertion(text: String) -> Parts {
    Parts::Pieces(vec![Piece { start: 1, end: 1, text }])
}

// The record of the kind that is asked for, the n-th of its stream.
fn made(kind: &str, n: u32) -> Operation {
    let stamp = Stamp { value: n + 2, replica: 1 };
    let mut version = vec![(0, 1)];
    let letter = char::from(b'a' + (n % 26) as u8);
    let parts = match kind {
        "small" => insertion(letter.to_string()),
        "texts" => insertion(letter.to_string().repeat(4096)),
        "pieces" => Parts::Pieces(vec![Piece { start: 1, end: 2, text: String::new() }; LIMIT as usize]),
        "counts" => Parts::Counts(vec![(stamp, 1); LIMIT as usize]),
        "entries" => {
            version = (0..=u16::MAX).map(|replica| (replica, 1)).collect();
            Parts::Pieces(Vec::new())
        }
        _ => panic!("no records of the kind {kind}"),
    };
    Operation { stamp, version, parts }
}

fn work(name: &str, f: impl FnOnce() -> u64) {
    let start = Instant::now();
    let answer = f();
    println!("{name} {answer} {}", start.elapsed().as_micros());
}

fn main() {
    let words: Vec<String> = std::env::args().skip(1).collect();
    if words[0] == "make" {
        let mut out = std::io::BufWriter::new(std::io::stdout().lock());
        for n in 0..words[2].parse().unwrap() {
            out.write_all(&encode(&made(&words[1], n))).unwrap();
        }
        return;
    }
    let mut stream = Vec::new();
    std::io::stdin().read_to_end(&mut stream).unwrap();
    let mut ops = Vec::new();
    work("Read", || {
        ops = read(&stream, words[1].parse().unwrap());
        ops.len() as u64
    });
    work("Write", || ops.iter().map(|op| encode(op).len() as u64).sum());
    work("CopyOps", || ops.iter().cloned().collect::<Vec<_>>().len() as u64);
}
