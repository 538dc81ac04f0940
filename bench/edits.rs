//! Edits among fragments in plain Rust, the same as `bench edits` of `crates/bench` places: usage `edits FRAGMENTS`.
//!
//! The fragments lie in an `Arc` B-tree whose nodes hold 6 to 12 entries and the sum of what lies below them, and an entry is a
//! fragment with its sum behind an `Arc`, as in the proved tree; lists of at most 6 digits, 2 deletions and 4 replicas lie in place. The ids that
//! say where a byte is lie in a tree of the same form, by stamp and offset. The trees before an edit are kept until it is placed,
//! and what it does to the shown and to the hidden text is listed. An edit is not checked, nor are there undo counts.
use std::cmp::Reverse;
use std::sync::Arc;
use std::time::{Duration, Instant};

const MOST: usize = 12;

// How many edits of a kind are timed.
const EDITS: u64 = 200;

// The most bytes of one edit's text.
const MOST_BYTES: u64 = 65_536;

#[derive(Clone, Copy, PartialEq, Eq, PartialOrd, Ord, Default, Debug)]
struct Stamp {
    value: u32,
    replica: u16,
}

// A short list, which lies in place where it has at most N items.
#[derive(Clone)]
enum Small<T, const N: usize> {
    Inline(usize, [T; N]),
    Heap(Vec<T>),
}

impl<T: Copy + Default, const N: usize> Small<T, N> {
    fn of(items: &[T]) -> Self {
        if items.len() > N {
            return Small::Heap(items.to_vec());
        }
        let mut list = [T::default(); N];
        list[..items.len()].copy_from_slice(items);
        Small::Inline(items.len(), list)
    }
    fn items(&self) -> &[T] {
        match self {
            Small::Inline(len, list) => &list[..*len],
            Small::Heap(list) => list,
        }
    }
    fn push(&mut self, item: T) {
        let mut list = self.items().to_vec();
        list.push(item);
        *self = Small::of(&list);
    }
}

type Id = Small<u64, 6>;

// An id between two, by a digit little above the lower one.
fn between(a: &[u64], b: &[u64]) -> Id {
    let mut id = Vec::new();
    loop {
        let low = a.get(id.len()).copied().unwrap_or(0);
        let high = b.get(id.len()).copied().unwrap_or(u64::MAX);
        let digit = low + (high.saturating_sub(low) >> 48);
        id.push(digit);
        if low < digit {
            return Small::of(&id);
        }
    }
}

// `len` bytes of an edit's text, from byte `offset` on.
#[derive(Clone)]
struct Fragment {
    id: Id,
    stamp: Stamp,
    offset: u64,
    len: u64,
    visible: bool,
    deletions: Small<Stamp, 2>,
    undos: Small<(u16, u32), 4>,
}

// What a tree has at each node.
trait Summary: Clone {
    fn zero() -> Self;
    fn add(&mut self, other: &Self);
    fn items(&self) -> u64;
}

trait Item: Clone {
    type Sum: Summary;
    fn sum(&self) -> Self::Sum;
}

// Of fragments: how many there are, their bytes, the greatest id, the stamps of each replica, and what a version sees that sees all.
#[derive(Clone)]
struct Sum {
    items: u64,
    visible: u64,
    hidden: u64,
    last: Id,
    spans: Small<(u16, u32, u32), 4>,
    greatest: Small<(u16, u32), 4>,
}

impl Summary for Sum {
    fn zero() -> Sum {
        Sum { items: 0, visible: 0, hidden: 0, last: Small::of(&[]), spans: Small::of(&[]), greatest: Small::of(&[]) }
    }
    fn add(&mut self, other: &Sum) {
        self.items += other.items;
        self.visible += other.visible;
        self.hidden += other.hidden;
        self.last = other.last.clone();
        for span in other.spans.items() {
            match list(&mut self.spans).iter_mut().find(|s| s.0 == span.0) {
                Some(s) => (s.1, s.2) = (s.1.min(span.1), s.2.max(span.2)),
                None => self.spans.push(*span),
            }
        }
        other.greatest.items().iter().for_each(|entry| see(&mut self.greatest, *entry));
    }
    fn items(&self) -> u64 {
        self.items
    }
}

impl Item for Fragment {
    type Sum = Sum;
    fn sum(&self) -> Sum {
        let mut sum = Sum::zero();
        let (visible, hidden) = if self.visible { (self.len, 0) } else { (0, self.len) };
        (sum.items, sum.visible, sum.hidden, sum.last) = (1, visible, hidden, self.id.clone());
        sum.spans = Small::of(&[(self.stamp.replica, self.stamp.value, self.stamp.value)]);
        sum.greatest = Small::of(&[(self.stamp.replica, self.stamp.value)]);
        self.deletions.items().iter().for_each(|d| see(&mut sum.greatest, (d.replica, d.value)));
        self.undos.items().iter().for_each(|u| see(&mut sum.greatest, *u));
        sum
    }
}

// By which entries ascend.
type Key = (Stamp, Reverse<u64>);

// The id of the fragment that begins with a byte of an edit. Nothing looks for one here.
#[allow(dead_code)]
#[derive(Clone)]
struct Entry {
    key: Key,
    id: Id,
}

#[derive(Clone)]
struct LastKey {
    items: u64,
    key: Option<Key>,
}

impl Summary for LastKey {
    fn zero() -> LastKey {
        LastKey { items: 0, key: None }
    }
    fn add(&mut self, other: &LastKey) {
        self.items += other.items;
        self.key = self.key.max(other.key);
    }
    fn items(&self) -> u64 {
        self.items
    }
}

impl Item for Entry {
    type Sum = LastKey;
    fn sum(&self) -> LastKey {
        LastKey { items: 1, key: Some(self.key) }
    }
}

fn list<T, const N: usize>(small: &mut Small<T, N>) -> &mut [T] {
    match small {
        Small::Inline(len, list) => &mut list[..*len],
        Small::Heap(list) => list,
    }
}

fn see(version: &mut Small<(u16, u32), 4>, entry: (u16, u32)) {
    match list(version).iter_mut().find(|e| e.0 == entry.0) {
        Some(e) => e.1 = e.1.max(entry.1),
        None => version.push(entry),
    }
}

#[derive(Clone)]
enum Content<T: Item> {
    Leaf(Vec<Arc<(T, T::Sum)>>),
    Inner(Vec<Arc<Node<T>>>),
}

#[derive(Clone)]
struct Node<T: Item> {
    sum: T::Sum,
    content: Content<T>,
}

fn node<T: Item>(content: Content<T>) -> Arc<Node<T>> {
    let mut node = Node { sum: T::Sum::zero(), content };
    node.renew();
    Arc::new(node)
}

fn entry<T: Item>(item: T) -> Arc<(T, T::Sum)> {
    let sum = item.sum();
    Arc::new((item, sum))
}

impl<T: Item> Node<T> {
    fn renew(&mut self) {
        let mut sum = T::Sum::zero();
        match &self.content {
            Content::Leaf(entries) => entries.iter().for_each(|entry| sum.add(&entry.1)),
            Content::Inner(children) => children.iter().for_each(|child| sum.add(&child.sum)),
        }
        self.sum = sum;
    }
    fn width(&self) -> usize {
        match &self.content {
            Content::Leaf(entries) => entries.len(),
            Content::Inner(children) => children.len(),
        }
    }
    // Splits off the upper half where there are too many entries, again and again.
    fn split(&mut self) -> Vec<Arc<Node<T>>> {
        let mut more = Vec::new();
        while self.width() > MOST {
            let from = self.width() - (self.width() / 2).min(MOST);
            let back = match &mut self.content {
                Content::Leaf(entries) => Content::Leaf(entries.split_off(from)),
                Content::Inner(children) => Content::Inner(children.split_off(from)),
            };
            more.insert(0, node(back));
        }
        self.renew();
        more
    }
    // Whether the `count` items from `at` on lie in one leaf.
    fn in_one_leaf(&self, at: u64, count: u64) -> bool {
        match &self.content {
            Content::Leaf(entries) => at + count <= entries.len() as u64,
            Content::Inner(children) => {
                let (k, rest) = child_at(children, at);
                children[k].in_one_leaf(rest, count)
            }
        }
    }
    // Puts items in the place of `count` from `at` on, which lie in one leaf.
    fn splice(&mut self, at: u64, count: u64, items: Vec<T>) -> Vec<Arc<Node<T>>> {
        match &mut self.content {
            Content::Leaf(entries) => {
                let range = at as usize..(at + count) as usize;
                entries.splice(range, items.into_iter().map(entry));
            }
            Content::Inner(children) => {
                let (k, rest) = child_at(children, at);
                let more = Arc::make_mut(&mut children[k]).splice(rest, count, items);
                children.splice(k + 1..k + 1, more);
                if children[k].width() < MOST / 2 && children.len() > 1 {
                    join(children, if k > 0 { k - 1 } else { 0 });
                }
            }
        }
        self.split()
    }
}

// The child that holds an item, and the item's place there. The last one holds what comes behind all.
fn child_at<T: Item>(children: &[Arc<Node<T>>], mut at: u64) -> (usize, u64) {
    let mut k = 0;
    while k + 1 < children.len() && at >= children[k].sum.items() {
        at -= children[k].sum.items();
        k += 1;
    }
    (k, at)
}

fn join<T: Item>(children: &mut Vec<Arc<Node<T>>>, k: usize) {
    let back = children.remove(k + 1);
    let front = Arc::make_mut(&mut children[k]);
    match (&mut front.content, &back.content) {
        (Content::Leaf(front), Content::Leaf(back)) => front.extend_from_slice(back),
        (Content::Inner(front), Content::Inner(back)) => front.extend_from_slice(back),
        _ => unreachable!(),
    }
    let more = front.split();
    children.splice(k + 1..k + 1, more);
}

#[derive(Clone)]
struct Tree<T: Item> {
    root: Arc<Node<T>>,
}

impl<T: Item> Tree<T> {
    fn new() -> Tree<T> {
        Tree { root: node(Content::Leaf(Vec::new())) }
    }
    fn splice(&mut self, at: u64, mut count: u64, items: Vec<T>) {
        while count > 1 && !self.root.in_one_leaf(at, count) {
            count -= 1;
            self.splice(at + count, 1, Vec::new());
        }
        let more = Arc::make_mut(&mut self.root).splice(at, count, items);
        if !more.is_empty() {
            let mut children = vec![self.root.clone()];
            children.extend(more);
            self.root = node(Content::Inner(children));
        }
        if let Content::Inner(children) = &self.root.content {
            if children.len() == 1 {
                self.root = children[0].clone();
            }
        }
    }
    fn get(&self, mut index: u64) -> Option<&T> {
        if index >= self.root.sum.items() {
            return None;
        }
        let mut node = &self.root;
        loop {
            match &node.content {
                Content::Leaf(entries) => return Some(&entries[index as usize].0),
                Content::Inner(children) => {
                    let (k, rest) = child_at(children, index);
                    (node, index) = (&children[k], rest);
                }
            }
        }
    }
    // The index of the first item at which the runs that are passed end.
    fn seek(&self, mut is_passed: impl FnMut(&T::Sum) -> bool) -> u64 {
        let (mut index, mut node) = (0, &self.root);
        loop {
            match &node.content {
                Content::Leaf(entries) => {
                    let passed = entries.iter().take_while(|entry| is_passed(&entry.1)).count();
                    return index + passed as u64;
                }
                Content::Inner(children) => {
                    let mut k = 0;
                    while k + 1 < children.len() && is_passed(&children[k].sum) {
                        index += children[k].sum.items();
                        k += 1;
                    }
                    node = &children[k];
                }
            }
        }
    }
}

// A place among fragments: the index of the one that holds it, the shown and the hidden bytes before that, and the bytes of that
// before the place.
#[derive(Clone, Copy)]
struct Place {
    index: u64,
    visible: u64,
    hidden: u64,
    within: u64,
}

impl Place {
    fn cells(&self) -> u64 {
        self.visible + self.hidden
    }
}

impl Tree<Fragment> {
    // The place of a byte, counted by `bytes`.
    fn place(&self, byte: u64, bytes: impl Fn(&Sum) -> u64) -> Place {
        let (mut visible, mut hidden, mut within) = (0, 0, byte);
        let index = self.seek(|sum| {
            let is_passed = within >= bytes(sum);
            if is_passed {
                within -= bytes(sum);
                (visible, hidden) = (visible + sum.visible, hidden + sum.hidden);
            }
            is_passed
        });
        Place { index, visible, hidden, within }
    }
}

impl Tree<Entry> {
    fn insert(&mut self, key: Key, id: Id) {
        let at = self.seek(|sum| sum.key < Some(key));
        let count = self.get(at).is_some_and(|entry| entry.key == key) as u64;
        self.splice(at, count, vec![Entry { key, id }]);
    }
}

// What becomes of bytes of both texts, in order.
#[derive(Clone, Copy, PartialEq, Debug)]
enum Kind {
    Visible,
    Hidden,
    Hide,
    Insert,
}

#[derive(Default)]
struct Moves {
    list: Vec<(Kind, u64)>,
}

impl Moves {
    fn push(&mut self, kind: Kind, len: u64) {
        match self.list.last_mut() {
            Some(last) if last.0 == kind => last.1 += len,
            _ if len > 0 => self.list.push((kind, len)),
            _ => {}
        }
    }
    fn keep(&mut self, fragment: &Fragment) {
        self.push(if fragment.visible { Kind::Visible } else { Kind::Hidden }, fragment.len);
    }
    // Keeps all that is left of the texts, of which fragments have the sum once the edit is placed.
    fn end(&mut self, sum: &Sum) {
        let (mut visible, mut hidden) = (sum.visible, sum.hidden);
        for (kind, len) in &self.list {
            match kind {
                Kind::Visible | Kind::Insert => visible -= len,
                Kind::Hidden | Kind::Hide => hidden -= len,
            }
        }
        self.push(Kind::Visible, visible);
        self.push(Kind::Hidden, hidden);
    }
}

#[derive(Clone)]
struct Placed {
    fragments: Tree<Fragment>,
    index: Tree<Entry>,
}

struct Replica {
    number: u16,
    placed: Placed,
    moves: Moves,
    clock: u32,
    time: Duration,
}

// An edit, by full offsets.
#[derive(Clone, Copy)]
struct Operation {
    stamp: Stamp,
    start: u64,
    end: u64,
    len: u64,
}

impl Replica {
    fn new(number: u16) -> Replica {
        let placed = Placed { fragments: Tree::new(), index: Tree::new() };
        Replica { number, placed, moves: Moves::default(), clock: 1, time: Duration::ZERO }
    }
    fn len(&self) -> u64 {
        self.placed.fragments.root.sum.visible
    }
    fn edit(&mut self, place: u64, gone: u64, len: u64) -> Operation {
        let first = place % self.len().max(1);
        let last = (first + gone).min(self.len());
        self.replace(first, last, len)
    }
    fn replace(&mut self, first: u64, last: u64, len: u64) -> Operation {
        self.clock += 1;
        let stamp = Stamp { value: self.clock, replica: self.number };
        let began = Instant::now();
        let full = |byte| {
            let place = self.placed.fragments.place(byte, |sum| sum.visible);
            place.cells() + place.within
        };
        let start = full(first);
        let end = if last > first { full(last - 1) + 1 } else { start };
        let operation = Operation { stamp, start, end, len };
        self.place(began, operation);
        operation
    }
    fn take(&mut self, operation: Operation) {
        self.clock = self.clock.max(operation.stamp.value);
        self.place(Instant::now(), operation);
    }
    fn place(&mut self, began: Instant, operation: Operation) {
        let mut placed = self.placed.clone();
        self.moves = placed.place(operation);
        self.time += began.elapsed();
        self.placed = placed;
    }
}

impl Placed {
    fn place(&mut self, operation: Operation) -> Moves {
        let from = self.fragments.place(operation.start, |sum| sum.visible + sum.hidden);
        let mut moves = Moves::default();
        moves.push(Kind::Visible, from.visible);
        moves.push(Kind::Hidden, from.hidden);
        let mut at = from.index;
        let (mut made, mut back): (Vec<Fragment>, Option<Fragment>) = (Vec::new(), None);
        let mut low = match at {
            0 => Small::of(&[0]),
            _ => self.fragments.get(at - 1).unwrap().id.clone(),
        };
        if from.within > 0 {
            let mut rest = self.next(&mut back, &mut at);
            let front = self.cut(&mut rest, &low, from.within);
            low = front.id.clone();
            moves.keep(&front);
            made.push(front);
            back = Some(rest);
        }
        let next = back.as_ref().or_else(|| self.fragments.get(at));
        let high = next.map_or(Small::of(&[u64::MAX]), |fragment| fragment.id.clone());
        let (stamp, len) = (operation.stamp, operation.len);
        let id = between(low.items(), high.items());
        let new = Fragment { id, stamp, offset: 0, len, visible: true, deletions: Small::of(&[]), undos: Small::of(&[]) };
        low = new.id.clone();
        self.enter(&new);
        moves.push(Kind::Insert, len);
        made.push(new);
        let mut left = operation.end - operation.start;
        while left > 0 {
            let mut fragment = self.next(&mut back, &mut at);
            if left < fragment.len {
                let front = self.cut(&mut fragment, &low, left);
                back = Some(std::mem::replace(&mut fragment, front));
            }
            left -= fragment.len;
            low = fragment.id.clone();
            delete(&mut fragment, stamp, &mut moves);
            made.push(fragment);
        }
        made.extend(back);
        self.fragments.splice(from.index, at - from.index, made);
        moves.end(&self.fragments.root.sum);
        moves
    }
    // What is left of a fragment, or else a copy of the next one.
    fn next(&self, back: &mut Option<Fragment>, at: &mut u64) -> Fragment {
        back.take().unwrap_or_else(|| {
            *at += 1;
            self.fragments.get(*at - 1).unwrap().clone()
        })
    }
    // Cuts off a front, which gets an id of its own.
    fn cut(&mut self, fragment: &mut Fragment, low: &Id, len: u64) -> Fragment {
        let id = between(low.items(), fragment.id.items());
        let front = Fragment { id, len, ..fragment.clone() };
        fragment.offset += len;
        fragment.len -= len;
        self.enter(&front);
        self.enter(fragment);
        front
    }
    fn enter(&mut self, fragment: &Fragment) {
        self.index.insert((fragment.stamp, Reverse(fragment.offset)), fragment.id.clone());
    }
}

fn delete(fragment: &mut Fragment, stamp: Stamp, moves: &mut Moves) {
    if !fragment.visible {
        moves.keep(fragment);
        return;
    }
    moves.push(Kind::Hide, fragment.len);
    fragment.deletions.push(stamp);
    fragment.visible = false;
}

fn step(x: u64) -> u64 {
    x.wrapping_mul(6364136223846793005).wrapping_add(1442695040888963407)
}

fn make(author: &mut Replica, count: u64, edit: impl Fn(&mut Replica, u64, u64) -> Operation) -> Vec<Operation> {
    let mut x = 1;
    (0..count)
        .map(|number| {
            x = step(x);
            edit(author, number, x)
        })
        .collect()
}

// Writes how many bytes the text has after a work, and how long it took among the fragments.
fn tell(name: &str, replica: &Replica, before: Duration) {
    println!("{name} {} {}", replica.len(), (replica.time - before).as_micros());
}

fn make_told(name: &str, author: &mut Replica, edit: impl Fn(&mut Replica, u64, u64) -> Operation) -> Vec<Operation> {
    let before = author.time;
    let operations = make(author, EDITS, edit);
    tell(name, author, before);
    operations
}

fn take_told(name: &str, replica: &mut Replica, operations: Vec<Operation>) {
    let before = replica.time;
    operations.into_iter().for_each(|operation| replica.take(operation));
    tell(name, replica, before);
}

fn main() {
    let count: u64 = std::env::args().nth(1).unwrap().parse().unwrap();
    let mut author = Replica::new(1);
    let mut first = Vec::new();
    while author.len() < count * 8 {
        let (at, len) = (author.len(), MOST_BYTES.min(count * 8 - author.len()));
        first.push(author.replace(at, at, len));
    }
    first.extend(make(&mut author, count / 2, |author, _, x| author.edit(x >> 20, 0, 1)));
    let random = make_told("RandomLocal", &mut author, |author, _, x| author.edit(x >> 20, (x >> 50) % 5, 1 + (x >> 56) % 8));
    let typed = make_told("TypedLocal", &mut author, |author, number, _| author.edit(number + 1_000, 0, 1));
    drop(author);
    let mut other = Replica::new(2);
    first.into_iter().for_each(|operation| other.take(operation));
    take_told("RandomRemote", &mut other, random);
    take_told("TypedRemote", &mut other, typed);
}
