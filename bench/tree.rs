//! Work on trees in plain Rust, the same as `tree_bench tree` of `crates/tree_bench` does: usage `tree tree|map COUNT`. `tree` is an `Arc` B-tree
//! whose nodes hold 6 to 12 entries and the sum of what lies below them, an entry being an item with its sum behind an `Arc`, as in the
//! proved tree; `map` is the standard `BTreeMap`. What is made before a work, or dropped after it, is not in its time.
use std::collections::BTreeMap;
use std::sync::Arc;
use std::time::Instant;

const MOST: usize = 12;

#[derive(Clone, Copy, Default)]
struct Span {
    items: u64,
    width: u64,
}

impl Span {
    fn add(&mut self, other: Span) {
        self.items = self.items.wrapping_add(other.items);
        self.width = self.width.wrapping_add(other.width);
    }
}

trait Item: Clone {
    fn of(key: u64) -> Self;
    fn key(&self) -> u64;
    fn span(&self) -> Span;
}

#[derive(Clone, Copy)]
struct Number {
    key: u64,
    width: u64,
}

impl Item for Number {
    fn of(key: u64) -> Number {
        Number { key, width: 1 }
    }
    fn key(&self) -> u64 {
        self.key
    }
    fn span(&self) -> Span {
        Span { items: 1, width: self.width }
    }
}

#[derive(Clone)]
enum Content<T> {
    Leaf(Vec<Arc<(T, Span)>>),
    Inner(Vec<Arc<Node<T>>>),
}

#[derive(Clone)]
struct Node<T> {
    sum: Span,
    content: Content<T>,
}

fn node<T: Item>(content: Content<T>) -> Arc<Node<T>> {
    let mut node = Node { sum: Span::default(), content };
    node.renew();
    Arc::new(node)
}

impl<T: Item> Node<T> {
    fn renew(&mut self) {
        let mut sum = Span::default();
        match &self.content {
            Content::Leaf(entries) => entries.iter().for_each(|entry| sum.add(entry.1)),
            Content::Inner(children) => children.iter().for_each(|child| sum.add(child.sum)),
        }
        self.sum = sum;
    }
    fn width(&self) -> usize {
        match &self.content {
            Content::Leaf(entries) => entries.len(),
            Content::Inner(children) => children.len(),
        }
    }
    fn last_key(&self) -> u64 {
        match &self.content {
            Content::Leaf(entries) => entries[entries.len() - 1].0.key(),
            Content::Inner(children) => children[children.len() - 1].last_key(),
        }
    }
    // Splits off the upper half where there are too many entries.
    fn split(&mut self) -> Option<Arc<Node<T>>> {
        if self.width() <= MOST {
            self.renew();
            return None;
        }
        let half = self.width() / 2;
        let back = match &mut self.content {
            Content::Leaf(entries) => Content::Leaf(entries.split_off(half)),
            Content::Inner(children) => Content::Inner(children.split_off(half)),
        };
        self.renew();
        Some(node(back))
    }
    fn push(&mut self, item: T) -> Option<Arc<Node<T>>> {
        let span = item.span();
        match &mut self.content {
            Content::Leaf(entries) => entries.push(Arc::new((item, span))),
            Content::Inner(children) => {
                let last = children.len() - 1;
                if let Some(back) = Arc::make_mut(&mut children[last]).push(item) {
                    children.push(back);
                }
            }
        }
        if self.width() <= MOST {
            self.sum.add(span);
            return None;
        }
        self.split()
    }
    fn insert(&mut self, item: T, replaced: &mut bool) -> Option<Arc<Node<T>>> {
        let span = item.span();
        match &mut self.content {
            Content::Leaf(entries) => match entries.binary_search_by_key(&item.key(), |entry| entry.0.key()) {
                Ok(i) => {
                    entries[i] = Arc::new((item, span));
                    *replaced = true;
                }
                Err(i) => entries.insert(i, Arc::new((item, span))),
            },
            Content::Inner(children) => {
                let k = child_for(children, item.key());
                if let Some(back) = Arc::make_mut(&mut children[k]).insert(item, replaced) {
                    children.insert(k + 1, back);
                }
            }
        }
        self.split()
    }
    // Removes a key; a child that became narrow is joined with its neighbour.
    fn remove(&mut self, key: u64) -> bool {
        let there = match &mut self.content {
            Content::Leaf(entries) => match entries.binary_search_by_key(&key, |entry| entry.0.key()) {
                Ok(i) => {
                    entries.remove(i);
                    true
                }
                Err(_) => false,
            },
            Content::Inner(children) => {
                let k = child_for(children, key);
                let there = Arc::make_mut(&mut children[k]).remove(key);
                if children[k].width() < MOST / 2 {
                    join(children, if k > 0 { k - 1 } else { 0 });
                }
                there
            }
        };
        self.renew();
        there
    }
    // Whether the `count` items from `at` on lie in one leaf.
    fn in_one_leaf(&self, at: u64, count: u64) -> bool {
        match &self.content {
            Content::Leaf(entries) => at + count <= entries.len() as u64,
            Content::Inner(children) => {
                let (k, rest) = child_at(children, at);
                children[k].in_one_leaf(rest, count)
            }
        }
    }
    // Puts items in the place of `count` from `at` on, which lie in one leaf.
    fn splice(&mut self, at: u64, count: u64, items: Vec<T>) -> Option<Arc<Node<T>>> {
        match &mut self.content {
            Content::Leaf(entries) => {
                let range = at as usize..(at + count) as usize;
                let entry = |item: T| {
                    let span = item.span();
                    Arc::new((item, span))
                };
                entries.splice(range, items.into_iter().map(entry));
            }
            Content::Inner(children) => {
                let (k, rest) = child_at(children, at);
                if let Some(back) = Arc::make_mut(&mut children[k]).splice(rest, count, items) {
                    children.insert(k + 1, back);
                } else if children[k].width() < MOST / 2 {
                    join(children, if k > 0 { k - 1 } else { 0 });
                }
            }
        }
        self.split()
    }
}

// The child that holds an item, and the item's place there.
fn child_at<T: Item>(children: &[Arc<Node<T>>], mut at: u64) -> (usize, u64) {
    let mut k = 0;
    while at >= children[k].sum.items {
        at -= children[k].sum.items;
        k += 1;
    }
    (k, at)
}

fn join<T: Item>(children: &mut Vec<Arc<Node<T>>>, k: usize) {
    let back = children.remove(k + 1);
    let front = Arc::make_mut(&mut children[k]);
    match (&mut front.content, &back.content) {
        (Content::Leaf(front), Content::Leaf(back)) => front.extend_from_slice(back),
        (Content::Inner(front), Content::Inner(back)) => front.extend_from_slice(back),
        _ => unreachable!(),
    }
    if let Some(back) = front.split() {
        children.insert(k + 1, back);
    }
}

fn child_for<T: Item>(children: &[Arc<Node<T>>], key: u64) -> usize {
    let last = children.len() - 1;
    (0..last).find(|&k| children[k].last_key() >= key).unwrap_or(last)
}

// A level of nodes, each with as many parts as the sizes allow, and all about as full.
fn level<T: Item, P>(parts: Vec<P>, content: impl Fn(Vec<P>) -> Content<T>) -> Vec<Arc<Node<T>>> {
    let count = parts.len().div_ceil(MOST).max(1);
    let (least, more) = (parts.len() / count, parts.len() % count);
    let mut parts = parts.into_iter();
    (0..count)
        .map(|k| node(content(parts.by_ref().take(least + (k < more) as usize).collect())))
        .collect()
}

#[derive(Clone)]
struct Tree<T> {
    root: Arc<Node<T>>,
}

impl<T: Item> Tree<T> {
    fn new() -> Tree<T> {
        Tree { root: node(Content::Leaf(Vec::new())) }
    }
    fn from_list(items: Vec<T>) -> Tree<T> {
        let entries = items.into_iter().map(|item| {
            let span = item.span();
            Arc::new((item, span))
        });
        let mut nodes = level(entries.collect(), Content::Leaf);
        while nodes.len() > 1 {
            nodes = level(nodes, Content::Inner);
        }
        Tree { root: nodes.remove(0) }
    }
    fn len(&self) -> u64 {
        self.root.sum.items
    }
    fn grown(&mut self, back: Option<Arc<Node<T>>>) {
        if let Some(back) = back {
            self.root = node(Content::Inner(vec![self.root.clone(), back]));
        }
    }
    fn push(&mut self, item: T) {
        let back = Arc::make_mut(&mut self.root).push(item);
        self.grown(back);
    }
    fn insert(&mut self, item: T) -> bool {
        let mut replaced = false;
        let back = Arc::make_mut(&mut self.root).insert(item, &mut replaced);
        self.grown(back);
        replaced
    }
    fn shrunk(&mut self) {
        if let Content::Inner(children) = &self.root.content {
            if children.len() == 1 {
                self.root = children[0].clone();
            }
        }
    }
    fn remove(&mut self, key: u64) -> bool {
        let there = Arc::make_mut(&mut self.root).remove(key);
        self.shrunk();
        there
    }
    // Where the items replaced do not lie in one leaf, all but the first are taken out one by one before.
    fn splice(&mut self, at: u64, mut count: u64, items: Vec<T>) {
        while count > 1 && !self.root.in_one_leaf(at, count) {
            count -= 1;
            self.splice(at + count, 1, Vec::new());
        }
        let back = Arc::make_mut(&mut self.root).splice(at, count, items);
        self.grown(back);
        self.shrunk();
    }
    fn get(&self, mut index: u64) -> Option<&T> {
        if index >= self.len() {
            return None;
        }
        let mut node = &self.root;
        loop {
            match &node.content {
                Content::Leaf(entries) => return Some(&entries[index as usize].0),
                Content::Inner(children) => {
                    let (k, rest) = child_at(children, index);
                    (node, index) = (&children[k], rest);
                }
            }
        }
    }
    fn find(&self, key: u64) -> bool {
        let mut node = &self.root;
        loop {
            match &node.content {
                Content::Leaf(entries) => return entries.iter().any(|entry| entry.0.key() == key),
                Content::Inner(children) => node = &children[child_for(children, key)],
            }
        }
    }
}

fn step(x: u64) -> u64 {
    x.wrapping_mul(6364136223846793005).wrapping_add(1442695040888963407)
}

fn chance(mut x: u64, n: u64, bound: u64, mut each: impl FnMut(u64) -> bool) -> u64 {
    let mut count = 0;
    for _ in 0..n {
        x = step(x);
        count += each((x >> 20) % bound) as u64;
    }
    count
}

// Does a work and writes what came of it and the microseconds that it took.
fn timed(name: &str, work: impl FnOnce() -> u64) {
    let start = Instant::now();
    let answer = work();
    println!("{name} {answer} {}", start.elapsed().as_micros());
}

fn list_work(n: u64) {
    let mut tree: Tree<Number> = Tree::new();
    timed("Push", || {
        (0..n).for_each(|key| tree.push(Number::of(key)));
        tree.len()
    });
    timed("Get", || {
        let mut sum = 0u64;
        chance(1, n, n, |i| {
            sum = sum.wrapping_add(tree.get(i).map_or(0, |item| item.key));
            true
        });
        sum
    });
    timed("SharePush", || {
        let mut sum = 0;
        for key in 0..n / 10 {
            let old = tree.clone();
            tree.push(Number::of(key));
            sum += old.len();
        }
        sum
    });
    let items: Vec<Number> = (0..n).map(Number::of).collect();
    let mut made = None;
    timed("FromList", || made.insert(Tree::from_list(items)).len());
}

// One change of a text, as typing makes it: mostly one item for one, now and then two for one or one for two.
fn splice_at(tree: &mut Tree<Number>, x: u64) {
    let len = tree.len();
    let at = (x >> 20) % len;
    let (replaced, count) = match x >> 61 {
        0 => (1, 2),
        1 if at + 1 < len => (2, 1),
        _ => (1, 1),
    };
    tree.splice(at, replaced, (0..count).map(Number::of).collect());
}

fn text_work(n: u64) {
    let mut tree = Tree::from_list((0..n).map(Number::of).collect());
    timed("Type", || {
        let mut x = 1;
        for _ in 0..n {
            x = step(x);
            splice_at(&mut tree, x);
        }
        tree.len()
    });
    timed("ShareType", || {
        let mut x = 1;
        for _ in 0..n {
            x = step(x);
            let _old = tree.clone();
            splice_at(&mut tree, x);
        }
        tree.len()
    });
}

fn key_work(n: u64) {
    let bound = 2 * n + 1;
    let mut tree: Tree<Number> = Tree::new();
    timed("Fill", || {
        for key in 0..n {
            tree.insert(Number::of(2 * key));
        }
        tree.len()
    });
    timed("Find", || chance(3, n / 10, bound, |key| tree.find(key)));
    timed("Insert", || chance(1, n / 10, bound, |key| tree.insert(Number::of(key))));
    timed("Remove", || chance(7, n / 10, bound, |key| tree.remove(key)));
}

fn map_work(n: u64) {
    let bound = 2 * n + 1;
    let mut map = BTreeMap::new();
    timed("Fill", || {
        for key in 0..n {
            map.insert(2 * key, Number::of(2 * key));
        }
        map.len() as u64
    });
    timed("Find", || chance(3, n / 10, bound, |key| map.contains_key(&key)));
    timed("Insert", || chance(1, n / 10, bound, |key| map.insert(key, Number::of(key)).is_some()));
    timed("Remove", || chance(7, n / 10, bound, |key| map.remove(&key).is_some()));
}

fn main() {
    let words: Vec<String> = std::env::args().collect();
    let n: u64 = words[2].parse().expect("a count");
    if words[1] == "tree" {
        list_work(n);
        text_work(n / 10);
        key_work(n);
    } else {
        map_work(n);
    }
}
