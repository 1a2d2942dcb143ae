//! Graphs of memos, each in some hundred lines: one pulls by revisions, as salsa does, and one marks what a
//! change reaches and pulls, as leptos does. Neither finds cycles, and both recurse.

use crate::laps::{mix, Laps};

const ROUNDS: u64 = 10;
const OPERANDS: usize = 200;
const LEAVES: usize = 1000;
// A chain of a million nodes is pulled recursively.
const STACK: usize = 3 << 30;

#[derive(Clone, Copy, PartialEq, Eq)]
pub struct Key {
    slot: u32,
    generation: u32,
}

enum Formula {
    Next(Key),
    Half(Key),
    High(Key),
    Both(Key, Key),
    Sum(Vec<Key>),
}

impl Formula {
    fn compute(&self, mut get: impl FnMut(Key) -> Option<u64>) -> Option<u64> {
        Some(match self {
            Formula::Next(a) => get(*a)?.wrapping_add(1),
            Formula::Half(a) => get(*a)? >> 1,
            Formula::High(a) => get(*a)? >> 40,
            Formula::Both(a, b) => get(*a)?.wrapping_add(get(*b)?),
            Formula::Sum(keys) => {
                let mut sum = 0u64;
                for key in keys {
                    sum = sum.wrapping_add(get(*key)?);
                }
                sum
            }
        })
    }
}

trait Graph: Default {
    fn source(&mut self) -> Key;
    fn memo(&mut self, rule: Formula) -> Key;
    fn get(&mut self, key: Key) -> Option<u64>;
    fn set(&mut self, key: Key, value: u64);
    fn watch(&mut self, key: Key);
    fn flush(&mut self, told: &mut Vec<(Key, Option<u64>)>);
}

pub mod pull {
    use super::*;

    #[derive(Default)]
    struct Node {
        generation: u32,
        value: Option<u64>,
        is_known: bool,
        checked: u64,
        changed: u64,
        rule: Option<Box<Formula>>,
        reads: Vec<u32>,
    }

    #[derive(Default)]
    struct Pull {
        nodes: Vec<Node>,
        revision: u64,
        watched: Vec<(Key, Option<Option<u64>>)>,
    }

    impl Pull {
        fn node(&mut self, value: Option<u64>, rule: Option<Box<Formula>>) -> Key {
            let changed = self.revision;
            self.nodes.push(Node { generation: 1, value, changed, rule, ..Node::default() });
            Key { slot: (self.nodes.len() - 1) as u32, generation: 1 }
        }

        // Whether what the node read is unchanged since it was checked.
        fn is_unchanged(&mut self, slot: u32) -> bool {
            let at = slot as usize;
            for i in 0..self.nodes[at].reads.len() {
                let read = self.nodes[at].reads[i];
                self.update(read);
                if self.nodes[read as usize].changed > self.nodes[at].checked {
                    return false;
                }
            }
            true
        }

        fn update(&mut self, slot: u32) {
            let (at, revision) = (slot as usize, self.revision);
            let node = &self.nodes[at];
            if node.rule.is_none() || (node.is_known && node.checked == revision) {
                return;
            }
            if !node.is_known || !self.is_unchanged(slot) {
                self.run(slot);
            }
            self.nodes[at].checked = revision;
        }

        fn run(&mut self, slot: u32) {
            let (at, revision) = (slot as usize, self.revision);
            let rule = self.nodes[at].rule.take().expect("a memo");
            let mut reads = std::mem::take(&mut self.nodes[at].reads);
            reads.clear();
            let value = rule.compute(|key| {
                let node = self.nodes.get(key.slot as usize)?;
                if node.generation != key.generation {
                    return None;
                }
                self.update(key.slot);
                reads.push(key.slot);
                self.nodes[key.slot as usize].value
            });
            let node = &mut self.nodes[at];
            node.rule = Some(rule);
            node.reads = reads;
            if !node.is_known || node.value != value {
                node.is_known = true;
                node.value = value;
                node.changed = revision;
            }
        }
    }

    impl Graph for Pull {
        fn source(&mut self) -> Key {
            self.node(Some(1), None)
        }

        fn memo(&mut self, rule: Formula) -> Key {
            self.node(None, Some(Box::new(rule)))
        }

        fn get(&mut self, key: Key) -> Option<u64> {
            if self.nodes.get(key.slot as usize)?.generation != key.generation {
                return None;
            }
            self.update(key.slot);
            self.nodes[key.slot as usize].value
        }

        fn set(&mut self, key: Key, value: u64) {
            let node = &mut self.nodes[key.slot as usize];
            if node.generation == key.generation && node.value != Some(value) {
                self.revision += 1;
                node.value = Some(value);
                node.changed = self.revision;
            }
        }

        fn watch(&mut self, key: Key) {
            self.watched.push((key, None));
        }

        fn flush(&mut self, told: &mut Vec<(Key, Option<u64>)>) {
            for i in 0..self.watched.len() {
                let key = self.watched[i].0;
                let value = self.get(key);
                if self.watched[i].1 != Some(value) {
                    self.watched[i].1 = Some(value);
                    told.push((key, value));
                }
            }
        }
    }

    pub fn run(laps: &mut Laps, work: &str, n: usize) -> u64 {
        super::run::<Pull>(laps, work, n)
    }
}

pub mod marks {
    use super::*;

    #[derive(Clone, Copy, Default, PartialEq, Eq)]
    enum State {
        #[default]
        Clean,
        Check,
        Dirty,
    }

    #[derive(Default)]
    struct Node {
        generation: u32,
        state: State,
        is_known: bool,
        is_watched: bool,
        is_queued: bool,
        value: Option<u64>,
        told: Option<Option<u64>>,
        rule: Option<Box<Formula>>,
        reads: Vec<u32>,
        readers: Vec<u32>,
    }

    #[derive(Default)]
    struct Marks {
        nodes: Vec<Node>,
        queue: Vec<u32>,
        stack: Vec<u32>,
    }

    impl Marks {
        fn node(&mut self, value: Option<u64>, rule: Option<Box<Formula>>) -> Key {
            let state = if rule.is_some() { State::Dirty } else { State::Clean };
            self.nodes.push(Node { generation: 1, state, value, rule, ..Node::default() });
            Key { slot: (self.nodes.len() - 1) as u32, generation: 1 }
        }

        // Readers become dirty, and their readers are to be checked.
        fn mark(&mut self, slot: u32) {
            let mut stack = std::mem::take(&mut self.stack);
            for i in 0..self.nodes[slot as usize].readers.len() {
                let reader = self.nodes[slot as usize].readers[i];
                let node = &mut self.nodes[reader as usize];
                if node.state == State::Clean {
                    stack.push(reader);
                }
                node.state = State::Dirty;
            }
            while let Some(marked) = stack.pop() {
                self.enqueue(marked);
                for i in 0..self.nodes[marked as usize].readers.len() {
                    let reader = self.nodes[marked as usize].readers[i];
                    if self.nodes[reader as usize].state == State::Clean {
                        self.nodes[reader as usize].state = State::Check;
                        stack.push(reader);
                    }
                }
            }
            self.stack = stack;
        }

        fn enqueue(&mut self, slot: u32) {
            let node = &mut self.nodes[slot as usize];
            if node.is_watched && !node.is_queued {
                node.is_queued = true;
                self.queue.push(slot);
            }
        }

        fn unlink(&mut self, slot: u32, reads: &[u32]) {
            for read in reads {
                let readers = &mut self.nodes[*read as usize].readers;
                if let Some(place) = readers.iter().rposition(|it| *it == slot) {
                    readers.swap_remove(place);
                }
            }
        }

        fn update(&mut self, slot: u32) {
            let at = slot as usize;
            if self.nodes[at].state == State::Check {
                for i in 0..self.nodes[at].reads.len() {
                    self.update(self.nodes[at].reads[i]);
                    if self.nodes[at].state == State::Dirty {
                        break;
                    }
                }
            }
            if self.nodes[at].state == State::Dirty {
                self.run(slot);
            }
            self.nodes[at].state = State::Clean;
        }

        fn run(&mut self, slot: u32) {
            let at = slot as usize;
            let rule = self.nodes[at].rule.take().expect("a memo");
            let old = std::mem::take(&mut self.nodes[at].reads);
            let mut reads: Vec<u32> = Vec::with_capacity(old.len());
            let value = rule.compute(|key| {
                let node = self.nodes.get(key.slot as usize)?;
                if node.generation != key.generation {
                    return None;
                }
                if node.state != State::Clean {
                    self.update(key.slot);
                }
                reads.push(key.slot);
                self.nodes[key.slot as usize].value
            });
            if reads != old {
                self.unlink(slot, &old);
                for read in &reads {
                    self.nodes[*read as usize].readers.push(slot);
                }
            }
            let node = &mut self.nodes[at];
            node.reads = reads;
            node.rule = Some(rule);
            if !node.is_known || node.value != value {
                node.is_known = true;
                node.value = value;
                for i in 0..self.nodes[at].readers.len() {
                    let reader = self.nodes[at].readers[i];
                    self.nodes[reader as usize].state = State::Dirty;
                }
            }
        }
    }

    impl Graph for Marks {
        fn source(&mut self) -> Key {
            self.node(Some(1), None)
        }

        fn memo(&mut self, rule: Formula) -> Key {
            self.node(None, Some(Box::new(rule)))
        }

        fn get(&mut self, key: Key) -> Option<u64> {
            let node = self.nodes.get(key.slot as usize)?;
            if node.generation != key.generation {
                return None;
            }
            if node.state != State::Clean {
                self.update(key.slot);
            }
            self.nodes[key.slot as usize].value
        }

        fn set(&mut self, key: Key, value: u64) {
            let node = &mut self.nodes[key.slot as usize];
            if node.generation == key.generation && node.value != Some(value) {
                node.value = Some(value);
                self.enqueue(key.slot);
                self.mark(key.slot);
            }
        }

        fn watch(&mut self, key: Key) {
            self.nodes[key.slot as usize].is_watched = true;
            self.enqueue(key.slot);
        }

        fn flush(&mut self, told: &mut Vec<(Key, Option<u64>)>) {
            let mut queue = std::mem::take(&mut self.queue);
            for slot in &queue {
                let at = *slot as usize;
                self.nodes[at].is_queued = false;
                let key = Key { slot: *slot, generation: self.nodes[at].generation };
                let value = self.get(key);
                if self.nodes[at].told != Some(value) {
                    self.nodes[at].told = Some(value);
                    told.push((key, value));
                }
            }
            queue.clear();
            self.queue = queue;
        }
    }

    pub fn run(laps: &mut Laps, work: &str, n: usize) -> u64 {
        super::run::<Marks>(laps, work, n)
    }
}

/// The sources that each round sets, and the nodes that it reads; watched nodes are flushed.
#[derive(Default)]
struct Round {
    sources: Vec<Key>,
    read: Vec<Key>,
}

fn chain<G: Graph>(graph: &mut G, first: Key, n: usize) -> Key {
    (0..n).fold(first, |last, _| graph.memo(Formula::Next(last)))
}

fn ladder<G: Graph>(graph: &mut G, first: Key, rungs: usize) -> Key {
    (0..rungs).fold(first, |last, _| {
        let one = graph.memo(Formula::Next(last));
        let other = graph.memo(Formula::Half(last));
        graph.memo(Formula::Both(one, other))
    })
}

fn watch_memos<G: Graph>(graph: &mut G, shared: Option<Key>, n: usize) {
    for _ in 0..n {
        let of = shared.unwrap_or_else(|| graph.source());
        let key = graph.memo(Formula::Next(of));
        graph.watch(key);
    }
}

// A wide rule over memos of sources, and the first or the last source.
fn wide<G: Graph>(graph: &mut G, is_first: bool) -> (Key, Key) {
    let changed = graph.source();
    let place = if is_first { 0 } else { OPERANDS - 1 };
    let operands = (0..OPERANDS)
        .map(|i| {
            let of = if i == place { changed } else { graph.source() };
            graph.memo(Formula::Next(of))
        })
        .collect();
    (changed, graph.memo(Formula::Sum(operands)))
}

// A source of a tree of sums, and the tree's root.
fn tree<G: Graph>(graph: &mut G) -> (Key, Key) {
    let mut keys: Vec<Key> = (0..LEAVES).map(|_| graph.source()).collect();
    let first = keys[0];
    while keys.len() > 1 {
        let sums = keys.chunks(2).map(|pair| match pair {
            [one, other] => graph.memo(Formula::Both(*one, *other)),
            _ => pair[0],
        });
        keys = sums.collect();
    }
    (first, keys[0])
}

fn round_of<G: Graph>(graph: &mut G, work: &str, n: usize) -> Round {
    let (sources, read) = match work {
        "memo-last" | "memo-first" => (0..n / OPERANDS).map(|_| wide(graph, work == "memo-first")).unzip(),
        "memo-sums" => (0..n / LEAVES).map(|_| tree(graph)).unzip(),
        _ => single(graph, work, n),
    };
    Round { sources, read }
}

// The sources and the results of a work over one source.
fn single<G: Graph>(graph: &mut G, work: &str, n: usize) -> (Vec<Key>, Vec<Key>) {
    let first = graph.source();
    match work {
        "memo-fan" => watch_memos(graph, Some(first), n),
        "memo-watched" => {
            graph.watch(first);
            watch_memos(graph, None, n);
        }
        "memo-ladder" => return (vec![first], vec![ladder(graph, first, n / 3)]),
        "memo-unchanged" => {
            let high = graph.memo(Formula::High(first));
            return (vec![first], vec![chain(graph, high, n)]);
        }
        _ => {
            let last = chain(graph, first, n);
            let set = if work == "memo-unrelated" { graph.source() } else { first };
            return (vec![set], vec![last]);
        }
    }
    (vec![first], Vec::new())
}

fn look<G: Graph>(graph: &mut G, round: &Round, mut seen: u64) -> u64 {
    for key in &round.read {
        seen = mix(seen, graph.get(*key).expect("a value"));
    }
    let mut told = Vec::new();
    graph.flush(&mut told);
    let sum = told.iter().fold(0u64, |sum, it| sum.wrapping_add(it.1.expect("a value")));
    mix(seen, sum)
}

#[inline(never)]
fn rounds<G: Graph>(graph: &mut G, round: &Round, mut seen: u64) -> u64 {
    for i in 0..ROUNDS {
        for source in &round.sources {
            graph.set(*source, i + 2);
        }
        seen = look(graph, round, seen);
    }
    seen
}

fn run<G: Graph>(laps: &mut Laps, work: &str, n: usize) -> u64 {
    let mut graph = G::default();
    let round = round_of(&mut graph, work, n);
    let mut seen = look(&mut graph, &round, 0);
    laps.lap("rounds", 1, &mut seen, |seen| rounds(&mut graph, &round, seen));
    seen
}

/// Makes what is asked for in a thread with room for a deep recursion.
pub fn with_room<T: Send>(work: impl FnOnce() -> T + Send) -> T {
    std::thread::scope(|scope| {
        let thread = std::thread::Builder::new().stack_size(STACK).spawn_scoped(scope, work);
        thread.expect("a thread").join().expect("no panic")
    })
}
