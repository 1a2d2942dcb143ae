//! Trees in an arena, whose nodes are linked by an index and a stamp, as indextree's are.

use crate::laps::{drawn, mix, Laps};
use std::num::NonZeroUsize;

#[derive(Clone, Copy, PartialEq)]
struct Id {
    index: NonZeroUsize,
    stamp: u16,
}

#[derive(Default)]
struct Node {
    parent: Option<Id>,
    previous: Option<Id>,
    next: Option<Id>,
    first: Option<Id>,
    last: Option<Id>,
    stamp: u16,
    is_live: bool,
    number: u64,
}

#[derive(Default)]
struct Arena {
    nodes: Vec<Node>,
    free: Vec<usize>,
}

impl Arena {
    fn get(&self, id: Id) -> Option<&Node> {
        let node = self.nodes.get(id.index.get() - 1)?;
        (node.is_live && node.stamp == id.stamp).then_some(node)
    }

    fn get_mut(&mut self, id: Id) -> Option<&mut Node> {
        let node = self.nodes.get_mut(id.index.get() - 1)?;
        (node.is_live && node.stamp == id.stamp).then_some(node)
    }

    fn add_root(&mut self, number: u64) -> Id {
        let index = self.free.pop().unwrap_or_else(|| {
            self.nodes.push(Node::default());
            self.nodes.len() - 1
        });
        let node = &mut self.nodes[index];
        node.is_live = true;
        node.number = number;
        let stamp = node.stamp;
        let index = NonZeroUsize::MIN.saturating_add(index);
        Id { index, stamp }
    }

    fn add_child(&mut self, parent: Id, number: u64) -> Option<Id> {
        self.get(parent)?;
        let node = self.add_root(number);
        self.append(parent, node)?;
        Some(node)
    }

    fn append(&mut self, parent: Id, id: Id) -> Option<()> {
        let last = self.get(parent)?.last;
        let node = self.get_mut(id)?;
        node.parent = Some(parent);
        node.previous = last;
        node.next = None;
        match last {
            Some(last) => self.get_mut(last)?.next = Some(id),
            None => self.get_mut(parent)?.first = Some(id),
        }
        self.get_mut(parent)?.last = Some(id);
        Some(())
    }

    fn detach(&mut self, id: Id) -> Option<()> {
        let node = self.get_mut(id)?;
        let (parent, previous, next) = (node.parent.take(), node.previous.take(), node.next.take());
        match (previous, parent) {
            (Some(previous), _) => self.get_mut(previous)?.next = next,
            (None, Some(parent)) => self.get_mut(parent)?.first = next,
            (None, None) => {}
        }
        match (next, parent) {
            (Some(next), _) => self.get_mut(next)?.previous = previous,
            (None, Some(parent)) => self.get_mut(parent)?.last = previous,
            (None, None) => {}
        }
        Some(())
    }

    fn is_below(&self, id: Id, top: Id) -> bool {
        let mut next = Some(id);
        while let Some(id) = next {
            if id == top {
                return true;
            }
            next = self.get(id).and_then(|node| node.parent);
        }
        false
    }

    /// Moves a node below another, if that isn't below it.
    fn move_to(&mut self, id: Id, parent: Id) -> Option<()> {
        if self.is_below(parent, id) {
            return None;
        }
        self.detach(id)?;
        self.append(parent, id)
    }

    /// The node that is read after one, within the subtree of `top`.
    fn after(&self, id: Id, top: Id) -> Option<Id> {
        if let Some(first) = self.get(id)?.first {
            return Some(first);
        }
        let mut id = id;
        while id != top {
            let node = self.get(id)?;
            if node.next.is_some() {
                return node.next;
            }
            id = node.parent?;
        }
        None
    }

    /// The nodes of the subtree of `top`, each before its children.
    fn outline(&self, top: Id) -> impl Iterator<Item = Id> + '_ {
        std::iter::successors(Some(top), move |id| self.after(*id, top))
    }

    fn remove_subtree(&mut self, top: Id) -> Option<Vec<Id>> {
        self.detach(top)?;
        let ids: Vec<Id> = self.outline(top).collect();
        for id in &ids {
            let index = id.index.get() - 1;
            let stamp = id.stamp.wrapping_add(1);
            self.nodes[index] = Node { stamp, ..Node::default() };
            self.free.push(index);
        }
        Some(ids)
    }
}

#[inline(never)]
fn add(arena: &mut Arena, ids: &mut Vec<Id>, n: usize) {
    ids.push(arena.add_root(0));
    for i in 1..n {
        ids.push(arena.add_child(ids[i / 4], i as u64).unwrap());
    }
}

#[inline(never)]
fn get(arena: &Arena, ids: &[Id], order: &[usize], mut seen: u64) -> u64 {
    for &i in order {
        seen = mix(seen, arena.get(ids[i]).unwrap().number);
    }
    seen
}

#[inline(never)]
fn children(arena: &Arena, ids: &[Id], order: &[usize], mut seen: u64) -> u64 {
    for &i in order {
        let mut next = arena.get(ids[i]).unwrap().first;
        while let Some(id) = next {
            let node = arena.get(id).unwrap();
            seen = mix(seen, node.number);
            next = node.next;
        }
    }
    seen
}

#[inline(never)]
fn ancestors(arena: &Arena, ids: &[Id], order: &[usize], mut seen: u64) -> u64 {
    for &i in order {
        let mut next = arena.get(ids[i]).unwrap().parent;
        while let Some(id) = next {
            seen = seen.wrapping_add(1);
            next = arena.get(id).unwrap().parent;
        }
    }
    seen
}

#[inline(never)]
fn outline(arena: &Arena, top: Id, mut seen: u64) -> u64 {
    for id in arena.outline(top) {
        seen = mix(seen, arena.get(id).unwrap().number);
    }
    seen
}

#[inline(never)]
fn move_to(arena: &mut Arena, ids: &[Id], order: &[usize], mut seen: u64) -> u64 {
    for (&node, &parent) in order.iter().zip(order.iter().rev()) {
        if arena.move_to(ids[node], ids[parent / 2]).is_some() {
            seen = seen.wrapping_add(1);
        }
    }
    seen
}

#[inline(never)]
fn remove_subtree(arena: &mut Arena, top: Id, seen: u64) -> u64 {
    mix(seen, arena.remove_subtree(top).unwrap().len() as u64)
}

pub fn run(laps: &mut Laps, n: usize) -> u64 {
    let order = drawn(n);
    let mut arena = Arena::default();
    let mut ids = Vec::new();
    let mut seen = 0;
    laps.lap("add", 1, &mut seen, |seen| (add(&mut arena, &mut ids, n), seen).1);
    laps.lap("get", 10, &mut seen, |seen| get(&arena, &ids, &order, seen));
    laps.lap("children", 5, &mut seen, |seen| children(&arena, &ids, &order, seen));
    laps.lap("ancestors", 1, &mut seen, |seen| ancestors(&arena, &ids, &order, seen));
    laps.lap("outline", 10, &mut seen, |seen| outline(&arena, ids[0], seen));
    laps.lap("move_to", 1, &mut seen, |seen| move_to(&mut arena, &ids, &order, seen));
    laps.lap("remove_subtree", 1, &mut seen, |seen| remove_subtree(&mut arena, ids[0], seen));
    seen
}
