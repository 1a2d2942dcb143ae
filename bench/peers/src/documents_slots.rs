//! Parts and their places in two `SlotMap`s: a place has a handle, as in a `Document`.

use crate::laps::{drawn, mix, Laps};
use slotmap::{new_key_type, SlotMap};

new_key_type! {
    struct Place;
    struct PartKey;
}

struct Part {
    content: u64,
    places: u32,
}

#[derive(Default)]
struct Document {
    places: SlotMap<Place, PartKey>,
    parts: SlotMap<PartKey, Part>,
}

impl Document {
    fn add(&mut self, content: u64) -> Place {
        let part = self.parts.insert(Part { content, places: 1 });
        self.places.insert(part)
    }

    fn repeat(&mut self, place: Place) -> Option<Place> {
        let part = *self.places.get(place)?;
        self.parts.get_mut(part)?.places += 1;
        Some(self.places.insert(part))
    }

    fn get(&self, place: Place) -> Option<&u64> {
        Some(&self.parts.get(*self.places.get(place)?)?.content)
    }

    fn set(&mut self, place: Place, content: u64) -> Option<()> {
        self.parts.get_mut(*self.places.get(place)?)?.content = content;
        Some(())
    }

    fn exchange(&mut self, place: Place, other: Place) -> Option<()> {
        let new = *self.places.get(other)?;
        let old = std::mem::replace(self.places.get_mut(place)?, new);
        self.parts.get_mut(new)?.places += 1;
        self.leave(old)
    }

    fn remove(&mut self, place: Place) -> Option<()> {
        let part = self.places.remove(place)?;
        self.leave(part)
    }

    /// One place less leads to a part: with the last one it is removed.
    fn leave(&mut self, key: PartKey) -> Option<()> {
        let part = self.parts.get_mut(key)?;
        part.places -= 1;
        if part.places == 0 {
            self.parts.remove(key);
        }
        Some(())
    }
}

#[inline(never)]
fn add(document: &mut Document, places: &mut Vec<Place>, n: usize) {
    for i in 0..n / 10 {
        places.push(document.add(i as u64));
    }
}

#[inline(never)]
fn repeat(document: &mut Document, places: &mut Vec<Place>, n: usize) {
    for i in n / 10..n {
        places.push(document.repeat(places[i % (n / 10)]).unwrap());
    }
}

#[inline(never)]
fn get(document: &Document, places: &[Place], order: &[usize], mut seen: u64) -> u64 {
    for &i in order {
        seen = mix(seen, *document.get(places[i]).unwrap());
    }
    seen
}

#[inline(never)]
fn set(document: &mut Document, places: &[Place], order: &[usize]) {
    for &i in order {
        document.set(places[i], i as u64).unwrap();
    }
}

#[inline(never)]
fn exchange(document: &mut Document, places: &[Place], order: &[usize]) {
    for (&to, &from) in order.iter().zip(order.iter().rev()) {
        document.exchange(places[to], places[from]).unwrap();
    }
}

#[inline(never)]
fn remove(document: &mut Document, places: &[Place], order: &[usize]) {
    for &i in order {
        document.remove(places[i]).unwrap();
    }
}

pub fn run(laps: &mut Laps, n: usize) -> u64 {
    let order = drawn(n);
    let mut document = Document::default();
    let mut places = Vec::new();
    let mut seen = 0;
    laps.lap("add", 1, &mut seen, |seen| (add(&mut document, &mut places, n), seen).1);
    laps.lap("repeat", 1, &mut seen, |seen| (repeat(&mut document, &mut places, n), seen).1);
    laps.lap("get", 10, &mut seen, |seen| get(&document, &places, &order, seen));
    laps.lap("set", 1, &mut seen, |seen| (set(&mut document, &places, &order), seen).1);
    laps.lap("exchange", 1, &mut seen, |seen| (exchange(&mut document, &places, &order), seen).1);
    laps.lap("remove", 1, &mut seen, |seen| (remove(&mut document, &places, &order), seen).1);
    seen
}
