//! Parts that places share by `Rc`. A place has no handle: who holds the list of places is their owner.

use crate::laps::{drawn, mix, Laps};
use std::cell::RefCell;
use std::rc::Rc;

type Place = Option<Rc<RefCell<u64>>>;

#[inline(never)]
fn add(places: &mut Vec<Place>, n: usize) {
    for i in 0..n / 10 {
        places.push(Some(Rc::new(RefCell::new(i as u64))));
    }
}

#[inline(never)]
fn repeat(places: &mut Vec<Place>, n: usize) {
    for i in n / 10..n {
        places.push(places[i % (n / 10)].clone());
    }
}

#[inline(never)]
fn get(places: &[Place], order: &[usize], mut seen: u64) -> u64 {
    for &i in order {
        seen = mix(seen, *places[i].as_ref().unwrap().borrow());
    }
    seen
}

#[inline(never)]
fn set(places: &[Place], order: &[usize]) {
    for &i in order {
        *places[i].as_ref().unwrap().borrow_mut() = i as u64;
    }
}

#[inline(never)]
fn exchange(places: &mut [Place], order: &[usize]) {
    for (&to, &from) in order.iter().zip(order.iter().rev()) {
        places[to] = places[from].clone();
    }
}

#[inline(never)]
fn remove(places: &mut [Place], order: &[usize]) {
    for &i in order {
        places[i] = None;
    }
}

pub fn run(laps: &mut Laps, n: usize) -> u64 {
    let order = drawn(n);
    let mut places = Vec::new();
    let mut seen = 0;
    laps.lap("add", 1, &mut seen, |seen| (add(&mut places, n), seen).1);
    laps.lap("repeat", 1, &mut seen, |seen| (repeat(&mut places, n), seen).1);
    laps.lap("get", 10, &mut seen, |seen| get(&places, &order, seen));
    laps.lap("set", 1, &mut seen, |seen| (set(&places, &order), seen).1);
    laps.lap("exchange", 1, &mut seen, |seen| (exchange(&mut places, &order), seen).1);
    laps.lap("remove", 1, &mut seen, |seen| (remove(&mut places, &order), seen).1);
    seen
}
