//! Sessions as a map of maps, whose values have keys of a `SlotMap`.

use crate::laps::{drawn, mix, Laps};
use slotmap::{DefaultKey, SlotMap};
use std::collections::HashMap;

#[derive(Default)]
struct Session {
    used_at: u64,
    entries: HashMap<u64, DefaultKey>,
}

#[derive(Default)]
struct Table {
    store: SlotMap<DefaultKey, u64>,
    sessions: HashMap<u64, Session>,
}

impl Table {
    fn put(&mut self, id: u64, key: u64, number: u64) -> Option<DefaultKey> {
        let session = self.sessions.get_mut(&id)?;
        let entry = self.store.insert(number);
        if let Some(old) = session.entries.insert(key, entry) {
            self.store.remove(old);
        }
        Some(entry)
    }

    fn logout(&mut self, id: u64) -> Option<()> {
        for entry in self.sessions.remove(&id)?.entries.into_values() {
            self.store.remove(entry);
        }
        Some(())
    }

    fn touch(&mut self, id: u64, now: u64) -> Option<()> {
        self.sessions.get_mut(&id)?.used_at = now;
        Some(())
    }

    fn expire(&mut self, before: u64) -> usize {
        let old: Vec<u64> = self.sessions.iter().filter(|it| it.1.used_at < before).map(|it| *it.0).collect();
        for &id in &old {
            self.logout(id).unwrap();
        }
        old.len()
    }
}

#[inline(never)]
fn login(table: &mut Table, n: usize) {
    for i in 0..n / 10 {
        table.sessions.insert(i as u64, Session::default());
    }
}

#[inline(never)]
fn put(table: &mut Table, entries: &mut Vec<DefaultKey>, n: usize) {
    for i in 0..n {
        entries.push(table.put((i % (n / 10)) as u64, i as u64, i as u64).unwrap());
    }
}

#[inline(never)]
fn get(table: &Table, entries: &[DefaultKey], order: &[usize], mut seen: u64) -> u64 {
    for &i in order {
        seen = mix(seen, *table.store.get(entries[i]).unwrap());
    }
    seen
}

#[inline(never)]
fn entry(table: &Table, order: &[usize], mut seen: u64) -> u64 {
    let sessions = order.len() / 10;
    for &i in order {
        let entry = table.sessions[&((i % sessions) as u64)].entries[&(i as u64)];
        seen = mix(seen, *table.store.get(entry).unwrap());
    }
    seen
}

#[inline(never)]
fn entries(table: &Table, n: usize, mut seen: u64) -> u64 {
    for i in 0..n / 10 {
        for entry in table.sessions[&(i as u64)].entries.values() {
            seen = seen.wrapping_add(*table.store.get(*entry).unwrap());
        }
    }
    seen
}

#[inline(never)]
fn touch(table: &mut Table, order: &[usize]) {
    let sessions = order.len() / 10;
    for &i in order.iter().filter(|&&i| i < sessions) {
        table.touch(i as u64, 7).unwrap();
    }
}

#[inline(never)]
fn expire(table: &mut Table, n: usize, mut seen: u64) -> u64 {
    for _ in 0..n / 1000 {
        seen = mix(seen, table.expire(7) as u64);
    }
    seen
}

#[inline(never)]
fn logout(table: &mut Table, order: &[usize]) {
    let sessions = order.len() / 10;
    for &i in order.iter().filter(|&&i| i < sessions) {
        table.logout(i as u64).unwrap();
    }
}

pub fn run(laps: &mut Laps, n: usize) -> u64 {
    let order = drawn(n);
    let mut table = Table::default();
    let mut list = Vec::new();
    let mut seen = 0;
    laps.lap("login", 1, &mut seen, |seen| (login(&mut table, n), seen).1);
    laps.lap("put", 1, &mut seen, |seen| (put(&mut table, &mut list, n), seen).1);
    laps.lap("get", 10, &mut seen, |seen| get(&table, &list, &order, seen));
    laps.lap("entry", 5, &mut seen, |seen| entry(&table, &order, seen));
    laps.lap("entries", 5, &mut seen, |seen| entries(&table, n, seen));
    laps.lap("touch", 1, &mut seen, |seen| (touch(&mut table, &order), seen).1);
    laps.lap("expire", 1, &mut seen, |seen| expire(&mut table, n, seen));
    laps.lap("logout", 1, &mut seen, |seen| (logout(&mut table, &order), seen).1);
    seen
}
