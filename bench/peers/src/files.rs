//! A file of a list of slots, written and read by a loop of one's own, with a sum of its bytes.

use crate::laps::{drawn, mix, Laps};
use std::io::Write;

const MAGIC: u64 = 7;

#[derive(Clone, Copy)]
struct Location {
    file: &'static str,
    line: u32,
    column: u32,
}

#[derive(Clone)]
struct Slot {
    generation: u64,
    value: Option<(u64, Location)>,
}

#[inline(never)]
fn image(slots: &[Slot]) -> Vec<Slot> {
    slots.to_vec()
}

fn sum(bytes: &[u8]) -> u64 {
    let mix = |sum: u64, word: u64| (sum ^ word).wrapping_mul(0x9e37_79b9_7f4a_7c15).rotate_left(31);
    let words = bytes.chunks_exact(8);
    let rest = words.remainder().iter().fold(0, |word, byte| word << 8 | u64::from(*byte));
    let sum = words.fold(1, |sum, word| mix(sum, u64::from_le_bytes(word.try_into().unwrap())));
    mix(sum, rest)
}

fn encode(slots: &[Slot], file: &str, out: &mut Vec<u8>) {
    out.extend_from_slice(&(file.len() as u64).to_le_bytes());
    out.extend_from_slice(file.as_bytes());
    out.extend_from_slice(&(slots.len() as u64).to_le_bytes());
    for slot in slots {
        out.extend_from_slice(&slot.generation.to_le_bytes());
        let Some((value, at)) = &slot.value else {
            out.push(0);
            continue;
        };
        assert_eq!(at.file, file);
        out.push(1);
        out.extend_from_slice(&0u64.to_le_bytes());
        out.extend_from_slice(&at.line.to_le_bytes());
        out.extend_from_slice(&at.column.to_le_bytes());
        out.extend_from_slice(&value.to_le_bytes());
    }
}

#[inline(never)]
fn save(slots: &[Slot]) -> Vec<u8> {
    let mut bytes = Vec::new();
    encode(slots, "files.rt", &mut bytes);
    let mut file = Vec::new();
    for number in [MAGIC, bytes.len() as u64, sum(&bytes)] {
        file.write_all(&number.to_le_bytes()).unwrap();
    }
    file.write_all(&bytes).unwrap();
    file
}

#[inline(never)]
fn copy(bytes: &[u8]) -> Vec<u8> {
    let mut file = Vec::new();
    file.write_all(bytes).unwrap();
    file
}

struct Input<'a>(&'a [u8]);

impl<'a> Input<'a> {
    fn take(&mut self, n: usize) -> Option<&'a [u8]> {
        let (taken, rest) = self.0.split_at_checked(n)?;
        self.0 = rest;
        Some(taken)
    }

    fn word(&mut self) -> Option<u64> {
        Some(u64::from_le_bytes(self.take(8)?.try_into().ok()?))
    }

    fn half(&mut self) -> Option<u32> {
        Some(u32::from_le_bytes(self.take(4)?.try_into().ok()?))
    }
}

fn slot(input: &mut Input, file: &'static str) -> Option<Slot> {
    let generation = input.word()?;
    if input.take(1)? == [0] {
        return Some(Slot { generation, value: None });
    }
    input.word()?;
    let (line, column) = (input.half()?, input.half()?);
    let value = input.word()?;
    Some(Slot { generation, value: Some((value, Location { file, line, column })) })
}

#[inline(never)]
fn load(bytes: &[u8]) -> Option<Vec<Slot>> {
    let mut input = Input(bytes);
    let (magic, len, expected) = (input.word()?, input.word()?, input.word()?);
    if magic != MAGIC || len != input.0.len() as u64 || sum(input.0) != expected {
        return None;
    }
    let length = input.word()?;
    if input.take(length as usize)? != b"files.rt" {
        return None;
    }
    let count = input.word()?;
    (0..count).map(|_| slot(&mut input, "files.rt")).collect()
}

#[inline(never)]
fn make(slots: Vec<Slot>) -> Vec<Slot> {
    let mut made = Vec::with_capacity(slots.len());
    made.extend(slots);
    made
}

pub fn run(laps: &mut Laps, n: usize) -> u64 {
    let at = Location { file: "files.rt", line: 9, column: 9 };
    let value = |number: usize| Some((number as u64, at));
    let slots: Vec<Slot> = drawn(n).into_iter().map(|it| Slot { generation: 1, value: value(it) }).collect();
    let (mut seen, mut saved, mut file, mut copied, mut loaded) = (0, vec![], vec![], vec![], vec![]);
    laps.lap("image", 1, &mut seen, |seen| (saved = image(&slots), seen).1);
    laps.lap("save", 1, &mut seen, |seen| (file = save(&saved), seen).1);
    laps.lap("copy", 1, &mut seen, |seen| (copied = copy(&file), seen).1);
    laps.lap("load", 1, &mut seen, |seen| (loaded = load(&copied).unwrap(), seen).1);
    seen = loaded.iter().fold(0, |seen, slot| mix(seen, slot.value.unwrap().0));
    laps.lap("make", 1, &mut seen, |seen| (loaded = make(std::mem::take(&mut loaded)), seen).1);
    seen
}
