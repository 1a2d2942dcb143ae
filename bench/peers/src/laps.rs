//! What each operation took, and the order in which things are looked at.

use std::time::Instant;

/// The nanoseconds of each operation, in the order of the first lap of each.
#[derive(Default)]
pub struct Laps {
    list: Vec<(&'static str, u128)>,
}

impl Laps {
    /// Makes an operation as often as this, and adds its time. What it saw goes into the next time.
    pub fn lap(&mut self, name: &'static str, times: u32, seen: &mut u64, mut operation: impl FnMut(u64) -> u64) {
        let start = Instant::now();
        for _ in 0..times {
            *seen = operation(*seen);
        }
        let taken = start.elapsed().as_nanos();
        match self.list.iter_mut().find(|lap| lap.0 == name) {
            Some(lap) => lap.1 += taken,
            None => self.list.push((name, taken)),
        }
    }

    /// Prints a line for each operation.
    pub fn print(&self) {
        for (name, nanos) in &self.list {
            println!("{name} {nanos}");
        }
    }
}

/// The places below n in an order drawn by a linear generator, as in `bench_libraries`.
pub fn drawn(n: usize) -> Vec<usize> {
    let mut list: Vec<usize> = (0..n).collect();
    let mut state: u64 = 7;
    for i in (1..n).rev() {
        state = state
            .wrapping_mul(6364136223846793005)
            .wrapping_add(1442695040888963407);
        list.swap(i, (state >> 33) as usize % (i + 1));
    }
    list
}

/// What was seen before, and a number.
pub fn mix(seen: u64, number: u64) -> u64 {
    seen.wrapping_mul(3).wrapping_add(number)
}
