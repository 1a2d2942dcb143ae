//! `peers LIST N REPS` makes the operations of `bench_libraries` over what a user would pick instead.
//!
//! | LIST              | the things                                                      |
//! |-------------------|-----------------------------------------------------------------|
//! | `entities`        | keys of a `SlotMap`, components in a `SecondaryMap`             |
//! | `entities-dense`  | keys of a `DenseSlotMap`, components in a `SecondaryMap`        |
//! | `trees`           | nodes of an arena, linked by index and stamp                    |
//! | `sessions`        | keys of a `SlotMap`, found in a `HashMap` of `HashMap`s         |
//! | `documents`       | places that share a part by `Rc`, without a handle of their own |
//! | `documents-slots` | keys of a `SlotMap` of places, which have keys of one of parts  |
//! | `files`           | a list of slots, written and read by a loop                     |
//! | `pull:memo-..`    | nodes of a graph that pulls by revisions                        |
//! | `marks:memo-..`   | nodes of a graph that marks what a change reaches               |
//!
//! It prints what it saw, and the nanoseconds of each operation, of all repetitions together.

mod documents;
mod documents_slots;
mod entities;
mod files;
mod laps;
mod memos;
mod sessions;
mod trees;

use laps::Laps;

fn main() {
    let words: Vec<String> = std::env::args().skip(1).collect();
    let [list, things, repetitions] = &words[..] else {
        panic!("peers LIST N REPS");
    };
    let things = things.parse().expect("N is a number");
    let repetitions = repetitions.parse().expect("REPS is a number");
    let mut laps = Laps::default();
    let seen = memos::with_room(|| (0..repetitions).fold(0, |_, _| run(&mut laps, list, things)));
    println!("seen {seen}");
    laps.print();
}

fn run(laps: &mut Laps, list: &str, things: usize) -> u64 {
    if let Some((graph, work)) = list.split_once(':') {
        return match graph {
            "pull" => memos::pull::run(laps, work, things),
            _ => memos::marks::run(laps, work, things),
        };
    }
    let run = match list {
        "entities" => entities::sparse::run,
        "entities-dense" => entities::dense::run,
        "trees" => trees::run,
        "sessions" => sessions::run,
        "documents" => documents::run,
        "documents-slots" => documents_slots::run,
        "files" => files::run,
        _ => panic!("no list {list}"),
    };
    run(laps, things)
}
