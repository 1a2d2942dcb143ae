//! Entities under keys of slotmap's maps.

macro_rules! entities {
    ($module:ident, $map:ident) => {
        pub mod $module {
            use crate::laps::{drawn, mix, Laps};
            use slotmap::{DefaultKey, SecondaryMap, $map};

            type Map = $map<DefaultKey, u64>;
            type Parts = SecondaryMap<DefaultKey, u64>;

            #[inline(never)]
            fn spawn(map: &mut Map, keys: &mut Vec<DefaultKey>, n: usize) {
                for i in 0..n {
                    keys.push(map.insert(i as u64));
                }
            }

            #[inline(never)]
            fn get(map: &Map, keys: &[DefaultKey], order: &[usize], mut seen: u64) -> u64 {
                for &i in order {
                    seen = mix(seen, *map.get(keys[i]).unwrap());
                }
                seen
            }

            #[inline(never)]
            fn iter(map: &Map, mut seen: u64) -> u64 {
                for (_, number) in map.iter() {
                    seen = mix(seen, *number);
                }
                seen
            }

            #[inline(never)]
            fn update(map: &mut Map, keys: &[DefaultKey], order: &[usize]) {
                for &i in order {
                    let number = map.get_mut(keys[i]).unwrap();
                    *number = number.wrapping_add(1);
                }
            }

            #[inline(never)]
            fn replace(map: &mut Map, keys: &mut [DefaultKey], order: &[usize]) {
                for &i in order {
                    map.remove(keys[i]).unwrap();
                    keys[i] = map.insert(i as u64);
                }
            }

            #[inline(never)]
            fn attach(parts: &mut Parts, keys: &[DefaultKey]) {
                for &key in keys {
                    parts.insert(key, 7);
                }
            }

            #[inline(never)]
            fn part(parts: &Parts, keys: &[DefaultKey], order: &[usize], mut seen: u64) -> u64 {
                for &i in order {
                    seen = mix(seen, *parts.get(keys[i]).unwrap());
                }
                seen
            }

            #[inline(never)]
            fn parts_iter(parts: &Parts, mut seen: u64) -> u64 {
                for (_, number) in parts.iter() {
                    seen = mix(seen, *number);
                }
                seen
            }

            #[inline(never)]
            fn join(parts: &Parts, map: &Map, mut seen: u64) -> u64 {
                for (key, part) in parts.iter() {
                    if let Some(number) = map.get(key) {
                        seen = mix(seen, *number).wrapping_add(*part);
                    }
                }
                seen
            }

            #[inline(never)]
            fn detach(parts: &mut Parts, keys: &[DefaultKey], order: &[usize]) {
                for &i in order {
                    parts.remove(keys[i]).unwrap();
                }
            }

            #[inline(never)]
            fn despawn(map: &mut Map, keys: &[DefaultKey], order: &[usize]) {
                for &i in order {
                    map.remove(keys[i]).unwrap();
                }
            }

            pub fn run(laps: &mut Laps, n: usize) -> u64 {
                let order = drawn(n);
                let mut map = Map::new();
                let mut parts = Parts::new();
                let mut keys = Vec::new();
                let mut seen = 0;
                laps.lap("spawn", 1, &mut seen, |seen| (spawn(&mut map, &mut keys, n), seen).1);
                laps.lap("get", 10, &mut seen, |seen| get(&map, &keys, &order, seen));
                laps.lap("iter", 10, &mut seen, |seen| iter(&map, seen));
                laps.lap("update", 10, &mut seen, |seen| (update(&mut map, &keys, &order), seen).1);
                laps.lap("replace", 5, &mut seen, |seen| (replace(&mut map, &mut keys, &order), seen).1);
                laps.lap("attach", 1, &mut seen, |seen| (attach(&mut parts, &keys), seen).1);
                laps.lap("part", 10, &mut seen, |seen| part(&parts, &keys, &order, seen));
                laps.lap("parts_iter", 10, &mut seen, |seen| parts_iter(&parts, seen));
                laps.lap("join", 10, &mut seen, |seen| join(&parts, &map, seen));
                laps.lap("detach", 1, &mut seen, |seen| (detach(&mut parts, &keys, &order), seen).1);
                laps.lap("despawn", 1, &mut seen, |seen| (despawn(&mut map, &keys, &order), seen).1);
                seen
            }
        }
    };
}

entities!(sparse, SlotMap);
entities!(dense, DenseSlotMap);
