//! Map files. The Rust has none: beside ours stand a writer and a reader by document 02's sentences, over the Rust's maps
//! and the standard library's `to_le_bytes` and `from_le_bytes`.

use sibukyaran::lent::{self as ours, FileMapNumbers, FileRoomNumbers, Map, Numbers};

use crate::bench::{Bench, keep};
use crate::calls::Expected;
use crate::diagonals::{
    Stored, Written, any_map, buffers, damaged, every_map, in_front, map_words, right_map_refusal, right_written,
    rust_map, slot_counts, wide_map, written,
};
use crate::guards::Lent;
use crate::random::Random;
use crate::sample::Sample;
use crate::tally::{Cases, Tally};

/// The file of a well-formed map.
pub fn file_of(map: Map) -> Vec<u8> {
    let rust = rust_map(map);
    let stretches: Vec<_> = rust.indexes().into_iter().map(|k| (k as u32, rust.get(k).unwrap())).collect();
    let mut file = Vec::new();
    file.extend((rust.slots() as u32).to_le_bytes());
    file.extend((stretches.len() as u32).to_le_bytes());
    for (offset, values) in &stretches {
        file.extend(offset.to_le_bytes());
        file.extend((values.len() as u32).to_le_bytes());
    }
    for (_, values) in &stretches {
        values.iter().for_each(|value| file.extend(value.0.to_le_bytes()));
    }
    file
}

/// Takes four bytes off the front, least first.
fn next_word(bytes: &mut &[u8]) -> Option<u32> {
    let (word, rest) = bytes.split_first_chunk()?;
    *bytes = rest;
    Some(u32::from_le_bytes(*word))
}

/// The map of a file, or none where the bytes are no file.
pub fn map_of(mut bytes: &[u8]) -> Option<Stored> {
    let slots = next_word(&mut bytes)? as usize;
    let count = next_word(&mut bytes)?;
    let mut map = Stored { slots, ..Default::default() };
    let mut total = 0u128;
    for _ in 0..count {
        let (offset, length) = (next_word(&mut bytes)?, next_word(&mut bytes)?);
        map.pairs.extend([offset, length]);
        map.count += 1;
        total += length as u128;
    }
    if bytes.len() as u128 != 8 * total {
        return None;
    }
    map.values.extend(bytes.as_chunks().0.iter().map(|value| u64::from_le_bytes(*value)));
    (right_map_refusal(map.lent()) == 0).then_some(map)
}

fn right_size(map: Map) -> Numbers {
    match right_map_refusal(map) {
        0 => Numbers::is(file_of(map).len()),
        refusal => Numbers::refused(refusal),
    }
}

fn right_file(map: Map, out: &[u8]) -> (Numbers, Vec<u8>) {
    let refusal = right_map_refusal(map);
    if refusal != 0 {
        return (Numbers::refused(refusal), out.to_vec());
    }
    let file = file_of(map);
    match in_front(&file, out) {
        Some(bytes) => (Numbers::is(file.len()), bytes),
        None => (Numbers::refused(12), out.to_vec()),
    }
}

fn right_room(bytes: &[u8]) -> FileRoomNumbers {
    match map_of(bytes) {
        Some(map) => FileRoomNumbers { refusal: 0, pairs: map.pairs.len(), values: map.values.len() },
        None => FileRoomNumbers { refusal: 13, pairs: 0, values: 0 },
    }
}

fn right_read(bytes: &[u8], pairs: &[u32], values: &[u64]) -> Written<FileMapNumbers> {
    let (refusal, map) = map_of(bytes).map_or((13, Stored::default()), |map| (0, map));
    let slots = map.slots;
    let (Numbers { refusal, value: count }, p, v) = right_written(refusal, || map, pairs, values);
    (FileMapNumbers { refusal, slots: if refusal == 0 { slots } else { 0 }, count }, p, v)
}

fn same_size_and_file(cases: &mut Cases, map: &Stored, random: &mut Random) {
    let right = right_size(map.lent());
    cases.same(|| format!("{map:?}"), ours::map_file_size(map.lent()), right);
    let size = right.value;
    for n in [size.saturating_sub(1), size, size + 1 + random.below(9)] {
        let held: Vec<u8> = (0..n).map(|_| random.word() as u8).collect();
        let mut lent = Lent::new(&held);
        let answer = ours::write_map_file(map.lent(), lent.part());
        let (right, bytes) = right_file(map.lent(), &held);
        cases.same(|| format!("{map:?} {n}"), (answer, lent.back()), (right, (bytes, true)));
    }
}

/// The room of bytes, and what is read of them into buffers of some lengths.
fn same_room_and_map(cases: &mut Cases, bytes: &[u8], lent: &[(Vec<u32>, Vec<u64>)]) {
    cases.same(|| format!("{bytes:?}"), ours::map_file_room(bytes), right_room(bytes));
    for (pairs, values) in lent {
        let right = right_read(bytes, pairs, values);
        let ours = written(pairs, values, |p, v| ours::read_map_file(bytes, p, v));
        cases.same(|| format!("{bytes:?}"), ours, (right, true));
    }
}

/// Room for the map of any small file.
fn small_room() -> [(Vec<u32>, Vec<u64>); 1] {
    [(vec![7; 16], vec![7; 32])]
}

/// The files of all maps over 0 and 1 of up to n slots.
fn small_files(n: usize) -> impl Iterator<Item = Vec<u8>> {
    (1..=n).flat_map(every_map).map(|map| file_of(Stored::of(&map).lent()))
}

/// Slots, count, offset and length at the limits, with and without bytes that could be values, and no bytes at all.
fn limits() -> Vec<Vec<u8>> {
    let edges = [0, 1, 2, 3, 65_535, 65_536, 65_537, 1 << 31, u32::MAX - 1, u32::MAX];
    let mut all = vec![Vec::new()];
    for slots in edges {
        for count in edges {
            for offset in [0, u32::MAX] {
                for length in edges {
                    let pairs = [offset, length, offset, length].map(u32::to_le_bytes).concat();
                    let head = [slots, count].map(u32::to_le_bytes).concat();
                    all.push([head.clone(), pairs.clone()].concat());
                    all.push([head, pairs, vec![1; 16]].concat());
                }
            }
        }
    }
    all
}

pub fn compare(tally: &mut Tally) {
    let mut random = Random::new(61);
    tally.run(
        "write_map_file, map_file_size: all maps over 0 and 1 of up to 3 slots, out full, short, longer",
        |cases| {
            for slots in 1..=3 {
                for map in every_map(slots) {
                    same_size_and_file(cases, &Stored::of(&map).longer(&mut random), &mut random);
                }
            }
        },
    );
    tally.run("write_map_file, map_file_size: random and damaged maps, out full, short, longer", |cases| {
        for slots in slot_counts() {
            for _ in 0..2 {
                let map = Stored::of(&any_map(&mut random, slots)).longer(&mut random);
                for map in [vec![map.clone()], damaged(&map, &mut random)].concat() {
                    same_size_and_file(cases, &map, &mut random);
                }
            }
        }
    });
    tally.run(
        "read_map_file, map_file_room: all files of up to 3 slots, their prefixes and one-byte extensions",
        |cases| {
            for file in small_files(3) {
                let map = map_of(&file).unwrap();
                same_room_and_map(cases, &file, &buffers(&mut random, &map));
                for n in 0..file.len() {
                    same_room_and_map(cases, &file[..n], &small_room());
                }
                for byte in 0..=255 {
                    same_room_and_map(cases, &[file.as_slice(), &[byte]].concat(), &small_room());
                }
            }
        },
    );
    tally.run(
        "read_map_file, map_file_room: every change of one byte of files of up to 2 slots, and of some of 3",
        |cases| {
            for (at, file) in small_files(3).enumerate() {
                if at > 60 && at % 40 != 0 {
                    continue;
                }
                for i in 0..file.len() {
                    for change in 1..=255 {
                        let mut bytes = file.clone();
                        bytes[i] ^= change;
                        same_room_and_map(cases, &bytes, &small_room());
                        // What is read is written as the same file.
                        let (mut p, mut v) = small_room()[0].clone();
                        let read = ours::read_map_file(&bytes, &mut p, &mut v);
                        if read.refusal == 0 {
                            let map = Map { slots: read.slots, count: read.count, pairs: &p, values: &v };
                            let mut out = vec![0; bytes.len()];
                            let size = ours::write_map_file(map, &mut out);
                            cases.same(|| format!("{bytes:?}"), (size, &out), (Numbers::is(bytes.len()), &bytes));
                        }
                    }
                }
            }
        },
    );
    tally.run("read_map_file, map_file_room: heads at the limits, no bytes, random bytes", |cases| {
        for bytes in limits() {
            same_room_and_map(cases, &bytes, &small_room());
        }
        for _ in 0..20_000 {
            let bytes: Vec<u8> = (0..random.below(40)).map(|_| (random.word() % 4) as u8).collect();
            same_room_and_map(cases, &bytes, &small_room());
        }
    });
    tally.run("read_map_file, map_file_room: files of random maps, buffers full, short and longer", |cases| {
        for slots in slot_counts() {
            for _ in 0..3 {
                let map = Stored::of(&any_map(&mut random, slots));
                let file = file_of(map.lent());
                let lent = buffers(&mut random, &map);
                same_room_and_map(cases, &file, &lent);
                same_room_and_map(cases, &file[..file.len() - 1], &lent);
                let mut bytes = file.clone();
                let at = random.below(file.len().min(8 + 4 * map.pairs.len()));
                bytes[at] ^= 1 << random.below(8);
                same_room_and_map(cases, &bytes, &lent);
            }
        }
    });
    tally.run("map files of 511 diagonals of 65,536 values", |cases| {
        let map = Stored::of(&wide_map(&mut random, 511, 65_536));
        let file = file_of(map.lent());
        let mut out = vec![7; file.len()];
        let size = ours::write_map_file(map.lent(), &mut out);
        cases.same(|| "the answer".into(), size, Numbers::is(file.len()));
        cases.same(|| "the bytes".into(), out == file, true);
        let (mut p, mut v) = (vec![7; map.pairs.len()], vec![7; map.values.len()]);
        let read = ours::read_map_file(&file, &mut p, &mut v);
        cases.same(|| "the numbers".into(), read, FileMapNumbers { refusal: 0, slots: 65_536, count: 511 });
        cases.same(|| "the words".into(), p == map.pairs && v == map.values, true);
    });
}

fn bytes_as_words(bytes: &[u8]) -> Vec<u64> {
    bytes.iter().map(|&byte| byte as u64).collect()
}

pub fn sample(sample: &mut Sample) {
    let mut random = Random::new(62);
    for slots in [1, 2, 3, 4] {
        let map = Stored::of(&any_map(&mut random, slots)).longer(&mut random);
        let damaged = damaged(&map, &mut random);
        for map in [&map, &damaged[random.below(damaged.len())]] {
            let words = map_words(map.lent());
            let size = right_size(map.lent());
            sample.call(40, &words, &[size.refusal as u64, size.value as u64]);
            for n in [size.value.saturating_sub(1), size.value, size.value + 2] {
                let (answer, bytes) = right_file(map.lent(), &vec![7; n]);
                let answer = [vec![answer.refusal as u64, answer.value as u64], bytes_as_words(&bytes)].concat();
                sample.call(41, &[vec![n as u64], words.clone()].concat(), &answer);
            }
        }
        let map = Stored::of(&rust_map(map.lent()));
        let file = file_of(map.lent());
        let mut all = vec![file.clone(), [file.as_slice(), &[0]].concat(), file[..file.len() - 1].to_vec()];
        for i in (0..file.len().min(8 + 4 * map.pairs.len())).step_by(2) {
            let mut bytes = file.clone();
            bytes[i] ^= 1 << random.below(8);
            all.push(bytes);
        }
        for bytes in all {
            let room = right_room(&bytes);
            let words = bytes_as_words(&bytes);
            let answer = [room.refusal as u64, room.pairs as u64, room.values as u64];
            sample.call(42, &words, &answer);
            let (p, v) = (room.pairs, room.values);
            let mut lengths = vec![(p + 1, v + 1), (p, v), (p, v.saturating_sub(1))];
            lengths.dedup();
            for (p, v) in lengths {
                let (read, pairs, values) = right_read(&bytes, &vec![7; p], &vec![7; v]);
                let head = [read.refusal as u64, read.slots as u64, read.count as u64];
                let answer = [head.to_vec(), pairs.iter().map(|&w| w as u64).collect(), values].concat();
                sample.call(43, &[vec![p as u64, v as u64], words.clone()].concat(), &answer);
            }
        }
    }
}

/// A plain loop that writes a map's file, for the time beside ours: it tests nothing.
fn plain_write(map: Map, out: &mut [u8]) {
    out[..4].copy_from_slice(&(map.slots as u32).to_le_bytes());
    out[4..8].copy_from_slice(&(map.count as u32).to_le_bytes());
    for (i, word) in map.pairs.iter().enumerate() {
        let at = 8 + 4 * i;
        out[at..at + 4].copy_from_slice(&word.to_le_bytes());
    }
    let from = 8 + 4 * map.pairs.len();
    for (j, value) in map.values.iter().enumerate() {
        let at = from + 8 * j;
        out[at..at + 8].copy_from_slice(&value.to_le_bytes());
    }
}

/// One that reads it.
fn plain_read(bytes: &[u8], pairs: &mut [u32], values: &mut [u64]) {
    for (i, word) in pairs.iter_mut().enumerate() {
        let at = 8 + 4 * i;
        *word = u32::from_le_bytes(bytes[at..at + 4].try_into().unwrap());
    }
    let from = 8 + 4 * pairs.len();
    for (j, value) in values.iter_mut().enumerate() {
        let at = from + 8 * j;
        *value = u64::from_le_bytes(bytes[at..at + 8].try_into().unwrap());
    }
}

/// The values alone by iterators, of which the compiler makes one copy of memory. What that takes goes by where the two
/// stand in their pages.
fn copied_write(values: &[u64], out: &mut [u8]) {
    out.chunks_exact_mut(8).zip(values).for_each(|(bytes, value)| bytes.copy_from_slice(&value.to_le_bytes()));
}

fn copied_read(bytes: &[u8], values: &mut [u64]) {
    let words = bytes.chunks_exact(8).map(|bytes| u64::from_le_bytes(bytes.try_into().unwrap()));
    values.iter_mut().zip(words).for_each(|(value, word)| *value = word);
}

pub fn bench(bench: &mut Bench) {
    let mut random = Random::new(63);
    for count in [511, 510] {
        let map = Stored::of(&wide_map(&mut random, count, 65_536));
        let from = 8 + 8 * count;
        let mut out = vec![0; from + 8 * map.values.len()];
        let mut second = out.clone();
        let reach = (count == 511).then_some(0.8);
        bench.pair(
            &format!("write_map_file, {count} by 65,536, a plain loop"),
            reach,
            || ours::write_map_file(keep(map.lent()), &mut out),
            || plain_write(keep(map.lent()), &mut second),
        );
        bench.pair(
            &format!("write_map_file, {count} by 65,536, a copy of memory"),
            None,
            || ours::write_map_file(keep(map.lent()), &mut out),
            || copied_write(keep(&map.values), &mut second[from..]),
        );
        let (mut p, mut v) = (map.pairs.clone(), map.values.clone());
        let (mut p2, mut v2) = (map.pairs.clone(), map.values.clone());
        bench.pair(
            &format!("read_map_file, {count} by 65,536, a plain loop"),
            reach,
            || ours::read_map_file(keep(&out), &mut p, &mut v),
            || plain_read(keep(&out), &mut p2, &mut v2),
        );
        bench.pair(
            &format!("read_map_file, {count} by 65,536, a copy of memory"),
            None,
            || ours::read_map_file(keep(&out), &mut p, &mut v),
            || copied_read(keep(&out[from..]), &mut v2),
        );
    }
}
