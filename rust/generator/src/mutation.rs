//! Mutated files: changes that know nothing of a file but the length of its records.

use crate::damage::swap_records;
use crate::generate::Random;
use second::record::RECORD_LEN;
use std::ops::Range;

/// The file after one to four changes, some of which take bytes of the other file.
pub fn mutated(random: &mut Random, file: &[u8], other: &[u8]) -> Vec<u8> {
    let mut bytes = file.to_vec();
    for _ in 0..1 + random.below(4) {
        match random.below(6) {
            0 | 1 => flip_bit(random, &mut bytes),
            2 => cut(random, &mut bytes),
            3 => insert(random, &mut bytes),
            4 => swap_records(random, &mut bytes),
            _ => splice(random, &mut bytes, other),
        }
    }
    bytes
}

fn flip_bit(random: &mut Random, bytes: &mut [u8]) {
    if !bytes.is_empty() {
        let at = random.below(bytes.len());
        bytes[at] ^= 1 << random.below(8);
    }
}

/// A part goes, mostly whole records.
fn cut(random: &mut Random, bytes: &mut Vec<u8>) {
    let part = part(random, bytes.len());
    bytes.drain(part);
}

/// Up to two records of any bytes, mostly whole ones.
fn insert(random: &mut Random, bytes: &mut Vec<u8>) {
    let at = place(random, bytes.len());
    let length = place(random, 2 * RECORD_LEN);
    let any = random.bytes(length);
    bytes.splice(at..at, any);
}

/// A part of the other file in place of the end, or before it.
fn splice(random: &mut Random, bytes: &mut Vec<u8>, other: &[u8]) {
    let at = place(random, bytes.len());
    let replaced = if random.once_in(2) { at..bytes.len() } else { at..at };
    let part = part(random, other.len());
    bytes.splice(replaced, other[part].iter().copied());
}

fn part(random: &mut Random, length: usize) -> Range<usize> {
    let [one, other] = [(); 2].map(|()| place(random, length));
    one.min(other)..one.max(other)
}

/// A place in so many bytes or behind them, mostly between two records.
fn place(random: &mut Random, length: usize) -> usize {
    match random.once_in(16) {
        true => random.below(length + 1),
        false => random.below(length / RECORD_LEN + 1) * RECORD_LEN,
    }
}
