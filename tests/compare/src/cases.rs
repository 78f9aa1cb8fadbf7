//! Cases for encode and decode, from a generator with a fixed seed.
//!
//! A random case starts sound and then gets faults: none, one, or any number of them at once, so that the order of
//! the questions shows.

use common::questions::ALPHABETS;
use common::random::{alter, Random};

use crate::model;

/// All arguments of one call. The buffer that the call fills has its content at entry.
#[derive(Clone, Debug)]
pub struct Case {
    pub q: u32,
    pub m: u32,
    pub message: Vec<u8>,
    pub word: Vec<u8>,
}

/// Sizes that no alphabet has, with the neighbours of 2, 4 and 8 and numbers that wrap to them.
const BAD_ALPHABETS: [u32; 20] =
    [0, 1, 3, 5, 6, 7, 9, 10, 12, 16, 32, 64, 256, 258, 260, 65_544, 1 << 31, (1 << 31) + 4, u32::MAX - 1, u32::MAX];

/// Values of m that no code has, with the neighbours of 2 and 8 and numbers that wrap to 2 to 8.
pub const BAD_M: [u32; 18] =
    [0, 1, 9, 10, 16, 31, 32, 33, 36, 63, 64, 68, 258, 260, 65_540, 1 << 31, (1 << 31) + 4, u32::MAX];

/// Symbols that no alphabet has.
const BAD_SYMBOLS: [u8; 8] = [8, 9, 15, 16, 127, 128, 254, 255];

/// A sound case for encode in this code with up to all of its faults.
pub fn encode_case(random: &mut Random, (q, m): (u32, u32)) -> Case {
    let message = random.symbols(q, m as usize + 1);
    let word = random.bytes(1 << m);
    with_message_faults(random, Case { q, m, message, word })
}

/// A sound case for decode in this code with up to all of its faults.
pub fn decode_case(random: &mut Random, (q, m): (u32, u32)) -> Case {
    let word = received(random, q, m);
    let message = random.bytes(m as usize + 1);
    let mut case = Case { q, m, message, word };
    let faults = faults(random);
    if faults[2] {
        spoil_symbols(random, q, &mut case.word);
    }
    spoil(random, faults, (&mut case.q, &mut case.m), [&mut case.message, &mut case.word]);
    case
}

/// A sound case with up to all faults of a call that asks for the message's symbols and not for the word's.
pub fn with_message_faults(random: &mut Random, mut case: Case) -> Case {
    add_faults(random, (&mut case.q, &mut case.m), [&mut case.message, &mut case.word]);
    case
}

/// Up to all faults of a call on two slices that asks for the symbols of the first and not for those of the second.
pub fn add_faults(random: &mut Random, (q, m): (&mut u32, &mut u32), [first, second]: [&mut Vec<u8>; 2]) {
    let faults = faults(random);
    if faults[2] {
        spoil_symbols(random, *q, first);
    }
    spoil(random, faults, (q, m), [first, second]);
}

/// Which faults a case gets: of q, of m, of a symbol, of the first slice's length, of the second's.
fn faults(random: &mut Random) -> [bool; 5] {
    let mut faults = [false; 5];
    match random.below(8) {
        0 => faults.fill_with(|| random.one_in(2)),
        1 | 2 => faults[random.below(5)] = true,
        _ => {}
    }
    faults
}

fn spoil(random: &mut Random, faults: [bool; 5], (q, m): (&mut u32, &mut u32), slices: [&mut Vec<u8>; 2]) {
    let [alphabet, variables, _, lengths @ ..] = faults;
    if alphabet {
        *q = other_number(random, &BAD_ALPHABETS, &ALPHABETS);
    }
    if variables {
        *m = other_number(random, &BAD_M, &[2, 3, 4, 5, 6, 7, 8]);
    }
    for (slice, length) in slices.into_iter().zip(lengths) {
        if length {
            spoil_length(random, slice);
        }
    }
}

/// A number from the bad ones, any number at all, or one that is good but may not fit the rest of the case.
fn other_number(random: &mut Random, bad: &[u32], good: &[u32]) -> u32 {
    match random.below(8) {
        0 => random.pick(good),
        1 | 2 => random.next() as u32,
        _ => random.pick(bad),
    }
}

/// Some symbols, often the first or the last, get values that are not below q.
pub fn spoil_symbols(random: &mut Random, q: u32, symbols: &mut [u8]) {
    let last = symbols.len() - 1;
    for _ in 0..=random.below(3) {
        let place = match random.below(4) {
            0 => 0,
            1 => last,
            _ => random.below(last + 1),
        };
        symbols[place] = match random.below(3) {
            0 => q as u8,
            1 => q as u8 + symbols[place] % q as u8,
            _ => random.pick(&BAD_SYMBOLS),
        };
    }
}

/// Another length: none, one less, one more, half, double, one that wraps in a byte, or any up to 600.
pub fn spoil_length(random: &mut Random, slice: &mut Vec<u8>) {
    let right = slice.len();
    let length = match random.below(8) {
        0 => 0,
        1 | 2 => right.saturating_sub(1),
        3 | 4 => right + 1,
        5 => random.pick(&[right / 2, right * 2]),
        6 => right + 256,
        _ => random.below(601),
    };
    let fill = random.below(2) as u8;
    slice.resize(length, fill);
}

/// A word of symbols below q: mostly a damaged codeword, else random.
fn received(random: &mut Random, q: u32, m: u32) -> Vec<u8> {
    let n = 1 << m;
    if random.one_in(8) {
        return random.symbols(q, n);
    }
    let message = random.symbols(q, m as usize + 1);
    let count = damage_count(random, n);
    damaged(random, q, &message, count)
}

/// How many places to damage: mostly around a quarter of n.
pub fn damage_count(random: &mut Random, n: usize) -> usize {
    let quarter = n / 4;
    match random.below(8) {
        0 => random.below(n + 1),
        1 | 2 => random.below(quarter + 1),
        _ => (quarter + random.below(5)).saturating_sub(2),
    }
}

/// The codeword of the message with exactly `count` places altered; from n/2 on it may be fewer, since damage towards
/// another codeword ends there.
pub fn damaged(random: &mut Random, q: u32, message: &[u8], count: usize) -> Vec<u8> {
    let mut word = model::codeword(q, message);
    match random.below(4) {
        0 => damage_towards(random, q, &mut word, message, count),
        1 => damage_cluster(random, q, &mut word, count),
        2 => {
            let error = random.error(q);
            damage_spread(random, q, &mut word, count, |_| error);
        }
        _ => damage_spread(random, q, &mut word, count, |random| random.error(q)),
    }
    word
}

/// Alters places far apart, each by an error of its own or all by the same.
fn damage_spread(random: &mut Random, q: u32, word: &mut [u8], count: usize, error: impl Fn(&mut Random) -> u8) {
    let mut places: Vec<usize> = (0..word.len()).collect();
    for &place in random.choose(&mut places, count) {
        alter(q, &mut word[place], error(random));
    }
}

/// Alters places in a row, around the end too.
fn damage_cluster(random: &mut Random, q: u32, word: &mut [u8], count: usize) {
    let n = word.len();
    let start = random.below(n);
    for place in (start..start + count).map(|place| place % n) {
        alter(q, &mut word[place], random.error(q));
    }
}

/// Takes places over from the codeword of another message, often one that differs in a single symbol.
fn damage_towards(random: &mut Random, q: u32, word: &mut [u8], message: &[u8], count: usize) {
    let mut other = message.to_vec();
    if random.one_in(2) {
        other = random.symbols(q, message.len());
    }
    if other == message {
        alter(q, &mut other[random.below(message.len())], random.error(q));
    }
    let target = model::codeword(q, &other);
    let mut places: Vec<usize> = (0..word.len()).filter(|&i| word[i] != target[i]).collect();
    for &place in random.choose(&mut places, count) {
        word[place] = target[place];
    }
}
