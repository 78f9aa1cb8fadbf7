//! Cases for rearranging a group and putting it back: every small group, groups whose places can be told apart, counts
//! of words that no group has, faults all over a group and in every combination, and random cases.

use common::random::{alter, Random};

use crate::cases;
use crate::interleave_model::MOST_WORDS;
use crate::model;

/// All arguments of one call. The target has its content at entry.
#[derive(Clone, Debug)]
pub struct Case {
    pub q: u32,
    pub m: u32,
    pub count: u32,
    pub source: Vec<u8>,
    pub target: Vec<u8>,
}

/// A value of q that no code has, and values of m that none has.
const BAD_Q: u32 = 3;
const BAD_M: [u32; 3] = [0, 1, 9];

/// Every q and every m up to these is tried, and every count of words up to this one.
const LAST_Q: u32 = 17;
const LAST_M: u32 = 10;
const LAST_COUNT: u32 = 20;

/// Of groups of up to so many words of the smallest code every source with symbols below q is tried.
const LISTED_WORDS: u32 = 3;

/// A group with at most so many places has a case for each of them, and a larger one a fault in each run of so many.
pub const FEW_PLACES: usize = 256;
const RUN: usize = 32;

/// A sound case with this source, and any bytes in a target of the same length.
pub fn sound(random: &mut Random, (q, m): (u32, u32), count: u32, source: Vec<u8>) -> Case {
    let target = random.bytes(source.len());
    Case { q, m, count, source, target }
}

/// A sound case with random symbols.
pub fn any_group(random: &mut Random, (q, m): (u32, u32), count: u32) -> Case {
    let source = random.symbols(q, (count as usize) << m);
    sound(random, (q, m), count, source)
}

/// Groups that together show where each symbol goes: the digits to the base q of the number of each place, one digit
/// in each group; and, where there are few places, groups with one symbol that differs from all others, at each place.
pub fn places_told_apart(random: &mut Random, (q, m): (u32, u32), count: u32, mut each: impl FnMut(&Case)) {
    let places = (count as usize) << m;
    let digits = (places - 1).ilog(q as usize) as usize + 1;
    let numbers: Vec<Vec<u8>> = (0..places).map(|place| model::symbols_of(q, digits, place)).collect();
    for digit in 0..digits {
        let source = numbers.iter().map(|number| number[digit]).collect();
        each(&sound(random, (q, m), count, source));
    }
    for place in (0..places).filter(|_| places <= FEW_PLACES) {
        let mut source = vec![random.below(q as usize) as u8; places];
        alter(q, &mut source[place], random.error(q));
        each(&sound(random, (q, m), count, source));
    }
}

/// Groups with one symbol that is not below q: at each place where there are few, and else at some place of each run.
pub fn outside_all_over(random: &mut Random, (q, m): (u32, u32), count: u32, mut each: impl FnMut(&Case)) {
    let places = (count as usize) << m;
    let run = if places <= FEW_PLACES { 1 } else { RUN };
    for start in (0..places).step_by(run) {
        let mut source = random.symbols(q, places);
        source[start + random.below(run)] = random.pick(&[q as u8, u8::MAX]);
        each(&sound(random, (q, m), count, source));
    }
}

/// Every such source.
pub fn every_source(random: &mut Random, mut each: impl FnMut(&Case)) {
    let (q, m) = (2, 2);
    for count in 1..=LISTED_WORDS {
        let places = (count as usize) << m;
        for number in 0..1 << places {
            each(&sound(random, (q, m), count, model::symbols_of(q, places, number)));
        }
    }
}

/// Every small count of words with slices of that many words, and large counts that no group has.
pub fn every_count(random: &mut Random, (q, m): (u32, u32), mut each: impl FnMut(&Case)) {
    let small = (0..=LAST_COUNT).map(|count| (count, count as usize));
    for (count, words) in small.chain(large_counts(random, m)) {
        each(&Case { count, ..any_group(random, (q, m), words as u32) });
    }
}

/// Large counts, each with a number of words that slices may have: the count itself, or what is left of it where the
/// count or its product with n is taken modulo a power of two.
fn large_counts(random: &mut Random, m: u32) -> Vec<(u32, usize)> {
    let few = 1 + random.below(MOST_WORDS as usize);
    let moduli = [1 << 8, 1 << 16, 1 << 31, 1 << (16 - m), 1 << (32 - m), 3 << (32 - m)];
    let wrapped = moduli.map(|modulus| (modulus + few as u32, few));
    let to_none = moduli.map(|modulus| (modulus, 0));
    let themselves = [32, 64, 255, 256, 257].map(|count| (count, count as usize));
    let others = [((1 << 16) + 2, 2), ((1 << 31) - 1, 16), (u32::MAX - 15, 1), (u32::MAX, 1), (u32::MAX, 16)];
    [&wrapped[..], &to_none[..], &themselves[..], &others[..]].concat()
}

/// Every small q and m with slices of the length that fits m, code or not.
pub fn every_code(random: &mut Random, mut each: impl FnMut(&Case)) {
    for q in 0..=LAST_Q {
        for m in 0..=LAST_M {
            for count in [1, 2, MOST_WORDS] {
                each(&Case { q, ..any_group(random, (q.max(1), m), count) });
            }
        }
    }
}

/// The faults of q, of m, of the count, of both lengths and of the symbols, in every combination, with none of them
/// too. The right length is that of the m and the count that the case has, so that each fault occurs by itself.
pub fn every_fault(random: &mut Random, (q, m): (u32, u32), mut each: impl FnMut(&Case)) {
    let bad_m = random.pick(&BAD_M);
    for (q, m) in [(q, m), (BAD_Q, m), (q, bad_m), (BAD_Q, bad_m)] {
        for (count, words) in counts_with_faults(random, m) {
            let lengths = lengths(words << m, 1 << m);
            let targets = lengths.map(|length| random.bytes(length));
            for source in lengths.into_iter().flat_map(|length| sources_with_faults(random, q, length)) {
                for target in &targets {
                    each(&Case { q, m, count, source: source.clone(), target: target.clone() });
                }
            }
        }
    }
}

/// A sound count, and counts that no group has: none, one too many, and one that wraps to a sound one; each with the
/// number of words that the right length is for.
fn counts_with_faults(random: &mut Random, m: u32) -> [(u32, usize); 4] {
    let count = 1 + random.below(MOST_WORDS as usize) as u32;
    let wrapped = random.pick(&[256, 65_536, 1 << (32 - m.max(1))]);
    [(count, count as usize), (0, 0), (MOST_WORDS + 1, MOST_WORDS as usize + 1), (wrapped + 2, 2)]
}

/// The right length, one less or one more, and a word more.
fn lengths(right: usize, n: usize) -> [usize; 4] {
    [right, right.saturating_sub(1), right + 1, right + n]
}

/// Sources of this length: sound, and with a symbol that is not below q at the first, the last or any place.
fn sources_with_faults(random: &mut Random, q: u32, length: usize) -> Vec<Vec<u8>> {
    let mut sources = vec![random.symbols(q, length); 4];
    if length > 0 {
        for (source, place) in sources[1..].iter_mut().zip([0, length - 1, random.below(length)]) {
            source[place] = random.pick(&[q as u8, u8::MAX]);
        }
    }
    sources
}

/// A sound case in this code with up to all of its faults.
pub fn random_case(random: &mut Random, (q, m): (u32, u32)) -> Case {
    let count = 1 + random.below(MOST_WORDS as usize) as u32;
    let mut case = any_group(random, (q, m), count);
    if random.one_in(8) {
        case.count = other_count(random, m, count);
    }
    cases::add_faults(random, (&mut case.q, &mut case.m), [&mut case.source, &mut case.target]);
    case
}

/// Another count: next to this one, around the greatest, one that no group has, or any number at all.
fn other_count(random: &mut Random, m: u32, count: u32) -> u32 {
    match random.below(4) {
        0 => random.pick(&[count - 1, count + 1]),
        1 => random.below(LAST_COUNT as usize + 1) as u32,
        2 => {
            let large = large_counts(random, m);
            random.pick(&large).0
        }
        _ => random.next() as u32,
    }
}
