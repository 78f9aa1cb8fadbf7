//! Whether a message is near a word, in safe Rust, twice; neither looks at a place after the one where a quarter of the
//! places differ. (b) has the shape of the proved code: the word of the message, by doubling, then place by place, from
//! 64 places on in runs of as many as have still to differ, with a body for each of the seven lengths. (c) is the
//! fastest that we know. It never makes the whole word, takes up to eight symbols at a time, in the bytes of a u64, a
//! lane, and has a function of its own for each of the 21 codes.

use common::questions::{is_alphabet, yes, Refusal};

use crate::proved::{NEAR, NOT_NEAR};
use crate::safe::{all_below, double};

/// One in each byte of a lane, and all bits but the highest.
const ONES: u64 = 0x0101_0101_0101_0101;
const LOW: u64 = 0x7f7f_7f7f_7f7f_7f7f;

/// One in each byte of the first lane of a word where the constant stands, and where each of the first three
/// coefficients does.
const PLACES: [u64; 4] = [ONES, 0x0100_0100_0100_0100, 0x0101_0000_0101_0000, 0x0101_0101_0000_0000];

/// Whether fewer than a quarter of the places differ, place by place.
#[inline(always)]
fn few_differ<const N: usize>(code: &[u8; N], word: &[u8; N]) -> bool {
    let mut wrong = 0;
    for (code, symbol) in code.iter().zip(word) {
        if code != symbol {
            wrong += 1;
            if 4 * wrong >= N {
                return false;
            }
        }
    }
    true
}

/// Whether fewer than a quarter of the places differ, in runs of as many as have still to differ.
#[inline(always)]
fn few_differ_in_runs<const N: usize>(code: &[u8; N], word: &[u8; N]) -> bool {
    let (mut wrong, mut i) = (0, 0);
    while i < N {
        let run = (N / 4 - wrong).min(N - i);
        let places = code[i..i + run].iter().zip(&word[i..i + run]);
        wrong += usize::from(places.fold(0u8, |found, (code, symbol)| found + u8::from(code != symbol)));
        if 4 * wrong >= N {
            return false;
        }
        i += run;
    }
    true
}

/// (b) for a word of N symbols and a message of S.
#[inline(always)]
fn by_places_sized<const N: usize, const S: usize>(q: u32, message: &[u8], word: &[u8]) -> Result<bool, Refusal> {
    let message: &[u8; S] = message.try_into().map_err(|_| 5u32)?;
    yes(all_below(q, message), 6)?;
    let word: &[u8; N] = word.try_into().map_err(|_| 7u32)?;
    let mut code = [0; N];
    code[0] = message[0];
    for k in 0..S - 1 {
        double(1 << k, message[k + 1], q as u8 - 1, &mut code[..2 << k]);
    }
    Ok(if N < 64 { few_differ(&code, word) } else { few_differ_in_runs(&code, word) })
}

/// (b): whether the message is near the word, or the number of the first question answered no: 1, 2, 5, 6, 7.
#[inline(always)]
pub fn by_places(q: u32, m: u32, message: &[u8], word: &[u8]) -> Result<bool, Refusal> {
    yes(is_alphabet(q), 1)?;
    match m {
        2 => by_places_sized::<4, 3>(q, message, word),
        3 => by_places_sized::<8, 4>(q, message, word),
        4 => by_places_sized::<16, 5>(q, message, word),
        5 => by_places_sized::<32, 6>(q, message, word),
        6 => by_places_sized::<64, 7>(q, message, word),
        7 => by_places_sized::<128, 8>(q, message, word),
        8 => by_places_sized::<256, 9>(q, message, word),
        _ => Err(2),
    }
}

/// The word of a message by quarters of L lanes. The last two coefficients are added to whole quarters: each quarter is
/// the first one with one symbol added at every place. No sum leaves its byte; the mask takes it modulo q.
struct Quarters<const L: usize> {
    first: [u64; L],
    added: [u64; 4],
    mask: u64,
}

impl<const L: usize> Quarters<L> {
    /// For a message of S symbols, with P symbols in a lane.
    #[inline(always)]
    fn new<const P: usize, const S: usize>(q: u32, message: &[u8; S]) -> Quarters<L> {
        let lane = |k: usize, places: u64| u64::from(message[k]) * places;
        let mut first = [0; L];
        first[0] = (0..4.min(S - 2)).fold(0, |sum, k| sum + lane(k, PLACES[k]));
        for k in 4..S - 2 {
            let (low, high) = first.split_at_mut(1 << (k - 4));
            for (high, low) in high.iter_mut().zip(low) {
                *high = *low + lane(k, ONES);
            }
        }
        let (x, y) = (lane(S - 2, ONES), lane(S - 1, ONES));
        Quarters { first, added: [0, x, y, x + y], mask: u64::from(q - 1) * (ONES >> (64 - 8 * P)) }
    }

    #[inline(always)]
    fn lanes(&self, quarter: usize) -> [u64; L] {
        self.first.map(|lane| (lane + self.added[quarter]) & self.mask)
    }
}

/// The symbols as a lane.
#[inline(always)]
fn lane<const P: usize>(symbols: &[u8; P]) -> u64 {
    let mut bytes = [0; 8];
    bytes[..P].copy_from_slice(symbols);
    u64::from_le_bytes(bytes)
}

#[inline(always)]
fn is_same<const L: usize>(x: &[u64; L], y: &[u64; L]) -> bool {
    x.iter().zip(y).fold(0, |all, (x, y)| all | (x ^ y)) == 0
}

/// How many symbols differ.
#[inline(always)]
fn wrong<const L: usize>(x: &[u64; L], y: &[u64; L]) -> usize {
    let differs = |bits: u64| ((((bits & LOW) + LOW) | bits) >> 7) & ONES;
    let counts = x.iter().zip(y).fold(0, |counts, (x, y)| counts + differs(x ^ y));
    (counts.wrapping_mul(ONES) >> 56) as usize
}

/// Whether fewer than a quarter of the places differ, with a quarter of them taken at a time as long as nothing
/// differs: until then no place that is looked at lies after the one that decides. `is_rest_near` does the rest.
#[inline(always)]
fn is_near<const L: usize, const P: usize, const S: usize>(
    q: u32,
    message: &[u8; S],
    word: &[[[u8; P]; L]; 4],
) -> bool {
    let code = Quarters::<L>::new::<P, S>(q, message);
    for i in 0..4 {
        let (code, found) = (code.lanes(i), word[i].map(|symbols| lane(&symbols)));
        if !is_same(&code, &found) {
            // A quarter of one place need not be counted.
            let all = if L * P == 1 { 1 } else { wrong(&code, &found) };
            if all >= L * P {
                return false;
            }
            return is_rest_near(q, L * P - all, i + 1, message, word);
        }
    }
    true
}

/// Whether fewer than `left` places differ from this quarter on: a lane at a time while more places than it has are
/// left, then place by place. Not inlined, and it makes the word again, so that words which do not come here pay
/// nothing.
#[inline(never)]
fn is_rest_near<const L: usize, const P: usize, const S: usize>(
    q: u32,
    mut left: usize,
    quarter: usize,
    message: &[u8; S],
    word: &[[[u8; P]; L]; 4],
) -> bool {
    let code = Quarters::<L>::new::<P, S>(q, message);
    for (i, found) in word.iter().enumerate().skip(quarter) {
        for (code, symbols) in code.lanes(i).into_iter().zip(found) {
            if left > P {
                left -= wrong(&[code], &[lane(symbols)]);
                continue;
            }
            for (code, symbol) in code.to_le_bytes().iter().zip(symbols) {
                left -= usize::from(code != symbol);
                if left == 0 {
                    return false;
                }
            }
        }
    }
    true
}

#[inline(always)]
fn near_sized<const L: usize, const P: usize, const S: usize>(
    q: u32,
    message: &[u8],
    word: &[u8],
) -> Result<u32, Refusal> {
    let message: &[u8; S] = message.try_into().map_err(|_| 5u32)?;
    yes(all_below(q, message), 6)?;
    yes(word.len() == 4 * L * P, 7)?;
    let word = word.as_chunks().0.as_chunks().0.try_into().map_err(|_| 7u32)?;
    Ok(if is_near::<L, P, S>(q, message, word) { NEAR } else { NOT_NEAR })
}

/// The function of one code, whose word is four quarters of L lanes of P symbols. Its answer is the number itself, so
/// that nothing is left to do after it.
#[inline(never)]
fn near_code<const Q: u32, const L: usize, const P: usize, const S: usize>(message: &[u8], word: &[u8]) -> u32 {
    near_sized::<L, P, S>(Q, message, word).unwrap_or_else(|number| number)
}

#[inline(always)]
fn near_q<const Q: u32>(m: u32, message: &[u8], word: &[u8]) -> u32 {
    match m {
        2 => near_code::<Q, 1, 1, 3>(message, word),
        3 => near_code::<Q, 1, 2, 4>(message, word),
        4 => near_code::<Q, 1, 4, 5>(message, word),
        5 => near_code::<Q, 1, 8, 6>(message, word),
        6 => near_code::<Q, 2, 8, 7>(message, word),
        7 => near_code::<Q, 4, 8, 8>(message, word),
        8 => near_code::<Q, 8, 8, 9>(message, word),
        _ => 2,
    }
}

/// (c): `NEAR` or `NOT_NEAR`, or the number of the first question answered no: 1, 2, 5, 6, 7.
#[inline(always)]
pub fn by_quarters(q: u32, m: u32, message: &[u8], word: &[u8]) -> u32 {
    match q {
        2 => near_q::<2>(m, message, word),
        4 => near_q::<4>(m, message, word),
        8 => near_q::<8>(m, message, word),
        _ => 1,
    }
}
