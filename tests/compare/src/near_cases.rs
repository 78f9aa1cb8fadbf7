//! Cases for near: words at a known distance from the codeword of a message, faults in every combination, and random
//! cases.

use common::random::{alter, Random};

use crate::cases::{self, Case};
use crate::model;

/// A value of q and one of m that no code has.
const BAD_CODE: (u32, u32) = (3, 9);

/// Where the altered places of a word are.
#[derive(Clone, Copy, Debug)]
pub enum Places {
    AtTheStart,
    AtTheEnd,
    Anywhere,
}

const PLACES: [Places; 3] = [Places::AtTheStart, Places::AtTheEnd, Places::Anywhere];

/// What an altered symbol becomes: another symbol of the alphabet, a byte that is equal to it modulo q and so outside
/// the alphabet, or any other byte.
#[derive(Clone, Copy, Debug)]
pub enum Symbols {
    OfTheAlphabet,
    EqualModuloQ,
    AnyByte,
}

const SYMBOLS: [Symbols; 3] = [Symbols::OfTheAlphabet, Symbols::EqualModuloQ, Symbols::AnyByte];

impl Places {
    /// This many of the n places; the count is at most n.
    fn choose(self, random: &mut Random, n: usize, count: usize) -> Vec<usize> {
        match self {
            Places::AtTheStart => (0..count).collect(),
            Places::AtTheEnd => (n - count..n).collect(),
            Places::Anywhere => random.choose(&mut Vec::from_iter(0..n), count).to_vec(),
        }
    }
}

impl Symbols {
    /// Alters a symbol of the alphabet; it never stays as it was.
    fn alter(self, random: &mut Random, q: u32, symbol: &mut u8) {
        let values = usize::from(u8::MAX) + 1;
        match self {
            Symbols::OfTheAlphabet => alter(q, symbol, random.error(q)),
            Symbols::EqualModuloQ => {
                let times = 1 + random.below(values / q as usize - 1);
                *symbol = symbol.wrapping_add(q as u8 * times as u8);
            }
            Symbols::AnyByte => *symbol = symbol.wrapping_add(1 + random.below(values - 1) as u8),
        }
    }
}

/// Every way to alter a word.
pub fn ways() -> impl Iterator<Item = (Places, Symbols)> {
    PLACES.into_iter().flat_map(|places| SYMBOLS.map(|symbols| (places, symbols)))
}

/// Numbers of places to alter out of n: none, one, all, those around the quarter, and any.
pub fn distances(random: &mut Random, n: usize) -> [usize; 7] {
    let quarter = n / 4;
    [0, 1, quarter - 1, quarter, quarter + 1, n, random.below(n + 1)]
}

/// The codeword of the message with exactly `count` places altered in this way.
pub fn altered(random: &mut Random, q: u32, message: &[u8], count: usize, way: (Places, Symbols)) -> Vec<u8> {
    let (places, symbols) = way;
    let mut word = model::codeword(q, message);
    for place in places.choose(random, word.len(), count) {
        symbols.alter(random, q, &mut word[place]);
    }
    word
}

/// A sound case in this code with up to all of its faults.
pub fn random_case(random: &mut Random, (q, m): (u32, u32)) -> Case {
    let n = 1 << m;
    let message = random.symbols(q, m as usize + 1);
    let count = cases::damage_count(random, n);
    let word = match random.below(4) {
        0 => random.bytes(n),
        1 => cases::damaged(random, q, &message, count),
        _ => {
            let way = (random.pick(&PLACES), random.pick(&SYMBOLS));
            altered(random, q, &message, count, way)
        }
    };
    cases::with_message_faults(random, Case { q, m, message, word })
}

/// The faults of q, of m, of the message's length, of its symbols and of the word's length, in every combination, with
/// none of them too. The word's symbols are any.
pub fn every_fault(random: &mut Random, (q, m): (u32, u32), mut each: impl FnMut(&Case)) {
    let messages = messages_with_faults(random, q, m as usize + 1);
    let word_lengths = lengths(1 << m);
    for (q, m) in [(q, m), (BAD_CODE.0, m), (q, BAD_CODE.1), BAD_CODE] {
        for message in &messages {
            for length in word_lengths {
                each(&Case { q, m, message: message.clone(), word: random.bytes(length) });
            }
        }
    }
}

/// Messages of each of the lengths: sound, and with a symbol that is not below q in the first or in the last place.
fn messages_with_faults(random: &mut Random, q: u32, right: usize) -> Vec<Vec<u8>> {
    let mut messages = Vec::new();
    for length in lengths(right) {
        messages.push(random.symbols(q, length));
        for bad in [q as u8, u8::MAX] {
            for place in [0..length.min(1), length.saturating_sub(1)..length] {
                let mut message = random.symbols(q, length);
                message[place].fill(bad);
                messages.push(message);
            }
        }
    }
    messages
}

/// The right length, none, one less, one more, and one that wraps to it in a byte.
fn lengths(right: usize) -> [usize; 5] {
    [right, 0, right - 1, right + 1, right + 256]
}
