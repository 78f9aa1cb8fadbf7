//! The inputs: messages, words of three kinds, words beside messages, groups of words, soft samples, and the lines
//! of a full session.

use common::questions::STRAP;
use common::random::{alter, Random};
use common::samples::IDEAL;
use common::session::SLOTS;

use crate::calls::{plain_read, safe_write};
use crate::proved::WRITTEN;

/// How many inputs of each kind: too many for the branch predictor.
pub const COUNT: usize = 1024;

/// How many groups of words: so few that the largest lie in the nearest cache. No branch depends on their symbols.
pub const GROUPS: usize = 4;

/// The inputs are the same in every run.
const SEED: u64 = 0x9e37_79b9_7f4a_7c15;

/// What has happened to a word on its way.
#[derive(Clone, Copy)]
pub enum Kind {
    Clean,
    Light,
    Doubtful,
}

pub const KINDS: [Kind; 3] = [Kind::Clean, Kind::Light, Kind::Doubtful];

/// How far a word is from the message beside it. Just near is one symbol less than a quarter, as far as a near word may
/// be; a quarter is not timed, but compared.
#[derive(Clone, Copy)]
pub enum Distance {
    Clean,
    Everywhere,
    JustNear,
    Quarter,
}

pub const DISTANCES: [Distance; 3] = [Distance::Clean, Distance::Everywhere, Distance::JustNear];

pub fn messages(q: u32, m: u32) -> Vec<Vec<u8>> {
    let mut random = Random::new(SEED);
    (0..COUNT).map(|_| random.symbols(q, m as usize + 1)).collect()
}

/// Words of one kind.
pub fn words(q: u32, m: u32, kind: Kind) -> Vec<Vec<u8>> {
    let mut random = Random::new(SEED);
    (0..COUNT).map(|_| word(&mut random, q, m, kind)).collect()
}

/// The word of a random message. Lightly damaged: a sixteenth of the symbols altered, at least one; at n = 4 none,
/// since one would be a quarter. Doubtful: a quarter to half of them altered, and no message near.
fn word(random: &mut Random, q: u32, m: u32, kind: Kind) -> Vec<u8> {
    let n = 1usize << m;
    loop {
        let message = random.symbols(q, m as usize + 1);
        let altered = match kind {
            Kind::Clean => 0,
            Kind::Light => n.div_ceil(16).min((n - 1) / 4),
            Kind::Doubtful => n / 4 + random.below(n / 4 + 1),
        };
        let word = damaged(random, q, m, &message, altered);
        if !matches!(kind, Kind::Doubtful) || is_doubtful(q, m, &word) {
            return word;
        }
    }
}

/// The word of a message with so many symbols altered, at random places.
fn damaged(random: &mut Random, q: u32, m: u32, message: &[u8], altered: usize) -> Vec<u8> {
    let mut word = codeword(q, m, message);
    let mut places: Vec<usize> = (0..word.len()).collect();
    for &place in random.choose(&mut places, altered) {
        alter(q, &mut word[place], random.error(q));
    }
    word
}

fn codeword(q: u32, m: u32, message: &[u8]) -> Vec<u8> {
    let mut word = vec![0; 1 << m];
    assert_eq!(safe_write(q, m, message, &mut word), WRITTEN, "a word of a message");
    word
}

fn is_doubtful(q: u32, m: u32, word: &[u8]) -> bool {
    plain_read(q, m, &mut vec![0; m as usize + 1], word) == 9
}

/// Messages, and a word beside each.
pub struct Pairs {
    pub messages: Vec<Vec<u8>>,
    pub words: Vec<Vec<u8>>,
}

/// Pairs of one distance.
pub fn pairs(q: u32, m: u32, distance: Distance) -> Pairs {
    let mut random = Random::new(SEED);
    let altered = match distance {
        Distance::Clean => 0,
        Distance::Everywhere => 1 << m,
        Distance::JustNear => (1 << m) / 4 - 1,
        Distance::Quarter => (1 << m) / 4,
    };
    let mut pair = || {
        let message = random.symbols(q, m as usize + 1);
        let word = damaged(&mut random, q, m, &message, altered);
        (message, word)
    };
    let (messages, words) = (0..COUNT).map(|_| pair()).unzip();
    Pairs { messages, words }
}

/// Groups of so many words.
pub fn groups(q: u32, m: u32, count: u32) -> Vec<Vec<u8>> {
    let mut random = Random::new(SEED);
    (0..GROUPS).map(|_| random.symbols(q, (count as usize) << m)).collect()
}

/// Soft samples of one word: real and imaginary parts.
pub struct Samples {
    pub re: Vec<f32>,
    pub im: Vec<f32>,
}

/// Samples of random words, each part off by up to a quarter of the ideal size and kept in range.
pub fn samples(m: u32) -> Vec<Samples> {
    let mut random = Random::new(SEED);
    let mut sample = || {
        let word = codeword(4, m, &random.symbols(4, m as usize + 1));
        let mut off = |ideal: f32| (ideal + 32.0 * random.unit()).clamp(-127.0, 127.0);
        let re = word.iter().map(|&symbol| off(IDEAL[usize::from(symbol)].0)).collect();
        let im = word.iter().map(|&symbol| off(IDEAL[usize::from(symbol)].1)).collect();
        Samples { re, im }
    };
    (0..COUNT).map(|_| sample()).collect()
}

/// The lines of a full session, and a few after it: words, clean and lightly damaged, and here and there a miss, a
/// doubtful word or a bad line.
pub fn session() -> Vec<u8> {
    let mut random = Random::new(SEED);
    let mut text = Vec::new();
    let mut slots = 0;
    while slots < SLOTS + 16 {
        let line = match random.below(64) {
            0 => b"-".to_vec(),
            1 => b"no slot".to_vec(),
            2 => digits(&mut random, Kind::Doubtful),
            3..=32 => digits(&mut random, Kind::Clean),
            _ => digits(&mut random, Kind::Light),
        };
        slots += u32::from(line != b"no slot");
        text.extend(line);
        text.push(b'\n');
    }
    text
}

/// A word of the strap's code as a line of the session list.
fn digits(random: &mut Random, kind: Kind) -> Vec<u8> {
    let (q, m) = STRAP;
    word(random, q, m, kind).iter().map(|symbol| b'0' + symbol).collect()
}
