//! Cases for one soft vote and the soft read.

use common::questions::{COUNT_OF_M, LEAST_M};
use common::random::Random;
use common::samples::IDEAL;

use crate::cases;
use crate::model;

/// All arguments of both calls. The message has its content at entry.
#[derive(Clone, Debug)]
pub struct Case {
    pub m: u32,
    pub k: u32,
    pub message: Vec<u8>,
    pub re: Vec<f32>,
    pub im: Vec<f32>,
}

/// The least f32 above 127, the greatest below it, and the least above 0.
const ABOVE: f32 = f32::from_bits(127.0f32.to_bits() + 1);
const BELOW: f32 = f32::from_bits(127.0f32.to_bits() - 1);
const TINY: f32 = f32::from_bits(1);

/// Parts that are out of range.
const OUTSIDE: [f32; 9] =
    [f32::NAN, -f32::NAN, f32::INFINITY, f32::NEG_INFINITY, ABOVE, -ABOVE, 128.0, f32::MAX, f32::MIN];

/// Parts on an edge that are in range.
const INSIDE: [f32; 13] = [
    0.0,
    -0.0,
    127.0,
    -127.0,
    BELOW,
    -BELOW,
    TINY,
    -TINY,
    f32::MIN_POSITIVE,
    f32::MIN_POSITIVE / 2.0,
    1.0e-30,
    0.1,
    -99.7,
];

/// All samples alike: the coefficients are 0, and the constant's sums are 2^m times the sample.
pub fn alike(m: u32, re: f32, im: f32) -> Case {
    Case { m, k: 0, message: vec![9; m as usize + 1], re: vec![re; 1 << m], im: vec![im; 1 << m] }
}

/// The votes for coefficient k sum to this pair times the unit; all others are 0.
pub fn one_vote(m: u32, k: u32, unit: f32, (re, im): (f32, f32)) -> Case {
    let mut case = Case { k, ..alike(m, 0.0, 0.0) };
    (case.re[0], case.re[1 << k], case.im[1 << k]) = (unit, re, im);
    case
}

/// All samples alike with parts on an edge, and one such part among ideal samples.
pub fn edges(m: u32, mut each: impl FnMut(&Case)) {
    let n = 1 << m;
    for part in INSIDE.into_iter().chain(OUTSIDE) {
        for other in INSIDE.into_iter().chain(OUTSIDE) {
            each(&alike(m, part, other));
        }
        for place in [0, 1, n / 2, n - 1] {
            let mut case = alike(m, 127.0, 0.0);
            case.re[place] = part;
            each(&case);
            case = alike(m, 127.0, 0.0);
            case.im[place] = part;
            each(&case);
        }
    }
}

/// Pairs on the line of two thirds, up to one to either side of it, and of equal magnitude, in every direction.
pub fn pairs_near_the_line() -> Vec<(f32, f32)> {
    let mut pairs = Vec::new();
    for size in [1.0f32, 2.0, 13.0, 41.0, 42.0] {
        for step in [-1.0, -0.5, -1.0e-5, 0.0, 1.0e-5, 0.5, 1.0] {
            let (large, little) = (3.0 * size, 2.0 * size + step);
            for (x, y) in [(large, little), (large, large), (little, large)] {
                pairs.extend([(x, y), (x, -y), (-x, y), (-x, -y)]);
            }
        }
    }
    pairs
}

/// A pair whose parts are on the line of two thirds to within two steps of f32, where 3 * S and 2 * L round.
pub fn pair_on_the_line(random: &mut Random) -> (f32, f32) {
    let large = 64.0 + 63.0 * random.unit().abs();
    let little = f32::from_bits((large * 2.0 / 3.0).to_bits() + random.below(5) as u32 - 2);
    let (re, im) = random.pick(&[(large, little), (little, large)]);
    (re * random.pick(&[1.0, -1.0]), im * random.pick(&[1.0, -1.0]))
}

/// Samples of the message's word whose constant has sums on the line of two thirds to within a few steps of f32, so
/// that its decision shows how each addition was rounded.
pub fn constant_on_the_line(random: &mut Random, message: &[u8]) -> Case {
    let n = 1 << (message.len() - 1);
    let larges: Vec<f32> = (0..n).map(|_| 90.0 + random.unit()).collect();
    let mut littles: Vec<f32> = (0..n).map(|_| 60.0 + random.unit()).collect();
    let sum = |parts: &[f32]| parts.iter().fold(0.0, |sum: f32, part| sum + part);
    let line = sum(&larges) * 2.0 / 3.0;
    let step = f32::from_bits(line.to_bits() + 1) - line;
    let missing = line - sum(&littles[..n - 1]);
    littles[n - 1] = missing + step * (random.below(7) as f32 - 3.0);
    let sign = random.pick(&[1.0, -1.0]);
    let symbols = model::codeword(4, message).into_iter();
    let samples = symbols.zip(larges.into_iter().zip(littles));
    let (re, im) = samples.map(|(symbol, (large, little))| turned(symbol, (large, sign * little))).unzip();
    Case { m: message.len() as u32 - 1, k: 0, message: random.bytes(message.len()), re, im }
}

/// A sample turned forward by so many quarter turns.
fn turned(turns: u8, sample: (f32, f32)) -> (f32, f32) {
    (0..turns).fold(sample, |(re, im), _| (-im, re))
}

/// The ideal samples of the message's word, each part off by at most `hiss` and kept in range.
pub fn word(random: &mut Random, message: &[u8], hiss: u32, whole: bool) -> Case {
    let mut off = |ideal: f32| {
        let part = ideal + hiss as f32 * random.unit();
        (if whole { part.round() } else { part }).clamp(-127.0, 127.0)
    };
    let ideal = model::codeword(4, message).into_iter().map(|symbol| IDEAL[usize::from(symbol)]);
    let (re, im) = ideal.map(|(re, im)| (off(re), off(im))).unzip();
    Case { m: message.len() as u32 - 1, k: 0, message: random.bytes(message.len()), re, im }
}

/// Random samples with no, one or several faults.
pub fn random(random: &mut Random) -> Case {
    let m = LEAST_M + random.below(COUNT_OF_M) as u32;
    let k = random.below(m as usize) as u32;
    let whole = random.one_in(2);
    let mut parts = || -> Vec<f32> {
        let parts = (0..1 << m).map(|_| 127.0 * random.unit());
        parts.map(|part| if whole { part.round() } else { part }).collect()
    };
    let (re, im) = (parts(), parts());
    let mut case = Case { m, k, message: random.bytes(m as usize + 1), re, im };
    for _ in 0..random.pick(&[0, 0, 1, 1, 2, 4]) {
        spoil(random, &mut case);
    }
    case
}

/// One fault: a bad m or k, a length off, or a part out of range.
fn spoil(random: &mut Random, case: &mut Case) {
    let length = random.below(case.re.len() + 2);
    match random.below(9) {
        0 => case.m = random.pick(&cases::BAD_M),
        1 => case.k = random.pick(&[case.m, case.m.wrapping_add(1), 8, 9, 31, 32, 63, 64, 256, 1 << 31, u32::MAX]),
        2 => cases::spoil_length(random, &mut case.message),
        3 => case.re.resize(length, 1.0),
        4 => case.im.resize(length, 1.0),
        5 | 6 => spoil_part(random, &mut case.re),
        _ => spoil_part(random, &mut case.im),
    }
}

fn spoil_part(random: &mut Random, parts: &mut [f32]) {
    if !parts.is_empty() {
        parts[random.below(parts.len())] = random.pick(&OUTSIDE);
    }
}
