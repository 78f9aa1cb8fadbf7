//! The second implementation of the soft samples, in the numbers of `Number`: f32, and integers for whole samples.

use common::questions::{is_message_size, is_variables, is_word_size, yes};

/// The operations that docs/REQUIREMENTS.md uses.
pub trait Number: Copy + PartialOrd {
    const ZERO: Self;
    fn add(self, other: Self) -> Self;
    fn sub(self, other: Self) -> Self;
    fn mul(self, other: Self) -> Self;
    fn minus(self) -> Self;
    fn small(value: u8) -> Self;
    fn float(self) -> f32;
}

impl Number for f32 {
    const ZERO: f32 = 0.0;

    fn add(self, other: f32) -> f32 {
        self + other
    }

    fn sub(self, other: f32) -> f32 {
        self - other
    }

    fn mul(self, other: f32) -> f32 {
        self * other
    }

    fn minus(self) -> f32 {
        -self
    }

    fn small(value: u8) -> f32 {
        value.into()
    }

    fn float(self) -> f32 {
        self
    }
}

impl Number for i64 {
    const ZERO: i64 = 0;

    fn add(self, other: i64) -> i64 {
        self + other
    }

    fn sub(self, other: i64) -> i64 {
        self - other
    }

    fn mul(self, other: i64) -> i64 {
        self * other
    }

    fn minus(self) -> i64 {
        -self
    }

    fn small(value: u8) -> i64 {
        value.into()
    }

    fn float(self) -> f32 {
        self as f32
    }
}

/// A real and an imaginary sum.
type Sums<N> = (N, N);

/// The symbol where the sums are sure of one.
fn decide<N: Number>((re, im): Sums<N>) -> Option<u8> {
    let size = |x: N| if x < N::ZERO { x.minus() } else { x };
    let real = size(re) >= size(im);
    let (large, little, lead) = if real { (size(re), size(im), re) } else { (size(im), size(re), im) };
    let sure = large > N::ZERO && N::small(3).mul(little) <= N::small(2).mul(large);
    let symbol = u8::from(!real) + if lead > N::ZERO { 0 } else { 2 };
    sure.then_some(symbol)
}

/// Both sums of the votes for coefficient k: every place whose bit k is 0, upward.
fn vote_sums<N: Number>(k: u32, re: &[N], im: &[N]) -> Sums<N> {
    let mut sums = (N::ZERO, N::ZERO);
    for p in (0..re.len()).filter(|place| (place >> k) & 1 == 0) {
        let y = p + (1 << k);
        let real = re[y].mul(re[p]).add(im[y].mul(im[p]));
        let imaginary = im[y].mul(re[p]).sub(re[y].mul(im[p]));
        sums = (sums.0.add(real), sums.1.add(imaginary));
    }
    sums
}

/// Both sums of all samples, each turned back by what the coefficients ask for at its place.
fn constant_sums<N: Number>(coefficients: &[u8], re: &[N], im: &[N]) -> Sums<N> {
    let mut sums = (N::ZERO, N::ZERO);
    for place in 0..re.len() {
        let asked = |(k, &symbol): (usize, &u8)| if (place >> k) & 1 == 1 { u32::from(symbol) } else { 0 };
        let turns: u32 = coefficients.iter().enumerate().map(asked).sum();
        let mut turned = (re[place], im[place]);
        for _ in 0..turns % 4 {
            turned = (turned.1, turned.0.minus());
        }
        sums = (sums.0.add(turned.0), sums.1.add(turned.1));
    }
    sums
}

/// One soft vote: the symbol where it is sure, and both sums.
#[derive(Clone, Copy, Debug)]
pub struct Vote {
    pub symbol: Option<u8>,
    pub sums: [f32; 2],
}

impl Vote {
    /// The sums of two equal votes have the same bits.
    pub fn is_same(&self, other: &Vote) -> bool {
        self.symbol == other.symbol && self.sums.map(f32::to_bits) == other.sums.map(f32::to_bits)
    }
}

/// The vote past its questions.
pub fn sound_vote<N: Number>(k: u32, re: &[N], im: &[N]) -> Vote {
    let sums = vote_sums(k, re, im);
    Vote { symbol: decide(sums), sums: [sums.0.float(), sums.1.float()] }
}

/// The message past the questions up to 10, where all decisions are sure.
pub fn sound_read<N: Number>(m: u32, re: &[N], im: &[N]) -> Option<Vec<u8>> {
    let coefficients: Option<Vec<u8>> = (0..m).map(|k| decide(vote_sums(k, re, im))).collect();
    let coefficients = coefficients?;
    let constant = decide(constant_sums(&coefficients, re, im))?;
    Some([vec![constant], coefficients].concat())
}

/// The vote, or the number of the first question answered no: 2, 7, 10, 12.
pub fn vote(m: u32, k: u32, re: &[f32], im: &[f32]) -> Result<Vote, u32> {
    yes(is_variables(m), 2)?;
    answer_samples(m, re, im)?;
    yes(k < m, 12)?;
    Ok(sound_vote(k, re, im))
}

/// The message, or the number of the first question answered no: 2, 5, 7, 10, 11.
pub fn read(m: u32, message_len: usize, re: &[f32], im: &[f32]) -> Result<Vec<u8>, u32> {
    yes(is_variables(m), 2)?;
    yes(is_message_size(m, message_len), 5)?;
    answer_samples(m, re, im)?;
    sound_read(m, re, im).ok_or(11)
}

/// Questions 7 and 10.
fn answer_samples(m: u32, re: &[f32], im: &[f32]) -> Result<(), u32> {
    yes(is_word_size(m, re.len()) && is_word_size(m, im.len()), 7)?;
    yes(re.iter().chain(im).all(|&part| in_range(part)), 10)
}

fn in_range(part: f32) -> bool {
    (-127.0..=127.0).contains(&part)
}

/// The parts as integers, where all are whole and in range.
pub fn wholes(parts: &[f32]) -> Option<Vec<i64>> {
    let whole = |&part: &f32| (in_range(part) && part.fract() == 0.0).then_some(part as i64);
    parts.iter().map(whole).collect()
}
