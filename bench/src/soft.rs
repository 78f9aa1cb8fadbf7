//! The best safe Rust for soft samples, q = 4, with the bits of the order of operations that docs/REQUIREMENTS.md sets:
//! the sums of several coefficients run side by side, since each waits for the addition before.

use common::questions::{is_variables, yes, Refusal};

/// A real and an imaginary sum.
#[derive(Clone, Copy, Default)]
pub struct Sums {
    pub re: f32,
    pub im: f32,
}

/// One soft vote: the symbol where it is sure, and both sums.
pub struct Vote {
    pub symbol: Option<u8>,
    pub sums: Sums,
}

impl Sums {
    #[inline(always)]
    fn add(&mut self, re: f32, im: f32) {
        self.re += re;
        self.im += im;
    }

    /// The symbol where the sums are sure of one. Both symbols are worked out, so that chance decides no branch.
    #[inline(always)]
    fn decide(self) -> Option<u8> {
        let (re, im) = (self.re.abs(), self.im.abs());
        let sideways = re < im;
        let (large, small) = if sideways { (im, re) } else { (re, im) };
        let sure = large > 0.0 && 3.0 * small <= 2.0 * large;
        let real = if self.re > 0.0 { 0 } else { 2 };
        let imaginary = if self.im > 0.0 { 1 } else { 3 };
        sure.then_some(if sideways { imaginary } else { real })
    }
}

/// Question 10 for one slice, without a branch at each part.
#[inline(always)]
fn all_in_range(parts: &[f32]) -> bool {
    parts.iter().fold(true, |all, part| all & (part.abs() <= 127.0))
}

/// Question 10. Asked after the sums, so that they need not wait for it.
#[inline(always)]
fn in_range(re: &[f32], im: &[f32]) -> bool {
    all_in_range(re) & all_in_range(im)
}

/// Question 7.
#[inline(always)]
fn sized<'a, const N: usize>(re: &'a [f32], im: &'a [f32]) -> Result<(&'a [f32; N], &'a [f32; N]), Refusal> {
    let re: &[f32; N] = re.try_into().map_err(|_| 7u32)?;
    let im: &[f32; N] = im.try_into().map_err(|_| 7u32)?;
    Ok((re, im))
}

/// The terms of the votes for the coefficient whose pairs are `step` apart, upward: real and imaginary.
#[inline(always)]
fn put_terms(step: usize, re: &[f32], im: &[f32], terms: &mut [[f32; 2]]) {
    let blocks = re.chunks_exact(2 * step).zip(im.chunks_exact(2 * step));
    for ((re, im), terms) in blocks.zip(terms.chunks_exact_mut(step)) {
        let ((pr, yr), (pi, yi)) = (re.split_at(step), im.split_at(step));
        for ((((pr, pi), yr), yi), term) in pr.iter().zip(pi).zip(yr).zip(yi).zip(terms) {
            *term = [yr * pr + yi * pi, yi * pr - yr * pi];
        }
    }
}

/// The same for coefficient k. Steps of 1 and 2 have bodies of their own.
#[inline(always)]
fn put_terms_at(k: usize, re: &[f32], im: &[f32], terms: &mut [[f32; 2]]) {
    match k {
        0 => put_terms(1, re, im, terms),
        1 => put_terms(2, re, im, terms),
        _ => put_terms(1 << k, re, im, terms),
    }
}

/// The sums of several lists of terms, side by side.
#[inline(always)]
fn sums_of<const C: usize, const H: usize>(terms: &[[[f32; 2]; H]; C]) -> [Sums; C] {
    let mut sums = [Sums::default(); C];
    for j in 0..H {
        for (sums, terms) in sums.iter_mut().zip(terms) {
            sums.add(terms[j][0], terms[j][1]);
        }
    }
    sums
}

/// Both sums of the votes for the coefficient whose pairs are `step` apart.
#[inline(always)]
fn vote_sums<const N: usize>(step: usize, re: &[f32; N], im: &[f32; N]) -> Sums {
    let mut sums = Sums::default();
    for j in 0..N / 2 {
        let p = (j + (j & 0usize.wrapping_sub(step))) % N;
        let y = (p + step) % N;
        sums.add(re[y] * re[p] + im[y] * im[p], im[y] * re[p] - re[y] * im[p]);
    }
    sums
}

#[inline(always)]
fn vote_sized<const N: usize>(m: u32, k: u32, re: &[f32], im: &[f32]) -> Result<Vote, Refusal> {
    let (re, im) = sized::<N>(re, im)?;
    let sums = (k < m).then(|| vote_sums(1 << k, re, im));
    yes(in_range(re, im), 10)?;
    let sums = sums.ok_or(12u32)?;
    Ok(Vote { symbol: sums.decide(), sums })
}

/// One soft vote, or the number of the first question answered no: 2, 7, 10, 12.
#[inline(always)]
pub fn vote(m: u32, k: u32, re: &[f32], im: &[f32]) -> Result<Vote, Refusal> {
    match m {
        2 => vote_sized::<4>(m, k, re, im),
        3 => vote_sized::<8>(m, k, re, im),
        4 => vote_sized::<16>(m, k, re, im),
        5 => vote_sized::<32>(m, k, re, im),
        6 => vote_sized::<64>(m, k, re, im),
        7 => vote_sized::<128>(m, k, re, im),
        8 => vote_sized::<256>(m, k, re, im),
        _ => Err(2),
    }
}

/// Both sums of all samples, each turned back by the quarter turns at its place.
#[inline(always)]
fn constant_sums<const N: usize>(turns: &[u32; N], re: &[f32; N], im: &[f32; N]) -> Sums {
    let (mut back_re, mut back_im) = ([0.0; N], [0.0; N]);
    for i in 0..N {
        let (x, y, turns) = (re[i].to_bits(), im[i].to_bits(), turns[i]);
        let swap = (x ^ y) & 0u32.wrapping_sub(turns & 1);
        back_re[i] = f32::from_bits(x ^ swap ^ ((turns & 2) << 30));
        back_im[i] = f32::from_bits(y ^ swap ^ ((turns.wrapping_add(1) & 2) << 30));
    }
    let mut sums = Sums::default();
    for (&re, &im) in back_re.iter().zip(&back_im) {
        sums.add(re, im);
    }
    sums
}

/// The message of samples in range, where every decision is sure.
#[inline(always)]
fn sure_message<const N: usize, const H: usize, const M: usize, const S: usize>(
    re: &[f32; N],
    im: &[f32; N],
) -> Option<[u8; S]> {
    let mut terms = [[[0.0; 2]; H]; M];
    for (k, terms) in terms.iter_mut().enumerate() {
        put_terms_at(k, re, im, terms);
    }
    let mut found = [0; S];
    let mut turns = [0u32; N];
    for (k, sums) in sums_of(&terms).into_iter().enumerate() {
        found[k + 1] = sums.decide()?;
        let (low, high) = turns.split_at_mut(1 << k);
        for (high, low) in high.iter_mut().zip(low) {
            *high = *low + u32::from(found[k + 1]);
        }
    }
    found[0] = constant_sums(&turns, re, im).decide()?;
    Some(found)
}

#[inline(always)]
fn read_sized<const N: usize, const H: usize, const M: usize, const S: usize>(
    message: &mut [u8],
    re: &[f32],
    im: &[f32],
) -> Result<(), Refusal> {
    let message: &mut [u8; S] = message.try_into().map_err(|_| 5u32)?;
    let (re, im) = sized::<N>(re, im)?;
    let found = sure_message::<N, H, M, S>(re, im);
    yes(in_range(re, im), 10)?;
    *message = found.ok_or(11u32)?;
    Ok(())
}

/// Fills the message, or gives the number of the first question answered no: 2, 5, 7, 10, 11.
#[inline(always)]
pub fn read(m: u32, message: &mut [u8], re: &[f32], im: &[f32]) -> Result<(), Refusal> {
    yes(is_variables(m), 2)?;
    match m {
        2 => read_sized::<4, 2, 2, 3>(message, re, im),
        3 => read_sized::<8, 4, 3, 4>(message, re, im),
        4 => read_sized::<16, 8, 4, 5>(message, re, im),
        5 => read_sized::<32, 16, 5, 6>(message, re, im),
        6 => read_sized::<64, 32, 6, 7>(message, re, im),
        7 => read_sized::<128, 64, 7, 8>(message, re, im),
        _ => read_sized::<256, 128, 8, 9>(message, re, im),
    }
}
