//! The implementations in Rust as calls of the same form as the proved ones: slices in, one number out, not inlined.

use common::questions::Refusal;

use crate::{interleave, near, plain, proved, safe, soft, Reading};

#[inline(always)]
fn written(answer: Result<(), Refusal>) -> u64 {
    answer.map_or_else(u64::from, |()| proved::WRITTEN)
}

#[inline(always)]
fn reading(answer: Result<Reading, Refusal>) -> u64 {
    answer.map_or_else(u64::from, |read| proved::values(read.wrong, read.margin))
}

#[inline(always)]
fn is_near(answer: Result<bool, Refusal>) -> u32 {
    answer.map_or_else(|number| number, |near| if near { proved::NEAR } else { proved::NOT_NEAR })
}

#[inline(always)]
fn done(answer: Result<(), Refusal>) -> u32 {
    answer.map_or_else(|number| number, |()| proved::DONE)
}

#[inline(never)]
pub fn plain_read(q: u32, m: u32, message: &mut [u8], word: &[u8]) -> u64 {
    reading(plain::read(q, m, message, word))
}

#[inline(never)]
pub fn safe_read(q: u32, m: u32, message: &mut [u8], word: &[u8]) -> u64 {
    reading(safe::read(q, m, message, word))
}

#[inline(never)]
pub fn safe_read_each(q: u32, m: u32, message: &mut [u8], word: &[u8]) -> u64 {
    reading(safe::read_each(q, m, message, word))
}

#[inline(never)]
pub fn plain_write(q: u32, m: u32, message: &[u8], word: &mut [u8]) -> u64 {
    written(plain::write(q, m, message, word))
}

#[inline(never)]
pub fn safe_write(q: u32, m: u32, message: &[u8], word: &mut [u8]) -> u64 {
    written(safe::write(q, m, message, word))
}

#[inline(never)]
pub fn safe_write_each(q: u32, m: u32, message: &[u8], word: &mut [u8]) -> u64 {
    written(safe::write_each(q, m, message, word))
}

#[inline(never)]
pub fn plain_near(q: u32, m: u32, message: &[u8], word: &[u8]) -> u32 {
    is_near(plain::near(q, m, message, word))
}

#[inline(never)]
pub fn near_by_places(q: u32, m: u32, message: &[u8], word: &[u8]) -> u32 {
    is_near(near::by_places(q, m, message, word))
}

#[inline(never)]
pub fn near_by_quarters(q: u32, m: u32, message: &[u8], word: &[u8]) -> u32 {
    near::by_quarters(q, m, message, word)
}

#[inline(never)]
pub fn plain_interleave(q: u32, m: u32, count: u32, source: &[u8], target: &mut [u8]) -> u32 {
    done(plain::rearrange::<false>(q, m, count, source, target))
}

#[inline(never)]
pub fn plain_deinterleave(q: u32, m: u32, count: u32, source: &[u8], target: &mut [u8]) -> u32 {
    done(plain::rearrange::<true>(q, m, count, source, target))
}

#[inline(never)]
pub fn safe_interleave(q: u32, m: u32, count: u32, source: &[u8], target: &mut [u8]) -> u32 {
    interleave::rearrange::<false>(q, m, count, source, target)
}

#[inline(never)]
pub fn safe_deinterleave(q: u32, m: u32, count: u32, source: &[u8], target: &mut [u8]) -> u32 {
    interleave::rearrange::<true>(q, m, count, source, target)
}

/// Leaves both sums in the slice of two.
#[inline(never)]
pub fn soft_vote(m: u32, k: u32, re: &[f32], im: &[f32], sums: &mut [f32]) -> u32 {
    match soft::vote(m, k, re, im) {
        Err(number) => number,
        Ok(vote) => {
            if let [real, imaginary] = sums {
                (*real, *imaginary) = (vote.sums.re, vote.sums.im);
            }
            proved::voted(vote.symbol)
        }
    }
}

#[inline(never)]
pub fn soft_read(m: u32, message: &mut [u8], re: &[f32], im: &[f32]) -> u32 {
    done(soft::read(m, message, re, im))
}
