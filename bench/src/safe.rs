//! The best safe Rust reader and writer: pairs by blocks, no division, the codeword by doubling, the distance from the
//! tally. A tally is eight counters of eight bits in one u64. Reader and writer (b), the best, have constant lengths,
//! which const generics write: a reader for each of the 21 codes, a writer for each of the seven lengths. (c) are the
//! same with one body for all codes, q and m being arguments.

use common::questions::{answer_code, is_alphabet, is_message_size, is_word_size, yes, Refusal};

use crate::Reading;

/// One vote for the symbol.
static UNIT: [u64; 8] = [1, 1 << 8, 1 << 16, 1 << 24, 1 << 32, 1 << 40, 1 << 48, 1 << 56];

/// The first symbol with the most votes, its votes, and the most votes of any other.
#[derive(Clone, Copy)]
struct Winner {
    symbol: u8,
    votes: u32,
    next: u32,
}

/// Questions 6 and 8, without a branch at each symbol: q is a power of two.
#[inline(always)]
pub fn all_below(q: u32, symbols: &[u8]) -> bool {
    symbols.iter().fold(0, |all, &symbol| all | symbol) < q as u8
}

/// The votes y - x modulo q.
#[inline(always)]
fn tally(q: usize, x: &[u8], y: &[u8]) -> u64 {
    let unit = |x: u8, y: u8| UNIT[usize::from(y.wrapping_sub(x)) & (q - 1) & 7];
    x.iter().zip(y).fold(0, |tally, (&x, &y)| tally + unit(x, y))
}

/// The winner of two tallies together.
#[inline(always)]
fn winner(q: usize, low: u64, high: u64) -> Winner {
    let mut first = Winner { symbol: 0, votes: 0, next: 0 };
    for symbol in 0..q as u8 {
        let shift = 8 * u32::from(symbol);
        let votes = ((low >> shift) & 255) as u32 + ((high >> shift) & 255) as u32;
        first.next = first.next.max(votes.min(first.votes));
        first.symbol = if votes > first.votes { symbol } else { first.symbol };
        first.votes = first.votes.max(votes);
    }
    first
}

/// The winner for the coefficient whose pairs are `step` apart.
#[inline(always)]
fn coefficient(q: usize, step: usize, word: &[u8]) -> Winner {
    let mut votes = 0;
    for block in word.chunks_exact(2 * step) {
        let (x, y) = block.split_at(step);
        votes += tally(q, x, y);
    }
    winner(q, votes, 0)
}

/// Doubles the codeword: what stands below `length` again, plus the coefficient, under the mask.
#[inline(always)]
pub fn double(length: usize, coefficient: u8, mask: u8, code: &mut [u8]) {
    let (low, high) = code.split_at_mut(length);
    for (high, low) in high.iter_mut().zip(low) {
        *high = low.wrapping_add(coefficient) & mask;
    }
}

/// Finds the winners of a word's votes; `code` is where their word is written.
#[inline(always)]
fn read_into(
    q: usize,
    found: &mut [u8],
    code: &mut [u8],
    word: &[u8],
    coefficient: impl Fn(usize) -> Winner,
) -> Result<Reading, Refusal> {
    let mut margin = u32::MAX;
    for k in 0..found.len() - 1 {
        let first = coefficient(k);
        found[k + 1] = first.symbol;
        margin = margin.min(first.votes - first.next);
        double(1 << k, first.symbol, u8::MAX, code);
    }
    let (low, high) = code.split_at(word.len() / 2);
    let (front, back) = word.split_at(word.len() / 2);
    let constant = winner(q, tally(q, low, front), tally(q, high, back));
    found[0] = constant.symbol;
    let wrong = word.len() as u32 - constant.votes;
    yes(4 * wrong < word.len() as u32, 9)?;
    Ok(Reading { wrong, margin: margin.min(constant.votes - constant.next) })
}

/// Reader (c): reads a word, or gives the number of the first question answered no: 1, 2, 5, 7, 8, 9.
#[inline(always)]
pub fn read(q: u32, m: u32, message: &mut [u8], word: &[u8]) -> Result<Reading, Refusal> {
    answer_code(q, m)?;
    yes(is_message_size(m, message.len()), 5)?;
    yes(is_word_size(m, word.len()), 7)?;
    yes(all_below(q, word), 8)?;
    let (mut found, mut code) = ([0; 9], [0; 256]);
    let (found, code) = (&mut found[..message.len()], &mut code[..word.len()]);
    let reading = read_into(q as usize, found, code, word, |k| coefficient(q as usize, 1 << k, word))?;
    message.copy_from_slice(found);
    Ok(reading)
}

/// The winner for coefficient k. In the smallest codes the compiler unrolls the loop over k; elsewhere each k has a
/// body of its own, with a constant step.
#[inline(always)]
fn coefficient_at<const Q: usize, const N: usize>(k: usize, word: &[u8; N]) -> Winner {
    if Q < 8 && Q * N <= 64 {
        return coefficient(Q, 1 << k, word);
    }
    match k {
        0 => coefficient(Q, 1, word),
        1 => coefficient(Q, 2, word),
        2 => coefficient(Q, 4, word),
        3 => coefficient(Q, 8, word),
        4 => coefficient(Q, 16, word),
        5 => coefficient(Q, 32, word),
        6 => coefficient(Q, 64, word),
        _ => coefficient(Q, 128, word),
    }
}

/// Reads a word of N symbols as a message of S.
#[inline(always)]
fn read_sized<const Q: usize, const N: usize, const S: usize>(
    message: &mut [u8],
    word: &[u8],
) -> Result<Reading, Refusal> {
    let message: &mut [u8; S] = message.try_into().map_err(|_| 5u32)?;
    let word: &[u8; N] = word.try_into().map_err(|_| 7u32)?;
    yes(all_below(Q as u32, word), 8)?;
    let mut found = [0; S];
    let reading = read_into(Q, &mut found, &mut [0; N], word, |k| coefficient_at::<Q, N>(k, word))?;
    *message = found;
    Ok(reading)
}

#[inline(always)]
fn read_q<const Q: usize>(m: u32, message: &mut [u8], word: &[u8]) -> Result<Reading, Refusal> {
    match m {
        2 => read_sized::<Q, 4, 3>(message, word),
        3 => read_sized::<Q, 8, 4>(message, word),
        4 => read_sized::<Q, 16, 5>(message, word),
        5 => read_sized::<Q, 32, 6>(message, word),
        6 => read_sized::<Q, 64, 7>(message, word),
        7 => read_sized::<Q, 128, 8>(message, word),
        8 => read_sized::<Q, 256, 9>(message, word),
        _ => Err(2),
    }
}

/// Reader (b): as (c), with a body for each code.
#[inline(always)]
pub fn read_each(q: u32, m: u32, message: &mut [u8], word: &[u8]) -> Result<Reading, Refusal> {
    match q {
        2 => read_q::<2>(m, message, word),
        4 => read_q::<4>(m, message, word),
        8 => read_q::<8>(m, message, word),
        _ => Err(1),
    }
}

/// Writer (c): writes the word of a message, or gives the number of the first question answered no: 1, 2, 5, 6, 7.
#[inline(always)]
pub fn write(q: u32, m: u32, message: &[u8], word: &mut [u8]) -> Result<(), Refusal> {
    answer_code(q, m)?;
    yes(is_message_size(m, message.len()), 5)?;
    yes(all_below(q, message), 6)?;
    yes(is_word_size(m, word.len()), 7)?;
    word[0] = message[0];
    for (k, &a) in message[1..].iter().enumerate() {
        double(1 << k, a, q as u8 - 1, word);
    }
    Ok(())
}

/// Writes the word of N symbols for a message of S.
#[inline(always)]
fn write_sized<const N: usize, const S: usize>(q: u32, message: &[u8], word: &mut [u8]) -> Result<(), Refusal> {
    let message: &[u8; S] = message.try_into().map_err(|_| 5u32)?;
    yes(all_below(q, message), 6)?;
    let word: &mut [u8; N] = word.try_into().map_err(|_| 7u32)?;
    let mask = q as u8 - 1;
    let mut code = [message[0]; N];
    // The shorter words are written faster with a mask at each doubling, the longer ones with one at the end.
    let each = if N < 64 { mask } else { u8::MAX };
    for k in 0..S - 1 {
        double(1 << k, message[k + 1], each, &mut code);
    }
    *word = if N < 64 { code } else { code.map(|symbol| symbol & mask) };
    Ok(())
}

/// Writer (b): as (c), with a body for each length.
#[inline(always)]
pub fn write_each(q: u32, m: u32, message: &[u8], word: &mut [u8]) -> Result<(), Refusal> {
    yes(is_alphabet(q), 1)?;
    match m {
        2 => write_sized::<4, 3>(q, message, word),
        3 => write_sized::<8, 4>(q, message, word),
        4 => write_sized::<16, 5>(q, message, word),
        5 => write_sized::<32, 6>(q, message, word),
        6 => write_sized::<64, 7>(q, message, word),
        7 => write_sized::<128, 8>(q, message, word),
        8 => write_sized::<256, 9>(q, message, word),
        _ => Err(2),
    }
}
